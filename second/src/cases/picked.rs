//! The lists picked by hand, one after the other.

use crate::cases::stream::Stream;
use crate::cases::{
    mmc_sheets, picked_audio, picked_cancel, picked_changer, picked_changer_state,
    picked_changer_status, picked_codes, picked_cue, picked_cue_entries, picked_event,
    picked_fields, picked_mode, picked_power, picked_registers, picked_registers_lists,
    picked_registers_refused, picked_shelf, picked_state, picked_tables, picked_twins,
};

/// The hand-picked cases that are stored, from the very start of a run.
pub fn all(stream: &mut Stream) {
    picked_registers_refused::at_the_start(stream);
    picked_state::from_nothing(stream);
    conversions(stream);
    picked_state::attentions(stream);
    picked_state::senses(stream);
    picked_state::refusal_order(stream);
    picked_state::packet_lengths(stream);
    picked_state::memories(stream);
    picked_state::longest_answer(stream);
    picked_state::tray_traces(stream);
    picked_power::every_state(stream);
    picked_power::told_in_turn(stream);
    picked_power::not_loaded(stream);
    picked_power::one_after_another(stream);
    picked_power::nothing_lent(stream);
    picked_fields::codes(stream);
    picked_codes::every_row(stream);
    picked_codes::every_row_told(stream);
    picked_fields::bits(stream);
    picked_fields::lengths(stream);
    picked_fields::toc_numbers(stream);
    picked_fields::toc_formats(stream);
    picked_fields::reads(stream);
    picked_fields::long_reads(stream);
    picked_tables::broken(stream);
    picked_tables::rules_in_turn(stream);
    picked_tables::other_numbers(stream);
    picked_tables::fit(stream);
    picked_tables::parts(stream);
    picked_tables::t134(stream);
    picked_audio::marked_audio(stream);
    picked_audio::plays(stream);
    picked_audio::long_plays(stream);
    picked_audio::play_again(stream);
    picked_audio::pauses(stream);
    picked_audio::positions(stream);
    picked_audio::other_tables(stream);
    picked_audio::sub_lengths(stream);
    picked_audio::sub_formats(stream);
    picked_audio::told_once(stream);
    picked_audio::moves(stream);
    picked_audio::stops(stream);
    picked_audio::resets(stream);
    picked_audio::tray_while_playing(stream);
    picked_audio::tray_without_disc(stream);
    picked_audio::audio_told_first(stream);
    picked_audio::every_status(stream);
    picked_audio::every_end(stream);
    picked_audio::record_in_order(stream);
    picked_audio::audio_bits(stream);
    picked_mode::marked_mode(stream);
    picked_mode::pages(stream);
    picked_mode::page_lengths(stream);
    picked_mode::settings_sensed(stream);
    picked_mode::every_recovery(stream);
    picked_mode::every_recovery_held(stream);
    picked_mode::recovery_in_order(stream);
    picked_mode::list_lengths(stream);
    picked_mode::header_bits(stream);
    picked_mode::page_bytes(stream);
    picked_mode::mode_bits(stream);
    picked_mode::mode_told_first(stream);
    picked_mode::mode_unfit(stream);
    picked_mode::mode_senses(stream);
    picked_mode::page_kept(stream);
    picked_mode::page_restored(stream);
    picked_mode::list_unused(stream);
    picked_mode::mode_while_playing(stream);
    picked_event::marked_event(stream);
    picked_event::every_class(stream);
    picked_event::event_lengths(stream);
    picked_event::event_bits(stream);
    picked_event::not_polled(stream);
    picked_event::events_placed(stream);
    picked_event::every_event_held(stream);
    picked_event::event_in_order(stream);
    picked_event::event_while_pending(stream);
    picked_event::event_senses(stream);
    picked_event::event_unfit(stream);
    picked_event::presses_under_lock(stream);
    picked_event::eject_under_lock(stream);
    picked_event::tray_events(stream);
    picked_event::latest_event(stream);
    picked_event::event_power_on(stream);
    picked_event::event_kept(stream);
    picked_cancel::laid_and_lifted(stream);
    picked_cancel::lifted_and_laid(stream);
    picked_cancel::one_refused(stream);
    picked_cancel::both_refused(stream);
    picked_cancel::packet_and_power_on(stream);
    picked_cancel::told_and_power_on(stream);
    picked_cancel::refused_and_power_on(stream);
    picked_cancel::tray_and_power_on(stream);
    picked_cancel::two_power_ons(stream);
    picked_cancel::button_twice(stream);
    picked_cancel::prevent_and_allow(stream);
    picked_cancel::play_and_read(stream);
    picked_cancel::pause_and_resume(stream);
    picked_twins::each_way(stream);
    picked_twins::lists_alike(stream);
    picked_twins::blocks_alike(stream);
    picked_twins::positions_alike(stream);
    picked_twins::commands_alike(stream);
    picked_twins::pending_alike(stream);
    picked_twins::refused_alike(stream);
    picked_twins::histories_alike(stream);
    picked_twins::not_loaded_alike(stream);
    picked_twins::format_2_apart(stream);
    picked_twins::two_sessions_apart(stream);
    picked_twins::told_by_the_list(stream);
    picked_twins::number_too_high(stream);
    picked_twins::list_cut(stream);
    picked_twins::unequal_apart(stream);
    picked_twins::parts_apart(stream);
    picked_cue::sheets_written(stream);
    picked_cue::sheet_lengths(stream);
    picked_cue::output_memories(stream);
    picked_cue::refusals_in_order(stream);
    picked_cue::memory_kept(stream);
    picked_cue::long_sheets(stream);
    picked_cue::nothing_else_moved(stream);
    picked_cue::written_and_lent(stream);
    picked_cue_entries::controls(stream);
    picked_cue_entries::adrs(stream);
    picked_cue_entries::forms_and_scms(stream);
    picked_cue_entries::lead_ins(stream);
    picked_cue_entries::lead_in_anything(stream);
    picked_cue_entries::lead_outs(stream);
    picked_cue_entries::passed_over(stream);
    picked_cue_entries::second_lead_ins(stream);
    picked_cue_entries::no_tracks_between(stream);
    picked_cue_entries::track_orders(stream);
    picked_cue_entries::track_numbers(stream);
    picked_cue_entries::without_track(stream);
    picked_cue_entries::track_addresses(stream);
    picked_cue_entries::lead_out_addresses(stream);
    picked_cue_entries::starts_rise(stream);
    picked_cue_entries::lead_out_behind(stream);
    mmc_sheets::mmc_samples(stream);
    picked_shelf::shelf_ends(stream);
    picked_shelf::cut_off_anywhere(stream);
    picked_shelf::data_lengths(stream);
    picked_shelf::over_the_bound(stream);
    picked_shelf::longest_table(stream);
    picked_shelf::unfit_by_rule(stream);
    picked_shelf::every_kind(stream);
    picked_shelf::two_streams(stream);
    picked_shelf::totals_at_the_top(stream);
    picked_shelf::many_past_the_top(stream);
    picked_shelf::too_large_in_the_middle(stream);
    picked_shelf::totals_in_order(stream);
    picked_shelf::shelf_moves_nothing(stream);
    picked_changer::marked_changer(stream);
    picked_changer::every_pair(stream);
    picked_changer::every_slot(stream);
    picked_changer::last_slots(stream);
    picked_changer::changed_marks(stream);
    picked_changer::moves_in_turn(stream);
    picked_changer::unloads(stream);
    picked_changer::locked_moves(stream);
    picked_changer::moves_while_pending(stream);
    picked_changer::moves_and_senses(stream);
    picked_changer::move_events(stream);
    picked_changer::move_records(stream);
    picked_changer::played_and_moved(stream);
    picked_changer::tables_in_turn(stream);
    picked_changer::move_bits(stream);
    picked_changer::all_in_turn(stream);
    picked_changer_status::status_lengths(stream);
    picked_changer_status::status_counts(stream);
    picked_changer_status::status_homes(stream);
    picked_changer_status::status_slots(stream);
    picked_changer_status::status_moves_nothing(stream);
    picked_changer_status::status_told_first(stream);
    picked_changer_status::status_bits(stream);
    picked_changer_state::nothing_lent(stream);
    picked_changer_state::slot_counts(stream);
    picked_changer_state::every_home(stream);
    picked_changer_state::occupied_homes(stream);
    picked_changer_state::open_trays(stream);
    picked_changer_state::causes_together(stream);
    picked_changer_state::tests_in_order(stream);
    picked_changer_state::eleven_in_place(stream);
    picked_changer_state::tables_looked_at(stream);
    picked_changer_state::devices_alike(stream);
    picked_changer_state::every_code(stream);
    picked_changer_state::no_tray_calls(stream);
    picked_changer_state::changer_power_ons(stream);
    picked_changer_state::power_ons_in_turn(stream);
    picked_changer_state::outside_calls(stream);
    picked_changer_state::unknown_on_the_first(stream);
    picked_changer_state::devices_in_turn(stream);
    registers(stream);
}

/// K14's, but for those that are long: a line a byte is much to keep.
fn registers(stream: &mut Stream) {
    picked_registers::marked_registers(stream);
    picked_registers::limits_at_the_ends(stream);
    picked_registers::no_answers(stream);
    picked_registers::count_left_behind(stream);
    picked_registers::count_by_halves(stream);
    picked_registers::held_registers(stream);
    picked_registers::reads_name_blocks(stream);
    picked_registers::status_kept(stream);
    picked_registers::performed_at_the_last_byte(stream);
    picked_registers::calls_between_runs(stream);
    picked_registers::memory_between_runs(stream);
    picked_registers_lists::lists_in_runs(stream);
    picked_registers_lists::lists_while_pending(stream);
    picked_registers_lists::lists_refused(stream);
    picked_registers_lists::no_lists(stream);
    picked_registers_lists::list_out_of_turn(stream);
    picked_registers_refused::reads_out_of_turn(stream);
    picked_registers_refused::writes_out_of_turn(stream);
    picked_registers_refused::other_commands(stream);
    picked_registers_refused::target_refusals(stream);
    picked_registers_refused::memory_made_shorter(stream);
    picked_registers_refused::resets(stream);
    picked_registers_refused::resets_of_states(stream);
    picked_registers_refused::packets_cut_off(stream);
    picked_registers_refused::record_kept(stream);
}

/// Kinds 8 and 9 at all boundaries.
pub fn conversions(stream: &mut Stream) {
    for m in [0, 1, 2, 59, 60, 98, 99, 100, 128, 255] {
        for s in [0, 1, 2, 3, 58, 59, 60, 61, 255] {
            for f in [0, 1, 73, 74, 75, 76, 255] {
                stream.to_address(m, s, f);
            }
        }
    }
    for top in [0u32, 75, 4_350, 4_500, 65_536, 449_850, 1 << 24, 1 << 31] {
        for by in 0..5u32 {
            stream.to_msf(top.wrapping_add(by).wrapping_sub(2));
        }
    }
    // Both sides of each full second and minute near the ends.
    for second in (0..6u32).chain(5_993..6_000) {
        stream.to_msf(second * 75 + 74);
        stream.to_msf(second * 75 + 75);
    }
    for minute in 1..=99u32 {
        stream.to_msf(minute * 4_500 - 151);
        stream.to_msf(minute * 4_500 - 150);
        stream.to_address(minute as u8, 0, 0);
    }
    for shift in 0..32 {
        stream.to_msf(1 << shift);
        stream.to_msf(u32::MAX >> shift);
    }
}
