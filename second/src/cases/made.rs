//! Every maker of calls, broken tables or pairs of files by its name, so that
//! what one of them makes can be looked at apart from the others.

use crate::cases::breaks::{self, Break};
use crate::cases::cue_sheet::ninety_nine;
use crate::cases::draft;
use crate::cases::packets::Packet;
use crate::cases::pairs::{self, Pair};
use crate::cases::sheet::{disc_e, two_sessions, Sheet};
use crate::cases::shelf_files::stored_shelf;
use crate::cases::stream::Stream;
use crate::cases::{
    cue_files, mmc_sheets, mode_five, picked, picked_audio, picked_cancel, picked_changer,
    picked_changer_state, picked_changer_status, picked_codes, picked_cue, picked_cue_entries,
    picked_event, picked_fields, picked_mode, picked_power, picked_registers,
    picked_registers_lists, picked_registers_refused, picked_shelf, picked_state, picked_tables,
    picked_twins, random, several, shelf_files,
};
use crate::cue;
use crate::examples;
use crate::files::File;
use crate::rng::Rng;
use crate::stored::SEED;

/// Calls drawn by `random::fill`, and scenes of one kind.
const DRAWN_CALLS: usize = 6_000;
const DRAWN_SCENES: usize = 60;

/// Pairs of files: two turns of the ten shapes.
const PAIRS: u64 = 20;

/// Files of cue sheets: three turns of the twenty shapes.
const SHEETS: u64 = 60;

/// Files of tables one after the other: two turns of the twenty shapes.
const SHELVES: u64 = 40;

enum Maker {
    /// Calls, from the very start of a run.
    Start(fn(&mut Stream)),
    /// Calls, with a memory and Table E lent before.
    Calls(fn(&mut Stream)),
    /// Broken tables, met as `picked_tables::broken` lets them be met.
    Tables(fn(&mut Vec<Break>)),
    /// Packets for the listing program, with the sheet of their table.
    Packets(fn() -> Sheet, fn() -> Vec<Packet>),
    Pairs(fn() -> Vec<Pair>),
    /// Cue sheets for the program that turns a file into a table (K12).
    Sheets(fn() -> Vec<Vec<u8>>),
    /// Tables one after the other for the program that counts a shelf (K13).
    Shelves(fn() -> Vec<Vec<u8>>),
}

use Maker::{Calls, Packets, Pairs, Sheets, Shelves, Start, Tables};

/// A maker under the name of its file and function.
macro_rules! named {
    ($file:ident::$function:ident, $maker:expr) => {
        (
            concat!(stringify!($file), ".rs#", stringify!($function)),
            $maker,
        )
    };
    ($kind:ident, $file:ident::$function:ident) => {
        named!($file::$function, $kind($file::$function))
    };
}

const MAKERS: [(&str, Maker); 270] = [
    named!(Start, picked_state::from_nothing),
    named!(Calls, picked_state::attentions),
    named!(Calls, picked_state::senses),
    named!(Calls, picked_state::refusal_order),
    named!(Calls, picked_state::packet_lengths),
    named!(Calls, picked_state::memories),
    named!(Calls, picked_state::longest_answer),
    named!(Calls, picked_state::tray_traces),
    named!(Calls, picked_power::every_state),
    named!(Calls, picked_power::told_in_turn),
    named!(Calls, picked_power::not_loaded),
    named!(Calls, picked_power::one_after_another),
    named!(Calls, picked_power::nothing_lent),
    named!(Calls, picked::conversions),
    named!(Calls, picked_fields::codes),
    named!(Calls, picked_codes::every_row),
    named!(Calls, picked_codes::every_row_told),
    named!(Calls, picked_fields::bits),
    named!(Calls, picked_fields::lengths),
    named!(Calls, picked_fields::toc_numbers),
    named!(Calls, picked_fields::toc_formats),
    named!(Calls, picked_fields::reads),
    named!(Calls, picked_fields::long_reads),
    named!(Calls, picked_tables::broken),
    named!(Calls, picked_tables::rules_in_turn),
    named!(Calls, picked_tables::other_numbers),
    named!(Calls, picked_tables::fit),
    named!(Calls, picked_tables::parts),
    named!(Calls, picked_tables::t134),
    named!(Calls, picked_audio::marked_audio),
    named!(Calls, picked_audio::plays),
    named!(Calls, picked_audio::long_plays),
    named!(Calls, picked_audio::play_again),
    named!(Calls, picked_audio::pauses),
    named!(Calls, picked_audio::positions),
    named!(Calls, picked_audio::other_tables),
    named!(Calls, picked_audio::sub_lengths),
    named!(Calls, picked_audio::sub_formats),
    named!(Calls, picked_audio::told_once),
    named!(Calls, picked_audio::moves),
    named!(Calls, picked_audio::stops),
    named!(Calls, picked_audio::resets),
    named!(Calls, picked_audio::tray_while_playing),
    named!(Calls, picked_audio::tray_without_disc),
    named!(Calls, picked_audio::audio_told_first),
    named!(Calls, picked_audio::every_status),
    named!(Calls, picked_audio::every_end),
    named!(Calls, picked_audio::record_in_order),
    named!(Calls, picked_audio::audio_bits),
    named!(Calls, picked_mode::marked_mode),
    named!(Calls, picked_mode::pages),
    named!(Calls, picked_mode::page_lengths),
    named!(Calls, picked_mode::settings_sensed),
    named!(Calls, picked_mode::every_recovery),
    named!(Calls, picked_mode::every_recovery_held),
    named!(Calls, picked_mode::recovery_in_order),
    named!(Calls, picked_mode::list_lengths),
    named!(Calls, picked_mode::header_bits),
    named!(Calls, picked_mode::page_bytes),
    named!(Calls, picked_mode::mode_bits),
    named!(Calls, picked_mode::mode_told_first),
    named!(Calls, picked_mode::mode_unfit),
    named!(Calls, picked_mode::mode_senses),
    named!(Calls, picked_mode::page_kept),
    named!(Calls, picked_mode::page_restored),
    named!(Calls, picked_mode::list_unused),
    named!(Calls, picked_mode::mode_while_playing),
    named!(Calls, picked_event::marked_event),
    named!(Calls, picked_event::every_class),
    named!(Calls, picked_event::event_lengths),
    named!(Calls, picked_event::event_bits),
    named!(Calls, picked_event::not_polled),
    named!(Calls, picked_event::events_placed),
    named!(Calls, picked_event::every_event_held),
    named!(Calls, picked_event::event_in_order),
    named!(Calls, picked_event::event_while_pending),
    named!(Calls, picked_event::event_senses),
    named!(Calls, picked_event::event_unfit),
    named!(Calls, picked_event::presses_under_lock),
    named!(Calls, picked_event::eject_under_lock),
    named!(Calls, picked_event::tray_events),
    named!(Calls, picked_event::latest_event),
    named!(Calls, picked_event::event_power_on),
    named!(Calls, picked_event::event_kept),
    named!(Calls, picked_cancel::laid_and_lifted),
    named!(Calls, picked_cancel::lifted_and_laid),
    named!(Calls, picked_cancel::one_refused),
    named!(Calls, picked_cancel::both_refused),
    named!(Calls, picked_cancel::packet_and_power_on),
    named!(Calls, picked_cancel::told_and_power_on),
    named!(Calls, picked_cancel::refused_and_power_on),
    named!(Calls, picked_cancel::tray_and_power_on),
    named!(Calls, picked_cancel::two_power_ons),
    named!(Calls, picked_cancel::button_twice),
    named!(Calls, picked_cancel::prevent_and_allow),
    named!(Calls, picked_cancel::play_and_read),
    named!(Calls, picked_cancel::pause_and_resume),
    named!(Calls, picked_twins::each_way),
    named!(Calls, picked_twins::lists_alike),
    named!(Calls, picked_twins::blocks_alike),
    named!(Calls, picked_twins::positions_alike),
    named!(Calls, picked_twins::commands_alike),
    named!(Calls, picked_twins::pending_alike),
    named!(Calls, picked_twins::refused_alike),
    named!(Calls, picked_twins::histories_alike),
    named!(Calls, picked_twins::not_loaded_alike),
    named!(Calls, picked_twins::format_2_apart),
    named!(Calls, picked_twins::two_sessions_apart),
    named!(Calls, picked_twins::told_by_the_list),
    named!(Calls, picked_twins::number_too_high),
    named!(Calls, picked_twins::list_cut),
    named!(Calls, picked_twins::unequal_apart),
    named!(Calls, picked_twins::parts_apart),
    named!(Calls, picked_cue::sheets_written),
    named!(Calls, picked_cue::sheet_lengths),
    named!(Calls, picked_cue::output_memories),
    named!(Calls, picked_cue::refusals_in_order),
    named!(Calls, picked_cue::memory_kept),
    named!(Calls, picked_cue::long_sheets),
    named!(Calls, picked_cue::nothing_else_moved),
    named!(Calls, picked_cue::written_and_lent),
    named!(Calls, picked_cue_entries::controls),
    named!(Calls, picked_cue_entries::adrs),
    named!(Calls, picked_cue_entries::forms_and_scms),
    named!(Calls, picked_cue_entries::lead_ins),
    named!(Calls, picked_cue_entries::lead_in_anything),
    named!(Calls, picked_cue_entries::lead_outs),
    named!(Calls, picked_cue_entries::passed_over),
    named!(Calls, picked_cue_entries::second_lead_ins),
    named!(Calls, picked_cue_entries::no_tracks_between),
    named!(Calls, picked_cue_entries::track_orders),
    named!(Calls, picked_cue_entries::track_numbers),
    named!(Calls, picked_cue_entries::without_track),
    named!(Calls, picked_cue_entries::track_addresses),
    named!(Calls, picked_cue_entries::lead_out_addresses),
    named!(Calls, picked_cue_entries::starts_rise),
    named!(Calls, picked_cue_entries::lead_out_behind),
    named!(Calls, mmc_sheets::mmc_samples),
    named!(Calls, picked_shelf::shelf_ends),
    named!(Calls, picked_shelf::cut_off_anywhere),
    named!(Calls, picked_shelf::data_lengths),
    named!(Calls, picked_shelf::over_the_bound),
    named!(Calls, picked_shelf::longest_table),
    named!(Calls, picked_shelf::unfit_by_rule),
    named!(Calls, picked_shelf::every_kind),
    named!(Calls, picked_shelf::two_streams),
    named!(Calls, picked_shelf::totals_at_the_top),
    named!(Calls, picked_shelf::many_past_the_top),
    named!(Calls, picked_shelf::too_large_in_the_middle),
    named!(Calls, picked_shelf::totals_in_order),
    named!(Calls, picked_shelf::shelf_moves_nothing),
    named!(Calls, picked_changer::marked_changer),
    named!(Calls, picked_changer::every_pair),
    named!(Calls, picked_changer::every_slot),
    named!(Calls, picked_changer::last_slots),
    named!(Calls, picked_changer::changed_marks),
    named!(Calls, picked_changer::moves_in_turn),
    named!(Calls, picked_changer::unloads),
    named!(Calls, picked_changer::locked_moves),
    named!(Calls, picked_changer::moves_while_pending),
    named!(Calls, picked_changer::moves_and_senses),
    named!(Calls, picked_changer::move_events),
    named!(Calls, picked_changer::move_records),
    named!(Calls, picked_changer::played_and_moved),
    named!(Calls, picked_changer::tables_in_turn),
    named!(Calls, picked_changer::move_bits),
    named!(Calls, picked_changer::all_in_turn),
    named!(Calls, picked_changer_status::status_lengths),
    named!(Calls, picked_changer_status::status_counts),
    named!(Calls, picked_changer_status::status_homes),
    named!(Calls, picked_changer_status::status_slots),
    named!(Calls, picked_changer_status::status_moves_nothing),
    named!(Calls, picked_changer_status::status_told_first),
    named!(Calls, picked_changer_status::status_bits),
    named!(Calls, picked_changer_state::nothing_lent),
    named!(Calls, picked_changer_state::slot_counts),
    named!(Calls, picked_changer_state::every_home),
    named!(Calls, picked_changer_state::occupied_homes),
    named!(Calls, picked_changer_state::open_trays),
    named!(Calls, picked_changer_state::causes_together),
    named!(Calls, picked_changer_state::tests_in_order),
    named!(Calls, picked_changer_state::eleven_in_place),
    named!(Calls, picked_changer_state::tables_looked_at),
    named!(Calls, picked_changer_state::devices_alike),
    named!(Calls, picked_changer_state::every_code),
    named!(Calls, picked_changer_state::no_tray_calls),
    named!(Calls, picked_changer_state::changer_power_ons),
    named!(Calls, picked_changer_state::power_ons_in_turn),
    named!(Calls, picked_changer_state::outside_calls),
    named!(Calls, picked_changer_state::unknown_on_the_first),
    named!(Calls, picked_changer_state::devices_in_turn),
    named!(Calls, picked_registers::marked_registers),
    named!(Calls, picked_registers::board_example),
    named!(Calls, picked_registers::every_limit),
    named!(Calls, picked_registers::limits_at_the_ends),
    named!(Calls, picked_registers::short_answers),
    named!(Calls, picked_registers::answer_lengths),
    named!(Calls, picked_registers::longest_answers),
    named!(Calls, picked_registers::every_packet),
    named!(Calls, picked_registers::no_answers),
    named!(Calls, picked_registers::count_left_behind),
    named!(Calls, picked_registers::count_by_halves),
    named!(Calls, picked_registers::held_registers),
    named!(Calls, picked_registers::reads_name_blocks),
    named!(Calls, picked_registers::status_kept),
    named!(Calls, picked_registers::performed_at_the_last_byte),
    named!(Calls, picked_registers::calls_between_runs),
    named!(Calls, picked_registers::memory_between_runs),
    named!(Calls, picked_registers_lists::lists_by_limit),
    named!(Calls, picked_registers_lists::lists_in_every_case),
    named!(Calls, picked_registers_lists::lists_in_runs),
    named!(Calls, picked_registers_lists::wrong_lists),
    named!(Calls, picked_registers_lists::lists_while_pending),
    named!(Calls, picked_registers_lists::lists_refused),
    named!(Calls, picked_registers_lists::no_lists),
    named!(Calls, picked_registers_lists::list_out_of_turn),
    named!(Calls, picked_registers_lists::lists_cut_off),
    named!(Calls, picked_registers_lists::every_list_byte),
    named!(Calls, picked_registers_lists::lists_between_packets),
    named!(Start, picked_registers_refused::at_the_start),
    named!(Calls, picked_registers_refused::reads_out_of_turn),
    named!(Calls, picked_registers_refused::writes_out_of_turn),
    named!(Calls, picked_registers_refused::other_commands),
    named!(Calls, picked_registers_refused::every_command),
    named!(Calls, picked_registers_refused::target_refusals),
    named!(Calls, picked_registers_refused::every_rule),
    named!(Calls, picked_registers_refused::memory_made_shorter),
    named!(Calls, picked_registers_refused::resets),
    named!(Calls, picked_registers_refused::resets_of_states),
    named!(Calls, picked_registers_refused::packets_cut_off),
    named!(Calls, picked_registers_refused::record_kept),
    named!(random::fill, Calls(drawn)),
    named!(
        random::trace_scene,
        Calls(|stream| scenes(stream, random::trace_scene))
    ),
    named!(
        random::power_on_scene,
        Calls(|stream| scenes(stream, random::power_on_scene))
    ),
    named!(
        random::audio_scene,
        Calls(|stream| scenes(stream, random::audio_scene))
    ),
    named!(
        random::mode_scene,
        Calls(|stream| scenes(stream, random::mode_scene))
    ),
    named!(
        random::event_scene,
        Calls(|stream| scenes(stream, random::event_scene))
    ),
    named!(
        random::cancel_scene,
        Calls(|stream| scenes(stream, random::cancel_scene))
    ),
    named!(
        random::twin_scene,
        Calls(|stream| scenes(stream, random::twin_scene))
    ),
    named!(
        random::sheet_scene,
        Calls(|stream| scenes(stream, random::sheet_scene))
    ),
    named!(
        random::shelf_scene,
        Calls(|stream| scenes(stream, random::shelf_scene))
    ),
    named!(
        random::changer_scene,
        Calls(|stream| scenes(stream, random::changer_scene))
    ),
    named!(
        random::register_scene,
        Calls(|stream| scenes(stream, random::register_scene))
    ),
    named!(
        random::broken_scene,
        Calls(|stream| scenes(stream, random::broken_scene))
    ),
    named!(Tables, breaks::rule_1),
    named!(Tables, breaks::rule_2),
    named!(Tables, breaks::rule_3),
    named!(Tables, breaks::rule_4),
    named!(Tables, breaks::rule_5),
    named!(Tables, breaks::rule_6),
    named!(Tables, breaks::rule_7),
    named!(Tables, mode_five::rule_3),
    named!(Tables, mode_five::rule_4),
    named!(Tables, mode_five::rules_5_to_7),
    named!(Tables, several::two_rules),
    named!(Tables, several::three_rules),
    named!(pairs::pair, Pairs(twenty)),
    named!(pairs::stored_pair, Pairs(|| vec![pairs::stored_pair(SEED)])),
    named!(Pairs, pairs::each_rule),
    named!(examples::four, Packets(disc_e, examples::four)),
    named!(examples::marked, Packets(disc_e, examples::marked)),
    named!(
        examples::sessions,
        Packets(two_sessions, examples::sessions)
    ),
    named!(examples::t134, Packets(draft::t134, examples::t134)),
    named!(examples::tracks, Pairs(sample_pairs)),
    named!(Sheets, mmc_sheets::sample_files),
    named!(
        cue_sheet::ninety_nine,
        Sheets(|| vec![ninety_nine().bytes()])
    ),
    named!(cue_files::file, Sheets(sixty)),
    named!(examples::shelf, Shelves(|| vec![examples::shelf()])),
    named!(shelf_files::stored_shelf, Shelves(|| vec![stored_shelf()])),
    named!(shelf_files::file, Shelves(forty)),
];

fn drawn(stream: &mut Stream) {
    random::fill(stream, &mut Rng::new(SEED), DRAWN_CALLS);
}

fn scenes(stream: &mut Stream, scene: fn(&mut Stream, &mut Rng)) {
    let mut rng = Rng::new(SEED);
    for _ in 0..DRAWN_SCENES {
        scene(stream, &mut rng);
    }
}

fn twenty() -> Vec<Pair> {
    (0..PAIRS).map(|number| pairs::pair(SEED, number)).collect()
}

pub fn names() -> impl Iterator<Item = &'static str> {
    MAKERS.iter().map(|(name, _)| *name)
}

/// The tables of 000's samples, with the packets that ask for them.
fn sample_pairs() -> Vec<Pair> {
    let sheets = mmc_sheets::sample_files().into_iter();
    let tables = sheets.filter_map(|sheet| cue::table_of(&sheet).ok());
    let pair = |table| Pair {
        table,
        packets: examples::tracks().concat(),
    };
    tables.map(pair).collect()
}

fn sixty() -> Vec<Vec<u8>> {
    (0..SHEETS)
        .map(|number| cue_files::file(SEED, number))
        .collect()
}

fn forty() -> Vec<Vec<u8>> {
    (0..SHELVES)
        .map(|number| shelf_files::file(SEED, number))
        .collect()
}

/// What the maker of this name makes: `stream`, or `NNNN.table` and
/// `NNNN.packets` for each pair, or `NNNN.cue` for each sheet, or `NNNN.tables` for each
/// shelf.
pub fn made(name: &str) -> Option<Vec<File>> {
    let (_, maker) = MAKERS.iter().find(|(one, _)| *one == name)?;
    Some(match *maker {
        Start(calls) => stream_of(Stream::new(), calls),
        Calls(calls) => stream_of(on_a_bench(), calls),
        Tables(tables) => {
            let mut list = Vec::new();
            tables(&mut list);
            stream_of(on_a_bench(), |stream| picked_tables::meet(stream, &list))
        }
        Packets(sheet, packets) => files_of(vec![Pair {
            table: sheet().bytes(),
            packets: packets().concat(),
        }]),
        Pairs(pairs) => files_of(pairs()),
        Sheets(sheets) => numbered(sheets(), "cue"),
        Shelves(shelves) => numbered(shelves(), "tables"),
    })
}

/// Files under their numbers.
fn numbered(files: Vec<Vec<u8>>, end: &str) -> Vec<File> {
    let files = (0..).zip(files);
    files
        .map(|(i, bytes)| (format!("{i:04}.{end}"), bytes))
        .collect()
}

/// Some makers take over memory and table from the one before them.
fn on_a_bench() -> Stream {
    let mut stream = Stream::new();
    stream.memory(picked_state::MEMORY, 0x5A);
    stream.table(&disc_e().bytes());
    stream
}

fn stream_of(mut stream: Stream, calls: impl FnOnce(&mut Stream)) -> Vec<File> {
    calls(&mut stream);
    vec![("stream".into(), stream.bytes)]
}

fn files_of(pairs: Vec<Pair>) -> Vec<File> {
    let mut files = Vec::new();
    for (i, pair) in pairs.into_iter().enumerate() {
        files.push((format!("{i:04}.table"), pair.table));
        files.push((format!("{i:04}.packets"), pair.packets));
    }
    files
}
