/* The whole packet in plain C, with one pass over the table for its fitness: what our packet is counted beside. A command that asks for
   tracks or descriptors goes over the table once more, as far as it needs to. */
#include <stddef.h>
#include <stdint.h>
#include <string.h>
#include "fit.h"
#include "row.h"
#include "whole.h"

enum { PACKET = 12, LEAD_IN = 150, TOP = 449849, ENTRY = 8, LIST = 16 };

enum {
    TEST_UNIT_READY = 0x00,
    REQUEST_SENSE = 0x03,
    INQUIRY = 0x12,
    START_STOP = 0x1B,
    PREVENT_ALLOW = 0x1E,
    READ_CAPACITY = 0x25,
    READ_10 = 0x28,
    SEEK = 0x2B,
    READ_SUB_CHANNEL = 0x42,
    READ_TOC = 0x43,
    PLAY = 0x45,
    EVENT_STATUS = 0x4A,
    PAUSE_RESUME = 0x4B,
    MODE_SELECT = 0x55,
    MODE_SENSE = 0x5A,
    READ_12 = 0xA8
};

/* The thirteen sense triples, key, ASC and ASCQ in one number; the first stands for GOOD. */
enum {
    GOOD = 0x000000,
    NO_MEDIUM = 0x023A01,
    TRAY_OPEN = 0x023A02,
    LIST_LENGTH = 0x051A00,
    UNKNOWN_CODE = 0x052000,
    OUT_OF_RANGE = 0x052100,
    BAD_FIELD = 0x052400,
    LIST_FIELD = 0x052600,
    NOT_SAVED = 0x053900,
    PREVENTED = 0x055302,
    WRONG_MODE = 0x056400,
    CHANGED = 0x062800,
    POWERED_ON = 0x062900
};

enum { PLAYING = 0x11, PAUSED = 0x12, COMPLETED = 0x13, NO_PLAY = 0x15 };

enum { AUDIO = 0, DATA = 4 }; /* control bit 2 */

enum { LOADED = 2, OPENED = 3 };                                /* media events made by packets */
enum { EXTERNAL = 3, MEDIA = 4, LEAST = 5, SUPPORTED = 0x18 };  /* classes; the bytes that show the event; the classes' bits */

/* The lent table. The pass hands over the A0 of its last session, behind which stands what commands need of it: the last track, L with its
   ADR/control, and the session's first track. */
struct disc {
    const uint8_t *table;
    size_t size;
    const uint8_t *last;  /* that A0 of a fit table; null where no disc is loaded */
};

static inline unsigned word(const uint8_t *p)
{
    return p[0] << 8 | p[1];
}

static inline uint32_t long_word(const uint8_t *p)
{
    return (uint32_t)p[0] << 24 | p[1] << 16 | p[2] << 8 | p[3];
}

static inline void put_block(uint8_t *m, uint32_t block)
{
    m[0] = block >> 24;
    m[1] = block >> 16;
    m[2] = block >> 8;
    m[3] = block;
}

/* So many frames as 0 M S F. */
static inline void put_time(uint8_t *m, uint32_t frames)
{
    m[0] = 0;
    m[1] = frames / 75 / 60;
    m[2] = frames / 75 % 60;
    m[3] = frames % 75;
}

/* An answer cut to the allocation length; inlined, so that a whole one is laid by a few moves. */
static inline size_t give(uint8_t *m, const uint8_t *answer, size_t size, size_t asked)
{
    if (asked < size)
        memcpy(m, answer, asked);
    else
        memcpy(m, answer, size);
    return asked < size ? asked : size;
}

/* The state */

static inline unsigned held(const struct c_drive *s)
{
    return s->sense[0] << 16 | s->sense[1] << 8 | s->sense[2];
}

static inline void hold(struct c_drive *s, unsigned triple)
{
    s->sense[0] = triple >> 16;
    s->sense[1] = triple >> 8;
    s->sense[2] = triple;
}

static int is_triple(unsigned triple)
{
    switch (triple) {
    case GOOD:
    case NO_MEDIUM:
    case TRAY_OPEN:
    case LIST_LENGTH:
    case UNKNOWN_CODE:
    case OUT_OF_RANGE:
    case BAD_FIELD:
    case LIST_FIELD:
    case NOT_SAVED:
    case PREVENTED:
    case WRONG_MODE:
    case CHANGED:
    case POWERED_ON:
        return 1;
    default:
        return 0;
    }
}

static int is_status(unsigned status)
{
    return status == PLAYING || status == PAUSED || status == COMPLETED || status == NO_PLAY;
}

/* The twenty recovery bytes. */
static inline int is_setting(unsigned recovery)
{
    switch (recovery) {
    case 0x00: case 0x01: case 0x04: case 0x05: case 0x06: case 0x07: case 0x10: case 0x11: case 0x14: case 0x15:
    case 0x20: case 0x21: case 0x24: case 0x25: case 0x26: case 0x27: case 0x30: case 0x31: case 0x34: case 0x35:
        return 1;
    default:
        return 0;
    }
}

/* What refusal 2 asks. */
static inline int is_sound(const struct c_drive *s)
{
    return is_triple(held(s)) && is_status(s->play_status) && s->play_position <= s->play_end && s->play_end <= TOP &&
        is_setting(s->recovery) && s->event <= OPENED;
}

static void end_play(struct c_drive *s)
{
    s->play_status = NO_PLAY;
    s->play_position = 0;
    s->play_end = 0;
}

static void open_tray(struct c_drive *s)
{
    s->tray_open = 1;
    end_play(s);
    if (s->disc_in)
        s->event = OPENED;
}

/* With a disc in it is a loading. */
static void close_tray(struct c_drive *s)
{
    s->tray_open = 0;
    if (s->disc_in) {
        s->change = 1;
        end_play(s);
        s->event = LOADED;
    }
}

/* Tells the attention that is pending, power first. */
static unsigned tell(struct c_drive *s)
{
    if (s->power) {
        s->power = 0;
        return POWERED_ON;
    }
    s->change = 0;
    return CHANGED;
}

/* The table */

static inline int has_header(const uint8_t *t, size_t n)
{
    return n >= HEADER && n <= BOUND && (n - HEADER) % ROW == 0 && word(t) == n - 2 && t[2] == 1 && t[3] >= 1 && t[3] <= 99;
}

/* The seven rules in one pass, byte by byte, each test where its descriptor stands: the last session's A0, or null where the table is not
   fit. It is kept apart, so that its loops have the registers. */
__attribute__((noinline)) static const uint8_t *read_table(const uint8_t *t, size_t n)
{
    if (!has_header(t, n))
        return NULL;
    const uint8_t *e = t + HEADER, *end = t + n, *session = NULL;
    unsigned sessions = t[3], next = 0, low = LEAD_IN;
    for (unsigned k = 1; k <= sessions; k++) {
        if (end - e < 4 * ROW || !is(e, k, 0xA0) || !is(e + ROW, k, 0xA1) || !is(e + 2 * ROW, k, 0xA2))
            return NULL;
        unsigned track = e[8], last = e[ROW + 8], type = e[9];
        if ((next && track != next) || track < 1 || last < track || last > 99)
            return NULL;
        if (((type & 0x0F) | e[10] | e[ROW + 9] | e[ROW + 10]) != 0 || type > 0x20)
            return NULL;
        if (!in_range(e + 2 * ROW))
            return NULL;
        session = e;
        unsigned out = frames(e + 2 * ROW);
        e += 3 * ROW;
        for (; track <= last; track++, e += ROW) {
            if (e == end || !is(e, k, track) || !in_range(e))
                return NULL;
            unsigned at = frames(e);
            if (at < low)
                return NULL;
            low = at + 1;
        }
        if (out < low)
            return NULL;
        low = out + 1;
        next = track;
        if (e != end && is_extra(e, k, 0xB0))
            e += ROW;
        if (e != end && is_extra(e, k, 0xC0))
            e += ROW;
    }
    return e == end ? session : NULL;
}

/* From here on the table is fit. */

/* L, the last session's lead-out. */
static inline unsigned lead_out(const struct disc *c)
{
    return frames(c->last + 2 * ROW) - LEAD_IN;
}

/* Past the B0h and C0h that may stand behind a session's tracks; there is a session after them. */
static inline const uint8_t *past_extras(const uint8_t *e)
{
    if (e[3] == 0xB0)
        e += ROW;
    if (e[3] == 0xC0)
        e += ROW;
    return e;
}

/* The A0 of the session after this one, which is not the last. */
static inline const uint8_t *next_session(const uint8_t *e)
{
    return past_extras(e + (4 + e[ROW + 8] - e[8]) * ROW);
}

/* The descriptor of a track that the disc has, found by sessions. */
static inline const uint8_t *track_numbered(const struct disc *c, unsigned number)
{
    const uint8_t *e = c->table + HEADER;
    while (e[ROW + 8] < number)
        e = next_session(e);
    return e + (3 + number - e[8]) * ROW;
}

/* That of a track, from the place behind the track before it. */
static inline const uint8_t *track_behind(const uint8_t *e, unsigned number)
{
    return e[3] == number ? e : past_extras(e) + 3 * ROW;
}

/* The first session whose lead-out is above this frame, which is below the last lead-out. */
static inline const uint8_t *session_of(const struct disc *c, unsigned at)
{
    const uint8_t *e = c->table + HEADER;
    while (frames(e + 2 * ROW) <= at)
        e = next_session(e);
    return e;
}

/* The descriptor of the block's track, or null for none. */
static const uint8_t *track_of(const struct disc *c, size_t block)
{
    if (block >= lead_out(c))
        return NULL;
    unsigned at = block + LEAD_IN;
    const uint8_t *e = session_of(c, at), *track = e + 3 * ROW;
    if (at < frames(track))
        return NULL;
    for (unsigned more = e[ROW + 8] - e[8]; more && frames(track + ROW) <= at; more--)
        track += ROW;
    return track;
}

/* Whether these blocks, one at least and all below L, lie in tracks of one mode. A lead-out is in no track, and the next session's first
   track starts after it: so they lie in one session. */
static int lie_in(const struct disc *c, unsigned block, unsigned count, unsigned mode)
{
    unsigned from = block + LEAD_IN, to = from + count;
    const uint8_t *e = session_of(c, from), *track = e + 3 * ROW;
    if (from < frames(track) || to > frames(e + 2 * ROW))
        return 0;
    for (unsigned more = e[ROW + 8] - e[8]; more; more--, track += ROW) {
        unsigned end = frames(track + ROW);
        if (end > from && (track[1] & DATA) != mode)
            return 0;
        if (end >= to)
            return 1;
    }
    return (track[1] & DATA) == mode;
}

/* Range, then track mode, of READ and PLAY. */
static unsigned blocks_told(const struct disc *c, uint32_t block, uint32_t count, unsigned mode)
{
    unsigned end = lead_out(c);
    if (block >= end || count > end - block)
        return OUT_OF_RANGE;
    return count == 0 || lie_in(c, block, count, mode) ? GOOD : WRONG_MODE;
}

/* The commands: each tells a triple, with nothing changed, or GOOD. */

static unsigned request_sense(const uint8_t *p, uint8_t *m, struct c_outcome *o)
{
    struct c_drive *s = &o->next;
    unsigned given = held(s);
    if (given == GOOD && (s->power | s->change))
        given = tell(s);
    const uint8_t answer[18] = {0x70, [2] = given >> 16, [7] = 0x0A, [12] = given >> 8, [13] = given};
    o->len = give(m, answer, sizeof answer, p[4]);
    return GOOD;
}

static unsigned inquiry(const uint8_t *p, uint8_t *m, struct c_outcome *o)
{
    static const uint8_t answer[] = "\x05\x80\x00\x21\x1F\x00\x00\x00" "LECTERN " "PACKET TARGET   " "0100";
    if (p[1] & 1)
        return BAD_FIELD;
    o->len = give(m, answer, sizeof answer - 1, p[4]);
    return GOOD;
}

static unsigned start_stop(const uint8_t *p, struct c_drive *s)
{
    unsigned eject = (p[4] & 3) == 2, load = (p[4] & 3) == 3;
    if (eject && !s->tray_open) {
        if (s->lock)
            return PREVENTED;
        open_tray(s);
    } else if (load && s->tray_open) {
        close_tray(s);
    }
    return GOOD;
}

static unsigned read_capacity(const struct disc *c, uint8_t *m, struct c_outcome *o)
{
    put_block(m, lead_out(c) - 1);
    put_block(m + 4, 2048);
    o->len = 8;
    return GOOD;
}

static unsigned seek(const struct disc *c, uint32_t block, struct c_drive *s)
{
    if (block >= lead_out(c))
        return OUT_OF_RANGE;
    s->play_status = NO_PLAY;
    return GOOD;
}

static unsigned read_blocks(const struct disc *c, uint32_t block, uint32_t count, struct c_outcome *o)
{
    unsigned told = blocks_told(c, block, count, DATA);
    if (told == GOOD) {
        o->start = block;
        o->count = count;
        o->next.play_status = NO_PLAY;
    }
    return told;
}

static unsigned play(const struct disc *c, uint32_t block, uint32_t count, struct c_drive *s)
{
    unsigned told = blocks_told(c, block, count, AUDIO);
    if (told == GOOD && count != 0) {
        s->play_status = PLAYING;
        s->play_position = block;
        s->play_end = block + count;
    }
    return told;
}

static unsigned pause_resume(const uint8_t *p, struct c_drive *s)
{
    if (s->play_status != PLAYING && s->play_status != PAUSED)
        return BAD_FIELD;
    s->play_status = p[8] & 1 ? PLAYING : PAUSED;
    return GOOD;
}

/* The twelve bytes behind the sub-channel's header: format, ADR/control, track, index, absolute and relative address. */
static void put_position(uint8_t *m, const struct disc *c, size_t block, int msf)
{
    const uint8_t *track = track_of(c, block);
    unsigned relative = 0;
    m[0] = 0x01;
    if (track) {
        m[1] = track[1];
        m[2] = track[3];
        m[3] = 1;
        relative = block + LEAD_IN - frames(track);
    }
    if (msf) {
        put_time(m + 4, block + LEAD_IN);
        put_time(m + 8, relative);
    } else {
        put_block(m + 4, block);
        put_block(m + 8, relative);
    }
}

static unsigned read_sub_channel(const uint8_t *p, const struct disc *c, uint8_t *m, struct c_outcome *o)
{
    struct c_drive *s = &o->next;
    uint8_t answer[16] = {0, s->play_status};
    if (!(p[2] & 0x40)) {
        o->len = give(m, answer, 4, word(p + 7));
    } else {
        if (p[3] != 0x01)
            return BAD_FIELD;
        answer[3] = 0x0C;
        put_position(answer + 4, c, s->play_position, p[1] & 2);
        o->len = give(m, answer, sizeof answer, word(p + 7));
    }
    if (s->play_status == COMPLETED)
        s->play_status = NO_PLAY;
    return GOOD;
}

/* An entry of formats 0 and 1, its address straight from the descriptor. */
static inline void put_entry(uint8_t *m, const uint8_t *e, unsigned number, int msf)
{
    m[0] = 0;
    m[1] = e[1];
    m[2] = number;
    m[3] = 0;
    if (msf) {
        m[4] = 0;
        memcpy(m + 5, e + 8, 3);
    } else {
        put_block(m + 4, frames(e) - LEAD_IN);
    }
}

/* A header of READ TOC before so many bytes, cut to n. */
static inline void put_header(uint8_t *m, size_t n, size_t behind, unsigned first, unsigned last)
{
    const uint8_t header[HEADER] = {(behind + 2) >> 8, behind + 2, first, last};
    give(m, header, HEADER, n);
}

/* The entries of tracks from .. to - 1 and of the lead-out, cut to n bytes. */
static void put_entries(uint8_t *m, size_t n, const struct disc *c, unsigned from, unsigned to, int msf)
{
    const uint8_t *e = from < to ? track_numbered(c, from) : NULL;
    unsigned whole = n / ENTRY, stop = whole < to - from ? from + whole : to;
    uint8_t entry[ENTRY];
    n -= (stop - from) * ENTRY;
    for (; from < stop; from++, e += ROW, m += ENTRY) {
        e = track_behind(e, from);
        put_entry(m, e, from, msf);
    }
    if (n == 0)
        return;
    if (from < to)
        put_entry(entry, track_behind(e, from), from, msf);
    else
        put_entry(entry, c->last + 2 * ROW, 0xAA, msf);
    give(m, entry, ENTRY, n);
}

/* Format 0: the tracks from this number on, and the lead-out; AAh asks for the lead-out alone. */
static unsigned list_tracks(const uint8_t *p, const struct disc *c, uint8_t *m, struct c_outcome *o)
{
    unsigned first = c->table[HEADER + 8], last = c->last[ROW + 8], from = p[6], asked = word(p + 7);
    if (from == 0xAA)
        from = last + 1;
    else if (from > last)
        return BAD_FIELD;
    else if (from < first)
        from = first;
    unsigned behind = (last + 1 - from + 1) * ENTRY, full = HEADER + behind;
    o->len = asked < full ? asked : full;
    put_header(m, o->len, behind, first, last);
    if (o->len > HEADER)
        put_entries(m + HEADER, o->len - HEADER, c, from, last + 1, p[1] & 2);
    return GOOD;
}

/* Format 1: the last session's first track. */
static unsigned show_last_session(const uint8_t *p, const struct disc *c, uint8_t *m, struct c_outcome *o)
{
    uint8_t answer[HEADER + ENTRY] = {0x00, 0x0A, 1, c->table[3]};
    put_entry(answer + HEADER, c->last + 3 * ROW, c->last[8], p[1] & 2);
    o->len = give(m, answer, sizeof answer, word(p + 7));
    return GOOD;
}

/* Format 2: the descriptors of the sessions from this number on. */
static unsigned copy_sessions(const uint8_t *p, const struct disc *c, uint8_t *m, struct c_outcome *o)
{
    const uint8_t *e = c->table + HEADER;
    unsigned sessions = c->table[3], asked = word(p + 7);
    if (p[6] > sessions)
        return BAD_FIELD;
    while (e[0] < p[6])
        e = next_session(e);
    unsigned behind = c->table + c->size - e, full = HEADER + behind;
    o->len = asked < full ? asked : full;
    put_header(m, o->len, behind, 1, sessions);
    if (o->len > HEADER)
        memcpy(m + HEADER, e, o->len - HEADER);
    return GOOD;
}

static unsigned read_toc(const uint8_t *p, const struct disc *c, uint8_t *m, struct c_outcome *o)
{
    switch (p[2] & 0x0F) {
    case 0:
        return list_tracks(p, c, m, o);
    case 1:
        return show_last_session(p, c, m, o);
    case 2:
        return copy_sessions(p, c, m, o);
    default:
        return BAD_FIELD;
    }
}

static unsigned mode_sense(const uint8_t *p, uint8_t *m, struct c_outcome *o)
{
    unsigned control = p[2] >> 6;
    uint8_t answer[16] = {0x00, 0x0E, [8] = 0x01, 0x06};
    if ((p[2] & 0x3F) != 0x01)
        return BAD_FIELD;
    if (control == 3)
        return NOT_SAVED;
    if (control == 0) {
        answer[10] = o->next.recovery;
        answer[11] = o->next.retries;
    } else if (control == 1) {
        answer[10] = 0x37;
        answer[11] = 0xFF;
    }
    o->len = give(m, answer, sizeof answer, word(p + 7));
    return GOOD;
}

static unsigned mode_select(const uint8_t *p, const uint8_t *list, size_t ln, struct c_drive *s)
{
    unsigned length = word(p + 7);
    if ((length != 0 && length != LIST) || length != ln)
        return LIST_LENGTH;
    if (length == 0)
        return GOOD;
    if (list[8] != 0x01 || list[9] != 0x06 || !is_setting(list[10]))
        return LIST_FIELD;
    s->recovery = list[10];
    s->retries = list[11];
    return GOOD;
}

/* A waiting media event goes before the class external, which never has one. */
static unsigned event_status(const uint8_t *p, uint8_t *m, struct c_outcome *o)
{
    static const uint8_t none[] = {0x00, 0x02, 0x80, SUPPORTED};
    struct c_drive *s = &o->next;
    uint8_t answer[8] = {0x00, 0x06, EXTERNAL, SUPPORTED};
    unsigned external = p[4] & 1 << EXTERNAL, media = p[4] & 1 << MEDIA;
    if (!(p[1] & 1))
        return BAD_FIELD;
    if (!external && !media) {
        o->len = give(m, none, sizeof none, word(p + 7));
        return GOOD;
    }
    media = media && (s->event || !external);
    if (media) {
        answer[2] = MEDIA;
        answer[4] = s->event;
        answer[5] = s->disc_in << 1 | s->tray_open;
    }
    o->len = give(m, answer, sizeof answer, word(p + 7));
    if (media && o->len >= LEAST)
        s->event = 0;
    return GOOD;
}

/* The steps */

static int is_performed_pending(unsigned code)
{
    return code == INQUIRY || code == REQUEST_SENSE || code == EVENT_STATUS;
}

static int needs_disc(const uint8_t *p)
{
    switch (p[0]) {
    case TEST_UNIT_READY:
    case READ_CAPACITY:
    case READ_10:
    case SEEK:
    case READ_SUB_CHANNEL:
    case READ_TOC:
    case PLAY:
    case PAUSE_RESUME:
    case READ_12:
        return 1;
    case START_STOP:
        return (p[4] & 3) == 1;
    default:
        return 0;
    }
}

static unsigned perform(const uint8_t *p, const struct disc *c, const uint8_t *list, size_t ln, uint8_t *m, struct c_outcome *o)
{
    struct c_drive *s = &o->next;
    switch (p[0]) {
    case TEST_UNIT_READY:
        return GOOD;
    case REQUEST_SENSE:
        return request_sense(p, m, o);
    case INQUIRY:
        return inquiry(p, m, o);
    case START_STOP:
        return start_stop(p, s);
    case PREVENT_ALLOW:
        s->lock = p[4] & 1;
        return GOOD;
    case READ_CAPACITY:
        return read_capacity(c, m, o);
    case READ_10:
        return read_blocks(c, long_word(p + 2), word(p + 7), o);
    case SEEK:
        return seek(c, long_word(p + 2), s);
    case READ_SUB_CHANNEL:
        return read_sub_channel(p, c, m, o);
    case READ_TOC:
        return read_toc(p, c, m, o);
    case PLAY:
        return play(c, long_word(p + 2), word(p + 7), s);
    case EVENT_STATUS:
        return event_status(p, m, o);
    case PAUSE_RESUME:
        return pause_resume(p, s);
    case MODE_SELECT:
        return mode_select(p, list, ln, s);
    case MODE_SENSE:
        return mode_sense(p, m, o);
    case READ_12:
        return read_blocks(c, long_word(p + 2), long_word(p + 6), o);
    default:
        return UNKNOWN_CODE;
    }
}

/* Attentions first, then the disc that is needed; an unknown code needs none. */
static unsigned step(const uint8_t *p, const struct disc *c, const uint8_t *list, size_t ln, uint8_t *m, struct c_outcome *o)
{
    struct c_drive *s = &o->next;
    if ((s->power | s->change) && !is_performed_pending(p[0]))
        return tell(s);
    if (!c->last && needs_disc(p))
        return s->tray_open ? TRAY_OPEN : NO_MEDIUM;
    return perform(p, c, list, ln, m, o);
}

/* Refusals 1 to 4; 0 with the table read where a disc is loaded. */
static unsigned refused(const struct c_drive *s, size_t pn, size_t mn, struct disc *c)
{
    if (pn != PACKET)
        return 1;
    if (!is_sound(s))
        return 2;
    if (mn < BOUND)
        return 3;
    if (!s->disc_in || s->tray_open)
        return 0;
    c->last = read_table(c->table, c->size);
    return c->last ? 0 : 4;
}

void packet_in_c(const struct c_drive *d, const uint8_t *p, size_t pn, const uint8_t *t, size_t tn, const uint8_t *list, size_t ln,
    uint8_t *m, size_t mn, struct c_outcome *o)
{
    struct disc disc = {t, tn, NULL};
    o->status = 0;
    o->rule = 0;
    o->len = o->start = o->count = 0;
    o->next = *d;
    o->number = refused(d, pn, mn, &disc);
    if (o->number != 0) {
        if (o->number == 4)
            o->rule = fault(t, tn);
        return;
    }
    unsigned told = step(p, &disc, list, ln, m, o);
    if (told != GOOD)
        o->status = 0x02;
    /* GOOD holds 00/00/00, but these two leave the sense */
    if (told != GOOD || (p[0] != INQUIRY && p[0] != EVENT_STATUS))
        hold(&o->next, told);
}
