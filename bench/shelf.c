/* What the program of the disc shelf does, in plain C: standard input is read in pieces, cut into tables, each gone over in one pass that
   decides whether it is fit and counts its blocks as it goes, and the thirteen totals are printed. The broken rule of an unfit table is named
   by fit.c's functions, a function a rule. */
#include <inttypes.h>
#include <stdio.h>
#include <string.h>
#include <unistd.h>
#include "fit.h"
#include "row.h"

enum { ROOM = 131072 };

struct totals {
    uint64_t tables, fit, rule[7], tracks, data, audio, none;
};

/* What a fit table holds. */
struct held {
    unsigned tracks, data, audio, none;
};

/* bench/pass.c's pass, with the blocks counted: a track's when the next edge is known. 1 for fit, 0 for not. */
static unsigned hold(const uint8_t *t, size_t n, struct held *h)
{
    if (n < HEADER || n > BOUND || (n - HEADER) % ROW != 0 || (size_t)(t[0] << 8 | t[1]) != n - 2)
        return 0;
    unsigned sessions = t[3];
    if (t[2] != 1 || sessions < 1 || sessions > 99)
        return 0;
    const uint8_t *e = t + HEADER, *end = t + n;
    unsigned next = 0, low = 150, tracks = 0, edge = 150;
    unsigned blocks[3] = { 0, 0, 0 }; /* audio, data, none */
    for (unsigned k = 1; k <= sessions; k++) {
        if (end - e < 4 * ROW || !is(e, k, 0xA0) || !is(e + ROW, k, 0xA1) || !is(e + 2 * ROW, k, 0xA2))
            return 0;
        unsigned track = e[8], last = e[ROW + 8], type = e[9];
        if ((next && track != next) || track < 1 || last < track || last > 99)
            return 0;
        if (((type & 0x0F) | e[10] | e[ROW + 9] | e[ROW + 10]) != 0 || type > 0x20)
            return 0;
        if (!in_range(e + 2 * ROW))
            return 0;
        unsigned out = frames(e + 2 * ROW), mode = 2;
        e += 3 * ROW;
        tracks += last + 1 - track;
        for (; track <= last; track++, e += ROW) {
            if (e == end || !is(e, k, track) || !in_range(e))
                return 0;
            unsigned at = frames(e);
            if (at < low)
                return 0;
            low = at + 1;
            blocks[mode] += at - edge;
            edge = at;
            mode = e[1] >> 2 & 1;
        }
        if (out < low)
            return 0;
        low = out + 1;
        blocks[mode] += out - edge;
        edge = out;
        next = track;
        if (e != end && is_extra(e, k, 0xB0))
            e += ROW;
        if (e != end && is_extra(e, k, 0xC0))
            e += ROW;
    }
    if (e != end)
        return 0;
    h->tracks = tracks;
    h->audio = blocks[0];
    h->data = blocks[1];
    h->none = blocks[2];
    return 1;
}

/* Adds, and tells whether that is past 64 bits. */
static inline int past(uint64_t *total, uint64_t more)
{
    return __builtin_add_overflow(*total, more, total);
}

static int count(struct totals *a, const uint8_t *t, size_t n)
{
    struct held h;
    if (past(&a->tables, 1))
        return 0;
    if (!hold(t, n, &h))
        return !past(&a->rule[(n < HEADER ? 1 : fault(t, n)) - 1], 1);
    return !(past(&a->fit, 1) | past(&a->tracks, h.tracks) | past(&a->data, h.data) | past(&a->audio, h.audio) | past(&a->none, h.none));
}

static int too_large(void)
{
    puts("total too large");
    return 0;
}

int main(void)
{
    static uint8_t room[ROOM];
    struct totals a;
    size_t have = 0;
    memset(&a, 0, sizeof a);
    for (;;) {
        ssize_t got = read(0, room + have, ROOM - have);
        if (got < 0) {
            perror("standard input");
            return 1;
        }
        if (got == 0)
            break;
        have += got;
        size_t at = 0;
        while (have - at >= 2) {
            size_t n = (room[at] << 8 | room[at + 1]) + 2;
            if (n > have - at)
                break;
            if (!count(&a, room + at, n))
                return too_large();
            at += n;
        }
        memmove(room, room + at, have - at);
        have -= at;
    }
    if (have && !count(&a, room, have))
        return too_large();
    printf("%" PRIu64 "\n%" PRIu64 "\n", a.tables, a.fit);
    for (int i = 0; i < 7; i++)
        printf("%" PRIu64 "\n", a.rule[i]);
    printf("%" PRIu64 "\n%" PRIu64 "\n%" PRIu64 "\n%" PRIu64 "\n", a.tracks, a.data, a.audio, a.none);
    return 0;
}
