/* The seven rules in one pass, two loads of four bytes a descriptor: how few instructions C can do with. It tells fit or not, and names no rule.
   Faults that cannot lead the pass out of the table are gathered and looked at once, at its end. */
#include <stddef.h>
#include <stdint.h>
#include "fit.h"

enum { HEADER = 4, ROW = 11, LEAST = HEADER + 4 * ROW, BOUND = 6538 };

/* Of a name: all but control, which is free; and ADR 1 and 5. */
static const uint32_t NAME = 0xFFFFF0FF, ADR1 = 0x1000, ADR5 = 0x5000;

/* Of what is held: one minute, or one of A0's and A1's PMIN; and the highest bits of second and frame. */
static const uint32_t MINUTE = 0x10000, HIGHEST = 0x8080;

/* Session, ADR and control, TNO and POINT in one number, from the lowest byte up: gcc makes one load of it. */
static inline uint32_t name(const uint8_t *e)
{
    return e[0] | e[1] << 8 | e[2] << 16 | (uint32_t)e[3] << 24;
}

static inline uint32_t point(uint32_t p)
{
    return p << 24;
}

/* ZERO, PMIN, PSEC, PFRAME in one number, from the highest byte down, so that addresses compare as numbers: a load and a byte swap. */
static inline uint32_t held(const uint8_t *e)
{
    return (uint32_t)e[7] << 24 | e[8] << 16 | e[9] << 8 | e[10];
}

/* Has one of the HIGHEST bits exactly if the second is over 59 or the frame over 74. */
static inline uint32_t over(uint32_t at)
{
    return at | (at + ((127 - 59) << 8 | (127 - 74)));
}

unsigned fit_by_words(const uint8_t *t, size_t n)
{
    if (n < LEAST || n > BOUND || (n - HEADER) % ROW != 0 || (size_t)(t[0] << 8 | t[1]) != n - 2 || t[2] != 1)
        return 0;
    const uint8_t *e = t + HEADER, *end = t + n, *full = end - 4 * ROW;
    uint32_t session = 1;
    uint32_t first = e[8] * MINUTE;                 /* the session's first track, as A0 is to hold it */
    uint32_t last;                                  /* its last track, as A1 holds it */
    uint32_t track = point(e[8]) + ADR1 + session;  /* the name of the track that comes next */
    uint32_t out = 0x1FF;                           /* the lead-out that it starts after; at first, what lies before 00:02:00 */
    uint32_t misnamed = 0, lasts = 0, overs = 0;    /* the faults gathered; and every A1, which holds nothing but PMIN */
    if (first == 0)
        return 0;
    for (;; session++, first = last + MINUTE, track += point(1) + 1) {
        if (e > full)
            return 0;
        uint32_t type = held(e) - first;
        if (type != 0 && type != 0x1000 && type != 0x2000)
            return 0;
        last = held(e + ROW);
        if (last < first)
            return 0;
        uint32_t at = held(e + 3 * ROW);
        if (at <= out)
            return 0;
        out = held(e + 2 * ROW);
        misnamed |= name(e) ^ (point(0xA0) + ADR1 + session);
        misnamed |= name(e + ROW) ^ (point(0xA1) + ADR1 + session);
        misnamed |= name(e + 2 * ROW) ^ (point(0xA2) + ADR1 + session);
        misnamed |= name(e + 3 * ROW) ^ track;
        lasts |= last;
        overs |= over(out) | over(at);
        e += 4 * ROW;
        if (last != first) {
            size_t more = (last - first) / MINUTE * ROW;
            if ((size_t)(end - e) < more)
                return 0;
            for (const uint8_t *stop = e + more; e != stop; e += ROW) {
                uint32_t before = at;
                at = held(e);
                if (at <= before)
                    return 0;
                track += point(1);
                misnamed |= name(e) ^ track;
                overs |= over(at);
            }
        }
        if (at >= out)
            return 0;
        if (e != end && (name(e) & NAME) == point(0xB0) + ADR5 + session)
            e += ROW;
        if (e != end && (name(e) & NAME) == point(0xC0) + ADR5 + session)
            e += ROW;
        if (e == end)
            break;
    }
    /* starts and lead-outs rise, and so do the tracks' numbers: the last one bounds all of them, and their ZEROs, the highest byte */
    return session == t[3] && last <= 99 * MINUTE && out < 100 * MINUTE && (misnamed & NAME) == 0 && (lasts & ~(0xFF * MINUTE)) == 0 &&
        (overs & HIGHEST) == 0;
}
