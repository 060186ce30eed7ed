/* The seven rules in one pass over the descriptors, byte by byte, each test where its descriptor stands: the C that our walk is to beat.
   It tells fit or not, and names no rule. */
#include <stddef.h>
#include <stdint.h>
#include "fit.h"
#include "row.h"

unsigned fit_in_one_pass(const uint8_t *t, size_t n)
{
    if (n < HEADER || n > BOUND || (n - HEADER) % ROW != 0 || (size_t)(t[0] << 8 | t[1]) != n - 2)
        return 0;
    unsigned sessions = t[3];
    if (t[2] != 1 || sessions < 1 || sessions > 99)
        return 0;
    const uint8_t *e = t + HEADER, *end = t + n;
    unsigned next = 0, low = 150;
    for (unsigned k = 1; k <= sessions; k++) {
        if (end - e < 4 * ROW || !is(e, k, 0xA0) || !is(e + ROW, k, 0xA1) || !is(e + 2 * ROW, k, 0xA2))
            return 0;
        unsigned track = e[8], last = e[ROW + 8], type = e[9];
        if ((next && track != next) || track < 1 || last < track || last > 99)
            return 0;
        if (((type & 0x0F) | e[10] | e[ROW + 9] | e[ROW + 10]) != 0 || type > 0x20)
            return 0;
        if (!in_range(e + 2 * ROW))
            return 0;
        unsigned out = frames(e + 2 * ROW);
        e += 3 * ROW;
        for (; track <= last; track++, e += ROW) {
            if (e == end || !is(e, k, track) || !in_range(e))
                return 0;
            unsigned at = frames(e);
            if (at < low)
                return 0;
            low = at + 1;
        }
        if (out < low)
            return 0;
        low = out + 1;
        next = track;
        if (e != end && is_extra(e, k, 0xB0))
            e += ROW;
        if (e != end && is_extra(e, k, 0xC0))
            e += ROW;
    }
    return e == end;
}
