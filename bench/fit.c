/* The seven rules of a disc table in plain C, one function a rule: what our code is measured against. It names the broken one. */
#include <stddef.h>
#include <stdint.h>
#include "fit.h"

enum { HEADER = 4, ROW = 11, BOUND = 6538 };

static unsigned address(const uint8_t *e)
{
    return (e[8] * 60 + e[9]) * 75 + e[10];
}

static int is_track(unsigned point)
{
    return point >= 1 && point <= 99;
}

/* B0h and C0h, which may follow a session's tracks. */
static int is_mode5(unsigned point)
{
    return point == 0xB0 || point == 0xC0;
}

static int rule1(const uint8_t *t, size_t n)
{
    return n >= HEADER && n <= BOUND && (n - HEADER) % ROW == 0 && (size_t)(t[0] * 256 + t[1]) == n - 2;
}

static int rule2(const uint8_t *t)
{
    return t[2] == 1 && t[3] >= 1 && t[3] <= 99;
}

static int rule3(const uint8_t *d, size_t rows)
{
    for (size_t j = 0; j < rows; j++) {
        const uint8_t *e = d + ROW * j;
        if (e[2] != 0)
            return 0;
        if (is_mode5(e[3]) ? e[1] / 16 != 5 : e[1] / 16 != 1 || e[7] != 0)
            return 0;
    }
    return 1;
}

static int named(const uint8_t *e, unsigned session, unsigned point)
{
    return e[0] == session && e[3] == point;
}

static int rule4(const uint8_t *d, size_t rows, unsigned sessions)
{
    size_t j = 0;
    unsigned last = 0;
    for (unsigned k = 1; k <= sessions; k++) {
        if (rows - j < 3)
            return 0;
        const uint8_t *e = d + ROW * j;
        unsigned f = e[8], l = e[ROW + 8];
        if (f < 1 || f > l || l > 99 || (k > 1 && f != last + 1) || rows - j < 3 + (l + 1 - f))
            return 0;
        if (!named(e, k, 0xA0) || !named(e + ROW, k, 0xA1) || !named(e + 2 * ROW, k, 0xA2))
            return 0;
        for (unsigned n = f; n <= l; n++)
            if (!named(e + ROW * (3 + n - f), k, n))
                return 0;
        j += 3 + (l + 1 - f);
        if (j < rows && named(d + ROW * j, k, 0xB0))
            j++;
        if (j < rows && named(d + ROW * j, k, 0xC0))
            j++;
        last = l;
    }
    return j == rows;
}

static int rule5(const uint8_t *d, size_t rows)
{
    for (size_t j = 0; j < rows; j++) {
        const uint8_t *e = d + ROW * j;
        if (e[3] == 0xA0 && ((e[9] != 0 && e[9] != 0x10 && e[9] != 0x20) || e[10] != 0))
            return 0;
        if (e[3] == 0xA1 && (e[9] != 0 || e[10] != 0))
            return 0;
    }
    return 1;
}

static int rule6(const uint8_t *d, size_t rows)
{
    for (size_t j = 0; j < rows; j++) {
        const uint8_t *e = d + ROW * j;
        if ((e[3] == 0xA2 || is_track(e[3])) && (e[8] > 99 || e[9] > 59 || e[10] > 74 || address(e) < 150))
            return 0;
    }
    return 1;
}

static int rule7(const uint8_t *d, size_t rows, unsigned sessions)
{
    const uint8_t *e = d, *end = d + ROW * rows;
    unsigned out = 0;
    for (unsigned k = 1; k <= sessions; k++) {
        unsigned n = e[ROW + 8] + 1 - e[8];
        const uint8_t *track = e + 3 * ROW;
        if (k > 1 && address(track) <= out)
            return 0;
        for (unsigned i = 1; i < n; i++, track += ROW)
            if (address(track) >= address(track + ROW))
                return 0;
        out = address(e + 2 * ROW);
        if (address(track) >= out)
            return 0;
        e = track + ROW;
        while (e < end && is_mode5(e[3]))
            e += ROW;
    }
    return 1;
}

/* The first broken rule, or 0. */
unsigned fault(const uint8_t *t, size_t n)
{
    if (!rule1(t, n))
        return 1;
    if (!rule2(t))
        return 2;
    const uint8_t *d = t + HEADER;
    size_t rows = (n - HEADER) / ROW;
    if (!rule3(d, rows))
        return 3;
    if (!rule4(d, rows, t[3]))
        return 4;
    if (!rule5(d, rows))
        return 5;
    if (!rule6(d, rows))
        return 6;
    if (!rule7(d, rows, t[3]))
        return 7;
    return 0;
}
