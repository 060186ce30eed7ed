/* table [b0c0] SESSIONS TRACKS [ROWS] [ROW.BYTE=VALUE]..: writes a fit table of 3 * SESSIONS + TRACKS descriptors; the first session has the
   tracks that are over. `b0c0` ends each session with a B0h and a C0h descriptor: 2 * SESSIONS more. ROWS keeps that many descriptors. What
   follows puts a value into a byte of a descriptor, which is how a rule is broken. */
#include <stdio.h>
#include <stdlib.h>
#include <string.h>

static unsigned char d[8192];
static unsigned n;

static unsigned char *put(unsigned session, unsigned point, unsigned a, unsigned b, unsigned c)
{
    unsigned char *e = d + 11 * n++;
    e[0] = session;
    e[1] = 0x14;
    e[3] = point;
    e[8] = a;
    e[9] = b;
    e[10] = c;
    return e;
}

static void put_at(unsigned session, unsigned point, unsigned address)
{
    put(session, point, (address + 150) / 75 / 60, (address + 150) / 75 % 60, (address + 150) % 75);
}

/* B0h or C0h, with bytes that no other descriptor may hold: ADR 5, a ZERO of 2, minutes over 99 */
static void put_mode5(unsigned session, unsigned point)
{
    unsigned char *e = put(session, point, 0xFF, 0xFF, 0xFF);
    e[1] = 0x54;
    e[7] = 2;
}

int main(int argc, char **argv)
{
    int mode5 = argc > 1 && !strcmp(argv[1], "b0c0");
    argc -= mode5;
    argv += mode5;
    if (argc < 3)
        return 2;
    unsigned sessions = atoi(argv[1]), tracks = atoi(argv[2]), track = 1, at = 0;
    for (unsigned k = 1; k <= sessions; k++) {
        unsigned count = k == 1 ? tracks - (sessions - 1) : 1;
        put(k, 0xA0, track, 0, 0);
        put(k, 0xA1, track + count - 1, 0, 0);
        put_at(k, 0xA2, at + 1000 * count);
        for (unsigned i = 0; i < count; i++, at += 1000)
            put_at(k, track++, at);
        if (mode5) {
            put_mode5(k, 0xB0);
            put_mode5(k, 0xC0);
        }
        at += 1000;
    }
    for (int i = 3; i < argc; i++) {
        unsigned row, byte, value;
        if (sscanf(argv[i], "%u.%u=%u", &row, &byte, &value) == 3)
            d[11 * row + byte] = value;
        else if (atoi(argv[i]) < (int)n)
            n = atoi(argv[i]);
    }
    unsigned length = 11 * n + 2;
    putchar(length / 256);
    putchar(length % 256);
    putchar(1);
    putchar(sessions);
    fwrite(d, 11, n, stdout);
    return 0;
}
