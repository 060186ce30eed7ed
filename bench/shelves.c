/* shelves KIND N: writes N tables one after the other.
   KIND is `data` (one data track), `audio` (12 audio tracks), `mixed` (a data track and 11 audio tracks), `extra` (11 audio tracks, and a
   second session with a data track), `sittings` (8 sessions of a data track, each with B0h and C0h), `broken` (12 audio tracks, of which one
   starts too early), `longest` (99 sessions of a data track, each with B0h and C0h), or `shelf`: of 20 tables 6 are data, 9 audio of 8 to 20
   tracks, 2 mixed, 1 extra, 1 sittings and 1 broken. */
#include <stdio.h>
#include <stdlib.h>
#include <string.h>

static unsigned char d[8192];
static unsigned n, blocks, gap;

static unsigned char *put(unsigned session, unsigned control, unsigned point, unsigned a, unsigned b, unsigned c)
{
    unsigned char *e = d + 11 * n++;
    memset(e, 0, 11);
    e[0] = session;
    e[1] = 0x10 | control;
    e[3] = point;
    e[8] = a;
    e[9] = b;
    e[10] = c;
    return e;
}

static void put_at(unsigned session, unsigned control, unsigned point, unsigned address)
{
    put(session, control, point, (address + 150) / 75 / 60, (address + 150) / 75 % 60, (address + 150) % 75);
}

/* A session of `count` tracks from `track` on, the first `data` of them data, each `blocks` long, from block `at` on. */
static unsigned session(unsigned k, unsigned track, unsigned count, unsigned data, unsigned at, int mode5)
{
    put(k, data ? 4 : 0, 0xA0, track, 0, 0);
    put(k, data == count ? 4 : 0, 0xA1, track + count - 1, 0, 0);
    put_at(k, data == count ? 4 : 0, 0xA2, at + blocks * count);
    for (unsigned i = 0; i < count; i++)
        put_at(k, i < data ? 4 : 0, track + i, at + blocks * i);
    for (unsigned point = 0xB0; mode5 && point <= 0xC0; point += 0x10)
        put(k, 4, point, 0xFF, 0xFF, 0xFF)[1] = 0x54;
    return at + blocks * count + gap;
}

static void table(const char *kind, unsigned tracks)
{
    unsigned sessions = 1;
    n = 0;
    blocks = *kind == 'l' ? 2000 : 15000;
    gap = *kind == 'l' ? 2000 : 11400;
    if (!strcmp(kind, "data"))
        session(1, 1, 1, 1, 0, 0);
    else if (!strcmp(kind, "mixed"))
        session(1, 1, tracks, 1, 0, 0);
    else if (!strcmp(kind, "extra"))
        session(sessions = 2, tracks, 1, 1, session(1, 1, tracks - 1, 0, 0, 0), 0);
    else if (!strcmp(kind, "sittings") || !strcmp(kind, "longest"))
        for (unsigned k = sessions = 1, at = 0; k <= (*kind == 's' ? 8 : 99); sessions = k++)
            at = session(k, k, 1, 1, at, 1);
    else
        session(1, 1, tracks, 0, 0, 0);
    if (!strcmp(kind, "broken"))
        memcpy(d + 11 * 9 + 8, d + 11 * 8 + 8, 3);
    putchar((11 * n + 2) / 256);
    putchar((11 * n + 2) % 256);
    putchar(1);
    putchar(sessions);
    fwrite(d, 11, n, stdout);
}

int main(int argc, char **argv)
{
    static const char *const shelf[20] = {
        "data", "audio", "audio", "mixed", "data", "audio", "data", "audio", "extra", "audio",
        "data", "audio", "audio", "broken", "data", "audio", "sittings", "audio", "data", "mixed",
    };
    if (argc != 3)
        return 2;
    int whole = !strcmp(argv[1], "shelf");
    for (long i = 0, of = atol(argv[2]); i < of; i++)
        table(whole ? shelf[i % 20] : argv[1], whole ? 8 + i / 20 % 13 : 12);
    return 0;
}
