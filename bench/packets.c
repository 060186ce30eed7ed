/* packets WHICH TABLE N BYTE..: meets one packet of twelve hex bytes N times, by ours or by c, with the table in a file (an empty one for no
   disc) and a parameter list of sixteen bytes, on a closed drive with nothing pending that plays block 0; prints bytes, start and status
   and, of the response memory, a sum. */
#include <stdint.h>
#include <stdio.h>
#include <stdlib.h>
#include <string.h>
#include "whole.h"

extern size_t measured_packet(const uint8_t *p, size_t pn, const uint8_t *t, size_t tn, const uint8_t *l, size_t ln, uint8_t *m,
    size_t mn);

static const uint8_t list[16] = {0, 0, 0, 0, 0, 0, 0, 0, 0x01, 0x06, 0x35, 0x03};

/* The same packet in plain C, and what is handed back of it put together in the same way. */
static size_t packet_by_c(const uint8_t *p, size_t pn, const uint8_t *t, size_t tn, const uint8_t *l, size_t ln, uint8_t *m, size_t mn)
{
    struct c_drive d = {.disc_in = tn > 0, .play_status = 0x11, .play_end = 1};
    struct c_outcome o;
    packet_in_c(&d, p, pn, t, tn, l, ln, m, mn, &o);
    return o.len % 65536 * 65536 + o.start % 256 * 256 + o.status;
}

int main(int argc, char **argv)
{
    static uint8_t table[8192], memory[6538], packet[12];
    if (argc < 4)
        return 2;
    size_t (*measured)(const uint8_t *, size_t, const uint8_t *, size_t, const uint8_t *, size_t, uint8_t *, size_t) =
        strcmp(argv[1], "c") ? measured_packet : packet_by_c;
    FILE *f = fopen(argv[2], "rb");
    if (!f)
        return 2;
    size_t n = fread(table, 1, sizeof table, f);
    fclose(f);
    for (int i = 0; i < 12 && i + 4 < argc; i++)
        packet[i] = strtol(argv[i + 4], 0, 16);
    long turns = atol(argv[3]);
    size_t told = 0;
    for (long i = 0; i < turns; i++) {
        told = measured(packet, 12, table, n, list, sizeof list, memory, sizeof memory);
        __asm__ volatile("" ::: "memory");
    }
    unsigned sum = 1;
    for (size_t i = 0; i < sizeof memory; i++)
        sum = sum * 31 + memory[i];
    printf("%zu %zu %zu %u\n", told >> 16, told >> 8 & 255, told & 255, sum);
    return 0;
}
