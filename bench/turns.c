/* turns WHICH TABLE N: calls one of the measured functions N times on the table in a file, and prints what it told. */
#include <stdio.h>
#include <stdlib.h>
#include <string.h>
#include "fit.h"

static unsigned told_by_read(const uint8_t *t, size_t n)
{
    return measured_read(t, n) >> 32;
}

int main(int argc, char **argv)
{
    static uint8_t table[8192];
    if (argc != 4)
        return 2;
    /* chosen once, so that a turn costs the call alone */
    unsigned (*measured)(const uint8_t *, size_t);
    if (!strcmp(argv[1], "c"))
        measured = fault;
    else if (!strcmp(argv[1], "pass"))
        measured = fit_in_one_pass;
    else if (!strcmp(argv[1], "words"))
        measured = fit_by_words;
    else if (!strcmp(argv[1], "read"))
        measured = told_by_read;
    else
        return 2;
    FILE *f = fopen(argv[2], "rb");
    if (!f)
        return 2;
    size_t n = fread(table, 1, sizeof table, f);
    fclose(f);
    long turns = atol(argv[3]);
    unsigned told = 0;
    for (long i = 0; i < turns; i++) {
        told = measured(table, n);
        __asm__ volatile("" ::: "memory");
    }
    printf("%u\n", told);
    return 0;
}
