/* What a pass in plain C asks of a descriptor, byte by byte. */
#include <stdint.h>

enum { HEADER = 4, ROW = 11, BOUND = 6538 };

/* The session, POINT, and rule 3 of a descriptor that is neither B0h nor C0h. */
static inline int is(const uint8_t *e, unsigned session, unsigned point)
{
    return e[0] == session && e[3] == point && (((e[1] & 0xF0) ^ 0x10) | e[2] | e[7]) == 0;
}

/* The same of a B0h or C0h. */
static inline int is_extra(const uint8_t *e, unsigned session, unsigned point)
{
    return e[0] == session && e[3] == point && (((e[1] & 0xF0) ^ 0x50) | e[2]) == 0;
}

static inline int in_range(const uint8_t *e)
{
    return e[8] <= 99 && e[9] <= 59 && e[10] <= 74;
}

static inline unsigned frames(const uint8_t *e)
{
    return (e[8] * 60 + e[9]) * 75 + e[10];
}
