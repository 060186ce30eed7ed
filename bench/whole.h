/* The whole packet on the drive, in plain C. Flags are 0 or 1, a play status is 11h, 12h, 13h or 15h where the state is sound. */
#include <stddef.h>
#include <stdint.h>

struct c_drive {
    uint8_t tray_open, disc_in, lock, power, change;
    uint8_t sense[3];
    uint8_t play_status;
    size_t play_position, play_end;
    uint8_t recovery, retries, event;
};

/* number is 0 where the packet is not refused, and rule is 0 unless number is 4. */
struct c_outcome {
    unsigned number, rule, status;
    size_t len, start, count;
    struct c_drive next;
};

/* Drive, packet, table, parameter list, response memory; what comes of it. The memory changes in its first len bytes alone. */
void packet_in_c(const struct c_drive *d, const uint8_t *p, size_t pn, const uint8_t *t, size_t tn, const uint8_t *list, size_t ln,
    uint8_t *m, size_t mn, struct c_outcome *o);
