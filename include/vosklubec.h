/* The proved target behind ATAPI registers, for C on x86-64: link libregisters.a, which `./board` builds in
 * crates/registers_c/out (`rt lib` in crates/registers_c makes it, as libregisters_c.a).
 *
 * A board holds one register record and one drive state. At each access of the host it calls vosklubec_interrupt; between accesses it
 * calls the tray's functions. Every function answers every argument, as its promise says; the promises are proved of the Rattle code,
 * crates/registers_c/src over crates/registers/src. Not proved are this file's layouts, the C compiler's work, and what C must keep to: a bool is 0 or 1; a
 * pointer is not NULL, also where its length is 0, and leads to as many bytes as its length says; the record, the table and the
 * memory do not overlap, and nothing else touches them during a call. */
#ifndef VOSKLUBEC_H
#define VOSKLUBEC_H

#include <stdbool.h>
#include <stddef.h>
#include <stdint.h>

/* The held sense, the attention unit, the play record, mode page 01h, and the deck: what a drive state has. */
struct vosklubec_sense {
    uint8_t key, asc, ascq;
};

struct vosklubec_unit {
    bool power, change;
    struct vosklubec_sense sense;
};

struct vosklubec_play {
    uint8_t status;
    size_t position, end;
};

struct vosklubec_page {
    uint8_t recovery, retry;
};

struct vosklubec_deck {
    bool tray_open, disc_in, lock;
    struct vosklubec_play play;
    struct vosklubec_page page;
    uint8_t event;
};

struct vosklubec_drive {
    struct vosklubec_unit unit;
    struct vosklubec_deck deck;
};

/* What a call of the tray hands back: the refusal's number or 0, and the next state. */
struct vosklubec_moved {
    uint8_t number;
    struct vosklubec_drive state;
};

/* The register record. A host reads features to status as they stand; the rest is the transfer's: packet and list as far as they came
 * in, the limit of its runs, its bytes, and how many of them went. */
struct vosklubec_task_file {
    uint8_t features;
    uint8_t reason; /* 01h takes the packet, 00h takes the list, 02h gives the answer, 03h shows status */
    uint8_t low, high; /* the byte count */
    uint8_t drive;
    uint8_t status; /* the target's: 00h GOOD, 02h CHECK CONDITION */
    uint8_t packet[12];
    uint8_t list[16];
    size_t limit, len, at;
};

/* What an access hands back: the refusal's number or 0, beside 4 the table's first broken rule, the byte read, the blocks that a READ
 * names at the access that completes it, and the next state. */
struct vosklubec_answer {
    uint8_t number, rule, byte;
    size_t start, count;
    struct vosklubec_drive state;
};

/* The accesses: a write of the register at that address, a data read, a reset. Any other number is a write to no register. */
enum {
    VOSKLUBEC_DATA = 0,
    VOSKLUBEC_FEATURES = 1,
    VOSKLUBEC_COUNT_LOW = 4,
    VOSKLUBEC_COUNT_HIGH = 5,
    VOSKLUBEC_DRIVE = 6,
    VOSKLUBEC_COMMAND = 7,
    VOSKLUBEC_READ = 8,
    VOSKLUBEC_RESET = 9
};

/* The response memory that every packet and every data read needs. */
#define VOSKLUBEC_MEMORY 6538

/* The record at the start: idle, reason 03h, byte count EB14h, all else 0. Promise: Rattle.taskfile.specs.TaskFile.started. */
struct vosklubec_task_file vosklubec_started(void);

/* An access of the host with a byte (0 where none is written), the drive state, the table of the disc in the drive and the response
 * memory. Promise: what is handed back, the record and the memory afterwards are those of step_of and memory_of
 * (Rattle.registers.specs.Registers): refused by 15 out of turn, by 3 at a data read with too short a memory, or by the target's number,
 * which ends the transfer; only the access that completes a packet and its list changes the drive state and the memory, and a reset the
 * drive state. Hand the memory on as it was left until the transfer ends. */
struct vosklubec_answer vosklubec_interrupt(struct vosklubec_task_file *file, uint8_t access, uint8_t value,
                                            struct vosklubec_drive state, const uint8_t *table, size_t table_len,
                                            uint8_t *memory, size_t memory_len);

/* Power-on, never refused: by default a loaded drive then has both attentions pending; in the second form the power attention alone.
 * Promises: power_on, power_on_without_change (Rattle.drive.specs.State). */
struct vosklubec_drive vosklubec_power_on(struct vosklubec_drive state);
struct vosklubec_drive vosklubec_power_on_without_change(struct vosklubec_drive state);

/* The button pressed, a disc laid, a disc lifted, a playing position moved on by k blocks. Promises: button, lay, lift, move_on (the same
 * file); refused by 2, 5, 6, 7. Keep the state that comes back, also with a number. */
struct vosklubec_moved vosklubec_button(struct vosklubec_drive state);
struct vosklubec_moved vosklubec_lay(struct vosklubec_drive state);
struct vosklubec_moved vosklubec_lift(struct vosklubec_drive state);
struct vosklubec_moved vosklubec_move_on(struct vosklubec_drive state, size_t k);

#endif
