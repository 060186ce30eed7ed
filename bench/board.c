/* board TABLE: the most bytes of stack that a call of the library for C takes. Each packet goes through the registers on a stack that is
   painted before, with the table of the file, loaded and not, by format 2 of READ TOC the whole table too; then the drive's other calls. */
#include <stdio.h>
#include <string.h>
#include <ucontext.h>
#include "vosklubec.h"

#define ROOM 262144
static uint8_t stack[ROOM], table[8192], memory[VOSKLUBEC_MEMORY];
static size_t table_len;
static struct vosklubec_task_file file;
static struct vosklubec_drive drive;
static ucontext_t here, there;
static int asked;

static struct vosklubec_answer interrupt(uint8_t access, uint8_t value)
{
    struct vosklubec_answer a = vosklubec_interrupt(&file, access, value, drive, table, table_len, memory, sizeof memory);
    drive = a.state;
    return a;
}

static void send(const uint8_t packet[12])
{
    interrupt(VOSKLUBEC_COMMAND, 0xA0);
    for (int i = 0; i < 12; i++)
        interrupt(VOSKLUBEC_DATA, packet[i]);
    while (file.reason == 0x00)
        interrupt(VOSKLUBEC_DATA, 0);
    while (file.reason == 0x02)
        interrupt(VOSKLUBEC_READ, 0);
}

static void all(void)
{
    static const uint8_t packets[][12] = {
        {0x00}, {0x03, 0, 0, 0, 18}, {0x12, 0, 0, 0, 36}, {0x1B, 0, 0, 0, 3}, {0x1E}, {0x25}, {0x28}, {0x2B},
        {0x43, 0, 0, 0, 0, 0, 0, 3, 36}, {0x43, 0, 1, 0, 0, 0, 0, 3, 36}, {0x43, 0, 2, 0, 0, 0, 0, 255, 255}, {0xA8},
        {0x45}, {0x4B}, {0x42, 2, 64, 1, 0, 0, 0, 0, 48}, {0x5A, 0, 1, 0, 0, 0, 0, 0, 24}, {0x55, 16, 0, 0, 0, 0, 0, 0, 16},
        {0x4A, 1, 0, 0, 24, 0, 0, 0, 8}, {0xFF},
    };
    file = vosklubec_started();
    for (int loaded = 0; loaded < 2; loaded++) {
        memset(&drive, 0, sizeof drive);
        drive.deck.disc_in = loaded;
        interrupt(VOSKLUBEC_RESET, 0);
        for (int turn = 0; turn < 3; turn++)
            for (size_t i = 0; i < sizeof packets / 12; i++)
                send(packets[i]);
    }
    drive = vosklubec_power_on_without_change(vosklubec_power_on(drive));
    drive = vosklubec_move_on(vosklubec_lift(vosklubec_lay(vosklubec_button(drive).state).state).state, 1).state;
}

static void body(void)
{
    if (asked)
        all();
}

static size_t used(int whole)
{
    size_t i = 0;
    asked = whole;
    memset(stack, 0xA5, sizeof stack);
    getcontext(&there);
    there.uc_stack.ss_sp = stack;
    there.uc_stack.ss_size = sizeof stack;
    there.uc_link = &here;
    makecontext(&there, body, 0);
    swapcontext(&here, &there);
    while (i < sizeof stack && stack[i] == 0xA5)
        i++;
    return sizeof stack - i;
}

int main(int argc, char **argv)
{
    FILE *f = argc == 2 ? fopen(argv[1], "rb") : NULL;
    if (!f)
        return 2;
    table_len = fread(table, 1, sizeof table, f);
    fclose(f);
    size_t none = used(0);
    printf("%zu\n", used(1) - none);
    return 0;
}
