/* Counts the instructions that a program executes: a plug-in for qemu-user, which writes the number to qemu's log at the program's end.
   qemu's header is in no package of Debian's, so what is called of it is declared here. */
#include <inttypes.h>
#include <stdio.h>

#define SHOWN __attribute__((visibility("default")))

typedef uint64_t plugin;
struct block;  /* instructions that are translated together, and run from the first to the last */

void qemu_plugin_register_vcpu_tb_trans_cb(plugin id, void (*call)(plugin id, struct block *b));
void qemu_plugin_register_vcpu_tb_exec_cb(struct block *b, void (*call)(unsigned cpu, void *data), int flags, void *data);
void qemu_plugin_register_atexit_cb(plugin id, void (*call)(plugin id, void *data), void *data);
size_t qemu_plugin_tb_n_insns(const struct block *b);
void qemu_plugin_outs(const char *text);

SHOWN int qemu_plugin_version = 1;

static uint64_t executed;

/* A block starts: its length comes as the pointer's value. */
static void starts(unsigned cpu, void *length)
{
    (void)cpu;
    executed += (uintptr_t)length;
}

static void translated(plugin id, struct block *b)
{
    (void)id;
    qemu_plugin_register_vcpu_tb_exec_cb(b, starts, 0, (void *)(uintptr_t)qemu_plugin_tb_n_insns(b));
}

static void ends(plugin id, void *data)
{
    char text[24];
    (void)id;
    (void)data;
    snprintf(text, sizeof text, "%" PRIu64 "\n", executed);
    qemu_plugin_outs(text);
}

SHOWN int qemu_plugin_install(plugin id, const void *info, int argc, char **argv)
{
    (void)info;
    (void)argc;
    (void)argv;
    qemu_plugin_register_vcpu_tb_trans_cb(id, translated);
    qemu_plugin_register_atexit_cb(id, ends, 0);
    return 0;
}
