/*
 * A plugin of QEMU's user emulator (its plugin interface, version 1): counts the instructions that a program takes and says so at its end.
 * bench/count builds and uses it. What it needs of the interface is declared here, since the emulator's package has no header.
 */
#include <stdint.h>
#include <stdio.h>

typedef uint64_t plugin_id;
struct qemu_plugin_tb;

extern void qemu_plugin_register_vcpu_tb_trans_cb(plugin_id id, void (*done)(plugin_id, struct qemu_plugin_tb *));
extern void qemu_plugin_register_vcpu_tb_exec_inline(struct qemu_plugin_tb *block, int operation, void *counter, uint64_t by);
extern void qemu_plugin_register_atexit_cb(plugin_id id, void (*done)(plugin_id, void *), void *with);
extern size_t qemu_plugin_tb_n_insns(const struct qemu_plugin_tb *block);

int qemu_plugin_version = 1;

static uint64_t count;

/* A block of instructions is translated: each time it runs, all of them are counted. */
static void translated(plugin_id id, struct qemu_plugin_tb *block)
{
    const int add = 0;
    (void)id;
    qemu_plugin_register_vcpu_tb_exec_inline(block, add, &count, qemu_plugin_tb_n_insns(block));
}

static void ended(plugin_id id, void *with)
{
    (void)id;
    (void)with;
    fprintf(stderr, "instructions %llu\n", (unsigned long long)count);
}

int qemu_plugin_install(plugin_id id, const void *about, int argc, char **argv)
{
    (void)about;
    (void)argc;
    (void)argv;
    qemu_plugin_register_vcpu_tb_trans_cb(id, translated);
    qemu_plugin_register_atexit_cb(id, ended, NULL);
    return 0;
}
