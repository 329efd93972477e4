/* Counts the instructions that a program runs under qemu's user mode, and says how many at its end. The declarations are
   those of qemu's plugin interface, version 1, as far as they are used. */
#include <inttypes.h>
#include <stddef.h>
#include <stdio.h>

#define SHOWN __attribute__((visibility("default")))

typedef uint64_t plugin;
struct block;

extern void qemu_plugin_register_vcpu_tb_trans_cb(plugin, void (*)(plugin, struct block *));
extern void qemu_plugin_register_vcpu_tb_exec_cb(struct block *, void (*)(unsigned, void *), int, void *);
extern void qemu_plugin_register_atexit_cb(plugin, void (*)(plugin, void *), void *);
extern size_t qemu_plugin_tb_n_insns(const struct block *);

SHOWN int qemu_plugin_version = 1;

static uint64_t run;

static void block_run(unsigned processor, void *length)
{
    (void)processor;
    run += (uintptr_t)length;
}

static void block_made(plugin id, struct block *block)
{
    (void)id;
    qemu_plugin_register_vcpu_tb_exec_cb(block, block_run, 0, (void *)(uintptr_t)qemu_plugin_tb_n_insns(block));
}

static void ended(plugin id, void *nothing)
{
    (void)id;
    (void)nothing;
    fprintf(stderr, "instructions %" PRIu64 "\n", run);
}

SHOWN int qemu_plugin_install(plugin id, const void *machine, int words, char **word)
{
    (void)machine;
    (void)words;
    (void)word;
    qemu_plugin_register_vcpu_tb_trans_cb(id, block_made);
    qemu_plugin_register_atexit_cb(id, ended, NULL);
    return 0;
}
