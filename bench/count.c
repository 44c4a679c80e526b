/* A plugin for qemu-user that counts the instructions which a program executes, and writes "Collected : N" at its end.
   The few functions of the emulator that it calls are declared here: Debian ships no header for them. */
#include <inttypes.h>
#include <stdio.h>

struct block;
typedef uint64_t plugin;

int qemu_plugin_version = 1;
void qemu_plugin_register_vcpu_tb_trans_cb(plugin, void (*)(plugin, struct block *));
void qemu_plugin_register_vcpu_tb_exec_inline(struct block *, int, void *, uint64_t);
void qemu_plugin_register_atexit_cb(plugin, void (*)(plugin, void *), void *);
size_t qemu_plugin_tb_n_insns(const struct block *);
int qemu_plugin_install(plugin, const void *, int, char **);

static const int ADD = 0;
static uint64_t count;

/* Each block of instructions adds their number every time it is executed. */
static void translated(plugin id, struct block *block)
{
    (void)id;
    qemu_plugin_register_vcpu_tb_exec_inline(block, ADD, &count, qemu_plugin_tb_n_insns(block));
}

static void ended(plugin id, void *nothing)
{
    (void)id;
    (void)nothing;
    fprintf(stderr, "Collected : %" PRIu64 "\n", count);
}

int qemu_plugin_install(plugin id, const void *info, int words, char **word)
{
    (void)info;
    (void)words;
    (void)word;
    qemu_plugin_register_vcpu_tb_trans_cb(id, translated);
    qemu_plugin_register_atexit_cb(id, ended, 0);
    return 0;
}
