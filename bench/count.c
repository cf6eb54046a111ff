/* A plugin of qemu's user-mode emulator, for `bench/run` where the machine isn't x86-64: counts the instructions of the emulated program and
   cuts at each call of the driver's bench_mark, as callgrind does elsewhere. At the end it prints the count of each part, a line for each:
       qemu-x86_64 -plugin ./libcount.so -d plugin -D counts DRIVER ..
   Debian's qemu-user comes without the header of its plugin interface; what is used of it, the first version, is declared here. */
#include <inttypes.h>
#include <stddef.h>
#include <stdio.h>
#include <stdlib.h>
#include <string.h>

typedef uint64_t qemu_plugin_id_t;
typedef struct qemu_info_t qemu_info_t;
struct qemu_plugin_tb;
struct qemu_plugin_insn;
enum qemu_plugin_cb_flags { QEMU_PLUGIN_CB_NO_REGS };

void qemu_plugin_register_vcpu_tb_trans_cb(qemu_plugin_id_t, void (*)(qemu_plugin_id_t, struct qemu_plugin_tb *));
void qemu_plugin_register_vcpu_tb_exec_cb(struct qemu_plugin_tb *, void (*)(unsigned, void *), enum qemu_plugin_cb_flags, void *);
void qemu_plugin_register_atexit_cb(qemu_plugin_id_t, void (*)(qemu_plugin_id_t, void *), void *);
size_t qemu_plugin_tb_n_insns(const struct qemu_plugin_tb *);
struct qemu_plugin_insn *qemu_plugin_tb_get_insn(const struct qemu_plugin_tb *, size_t);
const char *qemu_plugin_insn_symbol(const struct qemu_plugin_insn *);
void qemu_plugin_outs(const char *);

__attribute__((visibility("default"))) int qemu_plugin_version = 1;

#define MOST_PARTS 4096
static uint64_t parts[MOST_PARTS];
static size_t part;

/* A run of instructions without a jump is executed whole. */
static void run(unsigned cpu, void *length)
{
    (void)cpu;
    parts[part] += (uintptr_t)length;
}

/* bench_mark is such a run by itself: whoever calls it ends one, and so does its return. */
static void mark(unsigned cpu, void *length)
{
    if (part + 1 < MOST_PARTS)
        part++;
    run(cpu, length);
}

static void translated(qemu_plugin_id_t id, struct qemu_plugin_tb *tb)
{
    uintptr_t length = qemu_plugin_tb_n_insns(tb);
    const char *name = qemu_plugin_insn_symbol(qemu_plugin_tb_get_insn(tb, 0));

    (void)id;
    qemu_plugin_register_vcpu_tb_exec_cb(tb, name && strcmp(name, "bench_mark") == 0 ? mark : run, QEMU_PLUGIN_CB_NO_REGS, (void *)length);
}

static void ended(qemu_plugin_id_t id, void *unused)
{
    char line[32];
    size_t at;

    (void)id;
    (void)unused;
    for (at = 0; at <= part; at++) {
        snprintf(line, sizeof line, "%" PRIu64 "\n", parts[at]);
        qemu_plugin_outs(line);
    }
}

__attribute__((visibility("default"))) int qemu_plugin_install(qemu_plugin_id_t id, const qemu_info_t *info, int argc, char **argv)
{
    (void)info;
    (void)argc;
    (void)argv;
    qemu_plugin_register_vcpu_tb_trans_cb(id, translated);
    qemu_plugin_register_atexit_cb(id, ended, NULL);
    return 0;
}
