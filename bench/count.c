// A plugin of the emulator qemu-x86_64: counts the executed instructions that lie from one address
// up to another, since a third address was last reached, and writes the count when a fourth is.
//   -plugin count.so,from=ADDRESS,to=ADDRESS,since=ADDRESS,until=ADDRESS[,places=FILE]
// With places, FILE has for each count its number and how often each address was executed.
#include <inttypes.h>
#include <stdbool.h>
#include <stdio.h>
#include <stdlib.h>
#include <string.h>

// Of the plugin interface, version 1, what is used here.
typedef uint64_t qemu_plugin_id_t;
struct qemu_plugin_tb;
struct qemu_plugin_insn;
typedef struct qemu_info_t qemu_info_t;
enum qemu_plugin_cb_flags { QEMU_PLUGIN_CB_NO_REGS };
typedef void (*at_translation)(qemu_plugin_id_t, struct qemu_plugin_tb *);
typedef void (*at_execution)(unsigned int, void *);
void qemu_plugin_register_vcpu_tb_trans_cb(qemu_plugin_id_t, at_translation);
void qemu_plugin_register_vcpu_insn_exec_cb(
    struct qemu_plugin_insn *, at_execution, enum qemu_plugin_cb_flags, void *);
size_t qemu_plugin_tb_n_insns(const struct qemu_plugin_tb *);
struct qemu_plugin_insn *qemu_plugin_tb_get_insn(const struct qemu_plugin_tb *, size_t);
uint64_t qemu_plugin_insn_vaddr(const struct qemu_plugin_insn *);

__attribute__((visibility("default"))) int qemu_plugin_version = 1;

static uint64_t from, to, since, until, count, number;
static uint64_t *times;
static FILE *places;

static void counted(unsigned int cpu, void *offset)
{
    (void)cpu;
    count++;
    times[(uintptr_t)offset]++;
}

static void began(unsigned int cpu, void *unused)
{
    (void)cpu;
    (void)unused;
    count = 0;
    memset(times, 0, (to - from) * sizeof *times);
}

static void ended(unsigned int cpu, void *unused)
{
    (void)cpu;
    (void)unused;
    dprintf(1, "%" PRIu64 "\n", count);
    for (uint64_t i = 0; places && i < to - from; i++) {
        if (times[i])
            fprintf(places, "%" PRIu64 " %" PRIx64 " %" PRIu64 "\n", number, from + i, times[i]);
    }
    if (places)
        fflush(places);
    number++;
}

static void translated(qemu_plugin_id_t id, struct qemu_plugin_tb *block)
{
    (void)id;
    for (size_t i = 0; i < qemu_plugin_tb_n_insns(block); i++) {
        struct qemu_plugin_insn *insn = qemu_plugin_tb_get_insn(block, i);
        uint64_t place = qemu_plugin_insn_vaddr(insn);
        if (place >= from && place < to)
            qemu_plugin_register_vcpu_insn_exec_cb(
                insn, counted, QEMU_PLUGIN_CB_NO_REGS, (void *)(uintptr_t)(place - from));
        if (place == since)
            qemu_plugin_register_vcpu_insn_exec_cb(insn, began, QEMU_PLUGIN_CB_NO_REGS, NULL);
        if (place == until)
            qemu_plugin_register_vcpu_insn_exec_cb(insn, ended, QEMU_PLUGIN_CB_NO_REGS, NULL);
    }
}

__attribute__((visibility("default"))) int qemu_plugin_install(
    qemu_plugin_id_t id, const qemu_info_t *info, int argc, char **argv)
{
    (void)info;
    for (int i = 0; i < argc; i++) {
        if (!strncmp(argv[i], "from=", 5))
            from = strtoull(argv[i] + 5, NULL, 16);
        else if (!strncmp(argv[i], "to=", 3))
            to = strtoull(argv[i] + 3, NULL, 16);
        else if (!strncmp(argv[i], "since=", 6))
            since = strtoull(argv[i] + 6, NULL, 16);
        else if (!strncmp(argv[i], "until=", 6))
            until = strtoull(argv[i] + 6, NULL, 16);
        else if (!strncmp(argv[i], "places=", 7))
            places = fopen(argv[i] + 7, "w");
    }
    if (!from || to <= from || !since || !until)
        return 1;
    times = calloc(to - from, sizeof *times);
    if (!times)
        return 1;
    qemu_plugin_register_vcpu_tb_trans_cb(id, translated);
    return 0;
}
