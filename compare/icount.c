/* SPDX-License-Identifier: Apache-2.0 AND BSD-3-Clause */
/*
 * A plugin for qemu-x86_64: counts the instructions that a program executes between its marks, and prints `icount: N`
 * at the end, on standard error. The marks are those of callgrind: `xchg %rbx, %rbx` is the last instruction of its
 * requests, and does nothing by itself.
 *
 * Callgrind leaves out five instructions of each mark that ends a stretch, which are executed here, so they are taken
 * off. What is declared below is QEMU's interface for plugins, version 1.
 */
#include <inttypes.h>
#include <stdbool.h>
#include <stddef.h>
#include <stdio.h>
#include <string.h>

struct qemu_plugin_tb;
struct qemu_plugin_insn;
enum flags { NO_REGISTERS };

void qemu_plugin_register_vcpu_tb_trans_cb(uint64_t id, void (*translated)(uint64_t, struct qemu_plugin_tb *));
void qemu_plugin_register_atexit_cb(uint64_t id, void (*ended)(uint64_t, void *), void *data);
void qemu_plugin_register_vcpu_insn_exec_cb(struct qemu_plugin_insn *insn, void (*executed)(unsigned, void *),
                                            enum flags flags, void *data);
size_t qemu_plugin_tb_n_insns(const struct qemu_plugin_tb *block);
struct qemu_plugin_insn *qemu_plugin_tb_get_insn(const struct qemu_plugin_tb *block, size_t index);
const void *qemu_plugin_insn_data(const struct qemu_plugin_insn *insn);
size_t qemu_plugin_insn_size(const struct qemu_plugin_insn *insn);
int qemu_plugin_install(uint64_t id, const void *info, int argc, char **argv);

extern int qemu_plugin_version;
int qemu_plugin_version = 1;

static const uint64_t OF_A_MARK = 5;
static const unsigned char MARK[] = { 0x48, 0x87, 0xdb };

static bool counting;
static uint64_t count;

static void one(unsigned cpu, void *data)
{
    (void)cpu, (void)data;
    if (counting)
        count++;
}

static void mark(unsigned cpu, void *data)
{
    (void)cpu, (void)data;
    if (counting)
        count -= OF_A_MARK;
    counting = !counting;
}

static void translated(uint64_t id, struct qemu_plugin_tb *block)
{
    (void)id;
    for (size_t i = 0; i < qemu_plugin_tb_n_insns(block); i++) {
        struct qemu_plugin_insn *insn = qemu_plugin_tb_get_insn(block, i);
        bool marks = qemu_plugin_insn_size(insn) == sizeof MARK &&
                     memcmp(qemu_plugin_insn_data(insn), MARK, sizeof MARK) == 0;
        qemu_plugin_register_vcpu_insn_exec_cb(insn, marks ? mark : one, NO_REGISTERS, NULL);
    }
}

static void ended(uint64_t id, void *data)
{
    (void)id, (void)data;
    fprintf(stderr, "icount: %" PRIu64 "\n", count);
    fflush(stderr);
}

int qemu_plugin_install(uint64_t id, const void *info, int argc, char **argv)
{
    (void)info, (void)argc, (void)argv;
    qemu_plugin_register_vcpu_tb_trans_cb(id, translated);
    qemu_plugin_register_atexit_cb(id, ended, NULL);
    return 0;
}
