/* A plugin for qemu that compares what calls do. A store to the address `begun` begins a call, and one
 * to `ended` ends it. For each call it writes a line to file descriptor 9: the number of the
 * instructions, reads and writes, and a digest of their addresses. With `call`, it writes a line for
 * each of these of that call alone, counted from 1. For tests/constant-time.sh.
 *
 * usage: qemu-ARCH -plugin FILE,begun=ADDRESS,ended=ADDRESS[,call=NUMBER] PROGRAM
 *
 * Debian has no header for plugins, so the functions of qemu are declared here (version 1 of their
 * interface). */
#define _POSIX_C_SOURCE 200809L
#include <inttypes.h>
#include <stdbool.h>
#include <stddef.h>
#include <stdio.h>
#include <stdlib.h>
#include <string.h>

typedef uint64_t plugin_id;
typedef uint32_t access_info;
struct block;
struct instruction;

enum registers { NO_REGISTERS };
enum accesses { READS_AND_WRITES = 3 };

void qemu_plugin_register_vcpu_tb_trans_cb(plugin_id id,
                                           void (*translated)(plugin_id, struct block *));
void qemu_plugin_register_atexit_cb(plugin_id id, void (*exits)(plugin_id, void *), void *data);
size_t qemu_plugin_tb_n_insns(const struct block *block);
struct instruction *qemu_plugin_tb_get_insn(const struct block *block, size_t index);
uint64_t qemu_plugin_insn_vaddr(const struct instruction *instruction);
void qemu_plugin_register_vcpu_insn_exec_cb(struct instruction *instruction,
                                            void (*runs)(unsigned, void *), enum registers,
                                            void *data);
void qemu_plugin_register_vcpu_mem_cb(struct instruction *instruction,
                                      void (*accesses)(unsigned, access_info, uint64_t, void *),
                                      enum registers, enum accesses, void *data);
unsigned qemu_plugin_mem_size_shift(access_info info);
_Bool qemu_plugin_mem_is_store(access_info info);
int qemu_plugin_install(plugin_id id, const void *info, int count, char **arguments);

extern int qemu_plugin_version;
int qemu_plugin_version = 1;

static FILE *lines;
static uint64_t begun;
static uint64_t ended;

/* The call whose events are written, or 0. */
static uint64_t wanted;

static uint64_t calls;
static bool is_inside;
static uint64_t events;
static uint64_t digest;

/* Counts an instruction (`I`), or that so many bytes were read (`L`) or written (`S`). */
static void count(char kind, uint64_t address, unsigned size) {
    if (!is_inside) {
        return;
    }
    if (wanted == calls) {
        fprintf(lines, "%c %" PRIx64 " %u\n", kind, address, size);
    }
    events++;
    digest = (digest ^ address ^ (uint64_t)kind << 56 ^ (uint64_t)size << 48) * 0x9e3779b97f4a7c15;
    digest ^= digest >> 29;
}

static void run_instruction(unsigned processor, void *address) {
    (void)processor;
    count('I', (uintptr_t)address, 0);
}

static void access_memory(unsigned processor, access_info info, uint64_t address, void *data) {
    bool is_store = qemu_plugin_mem_is_store(info);
    (void)processor;
    (void)data;
    if (is_store && address == begun) {
        calls++;
        is_inside = true;
        events = 0;
        digest = 0;
    } else if (is_store && address == ended && is_inside) {
        is_inside = false;
        if (wanted == 0) {
            fprintf(lines, "%" PRIu64 " %" PRIx64 "\n", events, digest);
        }
    } else {
        count(is_store ? 'S' : 'L', address, 1U << qemu_plugin_mem_size_shift(info));
    }
}

static void watch(plugin_id id, struct block *block) {
    size_t len = qemu_plugin_tb_n_insns(block);
    (void)id;
    for (size_t i = 0; i < len; i++) {
        struct instruction *one = qemu_plugin_tb_get_insn(block, i);
        void *address = (void *)(uintptr_t)qemu_plugin_insn_vaddr(one);
        qemu_plugin_register_vcpu_insn_exec_cb(one, run_instruction, NO_REGISTERS, address);
        qemu_plugin_register_vcpu_mem_cb(one, access_memory, NO_REGISTERS, READS_AND_WRITES, NULL);
    }
}

static void end(plugin_id id, void *data) {
    (void)id;
    (void)data;
    fclose(lines);
}

/* Reads `NAME=NUMBER` to *number if the argument has this name. */
static void read_argument(const char *argument, const char *name, int base, uint64_t *number) {
    size_t len = strlen(name);
    if (strncmp(argument, name, len) == 0 && argument[len] == '=') {
        *number = strtoull(argument + len + 1, NULL, base);
    }
}

int qemu_plugin_install(plugin_id id, const void *info, int len, char **arguments) {
    (void)info;
    for (int i = 0; i < len; i++) {
        read_argument(arguments[i], "begun", 16, &begun);
        read_argument(arguments[i], "ended", 16, &ended);
        read_argument(arguments[i], "call", 10, &wanted);
    }
    lines = fdopen(9, "w");
    if (lines == NULL || begun == 0 || ended == 0) {
        return 1;
    }
    qemu_plugin_register_vcpu_tb_trans_cb(id, watch);
    qemu_plugin_register_atexit_cb(id, end, NULL);
    return 0;
}
