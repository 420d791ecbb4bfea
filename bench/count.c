// A plugin of the emulator qemu-user: counts the instructions of the program that it runs. It
// prints the count so far at each call of getppid, by which drive.c marks, and at the end.
#include <inttypes.h>
#include <stddef.h>
#include <stdio.h>

// What is used of the emulator's interface for plugins, version 1; Debian has no header of it.
typedef uint64_t Id;
typedef struct qemu_plugin_tb Block;
enum { ADD_U64 };
extern size_t qemu_plugin_tb_n_insns(const Block *block);
extern void qemu_plugin_register_vcpu_tb_trans_cb(Id id, void (*each)(Id, Block *));
extern void qemu_plugin_register_vcpu_tb_exec_inline(Block *block, int what, void *to, uint64_t by);
extern void qemu_plugin_register_vcpu_syscall_cb(
    Id id, void (*each)(Id, unsigned, int64_t, uint64_t, uint64_t, uint64_t, uint64_t, uint64_t,
                        uint64_t, uint64_t, uint64_t));
extern void qemu_plugin_register_atexit_cb(Id id, void (*last)(Id, void *), void *);

int qemu_plugin_version = 1;

enum { GETPPID = 110 };
static uint64_t count;

// Each block of instructions adds its number when it is run.
static void translated(Id id, Block *block) {
    (void)id;
    qemu_plugin_register_vcpu_tb_exec_inline(block, ADD_U64, &count, qemu_plugin_tb_n_insns(block));
}

static void called(Id id, unsigned cpu, int64_t number, uint64_t a, uint64_t b, uint64_t c,
                   uint64_t d, uint64_t e, uint64_t f, uint64_t g, uint64_t h) {
    (void)id, (void)cpu, (void)a, (void)b, (void)c, (void)d, (void)e, (void)f, (void)g, (void)h;
    if (number == GETPPID) fprintf(stderr, "mark: %" PRIu64 "\n", count);
}

static void ended(Id id, void *nothing) {
    (void)id, (void)nothing;
    fprintf(stderr, "end: %" PRIu64 "\n", count);
}

int qemu_plugin_install(Id id, const void *about, int words, char **word) {
    (void)about, (void)words, (void)word;
    qemu_plugin_register_vcpu_tb_trans_cb(id, translated);
    qemu_plugin_register_vcpu_syscall_cb(id, called);
    qemu_plugin_register_atexit_cb(id, ended, NULL);
    return 0;
}
