/*
 * A plugin for QEMU's user emulation that adds up the guest instructions executed and prints the sum at the end.
 * The sum depends on the program and its input alone, so it repeats exactly on any machine.
 */
#include <inttypes.h>
#include <stddef.h>
#include <stdio.h>

/* From QEMU's plugin interface, version 1; its header is not part of the emulator's package. */
typedef uint64_t qemu_plugin_id_t;
struct qemu_plugin_tb;
enum { ADD_TO_U64 = 0 };
extern void qemu_plugin_register_vcpu_tb_trans_cb(qemu_plugin_id_t, void (*)(qemu_plugin_id_t, struct qemu_plugin_tb *));
extern void qemu_plugin_register_vcpu_tb_exec_inline(struct qemu_plugin_tb *, int, void *, uint64_t);
extern void qemu_plugin_register_atexit_cb(qemu_plugin_id_t, void (*)(qemu_plugin_id_t, void *), void *);
extern size_t qemu_plugin_tb_n_insns(const struct qemu_plugin_tb *);

int qemu_plugin_version = 1;

static uint64_t executed;

/* Called once for each piece of code translated: from then on every run of it adds its length. */
static void translated(qemu_plugin_id_t id, struct qemu_plugin_tb *piece) {
    (void)id;
    qemu_plugin_register_vcpu_tb_exec_inline(piece, ADD_TO_U64, &executed, qemu_plugin_tb_n_insns(piece));
}

static void ended(qemu_plugin_id_t id, void *unused) {
    (void)id;
    (void)unused;
    fprintf(stderr, "%" PRIu64 "\n", executed);
}

int qemu_plugin_install(qemu_plugin_id_t id, const void *machine, int argc, char **argv) {
    (void)machine;
    (void)argc;
    (void)argv;
    qemu_plugin_register_vcpu_tb_trans_cb(id, translated);
    qemu_plugin_register_atexit_cb(id, ended, NULL);
    return 0;
}
