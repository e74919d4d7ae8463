/* A plugin of qemu-user that counts the instructions a program executes, and prints the number on standard error when it ends; with the
   words from=ADDRESS and to=ADDRESS it counts those that stand there, up to the second address. What it uses of the plugin interface,
   version 1, is declared here: Debian's package has no header for it. */
#include <stdbool.h>
#include <stddef.h>
#include <stdint.h>
#include <stdio.h>
#include <stdlib.h>
#include <string.h>

typedef uint64_t qemu_plugin_id_t;
typedef struct qemu_info_t qemu_info_t;
struct qemu_plugin_tb;

extern void qemu_plugin_register_vcpu_tb_trans_cb(qemu_plugin_id_t, void (*)(qemu_plugin_id_t, struct qemu_plugin_tb *));
extern size_t qemu_plugin_tb_n_insns(const struct qemu_plugin_tb *);
extern uint64_t qemu_plugin_tb_vaddr(const struct qemu_plugin_tb *);
extern void qemu_plugin_register_vcpu_tb_exec_inline(struct qemu_plugin_tb *, int, void *, uint64_t);
extern void qemu_plugin_register_atexit_cb(qemu_plugin_id_t, void (*)(qemu_plugin_id_t, void *), void *);

#define SHOWN __attribute__((visibility("default")))
/* QEMU_PLUGIN_INLINE_ADD_U64 */
#define ADD 0

SHOWN int qemu_plugin_version = 1;

static uint64_t count, from = 0, to = UINT64_MAX;

/* Each block of instructions that is counted, once translated, adds their number whenever it runs. */
static void translated(qemu_plugin_id_t id, struct qemu_plugin_tb *block) {
    uint64_t at = qemu_plugin_tb_vaddr(block);

    (void)id;
    if (at >= from && at < to) qemu_plugin_register_vcpu_tb_exec_inline(block, ADD, &count, qemu_plugin_tb_n_insns(block));
}

static void ended(qemu_plugin_id_t id, void *unused) {
    (void)id, (void)unused;
    fprintf(stderr, "insns %llu\n", (unsigned long long)count);
}

SHOWN int qemu_plugin_install(qemu_plugin_id_t id, const qemu_info_t *info, int argc, char **argv) {
    int i;

    (void)info;
    for (i = 0; i < argc; i++) {
        if (strncmp(argv[i], "from=", 5) == 0) from = strtoull(argv[i] + 5, NULL, 16);
        if (strncmp(argv[i], "to=", 3) == 0) to = strtoull(argv[i] + 3, NULL, 16);
    }
    qemu_plugin_register_vcpu_tb_trans_cb(id, translated);
    qemu_plugin_register_atexit_cb(id, ended, NULL);
    return 0;
}
