/* How many instructions a program executes: a plugin of the emulator (qemu-user, its plugins' interface version 1).
 * The count so far goes to standard error, a line "counted N", whenever the program asks for its process's number (getpid),
 * and once more when it ends. It is exact, whatever else the machine does; `rep movs` counts once for each turn. */
#include <inttypes.h>
#include <stdbool.h>
#include <stddef.h>
#include <stdio.h>

/* The part of qemu-plugin.h that is used; Debian has no package with it. */
typedef uint64_t qemu_plugin_id_t;
struct qemu_plugin_tb;
struct qemu_plugin_insn;
enum qemu_plugin_op { QEMU_PLUGIN_INLINE_ADD_U64 };
typedef void on_block(qemu_plugin_id_t, struct qemu_plugin_tb *);
typedef void on_call(qemu_plugin_id_t, unsigned, int64_t, uint64_t, uint64_t, uint64_t, uint64_t, uint64_t, uint64_t,
                     uint64_t, uint64_t);
typedef void on_end(qemu_plugin_id_t, void *);
void qemu_plugin_register_vcpu_tb_trans_cb(qemu_plugin_id_t, on_block *);
void qemu_plugin_register_vcpu_insn_exec_inline(struct qemu_plugin_insn *, enum qemu_plugin_op, void *, uint64_t);
void qemu_plugin_register_vcpu_syscall_cb(qemu_plugin_id_t, on_call *);
void qemu_plugin_register_atexit_cb(qemu_plugin_id_t, on_end *, void *);
size_t qemu_plugin_tb_n_insns(const struct qemu_plugin_tb *);
struct qemu_plugin_insn *qemu_plugin_tb_get_insn(const struct qemu_plugin_tb *, size_t);

#define SEEN __attribute__((visibility("default")))
SEEN int qemu_plugin_version = 1;

enum { GETPID = 39 }; /* of Linux on x86-64 */

static uint64_t counted;

static void tell(void) { fprintf(stderr, "counted %" PRIu64 "\n", counted); }

static void block(qemu_plugin_id_t id, struct qemu_plugin_tb *tb) {
    (void)id;
    for (size_t i = 0; i < qemu_plugin_tb_n_insns(tb); i++)
        qemu_plugin_register_vcpu_insn_exec_inline(qemu_plugin_tb_get_insn(tb, i), QEMU_PLUGIN_INLINE_ADD_U64, &counted, 1);
}

static void called(qemu_plugin_id_t id, unsigned cpu, int64_t number, uint64_t a, uint64_t b, uint64_t c, uint64_t d,
                   uint64_t e, uint64_t f, uint64_t g, uint64_t h) {
    (void)id, (void)cpu, (void)a, (void)b, (void)c, (void)d, (void)e, (void)f, (void)g, (void)h;
    if (number == GETPID)
        tell();
}

static void ended(qemu_plugin_id_t id, void *unused) {
    (void)id, (void)unused;
    tell();
}

SEEN int qemu_plugin_install(qemu_plugin_id_t id, const void *info, int count, char **words) {
    (void)info, (void)count, (void)words;
    qemu_plugin_register_vcpu_tb_trans_cb(id, block);
    qemu_plugin_register_vcpu_syscall_cb(id, called);
    qemu_plugin_register_atexit_cb(id, ended, NULL);
    return 0;
}
