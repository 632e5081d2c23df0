// Counts reads of depth words and of the minima above them: a plugin for qemu's user mode emulator (package qemu-user). bench/reads builds it and runs the bench under it.
// The bench tells where the words lie by calls of madvise with advice that no system knows (bench/src/reads.rs).
#include <stdint.h>
#include <stdio.h>

// Of qemu-plugin.h, which Debian does not ship.
typedef uint64_t qemu_plugin_id_t;
typedef uint32_t qemu_plugin_meminfo_t;
typedef struct qemu_info_t qemu_info_t;
struct qemu_plugin_tb;
struct qemu_plugin_insn;
extern void qemu_plugin_register_vcpu_tb_trans_cb(qemu_plugin_id_t, void (*)(qemu_plugin_id_t, struct qemu_plugin_tb *));
extern void qemu_plugin_register_vcpu_syscall_cb(qemu_plugin_id_t, void (*)(qemu_plugin_id_t, unsigned, int64_t, uint64_t, uint64_t, uint64_t, uint64_t, uint64_t, uint64_t, uint64_t, uint64_t));
extern void qemu_plugin_register_vcpu_mem_cb(struct qemu_plugin_insn *, void (*)(unsigned, qemu_plugin_meminfo_t, uint64_t, void *), int, int, void *);
extern size_t qemu_plugin_tb_n_insns(const struct qemu_plugin_tb *);
extern struct qemu_plugin_insn *qemu_plugin_tb_get_insn(const struct qemu_plugin_tb *, size_t);
extern unsigned qemu_plugin_mem_size_shift(qemu_plugin_meminfo_t);
extern _Bool qemu_plugin_mem_is_store(qemu_plugin_meminfo_t);
__attribute__((visibility("default"))) int qemu_plugin_version = 1;

enum { MADVISE = 28, WATCH = 7001, SAY = 7002, WATCH_MINIMA = 7003, NO_REGISTERS = 0, READS_AND_WRITES = 3 };
// What is watched: depth words, and minima.
static struct watched {
  uint64_t from, to, bytes_read, bytes_written;
} words, minima;

static void count(struct watched *w, qemu_plugin_meminfo_t how, uint64_t at) {
  if (at - w->from < w->to - w->from)
    *(qemu_plugin_mem_is_store(how) ? &w->bytes_written : &w->bytes_read) += 1ull << qemu_plugin_mem_size_shift(how);
}

static void touched(unsigned cpu, qemu_plugin_meminfo_t how, uint64_t at, void *unused) {
  (void)cpu, (void)unused;
  count(&words, how, at);
  count(&minima, how, at);
}

static void translated(qemu_plugin_id_t id, struct qemu_plugin_tb *block) {
  (void)id;
  for (size_t i = 0; i < qemu_plugin_tb_n_insns(block); i++)
    qemu_plugin_register_vcpu_mem_cb(qemu_plugin_tb_get_insn(block, i), touched, NO_REGISTERS, READS_AND_WRITES, NULL);
}

static void called(qemu_plugin_id_t id, unsigned cpu, int64_t number, uint64_t a, uint64_t b, uint64_t c, uint64_t d, uint64_t e, uint64_t f, uint64_t g, uint64_t h) {
  (void)id, (void)cpu, (void)d, (void)e, (void)f, (void)g, (void)h;
  if (number != MADVISE) return;
  if (c == WATCH) words = (struct watched){a, a + b, 0, 0};
  if (c == WATCH_MINIMA) minima = (struct watched){a, a + b, 0, 0};
  if (c == SAY) {
    fprintf(stderr, " %8llu words read, %8llu written; %8llu minima read, %8llu written\n", (unsigned long long)words.bytes_read / 4,
            (unsigned long long)words.bytes_written / 4, (unsigned long long)minima.bytes_read / 4, (unsigned long long)minima.bytes_written / 4);
    words = minima = (struct watched){0, 0, 0, 0};
  }
}

__attribute__((visibility("default"))) int qemu_plugin_install(qemu_plugin_id_t id, const qemu_info_t *info, int argc, char **argv) {
  (void)info, (void)argc, (void)argv;
  qemu_plugin_register_vcpu_tb_trans_cb(id, translated);
  qemu_plugin_register_vcpu_syscall_cb(id, called);
  return 0;
}
