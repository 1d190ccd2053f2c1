/* reads.so: a plugin for qemu-user (TCG) that counts what a call reads of its file, and of words beside it. The program says where the file
 * stands by a write to file descriptor 1000, which nothing has, where the words do by one to 1002, and that the call is over by one to 1001.
 * Between them, each load from there is counted.
 * At the end it prints the calls, the loads in bytes, the bytes read at all, and those read more than once, each added up over the calls;
 * with the argument each=on, before that, of each call the bytes read of the file and of the words.
 * Debian ships no qemu-plugin.h, so the few declarations stand here (plugin API version 1, QEMU 4.2 to 8.x).
 *   gcc -O2 -shared -fPIC -o reads.so reads.c
 *   qemu-x86_64 -plugin ./reads.so[,each=on] -d plugin -D OUT PROGRAM ..
 */
#include <inttypes.h>
#include <stdio.h>
#include <stdlib.h>
#include <string.h>

typedef uint64_t plugin_id;
typedef uint32_t mem_info;
struct tb;
struct insn;
enum { NO_REGISTERS = 0, READS_AND_WRITES = 3 }; /* some versions take reads alone for writes alone */
enum { WRITE = 1, BEGIN = 1000, END = 1001, BESIDE = 1002 }; /* x86-64's number of write; the three file descriptors */

extern void qemu_plugin_register_vcpu_tb_trans_cb(plugin_id, void (*)(plugin_id, struct tb *));
extern void qemu_plugin_register_vcpu_mem_cb(struct insn *, void (*)(unsigned, mem_info, uint64_t, void *), int flags, int rw, void *);
extern void qemu_plugin_register_vcpu_syscall_cb(plugin_id, void (*)(plugin_id, unsigned, int64_t, uint64_t, uint64_t, uint64_t, uint64_t,
                                                                     uint64_t, uint64_t, uint64_t, uint64_t));
extern void qemu_plugin_register_atexit_cb(plugin_id, void (*)(plugin_id, void *), void *);
extern size_t qemu_plugin_tb_n_insns(const struct tb *);
extern struct insn *qemu_plugin_tb_get_insn(const struct tb *, size_t);
extern unsigned qemu_plugin_mem_size_shift(mem_info);
extern _Bool qemu_plugin_mem_is_store(mem_info);
extern void qemu_plugin_outs(const char *);

__attribute__((visibility("default"))) int qemu_plugin_version = 1;

/* what is watched: the file, and the words beside it; length 0 outside a call */
struct part {
    uint64_t start, length;
    uint32_t *times; /* how often each of its bytes was read in this call */
};
static struct part file_part, words_part;
static uint64_t calls, loads, bytes, again;
static _Bool each;

static void count(struct part *part, uint64_t place)
{
    if (place - part->start >= part->length) return;
    part->times[place - part->start]++;
    loads++;
}

static void loaded(unsigned cpu, mem_info info, uint64_t place, void *data)
{
    if (qemu_plugin_mem_is_store(info)) return;
    uint64_t size = 1ull << qemu_plugin_mem_size_shift(info);
    for (uint64_t i = place; i < place + size; i++) {
        count(&file_part, i);
        count(&words_part, i);
    }
}

static void translated(plugin_id id, struct tb *tb)
{
    for (size_t i = 0; i < qemu_plugin_tb_n_insns(tb); i++)
        qemu_plugin_register_vcpu_mem_cb(qemu_plugin_tb_get_insn(tb, i), loaded, NO_REGISTERS, READS_AND_WRITES, NULL);
}

static void begin(struct part *part, uint64_t start, uint64_t length)
{
    part->times = calloc(length, sizeof *part->times);
    if (length && !part->times) abort();
    part->start = start;
    part->length = length;
}

/* Adds up what was read of it, and answers how many bytes that were. */
static uint64_t end(struct part *part)
{
    uint64_t read = 0;
    for (uint64_t i = 0; i < part->length; i++) {
        read += part->times[i] > 0;
        again += part->times[i] > 1;
    }
    bytes += read;
    free(part->times);
    part->times = NULL;
    part->length = 0;
    return read;
}

static void end_both(void)
{
    char line[128];
    if (!file_part.length) return;
    uint64_t of_file = end(&file_part), of_words = end(&words_part);
    snprintf(line, sizeof line, "call file %" PRIu64 " words %" PRIu64 "\n", of_file, of_words);
    if (each) qemu_plugin_outs(line);
}

static void called(plugin_id id, unsigned cpu, int64_t number, uint64_t file, uint64_t place, uint64_t length, uint64_t a4, uint64_t a5,
                   uint64_t a6, uint64_t a7, uint64_t a8)
{
    if (number != WRITE) return;
    if (file == BESIDE) begin(&words_part, place, length);
    if (file == BEGIN || file == END) end_both();
    if (file != BEGIN) return;
    begin(&file_part, place, length);
    calls++;
}

static void ended(plugin_id id, void *data)
{
    char line[256];
    snprintf(line, sizeof line, "calls %" PRIu64 " loads %" PRIu64 " bytes %" PRIu64 " again %" PRIu64 "\n", calls, loads, bytes, again);
    qemu_plugin_outs(line);
}

__attribute__((visibility("default"))) int qemu_plugin_install(plugin_id id, const void *info, int argc, char **argv)
{
    for (int i = 0; i < argc; i++) each = each || !strcmp(argv[i], "each=on");
    qemu_plugin_register_vcpu_tb_trans_cb(id, translated);
    qemu_plugin_register_vcpu_syscall_cb(id, called);
    qemu_plugin_register_atexit_cb(id, ended, NULL);
    return 0;
}
