/* Loaded before a program (LD_PRELOAD), it counts the program's growths, reads and writes, and refuses some of them.

   What is refused stands in the environment; each number counts from 1, and none of it is required:
     HOSTILE_GROWTH=N        the Nth growth (malloc, calloc, realloc, aligned_alloc, posix_memalign) is refused; with N.. it and all later
     HOSTILE_READ=N HOW      what becomes of the Nth read; N.. of it and all later ones; N/2 of it and every second one after it
     HOSTILE_WRITE=N HOW     the same of the writes to HOSTILE_DESCRIPTOR (1)
     HOSTILE_READ_MOST=M     a read moves at most M bytes; HOSTILE_WRITE_MOST=M, so does a write to that descriptor
     HOSTILE_MEMORY=BYTES    the greatest address space; HOSTILE_STACK=BYTES, the greatest stack of the first thread
     HOSTILE_REPORT=FILE     a file of eight 64-bit words, mapped and counted in: the growths, the refused ones, the reads, those that
                             failed here, the writes to the descriptor, those that failed here, and two words of 0
   HOW is the number of an error, or 0: then no byte is moved, which ends a text that is read.
   The counts stand in the file however the program ends. Calls that come before this library is set up are neither counted nor refused. */
#define _GNU_SOURCE
#include <errno.h>
#include <fcntl.h>
#include <stddef.h>
#include <stdint.h>
#include <stdlib.h>
#include <string.h>
#include <sys/mman.h>
#include <sys/resource.h>
#include <sys/syscall.h>
#include <sys/uio.h>
#include <unistd.h>

extern void *__libc_malloc(size_t);
extern void *__libc_calloc(size_t, size_t);
extern void *__libc_realloc(void *, size_t);
extern void *__libc_memalign(size_t, size_t);

/* Which calls of a sort are meant: the first, and every step-th one after it; with a step of 0 the first alone, with a first of 0 none. */
struct plan {
    uint64_t first, step;
    long how;
};

struct counts {
    uint64_t calls, met;
};

static struct plan growth, reading, writing;
static struct counts kept_here[4];
static struct counts *counts = kept_here;
static int descriptor = 1;
static size_t read_most = SIZE_MAX, write_most = SIZE_MAX;
static int ready;

/* Sets a limit of the process that is in the environment. */
static void limit(const char *name, int resource) {
    char *text = getenv(name);
    struct rlimit bound;
    if (text == NULL)
        return;
    bound.rlim_cur = bound.rlim_max = strtoull(text, NULL, 10);
    if (setrlimit(resource, &bound) != 0)
        _exit(99);
}

static struct plan plan_of(const char *name) {
    struct plan plan = {0, 0, ENOMEM};
    char *rest = getenv(name);
    if (rest == NULL)
        return plan;
    plan.first = strtoull(rest, &rest, 10);
    if (strncmp(rest, "..", 2) == 0) {
        plan.step = 1;
        rest += 2;
    } else if (*rest == '/') {
        plan.step = strtoull(rest + 1, &rest, 10);
    }
    if (*rest == ' ')
        plan.how = strtol(rest + 1, NULL, 10);
    return plan;
}

static size_t size_of(const char *name) {
    char *text = getenv(name);
    return text == NULL ? SIZE_MAX : strtoull(text, NULL, 10);
}

__attribute__((constructor)) static void set_up(void) {
    char *report = getenv("HOSTILE_REPORT"), *which = getenv("HOSTILE_DESCRIPTOR");
    if (report != NULL) {
        int file = open(report, O_RDWR | O_CLOEXEC);
        void *mapped = file < 0 ? MAP_FAILED : mmap(NULL, sizeof kept_here, PROT_READ | PROT_WRITE, MAP_SHARED, file, 0);
        if (mapped == MAP_FAILED)
            _exit(99);
        close(file);
        counts = mapped;
    }
    growth = plan_of("HOSTILE_GROWTH");
    reading = plan_of("HOSTILE_READ");
    writing = plan_of("HOSTILE_WRITE");
    read_most = size_of("HOSTILE_READ_MOST");
    write_most = size_of("HOSTILE_WRITE_MOST");
    if (which != NULL)
        descriptor = atoi(which);
    limit("HOSTILE_STACK", RLIMIT_STACK);
    limit("HOSTILE_MEMORY", RLIMIT_AS);
    ready = 1;
}

/* Counts a call, and tells whether it is one of those that are meant. */
static int is_met(struct counts *sort, struct plan plan) {
    if (!ready)
        return 0;
    uint64_t call = __atomic_add_fetch(&sort->calls, 1, __ATOMIC_SEQ_CST);
    if (plan.first == 0 || call < plan.first)
        return 0;
    if (call != plan.first && (plan.step == 0 || (call - plan.first) % plan.step != 0))
        return 0;
    __atomic_add_fetch(&sort->met, 1, __ATOMIC_SEQ_CST);
    return 1;
}

static int is_refused(void) {
    if (!is_met(&counts[0], growth))
        return 0;
    errno = ENOMEM;
    return 1;
}

void *malloc(size_t size) { return is_refused() ? NULL : __libc_malloc(size); }

void *calloc(size_t count, size_t size) { return is_refused() ? NULL : __libc_calloc(count, size); }

void *realloc(void *block, size_t size) { return is_refused() ? NULL : __libc_realloc(block, size); }

void *aligned_alloc(size_t align, size_t size) { return is_refused() ? NULL : __libc_memalign(align, size); }

int posix_memalign(void **block, size_t align, size_t size) {
    void *made = is_refused() ? NULL : __libc_memalign(align, size);
    if (made == NULL)
        return ENOMEM;
    *block = made;
    return 0;
}

/* What a read or write answers that is failed here. */
static ssize_t failed(long how) {
    if (how == 0)
        return 0;
    errno = (int)how;
    return -1;
}

static size_t least(size_t one, size_t other) { return one < other ? one : other; }

ssize_t read(int file, void *to, size_t size) {
    return is_met(&counts[1], reading) ? failed(reading.how) : syscall(SYS_read, file, to, least(size, read_most));
}

ssize_t write(int file, const void *from, size_t size) {
    if (file != descriptor)
        return syscall(SYS_write, file, from, size);
    return is_met(&counts[2], writing) ? failed(writing.how) : syscall(SYS_write, file, from, least(size, write_most));
}

/* The name under which the kit's programs call it too. */
ssize_t __write(int file, const void *from, size_t size) { return write(file, from, size); }

ssize_t writev(int file, const struct iovec *parts, int count) {
    if (file != descriptor)
        return syscall(SYS_writev, file, parts, count);
    if (is_met(&counts[2], writing))
        return failed(writing.how);
    if (write_most == SIZE_MAX)
        return syscall(SYS_writev, file, parts, count);
    for (int i = 0; i < count; i++)
        if (parts[i].iov_len != 0)
            return syscall(SYS_write, file, parts[i].iov_base, least(parts[i].iov_len, write_most));
    return 0;
}
