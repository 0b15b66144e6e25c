/* Put before the C library (LD_PRELOAD), lets the allocation numbered FAIL_ALLOCATION fail, counted from 1, and writes to the
 * file COUNT_ALLOCATIONS how many there were, once, when the program ends: by `exit`, which runs a destructor, or by `_exit`, which
 * runs none and is therefore defined here. Growing a block counts as an allocation. Where one fails, a line says so on standard
 * error, among what the program itself writes there. */
#define _GNU_SOURCE
#include <dlfcn.h>
#include <errno.h>
#include <fcntl.h>
#include <stdio.h>
#include <stdlib.h>
#include <sys/syscall.h>
#include <unistd.h>

static unsigned long counted;

static const char failing[] = "an allocation fails\n";

static int fails(void) {
    const char *which = getenv("FAIL_ALLOCATION");
    counted++;
    if (!which || strtoul(which, NULL, 10) != counted) return 0;
    if (write(STDERR_FILENO, failing, sizeof failing - 1) < 0) _exit(99);
    return 1;
}

void *malloc(size_t size) {
    static void *(*real)(size_t);
    if (!real) real = (void *(*)(size_t))dlsym(RTLD_NEXT, "malloc");
    return fails() ? NULL : real(size);
}

void *calloc(size_t count, size_t size) {
    static void *(*real)(size_t, size_t);
    if (!real) real = (void *(*)(size_t, size_t))dlsym(RTLD_NEXT, "calloc");
    return fails() ? NULL : real(count, size);
}

void *realloc(void *block, size_t size) {
    static void *(*real)(void *, size_t);
    if (!real) real = (void *(*)(void *, size_t))dlsym(RTLD_NEXT, "realloc");
    return fails() ? NULL : real(block, size);
}

void *aligned_alloc(size_t alignment, size_t size) {
    static void *(*real)(size_t, size_t);
    if (!real) real = (void *(*)(size_t, size_t))dlsym(RTLD_NEXT, "aligned_alloc");
    return fails() ? NULL : real(alignment, size);
}

int posix_memalign(void **block, size_t alignment, size_t size) {
    static int (*real)(void **, size_t, size_t);
    if (!real) real = (int (*)(void **, size_t, size_t))dlsym(RTLD_NEXT, "posix_memalign");
    return fails() ? ENOMEM : real(block, alignment, size);
}

/* The number is taken before anything is called, and nothing that is called here allocates. */
static void report(void) {
    static int has_reported;
    const unsigned long count = counted;
    const char *name = getenv("COUNT_ALLOCATIONS");
    if (!name || has_reported) return;
    has_reported = 1;
    char text[32];
    const int length = snprintf(text, sizeof text, "%lu\n", count);
    const int file = open(name, O_WRONLY | O_CREAT | O_TRUNC, 0644);
    if (file < 0) return;
    if (write(file, text, (size_t)length) != length) unlink(name);
    close(file);
}

__attribute__((destructor)) static void report_at_exit(void) { report(); }

void _exit(int status) {
    report();
    for (;;) syscall(SYS_exit_group, status);
}

void _Exit(int status) { _exit(status); }
