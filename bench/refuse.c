/* Stands before the C library in a run of bench/refuse. It counts allocations, reads of standard input, and writes of standard
   output and standard error, and refuses calls of one of these four kinds.

   REFUSE_CALL     allocation, read, write or line (a write of standard error)
   REFUSE_FIRST    the number of the first call that is refused, from 1 on
   REFUSE_LAST     that of the last one
   REFUSE_HOW      fault, interruption, nothing (no byte is moved), or byte (one is)
   REFUSE_COUNTS   a file that gets the four counts at the end */
#define _GNU_SOURCE
#include <errno.h>
#include <stdio.h>
#include <stdlib.h>
#include <string.h>
#include <sys/syscall.h>
#include <unistd.h>

extern void *__libc_malloc(size_t size);
extern void *__libc_calloc(size_t count, size_t size);
extern void *__libc_realloc(void *old, size_t size);

enum kind { ALLOCATION, READ, WRITE, LINE, KINDS };

static const char *const names[KINDS] = {"allocation", "read", "write", "line"};
static unsigned long counts[KINDS];
static int refused = KINDS;
static unsigned long first, last;
static const char *how = "fault";

static const char *text_of(const char *variable, const char *otherwise) {
    const char *text = getenv(variable);
    return text ? text : otherwise;
}

__attribute__((constructor)) static void begin(void) {
    const char *name = text_of("REFUSE_CALL", "");
    for (int kind = 0; kind < KINDS; kind++)
        if (strcmp(name, names[kind]) == 0)
            refused = kind;
    first = strtoul(text_of("REFUSE_FIRST", "0"), NULL, 10);
    last = strtoul(text_of("REFUSE_LAST", "0"), NULL, 10);
    how = text_of("REFUSE_HOW", how);
}

__attribute__((destructor)) static void end(void) {
    unsigned long seen[KINDS];
    memcpy(seen, counts, sizeof seen);
    FILE *file = fopen(text_of("REFUSE_COUNTS", "/dev/null"), "w");
    if (!file)
        return;
    for (int kind = 0; kind < KINDS; kind++)
        fprintf(file, "%s %lu\n", names[kind], seen[kind]);
    fclose(file);
}

static int is_refused(int kind) {
    unsigned long number = ++counts[kind];
    return kind == refused && first <= number && number <= last;
}

void *malloc(size_t size) {
    return is_refused(ALLOCATION) ? NULL : __libc_malloc(size);
}

void *calloc(size_t count, size_t size) {
    return is_refused(ALLOCATION) ? NULL : __libc_calloc(count, size);
}

void *realloc(void *old, size_t size) {
    return is_refused(ALLOCATION) ? NULL : __libc_realloc(old, size);
}

/* What a refused read or write answers. */
static ssize_t answer(long call, int stream, void *bytes, size_t size) {
    if (strcmp(how, "byte") == 0)
        return syscall(call, stream, bytes, size < 1 ? size : 1);
    if (strcmp(how, "nothing") == 0)
        return 0;
    errno = strcmp(how, "interruption") == 0 ? EINTR : EIO;
    return -1;
}

ssize_t read(int stream, void *bytes, size_t size) {
    if (stream == STDIN_FILENO && is_refused(READ))
        return answer(SYS_read, stream, bytes, size);
    return syscall(SYS_read, stream, bytes, size);
}

ssize_t write(int stream, const void *bytes, size_t size) {
    if ((stream == STDOUT_FILENO && is_refused(WRITE)) || (stream == STDERR_FILENO && is_refused(LINE)))
        return answer(SYS_write, stream, (void *)bytes, size);
    return syscall(SYS_write, stream, bytes, size);
}
