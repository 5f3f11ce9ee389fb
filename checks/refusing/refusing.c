// Preloaded: it refuses one growth, read or write of a program, and counts them.
//   REFUSE=malloc:N   the N-th call that asks for memory answers NULL
//   REFUSE=read:N     the N-th read fails with EIO, or write:N, the N-th write to standard output
//   COUNTS=FILE       how many of each there were is written to FILE at the end: malloc, read, write
//   EACH=M,R,W,FILE   for each of so many calls of each kind a copy of the program begins, with this one refused; the descriptor
//                     FILE is sent its status, the lengths of its standard output and its standard error, and both
#define _GNU_SOURCE
#include <errno.h>
#include <fcntl.h>
#include <stdint.h>
#include <stdio.h>
#include <stdlib.h>
#include <string.h>
#include <sys/sendfile.h>
#include <sys/stat.h>
#include <sys/syscall.h>
#include <sys/wait.h>
#include <unistd.h>

extern void *__libc_malloc(size_t);
extern void *__libc_calloc(size_t, size_t);
extern void *__libc_realloc(void *, size_t);
extern void *__libc_memalign(size_t, size_t);

enum { MALLOC, READ, WRITE, KINDS };

static const char *const NAMES[KINDS] = {"malloc:", "read:", "write:"};
static long counts[KINDS], refused[KINDS];
static int is_begun;
// For how many seconds a copy may run.
enum { SECONDS = 60 };

static _Noreturn void end(int status) {
    for (;;)
        syscall(SYS_exit_group, status);
}

// Sends how a copy has ended, and what it has written. The three of them are files.
static void send_end(int results, int status) {
    struct stat about[2];
    if (fstat(STDOUT_FILENO, &about[0]) || fstat(STDERR_FILENO, &about[1]))
        end(1);
    int64_t head[3] = {status, about[0].st_size, about[1].st_size};
    if (syscall(SYS_write, results, head, sizeof head) != sizeof head)
        end(1);
    for (int it = 0; it < 2; it++)
        for (off_t at = 0; at < about[it].st_size;)
            if (sendfile(results, STDOUT_FILENO + it, &at, about[it].st_size - at) <= 0)
                end(1);
}

// Returns in a copy of this process for each call that is refused, and not in this process.
static void copy_for_each(const char *asked) {
    char *rest;
    long numbers[KINDS];
    for (int it = 0; it < KINDS; it++, asked = rest + 1)
        numbers[it] = strtol(asked, &rest, 10);
    int results = atoi(asked);
    for (int kind = 0; kind < KINDS; kind++)
        for (long it = 1; it <= numbers[kind]; it++) {
            for (int file = STDIN_FILENO; file <= STDERR_FILENO; file++)
                if (lseek(file, 0, SEEK_SET) || (file != STDIN_FILENO && ftruncate(file, 0)))
                    end(1);
            pid_t copy = fork();
            if (!copy) {
                close(results);
                alarm(SECONDS);
                refused[kind] = it;
                return;
            }
            int status;
            if (copy < 0 || waitpid(copy, &status, 0) != copy)
                end(1);
            send_end(results, status);
        }
    end(0);
}

__attribute__((constructor)) static void begin(void) {
    if (getenv("EACH"))
        copy_for_each(getenv("EACH"));
    const char *asked = getenv("REFUSE");
    for (int it = 0; asked && it < KINDS; it++)
        if (!strncmp(asked, NAMES[it], strlen(NAMES[it])))
            refused[it] = atol(asked + strlen(NAMES[it]));
    is_begun = 1;
}

static void tell_counts(void) {
    const char *name = getenv("COUNTS");
    if (!name)
        return;
    char text[100];
    int length = snprintf(text, sizeof text, "%ld %ld %ld\n", counts[MALLOC], counts[READ], counts[WRITE]);
    int file = syscall(SYS_openat, AT_FDCWD, name, O_WRONLY | O_CREAT | O_TRUNC, 0600);
    syscall(SYS_write, file, text, length);
}

// What the loader asks for before the program begins isn't counted.
static int is_refused(int kind) { return is_begun && ++counts[kind] == refused[kind]; }

static void *no_memory(void) {
    errno = ENOMEM;
    return NULL;
}

void *malloc(size_t size) { return is_refused(MALLOC) ? no_memory() : __libc_malloc(size); }

void *calloc(size_t count, size_t size) { return is_refused(MALLOC) ? no_memory() : __libc_calloc(count, size); }

void *realloc(void *old, size_t size) { return is_refused(MALLOC) ? no_memory() : __libc_realloc(old, size); }

void *aligned_alloc(size_t align, size_t size) {
    return is_refused(MALLOC) ? no_memory() : __libc_memalign(align, size);
}

int posix_memalign(void **place, size_t align, size_t size) {
    if (is_refused(MALLOC))
        return ENOMEM;
    *place = __libc_memalign(align, size);
    return *place ? 0 : ENOMEM;
}

static ssize_t failed(void) {
    errno = EIO;
    return -1;
}

ssize_t read(int file, void *place, size_t size) {
    return is_refused(READ) ? failed() : syscall(SYS_read, file, place, size);
}

ssize_t write(int file, const void *bytes, size_t size) {
    return file == STDOUT_FILENO && is_refused(WRITE) ? failed() : syscall(SYS_write, file, bytes, size);
}

// A program ends by this call.
void _exit(int status) {
    tell_counts();
    end(status);
}
