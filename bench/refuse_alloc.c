/* Refuses one allocation of a program, or counts them all. Loaded before the C library:
 *   cc -shared -fPIC -O2 -o refuse_alloc.so refuse_alloc.c
 *   REFUSE=7 LD_PRELOAD=./refuse_alloc.so PROGRAM
 * REFUSE is the number of the allocation that is refused, from 1; 0 refuses none. Where COUNT names a
 * file, the number of allocations is written there as the program ends. */
#include <errno.h>
#include <fcntl.h>
#include <stddef.h>
#include <stdio.h>
#include <stdlib.h>
#include <sys/syscall.h>
#include <unistd.h>

void *__libc_malloc(size_t);
void *__libc_calloc(size_t, size_t);
void *__libc_realloc(void *, size_t);
void *__libc_memalign(size_t, size_t);

static unsigned long made;
static unsigned long refused;
static int counts;

__attribute__((constructor)) static void begin(void) {
    const char *number = getenv("REFUSE");
    refused = number ? strtoul(number, NULL, 10) : 0;
    counts = 1;
}

static void tell(void) {
    const char *path = getenv("COUNT");
    counts = 0;
    if (path) {
        char text[32];
        int len = snprintf(text, sizeof text, "%lu\n", made);
        int file = open(path, O_WRONLY | O_CREAT | O_TRUNC, 0644);
        if (file >= 0) {
            if (write(file, text, (size_t)len) != len)
                perror("refuse_alloc");
            close(file);
        }
    }
}

/* The program ends by this call, which runs no destructor. */
void _exit(int status) {
    tell();
    syscall(SYS_exit_group, status);
    __builtin_unreachable();
}

static int is_refused(void) {
    return counts && __atomic_add_fetch(&made, 1, __ATOMIC_SEQ_CST) == refused;
}

void *malloc(size_t size) { return is_refused() ? (errno = ENOMEM, NULL) : __libc_malloc(size); }

void *calloc(size_t count, size_t size) {
    return is_refused() ? (errno = ENOMEM, NULL) : __libc_calloc(count, size);
}

void *realloc(void *old, size_t size) {
    return is_refused() ? (errno = ENOMEM, NULL) : __libc_realloc(old, size);
}

void *aligned_alloc(size_t alignment, size_t size) {
    return is_refused() ? (errno = ENOMEM, NULL) : __libc_memalign(alignment, size);
}

void *memalign(size_t alignment, size_t size) {
    return is_refused() ? (errno = ENOMEM, NULL) : __libc_memalign(alignment, size);
}

int posix_memalign(void **out, size_t alignment, size_t size) {
    void *got = is_refused() ? NULL : __libc_memalign(alignment, size);
    if (!got)
        return ENOMEM;
    *out = got;
    return 0;
}
