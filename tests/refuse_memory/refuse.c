/* Preloaded: lets the allocation whose number is REFUSE fail, counted from 1, and then makes the file REFUSED. Where REFUSE_BETWEEN is set,
   only those between the first and the second write to standard output count. */
#define _GNU_SOURCE
#include <errno.h>
#include <fcntl.h>
#include <stddef.h>
#include <stdlib.h>
#include <sys/syscall.h>
#include <unistd.h>

extern void *__libc_malloc(size_t size);
extern void *__libc_calloc(size_t count, size_t size);
extern void *__libc_realloc(void *old, size_t size);

static unsigned long made, written;

static int is_refused(void) {
    const char *number = getenv("REFUSE");
    const char *mark = getenv("REFUSED");
    if (getenv("REFUSE_BETWEEN") != NULL && __atomic_load_n(&written, __ATOMIC_SEQ_CST) != 1)
        return 0;
    unsigned long now = __atomic_add_fetch(&made, 1, __ATOMIC_SEQ_CST);
    if (number == NULL || mark == NULL || strtoul(number, NULL, 10) != now)
        return 0;
    close(open(mark, O_CREAT | O_WRONLY, 0600));
    errno = ENOMEM;
    return 1;
}

void *malloc(size_t size) { return is_refused() ? NULL : __libc_malloc(size); }

void *calloc(size_t count, size_t size) { return is_refused() ? NULL : __libc_calloc(count, size); }

void *realloc(void *old, size_t size) { return is_refused() ? NULL : __libc_realloc(old, size); }

ssize_t write(int file, const void *bytes, size_t count) {
    if (file == STDOUT_FILENO)
        __atomic_add_fetch(&written, 1, __ATOMIC_SEQ_CST);
    return syscall(SYS_write, file, bytes, count);
}
