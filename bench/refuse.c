/* For memory.py: refuses the allocation of the number REFUSE of the program that it is loaded into, or, where REFUSE is
   "write", all allocations after the program has written to its output. Writes the file REFUSED when it refuses one. */
#include <errno.h>
#include <fcntl.h>
#include <stdlib.h>
#include <string.h>
#include <sys/syscall.h>
#include <unistd.h>

extern void *__libc_malloc(size_t size);
extern void *__libc_calloc(size_t count, size_t size);
extern void *__libc_realloc(void *place, size_t size);

static long left = -1;
static int waits_for_output, refuses_all;

static int is_refused(void) {
    if (left < 0) {
        const char *number = getenv("REFUSE");
        waits_for_output = number && strcmp(number, "write") == 0;
        left = number ? atol(number) : 0;
    }
    if (!refuses_all && (left == 0 || --left != 0)) return 0;
    const char *path = getenv("REFUSED");
    if (path) close(open(path, O_CREAT | O_WRONLY, 0600));
    errno = ENOMEM;
    return 1;
}

void *malloc(size_t size) { return is_refused() ? NULL : __libc_malloc(size); }

void *calloc(size_t count, size_t size) { return is_refused() ? NULL : __libc_calloc(count, size); }

void *realloc(void *place, size_t size) { return is_refused() ? NULL : __libc_realloc(place, size); }

ssize_t write(int file, const void *bytes, size_t count) {
    if (file == STDOUT_FILENO && waits_for_output) refuses_all = 1;
    return syscall(SYS_write, file, bytes, count);
}
