/* Loaded before the C library: standard input gives, and standard output takes, at most STOP_AT_ONCE bytes a call.
   After STOP_GIVES or STOP_TAKES bytes in all a call moves no byte: it fails with the error number in STOP_AS, or,
   where that is 0, a write answers 0. What isn't set stops nothing. */
#include <errno.h>
#include <limits.h>
#include <stdlib.h>
#include <sys/syscall.h>
#include <unistd.h>

static long number_of(const char *name, long otherwise)
{
    const char *text = getenv(name);
    return text ? strtol(text, 0, 10) : otherwise;
}

/* The call, cut to what there is room for. */
static ssize_t moved(long call, int file, void *bytes, size_t size, const char *room, long *done)
{
    long rest = number_of(room, LONG_MAX) - *done;
    long most = number_of("STOP_AT_ONCE", LONG_MAX);
    ssize_t count;
    if (rest <= 0 && size > 0) {
        errno = (int)number_of("STOP_AS", 0);
        return errno ? -1 : 0;
    }
    most = most < rest ? most : rest;
    count = syscall(call, file, bytes, (long)size < most ? size : (size_t)most);
    *done += count > 0 ? count : 0;
    return count;
}

ssize_t read(int file, void *bytes, size_t size)
{
    static long done;
    return file == 0 ? moved(SYS_read, file, bytes, size, "STOP_GIVES", &done) : syscall(SYS_read, file, bytes, size);
}

ssize_t write(int file, const void *bytes, size_t size)
{
    static long done;
    if (file != 1)
        return syscall(SYS_write, file, bytes, size);
    return moved(SYS_write, file, (void *)bytes, size, "STOP_TAKES", &done);
}
