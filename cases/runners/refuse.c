/* Loaded before the C library: refuses the growth whose number stands in REFUSED_GROWTH, counting from 1, and as many
   after it as REFUSED_MORE says, and then writes one byte to the file number in REFUSED_REPORT. All other growths are
   the C library's. */
#include <stdlib.h>
#include <unistd.h>

extern void *__libc_malloc(size_t);
extern void *__libc_realloc(void *, size_t);

static long number_of(const char *name)
{
    const char *text = getenv(name);
    return text ? strtol(text, 0, 10) : 0;
}

static int is_refused(void)
{
    static long growths;
    long first = number_of("REFUSED_GROWTH");
    growths++;
    if (first == 0 || growths < first || growths > first + number_of("REFUSED_MORE"))
        return 0;
    return write((int)number_of("REFUSED_REPORT"), "r", 1) == 1;
}

void *malloc(size_t size)
{
    return is_refused() ? 0 : __libc_malloc(size);
}

void *realloc(void *block, size_t size)
{
    return is_refused() ? 0 : __libc_realloc(block, size);
}
