/* Counts the allocations of a program that this library is loaded before, and refuses the one whose number is
   REFUSED, or where REFUSED_ON is set that one and all that follow. The count is written to the file COUNTED. */
#include <errno.h>
#include <fcntl.h>
#include <stddef.h>
#include <stdio.h>
#include <stdlib.h>
#include <string.h>
#include <unistd.h>

extern void *__libc_malloc(size_t);
extern void *__libc_calloc(size_t, size_t);
extern void *__libc_realloc(void *, size_t);
extern void *__libc_memalign(size_t, size_t);

static unsigned long count, refused;
static int started, all;

/* What the C library takes before the program starts isn't counted. */
__attribute__((constructor)) static void begin(void) {
    const char *number = getenv("REFUSED");
    refused = number ? strtoul(number, NULL, 10) : 0;
    all = getenv("REFUSED_ON") != NULL;
    started = 1;
}

static int refuses(void) {
    if (!started)
        return 0;
    count++;
    if (refused == 0 || (all ? count < refused : count != refused))
        return 0;
    errno = ENOMEM;
    return 1;
}

void *malloc(size_t size) { return refuses() ? NULL : __libc_malloc(size); }
void *calloc(size_t many, size_t size) { return refuses() ? NULL : __libc_calloc(many, size); }
void *realloc(void *old, size_t size) { return refuses() ? NULL : __libc_realloc(old, size); }
void *memalign(size_t align, size_t size) { return refuses() ? NULL : __libc_memalign(align, size); }
void *aligned_alloc(size_t align, size_t size) { return memalign(align, size); }

int posix_memalign(void **to, size_t align, size_t size) {
    void *made = memalign(align, size);
    if (made == NULL)
        return ENOMEM;
    *to = made;
    return 0;
}

__attribute__((destructor)) static void end(void) {
    const char *name = getenv("COUNTED");
    char line[32];
    int file;
    if (name == NULL || (file = open(name, O_WRONLY | O_CREAT | O_TRUNC, 0666)) < 0)
        return;
    snprintf(line, sizeof line, "%lu\n", count);
    if (write(file, line, strlen(line)) < 0)
        _exit(99);
    close(file);
}
