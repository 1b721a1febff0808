/* A library to load before the C library's own calls (LD_PRELOAD), by which tests/hostile refuses memory and breaks
   devices in a program that is built. The environment says what fails; numbers count from 1:
     FAULT_ALLOC=N           the Nth growth of memory is refused, FAULT_ALLOC=N.. that one and all after it
     FAULT_ALLOC=input       each growth is refused once standard input has been read
     FAULT_READ=N            the Nth read of standard input fails
     FAULT_WRITE=FD:OCTETS   the output FD takes so many octets, and then fails
     SHORT_READ=N            a read of standard input gives at most N octets
     SHORT_WRITE=N           a write to an output takes at most N octets
     FAULT_COUNT=FILE        how many growths there were, and how many of them from the second read on, goes to this
                             file at the end */
#define _GNU_SOURCE
#include <errno.h>
#include <stdio.h>
#include <stdlib.h>
#include <string.h>
#include <sys/syscall.h>
#include <unistd.h>

extern void *__libc_malloc(size_t);
extern void *__libc_calloc(size_t, size_t);
extern void *__libc_realloc(void *, size_t);
extern void *__libc_memalign(size_t, size_t);

static long refused, refused_after, refused_input, failed_read, failing_output = -1, left, short_read, short_write;
static long growths, growths_before, reads;
static const char *count;

static long number(const char *name) {
    const char *text = getenv(name);
    return text ? atol(text) : 0;
}

__attribute__((constructor)) static void begin(void) {
    const char *text = getenv("FAULT_ALLOC");
    if (text) {
        refused = atol(text);
        refused_after = strstr(text, "..") != NULL;
        refused_input = strcmp(text, "input") == 0;
    }
    text = getenv("FAULT_WRITE");
    if (text) {
        failing_output = atol(text);
        text = strchr(text, ':');
        left = text ? atol(text + 1) : 0;
    }
    failed_read = number("FAULT_READ");
    short_read = number("SHORT_READ");
    short_write = number("SHORT_WRITE");
    count = getenv("FAULT_COUNT");
    growths = 0;
}

__attribute__((destructor)) static void end(void) {
    char text[64];
    if (!count) return;
    int size = snprintf(text, sizeof text, "%ld %ld\n", growths, reads > 1 ? growths - growths_before : 0);
    FILE *file = fopen(count, "w");
    if (!file) return;
    fwrite(text, 1, (size_t)size, file);
    fclose(file);
}

static int is_refused(void) {
    growths++;
    if (refused_input) return reads > 0;
    return refused && (growths == refused || (refused_after && growths > refused));
}

void *malloc(size_t size) { return is_refused() ? (errno = ENOMEM, (void *)NULL) : __libc_malloc(size); }

void *calloc(size_t many, size_t size) {
    return is_refused() ? (errno = ENOMEM, (void *)NULL) : __libc_calloc(many, size);
}

void *realloc(void *old, size_t size) {
    return is_refused() ? (errno = ENOMEM, (void *)NULL) : __libc_realloc(old, size);
}

void *aligned_alloc(size_t place, size_t size) {
    return is_refused() ? (errno = ENOMEM, (void *)NULL) : __libc_memalign(place, size);
}

int posix_memalign(void **at, size_t place, size_t size) {
    if (is_refused()) return ENOMEM;
    *at = __libc_memalign(place, size);
    return *at ? 0 : ENOMEM;
}

ssize_t read(int input, void *into, size_t size) {
    if (input == 0) {
        reads++;
        if (reads == 2) growths_before = growths;
        if (reads == failed_read) {
            errno = EIO;
            return -1;
        }
        if (short_read && size > (size_t)short_read) size = (size_t)short_read;
    }
    return syscall(SYS_read, input, into, size);
}

static ssize_t put(int output, const void *from, size_t size) {
    if (output == failing_output) {
        if (left == 0 && size > 0) {
            errno = ENOSPC;
            return -1;
        }
        if (size > (size_t)left) size = (size_t)left;
        left -= (long)size;
    }
    if (short_write && (output == 1 || output == 2) && size > (size_t)short_write) size = (size_t)short_write;
    return syscall(SYS_write, output, from, size);
}

ssize_t write(int output, const void *from, size_t size) { return put(output, from, size); }

ssize_t __write(int output, const void *from, size_t size) { return put(output, from, size); }
