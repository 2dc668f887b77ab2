/* Preloaded into a program: of its allocations, those from number REFUSE_FIRST on, REFUSE_COUNT of
   them, find no memory; the calls of all threads are counted together. Each that is refused writes a line on standard
   error. If REFUSE_ONLY is realloc, only the calls of realloc are counted and refused. If REFUSE_PLACES is a
   file descriptor, a line for each that is refused goes there: the call, the bytes it asked for, and where it was
   made, as the offsets of return addresses in the file of the program or, with a `!`, of a library, the innermost
   first. These are found by frame pointers, so they are there only as far as the program keeps them. */
#define _GNU_SOURCE
#include <dlfcn.h>
#include <errno.h>
#include <stdio.h>
#include <stdlib.h>
#include <string.h>
#include <sys/uio.h>
#include <unistd.h>

#define MOST_FRAMES 64

void *__libc_malloc(size_t);
void *__libc_calloc(size_t, size_t);
void *__libc_realloc(void *, size_t);

static unsigned long first, behind, made;
static int only_realloc, places = -1;

static unsigned long number_of(const char *name, unsigned long otherwise) {
    const char *text = getenv(name);
    return text ? strtoul(text, 0, 10) : otherwise;
}

__attribute__((constructor)) static void begin(void) {
    const char *only = getenv("REFUSE_ONLY");
    made = 0;
    only_realloc = only && !strcmp(only, "realloc");
    first = number_of("REFUSE_FIRST", 0);
    behind = first + number_of("REFUSE_COUNT", 1);
    places = (int)number_of("REFUSE_PLACES", -1UL);
}

/* Two words of the stack, if they can be read: no frame pointer need be there. */
static int read_frame(unsigned long *at, unsigned long words[2]) {
    struct iovec to = {words, 16}, from = {at, 16};
    return process_vm_readv(getpid(), &to, 1, &from, 1, 0) == 16;
}

static void tell_places(const char *call, size_t size) {
    char line[MOST_FRAMES * 20 + 100];
    int used = snprintf(line, sizeof line, "%s %zu", call, size);
    unsigned long *at = __builtin_frame_address(0), words[2];
    for (int depth = 0; depth < MOST_FRAMES && read_frame(at, words); depth++) {
        Dl_info found;
        if (dladdr((void *)words[1], &found) && found.dli_fname)
            used += snprintf(line + used, sizeof line - used, " %lx%s", words[1] - (unsigned long)found.dli_fbase,
                             strstr(found.dli_fname, ".so") ? "!" : "");
        if ((unsigned long *)words[0] <= at)
            break;
        at = (unsigned long *)words[0];
    }
    line[used++] = '\n';
    if (write(places, line, used) != used)
        _exit(99);
}

static int refused(int is_realloc, const char *call, size_t size) {
    unsigned long number;
    if (!first || (only_realloc && !is_realloc))
        return 0;
    number = __atomic_add_fetch(&made, 1, __ATOMIC_RELAXED);
    if (number < first || number >= behind || write(2, "refused\n", 8) != 8)
        return 0;
    if (places >= 0)
        tell_places(call, size);
    errno = ENOMEM;
    return 1;
}

void *malloc(size_t size) { return refused(0, "malloc", size) ? 0 : __libc_malloc(size); }
void *calloc(size_t count, size_t size) { return refused(0, "calloc", count * size) ? 0 : __libc_calloc(count, size); }
void *realloc(void *old, size_t size) { return refused(1, "realloc", size) ? 0 : __libc_realloc(old, size); }
