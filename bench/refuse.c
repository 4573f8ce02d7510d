// Refuses requests for memory. Loaded before the C library, it counts each `malloc`, `calloc` and `realloc` of a program,
// from 1, and answers those from REFUSE_FROM to REFUSE_TO with none. Where the program ends by `_exit`, the file
// REFUSE_COUNT gets the number of requests, and REFUSE_TOLD the number of those that were refused.
#include <errno.h>
#include <fcntl.h>
#include <stdatomic.h>
#include <stdio.h>
#include <stdlib.h>
#include <sys/syscall.h>
#include <unistd.h>

extern void *__libc_malloc(size_t size);
extern void *__libc_calloc(size_t count, size_t size);
extern void *__libc_realloc(void *block, size_t size);

static atomic_ulong requests;
static atomic_ulong refused;
static unsigned long from, to;

static unsigned long number(const char *name) {
    const char *text = getenv(name);
    return text == NULL ? 0 : strtoul(text, NULL, 10);
}

__attribute__((constructor)) static void begin(void) {
    from = number("REFUSE_FROM");
    to = number("REFUSE_TO");
    atomic_store(&requests, 0);
}

static void tell(const char *name, unsigned long value) {
    const char *path = getenv(name);
    char text[24];
    int file = path == NULL ? -1 : open(path, O_WRONLY | O_CREAT | O_TRUNC, 0600);
    if (file < 0) return;
    if (write(file, text, snprintf(text, sizeof text, "%lu\n", value)) < 0) abort();
    close(file);
}

void _exit(int status) {
    tell("REFUSE_COUNT", atomic_load(&requests));
    tell("REFUSE_TOLD", atomic_load(&refused));
    for (;;) syscall(SYS_exit_group, status);
}

static int is_refused(void) {
    unsigned long at = atomic_fetch_add(&requests, 1) + 1;
    if (from == 0 || at < from || at > to) return 0;
    atomic_fetch_add(&refused, 1);
    errno = ENOMEM;
    return 1;
}

void *malloc(size_t size) { return is_refused() ? NULL : __libc_malloc(size); }

void *calloc(size_t count, size_t size) { return is_refused() ? NULL : __libc_calloc(count, size); }

void *realloc(void *block, size_t size) { return is_refused() ? NULL : __libc_realloc(block, size); }
