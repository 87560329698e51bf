/*
 * Refuses one request for memory: a library that is preloaded before a program under test.
 *
 *   REFUSE_REQUEST=N     the Nth request of the process is refused, counted from 1 over all threads; all others are granted
 *   REFUSE_REPORT=FILE   made at the moment of the refusal: a run that leaves no such file had no request refused
 *
 * A request is a call of malloc, calloc, realloc, posix_memalign, aligned_alloc or memalign; freeing is none.
 * The calls behind these names are those of the GNU C library.
 */

#include <errno.h>
#include <fcntl.h>
#include <stddef.h>
#include <stdlib.h>
#include <unistd.h>

extern void *__libc_malloc(size_t size);
extern void *__libc_calloc(size_t count, size_t size);
extern void *__libc_realloc(void *old, size_t size);
extern void *__libc_memalign(size_t alignment, size_t size);

static unsigned long refused_request;
static const char *report;
static unsigned long requests;

/* Runs before the program proper: what the loader asked for earlier is not the program's, and is not counted. */
__attribute__((constructor)) static void read_settings(void) {
    const char *request = getenv("REFUSE_REQUEST");
    report = getenv("REFUSE_REPORT");
    requests = 0;
    if (request != NULL) {
        refused_request = strtoul(request, NULL, 10);
    }
}

/* Counts a request, and says whether it is the one to be refused. */
static int is_refused(void) {
    unsigned long number = __atomic_add_fetch(&requests, 1, __ATOMIC_SEQ_CST);
    if (refused_request == 0 || number != refused_request) {
        return 0;
    }
    if (report != NULL) {
        int file = open(report, O_WRONLY | O_CREAT | O_TRUNC, 0600);
        if (file >= 0) {
            close(file);
        }
    }
    errno = ENOMEM;
    return 1;
}

void *malloc(size_t size) {
    return is_refused() ? NULL : __libc_malloc(size);
}

void *calloc(size_t count, size_t size) {
    return is_refused() ? NULL : __libc_calloc(count, size);
}

void *realloc(void *old, size_t size) {
    return is_refused() ? NULL : __libc_realloc(old, size);
}

void *memalign(size_t alignment, size_t size) {
    return is_refused() ? NULL : __libc_memalign(alignment, size);
}

void *aligned_alloc(size_t alignment, size_t size) {
    return memalign(alignment, size);
}

int posix_memalign(void **given, size_t alignment, size_t size) {
    void *memory = memalign(alignment, size);
    if (memory == NULL) {
        return ENOMEM;
    }
    *given = memory;
    return 0;
}
