/* Refuses requests of memory, loaded before a program by LD_PRELOAD; checks/memory.py builds it.
 *
 * REFUSE_PAGE names a file of at least four words of 64 bits, which is mapped:
 *   0: how many requests were made; 1: which one is refused, from 1 (0: none); 2: 1 where all after it are
 *   refused too; 3: the largest request.
 * A request is a call of malloc, calloc, realloc with more than 0 bytes, a memalign, or mmap without a file.
 */
#define _GNU_SOURCE
#include <errno.h>
#include <fcntl.h>
#include <stdint.h>
#include <stdlib.h>
#include <sys/mman.h>
#include <sys/syscall.h>
#include <unistd.h>

extern void *__libc_malloc(size_t);
extern void *__libc_calloc(size_t, size_t);
extern void *__libc_realloc(void *, size_t);
extern void *__libc_memalign(size_t, size_t);

static volatile uint64_t *page;

static void *mapped(void *at, size_t length, int protection, int flags, int file, off_t place) {
    return (void *)syscall(SYS_mmap, at, length, protection, flags, file, place);
}

__attribute__((constructor)) static void begin(void) {
    const char *name = getenv("REFUSE_PAGE");
    int file = name ? open(name, O_RDWR | O_CLOEXEC) : -1;
    if (file < 0)
        return;
    void *found = mapped(0, 32, PROT_READ | PROT_WRITE, MAP_SHARED, file, 0);
    close(file);
    page = found == MAP_FAILED ? 0 : found;
}

/* Whether this request is refused. */
static int refused(size_t length) {
    if (!page)
        return 0;
    uint64_t number = ++page[0];
    if (length > page[3])
        page[3] = length;
    return page[1] && (number == page[1] || (page[2] && number > page[1]));
}

static void *none(void) {
    errno = ENOMEM;
    return 0;
}

void *malloc(size_t length) { return refused(length) ? none() : __libc_malloc(length); }

void *calloc(size_t count, size_t length) {
    return refused(count * length) ? none() : __libc_calloc(count, length);
}

void *realloc(void *old, size_t length) {
    return length && refused(length) ? none() : __libc_realloc(old, length);
}

void *memalign(size_t step, size_t length) { return refused(length) ? none() : __libc_memalign(step, length); }

void *aligned_alloc(size_t step, size_t length) { return memalign(step, length); }

int posix_memalign(void **at, size_t step, size_t length) {
    void *found = memalign(step, length);
    if (!found)
        return ENOMEM;
    *at = found;
    return 0;
}

void *mmap(void *at, size_t length, int protection, int flags, int file, off_t place) {
    if ((flags & MAP_ANONYMOUS) && refused(length)) {
        errno = ENOMEM;
        return MAP_FAILED;
    }
    return mapped(at, length, protection, flags, file, place);
}

void *mmap64(void *at, size_t length, int protection, int flags, int file, off_t place) {
    return mmap(at, length, protection, flags, file, place);
}
