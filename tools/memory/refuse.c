/* Preloaded into a program, this refuses the requests for memory that a tester names in a page that
   the two share, the file of the environment variable REFUSING: so many requests are let pass from
   now on and the next one is refused, or each one is, or none. Requests are counted meanwhile. */
#define _GNU_SOURCE
#include <dlfcn.h>
#include <errno.h>
#include <fcntl.h>
#include <stdlib.h>
#include <string.h>
#include <sys/mman.h>
#include <unistd.h>

enum { NONE, NTH, EACH };
static struct page { long mode, nth, met, refused; } *page;

extern void *__libc_malloc(size_t), *__libc_calloc(size_t, size_t), *__libc_realloc(void *, size_t);
static void *(*take)(size_t) = __libc_malloc;
static void *(*take_zeros)(size_t, size_t) = __libc_calloc;
static void *(*take_other)(void *, size_t) = __libc_realloc;

static int refuses(void) {
    if (!page || __atomic_load_n(&page->mode, __ATOMIC_SEQ_CST) == NONE) return 0;
    long met = __atomic_add_fetch(&page->met, 1, __ATOMIC_SEQ_CST);
    if (page->mode == NTH && met != page->nth) return 0;
    __atomic_add_fetch(&page->refused, 1, __ATOMIC_SEQ_CST);
    errno = ENOMEM;
    return 1;
}

static void *any(size_t size) { return refuses() ? 0 : take(size); }
static void *zeros(size_t count, size_t size) { return refuses() ? 0 : take_zeros(count, size); }
static void *other(void *old, size_t size) { return refuses() ? 0 : take_other(old, size); }
void *malloc(size_t) __attribute__((alias("any")));
void *calloc(size_t, size_t) __attribute__((alias("zeros")));
void *realloc(void *, size_t) __attribute__((alias("other")));

#ifdef __x86_64__
/* A place for a jump that four bytes reach from an entry. */
static unsigned char *place_near(unsigned char *entry) {
    for (long away = 1L << 20; away < 1L << 30; away += 1L << 20) {
        void *hint = (void *)(((unsigned long)entry - away) & ~4095UL);
        void *found = mmap(hint, 4096, PROT_READ | PROT_WRITE | PROT_EXEC,
                           MAP_PRIVATE | MAP_ANONYMOUS | MAP_FIXED_NOREPLACE, -1, 0);
        if (found == hint) return found;
    }
    return 0;
}

/* A build that checks itself has these functions of its own, each entry one jump, which is turned
   here: what the entry led to is what hands memory out. */
static void turn(const char *name, void *own, void *taker) {
    unsigned char *entry = dlsym(RTLD_DEFAULT, name), *place;
    if (!entry || entry == own || *entry != 0xe9 || !(place = place_near(entry))) return;
    int there, here = (int)(place - entry - 5);
    memcpy(&there, entry + 1, 4);
    *(void **)taker = entry + 5 + there;
    memcpy(place, "\xff\x25\0\0\0\0", 6);
    memcpy(place + 6, &own, 8);
    unsigned char *whole = (unsigned char *)((unsigned long)entry & ~4095UL);
    if (mprotect(whole, 8192, PROT_READ | PROT_WRITE | PROT_EXEC)) return;
    memcpy(entry + 1, &here, 4);
    mprotect(whole, 8192, PROT_READ | PROT_EXEC);
}
#endif

__attribute__((constructor)) static void begin(void) {
    const char *name = getenv("REFUSING");
    int file = name ? open(name, O_RDWR | O_CLOEXEC) : -1;
    if (file < 0) return;
    void *found = mmap(0, sizeof *page, PROT_READ | PROT_WRITE, MAP_SHARED, file, 0);
    close(file);
    if (found == MAP_FAILED) return;
#ifdef __x86_64__
    turn("malloc", any, &take);
    turn("calloc", zeros, &take_zeros);
    turn("realloc", other, &take_other);
#endif
    page = found;
}
