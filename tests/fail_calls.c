/* Loaded before the C library: fails the `read` or the `write` of the number, from 1, that stands in
   the environment as FAIL_READ or FAIL_WRITE, and writes a byte to descriptor 9 for it. With SHORT
   each call takes one byte at most. Standard error and descriptor 9 are left alone. It needs no
   header of the host. */
typedef unsigned long size_t;
#define NULL ((void *)0)
#define RTLD_NEXT ((void *)-1L)
#define EIO 5

void *dlsym(void *handle, const char *name);
char *getenv(const char *name);
long atol(const char *text);
int *__errno_location(void);

typedef long (*reader)(int, void *, size_t);
typedef long (*writer)(int, const void *, size_t);

static _Atomic long reads, writes;

static long number_in(const char *name) {
    const char *text = getenv(name);
    return text ? atol(text) : 0;
}

static writer next_write(void) {
    static writer next;
    if (!next) next = (writer)dlsym(RTLD_NEXT, "write");
    return next;
}

static long fail(void) {
    if (next_write()(9, "!", 1) < 0) { /* nobody listens */ }
    *__errno_location() = EIO;
    return -1;
}

static size_t shortened(size_t count) {
    return number_in("SHORT") && count > 1 ? 1 : count;
}

long read(int descriptor, void *bytes, size_t count) {
    static reader next;
    if (!next) next = (reader)dlsym(RTLD_NEXT, "read");
    if (++reads == number_in("FAIL_READ")) return fail();
    return next(descriptor, bytes, shortened(count));
}

long write(int descriptor, const void *bytes, size_t count) {
    if (descriptor == 2 || descriptor == 9) return next_write()(descriptor, bytes, count);
    if (++writes == number_in("FAIL_WRITE")) return fail();
    return next_write()(descriptor, bytes, shortened(count));
}
