/* Loaded before the C library: refuses the allocation whose number, from 1, stands in the
   environment as REFUSE_ALLOCATION, with it the next ones where REFUSE_COUNT says how many in
   all, and writes a byte to descriptor 9 for each. It needs no header of the host. */
typedef unsigned long size_t;
#define NULL ((void *)0)
#define RTLD_NEXT ((void *)-1L)
#define ENOMEM 12

void *dlsym(void *handle, const char *name);
char *getenv(const char *name);
long atol(const char *text);
long write(int descriptor, const void *bytes, size_t count);
int *__errno_location(void);

static _Atomic long seen;
static long number = -1;
static long count;

static long number_in(const char *name, long otherwise) {
    const char *text = getenv(name);
    return text ? atol(text) : otherwise;
}

static int is_refused(void) {
    if (number < 0) {
        count = number_in("REFUSE_COUNT", 1);
        number = number_in("REFUSE_ALLOCATION", 0);
    }
    long this = ++seen;
    return number > 0 && this >= number && this < number + count;
}

static void *refuse(void) {
    if (write(9, "!", 1) < 0) { /* nobody listens */ }
    *__errno_location() = ENOMEM;
    return NULL;
}

void *malloc(size_t size) {
    static void *(*next)(size_t);
    if (!next) next = (void *(*)(size_t))dlsym(RTLD_NEXT, "malloc");
    return is_refused() ? refuse() : next(size);
}

void *realloc(void *old, size_t size) {
    static void *(*next)(void *, size_t);
    if (!next) next = (void *(*)(void *, size_t))dlsym(RTLD_NEXT, "realloc");
    return is_refused() ? refuse() : next(old, size);
}

void *aligned_alloc(size_t alignment, size_t size) {
    static void *(*next)(size_t, size_t);
    if (!next) next = (void *(*)(size_t, size_t))dlsym(RTLD_NEXT, "aligned_alloc");
    return is_refused() ? refuse() : next(alignment, size);
}
