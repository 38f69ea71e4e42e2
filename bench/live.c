/* Loaded before a program, counts what it has by malloc and the like, in the file that LIVE_COUNTS names: how many
   blocks and bytes live now, how many were ever taken, and how many blocks of each size live. The counts are in memory
   that the file shares, so whoever reads the file sees them as they are. A block's bytes are those that it has room
   for. What it takes from the C library is declared here, as in tests/refuse_growth.c. */
typedef unsigned long size;

extern void *__libc_malloc(size bytes);
extern void *__libc_calloc(size count, size bytes);
extern void *__libc_realloc(void *place, size bytes);
extern void *__libc_memalign(size alignment, size bytes);
extern void __libc_free(void *place);
extern size malloc_usable_size(void *place);
extern char *getenv(const char *name);
extern int open(const char *path, int flags, ...);
extern long write(int file, const void *bytes, size count);
extern void *mmap(void *place, size bytes, int protection, int flags, int file, long offset);
extern int close(int file);
extern void _exit(int status);

/* Sizes up to 8 KB stand by 16 bytes, the others by powers of two. */
enum { SMALL = 512, LARGE = 48, PAGE = 4096, PAGES = 2 };

static union {
    struct {
        long bytes, blocks, taken, unused, of_size[SMALL + LARGE];
    };
    char room[PAGES * PAGE];
} counts __attribute__((aligned(4096)));

static int class_of(size bytes) {
    if (bytes < SMALL * 16)
        return bytes / 16;
    return SMALL + (63 - __builtin_clzl(bytes)) - 13;
}

static void add(long *count, long n) { __atomic_fetch_add(count, n, __ATOMIC_RELAXED); }

static void count(void *place, long n) {
    if (!place)
        return;
    size bytes = malloc_usable_size(place);
    add(&counts.bytes, n * (long)bytes);
    add(&counts.blocks, n);
    add(&counts.of_size[class_of(bytes)], n);
    if (n > 0)
        add(&counts.taken, 1);
}

static void *counted(void *place) {
    count(place, 1);
    return place;
}

void *malloc(size bytes) { return counted(__libc_malloc(bytes)); }

void *calloc(size number, size bytes) { return counted(__libc_calloc(number, bytes)); }

void *memalign(size alignment, size bytes) { return counted(__libc_memalign(alignment, bytes)); }

void *aligned_alloc(size alignment, size bytes) { return memalign(alignment, bytes); }

int posix_memalign(void **place, size alignment, size bytes) {
    *place = memalign(alignment, bytes);
    return *place ? 0 : 12;
}

void free(void *place) {
    count(place, -1);
    __libc_free(place);
}

/* (a block that is refused more stays, and counts again) */
void *realloc(void *place, size bytes) {
    count(place, -1);
    void *moved = __libc_realloc(place, bytes);
    if (!moved && bytes)
        counted(place);
    return counted(moved);
}

/* Puts the file's memory in the place of the counts, with what was counted so far. */
__attribute__((constructor)) static void share(void) {
    const char *path = getenv("LIVE_COUNTS");
    int file = path ? open(path, 02 | 0100, 0600) : -1;
    if (file < 0 || write(file, counts.room, sizeof counts.room) != sizeof counts.room)
        _exit(120);
    if (mmap(counts.room, sizeof counts.room, 1 | 2, 1 | 16, file, 0) != counts.room)
        _exit(121);
    close(file);
}
