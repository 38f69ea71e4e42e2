// The heap of the module. What Rattle's `Global` takes and gives back goes by the first three functions, as the kit's
// C library has them elsewhere; whoever holds the module has a place for his lines by the last.
//
// A block's size is one of a few classes, four for each doubling, so that a quarter of it is unused at most. A block
// that was given back waits in its class's list for the next of its size. The memory of a WebAssembly module never
// shrinks, so nothing is gained by joining blocks. Each call takes constant time, but for what realloc copies.

typedef __SIZE_TYPE__ size_t;
typedef unsigned char byte;

// Before each block its class; 16 bytes, so that what follows is aligned to 16, as the greatest alignment wants.
enum { HEADER = 16, CLASSES = 160, PAGE = 65536, LEAST_PAGES = 16 };

// No block is larger, header and all: engines give a module less.
static const size_t MOST = (size_t)1 << 40;

typedef struct {
    _Bool ok;
    void *p;
} Tried;

extern byte __heap_base;

static void *waiting[CLASSES];
static byte *top, *end;

// Classes 4k to 4k + 3 are 64, 80, 96 and 112 bytes, times 2^k.
static size_t size_of_class(unsigned class) {
    return (size_t)(4 + class % 4) << (class / 4 + 4);
}

// The smallest class that has room for so many bytes behind its header.
static unsigned class_for(size_t bytes) {
    size_t whole = bytes + HEADER;
    if (whole <= 64) {
        return 0;
    }
    unsigned log = 63 - __builtin_clzll(whole - 1);
    return (log - 6) * 4 + ((whole - 1) >> (log - 2) & 3) + 1;
}

static unsigned *class_of(void *p) {
    return (unsigned *)((byte *)p - HEADER);
}

// Whether so many bytes lie between top and end, once the memory has grown where it had to.
static _Bool make_room(size_t bytes) {
    if (top == 0) {
        top = (byte *)(((size_t)&__heap_base + HEADER - 1) / HEADER * HEADER);
        end = (byte *)(__builtin_wasm_memory_size(0) * PAGE);
    }
    if (bytes <= (size_t)(end - top)) {
        return 1;
    }
    size_t pages = (bytes - (size_t)(end - top) + PAGE - 1) / PAGE;
    size_t more = pages < LEAST_PAGES ? LEAST_PAGES : pages;
    if (__builtin_wasm_memory_grow(0, more) == (size_t)-1) {
        more = pages;
        if (__builtin_wasm_memory_grow(0, more) == (size_t)-1) {
            return 0;
        }
    }
    end += more * PAGE;
    return 1;
}

static void *take(size_t bytes) {
    if (bytes > MOST - HEADER) {
        return 0;
    }
    unsigned class = class_for(bytes);
    void *p = waiting[class];
    if (p != 0) {
        waiting[class] = *(void **)p;
        return p;
    }
    size_t whole = size_of_class(class);
    if (!make_room(whole)) {
        return 0;
    }
    p = top + HEADER;
    top += whole;
    *class_of(p) = class;
    return p;
}

static void give_back(void *p) {
    unsigned class = *class_of(p);
    *(void **)p = waiting[class];
    waiting[class] = p;
}

// New memory of so many bytes. The alignment divides 16.
__attribute__((export_name("rattle_alloc"))) Tried rattle_alloc(size_t bytes, size_t align) {
    (void)align;
    void *p = take(bytes);
    return (Tried){p != 0, p};
}

// A block of another size, whose first kept bytes are as they were. Where there is none the block is as it was.
__attribute__((export_name("rattle_realloc"))) Tried rattle_realloc(void *p, size_t kept, size_t bytes, size_t align) {
    (void)align;
    if (bytes <= MOST - HEADER && class_for(bytes) == *class_of(p)) {
        return (Tried){1, p};
    }
    void *moved = take(bytes);
    if (moved == 0) {
        return (Tried){0, p};
    }
    __builtin_memcpy(moved, p, kept < bytes ? kept : bytes);
    give_back(p);
    return (Tried){1, moved};
}

// Gives a block back.
__attribute__((export_name("rattle_dealloc"))) void rattle_dealloc(void *p) {
    give_back(p);
}

// A block for the module's host, or null.
__attribute__((export_name("weblocks_allocate"))) void *weblocks_allocate(size_t bytes) {
    return take(bytes);
}
