// The memory of the module: the three functions that the proved program's allocator calls, and two for the page.
//
// A block is one of a list of sizes: 16, 32, 48 and 64 bytes, then four to each doubling. A freed block waits in the
// list of its size, and is given out again from there. New ones are cut from the end of what is in use, which grows.
// Sixteen bytes before a block hold its size, and the next free block while it waits.

typedef unsigned long u64;

typedef struct {
    u64 has_room;
    char *block;
} Given;

typedef struct Head {
    u64 size_number;
    struct Head *next;
} Head;

enum { HEAD = sizeof(Head), SIZES = 240, PAGE = 65536, PAGES_AT_ONCE = 64 };
static const u64 MOST = 1UL << 46;

extern char __heap_base;
static char *unused, *memory_end;
static Head *waiting[SIZES];

static u64 size_of(u64 number) {
    return number < 4 ? (number + 1) * 16 : (4 + (number & 3)) << (number / 4 + 3);
}

// The number of the least size that is at least so many bytes, which are 1 or more.
static u64 number_of(u64 bytes) {
    if (bytes <= 64) return (bytes - 1) / 16;
    u64 doubling = 63 - __builtin_clzl(bytes - 1);
    u64 quarter = (bytes - 1) >> (doubling - 2);
    return 4 * (doubling - 5) + (quarter - 4) + 1;
}

static char *end_of_memory(void) {
    return (char *)(__builtin_wasm_memory_size(0) * PAGE);
}

// Makes room for so many bytes. What `memory.grow` answers is not read: in a module whose memory was lowered to 32 bits
// a refusal is 2^32 - 1, and not 2^64 - 1.
static int grow(u64 bytes) {
    u64 pages = (bytes - (u64)(memory_end - unused) + PAGE - 1) / PAGE;
    __builtin_wasm_memory_grow(0, pages < PAGES_AT_ONCE ? PAGES_AT_ONCE : pages);
    memory_end = end_of_memory();
    if ((u64)(memory_end - unused) < bytes) __builtin_wasm_memory_grow(0, pages);
    memory_end = end_of_memory();
    return (u64)(memory_end - unused) >= bytes;
}

static char *take(u64 bytes) {
    if (bytes == 0) bytes = 1;
    if (bytes > MOST) return 0;
    u64 number = number_of(bytes);
    Head *head = waiting[number];
    if (head) {
        waiting[number] = head->next;
        return (char *)head + HEAD;
    }
    if (!unused) {
        unused = (char *)(((u64)&__heap_base + 15) & ~15UL);
        memory_end = end_of_memory();
    }
    u64 size = size_of(number) + HEAD;
    if ((u64)(memory_end - unused) < size && !grow(size)) return 0;
    head = (Head *)unused;
    unused += size;
    head->size_number = number;
    return (char *)head + HEAD;
}

static void give_back(char *block) {
    Head *head = (Head *)(block - HEAD);
    head->next = waiting[head->size_number];
    waiting[head->size_number] = head;
}

Given rattle_alloc(u64 bytes, u64 align) {
    char *block = take(bytes ? bytes : align);
    return (Given){block != 0, block};
}

Given rattle_realloc(char *block, u64 kept, u64 bytes, u64 align) {
    if (bytes == 0) bytes = align;
    u64 have = size_of(((Head *)(block - HEAD))->size_number);
    if (bytes <= have && bytes >= have / 4) return (Given){1, block};
    char *moved = take(bytes);
    if (!moved) return (Given){0, 0};
    __builtin_memcpy(moved, block, kept < bytes ? kept : bytes);
    give_back(block);
    return (Given){1, moved};
}

void rattle_dealloc(char *block) { give_back(block); }

char *web_room(u64 bytes) { return take(bytes); }

void web_free(char *block) { give_back(block); }

int memcmp(const void *left, const void *right, u64 bytes) {
    const unsigned char *a = left, *b = right;
    for (; bytes >= 8; bytes -= 8, a += 8, b += 8) {
        u64 eight_of_a, eight_of_b;
        __builtin_memcpy(&eight_of_a, a, 8);
        __builtin_memcpy(&eight_of_b, b, 8);
        if (eight_of_a != eight_of_b) break;
    }
    for (; bytes; bytes--, a++, b++) {
        if (*a != *b) return *a < *b ? -1 : 1;
    }
    return 0;
}

int bcmp(const void *left, const void *right, u64 bytes) { return memcmp(left, right, bytes); }
