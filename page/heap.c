// What the compiled machine needs on a web page beside itself: a heap, and room for what goes in and out.
//
// Blocks are one after the other. A call of the machine frees each block that it took, so when none is in use the next
// one is at the beginning again.
typedef unsigned long long u64;
typedef unsigned int u32;

typedef struct {
    u64 ok;
    char *at;
} Tried;

extern char __heap_base;

static char *top;
static u64 used;

static char *take(u64 n) {
    if (used == 0) {
        top = (char *)(((u64)&__heap_base + 15) & ~15ull);
    }
    if (n > 1ull << 31) {
        return 0;
    }
    u64 end = ((u64)top + n + 15) & ~15ull;
    u64 have = (u64)__builtin_wasm_memory_size(0) << 16;
    // The cast serves a memory of 32-bit addresses too, where a failure reads as 4294967295.
    if (end > have && (int)__builtin_wasm_memory_grow(0, (end - have + 0xffff) >> 16) == -1) {
        return 0;
    }
    char *block = top;
    top = (char *)end;
    used++;
    return block;
}

Tried rattle_alloc(u64 n, u64 align) {
    (void)align;
    char *block = take(n);
    return (Tried){block != 0, block};
}

Tried rattle_realloc(char *old, u64 kept, u64 n, u64 align) {
    (void)align;
    char *block = take(n);
    if (block) {
        __builtin_memcpy(block, old, kept < n ? kept : n);
        used--;
    }
    return (Tried){block != 0, block};
}

void rattle_dealloc(char *block) {
    (void)block;
    used--;
}

// A text may be one byte longer than the machine takes, so that the machine itself refuses it. The tape with which a
// run continues has a room of its own, and so have the codes that it prints.
static char text[262145], rows[524288], paper[2000000], digits[512], note[256], listing[65536], order[16];
static char tape[524288], codes[1000000];
static u32 words[1024], items[4 * 131072], meaning[7];
static u64 registers[9], lengths[2];

static struct {
    void *at;
    u64 items;
} rooms[] = {
    {text, sizeof text}, {rows, sizeof rows}, {words, 1024}, {digits, sizeof digits}, {paper, sizeof paper},
    {note, sizeof note}, {registers, 9}, {lengths, 2}, {listing, sizeof listing}, {order, sizeof order},
    {tape, sizeof tape}, {codes, sizeof codes}, {items, sizeof items}, {meaning, 7},
};

// Where the room of a kind is: 0 text, 1 rows, 2 words, 3 digits, 4 paper, 5 note, 6 registers, 7 lengths, 8 listing,
// 9 order, 10 tape, 11 codes, 12 items, 13 meaning.
__attribute__((export_name("room"))) void *room(u32 kind) {
    return rooms[kind].at;
}

// The number of its items.
__attribute__((export_name("room_items"))) u64 room_items(u32 kind) {
    return rooms[kind].items;
}

// The number of blocks in use: 0 between two calls.
__attribute__((export_name("blocks"))) u64 blocks(void) {
    return used;
}
