// The heap of the program in a page: what the kit's libc/c/heap.c answers over malloc, realloc and free, and two things of a C library that LLVM asks for.
//
// A block is a head of 16 bytes, which tells its room, and then its room, a multiple of 16 bytes. So every block is aligned to 16. A free block is kept
// for the next call: one of up to SMALL bytes in the list of its room, a larger one, a span, in the list of spans. That list goes by address, and
// neighbours in it are joined. A free span at the end of the memory in use goes back to what was never used.
//
// The code is compiled for addresses of 64 bits, and then lowered to 32: no address and no count of pages here may be above 2^32.

typedef unsigned long size;
typedef unsigned char byte;

typedef struct Block {
  size room;
  struct Block *next; // the next free block of its list
} Block;

#define HEAD sizeof(Block)
#define SMALL 1024
#define PAGE 65536UL
#define MOST (1UL << 32)

extern byte __heap_base; // where the linker's data ends

static size top; // the memory in use ends here; 0 before the first call
static size end; // the memory that there is ends here
static Block *small[SMALL / 16 + 1];
static Block *spans;

static size rounded(size bytes) {
  return bytes ? (bytes + 15) & ~15UL : 16;
}

static Block *block_of(void *room) {
  return (Block *)((byte *)room - HEAD);
}

static void *room_of(Block *block) {
  return (byte *)block + HEAD;
}

static size end_of(Block *block) {
  return (size)room_of(block) + block->room;
}

// Adds pages to the memory, if it can. A refusal is -1, and the lowered code keeps its low half only.
static int grow(size pages) {
  return (unsigned)__builtin_wasm_memory_grow(0, pages) != ~0u;
}

// Makes the memory reach to an address, if it can: by an eighth of itself if that is more than is needed and can be had.
static int reach(size address) {
  if (address <= end) return 1;
  size pages = (address - end + PAGE - 1) / PAGE;
  size eighth = end / PAGE / 8;
  if (!(eighth > pages && grow(eighth)) && !grow(pages)) return 0;
  end = __builtin_wasm_memory_size(0) * PAGE;
  return 1;
}

// A place in the list of spans: the link that leads to the first span from an address on.
static Block **span_from(size address) {
  Block **link = &spans;
  while (*link && (size)*link < address) link = &(*link)->next;
  return link;
}

// Keeps so much room of a block, and makes the rest a span if it is large enough for one.
static void trim(Block *block, size room) {
  if (block->room < room + HEAD + SMALL + 16) return;
  Block *rest = (Block *)((size)room_of(block) + room);
  rest->room = block->room - room - HEAD;
  block->room = room;
  Block **link = span_from((size)rest);
  rest->next = *link;
  *link = rest;
}

// Takes the first free block with so much room out of its list; 0 if there is none.
static Block *take_free(size room) {
  Block **link = room <= SMALL ? &small[room / 16] : &spans;
  while (*link && (*link)->room < room) link = &(*link)->next;
  Block *block = *link;
  if (!block) return 0;
  *link = block->next;
  if (room > SMALL) trim(block, room);
  return block;
}

// Takes a block from the memory that was never used; 0 if there is none.
static Block *take_new(size room) {
  if (!top) {
    top = ((size)&__heap_base + 15) & ~15UL;
    end = __builtin_wasm_memory_size(0) * PAGE;
  }
  if (!reach(top + HEAD + room)) return 0;
  Block *block = (Block *)top;
  block->room = room;
  top = end_of(block);
  return block;
}

// Room for so many bytes; 0 if there is none.
void *heap_take(size bytes) {
  if (bytes > MOST) return 0;
  size room = rounded(bytes);
  Block *block = take_free(room);
  if (!block) block = take_new(room);
  return block ? room_of(block) : 0;
}

// Joins a span with the one after it in the list, if they touch.
static void join(Block *span) {
  Block *next = span->next;
  if (!next || end_of(span) != (size)next) return;
  span->room += HEAD + next->room;
  span->next = next->next;
}

static void free_span(Block *span) {
  Block **link = span_from((size)span);
  span->next = *link;
  *link = span;
  join(span);
  if (link != &spans) {
    Block *before = (Block *)((byte *)link - __builtin_offsetof(Block, next));
    join(before);
    if (before->next != span) span = before;
  }
  if (end_of(span) == top) { // the last span in use: its link is the last of the list
    *span_from((size)span) = 0;
    top = (size)span;
  }
}

void heap_free(void *room) {
  if (!room) return;
  Block *block = block_of(room);
  if (block->room > SMALL) {
    free_span(block);
    return;
  }
  Block **list = &small[block->room / 16];
  block->next = *list;
  *list = block;
}

// Makes a span larger where it is, if it is the last block or a free span after it is enough.
static int extend(Block *span, size room) {
  if (end_of(span) == top) {
    if (!reach((size)room_of(span) + room)) return 0;
    span->room = room;
    top = end_of(span);
    return 1;
  }
  Block **link = span_from(end_of(span));
  Block *next = *link;
  if (!next || (size)next != end_of(span) || span->room + HEAD + next->room < room) return 0;
  *link = next->next;
  span->room += HEAD + next->room;
  trim(span, room);
  return 1;
}

// Makes a block one of so many bytes; it may move. 0 if there is no room: the block is then as it was.
void *heap_resize(void *old, size bytes) {
  if (!old) return heap_take(bytes);
  if (bytes > MOST) return 0;
  Block *block = block_of(old);
  if (bytes <= block->room) return old;
  if (block->room > SMALL && extend(block, rounded(bytes))) return old;
  void *room = heap_take(bytes);
  if (!room) return 0;
  __builtin_memcpy(room, old, block->room);
  heap_free(old);
  return room;
}

// What Rattle's heap asks for: whether there is room, and where. For no bytes it takes as many as the alignment, which is at most 16.
typedef struct {
  size is_ok;
  size at;
} Tried;

static byte nowhere[16] __attribute__((aligned(16)));

static Tried tried(void *room) {
  return (Tried){room != 0, room ? (size)room : (size)nowhere};
}

Tried rattle_alloc(size bytes, size alignment) {
  return tried(heap_take(bytes ? bytes : alignment));
}

Tried rattle_realloc(void *old, size kept, size bytes, size alignment) {
  (void)kept;
  return tried(heap_resize(old, bytes ? bytes : alignment));
}

void rattle_dealloc(void *room) {
  heap_free(room);
}

int memcmp(const void *a, const void *b, size count) {
  const byte *x = a, *y = b;
  for (; count; count--, x++, y++)
    if (*x != *y) return *x - *y;
  return 0;
}

int bcmp(const void *a, const void *b, size count) {
  return memcmp(a, b, count);
}

// The low 128 bits of a product, as LLVM's runtime has it: WebAssembly multiplies 64 bits at most.
typedef unsigned __int128 wide;

wide __multi3(wide a, wide b) {
  const size low = 0xffffffff;
  size x = (size)a, y = (size)b;
  size low_low = (x & low) * (y & low), low_high = (x & low) * (y >> 32);
  size high_low = (x >> 32) * (y & low), high_high = (x >> 32) * (y >> 32);
  size middle = (low_low >> 32) + (low_high & low) + (high_low & low);
  size upper = high_high + (low_high >> 32) + (high_low >> 32) + (middle >> 32);
  upper += x * (size)(b >> 64) + (size)(a >> 64) * y;
  return (wide)upper << 64 | (low_low & low) | middle << 32;
}
