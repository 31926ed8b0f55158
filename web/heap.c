// The heap of the module: blocks of fixed sizes, each size with a list of its free blocks, taken from the end of memory.
// Blocks lie at multiples of 16. The word before a block names its size. Memory that was taken is never given back to the host.
typedef unsigned long size;
typedef struct { long ok; char *place; } tried;

extern unsigned char __heap_base;

static char none[16] __attribute__((aligned(16)));
static char *free_blocks[96];
static size top;

// Sizes 16 to 1,024 by 16, then doubled.
static unsigned kind_of(size n) {
  if (n <= 1024) return n == 0 ? 0 : (unsigned)((n - 1) >> 4);
  return 64 + (unsigned)(63 - __builtin_clzl(n - 1)) - 10;
}
static size room_of(unsigned kind) { return kind < 64 ? ((size)kind + 1) << 4 : (size)2048 << (kind - 64); }

static char *fresh(unsigned kind) {
  size room = room_of(kind);
  if (!top) top = ((size)&__heap_base + 15) & ~(size)15;
  size place = top + 16, end = place + room, have = __builtin_wasm_memory_size(0) << 16;
  if (end < top) return 0;
  if (end > have) {
    size pages = (end - have + 65535) >> 16, more = pages < 64 ? 64 : pages;
    if (__builtin_wasm_memory_grow(0, more) == (size)-1 && __builtin_wasm_memory_grow(0, pages) == (size)-1) return 0;
  }
  *(size *)(place - 16) = kind;
  top = end;
  return (char *)place;
}

static char *take(size n) {
  if (n >> 40) return 0;
  unsigned kind = kind_of(n);
  char *block = free_blocks[kind];
  if (!block) return fresh(kind);
  free_blocks[kind] = *(char **)block;
  return block;
}

static void give(char *block) {
  unsigned kind = *(size *)(block - 16);
  *(char **)block = free_blocks[kind];
  free_blocks[kind] = block;
}

tried rattle_alloc(size n, size align) {
  char *block = take(n);
  tried t = { block != 0, block ? block : none };
  return t;
}

tried rattle_realloc(char *block, size kept, size n, size align) {
  size room = room_of(*(size *)(block - 16));
  if (n <= room && (n > 1024 || kind_of(n) == kind_of(room))) { tried same = { 1, block }; return same; }
  char *moved = take(n);
  if (!moved) { tried no = { 0, none }; return no; }
  __builtin_memcpy(moved, block, kept < n ? kept : n);
  give(block);
  tried t = { 1, moved };
  return t;
}

void rattle_dealloc(char *block) { give(block); }

void *memmove(void *to, const void *from, size n) {
  char *t = to; const char *f = from;
  if (t < f) for (size i = 0; i < n; i++) t[i] = f[i];
  else while (n--) t[n] = f[n];
  return to;
}
void *memcpy(void *to, const void *from, size n) { return memmove(to, from, n); }
void *memset(void *to, int c, size n) { char *t = to; while (n--) *t++ = (char)c; return to; }

// For the host: room for what it hands in and for what it gets.
char *page_room(size n) { return take(n); }
void page_free(char *block) { give(block); }
size page_memory(void) { return top; }

// What the compiler asks for where a product has 128 bits.
typedef unsigned __int128 wide;
wide __multi3(wide a, wide b) {
  size a0 = (unsigned)(size)a, a1 = (size)a >> 32, b0 = (unsigned)(size)b, b1 = (size)b >> 32;
  size low = a0 * b0, mid = a1 * b0 + (low >> 32), more = a0 * b1 + (unsigned)mid;
  size high = a1 * b1 + (mid >> 32) + (more >> 32) + (size)(a >> 64) * (size)b + (size)a * (size)(b >> 64);
  return (wide)high << 64 | (more << 32 | (unsigned)low);
}

// And where a quotient has: a long division, bit by bit.
wide __udivti3(wide a, wide b) {
  size high = (size)(a >> 64), low = (size)a;
  if (!high && !(size)(b >> 64)) return low / (size)b;
  wide rest = 0, quotient = 0;
  for (int bit = 0; bit < 128; bit++) {
    size carry = (size)(rest >> 64) >> 63;
    rest = rest << 1 | high >> 63;
    high = high << 1 | low >> 63;
    low <<= 1;
    quotient <<= 1;
    if (carry || rest >= b) { rest -= b; quotient |= 1; }
  }
  return quotient;
}
