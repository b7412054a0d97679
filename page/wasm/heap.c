// The heap of the program. Blocks come in classes of sizes, and a block that is given back waits in a list of its class.
// No memory is given back to the page, which frees it all at once.
#include "types.h"

// each block has its class before it, and is aligned as the largest numbers are
struct block {
  uint64_t size_class;
  struct block *next;
};

// Sizes are counted in units of 16 bytes. There is a class for each of 1, 2 and 3 units, and four from each power of two
// to the next, up to 2^40 bytes.
enum { UNIT = 16, LINEAR = 3, STEPS = 4, CLASSES = LINEAR + 34 * STEPS, MEMORY_PAGE = 65536 };

#define MOST_BYTES ((size_t)1 << 39)

_Static_assert(sizeof(struct block) == UNIT, "a block begins one unit after its class");

// what is answered: whether there is memory, and where
struct tried {
  uint64_t ok;
  void *p;
};

extern uint8_t __heap_base;

static struct block *waiting[CLASSES];
static uintptr_t unused;
// what an answer points to where there is no memory
static uint8_t nothing;

static size_t room_of(size_t size_class) {
  if (size_class < LINEAR) return (size_class + 1) * UNIT;
  size_t power = (size_t)STEPS << (size_class - LINEAR) / STEPS;
  return (power + (size_class - LINEAR) % STEPS * (power / STEPS)) * UNIT;
}

// the least class whose blocks hold so many bytes, which are at least 1
static size_t class_of(size_t bytes) {
  size_t units = (bytes + UNIT - 1) / UNIT;
  if (units <= LINEAR) return units - 1;
  int log = 63 - __builtin_clzll(units);
  size_t step = (size_t)1 << (log - 2);
  return LINEAR + (size_t)(log - 2) * STEPS + (units - ((size_t)1 << log) + step - 1) / step;
}

// new bytes at the end of the memory, which grows where it must, or null
static void *take(size_t bytes) {
  if (unused == 0) unused = ((uintptr_t)&__heap_base + UNIT - 1) / UNIT * UNIT;
  size_t there = __builtin_wasm_memory_size(0);
  size_t wanted = (unused + bytes + MEMORY_PAGE - 1) / MEMORY_PAGE;
  if (wanted > there && __builtin_wasm_memory_grow(0, wanted - there) == (size_t)-1) return NULL;
  void *taken = (void *)unused;
  unused += bytes;
  return taken;
}

static void *allocate(size_t bytes) {
  if (bytes > MOST_BYTES) return NULL;
  size_t size_class = class_of(bytes);
  struct block *found = waiting[size_class];
  if (found != NULL) {
    waiting[size_class] = found->next;
  } else {
    found = take(sizeof(struct block) + room_of(size_class));
    if (found == NULL) return NULL;
    found->size_class = size_class;
  }
  return found + 1;
}

static struct tried tried(void *p) { return (struct tried){p != NULL, p != NULL ? p : &nothing}; }

struct tried rattle_alloc(size_t bytes, size_t alignment) { return tried(allocate(bytes != 0 ? bytes : alignment)); }

void rattle_dealloc(void *p) {
  struct block *given = (struct block *)p - 1;
  given->next = waiting[given->size_class];
  waiting[given->size_class] = given;
}

// The first `kept` bytes stay as they are. Where there is no memory for so many bytes the block stays as it is.
struct tried rattle_realloc(void *p, size_t kept, size_t bytes, size_t alignment) {
  size_t wanted = bytes != 0 ? bytes : alignment;
  size_t room = room_of(((struct block *)p - 1)->size_class);
  if (wanted <= room && wanted > room / 2) return tried(p);
  void *moved = allocate(wanted);
  if (moved == NULL) return tried(NULL);
  if (kept > room) kept = room;
  __builtin_memcpy(moved, p, kept < wanted ? kept : wanted);
  rattle_dealloc(p);
  return tried(moved);
}
