/* The instructions on ranges of memory, for `feulgama lower`: each tests its ranges before it writes, as the Core
   Specification 2.0 says, and a range that is not inside traps as a load outside memory does. */
#include <stdint.h>

typedef uint32_t u32;
typedef uint64_t u64;
typedef u64 __attribute__((aligned(1), may_alias)) word; /* at any address */

#define HELPER(name) __attribute__((export_name(#name))) void helper_##name
#define WORD(at) (*(volatile word *)(at))
#define BYTE(at) (*(volatile uint8_t *)(at))

static int is_inside(u32 at, u32 size) {
  return (u64)at + size <= (u64)__builtin_wasm_memory_size(0) << 16;
}

/* Eight bytes from the last address on are never inside memory. */
static void trap_outside(void) { (void)WORD(UINT32_MAX); }

HELPER(memory_copy)(u32 to, u32 from, u32 size) {
  if (!is_inside(to, size) || !is_inside(from, size)) trap_outside();
  if (to <= from) {
    for (; size >= 32; size -= 32, to += 32, from += 32) {
      WORD(to) = WORD(from);
      WORD(to + 8) = WORD(from + 8);
      WORD(to + 16) = WORD(from + 16);
      WORD(to + 24) = WORD(from + 24);
    }
    for (; size >= 8; size -= 8, to += 8, from += 8) WORD(to) = WORD(from);
    for (; size; size--, to++, from++) BYTE(to) = BYTE(from);
  } else {
    for (; size >= 32; size -= 32) {
      u32 at = to + size, of = from + size;
      WORD(at - 8) = WORD(of - 8);
      WORD(at - 16) = WORD(of - 16);
      WORD(at - 24) = WORD(of - 24);
      WORD(at - 32) = WORD(of - 32);
    }
    for (; size >= 8; size -= 8) WORD(to + size - 8) = WORD(from + size - 8);
    for (; size; size--) BYTE(to + size - 1) = BYTE(from + size - 1);
  }
}

HELPER(memory_fill)(u32 to, u32 value, u32 size) {
  if (!is_inside(to, size)) trap_outside();
  u64 filled = (value & 0xff) * 0x0101010101010101;
  for (; size >= 32; size -= 32, to += 32) {
    WORD(to) = filled;
    WORD(to + 8) = filled;
    WORD(to + 16) = filled;
    WORD(to + 24) = filled;
  }
  for (; size >= 8; size -= 8, to += 8) WORD(to) = filled;
  for (; size; size--, to++) BYTE(to) = value;
}

/* What memory.init tests: `left` is the size of the segment, or 0 if it was dropped. */
HELPER(memory_init_test)(u32 to, u32 from, u32 size, u32 left) {
  if ((u64)from + size > left || !is_inside(to, size)) trap_outside();
}
