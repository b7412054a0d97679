// Tries ../wasm/wide.c: the compiler makes its calls of the operators below. What they give is checked by sums, shifts by
// one and comparisons, which the compiler needs no library for.
#include "../wasm/types.h"

typedef unsigned __int128 wide;
typedef __int128 signed_wide;

static uint64_t state;

// xorshift
static uint64_t draw(void) {
  state ^= state << 13;
  state ^= state >> 7;
  state ^= state << 17;
  return state;
}

static wide doubled(wide a) { return a + a; }

static int bits_of(wide a) {
  int bits = 0;
  for (; a != 0; a >>= 1) bits++;
  return bits;
}

// a number of up to so many bits, with long runs of equal bits as often as not
static wide number(int bits) {
  wide a = 0;
  uint64_t low = draw(), high = draw(), kind = draw();
  for (int i = 0; i < bits; i++) {
    uint64_t from = i < 64 ? low : high;
    uint64_t bit = kind & 1 ? from >> (i & 63) & 1 : from >> (i / 16) & 1;
    a = doubled(a) + bit;
  }
  return a;
}

static wide product_by_bits(wide a, wide b) {
  wide sum = 0;
  for (int i = 0; i < 128; i++) {
    sum = doubled(sum);
    if ((signed_wide)b < 0) sum += a;
    b = doubled(b);
  }
  return sum;
}

// whether a is exactly q times b and r more, with r below b
static int is_quotient(wide a, wide b, wide q, wide r) {
  if (r >= b || bits_of(q >> 1) + bits_of(b) > 128) return 0;
  wide half = product_by_bits(q >> 1, b);
  if (half > a >> 1) return 0;
  wide left = a - doubled(half), last = (q & 1) != 0 ? b : 0;
  return left >= last && left - last == r;
}

// apart from one another, since the compiler makes a remainder of a quotient that it has
#define APART __attribute__((noinline)) static

APART wide quotient(wide a, wide b) { return a / b; }

APART wide remainder(wide a, wide b) { return a % b; }

APART signed_wide signed_quotient(signed_wide a, signed_wide b) { return a / b; }

APART signed_wide signed_remainder(signed_wide a, signed_wide b) { return a % b; }

static wide size_of(signed_wide a) { return a < 0 ? -(wide)a : (wide)a; }

static int is_signed_quotient(signed_wide a, signed_wide b, signed_wide q, signed_wide r) {
  if (q != 0 && (q < 0) != ((a < 0) != (b < 0))) return 0;
  if (r != 0 && (r < 0) != (a < 0)) return 0;
  return is_quotient(size_of(a), size_of(b), size_of(q), size_of(r));
}

static int are_shifts(wide a, int by) {
  wide left = a, right = a;
  signed_wide signed_right = (signed_wide)a;
  for (int i = 0; i < by; i++) {
    left = doubled(left);
    right >>= 1;
    signed_right >>= 1;
  }
  return a << by == left && a >> by == right && (signed_wide)a >> by == signed_right;
}

// Tries so many numbers, and answers the number of the first try that fails, from 1 on, or 0.
uint64_t try_wide(uint64_t seed, uint64_t count) {
  state = seed;
  for (uint64_t i = 1; i <= count; i++) {
    wide a = number(draw() % 129), b = number(1 + draw() % 128);
    if (b == 0) b = 1;
    if (!is_quotient(a, b, quotient(a, b), remainder(a, b))) return i;
    signed_wide c = (signed_wide)a, d = (signed_wide)b;
    int overflows = d == -1 && a == (wide)1 << 127;
    if (!overflows && !is_signed_quotient(c, d, signed_quotient(c, d), signed_remainder(c, d))) return i;
    if (a * b != product_by_bits(a, b)) return i;
    if (!are_shifts(a, draw() % 128)) return i;
  }
  return 0;
}
