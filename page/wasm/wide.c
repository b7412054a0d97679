// Products, shifts and divisions of 128 bits, which the compiler leaves to a library that the kit hasn't for WebAssembly.
// No function here may itself need one of them, so all is done on halves of 64 bits.
#include "types.h"

typedef unsigned __int128 wide;
typedef __int128 signed_wide;

union halves {
  wide whole;
  struct {
    uint64_t low, high;
  };
};

static wide join(uint64_t high, uint64_t low) { return ((union halves){.low = low, .high = high}).whole; }

static uint64_t low_of(wide a) { return ((union halves){.whole = a}).low; }

static uint64_t high_of(wide a) { return ((union halves){.whole = a}).high; }

static wide product(uint64_t a, uint64_t b) {
  uint64_t low = (uint32_t)a * (uint64_t)(uint32_t)b;
  uint64_t cross = (a >> 32) * (uint32_t)b + (low >> 32);
  uint64_t other = (uint32_t)a * (b >> 32) + (uint32_t)cross;
  return join((a >> 32) * (b >> 32) + (cross >> 32) + (other >> 32), other << 32 | (uint32_t)low);
}

wide __multi3(wide a, wide b) {
  wide lows = product(low_of(a), low_of(b));
  return join(high_of(lows) + high_of(a) * low_of(b) + low_of(a) * high_of(b), low_of(lows));
}

wide __ashlti3(wide a, int32_t by) {
  if (by == 0) return a;
  if (by >= 64) return join(low_of(a) << (by - 64), 0);
  return join(high_of(a) << by | low_of(a) >> (64 - by), low_of(a) << by);
}

wide __lshrti3(wide a, int32_t by) {
  if (by == 0) return a;
  if (by >= 64) return join(0, high_of(a) >> (by - 64));
  return join(high_of(a) >> by, low_of(a) >> by | high_of(a) << (64 - by));
}

wide __ashrti3(wide a, int32_t by) {
  int64_t high = (int64_t)high_of(a);
  if (by == 0) return a;
  if (by >= 64) return join((uint64_t)(high >> 63), (uint64_t)(high >> (by - 64)));
  return join((uint64_t)(high >> by), low_of(a) >> by | high_of(a) << (64 - by));
}

// one digit of 32 bits of a quotient: `over` is below `divisor`, whose first bit is set
static uint64_t digit(uint64_t *over, uint32_t next, uint64_t divisor) {
  uint64_t guess = *over / (divisor >> 32);
  uint64_t rest = *over % (divisor >> 32);
  // the guess is at most 2 too large
  while (guess * (uint32_t)divisor > (rest << 32 | next)) {
    guess--;
    rest += divisor >> 32;
    if (rest >> 32 != 0) break;
  }
  *over = (*over << 32 | next) - guess * divisor;
  return guess;
}

// the quotient of high and low by a divisor that is above high, and what is left over
static uint64_t divide_by_half(uint64_t high, uint64_t low, uint64_t divisor, uint64_t *rest) {
  int by = __builtin_clzll(divisor);
  uint64_t over = by == 0 ? high : high << by | low >> (64 - by);
  divisor <<= by;
  low <<= by;
  uint64_t first = digit(&over, (uint32_t)(low >> 32), divisor);
  uint64_t second = digit(&over, (uint32_t)low, divisor);
  *rest = over >> by;
  return first << 32 | second;
}

// the quotient where the divisor has more than 64 bits, so that it has at most 64: a bit at a time
static uint64_t divide_bitwise(wide a, wide divisor, wide *rest) {
  uint64_t quotient = 0;
  int by = __builtin_clzll(high_of(divisor)) - __builtin_clzll(high_of(a));
  for (divisor = __ashlti3(divisor, by); by >= 0; by--) {
    quotient <<= 1;
    if (a >= divisor) {
      a -= divisor;
      quotient |= 1;
    }
    divisor = __lshrti3(divisor, 1);
  }
  *rest = a;
  return quotient;
}

static wide divide(wide a, wide divisor, wide *rest) {
  if (a < divisor) {
    *rest = a;
    return 0;
  }
  if (high_of(divisor) != 0) return divide_bitwise(a, divisor, rest);
  uint64_t by = low_of(divisor), left;
  uint64_t high = high_of(a) / by;
  uint64_t low = divide_by_half(high_of(a) % by, low_of(a), by, &left);
  *rest = left;
  return join(high, low);
}

static wide size_of(signed_wide a) { return a < 0 ? -(wide)a : (wide)a; }

wide __udivti3(wide a, wide b) {
  wide rest;
  return divide(a, b, &rest);
}

wide __umodti3(wide a, wide b) {
  wide rest;
  divide(a, b, &rest);
  return rest;
}

signed_wide __divti3(signed_wide a, signed_wide b) {
  wide rest, quotient = divide(size_of(a), size_of(b), &rest);
  return (signed_wide)((a < 0) != (b < 0) ? -quotient : quotient);
}

signed_wide __modti3(signed_wide a, signed_wide b) {
  wide rest;
  divide(size_of(a), size_of(b), &rest);
  return (signed_wide)(a < 0 ? -rest : rest);
}
