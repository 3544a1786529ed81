// The same loops as crates/bit_bench, in C++: reads and writes of bit fields one after the other.
// Prints the least picoseconds of each over nine rounds, at widths from 1 to 32 and from 1 to 64.
#include <algorithm>
#include <cstdint>
#include <cstdio>
#include <cstring>
#include <ctime>
#include <vector>

static const uint32_t COUNT = 10000000, ROUNDS = 9;
static const uint64_t LENGTH = 1 << 20, LAST = 8 * LENGTH - 64;

static uint64_t now() { timespec t; clock_gettime(CLOCK_MONOTONIC, &t); return t.tv_sec * 1000000000ull + t.tv_nsec; }
static inline uint64_t load(const uint8_t* p) { uint64_t x; memcpy(&x, p, 8); return x; }
static inline void store(uint8_t* p, uint64_t x) { memcpy(p, &x, 8); }
static inline uint64_t ones(unsigned w) { return w < 64 ? (1ull << w) - 1 : ~0ull; }

// As a reader that is sure of its buffer: eight bytes lie at each place, and the ninth where a field reaches it.
struct Bare {
  static inline uint64_t read(const uint8_t* p, uint64_t, uint64_t bit, unsigned w) {
    const uint8_t* q = p + bit / 8; unsigned s = bit % 8;
    uint64_t x = load(q) >> s;
    if (s + w > 64) x |= uint64_t(q[8]) << (64 - s);
    return x & ones(w);
  }
  static inline void write(uint8_t* p, uint64_t, uint64_t bit, unsigned w, uint64_t x) {
    uint8_t* q = p + bit / 8; unsigned s = bit % 8;
    store(q, (load(q) & ~(ones(w) << s)) | x << s);
    if (s + w > 64) q[8] = (q[8] & ~(ones(w) >> (64 - s))) | x >> (64 - s);
  }
};

// With the tests of the proved functions: a short field with eight bytes behind it, or the rest.
struct Tested {
  static uint64_t rest(const uint8_t* p, uint64_t len, uint64_t bit, unsigned w) __attribute__((noinline, cold)) {
    if (len < 8) { uint8_t pad[9] = {0}; memcpy(pad, p, len); return Bare::read(pad, 9, bit, w); }
    uint64_t first = std::min(bit / 8, len - 8), s = bit - 8 * first;
    uint64_t x = s < 64 ? load(p + first) >> s : 0;
    if (s + w > 64) x |= uint64_t(p[first + 8]) << (64 - s);
    return x & ones(w);
  }
  static inline uint64_t read(const uint8_t* p, uint64_t len, uint64_t bit, unsigned w) {
    if (w <= 57 && bit / 8 + 8 <= len) return (load(p + bit / 8) >> (bit % 8)) & ((1ull << w) - 1);
    return rest(p, len, bit, w);
  }
  static void more(uint8_t* p, uint64_t len, uint64_t bit, unsigned w, uint64_t x) __attribute__((noinline, cold)) {
    for (unsigned i = 0; i < w; i++) {
      uint8_t& b = p[(bit + i) / 8]; unsigned k = (bit + i) % 8;
      if ((bit + i) / 8 < len) b = (b & ~(1u << k)) | ((x >> i & 1) << k);
    }
  }
  static inline void write(uint8_t* p, uint64_t len, uint64_t bit, unsigned w, uint64_t x) {
    if (w <= 57 && bit / 8 + 8 <= len) {
      uint8_t* q = p + bit / 8; unsigned s = bit % 8;
      store(q, (load(q) & ~(((1ull << w) - 1) << s)) | x << s);
    } else if (bit / 8 + 9 <= len) Bare::write(p, len, bit, w, x);
    else more(p, len, bit, w, x);
  }
};

static inline int64_t sign(uint64_t x, unsigned w) { return w == 0 ? 0 : int64_t(x << (64 - w)) >> (64 - w); }
static inline void advance(uint64_t& bit, unsigned& w, unsigned most) {
  bit += w; if (bit > LAST) bit = 0;
  w = w < most ? w + 1 : 1;
}
template <class R> __attribute__((noinline)) uint64_t sum_unsigned(const uint8_t* p, uint64_t len, unsigned most) {
  uint64_t sum = 0, bit = 0; unsigned w = most ? 1 : 0;
  for (uint32_t i = 0; i < COUNT; i++) { sum += R::read(p, len, bit, w); advance(bit, w, most); }
  return sum;
}
template <class R> __attribute__((noinline)) uint64_t sum_signed(const uint8_t* p, uint64_t len, unsigned most) {
  uint64_t sum = 0, bit = 0; unsigned w = most ? 1 : 0;
  for (uint32_t i = 0; i < COUNT; i++) { sum += sign(R::read(p, len, bit, w), w); advance(bit, w, most); }
  return sum;
}
template <class R> __attribute__((noinline)) void write_all(uint8_t* p, uint64_t len, unsigned most) {
  uint64_t n = 88172645463325252ull, bit = 0; unsigned w = most ? 1 : 0;
  for (uint32_t i = 0; i < COUNT; i++) {
    n = n * 6364136223846793005ull + 1442695040888963407ull;
    R::write(p, len, bit, w, n >> (64 - w)); advance(bit, w, most);
  }
}
template <class R> void measure(const char* name, std::vector<uint8_t>& v, unsigned most) {
  uint64_t u = ~0ull, s = ~0ull, w = ~0ull, sum = 0, len = v.size();
  for (uint32_t i = 0; i < ROUNDS; i++) {
    uint64_t t = now(); sum += sum_unsigned<R>(v.data(), len, most); u = std::min(u, (now() - t) / (COUNT / 1000));
    t = now(); sum += sum_signed<R>(v.data(), len, most); s = std::min(s, (now() - t) / (COUNT / 1000));
    t = now(); write_all<R>(v.data(), len, most); w = std::min(w, (now() - t) / (COUNT / 1000));
  }
  printf("%s, widths 1 to %u: read_bits %lu ps, read_signed %lu ps, write_bits %lu ps, sum %lu\n", name, most, u, s, w, sum);
}
static std::vector<uint8_t> filled() {
  std::vector<uint8_t> v(LENGTH); uint64_t x = 88172645463325252ull;
  for (auto& b : v) { x ^= x << 13; x ^= x >> 7; x ^= x << 17; b = uint8_t(x); }
  return v;
}
int main(int argc, char**) {
  auto v = filled();
  if (argc < 2) {
    uint64_t u = sum_unsigned<Tested>(v.data(), LENGTH, 64); int64_t s = sum_signed<Tested>(v.data(), LENGTH, 64);
    write_all<Tested>(v.data(), LENGTH, 64);
    printf("unsigned %lu signed %ld written %lu\n", u, s, sum_unsigned<Tested>(v.data(), LENGTH, 57));
    return 0;
  }
  for (unsigned most : {32u, 64u}) { v = filled(); measure<Tested>("c++ tested", v, most); v = filled(); measure<Bare>("c++ bare", v, most); }
}
