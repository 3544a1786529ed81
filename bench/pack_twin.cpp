// The same packing as crates/pack_bench, in C++, over the same kind of pool: once by hand, for this one layout, and once by
// the nodes of a layout, for any. With no argument it prints the checksum of 1,000 users, and given the word `time` the
// least picoseconds of a cell at 100,000 users.
#include <algorithm>
#include <cstdint>
#include <cstdio>
#include <cstring>
#include <ctime>
#include <vector>

static const uint32_t USERS = 1000, TIMED_USERS = 100000, ROUNDS = 25;
static const uint64_t CELLS_OF_USER = 13;

static uint64_t now() { timespec t; clock_gettime(CLOCK_MONOTONIC, &t); return t.tv_sec * 1000000000ull + t.tv_nsec; }
static inline uint64_t load(const uint8_t* p) { uint64_t x; memcpy(&x, p, 8); return x; }
static inline void store(uint8_t* p, uint64_t x) { memcpy(p, &x, 8); }

enum class Kind : uint8_t { Int, Bytes, List, Struct };
struct Run { uint32_t first, count; };
struct Block { uint64_t start, len; };
struct Link { uint16_t id; uint32_t node; };
struct Node { Kind kind; union { int64_t number; Run run; Block block; }; };
struct Tree { std::vector<Node> nodes; std::vector<Link> links; std::vector<uint8_t> bytes; uint32_t top; };

struct Builder {
  Tree t; std::vector<uint32_t> stack;
  Builder(uint64_t nodes, uint64_t bytes) {
    t.nodes.reserve(nodes); t.links.reserve(nodes); t.bytes.reserve(bytes); stack.reserve(nodes);
  }
  void put(const Node& n) { stack.push_back(uint32_t(t.nodes.size())); t.nodes.push_back(n); }
  void number(int64_t x) { Node n; n.kind = Kind::Int; n.number = x; put(n); }
  void bytes(const char* s, size_t len) {
    Node n; n.kind = Kind::Bytes; n.block = {t.bytes.size(), len};
    t.bytes.insert(t.bytes.end(), s, s + len); put(n);
  }
  void join(Kind kind, uint32_t count) {
    Node n; n.kind = kind; n.run = {uint32_t(t.links.size()), count};
    size_t base = stack.size() - count;
    for (uint32_t i = 0; i < count; i++) t.links.push_back({uint16_t(kind == Kind::Struct ? i + 1 : 0), stack[base + i]});
    stack.resize(base); put(n);
  }
  Tree finish() { t.top = stack[0]; return std::move(t); }
};

static Tree make(uint32_t n) {
  Builder b(4 * n + 2, 8 * n);
  for (uint32_t i = 0; i < n; i++) { b.number(i); b.number(i % 100); b.bytes("Adelaide", 8); b.join(Kind::Struct, 3); }
  b.join(Kind::List, n); b.join(Kind::Struct, 1);
  return b.finish();
}

// Adds a number to zero bits, behind which eight bytes lie.
static inline void put(uint8_t* p, uint64_t bit, uint64_t x) { uint8_t* q = p + bit / 8; store(q, load(q) | x << bit % 8); }

// By hand: a root of 19 bits, users of 49 bits, and their names.
__attribute__((noinline)) void by_hand(const Tree& t, uint8_t* out) {
  auto part = [&](const Node& n, uint32_t i) -> const Node& { return t.nodes[t.links[n.run.first + i].node]; };
  const Node& list = part(t.nodes[t.top], 0);
  uint64_t n = list.run.count, next = 3 + (49 * n + 7) / 8;
  put(out, 0, (n ? 3 : 0) | n << 2);
  for (uint64_t i = 0; i < n; i++) {
    const Node& user = part(list, i);
    const Block& name = part(user, 2).block;
    uint64_t id = part(user, 0).number, score = part(user, 1).number;
    put(out + 3, 49 * i, id | score << 17 | (name.len ? next - 3 : 0) << 24 | name.len << 45);
    memcpy(out + next, &t.bytes[name.start], name.len); next += name.len;
  }
}

// By nodes: a layout in preorder, each with its bits, the number after its subtree and its base.
struct Spec { Kind kind; uint32_t bits, past; int64_t base; };
static const Spec SPECS[10] = {{Kind::Struct, 19, 10, 0}, {Kind::List, 19, 10, 0}, {Kind::Int, 2, 3, 0}, {Kind::Int, 17, 4, 0},
                               {Kind::Struct, 49, 10, 0}, {Kind::Int, 17, 6, 0},   {Kind::Int, 7, 7, 0}, {Kind::Bytes, 25, 10, 0},
                               {Kind::Int, 21, 9, 0},     {Kind::Int, 4, 10, 0}};
struct Packer {
  const Tree& t; const Spec* specs; uint8_t* out; uint64_t next;
  void part(uint32_t spec, uint32_t node, uint64_t start, uint64_t bit) {
    const Spec& s = specs[spec]; const Node& n = t.nodes[node];
    switch (s.kind) {
      case Kind::Int: put(out + start, bit, uint64_t(n.number) - uint64_t(s.base)); return;
      case Kind::Bytes: {
        uint64_t at = next; next += n.block.len; range(spec, n.block.len, start, bit, at);
        if (n.block.len) memcpy(out + at, &t.bytes[n.block.start], n.block.len);
        return;
      }
      case Kind::List: {
        uint64_t stride = specs[spec + 3].bits, at = next;
        next += (stride * n.run.count + 7) / 8; range(spec, n.run.count, start, bit, at);
        for (uint32_t i = 0; i < n.run.count; i++) part(spec + 3, t.links[n.run.first + i].node, at, stride * i);
        return;
      }
      case Kind::Struct:
        for (uint32_t i = 0, child = spec + 1; i < n.run.count; i++, child = specs[child].past) {
          part(child, t.links[n.run.first + i].node, start, bit); bit += specs[child].bits;
        }
        return;
    }
  }
  void range(uint32_t spec, uint64_t count, uint64_t start, uint64_t bit, uint64_t at) {
    put(out + start, bit, (count ? at - start : 0) | count << specs[spec + 1].bits);
  }
};
__attribute__((noinline)) void by_nodes(const Tree& t, const Spec* specs, uint8_t* out) {
  Packer p{t, specs, out, (specs[0].bits + 7) / 8}; p.part(0, t.top, 0, 0);
}

static uint64_t packed_len(uint64_t n) { return 3 + (49 * n + 7) / 8 + 8 * n; }
static uint64_t checksum(const uint8_t* p, uint64_t len) {
  uint64_t sum = 0; for (uint64_t i = 0; i < len; i++) sum = sum * 31 + p[i]; return sum;
}

int main(int argc, char**) {
  uint32_t users = argc < 2 ? USERS : TIMED_USERS;
  Tree t = make(users);
  uint64_t len = packed_len(users), cells = CELLS_OF_USER * users + 2, hand = ~0ull, nodes = ~0ull, sums[2] = {0, 0};
  for (uint32_t i = 0; i < ROUNDS; i++) {
    {
      uint64_t t0 = now(); std::vector<uint8_t> v(len + 8); by_hand(t, v.data()); hand = std::min(hand, (now() - t0) * 1000 / cells);
      sums[0] = checksum(v.data(), len);
    }
    uint64_t t0 = now(); std::vector<uint8_t> v(len + 8); by_nodes(t, SPECS, v.data()); nodes = std::min(nodes, (now() - t0) * 1000 / cells);
    sums[1] = checksum(v.data(), len);
  }
  if (sums[0] != sums[1]) return 1;
  if (argc < 2) printf("users %u sum %lu\n", users, sums[0]);
  else printf("c++ by hand, %lu cells: packing %lu ps a cell, sum %lu\nc++ by nodes, %lu cells: packing %lu ps a cell, sum %lu\n",
              cells, hand, sums[0], cells, nodes, sums[1]);
}
