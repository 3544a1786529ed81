// The same value as crates/tree_bench makes and reads, over the same kind of pool, in C++.
// With no argument it prints the checksum of 1,000 users, and given a number of users the least picoseconds of a node.
#include <algorithm>
#include <cstdint>
#include <cstdio>
#include <cstdlib>
#include <cstring>
#include <ctime>
#include <vector>

static const uint32_t USERS = 1000, ROUNDS = 9;
static const uint64_t NODES_OF_USER = 11, BYTES_OF_USER = 23;

static uint64_t now() { timespec t; clock_gettime(CLOCK_MONOTONIC, &t); return t.tv_sec * 1000000000ull + t.tv_nsec; }

enum class Kind : uint8_t { Flag, Int, Text, Bytes, List, Set, Map, Struct, Absent, Present };
struct Run { uint32_t first, count; };
struct Block { uint64_t start, len; };
struct Link { uint16_t id; uint32_t node; };
// Of 24 bytes, as a node of the pool.
struct Node {
  Kind kind;
  union { int64_t number; Run run; Block block; uint32_t inner; };
};

struct Tree { std::vector<Node> nodes; std::vector<Link> links; std::vector<uint8_t> bytes; uint32_t top; };

// Trees are put on a stack and joined; keys of a map are tested to rise. Where a vector is full, it grows.
struct Builder {
  Tree t; std::vector<uint32_t> stack;
  Builder(uint64_t nodes, uint64_t bytes) {
    t.nodes.reserve(nodes); t.links.reserve(nodes); t.bytes.reserve(bytes); stack.reserve(nodes);
  }
  void put(const Node& n) { stack.push_back(uint32_t(t.nodes.size())); t.nodes.push_back(n); }
  void number(int64_t x) { Node n; n.kind = Kind::Int; n.number = x; put(n); }
  void text(const char* s, size_t len) {
    Node n; n.kind = Kind::Text; n.block = {t.bytes.size(), len};
    t.bytes.insert(t.bytes.end(), s, s + len); put(n);
  }
  bool less(uint32_t a, uint32_t b) const {
    const Node &x = t.nodes[a], &y = t.nodes[b];
    if (x.kind == Kind::Int) return x.number < y.number;
    int c = memcmp(&t.bytes[x.block.start], &t.bytes[y.block.start], std::min(x.block.len, y.block.len));
    return c ? c < 0 : x.block.len < y.block.len;
  }
  void join(Kind kind, uint32_t count, const int16_t* ids) {
    Node n; n.kind = kind; n.run = {uint32_t(t.links.size()), count};
    size_t base = stack.size() - count;
    for (uint32_t i = 0; i < count; i++) t.links.push_back({uint16_t(ids ? ids[i] : 0), stack[base + i]});
    stack.resize(base); put(n);
  }
  void list(uint32_t n) { join(Kind::List, n, nullptr); }
  void map(uint32_t n) {
    size_t base = stack.size() - 2 * n;
    for (uint32_t i = 1; i < n; i++) if (!less(stack[base + 2 * i - 2], stack[base + 2 * i])) abort();
    join(Kind::Map, 2 * n, nullptr);
  }
  void structure(const int16_t* ids, uint32_t n) {
    for (uint32_t i = 1; i < n; i++) if (ids[i - 1] >= ids[i]) abort();
    join(Kind::Struct, n, ids);
  }
  Tree finish() { t.top = stack[0]; return std::move(t); }
};

static const char* const NAMES[8] = {"Adelaide", "Beatrice", "Caroline", "Dominica",
                                     "Euphemia", "Florence", "Gabriela", "Harriett"};

__attribute__((noinline)) Tree make(uint32_t users) {
  static const int16_t ids[4] = {1, 2, 3, 4};
  Builder b(NODES_OF_USER * users + 1, BYTES_OF_USER * users);
  for (uint32_t i = 0; i < users; i++) {
    b.text(NAMES[i % 8], 8);
    b.number(i);
    b.text("red", 3); b.text("green", 5); b.list(2);
    b.text("art", 3); b.number(i % 7); b.text("math", 4); b.number(i % 100); b.map(2);
    b.structure(ids, 4);
  }
  b.list(users);
  return b.finish();
}

static const Link* field(const Tree& t, const Node& n, uint16_t id) {
  const Link *first = &t.links[n.run.first], *end = first + n.run.count;
  const Link* at = std::lower_bound(first, end, id, [](const Link& l, uint16_t id) { return l.id < id; });
  return at != end && at->id == id ? at : nullptr;
}

__attribute__((noinline)) uint64_t weigh(const Tree& t, uint32_t node) {
  const Node& n = t.nodes[node];
  uint64_t sum = 0;
  switch (n.kind) {
    case Kind::Flag: return n.number;
    case Kind::Int: return uint64_t(n.number);
    case Kind::Text: case Kind::Bytes:
      for (uint64_t i = 0; i < n.block.len; i++) sum += t.bytes[n.block.start + i];
      return sum;
    case Kind::List: case Kind::Set: case Kind::Map:
      for (uint32_t i = 0; i < n.run.count; i++) sum += weigh(t, t.links[n.run.first + i].node);
      return sum;
    case Kind::Struct:
      for (uint16_t id = 1; id < 5; id++) if (const Link* l = field(t, n, id)) sum += weigh(t, l->node);
      return sum;
    case Kind::Absent: return 0;
    case Kind::Present: return weigh(t, n.inner);
  }
  return 0;
}

int main(int argc, char** argv) {
  if (argc < 2) {
    Tree t = make(USERS);
    printf("users %u sum %lu\n", USERS, weigh(t, t.top));
    return 0;
  }
  uint32_t users = strtoul(argv[1], nullptr, 10);
  uint64_t nodes = NODES_OF_USER * users + 1, made = ~0ull, read = ~0ull, sum = 0;
  for (uint32_t i = 0; i < ROUNDS; i++) {
    uint64_t t0 = now(); Tree t = make(users); made = std::min(made, (now() - t0) * 1000 / nodes);
    t0 = now(); sum = weigh(t, t.top); read = std::min(read, (now() - t0) * 1000 / nodes);
  }
  printf("c++, %lu nodes: making %lu ps a node, reading %lu ps a node, sum %lu\n", nodes, made, read, sum);
}
