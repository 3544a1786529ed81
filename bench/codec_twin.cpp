// The same reading, writing, measuring and packing as crates/codec_bench, in C++, by a type and by the nodes of a layout, so for any
// definition. With no argument it prints the checksums of 1,000 users, given the word `time` how fast each goes at 100,000 users, and
// given the word `items` what checking 64 MiB of small structs takes.
#include <algorithm>
#include <cstdint>
#include <cstdio>
#include <cstdlib>
#include <cstring>
#include <ctime>
#include <string>
#include <string_view>
#include <vector>

static const uint32_t USERS = 1000, TIMED_USERS = 100000, ROUNDS = 9, ITEM_BYTES = 67108864;
static const uint64_t CELL_LIMIT = 33554432;

static uint64_t now() { timespec t; clock_gettime(CLOCK_MONOTONIC, &t); return t.tv_sec * 1000000000ull + t.tv_nsec; }
[[noreturn]] static void refuse(const char* why) { fprintf(stderr, "%s\n", why); exit(1); }

// ---- types: an optional field has `optional`, and a map has its key and its value

enum class Kind : uint8_t { Flag, Int, Text, List, Map, Struct };
struct Type;
struct Field { int16_t id; const Type* type; bool optional; };
struct Type { Kind kind; uint8_t code; const Type* item; const Type* value; std::vector<Field> fields; };

static const Type I32{Kind::Int, 5, nullptr, nullptr, {}}, TEXT{Kind::Text, 8, nullptr, nullptr, {}};
static const Type TAGS{Kind::List, 9, &TEXT, nullptr, {}}, SCORES{Kind::Map, 11, &TEXT, &I32, {}};
static const Type USER{Kind::Struct, 12, nullptr, nullptr,
                       {{1, &I32, false}, {2, &TEXT, false}, {3, &TEXT, true}, {4, &TAGS, false}, {5, &SCORES, false}}};
static const Type BY_ID{Kind::Map, 11, &I32, &USER, {}};
static const Type ROOT{Kind::Struct, 12, nullptr, nullptr, {{1, &BY_ID, false}}};
static const Type NOTHING{Kind::Struct, 12, nullptr, nullptr, {}};
static const Type MANY{Kind::List, 9, &NOTHING, nullptr, {}};
static const Type ITEMS{Kind::Struct, 12, nullptr, nullptr, {{1, &MANY, false}}};

// ---- writing of bytes

using Bytes = std::vector<uint8_t>;
static void push_number(Bytes& out, uint64_t x) { for (; x >= 128; x >>= 7) out.push_back(uint8_t(x | 128)); out.push_back(uint8_t(x)); }
static uint64_t zigzag(int64_t x) { return uint64_t(x) << 1 ^ uint64_t(x >> 63); }
static void push_text(Bytes& out, std::string_view s) { push_number(out, s.size()); out.insert(out.end(), s.begin(), s.end()); }

static Bytes users(uint32_t n) {
  Bytes out{0x1b}; push_number(out, n); out.push_back(0x5c);
  for (uint32_t i = 1; i <= n; i++) {
    char digits[16]; snprintf(digits, sizeof digits, "%06u", i);
    push_number(out, zigzag(i)); out.push_back(0x15); push_number(out, zigzag(i));
    out.push_back(0x18); push_text(out, std::string("user") + digits);
    if (i % 2 == 0) { out.push_back(0x18); push_text(out, std::string(digits) + "@example.com"); }
    out.push_back(i % 2 == 0 ? 0x19 : 0x29); out.push_back(uint8_t(i % 3 << 4 | 8));
    if (i % 3 > 0) push_text(out, "red");
    if (i % 3 > 1) push_text(out, "green");
    for (uint8_t b : {0x1b, 0x02, 0x85}) out.push_back(b);
    push_text(out, "art"); push_number(out, zigzag(i % 7)); push_text(out, "math"); push_number(out, zigzag(i % 100));
    out.push_back(0);
  }
  out.push_back(0);
  return out;
}

// ---- reading: every step tests that the bytes go on, and every number that it is short enough

struct Reader {
  const uint8_t *at, *end;
  uint8_t byte() { if (at == end) refuse("cut"); return *at++; }
  uint64_t number() {
    uint64_t x = 0;
    for (uint32_t shift = 0; shift < 64; shift += 7) { uint8_t b = byte(); x |= uint64_t(b & 127) << shift; if (b < 128) return x; }
    refuse("long number");
  }
  int64_t integer() { uint64_t x = number(); return int64_t(x >> 1) ^ -int64_t(x & 1); }
  std::string_view text() {
    uint64_t n = number(); if (n > uint64_t(end - at)) refuse("cut");
    const char* s = reinterpret_cast<const char*>(at); at += n; return {s, size_t(n)};
  }
};
static bool is_utf8(std::string_view s) {
  size_t i = 0, n = s.size();
  auto ext = [&](size_t k) { return i + k < n && (uint8_t(s[i + k]) & 0xc0) == 0x80; };
  while (i < n) {
    if (i + 8 <= n) { uint64_t w; memcpy(&w, &s[i], 8); if (!(w & 0x8080808080808080ull)) { i += 8; continue; } }
    uint8_t b = s[i];
    if (b < 0x80) i += 1;
    else if (b >= 0xc2 && b < 0xe0 && ext(1)) i += 2;
    else if (b >= 0xe0 && b < 0xf0 && ext(1) && ext(2) && !(b == 0xe0 && uint8_t(s[i + 1]) < 0xa0) && !(b == 0xed && uint8_t(s[i + 1]) > 0x9f)) i += 3;
    else if (b >= 0xf0 && b < 0xf5 && ext(1) && ext(2) && ext(3) && !(b == 0xf0 && uint8_t(s[i + 1]) < 0x90) && !(b == 0xf4 && uint8_t(s[i + 1]) > 0x8f)) i += 4;
    else return false;
  }
  return true;
}

struct Counts { uint64_t cells = 0, nodes = 0, bytes = 0; };
static uint64_t inline_cells(const Type& t) {
  if (t.kind == Kind::Struct) { uint64_t n = 0; for (const Field& f : t.fields) n += f.optional + inline_cells(*f.type); return n; }
  return t.kind == Kind::Flag || t.kind == Kind::Int ? 1 : 2;
}
// What a field that does not stand is: absent where it is optional, and else zero or empty.
static void count_missing(const Field& f, Counts& c) {
  c.cells += f.optional + inline_cells(*f.type); c.nodes += 1;
  if (!f.optional && f.type->kind == Kind::Struct) for (const Field& g : f.type->fields) count_missing(g, c);
}

// Where the field with an id stands among the fields of a type.
static size_t place_of(const Type& t, int64_t id) { for (size_t i = 0; i < t.fields.size(); i++) if (t.fields[i].id == id) return i; return t.fields.size(); }

// A field's header: false behind the last. `id` is that of the field before.
static bool field_header(Reader& r, int64_t& id, uint8_t& code) {
  uint8_t b = r.byte(); code = b & 15;
  if (b == 0) return false;
  id = b >> 4 ? id + (b >> 4) : r.integer();
  return true;
}
static uint64_t list_header(Reader& r, uint8_t& code) { uint8_t b = r.byte(); code = b & 15; uint64_t n = b >> 4; return n == 15 ? r.number() : n; }

// ---- the check: spelling, types, texts and keys, and what is counted

static void check_value(Reader& r, const Type& t, Counts& c) {
  switch (t.kind) {
    case Kind::Flag: r.byte(); c.cells += 1; c.nodes += 1; return;
    case Kind::Int: { int64_t x = r.integer(); if (x != int32_t(x)) refuse("wide number"); c.cells += 1; c.nodes += 1; return; }
    case Kind::Text: { auto s = r.text(); if (!is_utf8(s)) refuse("no text"); c.cells += 2 + s.size(); c.nodes += 1; c.bytes += s.size(); return; }
    case Kind::List: {
      uint8_t code; uint64_t n = list_header(r, code);
      if (n && code != t.item->code) refuse("wrong type");
      c.cells += 2; c.nodes += 1;
      for (uint64_t i = 0; i < n; i++) { c.cells += 1; check_value(r, *t.item, c); }
      return;
    }
    case Kind::Map: {
      uint64_t n = r.number(); if (n && r.byte() != (t.item->code << 4 | t.value->code)) refuse("wrong type");
      c.cells += 2; c.nodes += 1; int64_t number = INT64_MIN; std::string_view text; bool rises = true;
      for (uint64_t i = 0; i < n; i++) {
        c.cells += 1;
        Reader key = r; check_value(r, *t.item, c);
        if (t.item->kind == Kind::Int) { int64_t x = key.integer(); rises &= i == 0 || number < x; number = x; }
        else { auto s = key.text(); rises &= i == 0 || text < s; text = s; }
        check_value(r, *t.value, c);
      }
      if (!rises) refuse("keys that do not rise");
      return;
    }
    case Kind::Struct: {
      c.nodes += 1; int64_t id = 0; uint8_t code; uint64_t stood = 0;
      while (field_header(r, id, code)) {
        size_t k = place_of(t, id);
        if (k == t.fields.size()) refuse("unknown field");
        const Field& f = t.fields[k];
        if (code != f.type->code || stood >> k & 1) refuse("wrong field");
        stood |= 1ull << k;
        if (f.optional) { c.cells += 1; c.nodes += 1; }
        check_value(r, *f.type, c);
      }
      for (size_t k = 0; k < t.fields.size(); k++) if (!(stood >> k & 1)) count_missing(t.fields[k], c);
      return;
    }
  }
}
__attribute__((noinline)) Counts check(const Type& t, const Bytes& bytes) {
  Reader r{bytes.data(), bytes.data() + bytes.size()}; Counts c; check_value(r, t, c);
  if (r.at != r.end) refuse("bytes behind");
  return c;
}

// ---- trees in a pool

enum class Form : uint8_t { Flag, Int, Text, List, Map, Struct, Absent, Present };
struct Node { Form form; uint32_t count; union { int64_t number; uint64_t start; }; };
struct Tree { std::vector<Node> nodes; std::vector<uint32_t> links; std::vector<int16_t> ids; Bytes bytes; uint32_t top; };

struct Building {
  Tree t; std::vector<uint32_t> stack; std::vector<int16_t> ids;
  void put(Form form, int64_t number) { Node n; n.form = form; n.count = 0; n.number = number; stack.push_back(uint32_t(t.nodes.size())); t.nodes.push_back(n); }
  void join(Form form, uint32_t count, bool with_ids) {
    Node n; n.form = form; n.count = count; n.start = t.links.size(); size_t base = stack.size() - count;
    for (uint32_t i = 0; i < count; i++) { t.links.push_back(stack[base + i]); t.ids.push_back(with_ids ? ids[ids.size() - count + i] : 0); }
    stack.resize(base); stack.push_back(uint32_t(t.nodes.size())); t.nodes.push_back(n);
    if (with_ids) ids.resize(ids.size() - count);
  }
  void zero(const Type& t) {
    if (t.kind == Kind::Struct) { for (const Field& f : t.fields) missing(f); join(Form::Struct, uint32_t(t.fields.size()), true); }
    else if (t.kind == Kind::List || t.kind == Kind::Map) join(t.kind == Kind::List ? Form::List : Form::Map, 0, false);
    else put(t.kind == Kind::Flag ? Form::Flag : t.kind == Kind::Int ? Form::Int : Form::Text, 0);
  }
  void missing(const Field& f) { ids.push_back(f.id); if (f.optional) put(Form::Absent, 0); else zero(*f.type); }
  void text(std::string_view s) {
    put(Form::Text, int64_t(t.bytes.size())); t.nodes.back().count = uint32_t(s.size()); t.bytes.insert(t.bytes.end(), s.begin(), s.end());
  }
  void value(Reader& r, const Type& t) {
    switch (t.kind) {
      case Kind::Flag: put(Form::Flag, r.byte() == 1); return;
      case Kind::Int: put(Form::Int, r.integer()); return;
      case Kind::Text: text(r.text()); return;
      case Kind::List: { uint8_t code; uint64_t n = list_header(r, code); for (uint64_t i = 0; i < n; i++) value(r, *t.item); join(Form::List, uint32_t(n), false); return; }
      case Kind::Map: {
        uint64_t n = r.number(); if (n) r.byte();
        for (uint64_t i = 0; i < n; i++) { value(r, *t.item); value(r, *t.value); }
        join(Form::Map, uint32_t(2 * n), false); return;
      }
      case Kind::Struct: {
        // Fields by rising id: where they stand so, each is put behind the missing ones before it.
        int64_t id = 0; uint8_t code; size_t next = 0;
        while (field_header(r, id, code)) {
          size_t k = place_of(t, id);
          for (; next < k; next++) missing(t.fields[next]);
          next = k + 1; ids.push_back(int16_t(id)); value(r, *t.fields[k].type);
          if (t.fields[k].optional) { uint32_t inner = stack.back(); stack.pop_back(); put(Form::Present, inner); }
        }
        for (; next < t.fields.size(); next++) missing(t.fields[next]);
        join(Form::Struct, uint32_t(t.fields.size()), true);
      }
    }
  }
};
__attribute__((noinline)) Tree decode(const Type& type, const Bytes& bytes) {
  Counts c = check(type, bytes); if (c.cells > CELL_LIMIT) refuse("cells");
  Building b; b.t.nodes.reserve(c.nodes); b.t.links.reserve(c.nodes); b.t.ids.reserve(c.nodes); b.t.bytes.reserve(c.bytes); b.stack.reserve(64);
  Reader r{bytes.data(), bytes.data() + bytes.size()}; b.value(r, type); b.t.top = b.stack[0];
  return std::move(b.t);
}

// ---- writing of trees

static void write_value(Bytes& out, const Type& t, const Tree& tree, uint32_t node) {
  const Node& n = tree.nodes[node];
  switch (t.kind) {
    case Kind::Flag: out.push_back(n.number ? 1 : 2); return;
    case Kind::Int: push_number(out, zigzag(n.number)); return;
    case Kind::Text: push_number(out, n.count); out.insert(out.end(), &tree.bytes[n.start], &tree.bytes[n.start] + n.count); return;
    case Kind::List:
      if (n.count < 15) out.push_back(uint8_t(n.count << 4 | t.item->code)); else { out.push_back(0xf0 | t.item->code); push_number(out, n.count); }
      for (uint32_t i = 0; i < n.count; i++) write_value(out, *t.item, tree, tree.links[n.start + i]);
      return;
    case Kind::Map:
      push_number(out, n.count / 2); if (n.count) out.push_back(uint8_t(t.item->code << 4 | t.value->code));
      for (uint32_t i = 0; i < n.count; i++) write_value(out, i % 2 ? *t.value : *t.item, tree, tree.links[n.start + i]);
      return;
    case Kind::Struct: {
      int16_t before = 0;
      for (uint32_t i = 0; i < n.count; i++) {
        uint32_t part = tree.links[n.start + i]; int16_t id = tree.ids[n.start + i]; const Field& f = t.fields[i];
        if (tree.nodes[part].form == Form::Absent) continue;
        if (f.optional) part = uint32_t(tree.nodes[part].number);
        if (id - before < 16) out.push_back(uint8_t((id - before) << 4 | f.type->code)); else { out.push_back(f.type->code); push_number(out, zigzag(id)); }
        write_value(out, *f.type, tree, part); before = id;
      }
      out.push_back(0);
    }
  }
}
__attribute__((noinline)) Bytes encode(const Type& t, const Tree& tree) { Bytes out; write_value(out, t, tree, tree.top); return out; }

// ---- layouts: nodes in preorder, each with its bits, its noted width, the number behind its nodes, and its base

enum class At : uint8_t { Flag, Int, Size, Text, List, Map, Pair, Struct, Optional };
struct Spec { At kind; uint32_t bits, wide, past; int64_t base; };
using Specs = std::vector<Spec>;
static void shape(Specs& s, const Type& t) {
  size_t here = s.size();
  auto leaf = [&](At k) { s.push_back({k, 0, 0, uint32_t(s.size() + 1), 0}); };
  switch (t.kind) {
    case Kind::Flag: leaf(At::Flag); return;
    case Kind::Int: leaf(At::Int); return;
    case Kind::Text: leaf(At::Text); leaf(At::Size); leaf(At::Size); break;
    case Kind::List: leaf(At::List); leaf(At::Size); leaf(At::Size); shape(s, *t.item); break;
    case Kind::Map: { leaf(At::Map); leaf(At::Size); leaf(At::Size); size_t pair = s.size(); leaf(At::Pair); shape(s, *t.item); shape(s, *t.value); s[pair].past = uint32_t(s.size()); break; }
    case Kind::Struct:
      leaf(At::Struct);
      for (const Field& f : t.fields) {
        size_t o = s.size();
        if (f.optional) { leaf(At::Optional); leaf(At::Flag); }
        shape(s, *f.type);
        if (f.optional) s[o].past = uint32_t(s.size());
      }
  }
  s[here].past = uint32_t(s.size());
}
static uint32_t settle(Specs& s, uint32_t i) {
  Spec& x = s[i];
  switch (x.kind) {
    case At::Flag: case At::Int: case At::Size: return x.bits = x.wide;
    case At::List: case At::Map: settle(s, i + 3); [[fallthrough]];
    case At::Text: return x.bits = settle(s, i + 1) + settle(s, i + 2);
    default: { uint32_t sum = 0; for (uint32_t c = i + 1; c < x.past; c = s[c].past) sum += settle(s, c); return s[i].bits = sum; }
  }
}
static bool is_settled(const Specs& s) {
  for (const Spec& x : s) if ((x.kind == At::Flag || x.kind == At::Int || x.kind == At::Size) && x.bits != x.wide) return false;
  return true;
}
static uint32_t digits(uint64_t x) { return x ? 64 - __builtin_clzll(x) : 0; }

struct Walk {
  Specs& s; const Tree& t;
  // The least and the greatest number at each leaf.
  void bounds(uint32_t spec, uint32_t node, std::vector<int64_t>& least) {
    const Node& n = t.nodes[node];
    switch (s[spec].kind) {
      case At::Int: least[spec] = std::min(least[spec], n.number); return;
      case At::List: for (uint32_t i = 0; i < n.count; i++) bounds(spec + 3, t.links[n.start + i], least); return;
      case At::Map:
        for (uint32_t i = 0; i < n.count; i += 2) { bounds(spec + 4, t.links[n.start + i], least); bounds(s[spec + 4].past, t.links[n.start + i + 1], least); }
        return;
      case At::Struct: for (uint32_t i = 0, c = spec + 1; i < n.count; i++, c = s[c].past) bounds(c, t.links[n.start + i], least); return;
      case At::Optional: if (n.form == Form::Present) bounds(spec + 2, uint32_t(n.number), least); return;
      default: return;
    }
  }
  void note(uint32_t spec, uint32_t need) { if (s[spec].wide < need) s[spec].wide = need; }
  // What packing puts at each leaf; `at` is where the next block begins, counted from the start of the block that the part lies in.
  uint64_t pass(uint32_t spec, uint32_t node, uint64_t at) {
    const Node& n = t.nodes[node];
    switch (s[spec].kind) {
      case At::Flag: note(spec, n.number != 0); return at;
      case At::Int: note(spec, digits(uint64_t(n.number) - uint64_t(s[spec].base))); return at;
      case At::Text: range(spec, n.count, at); return at + n.count;
      case At::List: {
        range(spec, n.count, at); uint64_t first = (uint64_t(s[spec + 3].bits) * n.count + 7) / 8, next = first;
        for (uint32_t i = 0; i < n.count; i++) next = pass(spec + 3, t.links[n.start + i], next);
        return at + next;
      }
      case At::Map: {
        uint64_t many = n.count / 2; range(spec, many, at); uint64_t next = (s[spec + 3].bits * many + 7) / 8; uint32_t second = s[spec + 4].past;
        for (uint32_t i = 0; i < n.count; i += 2) { next = pass(spec + 4, t.links[n.start + i], next); next = pass(second, t.links[n.start + i + 1], next); }
        return at + next;
      }
      case At::Struct: for (uint32_t i = 0, c = spec + 1; i < n.count; i++, c = s[c].past) at = pass(c, t.links[n.start + i], at); return at;
      case At::Optional: if (n.form == Form::Absent) return at; note(spec + 1, 1); return pass(spec + 2, uint32_t(n.number), at);
      default: return at;
    }
  }
  void range(uint32_t spec, uint64_t count, uint64_t at) { note(spec + 1, digits(count ? at : 0)); note(spec + 2, digits(count)); }
};

struct Spot { uint32_t node; uint64_t count, parent, start; };
static void gather(std::vector<Spot>& out, const Specs& s, const Tree& t, uint32_t spec, uint32_t node, uint64_t parent) {
  const Node& n = t.nodes[node];
  switch (s[spec].kind) {
    case At::Text: if (n.count) out.push_back({spec, n.count, parent, 0}); return;
    case At::List: {
      if (!n.count) return;
      uint64_t here = out.size(); out.push_back({spec, n.count, parent, 0});
      for (uint32_t i = 0; i < n.count; i++) gather(out, s, t, spec + 3, t.links[n.start + i], here);
      return;
    }
    case At::Map: {
      if (!n.count) return;
      uint64_t here = out.size(); out.push_back({spec, n.count / 2, parent, 0});
      for (uint32_t i = 0; i < n.count; i += 2) { gather(out, s, t, spec + 4, t.links[n.start + i], here); gather(out, s, t, s[spec + 4].past, t.links[n.start + i + 1], here); }
      return;
    }
    case At::Struct: for (uint32_t i = 0, c = spec + 1; i < n.count; i++, c = s[c].past) gather(out, s, t, c, t.links[n.start + i], parent); return;
    case At::Optional: if (n.form == Form::Present) gather(out, s, t, spec + 2, uint32_t(n.number), parent); return;
    default: return;
  }
}
// A pass over ranges: where the last block ends, and whether a distance widened.
static bool range_pass(Specs& s, std::vector<Spot>& spots, uint64_t& end) {
  uint64_t at = (s[0].bits + 7) / 8;
  for (size_t k = 1; k < spots.size(); k++) {
    Spot& x = spots[k]; x.start = at; uint32_t need = digits(at - spots[x.parent].start);
    if (s[x.node + 1].wide < need) s[x.node + 1].wide = need;
    at += s[x.node].kind == At::Text ? x.count : (x.count * s[x.node + 3].bits + 7) / 8;
  }
  end = at;
  if (is_settled(s)) return false;
  settle(s, 0);
  return true;
}

struct Times { uint64_t bases = ~0ull, pass = ~0ull, gather = ~0ull, ranges = ~0ull; };
__attribute__((noinline)) Specs measure(const Type& type, const Tree& t, uint64_t& len, Times& least) {
  Specs s; shape(s, type); Walk w{s, t};
  uint64_t t0 = now(); std::vector<int64_t> low(s.size(), INT64_MAX); w.bounds(0, t.top, low);
  for (size_t i = 0; i < s.size(); i++) if (s[i].kind == At::Int && low[i] != INT64_MAX) s[i].base = low[i];
  uint64_t t1 = now(); w.pass(0, t.top, (s[0].bits + 7) / 8); settle(s, 0);
  uint64_t t2 = now(); std::vector<Spot> spots{{0, 1, 0, 0}}; gather(spots, s, t, 0, t.top, 0);
  uint64_t t3 = now(); bool more = range_pass(s, spots, len); uint64_t t4 = now();
  while (more) more = range_pass(s, spots, len);
  least.bases = std::min(least.bases, t1 - t0); least.pass = std::min(least.pass, t2 - t1);
  least.gather = std::min(least.gather, t3 - t2); least.ranges = std::min(least.ranges, t4 - t3);
  return s;
}

// ---- packing by the nodes of a layout

struct Packer {
  const Tree& t; const Specs& s; uint8_t* out; uint64_t next;
  // A number above its bit's byte takes at most 64 + 7 bits; nine bytes lie behind each place.
  void put(uint64_t start, uint64_t bit, uint64_t x) {
    uint8_t* q = out + start + bit / 8; uint64_t w; memcpy(&w, q, 8); w |= x << bit % 8; memcpy(q, &w, 8);
    if (bit % 8) q[8] |= uint8_t(x >> (64 - bit % 8));
  }
  void range(uint32_t spec, uint64_t count, uint64_t start, uint64_t bit, uint64_t at) { put(start, bit, (count ? at - start : 0) | count << s[spec + 1].bits); }
  void part(uint32_t spec, uint32_t node, uint64_t start, uint64_t bit) {
    const Spec& x = s[spec]; const Node& n = t.nodes[node];
    switch (x.kind) {
      case At::Flag: put(start, bit, n.number != 0); return;
      case At::Int: put(start, bit, uint64_t(n.number) - uint64_t(x.base)); return;
      case At::Text: { uint64_t at = next; next += n.count; range(spec, n.count, start, bit, at); if (n.count) memcpy(out + at, &t.bytes[n.start], n.count); return; }
      case At::List: {
        uint64_t stride = s[spec + 3].bits, at = next; next += (stride * n.count + 7) / 8; range(spec, n.count, start, bit, at);
        for (uint32_t i = 0; i < n.count; i++) part(spec + 3, t.links[n.start + i], at, stride * i);
        return;
      }
      case At::Map: {
        uint64_t many = n.count / 2, stride = s[spec + 3].bits, at = next; uint32_t key = spec + 4, value = s[key].past;
        next += (stride * many + 7) / 8; range(spec, many, start, bit, at);
        for (uint32_t i = 0; i < many; i++) { part(key, t.links[n.start + 2 * i], at, stride * i); part(value, t.links[n.start + 2 * i + 1], at, stride * i + s[key].bits); }
        return;
      }
      case At::Struct: for (uint32_t i = 0, c = spec + 1; i < n.count; i++, c = s[c].past) { part(c, t.links[n.start + i], start, bit); bit += s[c].bits; } return;
      case At::Optional: if (n.form == Form::Absent) return; put(start, bit, 1); part(spec + 2, uint32_t(n.number), start, bit + s[spec + 1].bits); return;
      default: return;
    }
  }
};
__attribute__((noinline)) Bytes freeze(const Type& type, const Tree& t) {
  uint64_t len; Times times; Specs s = measure(type, t, len, times);
  Bytes out(len + 9); Packer p{t, s, out.data(), (s[0].bits + 7) / 8}; p.part(0, t.top, 0, 0); out.resize(len);
  return out;
}

// ---- the check of a content by the nodes of a layout: distances, ends, zero bits, texts, keys and numbers

struct Opener {
  const Specs& s; const uint8_t* in; uint64_t len, next = 0, cells = 0;
  uint64_t get(uint64_t start, uint64_t bit, uint32_t width) const {
    if (!width) return 0;
    uint64_t x = 0, at = start + bit / 8, low = bit % 8;
    if (at + 9 <= len) { memcpy(&x, in + at, 8); x >>= low; if (low + width > 64) x |= uint64_t(in[at + 8]) << (64 - low); }
    else for (uint32_t i = 0; i < width; i++) { uint64_t k = bit + i; x |= uint64_t(in[start + k / 8] >> k % 8 & 1) << i; }
    return x & ~0ull >> (64 - width);
  }
  void zero(uint64_t start, uint64_t bit, uint64_t width) const {
    for (; width > 64; width -= 64, bit += 64) if (get(start, bit, 64)) refuse("dirty");
    if (get(start, bit, uint32_t(width))) refuse("dirty");
  }
  // The count of a range, whose block of so many bits an item begins next.
  uint64_t range(uint32_t spec, uint64_t start, uint64_t bit, uint64_t stride, uint64_t& at) {
    uint64_t far = get(start, bit, s[spec + 1].bits), n = get(start, bit + s[spec + 1].bits, s[spec + 2].bits);
    if (far != (n ? next - start : 0)) refuse("distance");
    uint64_t bits = stride * n, size = (bits + 7) / 8;
    if (size > len - next) refuse("short");
    at = next; next += size; cells += 2;
    if (bits % 8) zero(at, bits, 8 * size - bits);
    return n;
  }
  // The cells of a part in its block alone, which an absent one has too.
  uint64_t inline_cells(uint32_t spec) const {
    switch (s[spec].kind) {
      case At::Struct: { uint64_t n = 0; for (uint32_t c = spec + 1; c < s[spec].past; c = s[c].past) n += inline_cells(c); return n; }
      case At::Optional: return 1 + inline_cells(spec + 2);
      case At::Flag: case At::Int: return 1;
      default: return 2;
    }
  }
  int64_t number(uint32_t spec, uint64_t start, uint64_t bit) const { return int64_t(uint64_t(s[spec].base) + get(start, bit, s[spec].bits)); }
  void part(uint32_t spec, uint64_t start, uint64_t bit) {
    switch (s[spec].kind) {
      case At::Flag: cells += 1; return;
      case At::Int: { int64_t x = number(spec, start, bit); if (x != int32_t(x)) refuse("range"); cells += 1; return; }
      case At::Text: {
        uint64_t at, n = range(spec, start, bit, 8, at); cells += n;
        if (!is_utf8({reinterpret_cast<const char*>(in + at), size_t(n)})) refuse("text");
        return;
      }
      case At::List: {
        uint64_t stride = s[spec + 3].bits, at, n = range(spec, start, bit, stride, at); cells += n;
        for (uint64_t i = 0; i < n; i++) part(spec + 3, at, stride * i);
        return;
      }
      case At::Map: {
        uint32_t key = spec + 4, value = s[key].past; uint64_t stride = s[spec + 3].bits, at, n = range(spec, start, bit, stride, at);
        cells += n; int64_t number_before = 0; std::string_view text_before;
        for (uint64_t i = 0; i < n; i++) {
          uint64_t here = next; part(key, at, stride * i);
          if (s[key].kind == At::Int) { int64_t x = number(key, at, stride * i); if (i && x <= number_before) refuse("order"); number_before = x; }
          else {
            std::string_view x{reinterpret_cast<const char*>(in + here), size_t(next - here)};
            if (i && x <= text_before) refuse("order");
            text_before = x;
          }
          part(value, at, stride * i + s[key].bits);
        }
        return;
      }
      case At::Struct: for (uint32_t c = spec + 1; c < s[spec].past; c = s[c].past) { part(c, start, bit); bit += s[c].bits; } return;
      case At::Optional:
        cells += 1;
        if (get(start, bit, s[spec + 1].bits)) part(spec + 2, start, bit + s[spec + 1].bits);
        else { zero(start, bit + s[spec + 1].bits, s[spec + 2].bits); cells += inline_cells(spec + 2); }
        return;
      default: return;
    }
  }
};
__attribute__((noinline)) uint64_t open_content(const Specs& s, const Bytes& b) {
  Opener o{s, b.data(), b.size()}; o.next = (s[0].bits + 7) / 8;
  if (o.next > o.len) refuse("short");
  o.zero(0, s[0].bits, 8 * o.next - s[0].bits); o.part(0, 0, 0);
  if (o.next != o.len) refuse("bytes behind");
  if (o.cells > CELL_LIMIT) refuse("cells");
  return o.cells;
}

static uint64_t checksum(const Bytes& b) { uint64_t sum = 0; for (uint8_t x : b) sum = sum * 31 + x; return sum; }
static uint64_t speed(uint64_t bytes, uint64_t ns) { return bytes * 1000 / std::max<uint64_t>(ns, 1); }

int main(int argc, char** argv) {
  if (argc > 1 && std::string(argv[1]) == "items") {
    Bytes bytes{0x19, 0xfc}; uint32_t many = ITEM_BYTES - 7; push_number(bytes, many); bytes.resize(bytes.size() + many + 1);
    uint64_t t0 = now(); Counts c = check(ITEMS, bytes);
    printf("c++, %zu bytes of small structs: refused for %lu cells in %lu us\n", bytes.size(), c.cells, (now() - t0) / 1000);
    return 0;
  }
  Bytes bytes = users(argc < 2 ? USERS : TIMED_USERS);
  if (argc < 2) {
    Tree t = decode(ROOT, bytes);
    printf("users %u bytes %zu spelled %lu content %lu\n", USERS, bytes.size(), checksum(encode(ROOT, t)), checksum(freeze(ROOT, t)));
    return 0;
  }
  uint64_t checking = ~0ull, decoding = ~0ull, encoding = ~0ull, measuring = ~0ull, freezing = ~0ull, opening = ~0ull, content = 0; Times times;
  for (uint32_t i = 0; i < ROUNDS; i++) {
    uint64_t t0 = now(); check(ROOT, bytes); checking = std::min(checking, now() - t0);
    t0 = now(); Tree t = decode(ROOT, bytes); decoding = std::min(decoding, now() - t0);
    t0 = now(); Bytes written = encode(ROOT, t); encoding = std::min(encoding, now() - t0);
    if (written != bytes) refuse("written otherwise");
    uint64_t len; t0 = now(); Specs s = measure(ROOT, t, len, times); measuring = std::min(measuring, now() - t0);
    t0 = now(); Bytes frozen = freeze(ROOT, t); freezing = std::min(freezing, now() - t0); content = frozen.size();
    t0 = now(); uint64_t cells = open_content(s, frozen); opening = std::min(opening, now() - t0);
    if (cells != check(ROOT, bytes).cells) refuse("other cells");
  }
  printf("c++, %zu bytes: check %lu MB/s, decode %lu MB/s, encode %lu MB/s\n", bytes.size(), speed(bytes.size(), checking), speed(bytes.size(), decoding), speed(bytes.size(), encoding));
  printf("c++, content of %lu bytes: check %lu MB/s, measure %lu us, freeze %lu us; bases %lu us, one pass %lu us, gathering %lu us, a pass over ranges %lu us\n",
         content, speed(content, opening), measuring / 1000, freezing / 1000, times.bases / 1000, times.pass / 1000, times.gather / 1000, times.ranges / 1000);
}
