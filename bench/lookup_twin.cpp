// The same lookups and lines as crates/lookup_bench, in C++, over the same content, by the nodes of its layout and by types with names,
// so for any definition. With no argument it prints how many of 1,000 users are found and the checksum of their lines, and given the
// word `time` how long a lookup takes and how fast lines are written at 100,000 users.
#include <algorithm>
#include <charconv>
#include <cstdint>
#include <cstdio>
#include <cstring>
#include <ctime>
#include <string>
#include <vector>

static const uint32_t USERS = 1000, TIMED_USERS = 100000, ROUNDS = 9, LOOKUPS = 1000000;

static uint64_t now() { timespec t; clock_gettime(CLOCK_MONOTONIC, &t); return t.tv_sec * 1000000000ull + t.tv_nsec; }

// ---- types, and the values of the users as trees

enum class Kind : uint8_t { Int, Text, List, Map, Struct };
struct Type;
struct Field { const char* name; const Type* type; bool optional; };
struct Type { Kind kind; const Type* item; const Type* value; std::vector<Field> fields; };

static const Type I32{Kind::Int, nullptr, nullptr, {}}, TEXT{Kind::Text, nullptr, nullptr, {}};
static const Type TAGS{Kind::List, &TEXT, nullptr, {}}, SCORES{Kind::Map, &TEXT, &I32, {}};
static const Type USER{Kind::Struct, nullptr, nullptr,
                       {{"id", &I32, false}, {"name", &TEXT, false}, {"mail", &TEXT, true}, {"tags", &TAGS, false}, {"scores", &SCORES, false}}};
static const Type BY_ID{Kind::Map, &I32, &USER, {}};
static const Type ROOT{Kind::Struct, nullptr, nullptr, {{"users", &BY_ID, false}}};

// A value: its number, its text or its parts; a map has keys and values by turns, an absent optional no parts.
struct Value { int64_t number = 0; std::string text; std::vector<Value> parts; };
static Value number(int64_t x) { Value v; v.number = x; return v; }
static Value text(std::string s) { Value v; v.text = std::move(s); return v; }
static Value whole(std::vector<Value> parts) { Value v; v.parts = std::move(parts); return v; }

static Value users(uint32_t n) {
  Value map; map.parts.reserve(2 * n);
  for (uint32_t i = 1; i <= n; i++) {
    char digits[16]; snprintf(digits, sizeof digits, "%06u", i);
    Value mail, tags;
    if (i % 2 == 0) mail.parts.push_back(text(std::string(digits) + "@example.com"));
    if (i % 3 > 0) tags.parts.push_back(text("red"));
    if (i % 3 > 1) tags.parts.push_back(text("green"));
    map.parts.push_back(number(i));
    map.parts.push_back(whole({number(i), text(std::string("user") + digits), mail, tags,
                               whole({text("art"), number(i % 7), text("math"), number(i % 100)})}));
  }
  return whole({map});
}

// ---- layouts: nodes in preorder, each with its bits, its noted width, the number behind its nodes, and its base

enum class At : uint8_t { Flag, Int, Size, Text, List, Map, Pair, Struct, Optional };
struct Spec { At kind; uint32_t bits, wide, past; int64_t base; };
using Specs = std::vector<Spec>;
static void shape(Specs& s, const Type& t) {
  size_t here = s.size();
  auto leaf = [&](At k) { s.push_back({k, 0, 0, uint32_t(s.size() + 1), INT64_MAX}); };
  auto range = [&](At k) { leaf(k); leaf(At::Size); leaf(At::Size); };
  switch (t.kind) {
    case Kind::Int: leaf(At::Int); return;
    case Kind::Text: range(At::Text); break;
    case Kind::List: range(At::List); shape(s, *t.item); break;
    case Kind::Map: { range(At::Map); size_t pair = s.size(); leaf(At::Pair); shape(s, *t.item); shape(s, *t.value); s[pair].past = uint32_t(s.size()); break; }
    case Kind::Struct:
      leaf(At::Struct);
      for (const Field& f : t.fields) {
        size_t o = s.size();
        if (f.optional) { leaf(At::Optional); leaf(At::Flag); }
        shape(s, *f.type); if (f.optional) s[o].past = uint32_t(s.size());
      }
  }
  s[here].past = uint32_t(s.size());
}
static uint32_t settle(Specs& s, uint32_t i) {
  uint32_t sum = 0;
  switch (s[i].kind) {
    case At::Flag: case At::Int: case At::Size: return s[i].bits = s[i].wide;
    case At::List: case At::Map: settle(s, i + 3); [[fallthrough]];
    case At::Text: return s[i].bits = settle(s, i + 1) + settle(s, i + 2);
    default: for (uint32_t c = i + 1; c < s[i].past; c = s[c].past) sum += settle(s, c); return s[i].bits = sum;
  }
}
static uint32_t digits(uint64_t x) { return x ? 64 - __builtin_clzll(x) : 0; }

// Goes over a value as packing does: takes the least numbers, notes widths, or writes. Nine bytes lie behind each place.
struct Walk {
  enum Task { Bases, Widths, Write } task;
  Specs& s; std::vector<uint8_t> out; uint64_t next;
  void put(uint32_t spec, uint64_t start, uint64_t& bit, uint64_t x) {
    if (task == Widths) s[spec].wide = std::max(s[spec].wide, digits(x));
    if (task == Write) {
      uint8_t* q = &out[start + bit / 8]; uint64_t w; memcpy(&w, q, 8); w |= x << bit % 8; memcpy(q, &w, 8);
      if (bit % 8) q[8] |= uint8_t(x >> (64 - bit % 8));
    }
    bit += s[spec].bits;
  }
  uint64_t range(uint32_t spec, uint64_t count, uint64_t bytes, uint64_t start, uint64_t& bit) {
    uint64_t at = next; next += bytes;
    put(spec + 1, start, bit, count ? at - start : 0); put(spec + 2, start, bit, count);
    if (task == Write && out.size() < next + 9) out.resize(2 * next + 9);
    return at;
  }
  void part(uint32_t spec, const Value& v, uint64_t start, uint64_t bit) {
    size_t n = v.parts.size();
    switch (s[spec].kind) {
      case At::Int: if (task == Bases) s[spec].base = std::min(s[spec].base, v.number); else put(spec, start, bit, uint64_t(v.number) - uint64_t(s[spec].base)); return;
      case At::Text: { uint64_t at = range(spec, v.text.size(), v.text.size(), start, bit); if (task == Write) memcpy(&out[at], v.text.data(), v.text.size()); return; }
      case At::List: case At::Map: {
        bool map = s[spec].kind == At::Map; uint64_t many = map ? n / 2 : n, stride = s[spec + 3].bits;
        uint64_t at = range(spec, many, (many * stride + 7) / 8, start, bit);
        uint32_t first = map ? spec + 4 : spec + 3, second = s[first].past;
        for (uint64_t i = 0; i < many; i++) {
          part(first, v.parts[map ? 2 * i : i], at, i * stride);
          if (map) part(second, v.parts[2 * i + 1], at, i * stride + s[first].bits);
        }
        return;
      }
      case At::Struct: for (uint32_t i = 0, c = spec + 1; i < n; bit += s[c].bits, c = s[c].past, i++) part(c, v.parts[i], start, bit); return;
      case At::Optional: put(spec + 1, start, bit, n); if (n) part(spec + 2, v.parts[0], start, bit); return;
      default: return;
    }
  }
};
static uint32_t spread(const Specs& s) { uint32_t sum = 0; for (const Spec& x : s) sum += x.wide; return sum; }
struct File { Specs specs; std::vector<uint8_t> content; uint64_t len; };
static File freeze(const Type& type, const Value& v) {
  File f; shape(f.specs, type); Specs& s = f.specs;
  auto pass = [&](Walk::Task task) { uint64_t top = (s[0].bits + 7) / 8; Walk w{task, s, std::vector<uint8_t>(top + 9), top}; w.part(0, v, 0, 0); f.content = std::move(w.out); f.len = w.next; };
  pass(Walk::Bases);
  for (Spec& x : s) if (x.base == INT64_MAX) x.base = 0;
  // Wider items move what lies behind them, which may widen distances.
  for (uint32_t before = ~0u; settle(s, 0), before != spread(s);) { before = spread(s); pass(Walk::Widths); }
  pass(Walk::Write);
  f.content.resize(f.len + 9);
  return f;
}

// ---- parts of a content, read where they stand

struct Lens { const File* file; const Type* type; uint32_t spec; uint64_t start, bit; };
static inline uint64_t bits(const Lens& l, uint64_t bit, uint32_t width) {
  const uint8_t* q = &l.file->content[l.start + bit / 8]; unsigned s = bit % 8; uint64_t x; memcpy(&x, q, 8); x >>= s;
  if (s + width > 64) x |= uint64_t(q[8]) << (64 - s);
  return width < 64 ? x & ((1ull << width) - 1) : x;
}
static inline const Spec& spec(const Lens& l, uint32_t more = 0) { return l.file->specs[l.spec + more]; }
static int64_t number(const Lens& l) { return int64_t(bits(l, l.bit, spec(l).bits) + uint64_t(spec(l).base)); }
static uint64_t count(const Lens& l) { return bits(l, l.bit + spec(l, 1).bits, spec(l, 2).bits); }
static uint64_t block(const Lens& l) { return l.start + bits(l, l.bit, spec(l, 1).bits); }
static std::string_view text(const Lens& l) { uint64_t n = count(l); return {reinterpret_cast<const char*>(&l.file->content[n ? block(l) : 0]), n}; }
static Lens item(const Lens& l, uint64_t i) { return {l.file, l.type->item, l.spec + 3, block(l), i * spec(l, 3).bits}; }
static Lens key(const Lens& l, uint64_t i) { return {l.file, l.type->item, l.spec + 4, block(l), i * spec(l, 3).bits}; }
static Lens value(const Lens& l, const Lens& key) { return {l.file, l.type->value, spec(key).past, key.start, key.bit + spec(key).bits}; }
// The field at a place: false where it is optional and absent.
static bool field(const Lens& l, size_t k, Lens& out) {
  const Specs& s = l.file->specs; uint32_t c = l.spec + 1; uint64_t bit = l.bit;
  for (size_t i = 0; i < k; i++) { bit += s[c].bits; c = s[c].past; }
  out = {l.file, l.type->fields[k].type, c, l.start, bit};
  if (s[c].kind != At::Optional) return true;
  if (!bits(l, bit, s[c + 1].bits)) return false;
  out.spec = c + 2; out.bit += s[c + 1].bits;
  return true;
}

// ---- lookups: steps to fields by their names, and to values by their keys, by halving

struct Step { bool keyed; std::string name; int64_t number; };
static bool step(const Lens& from, const Step& by, Lens& out) {
  if (!by.keyed) {
    const auto& fields = from.type->fields;
    for (size_t k = 0; k < fields.size(); k++) if (by.name == fields[k].name) return field(from, k, out);
    return false;
  }
  uint64_t low = 0, high = count(from);
  while (low < high) {
    uint64_t middle = low + (high - low) / 2; Lens k = key(from, middle);
    int order = k.type->kind == Kind::Int ? (number(k) > by.number) - (number(k) < by.number) : text(k).compare(by.name);
    if (order == 0) { out = value(from, k); return true; }
    if (order < 0) low = middle + 1; else high = middle;
  }
  return false;
}
static bool lookup(Lens from, const std::vector<Step>& path, Lens& out) {
  for (const Step& by : path) if (step(from, by, out)) from = out; else return false;
  return true;
}
__attribute__((noinline)) uint32_t found(const Lens& root, std::vector<Step>& path, uint32_t n, uint32_t many) {
  uint32_t sum = 0; Lens id;
  for (uint32_t i = 0; i < many; i++) {
    path[1].number = 1 + uint64_t(i) * 7919 % n;
    if (lookup(root, path, id) && number(id) == path[1].number) sum++;
  }
  return sum;
}

// ---- lines of JSON

static void push_text(std::string& out, std::string_view s) {
  out += '"';
  for (char c : s) {
    if (c == '"' || c == '\\') { out += '\\'; out += c; }
    else if (uint8_t(c) < 32) { char u[8]; snprintf(u, sizeof u, "\\u%04x", unsigned(c)); out += u; }
    else out += c;
  }
  out += '"';
}
static void push(std::string& out, const Lens& l);
static void push_pair(std::string& out, const Lens& map, uint64_t i) {
  Lens k = key(map, i); out += '['; push(out, k); out += ','; push(out, value(map, k)); out += ']';
}
static void push(std::string& out, const Lens& l) {
  uint64_t n = 0;
  switch (l.type->kind) {
    case Kind::Int: { char d[24]; auto end = std::to_chars(d, d + 24, number(l)); out.append(d, end.ptr); return; }
    case Kind::Text: push_text(out, text(l)); return;
    case Kind::List: out += '['; n = count(l); for (uint64_t i = 0; i < n; i++) { if (i) out += ','; push(out, item(l, i)); } out += ']'; return;
    case Kind::Map: out += '['; n = count(l); for (uint64_t i = 0; i < n; i++) { if (i) out += ','; push_pair(out, l, i); } out += ']'; return;
    case Kind::Struct: {
      out += '{'; bool later = false; Lens part;
      for (size_t k = 0; k < l.type->fields.size(); k++) if (field(l, k, part)) {
        if (later) out += ',';
        later = true; push_text(out, l.type->fields[k].name); out += ':'; push(out, part);
      }
      out += '}';
    }
  }
}
__attribute__((noinline)) std::string lines(const Lens& map) {
  std::string out; uint64_t n = count(map); for (uint64_t i = 0; i < n; i++) { push_pair(out, map, i); out += '\n'; }
  return out;
}
static uint64_t checksum(const std::string& s) { uint64_t sum = 0; for (char c : s) sum = sum * 31 + uint8_t(c); return sum; }

int main(int argc, char**) {
  bool timed = argc > 1; uint32_t n = timed ? TIMED_USERS : USERS;
  File file = freeze(ROOT, users(n)); Lens root{&file, &ROOT, 0, 0, 0}, map; lookup(root, {{false, "users", 0}}, map);
  std::vector<Step> path{{false, "users", 0}, {true, "", 0}, {false, "id", 0}};
  if (!timed) return printf("users %u content %lu found %u lines %lu\n", n, file.len, found(root, path, n, n), checksum(lines(map))) < 0;
  uint64_t looking = ~0ull, writing = ~0ull, len = 0, sum = 0; uint32_t there = 0;
  for (uint32_t i = 0; i < ROUNDS; i++) {
    uint64_t t0 = now(); there = found(root, path, n, LOOKUPS); uint64_t t1 = now();
    std::string out = lines(map); uint64_t t2 = now();
    looking = std::min(looking, t1 - t0); writing = std::min(writing, t2 - t1); len = out.size(); sum = checksum(out);
  }
  printf("c++, content of %lu bytes: lookup %lu ps, found %u\n", file.len, looking * 1000 / LOOKUPS, there);
  printf("c++, lines of %lu bytes: scan %lu MB/s, sum %lu\n", len, len * 1000 / writing, sum);
}
