// Reference for speed: tables written as Hanoi texts and read back in C++ by hand, without proofs, beside the library in one run.
// Build: c++ -O2 -std=c++17 -Iinclude -o reference_hoa bench/reference_hoa.cpp LIBRARY      Run: ./reference_hoa RULE..
// Prints for each rule file: macrostates, transitions, bytes of the text of its table; then CPU milliseconds, best of 9, of the library, of
// this program, and the first over the second; the library again where the slice is just as long as the text. Both must give the same.
#include <mulgreddi.h>
#include <algorithm>
#include <cstdint>
#include <cstdio>
#include <cstring>
#include <ctime>
#include <vector>
using namespace std;
typedef uint8_t u8;
typedef uint64_t u64;

static const char ACCEPTANCE[] =
    "acc-name: Buchi\nAcceptance: 1 Inf(0)\nproperties: trans-labels explicit-labels state-acc\n--BODY--\n";

static int propositions(int letters) {
  int b = 0;
  while (1 << b < letters) b++;
  return b;
}

// ---- writing

static u8 *put(u8 *p, const char *s) {
  while (*s) *p++ = (u8)*s++;
  return p;
}

static u8 *put_number(u8 *p, u64 number) {
  u8 digits[20];
  int n = 0;
  do digits[n++] = (u8)('0' + number % 10); while (number /= 10);
  while (n) *p++ = digits[--n];
  return p;
}

static u8 *put_label(u8 *p, int b, int letter) {
  if (b == 0) *p++ = 't';
  for (int i = 0; i < b; i++) {
    if (i) *p++ = '&';
    if (!(letter >> i & 1)) *p++ = '!';
    *p++ = (u8)('0' + i);
  }
  return p;
}

static size_t write_text(int letters, int initial, const vector<u64> &codes, const vector<u64> &transitions, u8 *text) {
  int b = propositions(letters);
  u8 *p = put_number(put(text, "HOA: v1\nStates: "), codes.size());
  *p++ = '\n';
  for (size_t i = 0; i < codes.size(); i++)
    if (codes[i] >> initial & 1 && codes[i] >> 40 == 0) {
      p = put_number(put(p, "Start: "), i);
      *p++ = '\n';
    }
  p = put_number(put(p, "AP: "), (u64)b);
  for (int i = 0; i < b; i++) {
    p = put(p, " \"e");
    *p++ = (u8)('0' + i);
    *p++ = '"';
  }
  *p++ = '\n';
  p = put(p, ACCEPTANCE);
  size_t t = 0;
  for (size_t i = 0; i < codes.size(); i++) {
    p = put(put_number(put(p, "State: "), i), codes[i] >> 44 == 0 ? " {0}\n" : "\n");
    for (; t < transitions.size() && transitions[t] >> 24 == i; t++) {
      *p++ = '[';
      p = put_label(p, b, (int)(transitions[t] >> 16 & 255));
      *p++ = ']';
      *p++ = ' ';
      p = put_number(p, transitions[t] & 65535);
      *p++ = '\n';
    }
  }
  return (size_t)(put(p, "--END--\n") - text);
}

// ---- reading: each part moves the cursor and says whether it stood there

struct Cursor { const u8 *p, *end; };

static bool take(Cursor &c, const char *s) {
  const u8 *p = c.p;
  for (; *s; s++, p++) if (p == c.end || *p != (u8)*s) return false;
  c.p = p;
  return true;
}

static bool take_number(Cursor &c, u64 &number) {
  const u8 *first = c.p;
  for (number = 0; c.p < c.end && *c.p >= '0' && *c.p <= '9' && number < 65537; c.p++) number = 10 * number + (u64)(*c.p - '0');
  return c.p > first && (*first != '0' || c.p == first + 1);
}

static bool take_label(Cursor &c, int b, u64 &letter) {
  letter = 0;
  if (b == 0) return take(c, "t");
  for (int i = 0; i < b; i++) {
    if (i && !take(c, "&")) return false;
    if (!take(c, "!")) letter |= 1ull << i;
    if (c.p == c.end || *c.p != '0' + i) return false;
    c.p++;
  }
  return true;
}

static bool read_text(const u8 *text, size_t length, vector<u8> &flags, vector<u64> &transitions, size_t &states, size_t &count) {
  Cursor c = {text, text + length};
  u64 number, b, letter, target;
  if (!take(c, "HOA: v1\nStates: ") || !take_number(c, number) || number > 65536 || !take(c, "\n")) return false;
  states = number;
  fill(flags.begin(), flags.begin() + (long)states, (u8)0);
  for (u64 least = 0; take(c, "Start: "); least = number + 1) {
    if (!take_number(c, number) || number < least || number >= states || !take(c, "\n")) return false;
    flags[number] = 1;
  }
  if (!take(c, "AP: ") || !take_number(c, b) || b > 4) return false;
  for (u64 i = 0; i < b; i++) {
    const char name[] = {' ', '"', 'e', (char)('0' + i), '"', 0};
    if (!take(c, name)) return false;
  }
  if (!take(c, "\n") || !take(c, ACCEPTANCE)) return false;
  count = 0;
  bool rejecting = false;
  for (u64 i = 0; i < states; i++) {
    if (!take(c, "State: ") || !take_number(c, number) || number != i) return false;
    if (take(c, " {0}")) flags[i] |= 2;
    if (flags[i] == 1 || (flags[i] && rejecting) || !take(c, "\n")) return false;
    rejecting = flags[i] == 0;
    for (u64 least = i << 24; take(c, "["); least = transitions[count - 1] + 1) {
      if (!take_label(c, (int)b, letter) || !take(c, "] ") || !take_number(c, target) || target >= states || !take(c, "\n")) return false;
      u64 transition = i << 24 | letter << 16 | target;
      if (transition < least) return false;
      transitions[count++] = transition;
    }
  }
  return take(c, "--END--\n") && c.p == c.end;
}

// ---- both programs on the table of a rule file

template <class F> static double best(F call) {
  double least = 1e9;
  for (int round = 0; round < 9; round++) {
    clock_t start = clock();
    call();
    least = min(least, 1e3 * (double)(clock() - start) / CLOCKS_PER_SEC);
  }
  return least;
}

static bool job(const char *path) {
  vector<u8> file(4096);
  FILE *f = fopen(path, "rb");
  if (!f) return false;
  file.resize(fread(file.data(), 1, file.size(), f));
  fclose(f);
  vector<u64> codes(65536), transitions(1048576);
  mulgreddi_answer built =
      mulgreddi_build(file.data(), file.size(), codes.data(), codes.size(), transitions.data(), transitions.size());
  if (built.refusal) {
    printf("%s refused %llu\n", path, (unsigned long long)built.refusal);
    return true;
  }
  codes.resize(built.first);
  transitions.resize(built.second);
  size_t room = MULGREDDI_HOA_BOUND(built.first, built.second), length = 0;
  vector<u8> text(room), own(room);
  mulgreddi_answer written = {};
  auto write_into = [&](size_t size) {
    written = mulgreddi_write_hoa(file.data(), file.size(), (const u8 *)codes.data(), 8 * codes.size(),
                                  (const u8 *)transitions.data(), 8 * transitions.size(), text.data(), size);
  };
  double library = best([&] { write_into(room); });
  int letters = file[file.size() - 7], initial = file[file.size() - 6];
  double plain = best([&] { length = write_text(letters, initial, codes, transitions, own.data()); });
  if (written.refusal || written.first != length || memcmp(text.data(), own.data(), length)) return false;
  double measured = best([&] { write_into(length); });
  printf("%s %zu %zu %zu\n", path, codes.size(), transitions.size(), length);
  printf("  write %.1f %.1f %.2f; into just its length %.1f %.2f\n", library, plain, library / plain, measured, measured / plain);
  vector<u8> flags(65536), marks(65536);
  vector<u64> carried(1048576), moves(1048576);
  size_t states = 0, count = 0;
  bool read = true;
  mulgreddi_answer back = {};
  library = best([&] {
    back = mulgreddi_read_hoa(text.data(), length, marks.data(), marks.size(), moves.data(), moves.size());
  });
  plain = best([&] { read = read && read_text(own.data(), length, flags, carried, states, count); });
  carried.resize(count);
  if (!read || states != codes.size() || carried != transitions) return false;
  if (back.refusal || back.first != states || back.second != count || memcmp(marks.data(), flags.data(), states)) return false;
  if (memcmp(moves.data(), carried.data(), 8 * count)) return false;
  printf("  read  %.1f %.1f %.2f\n", library, plain, library / plain);
  return true;
}

int main(int argc, char **argv) {
  for (int i = 1; i < argc; i++)
    if (!job(argv[i])) {
      fprintf(stderr, "%s: not read, or the two programs differ\n", argv[i]);
      return 1;
    }
}
