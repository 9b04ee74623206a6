// A log without end: letters a CPU second of mulgreddi_follow beside a C++ loop that does the same without proofs and without rows: the set in place,
// a byte a macrostate, zeros passed over eight at a time, transitions found by binary search from the last place on.
// Use: ./follow FILE..      Letters are drawn so that the set stays non-empty; both leave the same set.
#include <mulgreddi.h>
#include <algorithm>
#include <ctime>
#include <cstdio>
#include <cstring>
#include <vector>
using std::vector;
typedef uint64_t u64;
static double seconds() { timespec t; clock_gettime(CLOCK_PROCESS_CPUTIME_ID, &t); return t.tv_sec + 1e-9 * t.tv_nsec; }

static size_t nextSet(const uint8_t *set, size_t x, size_t n) {
  for (u64 w; x + 8 <= n; x += 8) { memcpy(&w, set + x, 8); if (w) break; }
  while (x < n && !set[x]) x++;
  return x;
}
// the set after one letter more; how many are in it
static size_t step(const vector<u64> &moves, uint8_t *set, size_t n, unsigned letter) {
  const u64 *from = moves.data(), *end = from + moves.size();
  for (size_t x = nextSet(set, 0, n); x < n; x = nextSet(set, x + 1, n)) {
    if (!(set[x] & 1)) continue;
    u64 key = (u64)x << 8 | letter;
    from = std::lower_bound(from, end, key << 16);
    for (; from < end && *from >> 16 == key; from++) set[*from & 65535] |= 2;
  }
  size_t members = 0;
  for (size_t x = nextSet(set, 0, n); x < n; x = nextSet(set, x + 1, n)) { set[x] >>= 1; members += set[x]; }
  return members;
}

int main(int argc, char **argv) {
  static u64 codes[MULGREDDI_MACROSTATES_MAX], transitions[MULGREDDI_TRANSITIONS_MAX];
  printf("macrostates transitions, letters, macrostates in the set on average | letters a CPU second: library, C++ loop | times\n");
  for (int i = 1; i < argc; i++) {
    static uint8_t file[1 << 16]; FILE *f = fopen(argv[i], "rb"); if (!f) { perror(argv[i]); return 1; } size_t len = fread(file, 1, sizeof file, f); fclose(f);
    mulgreddi_answer a = mulgreddi_build_trimmed(file, len, codes, MULGREDDI_MACROSTATES_MAX, transitions, MULGREDDI_TRANSITIONS_MAX);
    if (a.refusal) { printf("refused %llu %s\n", (unsigned long long)a.refusal, argv[i]); continue; }
    size_t n = a.first, m = a.second; unsigned s = file[len - 5];
    vector<u64> moves(transitions, transitions + m); vector<uint8_t> start(n + 8), set, one, two, letters; u64 seed = 1; size_t sum = 0;
    const uint8_t *c = (const uint8_t *)codes, *t = (const uint8_t *)transitions;
    mulgreddi_follow_start(file, len, c, 8 * n, t, 8 * m, start.data(), n);
    for (set = start; letters.size() < 2000;) {
      size_t left = 0; unsigned l = 0;
      for (int tries = 0; tries < 64 && !left; tries++) { seed = seed * 6364136223846793005ull + 1442695040888963407ull; l = (seed >> 33) % s; one = set; left = step(moves, one.data(), n, l); }
      if (!left) break;
      set = one; letters.push_back(l); sum += left;
    }
    if (letters.empty()) { printf("no letter keeps the set %s\n", argv[i]); continue; }
    double own = 1e9, loop = 1e9;
    for (int k = 0; k < 7; k++) {
      one = start; double b = seconds(); a = mulgreddi_follow(file, len, letters.data(), letters.size(), c, 8 * n, t, 8 * m, one.data(), n); own = std::min(own, seconds() - b);
      two = start; b = seconds(); for (uint8_t l : letters) step(moves, two.data(), n, l); loop = std::min(loop, seconds() - b);
    }
    printf("%zu %zu %zu %.0f | %.0f %.0f | %.2f %s%s\n", n, m, letters.size(), (double)sum / letters.size(), letters.size() / own, letters.size() / loop, own / loop, argv[i],
           a.refusal == 0 && one == two ? "" : " DIFFERENT"); fflush(stdout);
  }
}
