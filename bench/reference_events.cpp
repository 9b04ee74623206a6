// Reference for speed: the translation of a log by an event table in C++, without proofs, by the same two tables of masks.
// Build: g++ -O2 -std=c++17 -o reference_events reference_events.cpp      Run: ./reference_events [EVENTS]
// Prints: refusal letters seconds (CPU time, best of 5) sum of the letters. The table has 64 lines, s is 16, and the log is made here:
// line j below 63 holds kinds 4 j to 4 j + 7 and drives 0 to 127 + j and gives letter j % 16, line 63 holds all pairs and gives letter 15;
// each byte of the log is the top byte of x after x = x * 6364136223846793005 + 1442695040888963407, from x = 1.
#include <algorithm>
#include <cstdint>
#include <cstdio>
#include <cstdlib>
#include <ctime>
#include <vector>
using namespace std;
typedef unsigned long long u64;

struct Answer { u64 refusal, letters; };

static bool faulty(size_t s, const vector<uint8_t> &t) {
  if (t.size() % 5 != 0 || t.size() / 5 > 64) return true;
  for (size_t i = 0; i < t.size(); i += 5) if (t[i] > t[i + 1] || t[i + 2] > t[i + 3] || t[i + 4] >= s) return true;
  return false;
}

static Answer translate(size_t s, const vector<uint8_t> &t, const vector<uint8_t> &log, vector<uint8_t> &letters) {
  if (faulty(s, t)) return {25, 0};
  size_t lines = t.size() / 5, events = log.size() / 2;
  u64 kinds[256] = {}, drives[256] = {};
  for (size_t j = 0; j < lines; j++) {
    for (int x = t[5 * j]; x <= t[5 * j + 1]; x++) kinds[x] |= 1ull << j;
    for (int y = t[5 * j + 2]; y <= t[5 * j + 3]; y++) drives[y] |= 1ull << j;
  }
  u64 firsts = 0;
  for (int x = 0; x < 256; x++) for (int y = 0; y < 256; y++) { u64 m = kinds[x] & drives[y]; firsts |= m & -m; }
  if ((size_t)__builtin_popcountll(firsts) < lines) return {26, 0};
  for (size_t k = 0; k < events; k++) if (!(kinds[log[2 * k]] & drives[log[2 * k + 1]])) return {27, 0};
  if (letters.size() < events) return {16, 0};
  for (size_t k = 0; k < events; k++) letters[k] = t[5 * __builtin_ctzll(kinds[log[2 * k]] & drives[log[2 * k + 1]]) + 4];
  return {0, events};
}

int main(int argc, char **argv) {
  size_t events = argc > 1 ? strtoull(argv[1], nullptr, 10) : 10000000;
  vector<uint8_t> table, log(2 * events), letters(events);
  for (int j = 0; j < 63; j++) for (int b : {4 * j, min(255, 4 * j + 7), 0, 127 + j, j % 16}) table.push_back((uint8_t)b);
  for (int b : {0, 255, 0, 255, 15}) table.push_back((uint8_t)b);
  u64 x = 1;
  for (uint8_t &b : log) { x = x * 6364136223846793005ull + 1442695040888963407ull; b = (uint8_t)(x >> 56); }
  Answer a = {0, 0};
  double best = 1e9;
  for (int round = 0; round < 5; round++) {
    clock_t start = clock();
    a = translate(16, table, log, letters);
    best = min(best, (double)(clock() - start) / CLOCKS_PER_SEC);
  }
  u64 sum = 0;
  for (uint8_t l : letters) sum += l;
  printf("%llu %llu %.4f %llu\n", a.refusal, a.letters, best, sum);
}
