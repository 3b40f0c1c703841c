// Times the proved code beside plain C. Each time is the best of many short runs, so that other work on the machine
// counts as little as it can.
#include <stdint.h>
#include <stdio.h>
#include <string.h>
#include <time.h>

void c_sha256(const uint8_t *m, size_t n, uint8_t out[32]);
void c_chacha20(const uint8_t key[32], const uint8_t nonce[12], uint32_t counter, uint8_t *bytes, size_t n);
void rattle_sha256(const uint8_t *m, size_t n, uint8_t *out, size_t k);
void rattle_chacha20(const uint8_t *key, size_t k, const uint8_t *nonce, size_t l, uint8_t *bytes, size_t n);
_Bool rattle_seal(const uint8_t *key, size_t k, uint8_t *word, size_t n);
_Bool rattle_open(const uint8_t *key, size_t k, uint8_t *word, size_t n);

static double now(void) {
  struct timespec t;
  clock_gettime(CLOCK_MONOTONIC, &t);
  return t.tv_sec + t.tv_nsec * 1e-9;
}

#define BEST(time, runs, times, call) \
  double time = 1e9; \
  for (int run_ = 0; run_ < runs; run_++) { \
    double from_ = now(); \
    for (int time_ = 0; time_ < times; time_++) { call; } \
    double one_ = (now() - from_) / times; \
    if (one_ < time) time = one_; \
  }

#define BYTES 16384
static uint8_t bytes[BYTES], other[BYTES], word[2048], kept[2048];
static uint8_t key[32], nonce[12], a[32], b[32];

static int same(void) {
  for (size_t n = 0; n < 400; n++) {
    c_sha256(bytes, n, a);
    rattle_sha256(bytes, n, b, 32);
    if (memcmp(a, b, 32)) return 0;
    memcpy(other, bytes, n);
    c_chacha20(key, nonce, 0, other, n);
    rattle_chacha20(key, 32, nonce, 12, other, n);
    if (memcmp(other, bytes, n)) return 0;
  }
  return 1;
}

static void lock(size_t inside) {
  size_t n = inside + 32;
  memcpy(word, bytes, n);
  BEST(sealing, 4000, 10, rattle_seal(key, 32, word, n))
  memcpy(kept, word, n);
  int opened = 1;
  BEST(opening, 4000, 10, { memcpy(word, kept, n); opened &= rattle_open(key, 32, word, n); })
  printf("%s %zu %.0f %.0f\n", opened ? "lock" : "LOCK-DOES-NOT-OPEN", inside, sealing * 1e9, opening * 1e9);
}

int main(int count, char **words) {
  for (int i = 0; i < BYTES; i++) bytes[i] = (uint8_t)(7 * i + i / 251);
  memcpy(key, bytes + 100, 32);
  memcpy(nonce, bytes + 200, 12);
  if (!same()) {
    puts("C and Rattle differ");
    return 1;
  }
  BEST(c, 4000, 1, c_sha256(bytes, BYTES, a))
  BEST(r, 4000, 1, rattle_sha256(bytes, BYTES, b, 32))
  printf("SHA-256 %.0f %.0f %.2f\n", BYTES / c / 1e6, BYTES / r / 1e6, c / r);
  BEST(d, 4000, 1, c_chacha20(key, nonce, 0, other, BYTES))
  BEST(s, 4000, 1, rattle_chacha20(key, 32, nonce, 12, other, BYTES))
  printf("ChaCha20 %.0f %.0f %.2f\n", BYTES / d / 1e6, BYTES / s / 1e6, d / s);
  if (count > 1 && !strcmp(words[1], "locks")) {
    lock(45);
    lock(1053);
  }
  return 0;
}
