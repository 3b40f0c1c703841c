// SHA-256 and ChaCha20 as plain C has them: the schedule first and then the rounds, and block by block.
#include <stddef.h>
#include <stdint.h>
#include <string.h>

static const uint32_t K[64] = {
    0x428a2f98, 0x71374491, 0xb5c0fbcf, 0xe9b5dba5, 0x3956c25b, 0x59f111f1, 0x923f82a4, 0xab1c5ed5,
    0xd807aa98, 0x12835b01, 0x243185be, 0x550c7dc3, 0x72be5d74, 0x80deb1fe, 0x9bdc06a7, 0xc19bf174,
    0xe49b69c1, 0xefbe4786, 0x0fc19dc6, 0x240ca1cc, 0x2de92c6f, 0x4a7484aa, 0x5cb0a9dc, 0x76f988da,
    0x983e5152, 0xa831c66d, 0xb00327c8, 0xbf597fc7, 0xc6e00bf3, 0xd5a79147, 0x06ca6351, 0x14292967,
    0x27b70a85, 0x2e1b2138, 0x4d2c6dfc, 0x53380d13, 0x650a7354, 0x766a0abb, 0x81c2c92e, 0x92722c85,
    0xa2bfe8a1, 0xa81a664b, 0xc24b8b70, 0xc76c51a3, 0xd192e819, 0xd6990624, 0xf40e3585, 0x106aa070,
    0x19a4c116, 0x1e376c08, 0x2748774c, 0x34b0bcb5, 0x391c0cb3, 0x4ed8aa4a, 0x5b9cca4f, 0x682e6ff3,
    0x748f82ee, 0x78a5636f, 0x84c87814, 0x8cc70208, 0x90befffa, 0xa4506ceb, 0xbef9a3f7, 0xc67178f2};

static inline uint32_t rotr(uint32_t x, int n) { return (x >> n) | (x << (32 - n)); }
static inline uint32_t rotl(uint32_t x, int n) { return (x << n) | (x >> (32 - n)); }

static void compress(uint32_t h[8], const uint8_t *p) {
  uint32_t w[64];
  for (int i = 0; i < 16; i++)
    w[i] = (uint32_t)p[4 * i] << 24 | (uint32_t)p[4 * i + 1] << 16 | (uint32_t)p[4 * i + 2] << 8 | p[4 * i + 3];
  for (int i = 16; i < 64; i++) {
    uint32_t a = w[i - 2], b = w[i - 15];
    w[i] = (rotr(a, 17) ^ rotr(a, 19) ^ (a >> 10)) + w[i - 7] + (rotr(b, 7) ^ rotr(b, 18) ^ (b >> 3)) + w[i - 16];
  }
  uint32_t a = h[0], b = h[1], c = h[2], d = h[3], e = h[4], f = h[5], g = h[6], k = h[7];
  for (int i = 0; i < 64; i++) {
    uint32_t t1 = k + (rotr(e, 6) ^ rotr(e, 11) ^ rotr(e, 25)) + ((e & f) ^ (~e & g)) + K[i] + w[i];
    uint32_t t2 = (rotr(a, 2) ^ rotr(a, 13) ^ rotr(a, 22)) + ((a & b) ^ (a & c) ^ (b & c));
    k = g; g = f; f = e; e = d + t1; d = c; c = b; b = a; a = t1 + t2;
  }
  h[0] += a; h[1] += b; h[2] += c; h[3] += d; h[4] += e; h[5] += f; h[6] += g; h[7] += k;
}

void c_sha256(const uint8_t *m, size_t n, uint8_t out[32]) {
  uint32_t h[8] = {0x6a09e667, 0xbb67ae85, 0x3c6ef372, 0xa54ff53a, 0x510e527f, 0x9b05688c, 0x1f83d9ab, 0x5be0cd19};
  size_t at = 0;
  for (; n - at >= 64; at += 64) compress(h, m + at);
  uint8_t last[128] = {0};
  size_t left = n - at, size = left < 56 ? 64 : 128;
  memcpy(last, m + at, left);
  last[left] = 0x80;
  for (int i = 0; i < 8; i++) last[size - 1 - i] = (uint8_t)((uint64_t)n * 8 >> (8 * i));
  compress(h, last);
  if (size == 128) compress(h, last + 64);
  for (int i = 0; i < 32; i++) out[i] = (uint8_t)(h[i / 4] >> (24 - 8 * (i % 4)));
}

#define LINE(x, y, z, n) s[x] += s[y]; s[z] = rotl(s[z] ^ s[x], n);
#define QUARTER(a, b, c, d) LINE(a, b, d, 16) LINE(c, d, b, 12) LINE(a, b, d, 8) LINE(c, d, b, 7)

static void block(const uint32_t t[16], uint8_t out[64]) {
  uint32_t s[16];
  memcpy(s, t, 64);
  for (int i = 0; i < 10; i++) {
    QUARTER(0, 4, 8, 12) QUARTER(1, 5, 9, 13) QUARTER(2, 6, 10, 14) QUARTER(3, 7, 11, 15)
    QUARTER(0, 5, 10, 15) QUARTER(1, 6, 11, 12) QUARTER(2, 7, 8, 13) QUARTER(3, 4, 9, 14)
  }
  for (int i = 0; i < 16; i++) {
    uint32_t x = s[i] + t[i];
    out[4 * i] = (uint8_t)x; out[4 * i + 1] = (uint8_t)(x >> 8); out[4 * i + 2] = (uint8_t)(x >> 16); out[4 * i + 3] = (uint8_t)(x >> 24);
  }
}

static uint32_t word(const uint8_t *p) { return p[0] | (uint32_t)p[1] << 8 | (uint32_t)p[2] << 16 | (uint32_t)p[3] << 24; }

void c_chacha20(const uint8_t key[32], const uint8_t nonce[12], uint32_t counter, uint8_t *bytes, size_t n) {
  uint32_t t[16] = {0x61707865, 0x3320646e, 0x79622d32, 0x6b206574};
  for (int i = 0; i < 8; i++) t[4 + i] = word(key + 4 * i);
  t[12] = counter;
  for (int i = 0; i < 3; i++) t[13 + i] = word(nonce + 4 * i);
  for (size_t at = 0; at < n; at += 64) {
    uint8_t k[64];
    block(t, k);
    size_t m = n - at < 64 ? n - at : 64;
    for (size_t i = 0; i < m; i++) bytes[at + i] ^= k[i];
    t[12]++;
  }
}
