/* SHA-256 and SHA3-256 in plain portable C, after FIPS 180-4 and FIPS 202: the yardstick. */
#include "bench.h"

#include <string.h>

static const uint32_t K[64] = {
    0x428a2f98, 0x71374491, 0xb5c0fbcf, 0xe9b5dba5, 0x3956c25b, 0x59f111f1, 0x923f82a4, 0xab1c5ed5,
    0xd807aa98, 0x12835b01, 0x243185be, 0x550c7dc3, 0x72be5d74, 0x80deb1fe, 0x9bdc06a7, 0xc19bf174,
    0xe49b69c1, 0xefbe4786, 0x0fc19dc6, 0x240ca1cc, 0x2de92c6f, 0x4a7484aa, 0x5cb0a9dc, 0x76f988da,
    0x983e5152, 0xa831c66d, 0xb00327c8, 0xbf597fc7, 0xc6e00bf3, 0xd5a79147, 0x06ca6351, 0x14292967,
    0x27b70a85, 0x2e1b2138, 0x4d2c6dfc, 0x53380d13, 0x650a7354, 0x766a0abb, 0x81c2c92e, 0x92722c85,
    0xa2bfe8a1, 0xa81a664b, 0xc24b8b70, 0xc76c51a3, 0xd192e819, 0xd6990624, 0xf40e3585, 0x106aa070,
    0x19a4c116, 0x1e376c08, 0x2748774c, 0x34b0bcb5, 0x391c0cb3, 0x4ed8aa4a, 0x5b9cca4f, 0x682e6ff3,
    0x748f82ee, 0x78a5636f, 0x84c87814, 0x8cc70208, 0x90befffa, 0xa4506ceb, 0xbef9a3f7, 0xc67178f2};

static uint32_t ror32(uint32_t x, int n) { return x >> n | x << (32 - n); }

static void compress(uint32_t h[8], const uint8_t *block)
{
    uint32_t w[64], v[8];
    int t;

    for (t = 0; t < 16; t++)
        w[t] = (uint32_t)block[4 * t] << 24 | (uint32_t)block[4 * t + 1] << 16
             | (uint32_t)block[4 * t + 2] << 8 | block[4 * t + 3];
    for (; t < 64; t++) {
        uint32_t a = w[t - 15], b = w[t - 2];
        w[t] = w[t - 16] + w[t - 7] + (ror32(a, 7) ^ ror32(a, 18) ^ a >> 3)
             + (ror32(b, 17) ^ ror32(b, 19) ^ b >> 10);
    }
    memcpy(v, h, sizeof v);
    for (t = 0; t < 64; t++) {
        uint32_t t1 = v[7] + (ror32(v[4], 6) ^ ror32(v[4], 11) ^ ror32(v[4], 25))
                    + ((v[4] & v[5]) ^ (~v[4] & v[6])) + K[t] + w[t];
        uint32_t t2 = (ror32(v[0], 2) ^ ror32(v[0], 13) ^ ror32(v[0], 22))
                    + ((v[0] & v[1]) ^ (v[0] & v[2]) ^ (v[1] & v[2]));
        v[7] = v[6], v[6] = v[5], v[5] = v[4], v[4] = v[3] + t1;
        v[3] = v[2], v[2] = v[1], v[1] = v[0], v[0] = t1 + t2;
    }
    for (t = 0; t < 8; t++)
        h[t] += v[t];
}

void portable_sha256(const uint8_t *text, size_t length, uint8_t *out)
{
    uint32_t h[8] = {0x6a09e667, 0xbb67ae85, 0x3c6ef372, 0xa54ff53a,
                     0x510e527f, 0x9b05688c, 0x1f83d9ab, 0x5be0cd19};
    uint8_t tail[128] = {0};
    size_t whole = length / 64, rest = length % 64, end = rest < 56 ? 64 : 128, i;
    uint64_t bits = (uint64_t)length * 8;

    for (i = 0; i < whole; i++)
        compress(h, text + 64 * i);
    memcpy(tail, text + 64 * whole, rest);
    tail[rest] = 0x80;
    for (i = 0; i < 8; i++)
        tail[end - 1 - i] = (uint8_t)(bits >> 8 * i);
    for (i = 0; i < end; i += 64)
        compress(h, tail + i);
    for (i = 0; i < 32; i++)
        out[i] = (uint8_t)(h[i / 4] >> (24 - 8 * (i % 4)));
}

static const uint64_t RC[24] = {
    0x0000000000000001, 0x0000000000008082, 0x800000000000808a, 0x8000000080008000,
    0x000000000000808b, 0x0000000080000001, 0x8000000080008081, 0x8000000000008009,
    0x000000000000008a, 0x0000000000000088, 0x0000000080008009, 0x000000008000000a,
    0x000000008000808b, 0x800000000000008b, 0x8000000000008089, 0x8000000000008003,
    0x8000000000008002, 0x8000000000000080, 0x000000000000800a, 0x800000008000000a,
    0x8000000080008081, 0x8000000000008080, 0x0000000080000001, 0x8000000080008008};

static const int RHO[24] = {1, 3, 6, 10, 15, 21, 28, 36, 45, 55, 2, 14,
                            27, 41, 56, 8, 25, 43, 62, 18, 39, 61, 20, 44};
static const int PI[24] = {10, 7, 11, 17, 18, 3, 5, 16, 8, 21, 24, 4,
                           15, 23, 19, 13, 12, 2, 20, 14, 22, 9, 6, 1};

static uint64_t rol64(uint64_t x, int n) { return x << n | x >> (64 - n); }

static void keccak(uint64_t s[25])
{
    uint64_t c[5], d;
    int r, i, j;

    for (r = 0; r < 24; r++) {
        for (i = 0; i < 5; i++)
            c[i] = s[i] ^ s[i + 5] ^ s[i + 10] ^ s[i + 15] ^ s[i + 20];
        for (i = 0; i < 5; i++) {
            d = c[(i + 4) % 5] ^ rol64(c[(i + 1) % 5], 1);
            for (j = 0; j < 25; j += 5)
                s[i + j] ^= d;
        }
        d = s[1];
        for (i = 0; i < 24; i++) {
            uint64_t next = s[PI[i]];
            s[PI[i]] = rol64(d, RHO[i]);
            d = next;
        }
        for (j = 0; j < 25; j += 5) {
            memcpy(c, s + j, sizeof c);
            for (i = 0; i < 5; i++)
                s[i + j] = c[i] ^ (~c[(i + 1) % 5] & c[(i + 2) % 5]);
        }
        s[0] ^= RC[r];
    }
}

static void absorb(uint64_t s[25], const uint8_t *block)
{
    for (int i = 0; i < 136; i++)
        s[i / 8] ^= (uint64_t)block[i] << 8 * (i % 8);
    keccak(s);
}

void portable_sha3_256(const uint8_t *text, size_t length, uint8_t *out)
{
    uint64_t s[25] = {0};
    uint8_t tail[136] = {0};
    size_t whole = length / 136, rest = length % 136, i;

    for (i = 0; i < whole; i++)
        absorb(s, text + 136 * i);
    memcpy(tail, text + 136 * whole, rest);
    tail[rest] ^= 0x06;
    tail[135] ^= 0x80;
    absorb(s, tail);
    for (i = 0; i < 32; i++)
        out[i] = (uint8_t)(s[i / 8] >> 8 * (i % 8));
}
