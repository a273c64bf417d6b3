/* What the benchmark compares. Every function hashes `length` bytes into 32. */
#ifndef BENCH_H
#define BENCH_H

#include <stddef.h>
#include <stdint.h>

void portable_sha256(const uint8_t *text, size_t length, uint8_t *out);
void portable_sha3_256(const uint8_t *text, size_t length, uint8_t *out);

/* Digests a policy text with OpenSSL's hash of that name; 0 where the text has a fault. */
int openssl_policy(const char *hash, const uint8_t *text, size_t length, uint8_t *out);

#endif
