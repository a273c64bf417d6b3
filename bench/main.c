/* Measures all in one run, on the same inputs, and prints times and ratios. */
#define _POSIX_C_SOURCE 200809L
#include "bench.h"
#include "puvlomir.h"

#include <openssl/evp.h>
#include <stdio.h>
#include <stdlib.h>
#include <string.h>
#include <time.h>

uint16_t bench_sha256(const uint8_t *text, size_t length, uint8_t *out, size_t room);
uint16_t bench_sha3_256(const uint8_t *text, size_t length, uint8_t *out, size_t room);

#define ROUNDS 7
#define SLICE 0.05

static uint8_t text[65536], policy[13440], out[32];
static size_t length;
static EVP_MD_CTX *context;
static EVP_MD *sha256_method, *sha3_method;

static void evp(EVP_MD *method)
{
    EVP_DigestInit_ex(context, method, NULL);
    EVP_DigestUpdate(context, text, length);
    EVP_DigestFinal_ex(context, out, NULL);
}

static void ours_sha256(void) { bench_sha256(text, length, out, 32); }
static void openssl_sha256(void) { evp(sha256_method); }
static void c_sha256(void) { portable_sha256(text, length, out); }
static void ours_sha3(void) { bench_sha3_256(text, length, out, 32); }
static void openssl_sha3(void) { evp(sha3_method); }
static void c_sha3(void) { portable_sha3_256(text, length, out); }
static void ours_policy(void) { puvlomir_digest_sha256(policy, length, out, 32); }
static void openssl_policy256(void) { openssl_policy("SHA256", policy, length, out); }
static void ours_policy3(void) { puvlomir_digest_sha3_256(policy, length, out, 32); }
static void openssl_policy3(void) { openssl_policy("SHA3-256", policy, length, out); }

static double now(void)
{
    struct timespec t;
    clock_gettime(CLOCK_MONOTONIC, &t);
    return (double)t.tv_sec + 1e-9 * (double)t.tv_nsec;
}

/* Seconds of one call, from calls that take about SLICE. */
static double once(void (*call)(void))
{
    long calls = 1;
    for (;;) {
        double from = now();
        for (long i = 0; i < calls; i++)
            call();
        double took = now() - from;
        if (took > SLICE)
            return took / (double)calls;
        calls *= 2;
    }
}

/* The best of several rounds, the rivals taking turns, with their results compared first. */
static void compare(const char *label, int count, const char *const *names, void (*const *calls)(void))
{
    double best[3];
    uint8_t first[32];

    for (int k = 0; k < count; k++) {
        memset(out, 0, sizeof out);
        calls[k]();
        if (k == 0)
            memcpy(first, out, 32);
        else if (memcmp(first, out, 32) != 0) {
            printf("%s: %s answers otherwise\n", label, names[k]);
            exit(1);
        }
        best[k] = 1e9;
    }
    for (int round = 0; round < ROUNDS; round++)
        for (int k = 0; k < count; k++) {
            double took = once(calls[k]);
            if (took < best[k])
                best[k] = took;
        }
    printf("%-22s", label);
    for (int k = 0; k < count; k++)
        printf("  %s %9.3f us", names[k], 1e6 * best[k]);
    for (int k = 1; k < count; k++)
        printf("  %.2f of %s", best[k] / best[0], names[k]);
    printf("\n");
}

int main(int argc, char **argv)
{
    static const char *const names[] = {"ours", "openssl", "portable"};
    static void (*const sha256[])(void) = {ours_sha256, openssl_sha256, c_sha256};
    static void (*const sha3[])(void) = {ours_sha3, openssl_sha3, c_sha3};
    static void (*const policies[])(void) = {ours_policy, openssl_policy256};
    static void (*const policies3[])(void) = {ours_policy3, openssl_policy3};
    static const size_t sizes[] = {64, 1024, 65536};
    char label[32];

    context = EVP_MD_CTX_new();
    sha256_method = EVP_MD_fetch(NULL, "SHA256", NULL);
    sha3_method = EVP_MD_fetch(NULL, "SHA3-256", NULL);
    for (size_t i = 0; i < sizeof text; i++)
        text[i] = (uint8_t)(i * 7 + 3);
    for (int k = 0; k < 3; k++) {
        length = sizes[k];
        snprintf(label, sizeof label, "SHA-256, %zu bytes", length);
        compare(label, 3, names, sha256);
    }
    for (int k = 0; k < 3; k++) {
        length = sizes[k];
        snprintf(label, sizeof label, "SHA3-256, %zu bytes", length);
        compare(label, 3, names, sha3);
    }
    FILE *file = argc == 2 ? fopen(argv[1], "rb") : NULL;
    if (file == NULL)
        return 1;
    length = fread(policy, 1, sizeof policy, file);
    fclose(file);
    compare("64 lines, SHA-256", 2, names, policies);
    compare("64 lines, SHA3-256", 2, names, policies3);
    return 0;
}
