/* The digest of a policy text in C with OpenSSL: the same work, with the same checks. */
#include "bench.h"

#include <openssl/evp.h>
#include <string.h>

#define MOST_LINES 64
#define MOST_BYTES 13440

struct field {
    const uint8_t *at;
    size_t length;
};

static EVP_MD_CTX *context;
static const EVP_MD *method;

static void hash(const uint8_t *text, size_t length, uint8_t *out)
{
    EVP_DigestInit_ex(context, method, NULL);
    EVP_DigestUpdate(context, text, length);
    EVP_DigestFinal_ex(context, out, NULL);
}

static int digit(uint8_t c)
{
    return c >= '0' && c <= '9' ? c - '0' : c >= 'a' && c <= 'f' ? c - 'a' + 10 : -1;
}

/* How many bytes a field of digit pairs stands for, or -1. */
static int pairs(struct field f)
{
    if (f.length % 2 != 0)
        return -1;
    for (size_t i = 0; i < f.length; i++)
        if (digit(f.at[i]) < 0)
            return -1;
    return (int)(f.length / 2);
}

static size_t decode(struct field f, uint8_t *out)
{
    for (size_t i = 0; i < f.length / 2; i++)
        out[i] = (uint8_t)(digit(f.at[2 * i]) * 16 + digit(f.at[2 * i + 1]));
    return f.length / 2;
}

static int number(struct field f)
{
    int n = 0;
    if (f.length == 0 || (f.length > 1 && f.at[0] == '0'))
        return -1;
    for (size_t i = 0; i < f.length; i++) {
        if (f.at[i] < '0' || f.at[i] > '9')
            return -1;
        n = n * 10 + f.at[i] - '0';
        if (n > 65535)
            return -1;
    }
    return n;
}

static int is(struct field f, const char *word)
{
    return f.length == strlen(word) && memcmp(f.at, word, f.length) == 0;
}

static size_t put4(uint8_t *out, uint32_t n)
{
    out[0] = n >> 24, out[1] = n >> 16, out[2] = n >> 8, out[3] = n;
    return 4;
}

/* The hash of operand, offset and operation; 0 where they have a fault. */
static int comparison(const struct field *f, uint8_t *out)
{
    uint8_t text[68];
    int length = pairs(f[0]), offset = number(f[1]), operation = number(f[2]);
    if (length < 1 || length > 64 || offset < 0 || operation < 0 || operation > 11)
        return 0;
    size_t at = decode(f[0], text);
    text[at++] = offset >> 8, text[at++] = offset;
    text[at++] = operation >> 8, text[at++] = operation;
    hash(text, at, out);
    return 1;
}

/* Extends a digest by an assertion; 0 where it has a fault. */
static int extend(uint8_t *digest, const struct field *f, int count)
{
    uint8_t text[128], *body = text + 36;
    size_t at = 0;
    uint32_t code;

    if (is(f[0], "pcr") && count == 3 && pairs(f[1]) == 3 && pairs(f[2]) == 32) {
        static const uint8_t bank[7] = {0, 0, 0, 1, 0, 0x0b, 3};
        code = 0x17f;
        memcpy(body, bank, 7);
        at = 7 + decode(f[1], body + 7);
        at += decode(f[2], body + at);
    } else if (is(f[0], "nv") && count == 5 && pairs(f[1]) == 34 && comparison(f + 2, body)) {
        code = 0x149;
        at = 32 + decode(f[1], body + 32);
    } else if (is(f[0], "time") && count == 4 && comparison(f + 1, body)) {
        code = 0x16d;
        at = 32;
    } else if (is(f[0], "locality") && count == 2 && pairs(f[1]) == 1) {
        code = 0x16f;
        at = decode(f[1], body);
        if (body[0] < 1 || body[0] > 0x1f)
            return 0;
    } else if (is(f[0], "command") && count == 2 && pairs(f[1]) == 4) {
        code = 0x16c;
        at = decode(f[1], body);
    } else if (is(f[0], "presence") && count == 1) {
        code = 0x187;
    } else if (is(f[0], "password") && count == 1) {
        code = 0x16b;
    } else {
        return 0;
    }
    memcpy(text, digest, 32);
    put4(text + 32, code);
    hash(text, 36 + at, digest);
    return 1;
}

/* Cuts a line into fields; more than 5 are no word's. */
static int cut(const uint8_t *line, size_t length, struct field *f)
{
    int count = 0;
    size_t from = 0;
    for (size_t i = 0; i <= length; i++)
        if (i == length || line[i] == '\t') {
            if (count == 5)
                return 0;
            f[count++] = (struct field){line + from, i - from};
            from = i + 1;
        }
    return count;
}

int openssl_policy(const char *name, const uint8_t *text, size_t length, uint8_t *out)
{
    uint8_t stack[MOST_LINES][32], joined[36 + 8 * 32];
    size_t height = 0, lines = 0, at = 0;

    if (context == NULL)
        context = EVP_MD_CTX_new();
    method = EVP_get_digestbyname(name);
    if (length == 0 || length > MOST_BYTES)
        return 0;
    while (at < length) {
        struct field f[5];
        const uint8_t *line = text + at;
        const uint8_t *feed = memchr(line, '\n', length - at);
        size_t size = feed ? (size_t)(feed - line) : length - at;
        int count = cut(line, size, f);

        at += size + 1;
        if (++lines > MOST_LINES || count == 0)
            return 0;
        if (is(f[0], "start") && count == 1) {
            memset(stack[height++], 0, 32);
        } else if (is(f[0], "any") && count == 2) {
            int n = number(f[1]);
            if (n < 2 || n > 8 || height < (size_t)n)
                return 0;
            height -= (size_t)n;
            memset(joined, 0, 32);
            put4(joined + 32, 0x171);
            memcpy(joined + 36, stack[height], 32 * (size_t)n);
            hash(joined, 36 + 32 * (size_t)n, stack[height++]);
        } else if (height == 0 || !extend(stack[height - 1], f, count)) {
            return 0;
        }
    }
    if (height != 1)
        return 0;
    memcpy(out, stack[0], 32);
    return 1;
}
