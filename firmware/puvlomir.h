/*
 * The key chest's digest of a policy text, for C firmware.
 *
 * Link with libfirmware.a (rt lib in crates/firmware). The entries allocate nothing, keep nothing between
 * calls, and answer every input: a text of any bytes and length, a buffer of any length.
 */
#ifndef PUVLOMIR_H
#define PUVLOMIR_H

#include <stddef.h>
#include <stdint.h>

/* Bytes of a digest, and of the buffer that it goes into. */
#define PUVLOMIR_DIGEST_LENGTH 32

/* The most bytes and lines of a policy text. */
#define PUVLOMIR_TEXT_LIMIT 13440
#define PUVLOMIR_LINE_LIMIT 64

/* Which part of the chest refused. */
enum puvlomir_layer {
    PUVLOMIR_LAYER_NONE = 0,  /* no fault: lines, branches and the digest are the answer */
    PUVLOMIR_LAYER_TEXT = 1,  /* the text's size, a line's form, the number at `any`, the stack */
    PUVLOMIR_LAYER_STATE = 2, /* the reader state; never where a text is digested */
    PUVLOMIR_LAYER_CALL = 3   /* an assertion's fields, or the buffer */
};

/* Why: the codes that digesting a text answers, after TPM 2.0. */
enum puvlomir_code {
    PUVLOMIR_CODE_NONE = 0x000,  /* no fault */
    PUVLOMIR_CODE_VALUE = 0x084, /* no line's form, too few or too many trees, no such operation */
    PUVLOMIR_CODE_RANGE = 0x08d, /* a set of localities that is empty or has others than 0 to 4 */
    PUVLOMIR_CODE_SIZE = 0x095   /* a length or number: of the text, the buffer, a field, `any` */
};

struct puvlomir_answer {
    size_t lines;    /* lines of the text; 0 after a fault */
    size_t branches; /* branches of its tree; 0 after a fault */
    size_t line;     /* the faulty line, from 1; 0 outside the lines, and without a fault */
    uint8_t layer;   /* an enum puvlomir_layer */
    uint16_t code;   /* an enum puvlomir_code */
};

/*
 * Digests a policy text into `out`, under one hash each. The buffer is judged first: it has
 * PUVLOMIR_DIGEST_LENGTH bytes. After a fault all of `out` is zeros, whatever its length.
 *
 * Neither pointer may be null, also where a length is 0, and the two must not overlap.
 */
struct puvlomir_answer puvlomir_digest_sha256(const uint8_t *text, size_t text_length,
                                              uint8_t *out, size_t out_length);

struct puvlomir_answer puvlomir_digest_sha3_256(const uint8_t *text, size_t text_length,
                                                uint8_t *out, size_t out_length);

#endif
