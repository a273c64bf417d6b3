/*
 * Digests a policy text as firmware would: fixed buffers, no heap, every answer looked at.
 * Usage: demo POLICY
 */
#include "puvlomir.h"

#include <stdio.h>
#include <string.h>

typedef struct puvlomir_answer entry(const uint8_t *, size_t, uint8_t *, size_t);

static const char *const layers[] = {"none", "text", "state", "call"};

static void show(const char *label, entry *digest, const uint8_t *text, size_t length, size_t room)
{
    uint8_t out[PUVLOMIR_DIGEST_LENGTH];
    size_t i;

    memset(out, 0xff, sizeof out);
    struct puvlomir_answer answer = digest(text, length, out, room);
    printf("%s\n", label);
    if (answer.layer != PUVLOMIR_LAYER_NONE) {
        printf("fault\t%zu\t%s\t%03x\n", answer.line, layers[answer.layer], answer.code);
        for (i = 0; i < room; i++)
            if (out[i] != 0)
                printf("the buffer is not cleared\n");
        return;
    }
    printf("lines\t%zu\nbranches\t%zu\ndigest\t", answer.lines, answer.branches);
    for (i = 0; i < room; i++)
        printf("%02x", out[i]);
    printf("\n");
}

static void show_all(const char *hash, entry *digest, const uint8_t *text, size_t length)
{
    static const uint8_t oversized[PUVLOMIR_TEXT_LIMIT + 1];
    static const uint8_t bad[] = "start\nlocality\t20\n";

    printf("%s\n", hash);
    show("sample", digest, text, length, PUVLOMIR_DIGEST_LENGTH);
    show("empty text", digest, text, 0, PUVLOMIR_DIGEST_LENGTH);
    show("oversized text", digest, oversized, sizeof oversized, PUVLOMIR_DIGEST_LENGTH);
    show("no such locality", digest, bad, sizeof bad - 1, PUVLOMIR_DIGEST_LENGTH);
    show("buffer too short", digest, text, length, PUVLOMIR_DIGEST_LENGTH - 1);
}

int main(int argc, char **argv)
{
    static uint8_t text[PUVLOMIR_TEXT_LIMIT + 1];
    FILE *file = argc == 2 ? fopen(argv[1], "rb") : NULL;

    if (file == NULL) {
        fprintf(stderr, "usage: demo POLICY\n");
        return 1;
    }
    size_t length = fread(text, 1, sizeof text, file);
    fclose(file);
    show_all("sha256", puvlomir_digest_sha256, text, length);
    show_all("sha3-256", puvlomir_digest_sha3_256, text, length);
    return 0;
}
