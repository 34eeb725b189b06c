/* digest LENGTH FILE...: the SHA-256 of each file, as sha256sum prints it: an example of em73862_sha256. The call is lent a digest of LENGTH bytes, up to 64. */
#include "em73862_sha256.h"
#include <stdio.h>
#include <stdlib.h>

static uint8_t message[65536];

static int show(const char *name, size_t digest_length)
{
    uint8_t digest[64] = {0};
    FILE *file = fopen(name, "rb");
    if (file == NULL)
        return 2;
    size_t length = fread(message, 1, sizeof message, file);
    fclose(file);
    uint8_t number = em73862_sha256(message, length, digest, digest_length);
    if (number != 0) {
        printf("refused %02d  %s\n", number, name);
        return 1;
    }
    for (size_t i = 0; i < EM73862_SHA256_BYTES; i++)
        printf("%02x", digest[i]);
    printf("  %s\n", name);
    return 0;
}

int main(int count, char **words)
{
    if (count < 3) {
        fprintf(stderr, "usage: digest LENGTH FILE...\n");
        return 2;
    }
    size_t digest_length = strtoul(words[1], NULL, 10);
    int status = 0;
    for (int i = 2; i < count; i++)
        if (show(words[i], digest_length) != 0)
            status = 1;
    return status;
}
