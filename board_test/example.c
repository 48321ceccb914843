/* A map with one entry, in an image of the smallest kind: it is checked, then looked up. */
#include "logfringe.h"

#include <stdio.h>

#define M 1u
#define N 2u

/* 44 words; bytes, lowest first. Key 2^127, value first word 258, second word 3. */
static const uint8_t image[LOGFRINGE_IMAGE_BYTES(M, N)] = {
    [8] = 1,                           /* root */
    [16] = 1, [24] = 2, [28] = 2,      /* nodes: size, bump, head */
    [44] = 1,                          /* node 1: its value record, */
    [63] = 0x80,                       /* its key, */
    [64] = 128,                        /* its prefix length */
    [128] = 1, [136] = 2, [140] = 2,   /* values: size, bump, head */
    [160] = 2, [161] = 1, [168] = 3,   /* value record 1: its value */
};

int main(void) {
    uint8_t scratch[LOGFRINGE_SCRATCH_BYTES(M)];
    uint8_t value[LOGFRINGE_VALUE_BYTES];

    if (logfringe_check(image, sizeof image, M, N, scratch, sizeof scratch) != LOGFRINGE_OK) {
        puts("the image is damaged");
        return 1;
    }
    if (logfringe_get(image, sizeof image, M, N, 1ull << 63, 0, value, sizeof value) != LOGFRINGE_OK) {
        puts("2^127 is not in the map");
        return 1;
    }
    for (size_t i = 0; i < sizeof value; i++) {
        printf("%02x%c", value[i], i + 1 < sizeof value ? ' ' : '\n');
    }
    return 0;
}
