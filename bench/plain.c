/* Plain loops, compiled twice: NAME is the suffix of their names. */
#include <stddef.h>
#define JOIN(a, b) a##b
#define NAMED(a, b) JOIN(a, b)

void NAMED(plain_xor_, NAME)(unsigned char *restrict dst, const unsigned char *restrict src, size_t len) {
    for (size_t i = 0; i < len; i++) dst[i] ^= src[i];
}

void NAMED(plain_mul_add_, NAME)(unsigned char *restrict dst, const unsigned char *restrict src, size_t len,
                                 const unsigned char *products) {
    for (size_t i = 0; i < len; i++) dst[i] ^= products[src[i]];
}
