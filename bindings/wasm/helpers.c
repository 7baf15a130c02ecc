/* The functions that LLVM calls by name, where neither a C library nor a compiler's library is linked. */
#include <stddef.h>
#include <stdint.h>

typedef unsigned __int128 u128;

/* The two words of a number of 128 bits. */
typedef union {
    u128 whole;
    struct {
        uint64_t low, high;
    };
} words;

u128 __multi3(u128 x, u128 y) {
    words a = {x}, b = {y}, product;
    uint64_t a_low = a.low & 0xffffffff, a_high = a.low >> 32, b_low = b.low & 0xffffffff, b_high = b.low >> 32;
    uint64_t first = a_low * b_low, second = a_high * b_low + (first >> 32), third = a_low * b_high + (second & 0xffffffff);
    product.low = third << 32 | (first & 0xffffffff);
    product.high = a_high * b_high + (second >> 32) + (third >> 32) + a.low * b.high + a.high * b.low;
    return product.whole;
}

u128 __ashlti3(u128 x, int count) {
    words a = {x}, shifted;
    if (count & 64) {
        shifted.low = 0;
        shifted.high = a.low << (count & 63);
    } else {
        shifted.low = a.low << (count & 63);
        shifted.high = a.high << (count & 63) | a.low >> 1 >> (63 - (count & 63));
    }
    return shifted.whole;
}

u128 __lshrti3(u128 x, int count) {
    words a = {x}, shifted;
    if (count & 64) {
        shifted.low = a.high >> (count & 63);
        shifted.high = 0;
    } else {
        shifted.low = a.low >> (count & 63) | a.high << 1 << (63 - (count & 63));
        shifted.high = a.high >> (count & 63);
    }
    return shifted.whole;
}

int memcmp(const void *x, const void *y, size_t length) {
    const unsigned char *a = x, *b = y;
    for (; length >= 8; length -= 8, a += 8, b += 8) {
        uint64_t p, q;
        __builtin_memcpy(&p, a, 8);
        __builtin_memcpy(&q, b, 8);
        if (p != q) {
            /* The first byte that differs is the highest one. */
            return __builtin_bswap64(p) < __builtin_bswap64(q) ? -1 : 1;
        }
    }
    for (; length != 0; length--, a++, b++) {
        if (*a != *b) {
            return *a - *b;
        }
    }
    return 0;
}

int bcmp(const void *x, const void *y, size_t length) {
    return memcmp(x, y, length);
}
