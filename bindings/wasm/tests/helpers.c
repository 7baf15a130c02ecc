/* What LLVM calls by name on WebAssembly, beside what the compiler and the C library of this machine have. */
#include <stdio.h>
#include <stdlib.h>
#include <string.h>

#define memcmp helper_memcmp
#define bcmp helper_bcmp
#define __multi3 helper_multiply
#define __ashlti3 helper_shift_left
#define __lshrti3 helper_shift_right
#include "../helpers.c"
#undef memcmp

#define CHECK(holds)                                                    \
    do {                                                                \
        if (!(holds)) {                                                 \
            fprintf(stderr, "%s:%d: %s\n", __FILE__, __LINE__, #holds); \
            exit(1);                                                    \
        }                                                               \
    } while (0)

static uint64_t chance = 88172645463325252u;

/* A word by chance, often one at an edge. */
static uint64_t next(void) {
    chance ^= chance << 13;
    chance ^= chance >> 7;
    chance ^= chance << 17;
    switch (chance % 5) {
        case 0: return 0;
        case 1: return ~(uint64_t)0;
        case 2: return (uint64_t)1 << (chance >> 8) % 64;
        default: return chance;
    }
}

static int sign(int of) {
    return (of > 0) - (of < 0);
}

int main(void) {
    for (int turn = 0; turn < 1000000; turn++) {
        u128 x = (u128)next() << 64 | next(), y = (u128)next() << 64 | next();
        int count = (int)(next() % 128);
        CHECK(helper_multiply(x, y) == x * y);
        CHECK(helper_shift_left(x, count) == x << count && helper_shift_right(x, count) == x >> count);
    }
    for (int turn = 0; turn < 200000; turn++) {
        unsigned char one[40], other[40];
        size_t length = next() % 41;
        for (size_t byte = 0; byte < length; byte++) {
            one[byte] = other[byte] = (unsigned char)next();
        }
        if (length > 0 && turn % 3 != 0) {
            other[next() % length] = (unsigned char)next();
        }
        CHECK(sign(helper_memcmp(one, other, length)) == sign(memcmp(one, other, length)));
        CHECK((helper_bcmp(one, other, length) == 0) == (memcmp(one, other, length) == 0));
    }
    return 0;
}
