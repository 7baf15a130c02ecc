/* The allocator of the WebAssembly module, in the place of bindings/c/heap.c. No C library is linked.
 *
 * Memory is a row of blocks, each with its size before it, and behind them what is left of the memory, which grows as it is used up. A free
 * block is kept in a list of its class of size, and knows the block before it, so that neighbours that are both free are one block. The
 * class is found by two numbers: the power of two below the size, and which sixteenth of the way to the next one. A bit for each list
 * tells whether it has a block. So each call takes the same time, however many blocks there are.
 *
 * Some blocks of each small size are kept when they are let go, as if they were used, and are given out again as they are. They become free
 * before memory grows.
 *
 * What memory lies in is told by `memory_start`, `memory_end` and `memory_grows`: those of WebAssembly, unless a test has its own. */
#include "heap.h"

#define NONE ((block *)0)
#define GRAIN ((size_t)16)    /* Sizes and places are multiples of this. */
#define LEAST ((size_t)32)    /* The least block: a size, two links, and its size once more at its end. */
#define STEPS 16              /* Classes to a power of two. */
#define POWERS 28             /* Powers of two: from 2^8 to 2^35. What is less is in one class of each size. */
#define MOST ((size_t)1 << 34) /* No block has more bytes. */
#define SMALL 32              /* Blocks of fewer grains than this are kept, */
#define KEPT 32               /* so many of each size. */

enum { USED = 1, BEFORE_USED = 2 }; /* Bits of a size. */

typedef struct block {
    size_t before;              /* The size of the block before, where that is free: the last bytes of it. */
    size_t size;                /* With the two bits. */
    struct block *next, *other; /* Of a free block: its neighbours in its list. The bytes of a used one begin here. */
} block;

static block *lists[POWERS][STEPS];
static uint32_t has_power, has_step[POWERS];
static block *rest;            /* What is left of the memory: never in a list, and the block before it is used. */
static uintptr_t end, limit = ~(uintptr_t)0;
static size_t held;            /* How many blocks are used. */
static block *kept[SMALL];     /* Those that are kept, by their sizes in grains. */
static uint8_t kept_count[SMALL];

static size_t size_of(const block *it) {
    return it->size & ~(size_t)(USED | BEFORE_USED);
}

static block *behind(block *it) {
    return (block *)((uintptr_t)it + size_of(it));
}

/* How many bytes a block has that holds so many. */
static size_t whole(size_t size) {
    size_t need = (size + sizeof(size_t) + GRAIN - 1) & ~(GRAIN - 1);
    return need < LEAST ? LEAST : need;
}

struct class {
    unsigned power, step;
};

static struct class class_of(size_t size) {
    if (size < 256) {
        return (struct class){0, (unsigned)(size / GRAIN)};
    }
    unsigned top = 63 - (unsigned)__builtin_clzll(size);
    return (struct class){top - 7, (unsigned)(size >> (top - 4)) & (STEPS - 1)};
}

static void list(block *it) {
    size_t size = size_of(it);
    struct class class = class_of(size);
    block **first = &lists[class.power][class.step];
    it->next = *first;
    it->other = NONE;
    if (*first != NONE) {
        (*first)->other = it;
    }
    *first = it;
    has_power |= 1u << class.power;
    has_step[class.power] |= 1u << class.step;
    block *after = behind(it);
    after->before = size;
    after->size &= ~(size_t)BEFORE_USED;
}

static void unlist(block *it) {
    if (it->next != NONE) {
        it->next->other = it->other;
    }
    if (it->other != NONE) {
        it->other->next = it->next;
        return;
    }
    struct class class = class_of(size_of(it));
    lists[class.power][class.step] = it->next;
    if (it->next == NONE && (has_step[class.power] &= ~(1u << class.step)) == 0) {
        has_power &= ~(1u << class.power);
    }
}

/* A free block of at least so many bytes, out of its list: the first of a class in which each has them. */
static block *found(size_t size) {
    size_t up = size < 256 ? size : size + ((size_t)1 << (59 - __builtin_clzll(size))) - 1;
    struct class class = class_of(up);
    uint32_t steps = has_step[class.power] & (~0u << class.step);
    if (steps == 0) {
        uint32_t powers = has_power & (~0u << class.power << 1);
        if (powers == 0) {
            return NONE;
        }
        class.power = (unsigned)__builtin_ctz(powers);
        steps = has_step[class.power];
    }
    block *it = lists[class.power][__builtin_ctz(steps)];
    unlist(it);
    return it;
}

/* Whether so many bytes are left behind the blocks, and room for the head of what is left then. */
static bool is_left(size_t size) {
    if (rest == NONE) {
        rest = (block *)((memory_start() + GRAIN - 1) & ~(uintptr_t)(GRAIN - 1));
        end = memory_end();
    }
    return (uintptr_t)rest + size + sizeof(block) <= end;
}

/* Whether memory has grown so that so many are left. */
static bool grows(size_t size) {
    uintptr_t need = (uintptr_t)rest + size + sizeof(block);
    if (need > limit) {
        return false;
    }
    uintptr_t more = (need - end) / 8 + need / 64; /* Beyond what is needed, so that memory grows seldom. */
    if ((need + more <= limit && memory_grows(need + more - end)) || memory_grows(need - end)) {
        end = memory_end();
        return true;
    }
    return false;
}

/* A block cut from what is left, which has room for it. */
static block *cut(size_t size) {
    block *it = rest;
    it->size = size | BEFORE_USED;
    rest = behind(it);
    rest->size = BEFORE_USED;
    return it;
}

/* Has a used block keep so many of its bytes; the others are free if they can be a block. */
static void trim(block *it, size_t size) {
    size_t over = size_of(it) - size;
    if (over < LEAST) {
        return;
    }
    it->size -= over;
    block *free = behind(it);
    free->size = over | BEFORE_USED;
    block *after = behind(free);
    if (after == rest) {
        rest = free;
        rest->size = BEFORE_USED;
    } else {
        if ((after->size & USED) == 0) {
            unlist(after);
            free->size += size_of(after);
        }
        list(free);
    }
}

/* Lets go of a used block, and makes it one with free neighbours. */
static void join(block *it) {
    block *after = behind(it);
    it->size &= ~(size_t)USED;
    if ((it->size & BEFORE_USED) == 0) {
        block *before = (block *)((uintptr_t)it - it->before);
        unlist(before);
        before->size += size_of(it);
        it = before;
    }
    if (after == rest) {
        rest = it;
        rest->size = BEFORE_USED;
        return;
    }
    if ((after->size & USED) == 0) {
        unlist(after);
        it->size += size_of(after);
    }
    list(it);
}

/* Lets go of all blocks that are kept, and tells whether there were any. */
static bool join_kept(void) {
    bool are_any = false;
    for (size_t grains = 0; grains < SMALL; grains++) {
        for (block *it; (it = kept[grains]) != NONE; are_any = true) {
            kept[grains] = it->next;
            join(it);
        }
        kept_count[grains] = 0;
    }
    return are_any;
}

/* A used block of so many bytes, or none. */
static block *made(size_t size) {
    block *it = found(size);
    if (it == NONE && !is_left(size) && join_kept()) {
        it = found(size);
    }
    if (it == NONE) {
        if (!is_left(size) && !grows(size)) {
            return NONE;
        }
        it = cut(size);
    }
    it->size |= USED;
    behind(it)->size |= BEFORE_USED;
    trim(it, size);
    return it;
}

void *heap_alloc(size_t size) {
    if (size > MOST) {
        return NULL;
    }
    size_t need = whole(size), grains = need / GRAIN;
    block *it = grains < SMALL ? kept[grains] : NONE;
    if (it != NONE) {
        kept[grains] = it->next;
        kept_count[grains]--;
    } else if ((it = made(need)) == NONE) {
        return NULL;
    }
    held++;
    return &it->next;
}

static block *block_of(void *at) {
    return (block *)((uintptr_t)at - 2 * sizeof(size_t));
}

void heap_free(void *at) {
    if (at == NULL) {
        return;
    }
    held--;
    block *it = block_of(at);
    size_t grains = size_of(it) / GRAIN;
    if (grains < SMALL && kept_count[grains] < KEPT) {
        it->next = kept[grains];
        kept[grains] = it;
        kept_count[grains]++;
    } else {
        join(it);
    }
}

/* Whether a used block has so many bytes once it has taken what is free behind it. */
static bool is_grown(block *it, size_t size) {
    block *after = behind(it);
    size_t has = size_of(it);
    if (after == rest) {
        if (!is_left(size - has) && !grows(size - has)) {
            return false;
        }
        cut(size - has);
        it->size += size - has;
    } else {
        if ((after->size & USED) != 0 || has + size_of(after) < size) {
            return false;
        }
        unlist(after);
        it->size += size_of(after);
        behind(it)->size |= BEFORE_USED;
    }
    return true;
}

void *heap_realloc(void *at, size_t kept, size_t size) {
    block *it = block_of(at);
    size_t need = whole(size);
    if (size <= MOST && (size_of(it) >= need || is_grown(it, need))) {
        trim(it, need);
        return at;
    }
    void *to = heap_alloc(size);
    if (to != NULL) {
        __builtin_memcpy(to, at, kept < size ? kept : size);
        heap_free(at);
    }
    return to;
}

size_t heap_blocks(void) {
    return held;
}

void heap_limit(size_t bytes) {
    limit = bytes;
}

/* What the library calls. An answer says whether there is a block, and where it is; else any place that is not 0. */
static struct rattle_block told(void *at) {
    return (struct rattle_block){at != NULL, at != NULL ? at : (void *)GRAIN};
}

struct rattle_block rattle_alloc(size_t size, size_t align) {
    return told(align <= GRAIN ? heap_alloc(size) : NULL);
}

struct rattle_block rattle_realloc(void *at, size_t old_size, size_t size, size_t align) {
    (void)align;
    return told(heap_realloc(at, old_size, size));
}

void rattle_dealloc(void *at) {
    heap_free(at);
}
