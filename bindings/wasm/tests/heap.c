/* The allocator over a memory of the test's own: calls by chance, after each of which no two blocks lie over one another, each block has
 * the bytes that were written, and the row of blocks is what it should be. And each growth of memory is refused in turn. */
#include "../heap.c"

#include <stdio.h>
#include <stdlib.h>
#include <string.h>

#define CHECK(holds)                                                          \
    do {                                                                      \
        if (!(holds)) {                                                       \
            fprintf(stderr, "%s:%d: %s\n", __FILE__, __LINE__, #holds);       \
            exit(1);                                                          \
        }                                                                     \
    } while (0)

#define MEMORY ((size_t)64 << 20)
#define AT_ONCE 4096

static unsigned char *memory;
static size_t grown = 65536;
static long refused = -1; /* How many growths are left until all are refused. */

uintptr_t memory_start(void) {
    return (uintptr_t)memory + 8;
}

uintptr_t memory_end(void) {
    return (uintptr_t)memory + grown;
}

bool memory_grows(size_t bytes) {
    bytes = (bytes + 65535) & ~(size_t)65535;
    if (refused == 0 || grown + bytes > MEMORY) {
        return false;
    }
    refused -= refused > 0;
    grown += bytes;
    return true;
}

/* The blocks that the test has: where each is, how long, and the byte that fills it. */
static struct {
    unsigned char *at;
    size_t size;
    unsigned char filled;
} mine[AT_ONCE];
static size_t count;

static uint64_t chance = 88172645463325252u;

static uint64_t next(void) {
    chance ^= chance << 13;
    chance ^= chance >> 7;
    return chance ^= chance << 17;
}

static bool is_filled(size_t number, size_t size) {
    for (size_t byte = 0; byte < size; byte++) {
        if (mine[number].at[byte] != mine[number].filled) {
            return false;
        }
    }
    return true;
}

static bool is_listed(block *it) {
    struct class class = class_of(size_of(it));
    CHECK((has_power >> class.power & 1) != 0 && (has_step[class.power] >> class.step & 1) != 0);
    block *other = lists[class.power][class.step];
    while (other != NONE && other != it) {
        other = other->next;
    }
    return other == it;
}

static uintptr_t first_place(void) {
    return (memory_start() + GRAIN - 1) & ~(uintptr_t)(GRAIN - 1);
}

/* The row of blocks, from the first to what is left: sizes, bits, lists, and no two free ones side by side. */
static void check_row(void) {
    size_t used = 0, free_ones = 0, in_lists = 0;
    bool was_used = true;
    block *it = (block *)first_place();
    for (; it != rest; it = behind(it)) {
        bool is_used = (it->size & USED) != 0;
        CHECK(it < rest && size_of(it) >= LEAST && size_of(it) % GRAIN == 0);
        CHECK(((it->size & BEFORE_USED) != 0) == was_used && (is_used || was_used));
        CHECK(is_used || (behind(it)->before == size_of(it) && is_listed(it)));
        used += is_used;
        free_ones += !is_used;
        was_used = is_used;
    }
    CHECK(was_used && (uintptr_t)rest + sizeof(block) <= end && end == memory_end());
    for (unsigned power = 0; power < POWERS; power++) {
        CHECK((has_power >> power & 1) == (has_step[power] != 0));
        for (unsigned step = 0; step < STEPS; step++) {
            CHECK((has_step[power] >> step & 1) == (lists[power][step] != NONE));
            for (block *listed = lists[power][step]; listed != NONE; listed = listed->next) {
                in_lists++;
            }
        }
    }
    size_t all_kept = 0;
    for (size_t grains = 0; grains < SMALL; grains++) {
        size_t before = all_kept;
        for (block *it = kept[grains]; it != NONE; it = it->next) {
            CHECK(size_of(it) == grains * GRAIN && (it->size & USED) != 0);
            all_kept++;
        }
        CHECK(all_kept - before == kept_count[grains] && kept_count[grains] <= KEPT);
    }
    CHECK(count == heap_blocks() && used == count + all_kept && free_ones == in_lists);
}

static size_t any_size(void) {
    uint64_t kind = next() % 16;
    return kind < 10 ? next() % 200 : kind < 14 ? next() % 5000 : kind == 14 ? next() % 200000 : (size_t)1 << next() % 18;
}

static void fill(size_t number, void *at, size_t size) {
    CHECK((uintptr_t)at % GRAIN == 0 && (uintptr_t)at + size <= memory_end());
    mine[number].at = at;
    mine[number].size = size;
    mine[number].filled = (unsigned char)next();
    memset(at, mine[number].filled, size);
}

static void add(void) {
    size_t size = any_size();
    struct rattle_block made = rattle_alloc(size, 1 + next() % 16);
    CHECK(made.ok <= 1 && made.at != NULL);
    if (made.ok) {
        fill(count++, made.at, size);
    }
}

static void resize(void) {
    size_t number = next() % count, size = any_size(), kept = mine[number].size;
    struct rattle_block made = rattle_realloc(mine[number].at, kept, size, 8);
    if (made.ok) {
        mine[number].at = made.at;
    }
    CHECK(is_filled(number, made.ok && size < kept ? size : kept));
    if (made.ok) {
        fill(number, made.at, size);
    }
}

static void drop(void) {
    size_t number = next() % count;
    CHECK(is_filled(number, mine[number].size));
    rattle_dealloc(mine[number].at);
    mine[number] = mine[--count];
}

/* Many calls by chance, whose blocks become more and fewer in turn. */
static void many(size_t calls) {
    for (size_t call = 0; call < calls; call++) {
        uint64_t kind = next() % 8, most = call / 2000 % 2 == 0 ? 5 : 2;
        if (count == 0 || (kind < most && count < AT_ONCE)) {
            add();
        } else if (kind < 6) {
            drop();
        } else {
            resize();
        }
        if (call % 64 == 0) {
            check_row();
        }
    }
    while (count != 0) {
        drop();
        check_row();
    }
}

/* The same calls again and again need not much more memory than the first time; and once what is kept is let go, none is held. */
static void is_steady(void) {
    size_t first = 0;
    for (int turn = 0; turn < 100; turn++) {
        chance = 88172645463325252u;
        many(3000);
        first = turn == 0 ? grown : first;
        CHECK(grown < first + first / 2);
        if (turn % 2 == 0) {
            CHECK(join_kept() && !join_kept());
            check_row();
            CHECK((uintptr_t)rest == first_place());
        }
    }
}

int main(void) {
    memory = aligned_alloc(65536, MEMORY);
    CHECK(memory != NULL);
    CHECK(!rattle_alloc(MOST + 1, 8).ok && !rattle_alloc(~(size_t)0, 8).ok && !rattle_alloc(8, 32).ok);
    is_steady();
    many(200000);
    for (long left = 0; left < 40; left++) {
        refused = left;
        many(4000);
        CHECK(refused >= 0);
    }
    refused = -1;
    heap_limit(memory_end());
    size_t before = grown;
    CHECK(!rattle_alloc(MEMORY, 8).ok && grown == before);
    many(20000);
    CHECK(grown == before);
    heap_limit(~(size_t)0);
    many(20000);
    free(memory);
    printf("heap: %zu bytes at the end\n", grown);
    return 0;
}
