/* The allocator of the WebAssembly module. */
#ifndef HEAP_H
#define HEAP_H

#include <stdbool.h>
#include <stddef.h>
#include <stdint.h>

/* A block of so many bytes, at a multiple of 16; null where memory has none. */
void *heap_alloc(size_t size);
/* The block with another number of bytes, of which as many as it had are kept; null, and the block as it was, where memory has none. */
void *heap_realloc(void *at, size_t kept, size_t size);
void heap_free(void *at);

/* How many blocks there are. */
size_t heap_blocks(void);
/* Memory ends at most there from now on. */
void heap_limit(size_t bytes);

/* What the library calls; `ok` has all its bits written, as the code that LLVM makes for WebAssembly reads them. */
struct rattle_block {
    uint64_t ok;
    void *at;
};
struct rattle_block rattle_alloc(size_t size, size_t align);
struct rattle_block rattle_realloc(void *at, size_t old_size, size_t size, size_t align);
void rattle_dealloc(void *at);

/* The memory: where what may be used begins, where it ends, and whether it has grown by so many bytes. */
uintptr_t memory_start(void);
uintptr_t memory_end(void);
bool memory_grows(size_t bytes);

#endif
