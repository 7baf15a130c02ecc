/* The memory that the allocator has: what lies behind the stack and the constants. */
#include "heap.h"

#define PAGE ((size_t)65536)
#define PAGES ((size_t)65535) /* The most pages of a memory of 32 bits, less one, so that no place is past its end. */

extern unsigned char __heap_base;

uintptr_t memory_start(void) {
    return (uintptr_t)&__heap_base;
}

uintptr_t memory_end(void) {
    return __builtin_wasm_memory_size(0) * PAGE;
}

/* A failure is -1, and 2^32 - 1 once the module has a memory of 32 bits. */
bool memory_grows(size_t bytes) {
    size_t pages = (bytes + PAGE - 1) / PAGE;
    return pages <= PAGES - __builtin_wasm_memory_size(0) && __builtin_wasm_memory_grow(0, pages) < 0xffffffff;
}
