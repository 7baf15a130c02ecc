/* The module's allocator as what the linker puts in the place of `malloc`, `realloc` and `free` in the tests of the C library, over a memory
 * of its own. */
#define rattle_block module_block
#define rattle_alloc module_alloc
#define rattle_realloc module_realloc
#define rattle_dealloc module_dealloc
#include "../heap.c"

#define MEMORY ((size_t)256 << 20)

static _Alignas(65536) unsigned char memory[MEMORY];
static size_t grown;

uintptr_t memory_start(void) {
    return (uintptr_t)memory;
}

uintptr_t memory_end(void) {
    return (uintptr_t)memory + grown;
}

bool memory_grows(size_t bytes) {
    if (bytes > MEMORY - grown) {
        return false;
    }
    grown += bytes;
    return true;
}

void *__wrap_malloc(size_t size) {
    return heap_alloc(size);
}

void *__wrap_realloc(void *at, size_t size) {
    return at == NULL ? heap_alloc(size) : heap_realloc(at, size_of(block_of(at)) - sizeof(size_t), size);
}

void __wrap_free(void *at) {
    heap_free(at);
}
