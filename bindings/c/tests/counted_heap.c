/* heap.c over the functions of refusing.h. */
#include <stdlib.h>

void *counted_malloc(size_t size);
void *counted_realloc(void *at, size_t size);
void counted_free(void *at);

#define malloc counted_malloc
#define realloc counted_realloc
#define free counted_free
#include "../heap.c"
