/* What heap.h takes of this header, where there is no C library. */
#define bool _Bool
#define true 1
#define false 0
