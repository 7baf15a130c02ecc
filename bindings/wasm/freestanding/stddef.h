/* What gql.h takes of this header, where there is no C library. */
typedef __SIZE_TYPE__ size_t;
#define NULL ((void *)0)
