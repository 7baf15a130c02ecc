/* The calls of gql.h as JavaScript makes them: places and lengths are numbers of 32 bits, so that no call needs a BigInt. And what
 * JavaScript needs of the allocator. */
#include "../c/gql.h"
#include "heap.h"

static void *at(uint32_t place) {
    return (void *)(uintptr_t)place;
}

uint32_t js_schema_new(uint32_t text, uint32_t length, uint32_t schema, uint32_t reply) {
    return gql_schema_new(at(text), length, at(schema), at(reply));
}

uint32_t js_query_new(uint32_t schema, uint32_t text, uint32_t length, uint32_t query, uint32_t reply) {
    return gql_query_new(at(schema), at(text), length, at(query), at(reply));
}

uint32_t js_data_new(uint32_t text, uint32_t length, uint32_t data) {
    return gql_data_new(at(text), length, at(data));
}

uint32_t js_execute(uint32_t query, uint32_t data, uint32_t name, uint32_t name_length, uint32_t variables, uint32_t variables_length,
                          uint32_t flags, uint32_t reply) {
    return gql_execute(at(query), at(data), at(name), name_length, at(variables), variables_length, flags, at(reply));
}

uint32_t js_step(uint32_t query, uint32_t answers, uint32_t name, uint32_t name_length, uint32_t variables, uint32_t variables_length,
                       uint32_t flags, uint32_t reply) {
    return gql_step(at(query), at(answers), at(name), name_length, at(variables), variables_length, flags, at(reply));
}

uint32_t js_answers_add(uint32_t answers, uint32_t text, uint32_t length) {
    return gql_answers_add(at(answers), at(text), length);
}

uint32_t js_operation_kind(uint32_t query, uint32_t name, uint32_t name_length, uint32_t flags, uint32_t kind) {
    return gql_operation_kind(at(query), at(name), name_length, flags, at(kind));
}

uint32_t js_operation_cost(uint32_t query, uint32_t name, uint32_t name_length, uint32_t flags, uint32_t items, uint32_t nodes,
                                 uint32_t cost, uint32_t reply) {
    gql_limit limit = {items, nodes};
    return gql_operation_cost(at(query), at(name), name_length, flags, &limit, at(cost), at(reply));
}

uint32_t js_check(uint32_t schema, uint32_t schema_length, uint32_t query, uint32_t query_length, uint32_t reply) {
    return gql_check(at(schema), schema_length, at(query), query_length, at(reply));
}

uint32_t js_share(uint32_t from, uint32_t to) {
    return gql_share(at(from), at(to));
}

void js_free(uint32_t handle) {
    gql_free(at(handle));
}

uint32_t js_reply_length(uint32_t reply) {
    return (uint32_t)gql_reply_length(at(reply));
}

uint32_t js_reply_copy(uint32_t reply, uint32_t into, uint32_t length) {
    return (uint32_t)gql_reply_copy(at(reply), at(into), length);
}

uint32_t js_version(void) {
    return gql_version();
}

/* 0 where memory has no such block. */
uint32_t js_alloc(uint32_t size) {
    return (uint32_t)(uintptr_t)heap_alloc(size);
}

void js_dealloc(uint32_t place) {
    heap_free(at(place));
}

uint32_t js_blocks(void) {
    return (uint32_t)heap_blocks();
}

void js_limit(uint32_t bytes) {
    heap_limit(bytes);
}
