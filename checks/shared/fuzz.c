/* A request for the fuzzer: four texts with a byte 255 between them, which is in no UTF-8: schema, query, variables, data. What the calls
 * tell must be what the header says, twice the same, and leave what they only use. */
#include "../../bindings/c/gql.h"
#include <stdbool.h>
#include <stdio.h>
#include <stdlib.h>
#include <string.h>

#define CHECK(holds)                                            \
    do {                                                        \
        if (!(holds)) {                                         \
            fprintf(stderr, "fuzz.c:%d: %s\n", __LINE__, #holds); \
            abort();                                            \
        }                                                       \
    } while (0)

struct text {
    const uint8_t *at;
    size_t length;
};

/* The text up to the next byte 255, which is passed over. */
static struct text next(const uint8_t **at, size_t *left) {
    const uint8_t *end = *left != 0 ? memchr(*at, 255, *left) : NULL;
    struct text found = { *at, end != NULL ? (size_t)(end - *at) : *left };
    *at += end != NULL ? found.length + 1 : found.length;
    *left -= end != NULL ? found.length + 1 : found.length;
    return found;
}

/* The bytes of a reply, which are a JSON object. */
static uint8_t *reply_of(gql_handle *reply, size_t *length) {
    *length = gql_reply_length(reply);
    CHECK(*length >= 2);
    uint8_t *bytes = malloc(*length);
    CHECK(bytes != NULL && gql_reply_copy(reply, bytes, *length) == *length);
    CHECK(bytes[0] == '{' && bytes[*length - 1] == '}');
    return bytes;
}

/* Executes twice, and looks whether both tell the same. */
static void execute(gql_handle *query, gql_handle *data, struct text variables, uint32_t flags) {
    gql_handle replies[2] = { GQL_EMPTY, GQL_EMPTY };
    uint32_t statuses[2];
    uint8_t *bytes[2];
    size_t lengths[2];
    for (int turn = 0; turn < 2; turn++) {
        statuses[turn] = gql_execute(query, data, NULL, 0, variables.at, variables.length, flags, &replies[turn]);
        CHECK(statuses[turn] == GQL_ANSWERED || statuses[turn] == GQL_REFUSED);
        bytes[turn] = reply_of(&replies[turn], &lengths[turn]);
        gql_free(&replies[turn]);
    }
    CHECK(statuses[0] == statuses[1] && lengths[0] == lengths[1] && memcmp(bytes[0], bytes[1], lengths[0]) == 0);
    CHECK(statuses[0] != GQL_REFUSED || memcmp(bytes[0], "{\"errors\":[", 11) == 0);
    free(bytes[0]);
    free(bytes[1]);
}

/* A query against a schema, and its executions. */
static void ask(gql_handle *schema, struct text query_text, struct text variables, struct text data_text) {
    gql_handle query = GQL_EMPTY, data = GQL_EMPTY, reply = GQL_EMPTY;
    uint32_t status = gql_query_new(schema, query_text.at, query_text.length, &query, &reply), kind = 0;
    CHECK(status == GQL_ANSWERED || status == GQL_REFUSED || status == GQL_UNREAD);
    CHECK((status == GQL_ANSWERED) == (query.held != NULL) && (status == GQL_REFUSED) == (reply.held != NULL));
    if (gql_data_new(data_text.at, data_text.length, &data) != GQL_ANSWERED) {
        CHECK(gql_data_new((const uint8_t *)"{}", 2, &data) == GQL_ANSWERED);
    }
    if (status == GQL_ANSWERED) {
        execute(&query, &data, variables, 0);
        execute(&query, &data, variables, GQL_INTROSPECTION);
        status = gql_operation_kind(&query, NULL, 0, 0, &kind);
        CHECK((status == GQL_ANSWERED) == (kind != GQL_NO_OPERATION) && kind <= GQL_SUBSCRIPTION);
    }
    gql_free(&query);
    gql_free(&data);
    gql_free(&reply);
}

int LLVMFuzzerTestOneInput(const uint8_t *at, size_t left) {
    struct text schema_text = next(&at, &left), query = next(&at, &left), variables = next(&at, &left), data = next(&at, &left);
    gql_handle schema = GQL_EMPTY, reply = GQL_EMPTY;
    uint32_t status = gql_schema_new(schema_text.at, schema_text.length, &schema, &reply);
    CHECK(status == GQL_ANSWERED || status == GQL_REFUSED || status == GQL_UNREAD);
    CHECK((status == GQL_ANSWERED) == (schema.held != NULL) && (status == GQL_REFUSED) == (reply.held != NULL));
    gql_free(&reply);
    uint32_t checked = gql_check(schema_text.at, schema_text.length, query.at, query.length, &reply);
    CHECK(checked == GQL_ANSWERED || checked == GQL_REFUSED || checked == GQL_UNREAD);
    CHECK(checked != GQL_ANSWERED || status == GQL_ANSWERED);
    gql_free(&reply);
    if (status == GQL_ANSWERED) {
        ask(&schema, query, variables, data);
    }
    gql_free(&schema);
    return 0;
}
