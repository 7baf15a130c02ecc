/* Each call: what it answers, each status, and what is left in the handles. */
#include "check.h"

static gql_handle schema = GQL_EMPTY, query = GQL_EMPTY, data = GQL_EMPTY, reply = GQL_EMPTY;

static void schemas(void) {
    CHECK(gql_schema_new(TEXT("type Query { a: Missing }"), &schema, &reply) == GQL_REFUSED);
    CHECK(says(&reply, "{\"errors\":[{\"message\":\"cannot find type `Missing` in this document\",\"locations\":[{\"line\":1,\"column\":17}]}]}"));
    CHECK(is_empty(&schema));
    CHECK(gql_schema_new(NOTHING, &schema, &reply) == GQL_REFUSED);
    CHECK(says(&reply, "{\"errors\":[{\"message\":\"syntax error: Unexpected <EOF>.\",\"locations\":[{\"line\":1,\"column\":1}]}]}"));
    CHECK(gql_schema_new((const uint8_t *)"\xff", 1, &schema, &reply) == GQL_UNREAD);
    CHECK(is_empty(&schema) && is_empty(&reply));
    CHECK(gql_schema_new(TEXT(BOOKS), &schema, &reply) == GQL_ANSWERED);
    CHECK(!is_empty(&schema) && is_empty(&reply));
}

static void queries(void) {
    CHECK(gql_query_new(&schema, TEXT("{ nope }"), &query, &reply) == GQL_REFUSED);
    CHECK(says(&reply, "{\"errors\":[{\"message\":\"type `Query` does not have a field `nope`\",\"locations\":[{\"line\":1,\"column\":3}]}]}"));
    CHECK(is_empty(&query) && !is_empty(&schema));
    CHECK(gql_query_new(&schema, (const uint8_t *)"{ \xc3", 3, &query, &reply) == GQL_UNREAD);
    CHECK(is_empty(&query) && is_empty(&reply));
    gql_handle none = GQL_EMPTY;
    CHECK(gql_query_new(&none, TEXT(BOOK_QUERY), &query, &reply) == GQL_WRONG_HANDLE);
    CHECK(is_empty(&query) && is_empty(&reply) && is_empty(&none));
    CHECK(gql_query_new(&schema, TEXT(BOOK_QUERY), &query, &reply) == GQL_ANSWERED);
    CHECK(!is_empty(&query) && is_empty(&reply));
    CHECK(gql_query_new(&query, TEXT(BOOK_QUERY), &none, &reply) == GQL_WRONG_HANDLE);
    CHECK(!is_empty(&query) && is_empty(&none));
}

static void plain_data(void) {
    CHECK(gql_data_new(TEXT("{"), &data) == GQL_UNREAD && is_empty(&data));
    CHECK(gql_data_new(TEXT("[]"), &data) == GQL_UNREAD && is_empty(&data));
    CHECK(gql_data_new(TEXT("{\"x\":1.5}"), &data) == GQL_UNREAD && is_empty(&data));
    CHECK(gql_data_new((const uint8_t *)"{\"\xff\":1}", 7, &data) == GQL_UNREAD && is_empty(&data));
    CHECK(gql_data_new(NOTHING, &data) == GQL_UNREAD && is_empty(&data));
    CHECK(gql_data_new(TEXT(BOOK_DATA), &data) == GQL_ANSWERED && !is_empty(&data));
}

static void requests(void) {
    CHECK(gql_execute(&query, &data, NOTHING, TEXT(BOOK_TITLE), 0, &reply) == GQL_ANSWERED);
    CHECK(says(&reply, BOOK_ANSWER));
    CHECK(gql_execute(&query, &data, NOTHING, NOTHING, 0, &reply) == GQL_REFUSED);
    CHECK(says(&reply, "{\"errors\":[{\"message\":\"missing value for non-null variable 'title'\",\"locations\":[{\"line\":1,\"column\":8}]}]}"));
    CHECK(gql_execute(&query, &data, NOTHING, TEXT("[]"), 0, &reply) == GQL_REFUSED);
    CHECK(says(&reply, "{\"errors\":[{\"message\":\"variables: not an object\"}]}"));
    CHECK(gql_execute(&query, &data, NOTHING, TEXT("{"), 0, &reply) == GQL_REFUSED);
    CHECK(says(&reply, "{\"errors\":[{\"message\":\"variables: syntax at byte 1\"}]}"));
    CHECK(gql_execute(&query, &data, TEXT("Q"), TEXT(BOOK_TITLE), GQL_NAMED, &reply) == GQL_REFUSED);
    CHECK(says(&reply, "{\"errors\":[{\"message\":\"operation `Q` is not defined\"}]}"));
    CHECK(gql_execute(&query, &data, TEXT("Q"), TEXT(BOOK_TITLE), 0, &reply) == GQL_ANSWERED);
    CHECK(gql_execute(&query, &data, (const uint8_t *)"\xff", 1, TEXT(BOOK_TITLE), GQL_NAMED, &reply) == GQL_UNREAD);
    CHECK(is_empty(&reply));
    gql_handle none = GQL_EMPTY;
    CHECK(gql_execute(&none, &data, NOTHING, NOTHING, 0, &reply) == GQL_WRONG_HANDLE && is_empty(&reply));
    CHECK(gql_execute(&query, &none, NOTHING, NOTHING, 0, &reply) == GQL_WRONG_HANDLE && is_empty(&reply));
    CHECK(gql_execute(&data, &query, NOTHING, NOTHING, 0, &reply) == GQL_WRONG_HANDLE && is_empty(&reply));
    CHECK(gql_execute(&schema, &data, NOTHING, NOTHING, 0, &reply) == GQL_WRONG_HANDLE && is_empty(&reply));
}

/* Introspection is a failure of its field unless it is asked for. */
static void introspection(void) {
    gql_handle asks = GQL_EMPTY;
    CHECK(gql_query_new(&schema, TEXT("{ __type(name: \"Book\") { name } }"), &asks, &reply) == GQL_ANSWERED);
    CHECK(gql_execute(&asks, &data, NOTHING, NOTHING, GQL_INTROSPECTION, &reply) == GQL_ANSWERED);
    CHECK(says(&reply, "{\"data\":{\"__type\":{\"name\":\"Book\"}}}"));
    CHECK(gql_execute(&asks, &data, NOTHING, NOTHING, 0, &reply) == GQL_ANSWERED);
    CHECK(says(&reply, "{\"errors\":[{\"message\":\"resolver error: schema introspection is disabled\",\"locations\":[{\"line\":1,\"column\":3}],\"path\":[\"__type\"]}],\"data\":{\"__type\":null}}"));
    gql_free(&asks);
}

static void kinds(void) {
    uint32_t kind = 7;
    gql_handle both = GQL_EMPTY, none = GQL_EMPTY;
    CHECK(gql_query_new(&schema, TEXT("query Q { books { title } } mutation M { add(title: \"x\") { title } }"), &both, &reply) == GQL_ANSWERED);
    CHECK(gql_operation_kind(&query, NOTHING, 0, &kind) == GQL_ANSWERED && kind == GQL_QUERY);
    CHECK(gql_operation_kind(&both, TEXT("M"), GQL_NAMED, &kind) == GQL_ANSWERED && kind == GQL_MUTATION);
    CHECK(gql_operation_kind(&both, TEXT("Q"), GQL_NAMED, &kind) == GQL_ANSWERED && kind == GQL_QUERY);
    CHECK(gql_operation_kind(&both, NOTHING, 0, &kind) == GQL_REFUSED && kind == GQL_NO_OPERATION);
    CHECK(gql_operation_kind(&both, TEXT("X"), GQL_NAMED, &kind) == GQL_REFUSED && kind == GQL_NO_OPERATION);
    CHECK(gql_operation_kind(&both, (const uint8_t *)"\xff", 1, GQL_NAMED, &kind) == GQL_UNREAD && kind == GQL_NO_OPERATION);
    CHECK(gql_operation_kind(&none, NOTHING, 0, &kind) == GQL_WRONG_HANDLE && kind == GQL_NO_OPERATION);
    gql_free(&both);
}

/* 1 for the data, and for each list itself and its items: the lists of books have as many as the limit says. */
static void costs(void) {
    uint32_t cost = 7;
    gql_handle both = GQL_EMPTY, none = GQL_EMPTY;
    gql_limit ten = {10, 22}, less = {10, 21}, most = {UINT32_MAX, UINT32_MAX};
    CHECK(gql_query_new(&schema, TEXT("query Q { books { title } } mutation M { add(title: \"x\") { title } }"), &both, &reply) == GQL_ANSWERED);
    CHECK(gql_operation_cost(&both, TEXT("Q"), GQL_NAMED, &ten, &cost, &reply) == GQL_ANSWERED && cost == 22 && is_empty(&reply));
    CHECK(gql_operation_cost(&both, TEXT("M"), GQL_NAMED, &ten, &cost, &reply) == GQL_ANSWERED && cost == 3 && is_empty(&reply));
    CHECK(gql_operation_cost(&query, NOTHING, 0, &most, &cost, &reply) == GQL_ANSWERED && cost == 4 && is_empty(&reply));
    CHECK(gql_operation_cost(&both, TEXT("Q"), GQL_NAMED, &less, &cost, &reply) == GQL_TOO_COSTLY && cost == 0);
    CHECK(says(&reply, "{\"errors\":[{\"message\":\"cost above limit\"}]}"));
    CHECK(gql_operation_cost(&both, TEXT("Q"), GQL_NAMED, &most, &cost, &reply) == GQL_TOO_COSTLY && cost == 0 && !is_empty(&reply));
    CHECK(gql_operation_cost(&both, NOTHING, 0, &ten, &cost, &reply) == GQL_REFUSED && cost == 0);
    CHECK(says(&reply, "{\"errors\":[{\"message\":\"document has 2 operations and no name was given\"}]}"));
    CHECK(gql_operation_cost(&both, TEXT("X"), GQL_NAMED, &ten, &cost, &reply) == GQL_REFUSED && cost == 0);
    CHECK(says(&reply, "{\"errors\":[{\"message\":\"operation `X` is not defined\"}]}"));
    CHECK(gql_operation_cost(&both, (const uint8_t *)"\xff", 1, GQL_NAMED, &ten, &cost, &reply) == GQL_UNREAD && cost == 0 && is_empty(&reply));
    CHECK(gql_operation_cost(&none, NOTHING, 0, &ten, &cost, &reply) == GQL_WRONG_HANDLE && cost == 0 && is_empty(&reply));
    CHECK(gql_operation_cost(&schema, NOTHING, 0, &ten, &cost, &reply) == GQL_WRONG_HANDLE && !is_empty(&schema));
    gql_free(&both);
}

static void checks(void) {
    CHECK(gql_check(TEXT(BOOKS), TEXT(BOOK_QUERY), &reply) == GQL_ANSWERED && !is_empty(&reply) && gql_reply_length(&reply) == 0);
    CHECK(gql_check(TEXT("type Query { a: Missing }"), TEXT("{ a }"), &reply) == GQL_REFUSED);
    CHECK(says(&reply, "Error: cannot find type `Missing` in this document\nschema.graphql:1:17: here\n"));
    CHECK(gql_check(TEXT(BOOKS), TEXT("{ nope }"), &reply) == GQL_REFUSED);
    CHECK(gql_check((const uint8_t *)"\xff", 1, TEXT("{ a }"), &reply) == GQL_UNREAD && is_empty(&reply));
    CHECK(gql_check(TEXT(BOOKS), (const uint8_t *)"\xff", 1, &reply) == GQL_UNREAD && is_empty(&reply));
}

static void replies(void) {
    CHECK(gql_execute(&query, &data, NOTHING, TEXT(BOOK_TITLE), 0, &reply) == GQL_ANSWERED);
    uint8_t small[4] = "abcd";
    CHECK(gql_reply_copy(&reply, small, 4) == strlen(BOOK_ANSWER) && memcmp(small, "abcd", 4) == 0);
    CHECK(says(&reply, BOOK_ANSWER) && says(&reply, BOOK_ANSWER));
    gql_handle none = GQL_EMPTY;
    CHECK(gql_reply_length(&none) == 0 && gql_reply_length(&query) == 0);
    CHECK(gql_reply_copy(&query, small, 4) == 0 && !is_empty(&query));
    CHECK(gql_share(&reply, &none) == GQL_WRONG_HANDLE && is_empty(&none));
}

/* A query keeps its schema, shares live on their own, and a handle that is written to lets go of what it held. */
static void lives(void) {
    gql_handle shared[3] = {GQL_EMPTY, GQL_EMPTY, GQL_EMPTY};
    CHECK(gql_share(&schema, &shared[0]) == GQL_ANSWERED);
    CHECK(gql_share(&query, &shared[1]) == GQL_ANSWERED);
    CHECK(gql_share(&data, &shared[2]) == GQL_ANSWERED);
    gql_free(&schema);
    gql_free(&query);
    gql_free(&data);
    CHECK(gql_execute(&shared[1], &shared[2], NOTHING, TEXT(BOOK_TITLE), 0, &reply) == GQL_ANSWERED && says(&reply, BOOK_ANSWER));
    CHECK(gql_query_new(&shared[0], TEXT(BOOK_QUERY), &query, &reply) == GQL_ANSWERED);
    gql_free(&shared[0]);
    CHECK(gql_execute(&query, &shared[2], NOTHING, TEXT(BOOK_TITLE), 0, &reply) == GQL_ANSWERED && says(&reply, BOOK_ANSWER));
    for (int turn = 0; turn < 100; turn++) {
        CHECK(gql_schema_new(TEXT("type Query { a: Int }"), &schema, &reply) == GQL_ANSWERED);
        CHECK(gql_query_new(&schema, TEXT("{ a }"), &query, &reply) == GQL_ANSWERED);
        CHECK(gql_data_new(TEXT("{\"a\":7}"), &data) == GQL_ANSWERED);
        CHECK(gql_execute(&query, &data, NOTHING, NOTHING, 0, &reply) == GQL_ANSWERED && says(&reply, "{\"data\":{\"a\":7}}"));
    }
    gql_free(&shared[0]);
    gql_free(&shared[1]);
    gql_free(&shared[2]);
}

int main(void) {
    CHECK(gql_version() != 0);
    schemas();
    queries();
    plain_data();
    requests();
    introspection();
    kinds();
    costs();
    checks();
    replies();
    lives();
    gql_free(&schema);
    gql_free(&query);
    gql_free(&data);
    gql_free(&reply);
    gql_free(&reply);
    puts("calls: ok");
    return 0;
}
