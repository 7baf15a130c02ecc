/* A schema and a query that are kept are as before, whatever call is refused memory. Of three requests the second is refused each of its
 * allocations in turn, alone and with all after it: it tells NO_MEMORY or what it tells otherwise, no block more is held than before, and
 * the third answers as the first did. So it is for each call that uses what is kept. */
#include "check.h"
#include "refusing.h"

#define OTHER_TITLE "{\"title\":\"Persuasion\"}"
#define TYPE_QUERY "query ($title: String!) { book(title: $title) { title } __type(name: \"Book\") { fields { name type { kind } } } }"

static gql_handle schema, query, type_query, data, answers, few, reply, made;

/* A call that is refused memory, and what it tells where it is not. */
struct call {
    const char *name;
    uint32_t (*run)(void);
    uint32_t usual;
    const char *reply;
};

static uint32_t execute(void) {
    return gql_execute(&query, &data, NOTHING, TEXT(OTHER_TITLE), 0, &reply);
}

static uint32_t introspect(void) {
    return gql_execute(&type_query, &data, NOTHING, TEXT(BOOK_TITLE), GQL_INTROSPECTION, &reply);
}

static uint32_t execute_without_title(void) {
    return gql_execute(&query, &data, NOTHING, TEXT("{\"title\":null}"), 0, &reply);
}

static uint32_t execute_unknown(void) {
    return gql_execute(&query, &data, TEXT("X"), TEXT(BOOK_TITLE), GQL_NAMED, &reply);
}

static uint32_t make_query(void) {
    return gql_query_new(&schema, TEXT(BOOK_QUERY), &made, &reply);
}

static uint32_t make_wrong_query(void) {
    return gql_query_new(&schema, TEXT("{ nope }"), &made, &reply);
}

static uint32_t share(void) {
    return gql_share(&schema, &made);
}

static uint32_t tell_kind(void) {
    uint32_t kind = 7;
    uint32_t status = gql_operation_kind(&query, TEXT("X"), GQL_NAMED, &kind);
    CHECK(kind == GQL_NO_OPERATION);
    return status;
}

static uint32_t step(void) {
    return gql_step(&query, &answers, NOTHING, TEXT(BOOK_TITLE), 0, &reply);
}

static uint32_t step_with_few(void) {
    return gql_step(&query, &few, NOTHING, TEXT(BOOK_TITLE), 0, &reply);
}

static uint32_t step_without_title(void) {
    return gql_step(&query, &answers, NOTHING, TEXT("{\"title\":null}"), 0, &reply);
}

static uint32_t add_answers(void) {
    return gql_answers_add(&made, TEXT(BOOK_TOLD));
}

static uint32_t add_again(void) {
    return gql_answers_add(&answers, TEXT(BOOK_TOLD));
}

static uint32_t add_wrong(void) {
    return gql_answers_add(&answers, TEXT("[" BOOK_FIRST ",1]"));
}

static const struct call calls[] = {
    { "execute", execute, GQL_ANSWERED, BOOK_ANSWER },
    { "introspect", introspect, GQL_ANSWERED,
      "{\"data\":{\"book\":{\"title\":\"Emma\"},\"__type\":{\"fields\":[{\"name\":\"title\",\"type\":{\"kind\":\"NON_NULL\"}},"
      "{\"name\":\"year\",\"type\":{\"kind\":\"SCALAR\"}}]}}}" },
    { "execute without a title", execute_without_title, GQL_REFUSED,
      "{\"errors\":[{\"message\":\"null value for variable title of non-null type String!\"}]}" },
    { "execute an unknown operation", execute_unknown, GQL_REFUSED, "{\"errors\":[{\"message\":\"operation `X` is not defined\"}]}" },
    { "make a query", make_query, GQL_ANSWERED, NULL },
    { "make a wrong query", make_wrong_query, GQL_REFUSED,
      "{\"errors\":[{\"message\":\"type `Query` does not have a field `nope`\",\"locations\":[{\"line\":1,\"column\":3}]}]}" },
    { "share", share, GQL_ANSWERED, NULL },
    { "tell a kind", tell_kind, GQL_REFUSED, NULL },
    { "step", step, GQL_ANSWERED, BOOK_ANSWER },
    { "step with few answers", step_with_few, GQL_ASKS,
      "[{\"object\":1,\"type\":\"Book\",\"field\":\"title\",\"arguments\":{}},{\"object\":1,\"type\":\"Book\",\"field\":\"year\",\"arguments\":{}}]" },
    { "step without a title", step_without_title, GQL_REFUSED,
      "{\"errors\":[{\"message\":\"null value for variable title of non-null type String!\"}]}" },
    { "add answers", add_answers, GQL_ANSWERED, NULL },
    { "add answers again", add_again, GQL_ANSWERED, NULL },
    { "add no answers", add_wrong, GQL_UNREAD, NULL },
};

/* The first request, and the third. */
static void answer_as_ever(void) {
    CHECK(gql_execute(&query, &data, NOTHING, TEXT(BOOK_TITLE), 0, &reply) == GQL_ANSWERED);
    CHECK(says(&reply, BOOK_ANSWER));
    CHECK(step() == GQL_ANSWERED && says(&reply, BOOK_ANSWER));
    gql_free(&reply);
}

/* Whether a call told want of memory and made nothing, or told and replied what it does otherwise. */
static bool is_right(const struct call *call, uint32_t status) {
    if (is_hit && status == GQL_NO_MEMORY) {
        return is_empty(&reply) && is_empty(&made);
    }
    return status == call->usual && (call->reply == NULL ? is_empty(&reply) : says(&reply, call->reply));
}

/* How many allocations of a call were refused, until it took fewer. */
static long refuse_each(const struct call *call) {
    long point = 0;
    do {
        answer_as_ever();
        long before = live;
        is_hit = false;
        left = ++point;
        uint32_t status = call->run();
        left = -1;
        if (!is_right(call, status)) {
            printf("%s: status %u where allocation %ld is refused\n", call->name, status, point);
            exit(1);
        }
        gql_free(&reply);
        gql_free(&made);
        if (live != before) {
            printf("%s: %ld blocks were held and %ld are, where allocation %ld is refused\n", call->name, before, live, point);
            exit(1);
        }
        answer_as_ever();
    } while (is_hit);
    return point - 1;
}

int main(void) {
    long refused[2] = { 0, 0 };
    CHECK(gql_schema_new(TEXT(BOOKS), &schema, &reply) == GQL_ANSWERED);
    CHECK(gql_query_new(&schema, TEXT(BOOK_QUERY), &query, &reply) == GQL_ANSWERED);
    CHECK(gql_query_new(&schema, TEXT(TYPE_QUERY), &type_query, &reply) == GQL_ANSWERED);
    CHECK(gql_data_new(TEXT(BOOK_DATA), &data) == GQL_ANSWERED);
    CHECK(gql_answers_add(&answers, TEXT(BOOK_TOLD)) == GQL_ANSWERED);
    CHECK(gql_answers_add(&few, TEXT("[" BOOK_FIRST "]")) == GQL_ANSWERED);
    for (int with_rest = 0; with_rest < 2; with_rest++) {
        all_after = with_rest == 1;
        for (size_t at = 0; at < sizeof calls / sizeof calls[0]; at++) {
            refused[with_rest] += refuse_each(&calls[at]);
        }
    }
    gql_free(&schema);
    gql_free(&query);
    gql_free(&type_query);
    gql_free(&data);
    gql_free(&answers);
    gql_free(&few);
    CHECK(live == 0 && refused[0] > 100 && refused[1] > 100);
    printf("refused_service: ok, %ld allocations refused alone, %ld with all after them\n", refused[0], refused[1]);
    return 0;
}
