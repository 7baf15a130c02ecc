/* Requests by steps: what each asks, what it answers once all is told, each status, and what is left in the handles. */
#include "check.h"

#define LIBRARY "type Query { book(title: String!): Book books: [Book!]! } type Book { title: String! year: Int author: Author } type Author { name: String }"
#define AUTHORS "query Q($title: String!) { book(title: $title) { title author { name } } books { year author { name } } }"
#define FIRST_ASKS "[{\"object\":0,\"type\":\"Query\",\"field\":\"book\",\"arguments\":{\"title\":\"Emma\"}}," \
    "{\"object\":0,\"type\":\"Query\",\"field\":\"books\",\"arguments\":{}}]"
#define FIRST_TOLD "[{\"object\":0,\"field\":\"book\",\"arguments\":{\"title\":\"Emma\"},\"value\":{\"object\":7,\"type\":\"Book\"}}," \
    "{\"object\":0,\"field\":\"books\",\"value\":[{\"object\":7,\"type\":\"Book\"},{\"object\":8,\"type\":\"Book\"}]}]"
#define SECOND_ASKS "[{\"object\":7,\"type\":\"Book\",\"field\":\"title\",\"arguments\":{}},{\"object\":7,\"type\":\"Book\",\"field\":\"author\",\"arguments\":{}}," \
    "{\"object\":7,\"type\":\"Book\",\"field\":\"year\",\"arguments\":{}},{\"object\":8,\"type\":\"Book\",\"field\":\"year\",\"arguments\":{}}," \
    "{\"object\":8,\"type\":\"Book\",\"field\":\"author\",\"arguments\":{}}]"
#define SECOND_TOLD "[{\"object\":7,\"field\":\"title\",\"value\":\"Emma\"},{\"object\":7,\"field\":\"year\",\"value\":1815}," \
    "{\"object\":7,\"field\":\"author\",\"value\":{\"object\":9,\"type\":\"Author\"}},{\"object\":8,\"field\":\"year\",\"value\":{\"__error\":\"gone\"}}," \
    "{\"object\":8,\"field\":\"author\",\"value\":{\"object\":9,\"type\":\"Author\"}}]"
#define THIRD_ASKS "[{\"object\":9,\"type\":\"Author\",\"field\":\"name\",\"arguments\":{}}]"
#define THIRD_TOLD "[{\"object\":9,\"field\":\"name\",\"value\":\"Jane Austen\"}]"
#define ANSWER "{\"errors\":[{\"message\":\"resolver error: gone\",\"locations\":[{\"line\":1,\"column\":82}],\"path\":[\"books\",1,\"year\"]}]," \
    "\"data\":{\"book\":{\"title\":\"Emma\",\"author\":{\"name\":\"Jane Austen\"}}," \
    "\"books\":[{\"year\":1815,\"author\":{\"name\":\"Jane Austen\"}},{\"year\":null,\"author\":{\"name\":\"Jane Austen\"}}]}}"

static gql_handle schema = GQL_EMPTY, query = GQL_EMPTY, answers = GQL_EMPTY, reply = GQL_EMPTY;

/* A step with the title that the tests ask for. */
static uint32_t step(void) {
    return gql_step(&query, &answers, NOTHING, TEXT(BOOK_TITLE), 0, &reply);
}

/* All that is asked is told together, and the same step asks the same until it is told. */
static void rounds(void) {
    CHECK(step() == GQL_ASKS && says(&reply, FIRST_ASKS) && is_empty(&answers));
    CHECK(step() == GQL_ASKS && says(&reply, FIRST_ASKS));
    CHECK(gql_answers_add(&answers, TEXT(FIRST_TOLD)) == GQL_ANSWERED && !is_empty(&answers));
    CHECK(step() == GQL_ASKS && says(&reply, SECOND_ASKS));
    CHECK(gql_answers_add(&answers, TEXT(SECOND_TOLD)) == GQL_ANSWERED);
    CHECK(step() == GQL_ASKS && says(&reply, THIRD_ASKS));
    CHECK(gql_answers_add(&answers, TEXT(THIRD_TOLD)) == GQL_ANSWERED);
    CHECK(step() == GQL_ANSWERED && says(&reply, ANSWER));
    CHECK(step() == GQL_ANSWERED && says(&reply, ANSWER));
    CHECK(gql_step(&query, &answers, TEXT("Q"), TEXT(BOOK_TITLE), GQL_NAMED, &reply) == GQL_ANSWERED && says(&reply, ANSWER));
}

/* Texts that tell no answers leave the handle as it was, and so do answers that were told before. */
static void answers_told(void) {
    static const char *const wrong[] = { "", "{", "{}", "[1]", "[{\"object\":9,\"field\":\"name\"}]", "[{\"object\":-1,\"field\":\"name\",\"value\":1}]",
        "[{\"object\":9,\"field\":\"name\",\"arguments\":[],\"value\":1}]", "[{\"object\":9,\"field\":\"name\",\"value\":1.5}]" };
    gql_handle none = GQL_EMPTY;
    for (size_t at = 0; at < sizeof wrong / sizeof wrong[0]; at++) {
        CHECK(gql_answers_add(&answers, TEXT(wrong[at])) == GQL_UNREAD);
        CHECK(gql_answers_add(&none, TEXT(wrong[at])) == GQL_UNREAD && is_empty(&none));
    }
    CHECK(gql_answers_add(&answers, (const uint8_t *)"[\"\xff\"]", 5) == GQL_UNREAD);
    CHECK(gql_answers_add(&answers, NOTHING) == GQL_UNREAD);
    CHECK(gql_answers_add(&answers, TEXT("[{\"object\":9,\"field\":\"name\",\"value\":\"No one\"}]")) == GQL_ANSWERED);
    CHECK(step() == GQL_ANSWERED && says(&reply, ANSWER));
    CHECK(gql_answers_add(&none, TEXT("[]")) == GQL_ANSWERED && !is_empty(&none));
    CHECK(gql_step(&query, &none, NOTHING, TEXT(BOOK_TITLE), 0, &reply) == GQL_ASKS && says(&reply, FIRST_ASKS));
    gql_free(&none);
}

/* A request that is refused is refused at its first step, and a handle of another kind is told and left. */
static void refusals(void) {
    gql_handle none = GQL_EMPTY, data = GQL_EMPTY;
    CHECK(gql_step(&query, &none, NOTHING, NOTHING, 0, &reply) == GQL_REFUSED);
    CHECK(says(&reply, "{\"errors\":[{\"message\":\"missing value for non-null variable 'title'\",\"locations\":[{\"line\":1,\"column\":9}]}]}"));
    CHECK(gql_step(&query, &answers, NOTHING, TEXT("[]"), 0, &reply) == GQL_REFUSED);
    CHECK(says(&reply, "{\"errors\":[{\"message\":\"variables: not an object\"}]}"));
    CHECK(gql_step(&query, &answers, TEXT("X"), TEXT(BOOK_TITLE), GQL_NAMED, &reply) == GQL_REFUSED);
    CHECK(says(&reply, "{\"errors\":[{\"message\":\"operation `X` is not defined\"}]}"));
    CHECK(gql_step(&query, &answers, (const uint8_t *)"\xff", 1, TEXT(BOOK_TITLE), GQL_NAMED, &reply) == GQL_UNREAD && is_empty(&reply));
    CHECK(gql_data_new(TEXT("{}"), &data) == GQL_ANSWERED);
    CHECK(gql_step(&query, &data, NOTHING, TEXT(BOOK_TITLE), 0, &reply) == GQL_WRONG_HANDLE && is_empty(&reply) && !is_empty(&data));
    CHECK(gql_step(&schema, &answers, NOTHING, TEXT(BOOK_TITLE), 0, &reply) == GQL_WRONG_HANDLE && is_empty(&reply));
    CHECK(gql_step(&none, &answers, NOTHING, TEXT(BOOK_TITLE), 0, &reply) == GQL_WRONG_HANDLE && is_empty(&none));
    CHECK(gql_answers_add(&data, TEXT("[]")) == GQL_WRONG_HANDLE && !is_empty(&data));
    CHECK(gql_answers_add(&query, TEXT("[")) == GQL_WRONG_HANDLE && !is_empty(&query));
    CHECK(gql_execute(&query, &answers, NOTHING, TEXT(BOOK_TITLE), 0, &reply) == GQL_WRONG_HANDLE);
    CHECK(gql_share(&answers, &none) == GQL_WRONG_HANDLE && is_empty(&none) && gql_reply_length(&answers) == 0);
    CHECK(step() == GQL_ANSWERED && says(&reply, ANSWER));
    gql_free(&data);
}

/* What tells of the schema is never asked. */
static void introspection(void) {
    gql_handle none = GQL_EMPTY, types = GQL_EMPTY;
    CHECK(gql_query_new(&schema, TEXT("{ __type(name: \"Author\") { name } __typename }"), &types, &reply) == GQL_ANSWERED);
    CHECK(gql_step(&types, &none, NOTHING, NOTHING, GQL_INTROSPECTION, &reply) == GQL_ANSWERED);
    CHECK(says(&reply, "{\"data\":{\"__type\":{\"name\":\"Author\"},\"__typename\":\"Query\"}}"));
    gql_free(&types);
}

/* The root fields of a mutation are asked first, in their order. A number of two types is asked as one of the first. */
static void order(void) {
    gql_handle pair = GQL_EMPTY, change = GQL_EMPTY, told = GQL_EMPTY;
    CHECK(gql_schema_new(TEXT("type Query { a: A b: B } type Mutation { a: A b: B } type A { x: Int } type B { x: Int }"), &pair, &reply) == GQL_ANSWERED);
    CHECK(gql_query_new(&pair, TEXT("mutation { a { x } b { x } }"), &change, &reply) == GQL_ANSWERED);
    CHECK(gql_answers_add(&told, TEXT("[{\"object\":0,\"field\":\"a\",\"value\":{\"object\":1,\"type\":\"A\"}}]")) == GQL_ANSWERED);
    CHECK(gql_step(&change, &told, NOTHING, NOTHING, 0, &reply) == GQL_ASKS);
    CHECK(says(&reply, "[{\"object\":0,\"type\":\"Mutation\",\"field\":\"b\",\"arguments\":{}},{\"object\":1,\"type\":\"A\",\"field\":\"x\",\"arguments\":{}}]"));
    CHECK(gql_answers_add(&told, TEXT("[{\"object\":0,\"field\":\"b\",\"value\":{\"object\":1,\"type\":\"B\"}}]")) == GQL_ANSWERED);
    CHECK(gql_step(&change, &told, NOTHING, NOTHING, 0, &reply) == GQL_ASKS);
    CHECK(says(&reply, "[{\"object\":1,\"type\":\"A\",\"field\":\"x\",\"arguments\":{}}]"));
    CHECK(gql_answers_add(&told, TEXT("[{\"object\":1,\"field\":\"x\",\"value\":7}]")) == GQL_ANSWERED);
    CHECK(gql_step(&change, &told, NOTHING, NOTHING, 0, &reply) == GQL_ANSWERED && says(&reply, "{\"data\":{\"a\":{\"x\":7},\"b\":{\"x\":7}}}"));
    gql_free(&pair);
    gql_free(&change);
    gql_free(&told);
}

int main(void) {
    CHECK(gql_schema_new(TEXT(LIBRARY), &schema, &reply) == GQL_ANSWERED);
    CHECK(gql_query_new(&schema, TEXT(AUTHORS), &query, &reply) == GQL_ANSWERED);
    rounds();
    answers_told();
    refusals();
    introspection();
    order();
    gql_free(&schema);
    gql_free(&query);
    gql_free(&answers);
    gql_free(&reply);
    puts("steps: ok");
    return 0;
}
