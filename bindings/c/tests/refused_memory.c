/* Each allocation of a whole request is refused in turn: each call answers as ever or tells NO_MEMORY, or that a handle is empty for that
 * reason, and no block is left. So it is where all after it are refused too. */
#include "check.h"
#include "refusing.h"

static gql_handle schema, query, data, share, answers, reply;

/* Whether a call that needs these told a status that want of memory explains. */
static bool is_right(uint32_t status, uint32_t usual, bool has_all) {
    return status == GQL_NO_MEMORY || status == (has_all ? usual : GQL_WRONG_HANDLE);
}

/* The same request by steps. What was refused while answers were added may be added again, whatever of it was added. */
static void steps(void) {
    uint32_t status = gql_step(&query, &answers, NOTHING, TEXT(BOOK_TITLE), 0, &reply);
    CHECK(is_right(status, GQL_ASKS, !is_empty(&query)));
    CHECK(status == GQL_ASKS ? says(&reply, BOOK_ASKS) : is_empty(&reply));
    status = gql_answers_add(&answers, TEXT("[" BOOK_FIRST "]"));
    CHECK(is_right(status, GQL_ANSWERED, true) && is_empty(&answers) == (status != 0));
    status = gql_answers_add(&answers, TEXT(BOOK_TOLD));
    CHECK(is_right(status, GQL_ANSWERED, true));
    status = gql_answers_add(&answers, TEXT(BOOK_TOLD));
    CHECK(is_right(status, GQL_ANSWERED, true));
    bool is_told = status == GQL_ANSWERED;
    status = gql_step(&query, &answers, NOTHING, TEXT(BOOK_TITLE), 0, &reply);
    CHECK(is_right(status, GQL_ANSWERED, !is_empty(&query)) || (status == GQL_ASKS && !is_told));
    CHECK(status == GQL_ANSWERED ? says(&reply, BOOK_ANSWER) : is_empty(&reply) == (status != GQL_ASKS));
}

/* One request. */
static void request(void) {
    uint32_t kind = 7, cost = 7, statuses[10];
    gql_limit wide = {10, 100}, narrow = {10, 1};
    statuses[0] = gql_schema_new(TEXT(BOOKS), &schema, &reply);
    CHECK(is_right(statuses[0], GQL_ANSWERED, true) && is_empty(&reply) && is_empty(&schema) == (statuses[0] != 0));
    statuses[1] = gql_query_new(&schema, TEXT(BOOK_QUERY), &query, &reply);
    CHECK(is_right(statuses[1], GQL_ANSWERED, !is_empty(&schema)) && is_empty(&query) == (statuses[1] != 0));
    statuses[2] = gql_data_new(TEXT(BOOK_DATA), &data);
    CHECK(is_right(statuses[2], GQL_ANSWERED, true) && is_empty(&data) == (statuses[2] != 0));
    statuses[3] = gql_execute(&query, &data, NOTHING, TEXT(BOOK_TITLE), GQL_INTROSPECTION, &reply);
    CHECK(is_right(statuses[3], GQL_ANSWERED, !is_empty(&query) && !is_empty(&data)));
    CHECK(statuses[3] == GQL_ANSWERED ? says(&reply, BOOK_ANSWER) : is_empty(&reply));
    statuses[4] = gql_execute(&query, &data, NOTHING, TEXT("{\"title\":null}"), 0, &reply);
    CHECK(is_right(statuses[4], GQL_REFUSED, !is_empty(&query) && !is_empty(&data)));
    CHECK(statuses[4] == GQL_REFUSED ? gql_reply_length(&reply) > 0 : is_empty(&reply));
    statuses[5] = gql_share(&query, &share);
    CHECK(is_right(statuses[5], GQL_ANSWERED, !is_empty(&query)) && is_empty(&share) == (statuses[5] != 0));
    statuses[6] = gql_operation_kind(&query, TEXT("X"), GQL_NAMED, &kind);
    CHECK(is_right(statuses[6], GQL_REFUSED, !is_empty(&query)) && kind == GQL_NO_OPERATION);
    statuses[7] = gql_check(TEXT(BOOKS), TEXT("{ nope }"), &reply);
    CHECK(is_right(statuses[7], GQL_REFUSED, true) && is_empty(&reply) == (statuses[7] != GQL_REFUSED));
    statuses[8] = gql_operation_cost(&query, NOTHING, 0, &wide, &cost, &reply);
    CHECK(is_right(statuses[8], GQL_ANSWERED, !is_empty(&query)) && is_empty(&reply) && cost == (statuses[8] == 0 ? 4 : 0));
    statuses[9] = gql_operation_cost(&query, NOTHING, 0, &narrow, &cost, &reply);
    CHECK(is_right(statuses[9], GQL_TOO_COSTLY, !is_empty(&query)) && is_empty(&reply) == (statuses[9] != GQL_TOO_COSTLY) && cost == 0);
    steps();
    left = -1;
    gql_free(&schema);
    gql_free(&query);
    gql_free(&data);
    gql_free(&share);
    gql_free(&answers);
    gql_free(&reply);
}

/* How many allocations were refused, until a request took fewer. */
static long refuse_each(void) {
    long point = 0;
    do {
        point++;
        is_hit = false;
        left = point;
        request();
        if (live != 0) {
            printf("%ld blocks are left where allocation %ld is refused\n", live, point);
            exit(1);
        }
    } while (is_hit);
    return point - 1;
}

int main(void) {
    long alone = refuse_each();
    all_after = true;
    long with_rest = refuse_each();
    CHECK(alone > 100 && with_rest > 100);
    printf("refused_memory: ok, %ld allocations refused alone, %ld with all after them\n", alone, with_rest);
    return 0;
}
