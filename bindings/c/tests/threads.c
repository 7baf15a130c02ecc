/* One schema, query and data in eight threads, by shares that are made before the threads start: each thread has handles of its own. And
 * handles go from one thread to another: a query that one made is executed by the next, whose reply the main thread reads and lets go. */
#include "check.h"
#include <pthread.h>

enum { THREADS = 8, TURNS = 300, PASSES = 50 };

struct work {
    gql_handle schema, query, data;
};

static void *run(void *at) {
    struct work *own = at;
    gql_handle again = GQL_EMPTY, reply = GQL_EMPTY;
    for (int turn = 0; turn < TURNS; turn++) {
        CHECK(gql_execute(&own->query, &own->data, NOTHING, TEXT(BOOK_TITLE), 0, &reply) == GQL_ANSWERED);
        CHECK(says(&reply, BOOK_ANSWER));
        CHECK(gql_share(&own->query, &again) == GQL_ANSWERED);
        if (turn % 100 == 0) {
            CHECK(gql_query_new(&own->schema, TEXT(BOOK_QUERY), &again, &reply) == GQL_ANSWERED);
        }
    }
    gql_free(&again);
    gql_free(&reply);
    gql_free(&own->schema);
    gql_free(&own->query);
    gql_free(&own->data);
    return NULL;
}

/* What threads hand on: under the lock a handle is one thread's at a time. */
static struct {
    pthread_mutex_t lock;
    gql_handle schema, query, data, answers, reply;
} passed = {PTHREAD_MUTEX_INITIALIZER, GQL_EMPTY, GQL_EMPTY, GQL_EMPTY, GQL_EMPTY, GQL_EMPTY};

static void *pass(void *at) {
    (void)at;
    for (int turn = 0; turn < PASSES; turn++) {
        pthread_mutex_lock(&passed.lock);
        if (is_empty(&passed.schema)) {
            CHECK(gql_schema_new(TEXT(BOOKS), &passed.schema, &passed.reply) == GQL_ANSWERED);
        } else if (is_empty(&passed.query)) {
            CHECK(gql_query_new(&passed.schema, TEXT(BOOK_QUERY), &passed.query, &passed.reply) == GQL_ANSWERED);
            gql_free(&passed.schema);
        } else if (is_empty(&passed.data)) {
            CHECK(gql_data_new(TEXT(BOOK_DATA), &passed.data) == GQL_ANSWERED);
        } else if (is_empty(&passed.answers)) {
            CHECK(gql_execute(&passed.query, &passed.data, NOTHING, TEXT(BOOK_TITLE), 0, &passed.reply) == GQL_ANSWERED);
            CHECK(gql_answers_add(&passed.answers, TEXT(BOOK_TOLD)) == GQL_ANSWERED);
        } else {
            CHECK(gql_step(&passed.query, &passed.answers, NOTHING, TEXT(BOOK_TITLE), 0, &passed.reply) == GQL_ANSWERED);
            gql_free(&passed.query);
            gql_free(&passed.data);
            gql_free(&passed.answers);
        }
        CHECK(is_empty(&passed.reply) || says(&passed.reply, BOOK_ANSWER));
        pthread_mutex_unlock(&passed.lock);
    }
    return NULL;
}

/* Runs a function in each thread, with each thread's own part of an array or with nothing. */
static void in_threads(void *(*run)(void *), struct work *each) {
    pthread_t threads[THREADS];
    for (int number = 0; number < THREADS; number++) {
        CHECK(pthread_create(&threads[number], NULL, run, each == NULL ? NULL : &each[number]) == 0);
    }
    for (int number = 0; number < THREADS; number++) {
        CHECK(pthread_join(threads[number], NULL) == 0);
    }
}

int main(void) {
    static struct work each[THREADS];
    gql_handle schema = GQL_EMPTY, query = GQL_EMPTY, data = GQL_EMPTY, reply = GQL_EMPTY;
    CHECK(gql_schema_new(TEXT(BOOKS), &schema, &reply) == GQL_ANSWERED);
    CHECK(gql_query_new(&schema, TEXT(BOOK_QUERY), &query, &reply) == GQL_ANSWERED);
    CHECK(gql_data_new(TEXT(BOOK_DATA), &data) == GQL_ANSWERED);
    for (int number = 0; number < THREADS; number++) {
        CHECK(gql_share(&schema, &each[number].schema) == GQL_ANSWERED);
        CHECK(gql_share(&query, &each[number].query) == GQL_ANSWERED);
        CHECK(gql_share(&data, &each[number].data) == GQL_ANSWERED);
    }
    gql_free(&schema);
    gql_free(&query);
    gql_free(&data);
    in_threads(run, each);
    in_threads(pass, NULL);
    gql_free(&passed.schema);
    gql_free(&passed.query);
    gql_free(&passed.data);
    gql_free(&passed.answers);
    gql_free(&passed.reply);
    puts("threads: ok");
    return 0;
}
