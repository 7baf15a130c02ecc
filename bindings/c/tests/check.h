/* What the tests share: texts as bytes, replies compared, the first line that fails told. */
#ifndef CHECK_H
#define CHECK_H

#include "../gql.h"
#include <stdbool.h>
#include <stdio.h>
#include <stdlib.h>
#include <string.h>

#define CHECK(holds)                                                        \
    do {                                                                    \
        if (!(holds)) {                                                     \
            printf("%s:%d: %s\n", __FILE__, __LINE__, #holds);              \
            exit(1);                                                        \
        }                                                                   \
    } while (0)

/* A text as two arguments: its bytes and their number. */
#define TEXT(text) (const uint8_t *)(text), strlen(text)
#define NOTHING NULL, 0

static inline bool says(gql_handle *reply, const char *text) {
    size_t length = gql_reply_length(reply);
    uint8_t *bytes = malloc(length + 1);
    bool same = bytes != NULL && gql_reply_copy(reply, bytes, length) == length && length == strlen(text) && memcmp(bytes, text, length) == 0;
    if (!same && bytes != NULL) {
        printf("it says %.*s\n", (int)length, (const char *)bytes);
    }
    free(bytes);
    return same;
}

static inline bool is_empty(gql_handle *handle) {
    return handle->held == NULL;
}

#define BOOKS "type Query { book(title: String!): Book books: [Book!]! } type Mutation { add(title: String!): Book } type Book { title: String! year: Int }"
#define BOOK_QUERY "query ($title: String!) { book(title: $title) { title ...F } } fragment F on Book { year }"
#define BOOK_DATA "{\"book\":{\"title\":\"Emma\",\"year\":1815},\"books\":[]}"
#define BOOK_TITLE "{\"title\":\"Emma\"}"
#define BOOK_ANSWER "{\"data\":{\"book\":{\"title\":\"Emma\",\"year\":1815}}}"

/* The same by steps: what is asked first, its answer, and all answers. */
#define BOOK_ASKS "[{\"object\":0,\"type\":\"Query\",\"field\":\"book\",\"arguments\":{\"title\":\"Emma\"}}]"
#define BOOK_FIRST "{\"object\":0,\"field\":\"book\",\"arguments\":{\"title\":\"Emma\"},\"value\":{\"object\":1,\"type\":\"Book\"}}"
#define BOOK_TOLD "[" BOOK_FIRST ",{\"object\":1,\"field\":\"title\",\"value\":\"Emma\"},{\"object\":1,\"field\":\"year\",\"value\":1815}]"

#endif
