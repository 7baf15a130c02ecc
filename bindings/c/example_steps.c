/* Resolvers of the program's own, by steps: cc example_steps.c $(pkg-config --cflags --libs gql)
 *
 * The asks of a step come as JSON. A program has a JSON parser of its own for them; this one looks for the fields that it knows. */
#include "gql.h"
#include <stdbool.h>
#include <stdio.h>
#include <stdlib.h>
#include <string.h>

static const char schema_text[] = "type Query { book(title: String!): Book } type Book { title: String year: Int }";
static const char query_text[] = "{ book(title: \"Emma\") { title year } }";

/* What the program knows: each ask as it is spelled, and its answer. The book is its object 1. */
static const struct {
    const char *ask, *answer;
} known[] = {
    { "\"object\":0,\"type\":\"Query\",\"field\":\"book\",\"arguments\":{\"title\":\"Emma\"}",
      "{\"object\":0,\"field\":\"book\",\"arguments\":{\"title\":\"Emma\"},\"value\":{\"object\":1,\"type\":\"Book\"}}" },
    { "\"object\":1,\"type\":\"Book\",\"field\":\"title\"", "{\"object\":1,\"field\":\"title\",\"value\":\"Emma\"}" },
    { "\"object\":1,\"type\":\"Book\",\"field\":\"year\"", "{\"object\":1,\"field\":\"year\",\"value\":1815}" },
};

static const uint8_t *bytes(const char *text) {
    return (const uint8_t *)text;
}

/* The text of a reply, which the caller frees. */
static char *text_of(gql_handle *reply) {
    size_t length = gql_reply_length(reply);
    char *text = calloc(length + 1, 1);
    if (text == NULL) {
        exit(GQL_NO_MEMORY);
    }
    gql_reply_copy(reply, (uint8_t *)text, length);
    return text;
}

/* Answers all that is asked and known. Whether there was any: else the steps would ask for ever. */
static bool answer(gql_handle *reply, gql_handle *answers) {
    char *asks = text_of(reply), text[1000] = "[";
    bool has_any = false;
    for (size_t at = 0; at < sizeof known / sizeof known[0]; at++) {
        if (strstr(asks, known[at].ask) != NULL) {
            strcat(strcat(text, has_any ? "," : ""), known[at].answer);
            has_any = true;
        }
    }
    free(asks);
    strcat(text, "]");
    return has_any && gql_answers_add(answers, bytes(text), strlen(text)) == GQL_ANSWERED;
}

int main(void) {
    gql_handle schema = GQL_EMPTY, query = GQL_EMPTY, answers = GQL_EMPTY, reply = GQL_EMPTY;
    uint32_t status = gql_schema_new(bytes(schema_text), strlen(schema_text), &schema, &reply);
    if (status == GQL_ANSWERED) {
        status = gql_query_new(&schema, bytes(query_text), strlen(query_text), &query, &reply);
    }
    if (status == GQL_ANSWERED) {
        do {
            status = gql_step(&query, &answers, NULL, 0, NULL, 0, 0, &reply);
        } while (status == GQL_ASKS && answer(&reply, &answers));
    }
    char *text = text_of(&reply);
    puts(text);
    free(text);
    gql_free(&schema);
    gql_free(&query);
    gql_free(&answers);
    gql_free(&reply);
    return (int)status;
}
