/* A first answer: cc example.c $(pkg-config --cflags --libs gql) */
#include "gql.h"
#include <stdio.h>
#include <stdlib.h>
#include <string.h>

static const char schema_text[] = "type Query { book(title: String!): Book } type Book { title: String year: Int }";
static const char query_text[] = "query ($title: String!) { book(title: $title) { title year } }";
static const char data_text[] = "{\"book\":{\"title\":\"Emma\",\"year\":1815}}";
static const char variables[] = "{\"title\":\"Emma\"}";

static const uint8_t *bytes(const char *text) {
    return (const uint8_t *)text;
}

/* Writes a reply and a line feed. */
static void show(gql_handle *reply) {
    size_t length = gql_reply_length(reply);
    uint8_t *text = malloc(length + 1);
    if (text != NULL) {
        gql_reply_copy(reply, text, length);
        text[length] = '\n';
        fwrite(text, 1, length + 1, stdout);
        free(text);
    }
}

int main(void) {
    gql_handle schema = GQL_EMPTY, query = GQL_EMPTY, data = GQL_EMPTY, reply = GQL_EMPTY;
    uint32_t status = gql_schema_new(bytes(schema_text), strlen(schema_text), &schema, &reply);
    if (status == GQL_ANSWERED) {
        status = gql_query_new(&schema, bytes(query_text), strlen(query_text), &query, &reply);
    }
    if (status == GQL_ANSWERED) {
        status = gql_data_new(bytes(data_text), strlen(data_text), &data);
    }
    if (status == GQL_ANSWERED) {
        status = gql_execute(&query, &data, NULL, 0, bytes(variables), strlen(variables), 0, &reply);
    }
    show(&reply);
    gql_free(&schema);
    gql_free(&query);
    gql_free(&data);
    gql_free(&reply);
    return (int)status;
}
