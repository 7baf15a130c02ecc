/* Answers requests that come in parts: for each a word (answer or check), the texts of the schema, of the query and of the variables,
 * the operation's name, whether it counts, whether introspection is on, and the text of the data. Each part is its length in decimal, a
 * line feed, and its bytes. For each request the status, the length and the bytes of what the program would write come out. */
#include "check.h"

struct part {
    size_t length;
    uint8_t *bytes;
};

static bool read_part(struct part *part) {
    if (scanf("%zu", &part->length) != 1) {
        return false;
    }
    CHECK(getchar() == '\n');
    part->bytes = malloc(part->length + 1);
    CHECK(part->bytes != NULL && fread(part->bytes, 1, part->length, stdin) == part->length);
    return true;
}

static uint32_t answer(struct part *parts, gql_handle *reply) {
    gql_handle schema = GQL_EMPTY, query = GQL_EMPTY, data = GQL_EMPTY;
    uint32_t flags = (parts[5].length ? GQL_NAMED : 0u) | (parts[6].length ? GQL_INTROSPECTION : 0u);
    uint32_t status = gql_schema_new(parts[1].bytes, parts[1].length, &schema, reply);
    if (status == GQL_ANSWERED) {
        status = gql_query_new(&schema, parts[2].bytes, parts[2].length, &query, reply);
    }
    if (status == GQL_ANSWERED) {
        status = gql_data_new(parts[7].bytes, parts[7].length, &data);
    }
    if (status == GQL_ANSWERED) {
        status = gql_execute(&query, &data, parts[4].bytes, parts[4].length, parts[3].bytes, parts[3].length, flags, reply);
    }
    gql_free(&schema);
    gql_free(&query);
    gql_free(&data);
    return status;
}

static void write_reply(uint32_t status, gql_handle *reply, const char *end) {
    size_t length = gql_reply_length(reply);
    uint8_t *bytes = malloc(length + 1);
    CHECK(bytes != NULL && gql_reply_copy(reply, bytes, length) == length);
    printf("%u %zu\n", (unsigned)status, length + strlen(end));
    fwrite(bytes, 1, length, stdout);
    fputs(end, stdout);
    free(bytes);
}

int main(void) {
    struct part parts[8];
    gql_handle reply = GQL_EMPTY;
    while (read_part(&parts[0])) {
        for (int number = 1; number < 8; number++) {
            CHECK(read_part(&parts[number]));
        }
        if (parts[0].length == strlen("check")) {
            uint32_t status = gql_check(parts[1].bytes, parts[1].length, parts[2].bytes, parts[2].length, &reply);
            write_reply(status, &reply, status == GQL_ANSWERED ? "ok\n" : "");
        } else {
            uint32_t status = answer(parts, &reply);
            write_reply(status, &reply, "\n");
        }
        for (int number = 0; number < 8; number++) {
            free(parts[number].bytes);
        }
    }
    gql_free(&reply);
    return 0;
}
