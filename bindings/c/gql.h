/* GraphQL requests answered, from bytes to bytes: the C interface of Sunwaket.
 *
 * A handle holds one value of the library: a schema, a query, data, answers, or a reply. It is a struct of one pointer that the caller owns
 * (on the stack, in a struct, in an array), and all bits zero is a handle that holds nothing. A call that makes a value puts it into a
 * handle and lets go of what that held before; gql_free lets go of it and leaves the handle empty.
 *
 *     gql_handle schema = GQL_EMPTY, query = GQL_EMPTY, data = GQL_EMPTY, reply = GQL_EMPTY;
 *     if (gql_schema_new(text, strlen(text), &schema, &reply) == GQL_ANSWERED && ..)
 *         status = gql_execute(&query, &data, NULL, 0, NULL, 0, 0, &reply);
 *     size_t length = gql_reply_length(&reply);
 *     gql_reply_copy(&reply, buffer, length);
 *     gql_free(&reply);
 *
 * The caller's duties, which nothing checks:
 *   - no handle is a null pointer, nor is `kind`, `cost` or `limit`; bytes, and `into`, may be null where their length is 0, and
 *     lengths are true;
 *   - a handle is empty (GQL_EMPTY) before its first use;
 *   - no two handles of one call are the same, and no call uses a handle while another call does; what a call writes (its handles, `kind`,
 *     `cost`, `into`) overlaps none of its other arguments;
 *   - a handle may be moved but not copied: of two copies only one is used from then on. To have a value twice, use gql_share;
 *   - no call comes from a signal handler, nor from the forked child of a process with threads;
 *   - a thread that calls has 2 MB of stack (texts nested at their limits take that; threads of musl and of macOS have less by default).
 *
 * Threads: a handle may go from one thread to another, whatever it holds. The caller orders that by a lock, by the start or the join of a
 * thread, or by a sequentially consistent atomic. To use one value in several threads at once, each has a handle of its own by gql_share,
 * which copies nothing: no call changes a schema, a query or data.
 *
 * Resolvers of the caller's own go by steps. The caller keeps its objects and gives each a number; 0 is the one that an operation begins
 * at. gql_step lists at once all that is asked of them beyond the answers so far, so that a caller may resolve it together, and the
 * response once nothing is asked. Where all that is asked is answered, there are no more rounds than selection sets are nested:
 *
 *     gql_handle answers = GQL_EMPTY;
 *     while ((status = gql_step(&query, &answers, NULL, 0, NULL, 0, 0, &reply)) == GQL_ASKS) {
 *         .. resolve each item of the reply ..
 *         status = gql_answers_add(&answers, text, strlen(text));
 *     }
 *     gql_free(&answers);
 *
 * A number stands for an object of one type. Where answers give one number two types, a field that both types have is asked once, of
 * the type that comes first, and its answer counts for both.
 *
 * The root fields of a mutation are executed one after another (GraphQL October 2021, section 6.2.2), and the caller sees to that. They
 * are the asks of object 0, and come first in a list, in their order. Answer one of them alone; then all that is asked of other objects,
 * step by step; and the next one only when nothing else is asked. What an object has may be changed by that: an object that comes after
 * it has a new number.
 */
#ifndef GQL_H
#define GQL_H

#include <stddef.h>
#include <stdint.h>

#ifdef __cplusplus
extern "C" {
#endif

typedef struct gql_handle {
    void *held;
} gql_handle;

#define GQL_EMPTY { 0 }

/* What a call returns. The first three mean what the exit statuses of the program mean, and have their numbers. */
enum gql_status {
    GQL_ANSWERED = 0,     /* The call did what it says. */
    GQL_REFUSED = 1,      /* The text or the request is refused: the reply says why. */
    GQL_NO_MEMORY = 3,    /* Memory ran out. */
    GQL_WRONG_HANDLE = 8, /* A handle holds nothing, or another kind of value than the call takes. */
    GQL_UNREAD = 9,       /* Bytes are no UTF-8, or, as data, no JSON text of an object, or no list of answers. */
    GQL_TOO_COSTLY = 10,  /* An operation costs more than the limit: the reply says so. */
    GQL_ASKS = 11         /* A step of a request asks: the reply says what. */
};

/* Bits of `flags`. */
enum gql_flag {
    GQL_NAMED = 1,        /* The operation is the one of the name that is given; otherwise the only one. */
    GQL_INTROSPECTION = 2 /* `__schema` and `__type` are answered. */
};

/* How many nodes the data of a response may have (one for the data, and one for each value in them), where no list has more items than
 * `items`. */
typedef struct gql_limit {
    uint32_t items;
    uint32_t nodes;
} gql_limit;

/* Kinds of operations. */
enum gql_kind { GQL_NO_OPERATION = 0, GQL_QUERY = 1, GQL_MUTATION = 2, GQL_SUBSCRIPTION = 3 };

/* Every call that makes something leaves the handle for it, and the reply, empty where it returns another status than it says below.
 * Handles that a call only uses hold afterwards what they held before. */

/* Reads and checks the text of a schema (UTF-8, nested at most 500 deep), into `schema`. REFUSED: `reply` has a JSON object with
 * `errors`, one for each thing that is wrong; `schema` is empty. UNREAD: the text is no UTF-8. */
uint32_t gql_schema_new(const uint8_t *text, size_t length, gql_handle *schema, gql_handle *reply);

/* Reads and checks the text of a query against a schema, into `query`. The query keeps the schema: that handle may be freed first.
 * REFUSED and UNREAD as above. */
uint32_t gql_query_new(gql_handle *schema, const uint8_t *text, size_t length, gql_handle *query, gql_handle *reply);

/* Reads plain data: the JSON text of an object, nested at most 127 deep, whose numbers are whole. UNREAD where it is none. */
uint32_t gql_data_new(const uint8_t *text, size_t length, gql_handle *data);

/* Executes an operation of a query over data, which are the object that the query begins at. `name` is the operation's where `flags`
 * has GQL_NAMED. `variables` is the JSON text of an object; no bytes at all are one without members. ANSWERED: `reply` has the
 * response. REFUSED: `reply` has a JSON object with `errors`: no such operation, a variable that is not coerced, variables that are no
 * JSON object, introspection that goes too deep. UNREAD: the name is no UTF-8. */
uint32_t gql_execute(gql_handle *query, gql_handle *data, const uint8_t *name, size_t name_length, const uint8_t *variables,
                     size_t variables_length, uint32_t flags, gql_handle *reply);

/* One step of a request to a query whose resolvers are the caller's, with `answers` so far; a handle that holds nothing is no answer yet.
 * `name`, `variables` and `flags` are those of gql_execute. ASKS: `reply` has a JSON list, never an empty one, of all that can be asked
 * with these answers, each once:
 *
 *     {"object":7,"type":"Book","field":"author","arguments":{"first":2}}
 *
 * Answer all of it by gql_answers_add (of a mutation, in order: see above), and step again with the same query, name, variables and flags.
 * ANSWERED: `reply` has the response.
 * REFUSED and UNREAD as gql_execute, at the first step whatever was answered. WRONG_HANDLE also where `answers` holds something else. */
uint32_t gql_step(gql_handle *query, gql_handle *answers, const uint8_t *name, size_t name_length, const uint8_t *variables,
                  size_t variables_length, uint32_t flags, gql_handle *reply);

/* Adds answers to those that `answers` holds; a handle that holds nothing comes to hold them. The text is a JSON list, nested at most 127
 * deep, whose numbers are whole:
 *
 *     {"object":7,"field":"author","arguments":{"first":2},"value":{"object":8,"type":"Author"}}
 *
 * Arguments may be left out where there are none, and are else those that were asked, in their order; other members are not looked at. A
 * value is JSON. At an object, an interface or a union type `{"object":8,"type":"Author"}` is the caller's object 8; at a list an array is
 * a list of such values; {"__error":"text"} is a failure of the field. Of two answers to one ask the first stays. UNREAD: the text is no list
 * of answers; then, and where it returns WRONG_HANDLE, `answers` holds what it held. NO_MEMORY: the first of the answers may have been
 * added, in their order, and nothing else is changed; the same text may be added again. */
uint32_t gql_answers_add(gql_handle *answers, const uint8_t *text, size_t length);

/* The kind of the operation that gql_execute would execute, into `kind`. REFUSED, and GQL_NO_OPERATION, where there is none. */
uint32_t gql_operation_kind(gql_handle *query, const uint8_t *name, size_t name_length, uint32_t flags, uint32_t *kind);

/* The cost of the operation that gql_execute would execute, into `cost`: how many nodes the data of its response can have at most, where
 * no list has more items than the limit says. Nothing is executed. `cost` is 0, and `reply` is empty, unless it is said otherwise here.
 * ANSWERED: `cost` is no more than `nodes` of the limit. TOO_COSTLY exactly where the cost is more: `reply` has a JSON object with the one
 * error `cost above limit`. REFUSED: there is no such operation, and `reply` has a JSON object that says so. */
uint32_t gql_operation_cost(gql_handle *query, const uint8_t *name, size_t name_length, uint32_t flags, const gql_limit *limit,
                            uint32_t *cost, gql_handle *reply);

/* What is wrong with the texts of a schema and of a query, for people. ANSWERED: nothing, and `reply` has a reply of no bytes. REFUSED:
 * `reply` has the reports of the first text that something is wrong with, a line for each place: `schema.graphql:2:9: here`. */
uint32_t gql_check(const uint8_t *schema, size_t schema_length, const uint8_t *query, size_t query_length, gql_handle *reply);

/* Has `to` hold the same value as `from`: a schema, a query or data. WRONG_HANDLE for a reply and for answers. */
uint32_t gql_share(gql_handle *from, gql_handle *to);

/* Lets go of what a handle holds, if it holds anything. */
void gql_free(gql_handle *handle);

/* How many bytes a reply has; 0 where the handle holds no reply. */
size_t gql_reply_length(gql_handle *reply);

/* Copies the bytes of a reply, which end with no zero byte, if there is room for all; gives their number. */
size_t gql_reply_copy(gql_handle *reply, uint8_t *into, size_t length);

/* The version of the library: 65536 times the major number, 256 times the minor one, and the patch. */
uint32_t gql_version(void);

#ifdef __cplusplus
}
#endif
#endif
