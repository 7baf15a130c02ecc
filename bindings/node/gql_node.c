/* The C library for Node, over Node-API. A value is an external that lets go of its handle when the collector takes it. Executions run
 * where they are called (`execute`) or on the pool of threads (`executeAsync`); each value has a lock, so that no handle is in two calls. */
#include <node_api.h>
#include <pthread.h>
#include <stdlib.h>
#include <string.h>
#include "../c/gql.h"

#define TRY(call)          \
    do {                   \
        if ((call) != napi_ok) { \
            fail(env);     \
            return NULL;   \
        }                  \
    } while (0)

/* A handle, the lock that keeps it to one call at a time, and which kind of value it holds. */
struct value {
    gql_handle handle;
    pthread_mutex_t lock;
};

static const napi_type_tag value_tag = {0x53756e77616b6574, 0x76616c7565000001};

static void fail(napi_env env) {
    bool pending = false;
    napi_is_exception_pending(env, &pending);
    if (!pending) {
        napi_throw_error(env, NULL, "a call of Node-API failed");
    }
}

static const char *code_of(uint32_t status) {
    switch (status) {
        case GQL_REFUSED: return "GQL_REFUSED";
        case GQL_NO_MEMORY: return "GQL_NO_MEMORY";
        case GQL_WRONG_HANDLE: return "GQL_WRONG_HANDLE";
        case GQL_TOO_COSTLY: return "GQL_TOO_COSTLY";
        default: return "GQL_UNREAD";
    }
}

static void release(struct value *value) {
    gql_free(&value->handle);
    pthread_mutex_destroy(&value->lock);
    free(value);
}

static void finalize(napi_env env, void *data, void *hint) {
    (void)env;
    (void)hint;
    release(data);
}

static struct value *new_value(void) {
    struct value *value = calloc(1, sizeof *value);
    if (value != NULL && pthread_mutex_init(&value->lock, NULL) != 0) {
        free(value);
        value = NULL;
    }
    return value;
}

/* The value as JavaScript has it, or NULL with an exception; the value is let go then. */
static napi_value wrap(napi_env env, struct value *value) {
    napi_value made;
    if (napi_create_external(env, value, finalize, NULL, &made) != napi_ok) {
        release(value);
        fail(env);
        return NULL;
    }
    if (napi_type_tag_object(env, made, &value_tag) != napi_ok) {
        fail(env);
        return NULL;
    }
    return made;
}

static struct value *unwrap(napi_env env, napi_value given) {
    bool is_value = false;
    void *value = NULL;
    if (napi_check_object_type_tag(env, given, &value_tag, &is_value) != napi_ok || !is_value || napi_get_value_external(env, given, &value) != napi_ok) {
        napi_throw_type_error(env, NULL, "this is no value of the library");
        return NULL;
    }
    return value;
}

/* A buffer with the bytes of a reply, which is let go. */
static napi_value take(napi_env env, gql_handle *reply) {
    size_t length = gql_reply_length(reply);
    void *into = NULL;
    napi_value made;
    napi_status status = napi_create_buffer(env, length, &into, &made);
    if (status == napi_ok) {
        gql_reply_copy(reply, into, length);
    }
    gql_free(reply);
    TRY(status);
    return made;
}

/* The error for a status: its code, and the reply as the member `reply` where there is one. */
static napi_value error_of(napi_env env, uint32_t status, gql_handle *reply) {
    napi_value code, message, error, told;
    const char *name = code_of(status);
    TRY(napi_create_string_utf8(env, name, NAPI_AUTO_LENGTH, &code));
    TRY(napi_create_string_utf8(env, name, NAPI_AUTO_LENGTH, &message));
    TRY(napi_create_error(env, code, message, &error));
    if ((status == GQL_REFUSED || status == GQL_TOO_COSTLY) && reply != NULL) {
        told = take(env, reply);
        if (told == NULL) {
            return NULL;
        }
        TRY(napi_set_named_property(env, error, "reply", told));
    }
    return error;
}

static napi_value refuse(napi_env env, uint32_t status, gql_handle *reply) {
    napi_value error = error_of(env, status, reply);
    if (error != NULL) {
        napi_throw(env, error);
    }
    return NULL;
}

struct bytes {
    void *at;
    size_t length;
};

static bool bytes_of(napi_env env, napi_value given, struct bytes *bytes) {
    bool is_buffer = false;
    if (napi_is_buffer(env, given, &is_buffer) != napi_ok || !is_buffer || napi_get_buffer_info(env, given, &bytes->at, &bytes->length) != napi_ok) {
        napi_throw_type_error(env, NULL, "this is no buffer");
        return false;
    }
    return true;
}

/* newSchema(text) */
static napi_value new_schema(napi_env env, napi_callback_info info) {
    size_t count = 1;
    napi_value arguments[1];
    struct bytes text;
    gql_handle reply = GQL_EMPTY;
    TRY(napi_get_cb_info(env, info, &count, arguments, NULL, NULL));
    if (!bytes_of(env, arguments[0], &text)) {
        return NULL;
    }
    struct value *schema = new_value();
    uint32_t status = schema == NULL ? GQL_NO_MEMORY : gql_schema_new(text.at, text.length, &schema->handle, &reply);
    if (status == GQL_ANSWERED) {
        return wrap(env, schema);
    }
    if (schema != NULL) {
        release(schema);
    }
    return refuse(env, status, &reply);
}

/* newQuery(schema, text) */
static napi_value new_query(napi_env env, napi_callback_info info) {
    size_t count = 2;
    napi_value arguments[2];
    struct bytes text;
    gql_handle reply = GQL_EMPTY;
    TRY(napi_get_cb_info(env, info, &count, arguments, NULL, NULL));
    struct value *schema = unwrap(env, arguments[0]);
    if (schema == NULL || !bytes_of(env, arguments[1], &text)) {
        return NULL;
    }
    struct value *query = new_value();
    uint32_t status = GQL_NO_MEMORY;
    if (query != NULL) {
        pthread_mutex_lock(&schema->lock);
        status = gql_query_new(&schema->handle, text.at, text.length, &query->handle, &reply);
        pthread_mutex_unlock(&schema->lock);
    }
    if (status == GQL_ANSWERED) {
        return wrap(env, query);
    }
    if (query != NULL) {
        release(query);
    }
    return refuse(env, status, &reply);
}

/* newData(text) */
static napi_value new_data(napi_env env, napi_callback_info info) {
    size_t count = 1;
    napi_value arguments[1];
    struct bytes text;
    TRY(napi_get_cb_info(env, info, &count, arguments, NULL, NULL));
    if (!bytes_of(env, arguments[0], &text)) {
        return NULL;
    }
    struct value *data = new_value();
    uint32_t status = data == NULL ? GQL_NO_MEMORY : gql_data_new(text.at, text.length, &data->handle);
    if (status == GQL_ANSWERED) {
        return wrap(env, data);
    }
    if (data != NULL) {
        release(data);
    }
    return refuse(env, status, NULL);
}

/* share(value) */
static napi_value share(napi_env env, napi_callback_info info) {
    size_t count = 1;
    napi_value arguments[1];
    TRY(napi_get_cb_info(env, info, &count, arguments, NULL, NULL));
    struct value *from = unwrap(env, arguments[0]);
    if (from == NULL) {
        return NULL;
    }
    struct value *to = new_value();
    uint32_t status = GQL_NO_MEMORY;
    if (to != NULL) {
        pthread_mutex_lock(&from->lock);
        status = gql_share(&from->handle, &to->handle);
        pthread_mutex_unlock(&from->lock);
    }
    if (status == GQL_ANSWERED) {
        return wrap(env, to);
    }
    if (to != NULL) {
        release(to);
    }
    return refuse(env, status, NULL);
}

/* close(value) */
static napi_value close_value(napi_env env, napi_callback_info info) {
    size_t count = 1;
    napi_value arguments[1];
    TRY(napi_get_cb_info(env, info, &count, arguments, NULL, NULL));
    struct value *value = unwrap(env, arguments[0]);
    if (value != NULL) {
        pthread_mutex_lock(&value->lock);
        gql_free(&value->handle);
        pthread_mutex_unlock(&value->lock);
    }
    return NULL;
}

/* An execution: two values, and what is asked. For a step the second value is the table of answers. */
struct execution {
    struct value *query, *data;
    struct bytes name, variables;
    uint32_t flags, status;
    gql_handle reply;
};

typedef uint32_t call_of_execution(gql_handle *, gql_handle *, const uint8_t *, size_t, const uint8_t *, size_t, uint32_t, gql_handle *);

static void perform(struct execution *asked, call_of_execution *call) {
    pthread_mutex_lock(&asked->query->lock);
    pthread_mutex_lock(&asked->data->lock);
    asked->status = call(&asked->query->handle, &asked->data->handle, asked->name.at, asked->name.length, asked->variables.at,
                         asked->variables.length, asked->flags, &asked->reply);
    pthread_mutex_unlock(&asked->data->lock);
    pthread_mutex_unlock(&asked->query->lock);
}

/* The five arguments of an execution: query, data, name, variables, flags. */
static bool read_execution(napi_env env, napi_value *arguments, struct execution *asked) {
    asked->query = unwrap(env, arguments[0]);
    asked->data = asked->query == NULL ? NULL : unwrap(env, arguments[1]);
    if (asked->data == NULL || !bytes_of(env, arguments[2], &asked->name) || !bytes_of(env, arguments[3], &asked->variables)) {
        return false;
    }
    if (asked->query == asked->data) {
        napi_throw_type_error(env, NULL, "a value cannot be query and data at once");
        return false;
    }
    if (napi_get_value_uint32(env, arguments[4], &asked->flags) != napi_ok) {
        napi_throw_type_error(env, NULL, "the flags are no number");
        return false;
    }
    return true;
}

/* execute(query, data, name, variables, flags) */
static napi_value execute(napi_env env, napi_callback_info info) {
    size_t count = 5;
    napi_value arguments[5];
    struct execution asked = {0};
    TRY(napi_get_cb_info(env, info, &count, arguments, NULL, NULL));
    if (!read_execution(env, arguments, &asked)) {
        return NULL;
    }
    perform(&asked, gql_execute);
    return asked.status == GQL_ANSWERED ? take(env, &asked.reply) : refuse(env, asked.status, &asked.reply);
}

/* newAnswers(): a table of answers that has none yet. */
static napi_value new_answers(napi_env env, napi_callback_info info) {
    (void)info;
    struct value *answers = new_value();
    return answers == NULL ? refuse(env, GQL_NO_MEMORY, NULL) : wrap(env, answers);
}

/* addAnswers(answers, text) */
static napi_value add_answers(napi_env env, napi_callback_info info) {
    size_t count = 2;
    napi_value arguments[2];
    struct bytes text;
    TRY(napi_get_cb_info(env, info, &count, arguments, NULL, NULL));
    struct value *answers = unwrap(env, arguments[0]);
    if (answers == NULL || !bytes_of(env, arguments[1], &text)) {
        return NULL;
    }
    pthread_mutex_lock(&answers->lock);
    uint32_t status = gql_answers_add(&answers->handle, text.at, text.length);
    pthread_mutex_unlock(&answers->lock);
    return status == GQL_ANSWERED ? NULL : refuse(env, status, NULL);
}

/* step(query, answers, name, variables, flags): what is asked, as a text, or the response, as a buffer. */
static napi_value step(napi_env env, napi_callback_info info) {
    size_t count = 5;
    napi_value arguments[5], made, text;
    void *at;
    size_t length;
    struct execution asked = {0};
    TRY(napi_get_cb_info(env, info, &count, arguments, NULL, NULL));
    if (!read_execution(env, arguments, &asked)) {
        return NULL;
    }
    perform(&asked, gql_step);
    if (asked.status != GQL_ASKS) {
        return asked.status == GQL_ANSWERED ? take(env, &asked.reply) : refuse(env, asked.status, &asked.reply);
    }
    made = take(env, &asked.reply);
    if (made == NULL) {
        return NULL;
    }
    TRY(napi_get_buffer_info(env, made, &at, &length));
    TRY(napi_create_string_utf8(env, at, length, &text));
    return text;
}

/* An execution on the pool: it keeps its arguments alive, and tells its end to a promise. */
struct job {
    struct execution asked;
    napi_ref kept;
    napi_deferred promise;
    napi_async_work work;
};

static void work(napi_env env, void *at) {
    (void)env;
    perform(&((struct job *)at)->asked, gql_execute);
}

static void complete(napi_env env, napi_status ended, void *at) {
    struct job *job = at;
    napi_value told = NULL;
    if (ended != napi_ok) {
        job->asked.status = GQL_NO_MEMORY;
    }
    if (job->asked.status == GQL_ANSWERED) {
        told = take(env, &job->asked.reply);
    } else {
        told = error_of(env, job->asked.status, &job->asked.reply);
    }
    if (told == NULL) {
        napi_get_and_clear_last_exception(env, &told);
        job->asked.status = GQL_NO_MEMORY;
    }
    if (job->asked.status == GQL_ANSWERED) {
        napi_resolve_deferred(env, job->promise, told);
    } else {
        napi_reject_deferred(env, job->promise, told);
    }
    gql_free(&job->asked.reply);
    napi_delete_reference(env, job->kept);
    napi_delete_async_work(env, job->work);
    free(job);
}

/* An array with the arguments, which a reference keeps alive. */
static napi_status keep(napi_env env, napi_value *arguments, size_t count, napi_ref *kept) {
    napi_value all;
    napi_status status = napi_create_array_with_length(env, count, &all);
    for (size_t number = 0; status == napi_ok && number < count; number++) {
        status = napi_set_element(env, all, (uint32_t)number, arguments[number]);
    }
    return status == napi_ok ? napi_create_reference(env, all, 1, kept) : status;
}

/* executeAsync(query, data, name, variables, flags): a promise of what execute gives. */
static napi_value execute_async(napi_env env, napi_callback_info info) {
    size_t count = 5;
    napi_value arguments[5], promise, name;
    TRY(napi_get_cb_info(env, info, &count, arguments, NULL, NULL));
    struct job *job = calloc(1, sizeof *job);
    if (job == NULL) {
        return refuse(env, GQL_NO_MEMORY, NULL);
    }
    if (!read_execution(env, arguments, &job->asked)) {
        free(job);
        return NULL;
    }
    if (napi_create_string_utf8(env, "sunwaket", NAPI_AUTO_LENGTH, &name) != napi_ok || keep(env, arguments, count, &job->kept) != napi_ok ||
        napi_create_promise(env, &job->promise, &promise) != napi_ok ||
        napi_create_async_work(env, NULL, name, work, complete, job, &job->work) != napi_ok || napi_queue_async_work(env, job->work) != napi_ok) {
        free(job);
        fail(env);
        return NULL;
    }
    return promise;
}

/* operationKind(query, name, flags): the number of the kind. */
static napi_value operation_kind(napi_env env, napi_callback_info info) {
    size_t count = 3;
    napi_value arguments[3], made;
    struct bytes name;
    uint32_t flags, kind = 0;
    TRY(napi_get_cb_info(env, info, &count, arguments, NULL, NULL));
    struct value *query = unwrap(env, arguments[0]);
    if (query == NULL || !bytes_of(env, arguments[1], &name)) {
        return NULL;
    }
    TRY(napi_get_value_uint32(env, arguments[2], &flags));
    pthread_mutex_lock(&query->lock);
    uint32_t status = gql_operation_kind(&query->handle, name.at, name.length, flags, &kind);
    pthread_mutex_unlock(&query->lock);
    if (status != GQL_ANSWERED && status != GQL_REFUSED) {
        return refuse(env, status, NULL);
    }
    TRY(napi_create_uint32(env, kind, &made));
    return made;
}

/* operationCost(query, name, flags, items, nodes): the cost. */
static napi_value operation_cost(napi_env env, napi_callback_info info) {
    size_t count = 5;
    napi_value arguments[5], made;
    struct bytes name;
    uint32_t flags, cost = 0;
    gql_limit limit;
    gql_handle reply = GQL_EMPTY;
    TRY(napi_get_cb_info(env, info, &count, arguments, NULL, NULL));
    struct value *query = unwrap(env, arguments[0]);
    if (query == NULL || !bytes_of(env, arguments[1], &name)) {
        return NULL;
    }
    TRY(napi_get_value_uint32(env, arguments[2], &flags));
    TRY(napi_get_value_uint32(env, arguments[3], &limit.items));
    TRY(napi_get_value_uint32(env, arguments[4], &limit.nodes));
    pthread_mutex_lock(&query->lock);
    uint32_t status = gql_operation_cost(&query->handle, name.at, name.length, flags, &limit, &cost, &reply);
    pthread_mutex_unlock(&query->lock);
    if (status != GQL_ANSWERED) {
        return refuse(env, status, &reply);
    }
    TRY(napi_create_uint32(env, cost, &made));
    return made;
}

/* check(schema, query): the reports; no bytes where nothing is wrong. */
static napi_value check(napi_env env, napi_callback_info info) {
    size_t count = 2;
    napi_value arguments[2];
    struct bytes schema, query;
    gql_handle reply = GQL_EMPTY;
    TRY(napi_get_cb_info(env, info, &count, arguments, NULL, NULL));
    if (!bytes_of(env, arguments[0], &schema) || !bytes_of(env, arguments[1], &query)) {
        return NULL;
    }
    uint32_t status = gql_check(schema.at, schema.length, query.at, query.length, &reply);
    return status == GQL_ANSWERED || status == GQL_REFUSED ? take(env, &reply) : refuse(env, status, NULL);
}

/* version() */
static napi_value version(napi_env env, napi_callback_info info) {
    napi_value made;
    (void)info;
    TRY(napi_create_uint32(env, gql_version(), &made));
    return made;
}

NAPI_MODULE_INIT() {
    napi_property_descriptor all[] = {
        {"newSchema", NULL, new_schema, NULL, NULL, NULL, napi_enumerable, NULL},
        {"newQuery", NULL, new_query, NULL, NULL, NULL, napi_enumerable, NULL},
        {"newData", NULL, new_data, NULL, NULL, NULL, napi_enumerable, NULL},
        {"share", NULL, share, NULL, NULL, NULL, napi_enumerable, NULL},
        {"close", NULL, close_value, NULL, NULL, NULL, napi_enumerable, NULL},
        {"execute", NULL, execute, NULL, NULL, NULL, napi_enumerable, NULL},
        {"executeAsync", NULL, execute_async, NULL, NULL, NULL, napi_enumerable, NULL},
        {"newAnswers", NULL, new_answers, NULL, NULL, NULL, napi_enumerable, NULL},
        {"addAnswers", NULL, add_answers, NULL, NULL, NULL, napi_enumerable, NULL},
        {"step", NULL, step, NULL, NULL, NULL, napi_enumerable, NULL},
        {"operationKind", NULL, operation_kind, NULL, NULL, NULL, napi_enumerable, NULL},
        {"operationCost", NULL, operation_cost, NULL, NULL, NULL, napi_enumerable, NULL},
        {"check", NULL, check, NULL, NULL, NULL, napi_enumerable, NULL},
        {"version", NULL, version, NULL, NULL, NULL, napi_enumerable, NULL},
    };
    TRY(napi_define_properties(env, exports, sizeof all / sizeof *all, all));
    return exports;
}
