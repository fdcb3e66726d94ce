/* The checker for Node, as an addon over Node-API 8: what index.js calls. `open(texts, options)` gives a handle; the calls `check`,
 * `text`, `documentText` give { status, told }; `checkLater` gives a promise of it, and runs on a thread of Node's pool.
 * scripts/c_library builds it:
 *   cc -shared -fPIC -I include -I NODE/include/node -o node/graphql_checked.node node/binding.c .built/c/libgraphql_checked.a */
#define NAPI_VERSION 8
#include "graphql_checked.h"

#include <node_api.h>
#include <stdbool.h>
#include <stdlib.h>
#include <string.h>

/* What marks an external as a handle of ours. */
static const napi_type_tag tag = {0x6772617068716c63, 0x6865636b65640001};

/* What an external leads to. A call that is under way keeps it, also after the external is gone. */
typedef struct {
    graphql_checked_schema schema;
    int64_t bytes;   /* that the collector was told of */
    size_t users;    /* the external, and a call on another thread; Node's thread alone counts them */
    bool is_in_call; /* on another thread, until its answer is copied */
    bool is_closing; /* once that is done */
} handle;

static napi_value fail(napi_env env, const char *message) {
    bool is_pending = false;
    napi_is_exception_pending(env, &is_pending);
    if (!is_pending) napi_throw_type_error(env, NULL, message);
    return NULL;
}

/* Tells the collector that the handle holds so many bytes. */
static void account(napi_env env, handle *it, int64_t bytes) {
    int64_t all;
    napi_adjust_external_memory(env, bytes - it->bytes, &all);
    it->bytes = bytes;
}

static void close_schema(napi_env env, handle *it) {
    it->is_closing = true;
    if (it->is_in_call) return;
    graphql_checked_close(&it->schema);
    account(env, it, 0);
}

/* One user fewer: the last one frees it. */
static void leave(napi_env env, handle *it) {
    if (it->is_closing || it->users == 1) close_schema(env, it);
    if (!--it->users) free(it);
}

static void collected(napi_env env, void *it, void *unused) {
    (void)unused;
    leave(env, it);
}

/* The handle of an external, if it is ours. */
static handle *handle_of(napi_env env, napi_value value) {
    void *it = NULL;
    bool is_ours = false;
    napi_valuetype type;
    if (napi_typeof(env, value, &type) || type != napi_external) return NULL;
    if (napi_check_object_type_tag(env, value, &tag, &is_ours) || !is_ours || napi_get_value_external(env, value, &it)) return NULL;
    return it;
}

/* The bytes of a buffer, or none. */
static bool text_of(napi_env env, napi_value value, graphql_checked_text *text) {
    void *bytes = NULL;
    bool is_buffer = false;
    if (napi_is_buffer(env, value, &is_buffer) || !is_buffer || napi_get_buffer_info(env, value, &bytes, &text->length)) return false;
    text->bytes = bytes;
    return true;
}

/* { status, told }, where `told` is the answer as a string. */
static napi_value told(napi_env env, graphql_checked_status status, const char *bytes, size_t length) {
    napi_value made, number, text;
    if (napi_create_object(env, &made) || napi_create_uint32(env, status, &number) || napi_create_string_utf8(env, bytes, length, &text)) return NULL;
    napi_set_named_property(env, made, "status", number);
    napi_set_named_property(env, made, "told", text);
    return made;
}

/* open(names, buffers, nesting, stack, maxFaults): { status, told, handle } */
static napi_value open_schema(napi_env env, napi_callback_info info) {
    size_t count = 5, texts = 0, size = 0;
    napi_value words[5], made, external;
    int64_t limits[3];
    uint32_t length = 0;
    if (napi_get_cb_info(env, info, &count, words, NULL, NULL) || count != 5 || napi_get_array_length(env, words[0], &length)) return fail(env, "open");
    for (int i = 0; i < 3; i++)
        if (napi_get_value_int64(env, words[2 + i], &limits[i]) || limits[i] < 0) return fail(env, "a limit is to be a number");
    graphql_checked_text *all = calloc(length + 1, sizeof *all);
    char(*names)[16] = calloc(length + 1, sizeof *names);
    handle *it = calloc(1, sizeof *it);
    graphql_checked_status status = GRAPHQL_CHECKED_MEMORY;
    graphql_checked_answer answer = {"", 0};
    for (; all && names && it && texts < length; texts++) {
        napi_value name, buffer;
        if (napi_get_element(env, words[0], (uint32_t)texts, &name) || napi_get_element(env, words[1], (uint32_t)texts, &buffer)) break;
        if (napi_get_value_string_utf8(env, name, names[texts], sizeof *names, NULL) || !text_of(env, buffer, &all[texts])) break;
        all[texts].path = names[texts];
        size += all[texts].length;
    }
    if (all && names && it && texts == length) {
        graphql_checked_options options = {sizeof options, (size_t)limits[0], (size_t)limits[1], (size_t)limits[2], GRAPHQL_CHECKED_JSON};
        status = graphql_checked_open(&it->schema, all, texts, &options, &answer);
    }
    made = !all || !names || !it || texts == length ? told(env, status, answer.bytes, answer.length) : NULL;
    free(all);
    free(names);
    if (made && status == GRAPHQL_CHECKED_ACCEPTED && !napi_create_external(env, it, collected, NULL, &external)) {
        it->users = 1;
        napi_type_tag_object(env, external, &tag);
        napi_set_named_property(env, made, "handle", external);
        account(env, it, (int64_t)(13 * size + (64 << 10))); /* by measure */
    } else if (it) {
        graphql_checked_close(&it->schema);
        free(it);
    }
    return made ? made : fail(env, "a text is to be a buffer");
}

/* check(handle, name, buffer): { status, told } */
static napi_value check(napi_env env, napi_callback_info info) {
    size_t count = 3;
    napi_value words[3];
    char name[16];
    graphql_checked_text document = {0};
    graphql_checked_answer answer;
    handle *it;
    if (napi_get_cb_info(env, info, &count, words, NULL, NULL) || count != 3 || !(it = handle_of(env, words[0]))) return fail(env, "no handle of this addon");
    if (napi_get_value_string_utf8(env, words[1], name, sizeof name, NULL) || !text_of(env, words[2], &document)) return fail(env, "check");
    document.path = name;
    if (it->is_in_call) return told(env, GRAPHQL_CHECKED_BUSY, "", 0);
    graphql_checked_status status = graphql_checked_check(&it->schema, &document, &answer);
    return told(env, status, answer.bytes, answer.length);
}

/* The indent, or null where none is told; false where it is none. */
static bool indent_of(napi_env env, napi_value value, char room[100], const char **indent) {
    napi_valuetype type;
    size_t length = 0;
    *indent = NULL;
    if (napi_typeof(env, value, &type) || type == napi_null) return type == napi_null;
    *indent = room;
    return !napi_get_value_string_utf8(env, value, room, 100, &length) && length < 99 && strlen(room) == length;
}

/* text(handle, indent) and documentText(handle, name, buffer, indent): { status, told } */
static napi_value schema_text(napi_env env, napi_callback_info info) {
    size_t count = 2;
    napi_value words[2];
    char room[100];
    const char *indent;
    graphql_checked_answer answer;
    handle *it;
    if (napi_get_cb_info(env, info, &count, words, NULL, NULL) || count != 2 || !(it = handle_of(env, words[0]))) return fail(env, "no handle of this addon");
    if (!indent_of(env, words[1], room, &indent)) return fail(env, "an indent is to be a short string");
    if (it->is_in_call) return told(env, GRAPHQL_CHECKED_BUSY, "", 0);
    graphql_checked_status status = graphql_checked_schema_text(&it->schema, indent, &answer);
    return told(env, status, answer.bytes, answer.length);
}

static napi_value document_text(napi_env env, napi_callback_info info) {
    size_t count = 4;
    napi_value words[4];
    char name[16], room[100];
    const char *indent;
    graphql_checked_text document = {0};
    graphql_checked_answer answer;
    handle *it;
    if (napi_get_cb_info(env, info, &count, words, NULL, NULL) || count != 4 || !(it = handle_of(env, words[0]))) return fail(env, "no handle of this addon");
    if (napi_get_value_string_utf8(env, words[1], name, sizeof name, NULL) || !text_of(env, words[2], &document)) return fail(env, "documentText");
    if (!indent_of(env, words[3], room, &indent)) return fail(env, "an indent is to be a short string");
    document.path = name;
    if (it->is_in_call) return told(env, GRAPHQL_CHECKED_BUSY, "", 0);
    graphql_checked_status status = graphql_checked_document_text(&it->schema, &document, indent, &answer);
    return told(env, status, answer.bytes, answer.length);
}

/* close(handle) */
static napi_value close_handle(napi_env env, napi_callback_info info) {
    size_t count = 1;
    napi_value word;
    handle *it;
    if (napi_get_cb_info(env, info, &count, &word, NULL, NULL) || count != 1 || !(it = handle_of(env, word))) return fail(env, "no handle of this addon");
    close_schema(env, it);
    return NULL;
}

/* A check on a thread of Node's pool, over a copy of the document. */
typedef struct {
    napi_async_work work;
    napi_deferred deferred;
    handle *it;
    char *bytes, name[16], *answer;
    size_t length, answer_length;
    graphql_checked_status status;
} later;

static void run(napi_env env, void *data) {
    later *one = data;
    graphql_checked_text document = {one->bytes, one->length, one->name};
    graphql_checked_answer answer;
    (void)env;
    one->status = graphql_checked_check(&one->it->schema, &document, &answer);
    one->answer = malloc(answer.length + 1);
    if (!one->answer) one->status = GRAPHQL_CHECKED_MEMORY;
    else memcpy(one->answer, answer.bytes, one->answer_length = answer.length);
}

static void done(napi_env env, napi_status unused, void *data) {
    later *one = data;
    napi_value made = told(env, one->status, one->answer ? one->answer : "", one->answer_length);
    (void)unused;
    if (made) napi_resolve_deferred(env, one->deferred, made);
    napi_delete_async_work(env, one->work);
    one->it->is_in_call = false;
    leave(env, one->it);
    free(one->bytes);
    free(one->answer);
    free(one);
}

/* checkLater(handle, name, buffer): a promise of { status, told } */
static napi_value check_later(napi_env env, napi_callback_info info) {
    size_t count = 3;
    napi_value words[3], promise, title;
    graphql_checked_text document = {0};
    handle *it;
    if (napi_get_cb_info(env, info, &count, words, NULL, NULL) || count != 3 || !(it = handle_of(env, words[0]))) return fail(env, "no handle of this addon");
    later *one = it->is_in_call || it->is_closing ? NULL : calloc(1, sizeof *one);
    if (!one || !text_of(env, words[2], &document) || napi_get_value_string_utf8(env, words[1], one->name, sizeof one->name, NULL)) return free(one), fail(env, "checkLater");
    one->bytes = malloc(document.length + 1);
    if (!one->bytes || napi_create_string_utf8(env, "graphql_checked", NAPI_AUTO_LENGTH, &title) || napi_create_promise(env, &one->deferred, &promise) ||
        napi_create_async_work(env, NULL, title, run, done, one, &one->work))
        return free(one->bytes), free(one), fail(env, "no work is taken");
    memcpy(one->bytes, document.bytes ? document.bytes : "", one->length = document.length);
    one->it = it;
    if (napi_queue_async_work(env, one->work)) return napi_delete_async_work(env, one->work), free(one->bytes), free(one), fail(env, "no work is taken");
    it->users++;
    it->is_in_call = true;
    return promise;
}

static napi_value build(napi_env env, napi_callback_info info) {
    napi_value text = NULL;
    (void)info;
    napi_create_string_utf8(env, graphql_checked_build(), NAPI_AUTO_LENGTH, &text);
    return text;
}

static napi_value status_text(napi_env env, napi_callback_info info) {
    size_t count = 1;
    uint32_t status = 0;
    napi_value word, text = NULL;
    if (napi_get_cb_info(env, info, &count, &word, NULL, NULL) || napi_get_value_uint32(env, word, &status)) return fail(env, "statusText");
    napi_create_string_utf8(env, graphql_checked_status_text((graphql_checked_status)status), NAPI_AUTO_LENGTH, &text);
    return text;
}

NAPI_MODULE_INIT() {
    static const struct {
        const char *name;
        napi_callback call;
    } all[] = {{"open", open_schema}, {"check", check}, {"checkLater", check_later}, {"text", schema_text}, {"documentText", document_text},
               {"close", close_handle}, {"build", build}, {"statusText", status_text}};
    for (size_t i = 0; i < sizeof all / sizeof *all; i++) {
        napi_value function;
        if (napi_create_function(env, all[i].name, NAPI_AUTO_LENGTH, all[i].call, NULL, &function)) return NULL;
        napi_set_named_property(env, exports, all[i].name, function);
    }
    return exports;
}
