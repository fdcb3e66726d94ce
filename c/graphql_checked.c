/* What C calls, over the proved functions: it looks for null pointers and for handles that are in a call, keeps a schema's texts and
 * the last answer, and asks how much stack there is. No proof covers it. */
#define _GNU_SOURCE
#include "graphql_checked.h"

#include <pthread.h>
#include <stdbool.h>
#include <stdlib.h>
#include <string.h>
#include <sys/auxv.h>
#include <sys/resource.h>
#include <unistd.h>

/* The proved handle, as Rattle declares it. */
typedef struct {
    void *at;
} proved_schema;

uint32_t graphql_proved_schema_open(const uint8_t *names, size_t, const size_t *name_ends, size_t, const uint8_t *texts, size_t,
                                    const size_t *ends, size_t, size_t nesting, size_t stack, bool json, proved_schema *,
                                    uint8_t *room, size_t, size_t *needed);
uint32_t graphql_proved_schema_check(proved_schema *, bool json, const uint8_t *path, size_t, const uint8_t *document, size_t,
                                     uint8_t *room, size_t, size_t *needed);
uint32_t graphql_proved_schema_text(proved_schema *, bool lines, const uint8_t *prefix, size_t, uint8_t *room, size_t, size_t *needed);
uint32_t graphql_proved_document_text(proved_schema *, bool json, const uint8_t *path, size_t, const uint8_t *document, size_t,
                                      bool lines, const uint8_t *prefix, size_t, uint8_t *room, size_t, size_t *needed);
void graphql_proved_schema_close(proved_schema *);

/* scripts/c_library says what it builds from; whoever builds by hand has proved nothing. */
#ifndef GRAPHQL_CHECKED_IS_PROVED
#define GRAPHQL_CHECKED_IS_PROVED 0
#endif
#ifndef GRAPHQL_CHECKED_COMMIT
#define GRAPHQL_CHECKED_COMMIT "unknown"
#endif
#define MADE GRAPHQL_CHECKED_VERSION " (commit " GRAPHQL_CHECKED_COMMIT

uint32_t graphql_checked_version(void) { return GRAPHQL_CHECKED_VERSION_NUMBER; }
uint32_t graphql_checked_proved(void) { return GRAPHQL_CHECKED_IS_PROVED; }
const char *graphql_checked_build(void) { return GRAPHQL_CHECKED_IS_PROVED ? MADE ", proved)" : MADE ", not proved)"; }

const char *graphql_checked_status_text(graphql_checked_status status) {
    switch (status) {
    case GRAPHQL_CHECKED_ACCEPTED: return "accepted";
    case GRAPHQL_CHECKED_REFUSED: return "refused";
    case GRAPHQL_CHECKED_NOT_UTF8: return "a text or a path is not UTF-8";
    case GRAPHQL_CHECKED_MEMORY: return "out of memory";
    case GRAPHQL_CHECKED_STACK: return "the thread has too little stack for this nesting";
    case GRAPHQL_CHECKED_NULL: return "a pointer is null that must not be";
    case GRAPHQL_CHECKED_INDENT: return "the indent is not of spaces and tabs alone";
    case GRAPHQL_CHECKED_CLOSED: return "the handle has no schema";
    case GRAPHQL_CHECKED_OPEN: return "the handle has a schema already";
    case GRAPHQL_CHECKED_BUSY: return "the handle is in a call";
    case GRAPHQL_CHECKED_OPTIONS: return "the options have what this library does not know";
    }
    return "no status";
}

/* ---- stack */

/* The measures of `ffi_memory`, of whose frames those without proofs are larger. */
enum { BASE = 65536, EACH = GRAPHQL_CHECKED_IS_PROVED ? 1152 : 2304 };

size_t graphql_checked_stack(size_t nesting) { return nesting > (SIZE_MAX - BASE) / EACH ? SIZE_MAX : BASE + EACH * nesting; }

/* Finds where the thread's stack begins and ends, by the thread. */
static bool find_stack(char **low, char **high) {
    pthread_attr_t attributes;
    void *at = NULL;
    size_t size = 0, guard = 0;
    if (pthread_getattr_np(pthread_self(), &attributes)) return false;
    pthread_attr_getstack(&attributes, &at, &size);
    pthread_attr_getguardsize(&attributes, &guard);
    pthread_attr_destroy(&attributes);
    *low = (char *)at + guard, *high = (char *)at + size;
    return true;
}

/* The same of a process's first thread where /proc/self/maps, which glibc reads for it, cannot be opened. Its stack ends with the page
 * in which the program's path ends, and grows as far as its limit. Linux keeps at least 128 MB free for that, whatever the limit. */
static bool find_first_stack(char **low, char **high) {
    const size_t page = (size_t)sysconf(_SC_PAGESIZE), most = (size_t)64 << 20;
    const char *path = (const char *)getauxval(AT_EXECFN);
    struct rlimit limit;
    if (getpid() != gettid() || !path || getrlimit(RLIMIT_STACK, &limit)) return false;
    *high = (char *)(((uintptr_t)path + strlen(path)) / page * page + page);
    *low = *high - (limit.rlim_cur < most ? limit.rlim_cur : most);
    return true;
}

/* How many bytes of stack the thread has left; 1 where this runs on no stack of the thread's. */
static size_t stack_left(void) {
    static _Thread_local char *low, *high;
    char here;
    if (!high && !find_stack(&low, &high) && !find_first_stack(&low, &high)) return 1;
    char *volatile at = &here;
    return at > low && at < high ? (size_t)(at - low) : 1;
}

/* ---- handles */

/* What a handle leads to. */
typedef struct {
    proved_schema schema; /* of nothing, where none is open */
    graphql_checked_options options;
    char *texts;   /* names and texts, into which the schema leads */
    uint8_t *room; /* the last answer, with room for a zero byte */
    size_t size;   /* of the room */
} held;

/* A handle leads here while it is in a call. */
static char in_call;

/* Takes what a handle leads to, so that no other call has it. */
static void *take(graphql_checked_schema *schema) { return __atomic_exchange_n(&schema->at, &in_call, __ATOMIC_ACQ_REL); }
static void give(graphql_checked_schema *schema, void *at) { __atomic_store_n(&schema->at, at, __ATOMIC_RELEASE); }

/* Frees what a handle leads to, its schema first, since that leads into the texts. */
static void drop(held *it) {
    if (!it) return;
    if (it->schema.at) graphql_proved_schema_close(&it->schema);
    free(it->texts);
    free(it->room);
    free(it);
}

static void *drop_there(void *it) { return drop(it), NULL; }

/* Drops it on a thread of its own, where this one has too little stack for the nesting. */
static bool drop_deep(held *it) {
    pthread_t thread;
    pthread_attr_t attributes;
    size_t size = graphql_checked_stack(it->options.nesting);
    if (!it->schema.at || it->options.stack || stack_left() >= size) return drop(it), true;
    if (pthread_attr_init(&attributes)) return false;
    bool is_made = !pthread_attr_setstacksize(&attributes, size + BASE) && !pthread_create(&thread, &attributes, drop_there, it);
    pthread_attr_destroy(&attributes);
    if (is_made) pthread_join(thread, NULL);
    return is_made;
}

/* Of its first room an answer takes only the pages that are written from memory. A room of more than twice as much is long. */
enum { FIRST = 1 << 19 };

/* Makes room for so many bytes and a zero byte. */
static bool make_room(held *it, size_t length) {
    free(it->room);
    it->room = length < SIZE_MAX ? malloc(length + 1) : NULL;
    it->size = it->room ? length + 1 : 0;
    return it->room != NULL;
}

/* Gives back what a long answer took, once a short one follows. */
static void shrink(held *it, size_t length) {
    uint8_t *less = it->size > 2 * FIRST && length < FIRST ? realloc(it->room, FIRST) : NULL;
    if (less) it->room = less, it->size = FIRST;
}

/* How long a report is when it has no more faults than are wanted: each has a line, and one more begins a report as text. */
static size_t cut(const held *it, size_t length) {
    size_t lines = it->options.max_faults, at = 0;
    if (!lines || lines == SIZE_MAX) return length;
    for (lines += it->options.form == GRAPHQL_CHECKED_TEXT; lines && at < length; at++) lines -= it->room[at] == '\n';
    return at;
}

/* ---- calls */

/* What is asked. */
typedef struct {
    enum { OPEN, CHECK, SCHEMA_TEXT, DOCUMENT_TEXT } call;
    const graphql_checked_text *document;
    const char *indent;
    size_t count, names_length, texts_length, *ends; /* of an opening: names first, then texts, with their ends */
} question;

static const uint8_t *bytes(const char *at) { return (const uint8_t *)(at ? at : ""); }
static size_t length_of(const char *at) { return at ? strlen(at) : 0; }

static uint32_t call(held *it, const question *q, uint8_t *room, size_t size, size_t *needed) {
    const graphql_checked_text *document = q->document;
    const char *path = document && document->path ? document->path : "document";
    bool json = it->options.form == GRAPHQL_CHECKED_JSON;
    switch (q->call) {
    case OPEN: {
        size_t stack = it->options.stack ? it->options.stack : stack_left();
        return graphql_proved_schema_open(bytes(it->texts), q->names_length, q->ends, q->count, bytes(it->texts) + q->names_length,
                                          q->texts_length, q->ends + q->count, q->count, it->options.nesting, stack, json,
                                          &it->schema, room, size, needed);
    }
    case CHECK:
        return graphql_proved_schema_check(&it->schema, json, bytes(path), strlen(path), bytes(document->bytes), document->length,
                                           room, size, needed);
    case SCHEMA_TEXT:
        return graphql_proved_schema_text(&it->schema, q->indent, bytes(q->indent), length_of(q->indent), room, size, needed);
    default:
        return graphql_proved_document_text(&it->schema, json, bytes(path), strlen(path), bytes(document->bytes), document->length,
                                            q->indent, bytes(q->indent), length_of(q->indent), room, size, needed);
    }
}

/* A status without an answer. */
static graphql_checked_status untold(graphql_checked_status status, graphql_checked_answer *answer) {
    if (answer) answer->bytes = "", answer->length = 0;
    return status;
}

/* Asks, and tells the answer if one is wanted. The call is made again where the answer does not fit the room. */
static graphql_checked_status ask(held *it, const question *q, graphql_checked_answer *answer) {
    uint8_t none = 0;
    size_t length = 0;
    uint32_t status;
    if (!answer) return status = call(it, q, &none, 0, &length), shrink(it, 0), status;
    if (!it->room && !make_room(it, FIRST - 1)) return untold(GRAPHQL_CHECKED_MEMORY, answer);
    while (status = call(it, q, it->room, it->size - 1, &length), length > it->size - 1)
        if (!make_room(it, length)) return untold(GRAPHQL_CHECKED_MEMORY, answer);
    if (status == GRAPHQL_CHECKED_REFUSED) length = cut(it, length);
    shrink(it, length);
    if (!length) return untold(status, answer);
    it->room[length] = 0;
    answer->bytes = (const char *)it->room, answer->length = length;
    return status;
}

/* ---- opening */

/* The options with what stands for nothing, if all that is told is known: also where the caller's struct is shorter or longer. A size
 * of which no struct can be is not read any further. */
static bool options_of(const graphql_checked_options *given, graphql_checked_options *options) {
    static const graphql_checked_options none = GRAPHQL_CHECKED_DEFAULTS;
    enum { LONGEST = 1024 };
    *options = none;
    if (given) {
        size_t size = given->size;
        if (size < sizeof size || size % sizeof size || size > LONGEST) return false;
        for (size_t i = sizeof none; i < size; i++)
            if (((const char *)given)[i]) return false;
        memcpy(options, given, size < sizeof none ? size : sizeof none);
    }
    if (!options->nesting) options->nesting = GRAPHQL_CHECKED_NESTING;
    return options->form <= GRAPHQL_CHECKED_TEXT;
}

/* Copies names and texts one after the other, with the end of each. */
static graphql_checked_status copy(held *it, question *q, const graphql_checked_text *texts) {
    size_t whole = 0, at = 0, from = 0;
    for (size_t i = 0; i < q->count; i++) {
        if (!texts[i].bytes && texts[i].length) return GRAPHQL_CHECKED_NULL;
        if (texts[i].length > PTRDIFF_MAX) return GRAPHQL_CHECKED_MEMORY;
        whole += texts[i].length + strlen(texts[i].path ? texts[i].path : "schema");
        if (whole > PTRDIFF_MAX) return GRAPHQL_CHECKED_MEMORY;
    }
    it->texts = malloc(whole + 1);
    q->ends = malloc((2 * q->count + 1) * sizeof *q->ends);
    if (!it->texts || !q->ends) return GRAPHQL_CHECKED_MEMORY;
    for (size_t i = 0; i < 2 * q->count; i++) {
        const graphql_checked_text *text = &texts[i % q->count];
        const char *name = text->path ? text->path : "schema", *part = i < q->count ? name : text->bytes;
        size_t length = i < q->count ? strlen(name) : text->length;
        if (i == q->count) q->names_length = from = at;
        if (length) memcpy(it->texts + at, part, length);
        q->ends[i] = (at += length) - from;
    }
    q->texts_length = at - q->names_length;
    return GRAPHQL_CHECKED_ACCEPTED;
}

graphql_checked_status graphql_checked_open(graphql_checked_schema *schema, const graphql_checked_text *texts, size_t count,
                                            const graphql_checked_options *options, graphql_checked_answer *answer) {
    if (!schema || (!texts && count)) return untold(GRAPHQL_CHECKED_NULL, answer);
    held *it = take(schema);
    if ((void *)it == &in_call) return untold(GRAPHQL_CHECKED_BUSY, answer);
    if (it && it->schema.at) return give(schema, it), untold(GRAPHQL_CHECKED_OPEN, answer);
    drop(it);
    question q = {OPEN, .count = count};
    graphql_checked_status status = GRAPHQL_CHECKED_MEMORY;
    it = calloc(1, sizeof *it);
    if (it) status = options_of(options, &it->options) ? copy(it, &q, texts) : GRAPHQL_CHECKED_OPTIONS;
    status = status ? untold(status, answer) : ask(it, &q, answer);
    free(q.ends);
    if (status > GRAPHQL_CHECKED_REFUSED) drop(it), it = NULL;
    return give(schema, it), status;
}

/* ---- an open handle */

/* Asks what the handle leads to, if it has a schema, and the thread has as much stack as its nesting needs. */
static graphql_checked_status ask_open(graphql_checked_schema *schema, const question *q, graphql_checked_answer *answer) {
    if (!schema) return untold(GRAPHQL_CHECKED_NULL, answer);
    held *it = take(schema);
    if ((void *)it == &in_call) return untold(GRAPHQL_CHECKED_BUSY, answer);
    graphql_checked_status status = GRAPHQL_CHECKED_ACCEPTED;
    if (!it || !it->schema.at) status = GRAPHQL_CHECKED_CLOSED;
    else if (!it->options.stack && stack_left() < graphql_checked_stack(it->options.nesting)) status = GRAPHQL_CHECKED_STACK;
    status = status ? untold(status, answer) : ask(it, q, answer);
    return give(schema, it), status;
}

/* Whether a document is told. */
static bool is_told(const graphql_checked_text *document) { return document && (document->bytes || !document->length); }

graphql_checked_status graphql_checked_check(graphql_checked_schema *schema, const graphql_checked_text *document,
                                             graphql_checked_answer *answer) {
    question q = {CHECK, .document = document};
    return is_told(document) ? ask_open(schema, &q, answer) : untold(GRAPHQL_CHECKED_NULL, answer);
}

graphql_checked_status graphql_checked_schema_text(graphql_checked_schema *schema, const char *indent, graphql_checked_answer *answer) {
    question q = {SCHEMA_TEXT, .indent = indent};
    return ask_open(schema, &q, answer);
}

graphql_checked_status graphql_checked_document_text(graphql_checked_schema *schema, const graphql_checked_text *document,
                                                     const char *indent, graphql_checked_answer *answer) {
    question q = {DOCUMENT_TEXT, .document = document, .indent = indent};
    return is_told(document) ? ask_open(schema, &q, answer) : untold(GRAPHQL_CHECKED_NULL, answer);
}

graphql_checked_status graphql_checked_close(graphql_checked_schema *schema) {
    if (!schema) return GRAPHQL_CHECKED_ACCEPTED;
    held *it = take(schema);
    if ((void *)it == &in_call) return GRAPHQL_CHECKED_BUSY;
    if (it && !drop_deep(it)) return give(schema, it), GRAPHQL_CHECKED_STACK;
    return give(schema, NULL), GRAPHQL_CHECKED_ACCEPTED;
}
