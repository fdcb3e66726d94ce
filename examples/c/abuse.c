/* Wrong calls, and calls whose answers are known:
 * abuse [bytes N | stack | small | files | room | threads | shared N | fork | signal | opens N | documents N [SCHEMA [DOCUMENT]] |
 *        handles N [SCHEMA]]
 *
 * A difference is told with its line, and ends the program with 1. Each text ends where memory ends, so that a byte too far ends the
 * program too. Without a word it compares answers. It is also run by scripts/refused.py --library, which refuses requests for
 * memory: then MEMORY is a right answer, and where one request alone is refused the call is made again and is to give what is
 * wanted. The words:
 *   bytes N        documents cut at each byte, and N with some other bytes: all ways of asking give the same
 *   stack          the deepest texts on threads of 512 KB and of 1 MB; without proofs, of 960 KB and 2 MB
 *   small          threads of 128 KB, which are asked for their stack: too deep a nesting is told, a small one is judged
 *   files          where no file can be opened, and so /proc not be read, the first thread's stack is found too
 *   room           an answer of less than 512 KB is made once, and the room of a longer one is given back
 *   threads        four threads, each with its own handle
 *   shared N       four threads with one handle, which ask it N times each: each is answered, or told that it is busy
 *   fork           children that are forked while another thread is in a call: each ends with an answer
 *   signal         a signal handler that asks, opens and closes the handle that is asked: it is told that it is busy
 *   opens N        N handles opened and closed: nothing is left of them
 *   documents N    N documents that are accepted over one handle, and N that are refused: nothing is left of them. Tells how much
 *                  processor time each takes. SCHEMA and DOCUMENT are files, in place of small texts
 *   handles N      N handles on one schema: tells how much memory each takes
 *
 * It is linked with --wrap=malloc, so that requests for memory are counted. */
#define _GNU_SOURCE
#include "graphql_checked.h"

#include <malloc.h>
#include <pthread.h>
#include <signal.h>
#include <stdio.h>
#include <stdlib.h>
#include <string.h>
#include <sys/mman.h>
#include <sys/resource.h>
#include <sys/time.h>
#include <sys/wait.h>
#include <time.h>
#include <unistd.h>

enum { SCHEMA, DOCUMENT, INDENT, AREAS, BYTES = 1 << 14 };

static char *end_of[AREAS];                   /* where the memory of each area ends */
static int memory_is_refused, is_each, told;  /* by scripts/refused.py; how often MEMORY was the answer */
static graphql_checked_status status;
static graphql_checked_answer answer;
static char figures[200]; /* what is told last */
static unsigned long requests;

/* Counts a request for memory, of the library too. */
void *__real_malloc(size_t size);
void *__wrap_malloc(size_t size);
void *__wrap_malloc(size_t size) { return __atomic_add_fetch(&requests, 1, __ATOMIC_RELAXED), __real_malloc(size); }

/* Makes the areas: after each is a page that nobody may touch. */
static void make_areas(void) {
    size_t page = (size_t)sysconf(_SC_PAGESIZE);
    for (int area = 0; area < AREAS; area++) {
        char *at = mmap(0, BYTES + page, PROT_READ | PROT_WRITE, MAP_PRIVATE | MAP_ANONYMOUS, -1, 0);
        if (at == MAP_FAILED || mprotect(at + BYTES, page, PROT_NONE)) exit(2);
        end_of[area] = at + BYTES;
    }
}

/* The bytes, at the end of the area. */
static const char *placed(int area, const char *bytes, size_t length) { return memcpy(end_of[area] - length, bytes, length); }

static void differs(int line, const char *what, unsigned long found, unsigned long wanted) {
    fprintf(stderr, "abuse.c:%d: %s: %lu and not %lu\n", line, what, found, wanted);
    exit(1);
}

/* A text at the end of its area, under a name. */
static const graphql_checked_text *text_at(int area, const char *bytes, size_t length, const char *path) {
    static graphql_checked_text texts[AREAS];
    texts[area] = (graphql_checked_text){placed(area, bytes, length), length, path};
    return &texts[area];
}

#define TEXT(area, text) text_at(area, text, sizeof(text) - 1, 0)
#define NAMED(area, text, path) text_at(area, text, sizeof(text) - 1, path)
#define DOC(text) TEXT(DOCUMENT, text)
#define PREFIX(text) placed(INDENT, text, sizeof(text))
#define AS_TEXT {sizeof(graphql_checked_options), 100, 0, 0, GRAPHQL_CHECKED_TEXT}
#define AS_JSON {sizeof(graphql_checked_options), 100, 0, 0, GRAPHQL_CHECKED_JSON}
static const graphql_checked_options as_text = AS_TEXT, as_json = AS_JSON;

/* Whether the answer is this text, with a zero byte behind it. */
static void has(int line, const char *text) {
    size_t wanted = strlen(text);
    if (!answer.bytes) differs(line, "bytes of the answer", 0, 1);
    if (answer.length != wanted) fprintf(stderr, "%s", answer.bytes), differs(line, "length", answer.length, wanted);
    if (memcmp(answer.bytes, text, wanted + 1)) fprintf(stderr, "%s", answer.bytes), differs(line, "the answer", 1, 0);
}

/* Whether the call is to be made again, since one request for memory was refused. */
static int is_again(int line) {
    if (status != GRAPHQL_CHECKED_MEMORY || !memory_is_refused) return 0;
    has(line, "");
    told++;
    return !is_each;
}

/* Whether the status is the one that is wanted; else memory is refused. */
static int is(int line, graphql_checked_status wanted) {
    if (status != wanted && !(status == GRAPHQL_CHECKED_MEMORY && is_each)) differs(line, graphql_checked_status_text(status), status, wanted);
    if (status != GRAPHQL_CHECKED_ACCEPTED && status != GRAPHQL_CHECKED_REFUSED) has(line, "");
    return status == wanted;
}

#define ASK(wanted, call) (answer = (graphql_checked_answer){"", 0}, status = (call), is_again(__LINE__) ? (void)(status = (call)) : (void)0, is(__LINE__, wanted))
#define TELLS(wanted, text, call) (ASK(wanted, call) ? has(__LINE__, text) : (void)0)
#define A_FIELD TEXT(SCHEMA, "type Query { a: Int }")
#define REPORT "refused\n2:2: `Query` has no field `missing`\n"
#define JSON_AT(path)                                                                                             \
    "{\"path\":\"" path "\",\"line\":1,\"column\":3,\"end\":{\"line\":1,\"column\":10},\"offset\":2,\"length\":7," \
    "\"severity\":\"error\",\"rule\":\"UndefinedField\",\"message\":\"`Query` has no field `missing`\","                \
    "\"related\":[],\"hint\":null,\"fields\":{\"type_name\":\"Query\",\"field_name\":\"missing\"}}\n"

/* What is no opening. Each leaves the handle without a schema. */
static void not_opened(graphql_checked_schema *schema) {
    static const graphql_checked_text no_bytes = {0, 1, 0}, nothing = {0, 0, 0}, huge[] = {{"", PTRDIFF_MAX, 0}, {"", PTRDIFF_MAX, 0}, {"", 2, 0}};
    static const size_t no_sizes[] = {0, 1, offsetof(graphql_checked_options, nesting) + 4, sizeof(graphql_checked_options) - 1, 1 << 20, SIZE_MAX - 7, SIZE_MAX};
    struct { graphql_checked_options known; size_t more; } later = {AS_JSON, 1};
    graphql_checked_options other = AS_JSON;
    ASK(GRAPHQL_CHECKED_NULL, graphql_checked_open(0, A_FIELD, 1, 0, &answer));
    ASK(GRAPHQL_CHECKED_NULL, graphql_checked_open(schema, 0, 1, 0, &answer));
    ASK(GRAPHQL_CHECKED_NULL, graphql_checked_open(schema, &no_bytes, 1, 0, &answer));
    if (!memory_is_refused) ASK(GRAPHQL_CHECKED_MEMORY, graphql_checked_open(schema, huge, 3, 0, &answer));
    ASK(GRAPHQL_CHECKED_REFUSED, graphql_checked_open(schema, 0, 0, 0, &answer));
    ASK(GRAPHQL_CHECKED_REFUSED, graphql_checked_open(schema, &nothing, 1, 0, &answer));
    ASK(GRAPHQL_CHECKED_NOT_UTF8, graphql_checked_open(schema, TEXT(SCHEMA, "# \xc3"), 1, 0, &answer));
    ASK(GRAPHQL_CHECKED_NOT_UTF8, graphql_checked_open(schema, NAMED(SCHEMA, "type Query { a: Int }", "\xff"), 1, 0, &answer));
    /* options */
    other.form = 2;
    ASK(GRAPHQL_CHECKED_OPTIONS, graphql_checked_open(schema, A_FIELD, 1, &other, &answer));
    other.form = 0;
    for (size_t i = 0; i < sizeof no_sizes / sizeof *no_sizes; i++) {
        other.size = no_sizes[i];
        ASK(GRAPHQL_CHECKED_OPTIONS, graphql_checked_open(schema, A_FIELD, 1, (const void *)placed(INDENT, (const char *)&other, sizeof other), &answer));
    }
    later.known.size = sizeof later;
    ASK(GRAPHQL_CHECKED_OPTIONS, graphql_checked_open(schema, A_FIELD, 1, &later.known, &answer));
    /* nesting and stack */
    other = as_json, other.nesting = 500, other.stack = graphql_checked_stack(500) - 1;
    ASK(GRAPHQL_CHECKED_STACK, graphql_checked_open(schema, A_FIELD, 1, &other, &answer));
    other.nesting = SIZE_MAX, other.stack = SIZE_MAX;
    ASK(GRAPHQL_CHECKED_STACK, graphql_checked_open(schema, A_FIELD, 1, &other, &answer));
    other.nesting = (size_t)1 << 40, other.stack = 0;
    ASK(GRAPHQL_CHECKED_STACK, graphql_checked_open(schema, A_FIELD, 1, &other, &answer));
    /* reports: texts under their names and numbers */
    graphql_checked_text two[] = {{"type Query { a: Int }", 21, "one"}, {"extend type Query { b: Missing }", 32, "two"}};
    TELLS(GRAPHQL_CHECKED_REFUSED, "refused\n2:23: cannot find type `Missing` in this document\n", graphql_checked_open(schema, two, 2, &as_text, &answer));
    TELLS(GRAPHQL_CHECKED_REFUSED,
          "{\"path\":\"two\",\"line\":1,\"column\":24,\"end\":{\"line\":1,\"column\":31},\"offset\":23,\"length\":7,\"severity\":\"error\","
          "\"rule\":\"UndefinedDefinition\",\"message\":\"cannot find type `Missing` in this document\",\"related\":[],"
          "\"hint\":\"no type `Missing` in one, two; a schema of several files needs them all\",\"fields\":{\"name\":\"Missing\"}}\n",
          graphql_checked_open(schema, two, 2, &as_json, &answer));
    ASK(GRAPHQL_CHECKED_REFUSED, graphql_checked_open(schema, two, 2, &as_json, 0));
    two[0].length = two[1].length = 0;
    TELLS(GRAPHQL_CHECKED_REFUSED, "refused\n1:0: unexpected end of text\n2:0: unexpected end of text\n", graphql_checked_open(schema, two, 2, &as_text, &answer));
    ASK(GRAPHQL_CHECKED_CLOSED, graphql_checked_check(schema, DOC("{ a }"), &answer));
}

#define TWO "type Query { a: Int }", "extend type Query { b: Int }"
#define BOTH "type Query { a: Int } extend type Query { b: Int }"

/* Opens a handle on two texts. */
static int opens_two(graphql_checked_schema *schema, const graphql_checked_options *options) {
    static const char *const texts[] = {TWO};
    graphql_checked_text two[] = {{texts[0], strlen(texts[0]), "one"}, {texts[1], strlen(texts[1]), 0}};
    return ASK(GRAPHQL_CHECKED_ACCEPTED, graphql_checked_open(schema, two, 2, options, &answer));
}

/* What is asked of an open handle, whatever the form of reports. */
static void asked(graphql_checked_schema *schema) {
    static const graphql_checked_text no_bytes = {0, 1, 0}, nothing = {0, 0, 0};
    TELLS(GRAPHQL_CHECKED_ACCEPTED, "", graphql_checked_check(schema, DOC("{ a b }"), &answer));
    ASK(GRAPHQL_CHECKED_REFUSED, graphql_checked_check(schema, DOC("{ c }"), 0));
    ASK(GRAPHQL_CHECKED_REFUSED, graphql_checked_check(schema, DOC("{ a \0 }"), &answer));
    ASK(GRAPHQL_CHECKED_NOT_UTF8, graphql_checked_check(schema, DOC("{ a \xff }"), &answer));
    ASK(GRAPHQL_CHECKED_NOT_UTF8, graphql_checked_check(schema, DOC("{ a \xed\xa0\x80 }"), &answer));
    ASK(GRAPHQL_CHECKED_NOT_UTF8, graphql_checked_check(schema, NAMED(DOCUMENT, "{ a }", "\xc3"), &answer));
    ASK(GRAPHQL_CHECKED_REFUSED, graphql_checked_check(schema, &nothing, &answer));
    ASK(GRAPHQL_CHECKED_NULL, graphql_checked_check(schema, 0, &answer));
    ASK(GRAPHQL_CHECKED_NULL, graphql_checked_check(schema, &no_bytes, &answer));
    ASK(GRAPHQL_CHECKED_NULL, graphql_checked_check(0, DOC("{ a }"), &answer));
    ASK(GRAPHQL_CHECKED_OPEN, graphql_checked_open(schema, A_FIELD, 1, 0, &answer));
    /* canonical texts */
    TELLS(GRAPHQL_CHECKED_ACCEPTED, BOTH, graphql_checked_schema_text(schema, 0, &answer));
    TELLS(GRAPHQL_CHECKED_ACCEPTED, "type Query {\n a: Int\n}\n\nextend type Query {\n b: Int\n}\n", graphql_checked_schema_text(schema, PREFIX(" "), &answer));
    ASK(GRAPHQL_CHECKED_INDENT, graphql_checked_schema_text(schema, PREFIX("- "), &answer));
    ASK(GRAPHQL_CHECKED_INDENT, graphql_checked_schema_text(schema, PREFIX(" \n"), &answer));
    ASK(GRAPHQL_CHECKED_NULL, graphql_checked_schema_text(0, 0, &answer));
    TELLS(GRAPHQL_CHECKED_ACCEPTED, "{ b a }", graphql_checked_document_text(schema, DOC("{b,a}"), 0, &answer));
    TELLS(GRAPHQL_CHECKED_ACCEPTED, "{\n\tb\n\ta\n}\n", graphql_checked_document_text(schema, DOC("{b a}"), PREFIX("\t"), &answer));
    TELLS(GRAPHQL_CHECKED_ACCEPTED, "{\na\n}\n", graphql_checked_document_text(schema, DOC("{a}"), PREFIX(""), &answer));
    ASK(GRAPHQL_CHECKED_NOT_UTF8, graphql_checked_document_text(schema, DOC("\xff"), PREFIX(" "), &answer));
    ASK(GRAPHQL_CHECKED_INDENT, graphql_checked_document_text(schema, DOC("{a}"), PREFIX("\xff"), &answer));
    ASK(GRAPHQL_CHECKED_NULL, graphql_checked_document_text(schema, 0, PREFIX(" "), &answer));
    ASK(GRAPHQL_CHECKED_NULL, graphql_checked_document_text(schema, &no_bytes, PREFIX(" "), &answer));
}

/* The reports of an open handle. */
static void told_as_text(graphql_checked_schema *schema) {
    TELLS(GRAPHQL_CHECKED_REFUSED, "refused\n3:2: `Query` has no field `c`\n", graphql_checked_check(schema, DOC("{ c }"), &answer));
    TELLS(GRAPHQL_CHECKED_REFUSED, "refused\n3:2: `Query` has no field `c`\n", graphql_checked_document_text(schema, DOC("{ c }"), PREFIX(" "), &answer));
}

static void told_as_json(graphql_checked_schema *schema) {
    TELLS(GRAPHQL_CHECKED_REFUSED, JSON_AT("document"), graphql_checked_check(schema, DOC("{ missing }"), &answer));
    TELLS(GRAPHQL_CHECKED_REFUSED, JSON_AT("q.graphql"), graphql_checked_check(schema, NAMED(DOCUMENT, "{ missing }", "q.graphql"), &answer));
    TELLS(GRAPHQL_CHECKED_REFUSED, JSON_AT("q.graphql"), graphql_checked_document_text(schema, NAMED(DOCUMENT, "{ missing }", "q.graphql"), 0, &answer));
    /* a place in the schema's text, which this program has freed since */
    ASK(GRAPHQL_CHECKED_REFUSED, graphql_checked_check(schema, DOC("{ b(x: 1) }"), &answer));
    const char *place = "\"related\":[{\"path\":\"schema\",\"line\":1,\"column\":21,\"words\":\"the definition\"}]";
    if (status == GRAPHQL_CHECKED_REFUSED && !strstr(answer.bytes, place)) fprintf(stderr, "%s", answer.bytes), differs(__LINE__, "place in the schema", 0, 1);
}

/* Handles that are opened, asked and closed, two at a time. */
static void by_handle(void) {
    graphql_checked_schema schema = {0}, other = {0};
    ASK(GRAPHQL_CHECKED_CLOSED, graphql_checked_check(&schema, DOC("{ a }"), &answer));
    ASK(GRAPHQL_CHECKED_CLOSED, graphql_checked_schema_text(&schema, 0, &answer));
    ASK(GRAPHQL_CHECKED_CLOSED, graphql_checked_document_text(&schema, DOC("{ a }"), 0, &answer));
    ASK(GRAPHQL_CHECKED_ACCEPTED, graphql_checked_close(&schema));
    ASK(GRAPHQL_CHECKED_ACCEPTED, graphql_checked_close(0));
    for (int round = 0; round < 2; round++) {
        not_opened(&schema);
        if (!opens_two(&schema, round ? 0 : &as_text)) continue;
        int is_other = ASK(GRAPHQL_CHECKED_ACCEPTED, graphql_checked_open(&other, TEXT(SCHEMA, "type Query { c: Int }"), 1, 0, &answer));
        void *at = schema.at;
        asked(&schema);
        if (is_other) ASK(GRAPHQL_CHECKED_ACCEPTED, graphql_checked_check(&other, DOC("{ c }"), &answer));
        graphql_checked_close(&other);
        asked(&schema);
        round ? told_as_json(&schema) : told_as_text(&schema);
        if (schema.at != at) differs(__LINE__, "a handle that is to be unchanged", 1, 0);
        ASK(GRAPHQL_CHECKED_ACCEPTED, graphql_checked_close(&schema));
        if (schema.at) differs(__LINE__, "a handle that is to be empty", 1, 0);
        ASK(GRAPHQL_CHECKED_ACCEPTED, graphql_checked_close(&schema));
        ASK(GRAPHQL_CHECKED_CLOSED, graphql_checked_check(&schema, DOC("{ a }"), &answer));
    }
}

/* How many lines the answer has. */
static size_t lines_of(void) {
    size_t lines = 0;
    for (size_t i = 0; i < answer.length; i++) lines += answer.bytes[i] == '\n';
    return lines;
}

/* Makes a document of so many fields that no schema here has. */
static graphql_checked_text unknown_fields(int count) {
    static char many[1 << 18];
    char *at = many + sprintf(many, "{");
    for (int i = 0; i < count; i++) at += sprintf(at, " f%d", i);
    at += sprintf(at, " }");
    return (graphql_checked_text){many, (size_t)(at - many), 0};
}

/* Options, one by one, and reports of many faults. */
static void options(void) {
    graphql_checked_text document = unknown_fields(300);
    for (size_t form = 0; form < 2; form++)
        for (size_t most = 0; most < 400; most += most < 3 ? 1 : 190) {
            graphql_checked_schema schema = {0};
            graphql_checked_options given = {sizeof given, 500, graphql_checked_stack(500), most, form};
            if (!ASK(GRAPHQL_CHECKED_ACCEPTED, graphql_checked_open(&schema, A_FIELD, 1, &given, &answer))) continue;
            if (ASK(GRAPHQL_CHECKED_REFUSED, graphql_checked_check(&schema, &document, &answer))) {
                size_t wanted = (most && most < 300 ? most : 300) + (form == GRAPHQL_CHECKED_TEXT);
                if (lines_of() != wanted || answer.bytes[answer.length - 1] != '\n' || answer.bytes[answer.length]) differs(__LINE__, "lines", lines_of(), wanted);
            }
            ASK(GRAPHQL_CHECKED_ACCEPTED, graphql_checked_close(&schema));
        }
    /* a nesting */
    graphql_checked_schema schema = {0};
    graphql_checked_options given = {offsetof(graphql_checked_options, stack), 1, 0, 0, 0};
    if (ASK(GRAPHQL_CHECKED_ACCEPTED, graphql_checked_open(&schema, A_FIELD, 1, &given, &answer))) {
        ASK(GRAPHQL_CHECKED_ACCEPTED, graphql_checked_check(&schema, DOC("{ a }"), &answer));
        ASK(GRAPHQL_CHECKED_REFUSED, graphql_checked_check(&schema, DOC("{ a { b } }"), &answer));
    }
    ASK(GRAPHQL_CHECKED_ACCEPTED, graphql_checked_close(&schema));
    if (graphql_checked_version() != GRAPHQL_CHECKED_VERSION_NUMBER) differs(__LINE__, "version", graphql_checked_version(), GRAPHQL_CHECKED_VERSION_NUMBER);
    for (int i = 0; i < 13; i++)
        if (i != 2 && i != 7 && !strcmp(graphql_checked_status_text((graphql_checked_status)i), "no status")) differs(__LINE__, "a status without words", (unsigned long)i, 0);
}

static const char SMALL[] = "type Query { a(b: In, c: [Int!]): Query d: U e: E } input In { f: ID g: In } union U = Query enum E { H }";
static const char LONG[] = "query Q($v: In = { f: \"\xc3\xa9\" }) { a(b: $v, c: [1, 2]) @skip(if: false) { ...F } } fragment F on Query "
                           "{ k: a { e } d { ... on Query { a(b: { f: 3, g: null }) { __typename } } } } # \xe2\x82\xac";

/* Whether the answer is lines, each an object, or nothing. */
static int are_objects(void) {
    const char *at = answer.bytes, *end = at + answer.length;
    while (at < end) {
        const char *feed = memchr(at, '\n', (size_t)(end - at));
        if (!feed || feed - at < 9 || memcmp(at, "{\"path\":\"", 9) || feed[-1] != '}') return 0;
        at = feed + 1;
    }
    return 1;
}

/* Whether a document has the same answer as text, as JSON and where it is to be written. */
static void same(graphql_checked_schema two[2], const char *bytes, size_t length) {
    static char first[BYTES];
    const graphql_checked_text *document = text_at(DOCUMENT, bytes, length, 0);
    graphql_checked_status found = graphql_checked_check(&two[0], document, &answer);
    size_t lines = lines_of(), long_as = answer.length;
    if (found > GRAPHQL_CHECKED_REFUSED && found != GRAPHQL_CHECKED_NOT_UTF8) differs(__LINE__, "status", found, GRAPHQL_CHECKED_REFUSED);
    if ((found == GRAPHQL_CHECKED_REFUSED) != (long_as > 0)) differs(__LINE__, "length of the report", long_as, found);
    if (long_as && (memcmp(answer.bytes, "refused\n", 8) || answer.bytes[long_as - 1] != '\n' || strlen(answer.bytes) != long_as)) differs(__LINE__, "form of the report", 0, 1);
    graphql_checked_status as_json = graphql_checked_check(&two[1], document, &answer);
    if (as_json != found || (found == GRAPHQL_CHECKED_REFUSED && lines_of() + 1 != lines) || !are_objects()) differs(__LINE__, "lines of JSON", lines_of() + 1, lines);
    graphql_checked_status text = graphql_checked_document_text(&two[0], document, 0, &answer);
    if (text != found) differs(__LINE__, "status of the text", text, found);
    if (text == GRAPHQL_CHECKED_REFUSED && answer.length != long_as) differs(__LINE__, "report of the text", answer.length, long_as);
    if (text != GRAPHQL_CHECKED_ACCEPTED) return;
    /* what is written is accepted, and written with the same bytes */
    memcpy(first, answer.bytes, long_as = answer.length);
    text = graphql_checked_document_text(&two[1], text_at(DOCUMENT, first, long_as, 0), 0, &answer);
    if (text != GRAPHQL_CHECKED_ACCEPTED || answer.length != long_as || memcmp(answer.bytes, first, long_as)) differs(__LINE__, "text written again", answer.length, long_as);
}

/* Documents cut at each byte, and so many with some other bytes. */
static void other_bytes(long count) {
    static const char common[] = "{}()[]:=|!$@\"\\#,. \n\t\r\0\xff\xc3\xa9\xef\xbb\xbf" "aef1-";
    graphql_checked_schema two[2] = {{0}, {0}};
    ASK(GRAPHQL_CHECKED_ACCEPTED, graphql_checked_open(&two[0], TEXT(SCHEMA, SMALL), 1, &as_text, 0));
    ASK(GRAPHQL_CHECKED_ACCEPTED, graphql_checked_open(&two[1], TEXT(SCHEMA, SMALL), 1, &as_json, 0));
    uint64_t random = 88172645463325252u;
    char bytes[sizeof LONG];
    for (size_t length = 0; length < sizeof LONG; length++) same(two, LONG, length);
    for (long i = 0; i < count; i++) {
        memcpy(bytes, LONG, sizeof LONG);
        for (int changes = 1 + i % 4; changes > 0; changes--) {
            random ^= random << 13, random ^= random >> 7, random ^= random << 17; /* Marsaglia's xorshift */
            bytes[random % (sizeof LONG - 1)] = common[(random >> 32) % (sizeof common - 1)];
        }
        same(two, bytes, sizeof LONG - 1);
    }
    graphql_checked_close(&two[0]), graphql_checked_close(&two[1]);
}

/* A text with so many brackets open, and the stack and nesting for which it is judged. Without a schema it is the schema. */
typedef struct {
    const char *schema, *before, *open, *inside, *close, *after;
    size_t other, stack, nesting; /* `other`: how many brackets are open beside those that are repeated */
} deep;

static const char DEEP[] = "scalar Any input In { in: In, all: [In] } directive @with(any: Any) repeatable on FIELD "
                           "type Query { q: Query, any(value: Any): Int, in(value: In): Int } ";

/* Adds a text so many times. */
static char *add(char *to, const char *text, size_t times) {
    for (size_t length = strlen(text); times > 0; times--, to += length) memcpy(to, text, length);
    *to = 0;
    return to;
}

/* Opens, checks and writes, with the form of both reports, on this thread. */
static void *judged(void *word) {
    const deep *it = word;
    size_t times = it->nesting - it->other;
    static char text[1 << 20];
    add(add(add(add(add(text, it->before, 1), it->open, times), it->inside, 1), it->close, times), it->after, 1);
    const char *schema = it->schema ? it->schema : text, *document = it->schema ? text : "{ __typename }";
    graphql_checked_text one = {schema, strlen(schema), 0}, over = {document, strlen(document), 0};
    for (size_t form = 0; form < 2; form++) {
        graphql_checked_schema handle = {0};
        graphql_checked_options given = {sizeof given, it->nesting, it->stack, 0, form};
        graphql_checked_status found = graphql_checked_open(&handle, &one, 1, &given, 0);
        if (!found) graphql_checked_schema_text(&handle, "  ", 0), found = graphql_checked_check(&handle, &over, 0);
        if (!found) found = graphql_checked_document_text(&handle, &over, "  ", 0);
        if (found > GRAPHQL_CHECKED_REFUSED) differs(__LINE__, it->open, found, GRAPHQL_CHECKED_ACCEPTED);
        if ((found = graphql_checked_close(&handle))) differs(__LINE__, it->open, found, GRAPHQL_CHECKED_ACCEPTED);
    }
    return 0;
}

/* Runs it on a thread of so many bytes of stack. */
static void run_on(size_t stack, void *(*run)(void *), void *word) {
    pthread_t thread;
    pthread_attr_t attributes;
    if (pthread_attr_init(&attributes) || pthread_attr_setstacksize(&attributes, stack)) exit(2);
    if (pthread_create(&thread, &attributes, run, word) || pthread_join(thread, 0)) exit(2);
    pthread_attr_destroy(&attributes);
}

static deep kinds[] = {
    {DEEP, "", "{ q ", "{ __typename }", " }", "", 1, 0, 0},
    {DEEP, "{ ", "... { ", "__typename", " }", " }", 1, 0, 0},
    {DEEP, "{ ", "... on Query { ", "__typename", " }", " }", 1, 0, 0},
    {DEEP, "{ any(value: ", "[", "1", "]", ") }", 2, 0, 0},
    {DEEP, "{ any(value: ", "{ a: ", "1", " }", ") }", 2, 0, 0},
    {DEEP, "{ in(value: ", "{ in: ", "null", " }", ") }", 2, 0, 0},
    {DEEP, "{ any @with(any: ", "[", "1", "]", ") }", 2, 0, 0},
    {DEEP, "query ($v: Any = ", "[", "1", "]", ") { any(value: $v) }", 1, 0, 0},
    {DEEP, "{ in(value: ", "{ in: ", "1", " }", ") }", 2, 0, 0},
    {DEEP, "query ($v: ", "[", "Any", "]", ") { in(value: $v) }", 1, 0, 0},
    {DEEP, "query ($v: ", "[", "Missing", "]", ") { any(value: $v) }", 1, 0, 0},
    {0, "type Query { deep: ", "[", "Missing", "]", " }", 1, 0, 0},
    {0, "type Query { deep: ", "[", "Int", "]", " }", 1, 0, 0},
    {0, "scalar Any type Query { deep(v: Any = ", "[", "1", "]", "): Int }", 2, 0, 0},
    {0, "input In { in: In } type Query { deep(v: In = ", "{ in: ", "null", " }", "): Int }", 2, 0, 0},
};
enum { KINDS = sizeof kinds / sizeof *kinds };

/* The deepest text of each kind, on threads that have no more stack than is told. */
static void deepest(void) {
    const size_t stacks[] = {graphql_checked_proved() ? 512 << 10 : 960 << 10, graphql_checked_proved() ? 1 << 20 : 2 << 20};
    static const size_t nestings[] = {398, 853};
    for (size_t size = 0; size < 2; size++)
        for (size_t kind = 0; kind < KINDS; kind++) {
            kinds[kind].stack = stacks[size], kinds[kind].nesting = nestings[size];
            run_on(stacks[size], judged, &kinds[kind]);
        }
}

/* What a thread of 128 KB may ask, told nothing of its stack: a nesting of 300 is too much for it, one of 15 is not. */
static void *on_little(void *unused) {
    graphql_checked_schema schema = {0};
    graphql_checked_options given = AS_JSON;
    given.nesting = 300;
    ASK(GRAPHQL_CHECKED_STACK, graphql_checked_open(&schema, A_FIELD, 1, &given, &answer));
    ASK(GRAPHQL_CHECKED_STACK, graphql_checked_open(&schema, A_FIELD, 1, 0, &answer));
    given.nesting = 15;
    ASK(GRAPHQL_CHECKED_ACCEPTED, graphql_checked_open(&schema, A_FIELD, 1, &given, &answer));
    TELLS(GRAPHQL_CHECKED_REFUSED, JSON_AT("document"), graphql_checked_check(&schema, DOC("{ missing }"), &answer));
    ASK(GRAPHQL_CHECKED_ACCEPTED, graphql_checked_close(&schema));
    for (size_t kind = 0; kind < KINDS; kind++) {
        kinds[kind].stack = 0, kinds[kind].nesting = 15;
        judged(&kinds[kind]);
    }
    return unused;
}

/* A handle of this thread's may be too much for another, which is told so; closing it takes as little as it has. */
static void *on_little_too(void *schema) {
    ASK(GRAPHQL_CHECKED_STACK, graphql_checked_check(schema, DOC("{ a }"), &answer));
    ASK(GRAPHQL_CHECKED_STACK, graphql_checked_schema_text(schema, 0, &answer));
    ASK(GRAPHQL_CHECKED_ACCEPTED, graphql_checked_close(schema));
    return 0;
}

static void small(void) {
    static char text[1 << 16];
    run_on(128 << 10, on_little, 0);
    for (size_t kind = KINDS - 4; kind < KINDS; kind++) {
        const deep *it = &kinds[kind];
        graphql_checked_schema schema = {0};
        add(add(add(add(add(text, it->before, 1), it->open, 390), it->inside, 1), it->close, 390), it->after, 1);
        graphql_checked_text one = {text, strlen(text), 0};
        status = graphql_checked_open(&schema, &one, 1, 0, 0);
        if (status == GRAPHQL_CHECKED_ACCEPTED) run_on(128 << 10, on_little_too, &schema);
        else if (status != GRAPHQL_CHECKED_REFUSED) differs(__LINE__, it->open, status, 0);
        graphql_checked_close(&schema);
    }
}

/* Where no file can be opened, a call on the first thread is judged as the limit of the stack says. */
static void files(void) {
    struct rlimit none = {0, 0}, stack;
    graphql_checked_schema schema = {0};
    graphql_checked_options given = AS_JSON;
    if (setrlimit(RLIMIT_NOFILE, &none) || fopen("/proc/self/maps", "r") || getrlimit(RLIMIT_STACK, &stack)) exit(2);
    if (stack.rlim_cur > 64 << 20) stack.rlim_cur = 64 << 20;
    for (given.nesting = 1; graphql_checked_stack(given.nesting) <= stack.rlim_cur; given.nesting *= 2) {}
    ASK(GRAPHQL_CHECKED_STACK, graphql_checked_open(&schema, A_FIELD, 1, &given, &answer));
    given.nesting = 398;
    ASK(GRAPHQL_CHECKED_ACCEPTED, graphql_checked_open(&schema, A_FIELD, 1, &given, &answer));
    TELLS(GRAPHQL_CHECKED_REFUSED, JSON_AT("document"), graphql_checked_check(&schema, DOC("{ missing }"), &answer));
    ASK(GRAPHQL_CHECKED_ACCEPTED, graphql_checked_close(&schema));
    for (size_t kind = 0; kind < KINDS; kind++) {
        kinds[kind].stack = 0, kinds[kind].nesting = 398;
        judged(&kinds[kind]);
    }
}

#define FIELD {"type Query { a: Int }", 21, 0}

static void *own_handle(void *unused) {
    const graphql_checked_text text = FIELD, wrong = {"{ missing }", 11, 0}, right = {"{ a }", 5, 0};
    for (int round = 0; round < 20; round++) {
        graphql_checked_schema schema = {0};
        graphql_checked_answer own;
        if (graphql_checked_open(&schema, &text, 1, &as_text, &own)) differs(__LINE__, "open", 1, 0);
        for (int i = 0; i < 100; i++) {
            graphql_checked_status found = graphql_checked_check(&schema, i % 2 ? &right : &wrong, &own);
            if (found != (i % 2 ? GRAPHQL_CHECKED_ACCEPTED : GRAPHQL_CHECKED_REFUSED)) differs(__LINE__, "status", found, i % 2);
            if (strcmp(own.bytes, i % 2 ? "" : REPORT)) differs(__LINE__, "report", own.length, strlen(REPORT));
        }
        graphql_checked_close(&schema);
    }
    return unused;
}

/* Four threads, each with its own handle. */
static void threads(void) {
    pthread_t four[4];
    for (int i = 0; i < 4; i++)
        if (pthread_create(&four[i], 0, own_handle, 0)) exit(2);
    for (int i = 0; i < 4; i++) pthread_join(four[i], 0);
}

static graphql_checked_schema one_handle;
static int is_over;
static long asks = 20000;
static unsigned long answered, busy;
static graphql_checked_text accepted = {"{ a }", 5, 0};

/* Makes a document of 5,000 fields. */
static graphql_checked_text long_document(void) {
    static char many[15002];
    many[0] = '{';
    for (int i = 0; i < 5000; i++) memcpy(many + 1 + 3 * i, " a ", 3);
    many[15001] = '}';
    return (graphql_checked_text){many, sizeof many, 0};
}

/* Asks one handle, whoever else does. Its answer is not read, since it belongs to whoever asks last. */
static void *asks_one(void *unused) {
    const graphql_checked_text wrong = {"{ missing }", 11, 0};
    for (long i = 0; i < asks && !__atomic_load_n(&is_over, __ATOMIC_SEQ_CST); i++) {
        graphql_checked_status found = graphql_checked_check(&one_handle, i % 2 ? &accepted : &wrong, 0);
        if (found == GRAPHQL_CHECKED_BUSY) __atomic_add_fetch(&busy, 1, __ATOMIC_RELAXED);
        else if (found == (i % 2 ? GRAPHQL_CHECKED_ACCEPTED : GRAPHQL_CHECKED_REFUSED)) __atomic_add_fetch(&answered, 1, __ATOMIC_RELAXED);
        else if (found != GRAPHQL_CHECKED_CLOSED || !__atomic_load_n(&is_over, __ATOMIC_SEQ_CST)) differs(__LINE__, "status", found, i % 2);
    }
    return unused;
}

static void open_one_handle(void) {
    const graphql_checked_text text = FIELD;
    if (graphql_checked_open(&one_handle, &text, 1, 0, 0)) differs(__LINE__, "open", 1, 0);
}

/* Four threads with one handle, which is closed while they ask if `is_closed` is true. */
static void four_with_one(int is_closed) {
    pthread_t four[4];
    __atomic_store_n(&is_over, 0, __ATOMIC_SEQ_CST);
    open_one_handle();
    for (int i = 0; i < 4; i++)
        if (pthread_create(&four[i], 0, asks_one, 0)) exit(2);
    if (is_closed) {
        usleep(20000);
        __atomic_store_n(&is_over, 1, __ATOMIC_SEQ_CST);
        while (graphql_checked_close(&one_handle) == GRAPHQL_CHECKED_BUSY) usleep(10);
    }
    for (int i = 0; i < 4; i++) pthread_join(four[i], 0);
    graphql_checked_close(&one_handle);
}

/* Such threads in five rounds. valgrind runs one thread at a time, and short calls may end before another thread's turn: where none
 * found the handle busy, rounds of long documents follow, each of which takes several turns. */
static void shared(long count) {
    asks = count;
    for (int round = 0; round < 5; round++) four_with_one(round % 2);
    asks = 10;
    accepted = long_document();
    for (int round = 0; round < 50 && !busy; round++) four_with_one(0);
    if (!answered || !busy) differs(__LINE__, "answers, and calls that found it busy", answered, busy);
}

/* Children that are forked while another thread asks. A child that hangs is ended by its alarm. */
static void forked(void) {
    pthread_t other;
    asks = 1L << 40;
    open_one_handle();
    if (pthread_create(&other, 0, asks_one, 0)) exit(2);
    for (int i = 0; i < 100; i++) {
        int ended = 0;
        pid_t child = fork();
        if (!child) {
            graphql_checked_schema own = {0};
            const graphql_checked_text text = FIELD;
            alarm(20);
            graphql_checked_status found = graphql_checked_check(&one_handle, &accepted, 0);
            if (found && found != GRAPHQL_CHECKED_BUSY) _exit(1);
            if (graphql_checked_open(&own, &text, 1, 0, 0) || graphql_checked_check(&own, &accepted, 0)) _exit(2);
            _exit(graphql_checked_close(&own));
        }
        if (child < 0 || waitpid(child, &ended, 0) < 0 || ended) differs(__LINE__, "the child's end", (unsigned long)ended, 0);
    }
    __atomic_store_n(&is_over, 1, __ATOMIC_SEQ_CST);
    pthread_join(other, 0);
    graphql_checked_close(&one_handle);
}

static volatile sig_atomic_t found_busy, found_wrong;

/* If a check finds the handle busy, so does each other call. */
static void asks_in_handler(int unused) {
    static const graphql_checked_text right = {"{ a }", 5, 0}, schema = FIELD;
    graphql_checked_status found = graphql_checked_check(&one_handle, &right, 0);
    (void)unused;
    found_wrong += found != GRAPHQL_CHECKED_BUSY && found != GRAPHQL_CHECKED_ACCEPTED;
    if (found != GRAPHQL_CHECKED_BUSY) return;
    found_busy++;
    found_wrong += graphql_checked_open(&one_handle, &schema, 1, 0, 0) != GRAPHQL_CHECKED_BUSY;
    found_wrong += graphql_checked_schema_text(&one_handle, 0, 0) != GRAPHQL_CHECKED_BUSY;
    found_wrong += graphql_checked_document_text(&one_handle, &right, 0, 0) != GRAPHQL_CHECKED_BUSY;
    found_wrong += graphql_checked_close(&one_handle) != GRAPHQL_CHECKED_BUSY;
}

/* A handler that calls for the handle that is asked. */
static void signals(void) {
    struct sigaction action = {0};
    struct itimerval often = {{0, 500}, {0, 500}}, never = {{0, 0}, {0, 0}};
    const graphql_checked_text long_one = long_document();
    action.sa_handler = asks_in_handler;
    open_one_handle();
    sigaction(SIGALRM, &action, 0);
    setitimer(ITIMER_REAL, &often, 0);
    for (int i = 0; i < 2000 && found_busy < 20; i++)
        if (graphql_checked_check(&one_handle, &long_one, 0)) differs(__LINE__, "status", 1, 0);
    setitimer(ITIMER_REAL, &never, 0);
    if (found_wrong || !found_busy) differs(__LINE__, "handlers that found it busy", (unsigned long)found_busy, 20);
    graphql_checked_close(&one_handle);
}

/* Bytes that are not free. */
static size_t held(void) { return mallinfo2().uordblks + mallinfo2().hblkhd; }

/* Kilobytes that the process has in memory. */
static long resident(void) {
    char line[99];
    long pages = 0;
    FILE *file = fopen("/proc/self/statm", "r");
    if (file && fgets(line, sizeof line, file)) sscanf(line, "%*s %ld", &pages);
    if (file) fclose(file);
    return pages * (sysconf(_SC_PAGESIZE) / 1024);
}

/* Processor time. */
static double microseconds(void) {
    struct timespec now;
    clock_gettime(CLOCK_PROCESS_CPUTIME_ID, &now);
    return (double)now.tv_sec * 1e6 + (double)now.tv_nsec / 1e3;
}

/* Whether no more is held than before, but for 4 KB that `malloc` may keep, and the process has not grown by more than 256 KB. The
 * address sanitizer keeps what is freed, and tells of what is not by itself: it defines SANITIZED. */
static void not_grown(int line, size_t bytes, long kilobytes) {
#ifdef SANITIZED
    (void)line, (void)bytes, (void)kilobytes;
    return;
#endif
    if (held() > bytes + 4096) differs(line, "bytes that are held", held(), bytes);
    if (resident() > kilobytes + 256) differs(line, "kilobytes in memory", (unsigned long)resident(), (unsigned long)kilobytes);
}

/* How often a loop runs before what is held is counted: `malloc` keeps some blocks of each size that are freed, and counts them as
 * held, until it has as many as it keeps. Of what is lost in each of ten thousand rounds after that, 4 KB are too many. */
enum { BEFORE = 100 };

static void open_one(graphql_checked_schema *schema, const char *text, size_t length) {
    const graphql_checked_text one = {text, length, 0};
    ASK(GRAPHQL_CHECKED_ACCEPTED, graphql_checked_open(schema, &one, 1, 0, &answer));
}

/* How many requests for memory a document takes that is refused. */
static unsigned long requests_of(graphql_checked_schema *schema, graphql_checked_text document, graphql_checked_answer *wanted) {
    unsigned long before = requests;
    ASK(GRAPHQL_CHECKED_REFUSED, graphql_checked_check(schema, &document, wanted));
    return requests - before;
}

/* A report of 300 faults is made once, also the first time and where it is not wanted; the room of a report of 20,000 is given back
 * once a short answer follows. */
static void room(void) {
    graphql_checked_schema schema = {0};
    open_one(&schema, SMALL, sizeof SMALL - 1);
    unsigned long unwanted = requests_of(&schema, unknown_fields(300), 0), first = requests_of(&schema, unknown_fields(300), &answer);
    unsigned long again = requests_of(&schema, unknown_fields(300), &answer);
    if (unwanted > again || first > again + 1) differs(__LINE__, "requests for memory", first > unwanted ? first : unwanted, again);
    size_t before = held();
    requests_of(&schema, unknown_fields(20000), &answer);
    if (answer.length < 2 << 20 || lines_of() != 20000) differs(__LINE__, "lines of a long report", lines_of(), 20000);
    TELLS(GRAPHQL_CHECKED_REFUSED, JSON_AT("document"), graphql_checked_check(&schema, DOC("{ missing }"), &answer));
    if (held() > before + (1 << 20)) differs(__LINE__, "bytes that are held", held(), before);
    graphql_checked_close(&schema);
}

/* So many handles, each asked and closed. */
static void opens(long count) {
    graphql_checked_schema schema = {0};
    size_t bytes = 0;
    long kilobytes = 0;
    for (long i = -BEFORE; i < count; i++) {
        if (!i) resident(), bytes = held(), kilobytes = resident();
        open_one(&schema, SMALL, sizeof SMALL - 1);
        ASK(GRAPHQL_CHECKED_REFUSED, graphql_checked_check(&schema, DOC("{ missing }"), &answer));
        ASK(GRAPHQL_CHECKED_OPEN, graphql_checked_open(&schema, A_FIELD, 1, 0, &answer));
        graphql_checked_close(&schema);
        ASK(GRAPHQL_CHECKED_REFUSED, graphql_checked_open(&schema, TEXT(SCHEMA, "type Query { a: Missing }"), 1, 0, &answer));
        if (i % 2) graphql_checked_close(&schema);
    }
    graphql_checked_close(&schema);
    not_grown(__LINE__, bytes, kilobytes);
}

/* What is in the file, or else the small text. */
static char *text_of(const char *path, const char *small, size_t *length) {
    enum { MOST = 64 << 20 };
    char *text = malloc(MOST);
    FILE *file = path ? fopen(path, "rb") : 0;
    if (!text || (path && !file)) exit(2);
    *length = file ? fread(text, 1, MOST, file) : strlen(memcpy(text, small, strlen(small) + 1));
    if (file) fclose(file);
    return text;
}

/* So many documents that are accepted over one handle, and as many that are refused. */
static void documents(long count, const char *schema_path, const char *document_path) {
    size_t length, width;
    char *text = text_of(schema_path, SMALL, &length), *document = text_of(document_path, "{ __typename }", &width);
    graphql_checked_schema schema = {0};
    double start = microseconds();
    open_one(&schema, text, length);
    double opened = microseconds() - start, each[2];
    graphql_checked_text both[] = {{document, width, 0}, {"{ missing }", 11, 0}};
    for (int i = 0; i < 2 * BEFORE; i++) ASK(i % 2 ? GRAPHQL_CHECKED_REFUSED : GRAPHQL_CHECKED_ACCEPTED, graphql_checked_check(&schema, &both[i % 2], &answer));
    resident();
    size_t bytes = held();
    long kilobytes = resident();
    for (int is_missing = 0; is_missing < 2; is_missing++) {
        start = microseconds();
        for (long i = 0; i < count; i++)
            ASK(is_missing ? GRAPHQL_CHECKED_REFUSED : GRAPHQL_CHECKED_ACCEPTED, graphql_checked_check(&schema, &both[is_missing], &answer));
        each[is_missing] = (microseconds() - start) / (double)(count ? count : 1);
    }
    not_grown(__LINE__, bytes, kilobytes);
    graphql_checked_close(&schema);
    free(text);
    free(document);
    sprintf(figures, ": schema of %zu bytes opened in %.0f us, a document accepted in %.1f us, refused in %.1f us", length, opened, each[0], each[1]);
}

/* So many handles on one schema. */
static void handles(long count, const char *schema_path) {
    size_t length;
    char *text = text_of(schema_path, SMALL, &length);
    graphql_checked_schema *all = calloc((size_t)count, sizeof *all);
    long before = resident();
    if (!all) exit(2);
    for (long i = 0; i < count; i++) {
        open_one(&all[i], text, length);
        ASK(GRAPHQL_CHECKED_REFUSED, graphql_checked_check(&all[i], DOC("{ missing }"), &answer));
    }
    sprintf(figures, ": %ld handles on a schema of %zu bytes take %ld KB of memory, each %ld KB", count, length, resident() - before, (resident() - before) / count);
    for (long i = 0; i < count; i++) graphql_checked_close(&all[i]);
    free(all);
    free(text);
}

int main(int argc, char **argv) {
    static char out[4096];
    const char *word = argc > 1 ? argv[1] : "";
    long count = argc > 2 ? atol(argv[2]) : 0;
    setvbuf(stdout, out, _IOFBF, sizeof out);
    memory_is_refused = getenv("REFUSED_FIRST") != 0;
    is_each = getenv("REFUSED_EACH") != 0;
    make_areas();
    if (!*word) by_handle(), options();
    else if (!strcmp(word, "bytes")) other_bytes(count);
    else if (!strcmp(word, "stack")) deepest();
    else if (!strcmp(word, "small")) small();
    else if (!strcmp(word, "files")) files();
    else if (!strcmp(word, "room")) room();
    else if (!strcmp(word, "threads")) threads();
    else if (!strcmp(word, "shared")) shared(count);
    else if (!strcmp(word, "fork")) forked();
    else if (!strcmp(word, "signal")) signals();
    else if (!strcmp(word, "opens")) opens(count);
    else if (!strcmp(word, "documents")) documents(count, argc > 3 ? argv[3] : 0, argc > 4 ? argv[4] : 0);
    else if (!strcmp(word, "handles")) handles(count, argc > 3 ? argv[3] : 0);
    else return 2;
    printf("as wanted%s%s\n", told ? ", out of memory told" : "", figures);
    return 0;
}
