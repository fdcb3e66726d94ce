/* The proved GraphQL checker, for C and C++.
 *
 *     graphql_checked_schema schema = {0};
 *     graphql_checked_text text = {bytes, length, "schema.graphql"}, document = {other, its_length, "query.graphql"};
 *     graphql_checked_answer answer;
 *     graphql_checked_status status = graphql_checked_open(&schema, &text, 1, NULL, &answer);
 *     if (status == GRAPHQL_CHECKED_ACCEPTED) status = graphql_checked_check(&schema, &document, &answer);
 *     if (status == GRAPHQL_CHECKED_REFUSED) fwrite(answer.bytes, 1, answer.length, stdout);
 *     else if (status) fprintf(stderr, "%s\n", graphql_checked_status_text(status));
 *     graphql_checked_close(&schema);
 *
 * A handle is opened on the texts of a schema, is then asked about one document after another, and is closed. Texts are UTF-8,
 * with a length, and need no zero byte at the end.
 *
 * BUILDING. `cc app.c $(pkg-config --cflags --libs graphql_checked)` where the library is installed. At its start a program should
 * compare graphql_checked_version() with GRAPHQL_CHECKED_VERSION_NUMBER.
 *
 * MEMORY. The caller owns what it passes, and may free it after the call: a handle has its own copy of the schema's texts. What a
 * handle leads to, and each answer, belong to the library. An answer lasts until the next call on its handle.
 *
 * THREADS. A handle belongs to one thread at a time, until its answer is read. A call on a handle that is in a call already
 * answers GRAPHQL_CHECKED_BUSY and does nothing. In a child that was forked during the call the handle stays busy for ever: open
 * another. Different handles share nothing: for N threads at once take N handles. A signal handler that interrupts a call is told
 * that its handle is busy, and may ask nothing else here, since it may interrupt `malloc`.
 *
 * STACK. A call needs the more stack the greater the `nesting` of the options, whatever the text: `graphql_checked_stack` tells how
 * much, by measure. If the calling thread has less left, the answer is GRAPHQL_CHECKED_STACK. For small threads set a smaller
 * nesting: a thread of 128 KB has enough for 20 without proofs, and for 40 proved.
 *
 * PROOF. Where `graphql_checked_proved` answers 1, ACCEPTED is proved to mean that every rule holds, REFUSED that each fault of
 * the report is so, and the texts that are written are proved to be canonical. It holds of callers for whom each pointer leads
 * to as many bytes as are told, which no other thread writes during the call; who read, write, copy or free no handle but by
 * these functions; and whose `malloc`, `realloc` and `free` are of one allocator. No proof covers c/graphql_checked.c, the lines of
 * C between these functions and the proved ones: null pointers, copies of texts, answers, BUSY and the stack. */
#ifndef GRAPHQL_CHECKED_H
#define GRAPHQL_CHECKED_H

#include <stddef.h>
#include <stdint.h>

#ifdef __cplusplus
extern "C" {
#endif

/* The version of this header. By semantic versioning: before 1.0.0 a new minor number may change anything, so programs load the
 * library by a name with it, libgraphql_checked.so.0.1. */
#define GRAPHQL_CHECKED_VERSION "0.1.0"
#define GRAPHQL_CHECKED_VERSION_NUMBER 100 /* 10,000 times the major number, 100 times the minor one, and the patch */

/* The version of the library, as GRAPHQL_CHECKED_VERSION_NUMBER. */
uint32_t graphql_checked_version(void);

/* 1 where the library was proved before it was built; 0 where it was built without proofs. */
uint32_t graphql_checked_proved(void);

/* How the library was made: its version, the commit of its sources, which ends in `+` where they were changed since, and `proved`
 * or `not proved`, as in `0.1.0 (commit 0123456789ab, proved)`. Lasts as long as the library is loaded. */
const char *graphql_checked_build(void);

/* How a call ended. */
typedef enum {
    GRAPHQL_CHECKED_ACCEPTED = 0, /* the texts are accepted, or what was asked for is done */
    GRAPHQL_CHECKED_REFUSED = 1,  /* a text is refused; the answer is the report */
    GRAPHQL_CHECKED_NOT_UTF8 = 3, /* a text or a path is not UTF-8 */
    GRAPHQL_CHECKED_MEMORY = 4,   /* memory ran out, and there is no verdict: the same call may be made again */
    GRAPHQL_CHECKED_STACK = 5,    /* the thread has too little stack for the nesting */
    GRAPHQL_CHECKED_NULL = 6,     /* a pointer is null that must not be */
    GRAPHQL_CHECKED_INDENT = 8,   /* the indent has other bytes than spaces and tabs */
    GRAPHQL_CHECKED_CLOSED = 9,   /* the handle has no schema */
    GRAPHQL_CHECKED_OPEN = 10,    /* the handle has a schema already */
    GRAPHQL_CHECKED_BUSY = 11,    /* the handle is in a call */
    GRAPHQL_CHECKED_OPTIONS = 12  /* the options have a size, a form or a field that this library does not know */
} graphql_checked_status;

/* The status in words. Lasts as long as the library is loaded. */
const char *graphql_checked_status_text(graphql_checked_status status);

/* A handle: a checked schema, or nothing. It begins as { 0 }. The caller owns the struct; what it leads to is the library's. */
typedef struct {
    void *at; /* not yours */
} graphql_checked_schema;

/* A text, and the name that reports are to have for it. */
typedef struct {
    const char *bytes; /* may be null where the length is 0 */
    size_t length;     /* in bytes */
    const char *path;  /* ends with a zero byte; null: "schema" or "document" */
} graphql_checked_text;

/* A report or a text, which belongs to the handle: it lasts until the next call on it. A zero byte follows its last byte. */
typedef struct {
    const char *bytes; /* never null */
    size_t length;     /* in bytes, without the zero byte; 0 where there is no answer */
} graphql_checked_answer;

/* How a schema is opened, and documents over it are checked. */
typedef struct {
    size_t size;       /* sizeof(graphql_checked_options) */
    size_t nesting;    /* how many brackets may be open at once; 0: GRAPHQL_CHECKED_NESTING */
    size_t stack;      /* bytes of stack that each calling thread has left at least; 0: the thread is asked at each call. Tell it
                        * where calls run on a stack that is not the thread's own, as of coroutines or `sigaltstack`: with 0 they
                        * answer STACK there */
    size_t max_faults; /* how many faults a report has at most; 0: all. A check stops after 1,000 breaches of rules, but tells
                        * every unknown name. The report is made whole, and then cut */
    size_t form;       /* GRAPHQL_CHECKED_JSON, which is 0, or GRAPHQL_CHECKED_TEXT */
} graphql_checked_options;

/* The nesting where the options tell none. Proved, it takes 512 KB of stack; without proofs 960 KB. */
#define GRAPHQL_CHECKED_NESTING 398

/* A report as lines of JSON in UTF-8, an object and a line feed for each fault, in the order of texts and places:
 *   path            the text's name; `<built in>` for what is built in; `schema` or the document's name where there is no place
 *   line, column    both from 1; columns count code points. These and the next three are null where there is no place in a text
 *   end             an object with the `line` and `column` of the place after the last character
 *   offset, length  in bytes; the offset from 0
 *   severity        `error`
 *   rule            a name of docs/RULES.md, which is installed in share/doc/graphql-checked; or `Syntax` where a text is not
 *                   read, `Nesting` or `RecursionLimitError` past a limit, `Spent` where numbers ran out
 *   message, hint   strings; `hint` may be null
 *   related         a list of other places that belong to it: objects with `path`, `line`, `column` and `words`
 *   fields          its data, as `type_name`: an object of strings
 * In strings quotes, backslashes and the characters below U+0020 are escaped, and nothing else. */
#define GRAPHQL_CHECKED_JSON 0
/* A report as the program graphql-checked writes it: `refused`, and a line for each fault, with the number of the text, from 1, the
 * offset in it, and the message; `-` in place of both numbers where there is no place. The texts of the schema come first, then the
 * document. */
#define GRAPHQL_CHECKED_TEXT 1

/* The options where a call is given none. */
#define GRAPHQL_CHECKED_DEFAULTS {sizeof(graphql_checked_options), 0, 0, 0, GRAPHQL_CHECKED_JSON}

/* How many bytes of stack a nesting needs, by measure; SIZE_MAX where no stack suffices. */
size_t graphql_checked_stack(size_t nesting);

/* Opens a handle on the schema of `count` texts. `options` may be null for the defaults, `answer` where no report is wanted.
 * Answers ACCEPTED, and then the handle has the schema. After each other answer it has none: REFUSED, with the report; NOT_UTF8,
 * MEMORY, STACK, NULL, OPTIONS; but after OPEN and BUSY it is as before. Close it in each case. */
graphql_checked_status graphql_checked_open(graphql_checked_schema *schema, const graphql_checked_text *texts, size_t count,
                                            const graphql_checked_options *options, graphql_checked_answer *answer);

/* Checks a document over the schema. `answer` may be null where no report is wanted.
 * Answers ACCEPTED; REFUSED with the report; NOT_UTF8, MEMORY, STACK, NULL, CLOSED or BUSY. The schema is as before, whatever the
 * answer. */
graphql_checked_status graphql_checked_check(graphql_checked_schema *schema, const graphql_checked_text *document,
                                             graphql_checked_answer *answer);

/* Writes the canonical text of the schema: where `indent` is null on one line, without a line feed; else in lines, each of which
 * begins with the indent, of spaces and tabs and a zero byte, once for each level.
 * Answers ACCEPTED with the text; MEMORY, STACK, INDENT, NULL, CLOSED or BUSY. */
graphql_checked_status graphql_checked_schema_text(graphql_checked_schema *schema, const char *indent,
                                                   graphql_checked_answer *answer);

/* Checks a document as `graphql_checked_check` does, and where it is accepted writes its canonical text, as
 * `graphql_checked_schema_text` does the schema's. Answers as both do. */
graphql_checked_status graphql_checked_document_text(graphql_checked_schema *schema, const graphql_checked_text *document,
                                                     const char *indent, graphql_checked_answer *answer);

/* Frees the schema and the answer; on a thread of its own where this one has too little stack for that. The handle is { 0 } again,
 * and may be opened. Answers ACCEPTED, also where there is nothing to free; BUSY, or STACK where no thread is to be had, and then
 * all is as before. */
graphql_checked_status graphql_checked_close(graphql_checked_schema *schema);

#ifdef __cplusplus
}
#endif

#endif
