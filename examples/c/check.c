/* Checks a document over schema texts, as graphql-checked does: check [--indent line|two|four|tab] DOCUMENT SCHEMA...
 *
 * Words, answers and statuses are those of the program, which scripts/c_library compares. */
#include "graphql_checked.h"

#include <stdio.h>
#include <stdlib.h>
#include <string.h>

enum { WRONG_WORDS = 2, UNREAD = 3 };

/* Ends the program where a call has no answer. */
static int failed(graphql_checked_status status) {
    fprintf(stderr, "%s\n", graphql_checked_status_text(status));
    exit((int)status);
}

/* The text in the file of this number, or the program ends. */
static graphql_checked_text read_file(const char *path, int number) {
    FILE *file = fopen(path, "rb");
    size_t length = 0, room = 0, got = 0;
    char *bytes = NULL;
    do {
        if (length == room && !(bytes = realloc(bytes, room = 2 * room + 4096))) failed(GRAPHQL_CHECKED_MEMORY);
        got = file ? fread(bytes + length, 1, room - length, file) : 0;
        length += got;
    } while (got);
    if (!file || ferror(file)) {
        fprintf(stderr, "file %d cannot be read\n", number);
        exit(UNREAD);
    }
    fclose(file);
    return (graphql_checked_text){bytes, length, path};
}

/* The indent of a line, and null for one line. */
static const char *indent_of(const char *layout) {
    static const char *const names[] = {"line", "two", "four", "tab"}, *const indents[] = {NULL, "  ", "    ", "\t"};
    for (int i = 0; i < 4; i++)
        if (!strcmp(layout, names[i])) return indents[i];
    exit(WRONG_WORDS);
}

/* Prints an answer, with a line feed where there is none at the end. */
static void print(const char *bytes, size_t length) {
    fwrite(bytes, 1, length, stdout);
    if (length && bytes[length - 1] != '\n') putchar('\n');
}

int main(int argc, char **argv) {
    int first = argc > 2 && !strcmp(argv[1], "--indent") ? 3 : 1, count = argc - first - 1;
    const char *indent = first == 3 ? indent_of(argv[2]) : NULL;
    graphql_checked_text *texts = count < 1 ? NULL : malloc((size_t)count * sizeof *texts);
    if (!texts) return WRONG_WORDS;
    for (int i = 0; i < count; i++) texts[i] = read_file(argv[first + 1 + i], i + 1);
    graphql_checked_text document = read_file(argv[first], count + 1);

    graphql_checked_schema schema = {0};
    graphql_checked_answer answer;
    graphql_checked_options options = {sizeof options, 500, 0, 0, GRAPHQL_CHECKED_TEXT};
    graphql_checked_status status = graphql_checked_open(&schema, texts, (size_t)count, &options, &answer);
    for (int i = 0; i < count; i++) free((char *)texts[i].bytes); /* the handle has its own copy */
    free(texts);

    /* the document's text comes last, and is kept while the schema's is asked for */
    char *written = NULL;
    size_t length = 0;
    if (!status) status = graphql_checked_document_text(&schema, &document, indent, &answer);
    if (!status) {
        if (!(written = malloc(answer.length + 1))) failed(GRAPHQL_CHECKED_MEMORY);
        memcpy(written, answer.bytes, length = answer.length);
        status = graphql_checked_schema_text(&schema, indent, &answer);
    }
    if (status > GRAPHQL_CHECKED_REFUSED) failed(status);
    if (!status) puts("accepted");
    print(answer.bytes, answer.length);
    print(written, length);
    graphql_checked_close(&schema);
    free((char *)document.bytes);
    free(written);
    return (int)status;
}
