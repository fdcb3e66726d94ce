/* Checks documents over a schema that is held, and prints each fault with its line, column, rule and hint:
 * faults SCHEMA DOCUMENT... */
#include "graphql_checked.h"

#include <stdio.h>
#include <stdlib.h>
#include <string.h>

/* The text in a file. */
static graphql_checked_text read_file(const char *path) {
    enum { MOST = 1 << 24 };
    FILE *file = fopen(path, "rb");
    char *bytes = malloc(MOST);
    if (!file || !bytes) {
        perror(path);
        exit(2);
    }
    graphql_checked_text text = {bytes, fread(bytes, 1, MOST, file), path};
    if (ferror(file) || text.length == MOST) {
        fprintf(stderr, "%s: cannot be read, or has 16 MB or more\n", path);
        exit(2);
    }
    fclose(file);
    return text;
}

/* Prints what an escape stands for, whose letter is here, and tells where it ends. Only quotes, backslashes and characters below
 * U+0020 are escaped. */
static const char *print_escape(const char *at) {
    static const char letters[] = "bfnrt", meant[] = "\b\f\n\r\t";
    if (*at == 'u') {
        const char digits[] = {at[3], at[4], 0};
        putchar((int)strtol(digits, NULL, 16));
        return at + 4;
    }
    const char *found = strchr(letters, *at);
    putchar(found ? meant[found - letters] : *at);
    return at;
}

/* Prints a member of a line's object: a number, or a string without its escapes. What comes first in the line is that of the fault,
 * and within strings each quote has a backslash, so `"name":` is a member's name. */
static void print_member(const char *line, const char *name, const char *before, const char *after) {
    char wanted[20];
    snprintf(wanted, sizeof wanted, "\"%s\":", name);
    const char *at = strstr(line, wanted) + strlen(wanted);
    if (!strncmp(at, "null", 4)) return;
    fputs(before, stdout);
    if (*at != '"')
        while (*at >= '0' && *at <= '9') putchar(*at++);
    else
        while (*++at != '"')
            if (*at == '\\') at = print_escape(at + 1);
            else putchar(*at);
    fputs(after, stdout);
}

int main(int argc, char **argv) {
    if (argc < 3) return 2;
    graphql_checked_text text = read_file(argv[1]);
    graphql_checked_schema schema = {0};
    graphql_checked_answer answer;
    graphql_checked_status status = graphql_checked_open(&schema, &text, 1, NULL, &answer);
    for (int i = 2; i < argc && status == GRAPHQL_CHECKED_ACCEPTED; i++) {
        graphql_checked_text document = read_file(argv[i]);
        status = graphql_checked_check(&schema, &document, &answer);
        if (status == GRAPHQL_CHECKED_ACCEPTED) printf("%s: accepted\n", document.path);
        if (status == GRAPHQL_CHECKED_REFUSED) {
            /* a line for each fault */
            for (const char *line = answer.bytes; *line; line = strchr(line, '\n') + 1) {
                print_member(line, "path", "", ":");
                print_member(line, "line", "", ":");
                print_member(line, "column", "", ": ");
                print_member(line, "rule", "", ": ");
                print_member(line, "message", "", "");
                print_member(line, "hint", " (", ")");
                putchar('\n');
            }
            status = GRAPHQL_CHECKED_ACCEPTED;
        }
        free((char *)document.bytes);
    }
    if (status) fprintf(stderr, "%s: %s\n%s", argv[1], graphql_checked_status_text(status), answer.bytes);
    graphql_checked_close(&schema);
    free((char *)text.bytes);
    return (int)status;
}
