/* Runs a script of one session over a store: the lines `begin`, `put`, `get`, `list`, `commit` and
 * `abort` of docs/USAGE.md, with their replies. As by ipl, the script is read 4,096 bytes at a
 * time, and each line that is said is one write. */
#include "script.h"

#include <errno.h>
#include <stdio.h>
#include <stdlib.h>
#include <string.h>
#include <unistd.h>

enum { READ = 4096, MOST_LINE = 1024, MOST_VALUE = 464 };

void stop(const char *what, const char *answered) {
    fprintf(stderr, "%s: %s\n", what, answered);
    exit(1);
}

static void say(const char *text, size_t length) {
    if (write(1, text, length) != (ssize_t)length) stop("a reply", strerror(errno));
}

/* Says a text and the digits of a value behind it. */
static void say_value(const char *text, const void *bytes, size_t length) {
    static const char digits[] = "0123456789abcdef";
    char line[32 + 2 * MOST_VALUE];
    size_t at = strlen(text);
    if (length > MOST_VALUE) stop("a value", "longer than it can be");
    memcpy(line, text, at);
    for (size_t i = 0; i < length; i++) {
        uint8_t byte = ((const uint8_t *)bytes)[i];
        line[at++] = digits[byte / 16];
        line[at++] = digits[byte % 16];
    }
    line[at++] = '\n';
    say(line, at);
}

static void say_row(uint32_t name, const void *bytes, size_t length) {
    char text[16];
    snprintf(text, sizeof text, "%u ", name);
    say_value(text, bytes, length);
}

static unsigned digit_of(char letter) {
    if (letter >= '0' && letter <= '9') return (unsigned)(letter - '0');
    if (letter >= 'a' && letter <= 'f') return (unsigned)(letter - 'a') + 10;
    stop("a digit", "is none");
}

static size_t value_of(const char *digits, uint8_t *value) {
    size_t length = strlen(digits) / 2;
    if (length > MOST_VALUE) stop("a value", "longer than it can be");
    for (size_t i = 0; i < length; i++)
        value[i] = (uint8_t)(16 * digit_of(digits[2 * i]) + digit_of(digits[2 * i + 1]));
    return length;
}

/* The number behind a space, and where the rest of the line begins. */
static uint32_t number_at(char **rest) {
    if (**rest != ' ') stop("a line", "a number is missing");
    return (uint32_t)strtoul(*rest + 1, rest, 10);
}

static void get(uint32_t name) {
    const void *bytes;
    size_t length;
    if (store_get(name, &bytes, &length))
        say_value("value ", bytes, length);
    else
        say("none\n", 5);
}

static void put(uint32_t name, const char *digits) {
    uint8_t value[MOST_VALUE];
    if (*digits != ' ') stop("a line", "a value is missing");
    store_put(name, value, value_of(digits + 1, value));
    say("ok\n", 3);
}

/* Whether a line begins with a word, and where the rest of it begins. */
static int is_word(const char *word, char *line, char **rest) {
    size_t length = strlen(word);
    *rest = line + length;
    return strncmp(line, word, length) == 0;
}

/* What stands behind a word is taken in order: a session, which is the only one, and a name. */
static void do_line(char *line) {
    char *rest;
    if (is_word("put", line, &rest)) {
        number_at(&rest);
        uint32_t name = number_at(&rest);
        put(name, rest);
    } else if (is_word("get", line, &rest)) {
        number_at(&rest);
        get(number_at(&rest));
    } else if (is_word("begin", line, &rest)) {
        store_begin();
        say("ok\n", 3);
    } else if (is_word("commit", line, &rest)) {
        store_commit();
        say("ok\n", 3);
    } else if (is_word("abort", line, &rest)) {
        store_abort();
        say("ok\n", 3);
    } else if (is_word("list", line, &rest)) {
        uint32_t first = number_at(&rest), last = number_at(&rest);
        store_list(first, last, say_row);
        say("end\n", 4);
    } else {
        stop(line, "no line of a script");
    }
}

int main(int words, char **word) {
    static char read_in[READ], line[MOST_LINE + 1];
    size_t length = 0;
    ssize_t count;
    if (words == 2 && strcmp(word[1], "--version") == 0) return puts(store_version()) == EOF;
    store_open(words - 1, word + 1);
    while ((count = read(0, read_in, sizeof read_in)) > 0) {
        for (ssize_t i = 0; i < count; i++) {
            if (read_in[i] != '\n') {
                if (length == MOST_LINE) stop("a line", "longer than it can be");
                line[length++] = read_in[i];
                continue;
            }
            line[length] = 0;
            length = 0;
            do_line(line);
        }
    }
    store_close();
    return 0;
}
