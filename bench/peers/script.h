/* script.h: what a store does for the lines of a script that bench/comparison gives to each. A call
 * that the store can't do ends the program by `stop`. */
#ifndef SCRIPT_H
#define SCRIPT_H

#include <stddef.h>
#include <stdint.h>

const char *store_version(void);
/* The store that the words of the command line name: opened, or made where it isn't there. */
void store_open(int words, char **word);
void store_begin(void);
void store_put(uint32_t name, const void *bytes, size_t length);
/* Answers whether there is a value, and where its bytes are until the next call. */
int store_get(uint32_t name, const void **bytes, size_t *length);
/* Says each value of these names, by rising names. */
void store_list(uint32_t first, uint32_t last,
                void (*say)(uint32_t name, const void *bytes, size_t length));
void store_commit(void);
void store_abort(void);
void store_close(void);

/* Ends the program with status 1 and a line that says what the store answered, and to what. */
_Noreturn void stop(const char *what, const char *answered);

#endif
