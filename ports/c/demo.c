/* Records on a part in memory, through a power cut. The driver comes first, and then its use. */
#include "ipl.h"
#include <stdio.h>
#include <stdlib.h>
#include <string.h>

/* ---- the driver: a part of six places in memory ------------------------------------------------ */

enum { PLACES = 6, FRAMES = 2, SESSIONS = 2, NUMBERS = 600 };

static uint8_t places[PLACES][IPL_SECTORS][IPL_SECTOR];
static int writes_left = -1; /* the power goes in the last of so many writes; -1: it stays on */

static int is_on(void) {
    if (writes_left > 0) writes_left--;
    return writes_left != 0;
}

static int read_sector(void *context, uint32_t place, uint32_t sector, uint8_t *into) {
    (void)context;
    if (writes_left == 0) return IPL_NAND_FAILED;
    memcpy(into, places[place][sector], IPL_SECTOR);
    return IPL_NAND_DONE;
}

static int program_sector(void *context, uint32_t place, uint32_t sector, const uint8_t *from) {
    (void)context;
    if (!is_on()) return IPL_NAND_FAILED;
    memcpy(places[place][sector], from, IPL_SECTOR);
    return IPL_NAND_DONE;
}

static int erase_place(void *context, uint32_t place) {
    (void)context;
    if (!is_on()) return IPL_NAND_FAILED;
    memset(places[place], 0xFF, sizeof places[place]);
    return IPL_NAND_DONE;
}

static int wait_for_writes(void *context) {
    (void)context;
    return is_on() ? IPL_NAND_DONE : IPL_NAND_FAILED; /* what is in memory lasts at once */
}

static const struct ipl_driver driver = {NULL, read_sector, program_sector, erase_place, wait_for_writes};

/* ---- its use ------------------------------------------------------------------------------------ */

static const struct ipl_config config = IPL_CONFIG_WITH(PLACES, FRAMES, 0, SESSIONS, NUMBERS);
static uint8_t memory[IPL_MEMORY_WITH(PLACES, FRAMES, SESSIONS, NUMBERS)];
static struct ipl store;

static void must(enum ipl_answer answer, const char *what) {
    if (answer == IPL_OK) return;
    fprintf(stderr, "demo: %s: %s\n", what, ipl_text(answer));
    exit(1);
}

/* Puts a text at a name, by a transaction of its own. */
static enum ipl_answer write_text(uint32_t name, const char *text) {
    enum ipl_answer answer = ipl_begin(&store, 0);
    if (answer == IPL_OK) answer = ipl_put(&store, 0, name, text, (uint32_t)strlen(text));
    return answer == IPL_OK ? ipl_commit(&store, 0) : answer;
}

static void show_text(uint32_t name) {
    char text[IPL_VALUE];
    uint32_t length;
    enum ipl_answer answer = ipl_committed(&store, name, text, sizeof text, &length);
    if (answer == IPL_NOTHING) {
        printf("name %u: no record\n", (unsigned)name);
        return;
    }
    must(answer, "get");
    printf("name %u: %.*s\n", (unsigned)name, (int)length, text);
}

int main(void) {
    must(ipl_format(&store, &driver, &config, memory, sizeof memory), "format");
    must(ipl_open(&store, &driver, &config, memory, sizeof memory), "open");
    must(write_text(7, "the first text"), "the first commit");
    show_text(7);

    /* The power goes in the midst of a commit: in its first write to the part. */
    writes_left = 1;
    printf("a commit without power: %s\n", ipl_text(write_text(7, "the second text")));

    /* It is back. What was committed is there; the other one whole, or not at all. */
    writes_left = -1;
    must(ipl_reopen(&store), "open again");
    show_text(7);
    must(write_text(7, "the third text"), "the third commit");
    show_text(7);
    show_text(8);
    must(ipl_close(&store), "close");
    return 0;
}
