/* Times transactions over a part in memory: one put, four random puts, and a batch of 32 sessions with a put each. It says a line for
 * each: its name and the microseconds of the processor that one takes. usage: file_puts COUNT */
#include "ipl.h"
#include <stdio.h>
#include <stdlib.h>
#include <string.h>
#include <time.h>

enum { PLACES = 8, FRAMES = 16, NAMES = IPL_UNIT_NAMES * (PLACES - 4), BYTES = 40 };

static uint8_t bytes[PLACES][IPL_SECTORS][IPL_SECTOR], memory[IPL_MEMORY(PLACES, FRAMES)];
static struct ipl store;

static int read_sector(void *context, uint32_t place, uint32_t sector, uint8_t *into) {
    (void)context;
    memcpy(into, bytes[place][sector], IPL_SECTOR);
    return IPL_NAND_DONE;
}

static int program_sector(void *context, uint32_t place, uint32_t sector, const uint8_t *from) {
    (void)context;
    memcpy(bytes[place][sector], from, IPL_SECTOR);
    return IPL_NAND_DONE;
}

static int erase_place(void *context, uint32_t place) {
    (void)context;
    memset(bytes[place], 0xFF, sizeof bytes[place]);
    return IPL_NAND_DONE;
}

static int wait_for_writes(void *context) {
    (void)context;
    return IPL_NAND_DONE;
}

static void must(enum ipl_answer answer) {
    if (answer == IPL_OK) return;
    fprintf(stderr, "file_puts: %s\n", ipl_text(answer));
    exit(1);
}

static uint32_t state = 12345;

static uint32_t any_name(void) {
    state = state * 1664525u + 1013904223u;
    return (state >> 8) % NAMES;
}

static void put(uint32_t session, uint32_t name) {
    uint8_t value[BYTES];
    memset(value, (int)(name & 0xFF), sizeof value);
    must(ipl_put(&store, session, name, value, sizeof value));
}

static void one_put(uint32_t i) {
    must(ipl_begin(&store, 0));
    put(0, i % NAMES);
    must(ipl_commit(&store, 0));
}

static void four_puts(uint32_t i) {
    int k;
    (void)i;
    must(ipl_begin(&store, 0));
    for (k = 0; k < 4; k++) put(0, any_name());
    must(ipl_commit(&store, 0));
}

static void batch(uint32_t i) {
    uint32_t sessions[IPL_SESSIONS], k;
    for (k = 0; k < IPL_SESSIONS; k++) {
        sessions[k] = k;
        must(ipl_begin(&store, k));
        put(k, (i * IPL_SESSIONS + k) % NAMES);
    }
    must(ipl_commit_all(&store, sessions, IPL_SESSIONS));
}

static void timed(const char *name, void (*transaction)(uint32_t), uint32_t count) {
    uint32_t i;
    clock_t start = clock();
    for (i = 0; i < count; i++) transaction(i);
    printf("%s %.3f\n", name, (double)(clock() - start) * 1e6 / CLOCKS_PER_SEC / count);
}

int main(int argc, char **argv) {
    uint32_t count = argc > 1 ? (uint32_t)atoi(argv[1]) : 20000, i;
    struct ipl_driver driver = {NULL, read_sector, program_sector, erase_place, wait_for_writes};
    struct ipl_config config = IPL_CONFIG(PLACES, FRAMES, 0);
    must(ipl_format(&store, &driver, &config, memory, sizeof memory));
    must(ipl_open(&store, &driver, &config, memory, sizeof memory));
    for (i = 0; i < NAMES / IPL_SESSIONS; i++) batch(i);
    timed("one_put", one_put, count);
    timed("four_puts", four_puts, count);
    timed("batch", batch, count / 8);
    must(ipl_close(&store));
    return 0;
}
