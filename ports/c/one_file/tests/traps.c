/* A trap is an answer: an engine whose handle isn't one any more, or whose stack is too small, answers IPL_TRAPPED, and after that to
 * each call, until it is opened again; nothing is asked of the part then, and the program goes on. It has ipl.c within, to reach the
 * handle. With a word behind its name the stack was made small: then it counts what was answered. */
#include "ipl.c"
#include "turned_part.h"

enum { PLACES = 9, FRAMES = 3 };

static struct ipl_config config = IPL_CONFIG(PLACES, FRAMES, 1);
static uint8_t memory[IPL_MEMORY(PLACES, FRAMES)];
static struct ipl store;

static void must(int holds, const char *what, long number) {
    if (holds) return;
    printf("traps: %s: %ld\n", what, number);
    exit(1);
}

static enum ipl_answer put(uint32_t name) {
    static const char text[] = "a record";
    enum ipl_answer answer = ipl_begin(&store, 1);
    if (answer == IPL_OK) answer = ipl_put(&store, 1, name, text, sizeof text);
    if (answer == IPL_OK) answer = ipl_commit(&store, 1);
    return answer;
}

static enum ipl_answer get(uint32_t name) {
    char value[IPL_VALUE];
    uint32_t len;
    return ipl_committed(&store, name, value, sizeof value, &len);
}

/* Handles that lead out of the memory: from its last bytes on, and where a sum with an offset wraps. */
static void of_handles(void) {
    static const uint64_t handles[] = {1u << 20, 1u << 30, 1610612736, UINT64_C(1) << 31, UINT64_MAX, UINT64_MAX - 4096, UINT64_MAX / 2};
    unsigned i;
    must(ipl_format(&store, &driver, &config, memory, sizeof memory) == IPL_OK, "format", 0);
    for (i = 0; i < sizeof handles / sizeof *handles; i++) {
        const uint32_t *detail;
        must(ipl_open(&store, &driver, &config, memory, sizeof memory) == IPL_OK, "opening", i);
        must(put(i) == IPL_OK && get(i) == IPL_OK, "a put", i);
        store.engine->handle = handles[i];
        must(put(i + 100) == IPL_TRAPPED, "a put by a handle that is none", i);
        must(get(i) == IPL_TRAPPED, "a get after a trap", i);
        detail = ipl_detail(&store);
        must((detail[0] | detail[1] | detail[2] | detail[3]) == 0, "detail of a trap", i);
        must(!ipl_is_up(IPL_TRAPPED) && ipl_text(IPL_TRAPPED)[0] != 0, "its class and text", i);
        must(ipl_reopen(&store) == IPL_OK, "a reopen", i);
        must(get(i) == IPL_OK && get(i + 100) == IPL_NOTHING, "the records after it", i);
        must(ipl_close(&store) == IPL_OK, "a close", i);
    }
    printf("traps: %u handles that are none: each is answered, and a reopen has the records\n", i);
}

static unsigned long answered[2];

static enum ipl_answer count(enum ipl_answer answer) {
    must(answer == IPL_OK || answer == IPL_TRAPPED || answer == IPL_NO_STORE || answer == IPL_NOT_FORMATTED || answer == IPL_BLANK, "answer",
         answer);
    answered[answer == IPL_TRAPPED]++;
    return answer;
}

static void of_a_small_stack(void) {
    uint32_t i;
    count(ipl_format(&store, &driver, &config, memory, sizeof memory));
    if (count(ipl_open(&store, &driver, &config, memory, sizeof memory)) == IPL_OK) {
        for (i = 0; i < 300; i++)
            if (count(put(i % 900)) == IPL_TRAPPED && count(ipl_reopen(&store)) != IPL_OK) break;
    }
    must(answered[1] > 0, "no trap with a small stack", IPL_STACK);
    printf("traps: a stack of %d bytes: %lu calls done, %lu traps\n", IPL_STACK, answered[0], answered[1]);
}

int main(int argc, char **argv) {
    (void)argv;
    part = (uint8_t *)calloc(PLACES, PLACE);
    must(part != NULL, "no memory for a part", 0);
    if (argc == 1) of_handles();
    else of_a_small_stack();
    free(part);
    return 0;
}
