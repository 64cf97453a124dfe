/* The path of a supply that warns: one call, which drops what isn't committed and leaves the part closed in
 * order. The first commit behind it erases nothing; behind a cut without a warning it merges its unit. */
#include "ram_part.h"
#include <stdio.h>

enum { FRAMES = 2 };

static const struct ipl_config config = IPL_CONFIG(RAM_PLACES, FRAMES, 0);
static uint8_t memory[IPL_MEMORY(RAM_PLACES, FRAMES)];
static struct ipl store;

/* What runs when the supply warns, from the main loop: not from the interrupt, and not from the driver. */
static enum ipl_answer on_power_fail(void) {
    enum ipl_answer answer = ipl_shutdown(&store, 1);
    ipl_close(&store);
    return answer;
}

static enum ipl_answer commit_one(uint32_t name) {
    enum ipl_answer answer = ipl_begin(&store, 0);
    if (answer == IPL_OK) answer = ipl_put(&store, 0, name, "x", 1);
    return answer == IPL_OK ? ipl_commit(&store, 0) : answer;
}

/* A start, and how many erases its first commit takes. */
static void start(const char *behind) {
    struct ipl_facts before, after;
    enum ipl_answer answer = ipl_open(&store, &ram_part, &config, memory, sizeof memory);
    if (answer == IPL_OK) answer = ipl_state(&store, &before);
    if (answer == IPL_OK) answer = commit_one(1);
    if (answer == IPL_OK) answer = ipl_state(&store, &after);
    if (answer != IPL_OK) {
        printf("power_fail: %s: %s\n", behind, ipl_text(answer));
        return;
    }
    printf("power_fail: behind %s the first commit takes so many erases: %u\n", behind,
           (unsigned)(after.erases - before.erases));
}

int main(void) {
    uint32_t len;
    uint8_t byte;
    ram_part_blank();
    if (ipl_format(&store, &ram_part, &config, memory, sizeof memory) != IPL_OK) return 1;
    start("a format");
    commit_one(2);

    /* The supply warns while two sessions are open. */
    ipl_begin(&store, 0);
    ipl_put(&store, 0, 3, "y", 1);
    ipl_begin(&store, 1);
    printf("power_fail: a warning: %s\n", ipl_text(on_power_fail()));
    start("a warning");
    printf("power_fail: what was committed: %s\n", ipl_text(ipl_committed(&store, 2, &byte, 1, &len)));
    printf("power_fail: what wasn't: %s\n", ipl_text(ipl_committed(&store, 3, &byte, 1, &len)));

    /* It doesn't warn: the next write doesn't come to its end. */
    ram_part_cut_after(1);
    printf("power_fail: a cut: %s\n", ipl_text(commit_one(4)));
    ram_part_cut_after(0);
    ipl_close(&store);
    start("a cut");
    ipl_close(&store);
    return 0;
}
