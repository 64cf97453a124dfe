/* A log of readings that goes round: the newest hundred are there, each in a record of its own, with the
 * number of the next one committed in the same transaction. A power cut leaves a reading and its number, or
 * neither. */
#include "ram_part.h"
#include <stdio.h>
#include <string.h>

enum { FRAMES = 4, NEXT = 0, FIRST = 64, ROUND = 100 };

static const struct ipl_config config = IPL_CONFIG(RAM_PLACES, FRAMES, 0);
static uint8_t memory[IPL_MEMORY(RAM_PLACES, FRAMES)];
static struct ipl store;

struct reading { uint32_t number, value; };

/* How many readings there were. Bytes are kept as they are in memory: this log stays on one processor. */
static enum ipl_answer count(uint32_t *next) {
    uint32_t len;
    enum ipl_answer answer = ipl_committed(&store, NEXT, next, sizeof *next, &len);
    if (answer == IPL_NOTHING) *next = 0;
    return answer == IPL_NOTHING ? IPL_OK : answer;
}

static enum ipl_answer add(uint32_t value) {
    struct reading r = {0, value};
    uint32_t next;
    enum ipl_answer answer = count(&r.number);
    if (answer != IPL_OK) return answer;
    next = r.number + 1;
    answer = ipl_begin(&store, 0);
    if (answer == IPL_OK) answer = ipl_put(&store, 0, FIRST + r.number % ROUND, &r, sizeof r);
    if (answer == IPL_OK) answer = ipl_put(&store, 0, NEXT, &next, sizeof next);
    if (answer == IPL_OK) return ipl_commit(&store, 0);
    if (ipl_is_up(answer)) ipl_abort(&store, 0);
    return answer;
}

/* Whether the newest readings are there, each with its number. */
static void show(void) {
    uint32_t next, len, good = 0;
    struct reading r, newest = {0, 0};
    if (count(&next) != IPL_OK) return;
    for (uint32_t n = next > ROUND ? next - ROUND : 0; n < next; n++)
        if (ipl_committed(&store, FIRST + n % ROUND, &r, sizeof r, &len) == IPL_OK && r.number == n) {
            good++;
            newest = r;
        }
    printf("logger: %u readings were made, the newest %u are there; the last one is %u, of %u\n", (unsigned)next,
           (unsigned)good, (unsigned)newest.number, (unsigned)newest.value);
}

int main(void) {
    enum ipl_answer answer;
    uint32_t i;
    ram_part_blank();
    answer = ipl_open_or_format(&store, &ram_part, &config, memory, sizeof memory);
    for (i = 0; i < 250 && answer == IPL_OK; i++) answer = add(1000 + i % 7);
    printf("logger: %u readings: %s\n", (unsigned)i, ipl_text(answer));
    show();

    /* The power goes while a reading is committed. */
    ram_part_cut_after(1);
    answer = add(5000);
    printf("logger: one more: %s\n", ipl_text(answer));
    ram_part_cut_after(0);
    if (!ipl_is_up(answer)) answer = ipl_reopen(&store);
    printf("logger: opened again: %s\n", ipl_text(answer));
    show();
    printf("logger: one more: %s\n", ipl_text(add(6000)));
    show();
    ipl_close(&store);
    return 0;
}
