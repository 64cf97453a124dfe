/* The memory of an engine: an opening, one to read and a check take what is said for each config, and nothing is written past
 * it; in less an opening answers that it is out of memory, or a trap. It has ipl.c within, to see the engine. */
#include "ipl.c"
#include "turned_part.h"

/* Two rows of flags for numbers end up to 7 bytes before a multiple of 8 each; all else leaves a few bytes. */
enum { GUARD = 64, LEFT = 8 + 2 * 7 };

static void must(int holds, const char *what, unsigned long number) {
    if (holds) return;
    printf("memory: %s: %lu\n", what, number);
    exit(1);
}

/* An engine in so many bytes, with bytes of another kind behind them. */
static uint8_t *memory;
static size_t handed;

static struct ipl_engine *raise_in(size_t size) {
    handed = size;
    free(memory);
    memory = (uint8_t *)malloc(size + GUARD);
    must(memory != NULL, "no memory", (unsigned long)size);
    memset(memory, 0xE7, size + GUARD);
    return ipl_engine_raise(memory, size, &driver);
}

static void nothing_is_written_behind(void) {
    size_t i;
    for (i = handed; i < handed + GUARD; i++) must(memory[i] == 0xE7, "written behind the memory", (unsigned long)i);
}

/* What of the memory an engine hasn't handed out of its heap. */
static size_t left(const struct ipl_engine *e) { return (size_t)(e->end - e->heap); }

static unsigned long in_less;

static void in_too_little(uint32_t places, enum ipl_engine_kind kind, uint32_t numbers) {
    const struct ipl_config config = IPL_CONFIG_WITH(places, 3, 0, IPL_SESSIONS, numbers);
    size_t whole = kind == IPL_ENGINE_READER ? ipl_engine_read_memory(&config) : ipl_engine_memory(&config), size;
    for (size = ipl_engine_format_memory(); size < whole; size += 1531) {
        uint32_t answer = ipl_engine_open(raise_in(size), kind, &config);
        nothing_is_written_behind();
        must(answer == IPL_OUT_OF_MEMORY || answer == IPL_TRAPPED, "too little memory is answered", answer);
        in_less++;
    }
}

int main(int argc, char **argv) {
    static const uint32_t many[] = {5, 6, 7, 8, 9, 10, 11, 12, 57, 257, 1028};
    uint32_t most = argc > 1 ? (uint32_t)atoi(argv[1]) : 1028, i, frames, tried = 0;
    for (i = 0; i < sizeof many / sizeof *many && many[i] <= most; i++) {
        uint32_t places = many[i];
        const struct ipl_config of_places = IPL_CONFIG(places, IPL_FRAMES_LEAST, 0);
        struct ipl_engine *e;
        part = (uint8_t *)calloc(places, PLACE);
        must(part != NULL, "no memory for a part of places", places);
        e = raise_in(ipl_engine_format_memory());
        must(ipl_engine_format(e, places, 0) == IPL_OK, "format of places", places);
        nothing_is_written_behind();
        e = raise_in(ipl_engine_check_memory(&of_places));
        must(ipl_engine_check(e, places) == IPL_OK, "check of places", places);
        must(left(e) <= 16, "bytes that a check leaves", (unsigned long)left(e));
        nothing_is_written_behind();
        for (frames = IPL_FRAMES_LEAST; frames <= IPL_FRAMES_MOST; frames += 1 + frames / 4) {
            const uint32_t numbers = tried % 3 ? IPL_NUMBERS_LEAST + tried * 131 % (IPL_NUMBERS_MOST - IPL_NUMBERS_LEAST + 1) : IPL_NUMBERS_MOST;
            const struct ipl_config config = IPL_CONFIG_WITH(places, frames, 0, 1 + tried % IPL_SESSIONS, numbers);
            e = raise_in(ipl_engine_memory(&config));
            must(ipl_engine_open(e, tried % 2 ? IPL_ENGINE_KEYS : IPL_ENGINE_RECORDS, &config) == IPL_OK, "opening", frames);
            must(left(e) <= LEFT, "bytes that an opening leaves", (unsigned long)left(e));
            nothing_is_written_behind();
            e = raise_in(ipl_engine_read_memory(&config));
            must(ipl_engine_open(e, IPL_ENGINE_READER, &config) == IPL_OK, "opening to read", numbers);
            must(left(e) <= LEFT, "bytes that an opening to read leaves", (unsigned long)left(e));
            nothing_is_written_behind();
            tried++;
        }
        if (places == 9) {
            in_too_little(places, IPL_ENGINE_RECORDS, IPL_NUMBERS_MOST);
            in_too_little(places, IPL_ENGINE_RECORDS, IPL_NUMBERS_LEAST);
            in_too_little(places, IPL_ENGINE_READER, IPL_NUMBERS_LEAST);
        }
        free(part);
    }
    printf("memory: %u openings, and as many to read, that leave at most %d bytes, %lu in too little memory\n", (unsigned)tried, LEFT, in_less);
    return 0;
}
