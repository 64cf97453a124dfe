#include "store.h"
#include <stdlib.h>
#include <string.h>

enum { STORES = 8, ODD = 1 };

/* What was handed in for a struct, until that is handed in again. */
static struct { const struct ipl *store; uint8_t *bytes; } memories[STORES];

#ifdef STORE_BYTES
static uint8_t store_memory[STORE_BYTES + ODD];
#endif

static void *memory_for(const struct ipl *s, size_t size) {
#ifdef STORE_BYTES
    if (size <= STORE_BYTES) return store_memory + ODD;
#endif
    for (int i = 0; i < STORES; i++) {
        if (memories[i].store != s && memories[i].store != NULL) continue;
        free(memories[i].bytes);
        memories[i].store = s;
        memories[i].bytes = malloc(size + ODD);
        if (memories[i].bytes == NULL) abort();
        memset(memories[i].bytes, 0xC7, size + ODD);
        return memories[i].bytes + ODD;
    }
    abort();
}

/* For a format or a check, which are over when they return. */
static struct ipl brief;

static void tell(uint32_t *detail) {
    if (detail != NULL) memcpy(detail, ipl_detail(&brief), 4 * sizeof *detail);
}

enum ipl_answer part_format(uint32_t part, uint32_t places, uint32_t spares, uint32_t *detail) {
    struct ipl_config config = IPL_CONFIG(places, 0, spares);
    size_t size = ipl_format_memory(&config);
    enum ipl_answer answer = ipl_format(&brief, part_driver(part), &config, memory_for(&brief, size), size);
    tell(detail);
    return answer;
}

enum ipl_answer part_check(uint32_t part, uint32_t places, uint32_t *records, uint32_t *detail) {
    struct ipl_config config = IPL_CONFIG(places, 0, 0);
    size_t size = ipl_check_memory(&config);
    enum ipl_answer answer = ipl_check(&brief, part_driver(part), &config, memory_for(&brief, size), size, records);
    tell(detail);
    return answer;
}

enum ipl_answer part_open_with(struct ipl *s, uint32_t part, const struct ipl_config *config) {
    size_t size = ipl_memory(config);
    return ipl_open(s, part_driver(part), config, memory_for(s, size), size);
}

enum ipl_answer part_open_keys_with(struct ipl_keys *k, uint32_t part, const struct ipl_config *config) {
    size_t size = ipl_memory(config);
    return ipl_keys_open(k, part_driver(part), config, memory_for(&k->store, size), size);
}

enum ipl_answer part_open_to_read(struct ipl *s, uint32_t part, uint32_t places, uint32_t numbers) {
    struct ipl_config config = IPL_CONFIG_WITH(places, 0, 0, 0, numbers);
    size_t size = ipl_read_memory(&config);
    return ipl_open_to_read(s, part_driver(part), &config, memory_for(s, size), size);
}

enum ipl_answer part_open(struct ipl *s, uint32_t part, uint32_t places, uint32_t frames) {
    struct ipl_config config = IPL_CONFIG(places, frames, 0);
    return part_open_with(s, part, &config);
}

enum ipl_answer part_open_keys(struct ipl_keys *k, uint32_t part, uint32_t places, uint32_t frames) {
    struct ipl_config config = IPL_CONFIG(places, frames, 0);
    return part_open_keys_with(k, part, &config);
}

int is_open(const struct ipl *s) {
    struct ipl_facts state;
    return ipl_state(s, &state) == IPL_OK;
}
