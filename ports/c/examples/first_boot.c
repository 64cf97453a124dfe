/* A first boot, and later ones: a blank part is formatted, and no other, so that a part whose headers can't be
 * read keeps what it holds. Settings stand by keys. */
#include "ram_part.h"
#include <stdio.h>
#include <string.h>

enum { FRAMES = 2, SPARES = 2 };

static const struct ipl_config config = IPL_CONFIG(RAM_PLACES, FRAMES, SPARES);
static uint8_t memory[IPL_MEMORY(RAM_PLACES, FRAMES)];
static struct ipl_keys settings;

static enum ipl_answer set(const char *key, const char *value) {
    enum ipl_answer answer = ipl_keys_begin(&settings, 0);
    if (answer == IPL_OK)
        answer = ipl_keys_put(&settings, 0, key, (uint32_t)strlen(key), value, (uint32_t)strlen(value));
    if (answer == IPL_OK) return ipl_keys_commit(&settings, 0);
    ipl_keys_abort_all(&settings);
    return answer;
}

static enum ipl_answer get(const char *key, char *value, uint32_t room) {
    uint32_t len;
    enum ipl_answer answer = ipl_keys_begin(&settings, 0);
    if (answer == IPL_OK)
        answer = ipl_keys_get(&settings, 0, key, (uint32_t)strlen(key), value, room - 1, &len);
    if (answer == IPL_OK) value[len] = 0;
    ipl_keys_abort_all(&settings);
    return answer;
}

/* A boot: 1 where the settings are open. */
static int boot(void) {
    char name[33];
    enum ipl_answer answer = ipl_keys_open_or_format(&settings, &ram_part, &config, memory, sizeof memory);
    if (answer != IPL_OK) {
        printf("boot: not opened: %s (%d); nothing was written\n", ipl_text(answer), (int)answer);
        return 0;
    }
    answer = get("name", name, sizeof name);
    if (answer == IPL_NOTHING) {
        answer = set("name", "pump 7");
        printf("boot: the first one: a name is set: %s\n", ipl_text(answer));
    } else {
        printf("boot: the name is %s\n", answer == IPL_OK ? name : ipl_text(answer));
    }
    return 1;
}

int main(void) {
    ram_part_blank();
    if (boot()) ipl_keys_close(&settings);
    if (boot()) ipl_keys_close(&settings);

    /* The header of each place rots: what the part holds can still be copied by other means. */
    for (uint32_t place = 0; place < RAM_PLACES; place++) ram_part_rot(place, 0);
    if (boot()) ipl_keys_close(&settings);

    /* They are mended, and all is there. */
    for (uint32_t place = 0; place < RAM_PLACES; place++) ram_part_rot(place, 0);
    if (boot()) ipl_keys_close(&settings);
    return 0;
}
