/* A store over a part in memory: its config is made here, where none is handed in, and its memory, which has as many
 * bytes as are wanted and not one more, begins at an odd address and holds rubbish. With STORE_BYTES it is an array of so
 * many instead, for one store and a format; what they don't do for, as for a check, is of the heap all the same. */
#ifndef STORE_H
#define STORE_H

#include "../ipl.h"
#include "part.h"

enum ipl_answer part_format(uint32_t part, uint32_t places, uint32_t spares, uint32_t *detail);
enum ipl_answer part_check(uint32_t part, uint32_t places, uint32_t *records, uint32_t *detail);
enum ipl_answer part_open_with(struct ipl *s, uint32_t part, const struct ipl_config *config);
enum ipl_answer part_open_keys_with(struct ipl_keys *k, uint32_t part, const struct ipl_config *config);
/* To read alone, with room for so many committed numbers. */
enum ipl_answer part_open_to_read(struct ipl *s, uint32_t part, uint32_t places, uint32_t numbers);
/* With 32 sessions and room for all committed numbers. */
enum ipl_answer part_open(struct ipl *s, uint32_t part, uint32_t places, uint32_t frames);
enum ipl_answer part_open_keys(struct ipl_keys *k, uint32_t part, uint32_t places, uint32_t frames);
/* Whether it is open. */
int is_open(const struct ipl *s);
#endif
