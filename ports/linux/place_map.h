/* place_map.h: where the sectors of a place stand in the erase blocks that it has. */
#ifndef PLACE_MAP_H
#define PLACE_MAP_H

#include <stdint.h>

/* 256 sectors of 512 bytes in blocks of `block_bytes`, each sector at a multiple of `step` bytes, which is 512 or a
 * page. With `header_apart` the first block has sector 0 alone, and the others have 1 to 255, so that all programs of a
 * block rise: the store programs a place's header behind its pages and before its logs, and all else in rising order. */
struct place_map {
    uint32_t block_bytes, step;
    int header_apart;
};

/* So many blocks are a place. */
uint32_t place_map_blocks(const struct place_map *map);
/* In which of them a sector stands, 0 the first, and at which byte of it. */
uint32_t place_map_block(const struct place_map *map, uint32_t sector);
uint32_t place_map_byte(const struct place_map *map, uint32_t sector);
/* Whether `next` stands right behind `sector` in one page of `page_bytes`. */
int place_map_follows(const struct place_map *map, uint32_t sector, uint32_t next, uint32_t page_bytes);

#endif
