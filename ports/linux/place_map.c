#include "place_map.h"
#include "ipl.h"

static uint32_t in_a_block(const struct place_map *map) { return map->block_bytes / map->step; }

uint32_t place_map_blocks(const struct place_map *map) { return place_map_block(map, IPL_SECTORS - 1) + 1; }

uint32_t place_map_block(const struct place_map *map, uint32_t sector) {
    if (!map->header_apart) return sector / in_a_block(map);
    return sector == 0 ? 0 : 1 + (sector - 1) / in_a_block(map);
}

uint32_t place_map_byte(const struct place_map *map, uint32_t sector) {
    uint32_t turn = map->header_apart && sector != 0 ? sector - 1 : sector;
    return turn % in_a_block(map) * map->step;
}

int place_map_follows(const struct place_map *map, uint32_t sector, uint32_t next, uint32_t page_bytes) {
    uint32_t byte = place_map_byte(map, sector);
    return map->step == IPL_SECTOR && next == sector + 1 && place_map_block(map, next) == place_map_block(map, sector)
           && place_map_byte(map, next) == byte + IPL_SECTOR && (byte + IPL_SECTOR) % page_bytes != 0;
}
