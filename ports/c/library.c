/* The engine over libipl_port.a: its exports, its heap and its driver, all in the memory that is handed in. */
#include "engine.h"
#include <string.h>

/* As handle.rt of ipl_port has them. The allocator takes no bytes, and a struct of one pointer is passed as that
 * pointer. `part` comes back in each call of the driver. */
struct ipl_handle { void *at; };
uint32_t ipl_port_format(uint64_t part, uint32_t places, uint32_t spares, struct ipl_request *r);
uint32_t ipl_port_check(uint64_t part, uint32_t places, struct ipl_request *r);
uint32_t ipl_port_open_records(uint64_t part, uint32_t places, uint32_t frames, struct ipl_request *r, void **out);
uint32_t ipl_port_open_keys(uint64_t part, uint32_t places, uint32_t frames, struct ipl_request *r, void **out);
uint32_t ipl_port_make_reader(uint64_t part, uint32_t places, struct ipl_request *r, void **out);
uint32_t ipl_port_look(struct ipl_handle handle, struct ipl_request *r, void **out);
uint32_t ipl_port_call(struct ipl_handle handle, struct ipl_request *r, void **out);
uint32_t ipl_port_read(struct ipl_handle handle, struct ipl_request *r, void **out);

typedef char ipl_pointers_have_64_bits[sizeof(void *) == 8 ? 1 : -1];

/* The heap begins behind it, and hands out one block after the other. */
struct ipl_engine {
    struct ipl_request request;
    const struct ipl_driver *driver;
    struct ipl_handle handle;
    uint8_t *next, *end;
    enum ipl_engine_kind kind; /* of what the handle is */
};

/* Each block is aligned so, whatever is asked. */
enum { IPL_BLOCK = IPL_ENGINE_ALIGNMENT };
enum { IPL_HEAD = (sizeof(struct ipl_engine) + IPL_BLOCK - 1) / IPL_BLOCK * IPL_BLOCK };

/* ---- how much memory: as COSTS.md has it, and less than IPL_BLOCK more for each block */

enum { IPL_OPEN_BLOCKS = 23, IPL_READ_BLOCKS = 19, IPL_CHECK_BLOCKS = 18 };

/* By the places: the log sectors in overflow places are 16 a unit, and 510 at most. */
static size_t ipl_bytes_of_places(uint32_t places) {
    return (size_t)391 * places + (size_t)6 * (places < 36 ? 16 * places - 64 : 510);
}

size_t ipl_engine_memory(const struct ipl_config *config) {
    return (size_t)IPL_HEAD + 28652 + ipl_bytes_of_places(config->places) + (size_t)16728 * config->frames
           + (size_t)2600 * config->sessions + (size_t)8 * config->numbers + 2 * (((size_t)config->numbers + 7) / 8)
           + IPL_OPEN_BLOCKS * IPL_BLOCK;
}

size_t ipl_engine_read_memory(const struct ipl_config *config) {
    return (size_t)IPL_HEAD + 31460 + ipl_bytes_of_places(config->places) + (size_t)8 * config->numbers
           + 2 * (((size_t)config->numbers + 7) / 8) + IPL_READ_BLOCKS * IPL_BLOCK;
}

size_t ipl_engine_check_memory(const struct ipl_config *config) {
    return (size_t)IPL_HEAD + 140470 + ipl_bytes_of_places(config->places) + IPL_CHECK_BLOCKS * IPL_BLOCK;
}

size_t ipl_engine_format_memory(void) { return IPL_HEAD; }

/* ---- the heap: it is asked in an opening and a check alone, of which there is one at a time */

struct tried { uint8_t ok; void *p; };

struct tried rattle_alloc(size_t n, size_t align);
struct tried rattle_realloc(void *p, size_t kept, size_t n, size_t align);
void rattle_dealloc(void *p);

static struct ipl_engine *taking;

/* A block of no bytes has one of its own all the same. Where there is none, `p` isn't read, and isn't NULL. */
struct tried rattle_alloc(size_t n, size_t align) {
    struct tried t = {0, taking};
    size_t left = (size_t)(taking->end - taking->next), size = n != 0 ? n : 1;
    if (align > IPL_BLOCK || size > left) return t;
    t.ok = 1;
    t.p = taking->next;
    size = (size + IPL_BLOCK - 1) / IPL_BLOCK * IPL_BLOCK;
    taking->next += size < left ? size : left;
    return t;
}

struct tried rattle_realloc(void *p, size_t kept, size_t n, size_t align) {
    struct tried t = rattle_alloc(n, align);
    if (t.ok) memcpy(t.p, p, kept < n ? kept : n);
    return t;
}

void rattle_dealloc(void *p) { (void)p; }

/* ---- the driver of the store that is called */

int32_t ipl_nand_read(uint64_t part, uint32_t place, uint32_t sector, uint8_t *into, size_t length);
int32_t ipl_nand_program(uint64_t part, uint32_t place, uint32_t sector, const uint8_t *from, size_t length);
int32_t ipl_nand_erase(uint64_t part, uint32_t place);
int32_t ipl_nand_barrier(uint64_t part);

static const struct ipl_driver *driver_of(uint64_t part) {
    return (const struct ipl_driver *)(uintptr_t)part;
}

static uint64_t part_of(const struct ipl_engine *e) { return (uint64_t)(uintptr_t)e->driver; }

int32_t ipl_nand_read(uint64_t part, uint32_t place, uint32_t sector, uint8_t *into, size_t length) {
    (void)length;
    return driver_of(part)->read(driver_of(part)->context, place, sector, into);
}

int32_t ipl_nand_program(uint64_t part, uint32_t place, uint32_t sector, const uint8_t *from, size_t length) {
    (void)length;
    return driver_of(part)->program(driver_of(part)->context, place, sector, from);
}

int32_t ipl_nand_erase(uint64_t part, uint32_t place) {
    return driver_of(part)->erase(driver_of(part)->context, place);
}

int32_t ipl_nand_barrier(uint64_t part) { return driver_of(part)->barrier(driver_of(part)->context); }

/* ---- the engine */

struct ipl_engine *ipl_engine_raise(void *at, size_t size, const struct ipl_driver *driver) {
    struct ipl_engine *e = (struct ipl_engine *)at;
    memset(e, 0, sizeof *e);
    e->driver = driver;
    e->next = (uint8_t *)at + IPL_HEAD;
    e->end = (uint8_t *)at + size;
    return e;
}

struct ipl_request *ipl_engine_request(struct ipl_engine *e) { return &e->request; }

uint32_t ipl_engine_format(struct ipl_engine *e, uint32_t places, uint32_t spares) {
    return ipl_port_format(part_of(e), places, spares, &e->request);
}

uint32_t ipl_engine_check(struct ipl_engine *e, uint32_t places) {
    struct ipl_engine *outer = taking;
    uint32_t answer;
    taking = e;
    answer = ipl_port_check(part_of(e), places, &e->request);
    taking = outer;
    return answer;
}

/* A reader is made first, and looks its part over then. */
static uint32_t open_reader(struct ipl_engine *e, uint32_t places) {
    uint32_t answer = ipl_port_make_reader(part_of(e), places, &e->request, &e->handle.at);
    struct ipl_handle handle = e->handle;
    return answer == IPL_OK ? ipl_port_look(handle, &e->request, &e->handle.at) : answer;
}

uint32_t ipl_engine_open(struct ipl_engine *e, enum ipl_engine_kind kind, const struct ipl_config *config) {
    struct ipl_engine *outer = taking;
    uint32_t answer;
    e->request.session = config->sessions;
    e->request.name = config->numbers;
    e->kind = kind;
    taking = e;
    if (kind == IPL_ENGINE_READER)
        answer = open_reader(e, config->places);
    else if (kind == IPL_ENGINE_KEYS)
        answer = ipl_port_open_keys(part_of(e), config->places, config->frames, &e->request, &e->handle.at);
    else
        answer = ipl_port_open_records(part_of(e), config->places, config->frames, &e->request, &e->handle.at);
    taking = outer;
    return answer;
}

uint32_t ipl_engine_call(struct ipl_engine *e) {
    struct ipl_handle handle = e->handle;
    if (e->kind == IPL_ENGINE_READER) return ipl_port_read(handle, &e->request, &e->handle.at);
    return ipl_port_call(handle, &e->request, &e->handle.at);
}
