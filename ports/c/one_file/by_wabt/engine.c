/* engine.h over the module as wasm2c has it, for the tests alone, on a 64-bit host whose bytes go up. The data of the module stands at
 * 1.5 GB, so each engine has a memory of as many bytes by mmap, of which few are touched. */
#define _GNU_SOURCE /* of mmap, that it may have no memory behind it */
#include "../../engine.h"
#include "ipl_wabt.h"
#include <setjmp.h>
#include <stdlib.h>
#include <string.h>
#include <sys/mman.h>

enum { STACK = 40960, REQUEST = STACK, OUT = REQUEST + 656, HEAP = OUT + 16, MEMORIES = 256 };

struct Z_env_instance_t {
    struct ipl_engine *engine;
};

struct ipl_engine {
    struct ipl_request request;
    struct Z_env_instance_t env;
    Z_ipl_instance_t instance;
    const struct ipl_driver *driver;
    uint64_t heap, end, handle;
    int trapped, reads;
};

/* ---- what wasm2c wants */

u32 wasm_rt_call_stack_depth;
static jmp_buf *landing;

/* The memories of the last engines. No test has so many stores open that the oldest is still used. */
static void *memories[MEMORIES];
static unsigned raised;

void wasm_rt_trap(wasm_rt_trap_t code) {
    (void)code;
    longjmp(*landing, 1);
}

void wasm_rt_allocate_memory(wasm_rt_memory_t *memory, u32 pages, u32 most) {
    size_t size = (size_t)pages * 65536;
    void **place = &memories[raised++ % MEMORIES];
    (void)most;
    if (*place != NULL) munmap(*place, size);
    *place = mmap(NULL, size, PROT_READ | PROT_WRITE, MAP_PRIVATE | MAP_ANONYMOUS | MAP_NORESERVE, -1, 0);
    if (*place == MAP_FAILED) abort();
    memory->data = (uint8_t *)*place;
    memory->size = (u32)size;
    memory->pages = memory->max_pages = pages;
}

void wasm_rt_free_memory(wasm_rt_memory_t *memory) { (void)memory; }
bool wasm_rt_is_initialized(void) { return true; }
u32 wasm_rt_register_func_type(u32 parameters, u32 results, ...) {
    (void)parameters;
    (void)results;
    return 0;
}

/* ---- what the module calls */

static uint8_t *at(struct Z_env_instance_t *env, u64 address) { return env->engine->instance.w2c_memory.data + address; }

void Z_envZ_rattle_alloc(struct Z_env_instance_t *env, u64 to, u64 n, u64 align) {
    struct ipl_engine *e = env->engine;
    uint64_t p = (e->heap + align - 1) & ~(align - 1), size = n != 0 ? n : align, told = HEAP;
    uint8_t ok = p <= e->end && size <= e->end - p;
    if (ok) {
        e->heap = p + size;
        told = p;
    }
    *at(env, to) = ok;
    memcpy(at(env, to + 8), &told, 8);
}

void Z_envZ_rattle_realloc(struct Z_env_instance_t *env, u64 to, u64 old, u64 kept, u64 n, u64 align) {
    uint64_t p;
    Z_envZ_rattle_alloc(env, to, n, align);
    memcpy(&p, at(env, to + 8), 8);
    if (*at(env, to)) memmove(at(env, p), at(env, old), kept);
}

void Z_envZ_rattle_dealloc(struct Z_env_instance_t *env, u64 old) {
    (void)env;
    (void)old;
}

u32 Z_envZ_ipl_nand_barrier(struct Z_env_instance_t *env, u64 part) {
    (void)part;
    return (u32)env->engine->driver->barrier(env->engine->driver->context);
}

u32 Z_envZ_ipl_nand_erase(struct Z_env_instance_t *env, u64 part, u32 place) {
    (void)part;
    return (u32)env->engine->driver->erase(env->engine->driver->context, place);
}

u32 Z_envZ_ipl_nand_program(struct Z_env_instance_t *env, u64 part, u32 place, u32 sector, u64 from, u64 n) {
    (void)part;
    (void)n;
    return (u32)env->engine->driver->program(env->engine->driver->context, place, sector, at(env, from));
}

u32 Z_envZ_ipl_nand_read(struct Z_env_instance_t *env, u64 part, u32 place, u32 sector, u64 into, u64 n) {
    (void)part;
    (void)n;
    return (u32)env->engine->driver->read(env->engine->driver->context, place, sector, at(env, into));
}

/* ---- engine.h */

/* Nothing is kept free behind the heap: the module's own memory goes on there. */
static size_t least(void) { return sizeof(struct ipl_engine) + HEAP; }
static size_t bytes_of_places(size_t places) { return 391 * places + 6 * (places < 36 ? 16 * places - 64 : 510); }
size_t ipl_engine_memory(const struct ipl_config *config) {
    return least() + 28673 + bytes_of_places(config->places) + 16728 * (size_t)config->frames + 2600 * (size_t)config->sessions
           + 8 * (size_t)config->numbers + 2 * (((size_t)config->numbers + 7) / 8);
}
size_t ipl_engine_read_memory(const struct ipl_config *config) {
    return least() + 31475 + bytes_of_places(config->places) + 8 * (size_t)config->numbers + 2 * (((size_t)config->numbers + 7) / 8);
}
size_t ipl_engine_check_memory(const struct ipl_config *config) { return least() + 140482 + bytes_of_places(config->places); }
size_t ipl_engine_format_memory(void) { return least(); }

struct ipl_engine *ipl_engine_raise(void *memory, size_t size, const struct ipl_driver *driver) {
    struct ipl_engine *e = (struct ipl_engine *)memory;
    memset(e, 0, sizeof *e);
    e->env.engine = e;
    e->driver = driver;
    e->heap = HEAP;
    e->end = size - sizeof *e;
    Z_ipl_init_module();
    Z_ipl_instantiate(&e->instance, &e->env);
    return e;
}

struct ipl_request *ipl_engine_request(struct ipl_engine *e) { return &e->request; }

enum what { FORMAT, CHECK, RECORDS, KEYS, MAKE, LOOK, CALL, READING };

static uint32_t run(struct ipl_engine *e, enum what what, uint32_t a, uint32_t b) {
    jmp_buf here, *outer = landing;
    uint8_t *request = at(&e->env, REQUEST);
    Z_ipl_instance_t *m = &e->instance;
    volatile uint32_t answer = IPL_TRAPPED;
    memset(e->request.detail, 0, sizeof e->request.detail);
    if (e->trapped) return answer;
    memcpy(request, &e->request, sizeof e->request);
    landing = &here;
    if (setjmp(here) != 0) {
        e->trapped = 1;
    } else {
        switch (what) {
        case FORMAT: answer = Z_iplZ_ipl_port_format(m, 0, a, b, REQUEST); break;
        case CHECK: answer = Z_iplZ_ipl_port_check(m, 0, a, REQUEST); break;
        case RECORDS: answer = Z_iplZ_ipl_port_open_records(m, 0, a, b, REQUEST, OUT); break;
        case KEYS: answer = Z_iplZ_ipl_port_open_keys(m, 0, a, b, REQUEST, OUT); break;
        case MAKE: answer = Z_iplZ_ipl_port_make_reader(m, 0, a, REQUEST, OUT); break;
        case LOOK: answer = Z_iplZ_ipl_port_look(m, e->handle, REQUEST, OUT); break;
        case READING: answer = Z_iplZ_ipl_port_read(m, e->handle, REQUEST, OUT); break;
        default: answer = Z_iplZ_ipl_port_call(m, e->handle, REQUEST, OUT); break;
        }
        memcpy(&e->request, request, sizeof e->request);
        memcpy(&e->handle, at(&e->env, OUT), 8);
    }
    landing = outer;
    return answer;
}

uint32_t ipl_engine_format(struct ipl_engine *e, uint32_t places, uint32_t spares) { return run(e, FORMAT, places, spares); }
uint32_t ipl_engine_check(struct ipl_engine *e, uint32_t places) { return run(e, CHECK, places, 0); }
static uint32_t open_reader(struct ipl_engine *e, uint32_t places) {
    uint32_t answer = run(e, MAKE, places, 0);
    return answer == IPL_OK ? run(e, LOOK, 0, 0) : answer;
}
uint32_t ipl_engine_open(struct ipl_engine *e, enum ipl_engine_kind kind, const struct ipl_config *config) {
    e->request.session = config->sessions;
    e->request.name = config->numbers;
    e->reads = kind == IPL_ENGINE_READER;
    if (e->reads) return open_reader(e, config->places);
    return run(e, kind == IPL_ENGINE_KEYS ? KEYS : RECORDS, config->places, config->frames);
}
uint32_t ipl_engine_call(struct ipl_engine *e) { return run(e, e->reads ? READING : CALL, 0, 0); }
