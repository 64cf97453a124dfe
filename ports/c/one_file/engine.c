/* engine.h over the translated functions: an engine's memory is its head, then the module's memory: its stack, the request, the handle
 * that an opening or a call leaves, and the heap. */

enum {
    IPL_REQUEST = (IPL_STACK + 15) / 16 * 16,
    IPL_OUT = IPL_REQUEST + 656,
    IPL_HEAP = IPL_OUT + 16
};
typedef char ipl_the_request_has_no_gaps[sizeof(struct ipl_request) == 648 ? 1 : -1];
typedef char ipl_the_head_keeps_the_alignment[IPL_HEAD % IPL_ENGINE_ALIGNMENT == 0 ? 1 : -1];

/* ---- what the module calls */

/* The heap hands out one block after the other, and takes none back: all are taken in an opening or a check. */
static void ipl_to_rattle_alloc(ipl_u8 *const m, ipl_u64 to, ipl_u64 n, ipl_u64 align) {
    struct ipl_engine *e = IPL_E(m);
    const ipl_a end = e->end;
    ipl_u64 p = (e->heap + align - 1) & ~(align - 1), size = n != 0 ? n : align;
    int ok = p <= end && size <= end - p;
    IPL_SPAN(to, 16u);
    if (ok) e->heap = (ipl_u32)(p + size);
    ipl_set8(m + (ipl_a)to, (ipl_u8)ok);
    ipl_set64u(m + (ipl_a)to + 8, ok ? p : (ipl_u64)IPL_HEAP);
}

static void ipl_to_rattle_realloc(ipl_u8 *const m, ipl_u64 to, ipl_u64 old, ipl_u64 kept, ipl_u64 n, ipl_u64 align) {
    const ipl_a end = IPL_E(m)->end;
    ipl_to_rattle_alloc(m, to, n, align);
    if (ipl_get8(m + (ipl_a)to)) IPL_COPY(ipl_get64u(m + (ipl_a)to + 8), old, kept);
}

static void ipl_to_rattle_dealloc(ipl_u8 *const m, ipl_u64 old) {
    (void)m;
    (void)old;
}

/* The driver gets plain pointers. The module's number of the part isn't needed: an engine has one driver. */
static ipl_u32 ipl_to_ipl_nand_barrier(ipl_u8 *const m, ipl_u64 part) {
    const struct ipl_driver *d = IPL_E(m)->driver;
    (void)part;
    return (ipl_u32)d->barrier(d->context);
}

static ipl_u32 ipl_to_ipl_nand_erase(ipl_u8 *const m, ipl_u64 part, ipl_u32 place) {
    const struct ipl_driver *d = IPL_E(m)->driver;
    (void)part;
    return (ipl_u32)d->erase(d->context, place);
}

static ipl_u32 ipl_to_ipl_nand_program(ipl_u8 *const m, ipl_u64 part, ipl_u32 place, ipl_u32 sector, ipl_u64 from, ipl_u64 n) {
    const struct ipl_driver *d = IPL_E(m)->driver;
    const ipl_a end = IPL_E(m)->end;
    (void)part;
    IPL_SPAN(from, n);
    return (ipl_u32)d->program(d->context, place, sector, m + (ipl_a)from);
}

static ipl_u32 ipl_to_ipl_nand_read(ipl_u8 *const m, ipl_u64 part, ipl_u32 place, ipl_u32 sector, ipl_u64 into, ipl_u64 n) {
    const struct ipl_driver *d = IPL_E(m)->driver;
    const ipl_a end = IPL_E(m)->end;
    (void)part;
    IPL_SPAN(into, n);
    return (ipl_u32)d->read(d->context, place, sector, m + (ipl_a)into);
}

/* ---- an engine in its memory */

/* An engine in the memory: its head, stack, request and slack, and no heap yet. */
static size_t ipl_least_memory(void) { return (size_t)IPL_HEAD + IPL_HEAP + IPL_SLACK; }

/* What an opening and a check take of the heap by the places: the log sectors in overflow places are 16 a unit, and 510 at
 * most. tests/memory.c tries many configs. */
static size_t ipl_bytes_of_places(size_t places) { return 391 * places + 6 * (places < 36 ? 16 * places - 64 : 510); }

IPL_ENGINE size_t ipl_engine_memory(const struct ipl_config *config) {
    return ipl_least_memory() + 28673 + ipl_bytes_of_places(config->places) + 16728 * (size_t)config->frames
           + 2600 * (size_t)config->sessions + 8 * (size_t)config->numbers + 2 * (((size_t)config->numbers + 7) / 8);
}

IPL_ENGINE size_t ipl_engine_read_memory(const struct ipl_config *config) {
    return ipl_least_memory() + 31475 + ipl_bytes_of_places(config->places) + 8 * (size_t)config->numbers
           + 2 * (((size_t)config->numbers + 7) / 8);
}

IPL_ENGINE size_t ipl_engine_check_memory(const struct ipl_config *config) {
    return ipl_least_memory() + 140482 + ipl_bytes_of_places(config->places);
}

IPL_ENGINE size_t ipl_engine_format_memory(void) { return ipl_least_memory(); }

IPL_ENGINE struct ipl_engine *ipl_engine_raise(void *at, size_t size, const struct ipl_driver *driver) {
    struct ipl_engine *e = (struct ipl_engine *)at;
    size -= IPL_HEAD;
    if (size > IPL_MOST_MEMORY) size = IPL_MOST_MEMORY;
    memset(e, 0, sizeof *e);
    e->driver = driver;
    e->end = (ipl_a)(size - IPL_SLACK);
    e->heap = IPL_HEAP;
#ifdef IPL_PAINT
    memset((ipl_u8 *)at + IPL_HEAD, IPL_PAINT, IPL_STACK);
#endif
    return e;
}

static ipl_u8 *ipl_memory_of(struct ipl_engine *e) { return (ipl_u8 *)(void *)e + IPL_HEAD; }

IPL_ENGINE struct ipl_request *ipl_engine_request(struct ipl_engine *e) {
    return (struct ipl_request *)(void *)(ipl_memory_of(e) + IPL_REQUEST);
}

/* The numbers of the request as the module has them, or back: the least byte first. */
static void ipl_turn_request(struct ipl_request *r) {
#if IPL_BIG
    uint32_t *numbers[] = {&r->op, &r->session, &r->name, &r->page, &r->key_len, &r->len};
    size_t i;
    for (i = 0; i < sizeof numbers / sizeof *numbers; i++) *numbers[i] = ipl_turn32(*numbers[i]);
    for (i = 0; i < IPL_SESSIONS; i++) r->sessions[i] = ipl_turn32(r->sessions[i]);
    for (i = 0; i < 4; i++) r->detail[i] = ipl_turn32(r->detail[i]);
#else
    (void)r;
#endif
}

/* From IPL_DO_RECORDS on they leave a handle. */
enum ipl_entry { IPL_DO_FORMAT, IPL_DO_CHECK, IPL_DO_RECORDS, IPL_DO_KEYS, IPL_DO_MAKE, IPL_DO_LOOK, IPL_DO_CALL, IPL_DO_READ };

static IPL_OUT_OF_LINE ipl_u32 ipl_do(ipl_u8 *const m, enum ipl_entry what, ipl_u32 a, ipl_u32 b) {
    switch (what) {
    case IPL_DO_FORMAT: return ipl_w_ipl_port_format(m, 0, a, b, IPL_REQUEST);
    case IPL_DO_CHECK: return ipl_w_ipl_port_check(m, 0, a, IPL_REQUEST);
    case IPL_DO_RECORDS: return ipl_w_ipl_port_open_records(m, 0, a, b, IPL_REQUEST, IPL_OUT);
    case IPL_DO_KEYS: return ipl_w_ipl_port_open_keys(m, 0, a, b, IPL_REQUEST, IPL_OUT);
    case IPL_DO_MAKE: return ipl_w_ipl_port_make_reader(m, 0, a, IPL_REQUEST, IPL_OUT);
    case IPL_DO_LOOK: return ipl_w_ipl_port_look(m, IPL_E(m)->handle, IPL_REQUEST, IPL_OUT);
    case IPL_DO_READ: return ipl_w_ipl_port_read(m, IPL_E(m)->handle, IPL_REQUEST, IPL_OUT);
    default: return ipl_w_ipl_port_call(m, IPL_E(m)->handle, IPL_REQUEST, IPL_OUT);
    }
}

/* A trap comes back here. Each call begins with the whole stack. */
static IPL_OUT_OF_LINE ipl_u32 ipl_enter(ipl_u8 *const m, enum ipl_entry what, ipl_u32 a, ipl_u32 b) {
    ipl_place here;
    IPL_E(m)->trap = &here;
    IPL_G(0) = IPL_STACK;
    if (IPL_LAND(here)) return IPL_TRAPPED;
    return ipl_do(m, what, a, b);
}

#ifdef IPL_PAINT
/* For measuring: how much of a stack was never touched, and the most that was taken of a heap. */
unsigned long ipl_least_stack = IPL_STACK, ipl_most_heap;
static void ipl_note(ipl_u8 *m) {
    unsigned long n = 0, heap = IPL_E(m)->heap - IPL_HEAP;
    while (n < ipl_least_stack && m[n] == IPL_PAINT) n++;
    if (n < ipl_least_stack) ipl_least_stack = n;
    if (heap > ipl_most_heap) ipl_most_heap = heap;
}
#endif

/* One call of the module. After a trap it is never entered again. */
static ipl_u32 ipl_run(struct ipl_engine *e, enum ipl_entry what, ipl_u32 a, ipl_u32 b) {
    ipl_u8 *const m = ipl_memory_of(e);
    struct ipl_request *r = ipl_engine_request(e);
    ipl_u32 answer;
    memset(r->detail, 0, sizeof r->detail);
    if (e->trapped) return IPL_TRAPPED;
    ipl_turn_request(r);
    answer = ipl_enter(m, what, a, b);
    ipl_turn_request(r);
#ifdef IPL_PAINT
    ipl_note(m);
#endif
    if (e->trapped) memset(r->detail, 0, sizeof r->detail);
    else if (what >= IPL_DO_RECORDS) e->handle = ipl_get64(m + IPL_OUT);
    return answer;
}

IPL_ENGINE uint32_t ipl_engine_format(struct ipl_engine *e, uint32_t places, uint32_t spares) {
    return ipl_run(e, IPL_DO_FORMAT, places, spares);
}

IPL_ENGINE uint32_t ipl_engine_check(struct ipl_engine *e, uint32_t places) { return ipl_run(e, IPL_DO_CHECK, places, 0); }

/* A reader is made first, and looks its part over then. */
static ipl_u32 ipl_open_reader(struct ipl_engine *e, ipl_u32 places) {
    ipl_u32 answer = ipl_run(e, IPL_DO_MAKE, places, 0);
    return answer == IPL_OK ? ipl_run(e, IPL_DO_LOOK, 0, 0) : answer;
}

IPL_ENGINE uint32_t ipl_engine_open(struct ipl_engine *e, enum ipl_engine_kind kind, const struct ipl_config *config) {
    ipl_engine_request(e)->session = config->sessions;
    ipl_engine_request(e)->name = config->numbers;
    e->reads = kind == IPL_ENGINE_READER;
    if (e->reads) return ipl_open_reader(e, config->places);
    return ipl_run(e, kind == IPL_ENGINE_KEYS ? IPL_DO_KEYS : IPL_DO_RECORDS, config->places, config->frames);
}

IPL_ENGINE uint32_t ipl_engine_call(struct ipl_engine *e) { return ipl_run(e, e->reads ? IPL_DO_READ : IPL_DO_CALL, 0, 0); }
