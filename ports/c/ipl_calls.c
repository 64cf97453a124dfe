/* The calls of ipl.h over engine.h: arguments are looked at here, and the list of open stores is kept here. */
#include "engine.h"
#include <string.h>

typedef char ipl_request_has_no_gaps[sizeof(struct ipl_request) == 648 ? 1 : -1];

/* A struct that is no store's has another number there, as good as always, and another address. */
enum ipl_tag { IPL_TAG_CLOSED = 0, IPL_TAG_OPENING = 0x69706C31, IPL_TAG_OPEN = 0x69706C32 };

/* The one thing that stores share: the calls that read and change it are one at a time. */
static struct ipl *ipl_open_stores;

uint32_t ipl_version(void) { return IPL_VERSION; }
uint32_t ipl_format_version(void) { return 3; }

/* ---- answers */

int ipl_is_refused(enum ipl_answer answer) { return answer >= IPL_BAD_SESSION && answer < IPL_READ_FAULT; }
int ipl_is_up(enum ipl_answer answer) { return answer < IPL_DOWN; }

const char *ipl_text(enum ipl_answer answer) {
    switch (answer) {
    case IPL_OK: return "done";
    case IPL_NOTHING: return "there is no record";
    case IPL_BAD_SESSION: return "no such session";
    case IPL_BAD_NAME: return "no such name";
    case IPL_TOO_LONG: return "a record of more than 464 bytes";
    case IPL_ALREADY_OPEN: return "the session is open";
    case IPL_NOT_OPEN: return "the session isn't open";
    case IPL_CONFLICT: return "another session holds the name";
    case IPL_WRITES_FULL: return "the session has written 256 names";
    case IPL_SHARES_FULL: return "the session has shared 256 names";
    case IPL_PENDING_FULL: return "too much in the unit isn't committed";
    case IPL_BAD_UNIT: return "no such unit or page";
    case IPL_HOLDS_FULL: return "all frames but one are held";
    case IPL_NOT_HELD: return "the page isn't held";
    case IPL_PAGE_FULL: return "the page is full";
    case IPL_TWICE: return "a session is named twice";
    case IPL_BAD_KEY: return "a key that hasn't 1 to 16 bytes";
    case IPL_LONG_VALUE: return "a value by a key of more than 200 bytes";
    case IPL_BUCKET_FULL: return "the bucket of the key is full";
    case IPL_SESSIONS_OPEN: return "a session is open";
    case IPL_NO_ROOM: return "the value is longer than the room for it";
    case IPL_MANY_SESSIONS: return "more than 32 sessions are named";
    case IPL_BAD_FRAMES: return "not 2 to 64 frames";
    case IPL_NO_SUCH_CALL: return "the store has no such call";
    case IPL_NULL_POINTER: return "a null pointer";
    case IPL_OTHER_VERSION: return "the header is of another version than the library";
    case IPL_NO_STORE: return "no open store";
    case IPL_BUSY: return "a call of the store isn't over";
    case IPL_STORE_IN_USE: return "the struct is that of an open store";
    case IPL_PART_IN_USE: return "the part is in use";
    case IPL_MEMORY_IN_USE: return "the memory is in use";
    case IPL_SMALL_MEMORY: return "too little memory";
    case IPL_BAD_PLACES: return "not 5 to 1,028 places";
    case IPL_BAD_SPARES: return "more than 64 spare places, or no unit is left";
    case IPL_BAD_SESSIONS: return "not 1 to 32 sessions";
    case IPL_BAD_NUMBERS: return "not room for 120 to 15,300 committed numbers";
    case IPL_READ_ONLY: return "the part was opened to be read alone";
    case IPL_READ_FAULT: return "a read failed";
    case IPL_DAMAGED: return "a sector of a page is damaged";
    case IPL_MALFORMED: return "a page is malformed";
    case IPL_BAD_BUCKET: return "a record is no bucket of keys";
    case IPL_DOWN: return "the store is down";
    case IPL_SPENT: return "the numbers of calls are used up";
    case IPL_STOPPED: return "a write failed, and the store is down";
    case IPL_WORN_OUT: return "more places are worn than are spare, and the store is down";
    case IPL_TRAPPED: return "a check of the store itself failed";
    case IPL_GEOMETRY: return "the part was formatted for another number of places";
    case IPL_NOT_FORMATTED: return "the part isn't formatted";
    case IPL_BLANK: return "the part is blank";
    case IPL_MISSING: return "a unit is missing on the part";
    case IPL_NO_SPARE: return "too many overflow places have log sectors";
    case IPL_OUT_OF_MEMORY: return "out of memory";
    case IPL_FORMAT_WORN: return "the format found a worn place";
    case IPL_PART_UNREAD: return "a read failed, and nothing is open";
    case IPL_PART_STOPPED: return "a write failed, and nothing is open";
    case IPL_PART_DAMAGED: return "a sector of the part is damaged";
    case IPL_PART_MALFORMED: return "a sector of the part is malformed";
    case IPL_PART_WORN_OUT: return "more places are worn than are spare, and nothing is open";
    case IPL_PART_SPENT: return "the numbers of calls are used up, and nothing is open";
    case IPL_MANY_NUMBERS: return "more committed numbers than there is room for in memory";
    default: return "no answer of this library";
    }
}

static enum ipl_answer ipl_answered(uint32_t number) { return (enum ipl_answer)number; }

/* ---- the driver, counted */

static int ipl_count(struct ipl *s, uint64_t *calls, int done) {
    *calls += 1;
    if (done != IPL_NAND_DONE) s->facts.failures++;
    return done;
}

static int ipl_read_once(struct ipl *s, uint32_t place, uint32_t sector, uint8_t *into) {
    int done = s->driver.read(s->driver.context, place, sector, into);
    s->facts.reads++;
    if (done == IPL_NAND_DOUBTFUL) s->facts.doubtful++;
    else if (done != IPL_NAND_DONE) s->facts.failures++;
    return done;
}

/* What the ECC couldn't mend is read once more: bits that flip in one read may stand in the next. Bytes that it
 * can't mend then either are handed on, and the store looks at their sum. */
static int ipl_read(void *context, uint32_t place, uint32_t sector, uint8_t *into) {
    struct ipl *s = (struct ipl *)context;
    int done = ipl_read_once(s, place, sector, into);
    if (done == IPL_NAND_DOUBTFUL) done = ipl_read_once(s, place, sector, into);
    return done == IPL_NAND_DOUBTFUL ? IPL_NAND_DONE : done;
}

static int ipl_program(void *context, uint32_t place, uint32_t sector, const uint8_t *from) {
    struct ipl *s = (struct ipl *)context;
    return ipl_count(s, &s->facts.programs, s->driver.program(s->driver.context, place, sector, from));
}

static int ipl_erase(void *context, uint32_t place) {
    struct ipl *s = (struct ipl *)context;
    int done = s->driver.erase(s->driver.context, place);
    s->facts.erases++;
    if (done == IPL_NAND_WORN) s->facts.worn++;
    else if (done != IPL_NAND_DONE) s->facts.failures++;
    return done;
}

static int ipl_barrier(void *context) {
    struct ipl *s = (struct ipl *)context;
    return ipl_count(s, &s->facts.barriers, s->driver.barrier(s->driver.context));
}

/* ---- how much memory */

/* What is begun. From IPL_WORK_READ on it ends with something open, and from IPL_WORK_OPEN on with sessions. */
enum ipl_work { IPL_WORK_FORMAT, IPL_WORK_CHECK, IPL_WORK_READ, IPL_WORK_OPEN, IPL_WORK_OPEN_OR_FORMAT };

static enum ipl_answer ipl_look_at(const struct ipl_config *config, enum ipl_work work) {
    int reads = work >= IPL_WORK_READ, opens = work >= IPL_WORK_OPEN;
    int has_spares = work == IPL_WORK_FORMAT || work == IPL_WORK_OPEN_OR_FORMAT;
    if (config->version != IPL_VERSION) return IPL_OTHER_VERSION;
    if (config->places < IPL_PLACES_LEAST || config->places > IPL_PLACES_MOST) return IPL_BAD_PLACES;
    if (opens && (config->frames < IPL_FRAMES_LEAST || config->frames > IPL_FRAMES_MOST)) return IPL_BAD_FRAMES;
    if (opens && (config->sessions < 1 || config->sessions > IPL_SESSIONS)) return IPL_BAD_SESSIONS;
    if (reads && (config->numbers < IPL_NUMBERS_LEAST || config->numbers > IPL_NUMBERS_MOST)) return IPL_BAD_NUMBERS;
    if (has_spares && (config->spares > IPL_SPARES_MOST || config->spares > config->places - IPL_PLACES_LEAST))
        return IPL_BAD_SPARES;
    return IPL_OK;
}

/* The memory may begin at any address, and the engine's may not. */
enum { IPL_GAP = IPL_ENGINE_ALIGNMENT - 1 };

static size_t ipl_wanted(const struct ipl_config *config, enum ipl_work work) {
    if (config == NULL || ipl_look_at(config, work) != IPL_OK) return 0;
    if (work == IPL_WORK_FORMAT) return IPL_GAP + ipl_engine_format_memory();
    if (work == IPL_WORK_CHECK) return IPL_GAP + ipl_engine_check_memory(config);
    if (work == IPL_WORK_READ) return IPL_GAP + ipl_engine_read_memory(config);
    return IPL_GAP + ipl_engine_memory(config);
}

size_t ipl_memory(const struct ipl_config *config) { return ipl_wanted(config, IPL_WORK_OPEN); }
size_t ipl_read_memory(const struct ipl_config *config) { return ipl_wanted(config, IPL_WORK_READ); }
size_t ipl_check_memory(const struct ipl_config *config) { return ipl_wanted(config, IPL_WORK_CHECK); }
size_t ipl_format_memory(const struct ipl_config *config) { return ipl_wanted(config, IPL_WORK_FORMAT); }

/* ---- the list of open stores */

static int ipl_is_one_part(const struct ipl_driver *a, const struct ipl_driver *b) {
    return a->context == b->context
           && (a->read == b->read || a->program == b->program || a->erase == b->erase || a->barrier == b->barrier);
}

/* Whether bytes are both in one and in the other, which aren't parts of one array. */
static int ipl_overlap(const void *a, size_t a_size, const void *b, size_t b_size) {
    uintptr_t x = (uintptr_t)a, y = (uintptr_t)b;
    return x < y ? y - x < a_size : x - y < b_size;
}

/* Whether a struct may be written to: no open store's bytes are in it. */
static enum ipl_answer ipl_look_at_struct(const struct ipl *s) {
    const struct ipl *it;
    for (it = ipl_open_stores; it != NULL; it = it->next) {
        if (ipl_overlap(it, sizeof *it, s, sizeof *s)) return IPL_STORE_IN_USE;
        if (ipl_overlap(it->memory, it->size, s, sizeof *s)) return IPL_MEMORY_IN_USE;
    }
    return IPL_OK;
}

/* Puts a store on the list, unless what it wants is another's. */
static enum ipl_answer ipl_list(struct ipl *s) {
    const struct ipl *it;
    if (ipl_overlap(s, sizeof *s, s->memory, s->size)) return IPL_MEMORY_IN_USE;
    for (it = ipl_open_stores; it != NULL; it = it->next) {
        if (ipl_is_one_part(&it->driver, &s->driver)) return IPL_PART_IN_USE;
        if (ipl_overlap(it->memory, it->size, s->memory, s->size) || ipl_overlap(it, sizeof *it, s->memory, s->size))
            return IPL_MEMORY_IN_USE;
    }
    s->next = ipl_open_stores;
    ipl_open_stores = s;
    return IPL_OK;
}

static void ipl_unlist(struct ipl *s) {
    struct ipl **at;
    for (at = &ipl_open_stores; *at != NULL; at = &(*at)->next)
        if (*at == s) {
            *at = s->next;
            break;
        }
    s->next = NULL;
}

/* ---- openings, formats and checks */

static enum ipl_answer ipl_refuse(struct ipl *s, enum ipl_answer answer, uint32_t detail) {
    s->detail[0] = detail;
    return answer;
}

/* Makes a store of the struct that asks its part nothing yet, and puts it on the list. */
static enum ipl_answer ipl_start(struct ipl *s, const struct ipl_driver *driver, const struct ipl_config *config,
                                 void *memory, size_t size, enum ipl_work work) {
    enum ipl_answer answer;
    size_t wanted;
    if (s == NULL) return IPL_NULL_POINTER;
    answer = ipl_look_at_struct(s);
    if (answer != IPL_OK) return answer;
    memset(s, 0, sizeof *s);
    if (driver == NULL || config == NULL || memory == NULL) return IPL_NULL_POINTER;
    if (driver->read == NULL || driver->program == NULL || driver->erase == NULL || driver->barrier == NULL)
        return IPL_NULL_POINTER;
    answer = ipl_look_at(config, work);
    if (answer != IPL_OK) return ipl_refuse(s, answer, answer == IPL_OTHER_VERSION ? IPL_VERSION : 0);
    wanted = ipl_wanted(config, work);
    if (size < wanted) return ipl_refuse(s, IPL_SMALL_MEMORY, (uint32_t)wanted);
    s->memory = memory;
    s->size = wanted;
    s->driver = *driver;
    s->counting.context = s;
    s->counting.read = ipl_read;
    s->counting.program = ipl_program;
    s->counting.erase = ipl_erase;
    s->counting.barrier = ipl_barrier;
    s->facts.places = config->places;
    if (work >= IPL_WORK_OPEN) {
        s->facts.frames = config->frames;
        s->facts.sessions = config->sessions;
    }
    s->facts.room = config->numbers;
    answer = ipl_list(s);
    if (answer != IPL_OK) return answer;
    s->self = s;
    s->tag = IPL_TAG_OPENING;
    s->is_busy = 1;
    return IPL_OK;
}

static void ipl_end(struct ipl *s) {
    ipl_unlist(s);
    s->self = NULL;
    s->tag = IPL_TAG_CLOSED;
    s->is_busy = 0;
}

static enum ipl_answer ipl_tell(struct ipl *s, uint32_t number) {
    memcpy(s->detail, ipl_engine_request(s->engine)->detail, sizeof s->detail);
    return ipl_answered(number);
}

/* Whether sector 0 of each place is read, and has bytes FF. The engine in the memory is lost by it. */
static int ipl_is_blank(struct ipl *s) {
    uint8_t *bytes = (uint8_t *)s->memory;
    uint32_t place, i;
    for (place = 0; place < s->facts.places; place++) {
        if (ipl_read(s, place, 0, bytes) != IPL_NAND_DONE) return 0;
        for (i = 0; i < IPL_SECTOR; i++)
            if (bytes[i] != 0xFF) return 0;
    }
    return 1;
}

static void ipl_raise(struct ipl *s) {
    size_t gap = (size_t)(0u - (uintptr_t)s->memory) & IPL_GAP;
    s->engine = ipl_engine_raise((uint8_t *)s->memory + gap, s->size - gap, &s->counting);
}

/* What was not formatted may be blank. There is an engine in the memory afterwards, since a store that a
 * reopen left down still has a request. */
static enum ipl_answer ipl_tell_blank(struct ipl *s, enum ipl_answer answer) {
    if (answer != IPL_NOT_FORMATTED) return answer;
    if (ipl_is_blank(s)) answer = IPL_BLANK;
    ipl_raise(s);
    return answer;
}

static enum ipl_answer ipl_format_part(struct ipl *s, uint32_t spares) {
    ipl_raise(s);
    return ipl_tell(s, ipl_engine_format(s->engine, s->facts.places, spares));
}

/* Each other place is a unit, or was to spare at the format. */
enum { IPL_NO_UNITS = 4 };

/* Opens the part in the store's memory, also where that had an engine before. */
static enum ipl_answer ipl_open_part(struct ipl *s) {
    const struct ipl_config config =
        IPL_CONFIG_WITH(s->facts.places, s->facts.frames, 0, s->facts.sessions, s->facts.room);
    enum ipl_answer answer;
    struct ipl_request *r;
    ipl_raise(s);
    answer = ipl_tell(s, ipl_engine_open(s->engine, (enum ipl_engine_kind)s->kind, &config));
    if (answer == IPL_OK) {
        r = ipl_engine_request(s->engine);
        r->op = IPL_OP_UNITS;
        s->facts.units = ipl_engine_call(s->engine) == IPL_OK ? r->name : 0;
        s->facts.spares = s->facts.places - IPL_NO_UNITS - s->facts.units;
    }
    return ipl_tell_blank(s, answer);
}

enum ipl_answer ipl_format(struct ipl *s, const struct ipl_driver *driver, const struct ipl_config *config,
                           void *memory, size_t size) {
    enum ipl_answer answer = ipl_start(s, driver, config, memory, size, IPL_WORK_FORMAT);
    if (answer != IPL_OK) return answer;
    answer = ipl_format_part(s, config->spares);
    ipl_end(s);
    return answer;
}

enum ipl_answer ipl_check(struct ipl *s, const struct ipl_driver *driver, const struct ipl_config *config,
                          void *memory, size_t size, uint32_t *records) {
    enum ipl_answer answer;
    if (records == NULL) return IPL_NULL_POINTER;
    *records = 0;
    answer = ipl_start(s, driver, config, memory, size, IPL_WORK_CHECK);
    if (answer != IPL_OK) return answer;
    ipl_raise(s);
    answer = ipl_tell(s, ipl_engine_check(s->engine, s->facts.places));
    if (answer == IPL_OK) *records = ipl_engine_request(s->engine)->name;
    answer = ipl_tell_blank(s, answer);
    ipl_end(s);
    return answer;
}

static enum ipl_answer ipl_open_kind(struct ipl *s, enum ipl_engine_kind kind, const struct ipl_driver *driver,
                                     const struct ipl_config *config, void *memory, size_t size, enum ipl_work work) {
    enum ipl_answer answer = ipl_start(s, driver, config, memory, size, work);
    if (answer != IPL_OK) return answer;
    s->kind = kind;
    answer = ipl_open_part(s);
    if (answer == IPL_BLANK && work == IPL_WORK_OPEN_OR_FORMAT) {
        answer = ipl_format_part(s, config->spares);
        if (answer == IPL_OK) answer = ipl_open_part(s);
    }
    if (answer != IPL_OK) {
        ipl_end(s);
        return answer;
    }
    s->tag = IPL_TAG_OPEN;
    s->is_busy = 0;
    return IPL_OK;
}

enum ipl_answer ipl_open(struct ipl *s, const struct ipl_driver *driver, const struct ipl_config *config,
                         void *memory, size_t size) {
    return ipl_open_kind(s, IPL_ENGINE_RECORDS, driver, config, memory, size, IPL_WORK_OPEN);
}

enum ipl_answer ipl_open_or_format(struct ipl *s, const struct ipl_driver *driver, const struct ipl_config *config,
                                   void *memory, size_t size) {
    return ipl_open_kind(s, IPL_ENGINE_RECORDS, driver, config, memory, size, IPL_WORK_OPEN_OR_FORMAT);
}

enum ipl_answer ipl_open_to_read(struct ipl *s, const struct ipl_driver *driver, const struct ipl_config *config,
                                 void *memory, size_t size) {
    return ipl_open_kind(s, IPL_ENGINE_READER, driver, config, memory, size, IPL_WORK_READ);
}

/* ---- one call of an open store */

static enum ipl_answer ipl_admit(const struct ipl *s, enum ipl_engine_kind kind) {
    if (s == NULL) return IPL_NULL_POINTER;
    if (s->self != s || (s->tag != IPL_TAG_OPEN && s->tag != IPL_TAG_OPENING)) return IPL_NO_STORE;
    if (s->is_busy) return IPL_BUSY;
    if (s->kind == (uint32_t)kind) return IPL_OK;
    return s->kind == IPL_ENGINE_READER ? IPL_READ_ONLY : IPL_NO_SUCH_CALL;
}

/* Lets a call of a store of either kind begin. */
static enum ipl_answer ipl_admit_either(const struct ipl *s) {
    enum ipl_answer answer = ipl_admit(s, IPL_ENGINE_RECORDS);
    return answer == IPL_NO_SUCH_CALL ? IPL_OK : answer;
}

/* And one that a part has too that is only read. */
static enum ipl_answer ipl_admit_any(const struct ipl *s) {
    enum ipl_answer answer = ipl_admit_either(s);
    return answer == IPL_READ_ONLY ? IPL_OK : answer;
}

static void ipl_begin_call(struct ipl *s) {
    memset(s->detail, 0, sizeof s->detail);
    s->is_busy = 1;
}

static enum ipl_answer ipl_end_call(struct ipl *s, enum ipl_answer answer) {
    if (!ipl_is_up(answer)) s->facts.is_down = 1;
    s->is_busy = 0;
    return answer;
}

/* Does what the request asks, of a store that is busy with it. Nothing is asked of an engine that a longjmp
 * left, nor of one that didn't open. */
static enum ipl_answer ipl_ask(struct ipl *s, enum ipl_op op, uint32_t session, uint32_t name) {
    struct ipl_request *r = ipl_engine_request(s->engine);
    if (s->is_gone) return IPL_DOWN;
    r->op = op;
    r->session = session;
    r->name = name;
    return ipl_tell(s, ipl_engine_call(s->engine));
}

/* One call that has no bytes. */
static enum ipl_answer ipl_call(struct ipl *s, enum ipl_engine_kind kind, enum ipl_op op, uint32_t session,
                                uint32_t name) {
    enum ipl_answer answer = ipl_admit(s, kind);
    if (answer != IPL_OK) return answer;
    ipl_begin_call(s);
    return ipl_end_call(s, ipl_ask(s, op, session, name));
}

/* A call by the key in the request, or by a name, that answers a value. */
static enum ipl_answer ipl_find(struct ipl *s, enum ipl_op op, uint32_t session, uint32_t name, void *value,
                                uint32_t room, uint32_t *len) {
    enum ipl_answer answer = ipl_ask(s, op, session, name);
    if (answer == IPL_NO_ROOM) *len = s->detail[0];
    if (answer != IPL_OK) return answer;
    *len = ipl_engine_request(s->engine)->len;
    if (*len > room) return ipl_refuse(s, IPL_NO_ROOM, *len);
    if (*len != 0) memcpy(value, ipl_engine_request(s->engine)->value, *len);
    return IPL_OK;
}

/* The pointers of a call that answers a value; where they may not be, nothing is asked. */
static int ipl_has_room(const void *value, uint32_t room, uint32_t *len) {
    if (len == NULL) return 0;
    *len = 0;
    return value != NULL || room == 0;
}

static enum ipl_answer ipl_find_name(struct ipl *s, enum ipl_op op, uint32_t session, uint32_t name, void *value,
                                     uint32_t room, uint32_t *len) {
    enum ipl_answer answer;
    if (!ipl_has_room(value, room, len)) return IPL_NULL_POINTER;
    answer = ipl_admit(s, IPL_ENGINE_RECORDS);
    if (answer == IPL_READ_ONLY && op == IPL_OP_COMMITTED) answer = IPL_OK;
    if (answer != IPL_OK) return answer;
    ipl_begin_call(s);
    return ipl_end_call(s, ipl_find(s, op, session, name, value, room, len));
}

/* The value of a put; of one that is too long the length alone, which is refused. */
static void ipl_take_value(struct ipl *s, const void *value, uint32_t len, uint32_t most) {
    struct ipl_request *r = ipl_engine_request(s->engine);
    r->len = len;
    if (len != 0 && len <= most) memcpy(r->value, value, len);
}

static void ipl_take_key(struct ipl *s, const void *key, uint32_t len) {
    struct ipl_request *r = ipl_engine_request(s->engine);
    r->key_len = len;
    if (len != 0 && len <= sizeof r->key) memcpy(r->key, key, len);
}

/* Whether bytes are wanted that aren't there: of none, and of more than are read, there may be no pointer. */
static int ipl_lacks(const void *bytes, uint32_t len, uint32_t most) {
    return bytes == NULL && len != 0 && len <= most;
}

/* ---- of a store of either kind */

static enum ipl_answer ipl_abort_each(struct ipl *s) {
    enum ipl_answer answer = IPL_OK;
    uint32_t session;
    for (session = 0; session < s->facts.sessions; session++) {
        answer = ipl_ask(s, IPL_OP_ABORT, session, 0);
        if (answer != IPL_OK && answer != IPL_NOT_OPEN) return answer;
    }
    return IPL_OK;
}

static enum ipl_answer ipl_abort_all_of(struct ipl *s, enum ipl_engine_kind kind) {
    enum ipl_answer answer = ipl_admit(s, kind);
    if (answer != IPL_OK) return answer;
    ipl_begin_call(s);
    return ipl_end_call(s, ipl_abort_each(s));
}

enum ipl_answer ipl_close(struct ipl *s) {
    enum ipl_answer answer = ipl_admit_any(s);
    if (answer == IPL_OK) ipl_end(s);
    return answer;
}

enum ipl_answer ipl_shutdown(struct ipl *s, int drops) {
    enum ipl_answer answer = ipl_admit_either(s);
    if (answer != IPL_OK) return answer;
    ipl_begin_call(s);
    if (drops) answer = ipl_abort_each(s);
    if (answer == IPL_OK) answer = ipl_ask(s, IPL_OP_SHUTDOWN, 0, 0);
    if (answer == IPL_OK) s->facts.is_down = 1;
    return ipl_end_call(s, answer);
}

enum ipl_answer ipl_reopen(struct ipl *s) {
    enum ipl_answer answer = ipl_admit_any(s);
    if (answer != IPL_OK) return answer;
    ipl_begin_call(s);
    s->is_gone = 1;
    answer = ipl_open_part(s);
    s->is_gone = answer != IPL_OK;
    s->facts.is_down = answer != IPL_OK;
    s->is_busy = 0;
    return answer;
}

enum ipl_answer ipl_abandon(struct ipl *s) {
    if (s == NULL) return IPL_NULL_POINTER;
    if (s->self != s) return IPL_NO_STORE;
    if (s->tag == IPL_TAG_OPENING) {
        ipl_end(s);
        return IPL_OK;
    }
    if (s->tag != IPL_TAG_OPEN) return IPL_NO_STORE;
    if (s->is_busy) {
        s->is_gone = 1;
        s->facts.is_down = 1;
    }
    s->is_busy = 0;
    return IPL_OK;
}

uint32_t ipl_unit_count(const struct ipl *s) {
    return s != NULL && s->self == s && s->tag == IPL_TAG_OPEN ? s->facts.units : 0;
}

/* What the engine knows is left; it asks its part nothing. */
static enum ipl_answer ipl_tell_left(const struct ipl *s, struct ipl_facts *facts) {
    struct ipl_request *r = ipl_engine_request(s->engine);
    enum ipl_answer answer;
    r->op = IPL_OP_LEFT;
    answer = ipl_answered(ipl_engine_call(s->engine));
    if (answer != IPL_OK) return answer;
    facts->retired = r->sessions[1];
    facts->least_erases = r->sessions[2];
    facts->most_erases = r->sessions[3];
    facts->clean_logs = r->sessions[4];
    facts->clean_commits = r->sessions[5];
    facts->numbers = r->sessions[6] | (uint64_t)r->sessions[7] << 32;
    return IPL_OK;
}

enum ipl_answer ipl_state(const struct ipl *s, struct ipl_facts *facts) {
    enum ipl_answer answer;
    if (facts == NULL) return IPL_NULL_POINTER;
    memset(facts, 0, sizeof *facts);
    answer = ipl_admit_any(s);
    if (answer != IPL_OK) return answer;
    *facts = s->facts;
    return s->is_gone || s->kind == IPL_ENGINE_READER ? IPL_OK : ipl_tell_left(s, facts);
}

const uint32_t *ipl_detail(const struct ipl *s) {
    static const uint32_t none[4] = {0, 0, 0, 0};
    return s != NULL ? s->detail : none;
}

/* ---- records */

enum ipl_answer ipl_begin(struct ipl *s, uint32_t session) {
    return ipl_call(s, IPL_ENGINE_RECORDS, IPL_OP_BEGIN, session, 0);
}

enum ipl_answer ipl_get(struct ipl *s, uint32_t session, uint32_t name, void *value, uint32_t room, uint32_t *len) {
    return ipl_find_name(s, IPL_OP_GET, session, name, value, room, len);
}

enum ipl_answer ipl_share(struct ipl *s, uint32_t session, uint32_t name, void *value, uint32_t room, uint32_t *len) {
    return ipl_find_name(s, IPL_OP_SHARE, session, name, value, room, len);
}

enum ipl_answer ipl_committed(struct ipl *s, uint32_t name, void *value, uint32_t room, uint32_t *len) {
    return ipl_find_name(s, IPL_OP_COMMITTED, 0, name, value, room, len);
}

enum ipl_answer ipl_put(struct ipl *s, uint32_t session, uint32_t name, const void *value, uint32_t len) {
    enum ipl_answer answer = ipl_admit(s, IPL_ENGINE_RECORDS);
    if (answer != IPL_OK) return answer;
    if (ipl_lacks(value, len, IPL_VALUE)) return IPL_NULL_POINTER;
    ipl_begin_call(s);
    ipl_take_value(s, value, len, IPL_VALUE);
    return ipl_end_call(s, ipl_ask(s, IPL_OP_PUT, session, name));
}

enum ipl_answer ipl_del(struct ipl *s, uint32_t session, uint32_t name) {
    return ipl_call(s, IPL_ENGINE_RECORDS, IPL_OP_DEL, session, name);
}

enum ipl_answer ipl_commit(struct ipl *s, uint32_t session) {
    return ipl_call(s, IPL_ENGINE_RECORDS, IPL_OP_COMMIT, session, 0);
}

static enum ipl_answer ipl_commit_each(struct ipl *s, enum ipl_engine_kind kind, const uint32_t *sessions,
                                       uint32_t count) {
    struct ipl_request *r;
    enum ipl_answer answer = ipl_admit(s, kind);
    if (answer != IPL_OK) return answer;
    if (ipl_lacks(sessions, count, IPL_SESSIONS)) return IPL_NULL_POINTER;
    ipl_begin_call(s);
    r = ipl_engine_request(s->engine);
    r->len = count;
    if (count != 0 && count <= IPL_SESSIONS) memcpy(r->sessions, sessions, count * sizeof *sessions);
    return ipl_end_call(s, ipl_ask(s, IPL_OP_COMMIT_ALL, 0, 0));
}

enum ipl_answer ipl_commit_all(struct ipl *s, const uint32_t *sessions, uint32_t count) {
    return ipl_commit_each(s, IPL_ENGINE_RECORDS, sessions, count);
}

enum ipl_answer ipl_abort(struct ipl *s, uint32_t session) {
    return ipl_call(s, IPL_ENGINE_RECORDS, IPL_OP_ABORT, session, 0);
}

enum ipl_answer ipl_abort_all(struct ipl *s) { return ipl_abort_all_of(s, IPL_ENGINE_RECORDS); }

enum ipl_answer ipl_merge(struct ipl *s, uint32_t unit) {
    return ipl_call(s, IPL_ENGINE_RECORDS, IPL_OP_MERGE, 0, unit);
}

static enum ipl_answer ipl_call_page(struct ipl *s, enum ipl_op op, uint32_t unit, uint32_t page) {
    enum ipl_answer answer = ipl_admit(s, IPL_ENGINE_RECORDS);
    if (answer != IPL_OK) return answer;
    ipl_begin_call(s);
    ipl_engine_request(s->engine)->page = page;
    return ipl_end_call(s, ipl_ask(s, op, 0, unit));
}

enum ipl_answer ipl_hold(struct ipl *s, uint32_t unit, uint32_t page) {
    return ipl_call_page(s, IPL_OP_HOLD, unit, page);
}

enum ipl_answer ipl_release(struct ipl *s, uint32_t unit, uint32_t page) {
    return ipl_call_page(s, IPL_OP_RELEASE, unit, page);
}

/* ---- keys */

static struct ipl *ipl_below(struct ipl_keys *k) { return k != NULL ? &k->store : NULL; }
static const struct ipl *ipl_below_const(const struct ipl_keys *k) { return k != NULL ? &k->store : NULL; }

enum ipl_answer ipl_keys_open(struct ipl_keys *k, const struct ipl_driver *driver, const struct ipl_config *config,
                              void *memory, size_t size) {
    return ipl_open_kind(ipl_below(k), IPL_ENGINE_KEYS, driver, config, memory, size, IPL_WORK_OPEN);
}

enum ipl_answer ipl_keys_open_or_format(struct ipl_keys *k, const struct ipl_driver *driver,
                                        const struct ipl_config *config, void *memory, size_t size) {
    return ipl_open_kind(ipl_below(k), IPL_ENGINE_KEYS, driver, config, memory, size, IPL_WORK_OPEN_OR_FORMAT);
}

enum ipl_answer ipl_keys_close(struct ipl_keys *k) { return ipl_close(ipl_below(k)); }
enum ipl_answer ipl_keys_shutdown(struct ipl_keys *k, int drops) { return ipl_shutdown(ipl_below(k), drops); }
enum ipl_answer ipl_keys_reopen(struct ipl_keys *k) { return ipl_reopen(ipl_below(k)); }
enum ipl_answer ipl_keys_abandon(struct ipl_keys *k) { return ipl_abandon(ipl_below(k)); }

uint32_t ipl_keys_unit_count(const struct ipl_keys *k) { return ipl_unit_count(ipl_below_const(k)); }

enum ipl_answer ipl_keys_state(const struct ipl_keys *k, struct ipl_facts *facts) {
    return ipl_state(ipl_below_const(k), facts);
}

const uint32_t *ipl_keys_detail(const struct ipl_keys *k) { return ipl_detail(ipl_below_const(k)); }

enum ipl_answer ipl_keys_begin(struct ipl_keys *k, uint32_t session) {
    return ipl_call(ipl_below(k), IPL_ENGINE_KEYS, IPL_OP_BEGIN, session, 0);
}

enum ipl_answer ipl_keys_get(struct ipl_keys *k, uint32_t session, const void *key, uint32_t key_len,
                             void *value, uint32_t room, uint32_t *len) {
    struct ipl *s = ipl_below(k);
    enum ipl_answer answer;
    if (!ipl_has_room(value, room, len) || ipl_lacks(key, key_len, IPL_KEY)) return IPL_NULL_POINTER;
    answer = ipl_admit(s, IPL_ENGINE_KEYS);
    if (answer != IPL_OK) return answer;
    ipl_begin_call(s);
    ipl_take_key(s, key, key_len);
    return ipl_end_call(s, ipl_find(s, IPL_OP_GET, session, 0, value, room, len));
}

enum ipl_answer ipl_keys_put(struct ipl_keys *k, uint32_t session, const void *key, uint32_t key_len,
                             const void *value, uint32_t len) {
    struct ipl *s = ipl_below(k);
    enum ipl_answer answer = ipl_admit(s, IPL_ENGINE_KEYS);
    if (answer != IPL_OK) return answer;
    if (ipl_lacks(key, key_len, IPL_KEY) || ipl_lacks(value, len, IPL_KEY_VALUE)) return IPL_NULL_POINTER;
    ipl_begin_call(s);
    ipl_take_key(s, key, key_len);
    ipl_take_value(s, value, len, IPL_KEY_VALUE);
    return ipl_end_call(s, ipl_ask(s, IPL_OP_PUT, session, 0));
}

static enum ipl_answer ipl_call_key(struct ipl *s, enum ipl_op op, uint32_t session, const void *key, uint32_t key_len) {
    enum ipl_answer answer = ipl_admit(s, IPL_ENGINE_KEYS);
    if (answer != IPL_OK) return answer;
    if (ipl_lacks(key, key_len, IPL_KEY)) return IPL_NULL_POINTER;
    ipl_begin_call(s);
    ipl_take_key(s, key, key_len);
    return ipl_end_call(s, ipl_ask(s, op, session, 0));
}

enum ipl_answer ipl_keys_share(struct ipl_keys *k, uint32_t session, const void *key, uint32_t key_len) {
    return ipl_call_key(ipl_below(k), IPL_OP_SHARE, session, key, key_len);
}

enum ipl_answer ipl_keys_del(struct ipl_keys *k, uint32_t session, const void *key, uint32_t key_len) {
    return ipl_call_key(ipl_below(k), IPL_OP_DEL, session, key, key_len);
}

enum ipl_answer ipl_keys_commit(struct ipl_keys *k, uint32_t session) {
    return ipl_call(ipl_below(k), IPL_ENGINE_KEYS, IPL_OP_COMMIT, session, 0);
}

enum ipl_answer ipl_keys_commit_all(struct ipl_keys *k, const uint32_t *sessions, uint32_t count) {
    return ipl_commit_each(ipl_below(k), IPL_ENGINE_KEYS, sessions, count);
}

enum ipl_answer ipl_keys_merge(struct ipl_keys *k, uint32_t unit) {
    return ipl_call(ipl_below(k), IPL_ENGINE_KEYS, IPL_OP_MERGE, 0, unit);
}

enum ipl_answer ipl_keys_abort(struct ipl_keys *k, uint32_t session) {
    return ipl_call(ipl_below(k), IPL_ENGINE_KEYS, IPL_OP_ABORT, session, 0);
}

enum ipl_answer ipl_keys_abort_all(struct ipl_keys *k) { return ipl_abort_all_of(ipl_below(k), IPL_ENGINE_KEYS); }
