/* engine.h: what stands below ipl_calls.c. It is the proved store in memory that is handed in, and has
 * two implementations: library.c over libipl_port.a, and the one file of C. No program includes it.
 *
 * An engine keeps nothing outside its memory, so there may be as many as there are memories, and calls of
 * two engines may run at the same time. ipl_calls.c makes one call of an engine at a time, asks each in
 * its order, and has looked at its arguments before: what a comment here says of one holds.
 */
#ifndef IPL_ENGINE_H
#define IPL_ENGINE_H

#include "ipl.h"

/* In the one file each of these is static. */
#ifndef IPL_ENGINE
#define IPL_ENGINE
#endif

#ifdef __cplusplus
extern "C" {
#endif

/* One call, as it crosses: request.rt of ipl_port has the same fields, and no gaps. */
struct ipl_request {
    uint32_t op, session, name, page, key_len, len;
    uint32_t sessions[IPL_SESSIONS];
    uint8_t key[IPL_KEY], value[IPL_VALUE];
    uint32_t detail[4];
};

/* What a call asks. What it reads of the request stands beside it, and then what it answers there. */
enum ipl_op {
    /* Of an opening, which has no number of its own: session: how many there are; name: how many committed numbers have
     * room. */
    IPL_OP_BEGIN = 1,      /* session */
    IPL_OP_GET = 2,        /* session; name or key, key_len: len, value */
    IPL_OP_SHARE = 3,      /* session; name: len, value; or key, key_len, and nothing comes back */
    IPL_OP_COMMITTED = 4,  /* name: len, value */
    IPL_OP_PUT = 5,        /* session; name or key, key_len; len, value: of more than 464 bytes the len alone */
    IPL_OP_DEL = 6,        /* session; name or key, key_len */
    IPL_OP_COMMIT = 7,     /* session */
    IPL_OP_COMMIT_ALL = 8, /* len, sessions */
    IPL_OP_ABORT = 9,      /* session */
    IPL_OP_MERGE = 10,     /* name: a unit */
    IPL_OP_HOLD = 11,      /* name: a unit; page */
    IPL_OP_RELEASE = 12,   /* name: a unit; page */
    IPL_OP_UNITS = 14,     /* nothing: name */
    IPL_OP_SHUTDOWN = 15,  /* nothing */
    IPL_OP_LEFT = 16       /* nothing: in sessions the spare places, those that are retired, the least and the most erases,
                            * clean log sectors, clean commit sectors, the lower and the upper half of the numbers */
};

/* A reader does IPL_OP_COMMITTED and IPL_OP_UNITS; each other call it answers by IPL_READ_ONLY. */
enum ipl_engine_kind { IPL_ENGINE_RECORDS, IPL_ENGINE_KEYS, IPL_ENGINE_READER };

/* Each implementation defines its own; it stands at the start of the memory. */
struct ipl_engine;

/* The memory of an engine begins at a multiple of so many bytes. */
enum { IPL_ENGINE_ALIGNMENT = 16 };

/* How many bytes an engine wants, with all that it takes: for an opening and what follows it, for one of a
 * reader, for a check, for a format. The config's numbers are in their ranges, those that are looked at: of a
 * reader the places and the committed numbers, of a check the places alone. A format wants the least; a check
 * has room for 15,300 numbers, whatever the config says. */
IPL_ENGINE size_t ipl_engine_memory(const struct ipl_config *config);
IPL_ENGINE size_t ipl_engine_read_memory(const struct ipl_config *config);
IPL_ENGINE size_t ipl_engine_check_memory(const struct ipl_config *config);
IPL_ENGINE size_t ipl_engine_format_memory(void);

/* Makes an engine of memory, whatever that held before: an engine that was there is gone, also one whose
 * driver left a call by longjmp. The request is all zeros. `size` is at least what the call wants that comes next. `driver` stays
 * where it is as long as the engine is used; all calls of the part go through it, with plain pointers. */
IPL_ENGINE struct ipl_engine *ipl_engine_raise(void *at, size_t size, const struct ipl_driver *driver);

/* Where ipl_calls.c writes the request of the next call, and reads what came back: in the engine's memory,
 * at the same address each time, aligned as the struct is. Its numbers are those of this processor. */
IPL_ENGINE struct ipl_request *ipl_engine_request(struct ipl_engine *e);

/* Each answers a number of ipl.h, and leaves the four numbers that go with it in the request's `detail`.
 *
 * One of these is asked first, once, right after the raise. A format and a check leave nothing behind that
 * may be called; nor does an opening that isn't answered IPL_OK: the memory is then raised again. */
IPL_ENGINE uint32_t ipl_engine_format(struct ipl_engine *e, uint32_t places, uint32_t spares);
/* IPL_OK: `name` of the request is how many records there are. */
IPL_ENGINE uint32_t ipl_engine_check(struct ipl_engine *e, uint32_t places);
/* As large as the config says. */
IPL_ENGINE uint32_t ipl_engine_open(struct ipl_engine *e, enum ipl_engine_kind kind, const struct ipl_config *config);

/* Does what the request asks, of an engine that was opened. */
IPL_ENGINE uint32_t ipl_engine_call(struct ipl_engine *e);

/* An engine that can find that it left its memory, or that a check of its own failed, answers IPL_TRAPPED
 * to the call that did, also to an opening, a format or a check, and to each call after it until it is
 * raised again; it stops no program. An engine is neither closed nor reopened: it takes nothing but its
 * memory, which is used for something else, or raised and opened anew. */

#ifdef __cplusplus
}
#endif

#endif
