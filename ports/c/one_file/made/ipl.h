/* ipl.h: a proved store of records over raw NAND, for C.
 *
 * Records of up to 464 bytes by number, or values of up to 200 bytes by keys of 1 to 16; up to 32
 * sessions at once; commits that a power cut leaves whole or not at all. You hand in a driver of four
 * functions and some memory. Nothing else is taken: no heap, no file, no clock.
 */
#ifndef IPL_H
#define IPL_H

#include <stddef.h>
#include <stdint.h>

#ifdef __cplusplus
extern "C" {
#endif

/* ---- versions -----------------------------------------------------------------------------------
 *
 * Of this header, as 10,000 times the first number, 100 times the second and the third. A config has it,
 * and a library of another version refuses that.
 */
#define IPL_VERSION 10400u
/* The version of the library, which is IPL_VERSION of the header that it was made with. */
uint32_t ipl_version(void);
/* The version of the format that it writes to a part. It reads that one and all before it. */
uint32_t ipl_format_version(void);

/* ---- limits -------------------------------------------------------------------------------------*/
enum ipl_limit {
    IPL_PLACES_LEAST = 5,    /* a place is an erase unit of the part */
    IPL_PLACES_MOST = 1028,
    IPL_SPARES_MOST = 64,
    IPL_FRAMES_LEAST = 2,    /* pages that are kept in memory */
    IPL_FRAMES_MOST = 64,
    IPL_SECTORS = 256,       /* of a place */
    IPL_SECTOR = 512,        /* bytes of a sector */
    IPL_SESSIONS = 32,       /* at most, and 1 at least; S of them have the numbers 0 to S - 1 */
    IPL_NUMBERS_LEAST = 120, /* committed numbers that have room in memory */
    IPL_NUMBERS_MOST = 15300,
    IPL_UNIT_NAMES = 960,    /* names of a unit: unit u has those from 960 u on */
    IPL_UNIT_PAGES = 15,
    IPL_PAGE_NAMES = 64,     /* names of a page, which share its bytes: */
    IPL_PAGE_BYTES = 7680,
    IPL_SESSION_WRITES = 256, /* names that a session may write, and as many that it may share */
    IPL_VALUE = 464,         /* bytes of a record at most */
    IPL_KEY = 16,            /* bytes of a key at most, and 1 at least */
    IPL_KEY_VALUE = 200      /* bytes of a value by a key at most */
};

/* ---- the driver, which you write ----------------------------------------------------------------
 *
 * A part has 5 to 1,028 places of 256 sectors of 512 bytes. Each function gets the driver's context.
 * Nothing checks them: what stands here is taken as written, and the store is proved over it.
 *
 * Always: place < places, sector < 256; the 512 bytes may begin at any address. Keep no pointer past the
 * call. Write nothing but into[0..511] and memory of your own. Return. Call nothing of this header for the
 * store that is calling: it answers IPL_BUSY.
 */
enum ipl_done { IPL_NAND_DONE = 0, IPL_NAND_WORN = 1, IPL_NAND_FAILED = 2, IPL_NAND_DOUBTFUL = 3 };

struct ipl_driver {
    void *context;
    /* Reads a sector: done, or failed, after which `into` may hold anything. A sector that was never
     * programmed since its place was erased reads as 512 bytes FF. One that the ECC can't mend is
     * handed over as it was read, and doubtful: it is read once more at once, and is then taken as it
     * was handed over, since the store knows it by its sum. A driver that can't tell answers done. */
    int (*read)(void *context, uint32_t place, uint32_t sector, uint8_t *into);
    /* Programs a sector, at most once from one erase of its place to the next: done, or failed. It is
     * sure to last from the next barrier on; after a power cut before that it holds its old bytes, its
     * new ones, or any others. Sectors of a place aren't programmed in their order. */
    int (*program)(void *context, uint32_t place, uint32_t sector, const uint8_t *from);
    /* Erases a place: done, and each of its 256 sectors reads as bytes FF; or worn, and it holds what it
     * held, as long as there is power; or failed, and it holds anything. */
    int (*erase)(void *context, uint32_t place);
    /* Returns once all that was programmed and erased is sure to last: done, or failed. */
    int (*barrier)(void *context);
};

/* ---- what a store is opened with ----------------------------------------------------------------*/
struct ipl_config {
    uint32_t version; /* IPL_VERSION */
    uint32_t places;  /* of the part, 5 to 1,028: the same at each opening as at the format */
    uint32_t frames;  /* 2 to 64; a format, a check and an opening to read don't look at them */
    uint32_t spares;  /* of a format alone: places for those that wear out, 0 to 64, at most places - 5 */
    uint32_t sessions; /* that may be open at once, 1 to 32; a format, a check and an opening to read don't look at them */
    uint32_t numbers; /* so many committed ones have room in memory, 120 to 15,300; a format and a check don't look at it */
};
/* A config, as in: struct ipl_config config = IPL_CONFIG(1024, 16, 20); with 32 sessions and room for 15,300 committed
 * numbers, or with as many as are said. */
#define IPL_CONFIG(places, frames, spares) IPL_CONFIG_OF(places, frames, spares, IPL_SESSIONS)
#define IPL_CONFIG_OF(places, frames, spares, sessions) \
    IPL_CONFIG_WITH(places, frames, spares, sessions, IPL_NUMBERS_MOST)
#define IPL_CONFIG_WITH(places, frames, spares, sessions, numbers) \
    { IPL_VERSION, (uint32_t)(places), (uint32_t)(frames), (uint32_t)(spares), (uint32_t)(sessions), (uint32_t)(numbers) }

/* How many bytes an opening wants, which do for an opening to read and for a format too; an opening to read; a check, which has
 * room for 15,300 numbers, and may want more than an opening with fewer; a format alone. 0: the config isn't one that is taken
 * for that. */
size_t ipl_memory(const struct ipl_config *config);
size_t ipl_read_memory(const struct ipl_config *config);
size_t ipl_check_memory(const struct ipl_config *config);
size_t ipl_format_memory(const struct ipl_config *config);
/* As many or some more, for an array: static uint8_t memory[IPL_MEMORY(1024, 16)]; */
#define IPL_MEMORY(places, frames) IPL_MEMORY_OF(places, frames, IPL_SESSIONS)
#define IPL_MEMORY_OF(places, frames, sessions) IPL_MEMORY_WITH(places, frames, sessions, IPL_NUMBERS_MOST)
#define IPL_MEMORY_WITH(places, frames, sessions, numbers) \
    ((size_t)75000 + (size_t)391 * (places) + (size_t)6 * ((places) < 36 ? 16 * (size_t)(places) - 64 : 510) \
     + (size_t)16728 * (frames) + (size_t)2600 * (sessions) + (size_t)8 * (numbers) + 2 * (((size_t)(numbers) + 7) / 8))
/* And to read. */
#define IPL_READ_MEMORY(places) IPL_READ_MEMORY_WITH(places, IPL_NUMBERS_MOST)
#define IPL_READ_MEMORY_WITH(places, numbers) \
    ((size_t)77800 + (size_t)391 * (places) + (size_t)6 * ((places) < 36 ? 16 * (size_t)(places) - 64 : 510) \
     + (size_t)8 * (numbers) + 2 * (((size_t)(numbers) + 7) / 8))

/* ---- answers ------------------------------------------------------------------------------------
 *
 * Each number has one meaning, and each class a range. ipl_detail has up to four numbers that go with it.
 */
enum ipl_answer {
    IPL_OK = 0,
    IPL_NOTHING = 1, /* get, share, committed: there is no record, or no value */

    /* 2 to 39: refused. Nothing has changed; the session and the store go on. */
    IPL_BAD_SESSION = 2,     /* not below the number of sessions */
    IPL_BAD_NAME = 3,        /* not below 960 a unit */
    IPL_TOO_LONG = 4,        /* a record of more than 464 bytes */
    IPL_ALREADY_OPEN = 5,    /* the session is */
    IPL_NOT_OPEN = 6,        /* the session isn't */
    IPL_CONFLICT = 7,        /* detail: the session that holds the name */
    IPL_WRITES_FULL = 8,     /* the session has written 256 names */
    IPL_SHARES_FULL = 9,     /* the session has shared 256 names */
    IPL_PENDING_FULL = 10,   /* detail: the unit, in which too much is written and not committed */
    IPL_BAD_UNIT = 11,       /* no such unit or page */
    IPL_HOLDS_FULL = 12,     /* all frames but one are held */
    IPL_NOT_HELD = 13,       /* the page isn't */
    IPL_PAGE_FULL = 14,      /* the 64 names of a page share 7,680 bytes */
    IPL_TWICE = 15,          /* detail: the session that is named twice */
    IPL_BAD_KEY = 16,        /* not 1 to 16 bytes */
    IPL_LONG_VALUE = 17,     /* a value by a key of more than 200 bytes */
    IPL_BUCKET_FULL = 18,    /* detail: the name of the bucket, of 464 bytes */
    IPL_SESSIONS_OPEN = 19,  /* shutdown: detail: the least session that is open */
    IPL_NO_ROOM = 20,        /* detail: the length of the value, which has more bytes than the room */
    IPL_MANY_SESSIONS = 21,  /* more than 32 are named */
    IPL_BAD_FRAMES = 22,     /* not 2 to 64 */
    IPL_NO_SUCH_CALL = 23,   /* records are asked of a store of keys, or keys of one of records */
    IPL_NULL_POINTER = 24,   /* where none may be */
    IPL_OTHER_VERSION = 25,  /* of the header; detail: the library's */
    IPL_NO_STORE = 26,       /* the struct isn't that of an open store: it was closed, copied or never opened */
    IPL_BUSY = 27,           /* a call of the store isn't over: the driver called, or another thread */
    IPL_STORE_IN_USE = 28,   /* the struct is that of an open store */
    IPL_PART_IN_USE = 29,    /* an open store has the part, or a format or a check */
    IPL_MEMORY_IN_USE = 30,  /* an open store has some of the memory, or the struct is in it */
    IPL_SMALL_MEMORY = 31,   /* detail: how many bytes are wanted */
    IPL_BAD_PLACES = 32,     /* not 5 to 1,028 */
    IPL_BAD_SPARES = 33,     /* more than 64, or no unit is left */
    IPL_BAD_SESSIONS = 34,   /* not 1 to 32 */
    IPL_BAD_NUMBERS = 35,    /* room for fewer than 120 committed numbers, or for more than 15,300 */
    IPL_READ_ONLY = 36,      /* the part was opened to be read, and the call would write, or wants a session */

    /* 40 to 59: failed. The store goes on, and so do its sessions. */
    IPL_READ_FAULT = 40, /* a read failed */
    IPL_DAMAGED = 41,    /* detail: place, sector, stored sum, computed sum */
    IPL_MALFORMED = 42,  /* detail: place, sector */
    IPL_BAD_BUCKET = 43, /* detail: the name of a record that is no bucket */

    /* 60 to 79: failed. All that was committed lasts; the store does nothing until it is opened again, and
     * what isn't committed is gone. */
    IPL_DOWN = 60,     /* it was put down by an earlier call, and nothing was asked of the part */
    IPL_SPENT = 61,    /* the numbers of calls are used up: only an abort, a release and a close are done.
                          Copy the records, and format */
    IPL_STOPPED = 62,  /* a write failed. A commit is there whole or not at all */
    IPL_WORN_OUT = 63, /* detail: how many places are worn, one more than are spare */
    IPL_TRAPPED = 64,  /* the one file of C found that it left its memory, or that a check of its own failed;
                          also in an opening, a format or a check */

    /* 80 to 99: an opening, a format or a check failed. Nothing is open, or after a reopen the store is
     * down. After 86, 88 and 64 of a format the part is to be formatted. */
    IPL_GEOMETRY = 80,       /* too many or too few places for what stands there */
    IPL_NOT_FORMATTED = 81,  /* no status header checks, and the part isn't blank */
    IPL_BLANK = 82,          /* no status header checks, and sector 0 of each place reads as bytes FF */
    IPL_MISSING = 83,        /* detail: the unit */
    IPL_NO_SPARE = 84,       /* detail: how many overflow places have log sectors, more than two */
    IPL_OUT_OF_MEMORY = 85,  /* though the memory was large enough, which isn't seen */
    IPL_FORMAT_WORN = 86,    /* format: detail: the place */
    IPL_PART_UNREAD = 87,    /* a read failed */
    IPL_PART_STOPPED = 88,   /* a write failed */
    IPL_PART_DAMAGED = 89,   /* detail: place, sector, stored sum, computed sum */
    IPL_PART_MALFORMED = 90, /* detail: place, sector */
    IPL_PART_WORN_OUT = 91,  /* detail: how many places are worn, one more than are spare */
    IPL_PART_SPENT = 92,     /* the numbers of calls are used up */
    IPL_MANY_NUMBERS = 93    /* more committed numbers stand there than the config has room for. Nothing was written */
};

/* An answer in words; also of a number that is none. */
const char *ipl_text(enum ipl_answer answer);
/* 2 to 39. */
int ipl_is_refused(enum ipl_answer answer);
/* 0 to 59: a store that was up before the call is up after it, but for ipl_shutdown. */
int ipl_is_up(enum ipl_answer answer);

/* ---- a store ------------------------------------------------------------------------------------
 *
 * Memory of yours, which stays where it is while the store is open, as the memory that was handed in does;
 * the driver and the config may go after the call. Don't touch it, nor copy it: a copy is no store; and
 * close it before it goes. Before an opening, a format or a check it may hold anything; for the other calls,
 * zeros are a store that isn't open.
 *
 * A store is used by one call at a time, from any thread; not from an interrupt, and not from its driver.
 * Two stores may be used at the same time if their drivers may, but for the calls that open, reopen, close,
 * abandon, format and check: those are one at a time over all stores, since they share a list of the open ones.
 */
struct ipl_facts {
    uint32_t places, frames, sessions; /* frames and sessions are 0 where the part is only read */
    uint32_t room;     /* so many committed numbers have room in memory */
    uint32_t units;
    uint32_t spares;   /* so many places were to spare when the part was formatted */
    uint32_t is_down;  /* 1: the store does nothing until it is opened again */
    uint32_t worn;     /* so many erases found a place worn since the opening, also through reopens */
    uint64_t reads, programs, erases, barriers; /* so often the part was asked since then, the opening among it */
    uint64_t failures; /* so many of these failed */
    uint64_t doubtful; /* so many reads handed over what the part's ECC couldn't mend */
    /* What is left, as the store's tables have it; zeros where it couldn't be asked, since a longjmp left it
     * or a reopen failed, and of a part that is only read. */
    uint32_t retired;       /* so many of the spare places took a worn one's; one more puts the store down */
    uint32_t least_erases;  /* so often that place was erased that was least often, of those not retired */
    uint32_t most_erases;   /* and that which was most often */
    uint32_t clean_logs;    /* so many log sectors, up to 15, are clean in the place of the fullest unit */
    uint32_t clean_commits; /* so many commit sectors, up to 255, and 0 where fewer than 60 numbers have room; a commit makes a
                             * new status block where it is 0 */
    uint64_t numbers;       /* so many numbers may be drawn until calls answer IPL_SPENT */
};

struct ipl {
    const struct ipl *self;
    struct ipl *next;
    struct ipl_engine *engine;
    void *memory;
    size_t size;
    struct ipl_driver driver, counting;
    struct ipl_facts facts;
    uint32_t tag, kind, is_busy, is_gone;
    uint32_t detail[4];
};

/* ---- a part -------------------------------------------------------------------------------------
 *
 * No pointer may be NULL, here and below, but where it is said. `memory` begins at any address; as many bytes as
 * are wanted are the store's until it is closed, or until a format or a check returns. Two drivers are of one
 * part where they have the same context and a function in common.
 */
/* Formats a part. All that it held is gone. Nothing is open then. */
enum ipl_answer ipl_format(struct ipl *s, const struct ipl_driver *driver, const struct ipl_config *config,
                           void *memory, size_t size);
/* Reads all that a part holds, and writes nothing. IPL_OK: `records` is how many records there are; else
 * it is 0, and the answer is the first thing that is wrong. Nothing is open then. */
enum ipl_answer ipl_check(struct ipl *s, const struct ipl_driver *driver, const struct ipl_config *config,
                          void *memory, size_t size, uint32_t *records);

/* ---- records ------------------------------------------------------------------------------------*/

/* Opens a part. Where it doesn't answer IPL_OK nothing is open, and the memory is yours again. */
enum ipl_answer ipl_open(struct ipl *s, const struct ipl_driver *driver, const struct ipl_config *config,
                         void *memory, size_t size);
/* The same; and a part that is blank (IPL_BLANK) is formatted first, and no other. A format that a power
 * cut ended may leave a part that is neither formatted nor blank. */
enum ipl_answer ipl_open_or_format(struct ipl *s, const struct ipl_driver *driver, const struct ipl_config *config,
                                   void *memory, size_t size);
/* Opens a part to be read alone. It is looked over, and nothing is written to it, now or later: no program, no erase and
 * no barrier is asked of the driver. So it opens a part of which more places are worn than are spare, one whose numbers are
 * used up, and one that can't be written. Of the calls below ipl_committed, ipl_reopen, ipl_close, ipl_abandon and those
 * that tell of the store are done then; each other one is answered IPL_READ_ONLY. A record whose page doesn't read well is
 * answered IPL_DAMAGED or IPL_MALFORMED, and all others are there. Of keys these are the buckets. */
enum ipl_answer ipl_open_to_read(struct ipl *s, const struct ipl_driver *driver, const struct ipl_config *config,
                                 void *memory, size_t size);
/* Gives the memory back; what isn't committed is gone. The part isn't asked. */
enum ipl_answer ipl_close(struct ipl *s);
/* Writes down of which units the log sectors are known, so that the next opening of the part takes their
 * clean ones for clean, and their first changes cost no merge. The store is down then, also where a write
 * failed. To be done before the power is switched off in order. Where a session is open it is refused, or,
 * if `drops` isn't 0, all sessions are aborted first. */
enum ipl_answer ipl_shutdown(struct ipl *s, int drops);
/* Opens the part again, in the same memory: all sessions and holds are dropped. */
enum ipl_answer ipl_reopen(struct ipl *s);
/* After a longjmp out of the driver, and never else: ends the call that was left. An open store is down
 * then, and is reopened or closed; of an opening, a format or a check nothing is open. */
enum ipl_answer ipl_abandon(struct ipl *s);

/* How many units the part has: 960 names each, in 15 pages. 0 where no store is open. */
uint32_t ipl_unit_count(const struct ipl *s);
/* What is known of a store without asking the part. */
enum ipl_answer ipl_state(const struct ipl *s, struct ipl_facts *facts);
/* The four numbers that go with the last answer, zeros but for what the table says. A call of an open store
 * that answers 23, 24, 26, 27 or 36 leaves them as they were. Of NULL they are zeros. */
const uint32_t *ipl_detail(const struct ipl *s);

enum ipl_answer ipl_begin(struct ipl *s, uint32_t session);
/* What the session sees: its own write, or the committed record. A value of more than `room` bytes is
 * refused by IPL_NO_ROOM, and `*len` is its length; for the length alone, room is 0 and `value` may be NULL.
 * Nothing is written past the room, and where the answer isn't IPL_OK nothing to `value`; where it is neither
 * that nor IPL_NO_ROOM, `*len` is 0. */
enum ipl_answer ipl_get(struct ipl *s, uint32_t session, uint32_t name, void *value, uint32_t room, uint32_t *len);
/* The same, and no other session may write the name until this one ends; also after IPL_NO_ROOM. */
enum ipl_answer ipl_share(struct ipl *s, uint32_t session, uint32_t name, void *value, uint32_t room, uint32_t *len);
/* The committed record, for no session. */
enum ipl_answer ipl_committed(struct ipl *s, uint32_t name, void *value, uint32_t room, uint32_t *len);
/* Of 0 to 464 bytes; of none `value` isn't read, and may be NULL. */
enum ipl_answer ipl_put(struct ipl *s, uint32_t session, uint32_t name, const void *value, uint32_t len);
enum ipl_answer ipl_del(struct ipl *s, uint32_t session, uint32_t name);
/* IPL_OK: the session's writes last, all of them, and it is closed. */
enum ipl_answer ipl_commit(struct ipl *s, uint32_t session);
/* Several sessions, up to 32, by one commit: a power cut leaves the writes of all or of none. One is its
 * ipl_commit; of none, where `sessions` may be NULL, nothing changes. */
enum ipl_answer ipl_commit_all(struct ipl *s, const uint32_t *sessions, uint32_t count);
enum ipl_answer ipl_abort(struct ipl *s, uint32_t session);
/* Aborts all sessions that are open. */
enum ipl_answer ipl_abort_all(struct ipl *s);
/* Writes a unit anew, so that its next log sectors cost no merge. */
enum ipl_answer ipl_merge(struct ipl *s, uint32_t unit);
/* Keeps a page (0 to 14) of a unit in its frame, so that its gets ask the part nothing. */
enum ipl_answer ipl_hold(struct ipl *s, uint32_t unit, uint32_t page);
enum ipl_answer ipl_release(struct ipl *s, uint32_t unit, uint32_t page);

/* ---- values by keys -----------------------------------------------------------------------------
 *
 * The same of a part whose records are written by these calls alone. The calls above that take names refuse a
 * store of keys (IPL_NO_SUCH_CALL). A part doesn't tell which of both it has.
 */
struct ipl_keys {
    struct ipl store;
};

enum ipl_answer ipl_keys_open(struct ipl_keys *k, const struct ipl_driver *driver, const struct ipl_config *config,
                              void *memory, size_t size);
enum ipl_answer ipl_keys_open_or_format(struct ipl_keys *k, const struct ipl_driver *driver,
                                        const struct ipl_config *config, void *memory, size_t size);
enum ipl_answer ipl_keys_close(struct ipl_keys *k);
enum ipl_answer ipl_keys_shutdown(struct ipl_keys *k, int drops);
enum ipl_answer ipl_keys_reopen(struct ipl_keys *k);
enum ipl_answer ipl_keys_abandon(struct ipl_keys *k);
uint32_t ipl_keys_unit_count(const struct ipl_keys *k);
enum ipl_answer ipl_keys_state(const struct ipl_keys *k, struct ipl_facts *facts);
const uint32_t *ipl_keys_detail(const struct ipl_keys *k);

enum ipl_answer ipl_keys_begin(struct ipl_keys *k, uint32_t session);
/* `key` isn't read where `key_len` isn't 1 to 16, here and below. */
enum ipl_answer ipl_keys_get(struct ipl_keys *k, uint32_t session, const void *key, uint32_t key_len,
                             void *value, uint32_t room, uint32_t *len);
/* Of 0 to 200 bytes; of none `value` isn't read, and may be NULL. */
enum ipl_answer ipl_keys_put(struct ipl_keys *k, uint32_t session, const void *key, uint32_t key_len,
                             const void *value, uint32_t len);
/* Keeps the key as it is for all others: no other session may write it, nor another key of the same bucket,
 * until this one ends. It tells no value; a get does. */
enum ipl_answer ipl_keys_share(struct ipl_keys *k, uint32_t session, const void *key, uint32_t key_len);
enum ipl_answer ipl_keys_del(struct ipl_keys *k, uint32_t session, const void *key, uint32_t key_len);
enum ipl_answer ipl_keys_commit(struct ipl_keys *k, uint32_t session);
enum ipl_answer ipl_keys_commit_all(struct ipl_keys *k, const uint32_t *sessions, uint32_t count);
enum ipl_answer ipl_keys_abort(struct ipl_keys *k, uint32_t session);
enum ipl_answer ipl_keys_abort_all(struct ipl_keys *k);
enum ipl_answer ipl_keys_merge(struct ipl_keys *k, uint32_t unit);

#ifdef __cplusplus
}
#endif

#endif
