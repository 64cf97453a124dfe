/* ipl.c: a proved store of records over raw NAND, as one file of C for any processor. Its calls are told in ipl.h.
 *
 * It is made from its sources by ports/c/one_file/make, and isn't to be edited: the store itself is translated from what was proved.
 * It is C99, C11 and C++; it wants nothing of a C library but memcpy, memmove, memset and memcmp, and keeps nothing but constants
 * and the list of open stores outside the memory that it is handed. These may be defined where it is compiled:
 *
 * IPL_TRUST_ADDRESSES   no address is looked at. As it stands, one that would leave the store's memory puts the store down
 * IPL_SETJMP            setjmp and longjmp of the C library are used for that, also where the compiler has its own
 */
#include "ipl.h"
#include <string.h>

#define IPL_ENGINE static

/* engine.h: what stands below ipl_calls.c. It is the proved store in memory that is handed in, and has
 * two implementations: library.c over libipl_port.a, and the one file of C. No program includes it.
 *
 * An engine keeps nothing outside its memory, so there may be as many as there are memories, and calls of
 * two engines may run at the same time. ipl_calls.c makes one call of an engine at a time, asks each in
 * its order, and has looked at its arguments before: what a comment here says of one holds.
 */
#ifndef IPL_ENGINE_H
#define IPL_ENGINE_H


/* In the one file each of these is static. */
#ifndef IPL_ENGINE
#define IPL_ENGINE
#endif

#ifdef __cplusplus
extern "C" {
#endif

/* One call, as it crosses: request.rt of ipl_port has the same fields, and no gaps. */
struct ipl_request {
    uint32_t op, session, name, page, key_len, len;
    uint32_t sessions[IPL_SESSIONS];
    uint8_t key[IPL_KEY], value[IPL_VALUE];
    uint32_t detail[4];
};

/* What a call asks. What it reads of the request stands beside it, and then what it answers there. */
enum ipl_op {
    /* Of an opening, which has no number of its own: session: how many there are; name: how many committed numbers have
     * room. */
    IPL_OP_BEGIN = 1,      /* session */
    IPL_OP_GET = 2,        /* session; name or key, key_len: len, value */
    IPL_OP_SHARE = 3,      /* session; name: len, value; or key, key_len, and nothing comes back */
    IPL_OP_COMMITTED = 4,  /* name: len, value */
    IPL_OP_PUT = 5,        /* session; name or key, key_len; len, value: of more than 464 bytes the len alone */
    IPL_OP_DEL = 6,        /* session; name or key, key_len */
    IPL_OP_COMMIT = 7,     /* session */
    IPL_OP_COMMIT_ALL = 8, /* len, sessions */
    IPL_OP_ABORT = 9,      /* session */
    IPL_OP_MERGE = 10,     /* name: a unit */
    IPL_OP_HOLD = 11,      /* name: a unit; page */
    IPL_OP_RELEASE = 12,   /* name: a unit; page */
    IPL_OP_UNITS = 14,     /* nothing: name */
    IPL_OP_SHUTDOWN = 15,  /* nothing */
    IPL_OP_LEFT = 16       /* nothing: in sessions the spare places, those that are retired, the least and the most erases,
                            * clean log sectors, clean commit sectors, the lower and the upper half of the numbers */
};

/* A reader does IPL_OP_COMMITTED and IPL_OP_UNITS; each other call it answers by IPL_READ_ONLY. */
enum ipl_engine_kind { IPL_ENGINE_RECORDS, IPL_ENGINE_KEYS, IPL_ENGINE_READER };

/* Each implementation defines its own; it stands at the start of the memory. */
struct ipl_engine;

/* The memory of an engine begins at a multiple of so many bytes. */
enum { IPL_ENGINE_ALIGNMENT = 16 };

/* How many bytes an engine wants, with all that it takes: for an opening and what follows it, for one of a
 * reader, for a check, for a format. The config's numbers are in their ranges, those that are looked at: of a
 * reader the places and the committed numbers, of a check the places alone. A format wants the least; a check
 * has room for 15,300 numbers, whatever the config says. */
IPL_ENGINE size_t ipl_engine_memory(const struct ipl_config *config);
IPL_ENGINE size_t ipl_engine_read_memory(const struct ipl_config *config);
IPL_ENGINE size_t ipl_engine_check_memory(const struct ipl_config *config);
IPL_ENGINE size_t ipl_engine_format_memory(void);

/* Makes an engine of memory, whatever that held before: an engine that was there is gone, also one whose
 * driver left a call by longjmp. The request is all zeros. `size` is at least what the call wants that comes next. `driver` stays
 * where it is as long as the engine is used; all calls of the part go through it, with plain pointers. */
IPL_ENGINE struct ipl_engine *ipl_engine_raise(void *at, size_t size, const struct ipl_driver *driver);

/* Where ipl_calls.c writes the request of the next call, and reads what came back: in the engine's memory,
 * at the same address each time, aligned as the struct is. Its numbers are those of this processor. */
IPL_ENGINE struct ipl_request *ipl_engine_request(struct ipl_engine *e);

/* Each answers a number of ipl.h, and leaves the four numbers that go with it in the request's `detail`.
 *
 * One of these is asked first, once, right after the raise. A format and a check leave nothing behind that
 * may be called; nor does an opening that isn't answered IPL_OK: the memory is then raised again. */
IPL_ENGINE uint32_t ipl_engine_format(struct ipl_engine *e, uint32_t places, uint32_t spares);
/* IPL_OK: `name` of the request is how many records there are. */
IPL_ENGINE uint32_t ipl_engine_check(struct ipl_engine *e, uint32_t places);
/* As large as the config says. */
IPL_ENGINE uint32_t ipl_engine_open(struct ipl_engine *e, enum ipl_engine_kind kind, const struct ipl_config *config);

/* Does what the request asks, of an engine that was opened. */
IPL_ENGINE uint32_t ipl_engine_call(struct ipl_engine *e);

/* An engine that can find that it left its memory, or that a check of its own failed, answers IPL_TRAPPED
 * to the call that did, also to an opening, a format or a check, and to each call after it until it is
 * raised again; it stops no program. An engine is neither closed nor reopened: it takes nothing but its
 * memory, which is used for something else, or raised and opened anew. */

#ifdef __cplusplus
}
#endif

#endif

/* What the translated functions stand on. `m` is the first byte of the module's memory; in front of it stands what C keeps of the
 * engine. Nothing is static but constants, and nothing of a C library is called but memcpy, memmove and memset. */

typedef uint8_t ipl_u8;
typedef uint16_t ipl_u16;
typedef uint32_t ipl_u32;
typedef uint64_t ipl_u64;
typedef int8_t ipl_s8;
typedef int16_t ipl_s16;
typedef int32_t ipl_s32;
typedef int64_t ipl_s64;

/* An address as it is looked at: all 64 bits of it where the processor has as many, else the lower 32. */
#if UINTPTR_MAX > 0xffffffffu
typedef ipl_u64 ipl_a;
#else
typedef ipl_u32 ipl_a;
#endif

/* What C leaves open, and each known compiler does: a cast to a type with a sign wraps, and a shift to the right keeps the sign. That an
 * int has at most 32 bits: a sum of two ipl_u32 would be one of ints else, which doesn't wrap. */
typedef char ipl_a_cast_wraps[(ipl_s32)0xfffffffeu == -2 && (ipl_s8)(ipl_u8)0xfeu == -2 ? 1 : -1];
typedef char ipl_a_shift_keeps_the_sign[(ipl_s32)-2 >> 1 == -1 && (ipl_s64)-2 >> 1 == -1 ? 1 : -1];
typedef char ipl_an_int_has_at_most_32_bits[sizeof(int) <= 4 ? 1 : -1];

#if defined(__GNUC__)
#define IPL_RARE(x) __builtin_expect(!!(x), 0)
#define IPL_NO_RETURN __attribute__((noreturn))
#define IPL_OUT_OF_LINE __attribute__((noinline))
#if defined(__OPTIMIZE_SIZE__) || !defined(__OPTIMIZE__)
#define IPL_IN static inline __attribute__((unused))
#else
#define IPL_IN static inline __attribute__((always_inline, unused))
#endif
#else
#define IPL_RARE(x) (x)
#define IPL_NO_RETURN
#define IPL_OUT_OF_LINE
#define IPL_IN static inline
#endif

/* ---- traps */

/* A trap goes back to where the engine was called. GCC, and clang for the processors named here, do so by themselves; for others, or
 * with -DIPL_SETJMP, it is done by setjmp and longjmp of the C library. */
#if defined(__GNUC__) && !defined(IPL_SETJMP) && \
    (!defined(__clang__) || defined(__x86_64__) || defined(__i386__) || defined(__arm__))
typedef void *ipl_place[5];
#define IPL_LAND(place) __builtin_setjmp(place)
#define IPL_GO_BACK(place) __builtin_longjmp(place, 1)
#else
#include <setjmp.h>
typedef jmp_buf ipl_place;
#define IPL_LAND(place) setjmp(place)
#define IPL_GO_BACK(place) longjmp(place, 1)
#endif

enum {
    IPL_HEAD = 64,            /* bytes of the engine in front of `m`, a multiple of its alignment */
    IPL_SLACK = 4096,         /* the last bytes of the memory, which are only reached by an offset */
    IPL_MOST_MEMORY = 1 << 30 /* data of the module has its address there or above */
};

struct ipl_engine {
    ipl_u64 g[1];                    /* the module's globals: where its stack stands */
    ipl_u64 handle;                  /* of the open store, or of a part that is only read */
    const struct ipl_driver *driver;
    ipl_place *trap;                 /* where a trap goes */
    ipl_a end;                       /* the memory's size less the slack */
    ipl_u32 heap;                    /* the first address that wasn't handed out */
    ipl_u32 trapped;
    ipl_u32 reads;                   /* whether the part is only read */
};
typedef char ipl_the_head_is_large_enough[sizeof(struct ipl_engine) <= IPL_HEAD ? 1 : -1];

#define IPL_E(m) ((struct ipl_engine *)(void *)((m) - IPL_HEAD))
#define IPL_G(i) (IPL_E(m)->g[i])
#define IPL_ENDS const ipl_a end = IPL_E(m)->end;

static IPL_OUT_OF_LINE IPL_NO_RETURN void ipl_trap(ipl_u8 *m) {
    IPL_E(m)->trapped = 1;
    IPL_GO_BACK(*IPL_E(m)->trap);
}

/* ---- numbers in the memory, the least byte first */

#if defined(__BYTE_ORDER__) && __BYTE_ORDER__ == __ORDER_BIG_ENDIAN__
#define IPL_BIG 1
IPL_IN ipl_u16 ipl_turn16(ipl_u16 x) { return (ipl_u16)(x << 8 | x >> 8); }
IPL_IN ipl_u32 ipl_turn32(ipl_u32 x) { return x << 24 | (x & 0xff00u) << 8 | (x >> 8 & 0xff00u) | x >> 24; }
IPL_IN ipl_u64 ipl_turn64(ipl_u64 x) { return (ipl_u64)ipl_turn32((ipl_u32)x) << 32 | ipl_turn32((ipl_u32)(x >> 32)); }
#define IPL_TURN(bits, x) ipl_turn##bits(x)
#else
#define IPL_BIG 0
#define IPL_TURN(bits, x) (x)
#endif

/* As a number that is aligned; and, with U, as bytes anywhere. */
#if defined(__GNUC__)
typedef ipl_u16 __attribute__((may_alias)) ipl_m16;
typedef ipl_u32 __attribute__((may_alias)) ipl_m32;
typedef ipl_u64 __attribute__((may_alias)) ipl_m64;
#define IPL_READ(bits) return IPL_TURN(bits, *(const ipl_m##bits *)(const void *)p);
#define IPL_WRITE(bits) *(ipl_m##bits *)(void *)p = IPL_TURN(bits, x);
#else
#define IPL_READ(bits) ipl_u##bits x; memcpy(&x, p, sizeof x); return IPL_TURN(bits, x);
#define IPL_WRITE(bits) x = IPL_TURN(bits, x); memcpy(p, &x, sizeof x);
#endif
#define IPL_WIDTH(bits) \
    IPL_IN ipl_u##bits ipl_get##bits(const ipl_u8 *p) { IPL_READ(bits) } \
    IPL_IN void ipl_set##bits(ipl_u8 *p, ipl_u##bits x) { IPL_WRITE(bits) } \
    IPL_IN ipl_u##bits ipl_get##bits##u(const ipl_u8 *p) { ipl_u##bits x; memcpy(&x, p, sizeof x); return IPL_TURN(bits, x); } \
    IPL_IN void ipl_set##bits##u(ipl_u8 *p, ipl_u##bits x) { x = IPL_TURN(bits, x); memcpy(p, &x, sizeof x); }
IPL_WIDTH(16)
IPL_WIDTH(32)
IPL_WIDTH(64)
IPL_IN ipl_u8 ipl_get8(const ipl_u8 *p) { return *p; }
IPL_IN void ipl_set8(ipl_u8 *p, ipl_u8 x) { *p = x; }

/* ---- addresses: no access leaves the memory */

/* IPL_AT: up to the slack, so that an offset and a size that are together no more stay within the memory. IPL_FAR: so that n bytes from
 * there do. IPL_SPAN: the same of a number of bytes that isn't known. With -DIPL_TRUST_ADDRESSES none of them is looked at. */
#ifdef IPL_TRUST_ADDRESSES
#define IPL_AT(a) ((void)end, (ipl_a)(a))
#define IPL_FAR(a, n) ((void)end, (ipl_a)(a))
#define IPL_SPAN(a, n) ((void)end)
#else
IPL_IN ipl_a ipl_at(ipl_u8 *m, ipl_a end, ipl_a a) {
    if (IPL_RARE(a > end)) ipl_trap(m);
    return a;
}
IPL_IN ipl_a ipl_far(ipl_u8 *m, ipl_a end, ipl_a a, ipl_a n) {
    if (IPL_RARE(n > end || a > end - n)) ipl_trap(m);
    return a;
}
IPL_IN void ipl_span(ipl_u8 *m, ipl_a end, ipl_u64 a, ipl_u64 n) {
    if (IPL_RARE(n > end || a > end - n)) ipl_trap(m);
}
#define IPL_AT(a) ipl_at(m, end, (ipl_a)(a))
#define IPL_FAR(a, n) ipl_far(m, end, (ipl_a)(a), n)
#define IPL_SPAN(a, n) ipl_span(m, end, a, n)
#endif
#define IPL_P(a, o) (m + IPL_AT(a) + (o))
#define IPL_PF(a, o, n) (m + IPL_FAR(a, (o) + (n)) + (o))
/* Of the data, which isn't in the memory: the translation has seen that each such address is in it. */
#define IPL_PT(a, o) (ipl_data.bytes + ((ipl_a)(a) - (o)))

#define IPL_L8(a, o) ((ipl_u32)ipl_get8(IPL_P(a, o)))
#define IPL_L16(a, o) ((ipl_u32)ipl_get16(IPL_P(a, o)))
#define IPL_L32(a, o) ipl_get32(IPL_P(a, o))
#define IPL_L64(a, o) ipl_get64(IPL_P(a, o))
#define IPL_L16U(a, o) ((ipl_u32)ipl_get16u(IPL_P(a, o)))
#define IPL_L32U(a, o) ipl_get32u(IPL_P(a, o))
#define IPL_L64U(a, o) ipl_get64u(IPL_P(a, o))
#define IPL_L8F(a, o) ((ipl_u32)ipl_get8(IPL_PF(a, o, 1u)))
#define IPL_L16F(a, o) ((ipl_u32)ipl_get16(IPL_PF(a, o, 2u)))
#define IPL_L32F(a, o) ipl_get32(IPL_PF(a, o, 4u))
#define IPL_L64F(a, o) ipl_get64(IPL_PF(a, o, 8u))
#define IPL_L16UF(a, o) ((ipl_u32)ipl_get16u(IPL_PF(a, o, 2u)))
#define IPL_L32UF(a, o) ipl_get32u(IPL_PF(a, o, 4u))
#define IPL_L64UF(a, o) ipl_get64u(IPL_PF(a, o, 8u))
#define IPL_L8T(a, o) ((ipl_u32)ipl_get8(IPL_PT(a, o)))
#define IPL_L16T(a, o) ((ipl_u32)ipl_get16(IPL_PT(a, o)))
#define IPL_L32T(a, o) ipl_get32(IPL_PT(a, o))
#define IPL_L64T(a, o) ipl_get64(IPL_PT(a, o))
#define IPL_L16UT(a, o) ((ipl_u32)ipl_get16u(IPL_PT(a, o)))
#define IPL_L32UT(a, o) ipl_get32u(IPL_PT(a, o))
#define IPL_L64UT(a, o) ipl_get64u(IPL_PT(a, o))
#define IPL_S8(a, o, x) ipl_set8(IPL_P(a, o), (ipl_u8)(x))
#define IPL_S16(a, o, x) ipl_set16(IPL_P(a, o), (ipl_u16)(x))
#define IPL_S32(a, o, x) ipl_set32(IPL_P(a, o), (ipl_u32)(x))
#define IPL_S64(a, o, x) ipl_set64(IPL_P(a, o), x)
#define IPL_S16U(a, o, x) ipl_set16u(IPL_P(a, o), (ipl_u16)(x))
#define IPL_S32U(a, o, x) ipl_set32u(IPL_P(a, o), (ipl_u32)(x))
#define IPL_S64U(a, o, x) ipl_set64u(IPL_P(a, o), x)
#define IPL_S8F(a, o, x) ipl_set8(IPL_PF(a, o, 1u), (ipl_u8)(x))
#define IPL_S16F(a, o, x) ipl_set16(IPL_PF(a, o, 2u), (ipl_u16)(x))
#define IPL_S32F(a, o, x) ipl_set32(IPL_PF(a, o, 4u), (ipl_u32)(x))
#define IPL_S64F(a, o, x) ipl_set64(IPL_PF(a, o, 8u), x)
#define IPL_S16UF(a, o, x) ipl_set16u(IPL_PF(a, o, 2u), (ipl_u16)(x))
#define IPL_S32UF(a, o, x) ipl_set32u(IPL_PF(a, o, 4u), (ipl_u32)(x))
#define IPL_S64UF(a, o, x) ipl_set64u(IPL_PF(a, o, 8u), x)

/* Of no bytes nothing is asked: the address of what is empty may be none of the memory. */
IPL_IN void ipl_copy(ipl_u8 *m, ipl_a end, ipl_u64 to, ipl_u64 from, ipl_u64 n) {
    if (n == 0) return;
    IPL_SPAN(to, n);
    IPL_SPAN(from, n);
    memmove(m + (ipl_a)to, m + (ipl_a)from, (size_t)n);
}
IPL_IN void ipl_fill(ipl_u8 *m, ipl_a end, ipl_u64 to, ipl_u32 x, ipl_u64 n) {
    if (n == 0) return;
    IPL_SPAN(to, n);
    memset(m + (ipl_a)to, (ipl_u8)x, (size_t)n);
}
/* What a loop over bytes does, which goes at least once: of no bytes it would leave the memory. A move from the first byte on, or from
 * the last one down, may read what it has written; else it is memmove's. */
IPL_IN void ipl_spans(ipl_u8 *m, ipl_a end, ipl_u64 a, ipl_u64 b, ipl_u64 n) {
    if (IPL_RARE(n == 0)) ipl_trap(m);
    IPL_SPAN(a, n);
    IPL_SPAN(b, n);
}
IPL_IN void ipl_rise(ipl_u8 *m, ipl_a end, ipl_u64 to, ipl_u64 from, ipl_u64 n) {
    ipl_a i;
    ipl_spans(m, end, to, from, n);
    if (to - from >= n) memmove(m + (ipl_a)to, m + (ipl_a)from, (size_t)n);
    else for (i = 0; i < n; i++) m[(ipl_a)to + i] = m[(ipl_a)from + i];
}
IPL_IN void ipl_fall(ipl_u8 *m, ipl_a end, ipl_u64 to, ipl_u64 from, ipl_u64 n) {
    ipl_a i;
    ipl_spans(m, end, to, from, n);
    if (from - to >= n) memmove(m + (ipl_a)to, m + (ipl_a)from, (size_t)n);
    else for (i = (ipl_a)n; i > 0; i--) m[(ipl_a)to + i - 1u] = m[(ipl_a)from + i - 1u];
}
IPL_IN ipl_u32 ipl_differ(ipl_u8 *m, ipl_a end, ipl_u64 a, ipl_u64 b, ipl_u64 n) {
    const ipl_u8 *p, *q;
    ipl_u64 bits = 0;
    ipl_spans(m, end, a, b, n);
    p = m + (ipl_a)a;
    q = m + (ipl_a)b;
    for (; n >= 8u; n -= 8u, p += 8, q += 8) bits |= ipl_get64u(p) ^ ipl_get64u(q);
    for (; n != 0; n--) bits |= (ipl_u64)(*p++ ^ *q++);
    return bits != 0;
}
IPL_IN ipl_u32 ipl_bits(ipl_u8 *m, ipl_a end, ipl_u64 a, ipl_u64 n) {
    const ipl_u8 *p;
    ipl_u64 bits = 0;
    ipl_spans(m, end, a, a, n);
    p = m + (ipl_a)a;
    for (; n >= 8u; n -= 8u, p += 8) bits |= ipl_get64u(p);
    for (; n != 0; n--) bits |= *p++;
    bits |= bits >> 32;
    bits |= bits >> 16;
    return (ipl_u32)((bits | bits >> 8) & 255u);
}
#define IPL_RISE(to, from, n) ipl_rise(m, end, to, from, n)
#define IPL_FALL(to, from, n) ipl_fall(m, end, to, from, n)
#define IPL_DIFFER(a, b, n) ipl_differ(m, end, a, b, n)
#define IPL_BITS(a, n) ipl_bits(m, end, a, n)
#define IPL_COPY(to, from, n) ipl_copy(m, end, to, from, n)
#define IPL_FILL(to, x, n) ipl_fill(m, end, to, x, n)

/* ---- operations that C has no operator for, or leaves open at some operands */

#define IPL_OPERATIONS(bits) \
    IPL_IN ipl_u##bits ipl_rotl##bits(ipl_u##bits x, ipl_u##bits n) { return x << (n & (bits - 1)) | x >> ((0u - n) & (bits - 1)); } \
    IPL_IN ipl_u##bits ipl_rotr##bits(ipl_u##bits x, ipl_u##bits n) { return x >> (n & (bits - 1)) | x << ((0u - n) & (bits - 1)); } \
    IPL_IN ipl_u##bits ipl_divu##bits(ipl_u8 *m, ipl_u##bits x, ipl_u##bits y) { \
        if (IPL_RARE(y == 0)) ipl_trap(m); \
        return x / y; \
    } \
    IPL_IN ipl_u##bits ipl_remu##bits(ipl_u8 *m, ipl_u##bits x, ipl_u##bits y) { \
        if (IPL_RARE(y == 0)) ipl_trap(m); \
        return x % y; \
    } \
    IPL_IN ipl_u##bits ipl_divs##bits(ipl_u8 *m, ipl_u##bits x, ipl_u##bits y) { \
        if (IPL_RARE(y == 0 || (x == (ipl_u##bits)1 << (bits - 1) && ~y == 0))) ipl_trap(m); \
        return (ipl_u##bits)((ipl_s##bits)x / (ipl_s##bits)y); \
    } \
    IPL_IN ipl_u##bits ipl_rems##bits(ipl_u8 *m, ipl_u##bits x, ipl_u##bits y) { \
        if (IPL_RARE(y == 0)) ipl_trap(m); \
        return ~y == 0 ? 0 : (ipl_u##bits)((ipl_s##bits)x % (ipl_s##bits)y); \
    } \
    IPL_IN ipl_u##bits ipl_clz##bits(ipl_u##bits x) { ipl_u##bits n = bits; while (x != 0) { x >>= 1; n--; } return n; } \
    IPL_IN ipl_u##bits ipl_ctz##bits(ipl_u##bits x) { ipl_u##bits n = 0; while (n < bits && (x >> n & 1) == 0) n++; return n; } \
    IPL_IN ipl_u##bits ipl_popcnt##bits(ipl_u##bits x) { ipl_u##bits n = 0; while (x != 0) { n += (ipl_u##bits)(x & 1); x >>= 1; } return n; }
IPL_OPERATIONS(32)
IPL_OPERATIONS(64)

#if defined(__clang__)
#pragma clang diagnostic push
#pragma clang diagnostic ignored "-Wunused-but-set-variable"
#pragma clang diagnostic ignored "-Wtautological-compare"
#elif defined(__GNUC__)
#pragma GCC diagnostic push
#pragma GCC diagnostic ignored "-Wunused-but-set-variable"
#pragma GCC diagnostic ignored "-Wmaybe-uninitialized"
#pragma GCC diagnostic ignored "-Wtype-limits"
#endif

enum { IPL_STACK = 40960 };
static const union { ipl_u8 bytes[24576]; ipl_u64 aligned; } ipl_data = {{
    0,0,0,0,63,77,205,125,126,154,154,251,65,215,87,134,189,50,68,44,130,127,137,81,195,168,222,215,252,229,19,170,
    122,101,136,88,69,40,69,37,4,255,18,163,59,178,223,222,199,87,204,116,248,26,1,9,185,205,86,143,134,128,155,242,
    244,202,16,177,203,135,221,204,138,80,138,74,181,29,71,55,73,248,84,157,118,181,153,224,55,98,206,102,8,47,3,27,
    142,175,152,233,177,226,85,148,240,53,2,18,207,120,207,111,51,157,220,197,12,208,17,184,77,7,70,62,114,74,139,67,
    169,147,80,185,150,222,157,196,215,9,202,66,232,68,7,63,20,161,20,149,43,236,217,232,106,59,142,110,85,118,67,19,
    211,246,216,225,236,187,21,156,173,108,66,26,146,33,143,103,110,196,156,205,81,137,81,176,16,94,6,54,47,19,203,75,
    93,89,64,8,98,20,141,117,35,195,218,243,28,142,23,142,224,107,4,36,223,38,201,89,158,241,158,223,161,188,83,162,
    39,60,200,80,24,113,5,45,89,166,82,171,102,235,159,214,154,14,140,124,165,67,65,1,228,148,22,135,219,217,219,250,
    19,33,208,169,44,108,29,212,109,187,74,82,82,246,135,47,174,19,148,133,145,94,89,248,208,137,14,126,239,196,195,3,
    105,68,88,241,86,9,149,140,23,222,194,10,40,147,15,119,212,118,28,221,235,59,209,160,170,236,134,38,149,161,75,91,
    231,235,192,24,216,166,13,101,153,113,90,227,166,60,151,158,90,217,132,52,101,148,73,73,36,67,30,207,27,14,211,178,
    157,142,72,64,162,195,133,61,227,20,210,187,220,89,31,198,32,188,12,108,31,241,193,17,94,38,150,151,97,107,91,234,
    186,178,128,16,133,255,77,109,196,40,26,235,251,101,215,150,7,128,196,60,56,205,9,65,121,26,94,199,70,87,147,186,
    192,215,8,72,255,154,197,53,190,77,146,179,129,0,95,206,125,229,76,100,66,168,129,25,3,127,214,159,60,50,27,226,
    78,120,144,161,113,53,93,220,48,226,10,90,15,175,199,39,243,74,212,141,204,7,25,240,141,208,78,118,178,157,131,11,
    52,29,24,249,11,80,213,132,74,135,130,2,117,202,79,127,137,47,92,213,182,98,145,168,247,181,198,46,200,248,11,83,
    103,68,209,136,88,9,28,245,25,222,75,115,38,147,134,14,218,118,149,164,229,59,88,217,164,236,15,95,155,161,194,34,
    29,33,89,208,34,108,148,173,99,187,195,43,92,246,14,86,160,19,29,252,159,94,208,129,222,137,135,7,225,196,74,122,
    147,142,193,57,172,195,12,68,237,20,91,194,210,89,150,191,46,188,133,21,17,241,72,104,80,38,31,238,111,107,210,147,
    233,235,73,97,214,166,132,28,151,113,211,154,168,60,30,231,84,217,13,77,107,148,192,48,42,67,151,182,21,14,90,203,
    206,215,129,49,241,154,76,76,176,77,27,202,143,0,214,183,115,229,197,29,76,168,8,96,13,127,95,230,50,50,146,155,
    180,178,9,105,139,255,196,20,202,40,147,146,245,101,94,239,9,128,77,69,54,205,128,56,119,26,215,190,72,87,26,195,
    58,29,145,128,5,80,92,253,68,135,11,123,123,202,198,6,135,47,213,172,184,98,24,209,249,181,79,87,198,248,130,42,
    64,120,25,216,127,53,212,165,62,226,131,35,1,175,78,94,253,74,93,244,194,7,144,137,131,208,199,15,188,157,10,114,
    116,101,1,33,75,40,204,92,10,255,155,218,53,178,86,167,201,87,69,13,246,26,136,112,183,205,223,246,136,128,18,139,
    14,0,137,121,49,77,68,4,112,154,19,130,79,215,222,255,179,50,205,85,140,127,0,40,205,168,87,174,242,229,154,211,
    128,175,17,144,191,226,220,237,254,53,139,107,193,120,70,22,61,157,85,188,2,208,152,193,67,7,207,71,124,74,2,58,
    250,202,153,200,197,135,84,181,132,80,3,51,187,29,206,78,71,248,221,228,120,181,16,153,57,98,71,31,6,47,138,98,
    221,246,81,152,226,187,156,229,163,108,203,99,156,33,6,30,96,196,21,180,95,137,216,201,30,94,143,79,33,19,66,50,
    167,147,217,192,152,222,20,189,217,9,67,59,230,68,142,70,26,161,157,236,37,236,80,145,100,59,7,23,91,118,202,106,
    41,60,65,41,22,113,140,84,87,166,219,210,104,235,22,175,148,14,5,5,171,67,200,120,234,148,159,254,213,217,82,131,
    83,89,201,113,108,20,4,12,45,195,83,138,18,142,158,247,238,107,141,93,209,38,64,32,144,241,23,166,175,188,218,219,
    0,0,0,0,112,224,27,182,161,198,70,183,209,38,93,1,3,139,252,181,115,107,231,3,162,77,186,2,210,173,161,180,
    71,16,136,176,55,240,147,6,230,214,206,7,150,54,213,177,68,155,116,5,52,123,111,179,229,93,50,178,149,189,41,4,
    207,38,97,186,191,198,122,12,110,224,39,13,30,0,60,187,204,173,157,15,188,77,134,185,109,107,219,184,29,139,192,14,
    136,54,233,10,248,214,242,188,41,240,175,189,89,16,180,11,139,189,21,191,251,93,14,9,42,123,83,8,90,155,72,190,
    223,75,179,175,175,171,168,25,126,141,245,24,14,109,238,174,220,192,79,26,172,32,84,172,125,6,9,173,13,230,18,27,
    152,91,59,31,232,187,32,169,57,157,125,168,73,125,102,30,155,208,199,170,235,48,220,28,58,22,129,29,74,246,154,171,
    16,109,210,21,96,141,201,163,177,171,148,162,193,75,143,20,19,230,46,160,99,6,53,22,178,32,104,23,194,192,115,161,
    87,125,90,165,39,157,65,19,246,187,28,18,134,91,7,164,84,246,166,16,36,22,189,166,245,48,224,167,133,208,251,17,
    255,145,23,132,143,113,12,50,94,87,81,51,46,183,74,133,252,26,235,49,140,250,240,135,93,220,173,134,45,60,182,48,
    184,129,159,52,200,97,132,130,25,71,217,131,105,167,194,53,187,10,99,129,203,234,120,55,26,204,37,54,106,44,62,128,
    48,183,118,62,64,87,109,136,145,113,48,137,225,145,43,63,51,60,138,139,67,220,145,61,146,250,204,60,226,26,215,138,
    119,167,254,142,7,71,229,56,214,97,184,57,166,129,163,143,116,44,2,59,4,204,25,141,213,234,68,140,165,10,95,58,
    32,218,164,43,80,58,191,157,129,28,226,156,241,252,249,42,35,81,88,158,83,177,67,40,130,151,30,41,242,119,5,159,
    103,202,44,155,23,42,55,45,198,12,106,44,182,236,113,154,100,65,208,46,20,161,203,152,197,135,150,153,181,103,141,47,
    239,252,197,145,159,28,222,39,78,58,131,38,62,218,152,144,236,119,57,36,156,151,34,146,77,177,127,147,61,81,100,37,
    168,236,77,33,216,12,86,151,9,42,11,150,121,202,16,32,171,103,177,148,219,135,170,34,10,161,247,35,122,65,236,149,
    191,37,94,211,207,197,69,101,30,227,24,100,110,3,3,210,188,174,162,102,204,78,185,208,29,104,228,209,109,136,255,103,
    248,53,214,99,136,213,205,213,89,243,144,212,41,19,139,98,251,190,42,214,139,94,49,96,90,120,108,97,42,152,119,215,
    112,3,63,105,0,227,36,223,209,197,121,222,161,37,98,104,115,136,195,220,3,104,216,106,210,78,133,107,162,174,158,221,
    55,19,183,217,71,243,172,111,150,213,241,110,230,53,234,216,52,152,75,108,68,120,80,218,149,94,13,219,229,190,22,109,
    96,110,237,124,16,142,246,202,193,168,171,203,177,72,176,125,99,229,17,201,19,5,10,127,194,35,87,126,178,195,76,200,
    39,126,101,204,87,158,126,122,134,184,35,123,246,88,56,205,36,245,153,121,84,21,130,207,133,51,223,206,245,211,196,120,
    175,72,140,198,223,168,151,112,14,142,202,113,126,110,209,199,172,195,112,115,220,35,107,197,13,5,54,196,125,229,45,114,
    232,88,4,118,152,184,31,192,73,158,66,193,57,126,89,119,235,211,248,195,155,51,227,117,74,21,190,116,58,245,165,194,
    64,180,73,87,48,84,82,225,225,114,15,224,145,146,20,86,67,63,181,226,51,223,174,84,226,249,243,85,146,25,232,227,
    7,164,193,231,119,68,218,81,166,98,135,80,214,130,156,230,4,47,61,82,116,207,38,228,165,233,123,229,213,9,96,83,
    143,146,40,237,255,114,51,91,46,84,110,90,94,180,117,236,140,25,212,88,252,249,207,238,45,223,146,239,93,63,137,89,
    200,130,160,93,184,98,187,235,105,68,230,234,25,164,253,92,203,9,92,232,187,233,71,94,106,207,26,95,26,47,1,233,
    159,255,250,248,239,31,225,78,62,57,188,79,78,217,167,249,156,116,6,77,236,148,29,251,61,178,64,250,77,82,91,76,
    216,239,114,72,168,15,105,254,121,41,52,255,9,201,47,73,219,100,142,253,171,132,149,75,122,162,200,74,10,66,211,252,
    80,217,155,66,32,57,128,244,241,31,221,245,129,255,198,67,83,82,103,247,35,178,124,65,242,148,33,64,130,116,58,246,
    23,201,19,242,103,41,8,68,182,15,85,69,198,239,78,243,20,66,239,71,100,162,244,241,181,132,169,240,197,100,178,70,
    0,0,0,0,220,106,179,80,184,213,102,161,100,191,213,241,49,173,188,153,237,199,15,201,137,120,218,56,85,18,105,104,
    35,92,8,232,255,54,187,184,155,137,110,73,71,227,221,25,18,241,180,113,206,155,7,33,170,36,210,208,118,78,97,128,
    7,190,97,11,219,212,210,91,191,107,7,170,99,1,180,250,54,19,221,146,234,121,110,194,142,198,187,51,82,172,8,99,
    36,226,105,227,248,136,218,179,156,55,15,66,64,93,188,18,21,79,213,122,201,37,102,42,173,154,179,219,113,240,0,139,
    14,124,195,22,210,22,112,70,182,169,165,183,106,195,22,231,63,209,127,143,227,187,204,223,135,4,25,46,91,110,170,126,
    45,32,203,254,241,74,120,174,149,245,173,95,73,159,30,15,28,141,119,103,192,231,196,55,164,88,17,198,120,50,162,150,
    9,194,162,29,213,168,17,77,177,23,196,188,109,125,119,236,56,111,30,132,228,5,173,212,128,186,120,37,92,208,203,117,
    42,158,170,245,246,244,25,165,146,75,204,84,78,33,127,4,27,51,22,108,199,89,165,60,163,230,112,205,127,140,195,157,
    28,248,134,45,192,146,53,125,164,45,224,140,120,71,83,220,45,85,58,180,241,63,137,228,149,128,92,21,73,234,239,69,
    63,164,142,197,227,206,61,149,135,113,232,100,91,27,91,52,14,9,50,92,210,99,129,12,182,220,84,253,106,182,231,173,
    27,70,231,38,199,44,84,118,163,147,129,135,127,249,50,215,42,235,91,191,246,129,232,239,146,62,61,30,78,84,142,78,
    56,26,239,206,228,112,92,158,128,207,137,111,92,165,58,63,9,183,83,87,213,221,224,7,177,98,53,246,109,8,134,166,
    18,132,69,59,206,238,246,107,170,81,35,154,118,59,144,202,35,41,249,162,255,67,74,242,155,252,159,3,71,150,44,83,
    49,216,77,211,237,178,254,131,137,13,43,114,85,103,152,34,0,117,241,74,220,31,66,26,184,160,151,235,100,202,36,187,
    21,58,36,48,201,80,151,96,173,239,66,145,113,133,241,193,36,151,152,169,248,253,43,249,156,66,254,8,64,40,77,88,
    54,102,44,216,234,12,159,136,142,179,74,121,82,217,249,41,7,203,144,65,219,161,35,17,191,30,246,224,99,116,69,176,
    56,240,13,91,228,154,190,11,128,37,107,250,92,79,216,170,9,93,177,194,213,55,2,146,177,136,215,99,109,226,100,51,
    27,172,5,179,199,198,182,227,163,121,99,18,127,19,208,66,42,1,185,42,246,107,10,122,146,212,223,139,78,190,108,219,
    63,78,108,80,227,36,223,0,135,155,10,241,91,241,185,161,14,227,208,201,210,137,99,153,182,54,182,104,106,92,5,56,
    28,18,100,184,192,120,215,232,164,199,2,25,120,173,177,73,45,191,216,33,241,213,107,113,149,106,190,128,73,0,13,208,
    54,140,206,77,234,230,125,29,142,89,168,236,82,51,27,188,7,33,114,212,219,75,193,132,191,244,20,117,99,158,167,37,
    21,208,198,165,201,186,117,245,173,5,160,4,113,111,19,84,36,125,122,60,248,23,201,108,156,168,28,157,64,194,175,205,
    49,50,175,70,237,88,28,22,137,231,201,231,85,141,122,183,0,159,19,223,220,245,160,143,184,74,117,126,100,32,198,46,
    18,110,167,174,206,4,20,254,170,187,193,15,118,209,114,95,35,195,27,55,255,169,168,103,155,22,125,150,71,124,206,198,
    36,8,139,118,248,98,56,38,156,221,237,215,64,183,94,135,21,165,55,239,201,207,132,191,173,112,81,78,113,26,226,30,
    7,84,131,158,219,62,48,206,191,129,229,63,99,235,86,111,54,249,63,7,234,147,140,87,142,44,89,166,82,70,234,246,
    35,182,234,125,255,220,89,45,155,99,140,220,71,9,63,140,18,27,86,228,206,113,229,180,170,206,48,69,118,164,131,21,
    0,234,226,149,220,128,81,197,184,63,132,52,100,85,55,100,49,71,94,12,237,45,237,92,137,146,56,173,85,248,139,253,
    42,116,72,96,246,30,251,48,146,161,46,193,78,203,157,145,27,217,244,249,199,179,71,169,163,12,146,88,127,102,33,8,
    9,40,64,136,213,66,243,216,177,253,38,41,109,151,149,121,56,133,252,17,228,239,79,65,128,80,154,176,92,58,41,224,
    45,202,41,107,241,160,154,59,149,31,79,202,73,117,252,154,28,103,149,242,192,13,38,162,164,178,243,83,120,216,64,3,
    14,150,33,131,210,252,146,211,182,67,71,34,106,41,244,114,63,59,157,26,227,81,46,74,135,238,251,187,91,132,72,235,
    0,0,0,0,149,45,53,143,107,93,27,197,254,112,46,74,151,188,71,81,2,145,114,222,252,225,92,148,105,204,105,27,
    46,121,143,162,187,84,186,45,69,36,148,103,208,9,161,232,185,197,200,243,44,232,253,124,210,152,211,54,71,181,230,185,
    29,244,111,158,136,217,90,17,118,169,116,91,227,132,65,212,138,72,40,207,31,101,29,64,225,21,51,10,116,56,6,133,
    51,141,224,60,166,160,213,179,88,208,251,249,205,253,206,118,164,49,167,109,49,28,146,226,207,108,188,168,90,65,137,39,
    123,238,174,231,238,195,155,104,16,179,181,34,133,158,128,173,236,82,233,182,121,127,220,57,135,15,242,115,18,34,199,252,
    85,151,33,69,192,186,20,202,62,202,58,128,171,231,15,15,194,43,102,20,87,6,83,155,169,118,125,209,60,91,72,94,
    102,26,193,121,243,55,244,246,13,71,218,188,152,106,239,51,241,166,134,40,100,139,179,167,154,251,157,237,15,214,168,98,
    72,99,78,219,221,78,123,84,35,62,85,30,182,19,96,145,223,223,9,138,74,242,60,5,180,130,18,79,33,175,39,192,
    183,218,44,20,34,247,25,155,220,135,55,209,73,170,2,94,32,102,107,69,181,75,94,202,75,59,112,128,222,22,69,15,
    153,163,163,182,12,142,150,57,242,254,184,115,103,211,141,252,14,31,228,231,155,50,209,104,101,66,255,34,240,111,202,173,
    170,46,67,138,63,3,118,5,193,115,88,79,84,94,109,192,61,146,4,219,168,191,49,84,86,207,31,30,195,226,42,145,
    132,87,204,40,17,122,249,167,239,10,215,237,122,39,226,98,19,235,139,121,134,198,190,246,120,182,144,188,237,155,165,51,
    204,52,130,243,89,25,183,124,167,105,153,54,50,68,172,185,91,136,197,162,206,165,240,45,48,213,222,103,165,248,235,232,
    226,77,13,81,119,96,56,222,137,16,22,148,28,61,35,27,117,241,74,0,224,220,127,143,30,172,81,197,139,129,100,74,
    209,192,237,109,68,237,216,226,186,157,246,168,47,176,195,39,70,124,170,60,211,81,159,179,45,33,177,249,184,12,132,118,
    255,185,98,207,106,148,87,64,148,228,121,10,1,201,76,133,104,5,37,158,253,40,16,17,3,88,62,91,150,117,11,212,
    110,181,89,40,251,152,108,167,5,232,66,237,144,197,119,98,249,9,30,121,108,36,43,246,146,84,5,188,7,121,48,51,
    64,204,214,138,213,225,227,5,43,145,205,79,190,188,248,192,215,112,145,219,66,93,164,84,188,45,138,30,41,0,191,145,
    115,65,54,182,230,108,3,57,24,28,45,115,141,49,24,252,228,253,113,231,113,208,68,104,143,160,106,34,26,141,95,173,
    93,56,185,20,200,21,140,155,54,101,162,209,163,72,151,94,202,132,254,69,95,169,203,202,161,217,229,128,52,244,208,15,
    21,91,247,207,128,118,194,64,126,6,236,10,235,43,217,133,130,231,176,158,23,202,133,17,233,186,171,91,124,151,158,212,
    59,34,120,109,174,15,77,226,80,127,99,168,197,82,86,39,172,158,63,60,57,179,10,179,199,195,36,249,82,238,17,118,
    8,175,152,81,157,130,173,222,99,242,131,148,246,223,182,27,159,19,223,0,10,62,234,143,244,78,196,197,97,99,241,74,
    38,214,23,243,179,251,34,124,77,139,12,54,216,166,57,185,177,106,80,162,36,71,101,45,218,55,75,103,79,26,126,232,
    217,111,117,60,76,66,64,179,178,50,110,249,39,31,91,118,78,211,50,109,219,254,7,226,37,142,41,168,176,163,28,39,
    247,22,250,158,98,59,207,17,156,75,225,91,9,102,212,212,96,170,189,207,245,135,136,64,11,247,166,10,158,218,147,133,
    196,155,26,162,81,182,47,45,175,198,1,103,58,235,52,232,83,39,93,243,198,10,104,124,56,122,70,54,173,87,115,185,
    234,226,149,0,127,207,160,143,129,191,142,197,20,146,187,74,125,94,210,81,232,115,231,222,22,3,201,148,131,46,252,27,
    162,129,219,219,55,172,238,84,201,220,192,30,92,241,245,145,53,61,156,138,160,16,169,5,94,96,135,79,203,77,178,192,
    140,248,84,121,25,213,97,246,231,165,79,188,114,136,122,51,27,68,19,40,142,105,38,167,112,25,8,237,229,52,61,98,
    191,117,180,69,42,88,129,202,212,40,175,128,65,5,154,15,40,201,243,20,189,228,198,155,67,148,232,209,214,185,221,94,
    145,12,59,231,4,33,14,104,250,81,32,34,111,124,21,173,6,176,124,182,147,157,73,57,109,237,103,115,248,192,82,252,
    0,0,0,0,150,48,7,119,44,97,14,238,186,81,9,153,25,196,109,7,143,244,106,112,53,165,99,233,163,149,100,158,
    50,136,219,14,164,184,220,121,30,233,213,224,136,217,210,151,43,76,182,9,189,124,177,126,7,45,184,231,145,29,191,144,
    100,16,183,29,242,32,176,106,72,113,185,243,222,65,190,132,125,212,218,26,235,228,221,109,81,181,212,244,199,133,211,131,
    86,152,108,19,192,168,107,100,122,249,98,253,236,201,101,138,79,92,1,20,217,108,6,99,99,61,15,250,245,13,8,141,
    200,32,110,59,94,16,105,76,228,65,96,213,114,113,103,162,209,228,3,60,71,212,4,75,253,133,13,210,107,181,10,165,
    250,168,181,53,108,152,178,66,214,201,187,219,64,249,188,172,227,108,216,50,117,92,223,69,207,13,214,220,89,61,209,171,
    172,48,217,38,58,0,222,81,128,81,215,200,22,97,208,191,181,244,180,33,35,196,179,86,153,149,186,207,15,165,189,184,
    158,184,2,40,8,136,5,95,178,217,12,198,36,233,11,177,135,124,111,47,17,76,104,88,171,29,97,193,61,45,102,182,
    144,65,220,118,6,113,219,1,188,32,210,152,42,16,213,239,137,133,177,113,31,181,182,6,165,228,191,159,51,212,184,232,
    162,201,7,120,52,249,0,15,142,168,9,150,24,152,14,225,187,13,106,127,45,61,109,8,151,108,100,145,1,92,99,230,
    244,81,107,107,98,97,108,28,216,48,101,133,78,0,98,242,237,149,6,108,123,165,1,27,193,244,8,130,87,196,15,245,
    198,217,176,101,80,233,183,18,234,184,190,139,124,136,185,252,223,29,221,98,73,45,218,21,243,124,211,140,101,76,212,251,
    88,97,178,77,206,81,181,58,116,0,188,163,226,48,187,212,65,165,223,74,215,149,216,61,109,196,209,164,251,244,214,211,
    106,233,105,67,252,217,110,52,70,136,103,173,208,184,96,218,115,45,4,68,229,29,3,51,95,76,10,170,201,124,13,221,
    60,113,5,80,170,65,2,39,16,16,11,190,134,32,12,201,37,181,104,87,179,133,111,32,9,212,102,185,159,228,97,206,
    14,249,222,94,152,201,217,41,34,152,208,176,180,168,215,199,23,61,179,89,129,13,180,46,59,92,189,183,173,108,186,192,
    32,131,184,237,182,179,191,154,12,226,182,3,154,210,177,116,57,71,213,234,175,119,210,157,21,38,219,4,131,22,220,115,
    18,11,99,227,132,59,100,148,62,106,109,13,168,90,106,122,11,207,14,228,157,255,9,147,39,174,0,10,177,158,7,125,
    68,147,15,240,210,163,8,135,104,242,1,30,254,194,6,105,93,87,98,247,203,103,101,128,113,54,108,25,231,6,107,110,
    118,27,212,254,224,43,211,137,90,122,218,16,204,74,221,103,111,223,185,249,249,239,190,142,67,190,183,23,213,142,176,96,
    232,163,214,214,126,147,209,161,196,194,216,56,82,242,223,79,241,103,187,209,103,87,188,166,221,6,181,63,75,54,178,72,
    218,43,13,216,76,27,10,175,246,74,3,54,96,122,4,65,195,239,96,223,85,223,103,168,239,142,110,49,121,190,105,70,
    140,179,97,203,26,131,102,188,160,210,111,37,54,226,104,82,149,119,12,204,3,71,11,187,185,22,2,34,47,38,5,85,
    190,59,186,197,40,11,189,178,146,90,180,43,4,106,179,92,167,255,215,194,49,207,208,181,139,158,217,44,29,174,222,91,
    176,194,100,155,38,242,99,236,156,163,106,117,10,147,109,2,169,6,9,156,63,54,14,235,133,103,7,114,19,87,0,5,
    130,74,191,149,20,122,184,226,174,43,177,123,56,27,182,12,155,142,210,146,13,190,213,229,183,239,220,124,33,223,219,11,
    212,210,211,134,66,226,212,241,248,179,221,104,110,131,218,31,205,22,190,129,91,38,185,246,225,119,176,111,119,71,183,24,
    230,90,8,136,112,106,15,255,202,59,6,102,92,11,1,17,255,158,101,143,105,174,98,248,211,255,107,97,69,207,108,22,
    120,226,10,160,238,210,13,215,84,131,4,78,194,179,3,57,97,38,103,167,247,22,96,208,77,71,105,73,219,119,110,62,
    74,106,209,174,220,90,214,217,102,11,223,64,240,59,216,55,83,174,188,169,197,158,187,222,127,207,178,71,233,255,181,48,
    28,242,189,189,138,194,186,202,48,147,179,83,166,163,180,36,5,54,208,186,147,6,215,205,41,87,222,84,191,103,217,35,
    46,122,102,179,184,74,97,196,2,27,104,93,148,43,111,42,55,190,11,180,161,142,12,195,27,223,5,90,141,239,2,45,
    0,0,0,0,65,49,27,25,130,98,54,50,195,83,45,43,4,197,108,100,69,244,119,125,134,167,90,86,199,150,65,79,
    8,138,217,200,73,187,194,209,138,232,239,250,203,217,244,227,12,79,181,172,77,126,174,181,142,45,131,158,207,28,152,135,
    81,18,194,74,16,35,217,83,211,112,244,120,146,65,239,97,85,215,174,46,20,230,181,55,215,181,152,28,150,132,131,5,
    89,152,27,130,24,169,0,155,219,250,45,176,154,203,54,169,93,93,119,230,28,108,108,255,223,63,65,212,158,14,90,205,
    162,36,132,149,227,21,159,140,32,70,178,167,97,119,169,190,166,225,232,241,231,208,243,232,36,131,222,195,101,178,197,218,
    170,174,93,93,235,159,70,68,40,204,107,111,105,253,112,118,174,107,49,57,239,90,42,32,44,9,7,11,109,56,28,18,
    243,54,70,223,178,7,93,198,113,84,112,237,48,101,107,244,247,243,42,187,182,194,49,162,117,145,28,137,52,160,7,144,
    251,188,159,23,186,141,132,14,121,222,169,37,56,239,178,60,255,121,243,115,190,72,232,106,125,27,197,65,60,42,222,88,
    5,79,121,240,68,126,98,233,135,45,79,194,198,28,84,219,1,138,21,148,64,187,14,141,131,232,35,166,194,217,56,191,
    13,197,160,56,76,244,187,33,143,167,150,10,206,150,141,19,9,0,204,92,72,49,215,69,139,98,250,110,202,83,225,119,
    84,93,187,186,21,108,160,163,214,63,141,136,151,14,150,145,80,152,215,222,17,169,204,199,210,250,225,236,147,203,250,245,
    92,215,98,114,29,230,121,107,222,181,84,64,159,132,79,89,88,18,14,22,25,35,21,15,218,112,56,36,155,65,35,61,
    167,107,253,101,230,90,230,124,37,9,203,87,100,56,208,78,163,174,145,1,226,159,138,24,33,204,167,51,96,253,188,42,
    175,225,36,173,238,208,63,180,45,131,18,159,108,178,9,134,171,36,72,201,234,21,83,208,41,70,126,251,104,119,101,226,
    246,121,63,47,183,72,36,54,116,27,9,29,53,42,18,4,242,188,83,75,179,141,72,82,112,222,101,121,49,239,126,96,
    254,243,230,231,191,194,253,254,124,145,208,213,61,160,203,204,250,54,138,131,187,7,145,154,120,84,188,177,57,101,167,168,
    75,152,131,59,10,169,152,34,201,250,181,9,136,203,174,16,79,93,239,95,14,108,244,70,205,63,217,109,140,14,194,116,
    67,18,90,243,2,35,65,234,193,112,108,193,128,65,119,216,71,215,54,151,6,230,45,142,197,181,0,165,132,132,27,188,
    26,138,65,113,91,187,90,104,152,232,119,67,217,217,108,90,30,79,45,21,95,126,54,12,156,45,27,39,221,28,0,62,
    18,0,152,185,83,49,131,160,144,98,174,139,209,83,181,146,22,197,244,221,87,244,239,196,148,167,194,239,213,150,217,246,
    233,188,7,174,168,141,28,183,107,222,49,156,42,239,42,133,237,121,107,202,172,72,112,211,111,27,93,248,46,42,70,225,
    225,54,222,102,160,7,197,127,99,84,232,84,34,101,243,77,229,243,178,2,164,194,169,27,103,145,132,48,38,160,159,41,
    184,174,197,228,249,159,222,253,58,204,243,214,123,253,232,207,188,107,169,128,253,90,178,153,62,9,159,178,127,56,132,171,
    176,36,28,44,241,21,7,53,50,70,42,30,115,119,49,7,180,225,112,72,245,208,107,81,54,131,70,122,119,178,93,99,
    78,215,250,203,15,230,225,210,204,181,204,249,141,132,215,224,74,18,150,175,11,35,141,182,200,112,160,157,137,65,187,132,
    70,93,35,3,7,108,56,26,196,63,21,49,133,14,14,40,66,152,79,103,3,169,84,126,192,250,121,85,129,203,98,76,
    31,197,56,129,94,244,35,152,157,167,14,179,220,150,21,170,27,0,84,229,90,49,79,252,153,98,98,215,216,83,121,206,
    23,79,225,73,86,126,250,80,149,45,215,123,212,28,204,98,19,138,141,45,82,187,150,52,145,232,187,31,208,217,160,6,
    236,243,126,94,173,194,101,71,110,145,72,108,47,160,83,117,232,54,18,58,169,7,9,35,106,84,36,8,43,101,63,17,
    228,121,167,150,165,72,188,143,102,27,145,164,39,42,138,189,224,188,203,242,161,141,208,235,98,222,253,192,35,239,230,217,
    189,225,188,20,252,208,167,13,63,131,138,38,126,178,145,63,185,36,208,112,248,21,203,105,59,70,230,66,122,119,253,91,
    181,107,101,220,244,90,126,197,55,9,83,238,118,56,72,247,177,174,9,184,240,159,18,161,51,204,63,138,114,253,36,147,
    0,0,0,0,55,106,194,1,110,212,132,3,89,190,70,2,220,168,9,7,235,194,203,6,178,124,141,4,133,22,79,5,
    184,81,19,14,143,59,209,15,214,133,151,13,225,239,85,12,100,249,26,9,83,147,216,8,10,45,158,10,61,71,92,11,
    112,163,38,28,71,201,228,29,30,119,162,31,41,29,96,30,172,11,47,27,155,97,237,26,194,223,171,24,245,181,105,25,
    200,242,53,18,255,152,247,19,166,38,177,17,145,76,115,16,20,90,60,21,35,48,254,20,122,142,184,22,77,228,122,23,
    224,70,77,56,215,44,143,57,142,146,201,59,185,248,11,58,60,238,68,63,11,132,134,62,82,58,192,60,101,80,2,61,
    88,23,94,54,111,125,156,55,54,195,218,53,1,169,24,52,132,191,87,49,179,213,149,48,234,107,211,50,221,1,17,51,
    144,229,107,36,167,143,169,37,254,49,239,39,201,91,45,38,76,77,98,35,123,39,160,34,34,153,230,32,21,243,36,33,
    40,180,120,42,31,222,186,43,70,96,252,41,113,10,62,40,244,28,113,45,195,118,179,44,154,200,245,46,173,162,55,47,
    192,141,154,112,247,231,88,113,174,89,30,115,153,51,220,114,28,37,147,119,43,79,81,118,114,241,23,116,69,155,213,117,
    120,220,137,126,79,182,75,127,22,8,13,125,33,98,207,124,164,116,128,121,147,30,66,120,202,160,4,122,253,202,198,123,
    176,46,188,108,135,68,126,109,222,250,56,111,233,144,250,110,108,134,181,107,91,236,119,106,2,82,49,104,53,56,243,105,
    8,127,175,98,63,21,109,99,102,171,43,97,81,193,233,96,212,215,166,101,227,189,100,100,186,3,34,102,141,105,224,103,
    32,203,215,72,23,161,21,73,78,31,83,75,121,117,145,74,252,99,222,79,203,9,28,78,146,183,90,76,165,221,152,77,
    152,154,196,70,175,240,6,71,246,78,64,69,193,36,130,68,68,50,205,65,115,88,15,64,42,230,73,66,29,140,139,67,
    80,104,241,84,103,2,51,85,62,188,117,87,9,214,183,86,140,192,248,83,187,170,58,82,226,20,124,80,213,126,190,81,
    232,57,226,90,223,83,32,91,134,237,102,89,177,135,164,88,52,145,235,93,3,251,41,92,90,69,111,94,109,47,173,95,
    128,27,53,225,183,113,247,224,238,207,177,226,217,165,115,227,92,179,60,230,107,217,254,231,50,103,184,229,5,13,122,228,
    56,74,38,239,15,32,228,238,86,158,162,236,97,244,96,237,228,226,47,232,211,136,237,233,138,54,171,235,189,92,105,234,
    240,184,19,253,199,210,209,252,158,108,151,254,169,6,85,255,44,16,26,250,27,122,216,251,66,196,158,249,117,174,92,248,
    72,233,0,243,127,131,194,242,38,61,132,240,17,87,70,241,148,65,9,244,163,43,203,245,250,149,141,247,205,255,79,246,
    96,93,120,217,87,55,186,216,14,137,252,218,57,227,62,219,188,245,113,222,139,159,179,223,210,33,245,221,229,75,55,220,
    216,12,107,215,239,102,169,214,182,216,239,212,129,178,45,213,4,164,98,208,51,206,160,209,106,112,230,211,93,26,36,210,
    16,254,94,197,39,148,156,196,126,42,218,198,73,64,24,199,204,86,87,194,251,60,149,195,162,130,211,193,149,232,17,192,
    168,175,77,203,159,197,143,202,198,123,201,200,241,17,11,201,116,7,68,204,67,109,134,205,26,211,192,207,45,185,2,206,
    64,150,175,145,119,252,109,144,46,66,43,146,25,40,233,147,156,62,166,150,171,84,100,151,242,234,34,149,197,128,224,148,
    248,199,188,159,207,173,126,158,150,19,56,156,161,121,250,157,36,111,181,152,19,5,119,153,74,187,49,155,125,209,243,154,
    48,53,137,141,7,95,75,140,94,225,13,142,105,139,207,143,236,157,128,138,219,247,66,139,130,73,4,137,181,35,198,136,
    136,100,154,131,191,14,88,130,230,176,30,128,209,218,220,129,84,204,147,132,99,166,81,133,58,24,23,135,13,114,213,134,
    160,208,226,169,151,186,32,168,206,4,102,170,249,110,164,171,124,120,235,174,75,18,41,175,18,172,111,173,37,198,173,172,
    24,129,241,167,47,235,51,166,118,85,117,164,65,63,183,165,196,41,248,160,243,67,58,161,170,253,124,163,157,151,190,162,
    208,115,196,181,231,25,6,180,190,167,64,182,137,205,130,183,12,219,205,178,59,177,15,179,98,15,73,177,85,101,139,176,
    104,34,215,187,95,72,21,186,6,246,83,184,49,156,145,185,180,138,222,188,131,224,28,189,218,94,90,191,237,52,152,190,
    0,0,0,0,101,103,188,184,139,200,9,170,238,175,181,18,87,151,98,143,50,240,222,55,220,95,107,37,185,56,215,157,
    239,40,180,197,138,79,8,125,100,224,189,111,1,135,1,215,184,191,214,74,221,216,106,242,51,119,223,224,86,16,99,88,
    159,87,25,80,250,48,165,232,20,159,16,250,113,248,172,66,200,192,123,223,173,167,199,103,67,8,114,117,38,111,206,205,
    112,127,173,149,21,24,17,45,251,183,164,63,158,208,24,135,39,232,207,26,66,143,115,162,172,32,198,176,201,71,122,8,
    62,175,50,160,91,200,142,24,181,103,59,10,208,0,135,178,105,56,80,47,12,95,236,151,226,240,89,133,135,151,229,61,
    209,135,134,101,180,224,58,221,90,79,143,207,63,40,51,119,134,16,228,234,227,119,88,82,13,216,237,64,104,191,81,248,
    161,248,43,240,196,159,151,72,42,48,34,90,79,87,158,226,246,111,73,127,147,8,245,199,125,167,64,213,24,192,252,109,
    78,208,159,53,43,183,35,141,197,24,150,159,160,127,42,39,25,71,253,186,124,32,65,2,146,143,244,16,247,232,72,168,
    61,88,20,155,88,63,168,35,182,144,29,49,211,247,161,137,106,207,118,20,15,168,202,172,225,7,127,190,132,96,195,6,
    210,112,160,94,183,23,28,230,89,184,169,244,60,223,21,76,133,231,194,209,224,128,126,105,14,47,203,123,107,72,119,195,
    162,15,13,203,199,104,177,115,41,199,4,97,76,160,184,217,245,152,111,68,144,255,211,252,126,80,102,238,27,55,218,86,
    77,39,185,14,40,64,5,182,198,239,176,164,163,136,12,28,26,176,219,129,127,215,103,57,145,120,210,43,244,31,110,147,
    3,247,38,59,102,144,154,131,136,63,47,145,237,88,147,41,84,96,68,180,49,7,248,12,223,168,77,30,186,207,241,166,
    236,223,146,254,137,184,46,70,103,23,155,84,2,112,39,236,187,72,240,113,222,47,76,201,48,128,249,219,85,231,69,99,
    156,160,63,107,249,199,131,211,23,104,54,193,114,15,138,121,203,55,93,228,174,80,225,92,64,255,84,78,37,152,232,246,
    115,136,139,174,22,239,55,22,248,64,130,4,157,39,62,188,36,31,233,33,65,120,85,153,175,215,224,139,202,176,92,51,
    59,182,89,237,94,209,229,85,176,126,80,71,213,25,236,255,108,33,59,98,9,70,135,218,231,233,50,200,130,142,142,112,
    212,158,237,40,177,249,81,144,95,86,228,130,58,49,88,58,131,9,143,167,230,110,51,31,8,193,134,13,109,166,58,181,
    164,225,64,189,193,134,252,5,47,41,73,23,74,78,245,175,243,118,34,50,150,17,158,138,120,190,43,152,29,217,151,32,
    75,201,244,120,46,174,72,192,192,1,253,210,165,102,65,106,28,94,150,247,121,57,42,79,151,150,159,93,242,241,35,229,
    5,25,107,77,96,126,215,245,142,209,98,231,235,182,222,95,82,142,9,194,55,233,181,122,217,70,0,104,188,33,188,208,
    234,49,223,136,143,86,99,48,97,249,214,34,4,158,106,154,189,166,189,7,216,193,1,191,54,110,180,173,83,9,8,21,
    154,78,114,29,255,41,206,165,17,134,123,183,116,225,199,15,205,217,16,146,168,190,172,42,70,17,25,56,35,118,165,128,
    117,102,198,216,16,1,122,96,254,174,207,114,155,201,115,202,34,241,164,87,71,150,24,239,169,57,173,253,204,94,17,69,
    6,238,77,118,99,137,241,206,141,38,68,220,232,65,248,100,81,121,47,249,52,30,147,65,218,177,38,83,191,214,154,235,
    233,198,249,179,140,161,69,11,98,14,240,25,7,105,76,161,190,81,155,60,219,54,39,132,53,153,146,150,80,254,46,46,
    153,185,84,38,252,222,232,158,18,113,93,140,119,22,225,52,206,46,54,169,171,73,138,17,69,230,63,3,32,129,131,187,
    118,145,224,227,19,246,92,91,253,89,233,73,152,62,85,241,33,6,130,108,68,97,62,212,170,206,139,198,207,169,55,126,
    56,65,127,214,93,38,195,110,179,137,118,124,214,238,202,196,111,214,29,89,10,177,161,225,228,30,20,243,129,121,168,75,
    215,105,203,19,178,14,119,171,92,161,194,185,57,198,126,1,128,254,169,156,229,153,21,36,11,54,160,54,110,81,28,142,
    167,22,102,134,194,113,218,62,44,222,111,44,73,185,211,148,240,129,4,9,149,230,184,177,123,73,13,163,30,46,177,27,
    72,62,210,67,45,89,110,251,195,246,219,233,166,145,103,81,31,169,176,204,122,206,12,116,148,97,185,102,241,6,5,222,
    0,0,0,0,176,41,96,61,96,83,192,122,208,122,160,71,192,166,128,245,112,143,224,200,160,245,64,143,16,220,32,178,
    193,75,112,48,113,98,16,13,161,24,176,74,17,49,208,119,1,237,240,197,177,196,144,248,97,190,48,191,209,151,80,130,
    130,151,224,96,50,190,128,93,226,196,32,26,82,237,64,39,66,49,96,149,242,24,0,168,34,98,160,239,146,75,192,210,
    67,220,144,80,243,245,240,109,35,143,80,42,147,166,48,23,131,122,16,165,51,83,112,152,227,41,208,223,83,0,176,226,
    4,47,193,193,180,6,161,252,100,124,1,187,212,85,97,134,196,137,65,52,116,160,33,9,164,218,129,78,20,243,225,115,
    197,100,177,241,117,77,209,204,165,55,113,139,21,30,17,182,5,194,49,4,181,235,81,57,101,145,241,126,213,184,145,67,
    134,184,33,161,54,145,65,156,230,235,225,219,86,194,129,230,70,30,161,84,246,55,193,105,38,77,97,46,150,100,1,19,
    71,243,81,145,247,218,49,172,39,160,145,235,151,137,241,214,135,85,209,100,55,124,177,89,231,6,17,30,87,47,113,35,
    73,88,243,88,249,113,147,101,41,11,51,34,153,34,83,31,137,254,115,173,57,215,19,144,233,173,179,215,89,132,211,234,
    136,19,131,104,56,58,227,85,232,64,67,18,88,105,35,47,72,181,3,157,248,156,99,160,40,230,195,231,152,207,163,218,
    203,207,19,56,123,230,115,5,171,156,211,66,27,181,179,127,11,105,147,205,187,64,243,240,107,58,83,183,219,19,51,138,
    10,132,99,8,186,173,3,53,106,215,163,114,218,254,195,79,202,34,227,253,122,11,131,192,170,113,35,135,26,88,67,186,
    77,119,50,153,253,94,82,164,45,36,242,227,157,13,146,222,141,209,178,108,61,248,210,81,237,130,114,22,93,171,18,43,
    140,60,66,169,60,21,34,148,236,111,130,211,92,70,226,238,76,154,194,92,252,179,162,97,44,201,2,38,156,224,98,27,
    207,224,210,249,127,201,178,196,175,179,18,131,31,154,114,190,15,70,82,12,191,111,50,49,111,21,146,118,223,60,242,75,
    14,171,162,201,190,130,194,244,110,248,98,179,222,209,2,142,206,13,34,60,126,36,66,1,174,94,226,70,30,119,130,123,
    146,176,230,177,34,153,134,140,242,227,38,203,66,202,70,246,82,22,102,68,226,63,6,121,50,69,166,62,130,108,198,3,
    83,251,150,129,227,210,246,188,51,168,86,251,131,129,54,198,147,93,22,116,35,116,118,73,243,14,214,14,67,39,182,51,
    16,39,6,209,160,14,102,236,112,116,198,171,192,93,166,150,208,129,134,36,96,168,230,25,176,210,70,94,0,251,38,99,
    209,108,118,225,97,69,22,220,177,63,182,155,1,22,214,166,17,202,246,20,161,227,150,41,113,153,54,110,193,176,86,83,
    150,159,39,112,38,182,71,77,246,204,231,10,70,229,135,55,86,57,167,133,230,16,199,184,54,106,103,255,134,67,7,194,
    87,212,87,64,231,253,55,125,55,135,151,58,135,174,247,7,151,114,215,181,39,91,183,136,247,33,23,207,71,8,119,242,
    20,8,199,16,164,33,167,45,116,91,7,106,196,114,103,87,212,174,71,229,100,135,39,216,180,253,135,159,4,212,231,162,
    213,67,183,32,101,106,215,29,181,16,119,90,5,57,23,103,21,229,55,213,165,204,87,232,117,182,247,175,197,159,151,146,
    219,232,21,233,107,193,117,212,187,187,213,147,11,146,181,174,27,78,149,28,171,103,245,33,123,29,85,102,203,52,53,91,
    26,163,101,217,170,138,5,228,122,240,165,163,202,217,197,158,218,5,229,44,106,44,133,17,186,86,37,86,10,127,69,107,
    89,127,245,137,233,86,149,180,57,44,53,243,137,5,85,206,153,217,117,124,41,240,21,65,249,138,181,6,73,163,213,59,
    152,52,133,185,40,29,229,132,248,103,69,195,72,78,37,254,88,146,5,76,232,187,101,113,56,193,197,54,136,232,165,11,
    223,199,212,40,111,238,180,21,191,148,20,82,15,189,116,111,31,97,84,221,175,72,52,224,127,50,148,167,207,27,244,154,
    30,140,164,24,174,165,196,37,126,223,100,98,206,246,4,95,222,42,36,237,110,3,68,208,190,121,228,151,14,80,132,170,
    93,80,52,72,237,121,84,117,61,3,244,50,141,42,148,15,157,246,180,189,45,223,212,128,253,165,116,199,77,140,20,250,
    156,27,68,120,44,50,36,69,252,72,132,2,76,97,228,63,92,189,196,141,236,148,164,176,60,238,4,247,140,199,100,202,
    0,0,0,0,165,211,92,203,11,161,200,77,174,114,148,134,22,66,145,155,179,145,205,80,29,227,89,214,184,48,5,29,
    109,130,83,236,200,81,15,39,102,35,155,161,195,240,199,106,123,192,194,119,222,19,158,188,112,97,10,58,213,178,86,241,
    155,2,214,3,62,209,138,200,144,163,30,78,53,112,66,133,141,64,71,152,40,147,27,83,134,225,143,213,35,50,211,30,
    246,128,133,239,83,83,217,36,253,33,77,162,88,242,17,105,224,194,20,116,69,17,72,191,235,99,220,57,78,176,128,242,
    54,5,172,7,147,214,240,204,61,164,100,74,152,119,56,129,32,71,61,156,133,148,97,87,43,230,245,209,142,53,169,26,
    91,135,255,235,254,84,163,32,80,38,55,166,245,245,107,109,77,197,110,112,232,22,50,187,70,100,166,61,227,183,250,246,
    173,7,122,4,8,212,38,207,166,166,178,73,3,117,238,130,187,69,235,159,30,150,183,84,176,228,35,210,21,55,127,25,
    192,133,41,232,101,86,117,35,203,36,225,165,110,247,189,110,214,199,184,115,115,20,228,184,221,102,112,62,120,181,44,245,
    108,10,88,15,201,217,4,196,103,171,144,66,194,120,204,137,122,72,201,148,223,155,149,95,113,233,1,217,212,58,93,18,
    1,136,11,227,164,91,87,40,10,41,195,174,175,250,159,101,23,202,154,120,178,25,198,179,28,107,82,53,185,184,14,254,
    247,8,142,12,82,219,210,199,252,169,70,65,89,122,26,138,225,74,31,151,68,153,67,92,234,235,215,218,79,56,139,17,
    154,138,221,224,63,89,129,43,145,43,21,173,52,248,73,102,140,200,76,123,41,27,16,176,135,105,132,54,34,186,216,253,
    90,15,244,8,255,220,168,195,81,174,60,69,244,125,96,142,76,77,101,147,233,158,57,88,71,236,173,222,226,63,241,21,
    55,141,167,228,146,94,251,47,60,44,111,169,153,255,51,98,33,207,54,127,132,28,106,180,42,110,254,50,143,189,162,249,
    193,13,34,11,100,222,126,192,202,172,234,70,111,127,182,141,215,79,179,144,114,156,239,91,220,238,123,221,121,61,39,22,
    172,143,113,231,9,92,45,44,167,46,185,170,2,253,229,97,186,205,224,124,31,30,188,183,177,108,40,49,20,191,116,250,
    216,20,176,30,125,199,236,213,211,181,120,83,118,102,36,152,206,86,33,133,107,133,125,78,197,247,233,200,96,36,181,3,
    181,150,227,242,16,69,191,57,190,55,43,191,27,228,119,116,163,212,114,105,6,7,46,162,168,117,186,36,13,166,230,239,
    67,22,102,29,230,197,58,214,72,183,174,80,237,100,242,155,85,84,247,134,240,135,171,77,94,245,63,203,251,38,99,0,
    46,148,53,241,139,71,105,58,37,53,253,188,128,230,161,119,56,214,164,106,157,5,248,161,51,119,108,39,150,164,48,236,
    238,17,28,25,75,194,64,210,229,176,212,84,64,99,136,159,248,83,141,130,93,128,209,73,243,242,69,207,86,33,25,4,
    131,147,79,245,38,64,19,62,136,50,135,184,45,225,219,115,149,209,222,110,48,2,130,165,158,112,22,35,59,163,74,232,
    117,19,202,26,208,192,150,209,126,178,2,87,219,97,94,156,99,81,91,129,198,130,7,74,104,240,147,204,205,35,207,7,
    24,145,153,246,189,66,197,61,19,48,81,187,182,227,13,112,14,211,8,109,171,0,84,166,5,114,192,32,160,161,156,235,
    180,30,232,17,17,205,180,218,191,191,32,92,26,108,124,151,162,92,121,138,7,143,37,65,169,253,177,199,12,46,237,12,
    217,156,187,253,124,79,231,54,210,61,115,176,119,238,47,123,207,222,42,102,106,13,118,173,196,127,226,43,97,172,190,224,
    47,28,62,18,138,207,98,217,36,189,246,95,129,110,170,148,57,94,175,137,156,141,243,66,50,255,103,196,151,44,59,15,
    66,158,109,254,231,77,49,53,73,63,165,179,236,236,249,120,84,220,252,101,241,15,160,174,95,125,52,40,250,174,104,227,
    130,27,68,22,39,200,24,221,137,186,140,91,44,105,208,144,148,89,213,141,49,138,137,70,159,248,29,192,58,43,65,11,
    239,153,23,250,74,74,75,49,228,56,223,183,65,235,131,124,249,219,134,97,92,8,218,170,242,122,78,44,87,169,18,231,
    25,25,146,21,188,202,206,222,18,184,90,88,183,107,6,147,15,91,3,142,170,136,95,69,4,250,203,195,161,41,151,8,
    116,155,193,249,209,72,157,50,127,58,9,180,218,233,85,127,98,217,80,98,199,10,12,169,105,120,152,47,204,171,196,228,
    0,0,0,0,180,11,119,166,41,17,159,151,157,26,232,49,19,36,79,244,167,47,56,82,58,53,208,99,142,62,167,197,
    103,78,239,51,211,69,152,149,78,95,112,164,250,84,7,2,116,106,160,199,192,97,215,97,93,123,63,80,233,112,72,246,
    206,156,222,103,122,151,169,193,231,141,65,240,83,134,54,86,221,184,145,147,105,179,230,53,244,169,14,4,64,162,121,162,
    169,210,49,84,29,217,70,242,128,195,174,195,52,200,217,101,186,246,126,160,14,253,9,6,147,231,225,55,39,236,150,145,
    156,57,189,207,40,50,202,105,181,40,34,88,1,35,85,254,143,29,242,59,59,22,133,157,166,12,109,172,18,7,26,10,
    251,119,82,252,79,124,37,90,210,102,205,107,102,109,186,205,232,83,29,8,92,88,106,174,193,66,130,159,117,73,245,57,
    82,165,99,168,230,174,20,14,123,180,252,63,207,191,139,153,65,129,44,92,245,138,91,250,104,144,179,203,220,155,196,109,
    53,235,140,155,129,224,251,61,28,250,19,12,168,241,100,170,38,207,195,111,146,196,180,201,15,222,92,248,187,213,43,94,
    121,117,11,68,205,126,124,226,80,100,148,211,228,111,227,117,106,81,68,176,222,90,51,22,67,64,219,39,247,75,172,129,
    30,59,228,119,170,48,147,209,55,42,123,224,131,33,12,70,13,31,171,131,185,20,220,37,36,14,52,20,144,5,67,178,
    183,233,213,35,3,226,162,133,158,248,74,180,42,243,61,18,164,205,154,215,16,198,237,113,141,220,5,64,57,215,114,230,
    208,167,58,16,100,172,77,182,249,182,165,135,77,189,210,33,195,131,117,228,119,136,2,66,234,146,234,115,94,153,157,213,
    229,76,182,139,81,71,193,45,204,93,41,28,120,86,94,186,246,104,249,127,66,99,142,217,223,121,102,232,107,114,17,78,
    130,2,89,184,54,9,46,30,171,19,198,47,31,24,177,137,145,38,22,76,37,45,97,234,184,55,137,219,12,60,254,125,
    43,208,104,236,159,219,31,74,2,193,247,123,182,202,128,221,56,244,39,24,140,255,80,190,17,229,184,143,165,238,207,41,
    76,158,135,223,248,149,240,121,101,143,24,72,209,132,111,238,95,186,200,43,235,177,191,141,118,171,87,188,194,160,32,26,
    242,234,22,136,70,225,97,46,219,251,137,31,111,240,254,185,225,206,89,124,85,197,46,218,200,223,198,235,124,212,177,77,
    149,164,249,187,33,175,142,29,188,181,102,44,8,190,17,138,134,128,182,79,50,139,193,233,175,145,41,216,27,154,94,126,
    60,118,200,239,136,125,191,73,21,103,87,120,161,108,32,222,47,82,135,27,155,89,240,189,6,67,24,140,178,72,111,42,
    91,56,39,220,239,51,80,122,114,41,184,75,198,34,207,237,72,28,104,40,252,23,31,142,97,13,247,191,213,6,128,25,
    110,211,171,71,218,216,220,225,71,194,52,208,243,201,67,118,125,247,228,179,201,252,147,21,84,230,123,36,224,237,12,130,
    9,157,68,116,189,150,51,210,32,140,219,227,148,135,172,69,26,185,11,128,174,178,124,38,51,168,148,23,135,163,227,177,
    160,79,117,32,20,68,2,134,137,94,234,183,61,85,157,17,179,107,58,212,7,96,77,114,154,122,165,67,46,113,210,229,
    199,1,154,19,115,10,237,181,238,16,5,132,90,27,114,34,212,37,213,231,96,46,162,65,253,52,74,112,73,63,61,214,
    139,159,29,204,63,148,106,106,162,142,130,91,22,133,245,253,152,187,82,56,44,176,37,158,177,170,205,175,5,161,186,9,
    236,209,242,255,88,218,133,89,197,192,109,104,113,203,26,206,255,245,189,11,75,254,202,173,214,228,34,156,98,239,85,58,
    69,3,195,171,241,8,180,13,108,18,92,60,216,25,43,154,86,39,140,95,226,44,251,249,127,54,19,200,203,61,100,110,
    34,77,44,152,150,70,91,62,11,92,179,15,191,87,196,169,49,105,99,108,133,98,20,202,24,120,252,251,172,115,139,93,
    23,166,160,3,163,173,215,165,62,183,63,148,138,188,72,50,4,130,239,247,176,137,152,81,45,147,112,96,153,152,7,198,
    112,232,79,48,196,227,56,150,89,249,208,167,237,242,167,1,99,204,0,196,215,199,119,98,74,221,159,83,254,214,232,245,
    217,58,126,100,109,49,9,194,240,43,225,243,68,32,150,85,202,30,49,144,126,21,70,54,227,15,174,7,87,4,217,161,
    190,116,145,87,10,127,230,241,151,101,14,192,35,110,121,102,173,80,222,163,25,91,169,5,132,65,65,52,48,74,54,146,
    0,0,0,0,158,0,170,204,125,7,37,66,227,7,143,142,250,14,74,132,100,14,224,72,135,9,111,198,25,9,197,10,
    181,27,229,211,43,27,79,31,200,28,192,145,86,28,106,93,79,21,175,87,209,21,5,155,50,18,138,21,172,18,32,217,
    43,49,187,124,181,49,17,176,86,54,158,62,200,54,52,242,209,63,241,248,79,63,91,52,172,56,212,186,50,56,126,118,
    158,42,94,175,0,42,244,99,227,45,123,237,125,45,209,33,100,36,20,43,250,36,190,231,25,35,49,105,135,35,155,165,
    86,98,118,249,200,98,220,53,43,101,83,187,181,101,249,119,172,108,60,125,50,108,150,177,209,107,25,63,79,107,179,243,
    227,121,147,42,125,121,57,230,158,126,182,104,0,126,28,164,25,119,217,174,135,119,115,98,100,112,252,236,250,112,86,32,
    125,83,205,133,227,83,103,73,0,84,232,199,158,84,66,11,135,93,135,1,25,93,45,205,250,90,162,67,100,90,8,143,
    200,72,40,86,86,72,130,154,181,79,13,20,43,79,167,216,50,70,98,210,172,70,200,30,79,65,71,144,209,65,237,92,
    237,194,157,41,115,194,55,229,144,197,184,107,14,197,18,167,23,204,215,173,137,204,125,97,106,203,242,239,244,203,88,35,
    88,217,120,250,198,217,210,54,37,222,93,184,187,222,247,116,162,215,50,126,60,215,152,178,223,208,23,60,65,208,189,240,
    198,243,38,85,88,243,140,153,187,244,3,23,37,244,169,219,60,253,108,209,162,253,198,29,65,250,73,147,223,250,227,95,
    115,232,195,134,237,232,105,74,14,239,230,196,144,239,76,8,137,230,137,2,23,230,35,206,244,225,172,64,106,225,6,140,
    187,160,235,208,37,160,65,28,198,167,206,146,88,167,100,94,65,174,161,84,223,174,11,152,60,169,132,22,162,169,46,218,
    14,187,14,3,144,187,164,207,115,188,43,65,237,188,129,141,244,181,68,135,106,181,238,75,137,178,97,197,23,178,203,9,
    144,145,80,172,14,145,250,96,237,150,117,238,115,150,223,34,106,159,26,40,244,159,176,228,23,152,63,106,137,152,149,166,
    37,138,181,127,187,138,31,179,88,141,144,61,198,141,58,241,223,132,255,251,65,132,85,55,162,131,218,185,60,131,112,117,
    218,133,59,83,68,133,145,159,167,130,30,17,57,130,180,221,32,139,113,215,190,139,219,27,93,140,84,149,195,140,254,89,
    111,158,222,128,241,158,116,76,18,153,251,194,140,153,81,14,149,144,148,4,11,144,62,200,232,151,177,70,118,151,27,138,
    241,180,128,47,111,180,42,227,140,179,165,109,18,179,15,161,11,186,202,171,149,186,96,103,118,189,239,233,232,189,69,37,
    68,175,101,252,218,175,207,48,57,168,64,190,167,168,234,114,190,161,47,120,32,161,133,180,195,166,10,58,93,166,160,246,
    140,231,77,170,18,231,231,102,241,224,104,232,111,224,194,36,118,233,7,46,232,233,173,226,11,238,34,108,149,238,136,160,
    57,252,168,121,167,252,2,181,68,251,141,59,218,251,39,247,195,242,226,253,93,242,72,49,190,245,199,191,32,245,109,115,
    167,214,246,214,57,214,92,26,218,209,211,148,68,209,121,88,93,216,188,82,195,216,22,158,32,223,153,16,190,223,51,220,
    18,205,19,5,140,205,185,201,111,202,54,71,241,202,156,139,232,195,89,129,118,195,243,77,149,196,124,195,11,196,214,15,
    55,71,166,122,169,71,12,182,74,64,131,56,212,64,41,244,205,73,236,254,83,73,70,50,176,78,201,188,46,78,99,112,
    130,92,67,169,28,92,233,101,255,91,102,235,97,91,204,39,120,82,9,45,230,82,163,225,5,85,44,111,155,85,134,163,
    28,118,29,6,130,118,183,202,97,113,56,68,255,113,146,136,230,120,87,130,120,120,253,78,155,127,114,192,5,127,216,12,
    169,109,248,213,55,109,82,25,212,106,221,151,74,106,119,91,83,99,178,81,205,99,24,157,46,100,151,19,176,100,61,223,
    97,37,208,131,255,37,122,79,28,34,245,193,130,34,95,13,155,43,154,7,5,43,48,203,230,44,191,69,120,44,21,137,
    212,62,53,80,74,62,159,156,169,57,16,18,55,57,186,222,46,48,127,212,176,48,213,24,83,55,90,150,205,55,240,90,
    74,20,107,255,212,20,193,51,55,19,78,189,169,19,228,113,176,26,33,123,46,26,139,183,205,29,4,57,83,29,174,245,
    255,15,142,44,97,15,36,224,130,8,171,110,28,8,1,162,5,1,196,168,155,1,110,100,120,6,225,234,230,6,75,38,
    0,0,0,0,67,20,123,23,134,40,246,46,197,60,141,57,12,81,236,93,79,69,151,74,138,121,26,115,201,109,97,100,
    24,162,216,187,91,182,163,172,158,138,46,149,221,158,85,130,20,243,52,230,87,231,79,241,146,219,194,200,209,207,185,223,
    113,66,192,172,50,86,187,187,247,106,54,130,180,126,77,149,125,19,44,241,62,7,87,230,251,59,218,223,184,47,161,200,
    105,224,24,23,42,244,99,0,239,200,238,57,172,220,149,46,101,177,244,74,38,165,143,93,227,153,2,100,160,141,121,115,
    163,130,241,130,224,150,138,149,37,170,7,172,102,190,124,187,175,211,29,223,236,199,102,200,41,251,235,241,106,239,144,230,
    187,32,41,57,248,52,82,46,61,8,223,23,126,28,164,0,183,113,197,100,244,101,190,115,49,89,51,74,114,77,72,93,
    210,192,49,46,145,212,74,57,84,232,199,0,23,252,188,23,222,145,221,115,157,133,166,100,88,185,43,93,27,173,80,74,
    202,98,233,149,137,118,146,130,76,74,31,187,15,94,100,172,198,51,5,200,133,39,126,223,64,27,243,230,3,15,136,241,
    7,3,146,222,68,23,233,201,129,43,100,240,194,63,31,231,11,82,126,131,72,70,5,148,141,122,136,173,206,110,243,186,
    31,161,74,101,92,181,49,114,153,137,188,75,218,157,199,92,19,240,166,56,80,228,221,47,149,216,80,22,214,204,43,1,
    118,65,82,114,53,85,41,101,240,105,164,92,179,125,223,75,122,16,190,47,57,4,197,56,252,56,72,1,191,44,51,22,
    110,227,138,201,45,247,241,222,232,203,124,231,171,223,7,240,98,178,102,148,33,166,29,131,228,154,144,186,167,142,235,173,
    164,129,99,92,231,149,24,75,34,169,149,114,97,189,238,101,168,208,143,1,235,196,244,22,46,248,121,47,109,236,2,56,
    188,35,187,231,255,55,192,240,58,11,77,201,121,31,54,222,176,114,87,186,243,102,44,173,54,90,161,148,117,78,218,131,
    213,195,163,240,150,215,216,231,83,235,85,222,16,255,46,201,217,146,79,173,154,134,52,186,95,186,185,131,28,174,194,148,
    205,97,123,75,142,117,0,92,75,73,141,101,8,93,246,114,193,48,151,22,130,36,236,1,71,24,97,56,4,12,26,47,
    79,0,85,102,12,20,46,113,201,40,163,72,138,60,216,95,67,81,185,59,0,69,194,44,197,121,79,21,134,109,52,2,
    87,162,141,221,20,182,246,202,209,138,123,243,146,158,0,228,91,243,97,128,24,231,26,151,221,219,151,174,158,207,236,185,
    62,66,149,202,125,86,238,221,184,106,99,228,251,126,24,243,50,19,121,151,113,7,2,128,180,59,143,185,247,47,244,174,
    38,224,77,113,101,244,54,102,160,200,187,95,227,220,192,72,42,177,161,44,105,165,218,59,172,153,87,2,239,141,44,21,
    236,130,164,228,175,150,223,243,106,170,82,202,41,190,41,221,224,211,72,185,163,199,51,174,102,251,190,151,37,239,197,128,
    244,32,124,95,183,52,7,72,114,8,138,113,49,28,241,102,248,113,144,2,187,101,235,21,126,89,102,44,61,77,29,59,
    157,192,100,72,222,212,31,95,27,232,146,102,88,252,233,113,145,145,136,21,210,133,243,2,23,185,126,59,84,173,5,44,
    133,98,188,243,198,118,199,228,3,74,74,221,64,94,49,202,137,51,80,174,202,39,43,185,15,27,166,128,76,15,221,151,
    72,3,199,184,11,23,188,175,206,43,49,150,141,63,74,129,68,82,43,229,7,70,80,242,194,122,221,203,129,110,166,220,
    80,161,31,3,19,181,100,20,214,137,233,45,149,157,146,58,92,240,243,94,31,228,136,73,218,216,5,112,153,204,126,103,
    57,65,7,20,122,85,124,3,191,105,241,58,252,125,138,45,53,16,235,73,118,4,144,94,179,56,29,103,240,44,102,112,
    33,227,223,175,98,247,164,184,167,203,41,129,228,223,82,150,45,178,51,242,110,166,72,229,171,154,197,220,232,142,190,203,
    235,129,54,58,168,149,77,45,109,169,192,20,46,189,187,3,231,208,218,103,164,196,161,112,97,248,44,73,34,236,87,94,
    243,35,238,129,176,55,149,150,117,11,24,175,54,31,99,184,255,114,2,220,188,102,121,203,121,90,244,242,58,78,143,229,
    154,195,246,150,217,215,141,129,28,235,0,184,95,255,123,175,150,146,26,203,213,134,97,220,16,186,236,229,83,174,151,242,
    130,97,46,45,193,117,85,58,4,73,216,3,71,93,163,20,142,48,194,112,205,36,185,103,8,24,52,94,75,12,79,73,
    0,0,0,0,62,107,194,239,61,208,245,4,3,187,55,235,122,160,235,9,68,203,41,230,71,112,30,13,121,27,220,226,
    244,64,215,19,202,43,21,252,201,144,34,23,247,251,224,248,142,224,60,26,176,139,254,245,179,48,201,30,141,91,11,241,
    232,129,174,39,214,234,108,200,213,81,91,35,235,58,153,204,146,33,69,46,172,74,135,193,175,241,176,42,145,154,114,197,
    28,193,121,52,34,170,187,219,33,17,140,48,31,122,78,223,102,97,146,61,88,10,80,210,91,177,103,57,101,218,165,214,
    208,3,93,79,238,104,159,160,237,211,168,75,211,184,106,164,170,163,182,70,148,200,116,169,151,115,67,66,169,24,129,173,
    36,67,138,92,26,40,72,179,25,147,127,88,39,248,189,183,94,227,97,85,96,136,163,186,99,51,148,81,93,88,86,190,
    56,130,243,104,6,233,49,135,5,82,6,108,59,57,196,131,66,34,24,97,124,73,218,142,127,242,237,101,65,153,47,138,
    204,194,36,123,242,169,230,148,241,18,209,127,207,121,19,144,182,98,207,114,136,9,13,157,139,178,58,118,181,217,248,153,
    160,7,186,158,158,108,120,113,157,215,79,154,163,188,141,117,218,167,81,151,228,204,147,120,231,119,164,147,217,28,102,124,
    84,71,109,141,106,44,175,98,105,151,152,137,87,252,90,102,46,231,134,132,16,140,68,107,19,55,115,128,45,92,177,111,
    72,134,20,185,118,237,214,86,117,86,225,189,75,61,35,82,50,38,255,176,12,77,61,95,15,246,10,180,49,157,200,91,
    188,198,195,170,130,173,1,69,129,22,54,174,191,125,244,65,198,102,40,163,248,13,234,76,251,182,221,167,197,221,31,72,
    112,4,231,209,78,111,37,62,77,212,18,213,115,191,208,58,10,164,12,216,52,207,206,55,55,116,249,220,9,31,59,51,
    132,68,48,194,186,47,242,45,185,148,197,198,135,255,7,41,254,228,219,203,192,143,25,36,195,52,46,207,253,95,236,32,
    152,133,73,246,166,238,139,25,165,85,188,242,155,62,126,29,226,37,162,255,220,78,96,16,223,245,87,251,225,158,149,20,
    108,197,158,229,82,174,92,10,81,21,107,225,111,126,169,14,22,101,117,236,40,14,183,3,43,181,128,232,21,222,66,7,
    1,9,5,230,63,98,199,9,60,217,240,226,2,178,50,13,123,169,238,239,69,194,44,0,70,121,27,235,120,18,217,4,
    245,73,210,245,203,34,16,26,200,153,39,241,246,242,229,30,143,233,57,252,177,130,251,19,178,57,204,248,140,82,14,23,
    233,136,171,193,215,227,105,46,212,88,94,197,234,51,156,42,147,40,64,200,173,67,130,39,174,248,181,204,144,147,119,35,
    29,200,124,210,35,163,190,61,32,24,137,214,30,115,75,57,103,104,151,219,89,3,85,52,90,184,98,223,100,211,160,48,
    209,10,88,169,239,97,154,70,236,218,173,173,210,177,111,66,171,170,179,160,149,193,113,79,150,122,70,164,168,17,132,75,
    37,74,143,186,27,33,77,85,24,154,122,190,38,241,184,81,95,234,100,179,97,129,166,92,98,58,145,183,92,81,83,88,
    57,139,246,142,7,224,52,97,4,91,3,138,58,48,193,101,67,43,29,135,125,64,223,104,126,251,232,131,64,144,42,108,
    205,203,33,157,243,160,227,114,240,27,212,153,206,112,22,118,183,107,202,148,137,0,8,123,138,187,63,144,180,208,253,127,
    161,14,191,120,159,101,125,151,156,222,74,124,162,181,136,147,219,174,84,113,229,197,150,158,230,126,161,117,216,21,99,154,
    85,78,104,107,107,37,170,132,104,158,157,111,86,245,95,128,47,238,131,98,17,133,65,141,18,62,118,102,44,85,180,137,
    73,143,17,95,119,228,211,176,116,95,228,91,74,52,38,180,51,47,250,86,13,68,56,185,14,255,15,82,48,148,205,189,
    189,207,198,76,131,164,4,163,128,31,51,72,190,116,241,167,199,111,45,69,249,4,239,170,250,191,216,65,196,212,26,174,
    113,13,226,55,79,102,32,216,76,221,23,51,114,182,213,220,11,173,9,62,53,198,203,209,54,125,252,58,8,22,62,213,
    133,77,53,36,187,38,247,203,184,157,192,32,134,246,2,207,255,237,222,45,193,134,28,194,194,61,43,41,252,86,233,198,
    153,140,76,16,167,231,142,255,164,92,185,20,154,55,123,251,227,44,167,25,221,71,101,246,222,252,82,29,224,151,144,242,
    109,204,155,3,83,167,89,236,80,28,110,7,110,119,172,232,23,108,112,10,41,7,178,229,42,188,133,14,20,215,71,225,
    0,0,0,0,192,223,142,193,193,185,108,88,1,102,226,153,130,115,217,176,66,172,87,113,67,202,181,232,131,21,59,41,
    69,225,195,186,133,62,77,123,132,88,175,226,68,135,33,35,199,146,26,10,7,77,148,203,6,43,118,82,198,244,248,147,
    203,196,246,174,11,27,120,111,10,125,154,246,202,162,20,55,73,183,47,30,137,104,161,223,136,14,67,70,72,209,205,135,
    142,37,53,20,78,250,187,213,79,156,89,76,143,67,215,141,12,86,236,164,204,137,98,101,205,239,128,252,13,48,14,61,
    215,143,156,134,23,80,18,71,22,54,240,222,214,233,126,31,85,252,69,54,149,35,203,247,148,69,41,110,84,154,167,175,
    146,110,95,60,82,177,209,253,83,215,51,100,147,8,189,165,16,29,134,140,208,194,8,77,209,164,234,212,17,123,100,21,
    28,75,106,40,220,148,228,233,221,242,6,112,29,45,136,177,158,56,179,152,94,231,61,89,95,129,223,192,159,94,81,1,
    89,170,169,146,153,117,39,83,152,19,197,202,88,204,75,11,219,217,112,34,27,6,254,227,26,96,28,122,218,191,146,187,
    239,25,72,214,47,198,198,23,46,160,36,142,238,127,170,79,109,106,145,102,173,181,31,167,172,211,253,62,108,12,115,255,
    170,248,139,108,106,39,5,173,107,65,231,52,171,158,105,245,40,139,82,220,232,84,220,29,233,50,62,132,41,237,176,69,
    36,221,190,120,228,2,48,185,229,100,210,32,37,187,92,225,166,174,103,200,102,113,233,9,103,23,11,144,167,200,133,81,
    97,60,125,194,161,227,243,3,160,133,17,154,96,90,159,91,227,79,164,114,35,144,42,179,34,246,200,42,226,41,70,235,
    56,150,212,80,248,73,90,145,249,47,184,8,57,240,54,201,186,229,13,224,122,58,131,33,123,92,97,184,187,131,239,121,
    125,119,23,234,189,168,153,43,188,206,123,178,124,17,245,115,255,4,206,90,63,219,64,155,62,189,162,2,254,98,44,195,
    243,82,34,254,51,141,172,63,50,235,78,166,242,52,192,103,113,33,251,78,177,254,117,143,176,152,151,22,112,71,25,215,
    182,179,225,68,118,108,111,133,119,10,141,28,183,213,3,221,52,192,56,244,244,31,182,53,245,121,84,172,53,166,218,109,
    159,53,225,119,95,234,111,182,94,140,141,47,158,83,3,238,29,70,56,199,221,153,182,6,220,255,84,159,28,32,218,94,
    218,212,34,205,26,11,172,12,27,109,78,149,219,178,192,84,88,167,251,125,152,120,117,188,153,30,151,37,89,193,25,228,
    84,241,23,217,148,46,153,24,149,72,123,129,85,151,245,64,214,130,206,105,22,93,64,168,23,59,162,49,215,228,44,240,
    17,16,212,99,209,207,90,162,208,169,184,59,16,118,54,250,147,99,13,211,83,188,131,18,82,218,97,139,146,5,239,74,
    72,186,125,241,136,101,243,48,137,3,17,169,73,220,159,104,202,201,164,65,10,22,42,128,11,112,200,25,203,175,70,216,
    13,91,190,75,205,132,48,138,204,226,210,19,12,61,92,210,143,40,103,251,79,247,233,58,78,145,11,163,142,78,133,98,
    131,126,139,95,67,161,5,158,66,199,231,7,130,24,105,198,1,13,82,239,193,210,220,46,192,180,62,183,0,107,176,118,
    198,159,72,229,6,64,198,36,7,38,36,189,199,249,170,124,68,236,145,85,132,51,31,148,133,85,253,13,69,138,115,204,
    112,44,169,161,176,243,39,96,177,149,197,249,113,74,75,56,242,95,112,17,50,128,254,208,51,230,28,73,243,57,146,136,
    53,205,106,27,245,18,228,218,244,116,6,67,52,171,136,130,183,190,179,171,119,97,61,106,118,7,223,243,182,216,81,50,
    187,232,95,15,123,55,209,206,122,81,51,87,186,142,189,150,57,155,134,191,249,68,8,126,248,34,234,231,56,253,100,38,
    254,9,156,181,62,214,18,116,63,176,240,237,255,111,126,44,124,122,69,5,188,165,203,196,189,195,41,93,125,28,167,156,
    167,163,53,39,103,124,187,230,102,26,89,127,166,197,215,190,37,208,236,151,229,15,98,86,228,105,128,207,36,182,14,14,
    226,66,246,157,34,157,120,92,35,251,154,197,227,36,20,4,96,49,47,45,160,238,161,236,161,136,67,117,97,87,205,180,
    108,103,195,137,172,184,77,72,173,222,175,209,109,1,33,16,238,20,26,57,46,203,148,248,47,173,118,97,239,114,248,160,
    41,134,0,51,233,89,142,242,232,63,108,107,40,224,226,170,171,245,217,131,107,42,87,66,106,76,181,219,170,147,59,26,
    0,0,0,0,111,76,165,155,159,158,59,236,240,210,158,119,127,59,6,3,16,119,163,152,224,165,61,239,143,233,152,116,
    254,118,12,6,145,58,169,157,97,232,55,234,14,164,146,113,129,77,10,5,238,1,175,158,30,211,49,233,113,159,148,114,
    252,237,24,12,147,161,189,151,99,115,35,224,12,63,134,123,131,214,30,15,236,154,187,148,28,72,37,227,115,4,128,120,
    2,155,20,10,109,215,177,145,157,5,47,230,242,73,138,125,125,160,18,9,18,236,183,146,226,62,41,229,141,114,140,126,
    248,219,49,24,151,151,148,131,103,69,10,244,8,9,175,111,135,224,55,27,232,172,146,128,24,126,12,247,119,50,169,108,
    6,173,61,30,105,225,152,133,153,51,6,242,246,127,163,105,121,150,59,29,22,218,158,134,230,8,0,241,137,68,165,106,
    4,54,41,20,107,122,140,143,155,168,18,248,244,228,183,99,123,13,47,23,20,65,138,140,228,147,20,251,139,223,177,96,
    250,64,37,18,149,12,128,137,101,222,30,254,10,146,187,101,133,123,35,17,234,55,134,138,26,229,24,253,117,169,189,102,
    240,183,99,48,159,251,198,171,111,41,88,220,0,101,253,71,143,140,101,51,224,192,192,168,16,18,94,223,127,94,251,68,
    14,193,111,54,97,141,202,173,145,95,84,218,254,19,241,65,113,250,105,53,30,182,204,174,238,100,82,217,129,40,247,66,
    12,90,123,60,99,22,222,167,147,196,64,208,252,136,229,75,115,97,125,63,28,45,216,164,236,255,70,211,131,179,227,72,
    242,44,119,58,157,96,210,161,109,178,76,214,2,254,233,77,141,23,113,57,226,91,212,162,18,137,74,213,125,197,239,78,
    8,108,82,40,103,32,247,179,151,242,105,196,248,190,204,95,119,87,84,43,24,27,241,176,232,201,111,199,135,133,202,92,
    246,26,94,46,153,86,251,181,105,132,101,194,6,200,192,89,137,33,88,45,230,109,253,182,22,191,99,193,121,243,198,90,
    244,129,74,36,155,205,239,191,107,31,113,200,4,83,212,83,139,186,76,39,228,246,233,188,20,36,119,203,123,104,210,80,
    10,247,70,34,101,187,227,185,149,105,125,206,250,37,216,85,117,204,64,33,26,128,229,186,234,82,123,205,133,30,222,86,
    224,111,199,96,143,35,98,251,127,241,252,140,16,189,89,23,159,84,193,99,240,24,100,248,0,202,250,143,111,134,95,20,
    30,25,203,102,113,85,110,253,129,135,240,138,238,203,85,17,97,34,205,101,14,110,104,254,254,188,246,137,145,240,83,18,
    28,130,223,108,115,206,122,247,131,28,228,128,236,80,65,27,99,185,217,111,12,245,124,244,252,39,226,131,147,107,71,24,
    226,244,211,106,141,184,118,241,125,106,232,134,18,38,77,29,157,207,213,105,242,131,112,242,2,81,238,133,109,29,75,30,
    24,180,246,120,119,248,83,227,135,42,205,148,232,102,104,15,103,143,240,123,8,195,85,224,248,17,203,151,151,93,110,12,
    230,194,250,126,137,142,95,229,121,92,193,146,22,16,100,9,153,249,252,125,246,181,89,230,6,103,199,145,105,43,98,10,
    228,89,238,116,139,21,75,239,123,199,213,152,20,139,112,3,155,98,232,119,244,46,77,236,4,252,211,155,107,176,118,0,
    26,47,226,114,117,99,71,233,133,177,217,158,234,253,124,5,101,20,228,113,10,88,65,234,250,138,223,157,149,198,122,6,
    16,216,164,80,127,148,1,203,143,70,159,188,224,10,58,39,111,227,162,83,0,175,7,200,240,125,153,191,159,49,60,36,
    238,174,168,86,129,226,13,205,113,48,147,186,30,124,54,33,145,149,174,85,254,217,11,206,14,11,149,185,97,71,48,34,
    236,53,188,92,131,121,25,199,115,171,135,176,28,231,34,43,147,14,186,95,252,66,31,196,12,144,129,179,99,220,36,40,
    18,67,176,90,125,15,21,193,141,221,139,182,226,145,46,45,109,120,182,89,2,52,19,194,242,230,141,181,157,170,40,46,
    232,3,149,72,135,79,48,211,119,157,174,164,24,209,11,63,151,56,147,75,248,116,54,208,8,166,168,167,103,234,13,60,
    22,117,153,78,121,57,60,213,137,235,162,162,230,167,7,57,105,78,159,77,6,2,58,214,246,208,164,161,153,156,1,58,
    20,238,141,68,123,162,40,223,139,112,182,168,228,60,19,51,107,213,139,71,4,153,46,220,244,75,176,171,155,7,21,48,
    234,152,129,66,133,212,36,217,117,6,186,174,26,74,31,53,149,163,135,65,250,239,34,218,10,61,188,173,101,113,25,54,
    0,0,0,0,133,217,150,221,75,181,92,96,206,108,202,189,150,106,185,192,19,179,47,29,221,223,229,160,88,6,115,125,
    109,211,3,90,232,10,149,135,38,102,95,58,163,191,201,231,251,185,186,154,126,96,44,71,176,12,230,250,53,213,112,39,
    218,166,7,180,95,127,145,105,145,19,91,212,20,202,205,9,76,204,190,116,201,21,40,169,7,121,226,20,130,160,116,201,
    183,117,4,238,50,172,146,51,252,192,88,142,121,25,206,83,33,31,189,46,164,198,43,243,106,170,225,78,239,115,119,147,
    245,75,126,179,112,146,232,110,190,254,34,211,59,39,180,14,99,33,199,115,230,248,81,174,40,148,155,19,173,77,13,206,
    152,152,125,233,29,65,235,52,211,45,33,137,86,244,183,84,14,242,196,41,139,43,82,244,69,71,152,73,192,158,14,148,
    47,237,121,7,170,52,239,218,100,88,37,103,225,129,179,186,185,135,192,199,60,94,86,26,242,50,156,167,119,235,10,122,
    66,62,122,93,199,231,236,128,9,139,38,61,140,82,176,224,212,84,195,157,81,141,85,64,159,225,159,253,26,56,9,32,
    171,145,141,189,46,72,27,96,224,36,209,221,101,253,71,0,61,251,52,125,184,34,162,160,118,78,104,29,243,151,254,192,
    198,66,142,231,67,155,24,58,141,247,210,135,8,46,68,90,80,40,55,39,213,241,161,250,27,157,107,71,158,68,253,154,
    113,55,138,9,244,238,28,212,58,130,214,105,191,91,64,180,231,93,51,201,98,132,165,20,172,232,111,169,41,49,249,116,
    28,228,137,83,153,61,31,142,87,81,213,51,210,136,67,238,138,142,48,147,15,87,166,78,193,59,108,243,68,226,250,46,
    94,218,243,14,219,3,101,211,21,111,175,110,144,182,57,179,200,176,74,206,77,105,220,19,131,5,22,174,6,220,128,115,
    51,9,240,84,182,208,102,137,120,188,172,52,253,101,58,233,165,99,73,148,32,186,223,73,238,214,21,244,107,15,131,41,
    132,124,244,186,1,165,98,103,207,201,168,218,74,16,62,7,18,22,77,122,151,207,219,167,89,163,17,26,220,122,135,199,
    233,175,247,224,108,118,97,61,162,26,171,128,39,195,61,93,127,197,78,32,250,28,216,253,52,112,18,64,177,169,132,157,
    23,37,106,160,146,252,252,125,92,144,54,192,217,73,160,29,129,79,211,96,4,150,69,189,202,250,143,0,79,35,25,221,
    122,246,105,250,255,47,255,39,49,67,53,154,180,154,163,71,236,156,208,58,105,69,70,231,167,41,140,90,34,240,26,135,
    205,131,109,20,72,90,251,201,134,54,49,116,3,239,167,169,91,233,212,212,222,48,66,9,16,92,136,180,149,133,30,105,
    160,80,110,78,37,137,248,147,235,229,50,46,110,60,164,243,54,58,215,142,179,227,65,83,125,143,139,238,248,86,29,51,
    226,110,20,19,103,183,130,206,169,219,72,115,44,2,222,174,116,4,173,211,241,221,59,14,63,177,241,179,186,104,103,110,
    143,189,23,73,10,100,129,148,196,8,75,41,65,209,221,244,25,215,174,137,156,14,56,84,82,98,242,233,215,187,100,52,
    56,200,19,167,189,17,133,122,115,125,79,199,246,164,217,26,174,162,170,103,43,123,60,186,229,23,246,7,96,206,96,218,
    85,27,16,253,208,194,134,32,30,174,76,157,155,119,218,64,195,113,169,61,70,168,63,224,136,196,245,93,13,29,99,128,
    188,180,231,29,57,109,113,192,247,1,187,125,114,216,45,160,42,222,94,221,175,7,200,0,97,107,2,189,228,178,148,96,
    209,103,228,71,84,190,114,154,154,210,184,39,31,11,46,250,71,13,93,135,194,212,203,90,12,184,1,231,137,97,151,58,
    102,18,224,169,227,203,118,116,45,167,188,201,168,126,42,20,240,120,89,105,117,161,207,180,187,205,5,9,62,20,147,212,
    11,193,227,243,142,24,117,46,64,116,191,147,197,173,41,78,157,171,90,51,24,114,204,238,214,30,6,83,83,199,144,142,
    73,255,153,174,204,38,15,115,2,74,197,206,135,147,83,19,223,149,32,110,90,76,182,179,148,32,124,14,17,249,234,211,
    36,44,154,244,161,245,12,41,111,153,198,148,234,64,80,73,178,70,35,52,55,159,181,233,249,243,127,84,124,42,233,137,
    147,89,158,26,22,128,8,199,216,236,194,122,93,53,84,167,5,51,39,218,128,234,177,7,78,134,123,186,203,95,237,103,
    254,138,157,64,123,83,11,157,181,63,193,32,48,230,87,253,104,224,36,128,237,57,178,93,35,85,120,224,166,140,238,61,
    0,0,0,0,118,225,15,157,173,196,110,225,219,37,97,124,27,143,172,25,109,110,163,132,182,75,194,248,192,170,205,101,
    54,30,89,51,64,255,86,174,155,218,55,210,237,59,56,79,45,145,245,42,91,112,250,183,128,85,155,203,246,180,148,86,
    108,60,178,102,26,221,189,251,193,248,220,135,183,25,211,26,119,179,30,127,1,82,17,226,218,119,112,158,172,150,127,3,
    90,34,235,85,44,195,228,200,247,230,133,180,129,7,138,41,65,173,71,76,55,76,72,209,236,105,41,173,154,136,38,48,
    216,120,100,205,174,153,107,80,117,188,10,44,3,93,5,177,195,247,200,212,181,22,199,73,110,51,166,53,24,210,169,168,
    238,102,61,254,152,135,50,99,67,162,83,31,53,67,92,130,245,233,145,231,131,8,158,122,88,45,255,6,46,204,240,155,
    180,68,214,171,194,165,217,54,25,128,184,74,111,97,183,215,175,203,122,178,217,42,117,47,2,15,20,83,116,238,27,206,
    130,90,143,152,244,187,128,5,47,158,225,121,89,127,238,228,153,213,35,129,239,52,44,28,52,17,77,96,66,240,66,253,
    241,247,185,65,135,22,182,220,92,51,215,160,42,210,216,61,234,120,21,88,156,153,26,197,71,188,123,185,49,93,116,36,
    199,233,224,114,177,8,239,239,106,45,142,147,28,204,129,14,220,102,76,107,170,135,67,246,113,162,34,138,7,67,45,23,
    157,203,11,39,235,42,4,186,48,15,101,198,70,238,106,91,134,68,167,62,240,165,168,163,43,128,201,223,93,97,198,66,
    171,213,82,20,221,52,93,137,6,17,60,245,112,240,51,104,176,90,254,13,198,187,241,144,29,158,144,236,107,127,159,113,
    41,143,221,140,95,110,210,17,132,75,179,109,242,170,188,240,50,0,113,149,68,225,126,8,159,196,31,116,233,37,16,233,
    31,145,132,191,105,112,139,34,178,85,234,94,196,180,229,195,4,30,40,166,114,255,39,59,169,218,70,71,223,59,73,218,
    69,179,111,234,51,82,96,119,232,119,1,11,158,150,14,150,94,60,195,243,40,221,204,110,243,248,173,18,133,25,162,143,
    115,173,54,217,5,76,57,68,222,105,88,56,168,136,87,165,104,34,154,192,30,195,149,93,197,230,244,33,179,7,251,188,
    226,239,115,131,148,14,124,30,79,43,29,98,57,202,18,255,249,96,223,154,143,129,208,7,84,164,177,123,34,69,190,230,
    212,241,42,176,162,16,37,45,121,53,68,81,15,212,75,204,207,126,134,169,185,159,137,52,98,186,232,72,20,91,231,213,
    142,211,193,229,248,50,206,120,35,23,175,4,85,246,160,153,149,92,109,252,227,189,98,97,56,152,3,29,78,121,12,128,
    184,205,152,214,206,44,151,75,21,9,246,55,99,232,249,170,163,66,52,207,213,163,59,82,14,134,90,46,120,103,85,179,
    58,151,23,78,76,118,24,211,151,83,121,175,225,178,118,50,33,24,187,87,87,249,180,202,140,220,213,182,250,61,218,43,
    12,137,78,125,122,104,65,224,161,77,32,156,215,172,47,1,23,6,226,100,97,231,237,249,186,194,140,133,204,35,131,24,
    86,171,165,40,32,74,170,181,251,111,203,201,141,142,196,84,77,36,9,49,59,197,6,172,224,224,103,208,150,1,104,77,
    96,181,252,27,22,84,243,134,205,113,146,250,187,144,157,103,123,58,80,2,13,219,95,159,214,254,62,227,160,31,49,126,
    19,24,202,194,101,249,197,95,190,220,164,35,200,61,171,190,8,151,102,219,126,118,105,70,165,83,8,58,211,178,7,167,
    37,6,147,241,83,231,156,108,136,194,253,16,254,35,242,141,62,137,63,232,72,104,48,117,147,77,81,9,229,172,94,148,
    127,36,120,164,9,197,119,57,210,224,22,69,164,1,25,216,100,171,212,189,18,74,219,32,201,111,186,92,191,142,181,193,
    73,58,33,151,63,219,46,10,228,254,79,118,146,31,64,235,82,181,141,142,36,84,130,19,255,113,227,111,137,144,236,242,
    203,96,174,15,189,129,161,146,102,164,192,238,16,69,207,115,208,239,2,22,166,14,13,139,125,43,108,247,11,202,99,106,
    253,126,247,60,139,159,248,161,80,186,153,221,38,91,150,64,230,241,91,37,144,16,84,184,75,53,53,196,61,212,58,89,
    167,92,28,105,209,189,19,244,10,152,114,136,124,121,125,21,188,211,176,112,202,50,191,237,17,23,222,145,103,246,209,12,
    145,66,69,90,231,163,74,199,60,134,43,187,74,103,36,38,138,205,233,67,252,44,230,222,39,9,135,162,81,232,136,63,
    0,0,0,0,232,219,251,185,145,177,134,168,121,106,125,17,99,101,124,138,139,190,135,51,242,212,250,34,26,15,1,155,
    135,204,137,207,111,23,114,118,22,125,15,103,254,166,244,222,228,169,245,69,12,114,14,252,117,24,115,237,157,195,136,84,
    79,159,98,68,167,68,153,253,222,46,228,236,54,245,31,85,44,250,30,206,196,33,229,119,189,75,152,102,85,144,99,223,
    200,83,235,139,32,136,16,50,89,226,109,35,177,57,150,154,171,54,151,1,67,237,108,184,58,135,17,169,210,92,234,16,
    158,62,197,136,118,229,62,49,15,143,67,32,231,84,184,153,253,91,185,2,21,128,66,187,108,234,63,170,132,49,196,19,
    25,242,76,71,241,41,183,254,136,67,202,239,96,152,49,86,122,151,48,205,146,76,203,116,235,38,182,101,3,253,77,220,
    209,161,167,204,57,122,92,117,64,16,33,100,168,203,218,221,178,196,219,70,90,31,32,255,35,117,93,238,203,174,166,87,
    86,109,46,3,190,182,213,186,199,220,168,171,47,7,83,18,53,8,82,137,221,211,169,48,164,185,212,33,76,98,47,152,
    125,123,251,202,149,160,0,115,236,202,125,98,4,17,134,219,30,30,135,64,246,197,124,249,143,175,1,232,103,116,250,81,
    250,183,114,5,18,108,137,188,107,6,244,173,131,221,15,20,153,210,14,143,113,9,245,54,8,99,136,39,224,184,115,158,
    50,228,153,142,218,63,98,55,163,85,31,38,75,142,228,159,81,129,229,4,185,90,30,189,192,48,99,172,40,235,152,21,
    181,40,16,65,93,243,235,248,36,153,150,233,204,66,109,80,214,77,108,203,62,150,151,114,71,252,234,99,175,39,17,218,
    227,69,62,66,11,158,197,251,114,244,184,234,154,47,67,83,128,32,66,200,104,251,185,113,17,145,196,96,249,74,63,217,
    100,137,183,141,140,82,76,52,245,56,49,37,29,227,202,156,7,236,203,7,239,55,48,190,150,93,77,175,126,134,182,22,
    172,218,92,6,68,1,167,191,61,107,218,174,213,176,33,23,207,191,32,140,39,100,219,53,94,14,166,36,182,213,93,157,
    43,22,213,201,195,205,46,112,186,167,83,97,82,124,168,216,72,115,169,67,160,168,82,250,217,194,47,235,49,25,212,82,
    187,240,135,78,83,43,124,247,42,65,1,230,194,154,250,95,216,149,251,196,48,78,0,125,73,36,125,108,161,255,134,213,
    60,60,14,129,212,231,245,56,173,141,136,41,69,86,115,144,95,89,114,11,183,130,137,178,206,232,244,163,38,51,15,26,
    244,111,229,10,28,180,30,179,101,222,99,162,141,5,152,27,151,10,153,128,127,209,98,57,6,187,31,40,238,96,228,145,
    115,163,108,197,155,120,151,124,226,18,234,109,10,201,17,212,16,198,16,79,248,29,235,246,129,119,150,231,105,172,109,94,
    37,206,66,198,205,21,185,127,180,127,196,110,92,164,63,215,70,171,62,76,174,112,197,245,215,26,184,228,63,193,67,93,
    162,2,203,9,74,217,48,176,51,179,77,161,219,104,182,24,193,103,183,131,41,188,76,58,80,214,49,43,184,13,202,146,
    106,81,32,130,130,138,219,59,251,224,166,42,19,59,93,147,9,52,92,8,225,239,167,177,152,133,218,160,112,94,33,25,
    237,157,169,77,5,70,82,244,124,44,47,229,148,247,212,92,142,248,213,199,102,35,46,126,31,73,83,111,247,146,168,214,
    198,139,124,132,46,80,135,61,87,58,250,44,191,225,1,149,165,238,0,14,77,53,251,183,52,95,134,166,220,132,125,31,
    65,71,245,75,169,156,14,242,208,246,115,227,56,45,136,90,34,34,137,193,202,249,114,120,179,147,15,105,91,72,244,208,
    137,20,30,192,97,207,229,121,24,165,152,104,240,126,99,209,234,113,98,74,2,170,153,243,123,192,228,226,147,27,31,91,
    14,216,151,15,230,3,108,182,159,105,17,167,119,178,234,30,109,189,235,133,133,102,16,60,252,12,109,45,20,215,150,148,
    88,181,185,12,176,110,66,181,201,4,63,164,33,223,196,29,59,208,197,134,211,11,62,63,170,97,67,46,66,186,184,151,
    223,121,48,195,55,162,203,122,78,200,182,107,166,19,77,210,188,28,76,73,84,199,183,240,45,173,202,225,197,118,49,88,
    23,42,219,72,255,241,32,241,134,155,93,224,110,64,166,89,116,79,167,194,156,148,92,123,229,254,33,106,13,37,218,211,
    144,230,82,135,120,61,169,62,1,87,212,47,233,140,47,150,243,131,46,13,27,88,213,180,98,50,168,165,138,233,83,28,
    0,0,0,0,145,145,104,174,99,37,160,135,242,180,200,41,135,76,49,212,22,221,89,122,228,105,145,83,117,248,249,253,
    79,159,19,115,222,14,123,221,44,186,179,244,189,43,219,90,200,211,34,167,89,66,74,9,171,246,130,32,58,103,234,142,
    158,62,39,230,15,175,79,72,253,27,135,97,108,138,239,207,25,114,22,50,136,227,126,156,122,87,182,181,235,198,222,27,
    209,161,52,149,64,48,92,59,178,132,148,18,35,21,252,188,86,237,5,65,199,124,109,239,53,200,165,198,164,89,205,104,
    125,123,63,23,236,234,87,185,30,94,159,144,143,207,247,62,250,55,14,195,107,166,102,109,153,18,174,68,8,131,198,234,
    50,228,44,100,163,117,68,202,81,193,140,227,192,80,228,77,181,168,29,176,36,57,117,30,214,141,189,55,71,28,213,153,
    227,69,24,241,114,212,112,95,128,96,184,118,17,241,208,216,100,9,41,37,245,152,65,139,7,44,137,162,150,189,225,12,
    172,218,11,130,61,75,99,44,207,255,171,5,94,110,195,171,43,150,58,86,186,7,82,248,72,179,154,209,217,34,242,127,
    250,246,126,46,107,103,22,128,153,211,222,169,8,66,182,7,125,186,79,250,236,43,39,84,30,159,239,125,143,14,135,211,
    181,105,109,93,36,248,5,243,214,76,205,218,71,221,165,116,50,37,92,137,163,180,52,39,81,0,252,14,192,145,148,160,
    100,200,89,200,245,89,49,102,7,237,249,79,150,124,145,225,227,132,104,28,114,21,0,178,128,161,200,155,17,48,160,53,
    43,87,74,187,186,198,34,21,72,114,234,60,217,227,130,146,172,27,123,111,61,138,19,193,207,62,219,232,94,175,179,70,
    135,141,65,57,22,28,41,151,228,168,225,190,117,57,137,16,0,193,112,237,145,80,24,67,99,228,208,106,242,117,184,196,
    200,18,82,74,89,131,58,228,171,55,242,205,58,166,154,99,79,94,99,158,222,207,11,48,44,123,195,25,189,234,171,183,
    25,179,102,223,136,34,14,113,122,150,198,88,235,7,174,246,158,255,87,11,15,110,63,165,253,218,247,140,108,75,159,34,
    86,44,117,172,199,189,29,2,53,9,213,43,164,152,189,133,209,96,68,120,64,241,44,214,178,69,228,255,35,212,140,81,
    244,237,253,92,101,124,149,242,151,200,93,219,6,89,53,117,115,161,204,136,226,48,164,38,16,132,108,15,129,21,4,161,
    187,114,238,47,42,227,134,129,216,87,78,168,73,198,38,6,60,62,223,251,173,175,183,85,95,27,127,124,206,138,23,210,
    106,211,218,186,251,66,178,20,9,246,122,61,152,103,18,147,237,159,235,110,124,14,131,192,142,186,75,233,31,43,35,71,
    37,76,201,201,180,221,161,103,70,105,105,78,215,248,1,224,162,0,248,29,51,145,144,179,193,37,88,154,80,180,48,52,
    137,150,194,75,24,7,170,229,234,179,98,204,123,34,10,98,14,218,243,159,159,75,155,49,109,255,83,24,252,110,59,182,
    198,9,209,56,87,152,185,150,165,44,113,191,52,189,25,17,65,69,224,236,208,212,136,66,34,96,64,107,179,241,40,197,
    23,168,229,173,134,57,141,3,116,141,69,42,229,28,45,132,144,228,212,121,1,117,188,215,243,193,116,254,98,80,28,80,
    88,55,246,222,201,166,158,112,59,18,86,89,170,131,62,247,223,123,199,10,78,234,175,164,188,94,103,141,45,207,15,35,
    14,27,131,114,159,138,235,220,109,62,35,245,252,175,75,91,137,87,178,166,24,198,218,8,234,114,18,33,123,227,122,143,
    65,132,144,1,208,21,248,175,34,161,48,134,179,48,88,40,198,200,161,213,87,89,201,123,165,237,1,82,52,124,105,252,
    144,37,164,148,1,180,204,58,243,0,4,19,98,145,108,189,23,105,149,64,134,248,253,238,116,76,53,199,229,221,93,105,
    223,186,183,231,78,43,223,73,188,159,23,96,45,14,127,206,88,246,134,51,201,103,238,157,59,211,38,180,170,66,78,26,
    115,96,188,101,226,241,212,203,16,69,28,226,129,212,116,76,244,44,141,177,101,189,229,31,151,9,45,54,6,152,69,152,
    60,255,175,22,173,110,199,184,95,218,15,145,206,75,103,63,187,179,158,194,42,34,246,108,216,150,62,69,73,7,86,235,
    237,94,155,131,124,207,243,45,142,123,59,4,31,234,83,170,106,18,170,87,251,131,194,249,9,55,10,208,152,166,98,126,
    162,193,136,240,51,80,224,94,193,228,40,119,80,117,64,217,37,141,185,36,180,28,209,138,70,168,25,163,215,57,113,13,
    0,0,0,0,10,209,116,202,85,164,152,79,95,117,236,133,170,72,49,159,160,153,69,85,255,236,169,208,245,61,221,26,
    21,151,19,229,31,70,103,47,64,51,139,170,74,226,255,96,191,223,34,122,181,14,86,176,234,123,186,53,224,170,206,255,
    107,40,86,17,97,249,34,219,62,140,206,94,52,93,186,148,193,96,103,142,203,177,19,68,148,196,255,193,158,21,139,11,
    126,191,69,244,116,110,49,62,43,27,221,187,33,202,169,113,212,247,116,107,222,38,0,161,129,83,236,36,139,130,152,238,
    214,80,172,34,220,129,216,232,131,244,52,109,137,37,64,167,124,24,157,189,118,201,233,119,41,188,5,242,35,109,113,56,
    195,199,191,199,201,22,203,13,150,99,39,136,156,178,83,66,105,143,142,88,99,94,250,146,60,43,22,23,54,250,98,221,
    189,120,250,51,183,169,142,249,232,220,98,124,226,13,22,182,23,48,203,172,29,225,191,102,66,148,83,227,72,69,39,41,
    168,239,233,214,162,62,157,28,253,75,113,153,247,154,5,83,2,167,216,73,8,118,172,131,87,3,64,6,93,210,52,204,
    172,161,88,69,166,112,44,143,249,5,192,10,243,212,180,192,6,233,105,218,12,56,29,16,83,77,241,149,89,156,133,95,
    185,54,75,160,179,231,63,106,236,146,211,239,230,67,167,37,19,126,122,63,25,175,14,245,70,218,226,112,76,11,150,186,
    199,137,14,84,205,88,122,158,146,45,150,27,152,252,226,209,109,193,63,203,103,16,75,1,56,101,167,132,50,180,211,78,
    210,30,29,177,216,207,105,123,135,186,133,254,141,107,241,52,120,86,44,46,114,135,88,228,45,242,180,97,39,35,192,171,
    122,241,244,103,112,32,128,173,47,85,108,40,37,132,24,226,208,185,197,248,218,104,177,50,133,29,93,183,143,204,41,125,
    111,102,231,130,101,183,147,72,58,194,127,205,48,19,11,7,197,46,214,29,207,255,162,215,144,138,78,82,154,91,58,152,
    17,217,162,118,27,8,214,188,68,125,58,57,78,172,78,243,187,145,147,233,177,64,231,35,238,53,11,166,228,228,127,108,
    4,78,177,147,14,159,197,89,81,234,41,220,91,59,93,22,174,6,128,12,164,215,244,198,251,162,24,67,241,115,108,137,
    88,67,177,138,82,146,197,64,13,231,41,197,7,54,93,15,242,11,128,21,248,218,244,223,167,175,24,90,173,126,108,144,
    77,212,162,111,71,5,214,165,24,112,58,32,18,161,78,234,231,156,147,240,237,77,231,58,178,56,11,191,184,233,127,117,
    51,107,231,155,57,186,147,81,102,207,127,212,108,30,11,30,153,35,214,4,147,242,162,206,204,135,78,75,198,86,58,129,
    38,252,244,126,44,45,128,180,115,88,108,49,121,137,24,251,140,180,197,225,134,101,177,43,217,16,93,174,211,193,41,100,
    142,19,29,168,132,194,105,98,219,183,133,231,209,102,241,45,36,91,44,55,46,138,88,253,113,255,180,120,123,46,192,178,
    155,132,14,77,145,85,122,135,206,32,150,2,196,241,226,200,49,204,63,210,59,29,75,24,100,104,167,157,110,185,211,87,
    229,59,75,185,239,234,63,115,176,159,211,246,186,78,167,60,79,115,122,38,69,162,14,236,26,215,226,105,16,6,150,163,
    240,172,88,92,250,125,44,150,165,8,192,19,175,217,180,217,90,228,105,195,80,53,29,9,15,64,241,140,5,145,133,70,
    244,226,233,207,254,51,157,5,161,70,113,128,171,151,5,74,94,170,216,80,84,123,172,154,11,14,64,31,1,223,52,213,
    225,117,250,42,235,164,142,224,180,209,98,101,190,0,22,175,75,61,203,181,65,236,191,127,30,153,83,250,20,72,39,48,
    159,202,191,222,149,27,203,20,202,110,39,145,192,191,83,91,53,130,142,65,63,83,250,139,96,38,22,14,106,247,98,196,
    138,93,172,59,128,140,216,241,223,249,52,116,213,40,64,190,32,21,157,164,42,196,233,110,117,177,5,235,127,96,113,33,
    34,178,69,237,40,99,49,39,119,22,221,162,125,199,169,104,136,250,116,114,130,43,0,184,221,94,236,61,215,143,152,247,
    55,37,86,8,61,244,34,194,98,129,206,71,104,80,186,141,157,109,103,151,151,188,19,93,200,201,255,216,194,24,139,18,
    73,154,19,252,67,75,103,54,28,62,139,179,22,239,255,121,227,210,34,99,233,3,86,169,182,118,186,44,188,167,206,230,
    92,13,0,25,86,220,116,211,9,169,152,86,3,120,236,156,246,69,49,134,252,148,69,76,163,225,169,201,169,48,221,3,
    0,0,0,0,207,157,31,224,223,61,78,27,16,160,81,251,190,123,156,54,113,230,131,214,97,70,210,45,174,219,205,205,
    124,247,56,109,179,106,39,141,163,202,118,118,108,87,105,150,194,140,164,91,13,17,187,187,29,177,234,64,210,44,245,160,
    248,238,113,218,55,115,110,58,39,211,63,193,232,78,32,33,70,149,237,236,137,8,242,12,153,168,163,247,86,53,188,23,
    132,25,73,183,75,132,86,87,91,36,7,172,148,185,24,76,58,98,213,129,245,255,202,97,229,95,155,154,42,194,132,122,
    177,219,146,111,126,70,141,143,110,230,220,116,161,123,195,148,15,160,14,89,192,61,17,185,208,157,64,66,31,0,95,162,
    205,44,170,2,2,177,181,226,18,17,228,25,221,140,251,249,115,87,54,52,188,202,41,212,172,106,120,47,99,247,103,207,
    73,53,227,181,134,168,252,85,150,8,173,174,89,149,178,78,247,78,127,131,56,211,96,99,40,115,49,152,231,238,46,120,
    53,194,219,216,250,95,196,56,234,255,149,195,37,98,138,35,139,185,71,238,68,36,88,14,84,132,9,245,155,25,22,21,
    98,183,37,223,173,42,58,63,189,138,107,196,114,23,116,36,220,204,185,233,19,81,166,9,3,241,247,242,204,108,232,18,
    30,64,29,178,209,221,2,82,193,125,83,169,14,224,76,73,160,59,129,132,111,166,158,100,127,6,207,159,176,155,208,127,
    154,89,84,5,85,196,75,229,69,100,26,30,138,249,5,254,36,34,200,51,235,191,215,211,251,31,134,40,52,130,153,200,
    230,174,108,104,41,51,115,136,57,147,34,115,246,14,61,147,88,213,240,94,151,72,239,190,135,232,190,69,72,117,161,165,
    211,108,183,176,28,241,168,80,12,81,249,171,195,204,230,75,109,23,43,134,162,138,52,102,178,42,101,157,125,183,122,125,
    175,155,143,221,96,6,144,61,112,166,193,198,191,59,222,38,17,224,19,235,222,125,12,11,206,221,93,240,1,64,66,16,
    43,130,198,106,228,31,217,138,244,191,136,113,59,34,151,145,149,249,90,92,90,100,69,188,74,196,20,71,133,89,11,167,
    87,117,254,7,152,232,225,231,136,72,176,28,71,213,175,252,233,14,98,49,38,147,125,209,54,51,44,42,249,174,51,202,
    133,104,58,101,74,245,37,133,90,85,116,126,149,200,107,158,59,19,166,83,244,142,185,179,228,46,232,72,43,179,247,168,
    249,159,2,8,54,2,29,232,38,162,76,19,233,63,83,243,71,228,158,62,136,121,129,222,152,217,208,37,87,68,207,197,
    125,134,75,191,178,27,84,95,162,187,5,164,109,38,26,68,195,253,215,137,12,96,200,105,28,192,153,146,211,93,134,114,
    1,113,115,210,206,236,108,50,222,76,61,201,17,209,34,41,191,10,239,228,112,151,240,4,96,55,161,255,175,170,190,31,
    52,179,168,10,251,46,183,234,235,142,230,17,36,19,249,241,138,200,52,60,69,85,43,220,85,245,122,39,154,104,101,199,
    72,68,144,103,135,217,143,135,151,121,222,124,88,228,193,156,246,63,12,81,57,162,19,177,41,2,66,74,230,159,93,170,
    204,93,217,208,3,192,198,48,19,96,151,203,220,253,136,43,114,38,69,230,189,187,90,6,173,27,11,253,98,134,20,29,
    176,170,225,189,127,55,254,93,111,151,175,166,160,10,176,70,14,209,125,139,193,76,98,107,209,236,51,144,30,113,44,112,
    231,223,31,186,40,66,0,90,56,226,81,161,247,127,78,65,89,164,131,140,150,57,156,108,134,153,205,151,73,4,210,119,
    155,40,39,215,84,181,56,55,68,21,105,204,139,136,118,44,37,83,187,225,234,206,164,1,250,110,245,250,53,243,234,26,
    31,49,110,96,208,172,113,128,192,12,32,123,15,145,63,155,161,74,242,86,110,215,237,182,126,119,188,77,177,234,163,173,
    99,198,86,13,172,91,73,237,188,251,24,22,115,102,7,246,221,189,202,59,18,32,213,219,2,128,132,32,205,29,155,192,
    86,4,141,213,153,153,146,53,137,57,195,206,70,164,220,46,232,127,17,227,39,226,14,3,55,66,95,248,248,223,64,24,
    42,243,181,184,229,110,170,88,245,206,251,163,58,83,228,67,148,136,41,142,91,21,54,110,75,181,103,149,132,40,120,117,
    174,234,252,15,97,119,227,239,113,215,178,20,190,74,173,244,16,145,96,57,223,12,127,217,207,172,46,34,0,49,49,194,
    210,29,196,98,29,128,219,130,13,32,138,121,194,189,149,153,108,102,88,84,163,251,71,180,179,91,22,79,124,198,9,175,
    0,0,0,0,188,192,59,11,120,129,119,22,196,65,76,29,240,2,239,44,76,194,212,39,136,131,152,58,52,67,163,49,
    224,5,222,89,92,197,229,82,152,132,169,79,36,68,146,68,16,7,49,117,172,199,10,126,104,134,70,99,212,70,125,104,
    192,11,188,179,124,203,135,184,184,138,203,165,4,74,240,174,48,9,83,159,140,201,104,148,72,136,36,137,244,72,31,130,
    32,14,98,234,156,206,89,225,88,143,21,252,228,79,46,247,208,12,141,198,108,204,182,205,168,141,250,208,20,77,193,219,
    193,17,9,188,125,209,50,183,185,144,126,170,5,80,69,161,49,19,230,144,141,211,221,155,73,146,145,134,245,82,170,141,
    33,20,215,229,157,212,236,238,89,149,160,243,229,85,155,248,209,22,56,201,109,214,3,194,169,151,79,223,21,87,116,212,
    1,26,181,15,189,218,142,4,121,155,194,25,197,91,249,18,241,24,90,35,77,216,97,40,137,153,45,53,53,89,22,62,
    225,31,107,86,93,223,80,93,153,158,28,64,37,94,39,75,17,29,132,122,173,221,191,113,105,156,243,108,213,92,200,103,
    195,37,99,163,127,229,88,168,187,164,20,181,7,100,47,190,51,39,140,143,143,231,183,132,75,166,251,153,247,102,192,146,
    35,32,189,250,159,224,134,241,91,161,202,236,231,97,241,231,211,34,82,214,111,226,105,221,171,163,37,192,23,99,30,203,
    3,46,223,16,191,238,228,27,123,175,168,6,199,111,147,13,243,44,48,60,79,236,11,55,139,173,71,42,55,109,124,33,
    227,43,1,73,95,235,58,66,155,170,118,95,39,106,77,84,19,41,238,101,175,233,213,110,107,168,153,115,215,104,162,120,
    2,52,106,31,190,244,81,20,122,181,29,9,198,117,38,2,242,54,133,51,78,246,190,56,138,183,242,37,54,119,201,46,
    226,49,180,70,94,241,143,77,154,176,195,80,38,112,248,91,18,51,91,106,174,243,96,97,106,178,44,124,214,114,23,119,
    194,63,214,172,126,255,237,167,186,190,161,186,6,126,154,177,50,61,57,128,142,253,2,139,74,188,78,150,246,124,117,157,
    34,58,8,245,158,250,51,254,90,187,127,227,230,123,68,232,210,56,231,217,110,248,220,210,170,185,144,207,22,121,171,196,
    199,77,183,157,123,141,140,150,191,204,192,139,3,12,251,128,55,79,88,177,139,143,99,186,79,206,47,167,243,14,20,172,
    39,72,105,196,155,136,82,207,95,201,30,210,227,9,37,217,215,74,134,232,107,138,189,227,175,203,241,254,19,11,202,245,
    7,70,11,46,187,134,48,37,127,199,124,56,195,7,71,51,247,68,228,2,75,132,223,9,143,197,147,20,51,5,168,31,
    231,67,213,119,91,131,238,124,159,194,162,97,35,2,153,106,23,65,58,91,171,129,1,80,111,192,77,77,211,0,118,70,
    6,92,190,33,186,156,133,42,126,221,201,55,194,29,242,60,246,94,81,13,74,158,106,6,142,223,38,27,50,31,29,16,
    230,89,96,120,90,153,91,115,158,216,23,110,34,24,44,101,22,91,143,84,170,155,180,95,110,218,248,66,210,26,195,73,
    198,87,2,146,122,151,57,153,190,214,117,132,2,22,78,143,54,85,237,190,138,149,214,181,78,212,154,168,242,20,161,163,
    38,82,220,203,154,146,231,192,94,211,171,221,226,19,144,214,214,80,51,231,106,144,8,236,174,209,68,241,18,17,127,250,
    4,104,212,62,184,168,239,53,124,233,163,40,192,41,152,35,244,106,59,18,72,170,0,25,140,235,76,4,48,43,119,15,
    228,109,10,103,88,173,49,108,156,236,125,113,32,44,70,122,20,111,229,75,168,175,222,64,108,238,146,93,208,46,169,86,
    196,99,104,141,120,163,83,134,188,226,31,155,0,34,36,144,52,97,135,161,136,161,188,170,76,224,240,183,240,32,203,188,
    36,102,182,212,152,166,141,223,92,231,193,194,224,39,250,201,212,100,89,248,104,164,98,243,172,229,46,238,16,37,21,229,
    197,121,221,130,121,185,230,137,189,248,170,148,1,56,145,159,53,123,50,174,137,187,9,165,77,250,69,184,241,58,126,179,
    37,124,3,219,153,188,56,208,93,253,116,205,225,61,79,198,213,126,236,247,105,190,215,252,173,255,155,225,17,63,160,234,
    5,114,97,49,185,178,90,58,125,243,22,39,193,51,45,44,245,112,142,29,73,176,181,22,141,241,249,11,49,49,194,0,
    229,119,191,104,89,183,132,99,157,246,200,126,33,54,243,117,21,117,80,68,169,181,107,79,109,244,39,82,209,52,28,89,
    0,0,0,0,103,196,220,194,143,142,200,94,232,74,20,156,30,29,145,189,121,217,77,127,145,147,89,227,246,87,133,33,
    125,60,83,160,26,248,143,98,242,178,155,254,149,118,71,60,99,33,194,29,4,229,30,223,236,175,10,67,139,107,214,129,
    187,126,215,155,220,186,11,89,52,240,31,197,83,52,195,7,165,99,70,38,194,167,154,228,42,237,142,120,77,41,82,186,
    198,66,132,59,161,134,88,249,73,204,76,101,46,8,144,167,216,95,21,134,191,155,201,68,87,209,221,216,48,21,1,26,
    55,251,223,236,80,63,3,46,184,117,23,178,223,177,203,112,41,230,78,81,78,34,146,147,166,104,134,15,193,172,90,205,
    74,199,140,76,45,3,80,142,197,73,68,18,162,141,152,208,84,218,29,241,51,30,193,51,219,84,213,175,188,144,9,109,
    140,133,8,119,235,65,212,181,3,11,192,41,100,207,28,235,146,152,153,202,245,92,69,8,29,22,81,148,122,210,141,86,
    241,185,91,215,150,125,135,21,126,55,147,137,25,243,79,75,239,164,202,106,136,96,22,168,96,42,2,52,7,238,222,246,
    47,240,206,2,72,52,18,192,160,126,6,92,199,186,218,158,49,237,95,191,86,41,131,125,190,99,151,225,217,167,75,35,
    82,204,157,162,53,8,65,96,221,66,85,252,186,134,137,62,76,209,12,31,43,21,208,221,195,95,196,65,164,155,24,131,
    148,142,25,153,243,74,197,91,27,0,209,199,124,196,13,5,138,147,136,36,237,87,84,230,5,29,64,122,98,217,156,184,
    233,178,74,57,142,118,150,251,102,60,130,103,1,248,94,165,247,175,219,132,144,107,7,70,120,33,19,218,31,229,207,24,
    24,11,17,238,127,207,205,44,151,133,217,176,240,65,5,114,6,22,128,83,97,210,92,145,137,152,72,13,238,92,148,207,
    101,55,66,78,2,243,158,140,234,185,138,16,141,125,86,210,123,42,211,243,28,238,15,49,244,164,27,173,147,96,199,111,
    163,117,198,117,196,177,26,183,44,251,14,43,75,63,210,233,189,104,87,200,218,172,139,10,50,230,159,150,85,34,67,84,
    222,73,149,213,185,141,73,23,81,199,93,139,54,3,129,73,192,84,4,104,167,144,216,170,79,218,204,54,40,30,16,244,
    94,224,157,5,57,36,65,199,209,110,85,91,182,170,137,153,64,253,12,184,39,57,208,122,207,115,196,230,168,183,24,36,
    35,220,206,165,68,24,18,103,172,82,6,251,203,150,218,57,61,193,95,24,90,5,131,218,178,79,151,70,213,139,75,132,
    229,158,74,158,130,90,150,92,106,16,130,192,13,212,94,2,251,131,219,35,156,71,7,225,116,13,19,125,19,201,207,191,
    152,162,25,62,255,102,197,252,23,44,209,96,112,232,13,162,134,191,136,131,225,123,84,65,9,49,64,221,110,245,156,31,
    105,27,66,233,14,223,158,43,230,149,138,183,129,81,86,117,119,6,211,84,16,194,15,150,248,136,27,10,159,76,199,200,
    20,39,17,73,115,227,205,139,155,169,217,23,252,109,5,213,10,58,128,244,109,254,92,54,133,180,72,170,226,112,148,104,
    210,101,149,114,181,161,73,176,93,235,93,44,58,47,129,238,204,120,4,207,171,188,216,13,67,246,204,145,36,50,16,83,
    175,89,198,210,200,157,26,16,32,215,14,140,71,19,210,78,177,68,87,111,214,128,139,173,62,202,159,49,89,14,67,243,
    113,16,83,7,22,212,143,197,254,158,155,89,153,90,71,155,111,13,194,186,8,201,30,120,224,131,10,228,135,71,214,38,
    12,44,0,167,107,232,220,101,131,162,200,249,228,102,20,59,18,49,145,26,117,245,77,216,157,191,89,68,250,123,133,134,
    202,110,132,156,173,170,88,94,69,224,76,194,34,36,144,0,212,115,21,33,179,183,201,227,91,253,221,127,60,57,1,189,
    183,82,215,60,208,150,11,254,56,220,31,98,95,24,195,160,169,79,70,129,206,139,154,67,38,193,142,223,65,5,82,29,
    70,235,140,235,33,47,80,41,201,101,68,181,174,161,152,119,88,246,29,86,63,50,193,148,215,120,213,8,176,188,9,202,
    59,215,223,75,92,19,3,137,180,89,23,21,211,157,203,215,37,202,78,246,66,14,146,52,170,68,134,168,205,128,90,106,
    253,149,91,112,154,81,135,178,114,27,147,46,21,223,79,236,227,136,202,205,132,76,22,15,108,6,2,147,11,194,222,81,
    128,169,8,208,231,109,212,18,15,39,192,142,104,227,28,76,158,180,153,109,249,112,69,175,17,58,81,51,118,254,141,241,
}};
static ipl_u32 ipl_to_ipl_nand_read(ipl_u8 *const m, ipl_u64 l0, ipl_u32 l1, ipl_u32 l2, ipl_u64 l3, ipl_u64 l4);
static void ipl_to_rattle_realloc(ipl_u8 *const m, ipl_u64 l0, ipl_u64 l1, ipl_u64 l2, ipl_u64 l3, ipl_u64 l4);
static void ipl_to_rattle_alloc(ipl_u8 *const m, ipl_u64 l0, ipl_u64 l1, ipl_u64 l2);
static void ipl_to_rattle_dealloc(ipl_u8 *const m, ipl_u64 l0);
static ipl_u32 ipl_to_ipl_nand_barrier(ipl_u8 *const m, ipl_u64 l0);
static ipl_u32 ipl_to_ipl_nand_program(ipl_u8 *const m, ipl_u64 l0, ipl_u32 l1, ipl_u32 l2, ipl_u64 l3, ipl_u64 l4);
static ipl_u32 ipl_to_ipl_nand_erase(ipl_u8 *const m, ipl_u64 l0, ipl_u32 l1);
static void ipl_w7_encode(ipl_u8 *const m, ipl_u64 l0, ipl_u64 l1, ipl_u64 l2, ipl_u64 l3);
static ipl_u32 ipl_w8_after_part(ipl_u8 *const m, ipl_u32 l0, ipl_u64 l1, ipl_u64 l2);
static void ipl_w9_read_chip(ipl_u8 *const m, ipl_u64 l0, ipl_u64 l1, ipl_u32 l2, ipl_u64 l3, ipl_u64 l4, ipl_u64 l5, ipl_u64 l6, ipl_u32 l7, ipl_u32 l8);
static void ipl_w10_read_found(ipl_u8 *const m, ipl_u64 l0, ipl_u64 l1, ipl_u32 l2, ipl_u32 l3, ipl_u64 l4);
static void ipl_w11_add(ipl_u8 *const m, ipl_u64 l0, ipl_u64 l1);
static void ipl_w12_decode_written(ipl_u8 *const m, ipl_u64 l0, ipl_u64 l1, ipl_u32 l2);
static void ipl_w13_record_at(ipl_u8 *const m, ipl_u64 l0, ipl_u64 l1, ipl_u64 l2, ipl_u32 l3);
static void ipl_w14_add(ipl_u8 *const m, ipl_u64 l0, ipl_u32 l1, ipl_u32 l2, ipl_u32 l3, ipl_u32 l4);
static ipl_u32 ipl_w15_add_payload(ipl_u8 *const m, ipl_u64 l0, ipl_u64 l1, ipl_u64 l2);
static ipl_u32 ipl_w16_grow_amortized(ipl_u8 *const m, ipl_u64 l0);
static ipl_u32 ipl_w17_grow_amortized(ipl_u8 *const m, ipl_u64 l0);
static void ipl_w18_new(ipl_u8 *const m, ipl_u64 l0, ipl_u32 l1, ipl_u32 l2);
static void ipl_w19_filled(ipl_u8 *const m, ipl_u64 l0, ipl_u64 l1, ipl_u64 l2);
static void ipl_w20_filled(ipl_u8 *const m, ipl_u64 l0, ipl_u64 l1, ipl_u64 l2, ipl_u64 l3);
static void ipl_w21_new(ipl_u8 *const m, ipl_u64 l0, ipl_u32 l1, ipl_u32 l2);
static void ipl_w22_new(ipl_u8 *const m, ipl_u64 l0, ipl_u64 l1);
static void ipl_w23_read_live(ipl_u8 *const m, ipl_u64 l0, ipl_u64 l1, ipl_u64 l2, ipl_u64 l3, ipl_u32 l4, ipl_u64 l5);
static void ipl_w24_read_spot(ipl_u8 *const m, ipl_u64 l0, ipl_u64 l1, ipl_u32 l2, ipl_u64 l3, ipl_u32 l4, ipl_u32 l5, ipl_u64 l6);
static ipl_u32 ipl_w25_grow_amortized(ipl_u8 *const m, ipl_u64 l0);
static void ipl_w26_rebuild(ipl_u8 *const m, ipl_u64 l0, ipl_u64 l1, ipl_u32 l2, ipl_u32 l3, ipl_u64 l4, ipl_u64 l5, ipl_u64 l6, ipl_u32 l7, ipl_u64 l8, ipl_u64 l9, ipl_u64 l10, ipl_u64 l11);
static void ipl_w27_read_page(ipl_u8 *const m, ipl_u64 l0, ipl_u64 l1, ipl_u32 l2, ipl_u64 l3, ipl_u32 l4, ipl_u32 l5, ipl_u64 l6, ipl_u64 l7);
static void ipl_w28_rotate_left(ipl_u8 *const m, ipl_u64 l0, ipl_u64 l1, ipl_u64 l2);
static ipl_u32 ipl_w29_apply_where_room(ipl_u8 *const m, ipl_u64 l0, ipl_u64 l1);
static ipl_u32 ipl_w30_set_pending(ipl_u8 *const m, ipl_u64 l0, ipl_u32 l1, ipl_u64 l2, ipl_u64 l3);
static void ipl_w31_read_pieces(ipl_u8 *const m, ipl_u64 l0, ipl_u64 l1, ipl_u32 l2, ipl_u64 l3, ipl_u32 l4, ipl_u32 l5, ipl_u64 l6, ipl_u64 l7);
static void ipl_w32_set(ipl_u8 *const m, ipl_u64 l0, ipl_u32 l1, ipl_u64 l2, ipl_u64 l3);
static void ipl_w33_swap_with_slice(ipl_u8 *const m, ipl_u64 l0, ipl_u64 l1, ipl_u64 l2);
static void ipl_w34_turn_through_room(ipl_u8 *const m, ipl_u64 l0, ipl_u64 l1, ipl_u64 l2, ipl_u64 l3);
static void ipl_w35_mirror(ipl_u8 *const m, ipl_u64 l0, ipl_u64 l1, ipl_u64 l2, ipl_u64 l3);
static void ipl_w36_memory(ipl_u8 *const m, ipl_u64 l0, ipl_u64 l1, ipl_u32 l2);
static void ipl_w37_open(ipl_u8 *const m, ipl_u64 l0, ipl_u64 l1, ipl_u64 l2);
static void ipl_w38_renew_with(ipl_u8 *const m, ipl_u64 l0, ipl_u64 l1, ipl_u64 l2, ipl_u64 l3, ipl_u32 l4);
static void ipl_w39_join_unit(ipl_u8 *const m, ipl_u64 l0, ipl_u64 l1, ipl_u64 l2, ipl_u64 l3, ipl_u32 l4);
static void ipl_w40_merge_learnt(ipl_u8 *const m, ipl_u64 l0, ipl_u64 l1, ipl_u64 l2, ipl_u32 l3);
static void ipl_w41_take_place(ipl_u8 *const m, ipl_u64 l0, ipl_u64 l1, ipl_u64 l2);
static void ipl_w42_of(ipl_u8 *const m, ipl_u64 l0, ipl_u64 l1, ipl_u64 l2, ipl_u64 l3);
static ipl_u32 ipl_w43_pack_carried(ipl_u8 *const m, ipl_u64 l0, ipl_u64 l1, ipl_u64 l2);
static ipl_u32 ipl_w44_groups_equal(ipl_u8 *const m, ipl_u64 l0, ipl_u64 l1, ipl_u64 l2);
static ipl_u32 ipl_w45_put(ipl_u8 *const m, ipl_u64 l0, ipl_u64 l1);
static void ipl_w46_take_next(ipl_u8 *const m, ipl_u64 l0, ipl_u64 l1, ipl_u64 l2);
static void ipl_w47_load(ipl_u8 *const m, ipl_u64 l0, ipl_u64 l1, ipl_u64 l2, ipl_u64 l3, ipl_u64 l4, ipl_u64 l5, ipl_u64 l6, ipl_u32 l7, ipl_u32 l8, ipl_u64 l9, ipl_u64 l10);
static void ipl_w48_get(ipl_u8 *const m, ipl_u64 l0, ipl_u64 l1, ipl_u64 l2, ipl_u32 l3, ipl_u32 l4);
static void ipl_w49_bring(ipl_u8 *const m, ipl_u64 l0, ipl_u64 l1, ipl_u64 l2, ipl_u32 l3, ipl_u32 l4);
static void ipl_w50_seen(ipl_u8 *const m, ipl_u64 l0, ipl_u64 l1, ipl_u32 l2, ipl_u32 l3);
static void ipl_w51_fetch(ipl_u8 *const m, ipl_u64 l0, ipl_u64 l1, ipl_u64 l2, ipl_u32 l3, ipl_u32 l4);
static void ipl_w52_write_out(ipl_u8 *const m, ipl_u64 l0, ipl_u64 l1, ipl_u64 l2, ipl_u32 l3, ipl_u32 l4);
static void ipl_w53_rotate_left(ipl_u8 *const m, ipl_u64 l0, ipl_u64 l1, ipl_u64 l2);
static void ipl_w54_remove(ipl_u8 *const m, ipl_u64 l0, ipl_u64 l1);
static void ipl_w55_swap_with_slice(ipl_u8 *const m, ipl_u64 l0, ipl_u64 l1, ipl_u64 l2);
static void ipl_w56_turn_through_room(ipl_u8 *const m, ipl_u64 l0, ipl_u64 l1, ipl_u64 l2, ipl_u64 l3);
static void ipl_w57_mirror(ipl_u8 *const m, ipl_u64 l0, ipl_u64 l1, ipl_u64 l2, ipl_u64 l3);
static void ipl_w58_share(ipl_u8 *const m, ipl_u64 l0, ipl_u64 l1, ipl_u64 l2, ipl_u32 l3, ipl_u32 l4);
static void ipl_w59_reserves(ipl_u8 *const m, ipl_u64 l0, ipl_u64 l1);
static ipl_u32 ipl_w60_is_retired(ipl_u8 *const m, ipl_u64 l0, ipl_u32 l1);
static void ipl_w61_merge(ipl_u8 *const m, ipl_u64 l0, ipl_u64 l1, ipl_u64 l2, ipl_u32 l3);
static void ipl_w62_close(ipl_u8 *const m, ipl_u64 l0, ipl_u64 l1, ipl_u64 l2);
static void ipl_w63_put(ipl_u8 *const m, ipl_u64 l0, ipl_u64 l1, ipl_u64 l2, ipl_u32 l3, ipl_u32 l4, ipl_u64 l5, ipl_u64 l6);
static void ipl_w64_refuses_write(ipl_u8 *const m, ipl_u64 l0, ipl_u64 l1, ipl_u64 l2, ipl_u32 l3, ipl_u32 l4, ipl_u32 l5);
static void ipl_w65_write(ipl_u8 *const m, ipl_u64 l0, ipl_u64 l1, ipl_u64 l2, ipl_u32 l3, ipl_u32 l4, ipl_u64 l5);
static void ipl_w66_del(ipl_u8 *const m, ipl_u64 l0, ipl_u64 l1, ipl_u64 l2, ipl_u32 l3, ipl_u32 l4);
static void ipl_w67_commit(ipl_u8 *const m, ipl_u64 l0, ipl_u64 l1, ipl_u64 l2, ipl_u64 l3, ipl_u64 l4, ipl_u64 l5);
static void ipl_w68_end_all(ipl_u8 *const m, ipl_u64 l0, ipl_u64 l1, ipl_u64 l2);
static void ipl_w69_commit_all(ipl_u8 *const m, ipl_u64 l0, ipl_u64 l1, ipl_u64 l2, ipl_u64 l3, ipl_u64 l4);
static void ipl_w70_abort(ipl_u8 *const m, ipl_u64 l0, ipl_u64 l1, ipl_u32 l2);
static void ipl_w71_look(ipl_u8 *const m, ipl_u64 l0, ipl_u64 l1, ipl_u64 l2, ipl_u32 l3, ipl_u32 l4, ipl_u64 l5);
static ipl_u32 ipl_w_ipl_port_format(ipl_u8 *const m, ipl_u64 l0, ipl_u32 l1, ipl_u32 l2, ipl_u64 l3);
static ipl_u32 ipl_w_ipl_port_look(ipl_u8 *const m, ipl_u64 l0, ipl_u64 l1, ipl_u64 l2);
static ipl_u32 ipl_w_ipl_port_check(ipl_u8 *const m, ipl_u64 l0, ipl_u32 l1, ipl_u64 l2);
static ipl_u32 ipl_w_ipl_port_open_keys(ipl_u8 *const m, ipl_u64 l0, ipl_u32 l1, ipl_u32 l2, ipl_u64 l3, ipl_u64 l4);
static ipl_u32 ipl_w_ipl_port_open_records(ipl_u8 *const m, ipl_u64 l0, ipl_u32 l1, ipl_u32 l2, ipl_u64 l3, ipl_u64 l4);
static ipl_u32 ipl_w_ipl_port_read(ipl_u8 *const m, ipl_u64 l0, ipl_u64 l1, ipl_u64 l2);
static ipl_u32 ipl_w_ipl_port_make_reader(ipl_u8 *const m, ipl_u64 l0, ipl_u32 l1, ipl_u64 l2, ipl_u64 l3);
static ipl_u32 ipl_w_ipl_port_call(ipl_u8 *const m, ipl_u64 l0, ipl_u64 l1, ipl_u64 l2);

/* sector_format::encoding::encode */
static void ipl_w7_encode(ipl_u8 *const m, ipl_u64 l0, ipl_u64 l1, ipl_u64 l2, ipl_u64 l3) {
    ipl_u32 l7 = 0, l8 = 0, l9 = 0, t1, t2, t3, t6, t7;
    ipl_u64 l4 = 0, l5 = 0, l6 = 0, t4, t5;
    IPL_ENDS
    l4 = (l3 + 32u);
    if ((l4 - l1) >= l2) goto L2;
    l5 = l4;
    l6 = l2;
    IPL_RISE(l5, l1, l6);
    l5 = (l5 + l6);
    l1 = (l1 + l6);
    l6 = 0u;
    goto L1;
L2:;
    if (l2 == 0) goto L1;
    IPL_COPY(l4, l1, l2);
L1:;
    l1 = (l2 - 479u);
    if (l1 > 1u) goto L6;
    switch ((ipl_u32)l1) {
    case 1u: goto L4;
    default: goto L5;
    }
L6:;
    l1 = (479u - l2);
    if (l1 == 0) goto L5;
    IPL_FILL(((l3 + l2) + 32u), 0u, l1);
L5:;
    IPL_S8((l3 + 511u), 0u, 0u);
L4:;
    l5 = (ipl_u64)7u;
    l7 = 0u;
L7:;
    l1 = (ipl_u64)0u;
    l8 = 0u;
    l8 = (IPL_BITS((l4 + l1), (64u - l1)) | l8);
    l1 = 64u;
    if ((l8 & 255u) != 0) goto L10;
    t1 = ((IPL_L32T((((ipl_u64)(l7 >> 14) & 1020u) + 1610613760ull), 1610612736u) ^ IPL_L32T((((ipl_u64)(l7 >> 22) & 1020u) + 1610612736ull), 1610612736u)) ^ IPL_L32T((((ipl_u64)(l7 >> 6) & 1020u) + 1610614784ull), 1610612736u));
    l7 = (t1 ^ IPL_L32T((((ipl_u64)(l7 << 2) & 1020u) + 1610615808ull), 1610612736u));
    goto L9;
L10:;
    t2 = ipl_w8_after_part(m, l7, l4, (ipl_u64)64u);
    l7 = t2;
L9:;
    l4 = (l4 + 64u);
    l5 = (l5 - 1u);
    if (l5 != 0u) goto L7;
    t3 = ipl_w8_after_part(m, l7, (l3 + 480u), (ipl_u64)32u);
    l7 = t3;
    l1 = IPL_L64(l0, 8u);
    l4 = IPL_L64(l0, 16u);
    l8 = IPL_L32(l0, 4u);
    IPL_S16U(l3, 4u, IPL_L16U(l0, 0u));
    IPL_S32U(l3, 0u, (ipl_u32)827084873u);
    l9 = (ipl_u32)l2;
    IPL_S16U(l3, 6u, ((l9 << 8) | ((l9 & 65280u) >> 8)));
    IPL_S32U(l3, 8u, (ipl_rotr32((l8 & (ipl_u32)16711935u), 8u) | (ipl_rotr32(l8, 24u) & (ipl_u32)16711935u)));
    t4 = ((((l4 << 56) | ((l4 & 65280u) << 40)) | (((l4 & 16711680ull) << 24) | ((l4 & 4278190080ull) << 8))) | ((((l4 >> 8) & 4278190080ull) | ((l4 >> 24) & 16711680ull)) | (((l4 >> 40) & 65280u) | (l4 >> 56))));
    IPL_S64U(l3, 20u, t4);
    t5 = ((((l1 << 56) | ((l1 & 65280u) << 40)) | (((l1 & 16711680ull) << 24) | ((l1 & 4278190080ull) << 8))) | ((((l1 >> 8) & 4278190080ull) | ((l1 >> 24) & 16711680ull)) | (((l1 >> 40) & 65280u) | (l1 >> 56))));
    IPL_S64U(l3, 12u, t5);
    t6 = ipl_w8_after_part(m, (ipl_u32)4294967295u, l3, (ipl_u64)28u);
    l8 = t6;
    t7 = (((l7 ^ IPL_L32T((((ipl_u64)(l8 >> 22) & 1020u) + 1610633216ull), 1610612736u)) ^ IPL_L32T((((ipl_u64)(l8 >> 14) & 1020u) + 1610634240ull), 1610612736u)) ^ IPL_L32T((((ipl_u64)(l8 >> 6) & 1020u) + 1610635264ull), 1610612736u));
    l8 = ((t7 ^ IPL_L32T((((ipl_u64)(l8 << 2) & 1020u) + 1610636288ull), 1610612736u)) ^ (ipl_u32)4294967295u);
    IPL_S32U(l3, 28u, (ipl_rotr32((l8 & (ipl_u32)16711935u), 8u) | (ipl_rotr32(l8, 24u) & (ipl_u32)16711935u)));
}

/* crc_sum::sum::after_part */
static ipl_u32 ipl_w8_after_part(ipl_u8 *const m, ipl_u32 l0, ipl_u64 l1, ipl_u64 l2) {
    ipl_u32 l6 = 0, t1, t2, t3, t4, t5, t6, t7;
    ipl_u64 l3 = 0, l4 = 0, l5 = 0;
    IPL_ENDS
    l3 = ((l2 >> 2) & 3u);
    l4 = (l2 >> 4);
    if (l4 == 0) goto L1;
    l5 = l1;
L2:;
    l6 = IPL_L32U(l5, 12u);
    t1 = ((IPL_L32T((((ipl_u64)(l6 >> 14) & 1020u) + 1610617856ull), 1610612736u) ^ IPL_L32T((((ipl_u64)(l6 >> 22) & 1020u) + 1610616832ull), 1610612736u)) ^ IPL_L32T((((ipl_u64)(l6 >> 6) & 1020u) + 1610618880ull), 1610612736u));
    t2 = (t1 ^ IPL_L32T((((ipl_u64)(l6 << 2) & 1020u) + 1610619904ull), 1610612736u));
    l6 = IPL_L32U(l5, 8u);
    t3 = (((t2 ^ IPL_L32T((((ipl_u64)(l6 >> 22) & 1020u) + 1610620928ull), 1610612736u)) ^ IPL_L32T((((ipl_u64)(l6 >> 14) & 1020u) + 1610621952ull), 1610612736u)) ^ IPL_L32T((((ipl_u64)(l6 >> 6) & 1020u) + 1610622976ull), 1610612736u));
    t4 = (t3 ^ IPL_L32T((((ipl_u64)(l6 << 2) & 1020u) + 1610624000ull), 1610612736u));
    l6 = IPL_L32U(l5, 4u);
    t5 = (((t4 ^ IPL_L32T((((ipl_u64)(l6 >> 22) & 1020u) + 1610625024ull), 1610612736u)) ^ IPL_L32T((((ipl_u64)(l6 >> 14) & 1020u) + 1610626048ull), 1610612736u)) ^ IPL_L32T((((ipl_u64)(l6 >> 6) & 1020u) + 1610627072ull), 1610612736u));
    l0 = (IPL_L32U(l5, 0u) ^ l0);
    t6 = (((t5 ^ IPL_L32T((((ipl_u64)(l6 << 2) & 1020u) + 1610628096ull), 1610612736u)) ^ IPL_L32T((((ipl_u64)(l0 >> 22) & 1020u) + 1610629120ull), 1610612736u)) ^ IPL_L32T((((ipl_u64)(l0 >> 14) & 1020u) + 1610630144ull), 1610612736u));
    l0 = ((t6 ^ IPL_L32T((((ipl_u64)(l0 >> 6) & 1020u) + 1610631168ull), 1610612736u)) ^ IPL_L32T((((ipl_u64)(l0 << 2) & 1020u) + 1610632192ull), 1610612736u));
    l5 = (l5 + 16u);
    l4 = (l4 - 1u);
    if (l4 != 0u) goto L2;
L1:;
    l4 = (l2 & 3u);
    if (l3 == 0) goto L3;
    l5 = (l1 + (l2 & 18446744073709551600ull));
L4:;
    l0 = (IPL_L32U(l5, 0u) ^ l0);
    t7 = ((IPL_L32T((((ipl_u64)(l0 >> 14) & 1020u) + 1610617856ull), 1610612736u) ^ IPL_L32T((((ipl_u64)(l0 >> 22) & 1020u) + 1610616832ull), 1610612736u)) ^ IPL_L32T((((ipl_u64)(l0 >> 6) & 1020u) + 1610618880ull), 1610612736u));
    l0 = (t7 ^ IPL_L32T((((ipl_u64)(l0 << 2) & 1020u) + 1610619904ull), 1610612736u));
    l5 = (l5 + 4u);
    l3 = (l3 - 1u);
    if (l3 != 0u) goto L4;
L3:;
    if (l4 == 0) goto L5;
    l5 = (l1 + (l2 & 18446744073709551612ull));
L6:;
    l0 = (IPL_L32T(((((ipl_u64)(IPL_L8(l5, 0u) ^ l0) & 255u) << 2) + 4096u), 0u) ^ (l0 >> 8));
    l5 = (l5 + 1u);
    l4 = (l4 - 1u);
    if (l4 != 0u) goto L6;
L5:;
    return l0;
}

/* restart::recovery::read_chip::<#81e02dbab8cd6729> */
static void ipl_w9_read_chip(ipl_u8 *const m, ipl_u64 l0, ipl_u64 l1, ipl_u32 l2, ipl_u64 l3, ipl_u64 l4, ipl_u64 l5, ipl_u64 l6, ipl_u32 l7, ipl_u32 l8) {
    ipl_u32 l23 = 0, l24 = 0, l25 = 0, l28 = 0, l29 = 0, l30 = 0, l31 = 0, l32 = 0, l33 = 0, l34 = 0, l37 = 0, l38 = 0, l39 = 0, l42 = 0, l43 = 0, l44 = 0;
    ipl_u32 l46 = 0, l47 = 0, t4, t5, t6, t7, t8, t9, t10, t11, t12, t13, t14;
    ipl_u64 l9 = 0, l10 = 0, l11 = 0, l12 = 0, l13 = 0, l14 = 0, l15 = 0, l16 = 0, l17 = 0, l18 = 0, l19 = 0, l20 = 0, l21 = 0, l22 = 0, l26 = 0, l27 = 0;
    ipl_u64 l35 = 0, l36 = 0, l40 = 0, l41 = 0, l45 = 0, l48 = 0, l49 = 0, l50 = 0, l51 = 0, l52 = 0, l53 = 0, l54 = 0, l55 = 0, l56 = 0, t1, t2;
    ipl_u64 t3, t15, t16;
    IPL_ENDS
    t1 = IPL_G(0);
    l9 = (t1 - 3584u);
    IPL_G(0) = l9;
    IPL_FILL((l9 + 8u), 0u, (ipl_u64)552u);
    if (l2 == 0) goto L5;
    l10 = ((l9 + 3088u) | 3u);
    l11 = ((l9 + 2592u) + 3u);
    l12 = ((l9 + 8u) + 40u);
    l13 = ((l9 + 8u) + 8u);
    l14 = (l9 + 1620u);
    l15 = (ipl_u64)l2;
    l16 = (l9 + 641u);
    l17 = ((l9 + 560u) + 40u);
    l18 = ((l9 + 560u) + 16u);
    l19 = ((l9 + 560u) + 8u);
    l20 = ((l9 + 2592u) + 24u);
    l21 = (ipl_u64)0u;
    l22 = (ipl_u64)0u;
    l23 = 0u;
    l24 = 0u;
    l25 = 0u;
    l26 = (ipl_u64)0u;
    l27 = (ipl_u64)0u;
    l28 = 0u;
    l29 = 0u;
    l30 = 0u;
L8:;
    IPL_FILL((l9 + 1584u), 0u, (ipl_u64)512u);
    IPL_S64(l9, 2632u, (ipl_u64)0u);
    IPL_S64(l9, 2624u, (ipl_u64)0u);
    IPL_S64(l9, 2616u, (ipl_u64)0u);
    IPL_S64(l9, 2608u, (ipl_u64)0u);
    IPL_S64(l9, 2600u, (ipl_u64)0u);
    IPL_S64(l9, 2592u, (ipl_u64)0u);
    l31 = (ipl_u32)l26;
    ipl_w10_read_found(m, (l9 + 2592u), l1, l31, 0u, (l9 + 1584u));
    l32 = IPL_L32(l9, 2612u);
    l33 = IPL_L32(l9, 2608u);
    l34 = IPL_L32(l9, 2600u);
    if (IPL_L8(l9, 2592u) != 0) goto L7;
    l35 = IPL_L64(l9, 2632u);
    l36 = (ipl_u64)0u;
    IPL_S64(l9, 3096u, (ipl_u64)0u);
    IPL_S64(l9, 3088u, (ipl_u64)0u);
    l37 = 0u;
    l38 = 0u;
    l39 = 0u;
    l40 = (ipl_u64)0u;
    l41 = (ipl_u64)0u;
    l34 = (ipl_u32)((l34 & 255u) != 2u);
    if (l34 != 0) goto L9;
    IPL_S64(l9, 3096u, IPL_L64(l20, 8u));
    IPL_S64(l9, 3088u, IPL_L64(l20, 0u));
    l40 = (ipl_u64)1u;
    l38 = l33;
    l39 = l32;
    l41 = l35;
L9:;
    IPL_S64(l18, 8u, IPL_L64(l9, 3096u));
    IPL_S64(l18, 0u, IPL_L64(l9, 3088u));
    IPL_S64(l9, 592u, l41);
    IPL_S32(l9, 572u, l39);
    IPL_S64(l9, 560u, l40);
    IPL_S32(l9, 568u, l38);
    IPL_COPY(l17, (l9 + 1584u), (ipl_u64)512u);
    l42 = 1u;
    if (l34 == 0) goto L11;
    l32 = 0u;
    l43 = 0u;
    l34 = 0u;
    l44 = 0u;
    l33 = 0u;
    l35 = (ipl_u64)0u;
    l45 = (ipl_u64)0u;
    goto L10;
L11:;
    l37 = 0u;
    l32 = 0u;
    l43 = 0u;
    l34 = 0u;
    l44 = 0u;
    l33 = 0u;
    l35 = (ipl_u64)0u;
    l45 = (ipl_u64)0u;
    if (((l38 + (ipl_u32)4294967295u) & 255u) > 2u) goto L10;
    l46 = (l38 >> 8);
    l32 = 1u;
    l47 = (l38 & 255u);
    switch ((l47 + (ipl_u32)4294967295u)) {
    case 0u: goto L16;
    case 1u: goto L15;
    default: goto L14;
    }
L16:;
    l32 = 0u;
    if (l41 != ((l46 & 255u) < 3u ? (ipl_u64)20u : (ipl_u64)24u)) goto L14;
    IPL_S64U(l9, 2599u, IPL_L64U(l14, 7u));
    IPL_S64(l9, 2592u, IPL_L64U(l14, 0u));
    l35 = (ipl_u64)0u;
L18:;
    if (l35 == 15u) goto L17;
    l36 = ((l9 + 2592u) + l35);
    l35 = (l35 + 1u);
    if (IPL_L8(l36, 0u) < 17u) goto L18;
    goto L14;
L17:;
    l32 = (ipl_u32)(IPL_L8(l9, 651u) < 13u);
    goto L14;
L15:;
    l37 = (l46 & 255u);
    if (l37 > 2u) goto L20;
    if (l41 == 4u) goto L19;
    l32 = 0u;
    goto L14;
L20:;
    if (l41 >= 9u) goto L21;
    l32 = 0u;
    goto L14;
L21:;
    l32 = 0u;
    if (l41 != (((ipl_u64)IPL_L8(l9, 640u) << 2) + 9u)) goto L13;
L19:;
    l33 = IPL_L32(l9, 632u);
    l37 = ((ipl_u32)(l37 < 3u) | (ipl_u32)(l41 < 9u));
    l48 = (l37 != 0 ? (ipl_u64)0u : (l41 - 9u));
    l45 = (l48 >> 2);
    if (l45 == 0) goto L22;
    l35 = (l37 != 0 ? 1610637312ull : l16);
    l32 = 0u;
    l36 = l45;
    l34 = 0u;
L23:;
    l37 = IPL_L32U(l35, 0u);
    l37 = (ipl_rotr32((l37 & (ipl_u32)16711935u), 8u) | (ipl_rotr32(l37, 24u) & (ipl_u32)16711935u));
    if (l37 < l34) goto L14;
    if (l2 <= l37) goto L14;
    l35 = (l35 + 4u);
    l34 = (l37 + 1u);
    l36 = (l36 - 1u);
    if (l36 != 0u) goto L23;
L22:;
    if (l48 <= 259u) goto L24;
    l32 = 0u;
    goto L14;
L24:;
    l32 = (ipl_u32)(((l45 + (ipl_u64)(ipl_rotr32((l33 & (ipl_u32)16711935u), 8u) | (ipl_rotr32(l33, 24u) & (ipl_u32)16711935u))) + 4u) <= l15);
L14:;
    l43 = 0u;
    l44 = 0u;
    if (l41 < 4u) goto L12;
L13:;
    l37 = IPL_L32(l9, 632u);
    l44 = (ipl_rotr32((l37 & (ipl_u32)16711935u), 8u) | (ipl_rotr32(l37, 24u) & (ipl_u32)16711935u));
    l43 = 1u;
L12:;
    l35 = IPL_L64(l9, 584u);
    l36 = IPL_L64(l9, 576u);
    l45 = (ipl_u64)1u;
    l42 = 0u;
    l33 = 1u;
    if (l47 > 3u) goto L25;
    if ((l46 & 255u) < 3u) goto L25;
    l33 = 1u;
    if (l41 < (l47 == 1u ? (ipl_u64)24u : (ipl_u64)8u)) goto L25;
    l37 = IPL_L32(((l9 + 560u) + (l47 == 1u ? (ipl_u64)92u : (ipl_u64)76u)), 0u);
    l33 = (ipl_rotr32((l37 & (ipl_u32)16711935u), 8u) | (ipl_rotr32(l37, 24u) & (ipl_u32)16711935u));
L25:;
    l37 = l38;
    l34 = l39;
L10:;
    l41 = (l3 + (l26 * 40u));
    IPL_S64U(l41, 0u, l45);
    IPL_S64U(l41, 32u, l35);
    IPL_S64U(l41, 24u, l36);
    IPL_S32U(l41, 20u, l33);
    IPL_S32U(l41, 16u, l44);
    IPL_S32U(l41, 12u, l34);
    IPL_S8(l41, 11u, 0u);
    IPL_S8(l41, 10u, l43);
    IPL_S8(l41, 9u, l32);
    IPL_S8(l41, 8u, l37);
    if (l42 != 0) goto L27;
    IPL_S64U(l9, 3103u, l36);
    IPL_S32U(l9, 3099u, l33);
    IPL_S32U(l9, 3095u, l44);
    IPL_S32U(l9, 3091u, l34);
    IPL_S8(l9, 3089u, l43);
    IPL_S8(l9, 3088u, l32);
    IPL_S8(l9, 3090u, 0u);
    if ((l37 & 255u) != 2u) goto L27;
    if (((ipl_u32)((l29 & 255u) != 0u) & (ipl_u32)(l27 >= l35)) != 0) goto L27;
    IPL_S64(l13, 24u, IPL_L64(l19, 24u));
    IPL_S64(l13, 16u, IPL_L64(l19, 16u));
    IPL_S64(l13, 8u, IPL_L64(l19, 8u));
    IPL_S64(l13, 0u, IPL_L64(l19, 0u));
    IPL_COPY(l12, (l9 + 1584u), (ipl_u64)512u);
    l30 = (IPL_L16(l9, 3088u) | (IPL_L8(l9, 3090u) << 16));
    l29 = 1u;
    l21 = l40;
    l24 = l34;
    l28 = l31;
    l41 = l10;
    l27 = l35;
    goto L26;
L27:;
    IPL_S64U(l9, 2607u, l22);
    IPL_S32U(l9, 2603u, l23);
    IPL_S32U(l9, 2599u, l25);
    IPL_S32U(l9, 2595u, l24);
    l41 = l11;
L26:;
    l22 = IPL_L64U(l41, 12u);
    l23 = IPL_L32U(l41, 8u);
    l25 = IPL_L32U(l41, 4u);
    l26 = (l26 + 1u);
    if (l26 != l15) goto L8;
    IPL_S64(l9, 8u, l21);
    if ((l29 & 255u) == 0) goto L5;
    l43 = 0u;
    l39 = (l2 + (ipl_u32)4294967292u);
    l42 = (l30 & (ipl_u32)16777215u);
    l44 = ((l42 & 256u) != 0 ? l25 : l39);
    if ((l44 + (ipl_u32)4294967295u) < l39) goto L6;
    l38 = 0u;
    goto L4;
L7:;
    l38 = IPL_L8(l9, 2596u);
    l37 = IPL_L32(l9, 2604u);
    l43 = 3u;
    goto L2;
L6:;
    l38 = 0u;
    l34 = 0u;
    l37 = 0u;
    l33 = 0u;
    l32 = 0u;
    if (l39 > (l44 + 64u)) goto L2;
    l11 = (ipl_u64)l44;
    l41 = (l11 - 1u);
    if (l41 == 0) goto L28;
    l26 = ((l11 * 48u) - 48u);
    if (l26 == 0) goto L28;
    IPL_FILL(l5, 0u, l26);
L28:;
    l41 = (l5 + (l41 * 48u));
    IPL_S64U(l41, 40u, (ipl_u64)0u);
    IPL_S64U(l41, 32u, (ipl_u64)0u);
    IPL_S64U(l41, 24u, (ipl_u64)0u);
    IPL_S64U(l41, 16u, (ipl_u64)0u);
    IPL_S64U(l41, 8u, (ipl_u64)0u);
    IPL_S64U(l41, 0u, (ipl_u64)0u);
    l25 = (ipl_u32)(l4 == 0);
    if (l25 != 0) goto L29;
    l20 = ((l9 + 1584u) + 12u);
    l27 = ((l9 + 3088u) + 12u);
    l21 = ((l9 + 560u) + 12u);
    l35 = ((l9 + 560u) + 8u);
    l38 = 0u;
    l41 = l3;
    l40 = l4;
L30:;
    if (IPL_L8(l41, 0u) != 1u) goto L31;
    l34 = IPL_L32U(l41, 8u);
    if ((l34 & 255u) != 1u) goto L31;
    l37 = IPL_L32U(l41, 12u);
    if (l44 <= l37) goto L31;
    l36 = (l41 + 16u);
    l45 = IPL_L64U(l41, 32u);
    l26 = (l5 + ((ipl_u64)l37 * 48u));
    l18 = (l26 + 40u);
    IPL_S64U(l35, 32u, IPL_L64U(l18, 0u));
    IPL_S64U(l35, 24u, IPL_L64U(l26, 32u));
    IPL_S64U(l35, 16u, IPL_L64U(l26, 24u));
    IPL_S64U(l35, 8u, IPL_L64U(l26, 16u));
    l13 = (l26 + 8u);
    IPL_S64U(l35, 0u, IPL_L64U(l13, 0u));
    l32 = IPL_L8(l26, 0u);
    IPL_S32(l9, 1584u, 0u);
    IPL_S32(l9, 3088u, 0u);
    if (l32 != 0) goto L33;
    IPL_S64U(l20, 0u, IPL_L64U(l36, 0u));
    IPL_S64U(l20, 8u, IPL_L64U(l36, 8u));
    IPL_S32(l9, 1592u, l37);
    IPL_S32(l9, 1588u, l34);
    l36 = (l9 + 1584u);
    l34 = l38;
    goto L32;
L33:;
    l17 = IPL_L64(l9, 600u);
    if (l17 < l45) goto L35;
    l34 = IPL_L32(l9, 568u);
    l36 = l21;
    l45 = l17;
    goto L34;
L35:;
    IPL_S64U(l27, 0u, IPL_L64U(l36, 0u));
    IPL_S64U(l27, 8u, IPL_L64U(l36, 8u));
    IPL_S32(l9, 3096u, l37);
    IPL_S32(l9, 3092u, l34);
    l36 = (l9 + 3088u);
    l34 = l38;
L34:;
    IPL_S32(l9, 2616u, IPL_L32U(l36, 24u));
    IPL_S64(l9, 2608u, IPL_L64U(l36, 16u));
    IPL_S64(l9, 2600u, IPL_L64U(l36, 8u));
    IPL_S64(l9, 2592u, IPL_L64U(l36, 0u));
    l36 = (l9 + 2592u);
L32:;
    l37 = IPL_L32(l36, 24u);
    IPL_S32(l9, 2120u, l37);
    l17 = IPL_L64U(l36, 16u);
    IPL_S64(l9, 2112u, l17);
    l19 = IPL_L64U(l36, 8u);
    IPL_S64(l9, 2104u, l19);
    l36 = IPL_L64U(l36, 0u);
    IPL_S64(l9, 2096u, l36);
    IPL_S32U(l13, 0u, l34);
    IPL_S64U(l26, 0u, (ipl_u64)1u);
    IPL_S64U(l26, 12u, l36);
    IPL_S64U(l26, 20u, l19);
    IPL_S64U(l26, 28u, l17);
    IPL_S32U(l26, 36u, l37);
    IPL_S64U(l18, 0u, l45);
L31:;
    l38 = (l38 + 1u);
    l41 = (l41 + 40u);
    l40 = (l40 - 1u);
    if (l40 != 0u) goto L30;
L29:;
    l41 = l5;
    l26 = l11;
L36:;
    if (IPL_L8(l41, 0u) != 1u) goto L37;
    l39 = (IPL_L8(l41, 18u) & 1u);
    if (l39 == 0) goto L37;
    l43 = 0u;
    l38 = 0u;
    l34 = 0u;
    l37 = 0u;
    l33 = 0u;
    l32 = 0u;
    if ((l39 != 0 ? IPL_L32U(l41, 24u) : 0u) != l44) goto L2;
L37:;
    l41 = (l41 + 48u);
    l26 = (l26 - 1u);
    if (l26 != 0u) goto L36;
    l37 = 0u;
    l41 = l5;
    l26 = l11;
    l38 = 0u;
L38:;
    if (IPL_L8(l41, 0u) == 1u) goto L39;
    l43 = 2u;
    l34 = 0u;
    goto L3;
L39:;
    l41 = (l41 + 48u);
    l38 = (l38 + 1u);
    l26 = (l26 - 1u);
    if (l26 != 0u) goto L38;
    l41 = l5;
    l26 = l11;
L42:;
    if (IPL_L8(l41, 0u) != 1u) goto L43;
    if ((IPL_L8(l41, 17u) & 1u) == 0) goto L41;
L43:;
    l41 = (l41 + 48u);
    l26 = (l26 - 1u);
    if (l26 != 0u) goto L42;
    if ((l42 & 1u) != 0) goto L40;
    l43 = 3u;
    l38 = 3u;
    l34 = l28;
    goto L3;
L41:;
    l34 = IPL_L32U(l41, 8u);
    l43 = 3u;
    l38 = 3u;
    goto L3;
L40:;
    l36 = IPL_L64(l6, 8u);
    l41 = (l36 + 8u);
    if (IPL_L64(l41, 0u) == 0) goto L44;
    IPL_S64(l41, 0u, (ipl_u64)0u);
L44:;
    if (l44 == 0) goto L45;
    l35 = (l11 << 2);
    l41 = (ipl_u64)0u;
    l40 = (l36 + 8u);
    l26 = (ipl_u64)1u;
L46:;
    IPL_S32((IPL_L64(l36, 0u) + l41), 0u, 0u);
    IPL_S64(l40, 0u, l26);
    l26 = (l26 + 1u);
    l41 = (l41 + 4u);
    if (l35 != l41) goto L46;
L45:;
    l41 = IPL_L64(l36, 40u);
    if (l41 == 0) goto L47;
    l26 = IPL_L64(l36, 32u);
    l41 = (l41 - 1u);
    l38 = (ipl_u32)(l41 == 0);
    if (l38 != 0) goto L48;
    if (l38 != 0) goto L48;
    IPL_FILL(l26, 0u, l41);
L48:;
    IPL_S8((l26 + l41), 0u, 0u);
L47:;
    l41 = IPL_L64(l36, 72u);
    if (l41 == 0) goto L49;
    l35 = IPL_L64(l36, 64u);
    l40 = (l41 - 1u);
    if (l40 == 0) goto L50;
    l41 = l35;
    l26 = l40;
L51:;
    IPL_S32(l41, 0u, 1u);
    l41 = (l41 + 4u);
    l26 = (l26 - 1u);
    if (l26 != 0u) goto L51;
L50:;
    IPL_S32((l35 + (l40 << 2)), 0u, 1u);
L49:;
    l41 = IPL_L64((l36 + 352u), 0u);
    if (l41 == 0) goto L52;
    l41 = (l41 << 2);
    if (l41 == 0) goto L53;
    IPL_FILL((l36 + 96u), 0u, l41);
L53:;
    IPL_S64((l36 + 352u), 0u, (ipl_u64)0u);
L52:;
    l41 = (l36 + 368u);
    if (IPL_L64(l41, 0u) == 0) goto L54;
    IPL_S64(l41, 0u, (ipl_u64)0u);
L54:;
    if (l44 == 0) goto L55;
    l35 = (l11 << 2);
    l41 = (ipl_u64)0u;
    l40 = (l36 + 360u);
    l45 = (l36 + 368u);
    l26 = (ipl_u64)1u;
L56:;
    IPL_S32((IPL_L64(l40, 0u) + l41), 0u, 32u);
    IPL_S64(l45, 0u, l26);
    l26 = (l26 + 1u);
    l41 = (l41 + 4u);
    if (l35 != l41) goto L56;
L55:;
    l41 = (l36 + 400u);
    if (IPL_L64(l41, 0u) == 0) goto L57;
    IPL_S64(l41, 0u, (ipl_u64)0u);
L57:;
    if (l44 == 0) goto L58;
    l35 = (l11 << 3);
    l40 = (l36 + 392u);
    l45 = (l36 + 400u);
    l41 = (ipl_u64)1u;
    l26 = (ipl_u64)0u;
L59:;
    IPL_S64((IPL_L64(l40, 0u) + l26), 0u, (ipl_u64)0u);
    IPL_S64(l45, 0u, l41);
    l41 = (l41 + 1u);
    l26 = (l26 + 8u);
    if (l35 != l26) goto L59;
L58:;
    l41 = (l36 + 432u);
    if (IPL_L64(l41, 0u) == 0) goto L60;
    IPL_S64(l41, 0u, (ipl_u64)0u);
L60:;
    if (l44 == 0) goto L61;
    l40 = (l11 * 30u);
    l45 = (l36 + 424u);
    l18 = (l36 + 432u);
    l26 = (ipl_u64)1u;
    l35 = (ipl_u64)0u;
L62:;
    l41 = (IPL_L64(l45, 0u) + l35);
    IPL_S64U(l41, 22u, (ipl_u64)0u);
    IPL_S64U(l41, 16u, (ipl_u64)0u);
    IPL_S64U(l41, 8u, (ipl_u64)0u);
    IPL_S64U(l41, 0u, (ipl_u64)0u);
    IPL_S64(l18, 0u, l26);
    l26 = (l26 + 1u);
    l35 = (l35 + 30u);
    if (l40 != l35) goto L62;
    l45 = (l36 + 360u);
    l18 = (l36 + 392u);
    l13 = (l36 + 424u);
    l41 = (ipl_u64)0u;
L63:;
    l26 = (l5 + (l41 * 48u));
    if (IPL_L8(l26, 0u) != 1u) goto L64;
    l35 = IPL_L64U(l26, 32u);
    l40 = (l41 << 2);
    l38 = IPL_L32U(l26, 8u);
    IPL_S32((IPL_L64(l36, 0u) + l40), 0u, l38);
    IPL_S8((IPL_L64(l36, 32u) + (ipl_u64)l38), 0u, 1u);
    IPL_S32((IPL_L64(l45, 0u) + l40), 0u, 32u);
    IPL_S64((IPL_L64(l18, 0u) + (l41 << 3)), 0u, l35);
    l26 = (IPL_L64(l13, 0u) + (l41 * 30u));
    IPL_S64U(l26, 22u, (ipl_u64)0u);
    IPL_S64U(l26, 16u, (ipl_u64)0u);
    IPL_S64U(l26, 8u, (ipl_u64)0u);
    IPL_S64U(l26, 0u, (ipl_u64)0u);
L64:;
    l41 = (l41 + 1u);
    if (l41 != l11) goto L63;
L61:;
    IPL_FILL((l9 + 1256u), 0u, (ipl_u64)184u);
    if (l25 == 0) goto L66;
    l27 = (ipl_u64)0u;
    goto L65;
L66:;
    l41 = l3;
    l26 = l4;
    l27 = (ipl_u64)0u;
L67:;
    if (IPL_L8(l41, 0u) != 1u) goto L68;
    l35 = IPL_L64U(l41, 32u);
    l36 = IPL_L64U(l41, 24u);
    l35 = (l35 > l36 ? l35 : l36);
    l27 = (l35 > l27 ? l35 : l27);
L68:;
    l41 = (l41 + 40u);
    l26 = (l26 - 1u);
    if (l26 != 0u) goto L67;
L65:;
    IPL_FILL((l9 + 1112u), 0u, (ipl_u64)144u);
    l14 = IPL_L64(l6, 24u);
    IPL_S32(l14, 48u, 256u);
    l10 = (l14 + 24u);
    if (IPL_L64(l10, 0u) == 0) goto L69;
    IPL_S64(l10, 0u, (ipl_u64)0u);
L69:;
    l21 = (l14 + 16u);
    IPL_FILL((l9 + 1440u), 0u, (ipl_u64)144u);
    l43 = ((l44 + (ipl_u32)4294967295u) & 7u);
    l12 = ((l9 + 560u) + 32u);
    l41 = ((l11 + 7u) >> 3);
    l49 = (l12 + l41);
    l50 = (l41 + 4u);
    l39 = (ipl_u32)(l44 > 1024u);
    l34 = 0u;
    l32 = 0u;
    l33 = 0u;
    l51 = (ipl_u64)0u;
    l48 = (ipl_u64)0u;
    l52 = (ipl_u64)0u;
    l38 = 1u;
    l20 = (ipl_u64)0u;
L78:;
    IPL_FILL((l9 + 560u), 0u, (ipl_u64)512u);
    IPL_S64(l9, 1624u, (ipl_u64)0u);
    IPL_S64(l9, 1616u, (ipl_u64)0u);
    IPL_S64(l9, 1608u, (ipl_u64)0u);
    IPL_S64(l9, 1600u, (ipl_u64)0u);
    IPL_S64(l9, 1592u, (ipl_u64)0u);
    IPL_S64(l9, 1584u, (ipl_u64)0u);
    ipl_w10_read_found(m, (l9 + 1584u), l1, l28, l38, (l9 + 560u));
    l37 = IPL_L32(l9, 1592u);
    if (IPL_L8(l9, 1584u) != 0) goto L82;
    if ((l37 & 255u) != 2u) goto L83;
    l37 = IPL_L32(l9, 1600u);
    if (((l37 + (ipl_u32)4294967288u) & 255u) < 254u) goto L83;
    l18 = (ipl_u64)0u;
    if (IPL_L64(l9, 1608u) != l22) goto L79;
    l41 = IPL_L64(l9, 1624u);
    l16 = IPL_L64(l9, 1616u);
    if ((l37 & 255u) != 6u) goto L80;
    if ((l41 & 7u) != 0u) goto L77;
    if ((l41 - 1u) >= 487u) goto L77;
    l18 = (l16 > l22 ? l16 : l22);
    l17 = (l41 >> 3);
    l13 = (ipl_u64)0u;
L84:;
    l41 = IPL_L64U((l12 + (l13 << 3)), 0u);
    t2 = ((((l41 << 56) | ((l41 & 65280u) << 40)) | (((l41 & 16711680ull) << 24) | ((l41 & 4278190080ull) << 8))) | ((((l41 >> 8) & 4278190080ull) | ((l41 >> 24) & 16711680ull)) | (((l41 >> 40) & 65280u) | (l41 >> 56))));
    l40 = t2;
    l45 = IPL_L64(l21, 0u);
    l19 = IPL_L64(l10, 0u);
    if (l19 > 1u) goto L88;
    l41 = (ipl_u64)0u;
    switch ((ipl_u32)l19) {
    case 1u: goto L87;
    default: goto L86;
    }
L88:;
    l41 = (ipl_u64)0u;
    l26 = l19;
L89:;
    l35 = (l26 >> 1);
    l36 = (l35 + l41);
    l41 = (IPL_L64((l45 + (l36 << 3)), 0u) > l40 ? l41 : l36);
    l26 = (l26 - l35);
    if (l26 > 1u) goto L89;
    l41 = (l41 << 3);
L87:;
    if (IPL_L64((l45 + l41), 0u) == l40) goto L85;
L86:;
    if (l19 == IPL_L64(l14, 40u)) goto L81;
    ipl_w11_add(m, l21, l40);
L85:;
    l13 = (l13 + 1u);
    if (l13 != l17) goto L84;
    l26 = l12;
L90:;
    l41 = IPL_L64U(l26, 0u);
    t3 = ((((l41 << 56) | ((l41 & 65280u) << 40)) | (((l41 & 16711680ull) << 24) | ((l41 & 4278190080ull) << 8))) | ((((l41 >> 8) & 4278190080ull) | ((l41 >> 24) & 16711680ull)) | (((l41 >> 40) & 65280u) | (l41 >> 56))));
    l41 = t3;
    l18 = (l41 > l18 ? l41 : l18);
    l26 = (l26 + 8u);
    l17 = (l17 - 1u);
    if (!(l17 == 0)) goto L90;
    l52 = (l16 > l52 ? l16 : l52);
    goto L79;
L83:;
    l18 = (ipl_u64)0u;
    goto L79;
L82:;
    l41 = (ipl_u64)IPL_L8(l9, 1588u);
    l38 = IPL_L32(l9, 1596u);
    l35 = IPL_L64(l9, 1600u);
    l28 = l37;
    goto L76;
L81:;
    l37 = 6u;
    l26 = (ipl_u64)0u;
    l32 = 0u;
    l41 = (ipl_u64)0u;
    goto L73;
L80:;
    if (l41 != l50) goto L77;
    l42 = IPL_L32U(((l9 + 560u) + 32u), 0u);
    if ((ipl_rotr32((l42 & (ipl_u32)16711935u), 8u) | (ipl_rotr32(l42, 24u) & (ipl_u32)16711935u)) != l44) goto L77;
    if ((IPL_L8(l49, 3u) >> (l43 & 31u)) >= 2u) goto L77;
    l23 = IPL_L32(l9, 1604u);
    l18 = (l16 > l22 ? l16 : l22);
    l42 = (l34 & 255u);
    l34 = 1u;
    if (l42 == 0) goto L91;
    if (l48 >= l16) goto L79;
L91:;
    IPL_FILL((l9 + 1584u), 0u, (ipl_u64)144u);
    if (l39 != 0) goto L92;
    if (l50 == 0) goto L93;
    IPL_COPY((l9 + 1584u), l12, l50);
L93:;
    IPL_S64(l9, 1720u, l50);
L92:;
    IPL_COPY((l9 + 1440u), (l9 + 1584u), (ipl_u64)144u);
    l32 = l37;
    l33 = l23;
    l51 = l22;
    l48 = l16;
L79:;
    l20 = (l18 > l20 ? l18 : l20);
    l38 = (l38 + 1u);
    if (l38 != 256u) goto L78;
    IPL_S32(l14, 0u, l28);
    IPL_S64(l14, 8u, l22);
    if ((l7 & 1u) == 0) goto L75;
    IPL_COPY((l9 + 560u), (l9 + 1440u), (ipl_u64)144u);
    l41 = ((ipl_u64)l34 & 255u);
    goto L74;
L77:;
    l35 = (ipl_u64)0u;
    l41 = (ipl_u64)3u;
L76:;
    l26 = ((l35 << 32) | (ipl_u64)l38);
    l41 = (((ipl_u64)l28 << 32) | l41);
    l32 = (ipl_u32)(l35 >> 32);
    l37 = 3u;
    goto L73;
L75:;
    l33 = 0u;
    IPL_FILL((l9 + 560u), 0u, (ipl_u64)144u);
    l48 = (ipl_u64)0u;
    l51 = (ipl_u64)0u;
    l32 = 0u;
    l41 = (ipl_u64)0u;
    l52 = (ipl_u64)0u;
L74:;
    IPL_COPY((l9 + 1112u), (l9 + 560u), (ipl_u64)144u);
    IPL_S64(l9, 1280u, l48);
    IPL_S64(l9, 1272u, l51);
    IPL_S32(l9, 1268u, l33);
    IPL_S32(l9, 1264u, l32);
    IPL_S64(l9, 1256u, l41);
    l35 = ((l9 + 1256u) + 32u);
    IPL_COPY(l35, (l9 + 1112u), (ipl_u64)144u);
    IPL_S64(l9, 1432u, l52);
    if (l44 == 0) goto L94;
    if (l41 == 0) goto L94;
    if (l52 > l48) goto L94;
    l36 = IPL_L64(l9, 1424u);
    l41 = (ipl_u64)0u;
    l40 = (IPL_L64(l6, 8u) + 360u);
L95:;
    l26 = (l5 + (l41 * 48u));
    if (IPL_L8(l26, 0u) != 1u) goto L96;
    if (IPL_L64U(l26, 40u) >= l48) goto L96;
    l38 = (ipl_u32)l41;
    l26 = (ipl_u64)((l38 >> 3) + 4u);
    if (l36 <= l26) goto L96;
    if (((IPL_L8((l35 + l26), 0u) >> ((l38 & 7u) & 31u)) & 1u) == 0) goto L96;
    IPL_S32((IPL_L64(l40, 0u) + (l41 << 2)), 0u, 16u);
L96:;
    l41 = (l41 + 1u);
    if (l41 != l11) goto L95;
L94:;
    l41 = IPL_L64(l6, 0u);
    l26 = IPL_L64(l41, 40u);
    if (l26 == 0) goto L97;
    l35 = IPL_L64(l41, 32u);
    l26 = (l26 - 1u);
    l38 = (ipl_u32)(l26 == 0);
    if (l38 != 0) goto L98;
    if (l38 != 0) goto L98;
    IPL_FILL(l35, 0u, l26);
L98:;
    IPL_S8((l35 + l26), 0u, 0u);
L97:;
    l26 = IPL_L64(l41, 72u);
    if (l26 == 0) goto L99;
    l35 = IPL_L64(l41, 64u);
    l26 = (l26 - 1u);
    l38 = (ipl_u32)(l26 == 0);
    if (l38 != 0) goto L100;
    if (l38 != 0) goto L100;
    IPL_FILL(l35, 0u, l26);
L100:;
    IPL_S8((l35 + l26), 0u, 0u);
L99:;
    l26 = IPL_L64(l41, 104u);
    if (l26 == 0) goto L101;
    l35 = IPL_L64(l41, 96u);
    l26 = (l26 - 1u);
    l38 = (ipl_u32)(l26 == 0);
    if (l38 != 0) goto L102;
    if (l38 != 0) goto L102;
    IPL_FILL(l35, 0u, l26);
L102:;
    IPL_S8((l35 + l26), 0u, 0u);
L101:;
    IPL_S8(l41, 128u, 0u);
    l36 = IPL_L64(l6, 16u);
    l41 = (l36 + 16u);
    if (IPL_L64(l41, 0u) == 0) goto L103;
    IPL_S64(l41, 0u, (ipl_u64)0u);
L103:;
    if (l44 == 0) goto L104;
    l41 = (ipl_u64)0u;
    l26 = (l36 + 8u);
    l35 = (l36 + 16u);
L105:;
    IPL_S8((IPL_L64(l26, 0u) + l41), 0u, 0u);
    l41 = (l41 + 1u);
    IPL_S64(l35, 0u, l41);
    if (l11 != l41) goto L105;
L104:;
    l41 = (l36 + 48u);
    if (IPL_L64(l41, 0u) == 0) goto L106;
    IPL_S64(l41, 0u, (ipl_u64)0u);
L106:;
    l38 = (ipl_u32)(l20 > l27);
    IPL_S64U(l36, 88u, (ipl_u64)0u);
    IPL_S64U(l36, 80u, (ipl_u64)0u);
    IPL_S64U(l36, 72u, (ipl_u64)0u);
    l16 = (l6 + 32u);
    l41 = IPL_L64(l16, 0u);
    l26 = IPL_L64(l41, 8u);
    if (l26 == 0) goto L107;
    l35 = IPL_L64(l41, 0u);
    l26 = (l26 - 1u);
    l37 = (ipl_u32)(l26 == 0);
    if (l37 != 0) goto L108;
    if (l37 != 0) goto L108;
    IPL_FILL(l35, 0u, l26);
L108:;
    IPL_S8((l35 + l26), 0u, 0u);
L107:;
    l11 = (l38 != 0 ? l20 : l27);
    IPL_S64(l41, 32u, (ipl_u64)0u);
    l20 = ((l9 + 1584u) + 480u);
    l21 = ((l9 + 2592u) + 8u);
    l10 = ((l9 + 2592u) | 1u);
    l12 = ((l9 + 3088u) + 7u);
    l48 = ((l9 + 560u) | 1u);
    l14 = ((l9 + 2096u) + 7u);
    l19 = ((l9 + 1584u) + 32u);
    l50 = (l6 + 16u);
    l52 = (l6 + 24u);
    l17 = (ipl_u64)0u;
    l31 = 1u;
L109:;
    l18 = (l3 + (l17 * 40u));
    if (IPL_L8(l18, 0u) != 1u) goto L110;
    l27 = (l17 | 4294967296ull);
    l33 = (ipl_u32)l17;
    l45 = (ipl_u64)0u;
    l38 = 1u;
    l13 = (l18 + 12u);
L111:;
    IPL_FILL((l9 + 1584u), 0u, (ipl_u64)512u);
    if ((l38 & 255u) != 1u) goto L112;
    l37 = IPL_L32U(l13, 0u);
    l22 = (l18 + 8u);
    l38 = IPL_L8(l22, 0u);
    if (l45 == 0) goto L114;
    if ((l38 & 255u) == 3u) goto L113;
L114:;
    if ((l38 & 255u) != 1u) goto L112;
    if (l45 < 241u) goto L112;
    if (l44 <= l37) goto L112;
    l41 = (l5 + ((ipl_u64)l37 * 48u));
    if (IPL_L8(l41, 0u) != 1u) goto L112;
    if (l17 != (ipl_u64)IPL_L32U(l41, 8u)) goto L112;
L113:;
    l32 = (ipl_u32)l45;
    t4 = ipl_to_ipl_nand_read(m, IPL_L64(l1, 0u), l33, l32, (l9 + 1584u), (ipl_u64)512u);
    if (t4 != 0) goto L117;
    l41 = (ipl_u64)0u;
    IPL_S64(l9, 592u, (ipl_u64)0u);
    IPL_S64(l9, 584u, (ipl_u64)0u);
    IPL_S64(l9, 576u, (ipl_u64)0u);
    IPL_S64(l9, 568u, (ipl_u64)0u);
    IPL_S64(l9, 560u, (ipl_u64)0u);
L118:;
    if (l41 == 512u) goto L116;
    l26 = ((l9 + 1584u) + l41);
    l41 = (l41 + 1u);
    if (IPL_L8(l26, 0u) == 255u) goto L118;
    l40 = (ipl_u64)7u;
    l37 = 0u;
    l36 = (l9 + 1584u);
    l35 = l19;
L119:;
    l41 = (ipl_u64)0u;
    l38 = 0u;
    l38 = (IPL_BITS((l35 + l41), (64u - l41)) | l38);
    l41 = 64u;
    if ((l38 & 255u) == 0) goto L122;
    l26 = (ipl_u64)0u;
L123:;
    l41 = (l36 + l26);
    l38 = IPL_L32U(l41, 44u);
    t5 = ((IPL_L32T((((ipl_u64)(l38 >> 14) & 1020u) + 1610617856ull), 1610612736u) ^ IPL_L32T((((ipl_u64)(l38 >> 22) & 1020u) + 1610616832ull), 1610612736u)) ^ IPL_L32T((((ipl_u64)(l38 >> 6) & 1020u) + 1610618880ull), 1610612736u));
    t6 = (t5 ^ IPL_L32T((((ipl_u64)(l38 << 2) & 1020u) + 1610619904ull), 1610612736u));
    l38 = IPL_L32U(l41, 40u);
    t7 = (((t6 ^ IPL_L32T((((ipl_u64)(l38 >> 22) & 1020u) + 1610620928ull), 1610612736u)) ^ IPL_L32T((((ipl_u64)(l38 >> 14) & 1020u) + 1610621952ull), 1610612736u)) ^ IPL_L32T((((ipl_u64)(l38 >> 6) & 1020u) + 1610622976ull), 1610612736u));
    t8 = (t7 ^ IPL_L32T((((ipl_u64)(l38 << 2) & 1020u) + 1610624000ull), 1610612736u));
    l38 = IPL_L32U(l41, 36u);
    t9 = (((t8 ^ IPL_L32T((((ipl_u64)(l38 >> 22) & 1020u) + 1610625024ull), 1610612736u)) ^ IPL_L32T((((ipl_u64)(l38 >> 14) & 1020u) + 1610626048ull), 1610612736u)) ^ IPL_L32T((((ipl_u64)(l38 >> 6) & 1020u) + 1610627072ull), 1610612736u));
    t10 = (t9 ^ IPL_L32T((((ipl_u64)(l38 << 2) & 1020u) + 1610628096ull), 1610612736u));
    l38 = (IPL_L32U(l41, 32u) ^ l37);
    t11 = (((t10 ^ IPL_L32T((((ipl_u64)(l38 >> 22) & 1020u) + 1610629120ull), 1610612736u)) ^ IPL_L32T((((ipl_u64)(l38 >> 14) & 1020u) + 1610630144ull), 1610612736u)) ^ IPL_L32T((((ipl_u64)(l38 >> 6) & 1020u) + 1610631168ull), 1610612736u));
    l37 = (t11 ^ IPL_L32T((((ipl_u64)(l38 << 2) & 1020u) + 1610632192ull), 1610612736u));
    l26 = (l26 + 16u);
    if (l26 != 64u) goto L123;
    goto L121;
L122:;
    t12 = ((IPL_L32T((((ipl_u64)(l37 >> 14) & 1020u) + 1610613760ull), 1610612736u) ^ IPL_L32T((((ipl_u64)(l37 >> 22) & 1020u) + 1610612736ull), 1610612736u)) ^ IPL_L32T((((ipl_u64)(l37 >> 6) & 1020u) + 1610614784ull), 1610612736u));
    l37 = (t12 ^ IPL_L32T((((ipl_u64)(l37 << 2) & 1020u) + 1610615808ull), 1610612736u));
L121:;
    l35 = (l35 + 64u);
    l36 = (l36 + 64u);
    l40 = (l40 - 1u);
    if (l40 != 0u) goto L119;
    t13 = ipl_w8_after_part(m, l37, l20, (ipl_u64)32u);
    ipl_w12_decode_written(m, (l9 + 560u), (l9 + 1584u), t13);
    l38 = 1u;
    l34 = 0u;
    switch ((ipl_u32)(ipl_u64)IPL_L8(l9, 560u)) {
    case 1u: case 2u: goto L125;
    case 3u: goto L124;
    default: goto L115;
    }
L125:;
    l34 = 0u;
    l38 = 0u;
    goto L115;
L124:;
    l38 = 0u;
    l34 = 1u;
    l37 = IPL_L32(l9, 568u);
    if ((l37 & 255u) != 5u) goto L115;
    l40 = IPL_L64(l9, 592u);
    l41 = IPL_L64(l9, 584u);
    l26 = IPL_L64(l9, 576u);
    l37 = (l37 >> 8);
    if (IPL_L8(l18, 0u) != 1u) goto L126;
    l42 = IPL_L32(l9, 572u);
    if (IPL_L8(l22, 0u) == 3u) goto L127;
    if (IPL_L32U(l13, 0u) != l42) goto L126;
L127:;
    if (l44 <= l42) goto L126;
    l51 = (ipl_u64)l42;
    l35 = (l5 + (l51 * 48u));
    if (IPL_L8(l35, 0u) != 1u) goto L126;
    if (IPL_L64U(l35, 32u) != l26) goto L126;
    l49 = IPL_L64(l6, 0u);
    IPL_FILL((l9 + 560u), 0u, (ipl_u64)520u);
    l23 = (ipl_u32)(l40 == 0);
    if (l23 != 0) goto L128;
    l35 = l40;
    l36 = l19;
L129:;
    ipl_w13_record_at(m, (l9 + 560u), l36, l35, l37);
    if (IPL_L8(l9, 560u) != 1u) goto L72;
    l36 = IPL_L64(l9, 1064u);
    l35 = IPL_L64(l9, 1072u);
    if (!(l35 == 0)) goto L129;
L128:;
    l36 = (ipl_u64)IPL_L8((IPL_L64(l49, 32u) + l51), 0u);
    if (l36 == 0) goto L130;
    l35 = (IPL_L64(l49, 0u) + (l51 * 248u));
L131:;
    if (IPL_L64(l35, 0u) == l41) goto L72;
    l35 = (l35 + 8u);
    l36 = (l36 - 1u);
    if (!(l36 == 0)) goto L131;
L130:;
    if (IPL_L8(l18, 0u) != 1u) goto L132;
    if (IPL_L8(l22, 0u) != 3u) goto L132;
    if (IPL_L8((IPL_L64(l49, 64u) + l51), 0u) > 15u) goto L72;
L132:;
    l35 = IPL_L64(l6, 0u);
    l36 = (l35 + 32u);
    IPL_S64((IPL_L64(l35, 0u) + (((l51 * 31u) + (ipl_u64)IPL_L8((IPL_L64(l36, 0u) + l51), 0u)) << 3)), 0u, l41);
    l36 = (IPL_L64(l36, 0u) + l51);
    IPL_S8(l36, 0u, (IPL_L8(l36, 0u) + 1u));
    IPL_S8((IPL_L64(l35, 96u) + l17), 0u, 1u);
    IPL_S32(l9, 2096u, 0u);
    IPL_S32U(l9, 2099u, 0u);
    IPL_FILL((l9 + 560u), 0u, (ipl_u64)488u);
    l24 = (ipl_u32)(l40 > 480u);
    if (l24 != 0) goto L133;
    if (l23 != 0) goto L134;
    IPL_COPY((l9 + 560u), l19, l40);
L134:;
    IPL_S64(l9, 1040u, l40);
L133:;
    IPL_COPY(l14, (l9 + 560u), (ipl_u64)488u);
    IPL_S8(l9, 2592u, l37);
    IPL_COPY(l10, (l9 + 2096u), (ipl_u64)495u);
    l35 = IPL_L64(l9, 3080u);
    l43 = 0u;
    IPL_FILL((l9 + 560u), 0u, (ipl_u64)520u);
    ipl_w13_record_at(m, (l9 + 560u), l21, l35, l37);
    if (IPL_L8(l9, 560u) != 1u) goto L135;
    l43 = 0u;
L136:;
    l39 = IPL_L16(l9, 568u);
    l35 = IPL_L64(l9, 1072u);
    l36 = IPL_L64(l9, 1064u);
    IPL_FILL((l9 + 560u), 0u, (ipl_u64)520u);
    ipl_w13_record_at(m, (l9 + 560u), l36, l35, l37);
    l43 = ((1u << (l39 & 31u)) | l43);
    if (IPL_L8(l9, 560u) == 1u) goto L136;
L135:;
    l35 = IPL_L64(l6, 8u);
    if (IPL_L8(l18, 0u) != 1u) goto L138;
    if (IPL_L8(l22, 0u) != 3u) goto L138;
    l53 = IPL_L64(l6, 0u);
    l54 = IPL_L64(l50, 0u);
    l55 = (l54 + 72u);
    l35 = l55;
    l56 = (l54 + 88u);
    l49 = IPL_L64(l56, 0u);
    l36 = l49;
    if (l49 == 0) goto L141;
L142:;
    if (l17 == (ipl_u64)IPL_L32(l35, 0u)) goto L140;
    l35 = (l35 + 8u);
    l36 = (l36 - 1u);
    if (!(l36 == 0)) goto L142;
    if (l49 != 1u) goto L139;
L141:;
    IPL_S64U((l55 + (l49 << 3)), 0u, l27);
    IPL_S64(l56, 0u, (l49 + 1u));
L140:;
    ipl_w14_add(m, l54, l42, l33, l32, l43);
    l35 = (IPL_L64(l53, 64u) + l51);
    IPL_S8(l35, 0u, (IPL_L8(l35, 0u) + 1u));
    goto L137;
L139:;
    l35 = (IPL_L64(l53, 64u) + l51);
    IPL_S8(l35, 0u, (IPL_L8(l35, 0u) + 1u));
    IPL_S8(l53, 128u, 1u);
    goto L137;
L138:;
    IPL_S16(((IPL_L64((l35 + 424u), 0u) + (l51 * 30u)) + (((l45 << 1) + 8589934110ull) & 8589934590ull)), 0u, l43);
L137:;
    l43 = (l31 & 1u);
    l31 = 0u;
    if (l43 == 0) goto L126;
    l35 = IPL_L64(l52, 0u);
    l36 = IPL_L64(l16, 0u);
    IPL_S32(l9, 3088u, 0u);
    IPL_S32U(l9, 3091u, 0u);
    IPL_FILL((l9 + 2592u), 0u, (ipl_u64)488u);
    if (l24 != 0) goto L143;
    if (l23 != 0) goto L144;
    IPL_COPY((l9 + 2592u), l19, l40);
L144:;
    IPL_S64(l9, 3072u, l40);
L143:;
    IPL_COPY(l12, (l9 + 2592u), (ipl_u64)488u);
    IPL_S8(l9, 560u, l37);
    IPL_COPY(l48, (l9 + 3088u), (ipl_u64)495u);
    t14 = ipl_w15_add_payload(m, l36, (l9 + 560u), l35);
    l31 = t14;
L126:;
    l36 = (l41 > l26 ? l41 : l26);
    l26 = l40;
    l41 = l19;
    l23 = (ipl_u32)(l40 == 0);
    if (l23 == 0) goto L149;
    IPL_S32(l9, 3088u, 0u);
    IPL_S32U(l9, 3091u, 0u);
    IPL_FILL((l9 + 560u), 0u, (ipl_u64)480u);
    goto L148;
L149:;
L150:;
    if (l26 < 12u) goto L146;
    if (IPL_L8(l41, 0u) > 14u) goto L146;
    if ((l37 & 255u) != 1u) goto L152;
    if (IPL_L8(l41, 2u) >= 64u) goto L146;
    l35 = (ipl_u64)IPL_L8(l41, 3u);
    l43 = IPL_L8(l41, 1u);
    if ((l43 == 1u ? (ipl_u32)(l35 < 109u) : ((ipl_u32)(l43 == 2u) & (ipl_u32)(l35 == 0))) != 1u) goto L146;
    l35 = (l35 + 12u);
    if (l35 <= l26) goto L151;
    goto L146;
L152:;
    l35 = (((ipl_u64)IPL_L8(l41, 2u) << 8) | (ipl_u64)IPL_L8(l41, 3u));
    l42 = (ipl_u32)(l35 < 465u);
    l39 = IPL_L8(l41, 1u);
    l43 = (l39 >> 6);
    if ((l43 == 1u ? l42 : ((ipl_u32)(l43 == 2u) & (ipl_u32)(l35 == 0))) != 1u) goto L146;
    l35 = (l35 + 12u);
    if (l35 > l26) goto L146;
    if ((l39 & 192u) != 64u) goto L151;
    if (l42 == 0) goto L145;
L151:;
    l41 = (l41 + l35);
    l26 = (l26 - l35);
    if (l26 != 0u) goto L150;
    IPL_S32(l9, 3088u, 0u);
    IPL_S32U(l9, 3091u, 0u);
    IPL_FILL((l9 + 560u), 0u, (ipl_u64)488u);
    if (l40 > 480u) goto L147;
L148:;
    if (l23 != 0) goto L153;
    IPL_COPY((l9 + 560u), l19, l40);
L153:;
    IPL_S64(l9, 1040u, l40);
L147:;
    IPL_COPY(l12, (l9 + 560u), (ipl_u64)488u);
    IPL_S8(l9, 2592u, l37);
    IPL_COPY(l10, (l9 + 3088u), (ipl_u64)495u);
    l41 = IPL_L64(l9, 3080u);
    IPL_FILL((l9 + 560u), 0u, (ipl_u64)520u);
    ipl_w13_record_at(m, (l9 + 560u), l21, l41, l37);
    if (IPL_L8(l9, 560u) != 1u) goto L146;
    l41 = IPL_L64(l9, 576u);
    l36 = (l41 > l36 ? l41 : l36);
    l35 = IPL_L64(l9, 1072u);
    if (l35 < 12u) goto L146;
    l26 = IPL_L64(l9, 1064u);
L154:;
    if (IPL_L8(l26, 0u) > 14u) goto L146;
    if ((l37 & 255u) != 1u) goto L156;
    if (IPL_L8(l26, 2u) >= 64u) goto L146;
    l41 = (ipl_u64)IPL_L8(l26, 3u);
    l43 = IPL_L8(l26, 1u);
    if ((l43 == 1u ? (ipl_u32)(l41 < 109u) : ((ipl_u32)(l43 == 2u) & (ipl_u32)(l41 == 0))) != 1u) goto L146;
    l40 = (l41 + 12u);
    if (l40 <= l35) goto L155;
    goto L146;
L156:;
    l41 = (((ipl_u64)IPL_L8(l26, 2u) << 8) | (ipl_u64)IPL_L8(l26, 3u));
    l42 = (ipl_u32)(l41 < 465u);
    l39 = IPL_L8(l26, 1u);
    l43 = (l39 >> 6);
    if ((l43 == 1u ? l42 : ((ipl_u32)(l43 == 2u) & (ipl_u32)(l41 == 0))) != 1u) goto L146;
    l40 = (l41 + 12u);
    if (l40 > l35) goto L146;
    if ((l39 & 192u) != 64u) goto L155;
    if (l42 == 0) goto L145;
L155:;
    l41 = IPL_L64U(l26, 4u);
    t15 = ((((l41 << 56) | ((l41 & 65280u) << 40)) | (((l41 & 16711680ull) << 24) | ((l41 & 4278190080ull) << 8))) | ((((l41 >> 8) & 4278190080ull) | ((l41 >> 24) & 16711680ull)) | (((l41 >> 40) & 65280u) | (l41 >> 56))));
    l41 = t15;
    l36 = (l41 > l36 ? l41 : l36);
    l26 = (l26 + l40);
    l35 = (l35 - l40);
    if (l35 > 11u) goto L154;
L146:;
    l11 = (l36 > l11 ? l36 : l11);
    goto L115;
L145:;
    ipl_trap(m);
L117:;
    l41 = (l1 + 24u);
    t16 = l41;
    l41 = (IPL_L64(l41, 0u) + 1u);
    IPL_S64(t16, 0u, (l41 == 0 ? 18446744073709551615ull : l41));
    l26 = (ipl_u64)0u;
    l41 = (ipl_u64)0u;
    goto L71;
L116:;
    l38 = 1u;
    l34 = 0u;
L115:;
    if (IPL_L8(l18, 0u) != 1u) goto L112;
    if (IPL_L8(l22, 0u) != 1u) goto L112;
    l41 = (IPL_L64((IPL_L64(l6, 8u) + 360u), 0u) + ((ipl_u64)IPL_L32U(l13, 0u) << 2));
    l37 = IPL_L32(l41, 0u);
    if ((l38 | (ipl_u32)((l37 & (ipl_u32)4294967280u) != 16u)) != 0) goto L157;
    l37 = (l34 != 0 ? (l37 == (l32 + (ipl_u32)4294967071u) ? (l37 + 1u) : 32u) : 32u);
L157:;
    IPL_S32(l41, 0u, l37);
L112:;
    l45 = (l45 + 1u);
    if (l45 == 256u) goto L110;
    l38 = IPL_L8(l18, 0u);
    goto L111;
L110:;
    l17 = (l17 + 1u);
    if (l17 != l15) goto L109;
    l40 = IPL_L64(l6, 0u);
    if ((ipl_s64)l11 > (ipl_s64)18446744073709551615ull) goto L158;
    if ((l8 & 1u) == 0) goto L158;
    l26 = (ipl_u64)0u;
    l38 = 0u;
    l37 = 4u;
    l34 = 0u;
    l32 = 0u;
    goto L70;
L158:;
    if (l25 != 0) goto L160;
    l41 = (ipl_u64)0u;
    l38 = 0u;
    l36 = (l40 + 96u);
L161:;
    l35 = (l41 & 4294967295ull);
    l26 = (l3 + (l35 * 40u));
    if (IPL_L8(l26, 0u) != 1u) goto L162;
    if (IPL_L8(l26, 8u) != 3u) goto L162;
    l38 = (l38 + IPL_L8((IPL_L64(l36, 0u) + l35), 0u));
L162:;
    l41 = (l41 + 1u);
    if (l4 != l41) goto L161;
    if (l38 <= 2u) goto L163;
    l26 = (ipl_u64)0u;
    l32 = 0u;
    l37 = 5u;
    l34 = 0u;
    goto L70;
L163:;
    l18 = IPL_L64(l6, 8u);
    l45 = (l18 + 32u);
    IPL_S8((IPL_L64(l45, 0u) + (ipl_u64)l28), 0u, 1u);
    l41 = (ipl_u64)0u;
    l36 = (l40 + 96u);
L164:;
    l35 = (l41 & 4294967295ull);
    l26 = (l3 + (l35 * 40u));
    if (IPL_L8(l26, 0u) != 1u) goto L165;
    if (IPL_L8(l26, 8u) != 3u) goto L165;
    if (IPL_L8((IPL_L64(l36, 0u) + l35), 0u) != 1u) goto L165;
    IPL_S8((IPL_L64(l45, 0u) + l35), 0u, 1u);
L165:;
    l41 = (l41 + 1u);
    if (l4 != l41) goto L164;
    l41 = (ipl_u64)0u;
    l26 = (l18 + 64u);
L166:;
    IPL_S32((IPL_L64(l26, 0u) + (l41 & 17179869180ull)), 0u, (IPL_L8(l3, 0u) == 1u ? IPL_L32U(l3, 20u) : 1u));
    l3 = (l3 + 40u);
    l41 = (l41 + 4u);
    l4 = (l4 - 1u);
    if (!(l4 == 0)) goto L166;
    goto L159;
L160:;
    IPL_S8((IPL_L64((IPL_L64(l6, 8u) + 32u), 0u) + (ipl_u64)l28), 0u, 1u);
L159:;
    l17 = (ipl_u64)l31;
    if (IPL_L8(l9, 8u) != 1u) goto L167;
    if (IPL_L8(l9, 17u) < 3u) goto L167;
    l41 = IPL_L64(l9, 40u);
    if (l41 < 9u) goto L167;
    l3 = ((l41 - 9u) >> 2);
    if (l3 == 0) goto L167;
    l15 = (l9 + 89u);
    l41 = IPL_L64(l6, 8u);
    l40 = (l41 + 96u);
    l45 = (ipl_u64)0u;
    l22 = (l41 + 40u);
    l1 = (l41 + 32u);
    l13 = (l41 + 352u);
L168:;
    l41 = IPL_L64(l22, 0u);
    l37 = IPL_L32U((l15 + (l45 << 2)), 0u);
    l36 = IPL_L64(l1, 0u);
    l26 = l36;
    l34 = 0u;
L170:;
    if (l41 == 0) goto L169;
    l41 = (l41 - 1u);
    l38 = IPL_L8(l26, 0u);
    l35 = (l26 + 1u);
    l26 = l35;
    if (l38 != 0) goto L170;
    l34 = (l34 + 1u);
    l26 = l35;
    goto L170;
L169:;
    l37 = (ipl_rotr32((l37 & (ipl_u32)16711935u), 8u) | (ipl_rotr32(l37, 24u) & (ipl_u32)16711935u));
    IPL_S8((l36 + (ipl_u64)l37), 0u, 1u);
    l41 = IPL_L64(l22, 0u);
    l26 = IPL_L64(l1, 0u);
    l32 = 0u;
L172:;
    if (l41 == 0) goto L171;
    l41 = (l41 - 1u);
    l38 = IPL_L8(l26, 0u);
    l35 = (l26 + 1u);
    l26 = l35;
    if (l38 != 0) goto L172;
    l32 = (l32 + 1u);
    l26 = l35;
    goto L172;
L171:;
    if (l32 >= l34) goto L173;
    l41 = (ipl_u64)0u;
    l18 = IPL_L64(l13, 0u);
    if (l18 > 1u) goto L176;
    l26 = l18;
    switch ((ipl_u32)l18) {
    case 1u: goto L175;
    default: goto L174;
    }
L176:;
    l26 = l18;
L177:;
    l35 = (l26 >> 1);
    l36 = (l35 + l41);
    l41 = (IPL_L32((l40 + (l36 << 2)), 0u) > l37 ? l41 : l36);
    l26 = (l26 - l35);
    if (l26 > 1u) goto L177;
L175:;
    l26 = l41;
    l38 = IPL_L32((l40 + (l41 << 2)), 0u);
    switch ((l38 == l37 ? 1u : (l38 < l37 ? 0u : 2u))) {
    case 1u: goto L173;
    case 2u: goto L174;
    default: goto L178;
    }
L178:;
    l26 = (l41 + 1u);
L174:;
    IPL_S32((l40 + (l18 << 2)), 0u, l37);
    l35 = (l18 + 1u);
    IPL_S64(l13, 0u, l35);
    l41 = (l40 + (l26 << 2));
    l35 = (l35 - l26);
    l26 = (l35 - 1u);
    if (l26 > 1u) goto L179;
    switch ((ipl_u32)l26) {
    case 1u: goto L180;
    default: goto L173;
    }
L180:;
    IPL_S64U(l41, 0u, ipl_rotl64(IPL_L64U(l41, 0u), (ipl_u64)32u));
    goto L173;
L179:;
    l26 = ((l35 << 2) - 4u);
    l38 = IPL_L32((l26 + l41), 0u);
    if (l26 == 0) goto L181;
    IPL_COPY((l41 + 4u), l41, l26);
L181:;
    IPL_S32(l41, 0u, l38);
L173:;
    l45 = (l45 + 1u);
    if (l45 != l3) goto L168;
L167:;
    l35 = (l17 & 255u);
    l41 = IPL_L64(l6, 16u);
    l26 = IPL_L64(l41, 88u);
    if (l26 == 0) goto L182;
    l41 = (l41 + 76u);
L183:;
    IPL_S32U(l41, 0u, 256u);
    l41 = (l41 + 8u);
    l26 = (l26 - 1u);
    if (l26 != 0u) goto L183;
L182:;
    IPL_S64U(l0, 0u, (ipl_u64)0u);
    IPL_S64U(l0, 16u, l35);
    IPL_S64U(l0, 8u, l11);
    l32 = 0u;
    goto L1;
L73:;
    l34 = (ipl_u32)(l41 >> 32);
    l38 = (ipl_u32)l41;
    goto L70;
L72:;
    l26 = (l45 & 4294967295ull);
    l41 = ((l17 << 32) | 3u);
L71:;
    l34 = (ipl_u32)(l41 >> 32);
    l38 = (ipl_u32)l41;
    l32 = 0u;
    l37 = 3u;
L70:;
    IPL_S64U(l0, 16u, l26);
    IPL_S32U(l0, 12u, l34);
    IPL_S32U(l0, 8u, l38);
    IPL_S32U(l0, 4u, l37);
    IPL_S32U(l0, 0u, 1u);
    goto L1;
L5:;
    l38 = 0u;
    l43 = 1u;
L4:;
    l34 = 0u;
    l37 = 0u;
L3:;
    l33 = 0u;
    l32 = 0u;
L2:;
    IPL_S32U(l0, 0u, 1u);
    IPL_S32U(l0, 20u, l33);
    IPL_S32U(l0, 16u, l37);
    IPL_S32U(l0, 12u, l34);
    IPL_S32U(l0, 8u, l38);
    IPL_S32U(l0, 4u, l43);
L1:;
    IPL_S32U(l0, 24u, l32);
    IPL_G(0) = (l9 + 3584u);
}

/* unit_io::reading::read_found::<#81e02dbab8cd6729> */
static void ipl_w10_read_found(ipl_u8 *const m, ipl_u64 l0, ipl_u64 l1, ipl_u32 l2, ipl_u32 l3, ipl_u64 l4) {
    ipl_u32 l8 = 0, t2, t3, t4, t5;
    ipl_u64 l5 = 0, l6 = 0, l7 = 0, t1, t6;
    IPL_ENDS
    t1 = IPL_G(0);
    l5 = (t1 - 96u);
    IPL_G(0) = l5;
    t2 = ipl_to_ipl_nand_read(m, IPL_L64(l1, 0u), l2, l3, l4, (ipl_u64)512u);
    if (t2 != 0) goto L4;
    l1 = (ipl_u64)0u;
    IPL_S64(l5, 32u, (ipl_u64)0u);
    IPL_S64(l5, 24u, (ipl_u64)0u);
    IPL_S64(l5, 88u, (ipl_u64)0u);
    IPL_S64(l5, 80u, (ipl_u64)0u);
    IPL_S64(l5, 72u, (ipl_u64)0u);
    IPL_S64(l5, 64u, (ipl_u64)0u);
    IPL_S64(l5, 56u, (ipl_u64)0u);
L5:;
    if (l1 == 512u) goto L3;
    l6 = (l4 + l1);
    l1 = (l1 + 1u);
    if (IPL_L8(l6, 0u) == 255u) goto L5;
    l6 = (l4 + 32u);
    l7 = (ipl_u64)7u;
    l2 = 0u;
L6:;
    l1 = (ipl_u64)0u;
    l3 = 0u;
    l3 = (IPL_BITS((l6 + l1), (64u - l1)) | l3);
    l1 = 64u;
    if ((l3 & 255u) != 0) goto L9;
    t3 = ((IPL_L32T((((ipl_u64)(l2 >> 14) & 1020u) + 1610613760ull), 1610612736u) ^ IPL_L32T((((ipl_u64)(l2 >> 22) & 1020u) + 1610612736ull), 1610612736u)) ^ IPL_L32T((((ipl_u64)(l2 >> 6) & 1020u) + 1610614784ull), 1610612736u));
    l2 = (t3 ^ IPL_L32T((((ipl_u64)(l2 << 2) & 1020u) + 1610615808ull), 1610612736u));
    goto L8;
L9:;
    t4 = ipl_w8_after_part(m, l2, l6, (ipl_u64)64u);
    l2 = t4;
L8:;
    l6 = (l6 + 64u);
    l7 = (l7 - 1u);
    if (l7 != 0u) goto L6;
    t5 = ipl_w8_after_part(m, l2, (l4 + 480u), (ipl_u64)32u);
    ipl_w12_decode_written(m, (l5 + 56u), l4, t5);
    IPL_S64(l5, 40u, IPL_L64(l5, 72u));
    IPL_S64(l5, 48u, IPL_L64(l5, 80u));
    l1 = (ipl_u64)0u;
    l3 = IPL_L8(l5, 56u);
    l2 = l3;
    l8 = l3;
    switch (l3) {
    case 1u: case 2u: goto L10;
    case 3u: goto L11;
    default: goto L2;
    }
L11:;
    l2 = IPL_L32(l5, 68u);
    l3 = IPL_L32(l5, 64u);
    l1 = IPL_L64(l5, 88u);
    IPL_S64(l5, 32u, IPL_L64(l5, 48u));
    IPL_S64(l5, 24u, IPL_L64(l5, 40u));
    l8 = 2u;
    goto L2;
L10:;
    l8 = 1u;
    l3 = 0u;
    l2 = 0u;
    goto L2;
L4:;
    l1 = (l1 + 24u);
    t6 = l1;
    l1 = (IPL_L64(l1, 0u) + 1u);
    IPL_S64(t6, 0u, (l1 == 0 ? 18446744073709551615ull : l1));
    IPL_S64U(l0, 4u, (ipl_u64)0u);
    IPL_S32U(l0, 0u, 1u);
    IPL_S64U(l0, 12u, (ipl_u64)0u);
    IPL_S64U(l0, 20u, (ipl_u64)0u);
    IPL_S64U(l0, 28u, (ipl_u64)0u);
    IPL_S64U(l0, 36u, (ipl_u64)0u);
    IPL_S32U(l0, 44u, 0u);
    goto L1;
L3:;
    l1 = (ipl_u64)0u;
    l3 = 0u;
    l2 = 0u;
    l8 = 0u;
L2:;
    l6 = IPL_L64(l5, 32u);
    IPL_S64(l5, 16u, l6);
    l7 = IPL_L64(l5, 24u);
    IPL_S64(l5, 8u, l7);
    IPL_S32U(l0, 20u, l2);
    IPL_S32U(l0, 16u, l3);
    IPL_S32U(l0, 12u, 0u);
    IPL_S32U(l0, 8u, l8);
    IPL_S64U(l0, 0u, (ipl_u64)0u);
    IPL_S64U(l0, 24u, l7);
    IPL_S64U(l0, 32u, l6);
    IPL_S64U(l0, 40u, l1);
L1:;
    IPL_G(0) = (l5 + 96u);
}

/* number_set::number_set::NumberSet::add */
static void ipl_w11_add(ipl_u8 *const m, ipl_u64 l0, ipl_u64 l1) {
    ipl_u32 t1;
    ipl_u64 l2 = 0, l3 = 0, l4 = 0, l5 = 0, l6 = 0, l7 = 0, l8 = 0, l9 = 0, l10 = 0, l11 = 0;
    IPL_ENDS
    l2 = IPL_L64(l0, 0u);
    l3 = (ipl_u64)0u;
    l4 = (l0 + 8u);
    l5 = IPL_L64(l4, 0u);
    if (l5 > 1u) goto L4;
    l6 = l5;
    switch ((ipl_u32)l5) {
    case 1u: goto L3;
    default: goto L2;
    }
L4:;
    l7 = l5;
L5:;
    l8 = (l7 >> 1);
    l9 = (l8 + l3);
    l3 = (IPL_L64((l2 + (l9 << 3)), 0u) > l1 ? l3 : l9);
    l7 = (l7 - l8);
    if (l7 > 1u) goto L5;
L3:;
    l6 = l3;
    l7 = IPL_L64((l2 + (l3 << 3)), 0u);
    switch ((l7 == l1 ? 1u : (l7 < l1 ? 0u : 2u))) {
    case 1u: goto L1;
    case 2u: goto L2;
    default: goto L6;
    }
L6:;
    l6 = (l3 + 1u);
L2:;
    l10 = IPL_L64(l0, 16u);
    if (l10 != l5) goto L7;
    t1 = ipl_w16_grow_amortized(m, l0);
    if (t1 == 0) goto L1;
    l10 = IPL_L64(l0, 16u);
    l5 = IPL_L64(l0, 8u);
    l2 = IPL_L64(l0, 0u);
L7:;
    IPL_S64(l4, 8u, (ipl_u64)0u);
    IPL_S64(l4, 0u, (ipl_u64)0u);
    if (l6 != 18446744073709551615ull) goto L9;
    l7 = l2;
    l11 = (l5 + 1u);
    l3 = l11;
    if (l11 < 257u) goto L11;
    l8 = l2;
    l9 = (ipl_u64)0u;
    l7 = (ipl_u64)0u;
L12:;
    l4 = l7;
    if (l4 == 0) goto L14;
    l3 = (ipl_u64)2048u;
L15:;
    l7 = (l8 + l3);
    IPL_S64((l7 - 8u), 0u, IPL_L64((l7 - 16u), 0u));
    l3 = (l3 - 8u);
    if (l3 != 0u) goto L15;
    goto L13;
L14:;
    l7 = IPL_L64(((l2 + (l9 << 11)) - 8u), 0u);
    l3 = (ipl_u64)0u;
L16:;
    IPL_S64((l8 + l3), 0u, l7);
    l3 = (l3 + 8u);
    if (l3 != 2048u) goto L16;
L13:;
    l8 = (l8 + 2048u);
    l9 = (l9 + 1u);
    l7 = (l4 + 256u);
    l3 = (l11 - l7);
    if (l3 > 256u) goto L12;
    if (l7 != 0u) goto L10;
    l7 = (l2 + (l7 << 3));
L11:;
    if (l11 == 0) goto L8;
    l8 = IPL_L64((l7 - 8u), 0u);
L17:;
    IPL_S64(l7, 0u, l8);
    l7 = (l7 + 8u);
    l3 = (l3 - 1u);
    if (!(l3 == 0)) goto L17;
    goto L8;
L10:;
    if (l11 == l7) goto L8;
    l7 = ((l5 - l4) - 255u);
    l3 = (((l5 << 3) + l2) - 8u);
L18:;
    IPL_S64(l3, 8u, IPL_L64(l3, 0u));
    l3 = (l3 - 8u);
    l7 = (l7 - 1u);
    if (!(l7 == 0)) goto L18;
    goto L8;
L9:;
    if (l5 == l6) goto L8;
    l3 = ((l5 - l6) << 3);
    if (l3 == 0) goto L8;
    l7 = (l2 + (l6 << 3));
    IPL_COPY((l7 + 8u), l7, l3);
L8:;
    IPL_S64((l2 + (l6 << 3)), 0u, l1);
    IPL_S64(l0, 16u, l10);
    IPL_S64(l0, 8u, (l5 + 1u));
    IPL_S64(l0, 0u, l2);
L1:;
}

/* sector_format::decoding::decode_written */
static void ipl_w12_decode_written(ipl_u8 *const m, ipl_u64 l0, ipl_u64 l1, ipl_u32 l2) {
    ipl_u32 l3 = 0, l4 = 0, t1, t2;
    ipl_u64 l5 = 0, l6 = 0, l7 = 0, l8 = 0, t3, t4;
    IPL_ENDS
    l3 = IPL_L32U(l1, 28u);
    l4 = (ipl_rotr32((l3 & (ipl_u32)16711935u), 8u) | (ipl_rotr32(l3, 24u) & (ipl_u32)16711935u));
    t1 = ipl_w8_after_part(m, (ipl_u32)4294967295u, l1, (ipl_u64)28u);
    l3 = t1;
    t2 = (((l2 ^ IPL_L32T((((ipl_u64)(l3 >> 22) & 1020u) + 1610633216ull), 1610612736u)) ^ IPL_L32T((((ipl_u64)(l3 >> 14) & 1020u) + 1610634240ull), 1610612736u)) ^ IPL_L32T((((ipl_u64)(l3 >> 6) & 1020u) + 1610635264ull), 1610612736u));
    l3 = ((t2 ^ IPL_L32T((((ipl_u64)(l3 << 2) & 1020u) + 1610636288ull), 1610612736u)) ^ (ipl_u32)4294967295u);
    if (l4 == l3) goto L1;
    IPL_S32U(l0, 0u, 1u);
    IPL_S64U(l0, 12u, (ipl_u64)0u);
    IPL_S32U(l0, 8u, l3);
    IPL_S32U(l0, 4u, l4);
    IPL_S64U(l0, 20u, (ipl_u64)0u);
    IPL_S64U(l0, 28u, (ipl_u64)0u);
    IPL_S32U(l0, 36u, 0u);
    return;
L1:;
    if (IPL_L8(l1, 0u) != 73u) goto L3;
    if (IPL_L8(l1, 1u) != 80u) goto L3;
    if (IPL_L8(l1, 2u) != 76u) goto L3;
    if (IPL_L8(l1, 3u) != 49u) goto L3;
    l2 = IPL_L8(l1, 4u);
    if (((l2 + (ipl_u32)4294967295u) & 255u) > 6u) goto L3;
    l4 = IPL_L8(l1, 5u);
    if (((l4 + (ipl_u32)4294967292u) & 255u) < 253u) goto L3;
    l5 = ((ipl_u64)IPL_L8(l1, 6u) << 8);
    l6 = (ipl_u64)IPL_L8(l1, 7u);
    l7 = (l5 | l6);
    if (l7 > 480u) goto L3;
    if (l7 == 480u) goto L2;
    l8 = (l1 + 32u);
    l5 = (l5 + l6);
    l3 = 0u;
    l3 = (IPL_BITS((l8 + l5), (480u - l5)) | l3);
    l5 = 480u;
    if ((l3 & 255u) == 0) goto L2;
L3:;
    IPL_S32U(l0, 0u, 2u);
    IPL_S64U(l0, 4u, (ipl_u64)0u);
    IPL_S64U(l0, 12u, (ipl_u64)0u);
    IPL_S64U(l0, 20u, (ipl_u64)0u);
    IPL_S64U(l0, 28u, (ipl_u64)0u);
    IPL_S32U(l0, 36u, 0u);
    return;
L2:;
    l5 = IPL_L64U(l1, 12u);
    l8 = IPL_L64U(l1, 20u);
    l3 = IPL_L32U(l1, 8u);
    IPL_S64U(l0, 32u, l7);
    IPL_S32U(l0, 8u, ((l4 << 8) | l2));
    IPL_S64U(l0, 0u, (ipl_u64)3u);
    IPL_S32U(l0, 12u, (ipl_rotr32((l3 & (ipl_u32)16711935u), 8u) | (ipl_rotr32(l3, 24u) & (ipl_u32)16711935u)));
    t3 = ((((l8 << 56) | ((l8 & 65280u) << 40)) | (((l8 & 16711680ull) << 24) | ((l8 & 4278190080ull) << 8))) | ((((l8 >> 8) & 4278190080ull) | ((l8 >> 24) & 16711680ull)) | (((l8 >> 40) & 65280u) | (l8 >> 56))));
    IPL_S64U(l0, 24u, t3);
    t4 = ((((l5 << 56) | ((l5 & 65280u) << 40)) | (((l5 & 16711680ull) << 24) | ((l5 & 4278190080ull) << 8))) | ((((l5 >> 8) & 4278190080ull) | ((l5 >> 24) & 16711680ull)) | (((l5 >> 40) & 65280u) | (l5 >> 56))));
    IPL_S64U(l0, 16u, t4);
}

/* log_records::reading::record_at */
static void ipl_w13_record_at(ipl_u8 *const m, ipl_u64 l0, ipl_u64 l1, ipl_u64 l2, ipl_u32 l3) {
    ipl_u32 l5 = 0, l6 = 0, l7 = 0, l8 = 0, l11 = 0;
    ipl_u64 l4 = 0, l9 = 0, l10 = 0, l12 = 0, t1, t2, t3;
    IPL_ENDS
    t1 = IPL_G(0);
    l4 = (t1 - 1424u);
    IPL_G(0) = l4;
    if (l2 < 12u) goto L9;
    l5 = IPL_L8(l1, 0u);
    if (l5 > 14u) goto L9;
    if ((l3 & 255u) != 1u) goto L10;
    l6 = IPL_L8(l1, 2u);
    if (l6 >= 64u) goto L9;
    l7 = IPL_L8(l1, 3u);
    l8 = IPL_L8(l1, 1u);
    if ((l8 == 1u ? (ipl_u32)(l7 < 109u) : ((ipl_u32)(l8 == 2u) & (ipl_u32)(l7 == 0))) != 1u) goto L9;
    l9 = (ipl_u64)l7;
    if ((l9 + 12u) > l2) goto L9;
    l10 = IPL_L64U(l1, 4u);
    if (l8 == 1u) goto L7;
    l11 = l6;
    goto L5;
L10:;
    l6 = IPL_L8(l1, 2u);
    l7 = IPL_L8(l1, 3u);
    l9 = ((((ipl_u64)l6 & 255u) << 8) | ((ipl_u64)l7 & 255u));
    l8 = IPL_L8(l1, 1u);
    l11 = (l8 >> 6);
    if ((l11 == 1u ? (ipl_u32)(l9 < 465u) : ((ipl_u32)(l11 == 2u) & (ipl_u32)(l9 == 0))) != 1u) goto L9;
    if ((l9 + 12u) <= l2) goto L8;
L9:;
    IPL_FILL(l0, 0u, (ipl_u64)520u);
    goto L1;
L8:;
    l11 = (l8 & 63u);
    l10 = IPL_L64U(l1, 4u);
    if ((l8 & 192u) != 64u) goto L5;
    IPL_FILL((l4 + 952u), 0u, (ipl_u64)464u);
    if (l9 <= 464u) goto L6;
    ipl_trap(m);
L7:;
    IPL_FILL((l4 + 952u), 0u, (ipl_u64)464u);
    l11 = l6;
L6:;
    if (l9 == 0) goto L11;
    IPL_COPY((l4 + 952u), (l1 + 12u), l9);
L11:;
    IPL_S64(l4, 1416u, l9);
    IPL_COPY((l4 + 480u), (l4 + 952u), (ipl_u64)472u);
    IPL_COPY((l4 + 8u), (l4 + 480u), (ipl_u64)472u);
    t2 = ((((l10 << 56) | ((l10 & 65280u) << 40)) | (((l10 & 16711680ull) << 24) | ((l10 & 4278190080ull) << 8))) | ((((l10 >> 8) & 4278190080ull) | ((l10 >> 24) & 16711680ull)) | (((l10 >> 40) & 65280u) | (l10 >> 56))));
    l10 = t2;
    l9 = (ipl_u64)0u;
    if ((l3 & 255u) == 1u) goto L4;
    goto L3;
L5:;
    IPL_FILL((l4 + 8u), 0u, (ipl_u64)472u);
    t3 = ((((l10 << 56) | ((l10 & 65280u) << 40)) | (((l10 & 16711680ull) << 24) | ((l10 & 4278190080ull) << 8))) | ((((l10 >> 8) & 4278190080ull) | ((l10 >> 24) & 16711680ull)) | (((l10 >> 40) & 65280u) | (l10 >> 56))));
    l10 = t3;
    l9 = (ipl_u64)1u;
    if ((l3 & 255u) != 1u) goto L3;
L4:;
    l12 = ((ipl_u64)l7 & 255u);
    goto L2;
L3:;
    l12 = ((((ipl_u64)l6 & 255u) << 8) | ((ipl_u64)l7 & 255u));
L2:;
    IPL_S64U(l0, 0u, (ipl_u64)1u);
    IPL_S64U(l0, 24u, l9);
    IPL_S64U(l0, 16u, l10);
    IPL_S32U(l0, 12u, l11);
    IPL_S32U(l0, 8u, l5);
    IPL_COPY((l0 + 32u), (l4 + 8u), (ipl_u64)472u);
    l10 = (l12 + 12u);
    IPL_S64U((l0 + 512u), 0u, (l2 - l10));
    IPL_S64U((l0 + 504u), 0u, (l1 + l10));
L1:;
    IPL_G(0) = (l4 + 1424u);
}

/* overflow::overflow::Overflow::add */
static void ipl_w14_add(ipl_u8 *const m, ipl_u64 l0, ipl_u32 l1, ipl_u32 l2, ipl_u32 l3, ipl_u32 l4) {
    ipl_u32 l8 = 0, l9 = 0, t2;
    ipl_u64 l5 = 0, l6 = 0, l7 = 0, l10 = 0, l11 = 0, l12 = 0, l13 = 0, l14 = 0, l15 = 0, l16 = 0, l17 = 0, l18 = 0, l19 = 0, t1;
    IPL_ENDS
    t1 = IPL_G(0);
    l5 = (t1 - 16u);
    IPL_G(0) = l5;
    l6 = IPL_L64(l0, 88u);
    if (l6 == 0) goto L1;
    l7 = (l0 + 76u);
    l8 = (l3 + 1u);
L2:;
    l9 = IPL_L32U(l7, 0u);
    IPL_S32U(l7, 0u, (IPL_L32U((l7 - 4u), 0u) == l2 ? (l8 > l9 ? l8 : l9) : l9));
    l7 = (l7 + 8u);
    l6 = (l6 - 1u);
    if (l6 != 0u) goto L2;
L1:;
    l10 = (ipl_u64)l1;
    l6 = (l10 + 1u);
    l7 = IPL_L64(l0, 8u);
    l11 = (ipl_u64)0u;
L3:;
    l11 = (l11 + (ipl_u64)IPL_L8(l7, 0u));
    l7 = (l7 + 1u);
    l6 = (l6 - 1u);
    if (l6 != 0u) goto L3;
    IPL_S16(l5, 14u, l4);
    IPL_S16(l5, 12u, l3);
    IPL_S16(l5, 10u, l2);
    l7 = (l0 + 48u);
    l12 = IPL_L64(l7, 0u);
    l13 = IPL_L64(l0, 56u);
    if (l12 >= l13) goto L6;
    IPL_S16(l5, 8u, l4);
    IPL_S16(l5, 6u, l3);
    IPL_S16(l5, 4u, l2);
    l14 = (l5 + 4u);
    goto L5;
L6:;
    l14 = (l5 + 10u);
    if (l13 != l12) goto L5;
    t2 = ipl_w17_grow_amortized(m, (l0 + 40u));
    if (t2 == 0) goto L4;
    l13 = IPL_L64(l0, 56u);
    l12 = IPL_L64(l0, 48u);
L5:;
    IPL_S64(l7, 0u, (ipl_u64)0u);
    IPL_S64(l7, 8u, (ipl_u64)0u);
    l15 = IPL_L64(l0, 40u);
    if (l11 != 18446744073709551615ull) goto L8;
    l16 = (l12 + 1u);
    l6 = l16;
    if (l16 < 342u) goto L10;
    l17 = l15;
    l7 = (ipl_u64)0u;
L11:;
    l18 = l7;
    if (l18 == 0) goto L13;
    l7 = (ipl_u64)2046u;
L14:;
    l6 = (l17 + l7);
    l19 = (l6 - 6u);
    l6 = (l6 - 12u);
    IPL_S16U(l19, 4u, IPL_L16U(l6, 4u));
    IPL_S32U(l19, 0u, IPL_L32U(l6, 0u));
    l7 = (l7 - 6u);
    if (l7 != 0u) goto L14;
    goto L12;
L13:;
    l7 = (ipl_u64)0u;
L15:;
    l6 = (l17 + l7);
    l19 = (l6 - 6u);
    IPL_S16U(l6, 4u, IPL_L16U(l19, 4u));
    IPL_S32U(l6, 0u, IPL_L32U(l19, 0u));
    l7 = (l7 + 6u);
    if (l7 != 2046u) goto L15;
L12:;
    l17 = (l17 + 2046u);
    l7 = (l18 + 341u);
    l6 = (l16 - l7);
    if (l6 > 341u) goto L11;
    if (l7 != 0u) goto L9;
L10:;
    if (l16 == 0) goto L7;
    l7 = (l15 - 6u);
L16:;
    IPL_S16U(l7, 10u, IPL_L16U(l7, 4u));
    l19 = (l7 + 6u);
    IPL_S32U(l19, 0u, IPL_L32U(l7, 0u));
    l7 = l19;
    l6 = (l6 - 1u);
    if (!(l6 == 0)) goto L16;
    goto L7;
L9:;
    if (l16 == l7) goto L7;
    l6 = ((l12 - l18) - 340u);
    l7 = (((l12 * 6u) + l15) - 6u);
L17:;
    IPL_S16U(l7, 10u, IPL_L16U(l7, 4u));
    IPL_S32U(l7, 6u, IPL_L32U(l7, 0u));
    l7 = (l7 - 6u);
    l6 = (l6 - 1u);
    if (!(l6 == 0)) goto L17;
    goto L7;
L8:;
    if (l12 == l11) goto L7;
    l6 = (l12 - l11);
    l7 = (((l12 * 6u) + l15) - 6u);
L18:;
    IPL_S16U(l7, 10u, IPL_L16U(l7, 4u));
    IPL_S32U(l7, 6u, IPL_L32U(l7, 0u));
    l7 = (l7 - 6u);
    l6 = (l6 - 1u);
    if (l6 != 0u) goto L18;
L7:;
    l7 = (l15 + (l11 * 6u));
    IPL_S16U(l7, 4u, IPL_L16U(l14, 4u));
    IPL_S32U(l7, 0u, IPL_L32U(l14, 0u));
    IPL_S64(l0, 56u, l13);
    IPL_S64(l0, 48u, (l12 + 1u));
    IPL_S64(l0, 40u, l15);
L4:;
    l7 = (IPL_L64(l0, 8u) + l10);
    IPL_S8(l7, 0u, (IPL_L8(l7, 0u) + 1u));
    IPL_G(0) = (l5 + 16u);
}

/* restart::joining::add_payload */
static ipl_u32 ipl_w15_add_payload(ipl_u8 *const m, ipl_u64 l0, ipl_u64 l1, ipl_u64 l2) {
    ipl_u32 l5 = 0, l6 = 0;
    ipl_u64 l3 = 0, l4 = 0, l7 = 0, l8 = 0, l9 = 0, l10 = 0, l11 = 0, l12 = 0, l13 = 0, l14 = 0, l15 = 0, l16 = 0, t1;
    IPL_ENDS
    t1 = IPL_G(0);
    l3 = (t1 - 528u);
    IPL_G(0) = l3;
    l4 = IPL_L64((l1 + 488u), 0u);
    l5 = IPL_L8(l1, 0u);
    IPL_FILL((l3 + 8u), 0u, (ipl_u64)520u);
    ipl_w13_record_at(m, (l3 + 8u), (l1 + 8u), l4, l5);
    l6 = 1u;
    if (IPL_L8(l3, 8u) != 1u) goto L1;
    l7 = (l2 + 24u);
    l8 = (l2 + 16u);
    l9 = (l0 + 8u);
    l10 = (l2 + 40u);
    l11 = (l0 + 32u);
L2:;
    l12 = IPL_L64(l3, 24u);
    l13 = IPL_L64(l3, 520u);
    l14 = IPL_L64(l3, 512u);
    l15 = IPL_L64(l8, 0u);
    l1 = (ipl_u64)0u;
    l2 = IPL_L64(l7, 0u);
    if (l2 > 1u) goto L5;
    switch ((ipl_u32)l2) {
    case 1u: goto L4;
    default: goto L3;
    }
L5:;
L6:;
    l4 = (l2 >> 1);
    l16 = (l4 + l1);
    l1 = (IPL_L64((l15 + (l16 << 3)), 0u) > l12 ? l1 : l16);
    l2 = (l2 - l4);
    if (l2 > 1u) goto L6;
L4:;
    if (IPL_L64((l15 + (l1 << 3)), 0u) != l12) goto L3;
    l2 = IPL_L64(l0, 0u);
    l4 = (l1 >> 3);
    if (l4 >= IPL_L64(l9, 0u)) goto L7;
    if (((IPL_L8((l2 + l4), 0u) >> (((ipl_u32)l1 & 7u) & 31u)) & 1u) != 0) goto L3;
L7:;
    l16 = (IPL_L64(l10, 0u) - 60u);
    if (IPL_L64(l11, 0u) != (l16 < 3840u ? l16 : (ipl_u64)3840u)) goto L8;
    l6 = 0u;
    goto L1;
L8:;
    l2 = (l2 + l4);
    IPL_S8(l2, 0u, (IPL_L8(l2, 0u) | (1u << (((ipl_u32)l1 & 7u) & 31u))));
    IPL_S64(l11, 0u, (IPL_L64(l11, 0u) + 1u));
L3:;
    IPL_FILL((l3 + 8u), 0u, (ipl_u64)520u);
    ipl_w13_record_at(m, (l3 + 8u), l14, l13, l5);
    if (IPL_L8(l3, 8u) == 1u) goto L2;
L1:;
    IPL_G(0) = (l3 + 528u);
    return l6;
}

/* std_alloc::vec::Vec::grow_amortized::<#7d37c53cfa628592> */
static ipl_u32 ipl_w16_grow_amortized(ipl_u8 *const m, ipl_u64 l0) {
    ipl_u32 l2 = 0;
    ipl_u64 l1 = 0, l3 = 0, l4 = 0, l5 = 0, l6 = 0, t1;
    IPL_ENDS
    t1 = IPL_G(0);
    l1 = (t1 - 32u);
    IPL_G(0) = l1;
    l2 = 0u;
    l3 = IPL_L64(l0, 8u);
    if (l3 == 18446744073709551615ull) goto L1;
    l4 = ((l3 > 3u ? l3 : (ipl_u64)3u) + 1u);
    l5 = IPL_L64(l0, 16u);
    l6 = (l5 << 1);
    l6 = (l4 > l6 ? l4 : l6);
    l4 = (l5 < 4611686018427387904ull ? l6 : l4);
    if (l4 > 1152921504606846975ull) goto L1;
    if (l5 == 0) goto L3;
    ipl_to_rattle_realloc(m, (l1 + 16u), IPL_L64(l0, 0u), (l3 << 3), (l4 << 3), (ipl_u64)8u);
    if (((ipl_u32)IPL_L64(l1, 16u) & 1u) == 0) goto L1;
    l3 = IPL_L64(l1, 24u);
    goto L2;
L3:;
    ipl_to_rattle_alloc(m, l1, (l6 << 3), (ipl_u64)8u);
    if (((ipl_u32)IPL_L64(l1, 0u) & 1u) == 0) goto L1;
    l3 = IPL_L64(l1, 8u);
L2:;
    IPL_S64(l0, 16u, l4);
    IPL_S64(l0, 0u, l3);
    l2 = 1u;
L1:;
    IPL_G(0) = (l1 + 32u);
    return l2;
}

/* std_alloc::vec::Vec::grow_amortized::<#a3866bc0ef1d39ae> */
static ipl_u32 ipl_w17_grow_amortized(ipl_u8 *const m, ipl_u64 l0) {
    ipl_u32 l2 = 0;
    ipl_u64 l1 = 0, l3 = 0, l4 = 0, l5 = 0, l6 = 0, t1;
    IPL_ENDS
    t1 = IPL_G(0);
    l1 = (t1 - 32u);
    IPL_G(0) = l1;
    l2 = 0u;
    l3 = IPL_L64(l0, 8u);
    if (l3 == 18446744073709551615ull) goto L1;
    l4 = ((l3 > 3u ? l3 : (ipl_u64)3u) + 1u);
    l5 = IPL_L64(l0, 16u);
    l6 = (l5 << 1);
    l6 = (l4 > l6 ? l4 : l6);
    l4 = (l5 < 4611686018427387904ull ? l6 : l4);
    if (l4 > 1537228672809129301ull) goto L1;
    if (l5 == 0) goto L3;
    ipl_to_rattle_realloc(m, (l1 + 16u), IPL_L64(l0, 0u), (l3 * 6u), (l4 * 6u), (ipl_u64)2u);
    if (((ipl_u32)IPL_L64(l1, 16u) & 1u) == 0) goto L1;
    l3 = IPL_L64(l1, 24u);
    goto L2;
L3:;
    ipl_to_rattle_alloc(m, l1, (l6 * 6u), (ipl_u64)2u);
    if (((ipl_u32)IPL_L64(l1, 0u) & 1u) == 0) goto L1;
    l3 = IPL_L64(l1, 8u);
L2:;
    IPL_S64(l0, 16u, l4);
    IPL_S64(l0, 0u, l3);
    l2 = 1u;
L1:;
    IPL_G(0) = (l1 + 32u);
    return l2;
}

/* unit_directory::directory::Directory::new */
static void ipl_w18_new(ipl_u8 *const m, ipl_u64 l0, ipl_u32 l1, ipl_u32 l2) {
    ipl_u32 l6 = 0;
    ipl_u64 l3 = 0, l4 = 0, l5 = 0, l7 = 0, l8 = 0, l9 = 0, l10 = 0, l11 = 0, l12 = 0, l13 = 0, l14 = 0, l15 = 0, t1;
    IPL_ENDS
    t1 = IPL_G(0);
    l3 = (t1 - 192u);
    IPL_G(0) = l3;
    IPL_S64(l3, 176u, (ipl_u64)0u);
    IPL_S64(l3, 168u, (ipl_u64)0u);
    IPL_S64(l3, 160u, (ipl_u64)0u);
    IPL_S64(l3, 152u, (ipl_u64)0u);
    IPL_S64(l3, 144u, (ipl_u64)0u);
    IPL_S64(l3, 104u, (ipl_u64)0u);
    IPL_S64(l3, 112u, (ipl_u64)0u);
    IPL_S64(l3, 120u, (ipl_u64)0u);
    IPL_S64(l3, 128u, (ipl_u64)0u);
    IPL_S64(l3, 136u, (ipl_u64)0u);
    IPL_S64(l3, 72u, (ipl_u64)0u);
    IPL_S64(l3, 80u, (ipl_u64)0u);
    IPL_S64(l3, 88u, (ipl_u64)0u);
    IPL_S64U(l3, 94u, (ipl_u64)0u);
    l4 = (ipl_u64)l1;
    l5 = (l4 - 4u);
    l6 = (ipl_u32)(l5 == 0);
    if (l6 == 0) goto L11;
    l7 = (l3 + 188u);
    goto L10;
L11:;
    if (l1 < 4u) goto L9;
    ipl_to_rattle_alloc(m, (l3 + 56u), (l5 << 2), (ipl_u64)4u);
    if (((ipl_u32)IPL_L64(l3, 56u) & 1u) == 0) goto L9;
    l7 = IPL_L64(l3, 64u);
L10:;
    l8 = (ipl_u64)l2;
    if (l2 == 0) goto L12;
    l9 = (l8 << 2);
    if (l9 == 0) goto L12;
    IPL_FILL(l7, 0u, l9);
L12:;
    ipl_to_rattle_alloc(m, (l3 + 40u), l4, (ipl_u64)1u);
    if (((ipl_u32)IPL_L64(l3, 40u) & 1u) == 0) goto L8;
    l10 = IPL_L64(l3, 48u);
    if (l4 == 0) goto L13;
    IPL_FILL(l10, 0u, l4);
L13:;
    ipl_to_rattle_alloc(m, (l3 + 24u), (l4 << 2), (ipl_u64)4u);
    if (((ipl_u32)IPL_L64(l3, 24u) & 1u) == 0) goto L5;
    l11 = IPL_L64(l3, 32u);
    l9 = l11;
    l12 = l4;
L14:;
    IPL_S32(l9, 0u, 1u);
    l9 = (l9 + 4u);
    l12 = (l12 - 1u);
    if (!(l12 == 0)) goto L14;
    if (l6 == 0) goto L7;
    l13 = (l3 + 188u);
    goto L6;
L9:;
    IPL_S8(l0, 0u, 1u);
    IPL_FILL((l0 + 8u), 0u, (ipl_u64)456u);
    goto L1;
L8:;
    if (l6 != 0) goto L15;
    ipl_to_rattle_dealloc(m, l7);
L15:;
    IPL_S8(l0, 0u, 1u);
    IPL_FILL((l0 + 8u), 0u, (ipl_u64)456u);
    goto L1;
L7:;
    ipl_to_rattle_alloc(m, (l3 + 8u), (l5 << 2), (ipl_u64)4u);
    if (((ipl_u32)IPL_L64(l3, 8u) & 1u) == 0) goto L4;
    l13 = IPL_L64(l3, 16u);
L6:;
    if (l2 == 0) goto L16;
    l9 = l13;
    l12 = l8;
L17:;
    IPL_S32(l9, 0u, 32u);
    l9 = (l9 + 4u);
    l12 = (l12 - 1u);
    if (!(l12 == 0)) goto L17;
L16:;
    ipl_w19_filled(m, (l3 + 144u), l5, l8);
    if (IPL_L8(l3, 144u) != 0) goto L3;
    IPL_S64(l3, 72u, (ipl_u64)0u);
    IPL_S64(l3, 80u, (ipl_u64)0u);
    IPL_S64(l3, 88u, (ipl_u64)0u);
    IPL_S64U(l3, 94u, (ipl_u64)0u);
    l14 = IPL_L64(l3, 176u);
    l9 = IPL_L64(l3, 168u);
    l15 = IPL_L64(l3, 160u);
    l12 = IPL_L64(l3, 152u);
    ipl_w20_filled(m, (l3 + 104u), l5, l8, (l3 + 72u));
    if (IPL_L8(l3, 104u) != 0) goto L2;
    IPL_S8(l0, 0u, 0u);
    IPL_S64U(l0, 96u, l4);
    IPL_S64U(l0, 88u, l4);
    IPL_S64U(l0, 80u, l4);
    IPL_S64U(l0, 72u, l11);
    IPL_S64U(l0, 64u, l4);
    IPL_S64U(l0, 56u, l4);
    IPL_S64U(l0, 48u, l4);
    IPL_S64U(l0, 40u, l10);
    IPL_S64U(l0, 32u, l5);
    IPL_S64U(l0, 24u, l5);
    IPL_S64U(l0, 16u, l8);
    IPL_S64U(l0, 8u, l7);
    IPL_FILL((l0 + 104u), 0u, (ipl_u64)264u);
    IPL_S64U((l0 + 424u), 0u, l14);
    IPL_S64U((l0 + 416u), 0u, l9);
    IPL_S64U((l0 + 408u), 0u, l15);
    IPL_S64U((l0 + 400u), 0u, l12);
    IPL_S64U((l0 + 392u), 0u, l5);
    IPL_S64U((l0 + 384u), 0u, l5);
    IPL_S64U((l0 + 376u), 0u, l8);
    IPL_S64U((l0 + 368u), 0u, l13);
    IPL_S64U((l0 + 432u), 0u, IPL_L64(l3, 112u));
    IPL_S64U((l0 + 440u), 0u, IPL_L64(l3, 120u));
    IPL_S64U((l0 + 448u), 0u, IPL_L64(l3, 128u));
    IPL_S64U((l0 + 456u), 0u, IPL_L64(l3, 136u));
    goto L1;
L5:;
    ipl_to_rattle_dealloc(m, l10);
    if (l6 != 0) goto L18;
    ipl_to_rattle_dealloc(m, l7);
L18:;
    IPL_S8(l0, 0u, 1u);
    IPL_FILL((l0 + 8u), 0u, (ipl_u64)456u);
    goto L1;
L4:;
    ipl_to_rattle_dealloc(m, l11);
    ipl_to_rattle_dealloc(m, l10);
    ipl_to_rattle_dealloc(m, l7);
    IPL_S8(l0, 0u, 1u);
    IPL_FILL((l0 + 8u), 0u, (ipl_u64)456u);
    goto L1;
L3:;
    if (l6 != 0) goto L19;
    ipl_to_rattle_dealloc(m, l13);
    ipl_to_rattle_dealloc(m, l11);
    l11 = l10;
    l10 = l7;
L19:;
    ipl_to_rattle_dealloc(m, l11);
    ipl_to_rattle_dealloc(m, l10);
    IPL_S8(l0, 0u, 1u);
    IPL_FILL((l0 + 8u), 0u, (ipl_u64)456u);
    goto L1;
L2:;
    if (l9 == 0) goto L20;
    ipl_to_rattle_dealloc(m, l12);
L20:;
    if (l6 != 0) goto L21;
    ipl_to_rattle_dealloc(m, l13);
    ipl_to_rattle_dealloc(m, l11);
    l11 = l10;
    l10 = l7;
L21:;
    ipl_to_rattle_dealloc(m, l11);
    ipl_to_rattle_dealloc(m, l10);
    IPL_S8(l0, 0u, 1u);
    IPL_FILL((l0 + 8u), 0u, (ipl_u64)456u);
L1:;
    IPL_G(0) = (l3 + 192u);
}

/* bounded_vec::bounded_vec::BoundedVec::filled::<i64,21'core::clone::U64Clone{}> */
static void ipl_w19_filled(ipl_u8 *const m, ipl_u64 l0, ipl_u64 l1, ipl_u64 l2) {
    ipl_u64 l3 = 0, l4 = 0, l5 = 0, t1;
    IPL_ENDS
    t1 = IPL_G(0);
    l3 = (t1 - 32u);
    IPL_G(0) = l3;
    if (!(l1 == 0)) goto L4;
    l4 = (l3 + 24u);
    goto L3;
L4:;
    if (l1 > 1152921504606846975ull) goto L2;
    ipl_to_rattle_alloc(m, (l3 + 8u), (l1 << 3), (ipl_u64)8u);
    if (((ipl_u32)IPL_L64(l3, 8u) & 1u) == 0) goto L2;
    l4 = IPL_L64(l3, 16u);
L3:;
    if (l2 == 0) goto L5;
    l5 = (l2 << 3);
    if (l5 == 0) goto L5;
    IPL_FILL(l4, 0u, l5);
L5:;
    IPL_S8(l0, 0u, 0u);
    IPL_S64U(l0, 32u, l1);
    IPL_S64U(l0, 24u, l1);
    IPL_S64U(l0, 16u, l2);
    IPL_S64U(l0, 8u, l4);
    goto L1;
L2:;
    IPL_S8(l0, 0u, 1u);
    IPL_S64U(l0, 8u, (ipl_u64)0u);
    IPL_S64U(l0, 16u, (ipl_u64)0u);
    IPL_S64U(l0, 24u, (ipl_u64)0u);
    IPL_S64U(l0, 32u, (ipl_u64)0u);
L1:;
    IPL_G(0) = (l3 + 32u);
}

/* bounded_vec::bounded_vec::BoundedVec::filled::<#f86fe6bdae9e3602> */
static void ipl_w20_filled(ipl_u8 *const m, ipl_u64 l0, ipl_u64 l1, ipl_u64 l2, ipl_u64 l3) {
    ipl_u64 l4 = 0, l5 = 0, l6 = 0, t1;
    IPL_ENDS
    t1 = IPL_G(0);
    l4 = (t1 - 48u);
    IPL_G(0) = l4;
    IPL_S64U(l4, 38u, IPL_L64U(l3, 22u));
    IPL_S64(l4, 32u, IPL_L64U(l3, 16u));
    IPL_S64(l4, 24u, IPL_L64U(l3, 8u));
    IPL_S64(l4, 16u, IPL_L64U(l3, 0u));
    if (!(l1 == 0)) goto L4;
    l5 = (l4 + 46u);
    goto L3;
L4:;
    if ((ipl_s64)l1 < (ipl_s64)(ipl_u64)0u) goto L2;
    ipl_to_rattle_alloc(m, l4, (l1 * 30u), (ipl_u64)2u);
    if (((ipl_u32)IPL_L64(l4, 0u) & 1u) == 0) goto L2;
    l5 = IPL_L64(l4, 8u);
L3:;
    if (l2 == 0) goto L5;
    l3 = l5;
    l6 = l2;
L6:;
    IPL_S64U(l3, 22u, IPL_L64U(l4, 38u));
    IPL_S64U(l3, 16u, IPL_L64(l4, 32u));
    IPL_S64U(l3, 8u, IPL_L64(l4, 24u));
    IPL_S64U(l3, 0u, IPL_L64(l4, 16u));
    l3 = (l3 + 30u);
    l6 = (l6 - 1u);
    if (l6 != 0u) goto L6;
L5:;
    IPL_S8(l0, 0u, 0u);
    IPL_S64U(l0, 32u, l1);
    IPL_S64U(l0, 24u, l1);
    IPL_S64U(l0, 16u, l2);
    IPL_S64U(l0, 8u, l5);
    goto L1;
L2:;
    IPL_S8(l0, 0u, 1u);
    IPL_S64U(l0, 8u, (ipl_u64)0u);
    IPL_S64U(l0, 16u, (ipl_u64)0u);
    IPL_S64U(l0, 24u, (ipl_u64)0u);
    IPL_S64U(l0, 32u, (ipl_u64)0u);
L1:;
    IPL_G(0) = (l4 + 48u);
}

/* restart::recovery::Scratch::new */
static void ipl_w21_new(ipl_u8 *const m, ipl_u64 l0, ipl_u32 l1, ipl_u32 l2) {
    ipl_u32 l9 = 0;
    ipl_u64 l3 = 0, l4 = 0, l5 = 0, l6 = 0, l7 = 0, l8 = 0, l10 = 0, l11 = 0, l12 = 0, l13 = 0, t1;
    IPL_ENDS
    t1 = IPL_G(0);
    l3 = (t1 - 128u);
    IPL_G(0) = l3;
    if (l1 == 0) goto L7;
    l4 = (ipl_u64)l1;
    l5 = (l4 * 40u);
    ipl_to_rattle_alloc(m, (l3 + 104u), l5, (ipl_u64)8u);
    if (((ipl_u32)IPL_L64(l3, 104u) & 1u) == 0) goto L11;
    l6 = IPL_L64(l3, 112u);
    l7 = (ipl_u64)0u;
L12:;
    l8 = (l6 + l7);
    IPL_S64U(l8, 32u, (ipl_u64)0u);
    IPL_S64U(l8, 24u, (ipl_u64)0u);
    IPL_S64U(l8, 16u, (ipl_u64)0u);
    IPL_S64U(l8, 8u, (ipl_u64)0u);
    IPL_S64U(l8, 0u, (ipl_u64)0u);
    l7 = (l7 + 40u);
    if (l5 != l7) goto L12;
    l5 = (l4 - 4u);
    l9 = (ipl_u32)(l5 == 0);
    if (l9 != 0) goto L10;
    if (l1 < 4u) goto L8;
    ipl_to_rattle_alloc(m, (l3 + 88u), (l5 * 48u), (ipl_u64)8u);
    if (((ipl_u32)IPL_L64(l3, 88u) & 1u) == 0) goto L8;
    l10 = IPL_L64(l3, 96u);
    l8 = l10;
    l7 = l5;
L13:;
    IPL_S64U(l8, 40u, (ipl_u64)0u);
    IPL_S64U(l8, 32u, (ipl_u64)0u);
    IPL_S64U(l8, 24u, (ipl_u64)0u);
    IPL_S64U(l8, 16u, (ipl_u64)0u);
    IPL_S64U(l8, 8u, (ipl_u64)0u);
    IPL_S64U(l8, 0u, (ipl_u64)0u);
    l8 = (l8 + 48u);
    l7 = (l7 - 1u);
    if (!(l7 == 0)) goto L13;
    l8 = (l5 * 248u);
    ipl_to_rattle_alloc(m, (l3 + 72u), l8, (ipl_u64)8u);
    if (((ipl_u32)IPL_L64(l3, 72u) & 1u) == 0) goto L3;
    l11 = IPL_L64(l3, 80u);
    if (l8 == 0) goto L14;
    IPL_FILL(l11, 0u, l8);
L14:;
    ipl_to_rattle_alloc(m, (l3 + 56u), l5, (ipl_u64)1u);
    if (((ipl_u32)IPL_L64(l3, 56u) & 1u) == 0) goto L4;
    l12 = IPL_L64(l3, 64u);
    if (l9 != 0) goto L15;
    IPL_FILL(l12, 0u, l5);
L15:;
    ipl_to_rattle_alloc(m, (l3 + 40u), l5, (ipl_u64)1u);
    if (((ipl_u32)IPL_L64(l3, 40u) & 1u) == 0) goto L5;
    l8 = IPL_L64(l3, 48u);
    if (l9 != 0) goto L16;
    IPL_FILL(l8, 0u, l5);
L16:;
    ipl_to_rattle_alloc(m, (l3 + 24u), l4, (ipl_u64)1u);
    if (((ipl_u32)IPL_L64(l3, 24u) & 1u) == 0) goto L6;
    l7 = (l5 * 31u);
    l13 = IPL_L64(l3, 32u);
    goto L9;
L11:;
    IPL_S8(l0, 0u, 1u);
    IPL_FILL((l0 + 8u), 0u, (ipl_u64)208u);
    goto L1;
L10:;
    ipl_to_rattle_alloc(m, (l3 + 8u), l4, (ipl_u64)1u);
    if (((ipl_u32)IPL_L64(l3, 8u) & 1u) == 0) goto L2;
    l7 = (ipl_u64)0u;
    l13 = IPL_L64(l3, 16u);
    l8 = (l3 + 120u);
    l12 = l8;
    l11 = l8;
    l10 = l8;
L9:;
    if (l4 == 0) goto L17;
    IPL_FILL(l13, 0u, l4);
L17:;
    IPL_S64U(l0, 208u, (ipl_u64)0u);
    IPL_S64U(l0, 200u, l4);
    IPL_S64U(l0, 192u, l4);
    IPL_S64U(l0, 184u, l4);
    IPL_S64U(l0, 176u, l13);
    IPL_S64U(l0, 168u, l5);
    IPL_S64U(l0, 160u, l5);
    IPL_S64U(l0, 152u, l5);
    IPL_S64U(l0, 144u, l8);
    IPL_S64U(l0, 136u, l5);
    IPL_S64U(l0, 128u, l5);
    IPL_S64U(l0, 120u, l5);
    IPL_S64U(l0, 112u, l12);
    IPL_S64U(l0, 104u, l7);
    IPL_S64U(l0, 96u, l7);
    IPL_S64U(l0, 88u, l7);
    IPL_S64U(l0, 80u, l11);
    IPL_S64U(l0, 72u, l5);
    IPL_S64U(l0, 64u, l5);
    IPL_S64U(l0, 56u, l5);
    IPL_S64U(l0, 48u, l10);
    IPL_S64U(l0, 40u, l4);
    IPL_S64U(l0, 32u, l4);
    IPL_S64U(l0, 24u, l4);
    IPL_S64U(l0, 16u, l6);
    IPL_S32U(l0, 12u, l2);
    IPL_S32U(l0, 8u, l1);
    IPL_S8(l0, 0u, 0u);
    goto L1;
L8:;
    ipl_to_rattle_dealloc(m, l6);
L7:;
    IPL_S8(l0, 0u, 1u);
    IPL_FILL((l0 + 8u), 0u, (ipl_u64)208u);
    goto L1;
L6:;
    ipl_to_rattle_dealloc(m, l8);
L5:;
    ipl_to_rattle_dealloc(m, l12);
L4:;
    ipl_to_rattle_dealloc(m, l11);
L3:;
    ipl_to_rattle_dealloc(m, l10);
L2:;
    ipl_to_rattle_dealloc(m, l6);
    IPL_S8(l0, 0u, 1u);
    IPL_FILL((l0 + 8u), 0u, (ipl_u64)208u);
L1:;
    IPL_G(0) = (l3 + 128u);
}

/* restart::numbers::KeptNumbers::new */
static void ipl_w22_new(ipl_u8 *const m, ipl_u64 l0, ipl_u64 l1) {
    ipl_u32 l5 = 0;
    ipl_u64 l2 = 0, l3 = 0, l4 = 0, l6 = 0, l7 = 0, t1;
    IPL_ENDS
    t1 = IPL_G(0);
    l2 = (t1 - 32u);
    IPL_G(0) = l2;
    l3 = ((l1 + 7u) >> 3);
    ipl_to_rattle_alloc(m, (l2 + 16u), l3, (ipl_u64)1u);
    if (((ipl_u32)IPL_L64(l2, 16u) & 1u) == 0) goto L3;
    l4 = IPL_L64(l2, 24u);
    l5 = (ipl_u32)(l3 == 0);
    if (l5 != 0) goto L4;
    IPL_FILL(l4, 0u, l3);
L4:;
    ipl_to_rattle_alloc(m, l2, l3, (ipl_u64)1u);
    if (((ipl_u32)IPL_L64(l2, 0u) & 1u) == 0) goto L2;
    l6 = (l1 - 60u);
    l6 = (l6 < 3840u ? l6 : (ipl_u64)3840u);
    l7 = IPL_L64(l2, 8u);
    if (l5 != 0) goto L5;
    IPL_FILL(l7, 0u, l3);
L5:;
    IPL_S64U(l0, 112u, l1);
    IPL_S64U(l0, 104u, l6);
    IPL_S64U(l0, 96u, (ipl_u64)0u);
    IPL_S64U(l0, 88u, l3);
    IPL_S64U(l0, 80u, l3);
    IPL_S64U(l0, 72u, l3);
    IPL_S64U(l0, 64u, l7);
    IPL_S64U(l0, 56u, l1);
    IPL_S64U(l0, 48u, l6);
    IPL_S64U(l0, 40u, (ipl_u64)0u);
    IPL_S64U(l0, 32u, l3);
    IPL_S64U(l0, 24u, l3);
    IPL_S64U(l0, 16u, l3);
    IPL_S64U(l0, 8u, l4);
    IPL_S8(l0, 0u, 0u);
    goto L1;
L3:;
    IPL_S8(l0, 0u, 1u);
    IPL_FILL((l0 + 8u), 0u, (ipl_u64)112u);
    goto L1;
L2:;
    ipl_to_rattle_dealloc(m, l4);
    IPL_S8(l0, 0u, 1u);
    IPL_FILL((l0 + 8u), 0u, (ipl_u64)112u);
L1:;
    IPL_G(0) = (l2 + 32u);
}

/* unit_log::live::read_live::<#81e02dbab8cd6729> */
static void ipl_w23_read_live(ipl_u8 *const m, ipl_u64 l0, ipl_u64 l1, ipl_u64 l2, ipl_u64 l3, ipl_u32 l4, ipl_u64 l5) {
    ipl_u32 l9 = 0, l10 = 0, l11 = 0, l12 = 0, l13 = 0;
    ipl_u64 l6 = 0, l7 = 0, l8 = 0, l14 = 0, l15 = 0, t1;
    IPL_ENDS
    t1 = IPL_G(0);
    l6 = (t1 - 992u);
    IPL_G(0) = l6;
    IPL_FILL((l6 + 160u), 0u, (ipl_u64)136u);
    IPL_FILL((l6 + 8u), 0u, (ipl_u64)136u);
    l7 = (ipl_u64)l4;
    l8 = (l7 << 2);
    l9 = IPL_L32((IPL_L64((l2 + 360u), 0u) + l8), 0u);
    l10 = IPL_L32((IPL_L64(l2, 0u) + l8), 0u);
    l2 = (l5 + 8u);
    if (IPL_L64(l2, 0u) == 0) goto L1;
    IPL_S64(l2, 0u, (ipl_u64)0u);
L1:;
    IPL_FILL((l6 + 296u), 0u, (ipl_u64)512u);
    IPL_S64(l6, 848u, (ipl_u64)0u);
    IPL_S64(l6, 840u, (ipl_u64)0u);
    IPL_S64(l6, 832u, (ipl_u64)0u);
    IPL_S64(l6, 824u, (ipl_u64)0u);
    IPL_S64(l6, 816u, (ipl_u64)0u);
    IPL_S64(l6, 808u, (ipl_u64)0u);
    ipl_w10_read_found(m, (l6 + 808u), l1, l10, 0u, (l6 + 296u));
    l11 = IPL_L32(l6, 816u);
    if (IPL_L8(l6, 808u) != 0) goto L5;
    if ((l11 & 255u) != 2u) goto L7;
    l11 = IPL_L32(l6, 824u);
    if (((l11 + (ipl_u32)4294967292u) & 255u) < 253u) goto L7;
    if ((l11 & 255u) != 1u) goto L7;
    if (IPL_L32(l6, 828u) != l4) goto L7;
    l12 = (l11 >> 8);
    if (IPL_L64(l6, 848u) != ((l12 & 255u) < 3u ? (ipl_u64)20u : (ipl_u64)24u)) goto L7;
    l13 = (l9 < 15u ? l9 : 15u);
    l14 = IPL_L64(l6, 832u);
    IPL_S64U(l6, 815u, IPL_L64U(l6, 339u));
    IPL_S64(l6, 808u, IPL_L64U(l6, 332u));
    l15 = (l6 + 332u);
    l2 = (ipl_u64)0u;
L9:;
    if (l2 == 15u) goto L8;
    l8 = ((l6 + 808u) + l2);
    l2 = (l2 + 1u);
    if (IPL_L8(l8, 0u) < 17u) goto L9;
    goto L7;
L8:;
    if (IPL_L8(l6, 347u) < 13u) goto L6;
L7:;
    l4 = 3u;
    l2 = (ipl_u64)0u;
    l5 = (ipl_u64)0u;
    goto L4;
L6:;
    IPL_S64(l6, 144u, IPL_L64U(l15, 0u));
    IPL_S64U(l6, 151u, IPL_L64U(l15, 7u));
    l8 = (ipl_u64)0u;
    l2 = IPL_L64(l3, 8u);
    l15 = (ipl_u64)IPL_L8((l2 + l7), 0u);
    if (l15 != 0u) goto L11;
    IPL_FILL((l6 + 8u), 0u, (ipl_u64)136u);
    goto L10;
L11:;
    if (l4 == 0) goto L12;
    l8 = (ipl_u64)0u;
L13:;
    l8 = (l8 + (ipl_u64)IPL_L8(l2, 0u));
    l2 = (l2 + 1u);
    l7 = (l7 - 1u);
    if (l7 != 0u) goto L13;
L12:;
    l2 = IPL_L64(l3, 40u);
    IPL_FILL((l6 + 856u), 0u, (ipl_u64)128u);
    l2 = (l2 + (l8 * 6u));
    l8 = (ipl_u64)0u;
    l7 = (l6 + 856u);
L14:;
    IPL_S64(l7, 0u, (((ipl_u64)IPL_L16U(l2, 2u) << 32) | (ipl_u64)IPL_L16U(l2, 0u)));
    l8 = (l8 + 1u);
    IPL_S64(l6, 984u, l8);
    l2 = (l2 + 6u);
    l7 = (l7 + 8u);
    if (l15 != l8) goto L14;
    IPL_COPY((l6 + 8u), (l6 + 856u), (ipl_u64)136u);
L10:;
    IPL_COPY((l6 + 160u), (l6 + 8u), (ipl_u64)136u);
    l8 = IPL_L64(l6, 288u);
    IPL_S64(l6, 312u, (ipl_u64)0u);
    IPL_S64(l6, 304u, (ipl_u64)0u);
    IPL_S64(l6, 296u, (ipl_u64)0u);
    if (l9 == 0) goto L16;
    l11 = 0u;
L17:;
    ipl_w24_read_spot(m, (l6 + 296u), l1, l4, l14, l10, (l11 + 241u), l5);
    if (IPL_L8(l6, 296u) != 0) goto L15;
    l11 = (l11 + 1u);
    if (l13 != l11) goto L17;
L16:;
    IPL_S64(l6, 312u, (ipl_u64)0u);
    IPL_S64(l6, 304u, (ipl_u64)0u);
    IPL_S64(l6, 296u, (ipl_u64)0u);
    if (l8 == 0) goto L3;
    l2 = (l6 + 160u);
L18:;
    ipl_w24_read_spot(m, (l6 + 296u), l1, l4, l14, IPL_L32(l2, 0u), IPL_L32(l2, 4u), l5);
    if (IPL_L8(l6, 296u) != 0) goto L15;
    l2 = (l2 + 8u);
    l8 = (l8 - 1u);
    if (l8 == 0) goto L3;
    goto L18;
L15:;
    l10 = IPL_L8(l6, 300u);
    l4 = IPL_L32(l6, 304u);
    l11 = IPL_L32(l6, 308u);
    l9 = IPL_L32(l6, 312u);
    l13 = IPL_L32(l6, 316u);
    IPL_S32U(l0, 0u, 1u);
    IPL_S64U(l0, 24u, (ipl_u64)0u);
    IPL_S32U(l0, 4u, (l10 & 255u));
    IPL_S64U(l0, 32u, (ipl_u64)0u);
    IPL_S64U(l0, 16u, (((ipl_u64)l13 << 32) | (ipl_u64)l9));
    IPL_S64U(l0, 8u, (((ipl_u64)l11 << 32) | (ipl_u64)l4));
    goto L2;
L5:;
    l2 = ((ipl_u64)IPL_L32(l6, 820u) << 32);
    l4 = IPL_L8(l6, 812u);
    l5 = IPL_L64(l6, 824u);
    l10 = l11;
L4:;
    IPL_S32U(l0, 0u, 1u);
    IPL_S64U(l0, 24u, (ipl_u64)0u);
    IPL_S64U(l0, 16u, l5);
    IPL_S32U(l0, 4u, l4);
    IPL_S64U(l0, 32u, (ipl_u64)0u);
    IPL_S64U(l0, 8u, (l2 | (ipl_u64)l10));
    goto L2;
L3:;
    IPL_S64U(l0, 0u, (ipl_u64)0u);
    IPL_S64U(l0, 16u, l14);
    IPL_S64U(l0, 8u, (ipl_u64)(l12 & 255u));
    IPL_S64U(l0, 24u, IPL_L64(l6, 144u));
    IPL_S64U(l0, 31u, IPL_L64U(l6, 151u));
    IPL_S8(l0, 39u, 0u);
L2:;
    IPL_G(0) = (l6 + 992u);
}

/* unit_log::reading::read_spot::<#81e02dbab8cd6729> */
static void ipl_w24_read_spot(ipl_u8 *const m, ipl_u64 l0, ipl_u64 l1, ipl_u32 l2, ipl_u64 l3, ipl_u32 l4, ipl_u32 l5, ipl_u64 l6) {
    ipl_u32 l8 = 0, l9 = 0, l10 = 0, l11 = 0, l12 = 0, l13 = 0, l14 = 0, l15 = 0, t2;
    ipl_u64 l7 = 0, l16 = 0, l17 = 0, l18 = 0, l19 = 0, l20 = 0, l21 = 0, l22 = 0, l23 = 0, t1;
    IPL_ENDS
    t1 = IPL_G(0);
    l7 = (t1 - 2528u);
    IPL_G(0) = l7;
    IPL_FILL((l7 + 1u), 0u, (ipl_u64)512u);
    IPL_S64(l7, 1048u, (ipl_u64)0u);
    IPL_S64(l7, 1040u, (ipl_u64)0u);
    IPL_S64(l7, 1032u, (ipl_u64)0u);
    IPL_S64(l7, 1024u, (ipl_u64)0u);
    IPL_S64(l7, 1016u, (ipl_u64)0u);
    IPL_S64(l7, 1008u, (ipl_u64)0u);
    ipl_w10_read_found(m, (l7 + 1008u), l1, l4, l5, (l7 + 1u));
    l8 = IPL_L32(l7, 1028u);
    l9 = IPL_L32(l7, 1024u);
    l10 = IPL_L32(l7, 1016u);
    if (IPL_L8(l7, 1008u) != 0) goto L9;
    if ((l10 & 255u) != 2u) goto L4;
    l11 = 0u;
    l12 = 0u;
    l10 = 0u;
    l13 = 0u;
    l14 = 0u;
    l15 = 0u;
    if ((l9 & 255u) != 5u) goto L1;
    l11 = 0u;
    if (l8 != l2) goto L3;
    l12 = 0u;
    l10 = 0u;
    l13 = 0u;
    l14 = 0u;
    l15 = 0u;
    if (IPL_L64(l7, 1032u) != l3) goto L1;
    l16 = IPL_L64(l7, 1048u);
    l17 = IPL_L64(l7, 1040u);
    l10 = (l9 >> 8);
    IPL_FILL((l7 + 513u), 0u, (ipl_u64)495u);
    IPL_FILL((l7 + 1008u), 0u, (ipl_u64)520u);
    l18 = (l7 + 33u);
    if (l16 != 0u) goto L13;
    IPL_S32(l7, 1008u, 0u);
    IPL_S32U(l7, 1011u, 0u);
    IPL_FILL((l7 + 2024u), 0u, (ipl_u64)480u);
    goto L12;
L13:;
    l1 = l16;
    l3 = l18;
L14:;
    ipl_w13_record_at(m, (l7 + 1008u), l3, l1, l10);
    if (IPL_L8(l7, 1008u) != 1u) goto L10;
    l3 = IPL_L64(l7, 1512u);
    l1 = IPL_L64(l7, 1520u);
    if (!(l1 == 0)) goto L14;
    IPL_S32(l7, 1008u, 0u);
    IPL_S32U(l7, 1011u, 0u);
    IPL_FILL((l7 + 2024u), 0u, (ipl_u64)488u);
    if (l16 > 480u) goto L11;
L12:;
    if (l16 == 0) goto L15;
    IPL_COPY((l7 + 2024u), l18, l16);
L15:;
    IPL_S64(l7, 2504u, l16);
L11:;
    IPL_COPY((l7 + 1015u), (l7 + 2024u), (ipl_u64)488u);
    IPL_COPY((l7 + 513u), (l7 + 1008u), (ipl_u64)495u);
    l19 = IPL_L64(l6, 0u);
    l20 = (l6 + 8u);
    l18 = IPL_L64(l20, 0u);
    if (!(l18 == 0)) goto L16;
    l16 = (ipl_u64)0u;
    goto L8;
L16:;
    l1 = l19;
    l3 = l18;
L17:;
    if (IPL_L64(l1, 0u) == l17) goto L10;
    l1 = (l1 + 504u);
    l3 = (l3 - 1u);
    if (l3 != 0u) goto L17;
    l16 = (ipl_u64)0u;
    l1 = l19;
L18:;
    if (l17 <= IPL_L64(l1, 0u)) goto L8;
    l1 = (l1 + 504u);
    l16 = (l16 + 1u);
    if (l18 != l16) goto L18;
    IPL_COPY((l7 + 1529u), (l7 + 513u), (ipl_u64)495u);
    goto L7;
L10:;
    l12 = 3u;
    l11 = 1u;
    l10 = l4;
    l13 = l5;
    goto L2;
L9:;
    l12 = IPL_L8(l7, 1012u);
    l13 = IPL_L32(l7, 1020u);
    l11 = 1u;
    l14 = l9;
    l15 = l8;
    goto L1;
L8:;
    IPL_COPY((l7 + 1529u), (l7 + 513u), (ipl_u64)495u);
    if (l16 == l18) goto L7;
    IPL_S8(l7, 1016u, l10);
    IPL_S64(l7, 1008u, l17);
    IPL_COPY(((l7 + 1008u) + 9u), (l7 + 513u), (ipl_u64)495u);
    l21 = IPL_L64(l6, 16u);
    if (l18 >= l21) goto L6;
    IPL_S8(l7, 2032u, l10);
    IPL_S64(l7, 2024u, l17);
    IPL_COPY(((l7 + 2024u) + 9u), (l7 + 513u), (ipl_u64)495u);
    l22 = (l7 + 2024u);
    goto L5;
L7:;
    l1 = (l19 + (l18 * 504u));
    IPL_S8(l1, 8u, l10);
    IPL_S64U(l1, 0u, l17);
    IPL_COPY((l1 + 9u), (l7 + 1529u), (ipl_u64)495u);
    IPL_S64(l20, 0u, (l18 + 1u));
    goto L4;
L6:;
    l22 = (l7 + 1008u);
    if (l21 != l18) goto L5;
    t2 = ipl_w25_grow_amortized(m, l6);
    if (t2 == 0) goto L4;
    l21 = IPL_L64(l6, 16u);
    l18 = IPL_L64(l6, 8u);
    l19 = IPL_L64(l6, 0u);
L5:;
    IPL_S64(l20, 8u, (ipl_u64)0u);
    IPL_S64(l20, 0u, (ipl_u64)0u);
    if (l16 != 18446744073709551615ull) goto L20;
    l23 = (l18 + 1u);
    l1 = l23;
    if (l23 < 5u) goto L22;
    l17 = l19;
    l3 = (ipl_u64)0u;
L23:;
    l20 = l3;
    if (l20 == 0) goto L25;
    l1 = (ipl_u64)2016u;
L26:;
    l3 = (l17 + l1);
    IPL_COPY((l3 - 504u), (l3 - 1008u), (ipl_u64)504u);
    l1 = (l1 - 504u);
    if (l1 != 0u) goto L26;
    goto L24;
L25:;
    l1 = (ipl_u64)0u;
L27:;
    l3 = (l17 + l1);
    IPL_COPY(l3, (l3 - 504u), (ipl_u64)504u);
    l1 = (l1 + 504u);
    if (l1 != 2016u) goto L27;
L24:;
    l17 = (l17 + 2016u);
    l3 = (l20 + 4u);
    l1 = (l23 - l3);
    if (l1 > 4u) goto L23;
    if (l3 != 0u) goto L21;
L22:;
    if (l23 == 0) goto L19;
    l3 = (l19 - 504u);
L28:;
    l17 = (l3 + 504u);
    IPL_COPY(l17, l3, (ipl_u64)504u);
    l3 = l17;
    l1 = (l1 - 1u);
    if (!(l1 == 0)) goto L28;
    goto L19;
L21:;
    if (l23 == l3) goto L19;
    l3 = ((l18 - l20) - 3u);
    l1 = (((l18 * 504u) + l19) - 504u);
L29:;
    IPL_COPY((l1 + 504u), l1, (ipl_u64)504u);
    l1 = (l1 - 504u);
    l3 = (l3 - 1u);
    if (!(l3 == 0)) goto L29;
    goto L19;
L20:;
    if (l18 == l16) goto L19;
    l1 = ((l18 - l16) * 504u);
    if (l1 == 0) goto L19;
    l3 = (l19 + (l16 * 504u));
    IPL_COPY((l3 + 504u), l3, l1);
L19:;
    IPL_COPY((l19 + (l16 * 504u)), l22, (ipl_u64)504u);
    IPL_S64(l6, 16u, l21);
    IPL_S64(l6, 8u, (l18 + 1u));
    IPL_S64(l6, 0u, l19);
L4:;
    l11 = 0u;
L3:;
    l12 = 0u;
    l10 = 0u;
    l13 = 0u;
L2:;
    l14 = 0u;
    l15 = 0u;
L1:;
    IPL_S8(l0, 0u, l11);
    IPL_S32U(l0, 20u, l15);
    IPL_S32U(l0, 16u, l14);
    IPL_S32U(l0, 12u, l13);
    IPL_S32U(l0, 8u, l10);
    IPL_S32U(l0, 4u, l12);
    IPL_G(0) = (l7 + 2528u);
}

/* std_alloc::vec::Vec::grow_amortized::<#8276c30f5a2468e5> */
static ipl_u32 ipl_w25_grow_amortized(ipl_u8 *const m, ipl_u64 l0) {
    ipl_u32 l2 = 0;
    ipl_u64 l1 = 0, l3 = 0, l4 = 0, l5 = 0, l6 = 0, t1;
    IPL_ENDS
    t1 = IPL_G(0);
    l1 = (t1 - 32u);
    IPL_G(0) = l1;
    l2 = 0u;
    l3 = IPL_L64(l0, 8u);
    if (l3 == 18446744073709551615ull) goto L1;
    l4 = ((l3 > 3u ? l3 : (ipl_u64)3u) + 1u);
    l5 = IPL_L64(l0, 16u);
    l6 = (l5 << 1);
    l6 = (l4 > l6 ? l4 : l6);
    l4 = (l5 < 4611686018427387904ull ? l6 : l4);
    if (l4 > 18300341342965825ull) goto L1;
    if (l5 == 0) goto L3;
    ipl_to_rattle_realloc(m, (l1 + 16u), IPL_L64(l0, 0u), (l3 * 504u), (l4 * 504u), (ipl_u64)8u);
    if (((ipl_u32)IPL_L64(l1, 16u) & 1u) == 0) goto L1;
    l3 = IPL_L64(l1, 24u);
    goto L2;
L3:;
    ipl_to_rattle_alloc(m, l1, (l6 * 504u), (ipl_u64)8u);
    if (((ipl_u32)IPL_L64(l1, 0u) & 1u) == 0) goto L1;
    l3 = IPL_L64(l1, 8u);
L2:;
    IPL_S64(l0, 16u, l4);
    IPL_S64(l0, 0u, l3);
    l2 = 1u;
L1:;
    IPL_G(0) = (l1 + 32u);
    return l2;
}

/* page_rebuild::loading::rebuild::<#81e02dbab8cd6729> */
static void ipl_w26_rebuild(ipl_u8 *const m, ipl_u64 l0, ipl_u64 l1, ipl_u32 l2, ipl_u32 l3, ipl_u64 l4, ipl_u64 l5, ipl_u64 l6, ipl_u32 l7, ipl_u64 l8, ipl_u64 l9, ipl_u64 l10, ipl_u64 l11) {
    ipl_u32 l17 = 0, l21 = 0, l22 = 0, l25 = 0, l29 = 0, t5, t6, t10, t11;
    ipl_u64 l12 = 0, l13 = 0, l14 = 0, l15 = 0, l16 = 0, l18 = 0, l19 = 0, l20 = 0, l23 = 0, l24 = 0, l26 = 0, l27 = 0, l28 = 0, l30 = 0, t1, t2;
    ipl_u64 t3, t4, t7, t8, t9, t12, t13, t14;
    IPL_ENDS
    t1 = IPL_G(0);
    l12 = (t1 - 2224u);
    IPL_G(0) = l12;
    l13 = (l11 + 7680u);
    IPL_FILL(l13, 0u, (ipl_u64)130u);
    l14 = (l11 + 15490u);
    IPL_FILL(l14, 0u, (ipl_u64)130u);
    IPL_S64U((l11 + 15680u), 0u, (ipl_u64)0u);
    IPL_S64U((l11 + 15672u), 0u, (ipl_u64)0u);
    IPL_S64U((l11 + 15664u), 0u, (ipl_u64)0u);
    IPL_S64U((l11 + 15656u), 0u, (ipl_u64)0u);
    IPL_S64U((l11 + 15648u), 0u, (ipl_u64)0u);
    IPL_S64U((l11 + 15640u), 0u, (ipl_u64)0u);
    IPL_S64U((l11 + 15632u), 0u, (ipl_u64)0u);
    l15 = (l11 + 15624u);
    IPL_S64U(l15, 0u, (ipl_u64)0u);
    IPL_S64(l12, 1752u, (ipl_u64)1u);
    IPL_S64(l12, 264u, (ipl_u64)0u);
    IPL_S64(l12, 272u, (ipl_u64)0u);
    IPL_S64(l12, 280u, (ipl_u64)0u);
    IPL_S32(l12, 1756u, l3);
    IPL_S8(l12, 1753u, IPL_L8(l4, 0u));
    l16 = IPL_L64(l4, 8u);
    IPL_S64(l12, 1768u, l16);
    IPL_S64(l12, 1760u, l16);
    ipl_w27_read_page(m, (l12 + 264u), l1, l2, (l12 + 1752u), l7, IPL_L8(((l4 + (ipl_u64)l7) + 16u), 0u), l11, (l12 + 760u));
    if (IPL_L8(l12, 264u) != 0) goto L3;
    IPL_FILL((l12 + 136u), 0u, (ipl_u64)128u);
    IPL_FILL((l12 + 8u), 0u, (ipl_u64)128u);
    l17 = (ipl_u32)(l6 == 0);
    if (l17 != 0) goto L4;
    l18 = (l10 & 18446744073709551612ull);
    l19 = (ipl_u64)0u;
    l20 = (l8 + 24u);
L5:;
    l4 = (l5 + (l19 * 504u));
    l21 = IPL_L8(l4, 8u);
    l1 = IPL_L64((l4 + 496u), 0u);
    IPL_FILL((l12 + 760u), 0u, (ipl_u64)520u);
    ipl_w13_record_at(m, (l12 + 760u), (l4 + 16u), l1, l21);
    if (IPL_L8(l12, 760u) != 1u) goto L6;
    l16 = IPL_L64(l12, 776u);
    l22 = IPL_L32(l12, 772u);
    l3 = IPL_L32(l12, 768u);
    l23 = IPL_L64(l12, 1264u);
    l24 = IPL_L64(l12, 1272u);
    l25 = (ipl_u32)((l21 & 255u) != 1u);
L7:;
    if (l3 != l7) goto L8;
    l26 = IPL_L64(l8, 16u);
    l4 = IPL_L64(l20, 0u);
    if (l4 > 1u) goto L11;
    l1 = (ipl_u64)0u;
    switch ((ipl_u32)l4) {
    case 1u: goto L10;
    default: goto L9;
    }
L11:;
    l1 = (ipl_u64)0u;
L12:;
    l27 = (l4 >> 1);
    l28 = (l27 + l1);
    l1 = (IPL_L64((l26 + (l28 << 3)), 0u) > l16 ? l1 : l28);
    l4 = (l4 - l27);
    if (l4 > 1u) goto L12;
    l1 = (l1 << 3);
L10:;
    if (IPL_L64((l26 + l1), 0u) != l16) goto L9;
    l4 = ((l12 + 136u) + ((ipl_u64)l22 << 1));
    IPL_S16(l4, 0u, (IPL_L16(l4, 0u) + 1u));
L9:;
    l1 = (ipl_u64)0u;
    if (l10 < 4u) goto L14;
    l27 = (ipl_u64)0u;
    l28 = l9;
L15:;
    l26 = l27;
    l27 = (l26 + 4u);
    if (l26 == 18446744073709551612ull) goto L16;
    l1 = (ipl_u64)0u;
    l4 = l28;
L18:;
    if (IPL_L64(l4, 0u) == l16) goto L17;
    l4 = (l4 + 8u);
    l1 = (l1 - 1u);
    if (l1 != 18446744073709551612ull) goto L18;
    goto L16;
L17:;
    if ((l26 - l1) < l27) goto L13;
L16:;
    l28 = (l28 + 32u);
    if ((l10 - l27) > 3u) goto L15;
    l1 = l18;
L14:;
    if (l1 >= l10) goto L8;
    l4 = (l9 + (l1 << 3));
L20:;
    if (IPL_L64(l4, 0u) == l16) goto L19;
    l4 = (l4 + 8u);
    l1 = (l1 + 1u);
    if (l10 != l1) goto L20;
    goto L8;
L19:;
    if (l1 >= l10) goto L8;
L13:;
    l4 = ((l12 + 8u) + ((ipl_u64)l22 << 1));
    IPL_S16(l4, 0u, (IPL_L16(l4, 0u) + 1u));
L8:;
    if (l24 < 12u) goto L6;
    l3 = IPL_L8(l23, 0u);
    if (l3 > 14u) goto L6;
    if (l25 != 0) goto L22;
    l22 = IPL_L8(l23, 2u);
    if (l22 >= 64u) goto L6;
    l4 = (ipl_u64)IPL_L8(l23, 3u);
    l21 = IPL_L8(l23, 1u);
    if ((l21 == 1u ? (ipl_u32)(l4 < 109u) : ((ipl_u32)(l21 == 2u) & (ipl_u32)(l4 == 0))) != 1u) goto L6;
    l4 = (l4 + 12u);
    if (l4 <= l24) goto L21;
    goto L6;
L22:;
    l4 = (((ipl_u64)IPL_L8(l23, 2u) << 8) | (ipl_u64)IPL_L8(l23, 3u));
    l29 = (ipl_u32)(l4 < 465u);
    l21 = IPL_L8(l23, 1u);
    l22 = (l21 >> 6);
    if ((l22 == 1u ? l29 : ((ipl_u32)(l22 == 2u) & (ipl_u32)(l4 == 0))) != 1u) goto L6;
    l4 = (l4 + 12u);
    if (l4 > l24) goto L6;
    l22 = (l21 & 63u);
    if ((l21 & 192u) != 64u) goto L21;
    if (l29 == 0) goto L1;
L21:;
    IPL_S32(l12, 772u, l22);
    IPL_S32(l12, 768u, l3);
    IPL_S64(l12, 760u, (ipl_u64)1u);
    l24 = (l24 - l4);
    IPL_S64(l12, 1272u, l24);
    l1 = (l23 + l4);
    IPL_S64(l12, 1264u, l1);
    l4 = IPL_L64U(l23, 4u);
    t2 = ((((l4 << 56) | ((l4 & 65280u) << 40)) | (((l4 & 16711680ull) << 24) | ((l4 & 4278190080ull) << 8))) | ((((l4 >> 8) & 4278190080ull) | ((l4 >> 24) & 16711680ull)) | (((l4 >> 40) & 65280u) | (l4 >> 56))));
    l16 = t2;
    IPL_S64(l12, 776u, l16);
    l23 = l1;
    goto L7;
L6:;
    l19 = (l19 + 1u);
    if (l19 != l6) goto L5;
L4:;
    l16 = (l11 + 7682u);
    l28 = (ipl_u64)0u;
    l26 = (l11 + 7808u);
    l27 = (ipl_u64)0u;
L23:;
    l4 = (l27 << 1);
    if (IPL_L16(((l12 + 136u) + l4), 0u) == 0) goto L24;
    l4 = (l13 + l4);
    l22 = IPL_L16(l4, 0u);
    l3 = IPL_L16(l4, 2u);
    if (l22 == l3) goto L24;
    l21 = IPL_L16(l26, 0u);
    if (l3 == (l21 & 65535u)) goto L25;
    l23 = ((ipl_u64)l21 & 65535u);
    l4 = (ipl_u64)l3;
    l1 = (ipl_u64)l22;
    if (l22 <= l3) goto L26;
    t3 = (l11 + l4);
    t4 = (l1 - l4);
    l4 = (l23 - l4);
    ipl_w28_rotate_left(m, t3, (t4 + l4), l4);
    goto L25;
L26:;
    if (l22 >= l3) goto L25;
    ipl_w28_rotate_left(m, (l11 + l1), (l23 - l1), (l4 - l1));
L25:;
    l3 = (l22 - l3);
    l4 = l28;
L27:;
    l1 = (l16 + l4);
    IPL_S16(l1, 0u, (l3 + IPL_L16(l1, 0u)));
    l4 = (l4 + 2u);
    if (l4 != 128u) goto L27;
L24:;
    l28 = (l28 + 2u);
    l27 = (l27 + 1u);
    if (l27 != 64u) goto L23;
    if (l17 != 0) goto L29;
    l20 = (l12 + 792u);
    l19 = ((l12 + 760u) + 8u);
    l18 = (ipl_u64)0u;
    l30 = (l8 + 24u);
L30:;
    l4 = (l5 + (l18 * 504u));
    l3 = IPL_L8(l4, 8u);
    l1 = IPL_L64((l4 + 496u), 0u);
    IPL_FILL((l12 + 760u), 0u, (ipl_u64)520u);
    ipl_w13_record_at(m, (l12 + 760u), (l4 + 16u), l1, l3);
    if (IPL_L8(l12, 760u) != 1u) goto L31;
    l28 = IPL_L64(l12, 1264u);
    l24 = IPL_L64(l12, 1272u);
    l25 = (ipl_u32)((l3 & 255u) != 1u);
L32:;
    IPL_COPY((l12 + 264u), l19, (ipl_u64)496u);
    if (IPL_L32(l12, 264u) != l7) goto L33;
    l26 = IPL_L64(l8, 16u);
    l23 = IPL_L64(l12, 272u);
    l4 = IPL_L64(l30, 0u);
    if (l4 > 1u) goto L35;
    l1 = (ipl_u64)0u;
    switch ((ipl_u32)l4) {
    case 1u: goto L34;
    default: goto L33;
    }
L35:;
    l1 = (ipl_u64)0u;
L36:;
    l16 = (l4 >> 1);
    l27 = (l16 + l1);
    l1 = (IPL_L64((l26 + (l27 << 3)), 0u) > l23 ? l1 : l27);
    l4 = (l4 - l16);
    if (l4 > 1u) goto L36;
    l1 = (l1 << 3);
L34:;
    if (IPL_L64((l26 + l1), 0u) != l23) goto L33;
    l4 = ((l12 + 136u) + ((ipl_u64)IPL_L32(l12, 268u) << 1));
    l3 = (IPL_L16(l4, 0u) + (ipl_u32)4294967295u);
    IPL_S16(l4, 0u, l3);
    if ((l3 & 65535u) != 0) goto L33;
    t5 = ipl_w29_apply_where_room(m, l11, (l12 + 264u));
    if (t5 == 0) goto L28;
L33:;
    if (l24 < 12u) goto L31;
    l21 = IPL_L8(l28, 0u);
    if (l21 > 14u) goto L31;
    if (l25 != 0) goto L42;
    l22 = IPL_L8(l28, 2u);
    if (l22 >= 64u) goto L31;
    l3 = IPL_L8(l28, 3u);
    l29 = IPL_L8(l28, 1u);
    t6 = ((ipl_u32)(l29 == 2u) & (ipl_u32)(l3 == 0));
    l29 = (ipl_u32)(l29 == 1u);
    if ((l29 != 0 ? (ipl_u32)(l3 < 109u) : t6) != 1u) goto L31;
    l1 = (ipl_u64)l3;
    if ((l1 + 12u) <= l24) goto L41;
    goto L31;
L42:;
    l17 = IPL_L8(l28, 2u);
    l3 = IPL_L8(l28, 3u);
    l1 = ((((ipl_u64)l17 & 255u) << 8) | ((ipl_u64)l3 & 255u));
    l29 = IPL_L8(l28, 1u);
    l22 = (l29 >> 6);
    if ((l22 == 1u ? (ipl_u32)(l1 < 465u) : ((ipl_u32)(l22 == 2u) & (ipl_u32)(l1 == 0))) != 1u) goto L31;
    if ((l1 + 12u) > l24) goto L31;
    l22 = (l29 & 63u);
    l4 = IPL_L64U(l28, 4u);
    if ((l29 & 192u) != 64u) goto L39;
    IPL_FILL((l12 + 1752u), 0u, (ipl_u64)464u);
    if (l1 <= 464u) goto L40;
    goto L1;
L41:;
    l4 = IPL_L64U(l28, 4u);
    if (l29 != 0) goto L43;
    IPL_FILL((l12 + 1280u), 0u, (ipl_u64)472u);
    t7 = ((((l4 << 56) | ((l4 & 65280u) << 40)) | (((l4 & 16711680ull) << 24) | ((l4 & 4278190080ull) << 8))) | ((((l4 >> 8) & 4278190080ull) | ((l4 >> 24) & 16711680ull)) | (((l4 >> 40) & 65280u) | (l4 >> 56))));
    l4 = t7;
    goto L38;
L43:;
    IPL_FILL((l12 + 1752u), 0u, (ipl_u64)464u);
    l17 = l22;
L40:;
    if (l1 == 0) goto L44;
    IPL_COPY((l12 + 1752u), (l28 + 12u), l1);
L44:;
    IPL_S64(l12, 2216u, l1);
    IPL_COPY((l12 + 1280u), (l12 + 1752u), (ipl_u64)472u);
    t8 = ((((l4 << 56) | ((l4 & 65280u) << 40)) | (((l4 & 16711680ull) << 24) | ((l4 & 4278190080ull) << 8))) | ((((l4 >> 8) & 4278190080ull) | ((l4 >> 24) & 16711680ull)) | (((l4 >> 40) & 65280u) | (l4 >> 56))));
    l4 = t8;
    if (l25 != 0) goto L45;
    l1 = ((ipl_u64)l3 & 255u);
    l16 = (ipl_u64)0u;
    goto L37;
L45:;
    l1 = ((((ipl_u64)l17 & 255u) << 8) | ((ipl_u64)l3 & 255u));
    l16 = (ipl_u64)0u;
    goto L37;
L39:;
    IPL_FILL((l12 + 1280u), 0u, (ipl_u64)472u);
    t9 = ((((l4 << 56) | ((l4 & 65280u) << 40)) | (((l4 & 16711680ull) << 24) | ((l4 & 4278190080ull) << 8))) | ((((l4 >> 8) & 4278190080ull) | ((l4 >> 24) & 16711680ull)) | (((l4 >> 40) & 65280u) | (l4 >> 56))));
    l4 = t9;
L38:;
    l16 = (ipl_u64)1u;
L37:;
    IPL_S64(l12, 784u, l16);
    IPL_S64(l12, 776u, l4);
    IPL_S32(l12, 772u, l22);
    IPL_S32(l12, 768u, l21);
    IPL_S64(l12, 760u, (ipl_u64)1u);
    IPL_COPY(l20, (l12 + 1280u), (ipl_u64)472u);
    l4 = (l1 + 12u);
    l24 = (l24 - l4);
    IPL_S64(l12, 1272u, l24);
    l28 = (l28 + l4);
    IPL_S64(l12, 1264u, l28);
    goto L32;
L31:;
    l18 = (l18 + 1u);
    if (l18 != l6) goto L30;
    l18 = (l10 & 18446744073709551612ull);
    l19 = ((l12 + 760u) + 32u);
    l30 = ((l12 + 264u) + 16u);
    l8 = ((l12 + 760u) + 8u);
    l20 = (ipl_u64)0u;
L46:;
    l4 = (l5 + (l20 * 504u));
    l3 = IPL_L8(l4, 8u);
    l1 = IPL_L64((l4 + 496u), 0u);
    IPL_FILL((l12 + 760u), 0u, (ipl_u64)520u);
    ipl_w13_record_at(m, (l12 + 760u), (l4 + 16u), l1, l3);
    if (IPL_L8(l12, 760u) != 1u) goto L47;
    l23 = IPL_L64(l12, 1264u);
    l24 = IPL_L64(l12, 1272u);
    l25 = (ipl_u32)((l3 & 255u) != 1u);
L48:;
    IPL_COPY((l12 + 264u), l8, (ipl_u64)496u);
    if (IPL_L32(l12, 264u) != l7) goto L49;
    l1 = (ipl_u64)0u;
    l16 = IPL_L64(l12, 272u);
    if (l10 < 4u) goto L51;
    l27 = (ipl_u64)0u;
    l28 = l9;
L52:;
    l26 = l27;
    l27 = (l26 + 4u);
    if (l26 == 18446744073709551612ull) goto L53;
    l1 = (ipl_u64)0u;
    l4 = l28;
L55:;
    if (IPL_L64(l4, 0u) == l16) goto L54;
    l4 = (l4 + 8u);
    l1 = (l1 - 1u);
    if (l1 != 18446744073709551612ull) goto L55;
    goto L53;
L54:;
    if ((l26 - l1) < l27) goto L50;
L53:;
    l28 = (l28 + 32u);
    if ((l10 - l27) > 3u) goto L52;
    l1 = l18;
L51:;
    if (l1 >= l10) goto L49;
    l4 = (l9 + (l1 << 3));
L57:;
    if (IPL_L64(l4, 0u) == l16) goto L56;
    l4 = (l4 + 8u);
    l1 = (l1 + 1u);
    if (l10 != l1) goto L57;
    goto L49;
L56:;
    if (l1 >= l10) goto L49;
L50:;
    l22 = IPL_L32(l12, 268u);
    l4 = ((l12 + 8u) + ((ipl_u64)l22 << 1));
    l3 = (IPL_L16(l4, 0u) + (ipl_u32)4294967295u);
    IPL_S16(l4, 0u, l3);
    if ((l3 & 65535u) != 0) goto L49;
    t10 = ipl_w30_set_pending(m, l11, l22, l16, l30);
    if (t10 == 0) goto L28;
L49:;
    if (l24 < 12u) goto L47;
    l21 = IPL_L8(l23, 0u);
    if (l21 > 14u) goto L47;
    if (l25 != 0) goto L63;
    l22 = IPL_L8(l23, 2u);
    if (l22 >= 64u) goto L47;
    l3 = IPL_L8(l23, 3u);
    l29 = IPL_L8(l23, 1u);
    t11 = ((ipl_u32)(l29 == 2u) & (ipl_u32)(l3 == 0));
    l29 = (ipl_u32)(l29 == 1u);
    if ((l29 != 0 ? (ipl_u32)(l3 < 109u) : t11) != 1u) goto L47;
    l1 = (ipl_u64)l3;
    if ((l1 + 12u) <= l24) goto L62;
    goto L47;
L63:;
    l17 = IPL_L8(l23, 2u);
    l3 = IPL_L8(l23, 3u);
    l1 = ((((ipl_u64)l17 & 255u) << 8) | ((ipl_u64)l3 & 255u));
    l29 = IPL_L8(l23, 1u);
    l22 = (l29 >> 6);
    if ((l22 == 1u ? (ipl_u32)(l1 < 465u) : ((ipl_u32)(l22 == 2u) & (ipl_u32)(l1 == 0))) != 1u) goto L47;
    if ((l1 + 12u) > l24) goto L47;
    l22 = (l29 & 63u);
    l4 = IPL_L64U(l23, 4u);
    if ((l29 & 192u) != 64u) goto L60;
    IPL_FILL((l12 + 1752u), 0u, (ipl_u64)464u);
    if (l1 > 464u) goto L1;
    goto L61;
L62:;
    l4 = IPL_L64U(l23, 4u);
    if (l29 != 0) goto L64;
    IPL_FILL((l12 + 1280u), 0u, (ipl_u64)472u);
    t12 = ((((l4 << 56) | ((l4 & 65280u) << 40)) | (((l4 & 16711680ull) << 24) | ((l4 & 4278190080ull) << 8))) | ((((l4 >> 8) & 4278190080ull) | ((l4 >> 24) & 16711680ull)) | (((l4 >> 40) & 65280u) | (l4 >> 56))));
    l4 = t12;
    goto L59;
L64:;
    IPL_FILL((l12 + 1752u), 0u, (ipl_u64)464u);
    l17 = l22;
L61:;
    if (l1 == 0) goto L65;
    IPL_COPY((l12 + 1752u), (l23 + 12u), l1);
L65:;
    IPL_S64(l12, 2216u, l1);
    IPL_COPY((l12 + 1280u), (l12 + 1752u), (ipl_u64)472u);
    t13 = ((((l4 << 56) | ((l4 & 65280u) << 40)) | (((l4 & 16711680ull) << 24) | ((l4 & 4278190080ull) << 8))) | ((((l4 >> 8) & 4278190080ull) | ((l4 >> 24) & 16711680ull)) | (((l4 >> 40) & 65280u) | (l4 >> 56))));
    l4 = t13;
    if (l25 != 0) goto L66;
    l1 = ((ipl_u64)l3 & 255u);
    l16 = (ipl_u64)0u;
    goto L58;
L66:;
    l1 = ((((ipl_u64)l17 & 255u) << 8) | ((ipl_u64)l3 & 255u));
    l16 = (ipl_u64)0u;
    goto L58;
L60:;
    IPL_FILL((l12 + 1280u), 0u, (ipl_u64)472u);
    t14 = ((((l4 << 56) | ((l4 & 65280u) << 40)) | (((l4 & 16711680ull) << 24) | ((l4 & 4278190080ull) << 8))) | ((((l4 >> 8) & 4278190080ull) | ((l4 >> 24) & 16711680ull)) | (((l4 >> 40) & 65280u) | (l4 >> 56))));
    l4 = t14;
L59:;
    l16 = (ipl_u64)1u;
L58:;
    IPL_S64(l12, 784u, l16);
    IPL_S64(l12, 776u, l4);
    IPL_S32(l12, 772u, l22);
    IPL_S32(l12, 768u, l21);
    IPL_S64(l12, 760u, (ipl_u64)1u);
    IPL_COPY(l19, (l12 + 1280u), (ipl_u64)472u);
    l4 = (l1 + 12u);
    l24 = (l24 - l4);
    IPL_S64(l12, 1272u, l24);
    l23 = (l23 + l4);
    IPL_S64(l12, 1264u, l23);
    goto L48;
L47:;
    l20 = (l20 + 1u);
    if (l20 != l6) goto L46;
L29:;
    IPL_S64U(l0, 4u, (ipl_u64)0u);
    IPL_S8(l0, 0u, 0u);
    IPL_S64U(l0, 12u, (ipl_u64)0u);
    IPL_S32U(l0, 20u, 0u);
    goto L2;
L28:;
    IPL_FILL(l13, 0u, (ipl_u64)130u);
    IPL_FILL(l14, 0u, (ipl_u64)130u);
    IPL_S64U(l15, 56u, (ipl_u64)0u);
    IPL_S64U(l15, 48u, (ipl_u64)0u);
    IPL_S64U(l15, 40u, (ipl_u64)0u);
    IPL_S64U(l15, 32u, (ipl_u64)0u);
    IPL_S64U(l15, 24u, (ipl_u64)0u);
    IPL_S64U(l15, 16u, (ipl_u64)0u);
    IPL_S64U(l15, 8u, (ipl_u64)0u);
    IPL_S64U(l15, 0u, (ipl_u64)0u);
    IPL_S32U(l0, 20u, 0u);
    IPL_S64U(l0, 12u, (ipl_u64)0u);
    IPL_S32U(l0, 8u, l2);
    IPL_S32U(l0, 4u, 3u);
    IPL_S8(l0, 0u, 1u);
    goto L2;
L3:;
    l3 = IPL_L32(l12, 284u);
    l7 = IPL_L32(l12, 280u);
    l22 = IPL_L32(l12, 276u);
    l21 = IPL_L32(l12, 272u);
    l25 = IPL_L8(l12, 268u);
    IPL_S8(l0, 0u, 1u);
    IPL_S32U(l0, 20u, l3);
    IPL_S32U(l0, 16u, l7);
    IPL_S32U(l0, 12u, l22);
    IPL_S32U(l0, 8u, l21);
    IPL_S32U(l0, 4u, l25);
L2:;
    IPL_G(0) = (l12 + 2224u);
    return;
L1:;
    ipl_trap(m);
}

/* unit_io::page_reading::read_page::<#81e02dbab8cd6729> */
static void ipl_w27_read_page(ipl_u8 *const m, ipl_u64 l0, ipl_u64 l1, ipl_u32 l2, ipl_u64 l3, ipl_u32 l4, ipl_u32 l5, ipl_u64 l6, ipl_u64 l7) {
    ipl_u32 l10 = 0, l11 = 0, l12 = 0;
    ipl_u64 l8 = 0, l9 = 0, l13 = 0, l14 = 0, t1;
    IPL_ENDS
    t1 = IPL_G(0);
    l8 = (t1 - 7936u);
    IPL_G(0) = l8;
    IPL_S64(l8, 24u, (ipl_u64)0u);
    IPL_S64(l8, 16u, (ipl_u64)0u);
    IPL_S64(l8, 8u, (ipl_u64)0u);
    if (IPL_L8(l3, 1u) != 1u) goto L5;
    IPL_S64(l8, 48u, (ipl_u64)0u);
    IPL_S64(l8, 40u, (ipl_u64)0u);
    IPL_S64(l8, 32u, (ipl_u64)0u);
    l9 = (l6 + 7680u);
    IPL_FILL(l9, 0u, (ipl_u64)130u);
    IPL_FILL((l8 + 126u), 0u, (ipl_u64)7810u);
    IPL_S64(l8, 112u, (ipl_u64)0u);
    IPL_S64(l8, 104u, (ipl_u64)0u);
    IPL_S64(l8, 96u, (ipl_u64)0u);
    IPL_S64(l8, 88u, (ipl_u64)0u);
    IPL_S64(l8, 80u, (ipl_u64)0u);
    IPL_S64(l8, 72u, (ipl_u64)0u);
    IPL_S64(l8, 64u, (ipl_u64)0u);
    IPL_S64(l8, 56u, (ipl_u64)0u);
    ipl_w31_read_pieces(m, (l8 + 32u), l1, l2, l3, l4, l5, (l8 + 126u), (l8 + 56u));
    l3 = IPL_L64(l8, 40u);
    if (IPL_L8(l8, 32u) != 0) goto L7;
    IPL_FILL(l9, 0u, (ipl_u64)130u);
    if (l3 > 7680u) goto L4;
    l1 = (l8 + 126u);
    l10 = 0u;
L8:;
    if (l3 > 1u) goto L11;
    switch ((ipl_u32)l3) {
    case 1u: goto L10;
    default: goto L6;
    }
L11:;
    l5 = IPL_L8(l1, 0u);
    if (l5 > 63u) goto L10;
    if (l10 > l5) goto L10;
    l7 = (l1 + 1u);
    l10 = IPL_L8(l7, 0u);
    if (l10 > 108u) goto L10;
    if (l3 >= ((ipl_u64)(l10 + 2u) & 255u)) goto L9;
L10:;
    IPL_FILL(l9, 0u, (ipl_u64)130u);
    goto L4;
L9:;
    ipl_w32_set(m, l6, l5, (l1 + 2u), (ipl_u64)l10);
    l10 = (l5 + 1u);
    l7 = ((ipl_u64)IPL_L8(l7, 0u) + 2u);
    l3 = (l3 - l7);
    l1 = (l1 + l7);
    goto L8;
L7:;
    l4 = (ipl_u32)(l3 >> 32);
    l2 = (ipl_u32)l3;
    l5 = 1u;
    l11 = IPL_L8(l8, 36u);
    l10 = IPL_L32(l8, 48u);
    l12 = IPL_L32(l8, 52u);
    goto L2;
L6:;
    l11 = 0u;
    l5 = 0u;
    l2 = 0u;
    l4 = 0u;
    l10 = 0u;
    goto L3;
L5:;
    l13 = (l6 + 7680u);
    IPL_FILL(l13, 0u, (ipl_u64)130u);
    ipl_w31_read_pieces(m, (l8 + 8u), l1, l2, l3, l4, l5, l6, l7);
    l9 = IPL_L64(l8, 16u);
    if (IPL_L8(l8, 8u) != 0) goto L13;
    l7 = (ipl_u64)0u;
    l1 = l13;
    l3 = (ipl_u64)0u;
L15:;
    IPL_S16(l1, 0u, l3);
    if (l9 <= l3) goto L16;
    l14 = (l6 + l3);
    if (l7 != (ipl_u64)IPL_L8(l14, 0u)) goto L16;
    l3 = (l3 + 3u);
    if (l3 > l9) goto L14;
    l14 = (((ipl_u64)IPL_L8(l14, 1u) << 8) | (ipl_u64)IPL_L8(l14, 2u));
    if (l14 > 464u) goto L14;
    l3 = (l14 + l3);
    if (l3 > l9) goto L14;
L16:;
    l1 = (l1 + 2u);
    l7 = (l7 + 1u);
    if (l7 != 64u) goto L15;
    IPL_S16((l6 + 7808u), 0u, l3);
    if (l3 == l9) goto L12;
L14:;
    IPL_FILL(l13, 0u, (ipl_u64)130u);
    IPL_S64U(l0, 16u, (ipl_u64)0u);
    IPL_S32U(l0, 8u, l2);
    IPL_S32U(l0, 4u, 3u);
    IPL_S8(l0, 0u, 1u);
    IPL_S32U(l0, 12u, ((l4 << 4) | 1u));
    goto L1;
L13:;
    IPL_S8(l0, 0u, 1u);
    IPL_S64U(l0, 16u, IPL_L64(l8, 24u));
    IPL_S64U(l0, 8u, l9);
    IPL_S32U(l0, 4u, IPL_L8(l8, 12u));
    goto L1;
L12:;
    IPL_S8(l0, 0u, 0u);
    IPL_S64U(l0, 4u, (ipl_u64)0u);
    IPL_S64U(l0, 12u, (ipl_u64)0u);
    IPL_S32U(l0, 20u, 0u);
    goto L1;
L4:;
    l5 = 1u;
    l4 = ((l4 << 4) | 1u);
    l10 = 0u;
    l11 = 3u;
L3:;
    l12 = 0u;
L2:;
    IPL_S32U(l0, 20u, l12);
    IPL_S32U(l0, 16u, l10);
    IPL_S32U(l0, 12u, l4);
    IPL_S32U(l0, 8u, l2);
    IPL_S32U(l0, 4u, l11);
    IPL_S8(l0, 0u, l5);
L1:;
    IPL_G(0) = (l8 + 7936u);
}

/* core::slice::edits::slice+T::rotate_left::<i8> */
static void ipl_w28_rotate_left(ipl_u8 *const m, ipl_u64 l0, ipl_u64 l1, ipl_u64 l2) {
    ipl_u32 l3 = 0, l7 = 0;
    ipl_u64 l4 = 0, l5 = 0, l6 = 0, l8 = 0, l9 = 0, l10 = 0, l11 = 0, l12 = 0;
    IPL_ENDS
    if (l2 == 0) goto L2;
    if (l1 == l2) goto L2;
    if (l2 != 1u) goto L3;
    l3 = IPL_L8(l0, 0u);
    l4 = (ipl_u64)0u;
    l5 = (l1 - 1u);
    l2 = l5;
    if (l5 < 2049u) goto L4;
    l4 = (ipl_u64)0u;
    l1 = l0;
L5:;
    l2 = (ipl_u64)0u;
L6:;
    l6 = (l1 + l2);
    IPL_S8(l6, 0u, IPL_L8(l6, 1u));
    l2 = (l2 + 1u);
    if (l2 != 2048u) goto L6;
    l1 = (l1 + 2048u);
    l4 = (l4 + 2048u);
    l2 = (l5 - l4);
    if (l2 > 2048u) goto L5;
L4:;
    if (l5 == l4) goto L7;
    if (l2 == 0) goto L7;
    l6 = (l0 + l4);
    IPL_COPY(l6, (l6 + 1u), l2);
L7:;
    IPL_S8((l0 + l5), 0u, l3);
    return;
L3:;
    l6 = (l1 - l2);
    if (l6 != 1u) goto L8;
    l2 = (l1 - 1u);
    l3 = IPL_L8((l0 + l2), 0u);
    l7 = (ipl_u32)(l2 == 0);
    if (l7 != 0) goto L9;
    if (l7 != 0) goto L9;
    IPL_COPY((l0 + 1u), l0, l2);
L9:;
    IPL_S8(l0, 0u, l3);
    return;
L8:;
    l4 = (l6 < l2 ? l6 : l2);
    l5 = (l1 - l4);
    l4 = (l4 < 16u ? (l5 < 4097u ? l5 : l4) : l4);
    if (l4 < 4097u) goto L12;
    l1 = (ipl_u64)0u;
    if (l2 < 32u) goto L13;
    if (l6 < 32u) goto L13;
    l1 = (ipl_u64)0u;
L14:;
    l5 = (l1 + l2);
    l4 = (l6 < l2 ? l6 : l2);
    ipl_w33_swap_with_slice(m, (l0 + (l5 - l4)), l4, (l0 + l5));
    l3 = (ipl_u32)(l2 > l6);
    l5 = (l3 != 0 ? (ipl_u64)0u : l4);
    l1 = (l5 + l1);
    l6 = (l6 - l5);
    l2 = (l2 - (l3 != 0 ? l4 : (ipl_u64)0u));
    if (l2 < 32u) goto L13;
    if (l6 > 31u) goto L14;
L13:;
    l4 = (l1 + l2);
    if (l2 > 15u) goto L11;
    if (l2 < 2u) goto L10;
    l8 = ((l1 + l2) - 1u);
    l9 = l2;
    l5 = l1;
    l10 = l4;
L15:;
    l11 = l5;
    l10 = (l10 - 1u);
    l12 = l10;
    if (l5 < l8) goto L17;
    l11 = l10;
    l12 = l5;
    if (l8 >= l5) goto L16;
L17:;
    l11 = (l0 + l11);
    l3 = IPL_L8(l11, 0u);
    l12 = (l0 + l12);
    IPL_S8(l11, 0u, IPL_L8(l12, 0u));
    IPL_S8(l12, 0u, l3);
L16:;
    l8 = (l8 - 1u);
    l5 = (l5 + 1u);
    l9 = (l9 - 2u);
    if (l9 > 1u) goto L15;
    goto L10;
L12:;
    ipl_w34_turn_through_room(m, l0, l1, l2, l4);
    return;
L11:;
    l5 = (l2 >> 1);
    ipl_w35_mirror(m, l0, l1, (l0 + (l4 - l5)), l5);
L10:;
    l8 = (l4 + l6);
    if (l6 > 15u) goto L19;
    if (l6 < 2u) goto L18;
    l5 = (((l6 + l2) + l1) - 1u);
    l9 = l6;
    l10 = l8;
L20:;
    l11 = l4;
    l10 = (l10 - 1u);
    l12 = l10;
    if (l4 < l5) goto L22;
    l11 = l10;
    l12 = l4;
    if (l5 >= l4) goto L21;
L22:;
    l11 = (l0 + l11);
    l3 = IPL_L8(l11, 0u);
    l12 = (l0 + l12);
    IPL_S8(l11, 0u, IPL_L8(l12, 0u));
    IPL_S8(l12, 0u, l3);
L21:;
    l5 = (l5 - 1u);
    l4 = (l4 + 1u);
    l9 = (l9 - 2u);
    if (l9 > 1u) goto L20;
    goto L18;
L19:;
    l5 = (l6 >> 1);
    ipl_w35_mirror(m, l0, l4, (l0 + (l8 - l5)), l5);
L18:;
    l4 = (l8 - l1);
    if (l4 > 15u) goto L1;
    if (l4 < 2u) goto L2;
    l2 = (((l6 + l2) + l1) - 1u);
L23:;
    l6 = l1;
    l8 = (l8 - 1u);
    l5 = l8;
    if (l1 < l2) goto L25;
    l6 = l8;
    l5 = l1;
    if (l2 >= l1) goto L24;
L25:;
    l6 = (l0 + l6);
    l3 = IPL_L8(l6, 0u);
    l5 = (l0 + l5);
    IPL_S8(l6, 0u, IPL_L8(l5, 0u));
    IPL_S8(l5, 0u, l3);
L24:;
    l2 = (l2 - 1u);
    l1 = (l1 + 1u);
    l4 = (l4 - 2u);
    if (l4 > 1u) goto L23;
L2:;
    return;
L1:;
    l2 = (l4 >> 1);
    ipl_w35_mirror(m, l0, l1, (l0 + (l8 - l2)), l2);
}

/* page_ops::rebuilding::apply_where_room */
static ipl_u32 ipl_w29_apply_where_room(ipl_u8 *const m, ipl_u64 l0, ipl_u64 l1) {
    ipl_u32 l2 = 0, l3 = 0, l6 = 0, l7 = 0, l8 = 0;
    ipl_u64 l4 = 0, l5 = 0, l9 = 0, t1, t2;
    IPL_ENDS
    l2 = IPL_L32(l1, 4u);
    if (IPL_L8(l1, 16u) != 0) goto L2;
    l3 = 0u;
    l4 = IPL_L64((l1 + 488u), 0u);
    l5 = (l0 + ((ipl_u64)l2 << 1));
    if (((((l4 + (ipl_u64)IPL_L16((l0 + 7808u), 0u)) + (ipl_u64)IPL_L16((l5 + 7680u), 0u)) - (ipl_u64)IPL_L16((l5 + 7682u), 0u)) + 3u) > 7680u) goto L1;
    ipl_w32_set(m, l0, l2, (l1 + 24u), l4);
    return 1u;
L2:;
    l3 = 1u;
    l4 = (ipl_u64)l2;
    l1 = (l0 + (l4 << 1));
    l6 = IPL_L16((l1 + 7680u), 0u);
    l7 = IPL_L16((l1 + 7682u), 0u);
    if (l6 == l7) goto L1;
    l8 = IPL_L16((l0 + 7808u), 0u);
    if (l7 == (l8 & 65535u)) goto L3;
    l9 = ((ipl_u64)l8 & 65535u);
    l1 = (ipl_u64)l7;
    l5 = (ipl_u64)l6;
    if (l6 <= l7) goto L4;
    t1 = (l0 + l1);
    t2 = (l5 - l1);
    l1 = (l9 - l1);
    ipl_w28_rotate_left(m, t1, (t2 + l1), l1);
    goto L3;
L4:;
    if (l6 >= l7) goto L3;
    ipl_w28_rotate_left(m, (l0 + l5), (l9 - l5), (l1 - l5));
L3:;
    if (l2 > 63u) goto L1;
    l5 = (l0 + 7682u);
    l1 = (l4 << 1);
    l2 = (l6 - l7);
L5:;
    l0 = (l5 + l1);
    IPL_S16(l0, 0u, (l2 + IPL_L16(l0, 0u)));
    l1 = (l1 + 2u);
    if (l1 != 128u) goto L5;
L1:;
    return l3;
}

/* page_ops::frame::Frame::set_pending */
static ipl_u32 ipl_w30_set_pending(ipl_u8 *const m, ipl_u64 l0, ipl_u32 l1, ipl_u64 l2, ipl_u64 l3) {
    ipl_u32 l5 = 0, l6 = 0, l12 = 0, l13 = 0, l16 = 0, l17 = 0;
    ipl_u64 l4 = 0, l7 = 0, l8 = 0, l9 = 0, l10 = 0, l11 = 0, l14 = 0, l15 = 0, t1;
    IPL_ENDS
    l4 = (ipl_u64)0u;
    l5 = IPL_L8(l3, 0u);
    if (l5 != 0) goto L1;
    l4 = (IPL_L64((l3 + 472u), 0u) + 3u);
L1:;
    l6 = IPL_L16((l0 + 15618u), 0u);
    l7 = ((ipl_u64)l6 & 65535u);
    if (((l4 + (ipl_u64)IPL_L16((l0 + 7808u), 0u)) + l7) < 7681u) goto L3;
    l8 = ((ipl_u64)l1 << 1);
    l9 = (ipl_u64)0u;
    l10 = (ipl_u64)0u;
L4:;
    l11 = (l0 + l9);
    l12 = IPL_L16((l11 + 7682u), 0u);
    l13 = IPL_L16((l11 + 7680u), 0u);
    l14 = (((ipl_u64)l12 & 65535u) - ((ipl_u64)l13 & 65535u));
    l15 = l4;
    if (l8 == l9) goto L5;
    l16 = IPL_L16((l11 + 15492u), 0u);
    l17 = IPL_L16((l11 + 15490u), 0u);
    l15 = (l17 == l16 ? (ipl_u64)0u : ((ipl_u64)l16 - (ipl_u64)l17));
L5:;
    l10 = (((l13 & 65535u) == (l12 & 65535u) ? l15 : (l15 > l14 ? l15 : l14)) + l10);
    l9 = (l9 + 2u);
    if (l9 != 128u) goto L4;
    l12 = 0u;
    if (l10 >= 7681u) goto L2;
L3:;
    l15 = (l0 + 7810u);
    if (l5 != 0) goto L7;
    ipl_w32_set(m, l15, l1, (l3 + 8u), IPL_L64((l3 + 472u), 0u));
    l14 = (ipl_u64)l1;
    goto L6;
L7:;
    l14 = (ipl_u64)l1;
    l9 = (l0 + (l14 << 1));
    l13 = IPL_L16((l9 + 15490u), 0u);
    l12 = IPL_L16((l9 + 15492u), 0u);
    if (l13 == l12) goto L6;
    if (l12 == (l6 & 65535u)) goto L8;
    l9 = (ipl_u64)l12;
    l11 = (ipl_u64)l13;
    if (l13 <= l12) goto L9;
    t1 = (l15 + l9);
    l15 = (l7 - l9);
    ipl_w28_rotate_left(m, t1, ((l11 - l9) + l15), l15);
    goto L8;
L9:;
    if (l13 >= l12) goto L8;
    ipl_w28_rotate_left(m, (l15 + l11), (l7 - l11), (l9 - l11));
L8:;
    if (l1 > 63u) goto L6;
    l11 = (l0 + 15492u);
    l15 = (l14 << 1);
    l12 = (l13 - l12);
L10:;
    l9 = (l11 + l15);
    IPL_S16(l9, 0u, (l12 + IPL_L16(l9, 0u)));
    l15 = (l15 + 2u);
    if (l15 != 128u) goto L10;
L6:;
    l12 = 1u;
    IPL_S8(((l0 + l14) + 15624u), 0u, 1u);
    IPL_S64(((l0 + (l14 << 3)) + 15688u), 0u, l2);
L2:;
    return l12;
}

/* unit_io::page_reading::read_pieces::<#81e02dbab8cd6729> */
static void ipl_w31_read_pieces(ipl_u8 *const m, ipl_u64 l0, ipl_u64 l1, ipl_u32 l2, ipl_u64 l3, ipl_u32 l4, ipl_u32 l5, ipl_u64 l6, ipl_u64 l7) {
    ipl_u32 l10 = 0, l11 = 0, l18 = 0, l19 = 0, l27 = 0, l28 = 0, l29 = 0, t2, t3, t4, t5, t6, t7, t8, t9, t10;
    ipl_u32 t11;
    ipl_u64 l8 = 0, l9 = 0, l12 = 0, l13 = 0, l14 = 0, l15 = 0, l16 = 0, l17 = 0, l20 = 0, l21 = 0, l22 = 0, l23 = 0, l24 = 0, l25 = 0, l26 = 0, t1;
    ipl_u64 t12;
    IPL_ENDS
    t1 = IPL_G(0);
    l8 = (t1 - 560u);
    IPL_G(0) = l8;
    IPL_FILL((l8 + 8u), 0u, (ipl_u64)512u);
    if (l5 != 0) goto L3;
    l9 = (ipl_u64)0u;
    l2 = 0u;
    goto L2;
L3:;
    l10 = (l4 << 4);
    l11 = (l10 | 1u);
    l12 = (ipl_u64)l5;
    l13 = ((l8 + 8u) + 480u);
    l14 = ((l8 + 8u) + 32u);
    l15 = (l3 + 4u);
    l16 = (l3 + 8u);
    l17 = (ipl_u64)0u;
L8:;
    l18 = (ipl_u32)l17;
    l19 = (l11 + l18);
    t2 = ipl_to_ipl_nand_read(m, IPL_L64(l1, 0u), l2, l19, (l8 + 8u), (ipl_u64)512u);
    if (t2 != 0) goto L4;
    l20 = (l17 + 1u);
    l21 = (l17 * 480u);
    l22 = (l6 + l21);
    l23 = (ipl_u64)7u;
    l4 = 0u;
    l24 = (l8 + 8u);
    l25 = l14;
L9:;
    l9 = (ipl_u64)0u;
    l5 = 0u;
    l5 = (IPL_BITS((l25 + l9), (64u - l9)) | l5);
    l9 = 64u;
    if ((l5 & 255u) == 0) goto L12;
    l26 = (ipl_u64)0u;
L13:;
    l9 = (l24 + l26);
    l5 = IPL_L32U(l9, 44u);
    t3 = ((IPL_L32T((((ipl_u64)(l5 >> 14) & 1020u) + 1610617856ull), 1610612736u) ^ IPL_L32T((((ipl_u64)(l5 >> 22) & 1020u) + 1610616832ull), 1610612736u)) ^ IPL_L32T((((ipl_u64)(l5 >> 6) & 1020u) + 1610618880ull), 1610612736u));
    t4 = (t3 ^ IPL_L32T((((ipl_u64)(l5 << 2) & 1020u) + 1610619904ull), 1610612736u));
    l5 = IPL_L32U(l9, 40u);
    t5 = (((t4 ^ IPL_L32T((((ipl_u64)(l5 >> 22) & 1020u) + 1610620928ull), 1610612736u)) ^ IPL_L32T((((ipl_u64)(l5 >> 14) & 1020u) + 1610621952ull), 1610612736u)) ^ IPL_L32T((((ipl_u64)(l5 >> 6) & 1020u) + 1610622976ull), 1610612736u));
    t6 = (t5 ^ IPL_L32T((((ipl_u64)(l5 << 2) & 1020u) + 1610624000ull), 1610612736u));
    l5 = IPL_L32U(l9, 36u);
    t7 = (((t6 ^ IPL_L32T((((ipl_u64)(l5 >> 22) & 1020u) + 1610625024ull), 1610612736u)) ^ IPL_L32T((((ipl_u64)(l5 >> 14) & 1020u) + 1610626048ull), 1610612736u)) ^ IPL_L32T((((ipl_u64)(l5 >> 6) & 1020u) + 1610627072ull), 1610612736u));
    t8 = (t7 ^ IPL_L32T((((ipl_u64)(l5 << 2) & 1020u) + 1610628096ull), 1610612736u));
    l5 = (IPL_L32U(l9, 32u) ^ l4);
    t9 = (((t8 ^ IPL_L32T((((ipl_u64)(l5 >> 22) & 1020u) + 1610629120ull), 1610612736u)) ^ IPL_L32T((((ipl_u64)(l5 >> 14) & 1020u) + 1610630144ull), 1610612736u)) ^ IPL_L32T((((ipl_u64)(l5 >> 6) & 1020u) + 1610631168ull), 1610612736u));
    l4 = (t9 ^ IPL_L32T((((ipl_u64)(l5 << 2) & 1020u) + 1610632192ull), 1610612736u));
    l26 = (l26 + 16u);
    if (l26 != 64u) goto L13;
    goto L11;
L12:;
    t10 = ((IPL_L32T((((ipl_u64)(l4 >> 14) & 1020u) + 1610613760ull), 1610612736u) ^ IPL_L32T((((ipl_u64)(l4 >> 22) & 1020u) + 1610612736ull), 1610612736u)) ^ IPL_L32T((((ipl_u64)(l4 >> 6) & 1020u) + 1610614784ull), 1610612736u));
    l4 = (t10 ^ IPL_L32T((((ipl_u64)(l4 << 2) & 1020u) + 1610615808ull), 1610612736u));
L11:;
    l25 = (l25 + 64u);
    l24 = (l24 + 64u);
    l23 = (l23 - 1u);
    if (l23 != 0u) goto L9;
    t11 = ipl_w8_after_part(m, l4, l13, (ipl_u64)32u);
    l27 = t11;
    l9 = (ipl_u64)0u;
    IPL_S64(l8, 552u, (ipl_u64)0u);
    IPL_S64(l8, 544u, (ipl_u64)0u);
    IPL_S64(l8, 536u, (ipl_u64)0u);
    IPL_S64(l8, 528u, (ipl_u64)0u);
    IPL_S64(l8, 520u, (ipl_u64)0u);
L14:;
    if (l9 == 512u) goto L7;
    l26 = ((l8 + 8u) + l9);
    l9 = (l9 + 1u);
    if (IPL_L8(l26, 0u) == 255u) goto L14;
    ipl_w12_decode_written(m, (l8 + 520u), (l8 + 8u), l27);
    l5 = IPL_L32(l8, 528u);
    l28 = IPL_L8(l8, 520u);
    if (l28 == 3u) goto L15;
    l29 = IPL_L32(l8, 524u);
    l4 = 2u;
    switch (l28) {
    case 1u: goto L5;
    default: goto L7;
    }
L15:;
    l29 = 0u;
    l4 = 3u;
    if ((l5 & 255u) != 4u) goto L6;
    if (IPL_L8(l3, 1u) != ((l5 >> 8) & 255u)) goto L6;
    if (IPL_L32(l8, 532u) != IPL_L32(l15, 0u)) goto L6;
    if (IPL_L64(l8, 536u) != IPL_L64(l16, 0u)) goto L6;
    if (IPL_L64(l8, 544u) != (ipl_u64)(l10 + l18)) goto L6;
    l5 = 0u;
    l9 = IPL_L64(l8, 552u);
    l18 = (ipl_u32)(l20 == l12);
    if ((l18 != 0 ? (ipl_u32)(l9 != 0u) : (ipl_u32)(l9 == 480u)) == 0) goto L5;
    if (l9 == 0) goto L16;
    IPL_COPY(l22, l14, l9);
L16:;
    IPL_S32((l7 + (l17 << 2)), 0u, l27);
    l17 = l20;
    if (l18 == 0) goto L8;
    l9 = (l9 + l21);
    l29 = 0u;
    l2 = 0u;
    l4 = 0u;
    l5 = 0u;
    goto L1;
L7:;
    l29 = 0u;
    l4 = 3u;
L6:;
    l5 = 0u;
L5:;
    l9 = (((ipl_u64)l19 << 32) | (ipl_u64)l2);
    l2 = 1u;
    goto L1;
L4:;
    l9 = (l1 + 24u);
    t12 = l9;
    l9 = (IPL_L64(l9, 0u) + 1u);
    IPL_S64(t12, 0u, (l9 == 0 ? 18446744073709551615ull : l9));
    l9 = (ipl_u64)0u;
    l2 = 1u;
L2:;
    l4 = 0u;
    l29 = 0u;
    l5 = 0u;
L1:;
    IPL_S32U(l0, 0u, l2);
    IPL_S32U(l0, 20u, l5);
    IPL_S32U(l0, 16u, l29);
    IPL_S64U(l0, 8u, l9);
    IPL_S32U(l0, 4u, l4);
    IPL_G(0) = (l8 + 560u);
}

/* page_text::map::PageMap::set */
static void ipl_w32_set(ipl_u8 *const m, ipl_u64 l0, ipl_u32 l1, ipl_u64 l2, ipl_u64 l3) {
    ipl_u32 l8 = 0, l9 = 0;
    ipl_u64 l4 = 0, l5 = 0, l6 = 0, l7 = 0, l10 = 0, t1, t2;
    IPL_ENDS
    l4 = (ipl_u64)l1;
    l5 = (l0 + (l4 << 1));
    l6 = (ipl_u64)IPL_L16((l5 + 7680u), 0u);
    l7 = ((l3 + l6) + 3u);
    l8 = IPL_L16((l5 + 7682u), 0u);
    l5 = ((ipl_u64)l8 & 65535u);
    if (l7 == l5) goto L1;
    l9 = IPL_L16((l0 + 7808u), 0u);
    if ((l8 & 65535u) == (l9 & 65535u)) goto L2;
    l10 = ((ipl_u64)l9 & 65535u);
    if (l7 <= l5) goto L3;
    t1 = (l0 + l5);
    t2 = (l7 - l5);
    l5 = (l10 - l5);
    ipl_w28_rotate_left(m, t1, (t2 + l5), l5);
    goto L2;
L3:;
    if (l7 >= l5) goto L2;
    ipl_w28_rotate_left(m, (l0 + l7), (l10 - l7), (l5 - l7));
L2:;
    if (l1 > 63u) goto L1;
    l10 = (l0 + 7682u);
    l5 = (l4 << 1);
    l8 = ((ipl_u32)l7 - l8);
L4:;
    l7 = (l10 + l5);
    IPL_S16(l7, 0u, (l8 + IPL_L16(l7, 0u)));
    l5 = (l5 + 2u);
    if (l5 != 128u) goto L4;
L1:;
    l5 = (l0 + l6);
    IPL_S8(l5, 2u, l3);
    IPL_S8(l5, 1u, (l3 >> 8));
    IPL_S8(l5, 0u, l1);
    l5 = (l5 + 3u);
    if ((l5 - l2) >= l3) goto L6;
    IPL_RISE(l5, l2, l3);
    l5 = (l5 + l3);
    l2 = (l2 + l3);
    l3 = 0u;
    goto L5;
L6:;
    if (l3 == 0) goto L5;
    IPL_COPY(l5, l2, l3);
L5:;
}

/* core::slice::edits::slice+T::swap_with_slice::<i8> */
static void ipl_w33_swap_with_slice(ipl_u8 *const m, ipl_u64 l0, ipl_u64 l1, ipl_u64 l2) {
    ipl_u32 l3 = 0;
    IPL_ENDS
    if (l1 == 0) goto L1;
L2:;
    l3 = IPL_L8(l0, 0u);
    IPL_S8(l0, 0u, IPL_L8(l2, 0u));
    IPL_S8(l2, 0u, l3);
    l0 = (l0 + 1u);
    l2 = (l2 + 1u);
    l1 = (l1 - 1u);
    if (l1 != 0u) goto L2;
L1:;
}

/* core::slice::edits::turn_through_room::<i8> */
static void ipl_w34_turn_through_room(ipl_u8 *const m, ipl_u64 l0, ipl_u64 l1, ipl_u64 l2, ipl_u64 l3) {
    ipl_u32 l6 = 0;
    ipl_u64 l4 = 0, l5 = 0, l7 = 0, l8 = 0, l9 = 0, t1;
    IPL_ENDS
    t1 = IPL_G(0);
    l4 = (t1 - 4096u);
    IPL_G(0) = l4;
    IPL_FILL(l4, 0u, (ipl_u64)4096u);
    l5 = (l1 - l3);
    if (l3 != l2) goto L2;
    l6 = (ipl_u32)(l3 == 0);
    if (l6 != 0) goto L3;
    IPL_COPY(l4, l0, l3);
L3:;
    if (l6 != 0) goto L4;
    l7 = (ipl_u64)0u;
    l8 = l5;
    if (l5 < 2049u) goto L5;
    l2 = (l0 + l3);
    l7 = (ipl_u64)0u;
    l9 = l0;
L6:;
    if (l7 < (l7 + l3)) goto L8;
    l1 = (ipl_u64)2047u;
    IPL_FALL(l9, l2, (l1 + 1u));
    l1 = 18446744073709551615ull;
    goto L7;
L8:;
    l1 = (ipl_u64)0u;
    IPL_RISE((l9 + l1), (l2 + l1), (2048u - l1));
    l1 = 2048u;
L7:;
    l9 = (l9 + 2048u);
    l2 = (l2 + 2048u);
    l7 = (l7 + 2048u);
    l8 = (l5 - l7);
    if (l8 > 2048u) goto L6;
L5:;
    l1 = (l0 + l7);
    l2 = (l7 + l3);
    if (l7 >= l2) goto L11;
    if (l5 == l7) goto L4;
    IPL_RISE(l1, (l1 + l3), l8);
    l1 = (l1 + l8);
    l8 = 0u;
    goto L4;
L11:;
    if (l5 == l7) goto L4;
    l9 = (l0 + l2);
    l2 = (l8 - 1u);
    IPL_FALL(l1, l9, (l2 + 1u));
    l2 = 18446744073709551615ull;
L4:;
    l0 = (l0 + l5);
    goto L1;
L2:;
    l6 = (ipl_u32)(l3 == 0);
    if (l6 != 0) goto L14;
    IPL_COPY(l4, (l0 + l5), l3);
L14:;
    if (l6 != 0) goto L1;
    if (l1 == l3) goto L1;
    l2 = (l0 - l3);
    l9 = (0u - l3);
    IPL_FALL((l0 - l9), (l2 - l9), (l9 + l1));
    l1 = (0u - l9);
L1:;
    if (l3 == 0) goto L16;
    IPL_COPY(l0, l4, l3);
L16:;
    IPL_G(0) = (l4 + 4096u);
}

/* core::slice::edits::mirror::<i8> */
static void ipl_w35_mirror(ipl_u8 *const m, ipl_u64 l0, ipl_u64 l1, ipl_u64 l2, ipl_u64 l3) {
    ipl_u32 l5 = 0;
    ipl_u64 l4 = 0;
    IPL_ENDS
    if (l3 == 0) goto L1;
    l4 = (l2 - 1u);
    l2 = (l0 + l1);
L2:;
    l5 = IPL_L8(l2, 0u);
    l1 = (l4 + l3);
    IPL_S8(l2, 0u, IPL_L8(l1, 0u));
    IPL_S8(l1, 0u, l5);
    l2 = (l2 + 1u);
    l3 = (l3 - 1u);
    if (l3 != 0u) goto L2;
L1:;
}

/* ipl_port::port::Sizes::memory */
static void ipl_w36_memory(ipl_u8 *const m, ipl_u64 l0, ipl_u64 l1, ipl_u32 l2) {
    ipl_u32 l4 = 0, l5 = 0, l6 = 0, l7 = 0, l8 = 0, l44 = 0, l50 = 0, l52 = 0;
    ipl_u64 l3 = 0, l9 = 0, l10 = 0, l11 = 0, l12 = 0, l13 = 0, l14 = 0, l15 = 0, l16 = 0, l17 = 0, l18 = 0, l19 = 0, l20 = 0, l21 = 0, l22 = 0, l23 = 0;
    ipl_u64 l24 = 0, l25 = 0, l26 = 0, l27 = 0, l28 = 0, l29 = 0, l30 = 0, l31 = 0, l32 = 0, l33 = 0, l34 = 0, l35 = 0, l36 = 0, l37 = 0, l38 = 0, l39 = 0;
    ipl_u64 l40 = 0, l41 = 0, l42 = 0, l43 = 0, l45 = 0, l46 = 0, l47 = 0, l48 = 0, l49 = 0, l51 = 0, l53 = 0, l54 = 0, l55 = 0, l56 = 0, l57 = 0, l58 = 0;
    ipl_u64 l59 = 0, l60 = 0, l61 = 0, l62 = 0, l63 = 0, l64 = 0, l65 = 0, l66 = 0, l67 = 0, l68 = 0, l69 = 0, l70 = 0, l71 = 0, l72 = 0, l73 = 0, l74 = 0;
    ipl_u64 l75 = 0, l76 = 0, l77 = 0, l78 = 0, l79 = 0, l80 = 0, l81 = 0, l82 = 0, l83 = 0, l84 = 0, l85 = 0, l86 = 0, l87 = 0, l88 = 0, l89 = 0, l90 = 0;
    ipl_u64 l91 = 0, l92 = 0, t1;
    IPL_ENDS
    t1 = IPL_G(0);
    l3 = (t1 - 9728u);
    IPL_G(0) = l3;
    l4 = IPL_L32U(l1, 8u);
    l5 = IPL_L32U(l1, 4u);
    l6 = IPL_L32U(l1, 0u);
    IPL_FILL((l3 + 4648u), 0u, (ipl_u64)264u);
    IPL_S64F(l3, 4640u, (ipl_u64)0u);
    IPL_S64F(l3, 4632u, (ipl_u64)0u);
    IPL_S64F(l3, 4624u, (ipl_u64)0u);
    IPL_S64F(l3, 4608u, (ipl_u64)0u);
    IPL_S64F(l3, 4616u, (ipl_u64)0u);
    IPL_FILL((l3 + 4336u), 0u, (ipl_u64)272u);
    IPL_S64UF(l3, 4326u, (ipl_u64)0u);
    IPL_S64F(l3, 4320u, (ipl_u64)0u);
    IPL_S64F(l3, 4312u, (ipl_u64)0u);
    IPL_S64F(l3, 4304u, (ipl_u64)0u);
    IPL_S64F(l3, 4296u, (ipl_u64)0u);
    IPL_FILL((l3 + 3801u), 0u, (ipl_u64)495u);
    IPL_S64(l3, 3792u, (ipl_u64)0u);
    IPL_S64(l3, 3784u, (ipl_u64)0u);
    IPL_FILL((l3 + 2752u), 0u, (ipl_u64)1032u);
    IPL_FILL((l3 + 2544u), 0u, (ipl_u64)208u);
    IPL_S16(l3, 2540u, 0u);
    IPL_S32(l3, 2536u, 0u);
    IPL_FILL((l3 + 2272u), 0u, (ipl_u64)264u);
    IPL_S64(l3, 2264u, (ipl_u64)0u);
    IPL_S64(l3, 2256u, (ipl_u64)0u);
    IPL_S64(l3, 2248u, (ipl_u64)0u);
    IPL_S64(l3, 2232u, (ipl_u64)0u);
    IPL_S64(l3, 2240u, (ipl_u64)0u);
    IPL_FILL((l3 + 1960u), 0u, (ipl_u64)272u);
    IPL_S64U(l3, 1950u, (ipl_u64)0u);
    IPL_S64(l3, 1944u, (ipl_u64)0u);
    IPL_S64(l3, 1936u, (ipl_u64)0u);
    IPL_S64(l3, 1928u, (ipl_u64)0u);
    IPL_S64(l3, 1920u, (ipl_u64)0u);
    IPL_FILL((l3 + 1425u), 0u, (ipl_u64)495u);
    IPL_S64(l3, 1416u, (ipl_u64)0u);
    IPL_S64(l3, 1408u, (ipl_u64)0u);
    IPL_FILL((l3 + 376u), 0u, (ipl_u64)1032u);
    IPL_FILL((l3 + 168u), 0u, (ipl_u64)208u);
    IPL_S16(l3, 164u, 0u);
    IPL_S32(l3, 160u, 0u);
    if ((l6 + (ipl_u32)4294967231u) >= (ipl_u32)4294967233u) goto L2;
    IPL_S64U(l0, 0u, 94489280513ull);
    IPL_FILL((l0 + 8u), 0u, (ipl_u64)2976u);
    goto L1;
L2:;
    if ((l5 + (ipl_u32)4294967263u) > (ipl_u32)4294967263u) goto L3;
    IPL_S64U(l0, 0u, 146028888065ull);
    IPL_FILL((l0 + 8u), 0u, (ipl_u64)2976u);
    goto L1;
L3:;
    if ((l4 + (ipl_u32)4294951995u) > (ipl_u32)4294952114u) goto L4;
    IPL_S64U(l0, 0u, 150323855361ull);
    IPL_FILL((l0 + 8u), 0u, (ipl_u64)2976u);
    goto L1;
L4:;
    l7 = (l2 + (ipl_u32)4294967291u);
    if (l7 > 1023u) goto L8;
    IPL_S32F(l3, 7552u, 0u);
    IPL_S16F(l3, 7556u, 0u);
    IPL_FILL((l3 + 7288u), 0u, (ipl_u64)264u);
    l1 = (ipl_u64)0u;
    IPL_S64F(l3, 7280u, (ipl_u64)0u);
    IPL_S64F(l3, 7272u, (ipl_u64)0u);
    IPL_S64F(l3, 7264u, (ipl_u64)0u);
    IPL_S64F(l3, 7248u, (ipl_u64)0u);
    IPL_S64F(l3, 7256u, (ipl_u64)0u);
    IPL_FILL((l3 + 6976u), 0u, (ipl_u64)272u);
    IPL_S64UF(l3, 6966u, (ipl_u64)0u);
    IPL_S64F(l3, 6960u, (ipl_u64)0u);
    IPL_S64F(l3, 6952u, (ipl_u64)0u);
    IPL_S64F(l3, 6944u, (ipl_u64)0u);
    IPL_S64F(l3, 6936u, (ipl_u64)0u);
    IPL_FILL((l3 + 6441u), 0u, (ipl_u64)495u);
    IPL_S64F(l3, 6432u, (ipl_u64)0u);
    IPL_S64F(l3, 6424u, (ipl_u64)0u);
    IPL_FILL((l3 + 5392u), 0u, (ipl_u64)1032u);
    IPL_FILL((l3 + 4912u), 0u, (ipl_u64)216u);
    IPL_FILL((l3 + 7560u), 0u, (ipl_u64)464u);
    l8 = (l2 + (ipl_u32)4294967292u);
    ipl_w18_new(m, (l3 + 7560u), l2, l8);
    if (IPL_L8F(l3, 7560u) != 0) goto L7;
    l9 = (ipl_u64)l8;
    l10 = IPL_L64F(l3, 8016u);
    l11 = IPL_L64F(l3, 8008u);
    l12 = IPL_L64F(l3, 8000u);
    l13 = IPL_L64F(l3, 7992u);
    l14 = IPL_L64F(l3, 7984u);
    l15 = IPL_L64F(l3, 7976u);
    l16 = IPL_L64F(l3, 7968u);
    l17 = IPL_L64F(l3, 7960u);
    l18 = IPL_L64F(l3, 7952u);
    l19 = IPL_L64F(l3, 7944u);
    l20 = IPL_L64F(l3, 7936u);
    l21 = IPL_L64F(l3, 7928u);
    l22 = IPL_L64F(l3, 7656u);
    l23 = IPL_L64F(l3, 7648u);
    l24 = IPL_L64F(l3, 7640u);
    l25 = IPL_L64F(l3, 7632u);
    l26 = IPL_L64F(l3, 7624u);
    l27 = IPL_L64F(l3, 7616u);
    l28 = IPL_L64F(l3, 7608u);
    l29 = IPL_L64F(l3, 7600u);
    l30 = IPL_L64F(l3, 7592u);
    l31 = IPL_L64F(l3, 7584u);
    l32 = IPL_L64F(l3, 7576u);
    l1 = IPL_L64F(l3, 7568u);
    if (l8 != 0) goto L17;
    l33 = (l3 + 9726u);
    goto L16;
L17:;
    ipl_to_rattle_alloc(m, (l3 + 144u), l9, (ipl_u64)1u);
    if (((ipl_u32)IPL_L64(l3, 144u) & 1u) == 0) goto L15;
    l33 = IPL_L64(l3, 152u);
L16:;
    l34 = (ipl_u64)(l7 < 1024u ? l8 : 0u);
    l35 = (l9 << 4);
    l7 = (ipl_u32)(l35 < 510u);
    if (l8 == 0) goto L18;
    if (l34 == 0) goto L18;
    IPL_FILL(l33, 0u, l34);
L18:;
    l36 = (l7 != 0 ? l35 : (ipl_u64)510u);
    if (l8 != 0) goto L21;
    l37 = (l3 + 9726u);
    goto L20;
L21:;
    ipl_to_rattle_alloc(m, (l3 + 128u), (l36 * 6u), (ipl_u64)2u);
    if (((ipl_u32)IPL_L64(l3, 128u) & 1u) == 0) goto L19;
    l37 = IPL_L64(l3, 136u);
L20:;
    l38 = (ipl_u64)l4;
    ipl_to_rattle_alloc(m, (l3 + 112u), (l38 << 3), (ipl_u64)8u);
    if (((ipl_u32)IPL_L64(l3, 112u) & 1u) == 0) goto L14;
    l39 = IPL_L64(l3, 120u);
    ipl_to_rattle_alloc(m, (l3 + 96u), (ipl_u64)15624u, (ipl_u64)8u);
    if (((ipl_u32)IPL_L64(l3, 96u) & 1u) == 0) goto L11;
    l40 = IPL_L64(l3, 104u);
    ipl_to_rattle_alloc(m, (l3 + 80u), (ipl_u64)4960u, (ipl_u64)2u);
    if ((IPL_L32(l3, 80u) & 1u) == 0) goto L12;
    l41 = IPL_L64(l3, 88u);
    ipl_to_rattle_alloc(m, (l3 + 64u), (ipl_u64)5952u, (ipl_u64)8u);
    if (((ipl_u32)IPL_L64(l3, 64u) & 1u) == 0) goto L13;
    l42 = IPL_L64(l3, 72u);
    l43 = (ipl_u64)l6;
    ipl_to_rattle_alloc(m, (l3 + 48u), (l43 * 16728u), (ipl_u64)8u);
    l44 = 1u;
    if (((ipl_u32)IPL_L64(l3, 48u) & 1u) == 0) goto L10;
    l45 = (ipl_u64)l2;
    l46 = IPL_L64(l3, 56u);
    IPL_COPY((l3 + 5128u), (l3 + 7664u), (ipl_u64)264u);
    l47 = (ipl_u64)12u;
    l48 = (ipl_u64)1240u;
    l49 = (ipl_u64)31u;
    l50 = 3u;
    l51 = (ipl_u64)256u;
    goto L5;
L19:;
    ipl_to_rattle_dealloc(m, l33);
L15:;
    if (l31 == 0) goto L22;
    ipl_to_rattle_dealloc(m, l1);
L22:;
    if (l27 == 0) goto L23;
    ipl_to_rattle_dealloc(m, l29);
L23:;
    if (l23 == 0) goto L24;
    ipl_to_rattle_dealloc(m, l25);
L24:;
    if (l19 == 0) goto L25;
    ipl_to_rattle_dealloc(m, l21);
L25:;
    if (l15 == 0) goto L26;
    ipl_to_rattle_dealloc(m, l17);
L26:;
    if (l11 == 0) goto L27;
    ipl_to_rattle_dealloc(m, l13);
L27:;
    l44 = 0u;
    IPL_FILL((l3 + 5128u), 0u, (ipl_u64)264u);
    goto L9;
L14:;
    if (l8 == 0) goto L28;
    ipl_to_rattle_dealloc(m, l33);
    ipl_to_rattle_dealloc(m, l37);
L28:;
    if (l31 == 0) goto L29;
    ipl_to_rattle_dealloc(m, l1);
L29:;
    if (l27 == 0) goto L30;
    ipl_to_rattle_dealloc(m, l29);
L30:;
    if (l23 == 0) goto L31;
    ipl_to_rattle_dealloc(m, l25);
L31:;
    if (l19 == 0) goto L32;
    ipl_to_rattle_dealloc(m, l21);
L32:;
    if (l15 == 0) goto L33;
    ipl_to_rattle_dealloc(m, l17);
L33:;
    if (l11 == 0) goto L34;
    ipl_to_rattle_dealloc(m, l13);
L34:;
    l44 = 0u;
    IPL_FILL((l3 + 5128u), 0u, (ipl_u64)264u);
    goto L9;
L13:;
    ipl_to_rattle_dealloc(m, l41);
L12:;
    ipl_to_rattle_dealloc(m, l40);
L11:;
    ipl_to_rattle_dealloc(m, l39);
    if (l8 == 0) goto L35;
    ipl_to_rattle_dealloc(m, l33);
    ipl_to_rattle_dealloc(m, l37);
L35:;
    if (l31 == 0) goto L36;
    ipl_to_rattle_dealloc(m, l1);
L36:;
    if (l27 == 0) goto L37;
    ipl_to_rattle_dealloc(m, l29);
L37:;
    if (l23 == 0) goto L38;
    ipl_to_rattle_dealloc(m, l25);
L38:;
    if (l19 == 0) goto L39;
    ipl_to_rattle_dealloc(m, l21);
L39:;
    if (l15 == 0) goto L40;
    ipl_to_rattle_dealloc(m, l17);
L40:;
    if (l11 == 0) goto L41;
    ipl_to_rattle_dealloc(m, l13);
L41:;
    l44 = 0u;
    IPL_FILL((l3 + 5128u), 0u, (ipl_u64)264u);
    goto L9;
L10:;
    if (l31 == 0) goto L42;
    ipl_to_rattle_dealloc(m, l1);
L42:;
    if (l27 == 0) goto L43;
    ipl_to_rattle_dealloc(m, l29);
L43:;
    if (l23 == 0) goto L44;
    ipl_to_rattle_dealloc(m, l25);
L44:;
    if (l19 == 0) goto L45;
    ipl_to_rattle_dealloc(m, l21);
L45:;
    if (l15 == 0) goto L46;
    ipl_to_rattle_dealloc(m, l17);
L46:;
    if (l11 == 0) goto L47;
    ipl_to_rattle_dealloc(m, l13);
L47:;
    if (l8 == 0) goto L48;
    ipl_to_rattle_dealloc(m, l33);
    ipl_to_rattle_dealloc(m, l37);
L48:;
    ipl_to_rattle_dealloc(m, l39);
    ipl_to_rattle_dealloc(m, l40);
    ipl_to_rattle_dealloc(m, l41);
    ipl_to_rattle_dealloc(m, l42);
    l44 = 0u;
    IPL_FILL((l3 + 5128u), 0u, (ipl_u64)264u);
L9:;
    l1 = (ipl_u64)0u;
    goto L6;
L8:;
    IPL_S64U(l0, 0u, 343597383681ull);
    IPL_FILL((l0 + 8u), 0u, (ipl_u64)2976u);
    goto L1;
L7:;
    l44 = 0u;
    IPL_FILL((l3 + 5128u), 0u, (ipl_u64)264u);
L6:;
    l32 = (ipl_u64)0u;
    l31 = (ipl_u64)0u;
    l30 = (ipl_u64)0u;
    l29 = (ipl_u64)0u;
    l28 = (ipl_u64)0u;
    l27 = (ipl_u64)0u;
    l26 = (ipl_u64)0u;
    l25 = (ipl_u64)0u;
    l24 = (ipl_u64)0u;
    l23 = (ipl_u64)0u;
    l22 = (ipl_u64)0u;
    l21 = (ipl_u64)0u;
    l20 = (ipl_u64)0u;
    l19 = (ipl_u64)0u;
    l18 = (ipl_u64)0u;
    l17 = (ipl_u64)0u;
    l16 = (ipl_u64)0u;
    l15 = (ipl_u64)0u;
    l14 = (ipl_u64)0u;
    l13 = (ipl_u64)0u;
    l12 = (ipl_u64)0u;
    l11 = (ipl_u64)0u;
    l10 = (ipl_u64)0u;
    l45 = (ipl_u64)0u;
    l33 = (ipl_u64)0u;
    l34 = (ipl_u64)0u;
    l9 = (ipl_u64)0u;
    l37 = (ipl_u64)0u;
    l36 = (ipl_u64)0u;
    l39 = (ipl_u64)0u;
    l38 = (ipl_u64)0u;
    l51 = (ipl_u64)0u;
    l50 = 0u;
    l40 = (ipl_u64)0u;
    l49 = (ipl_u64)0u;
    l41 = (ipl_u64)0u;
    l48 = (ipl_u64)0u;
    l42 = (ipl_u64)0u;
    l47 = (ipl_u64)0u;
    l46 = (ipl_u64)0u;
    l43 = (ipl_u64)0u;
L5:;
    l52 = 0u;
    IPL_FILL((l3 + 9462u), 0u, (ipl_u64)264u);
    l53 = (ipl_u64)0u;
    IPL_S64F(l3, 9448u, (ipl_u64)0u);
    IPL_S64F(l3, 9440u, (ipl_u64)0u);
    IPL_S64F(l3, 9432u, (ipl_u64)0u);
    IPL_S64F(l3, 9424u, (ipl_u64)0u);
    IPL_S64F(l3, 9416u, (ipl_u64)0u);
    IPL_FILL((l3 + 9144u), 0u, (ipl_u64)272u);
    IPL_S64UF(l3, 9134u, (ipl_u64)0u);
    IPL_S64F(l3, 9128u, (ipl_u64)0u);
    IPL_S64F(l3, 9120u, (ipl_u64)0u);
    IPL_S64F(l3, 9112u, (ipl_u64)0u);
    IPL_S64F(l3, 9104u, (ipl_u64)0u);
    IPL_FILL((l3 + 8609u), 0u, (ipl_u64)495u);
    IPL_FILL((l3 + 7560u), 0u, (ipl_u64)1048u);
    l54 = (ipl_u64)0u;
    l55 = (ipl_u64)0u;
    l56 = (ipl_u64)0u;
    l57 = (ipl_u64)0u;
    l58 = (ipl_u64)0u;
    l59 = (ipl_u64)0u;
    l60 = (ipl_u64)0u;
    l61 = (ipl_u64)0u;
    l62 = (ipl_u64)0u;
    l63 = (ipl_u64)0u;
    l64 = (ipl_u64)0u;
    l65 = (ipl_u64)0u;
    l66 = (ipl_u64)0u;
    l67 = (ipl_u64)0u;
    l68 = (ipl_u64)0u;
    l69 = (ipl_u64)0u;
    l70 = (ipl_u64)0u;
    l71 = (ipl_u64)0u;
    l72 = (ipl_u64)0u;
    l73 = (ipl_u64)0u;
    l74 = (ipl_u64)0u;
    l75 = (ipl_u64)0u;
    l76 = (ipl_u64)0u;
    l77 = (ipl_u64)0u;
    l78 = (ipl_u64)0u;
    l79 = (ipl_u64)0u;
    l35 = (ipl_u64)0u;
    l80 = (ipl_u64)0u;
    l81 = (ipl_u64)0u;
    l82 = (ipl_u64)0u;
    l83 = (ipl_u64)0u;
    l84 = (ipl_u64)0u;
    l7 = 0u;
    l85 = (ipl_u64)0u;
    l86 = (ipl_u64)0u;
    l87 = (ipl_u64)0u;
    l88 = (ipl_u64)0u;
    l89 = (ipl_u64)0u;
    l90 = (ipl_u64)0u;
    l91 = (ipl_u64)0u;
    l92 = (ipl_u64)0u;
    if (l44 == 0) goto L49;
    IPL_COPY((l3 + 9462u), (l3 + 5128u), (ipl_u64)264u);
    IPL_FILL((l3 + 9144u), 0u, (ipl_u64)272u);
    IPL_FILL((l3 + 8609u), 0u, (ipl_u64)495u);
    l53 = l1;
    l54 = l32;
    l55 = l31;
    l56 = l30;
    l57 = l29;
    l58 = l28;
    l59 = l27;
    l60 = l26;
    l61 = l25;
    l62 = l24;
    l63 = l23;
    l64 = l22;
    l65 = l21;
    l66 = l20;
    l67 = l19;
    l68 = l18;
    l69 = l17;
    l70 = l16;
    l71 = l15;
    l72 = l14;
    l73 = l13;
    l74 = l12;
    l75 = l11;
    l76 = l10;
    l77 = l45;
    l78 = l33;
    l79 = l34;
    l35 = l9;
    l80 = l37;
    l81 = l36;
    l82 = l39;
    l83 = l38;
    l84 = l51;
    l52 = l44;
    l7 = l50;
    l85 = l40;
    l86 = l49;
    l87 = l41;
    l88 = l48;
    l89 = l42;
    l90 = l47;
    l91 = l46;
    l92 = l43;
L49:;
    IPL_COPY((l3 + 7288u), (l3 + 9462u), (ipl_u64)264u);
    IPL_S64F(l3, 7280u, IPL_L64F(l3, 9432u));
    IPL_S64F(l3, 7272u, IPL_L64F(l3, 9424u));
    IPL_S64F(l3, 7264u, IPL_L64F(l3, 9416u));
    IPL_S64F(l3, 7248u, IPL_L64F(l3, 9440u));
    IPL_S64F(l3, 7256u, IPL_L64F(l3, 9448u));
    IPL_COPY((l3 + 6976u), (l3 + 9144u), (ipl_u64)272u);
    IPL_S64UF(l3, 6966u, IPL_L64UF(l3, 9134u));
    IPL_S64F(l3, 6960u, IPL_L64F(l3, 9128u));
    IPL_S64F(l3, 6952u, IPL_L64F(l3, 9120u));
    IPL_S64F(l3, 6944u, IPL_L64F(l3, 9112u));
    IPL_S64F(l3, 6936u, IPL_L64F(l3, 9104u));
    IPL_COPY((l3 + 6441u), (l3 + 8609u), (ipl_u64)495u);
    IPL_S64F(l3, 6432u, IPL_L64UF(l3, 7568u));
    IPL_S64F(l3, 6424u, IPL_L64UF(l3, 7560u));
    IPL_COPY((l3 + 5392u), (l3 + 7576u), (ipl_u64)1032u);
    if (l44 == 0) goto L51;
    l9 = (ipl_u64)l5;
    l1 = (l9 * 2600u);
    ipl_to_rattle_alloc(m, (l3 + 32u), l1, (ipl_u64)8u);
    if (((ipl_u32)IPL_L64(l3, 32u) & 1u) == 0) goto L56;
    l19 = IPL_L64(l3, 40u);
    if (l1 == 0) goto L57;
    IPL_FILL(l19, 0u, l1);
L57:;
    l11 = (ipl_u64)l4;
    l1 = ((l11 + 7u) >> 3);
    ipl_to_rattle_alloc(m, (l3 + 16u), l1, (ipl_u64)1u);
    if (((ipl_u32)IPL_L64(l3, 16u) & 1u) == 0) goto L58;
    l23 = IPL_L64(l3, 24u);
    l5 = (ipl_u32)(l1 == 0);
    if (l5 != 0) goto L59;
    IPL_FILL(l23, 0u, l1);
L59:;
    ipl_to_rattle_alloc(m, l3, l1, (ipl_u64)1u);
    if (((ipl_u32)IPL_L64(l3, 0u) & 1u) != 0) goto L55;
    ipl_to_rattle_dealloc(m, l23);
L58:;
    if (l55 == 0) goto L60;
    ipl_to_rattle_dealloc(m, l53);
L60:;
    if (l59 == 0) goto L61;
    ipl_to_rattle_dealloc(m, l57);
L61:;
    if (l63 == 0) goto L62;
    ipl_to_rattle_dealloc(m, l61);
L62:;
    if (l67 == 0) goto L63;
    ipl_to_rattle_dealloc(m, l65);
L63:;
    if (l71 == 0) goto L64;
    ipl_to_rattle_dealloc(m, l69);
L64:;
    if (l75 == 0) goto L65;
    ipl_to_rattle_dealloc(m, l73);
L65:;
    if (l35 == 0) goto L66;
    ipl_to_rattle_dealloc(m, l78);
L66:;
    if (l81 == 0) goto L67;
    ipl_to_rattle_dealloc(m, l80);
L67:;
    if (l83 == 0) goto L68;
    ipl_to_rattle_dealloc(m, l82);
L68:;
    if (l86 == 0) goto L69;
    ipl_to_rattle_dealloc(m, l85);
L69:;
    if (l88 == 0) goto L70;
    ipl_to_rattle_dealloc(m, l87);
L70:;
    if (l90 == 0) goto L71;
    ipl_to_rattle_dealloc(m, l89);
L71:;
    if (l92 == 0) goto L53;
    goto L54;
L56:;
    if (l55 == 0) goto L72;
    ipl_to_rattle_dealloc(m, l53);
L72:;
    if (l59 == 0) goto L73;
    ipl_to_rattle_dealloc(m, l57);
L73:;
    if (l63 == 0) goto L74;
    ipl_to_rattle_dealloc(m, l61);
L74:;
    if (l67 == 0) goto L75;
    ipl_to_rattle_dealloc(m, l65);
L75:;
    if (l71 == 0) goto L76;
    ipl_to_rattle_dealloc(m, l69);
L76:;
    if (l75 == 0) goto L77;
    ipl_to_rattle_dealloc(m, l73);
L77:;
    if (l35 == 0) goto L78;
    ipl_to_rattle_dealloc(m, l78);
L78:;
    if (l81 == 0) goto L79;
    ipl_to_rattle_dealloc(m, l80);
L79:;
    if (l83 == 0) goto L80;
    ipl_to_rattle_dealloc(m, l82);
L80:;
    if (l86 == 0) goto L81;
    ipl_to_rattle_dealloc(m, l85);
L81:;
    if (l88 == 0) goto L82;
    ipl_to_rattle_dealloc(m, l87);
L82:;
    if (l90 == 0) goto L83;
    ipl_to_rattle_dealloc(m, l89);
L83:;
    if (l92 == 0) goto L51;
    goto L52;
L55:;
    l27 = IPL_L64(l3, 8u);
    if (l5 != 0) goto L84;
    IPL_FILL(l27, 0u, l1);
L84:;
    ipl_w21_new(m, (l3 + 4912u), l2, l8);
    if (IPL_L8F(l3, 4912u) == 0) goto L85;
    ipl_to_rattle_dealloc(m, l23);
    ipl_to_rattle_dealloc(m, l27);
    if (l55 == 0) goto L86;
    ipl_to_rattle_dealloc(m, l53);
L86:;
    if (l59 == 0) goto L87;
    ipl_to_rattle_dealloc(m, l57);
L87:;
    if (l63 == 0) goto L88;
    ipl_to_rattle_dealloc(m, l61);
L88:;
    if (l67 == 0) goto L89;
    ipl_to_rattle_dealloc(m, l65);
L89:;
    if (l71 == 0) goto L90;
    ipl_to_rattle_dealloc(m, l69);
L90:;
    if (l75 == 0) goto L91;
    ipl_to_rattle_dealloc(m, l73);
L91:;
    if (l35 == 0) goto L92;
    ipl_to_rattle_dealloc(m, l78);
L92:;
    if (l81 == 0) goto L93;
    ipl_to_rattle_dealloc(m, l80);
L93:;
    if (l83 == 0) goto L94;
    ipl_to_rattle_dealloc(m, l82);
L94:;
    if (l86 == 0) goto L95;
    ipl_to_rattle_dealloc(m, l85);
L95:;
    if (l88 == 0) goto L96;
    ipl_to_rattle_dealloc(m, l87);
L96:;
    if (l90 == 0) goto L97;
    ipl_to_rattle_dealloc(m, l89);
L97:;
    if (!(l92 == 0)) goto L54;
    goto L53;
L85:;
    l15 = (l11 - 60u);
    l15 = (l15 < 3840u ? l15 : (ipl_u64)3840u);
    IPL_COPY((l3 + 4648u), (l3 + 7288u), (ipl_u64)264u);
    IPL_S64F(l3, 4640u, IPL_L64F(l3, 7280u));
    IPL_S64F(l3, 4632u, IPL_L64F(l3, 7272u));
    IPL_S64F(l3, 4624u, IPL_L64F(l3, 7264u));
    IPL_S64F(l3, 4608u, IPL_L64F(l3, 7248u));
    IPL_S64F(l3, 4616u, IPL_L64F(l3, 7256u));
    IPL_COPY((l3 + 4336u), (l3 + 6976u), (ipl_u64)272u);
    IPL_S64UF(l3, 4326u, IPL_L64UF(l3, 6966u));
    IPL_S64F(l3, 4320u, IPL_L64F(l3, 6960u));
    IPL_S64F(l3, 4312u, IPL_L64F(l3, 6952u));
    IPL_S64F(l3, 4304u, IPL_L64F(l3, 6944u));
    IPL_S64F(l3, 4296u, IPL_L64F(l3, 6936u));
    IPL_COPY((l3 + 3801u), (l3 + 6441u), (ipl_u64)495u);
    IPL_S64(l3, 3792u, IPL_L64F(l3, 6432u));
    IPL_S64(l3, 3784u, IPL_L64F(l3, 6424u));
    IPL_COPY((l3 + 2752u), (l3 + 5392u), (ipl_u64)1032u);
    IPL_COPY((l3 + 2544u), (l3 + 4920u), (ipl_u64)208u);
    IPL_S16(l3, 2540u, IPL_L16F(l3, 7556u));
    IPL_S32(l3, 2536u, IPL_L32F(l3, 7552u));
    IPL_COPY((l3 + 2272u), (l3 + 4648u), (ipl_u64)264u);
    IPL_S64(l3, 2264u, IPL_L64F(l3, 4640u));
    IPL_S64(l3, 2256u, IPL_L64F(l3, 4632u));
    IPL_S64(l3, 2248u, IPL_L64F(l3, 4624u));
    IPL_S64(l3, 2232u, IPL_L64F(l3, 4608u));
    IPL_S64(l3, 2240u, IPL_L64F(l3, 4616u));
    IPL_COPY((l3 + 1960u), (l3 + 4336u), (ipl_u64)272u);
    IPL_S64U(l3, 1950u, IPL_L64UF(l3, 4326u));
    IPL_S64(l3, 1944u, IPL_L64F(l3, 4320u));
    IPL_S64(l3, 1936u, IPL_L64F(l3, 4312u));
    IPL_S64(l3, 1928u, IPL_L64F(l3, 4304u));
    IPL_S64(l3, 1920u, IPL_L64F(l3, 4296u));
    IPL_COPY((l3 + 1425u), (l3 + 3801u), (ipl_u64)495u);
    IPL_S64(l3, 1416u, IPL_L64(l3, 3792u));
    IPL_S64(l3, 1408u, IPL_L64(l3, 3784u));
    IPL_COPY((l3 + 376u), (l3 + 2752u), (ipl_u64)1032u);
    IPL_COPY((l3 + 168u), (l3 + 2544u), (ipl_u64)208u);
    IPL_S16(l3, 164u, IPL_L16(l3, 2540u));
    IPL_S32(l3, 160u, IPL_L32(l3, 2536u));
    l4 = 0u;
    l2 = 1u;
    l5 = 0u;
    goto L50;
L54:;
    ipl_to_rattle_dealloc(m, l91);
L53:;
    l91 = l19;
L52:;
    ipl_to_rattle_dealloc(m, l91);
L51:;
    l5 = 1u;
    l4 = 85u;
    l52 = 0u;
    l53 = (ipl_u64)0u;
    l54 = (ipl_u64)0u;
    l55 = (ipl_u64)0u;
    l56 = (ipl_u64)0u;
    l57 = (ipl_u64)0u;
    l58 = (ipl_u64)0u;
    l59 = (ipl_u64)0u;
    l60 = (ipl_u64)0u;
    l61 = (ipl_u64)0u;
    l62 = (ipl_u64)0u;
    l63 = (ipl_u64)0u;
    l64 = (ipl_u64)0u;
    l65 = (ipl_u64)0u;
    l66 = (ipl_u64)0u;
    l67 = (ipl_u64)0u;
    l68 = (ipl_u64)0u;
    l69 = (ipl_u64)0u;
    l70 = (ipl_u64)0u;
    l71 = (ipl_u64)0u;
    l72 = (ipl_u64)0u;
    l73 = (ipl_u64)0u;
    l74 = (ipl_u64)0u;
    l75 = (ipl_u64)0u;
    l76 = (ipl_u64)0u;
    l77 = (ipl_u64)0u;
    l78 = (ipl_u64)0u;
    l79 = (ipl_u64)0u;
    l35 = (ipl_u64)0u;
    l80 = (ipl_u64)0u;
    l81 = (ipl_u64)0u;
    l82 = (ipl_u64)0u;
    l83 = (ipl_u64)0u;
    l84 = (ipl_u64)0u;
    l7 = 0u;
    l85 = (ipl_u64)0u;
    l86 = (ipl_u64)0u;
    l87 = (ipl_u64)0u;
    l88 = (ipl_u64)0u;
    l89 = (ipl_u64)0u;
    l90 = (ipl_u64)0u;
    l91 = (ipl_u64)0u;
    l92 = (ipl_u64)0u;
    l19 = (ipl_u64)0u;
    l9 = (ipl_u64)0u;
    l23 = (ipl_u64)0u;
    l1 = (ipl_u64)0u;
    l15 = (ipl_u64)0u;
    l11 = (ipl_u64)0u;
    l27 = (ipl_u64)0u;
    l8 = 0u;
    l6 = 0u;
    l2 = 0u;
L50:;
    IPL_S64U(l0, 96u, l64);
    IPL_S64U(l0, 88u, l63);
    IPL_S64U(l0, 80u, l62);
    IPL_S64U(l0, 72u, l61);
    IPL_S64U(l0, 64u, l60);
    IPL_S64U(l0, 56u, l59);
    IPL_S64U(l0, 48u, l58);
    IPL_S64U(l0, 40u, l57);
    IPL_S64U(l0, 32u, l56);
    IPL_S64U(l0, 24u, l55);
    IPL_S64U(l0, 16u, l54);
    IPL_S64U(l0, 8u, l53);
    IPL_S32U(l0, 4u, l4);
    IPL_S32U(l0, 0u, l5);
    IPL_COPY((l0 + 104u), (l3 + 2272u), (ipl_u64)264u);
    IPL_S64U(l0, 528u, l81);
    IPL_S64U(l0, 520u, l81);
    IPL_S64U(l0, 512u, (ipl_u64)0u);
    IPL_S64U(l0, 504u, l80);
    IPL_S64U(l0, 496u, l35);
    IPL_S64U(l0, 488u, l35);
    IPL_S64U(l0, 480u, l79);
    IPL_S64U(l0, 472u, l78);
    IPL_S64U(l0, 464u, l77);
    IPL_S64U(l0, 456u, l76);
    IPL_S64U(l0, 448u, l75);
    IPL_S64U(l0, 440u, l74);
    IPL_S64U(l0, 432u, l73);
    IPL_S64U(l0, 424u, l72);
    IPL_S64U(l0, 416u, l71);
    IPL_S64U(l0, 408u, l70);
    IPL_S64U(l0, 400u, l69);
    IPL_S64U(l0, 392u, l68);
    IPL_S64U(l0, 384u, l67);
    IPL_S64U(l0, 376u, l66);
    IPL_S64U(l0, 368u, l65);
    IPL_S64U(l0, 576u, l82);
    IPL_S64U(l0, 584u, (ipl_u64)0u);
    IPL_S64U(l0, 592u, l83);
    IPL_S64U(l0, 600u, l83);
    IPL_S64U(l0, 608u, l84);
    IPL_S64U(l0, 552u, IPL_L64(l3, 2264u));
    IPL_S64U(l0, 544u, IPL_L64(l3, 2256u));
    IPL_S64U(l0, 536u, IPL_L64(l3, 2248u));
    IPL_S64U(l0, 560u, IPL_L64(l3, 2232u));
    IPL_S64U(l0, 568u, IPL_L64(l3, 2240u));
    IPL_COPY((l0 + 616u), (l3 + 1960u), (ipl_u64)272u);
    IPL_S8(l0, 897u, l7);
    IPL_S8(l0, 896u, l52);
    IPL_S64U(l0, 888u, (ipl_u64)0u);
    IPL_S8(l0, 1032u, l7);
    IPL_S64U(l0, 1024u, l90);
    IPL_S64U(l0, 1016u, l90);
    IPL_S64U(l0, 1008u, (ipl_u64)0u);
    IPL_S64U(l0, 1000u, l89);
    IPL_S64U(l0, 992u, l88);
    IPL_S64U(l0, 984u, l88);
    IPL_S64U(l0, 976u, (ipl_u64)0u);
    IPL_S64U(l0, 968u, l87);
    IPL_S64U(l0, 960u, l86);
    IPL_S64U(l0, 952u, l86);
    IPL_S64U(l0, 944u, (ipl_u64)0u);
    IPL_S64U(l0, 936u, l85);
    IPL_S64U(l0, 898u, IPL_L64(l3, 1920u));
    IPL_S64U(l0, 906u, IPL_L64(l3, 1928u));
    IPL_S64U(l0, 914u, IPL_L64(l3, 1936u));
    IPL_S64U(l0, 922u, IPL_L64(l3, 1944u));
    IPL_S64U(l0, 928u, IPL_L64U(l3, 1950u));
    IPL_COPY((l0 + 1033u), (l3 + 1425u), (ipl_u64)495u);
    IPL_S64U(l0, 1544u, l92);
    IPL_S64U(l0, 1536u, (ipl_u64)0u);
    IPL_S64U(l0, 1528u, l91);
    IPL_S64U(l0, 1552u, IPL_L64(l3, 1408u));
    IPL_S64U(l0, 1560u, IPL_L64(l3, 1416u));
    IPL_COPY((l0 + 1568u), (l3 + 376u), (ipl_u64)1032u);
    IPL_S64U(l0, 2752u, l11);
    IPL_S64U(l0, 2744u, l15);
    IPL_S64U(l0, 2736u, (ipl_u64)0u);
    IPL_S64U(l0, 2728u, l1);
    IPL_S64U(l0, 2720u, l1);
    IPL_S64U(l0, 2712u, l1);
    IPL_S64U(l0, 2704u, l27);
    IPL_S64U(l0, 2696u, l11);
    IPL_S64U(l0, 2688u, l15);
    IPL_S64U(l0, 2680u, (ipl_u64)0u);
    IPL_S64U(l0, 2672u, l1);
    IPL_S64U(l0, 2664u, l1);
    IPL_S64U(l0, 2656u, l1);
    IPL_S64U(l0, 2648u, l23);
    IPL_S64U(l0, 2640u, l9);
    IPL_S64U(l0, 2632u, l9);
    IPL_S64U(l0, 2624u, l9);
    IPL_S64U(l0, 2616u, l19);
    IPL_S64U(l0, 2608u, (ipl_u64)0u);
    IPL_S64U(l0, 2600u, l92);
    IPL_COPY((l0 + 2760u), (l3 + 168u), (ipl_u64)208u);
    IPL_S8(l0, 2977u, 0u);
    IPL_S8(l0, 2976u, l2);
    IPL_S32U(l0, 2972u, l6);
    IPL_S32U(l0, 2968u, l8);
    IPL_S32U(l0, 2978u, IPL_L32(l3, 160u));
    IPL_S16U(l0, 2982u, IPL_L16(l3, 164u));
L1:;
    IPL_G(0) = (l3 + 9728u);
}

/* ipl_store::store::Store::open::<#81e02dbab8cd6729> */
static void ipl_w37_open(ipl_u8 *const m, ipl_u64 l0, ipl_u64 l1, ipl_u64 l2) {
    ipl_u32 l7 = 0, l8 = 0, l9 = 0, l10 = 0, l11 = 0, l12 = 0, t2;
    ipl_u64 l3 = 0, l4 = 0, l5 = 0, l6 = 0, t1, t3;
    IPL_ENDS
    t1 = IPL_G(0);
    l3 = (t1 - 9008u);
    IPL_G(0) = l3;
    l4 = IPL_L64U(l1, 40u);
    IPL_FILL((l3 + 2968u), 0u, (ipl_u64)2976u);
    IPL_S64(l3, 2960u, (ipl_u64)0u);
    IPL_S64(l3, 2952u, (ipl_u64)0u);
    IPL_S64(l3, 2944u, (ipl_u64)0u);
    IPL_S64(l3, 2936u, (ipl_u64)0u);
    IPL_S64(l3, 2928u, (ipl_u64)0u);
    IPL_FILL(l3, 0u, (ipl_u64)2928u);
    l5 = (l1 + 48u);
    if (IPL_L32(l2, 8u) == (ipl_u32)l4) goto L2;
    IPL_S64F(l3, 8904u, IPL_L64U(l1, 32u));
    IPL_S64F(l3, 8896u, IPL_L64U(l1, 24u));
    IPL_S64F(l3, 8888u, IPL_L64U(l1, 16u));
    IPL_S64F(l3, 8880u, IPL_L64U(l1, 8u));
    IPL_S64F(l3, 8872u, IPL_L64U(l1, 0u));
    IPL_COPY((l3 + 5944u), l5, (ipl_u64)2928u);
    IPL_S64U(l0, 0u, (ipl_u64)1u);
    IPL_S64U(l0, 48u, l4);
    IPL_S64U(l0, 8u, IPL_L64F(l3, 8872u));
    IPL_S64U(l0, 16u, IPL_L64F(l3, 8880u));
    IPL_S64U(l0, 24u, IPL_L64F(l3, 8888u));
    IPL_S64U(l0, 32u, IPL_L64F(l3, 8896u));
    IPL_S64U(l0, 40u, IPL_L64F(l3, 8904u));
    IPL_COPY((l0 + 56u), (l3 + 5944u), (ipl_u64)2928u);
    IPL_S64U(l0, 3000u, (ipl_u64)0u);
    IPL_S64U(l0, 2992u, (ipl_u64)0u);
    IPL_S64U(l0, 2984u, (ipl_u64)0u);
    goto L1;
L2:;
    IPL_S64(l3, 3008u, l4);
    IPL_S64(l3, 3000u, IPL_L64U(l1, 32u));
    IPL_S64(l3, 2992u, IPL_L64U(l1, 24u));
    IPL_S64(l3, 2984u, IPL_L64U(l1, 16u));
    IPL_S64(l3, 2976u, IPL_L64U(l1, 8u));
    IPL_S64(l3, 2968u, IPL_L64U(l1, 0u));
    l6 = ((l3 + 2968u) + 48u);
    IPL_COPY(l6, l5, (ipl_u64)2928u);
    IPL_S16F(l3, 5936u, 1u);
    l1 = IPL_L64F(l3, 5584u);
    if (l1 == 0) goto L3;
    IPL_S64F(l3, 5584u, (ipl_u64)0u);
    if ((ipl_u32)l1 == 0) goto L3;
    l4 = ((l1 & 4294967295ull) * 2600u);
    if (l4 == 0) goto L4;
    IPL_FILL(IPL_L64F(l3, 5576u), 0u, l4);
L4:;
    IPL_S64F(l3, 5584u, (((l1 - 1u) & 4294967295ull) + 1u));
L3:;
    if (IPL_L64F(l3, 4496u) == 0) goto L5;
    IPL_S64F(l3, 4496u, (ipl_u64)0u);
L5:;
    IPL_S64F(l3, 4520u, (ipl_u64)0u);
    IPL_S64F(l3, 4512u, (ipl_u64)0u);
    l1 = IPL_L64F(l3, 5552u);
    if (l1 == 0) goto L6;
    l1 = (l1 << 4);
    if (l1 == 0) goto L7;
    IPL_FILL((l3 + 4528u), 0u, l1);
L7:;
    IPL_S64F(l3, 5552u, (ipl_u64)0u);
L6:;
    IPL_S64F(l3, 5568u, (ipl_u64)0u);
    IPL_FILL((l3 + 3584u), 0u, (ipl_u64)264u);
    IPL_S32F(l3, 8912u, 0u);
    l5 = (l3 + 5608u);
    IPL_S64F(l3, 9000u, l5);
    IPL_S64F(l3, 8992u, (l3 + 3520u));
    IPL_S64F(l3, 8984u, (l3 + 3424u));
    IPL_S64F(l3, 8968u, (l3 + 5792u));
    IPL_S64F(l3, 8960u, (ipl_u64)0u);
    IPL_S64F(l3, 8952u, (ipl_u64)0u);
    IPL_S64F(l3, 8944u, (ipl_u64)0u);
    IPL_S64F(l3, 8936u, (ipl_u64)0u);
    IPL_S64F(l3, 8976u, (l3 + 2968u));
    ipl_w9_read_chip(m, (l3 + 8936u), l2, IPL_L32F(l3, 5720u), IPL_L64F(l3, 5728u), IPL_L64F(l3, 5736u), IPL_L64F(l3, 5760u), (l3 + 8968u), 1u, 1u);
    if (IPL_L8F(l3, 8936u) != 0) goto L11;
    IPL_S64(l3, 3576u, (IPL_L64F(l3, 8944u) + 1u));
    l7 = IPL_L8F(l3, 8952u);
    l4 = (ipl_u64)IPL_L32(l3, 2976u);
    if (l4 == 0) goto L12;
    l1 = IPL_L64(l3, 3328u);
L14:;
    if (IPL_L32(l1, 0u) <= 31u) goto L13;
    l1 = (l1 + 4u);
    l4 = (l4 - 1u);
    if (l4 == 0) goto L12;
    goto L14;
L13:;
    t2 = ipl_to_ipl_nand_barrier(m, IPL_L64(l2, 0u));
    if (t2 == 0) goto L12;
    l7 = 0u;
    IPL_S8(l2, 16u, 0u);
    l1 = (l2 + 32u);
    t3 = l1;
    l1 = (IPL_L64(l1, 0u) + 1u);
    IPL_S64(t3, 0u, (l1 == 0 ? 18446744073709551615ull : l1));
    l8 = 1u;
    l9 = 3u;
    l10 = 0u;
    l11 = 0u;
    l12 = 0u;
    goto L9;
L12:;
    IPL_S64UF(l3, 8916u, (ipl_u64)0u);
    IPL_S8F(l3, 8912u, 0u);
    IPL_S64UF(l3, 8924u, (ipl_u64)0u);
    IPL_S32F(l3, 8932u, 0u);
    ipl_w38_renew_with(m, (l3 + 8912u), l2, (l3 + 2968u), l5, (l7 & 1u));
    if (IPL_L8F(l3, 8912u) != 0) goto L10;
    l4 = IPL_L64(l3, 3336u);
    if (l4 == 0) goto L15;
    l1 = IPL_L64(l3, 3328u);
L16:;
    l7 = IPL_L32(l1, 0u);
    IPL_S32(l1, 0u, ((l7 & (ipl_u32)4294967280u) == 16u ? (l7 + (ipl_u32)4294967280u) : l7));
    l1 = (l1 + 4u);
    l4 = (l4 - 1u);
    if (!(l4 == 0)) goto L16;
L15:;
    l9 = 0u;
    IPL_S8F(l3, 5936u, 0u);
    IPL_S32F(l3, 5928u, IPL_L64(l3, 2976u));
    l1 = (ipl_u64)0u;
    l8 = 0u;
    l7 = 0u;
    l10 = 0u;
    l11 = 0u;
    l12 = 0u;
    goto L8;
L11:;
    l12 = IPL_L32F(l3, 8960u);
    l11 = IPL_L32F(l3, 8956u);
    l10 = IPL_L32F(l3, 8952u);
    l7 = IPL_L32F(l3, 8948u);
    l8 = IPL_L32F(l3, 8944u);
    l9 = IPL_L8F(l3, 8940u);
    goto L9;
L10:;
    l9 = 3u;
    l8 = IPL_L8F(l3, 8916u);
    l7 = IPL_L32F(l3, 8920u);
    l10 = IPL_L32F(l3, 8924u);
    l11 = IPL_L32F(l3, 8928u);
    l12 = IPL_L32F(l3, 8932u);
L9:;
    l1 = (ipl_u64)1u;
L8:;
    IPL_S64(l3, 2928u, IPL_L64(l3, 2968u));
    IPL_S64(l3, 2936u, IPL_L64(l3, 2976u));
    IPL_S64(l3, 2944u, IPL_L64(l3, 2984u));
    IPL_S64(l3, 2952u, IPL_L64(l3, 2992u));
    IPL_S64(l3, 2960u, IPL_L64(l3, 3000u));
    l4 = IPL_L64(l3, 3008u);
    IPL_COPY(l3, l6, (ipl_u64)2928u);
    IPL_S64U(l0, 0u, l1);
    IPL_S64U(l0, 48u, l4);
    IPL_S64U(l0, 8u, IPL_L64(l3, 2928u));
    IPL_S64U(l0, 16u, IPL_L64(l3, 2936u));
    IPL_S64U(l0, 24u, IPL_L64(l3, 2944u));
    IPL_S64U(l0, 32u, IPL_L64(l3, 2952u));
    IPL_S64U(l0, 40u, IPL_L64(l3, 2960u));
    IPL_COPY((l0 + 56u), l3, (ipl_u64)2928u);
    IPL_S32U(l0, 3004u, l12);
    IPL_S32U(l0, 3000u, l11);
    IPL_S32U(l0, 2996u, l10);
    IPL_S32U(l0, 2992u, l7);
    IPL_S32U(l0, 2988u, l8);
    IPL_S32U(l0, 2984u, l9);
L1:;
    IPL_G(0) = (l3 + 9008u);
}

/* restart::renewing::renew_with::<#81e02dbab8cd6729> */
static void ipl_w38_renew_with(ipl_u8 *const m, ipl_u64 l0, ipl_u64 l1, ipl_u64 l2, ipl_u64 l3, ipl_u32 l4) {
    ipl_u32 l6 = 0, l22 = 0, l23 = 0, l24 = 0, l25 = 0, t3, t4, t5, t6;
    ipl_u64 l5 = 0, l7 = 0, l8 = 0, l9 = 0, l10 = 0, l11 = 0, l12 = 0, l13 = 0, l14 = 0, l15 = 0, l16 = 0, l17 = 0, l18 = 0, l19 = 0, l20 = 0, l21 = 0;
    ipl_u64 l26 = 0, l27 = 0, l28 = 0, l29 = 0, l30 = 0, l31 = 0, t1, t2, t7, t8;
    IPL_ENDS
    t1 = IPL_G(0);
    l5 = (t1 - 2112u);
    IPL_G(0) = l5;
    if (l4 != 0) goto L5;
    IPL_FILL(l5, 0u, (ipl_u64)1024u);
    IPL_S64U(l5, 1028u, (ipl_u64)0u);
    l6 = 3u;
    IPL_S32(l5, 1024u, 3u);
    IPL_S64U(l5, 1036u, (ipl_u64)0u);
    l7 = (l2 + 912u);
    l8 = (l2 + 928u);
    l9 = (l2 + 456u);
    l10 = (l5 + 1136u);
    l11 = (l3 + 8u);
    l12 = (l3 + 32u);
    l13 = (l2 + 892u);
    l14 = (l2 + 890u);
    l15 = (l2 + 889u);
    l16 = (l2 + 888u);
    l17 = (l2 + 884u);
    l18 = (l2 + 880u);
    l19 = (l2 + 927u);
    l20 = (l2 + 904u);
    l21 = (l2 + 896u);
    l22 = 0u;
    l23 = 0u;
    l24 = 0u;
    l25 = 0u;
L6:;
    l26 = IPL_L64(l11, 0u);
    if (l26 == 0) goto L7;
    l27 = IPL_L64(l3, 0u);
    l26 = (l26 - 1u);
    l4 = (ipl_u32)(l26 == 0);
    if (l4 != 0) goto L8;
    if (l4 != 0) goto L8;
    IPL_FILL(l27, 0u, l26);
L8:;
    IPL_S8((l27 + l26), 0u, 0u);
L7:;
    IPL_S64(l12, 0u, (ipl_u64)0u);
    l28 = (l2 + 8u);
    l27 = (ipl_u64)IPL_L32(l28, 0u);
    if (l27 == 0) goto L5;
    l4 = 0u;
    l26 = l5;
L9:;
    IPL_S64(l5, 1128u, (ipl_u64)0u);
    IPL_S64(l5, 1120u, (ipl_u64)0u);
    IPL_S64(l5, 1112u, (ipl_u64)0u);
    if (IPL_L8(l26, 0u) != 2u) goto L10;
    ipl_w39_join_unit(m, (l5 + 1112u), l1, l2, l3, l4);
    if (IPL_L8(l5, 1112u) != 0) goto L3;
    if ((IPL_L8(l5, 1113u) & 1u) == 0) goto L2;
L10:;
    l26 = (l26 + 1u);
    l4 = (l4 + 1u);
    l27 = (l27 - 1u);
    if (l27 != 0u) goto L9;
    l26 = (ipl_u64)IPL_L32(l28, 0u);
    if (l26 == 0) goto L5;
    l28 = (l26 << 2);
    l27 = (ipl_u64)0u;
    l4 = 0u;
    l26 = l5;
L11:;
    IPL_S64(l5, 1088u, (ipl_u64)0u);
    IPL_S64(l5, 1080u, (ipl_u64)0u);
    IPL_S64(l5, 1072u, (ipl_u64)0u);
    if (IPL_L8(l26, 0u) != 0) goto L12;
    ipl_w39_join_unit(m, (l5 + 1072u), l1, l2, l3, l4);
    if (IPL_L8(l5, 1072u) != 0) goto L4;
    if ((IPL_L8(l5, 1073u) & 1u) != 0) goto L12;
    IPL_S8(l26, 0u, 1u);
    IPL_S64(l5, 1640u, (ipl_u64)0u);
    IPL_S64(l5, 1632u, (ipl_u64)0u);
    IPL_S64(l5, 1624u, (ipl_u64)0u);
    IPL_S64(l5, 1144u, (ipl_u64)0u);
    IPL_S64(l5, 1136u, (ipl_u64)0u);
    IPL_S64(l5, 1128u, (ipl_u64)0u);
    IPL_S64(l5, 1120u, (ipl_u64)0u);
    IPL_S64(l5, 1112u, (ipl_u64)0u);
    l24 = IPL_L32((IPL_L64(l2, 0u) + l27), 0u);
    ipl_w23_read_live(m, (l5 + 1112u), l1, l2, l9, l4, l8);
    l22 = IPL_L32(l5, 1132u);
    l23 = IPL_L32(l5, 1128u);
    l25 = IPL_L32(l5, 1120u);
    if (IPL_L8(l5, 1112u) == 0) goto L14;
    l6 = IPL_L8(l5, 1116u);
    l24 = IPL_L32(l5, 1124u);
    goto L13;
L14:;
    IPL_S32U(l13, 0u, l4);
    IPL_S16U(l14, 0u, 0u);
    IPL_S8(l15, 0u, l25);
    IPL_S8(l16, 0u, 1u);
    IPL_S32U(l17, 0u, 0u);
    IPL_S32U(l18, 0u, l24);
    IPL_S64U(l7, 0u, IPL_L64U(l10, 0u));
    IPL_S64U(l7, 7u, IPL_L64U(l10, 7u));
    IPL_S8(l19, 0u, 0u);
    l29 = (((ipl_u64)l22 << 32) | (ipl_u64)l23);
    IPL_S64U(l20, 0u, l29);
    IPL_S64U(l21, 0u, l29);
    ipl_w40_merge_learnt(m, (l5 + 1624u), l1, l2, l4);
    if (IPL_L8(l5, 1624u) == 0) goto L12;
    l22 = IPL_L32(l5, 1644u);
    l23 = IPL_L32(l5, 1640u);
    l24 = IPL_L32(l5, 1636u);
    l25 = IPL_L32(l5, 1632u);
    l6 = IPL_L8(l5, 1628u);
L13:;
    if ((l6 & 254u) != 2u) goto L2;
    IPL_S8(l26, 0u, 2u);
    IPL_S32(l5, 1040u, l22);
    IPL_S32(l5, 1036u, l23);
    IPL_S32(l5, 1032u, l24);
    IPL_S32(l5, 1028u, l25);
    IPL_S32(l5, 1024u, (l6 & 255u));
    goto L6;
L12:;
    l26 = (l26 + 1u);
    l4 = (l4 + 1u);
    l27 = (l27 + 4u);
    if (l28 != l27) goto L11;
L5:;
    l26 = (l2 + 608u);
    l16 = IPL_L64(l26, 0u);
    IPL_S64(l26, 0u, (l16 + 1u));
    l17 = (ipl_u64)0u;
    IPL_S64(l5, 1064u, (ipl_u64)0u);
    IPL_S64(l5, 1056u, (ipl_u64)0u);
    IPL_S64(l5, 1048u, (ipl_u64)0u);
    l12 = (ipl_u64)IPL_L32((l2 + 552u), 0u);
    ipl_w41_take_place(m, (l5 + 1048u), l1, l2);
    l22 = IPL_L32(l5, 1052u);
    if (IPL_L8(l5, 1048u) != 0) goto L18;
    l30 = (ipl_u64)l22;
    l10 = (IPL_L64(l2, 64u) + (l30 << 2));
    l29 = (l2 + 352u);
    l8 = (l2 + 8u);
    l27 = IPL_L64((l2 + 576u), 0u);
    l25 = (ipl_u32)(l27 == 0);
    if (l25 != 0) goto L19;
    l7 = IPL_L64(l3, 8u);
    l17 = (ipl_u64)0u;
    l26 = (ipl_u64)0u;
L20:;
    l28 = (l26 >> 3);
    if (l28 >= l7) goto L21;
    l17 = (l17 + (ipl_u64)((IPL_L8((IPL_L64(l3, 0u) + l28), 0u) >> (((ipl_u32)l26 & 7u) & 31u)) & 1u));
L21:;
    l26 = (l26 + 1u);
    if (l27 != l26) goto L20;
L19:;
    l4 = IPL_L32(l10, 0u);
    l11 = IPL_L64(l29, 0u);
    l23 = IPL_L32(l8, 0u);
    IPL_FILL((l5 + 1112u), 0u, (ipl_u64)512u);
    IPL_S64(l5, 1104u, (ipl_u64)0u);
    IPL_S64(l5, 1096u, (ipl_u64)0u);
    l31 = (l17 / 60u);
    l7 = (ipl_u64)0u;
    if (l25 != 0) goto L22;
    l10 = IPL_L64(l3, 8u);
    l7 = (ipl_u64)0u;
    l26 = (ipl_u64)0u;
L23:;
    l28 = (l26 >> 3);
    if (l28 >= l10) goto L24;
    l7 = (l7 + (ipl_u64)((IPL_L8((IPL_L64(l3, 0u) + l28), 0u) >> (((ipl_u32)l26 & 7u) & 31u)) & 1u));
L24:;
    l26 = (l26 + 1u);
    if (l27 != l26) goto L23;
L22:;
    l26 = (l7 / 60u);
    l19 = ((l26 + (ipl_u64)((l7 - (l26 * 60u)) != 0u)) & 4294967295ull);
    if (l19 == 0) goto L25;
    l14 = ((l5 + 1112u) + 24u);
    l18 = (l2 + 608u);
    l20 = (l2 + 568u);
    l21 = (l2 + 576u);
    l13 = (ipl_u64)0u;
L26:;
    l15 = IPL_L64(l18, 0u);
    IPL_S64(l18, 0u, (l15 + 1u));
    l27 = IPL_L64(l20, 0u);
    l7 = IPL_L64(l21, 0u);
    IPL_FILL(l5, 0u, (ipl_u64)488u);
    if (l7 == 0) goto L27;
    l9 = (l13 * 60u);
    l10 = IPL_L64(l3, 8u);
    l8 = (ipl_u64)0u;
    l29 = (ipl_u64)0u;
    l26 = (ipl_u64)0u;
L28:;
    l28 = (l26 >> 3);
    if (l28 >= l10) goto L29;
    if (((IPL_L8((IPL_L64(l3, 0u) + l28), 0u) >> (((ipl_u32)l26 & 7u) & 31u)) & 1u) == 0) goto L29;
    if (l9 > l29) goto L30;
    if (l8 > 59u) goto L30;
    IPL_S64((l5 + (l8 << 3)), 0u, IPL_L64(l27, 0u));
    l8 = (l8 + 1u);
    IPL_S64(l5, 480u, l8);
L30:;
    l29 = (l29 + 1u);
L29:;
    l27 = (l27 + 8u);
    l26 = (l26 + 1u);
    if (l7 != l26) goto L28;
L27:;
    IPL_COPY((l5 + 1624u), l5, (ipl_u64)488u);
    l7 = IPL_L64(l5, 2104u);
    IPL_FILL(l5, 0u, (ipl_u64)488u);
    if (l7 == 0) goto L31;
    l27 = (ipl_u64)0u;
    l28 = (l5 + 1624u);
L32:;
    if ((l27 - 473u) < 8u) goto L33;
    l26 = IPL_L64(l28, 0u);
    t2 = ((((l26 << 56) | ((l26 & 65280u) << 40)) | (((l26 & 16711680ull) << 24) | ((l26 & 4278190080ull) << 8))) | ((((l26 >> 8) & 4278190080ull) | ((l26 >> 24) & 16711680ull)) | (((l26 >> 40) & 65280u) | (l26 >> 56))));
    IPL_S64U((l5 + l27), 0u, t2);
    l27 = (l27 + 8u);
    IPL_S64(l5, 480u, l27);
L33:;
    l28 = (l28 + 8u);
    l7 = (l7 - 1u);
    if (l7 != 0u) goto L32;
L31:;
    IPL_COPY(l14, l5, (ipl_u64)488u);
    IPL_S64(l5, 1112u, (ipl_u64)774u);
    IPL_S64(l5, 1128u, l15);
    IPL_S64(l5, 1120u, l16);
    IPL_S64(l5, 1072u, (ipl_u64)774u);
    IPL_S64(l5, 1080u, l16);
    IPL_S64(l5, 1088u, l15);
    IPL_S64(l5, 1096u, l14);
    l26 = IPL_L64(l5, 1616u);
    IPL_S64(l5, 1104u, l26);
    IPL_FILL(l5, 0u, (ipl_u64)512u);
    ipl_w7_encode(m, (l5 + 1072u), l14, l26, l5);
    l13 = (l13 + 1u);
    t3 = ipl_to_ipl_nand_program(m, IPL_L64(l1, 0u), l22, (ipl_u32)l13, l5, (ipl_u64)512u);
    if (t3 != 0) goto L17;
    if (l13 != l19) goto L26;
L25:;
    l26 = ((l5 + 1112u) + 9u);
    IPL_FILL(l26, 0u, (ipl_u64)256u);
    IPL_S32(l5, 1116u, (ipl_rotr32((l4 & (ipl_u32)16711935u), 8u) | (ipl_rotr32(l4, 24u) & (ipl_u32)16711935u)));
    IPL_S32(l5, 1112u, (ipl_rotr32((l23 & (ipl_u32)16711935u), 8u) | (ipl_rotr32(l23, 24u) & (ipl_u32)16711935u)));
    IPL_S8(l5, 1120u, l11);
    if (l11 == 0) goto L34;
    l27 = (l2 + 96u);
    l28 = l11;
L35:;
    l4 = IPL_L32(l27, 0u);
    IPL_S32U(l26, 0u, (ipl_rotr32((l4 & (ipl_u32)16711935u), 8u) | (ipl_rotr32(l4, 24u) & (ipl_u32)16711935u)));
    l27 = (l27 + 4u);
    l26 = (l26 + 4u);
    l28 = (l28 - 1u);
    if (l28 != 0u) goto L35;
L34:;
    IPL_S64(l5, 1640u, l16);
    IPL_S64(l5, 1632u, l16);
    IPL_S64(l5, 1624u, (ipl_u64)770u);
    IPL_FILL(l5, 0u, (ipl_u64)512u);
    ipl_w7_encode(m, (l5 + 1624u), (l5 + 1112u), ((l11 << 2) + 9u), l5);
    t4 = ipl_to_ipl_nand_barrier(m, IPL_L64(l1, 0u));
    if (t4 != 0) goto L36;
    t5 = ipl_to_ipl_nand_program(m, IPL_L64(l1, 0u), l22, 0u, l5, (ipl_u64)512u);
    if (t5 != 0) goto L36;
    t6 = ipl_to_ipl_nand_barrier(m, IPL_L64(l1, 0u));
    if (t6 != 0) goto L36;
    l4 = (ipl_u32)(l31 + (ipl_u64)((l17 - (l31 * 60u)) != 0u));
    IPL_S64((l2 + 560u), 0u, l16);
    IPL_S32((l2 + 552u), 0u, l22);
    l7 = IPL_L64((l2 + 576u), 0u);
    if (l7 == 0) goto L37;
    l27 = (ipl_u64)0u;
    l10 = (l3 + 8u);
    l8 = (l2 + 568u);
    l29 = (ipl_u64)0u;
    l26 = (ipl_u64)0u;
L38:;
    l28 = (l26 >> 3);
    if (l28 >= IPL_L64(l10, 0u)) goto L39;
    if (((IPL_L8((IPL_L64(l3, 0u) + l28), 0u) >> (((ipl_u32)l26 & 7u) & 31u)) & 1u) == 0) goto L39;
    l28 = IPL_L64(l8, 0u);
    IPL_S64((l28 + (l29 << 3)), 0u, IPL_L64((l28 + l27), 0u));
    l29 = (l29 + 1u);
L39:;
    l27 = (l27 + 8u);
    l26 = (l26 + 1u);
    if (l7 != l26) goto L38;
    l26 = (l2 + 576u);
    if (IPL_L64(l26, 0u) <= l29) goto L37;
    IPL_S64(l26, 0u, l29);
L37:;
    IPL_S32((l2 + 600u), 0u, (l4 + 1u));
    l4 = 0u;
    IPL_S8((IPL_L64(l2, 32u) + l12), 0u, 0u);
    l6 = 0u;
    l25 = 0u;
    goto L15;
L36:;
    IPL_S8(l1, 16u, 0u);
    l26 = (l1 + 32u);
    t7 = l26;
    l26 = (IPL_L64(l26, 0u) + 1u);
    IPL_S64(t7, 0u, (l26 == 0 ? 18446744073709551615ull : l26));
    goto L16;
L18:;
    l6 = (l22 & 255u);
    l4 = 1u;
    l25 = IPL_L32(l5, 1056u);
    l24 = IPL_L32(l5, 1060u);
    l23 = IPL_L32(l5, 1064u);
    l22 = IPL_L32(l5, 1068u);
    goto L1;
L17:;
    IPL_S8(l1, 16u, 0u);
    l26 = (l1 + 32u);
    t8 = l26;
    l26 = (IPL_L64(l26, 0u) + 1u);
    IPL_S64(t8, 0u, (l26 == 0 ? 18446744073709551615ull : l26));
L16:;
    l25 = 0u;
    IPL_S8((IPL_L64(l2, 32u) + l30), 0u, 0u);
    l4 = 1u;
    l6 = 1u;
L15:;
    l24 = 0u;
    l23 = 0u;
    l22 = 0u;
    goto L1;
L4:;
    l6 = IPL_L8(l5, 1076u);
    l25 = IPL_L32(l5, 1080u);
    l24 = IPL_L32(l5, 1084u);
    l23 = IPL_L32(l5, 1088u);
    l22 = IPL_L32(l5, 1092u);
    goto L2;
L3:;
    l6 = IPL_L8(l5, 1116u);
    l25 = IPL_L32(l5, 1120u);
    l24 = IPL_L32(l5, 1124u);
    l23 = IPL_L32(l5, 1128u);
    l22 = IPL_L32(l5, 1132u);
L2:;
    l6 = (l6 & 255u);
    l4 = 1u;
L1:;
    IPL_S8(l0, 0u, l4);
    IPL_S32U(l0, 20u, l22);
    IPL_S32U(l0, 16u, l23);
    IPL_S32U(l0, 12u, l24);
    IPL_S32U(l0, 8u, l25);
    IPL_S32U(l0, 4u, l6);
    IPL_G(0) = (l5 + 2112u);
}

/* restart::passing::join_unit::<#81e02dbab8cd6729> */
static void ipl_w39_join_unit(ipl_u8 *const m, ipl_u64 l0, ipl_u64 l1, ipl_u64 l2, ipl_u64 l3, ipl_u32 l4) {
    ipl_u32 t2;
    ipl_u64 l5 = 0, l6 = 0, l7 = 0, l8 = 0, l9 = 0, l10 = 0, t1;
    IPL_ENDS
    t1 = IPL_G(0);
    l5 = (t1 - 48u);
    IPL_G(0) = l5;
    IPL_S64(l5, 40u, (ipl_u64)0u);
    IPL_S64(l5, 32u, (ipl_u64)0u);
    IPL_S64(l5, 24u, (ipl_u64)0u);
    IPL_S64(l5, 16u, (ipl_u64)0u);
    IPL_S64(l5, 8u, (ipl_u64)0u);
    l6 = (l2 + 928u);
    ipl_w23_read_live(m, (l5 + 8u), l1, l2, (l2 + 456u), l4, l6);
    if (IPL_L8(l5, 8u) != 0) goto L2;
    l7 = IPL_L64((l2 + 936u), 0u);
    l8 = IPL_L64(l6, 0u);
    l9 = (l3 + 56u);
    l1 = IPL_L64(l9, 0u);
    l6 = IPL_L64(l3, 0u);
    l10 = IPL_L64(l3, 8u);
    if ((l1 - l6) >= l10) goto L4;
    IPL_RISE(l1, l6, l10);
    l1 = (l1 + l10);
    l6 = (l6 + l10);
    l10 = 0u;
    goto L3;
L4:;
    if (l10 == 0) goto L3;
    IPL_COPY(l1, l6, l10);
L3:;
    IPL_S64(l3, 88u, IPL_L64(l3, 32u));
    if (l7 == 0) goto L7;
    l6 = (l2 + 552u);
    l1 = (l8 - 496u);
L9:;
    l1 = (l1 + 504u);
    t2 = ipl_w15_add_payload(m, l9, l1, l6);
    if (t2 == 0) goto L8;
    l7 = (l7 - 1u);
    if (l7 == 0) goto L7;
    goto L9;
L8:;
    l4 = 0u;
    goto L6;
L7:;
    l1 = IPL_L64(l3, 0u);
    l6 = IPL_L64(l3, 56u);
    l10 = IPL_L64(l3, 64u);
    if ((l1 - l6) >= l10) goto L11;
    IPL_RISE(l1, l6, l10);
    l1 = (l1 + l10);
    l6 = (l6 + l10);
    l10 = 0u;
    goto L10;
L11:;
    if (l10 == 0) goto L10;
    IPL_COPY(l1, l6, l10);
L10:;
    IPL_S64(l3, 32u, IPL_L64(l3, 88u));
    l4 = 1u;
L6:;
    IPL_S8(l0, 0u, 0u);
    IPL_S64U(l0, 4u, (ipl_u64)0u);
    IPL_S8(l0, 1u, l4);
    IPL_S64U(l0, 12u, (ipl_u64)0u);
    IPL_S32U(l0, 20u, 0u);
    goto L1;
L2:;
    IPL_S16U(l0, 0u, 1u);
    IPL_S64U(l0, 16u, IPL_L64(l5, 24u));
    IPL_S64U(l0, 8u, IPL_L64(l5, 16u));
    IPL_S32U(l0, 4u, IPL_L8(l5, 12u));
L1:;
    IPL_G(0) = (l5 + 48u);
}

/* selective_merge::merging::merge_learnt::<#81e02dbab8cd6729> */
static void ipl_w40_merge_learnt(ipl_u8 *const m, ipl_u64 l0, ipl_u64 l1, ipl_u64 l2, ipl_u32 l3) {
    ipl_u32 l6 = 0, l7 = 0, l8 = 0, l9 = 0, l12 = 0, l18 = 0, l30 = 0, l32 = 0, l33 = 0, t2, t8, t9, t11, t12, t13, t14;
    ipl_u32 t15, t16, t17;
    ipl_u64 l4 = 0, l5 = 0, l10 = 0, l11 = 0, l13 = 0, l14 = 0, l15 = 0, l16 = 0, l17 = 0, l19 = 0, l20 = 0, l21 = 0, l22 = 0, l23 = 0, l24 = 0, l25 = 0;
    ipl_u64 l26 = 0, l27 = 0, l28 = 0, l29 = 0, l31 = 0, l34 = 0, l35 = 0, l36 = 0, l37 = 0, l38 = 0, l39 = 0, l40 = 0, l41 = 0, l42 = 0, t1, t3;
    ipl_u64 t4, t5, t6, t7, t10, t18, t19, t20, t21;
    IPL_ENDS
    t1 = IPL_G(0);
    l4 = (t1 - 18096u);
    IPL_G(0) = l4;
    IPL_S64(l4, 32u, (ipl_u64)0u);
    IPL_S64(l4, 24u, (ipl_u64)0u);
    IPL_S64(l4, 16u, (ipl_u64)0u);
    IPL_S64(l4, 8u, (ipl_u64)0u);
    l5 = (l2 + 960u);
    ipl_w42_of(m, (l4 + 8u), IPL_L64((l2 + 928u), 0u), IPL_L64((l2 + 936u), 0u), l5);
    t2 = ipl_w43_pack_carried(m, (l4 + 8u), (l2 + 616u), (l2 + 992u));
    if (t2 != 0) goto L3;
    l6 = IPL_L32((l2 + 880u), 0u);
    l7 = 0u;
    l8 = 3u;
    l9 = 1u;
    goto L2;
L3:;
    l10 = (l2 + 608u);
    l11 = IPL_L64(l10, 0u);
    IPL_S64(l10, 0u, (l11 + 1u));
    IPL_S64(l4, 56u, (ipl_u64)0u);
    IPL_S64(l4, 48u, (ipl_u64)0u);
    IPL_S64(l4, 40u, (ipl_u64)0u);
    ipl_w41_take_place(m, (l4 + 40u), l1, l2);
    l9 = IPL_L32(l4, 44u);
    if (IPL_L8(l4, 40u) != 0) goto L7;
    IPL_S64(l4, 88u, l11);
    IPL_S64(l4, 80u, l11);
    IPL_S32(l4, 72u, 769u);
    IPL_S8(l4, 70u, 0u);
    IPL_S16(l4, 68u, 0u);
    l12 = IPL_L32((l2 + 892u), 0u);
    IPL_S32(l4, 76u, l12);
    l10 = IPL_L64((l2 + 928u), 0u);
    l13 = IPL_L64((l2 + 936u), 0u);
    IPL_S8(l4, 102u, 0u);
    IPL_S16(l4, 100u, 0u);
    IPL_S16(l4, 140u, 0u);
    IPL_S8(l4, 142u, 0u);
    IPL_S64(l4, 104u, (ipl_u64)0u);
    IPL_S64(l4, 112u, (ipl_u64)0u);
    IPL_S64(l4, 120u, (ipl_u64)0u);
    IPL_S64(l4, 128u, (ipl_u64)0u);
    ipl_w42_of(m, (l4 + 104u), l10, l13, l5);
    l14 = IPL_L64(l4, 128u);
    l15 = IPL_L64(l4, 120u);
    l16 = IPL_L64(l4, 104u);
    IPL_S64F(l4, 15640u, (ipl_u64)0u);
    IPL_S64UF(l4, 15647u, (ipl_u64)0u);
    IPL_FILL((l4 + 7824u), 0u, (ipl_u64)7810u);
    IPL_FILL((l4 + 144u), 0u, (ipl_u64)7680u);
    t3 = ((((l11 << 56) | ((l11 & 65280u) << 40)) | (((l11 & 16711680ull) << 24) | ((l11 & 4278190080ull) << 8))) | ((((l11 >> 8) & 4278190080ull) | ((l11 >> 24) & 16711680ull)) | (((l11 >> 40) & 65280u) | (l11 >> 56))));
    l17 = t3;
    l18 = (ipl_rotr32((l12 & (ipl_u32)16711935u), 8u) | (ipl_rotr32(l12, 24u) & (ipl_u32)16711935u));
    l19 = (l2 + 888u);
    l20 = (l2 + 912u);
    l21 = (l4 + 15506u);
    l22 = (l4 + 17616u);
    l23 = ((l4 + 17584u) + 24u);
    l24 = ((l4 + 7824u) + 7680u);
    l25 = (l2 + 880u);
    l26 = (l2 + 889u);
    l27 = (l2 + 576u);
    l28 = (l2 + 568u);
    l29 = (ipl_u64)0u;
    l30 = 1u;
    l31 = (ipl_u64)0u;
L19:;
    IPL_S64F(l4, 16320u, (ipl_u64)0u);
    IPL_S64F(l4, 16328u, (ipl_u64)0u);
    IPL_S64F(l4, 16336u, (ipl_u64)0u);
    IPL_S64F(l4, 16344u, (ipl_u64)0u);
    IPL_S64F(l4, 16352u, (ipl_u64)0u);
    IPL_S64F(l4, 16360u, (ipl_u64)0u);
    IPL_S64F(l4, 16368u, (ipl_u64)0u);
    IPL_S64F(l4, 16376u, (ipl_u64)0u);
    IPL_S64F(l4, 15912u, (ipl_u64)0u);
    IPL_S64F(l4, 15920u, (ipl_u64)0u);
    IPL_S64F(l4, 15928u, (ipl_u64)0u);
    l32 = (ipl_u32)l31;
    ipl_w27_read_page(m, (l4 + 15912u), l1, IPL_L32(l25, 0u), l19, l32, IPL_L8((l20 + l31), 0u), (l4 + 7824u), (l4 + 16320u));
    if (IPL_L8F(l4, 15912u) != 0) goto L22;
    l6 = IPL_L8(l26, 0u);
    IPL_FILL((l4 + 17584u), 0u, (ipl_u64)128u);
    if (l6 != 3u) goto L21;
    l5 = (ipl_u64)0u;
    l10 = (l4 + 16320u);
L23:;
    l13 = ((l4 + 17584u) + l5);
    IPL_S32(l13, 0u, 1u);
    IPL_S32(l13, 4u, IPL_L32(l10, 0u));
    l10 = (l10 + 4u);
    l5 = (l5 + 8u);
    if (l5 != 128u) goto L23;
    IPL_COPY((l4 + 15784u), (l4 + 17584u), (ipl_u64)128u);
    goto L20;
L22:;
    l8 = IPL_L8F(l4, 15916u);
    l6 = IPL_L32F(l4, 15920u);
    l7 = IPL_L32F(l4, 15924u);
    l12 = IPL_L32F(l4, 15928u);
    l18 = IPL_L32F(l4, 15932u);
    l5 = (ipl_u64)l9;
    goto L4;
L21:;
    IPL_FILL((l4 + 15784u), 0u, (ipl_u64)128u);
L20:;
    IPL_COPY((l4 + 16192u), (l4 + 15784u), (ipl_u64)128u);
    IPL_FILL((l4 + 17584u), 0u, (ipl_u64)128u);
    l33 = (ipl_u32)(l14 == 0);
    if (l33 != 0) goto L24;
    l34 = (ipl_u64)0u;
L25:;
    l5 = (l15 + (l34 << 2));
    l35 = (l16 + ((ipl_u64)IPL_L8(l5, 0u) * 504u));
    l5 = (l35 + (ipl_u64)IPL_L16U(l5, 2u));
    l36 = (l5 + 16u);
    if (l31 != (ipl_u64)IPL_L8(l36, 0u)) goto L26;
    l5 = IPL_L64U(l5, 20u);
    t4 = ((((l5 << 56) | ((l5 & 65280u) << 40)) | (((l5 & 16711680ull) << 24) | ((l5 & 4278190080ull) << 8))) | ((((l5 >> 8) & 4278190080ull) | ((l5 >> 24) & 16711680ull)) | (((l5 >> 40) & 65280u) | (l5 >> 56))));
    l37 = t4;
    l38 = IPL_L64(l28, 0u);
    l5 = IPL_L64(l27, 0u);
    if (l5 > 1u) goto L28;
    l10 = (ipl_u64)0u;
    switch ((ipl_u32)l5) {
    case 1u: goto L27;
    default: goto L26;
    }
L28:;
    l10 = (ipl_u64)0u;
L29:;
    l13 = (l5 >> 1);
    l39 = (l13 + l10);
    l10 = (IPL_L64((l38 + (l39 << 3)), 0u) > l37 ? l10 : l39);
    l5 = (l5 - l13);
    if (l5 > 1u) goto L29;
    l10 = (l10 << 3);
L27:;
    if (IPL_L64((l38 + l10), 0u) != l37) goto L26;
    if (IPL_L8(l35, 8u) != 1u) goto L31;
    l6 = IPL_L8(l36, 2u);
    goto L30;
L31:;
    l6 = (IPL_L8(l36, 1u) & 63u);
L30:;
    l5 = ((l4 + 17584u) + (((ipl_u64)l6 & 255u) << 1));
    IPL_S16(l5, 0u, (IPL_L16(l5, 0u) + 1u));
L26:;
    l34 = (l34 + 1u);
    if (l34 != l14) goto L25;
L24:;
    IPL_COPY((l4 + 16064u), (l4 + 17584u), (ipl_u64)128u);
    IPL_COPY((l4 + 16384u), (l4 + 16064u), (ipl_u64)128u);
    l6 = IPL_L16F(l4, 15632u);
    l35 = ((ipl_u64)l6 & 65535u);
    l5 = (ipl_u64)0u;
L34:;
    l10 = (l5 + 2u);
    if (l10 == 130u) goto L33;
    l13 = ((l4 + 16384u) + l5);
    l5 = l10;
    if (IPL_L16(l13, 0u) == 0) goto L34;
    if (l35 == 0) goto L35;
    IPL_COPY((l4 + 144u), (l4 + 7824u), l35);
L35:;
    IPL_COPY((l4 + 16512u), (l4 + 16064u), (ipl_u64)128u);
    l39 = (ipl_u64)0u;
    l13 = (ipl_u64)0u;
L36:;
    l5 = (l13 << 1);
    if (IPL_L16(((l4 + 16512u) + l5), 0u) == 0) goto L37;
    l5 = (l24 + l5);
    l7 = IPL_L16(l5, 0u);
    l6 = IPL_L16(l5, 2u);
    if (l7 == l6) goto L37;
    l8 = IPL_L16F(l4, 15632u);
    if (l6 == (l8 & 65535u)) goto L38;
    l37 = ((ipl_u64)l8 & 65535u);
    l5 = (ipl_u64)l6;
    l10 = (ipl_u64)l7;
    if (l7 <= l6) goto L39;
    t5 = ((l4 + 7824u) + l5);
    t6 = (l10 - l5);
    l5 = (l37 - l5);
    ipl_w28_rotate_left(m, t5, (t6 + l5), l5);
    goto L38;
L39:;
    if (l7 >= l6) goto L38;
    ipl_w28_rotate_left(m, ((l4 + 7824u) + l10), (l37 - l10), (l5 - l10));
L38:;
    l6 = (l7 - l6);
    l5 = l39;
L40:;
    l10 = (l21 + l5);
    IPL_S16(l10, 0u, (l6 + IPL_L16(l10, 0u)));
    l5 = (l5 + 2u);
    if (l5 != 128u) goto L40;
L37:;
    l39 = (l39 + 2u);
    l13 = (l13 + 1u);
    if (l13 != 64u) goto L36;
    if (l33 != 0) goto L41;
    l34 = (ipl_u64)0u;
L42:;
    l5 = (l15 + (l34 << 2));
    l40 = (l16 + ((ipl_u64)IPL_L8(l5, 0u) * 504u));
    l5 = (l40 + (ipl_u64)IPL_L16U(l5, 2u));
    l36 = (l5 + 16u);
    if (l31 != (ipl_u64)IPL_L8(l36, 0u)) goto L43;
    l5 = IPL_L64U(l5, 20u);
    t7 = ((((l5 << 56) | ((l5 & 65280u) << 40)) | (((l5 & 16711680ull) << 24) | ((l5 & 4278190080ull) << 8))) | ((((l5 >> 8) & 4278190080ull) | ((l5 >> 24) & 16711680ull)) | (((l5 >> 40) & 65280u) | (l5 >> 56))));
    l37 = t7;
    l38 = IPL_L64(l28, 0u);
    l5 = IPL_L64(l27, 0u);
    if (l5 > 1u) goto L45;
    l10 = (ipl_u64)0u;
    switch ((ipl_u32)l5) {
    case 1u: goto L44;
    default: goto L43;
    }
L45:;
    l10 = (ipl_u64)0u;
L46:;
    l13 = (l5 >> 1);
    l39 = (l13 + l10);
    l10 = (IPL_L64((l38 + (l39 << 3)), 0u) > l37 ? l10 : l39);
    l5 = (l5 - l13);
    if (l5 > 1u) goto L46;
    l10 = (l10 << 3);
L44:;
    if (IPL_L64((l38 + l10), 0u) != l37) goto L43;
    l7 = (ipl_u32)(IPL_L8(l40, 8u) != 1u);
    if (l7 != 0) goto L48;
    l6 = IPL_L8(l36, 2u);
    goto L47;
L48:;
    l6 = (IPL_L8(l36, 1u) & 63u);
L47:;
    l5 = ((l4 + 16512u) + (((ipl_u64)l6 & 255u) << 1));
    l6 = (IPL_L16(l5, 0u) + (ipl_u32)4294967295u);
    IPL_S16(l5, 0u, l6);
    if ((l6 & 65535u) != 0) goto L43;
    if (l7 != 0) goto L53;
    l6 = IPL_L8(l36, 2u);
    if (IPL_L8(l36, 1u) != 1u) goto L52;
    l5 = (ipl_u64)IPL_L8(l36, 3u);
    IPL_FILL((l4 + 17112u), 0u, (ipl_u64)464u);
    goto L50;
L53:;
    l7 = IPL_L8(l36, 1u);
    l6 = (l7 & 63u);
    if ((l7 & 192u) == 64u) goto L51;
L52:;
    IPL_FILL((l4 + 16640u), 0u, (ipl_u64)472u);
    l5 = (ipl_u64)1u;
    goto L49;
L51:;
    l5 = (ipl_u64)IPL_L8(l36, 3u);
    l10 = (ipl_u64)IPL_L8(l36, 2u);
    IPL_FILL((l4 + 17112u), 0u, (ipl_u64)464u);
    l5 = (l5 | (l10 << 8));
    if (l5 > 464u) goto L12;
L50:;
    if (l5 == 0) goto L54;
    IPL_COPY((l4 + 17112u), (l36 + 12u), l5);
L54:;
    IPL_S64F(l4, 17576u, l5);
    IPL_COPY((l4 + 16640u), (l4 + 17112u), (ipl_u64)472u);
    l5 = (ipl_u64)0u;
L49:;
    IPL_COPY(l23, (l4 + 16640u), (ipl_u64)472u);
    IPL_S64F(l4, 17600u, l5);
    IPL_S64F(l4, 17592u, l37);
    IPL_S32F(l4, 17588u, (l6 & 255u));
    IPL_S32F(l4, 17584u, l32);
    t8 = ipl_w29_apply_where_room(m, (l4 + 7824u), (l4 + 17584u));
    if (t8 == 0) goto L18;
L43:;
    l34 = (l34 + 1u);
    if (l34 != l14) goto L42;
L41:;
    l6 = IPL_L16F(l4, 15632u);
    IPL_FILL((l4 + 17584u), 0u, (ipl_u64)128u);
    l38 = (ipl_u64)l6;
    l8 = (l6 / 480u);
    l32 = (l6 - (l8 * 480u));
    l6 = ((ipl_u32)((l32 & 65535u) != 0u) + l8);
    if (l6 == 0) goto L55;
    l40 = (ipl_u64)l6;
    l10 = (l4 + 7824u);
    l13 = (l4 + 144u);
    l37 = (ipl_u64)480u;
    l34 = (ipl_u64)0u;
    l39 = (ipl_u64)0u;
L56:;
    l7 = 0u;
    l5 = (l39 * 480u);
    if (l5 < l35) goto L58;
    l6 = 0u;
    goto L57;
L58:;
    l36 = (l5 + 480u);
    l41 = (l36 < l35 ? l36 : l35);
    if (l41 == (l36 < l38 ? l36 : l38)) goto L59;
    l6 = 0u;
    goto L57;
L59:;
    l41 = (l41 - l5);
    if (l41 < 4u) goto L62;
    l36 = ((l4 + 7824u) + l5);
    l42 = ((l4 + 144u) + l5);
    l5 = (ipl_u64)0u;
    l6 = 0u;
    l6 = (l6 | IPL_DIFFER((l13 + l5), (l10 + l5), (4u - l5)));
    l5 = 4u;
    l7 = 0u;
    if ((l6 & 1u) == 0) goto L61;
    l6 = 0u;
    goto L57;
L62:;
    l36 = ((l37 < l35 ? l37 : l35) + l34);
    l5 = (ipl_u64)0u;
L65:;
    if (IPL_L8((l13 + l5), 0u) != IPL_L8((l10 + l5), 0u)) goto L64;
    l5 = (l5 + 1u);
    if (l36 != l5) goto L65;
    goto L60;
L64:;
    l6 = 0u;
    if (l5 >= l41) goto L60;
    goto L57;
L61:;
    l6 = 0u;
    t9 = ipl_w44_groups_equal(m, l42, l41, l36);
    if (t9 == 0) goto L57;
L60:;
    l5 = ((l4 + 16192u) + (l39 << 3));
    l6 = IPL_L8(l5, 0u);
    l7 = IPL_L32(l5, 4u);
L57:;
    l5 = ((l4 + 17584u) + (l39 << 3));
    IPL_S32(l5, 0u, l6);
    IPL_S32(l5, 4u, l7);
    l34 = (l34 - 480u);
    l37 = (l37 + 480u);
    l13 = (l13 + 480u);
    l10 = (l10 + 480u);
    l39 = (l39 + 1u);
    if (l39 != l40) goto L56;
L55:;
    IPL_COPY((l4 + 15656u), (l4 + 17584u), (ipl_u64)128u);
    goto L32;
L33:;
    IPL_COPY((l4 + 15656u), (l4 + 15784u), (ipl_u64)128u);
    l8 = ((l6 & 65535u) / 480u);
    l32 = (l6 - (l8 * 480u));
    l38 = l35;
L32:;
    IPL_COPY((l4 + 15936u), (l4 + 15656u), (ipl_u64)128u);
    IPL_FILL((l4 + 17584u), 0u, (ipl_u64)512u);
    l32 = (l8 + (ipl_u32)((l32 & 65535u) != 0u));
    if (l32 == 0) goto L66;
    l13 = (ipl_u64)480u;
    l41 = ((ipl_u64)l32 * 480u);
    l34 = (ipl_u64)32u;
    l37 = (ipl_u64)0u;
    l39 = (l4 + 15936u);
    l5 = l29;
    l6 = l30;
L67:;
    l8 = IPL_L32(l39, 4u);
    l7 = IPL_L8(l39, 0u);
    IPL_S64F(l4, 17128u, l5);
    IPL_S64F(l4, 17120u, l11);
    IPL_S32F(l4, 17116u, l12);
    IPL_S32F(l4, 17112u, 772u);
    l36 = (l38 < l13 ? l38 : l13);
    l40 = (l36 + l34);
    l10 = (l40 - 32u);
    l35 = ((l4 + 7824u) + l37);
    if (l7 != 1u) goto L69;
    l42 = ((l22 - l35) < l10 ? l10 : l10);
    if (l42 == 0) goto L70;
    IPL_COPY(l22, l35, l42);
L70:;
    l35 = (l10 - 479u);
    if (l35 > 1u) goto L73;
    switch ((ipl_u32)l35) {
    case 1u: goto L71;
    default: goto L72;
    }
L73:;
    l35 = (l37 + (479u - l36));
    if (l35 == 0) goto L72;
    IPL_FILL(((l4 + 17584u) + l40), 0u, l35);
L72:;
    IPL_S8F(l4, 18095u, 0u);
L71:;
    IPL_S64UF(l4, 17596u, l17);
    IPL_S32UF(l4, 17592u, l18);
    IPL_S16UF(l4, 17588u, 772u);
    IPL_S32UF(l4, 17584u, (ipl_u32)827084873u);
    l7 = (ipl_u32)l10;
    IPL_S16UF(l4, 17590u, ((l7 << 8) | ((l7 & 65280u) >> 8)));
    t10 = ((((l5 << 56) | ((l5 & 65280u) << 40)) | (((l5 & 16711680ull) << 24) | ((l5 & 4278190080ull) << 8))) | ((((l5 >> 8) & 4278190080ull) | ((l5 >> 24) & 16711680ull)) | (((l5 >> 40) & 65280u) | (l5 >> 56))));
    IPL_S64UF(l4, 17604u, t10);
    t11 = ipl_w8_after_part(m, (ipl_u32)4294967295u, (l4 + 17584u), (ipl_u64)28u);
    l7 = t11;
    t12 = (((l8 ^ IPL_L32T((((ipl_u64)(l7 >> 22) & 1020u) + 1610633216ull), 1610612736u)) ^ IPL_L32T((((ipl_u64)(l7 >> 14) & 1020u) + 1610634240ull), 1610612736u)) ^ IPL_L32T((((ipl_u64)(l7 >> 6) & 1020u) + 1610635264ull), 1610612736u));
    l7 = ((t12 ^ IPL_L32T((((ipl_u64)(l7 << 2) & 1020u) + 1610636288ull), 1610612736u)) ^ (ipl_u32)4294967295u);
    IPL_S32UF(l4, 17612u, (ipl_rotr32((l7 & (ipl_u32)16711935u), 8u) | (ipl_rotr32(l7, 24u) & (ipl_u32)16711935u)));
    goto L68;
L69:;
    ipl_w7_encode(m, (l4 + 17112u), l35, l10, (l4 + 17584u));
L68:;
    t13 = ipl_to_ipl_nand_program(m, IPL_L64(l1, 0u), l9, l6, (l4 + 17584u), (ipl_u64)512u);
    if (t13 != 0) goto L17;
    l39 = (l39 + 8u);
    l5 = (l5 + 1u);
    l6 = (l6 + 1u);
    l34 = (l34 - 480u);
    l13 = (l13 + 480u);
    l37 = (l37 + 480u);
    if (l41 != l37) goto L67;
L66:;
    IPL_S8(((l4 + 15640u) + l31), 0u, l32);
    l29 = (l29 + 16u);
    l30 = (l30 + 16u);
    l31 = (l31 + 1u);
    if (l31 != 15u) goto L19;
    IPL_S16(l4, 100u, IPL_L16F(l4, 15640u));
    IPL_S8(l4, 102u, IPL_L8F(l4, 15642u));
    l8 = IPL_L32UF(l4, 15651u);
    l18 = IPL_L32UF(l4, 15647u);
    l30 = IPL_L32UF(l4, 15643u);
    l7 = 0u;
    l13 = IPL_L64((l2 + 1000u), 0u);
    if (l13 == 0) goto L74;
    l5 = (IPL_L64((l2 + 992u), 0u) + 488u);
    l6 = 241u;
    l10 = (l2 + 608u);
L75:;
    l39 = IPL_L64(l10, 0u);
    IPL_S64(l10, 0u, (l39 + 1u));
    IPL_S64(l4, 152u, l11);
    IPL_S32(l4, 148u, l12);
    IPL_S32(l4, 144u, 773u);
    IPL_S64(l4, 160u, l39);
    IPL_FILL((l4 + 7824u), 0u, (ipl_u64)512u);
    ipl_w7_encode(m, (l4 + 144u), (l5 - 480u), IPL_L64(l5, 0u), (l4 + 7824u));
    t14 = ipl_to_ipl_nand_program(m, IPL_L64(l1, 0u), l9, l6, (l4 + 7824u), (ipl_u64)512u);
    if (t14 != 0) goto L13;
    l6 = (l6 + 1u);
    l5 = (l5 + 496u);
    l13 = (l13 - 1u);
    if (!(l13 == 0)) goto L75;
    l7 = IPL_L8((l2 + 1000u), 0u);
L74:;
    l12 = IPL_L8(l4, 102u);
    IPL_S8(l4, 70u, l12);
    l32 = IPL_L16(l4, 100u);
    IPL_S16(l4, 68u, l32);
    l5 = (ipl_u64)l9;
    l6 = IPL_L32((IPL_L64(l2, 64u) + (l5 << 2)), 0u);
    l33 = IPL_L32(l2, 8u);
    IPL_S32(l4, 144u, (ipl_rotr32((l33 & (ipl_u32)16711935u), 8u) | (ipl_rotr32(l33, 24u) & (ipl_u32)16711935u)));
    IPL_S16(l4, 148u, l32);
    IPL_S8(l4, 150u, l12);
    IPL_S8(l4, 163u, l7);
    IPL_S32U(l4, 159u, l8);
    IPL_S32U(l4, 155u, l18);
    IPL_S32U(l4, 151u, l30);
    IPL_S32(l4, 164u, (ipl_rotr32((l6 & (ipl_u32)16711935u), 8u) | (ipl_rotr32(l6, 24u) & (ipl_u32)16711935u)));
    IPL_FILL((l4 + 7824u), 0u, (ipl_u64)512u);
    ipl_w7_encode(m, (l4 + 72u), (l4 + 144u), (ipl_u64)24u, (l4 + 7824u));
    t15 = ipl_to_ipl_nand_barrier(m, IPL_L64(l1, 0u));
    if (t15 != 0) goto L16;
    t16 = ipl_to_ipl_nand_program(m, IPL_L64(l1, 0u), l9, 0u, (l4 + 7824u), (ipl_u64)512u);
    if (t16 != 0) goto L16;
    t17 = ipl_to_ipl_nand_barrier(m, IPL_L64(l1, 0u));
    if (t17 == 0) goto L14;
    l18 = 0u;
    IPL_S8(l1, 16u, 0u);
    l10 = (l1 + 32u);
    t18 = l10;
    l10 = (IPL_L64(l10, 0u) + 1u);
    IPL_S64(t18, 0u, (l10 == 0 ? 18446744073709551615ull : l10));
    goto L15;
L18:;
    l6 = IPL_L32((l2 + 880u), 0u);
    l8 = 3u;
    l18 = 0u;
    l5 = (ipl_u64)l9;
    l12 = 0u;
    l7 = 0u;
    goto L4;
L17:;
    l18 = 0u;
    IPL_S8(l1, 16u, 0u);
    l5 = (l1 + 32u);
    t19 = l5;
    l5 = (IPL_L64(l5, 0u) + 1u);
    IPL_S64(t19, 0u, (l5 == 0 ? 18446744073709551615ull : l5));
    goto L6;
L16:;
    l18 = 0u;
    IPL_S8(l1, 16u, 0u);
    l10 = (l1 + 32u);
    t20 = l10;
    l10 = (IPL_L64(l10, 0u) + 1u);
    IPL_S64(t20, 0u, (l10 == 0 ? 18446744073709551615ull : l10));
L15:;
    l8 = 1u;
    goto L5;
L14:;
    l37 = IPL_L64((l2 + 992u), 0u);
    l21 = IPL_L64((l2 + 1000u), 0u);
    l13 = (ipl_u64)0u;
    IPL_S64U(l4, 166u, (ipl_u64)0u);
    IPL_S64(l4, 160u, (ipl_u64)0u);
    IPL_S64(l4, 152u, (ipl_u64)0u);
    IPL_S64(l4, 144u, (ipl_u64)0u);
    if (l21 == 0) goto L76;
L77:;
    l5 = (l37 + (l13 * 496u));
    l7 = IPL_L8(l5, 0u);
    l10 = IPL_L64((l5 + 488u), 0u);
    l6 = 0u;
    IPL_FILL((l4 + 7824u), 0u, (ipl_u64)520u);
    ipl_w13_record_at(m, (l4 + 7824u), (l5 + 8u), l10, l7);
    if (IPL_L8F(l4, 7824u) != 1u) goto L78;
    l6 = (1u << (IPL_L16F(l4, 7832u) & 31u));
    l10 = IPL_L64F(l4, 8336u);
    if (l10 < 12u) goto L78;
    l5 = IPL_L64F(l4, 8328u);
    if ((l7 & 255u) != 1u) goto L79;
L80:;
    l7 = IPL_L8(l5, 0u);
    if (l7 > 14u) goto L78;
    if (IPL_L8(l5, 2u) > 63u) goto L78;
    l39 = (ipl_u64)IPL_L8(l5, 3u);
    l8 = IPL_L8(l5, 1u);
    if ((l8 == 1u ? (ipl_u32)(l39 < 109u) : ((ipl_u32)(l8 == 2u) & (ipl_u32)(l39 == 0))) != 1u) goto L78;
    l39 = (l39 + 12u);
    if (l10 < l39) goto L78;
    l5 = (l5 + l39);
    l6 = ((1u << (l7 & 31u)) | l6);
    l10 = (l10 - l39);
    if (l10 > 11u) goto L80;
    goto L78;
L79:;
L81:;
    l7 = IPL_L8(l5, 0u);
    if (l7 > 14u) goto L78;
    l39 = (((ipl_u64)IPL_L8(l5, 2u) << 8) | (ipl_u64)IPL_L8(l5, 3u));
    l18 = (ipl_u32)(l39 < 465u);
    l12 = IPL_L8(l5, 1u);
    l8 = (l12 >> 6);
    if ((l8 == 1u ? l18 : ((ipl_u32)(l8 == 2u) & (ipl_u32)(l39 == 0))) != 1u) goto L78;
    l39 = (l39 + 12u);
    if (l10 < l39) goto L78;
    if ((l12 & 192u) != 64u) goto L82;
    if (l18 == 0) goto L12;
L82:;
    l5 = (l5 + l39);
    l6 = ((1u << (l7 & 31u)) | l6);
    l10 = (l10 - l39);
    if (l10 > 11u) goto L81;
L78:;
    IPL_S16(((l4 + 144u) + (l13 << 1)), 0u, l6);
    l13 = (l13 + 1u);
    if (l13 != l21) goto L77;
L76:;
    IPL_S64UF(l4, 7846u, IPL_L64U(l4, 166u));
    IPL_S64F(l4, 7840u, IPL_L64(l4, 160u));
    IPL_S64F(l4, 7832u, IPL_L64(l4, 152u));
    IPL_S64F(l4, 7824u, IPL_L64(l4, 144u));
    l37 = (ipl_u64)l3;
    l13 = (l37 << 2);
    l5 = (IPL_L64(l2, 0u) + l13);
    l10 = (ipl_u64)IPL_L32(l5, 0u);
    IPL_S32(l5, 0u, l9);
    IPL_S8((l10 + IPL_L64(l2, 32u)), 0u, 0u);
    l39 = (l2 + 360u);
    IPL_S32((IPL_L64(l39, 0u) + l13), 0u, 0u);
    IPL_S64((IPL_L64((l2 + 392u), 0u) + (l37 << 3)), 0u, l11);
    l10 = (ipl_u64)0u;
    l14 = (l37 * 30u);
    l5 = (IPL_L64((l2 + 424u), 0u) + l14);
    IPL_S64U(l5, 22u, (ipl_u64)0u);
    IPL_S64U(l5, 16u, (ipl_u64)0u);
    IPL_S64U(l5, 8u, (ipl_u64)0u);
    IPL_S64U(l5, 0u, (ipl_u64)0u);
    l6 = ((ipl_u32)l21 & 255u);
    if (l6 == 0) goto L83;
L84:;
    l5 = (IPL_L64(l39, 0u) + l13);
    IPL_S32(l5, 0u, (IPL_L32(l5, 0u) + 1u));
    l6 = (l6 + (ipl_u32)4294967295u);
    if (l6 != 0) goto L84;
L83:;
    l39 = IPL_L64((l2 + 464u), 0u);
    if (l3 == 0) goto L85;
    l5 = l39;
    l13 = l37;
    l10 = (ipl_u64)0u;
L86:;
    l10 = (l10 + (ipl_u64)IPL_L8(l5, 0u));
    l5 = (l5 + 1u);
    l13 = (l13 - 1u);
    if (l13 != 0u) goto L86;
L85:;
    l5 = IPL_L64((l2 + 504u), 0u);
    l39 = (ipl_u64)IPL_L8((l39 + l37), 0u);
    l38 = (l5 - l39);
    l21 = (l10 + l39);
    l13 = (l5 - l21);
    l34 = IPL_L64((l2 + 496u), 0u);
    if (l21 < l10) goto L88;
    if (l5 == l21) goto L87;
    l5 = (l34 + (l21 * 6u));
    l10 = (l34 + (l10 * 6u));
L89:;
    l6 = IPL_L32U(l5, 0u);
    IPL_S16U(l10, 4u, IPL_L16U(l5, 4u));
    IPL_S32U(l10, 0u, l6);
    l5 = (l5 + 6u);
    l10 = (l10 + 6u);
    l13 = (l13 - 1u);
    if (!(l13 == 0)) goto L89;
    goto L87;
L88:;
    if (l13 == 0) goto L87;
    l39 = (l39 * 18446744073709551610ull);
    l10 = (l21 - l5);
    l5 = (((l5 * 6u) + l34) - 6u);
L90:;
    l6 = IPL_L32U(l5, 0u);
    l13 = (l5 + l39);
    IPL_S16U(l13, 4u, IPL_L16U(l5, 4u));
    IPL_S32U(l13, 0u, l6);
    l5 = (l5 - 6u);
    l10 = (l10 + 1u);
    if (l10 != 0u) goto L90;
L87:;
    l5 = (l2 + 504u);
    if (IPL_L64(l5, 0u) <= l38) goto L91;
    IPL_S64(l5, 0u, l38);
L91:;
    IPL_S8((IPL_L64((l2 + 464u), 0u) + l37), 0u, 0u);
    l37 = (l2 + 528u);
    l38 = IPL_L64((l2 + 544u), 0u);
    if (l38 != 0u) goto L92;
    IPL_S64U(l37, 16u, (ipl_u64)0u);
    IPL_S64U(l37, 8u, (ipl_u64)0u);
    IPL_S64U(l37, 0u, (ipl_u64)0u);
    goto L8;
L92:;
    l7 = IPL_L32(l37, 0u);
    l34 = IPL_L64(l5, 0u);
    if (l34 == 0) goto L11;
    l31 = IPL_L64((l2 + 496u), 0u);
    l5 = l31;
    l10 = l34;
L95:;
    l8 = 0u;
    l9 = IPL_L16(l5, 0u);
    if (l7 == l9) goto L94;
    l5 = (l5 + 6u);
    l10 = (l10 - 1u);
    if (!(l10 == 0)) goto L95;
    l18 = l7;
    goto L93;
L94:;
    l18 = 0u;
L93:;
    l12 = 0u;
    if (l38 == 1u) goto L96;
    l12 = IPL_L32((l2 + 536u), 0u);
    l5 = l31;
    l10 = l34;
L97:;
    if (l12 != IPL_L16(l5, 0u)) goto L98;
    l8 = 0u;
    l12 = 0u;
    goto L96;
L98:;
    l5 = (l5 + 6u);
    l10 = (l10 - 1u);
    if (!(l10 == 0)) goto L97;
    l8 = 1u;
L96:;
    l39 = (ipl_u64)0u;
    IPL_S64(l4, 160u, (ipl_u64)0u);
    IPL_S64(l4, 152u, (ipl_u64)0u);
    IPL_S64(l4, 144u, (ipl_u64)0u);
    l13 = (ipl_u64)0u;
L99:;
    l21 = (l37 + (l13 << 3));
    l6 = IPL_L32(l21, 0u);
    l5 = l31;
    l10 = l34;
L102:;
    if (l6 == IPL_L16(l5, 0u)) goto L101;
    l5 = (l5 + 6u);
    l10 = (l10 - 1u);
    if (l10 == 0) goto L100;
    goto L102;
L101:;
    IPL_S64(((l4 + 144u) + (l39 << 3)), 0u, (((ipl_u64)IPL_L32U(l21, 4u) << 32) | (ipl_u64)l6));
    l39 = (l39 + 1u);
    IPL_S64(l4, 160u, l39);
L100:;
    l13 = (l13 + 1u);
    if (l13 != l38) goto L99;
    IPL_S64U(l37, 16u, IPL_L64(l4, 160u));
    IPL_S64U(l37, 8u, IPL_L64(l4, 152u));
    IPL_S64U(l37, 0u, IPL_L64(l4, 144u));
    l6 = (ipl_u32)(l7 == l9);
    l7 = l18;
    if (l6 != 0) goto L9;
    goto L10;
L13:;
    l18 = 0u;
    IPL_S8(l1, 16u, 0u);
    l5 = (l1 + 32u);
    t21 = l5;
    l5 = (IPL_L64(l5, 0u) + 1u);
    IPL_S64(t21, 0u, (l5 == 0 ? 18446744073709551615ull : l5));
    goto L6;
L12:;
    ipl_trap(m);
L11:;
    l8 = 0u;
    l12 = 0u;
    if (l38 == 1u) goto L103;
    l12 = IPL_L32((l2 + 536u), 0u);
    l8 = 1u;
L103:;
    IPL_S64U(l37, 16u, (ipl_u64)0u);
    IPL_S64U(l37, 8u, (ipl_u64)0u);
    IPL_S64U(l37, 0u, (ipl_u64)0u);
L10:;
    IPL_S8((IPL_L64(l2, 32u) + (ipl_u64)l7), 0u, 0u);
L9:;
    if (l8 == 0) goto L8;
    IPL_S8((IPL_L64(l2, 32u) + (ipl_u64)l12), 0u, 0u);
L8:;
    l5 = (IPL_L64((l2 + 424u), 0u) + l14);
    IPL_S64U(l5, 22u, IPL_L64UF(l4, 7846u));
    IPL_S64U(l5, 16u, IPL_L64F(l4, 7840u));
    IPL_S64U(l5, 8u, IPL_L64F(l4, 7832u));
    IPL_S64U(l5, 0u, IPL_L64F(l4, 7824u));
    l9 = 0u;
    l8 = 0u;
    l6 = 0u;
    l7 = 0u;
    goto L2;
L7:;
    l8 = (l9 & 255u);
    l9 = 1u;
    l6 = IPL_L32(l4, 48u);
    l7 = IPL_L32(l4, 52u);
    l12 = IPL_L32(l4, 56u);
    l18 = IPL_L32(l4, 60u);
    goto L1;
L6:;
    l8 = 1u;
    l5 = (ipl_u64)l9;
L5:;
    l12 = 0u;
    l7 = 0u;
    l6 = 0u;
L4:;
    IPL_S8((IPL_L64(l2, 32u) + l5), 0u, 0u);
    l9 = 1u;
    goto L1;
L2:;
    l12 = 0u;
    l18 = 0u;
L1:;
    IPL_S8(l0, 0u, l9);
    IPL_S32U(l0, 20u, l18);
    IPL_S32U(l0, 16u, l12);
    IPL_S32U(l0, 12u, l7);
    IPL_S32U(l0, 8u, l6);
    IPL_S32U(l0, 4u, l8);
    IPL_G(0) = (l4 + 18096u);
}

/* place_taking::taking::take_place::<#81e02dbab8cd6729> */
static void ipl_w41_take_place(ipl_u8 *const m, ipl_u64 l0, ipl_u64 l1, ipl_u64 l2) {
    ipl_u32 l4 = 0, l6 = 0, l8 = 0, l9 = 0, l10 = 0, l11 = 0;
    ipl_u64 l3 = 0, l5 = 0, l7 = 0, l12 = 0, l13 = 0, l14 = 0, l15 = 0, l16 = 0, t1;
    IPL_ENDS
    t1 = IPL_G(0);
    l3 = (t1 - 48u);
    IPL_G(0) = l3;
    IPL_S64(l3, 16u, (ipl_u64)0u);
    IPL_S64(l3, 8u, (ipl_u64)0u);
    IPL_S64(l3, 0u, (ipl_u64)0u);
    l4 = ((IPL_L32(l2, 40u) - IPL_L32(l2, 8u)) + (ipl_u32)4294967292u);
    l5 = (l2 + 352u);
    l6 = IPL_L32(l5, 0u);
    if (l4 <= l6) goto L4;
    l7 = (l2 + 96u);
L5:;
    ipl_w46_take_next(m, l3, l1, l2);
    l8 = IPL_L32(l3, 8u);
    l9 = IPL_L8(l3, 4u);
    if (IPL_L8(l3, 0u) != 0) goto L7;
    if (l9 != 0) goto L6;
    goto L3;
L7:;
    l6 = 1u;
    l4 = IPL_L32(l3, 12u);
    l10 = IPL_L32(l3, 16u);
    l11 = IPL_L32(l3, 20u);
    goto L1;
L6:;
    l12 = (ipl_u64)0u;
    l13 = IPL_L64(l5, 0u);
    if (l13 > 1u) goto L11;
    l14 = l13;
    switch ((ipl_u32)l13) {
    case 1u: goto L10;
    default: goto L9;
    }
L11:;
    l14 = l13;
L12:;
    l15 = (l14 >> 1);
    l16 = (l15 + l12);
    l12 = (IPL_L32((l7 + (l16 << 2)), 0u) > l8 ? l12 : l16);
    l14 = (l14 - l15);
    if (l14 > 1u) goto L12;
L10:;
    l14 = l12;
    l9 = IPL_L32((l7 + (l12 << 2)), 0u);
    switch ((l9 == l8 ? 1u : (l9 < l8 ? 0u : 2u))) {
    case 1u: goto L8;
    case 2u: goto L9;
    default: goto L13;
    }
L13:;
    l14 = (l12 + 1u);
L9:;
    IPL_S32((l7 + (l13 << 2)), 0u, l8);
    l15 = (l13 + 1u);
    IPL_S64(l5, 0u, l15);
    l12 = (l7 + (l14 << 2));
    l15 = (l15 - l14);
    l14 = (l15 - 1u);
    if (l14 > 1u) goto L14;
    switch ((ipl_u32)l14) {
    case 1u: goto L15;
    default: goto L8;
    }
L15:;
    IPL_S64U(l12, 0u, ipl_rotl64(IPL_L64U(l12, 0u), (ipl_u64)32u));
    goto L8;
L14:;
    l14 = ((l15 << 2) - 4u);
    l8 = IPL_L32((l14 + l12), 0u);
    if (l14 == 0) goto L16;
    IPL_COPY((l12 + 4u), l12, l14);
L16:;
    IPL_S32(l12, 0u, l8);
L8:;
    l6 = (l6 + 1u);
    if (l6 < l4) goto L5;
L4:;
    IPL_S64(l3, 40u, (ipl_u64)0u);
    IPL_S64(l3, 32u, (ipl_u64)0u);
    IPL_S64(l3, 24u, (ipl_u64)0u);
    ipl_w46_take_next(m, (l3 + 24u), l1, l2);
    l8 = IPL_L32(l3, 32u);
    l9 = IPL_L8(l3, 28u);
    if (IPL_L8(l3, 24u) != 0) goto L17;
    if (l9 == 0) goto L3;
    l4 = 0u;
    IPL_S8((IPL_L64(l2, 32u) + (ipl_u64)l8), 0u, 0u);
    l8 = ((IPL_L32(l2, 40u) - IPL_L32(l2, 8u)) + (ipl_u32)4294967293u);
    l6 = l9;
    l9 = 4u;
    goto L2;
L17:;
    l6 = 1u;
    l4 = IPL_L32(l3, 36u);
    l10 = IPL_L32(l3, 40u);
    l11 = IPL_L32(l3, 44u);
    goto L1;
L3:;
    l6 = 0u;
    l9 = l8;
    l8 = 0u;
    l4 = 0u;
L2:;
    l10 = 0u;
    l11 = 0u;
L1:;
    IPL_S32U(l0, 0u, l6);
    IPL_S32U(l0, 20u, l11);
    IPL_S32U(l0, 16u, l10);
    IPL_S32U(l0, 12u, l4);
    IPL_S32U(l0, 8u, l8);
    IPL_S32U(l0, 4u, l9);
    IPL_G(0) = (l3 + 48u);
}

/* selective_merge::log::Log::of */
static void ipl_w42_of(ipl_u8 *const m, ipl_u64 l0, ipl_u64 l1, ipl_u64 l2, ipl_u64 l3) {
    ipl_u32 l9 = 0, l15 = 0;
    ipl_u64 l4 = 0, l5 = 0, l6 = 0, l7 = 0, l8 = 0, l10 = 0, l11 = 0, l12 = 0, l13 = 0, l14 = 0, l16 = 0, l17 = 0;
    IPL_ENDS
    l4 = (l3 + 8u);
    if (IPL_L64(l4, 0u) == 0) goto L1;
    IPL_S64(l4, 0u, (ipl_u64)0u);
L1:;
    if (!(l2 == 0)) goto L3;
    l5 = (ipl_u64)0u;
    goto L2;
L3:;
    l5 = (ipl_u64)0u;
    l6 = (ipl_u64)0u;
L4:;
    l4 = (l1 + (l6 * 504u));
    l7 = IPL_L64((l4 + 496u), 0u);
    if (l7 == 0) goto L5;
    l8 = (l4 + 16u);
    l9 = ((ipl_u32)l6 & 255u);
    if (IPL_L8(l4, 8u) == 1u) goto L7;
    if (l7 < 12u) goto L5;
    l10 = (l5 << 2);
    l11 = (l7 - 1u);
    l12 = (ipl_u64)0u;
    l13 = l7;
    l4 = l8;
    goto L6;
L7:;
    if (l7 < 12u) goto L5;
    l14 = (l5 << 2);
    l10 = (l7 - 1u);
    l12 = (ipl_u64)0u;
    l13 = l7;
    l4 = l8;
L8:;
    if (IPL_L8(l4, 0u) > 14u) goto L5;
    if (IPL_L8(l4, 2u) > 63u) goto L5;
    l11 = (ipl_u64)IPL_L8(l4, 3u);
    l15 = IPL_L8(l4, 1u);
    if ((l15 == 1u ? (ipl_u32)(l11 > 108u) : ((ipl_u32)(l15 != 2u) | (ipl_u32)(l11 != 0u))) != 0) goto L5;
    if ((l11 + 12u) > l13) goto L5;
    IPL_S32U((IPL_L64(l3, 0u) + l14), 0u, (((ipl_u32)l12 << 16) | l9));
    l5 = (l5 + 1u);
    IPL_S64(l3, 8u, l5);
    if (l10 == 0) goto L5;
    l14 = (l14 + 4u);
    l10 = (l10 - 1u);
    l12 = ((l12 + (ipl_u64)IPL_L8(l4, 3u)) + 12u);
    l4 = (l8 + l12);
    l13 = (l7 - l12);
    if (l13 < 12u) goto L5;
    goto L8;
L6:;
L9:;
    if (IPL_L8(l4, 0u) > 14u) goto L5;
    l16 = (l4 + 2u);
    l17 = (l4 + 3u);
    l14 = (((ipl_u64)IPL_L8(l16, 0u) << 8) | (ipl_u64)IPL_L8(l17, 0u));
    l15 = (IPL_L8(l4, 1u) >> 6);
    if ((l15 == 1u ? (ipl_u32)(l14 > 464u) : ((ipl_u32)(l15 != 2u) | (ipl_u32)(l14 != 0u))) != 0) goto L5;
    if ((l14 + 12u) > l13) goto L5;
    IPL_S32U((IPL_L64(l3, 0u) + l10), 0u, (((ipl_u32)l12 << 16) | l9));
    l5 = (l5 + 1u);
    IPL_S64(l3, 8u, l5);
    if (l11 == 0) goto L5;
    l12 = ((l12 + (((ipl_u64)IPL_L8(l16, 0u) << 8) | (ipl_u64)IPL_L8(l17, 0u))) + 12u);
    l4 = (l8 + l12);
    l10 = (l10 + 4u);
    l11 = (l11 - 1u);
    l13 = (l7 - l12);
    if (l13 >= 12u) goto L9;
L5:;
    l6 = (l6 + 1u);
    if (l6 != l2) goto L4;
L2:;
    l4 = IPL_L64(l3, 0u);
    IPL_S64U(l0, 24u, l5);
    IPL_S64U(l0, 16u, l4);
    IPL_S64U(l0, 8u, l2);
    IPL_S64U(l0, 0u, l1);
}

/* selective_merge::carry::pack_carried */
static ipl_u32 ipl_w43_pack_carried(ipl_u8 *const m, ipl_u64 l0, ipl_u64 l1, ipl_u64 l2) {
    ipl_u32 l9 = 0, l23 = 0, l24 = 0, l26 = 0, t4, t5;
    ipl_u64 l3 = 0, l4 = 0, l5 = 0, l6 = 0, l7 = 0, l8 = 0, l10 = 0, l11 = 0, l12 = 0, l13 = 0, l14 = 0, l15 = 0, l16 = 0, l17 = 0, l18 = 0, l19 = 0;
    ipl_u64 l20 = 0, l21 = 0, l22 = 0, l25 = 0, t1, t2, t3;
    IPL_ENDS
    t1 = IPL_G(0);
    l3 = (t1 - 1472u);
    IPL_G(0) = l3;
    l4 = (l2 + 8u);
    if (IPL_L64(l4, 0u) == 0) goto L1;
    IPL_S64(l4, 0u, (ipl_u64)0u);
L1:;
    l5 = (l2 + 32u);
    IPL_S8(l5, 0u, 3u);
    l6 = (l2 + 33u);
    IPL_FILL(l6, 0u, (ipl_u64)495u);
    l7 = (l0 + 24u);
    l8 = IPL_L64(l7, 0u);
    if (!(l8 == 0)) goto L4;
    l9 = 1u;
    goto L3;
L4:;
    l10 = ((l3 + 8u) + 24u);
    l11 = (ipl_u64)0u;
    l12 = (l0 + 16u);
    l13 = (l1 + 256u);
L5:;
    l14 = IPL_L64U(l0, 0u);
    l15 = IPL_L64(l12, 0u);
    l4 = (l15 + (l11 << 2));
    l16 = (l14 + ((ipl_u64)IPL_L8(l4, 0u) * 504u));
    l17 = (l16 + (ipl_u64)IPL_L16U(l4, 2u));
    l4 = IPL_L64U(l17, 20u);
    t2 = ((((l4 << 56) | ((l4 & 65280u) << 40)) | (((l4 & 16711680ull) << 24) | ((l4 & 4278190080ull) << 8))) | ((((l4 >> 8) & 4278190080ull) | ((l4 >> 24) & 16711680ull)) | (((l4 >> 40) & 65280u) | (l4 >> 56))));
    l18 = t2;
    l19 = (IPL_L64(l13, 0u) + 1u);
    l20 = l19;
    l4 = l1;
L9:;
    l20 = (l20 - 1u);
    if (l20 == 0) goto L8;
    l21 = IPL_L64(l4, 0u);
    l4 = (l4 + 8u);
    if (l21 != l18) goto L9;
    l22 = (l17 + 16u);
    l23 = (ipl_u32)(IPL_L8(l16, 8u) != 1u);
    if (l23 != 0) goto L11;
    l24 = IPL_L8(l22, 2u);
    goto L10;
L11:;
    l24 = (IPL_L8(l22, 1u) & 63u);
L10:;
    l9 = IPL_L8(l22, 0u);
    l11 = (l11 + 1u);
    l25 = IPL_L64(l7, 0u);
    if (l11 >= l25) goto L12;
    l26 = (l24 & 255u);
    l17 = l11;
L13:;
    l4 = (l15 + (l17 << 2));
    l20 = (l14 + ((ipl_u64)IPL_L8(l4, 0u) * 504u));
    l21 = (l20 + (ipl_u64)IPL_L16U(l4, 2u));
    l4 = (l21 + 16u);
    if (l9 != IPL_L8(l4, 0u)) goto L14;
    if (IPL_L8(l20, 8u) != 1u) goto L16;
    l24 = IPL_L8(l4, 2u);
    goto L15;
L16:;
    l24 = (IPL_L8(l4, 1u) & 63u);
L15:;
    if (l26 != (l24 & 255u)) goto L14;
    l4 = IPL_L64U(l21, 20u);
    t3 = ((((l4 << 56) | ((l4 & 65280u) << 40)) | (((l4 & 16711680ull) << 24) | ((l4 & 4278190080ull) << 8))) | ((((l4 >> 8) & 4278190080ull) | ((l4 >> 24) & 16711680ull)) | (((l4 >> 40) & 65280u) | (l4 >> 56))));
    l16 = t3;
    l20 = l19;
    l4 = l1;
L17:;
    l20 = (l20 - 1u);
    if (l20 == 0) goto L14;
    l21 = IPL_L64(l4, 0u);
    l4 = (l4 + 8u);
    if (l21 != l16) goto L17;
    goto L6;
L14:;
    l17 = (l17 + 1u);
    if (l17 != l25) goto L13;
L12:;
    if (l23 != 0) goto L22;
    l24 = IPL_L8(l22, 2u);
    if (IPL_L8(l22, 1u) != 1u) goto L21;
    l4 = (ipl_u64)IPL_L8(l22, 3u);
    IPL_FILL((l3 + 976u), 0u, (ipl_u64)464u);
    goto L19;
L22:;
    l26 = IPL_L8(l22, 1u);
    l24 = (l26 & 63u);
    if ((l26 & 192u) == 64u) goto L20;
L21:;
    IPL_FILL((l3 + 504u), 0u, (ipl_u64)472u);
    l4 = (ipl_u64)1u;
    goto L18;
L20:;
    l4 = (ipl_u64)IPL_L8(l22, 3u);
    l20 = (ipl_u64)IPL_L8(l22, 2u);
    IPL_FILL((l3 + 976u), 0u, (ipl_u64)464u);
    l4 = (l4 | (l20 << 8));
    if (l4 > 464u) goto L2;
L19:;
    if (l4 == 0) goto L23;
    IPL_COPY((l3 + 976u), (l22 + 12u), l4);
L23:;
    IPL_S64(l3, 1440u, l4);
    IPL_COPY((l3 + 504u), (l3 + 976u), (ipl_u64)472u);
    l4 = (ipl_u64)0u;
L18:;
    IPL_COPY(l10, (l3 + 504u), (ipl_u64)472u);
    IPL_S64(l3, 24u, l4);
    IPL_S64(l3, 16u, l18);
    IPL_S32(l3, 12u, (l24 & 255u));
    IPL_S32(l3, 8u, l9);
    t4 = ipl_w45_put(m, l5, (l3 + 8u));
    if (t4 != 0) goto L6;
    l20 = (l2 + 8u);
    l4 = IPL_L64(l20, 0u);
    if (l4 < 12u) goto L7;
    l9 = 0u;
    goto L3;
L8:;
    l11 = (l11 + 1u);
    goto L6;
L7:;
    IPL_COPY((l3 + 976u), l5, (ipl_u64)496u);
    IPL_S8(l5, 0u, 3u);
    l9 = 0u;
    IPL_FILL(l6, 0u, (ipl_u64)495u);
    IPL_COPY((IPL_L64(l2, 0u) + (l4 * 496u)), (l3 + 976u), (ipl_u64)496u);
    IPL_S64(l20, 0u, (l4 + 1u));
    t5 = ipl_w45_put(m, l5, (l3 + 8u));
    if (t5 == 0) goto L3;
L6:;
    if (l11 != l8) goto L5;
    if (!(IPL_L64((l2 + 520u), 0u) == 0)) goto L24;
    l9 = 1u;
    goto L3;
L24:;
    l20 = (l2 + 8u);
    l4 = IPL_L64(l20, 0u);
    if (l4 > 11u) goto L25;
    IPL_COPY((l3 + 976u), l5, (ipl_u64)496u);
    IPL_S8(l2, 32u, 3u);
    IPL_FILL(l6, 0u, (ipl_u64)495u);
    IPL_COPY((IPL_L64(l2, 0u) + (l4 * 496u)), (l3 + 976u), (ipl_u64)496u);
    IPL_S64(l20, 0u, (l4 + 1u));
L25:;
    l9 = (ipl_u32)(l4 < 12u);
L3:;
    IPL_G(0) = (l3 + 1472u);
    return l9;
L2:;
    ipl_trap(m);
}

/* core::cmp::slices::groups_equal::<i8,31'core::cmp::numbers::U8PartialEq{}> */
static ipl_u32 ipl_w44_groups_equal(ipl_u8 *const m, ipl_u64 l0, ipl_u64 l1, ipl_u64 l2) {
    ipl_u32 l4 = 0, l7 = 0, l9 = 0, l10 = 0;
    ipl_u64 l3 = 0, l5 = 0, l6 = 0, l8 = 0, l11 = 0;
    IPL_ENDS
    if (l1 > 8u) goto L2;
    l3 = (ipl_u64)0u;
    l4 = 0u;
    l4 = (l4 | IPL_DIFFER((l0 + l3), (l2 + l3), (4u - l3)));
    l3 = 4u;
    l5 = (l0 + l1);
    l6 = (l2 + l1);
    l7 = 0u;
    l3 = 18446744073709551612ull;
    l7 = (l7 | IPL_DIFFER((l5 + l3), (l6 + l3), (0u - l3)));
    l3 = 0u;
    l4 = (l4 | l7);
    goto L1;
L2:;
    if (l1 > 32u) goto L5;
    l3 = (ipl_u64)0u;
    l4 = 0u;
    l4 = (l4 | IPL_DIFFER((l0 + l3), (l2 + l3), (8u - l3)));
    l3 = 8u;
    l8 = (l1 - 8u);
    l3 = (l8 < 8u ? l8 : (ipl_u64)8u);
    l5 = (l0 + l3);
    l6 = (l2 + l3);
    l3 = (ipl_u64)0u;
    l7 = 0u;
    l7 = (l7 | IPL_DIFFER((l5 + l3), (l6 + l3), (8u - l3)));
    l3 = 8u;
    l3 = (l8 < 16u ? l8 : (ipl_u64)16u);
    l5 = (l0 + l3);
    l6 = (l2 + l3);
    l3 = (ipl_u64)0u;
    l9 = 0u;
    l9 = (l9 | IPL_DIFFER((l5 + l3), (l6 + l3), (8u - l3)));
    l3 = 8u;
    l5 = (l0 + l1);
    l6 = (l2 + l1);
    l10 = 0u;
    l3 = 18446744073709551608ull;
    l10 = (l10 | IPL_DIFFER((l5 + l3), (l6 + l3), (0u - l3)));
    l3 = 0u;
    l4 = (((l4 | l7) | l9) | l10);
    goto L1;
L5:;
    if (l1 > 64u) goto L10;
    l3 = (ipl_u64)0u;
    l4 = 0u;
    l4 = (l4 | IPL_DIFFER((l0 + l3), (l2 + l3), (32u - l3)));
    l3 = 32u;
    l5 = (l0 + l1);
    l6 = (l2 + l1);
    l7 = 0u;
    l3 = 18446744073709551584ull;
    l7 = (l7 | IPL_DIFFER((l5 + l3), (l6 + l3), (0u - l3)));
    l3 = 0u;
    l4 = (l4 | l7);
    goto L1;
L10:;
    l11 = (l1 & 18446744073709551552ull);
    l8 = (ipl_u64)0u;
    l5 = l0;
    l6 = l2;
L14:;
    l4 = 0u;
    l3 = (ipl_u64)0u;
    l4 = (l4 | IPL_DIFFER((l5 + l3), (l6 + l3), (64u - l3)));
    l3 = 64u;
    if ((l4 & 1u) != 0) goto L13;
    l5 = (l5 + 64u);
    l6 = (l6 + 64u);
    l8 = (l8 + 64u);
    if ((l1 - l8) > 63u) goto L14;
    l8 = l11;
L13:;
    if ((l1 - l8) < 32u) goto L16;
    l5 = (l0 + l8);
    l6 = (l2 + l8);
L17:;
    l3 = (ipl_u64)0u;
    l4 = 0u;
    l4 = (l4 | IPL_DIFFER((l5 + l3), (l6 + l3), (32u - l3)));
    l3 = 32u;
    if ((l4 & 1u) != 0) goto L19;
    l5 = (l5 + 32u);
    l6 = (l6 + 32u);
    l8 = (l8 + 32u);
    if ((l1 - l8) >= 32u) goto L17;
    goto L16;
L19:;
    l4 = 1u;
    if ((l1 - l8) > 31u) goto L1;
L16:;
    l5 = (l0 + l1);
    l6 = (l2 + l1);
    l4 = 0u;
    l3 = 18446744073709551584ull;
    l4 = (l4 | IPL_DIFFER((l5 + l3), (l6 + l3), (0u - l3)));
    l3 = 0u;
L1:;
    return ((l4 ^ (ipl_u32)4294967295u) & 1u);
}

/* log_records::payload::put */
static ipl_u32 ipl_w45_put(ipl_u8 *const m, ipl_u64 l0, ipl_u64 l1) {
    ipl_u32 l2 = 0, l7 = 0, l9 = 0, t1;
    ipl_u64 l3 = 0, l4 = 0, l5 = 0, l6 = 0, l8 = 0, t2;
    IPL_ENDS
    l2 = IPL_L8(l0, 0u);
    if (IPL_L8(l1, 16u) != 0) goto L7;
    l3 = (l0 + 488u);
    l4 = IPL_L64(l3, 0u);
    l5 = IPL_L64((l1 + 488u), 0u);
    if ((480u - l4) < (l5 + 12u)) goto L6;
    l6 = (l1 + 24u);
    l7 = 1u;
    goto L4;
L7:;
    l3 = (l0 + 488u);
    l4 = IPL_L64(l3, 0u);
    if ((l4 - 481u) < 18446744073709551604ull) goto L5;
L6:;
    l2 = 0u;
    goto L3;
L5:;
    l5 = (ipl_u64)0u;
    l6 = 1610637312ull;
    l7 = 2u;
L4:;
    l8 = IPL_L64(l1, 8u);
    l0 = (l0 + 8u);
    if ((l4 - 477u) < 4u) goto L8;
    l9 = IPL_L32(l1, 4u);
    l2 = (ipl_u32)((l2 & 255u) == 1u);
    t1 = (((l2 != 0 ? l7 : ((l7 << 6) + l9)) & 255u) << 8);
    l7 = (ipl_u32)l5;
    IPL_S32U((l0 + l4), 0u, ((t1 | ((((l2 != 0 ? l9 : (l7 >> 8)) << 16) & (ipl_u32)16711680u) | (l7 << 24))) | IPL_L8(l1, 0u)));
    l4 = (l4 + 4u);
    IPL_S64(l3, 0u, l4);
L8:;
    if ((l4 - 473u) < 8u) goto L9;
    t2 = ((((l8 << 56) | ((l8 & 65280u) << 40)) | (((l8 & 16711680ull) << 24) | ((l8 & 4278190080ull) << 8))) | ((((l8 >> 8) & 4278190080ull) | ((l8 >> 24) & 16711680ull)) | (((l8 >> 40) & 65280u) | (l8 >> 56))));
    IPL_S64U((l0 + l4), 0u, t2);
    l4 = (l4 + 8u);
    IPL_S64(l3, 0u, l4);
L9:;
    l2 = 1u;
    if ((480u - l4) < l5) goto L3;
    l1 = (l0 + l4);
    if ((l1 - l6) >= l5) goto L2;
    l0 = l5;
    IPL_RISE(l1, l6, l0);
    l1 = (l1 + l0);
    l6 = (l6 + l0);
    l0 = 0u;
    goto L1;
L3:;
    return l2;
L2:;
    if (l5 == 0) goto L1;
    IPL_COPY(l1, l6, l5);
L1:;
    IPL_S64(l3, 0u, (l4 + l5));
    return 1u;
}

/* place_taking::taking::take_next::<#81e02dbab8cd6729> */
static void ipl_w46_take_next(ipl_u8 *const m, ipl_u64 l0, ipl_u64 l1, ipl_u64 l2) {
    ipl_u32 l5 = 0, l11 = 0, l12 = 0, t1, t3;
    ipl_u64 l3 = 0, l4 = 0, l6 = 0, l7 = 0, l8 = 0, l9 = 0, l10 = 0, t2, t4;
    IPL_ENDS
    l3 = IPL_L64(l2, 40u);
    if (l3 == 0) goto L3;
    l4 = IPL_L64(l2, 32u);
    l5 = 0u;
    l6 = (ipl_u64)0u;
    l7 = (l2 + 64u);
    l8 = (ipl_u64)0u;
    l9 = (ipl_u64)0u;
L4:;
    if (IPL_L8((l4 + l6), 0u) != 0) goto L5;
    if ((l5 & 1u) != 0) goto L7;
    l9 = l6;
    goto L6;
L7:;
    l10 = IPL_L64(l7, 0u);
    l9 = (IPL_L32((l10 + l8), 0u) < IPL_L32((l10 + (l9 << 2)), 0u) ? l6 : l9);
L6:;
    l5 = 1u;
L5:;
    l8 = (l8 + 4u);
    l6 = (l6 + 1u);
    if (l3 != l6) goto L4;
    if ((l5 & 255u) == 0) goto L3;
    l5 = 1u;
    IPL_S8((l4 + l9), 0u, 1u);
    l11 = (ipl_u32)l9;
    t1 = ipl_to_ipl_nand_erase(m, IPL_L64(l1, 0u), l11);
    switch (t1) {
    case 0u: goto L9;
    case 1u: goto L10;
    default: goto L8;
    }
L10:;
    l6 = (l1 + 40u);
    t2 = l6;
    l6 = (IPL_L64(l6, 0u) + 1u);
    IPL_S64(t2, 0u, (l6 == 0 ? 18446744073709551615ull : l6));
    l12 = 0u;
    goto L1;
L9:;
    t3 = ipl_to_ipl_nand_barrier(m, IPL_L64(l1, 0u));
    if (t3 == 0) goto L2;
L8:;
    l11 = 0u;
    IPL_S8(l1, 16u, 0u);
    l6 = (l1 + 32u);
    t4 = l6;
    l6 = (IPL_L64(l6, 0u) + 1u);
    IPL_S64(t4, 0u, (l6 == 0 ? 18446744073709551615ull : l6));
    IPL_S8((IPL_L64(l2, 32u) + (l9 & 4294967295ull)), 0u, 0u);
    l12 = 1u;
    l5 = 1u;
    goto L1;
L3:;
    ipl_trap(m);
L2:;
    l6 = (IPL_L64(l2, 64u) + ((l9 << 2) & 17179869180ull));
    l5 = (IPL_L32(l6, 0u) + 1u);
    IPL_S32(l6, 0u, (l5 != 0 ? l5 : (ipl_u32)4294967295u));
    l12 = 0u;
    l5 = 0u;
L1:;
    IPL_S32U(l0, 0u, l12);
    IPL_S32U(l0, 20u, 0u);
    IPL_S64U(l0, 12u, (ipl_u64)0u);
    IPL_S32U(l0, 8u, l11);
    IPL_S32U(l0, 4u, l5);
}

/* page_rebuild::loading::load::<#81e02dbab8cd6729> */
static void ipl_w47_load(ipl_u8 *const m, ipl_u64 l0, ipl_u64 l1, ipl_u64 l2, ipl_u64 l3, ipl_u64 l4, ipl_u64 l5, ipl_u64 l6, ipl_u32 l7, ipl_u32 l8, ipl_u64 l9, ipl_u64 l10) {
    ipl_u32 l14 = 0, l16 = 0;
    ipl_u64 l11 = 0, l12 = 0, l13 = 0, l15 = 0, l17 = 0, l18 = 0, l19 = 0, l20 = 0, l21 = 0, t1;
    IPL_ENDS
    t1 = IPL_G(0);
    l11 = (t1 - 1200u);
    IPL_G(0) = l11;
    l12 = (ipl_u64)0u;
    IPL_S64(l11, 64u, (ipl_u64)0u);
    IPL_S64(l11, 56u, (ipl_u64)0u);
    IPL_S64(l11, 48u, (ipl_u64)0u);
    IPL_S64(l11, 16u, (ipl_u64)0u);
    IPL_S64(l11, 24u, (ipl_u64)0u);
    IPL_S64(l11, 32u, (ipl_u64)0u);
    IPL_S64(l11, 40u, (ipl_u64)0u);
    IPL_S64(l11, 0u, (ipl_u64)0u);
    IPL_S64U(l11, 7u, (ipl_u64)0u);
    l13 = (ipl_u64)l7;
    l14 = IPL_L32((IPL_L64(l2, 0u) + (l13 << 2)), 0u);
    IPL_S64U(l11, 79u, (ipl_u64)0u);
    IPL_S64(l11, 72u, (ipl_u64)0u);
    IPL_FILL((l11 + 344u), 0u, (ipl_u64)256u);
    l15 = (IPL_L64((l2 + 424u), 0u) + (l13 * 30u));
    l16 = (1u << ((l8 & 65535u) & 31u));
    l17 = (ipl_u64)l14;
    l18 = (l17 | 1035087118336ull);
    l2 = (ipl_u64)0u;
L1:;
    if ((l16 & IPL_L16((l15 + l12), 0u)) == 0) goto L2;
    IPL_S64(((l11 + 344u) + (l2 << 3)), 0u, l18);
    l2 = (l2 + 1u);
    IPL_S64(l11, 592u, l2);
L2:;
    l18 = (l18 + 4294967296ull);
    l12 = (l12 + 2u);
    if (l12 != 30u) goto L1;
    l19 = IPL_L64(l3, 8u);
    l20 = (ipl_u64)IPL_L8((l19 + l13), 0u);
    if (l20 == 0) goto L3;
    l12 = (ipl_u64)0u;
    l15 = (ipl_u64)0u;
    if (l7 == 0) goto L4;
    l18 = l19;
    l21 = l13;
    l15 = (ipl_u64)0u;
L5:;
    l15 = (l15 + (ipl_u64)IPL_L8(l18, 0u));
    l18 = (l18 + 1u);
    l21 = (l21 - 1u);
    if (l21 != 0u) goto L5;
L4:;
    l21 = IPL_L64(l3, 40u);
    IPL_FILL((l11 + 640u), 0u, (ipl_u64)128u);
    l18 = (l21 + (l15 * 6u));
    l15 = (l11 + 640u);
L6:;
    IPL_S64(l15, 0u, (((ipl_u64)IPL_L16U(l18, 2u) << 32) | (ipl_u64)IPL_L16U(l18, 0u)));
    l12 = (l12 + 1u);
    IPL_S64(l11, 768u, l12);
    l18 = (l18 + 6u);
    l15 = (l15 + 8u);
    if (l20 != l12) goto L6;
    l18 = (ipl_u64)0u;
    l15 = (ipl_u64)0u;
    if (l7 == 0) goto L7;
    l15 = (ipl_u64)0u;
L8:;
    l15 = (l15 + (ipl_u64)IPL_L8(l19, 0u));
    l19 = (l19 + 1u);
    l13 = (l13 - 1u);
    if (l13 != 0u) goto L8;
L7:;
    IPL_S64(l11, 624u, (ipl_u64)0u);
    IPL_S64(l11, 616u, (ipl_u64)0u);
    IPL_S64(l11, 608u, (ipl_u64)0u);
    IPL_S64(l11, 600u, (ipl_u64)0u);
    l15 = (((l15 * 6u) + l21) + 4u);
    l19 = (l11 + 600u);
L9:;
    IPL_S16(l19, 0u, IPL_L16(l15, 0u));
    l18 = (l18 + 1u);
    IPL_S64(l11, 632u, l18);
    l15 = (l15 + 6u);
    l19 = (l19 + 2u);
    if (l20 != l18) goto L9;
    l15 = (l11 + 640u);
    l18 = (l11 + 600u);
L10:;
    if ((l16 & IPL_L16(l18, 0u)) == 0) goto L11;
    IPL_S64(((l11 + 344u) + (l2 << 3)), 0u, IPL_L64(l15, 0u));
    l2 = (l2 + 1u);
    IPL_S64(l11, 592u, l2);
L11:;
    l18 = (l18 + 2u);
    l15 = (l15 + 8u);
    l12 = (l12 - 1u);
    if (l12 != 0u) goto L10;
L3:;
    IPL_COPY((l11 + 88u), (l11 + 344u), (ipl_u64)256u);
    if (IPL_L64(l9, 8u) == 0) goto L12;
    IPL_S64(l9, 8u, (ipl_u64)0u);
L12:;
    IPL_FILL((l11 + 640u), 0u, (ipl_u64)512u);
    IPL_S64(l11, 1192u, (ipl_u64)0u);
    IPL_S64(l11, 1184u, (ipl_u64)0u);
    IPL_S64(l11, 1176u, (ipl_u64)0u);
    IPL_S64(l11, 1168u, (ipl_u64)0u);
    IPL_S64(l11, 1160u, (ipl_u64)0u);
    IPL_S64(l11, 1152u, (ipl_u64)0u);
    ipl_w10_read_found(m, (l11 + 1152u), l1, l14, 0u, (l11 + 640u));
    l16 = IPL_L32(l11, 1160u);
    if (IPL_L8(l11, 1152u) != 0) goto L15;
    if ((l16 & 255u) != 2u) goto L17;
    l16 = IPL_L32(l11, 1168u);
    if (((l16 + (ipl_u32)4294967292u) & 255u) < 253u) goto L17;
    if ((l16 & 255u) != 1u) goto L17;
    if (IPL_L32(l11, 1172u) != l7) goto L17;
    l16 = (l16 >> 8);
    if (IPL_L64(l11, 1192u) != ((l16 & 255u) < 3u ? (ipl_u64)20u : (ipl_u64)24u)) goto L17;
    l18 = IPL_L64(l11, 1176u);
    IPL_S64U(l11, 1159u, IPL_L64U(l11, 683u));
    IPL_S64(l11, 1152u, IPL_L64U(l11, 676u));
    l15 = (l11 + 676u);
    l12 = (ipl_u64)0u;
L19:;
    if (l12 == 15u) goto L18;
    l2 = ((l11 + 1152u) + l12);
    l12 = (l12 + 1u);
    if (IPL_L8(l2, 0u) < 17u) goto L19;
    goto L17;
L18:;
    if (IPL_L8(l11, 691u) < 13u) goto L16;
L17:;
    l12 = (ipl_u64)0u;
    l16 = 3u;
    goto L14;
L16:;
    IPL_S64(l11, 72u, IPL_L64U(l15, 0u));
    IPL_S64U(l11, 79u, IPL_L64U(l15, 7u));
    l2 = IPL_L64(l11, 336u);
    IPL_S64(l11, 656u, (ipl_u64)0u);
    IPL_S64(l11, 648u, (ipl_u64)0u);
    IPL_S64(l11, 640u, (ipl_u64)0u);
    if (l2 == 0) goto L20;
    l12 = (l11 + 88u);
L22:;
    ipl_w24_read_spot(m, (l11 + 640u), l1, l7, l18, IPL_L32(l12, 0u), IPL_L32(l12, 4u), l9);
    if (IPL_L8(l11, 640u) != 0) goto L21;
    l12 = (l12 + 8u);
    l2 = (l2 - 1u);
    if (l2 == 0) goto L20;
    goto L22;
L21:;
    l16 = IPL_L8(l11, 644u);
    l17 = IPL_L64(l11, 648u);
    l12 = IPL_L64(l11, 656u);
    goto L14;
L20:;
    IPL_S64U(l11, 7u, IPL_L64U(l11, 79u));
    IPL_S64(l11, 0u, IPL_L64(l11, 72u));
    IPL_S64(l11, 24u, l18);
    IPL_S8(l11, 47u, 0u);
    IPL_S64(l11, 16u, (ipl_u64)(l16 & 255u));
    IPL_S64(l11, 32u, IPL_L64(l11, 0u));
    IPL_S64U(l11, 39u, IPL_L64U(l11, 7u));
    ipl_w26_rebuild(m, (l11 + 48u), l1, l14, l7, (l11 + 16u), IPL_L64(l9, 0u), IPL_L64(l9, 8u), l8, l4, l5, l6, l10);
    IPL_S8(l0, 0u, IPL_L8(l11, 48u));
    IPL_S32U(l0, 4u, IPL_L8(l11, 52u));
    IPL_S64U(l0, 8u, IPL_L64(l11, 56u));
    IPL_S64U(l0, 16u, IPL_L64(l11, 64u));
    goto L13;
L15:;
    l17 = (((ipl_u64)IPL_L32(l11, 1164u) << 32) | (ipl_u64)l16);
    l16 = IPL_L8(l11, 1156u);
    l12 = IPL_L64(l11, 1168u);
L14:;
    IPL_FILL((l10 + 7680u), 0u, (ipl_u64)130u);
    IPL_FILL((l10 + 15490u), 0u, (ipl_u64)130u);
    IPL_S64U((l10 + 15680u), 0u, (ipl_u64)0u);
    IPL_S64U((l10 + 15672u), 0u, (ipl_u64)0u);
    IPL_S64U((l10 + 15664u), 0u, (ipl_u64)0u);
    IPL_S64U((l10 + 15656u), 0u, (ipl_u64)0u);
    IPL_S64U((l10 + 15648u), 0u, (ipl_u64)0u);
    IPL_S64U((l10 + 15640u), 0u, (ipl_u64)0u);
    IPL_S64U((l10 + 15632u), 0u, (ipl_u64)0u);
    IPL_S64U((l10 + 15624u), 0u, (ipl_u64)0u);
    IPL_S64U(l0, 16u, l12);
    IPL_S64U(l0, 8u, l17);
    IPL_S32U(l0, 4u, (l16 & 255u));
    IPL_S8(l0, 0u, 1u);
L13:;
    IPL_G(0) = (l11 + 1200u);
}

/* ipl_store::store::Store::get::<#81e02dbab8cd6729> */
static void ipl_w48_get(ipl_u8 *const m, ipl_u64 l0, ipl_u64 l1, ipl_u64 l2, ipl_u32 l3, ipl_u32 l4) {
    ipl_u32 l6 = 0, l7 = 0, l8 = 0, l9 = 0, l10 = 0, l11 = 0, l12 = 0, l13 = 0;
    ipl_u64 l5 = 0, t1;
    IPL_ENDS
    t1 = IPL_G(0);
    l5 = (t1 - 48u);
    IPL_G(0) = l5;
    IPL_S64(l5, 16u, (ipl_u64)0u);
    IPL_S64(l5, 8u, (ipl_u64)0u);
    IPL_S64(l5, 0u, (ipl_u64)0u);
    l6 = 0u;
    l7 = 1u;
    l8 = 0u;
    if (l3 >= IPL_L32((l1 + 2616u), 0u)) goto L1;
    l7 = 1u;
    l8 = 1u;
    if (IPL_L32((l1 + 2960u), 0u) <= (l4 / 960u)) goto L1;
    l7 = (ipl_u32)(IPL_L8((IPL_L64((l1 + 2608u), 0u) + ((ipl_u64)l3 * 2600u)), 0u) != 1u);
    l8 = (l7 != 0 ? 4u : 0u);
L1:;
    l9 = 0u;
    l10 = 0u;
    l11 = 0u;
    l12 = 0u;
    l13 = 0u;
    if (IPL_L8((l1 + 2968u), 0u) != 0) goto L4;
    l11 = (ipl_u32)(IPL_L64((l1 + 608u), 0u) > 18446744073708503040ull);
    if ((l7 | l11) == 0) goto L5;
    l6 = (l11 != 0 ? 1u : 2u);
    l10 = 0u;
    l9 = (l11 != 0 ? 0u : l8);
    l11 = 0u;
    l12 = 0u;
    l13 = 0u;
    goto L4;
L5:;
    IPL_S64(l5, 40u, (ipl_u64)0u);
    IPL_S64(l5, 32u, (ipl_u64)0u);
    IPL_S64(l5, 24u, (ipl_u64)0u);
    ipl_w49_bring(m, (l5 + 24u), l1, l2, (l4 / 960u), ((l4 >> 6) % 15u));
    if (IPL_L8(l5, 24u) == 0) goto L3;
    l13 = IPL_L32(l5, 44u);
    l12 = IPL_L32(l5, 40u);
    l11 = IPL_L32(l5, 36u);
    l10 = IPL_L32(l5, 32u);
    l9 = IPL_L8(l5, 28u);
    if (((1u << (l9 & 31u)) & 13u) != 0) goto L6;
    IPL_S8((l1 + 2968u), 0u, 1u);
L6:;
    l6 = 3u;
L4:;
    IPL_S32U(l0, 0u, 1u);
    IPL_S32U(l0, 8u, l9);
    IPL_S32U(l0, 4u, l6);
    l3 = 0u;
    goto L2;
L3:;
    ipl_w50_seen(m, l5, l1, l3, l4);
    IPL_S64U(l0, 0u, (ipl_u64)0u);
    IPL_S32U(l0, 8u, IPL_L8(l5, 0u));
    l10 = 0u;
    l3 = IPL_L32(l5, 20u);
    l13 = IPL_L32(l5, 16u);
    l12 = IPL_L32(l5, 12u);
    l11 = IPL_L32(l5, 8u);
L2:;
    IPL_S32U(l0, 28u, l3);
    IPL_S32U(l0, 24u, l13);
    IPL_S32U(l0, 20u, l12);
    IPL_S32U(l0, 16u, l11);
    IPL_S32U(l0, 12u, l10);
    IPL_G(0) = (l5 + 48u);
}

/* page_frames::pages::Pages::bring::<#81e02dbab8cd6729> */
static void ipl_w49_bring(ipl_u8 *const m, ipl_u64 l0, ipl_u64 l1, ipl_u64 l2, ipl_u32 l3, ipl_u32 l4) {
    ipl_u64 l5 = 0, l6 = 0, l7 = 0, l8 = 0, l9 = 0, l10 = 0, l11 = 0, l12 = 0, t1, t2;
    IPL_ENDS
    t1 = IPL_G(0);
    l5 = (t1 - 32u);
    IPL_G(0) = l5;
    l6 = (ipl_u64)0u;
    IPL_S64(l5, 24u, (ipl_u64)0u);
    IPL_S64(l5, 16u, (ipl_u64)0u);
    IPL_S64(l5, 8u, (ipl_u64)0u);
    l7 = (l1 + 1560u);
    l8 = (((ipl_u64)l3 * 15u) + (ipl_u64)l4);
    l9 = IPL_L64((l1 + 2584u), 0u);
    if (l9 > 1u) goto L5;
    switch ((ipl_u32)l9) {
    case 1u: goto L4;
    default: goto L3;
    }
L5:;
    l6 = (ipl_u64)0u;
    l10 = l9;
L6:;
    l11 = (l10 >> 1);
    l12 = (l11 + l6);
    l6 = (IPL_L64((l7 + (l12 << 4)), 0u) > l8 ? l6 : l12);
    l10 = (l10 - l11);
    if (l10 > 1u) goto L6;
    l6 = (l6 << 4);
L4:;
    l6 = (l7 + l6);
    if (IPL_L64(l6, 0u) != l8) goto L3;
    l6 = IPL_L64(l6, 8u);
    if (l6 >= IPL_L64((l1 + 1528u), 0u)) goto L1;
    l12 = IPL_L64((l1 + 1520u), 0u);
    if (IPL_L8((l12 + (l6 * 16728u)), 0u) != 1u) goto L1;
    l6 = (ipl_u64)0u;
    if (l9 == 1u) goto L7;
    l6 = (ipl_u64)0u;
L8:;
    l10 = (l9 >> 1);
    l11 = (l10 + l6);
    l6 = (IPL_L64((l7 + (l11 << 4)), 0u) > l8 ? l6 : l11);
    l9 = (l9 - l10);
    if (l9 > 1u) goto L8;
    l6 = (l6 << 4);
L7:;
    l6 = (l7 + l6);
    if (IPL_L64(l6, 0u) != l8) goto L1;
    l6 = (l12 + (IPL_L64(l6, 8u) * 16728u));
    if (IPL_L8(l6, 0u) != 1u) goto L1;
    t2 = (l6 + 24u);
    l6 = (l1 + 2600u);
    l10 = IPL_L64(l6, 0u);
    IPL_S64(t2, 0u, l10);
    l10 = (l10 + 1u);
    IPL_S64(l6, 0u, (l10 == 0 ? 18446744073709551615ull : l10));
    IPL_S64U(l0, 4u, (ipl_u64)0u);
    IPL_S8(l0, 0u, 0u);
    IPL_S64U(l0, 12u, (ipl_u64)0u);
    IPL_S32U(l0, 20u, 0u);
    goto L2;
L3:;
    ipl_w51_fetch(m, (l5 + 8u), l1, l2, l3, l4);
    IPL_S8(l0, 0u, IPL_L8(l5, 8u));
    IPL_S32U(l0, 4u, IPL_L8(l5, 12u));
    IPL_S64U(l0, 8u, IPL_L64(l5, 16u));
    IPL_S64U(l0, 16u, IPL_L64(l5, 24u));
L2:;
    IPL_G(0) = (l5 + 32u);
    return;
L1:;
    ipl_trap(m);
}

/* ipl_store::store::Store::seen */
static void ipl_w50_seen(ipl_u8 *const m, ipl_u64 l0, ipl_u64 l1, ipl_u32 l2, ipl_u32 l3) {
    ipl_u64 l4 = 0, l5 = 0, l6 = 0, l7 = 0, l8 = 0, l9 = 0, l10 = 0, t1, t2;
    IPL_ENDS
    l4 = (ipl_u64)0u;
    l5 = (ipl_u64)0u;
    l6 = (IPL_L64((l1 + 2608u), 0u) + ((ipl_u64)l2 * 2600u));
    l7 = (ipl_u64)IPL_L8(l6, 0u);
    if (l7 > 1u) goto L3;
    switch ((ipl_u32)l7) {
    case 1u: goto L4;
    default: goto L2;
    }
L4:;
    l5 = IPL_L64(l6, 8u);
L3:;
    l8 = (ipl_u64)(((l3 / 960u) * 15u) + ((l3 >> 6) % 15u));
    l9 = (l1 + 1560u);
    l7 = IPL_L64((l1 + 2584u), 0u);
    if (l7 > 1u) goto L7;
    l6 = l7;
    switch ((ipl_u32)l7) {
    case 1u: goto L6;
    default: goto L5;
    }
L7:;
    l4 = (ipl_u64)0u;
L8:;
    l6 = (l7 >> 1);
    l10 = (l6 + l4);
    l4 = (IPL_L64((l9 + (l10 << 4)), 0u) > l8 ? l4 : l10);
    l7 = (l7 - l6);
    if (l7 > 1u) goto L8;
    l4 = (l4 << 4);
L6:;
    l10 = (l9 + l4);
    l7 = (ipl_u64)0u;
    l4 = (ipl_u64)0u;
    l6 = (ipl_u64)0u;
    if (IPL_L64(l10, 0u) != l8) goto L5;
    l7 = IPL_L64(l10, 8u);
    if (l7 >= IPL_L64((l1 + 1528u), 0u)) goto L1;
    l7 = (IPL_L64((l1 + 1520u), 0u) + (l7 * 16728u));
    if (IPL_L8(l7, 0u) != 1u) goto L1;
    l4 = (ipl_u64)(l3 & 63u);
    if (IPL_L8(((l7 + l4) + 15656u), 0u) != 1u) goto L10;
    if (IPL_L64(((l7 + (l4 << 3)) + 15720u), 0u) != l5) goto L10;
    l4 = (l7 + (l4 << 1));
    l3 = IPL_L16((l4 + 15524u), 0u);
    l2 = IPL_L16((l4 + 15522u), 0u);
    l4 = ((ipl_u64)l2 + 3u);
    t1 = ((ipl_u64)l3 - l4);
    l3 = (ipl_u32)(l2 != l3);
    l6 = (l3 != 0 ? t1 : (ipl_u64)0u);
    l4 = (l3 != 0 ? ((l7 + l4) + 7842u) : (ipl_u64)0u);
    goto L9;
L10:;
    l4 = (l7 + (l4 << 1));
    l3 = IPL_L16((l4 + 7714u), 0u);
    l2 = IPL_L16((l4 + 7712u), 0u);
    l4 = ((ipl_u64)l2 + 3u);
    t2 = ((ipl_u64)l3 - l4);
    l3 = (ipl_u32)(l2 != l3);
    l6 = (l3 != 0 ? t2 : (ipl_u64)0u);
    l4 = (l3 != 0 ? ((l7 + 32u) + l4) : (ipl_u64)0u);
L9:;
    l7 = (ipl_u64)l3;
L5:;
    IPL_S64U(l0, 0u, l7);
    IPL_S64U(l0, 16u, l6);
    IPL_S64U(l0, 8u, l4);
    return;
L2:;
    IPL_S64U(l0, 16u, (ipl_u64)0u);
    IPL_S64U(l0, 8u, (ipl_u64)0u);
    IPL_S64U(l0, 0u, (ipl_u64)0u);
    return;
L1:;
    ipl_trap(m);
}

/* page_frames::pages::Pages::fetch::<#81e02dbab8cd6729> */
static void ipl_w51_fetch(ipl_u8 *const m, ipl_u64 l0, ipl_u64 l1, ipl_u64 l2, ipl_u32 l3, ipl_u32 l4) {
    ipl_u32 l9 = 0, l16 = 0, l17 = 0, l18 = 0;
    ipl_u64 l5 = 0, l6 = 0, l7 = 0, l8 = 0, l10 = 0, l11 = 0, l12 = 0, l13 = 0, l14 = 0, l15 = 0, t1, t2;
    IPL_ENDS
    t1 = IPL_G(0);
    l5 = (t1 - 32u);
    IPL_G(0) = l5;
    l6 = (l1 + 1544u);
    l7 = IPL_L64(l6, 0u);
    if (l7 < IPL_L64((l1 + 2592u), 0u)) goto L7;
    l8 = IPL_L64((l1 + 1528u), 0u);
    l6 = IPL_L64((l1 + 1520u), 0u);
    l9 = 1u;
    l10 = (ipl_u64)0u;
    l11 = (ipl_u64)0u;
L8:;
    l6 = (l6 - 16720u);
    l7 = (0u - l8);
L10:;
    l7 = (l7 + 1u);
    if (l7 == 1u) goto L9;
    l8 = (l6 + 16720u);
    l12 = (l6 + 16728u);
    l6 = l12;
    if (IPL_L8(l8, 0u) != 1u) goto L10;
    l6 = (l12 + 16720u);
    l8 = (0u - l7);
    if (IPL_L32(l12, 8u) != 0) goto L8;
    l6 = IPL_L64(l12, 16u);
    l9 = ((l9 | (ipl_u32)(l11 > l6)) & 1u);
    l11 = (l9 != 0 ? l6 : l11);
    l10 = (l9 != 0 ? IPL_L64U(l12, 0u) : l10);
    l6 = (l12 + 16720u);
    l8 = (0u - l7);
    l9 = 0u;
    goto L8;
L9:;
    if ((l9 & 1u) != 0) goto L1;
    l7 = (ipl_u64)0u;
    IPL_S64(l5, 24u, (ipl_u64)0u);
    IPL_S64(l5, 16u, (ipl_u64)0u);
    IPL_S64(l5, 8u, (ipl_u64)0u);
    l6 = (l10 >> 32);
    ipl_w52_write_out(m, (l5 + 8u), l1, l2, (ipl_u32)l10, (ipl_u32)l6);
    if (IPL_L8(l5, 8u) != 0) goto L3;
    l12 = (l1 + 1560u);
    l11 = (((l10 & 4294967295ull) * 15u) + l6);
    l6 = IPL_L64((l1 + 2584u), 0u);
    if (l6 > 1u) goto L6;
    switch ((ipl_u32)l6) {
    case 1u: goto L5;
    default: goto L1;
    }
L7:;
    IPL_S64(l6, 0u, (l7 + 1u));
    l6 = (l1 + 2600u);
    l7 = IPL_L64(l6, 0u);
    t2 = l6;
    l6 = (l7 + 1u);
    IPL_S64(t2, 0u, (l6 == 0 ? 18446744073709551615ull : l6));
    l13 = IPL_L64((l1 + 1552u), 0u);
    l14 = (l13 * 16728u);
    l6 = (IPL_L64((l1 + 1520u), 0u) + l14);
    l8 = (l1 + 1528u);
    if (l13 != IPL_L64(l8, 0u)) goto L12;
    IPL_S64U(l6, 0u, (ipl_u64)1u);
    IPL_S64U(l6, 24u, l7);
    IPL_S64U(l6, 16u, (ipl_u64)1u);
    IPL_S32U(l6, 12u, l4);
    IPL_S32U(l6, 8u, l3);
    IPL_FILL((l6 + 32u), 0u, (ipl_u64)16200u);
    IPL_S8((l6 + 16232u), 0u, 3u);
    IPL_FILL((l6 + 16233u), 0u, (ipl_u64)495u);
    l7 = (l13 + 1u);
    IPL_S64(l8, 0u, l7);
    goto L11;
L12:;
    IPL_S64U(l6, 24u, l7);
    IPL_S64U(l6, 16u, (ipl_u64)1u);
    l9 = IPL_L8(l6, 0u);
    IPL_S64U(l6, 0u, (ipl_u64)1u);
    l8 = (l6 + 8u);
    l7 = IPL_L64U(l8, 0u);
    IPL_S32U(l6, 12u, l4);
    IPL_S32U(l8, 0u, l3);
    IPL_FILL((l6 + 32u), 0u, (ipl_u64)16200u);
    IPL_S8((l6 + 16232u), 0u, 3u);
    IPL_FILL((l6 + 16233u), 0u, (ipl_u64)495u);
    if (l9 != 0) goto L1;
L11:;
    IPL_S64((l1 + 1552u), 0u, l7);
    l11 = (l1 + 1560u);
    l8 = (((ipl_u64)l3 * 15u) + (ipl_u64)l4);
    l6 = (ipl_u64)0u;
    l15 = IPL_L64((l1 + 2584u), 0u);
    if (l15 > 1u) goto L15;
    l7 = l15;
    switch ((ipl_u32)l15) {
    case 1u: goto L14;
    default: goto L13;
    }
L15:;
    l7 = l15;
L16:;
    l12 = (l7 >> 1);
    l10 = (l12 + l6);
    l6 = (IPL_L64((l11 + (l10 << 4)), 0u) > l8 ? l6 : l10);
    l7 = (l7 - l12);
    if (l7 > 1u) goto L16;
L14:;
    l7 = l6;
    l12 = IPL_L64((l11 + (l6 << 4)), 0u);
    switch ((l12 == l8 ? 1u : (l12 < l8 ? 0u : 2u))) {
    case 1u: goto L1;
    case 2u: goto L13;
    default: goto L17;
    }
L17:;
    l7 = (l6 + 1u);
L13:;
    l6 = (l11 + (l15 << 4));
    IPL_S64U(l6, 0u, l8);
    IPL_S64U(l6, 8u, l13);
    l6 = (l15 + 1u);
    IPL_S64((l1 + 2584u), 0u, l6);
    l6 = (l6 - l7);
    ipl_w53_rotate_left(m, (l11 + (l7 << 4)), l6, (l6 - 1u));
    l6 = (IPL_L64((l1 + 1520u), 0u) + l14);
    if (IPL_L8(l6, 0u) == 1u) goto L4;
    goto L1;
L6:;
    l7 = (ipl_u64)0u;
L18:;
    l8 = (l6 >> 1);
    l10 = (l8 + l7);
    l7 = (IPL_L64((l12 + (l10 << 4)), 0u) > l11 ? l7 : l10);
    l6 = (l6 - l8);
    if (l6 > 1u) goto L18;
    l7 = (l7 << 4);
L5:;
    l6 = (l12 + l7);
    if (IPL_L64(l6, 0u) != l11) goto L1;
    l13 = IPL_L64(l6, 8u);
    ipl_w54_remove(m, l12, l11);
    l8 = (((ipl_u64)l3 * 15u) + (ipl_u64)l4);
    l6 = (ipl_u64)0u;
    l15 = IPL_L64((l1 + 2584u), 0u);
    if (l15 > 1u) goto L21;
    l7 = l15;
    switch ((ipl_u32)l15) {
    case 1u: goto L20;
    default: goto L19;
    }
L21:;
    l7 = l15;
L22:;
    l10 = (l7 >> 1);
    l11 = (l10 + l6);
    l6 = (IPL_L64((l12 + (l11 << 4)), 0u) > l8 ? l6 : l11);
    l7 = (l7 - l10);
    if (l7 > 1u) goto L22;
L20:;
    l7 = l6;
    l10 = IPL_L64((l12 + (l6 << 4)), 0u);
    switch ((l10 == l8 ? 1u : (l10 < l8 ? 0u : 2u))) {
    case 1u: goto L1;
    case 2u: goto L19;
    default: goto L23;
    }
L23:;
    l7 = (l6 + 1u);
L19:;
    l6 = (l12 + (l15 << 4));
    IPL_S64U(l6, 0u, l8);
    IPL_S64U(l6, 8u, l13);
    l6 = (l15 + 1u);
    IPL_S64((l1 + 2584u), 0u, l6);
    l6 = (l6 - l7);
    ipl_w53_rotate_left(m, (l12 + (l7 << 4)), l6, (l6 - 1u));
    l12 = (l1 + 1520u);
    l10 = (l13 * 16728u);
    l6 = (IPL_L64(l12, 0u) + l10);
    if (IPL_L8(l6, 0u) != 1u) goto L1;
    l7 = (l1 + 2600u);
    IPL_S64(l6, 24u, IPL_L64(l7, 0u));
    IPL_S32(l6, 16u, 1u);
    IPL_S32(l6, 12u, l4);
    IPL_S32(l6, 8u, l3);
    IPL_FILL((l6 + 7712u), 0u, (ipl_u64)130u);
    IPL_FILL((l6 + 15522u), 0u, (ipl_u64)130u);
    IPL_S64U((l6 + 15712u), 0u, (ipl_u64)0u);
    IPL_S64U((l6 + 15704u), 0u, (ipl_u64)0u);
    IPL_S64U((l6 + 15696u), 0u, (ipl_u64)0u);
    IPL_S64U((l6 + 15688u), 0u, (ipl_u64)0u);
    IPL_S64U((l6 + 15680u), 0u, (ipl_u64)0u);
    IPL_S64U((l6 + 15672u), 0u, (ipl_u64)0u);
    IPL_S64U((l6 + 15664u), 0u, (ipl_u64)0u);
    IPL_S64U((l6 + 15656u), 0u, (ipl_u64)0u);
    l6 = (IPL_L64(l7, 0u) + 1u);
    IPL_S64(l7, 0u, (l6 == 0 ? 18446744073709551615ull : l6));
    l6 = (IPL_L64(l12, 0u) + l10);
    if (IPL_L8(l6, 0u) != 1u) goto L1;
L4:;
    l6 = (l6 + 16u);
    IPL_S32(l6, 0u, (IPL_L32(l6, 0u) + (ipl_u32)4294967295u));
    l7 = (ipl_u64)0u;
    IPL_S64(l5, 24u, (ipl_u64)0u);
    IPL_S64(l5, 16u, (ipl_u64)0u);
    IPL_S64(l5, 8u, (ipl_u64)0u);
    l11 = (l1 + 1560u);
    l6 = IPL_L64((l1 + 2584u), 0u);
    if (l6 > 1u) goto L25;
    switch ((ipl_u32)l6) {
    case 1u: goto L24;
    default: goto L1;
    }
L25:;
    l7 = (ipl_u64)0u;
L26:;
    l12 = (l6 >> 1);
    l10 = (l12 + l7);
    l7 = (IPL_L64((l11 + (l10 << 4)), 0u) > l8 ? l7 : l10);
    l6 = (l6 - l12);
    if (l6 > 1u) goto L26;
    l7 = (l7 << 4);
L24:;
    l6 = (l11 + l7);
    if (IPL_L64(l6, 0u) != l8) goto L1;
    l6 = (IPL_L64((l1 + 1520u), 0u) + (IPL_L64(l6, 8u) * 16728u));
    if (IPL_L8(l6, 0u) != 1u) goto L1;
    ipl_w47_load(m, (l5 + 8u), l2, l1, (l1 + 456u), (l1 + 552u), (l1 + 616u), IPL_L64((l1 + 872u), 0u), l3, l4, (l1 + 928u), (l6 + 32u));
    l4 = IPL_L8(l5, 8u);
    if (l4 != 0) goto L27;
    l3 = 0u;
    l9 = 0u;
    l16 = 0u;
    l17 = 0u;
    l18 = 0u;
    goto L2;
L27:;
    l18 = IPL_L32(l5, 28u);
    l17 = IPL_L32(l5, 24u);
    l16 = IPL_L32(l5, 20u);
    l9 = IPL_L32(l5, 16u);
    l3 = IPL_L8(l5, 12u);
    l6 = IPL_L64((l1 + 2584u), 0u);
    if (l6 > 1u) goto L29;
    l7 = (ipl_u64)0u;
    switch ((ipl_u32)l6) {
    case 1u: goto L28;
    default: goto L1;
    }
L29:;
    l7 = (ipl_u64)0u;
L30:;
    l12 = (l6 >> 1);
    l10 = (l12 + l7);
    l7 = (IPL_L64((l11 + (l10 << 4)), 0u) > l8 ? l7 : l10);
    l6 = (l6 - l12);
    if (l6 > 1u) goto L30;
    l7 = (l7 << 4);
L28:;
    l6 = (l11 + l7);
    if (IPL_L64(l6, 0u) != l8) goto L1;
    l6 = IPL_L64(l6, 8u);
    if (l6 >= IPL_L64((l1 + 1528u), 0u)) goto L31;
    l7 = (IPL_L64((l1 + 1520u), 0u) + (l6 * 16728u));
    if (IPL_L8(l7, 0u) != 1u) goto L31;
    l12 = (l1 + 1552u);
    IPL_S64U(l7, 8u, IPL_L64(l12, 0u));
    IPL_S64U(l7, 0u, (ipl_u64)0u);
    IPL_FILL((l7 + 16u), 0u, (ipl_u64)16712u);
    IPL_S64(l12, 0u, l6);
    l6 = (l1 + 1544u);
    IPL_S64(l6, 0u, (IPL_L64(l6, 0u) - 1u));
L31:;
    ipl_w54_remove(m, l11, l8);
    goto L2;
L3:;
    l3 = IPL_L8(l5, 12u);
    l9 = IPL_L32(l5, 16u);
    l16 = IPL_L32(l5, 20u);
    l17 = IPL_L32(l5, 24u);
    l18 = IPL_L32(l5, 28u);
    l4 = 1u;
L2:;
    IPL_S8(l0, 0u, l4);
    IPL_S32U(l0, 20u, l18);
    IPL_S32U(l0, 16u, l17);
    IPL_S32U(l0, 12u, l16);
    IPL_S32U(l0, 8u, l9);
    IPL_S32U(l0, 4u, (l3 & 255u));
    IPL_G(0) = (l5 + 32u);
    return;
L1:;
    ipl_trap(m);
}

/* page_frames::pages::Pages::write_out::<#81e02dbab8cd6729> */
static void ipl_w52_write_out(ipl_u8 *const m, ipl_u64 l0, ipl_u64 l1, ipl_u64 l2, ipl_u32 l3, ipl_u32 l4) {
    ipl_u32 l15 = 0, l16 = 0, l17 = 0, l18 = 0, l19 = 0, l20 = 0, t2, t3, t5, t6, t7, t10;
    ipl_u64 l5 = 0, l6 = 0, l7 = 0, l8 = 0, l9 = 0, l10 = 0, l11 = 0, l12 = 0, l13 = 0, l14 = 0, l21 = 0, t1, t4, t8, t9, t11;
    IPL_ENDS
    t1 = IPL_G(0);
    l5 = (t1 - 2048u);
    IPL_G(0) = l5;
    l6 = (l1 + 1560u);
    l7 = (ipl_u64)l3;
    l8 = ((l7 * 15u) + (ipl_u64)l4);
    l9 = IPL_L64((l1 + 2584u), 0u);
    if (l9 > 1u) goto L6;
    l10 = (ipl_u64)0u;
    switch ((ipl_u32)l9) {
    case 1u: goto L5;
    default: goto L4;
    }
L6:;
    l10 = (ipl_u64)0u;
    l11 = l9;
L7:;
    l12 = (l11 >> 1);
    l13 = (l12 + l10);
    l10 = (IPL_L64((l6 + (l13 << 4)), 0u) > l8 ? l10 : l13);
    l11 = (l11 - l12);
    if (l11 > 1u) goto L7;
    l10 = (l10 << 4);
L5:;
    l10 = (l6 + l10);
    if (IPL_L64(l10, 0u) != l8) goto L4;
    l10 = IPL_L64(l10, 8u);
    l13 = IPL_L64((l1 + 1528u), 0u);
    if (l10 >= l13) goto L1;
    l14 = IPL_L64((l1 + 1520u), 0u);
    l10 = (l14 + (l10 * 16728u));
    if (IPL_L8(l10, 0u) != 1u) goto L1;
    if (!(IPL_L64((l10 + 16720u), 0u) == 0)) goto L3;
L4:;
    IPL_S8(l0, 0u, 0u);
    IPL_S64U(l0, 4u, (ipl_u64)0u);
    IPL_S64U(l0, 12u, (ipl_u64)0u);
    IPL_S32U(l0, 20u, 0u);
    goto L2;
L3:;
    l10 = (ipl_u64)0u;
    if (l9 == 1u) goto L8;
    l10 = (ipl_u64)0u;
L9:;
    l11 = (l9 >> 1);
    l12 = (l11 + l10);
    l10 = (IPL_L64((l6 + (l12 << 4)), 0u) > l8 ? l10 : l12);
    l9 = (l9 - l11);
    if (l9 > 1u) goto L9;
    l10 = (l10 << 4);
L8:;
    l10 = (l6 + l10);
    if (IPL_L64(l10, 0u) != l8) goto L11;
    l10 = IPL_L64(l10, 8u);
    if (l10 >= l13) goto L1;
    l10 = (l14 + (l10 * 16728u));
    if (IPL_L8(l10, 0u) != 1u) goto L1;
    IPL_S32(l5, 1528u, 0u);
    IPL_S32U(l5, 1531u, 0u);
    l15 = IPL_L8((l10 + 16232u), 0u);
    l11 = IPL_L64((l10 + 16720u), 0u);
    IPL_FILL((l5 + 1000u), 0u, (ipl_u64)488u);
    if (l11 > 480u) goto L12;
    if (l11 == 0) goto L13;
    IPL_COPY((l5 + 1000u), (l10 + 16240u), l11);
L13:;
    IPL_S64(l5, 1480u, l11);
L12:;
    IPL_COPY((l5 + 1535u), (l5 + 1000u), (ipl_u64)488u);
    IPL_COPY((l5 + 1000u), (l5 + 1528u), (ipl_u64)495u);
    goto L10;
L11:;
    IPL_FILL((l5 + 1000u), 0u, (ipl_u64)495u);
    l15 = 3u;
L10:;
    IPL_COPY((l5 + 9u), (l5 + 1000u), (ipl_u64)495u);
    IPL_S8(l5, 504u, l15);
    l9 = ((l5 + 504u) | 1u);
    IPL_COPY(l9, (l5 + 9u), (ipl_u64)495u);
    l13 = (l7 << 2);
    l4 = IPL_L32((IPL_L64((l1 + 360u), 0u) + l13), 0u);
    if (l4 > 14u) goto L20;
    l10 = (((ipl_u64)(l4 + 241u) << 32) | (ipl_u64)IPL_L32((IPL_L64(l1, 0u) + l13), 0u));
    goto L19;
L20:;
    IPL_S64(l5, 1560u, (ipl_u64)0u);
    IPL_S64(l5, 1552u, (ipl_u64)0u);
    IPL_S64(l5, 1544u, (ipl_u64)0u);
    IPL_S64(l5, 1536u, (ipl_u64)0u);
    IPL_S64(l5, 1528u, (ipl_u64)0u);
    l16 = IPL_L32((IPL_L64(l1, 0u) + l13), 0u);
    l10 = (l1 + 928u);
    ipl_w23_read_live(m, (l5 + 1528u), l2, l1, (l1 + 456u), l3, l10);
    l4 = IPL_L32(l5, 1548u);
    l17 = IPL_L32(l5, 1544u);
    l18 = IPL_L32(l5, 1536u);
    if (IPL_L8(l5, 1528u) != 0) goto L24;
    IPL_S32U((l1 + 892u), 0u, l3);
    IPL_S16U((l1 + 890u), 0u, 0u);
    IPL_S8((l1 + 889u), 0u, l18);
    IPL_S8((l1 + 888u), 0u, 1u);
    IPL_S32U((l1 + 884u), 0u, 0u);
    IPL_S32U((l1 + 880u), 0u, l16);
    IPL_S64U((l1 + 912u), 0u, IPL_L64(l5, 1552u));
    IPL_S64U((l1 + 919u), 0u, IPL_L64U(l5, 1559u));
    IPL_S8((l1 + 927u), 0u, 0u);
    l11 = (((ipl_u64)l4 << 32) | (ipl_u64)l17);
    IPL_S64U((l1 + 904u), 0u, l11);
    IPL_S64U((l1 + 896u), 0u, l11);
    IPL_S64(l5, 1552u, (ipl_u64)0u);
    IPL_S64(l5, 1544u, (ipl_u64)0u);
    IPL_S64(l5, 1536u, (ipl_u64)0u);
    IPL_S64(l5, 1528u, (ipl_u64)0u);
    ipl_w42_of(m, (l5 + 1528u), IPL_L64(l10, 0u), IPL_L64((l1 + 936u), 0u), (l1 + 960u));
    t2 = ipl_w43_pack_carried(m, (l5 + 1528u), (l1 + 616u), (l1 + 992u));
    if (t2 == 0) goto L25;
    if (!((IPL_L64((l1 + 1000u), 0u) & 248u) == 0)) goto L25;
    IPL_S64(l5, 1544u, (ipl_u64)0u);
    IPL_S64(l5, 1536u, (ipl_u64)0u);
    IPL_S64(l5, 1528u, (ipl_u64)0u);
    ipl_w40_merge_learnt(m, (l5 + 1528u), l2, l1, l3);
    if (IPL_L8(l5, 1528u) != 0) goto L27;
    l4 = IPL_L32((IPL_L64((l1 + 360u), 0u) + l13), 0u);
    if (l4 >= 15u) goto L1;
    l19 = (l4 + 241u);
    l20 = IPL_L32((IPL_L64(l1, 0u) + l13), 0u);
    l16 = 0u;
    l18 = 0u;
    l17 = 0u;
    l4 = 0u;
    goto L26;
L27:;
    l16 = 1u;
    l20 = IPL_L8(l5, 1532u);
    l19 = IPL_L32(l5, 1536u);
    l18 = IPL_L32(l5, 1540u);
    l17 = IPL_L32(l5, 1544u);
    l4 = IPL_L32(l5, 1548u);
L26:;
    l10 = (((ipl_u64)l19 << 32) | (ipl_u64)l20);
    goto L21;
L25:;
    if (IPL_L8((IPL_L64((l1 + 464u), 0u) + l7), 0u) > 15u) goto L28;
    l21 = (l1 + 528u);
    l14 = IPL_L64((l1 + 544u), 0u);
    if (l14 == 0) goto L29;
    l16 = 0u;
    l11 = l21;
    l12 = l14;
    l10 = (ipl_u64)0u;
L30:;
    l17 = (ipl_u32)(l10 >> 32);
    l4 = (ipl_u32)l10;
    l18 = IPL_L32U(l11, 4u);
    if (l18 > 255u) goto L31;
    t3 = (ipl_u32)((l16 & 255u) == 0);
    l16 = IPL_L32U(l11, 0u);
    l19 = (t3 | (ipl_u32)(l16 < l4));
    l17 = (l19 != 0 ? l18 : l17);
    l4 = (l19 != 0 ? l16 : l4);
    l16 = 1u;
L31:;
    l11 = (l11 + 8u);
    l10 = (((ipl_u64)l17 << 32) | (ipl_u64)l4);
    l12 = (l12 - 1u);
    if (l12 != 0u) goto L30;
    if ((l16 & 255u) != 0) goto L19;
    if (l14 != 1u) goto L28;
L29:;
    l10 = (l1 + 608u);
    t4 = l10;
    l10 = IPL_L64(l10, 0u);
    IPL_S64(t4, 0u, (l10 + 1u));
    IPL_S64(l5, 1512u, (ipl_u64)0u);
    IPL_S64(l5, 1504u, (ipl_u64)0u);
    IPL_S64(l5, 1496u, (ipl_u64)0u);
    l11 = IPL_L64(l1, 8u);
    ipl_w41_take_place(m, (l5 + 1496u), l2, l1);
    l4 = IPL_L32(l5, 1500u);
    if (IPL_L8(l5, 1496u) != 0) goto L23;
    l12 = (ipl_u64)l4;
    l17 = IPL_L32((IPL_L64(l1, 64u) + (l12 << 2)), 0u);
    l18 = (ipl_u32)l11;
    IPL_S32(l5, 1520u, (ipl_rotr32((l18 & (ipl_u32)16711935u), 8u) | (ipl_rotr32(l18, 24u) & (ipl_u32)16711935u)));
    IPL_S64(l5, 1016u, l10);
    IPL_S64(l5, 1008u, l10);
    IPL_S64(l5, 1000u, (ipl_u64)771u);
    IPL_S32(l5, 1524u, (ipl_rotr32((l17 & (ipl_u32)16711935u), 8u) | (ipl_rotr32(l17, 24u) & (ipl_u32)16711935u)));
    l18 = 0u;
    IPL_FILL((l5 + 1528u), 0u, (ipl_u64)512u);
    ipl_w7_encode(m, (l5 + 1000u), (l5 + 1520u), (ipl_u64)8u, (l5 + 1528u));
    t5 = ipl_to_ipl_nand_barrier(m, IPL_L64(l2, 0u));
    if (t5 != 0) goto L32;
    t6 = ipl_to_ipl_nand_program(m, IPL_L64(l2, 0u), l4, 0u, (l5 + 1528u), (ipl_u64)512u);
    if (t6 != 0) goto L32;
    t7 = ipl_to_ipl_nand_barrier(m, IPL_L64(l2, 0u));
    if (t7 != 0) goto L32;
    l11 = (l1 + 544u);
    l14 = IPL_L64(l11, 0u);
    l10 = (l12 | 4294967296ull);
    IPL_S64U((l21 + (l14 << 3)), 0u, l10);
    IPL_S64(l11, 0u, (l14 + 1u));
    l16 = 0u;
    l18 = 0u;
    goto L22;
L32:;
    IPL_S8(l2, 16u, 0u);
    l10 = (ipl_u64)1u;
    l11 = (l2 + 32u);
    t8 = l11;
    l11 = (IPL_L64(l11, 0u) + 1u);
    IPL_S64(t8, 0u, (l11 == 0 ? 18446744073709551615ull : l11));
    IPL_S8((IPL_L64(l1, 32u) + l12), 0u, 0u);
    l16 = 1u;
    goto L22;
L28:;
    IPL_S64(l5, 1544u, (ipl_u64)0u);
    IPL_S64(l5, 1536u, (ipl_u64)0u);
    IPL_S64(l5, 1528u, (ipl_u64)0u);
    ipl_w40_merge_learnt(m, (l5 + 1528u), l2, l1, l3);
    if (IPL_L8(l5, 1528u) != 0) goto L33;
    l4 = IPL_L32((IPL_L64((l1 + 360u), 0u) + l13), 0u);
    if (l4 >= 15u) goto L1;
    l10 = (((ipl_u64)(l4 + 241u) << 32) | (ipl_u64)IPL_L32((IPL_L64(l1, 0u) + l13), 0u));
    l18 = 0u;
    l16 = 0u;
    goto L22;
L33:;
    l10 = (((ipl_u64)IPL_L32(l5, 1536u) << 32) | (ipl_u64)IPL_L8(l5, 1532u));
    l16 = 1u;
    l18 = IPL_L32(l5, 1540u);
    l17 = IPL_L32(l5, 1544u);
    l4 = IPL_L32(l5, 1548u);
    goto L21;
L24:;
    l10 = (((ipl_u64)l18 << 32) | (ipl_u64)IPL_L8(l5, 1532u));
    l18 = IPL_L32(l5, 1540u);
    goto L18;
L23:;
    l10 = (((ipl_u64)IPL_L32(l5, 1504u) << 32) | (ipl_u64)(l4 & 255u));
    l16 = 1u;
    l18 = IPL_L32(l5, 1508u);
    l17 = IPL_L32(l5, 1512u);
    l4 = IPL_L32(l5, 1516u);
    goto L21;
L22:;
    l17 = 0u;
    l4 = 0u;
L21:;
    if (l16 != 0) goto L18;
L19:;
    l11 = IPL_L64(l5, 992u);
    IPL_FILL((l5 + 1528u), 0u, (ipl_u64)520u);
    l12 = (l5 + 512u);
    ipl_w13_record_at(m, (l5 + 1528u), l12, l11, l15);
    l14 = (l10 >> 32);
    l16 = (ipl_u32)l14;
    l18 = (ipl_u32)l10;
    l4 = 0u;
    if (IPL_L8(l5, 1528u) != 1u) goto L34;
    l4 = 0u;
L35:;
    l17 = IPL_L16(l5, 1536u);
    l10 = IPL_L64(l5, 2040u);
    l11 = IPL_L64(l5, 2032u);
    IPL_FILL((l5 + 1528u), 0u, (ipl_u64)520u);
    ipl_w13_record_at(m, (l5 + 1528u), l11, l10, l15);
    l4 = ((1u << (l17 & 31u)) | l4);
    if (IPL_L8(l5, 1528u) == 1u) goto L35;
L34:;
    l10 = IPL_L64((IPL_L64((l1 + 392u), 0u) + (l7 << 3)), 0u);
    l11 = (l1 + 608u);
    t9 = l11;
    l11 = IPL_L64(l11, 0u);
    IPL_S64(t9, 0u, (l11 + 1u));
    IPL_S32(l5, 1004u, l3);
    IPL_S32(l5, 1000u, 773u);
    IPL_S64(l5, 1016u, l11);
    IPL_S64(l5, 1008u, l10);
    IPL_FILL((l5 + 1528u), 0u, (ipl_u64)512u);
    ipl_w7_encode(m, (l5 + 1000u), l12, IPL_L64(l5, 992u), (l5 + 1528u));
    t10 = ipl_to_ipl_nand_program(m, IPL_L64(l2, 0u), l18, l16, (l5 + 1528u), (ipl_u64)512u);
    if (t10 != 0) goto L15;
    l10 = (IPL_L64((l1 + 360u), 0u) + l13);
    l17 = IPL_L32(l10, 0u);
    if (l17 > 14u) goto L17;
    if (IPL_L32((IPL_L64(l1, 0u) + l13), 0u) != l18) goto L17;
    if ((l17 + 241u) != l16) goto L17;
    IPL_S32(l10, 0u, (l17 + 1u));
    IPL_S16(((IPL_L64((l1 + 424u), 0u) + (l7 * 30u)) + (((l14 << 1) + 8589934110ull) & 8589934590ull)), 0u, l4);
    goto L16;
L18:;
    l15 = ((ipl_u32)l10 & 255u);
    l3 = (ipl_u32)(l10 >> 32);
    goto L14;
L17:;
    ipl_w14_add(m, (l1 + 456u), l3, l18, l16, l4);
L16:;
    IPL_S8(l5, 504u, 3u);
    IPL_FILL(l9, 0u, (ipl_u64)495u);
    l10 = IPL_L64((l1 + 2584u), 0u);
    if (l10 > 1u) goto L37;
    l11 = (ipl_u64)0u;
    switch ((ipl_u32)l10) {
    case 1u: goto L36;
    default: goto L1;
    }
L37:;
    l11 = (ipl_u64)0u;
L38:;
    l12 = (l10 >> 1);
    l13 = (l12 + l11);
    l11 = (IPL_L64((l6 + (l13 << 4)), 0u) > l8 ? l11 : l13);
    l10 = (l10 - l12);
    if (l10 > 1u) goto L38;
    l11 = (l11 << 4);
L36:;
    l10 = (l6 + l11);
    if (IPL_L64(l10, 0u) != l8) goto L1;
    l10 = (IPL_L64((l1 + 1520u), 0u) + (IPL_L64(l10, 8u) * 16728u));
    if (IPL_L8(l10, 0u) != 1u) goto L1;
    IPL_S8((l10 + 16232u), 0u, 3u);
    IPL_FILL((l10 + 16233u), 0u, (ipl_u64)495u);
    IPL_S64U(l0, 4u, (ipl_u64)0u);
    IPL_S8(l0, 0u, 0u);
    IPL_S64U(l0, 12u, (ipl_u64)0u);
    IPL_S32U(l0, 20u, 0u);
    goto L2;
L15:;
    l3 = 0u;
    IPL_S8(l2, 16u, 0u);
    l10 = (l2 + 32u);
    t11 = l10;
    l10 = (IPL_L64(l10, 0u) + 1u);
    IPL_S64(t11, 0u, (l10 == 0 ? 18446744073709551615ull : l10));
    l15 = 1u;
    l18 = 0u;
    l17 = 0u;
    l4 = 0u;
L14:;
    IPL_S8(l0, 0u, 1u);
    IPL_S32U(l0, 20u, l4);
    IPL_S32U(l0, 16u, l17);
    IPL_S32U(l0, 12u, l18);
    IPL_S32U(l0, 8u, l3);
    IPL_S32U(l0, 4u, l15);
L2:;
    IPL_G(0) = (l5 + 2048u);
    return;
L1:;
    ipl_trap(m);
}

/* core::slice::edits::slice+T::rotate_left::<14'(,)::<i64,i64>> */
static void ipl_w53_rotate_left(ipl_u8 *const m, ipl_u64 l0, ipl_u64 l1, ipl_u64 l2) {
    ipl_u32 l9 = 0;
    ipl_u64 l3 = 0, l4 = 0, l5 = 0, l6 = 0, l7 = 0, l8 = 0, l10 = 0, l11 = 0, l12 = 0, l13 = 0, l14 = 0, t1;
    IPL_ENDS
    t1 = IPL_G(0);
    l3 = (t1 - 96u);
    IPL_G(0) = l3;
    if (l2 == 0) goto L1;
    if (l1 == l2) goto L1;
    if (l2 != 1u) goto L2;
    l4 = IPL_L64U(l0, 8u);
    l5 = IPL_L64U(l0, 0u);
    l6 = (ipl_u64)0u;
    l7 = (l1 - 1u);
    l2 = l7;
    if (l7 < 129u) goto L3;
    l6 = (ipl_u64)0u;
    l1 = l0;
L4:;
    l8 = (ipl_u64)0u;
L5:;
    l2 = (l1 + l8);
    IPL_S64U(l2, 8u, IPL_L64U(l2, 24u));
    IPL_S64U(l2, 0u, IPL_L64U(l2, 16u));
    l8 = (l8 + 16u);
    if (l8 != 2048u) goto L5;
    l1 = (l1 + 2048u);
    l6 = (l6 + 128u);
    l2 = (l7 - l6);
    if (l2 > 128u) goto L4;
L3:;
    if (l7 == l6) goto L6;
    l2 = (l2 << 4);
    if (l2 == 0) goto L6;
    l8 = (l0 + (l6 << 4));
    IPL_COPY(l8, (l8 + 16u), l2);
L6:;
    l2 = (l0 + (l7 << 4));
    IPL_S64U(l2, 8u, l4);
    IPL_S64U(l2, 0u, l5);
    goto L1;
L2:;
    l8 = (l1 - l2);
    if (l8 != 1u) goto L7;
    l2 = (l1 - 1u);
    l8 = (l0 + (l2 << 4));
    l6 = IPL_L64U(l8, 8u);
    l8 = IPL_L64U(l8, 0u);
    if (l2 == 0) goto L8;
    l2 = ((l1 << 4) - 16u);
    if (l2 == 0) goto L8;
    IPL_COPY((l0 + 16u), l0, l2);
L8:;
    IPL_S64U(l0, 8u, l6);
    IPL_S64U(l0, 0u, l8);
    goto L1;
L7:;
    l6 = (l8 < l2 ? l8 : l2);
    l7 = (l1 - l6);
    l6 = ((l6 & 1152921504606846975ull) == 0 ? ((l7 << 4) < 4097u ? l7 : l6) : l6);
    if ((l6 << 4) < 4097u) goto L11;
    l1 = (ipl_u64)0u;
    if (l2 < 32u) goto L12;
    if (l8 < 32u) goto L12;
    l1 = (ipl_u64)0u;
L13:;
    l7 = (l1 + l2);
    l6 = (l8 < l2 ? l8 : l2);
    ipl_w55_swap_with_slice(m, (l0 + ((l7 - l6) << 4)), l6, (l0 + (l7 << 4)));
    l9 = (ipl_u32)(l2 > l8);
    l7 = (l9 != 0 ? (ipl_u64)0u : l6);
    l1 = (l7 + l1);
    l8 = (l8 - l7);
    l2 = (l2 - (l9 != 0 ? l6 : (ipl_u64)0u));
    if (l2 < 32u) goto L12;
    if (l8 > 31u) goto L13;
L12:;
    l4 = (l1 + l2);
    if (l2 > 15u) goto L10;
    if (l2 < 2u) goto L9;
    l5 = (l4 - 1u);
    l6 = (l0 + (l1 << 4));
    l7 = (((l4 << 4) + l0) - 16u);
    l10 = l2;
    l11 = l1;
L14:;
    if (l11 >= l5) goto L16;
    l12 = IPL_L64U(l6, 0u);
    l13 = IPL_L64U(l7, 8u);
    IPL_S64U(l6, 0u, IPL_L64U(l7, 0u));
    l14 = IPL_L64U(l6, 8u);
    IPL_S64U(l6, 8u, l13);
    IPL_S64U(l7, 8u, l14);
    IPL_S64U(l7, 0u, l12);
    goto L15;
L16:;
    if (l5 >= l11) goto L15;
    l12 = IPL_L64U(l7, 0u);
    l13 = IPL_L64U(l6, 8u);
    IPL_S64U(l7, 0u, IPL_L64U(l6, 0u));
    l14 = IPL_L64U(l7, 8u);
    IPL_S64U(l7, 8u, l13);
    IPL_S64U(l6, 8u, l14);
    IPL_S64U(l6, 0u, l12);
L15:;
    l5 = (l5 - 1u);
    l7 = (l7 - 16u);
    l6 = (l6 + 16u);
    l11 = (l11 + 1u);
    l10 = (l10 - 2u);
    if (l10 > 1u) goto L14;
    goto L9;
L11:;
    ipl_w56_turn_through_room(m, l0, l1, l2, l6);
    goto L1;
L10:;
    l6 = (l2 >> 1);
    ipl_w57_mirror(m, l0, l1, (l0 + ((l4 - l6) << 4)), l6);
L9:;
    l14 = (l4 + l8);
    if (l8 > 15u) goto L18;
    if (l8 < 2u) goto L17;
    l6 = (l0 + (l4 << 4));
    l5 = (((l8 + l2) + l1) - 1u);
    l7 = (((l14 << 4) + l0) - 16u);
    l11 = l8;
L19:;
    if (l4 >= l5) goto L21;
    l10 = IPL_L64U(l6, 0u);
    l12 = IPL_L64U(l7, 8u);
    IPL_S64U(l6, 0u, IPL_L64U(l7, 0u));
    l13 = IPL_L64U(l6, 8u);
    IPL_S64U(l6, 8u, l12);
    IPL_S64U(l7, 8u, l13);
    IPL_S64U(l7, 0u, l10);
    goto L20;
L21:;
    if (l5 >= l4) goto L20;
    l10 = IPL_L64U(l7, 0u);
    l12 = IPL_L64U(l6, 8u);
    IPL_S64U(l7, 0u, IPL_L64U(l6, 0u));
    l13 = IPL_L64U(l7, 8u);
    IPL_S64U(l7, 8u, l12);
    IPL_S64U(l6, 8u, l13);
    IPL_S64U(l6, 0u, l10);
L20:;
    l5 = (l5 - 1u);
    l7 = (l7 - 16u);
    l6 = (l6 + 16u);
    l4 = (l4 + 1u);
    l11 = (l11 - 2u);
    if (l11 > 1u) goto L19;
    goto L17;
L18:;
    l6 = (l8 >> 1);
    ipl_w57_mirror(m, l0, l4, (l0 + ((l14 - l6) << 4)), l6);
L17:;
    l7 = (l14 - l1);
    if (l7 > 15u) goto L22;
    if (l7 < 2u) goto L1;
    l6 = (l0 + (l1 << 4));
    l8 = (((l8 + l2) + l1) - 1u);
    l2 = (((l14 << 4) + l0) - 16u);
L23:;
    if (l1 >= l8) goto L25;
    l0 = IPL_L64U(l6, 0u);
    l4 = IPL_L64U(l2, 8u);
    IPL_S64U(l6, 0u, IPL_L64U(l2, 0u));
    l5 = IPL_L64U(l6, 8u);
    IPL_S64U(l6, 8u, l4);
    IPL_S64U(l2, 8u, l5);
    IPL_S64U(l2, 0u, l0);
    goto L24;
L25:;
    if (l8 >= l1) goto L24;
    l0 = IPL_L64U(l2, 0u);
    l4 = IPL_L64U(l6, 8u);
    IPL_S64U(l2, 0u, IPL_L64U(l6, 0u));
    l5 = IPL_L64U(l2, 8u);
    IPL_S64U(l2, 8u, l4);
    IPL_S64U(l6, 8u, l5);
    IPL_S64U(l6, 0u, l0);
L24:;
    l8 = (l8 - 1u);
    l2 = (l2 - 16u);
    l6 = (l6 + 16u);
    l1 = (l1 + 1u);
    l7 = (l7 - 2u);
    if (l7 > 1u) goto L23;
    goto L1;
L22:;
    l2 = (l7 >> 1);
    ipl_w57_mirror(m, l0, l1, (l0 + ((l14 - l2) << 4)), l2);
L1:;
    IPL_G(0) = (l3 + 96u);
}

/* buffer_pool::index::PageIndex::remove */
static void ipl_w54_remove(ipl_u8 *const m, ipl_u64 l0, ipl_u64 l1) {
    ipl_u64 l2 = 0, l3 = 0, l4 = 0, l5 = 0, l6 = 0, l7 = 0, l8 = 0;
    IPL_ENDS
    l2 = (ipl_u64)0u;
    l3 = IPL_L64((l0 + 1024u), 0u);
    if (l3 > 1u) goto L3;
    switch ((ipl_u32)l3) {
    case 1u: goto L2;
    default: goto L1;
    }
L3:;
    l4 = l3;
L4:;
    l5 = (l4 >> 1);
    l6 = (l5 + l2);
    l2 = (IPL_L64((l0 + (l6 << 4)), 0u) > l1 ? l2 : l6);
    l4 = (l4 - l5);
    if (l4 > 1u) goto L4;
L2:;
    l7 = (l0 + (l2 << 4));
    if (IPL_L64(l7, 0u) != l1) goto L1;
    l2 = (l3 - l2);
    if (l2 == 1u) goto L5;
    l8 = IPL_L64U(l7, 8u);
    l6 = (ipl_u64)0u;
    l3 = (l2 - 1u);
    l2 = l3;
    if (l3 < 129u) goto L7;
    l6 = (ipl_u64)0u;
    l5 = l7;
L8:;
    l4 = (ipl_u64)0u;
L9:;
    l2 = (l5 + l4);
    IPL_S64U(l2, 8u, IPL_L64U(l2, 24u));
    IPL_S64U(l2, 0u, IPL_L64U(l2, 16u));
    l4 = (l4 + 16u);
    if (l4 != 2048u) goto L9;
    l5 = (l5 + 2048u);
    l6 = (l6 + 128u);
    l2 = (l3 - l6);
    if (l2 > 128u) goto L8;
    if (l3 == l6) goto L6;
L7:;
    l2 = (l2 << 4);
    if (l2 == 0) goto L6;
    l4 = (l7 + (l6 << 4));
    IPL_COPY(l4, (l4 + 16u), l2);
L6:;
    l2 = (l7 + (l3 << 4));
    IPL_S64U(l2, 0u, l1);
    IPL_S64U(l2, 8u, l8);
    l3 = IPL_L64((l0 + 1024u), 0u);
L5:;
    l2 = (l3 - 1u);
    IPL_S64((l0 + 1024u), 0u, l2);
    l2 = (l0 + (l2 << 4));
    IPL_S64U(l2, 8u, (ipl_u64)0u);
    IPL_S64U(l2, 0u, (ipl_u64)0u);
    return;
L1:;
    ipl_trap(m);
}

/* core::slice::edits::slice+T::swap_with_slice::<14'(,)::<i64,i64>> */
static void ipl_w55_swap_with_slice(ipl_u8 *const m, ipl_u64 l0, ipl_u64 l1, ipl_u64 l2) {
    ipl_u64 l3 = 0, l4 = 0, l5 = 0;
    IPL_ENDS
    if (l1 == 0) goto L1;
L2:;
    l3 = IPL_L64U(l0, 0u);
    l4 = IPL_L64U(l2, 8u);
    IPL_S64U(l0, 0u, IPL_L64U(l2, 0u));
    l5 = IPL_L64U(l0, 8u);
    IPL_S64U(l0, 8u, l4);
    IPL_S64U(l2, 8u, l5);
    IPL_S64U(l2, 0u, l3);
    l2 = (l2 + 16u);
    l0 = (l0 + 16u);
    l1 = (l1 - 1u);
    if (l1 != 0u) goto L2;
L1:;
}

/* core::slice::edits::turn_through_room::<14'(,)::<i64,i64>> */
static void ipl_w56_turn_through_room(ipl_u8 *const m, ipl_u64 l0, ipl_u64 l1, ipl_u64 l2, ipl_u64 l3) {
    ipl_u64 l4 = 0, l5 = 0, l6 = 0, l7 = 0, l8 = 0, l9 = 0, l10 = 0, l11 = 0, t1;
    IPL_ENDS
    t1 = IPL_G(0);
    l4 = (t1 - 4096u);
    IPL_G(0) = l4;
    IPL_FILL(l4, 0u, (ipl_u64)4096u);
    l5 = (l1 - l3);
    if (l3 != l2) goto L2;
    l6 = (l3 << 4);
    if ((l4 - l0) >= l6) goto L4;
    l2 = l4;
    l7 = l0;
    l8 = l3;
L5:;
    IPL_S64U(l2, 8u, IPL_L64U(l7, 8u));
    IPL_S64U(l2, 0u, IPL_L64U(l7, 0u));
    l2 = (l2 + 16u);
    l7 = (l7 + 16u);
    l8 = (l8 - 1u);
    if (!(l8 == 0)) goto L5;
    goto L3;
L4:;
    if (l6 == 0) goto L3;
    IPL_COPY(l4, l0, l6);
L3:;
    l9 = (ipl_u64)0u;
    l2 = l5;
    if (l5 < 129u) goto L6;
    l7 = (l0 + l6);
    l9 = (ipl_u64)0u;
    l8 = l0;
L7:;
    if (l9 < (l9 + l3)) goto L9;
    l2 = (ipl_u64)2032u;
L10:;
    l10 = (l7 + l2);
    l1 = IPL_L64U(l10, 0u);
    l11 = (l8 + l2);
    IPL_S64U(l11, 8u, IPL_L64U(l10, 8u));
    IPL_S64U(l11, 0u, l1);
    l2 = (l2 - 16u);
    if (l2 != 18446744073709551600ull) goto L10;
    goto L8;
L9:;
    l2 = (ipl_u64)0u;
L11:;
    l10 = (l7 + l2);
    l1 = IPL_L64U(l10, 0u);
    l11 = (l8 + l2);
    IPL_S64U(l11, 8u, IPL_L64U(l10, 8u));
    IPL_S64U(l11, 0u, l1);
    l2 = (l2 + 16u);
    if (l2 != 2048u) goto L11;
L8:;
    l8 = (l8 + 2048u);
    l7 = (l7 + 2048u);
    l9 = (l9 + 128u);
    l2 = (l5 - l9);
    if (l2 > 128u) goto L7;
L6:;
    l8 = (l9 << 4);
    l7 = (l9 + l3);
    l10 = (l7 << 4);
    if (l9 >= l7) goto L13;
    if (l5 == l9) goto L12;
    l7 = (l0 + l8);
    l8 = (l0 + l10);
L14:;
    l10 = IPL_L64U(l8, 0u);
    IPL_S64U(l7, 8u, IPL_L64U(l8, 8u));
    IPL_S64U(l7, 0u, l10);
    l7 = (l7 + 16u);
    l8 = (l8 + 16u);
    l2 = (l2 - 1u);
    if (!(l2 == 0)) goto L14;
    goto L12;
L13:;
    if (l5 == l9) goto L12;
    l1 = (l2 << 4);
    l7 = (((l8 + l1) + l0) - 16u);
    l8 = (((l1 + l10) + l0) - 16u);
L15:;
    l10 = IPL_L64U(l8, 0u);
    IPL_S64U(l7, 8u, IPL_L64U(l8, 8u));
    IPL_S64U(l7, 0u, l10);
    l7 = (l7 - 16u);
    l8 = (l8 - 16u);
    l2 = (l2 - 1u);
    if (l2 != 0u) goto L15;
L12:;
    l2 = (l0 + (l5 << 4));
    if ((l2 - l4) >= l6) goto L16;
    l7 = l4;
L17:;
    IPL_S64U(l2, 8u, IPL_L64U(l7, 8u));
    IPL_S64U(l2, 0u, IPL_L64U(l7, 0u));
    l2 = (l2 + 16u);
    l7 = (l7 + 16u);
    l3 = (l3 - 1u);
    if (!(l3 == 0)) goto L17;
    goto L1;
L16:;
    if (l6 == 0) goto L1;
    IPL_COPY(l2, l4, l6);
    goto L1;
L2:;
    l2 = (l0 + (l5 << 4));
    l11 = (l3 << 4);
    if ((l4 - l2) >= l11) goto L21;
    if (l3 == 0) goto L19;
    l7 = l4;
    l8 = l3;
L22:;
    IPL_S64U(l7, 8u, IPL_L64U(l2, 8u));
    IPL_S64U(l7, 0u, IPL_L64U(l2, 0u));
    l7 = (l7 + 16u);
    l2 = (l2 + 16u);
    l8 = (l8 - 1u);
    if (!(l8 == 0)) goto L22;
    goto L20;
L21:;
    if (l11 == 0) goto L23;
    IPL_COPY(l4, l2, l11);
L23:;
    if (l3 == 0) goto L19;
L20:;
    if (l1 == l3) goto L24;
    l10 = (0u - (l3 << 4));
    l2 = (((l1 << 4) + l0) - 16u);
L25:;
    l7 = (l2 + l10);
    l8 = IPL_L64U(l7, 0u);
    IPL_S64U(l2, 8u, IPL_L64U(l7, 8u));
    IPL_S64U(l2, 0u, l8);
    l2 = (l2 - 16u);
    l5 = (l5 - 1u);
    if (l5 != 0u) goto L25;
L24:;
    if ((l0 - l4) >= l11) goto L18;
    l2 = l4;
L26:;
    IPL_S64U(l0, 8u, IPL_L64U(l2, 8u));
    IPL_S64U(l0, 0u, IPL_L64U(l2, 0u));
    l0 = (l0 + 16u);
    l2 = (l2 + 16u);
    l3 = (l3 - 1u);
    if (l3 != 0u) goto L26;
    goto L1;
L19:;
    if ((l0 - l4) < l11) goto L1;
L18:;
    if (l11 == 0) goto L1;
    IPL_COPY(l0, l4, l11);
L1:;
    IPL_G(0) = (l4 + 4096u);
}

/* core::slice::edits::mirror::<14'(,)::<i64,i64>> */
static void ipl_w57_mirror(ipl_u8 *const m, ipl_u64 l0, ipl_u64 l1, ipl_u64 l2, ipl_u64 l3) {
    ipl_u64 l4 = 0, l5 = 0;
    IPL_ENDS
    l1 = (l0 + (l1 << 4));
    l0 = (((l3 << 4) + l2) - 16u);
L1:;
    l2 = IPL_L64U(l1, 0u);
    l4 = IPL_L64U(l0, 8u);
    IPL_S64U(l1, 0u, IPL_L64U(l0, 0u));
    l5 = IPL_L64U(l1, 8u);
    IPL_S64U(l1, 8u, l4);
    IPL_S64U(l0, 8u, l5);
    IPL_S64U(l0, 0u, l2);
    l0 = (l0 - 16u);
    l1 = (l1 + 16u);
    l3 = (l3 - 1u);
    if (l3 != 0u) goto L1;
}

/* ipl_store::store::Store::share::<#81e02dbab8cd6729> */
static void ipl_w58_share(ipl_u8 *const m, ipl_u64 l0, ipl_u64 l1, ipl_u64 l2, ipl_u32 l3, ipl_u32 l4) {
    ipl_u32 l6 = 0, l8 = 0, l9 = 0, l10 = 0, l11 = 0, l18 = 0, l19 = 0, l20 = 0, l21 = 0, l22 = 0;
    ipl_u64 l5 = 0, l7 = 0, l12 = 0, l13 = 0, l14 = 0, l15 = 0, l16 = 0, l17 = 0, t1;
    IPL_ENDS
    t1 = IPL_G(0);
    l5 = (t1 - 48u);
    IPL_G(0) = l5;
    IPL_S64(l5, 16u, (ipl_u64)0u);
    IPL_S64(l5, 8u, (ipl_u64)0u);
    IPL_S64(l5, 0u, (ipl_u64)0u);
    l6 = 0u;
    l7 = IPL_L64((l1 + 2616u), 0u);
    if (l3 < (ipl_u32)l7) goto L3;
    l8 = 1u;
    l9 = 0u;
    goto L2;
L3:;
    if (IPL_L32((l1 + 2960u), 0u) > (l4 / 960u)) goto L4;
    l9 = 0u;
    l8 = 1u;
    l10 = 1u;
    l11 = 0u;
    goto L1;
L4:;
    l8 = 1u;
    l12 = IPL_L64((l1 + 2608u), 0u);
    l13 = (l12 + ((ipl_u64)l3 * 2600u));
    if (IPL_L8(l13, 0u) == 1u) goto L5;
    l9 = 0u;
    l10 = 4u;
    l11 = 0u;
    goto L1;
L5:;
    if (l7 == 0) goto L6;
    l14 = (l12 + 16u);
    l15 = (ipl_u64)0u;
L7:;
    l11 = (ipl_u32)l15;
    if (l3 == l11) goto L8;
    l16 = (l12 + (l15 * 2600u));
    if ((IPL_L8(l16, 0u) & 255u) != 1u) goto L8;
    l17 = l14;
    l16 = IPL_L64((l16 + 1040u), 0u);
    if (l16 == 0) goto L8;
L10:;
    if (IPL_L32(l17, 0u) == l4) goto L9;
    l17 = (l17 + 4u);
    l16 = (l16 - 1u);
    if (l16 == 0) goto L8;
    goto L10;
L9:;
    l10 = 5u;
    l9 = 0u;
    l8 = 1u;
    goto L1;
L8:;
    l14 = (l14 + 2600u);
    l15 = (l15 + 1u);
    if (l15 != l7) goto L7;
L6:;
    l16 = IPL_L64((l13 + 1040u), 0u);
    if (l16 == 0) goto L12;
    l17 = (l13 + 16u);
L13:;
    if (IPL_L32(l17, 0u) == l4) goto L11;
    l17 = (l17 + 4u);
    l16 = (l16 - 1u);
    if (!(l16 == 0)) goto L13;
L12:;
    l15 = IPL_L64((l13 + 2592u), 0u);
    if (l15 == 0) goto L11;
    l17 = (l13 + 1568u);
    l16 = l15;
L14:;
    if (IPL_L32(l17, 0u) == l4) goto L11;
    l17 = (l17 + 4u);
    l16 = (l16 - 1u);
    if (!(l16 == 0)) goto L14;
    if (l15 <= 255u) goto L11;
    l11 = 0u;
    l10 = 7u;
    l9 = 0u;
    goto L1;
L11:;
    l8 = 0u;
    l9 = 1u;
L2:;
    l10 = 0u;
    l11 = 0u;
L1:;
    l18 = 0u;
    l19 = 0u;
    l20 = 0u;
    l21 = 0u;
    l22 = 0u;
    if (IPL_L8((l1 + 2968u), 0u) != 0) goto L16;
    if (IPL_L64((l1 + 608u), 0u) <= 18446744073708503040ull) goto L18;
    l18 = 0u;
    l6 = 1u;
    l19 = 0u;
    l20 = 0u;
    goto L17;
L18:;
    if (l9 != 0) goto L19;
    l20 = 0u;
    l6 = (l8 != 0 ? 2u : 0u);
    l19 = (l8 != 0 ? l11 : 0u);
    l18 = (l8 != 0 ? l10 : 0u);
    goto L17;
L19:;
    IPL_S64(l5, 40u, (ipl_u64)0u);
    IPL_S64(l5, 32u, (ipl_u64)0u);
    IPL_S64(l5, 24u, (ipl_u64)0u);
    ipl_w49_bring(m, (l5 + 24u), l1, l2, (l4 / 960u), ((l4 >> 6) % 15u));
    if (IPL_L8(l5, 24u) == 0) goto L20;
    l22 = IPL_L32(l5, 44u);
    l21 = IPL_L32(l5, 40u);
    l20 = IPL_L32(l5, 36u);
    l19 = IPL_L32(l5, 32u);
    l18 = IPL_L8(l5, 28u);
    if (((1u << (l18 & 31u)) & 13u) != 0) goto L21;
    IPL_S8((l1 + 2968u), 0u, 1u);
L21:;
    l6 = 3u;
    goto L16;
L20:;
    l2 = IPL_L64((l1 + 2608u), 0u);
    l14 = (l2 + ((ipl_u64)l3 * 2600u));
    if (IPL_L8(l14, 0u) != 1u) goto L22;
    l12 = IPL_L64((l1 + 2616u), 0u);
    if (l12 == 0) goto L23;
    l7 = (l2 + 16u);
    l15 = (ipl_u64)0u;
L24:;
    if (l3 == (ipl_u32)l15) goto L25;
    l16 = (l2 + (l15 * 2600u));
    if ((IPL_L8(l16, 0u) & 255u) != 1u) goto L25;
    l17 = l7;
    l16 = IPL_L64((l16 + 1040u), 0u);
    if (l16 == 0) goto L25;
L26:;
    if (IPL_L32(l17, 0u) == l4) goto L22;
    l17 = (l17 + 4u);
    l16 = (l16 - 1u);
    if (!(l16 == 0)) goto L26;
L25:;
    l7 = (l7 + 2600u);
    l15 = (l15 + 1u);
    if (l15 != l12) goto L24;
L23:;
    l16 = (l14 + 16u);
    l7 = IPL_L64((l14 + 1040u), 0u);
    l19 = (ipl_u32)(l7 == 0);
    if (l19 != 0) goto L28;
    l17 = l16;
    l15 = l7;
L29:;
    if (IPL_L32(l17, 0u) == l4) goto L27;
    l17 = (l17 + 4u);
    l15 = (l15 - 1u);
    if (!(l15 == 0)) goto L29;
L28:;
    l2 = IPL_L64((l14 + 2592u), 0u);
    if (l2 == 0) goto L27;
    l17 = (l14 + 1568u);
    l15 = l2;
L30:;
    if (IPL_L32(l17, 0u) == l4) goto L27;
    l17 = (l17 + 4u);
    l15 = (l15 - 1u);
    if (!(l15 == 0)) goto L30;
    if (l2 > 255u) goto L22;
L27:;
    if (l19 != 0) goto L31;
L32:;
    if (IPL_L32(l16, 0u) == l4) goto L22;
    l16 = (l16 + 4u);
    l7 = (l7 - 1u);
    if (!(l7 == 0)) goto L32;
L31:;
    l7 = (l14 + 1568u);
    l2 = (l14 + 2592u);
    l15 = IPL_L64(l2, 0u);
    if (l15 == 0) goto L33;
    l17 = l7;
    l16 = l15;
L34:;
    if (IPL_L32(l17, 0u) == l4) goto L22;
    l17 = (l17 + 4u);
    l16 = (l16 - 1u);
    if (!(l16 == 0)) goto L34;
L33:;
    IPL_S32U((l7 + (l15 << 2)), 0u, l4);
    IPL_S64(l2, 0u, (l15 + 1u));
L22:;
    ipl_w50_seen(m, l5, l1, l3, l4);
    IPL_S64U(l0, 0u, (ipl_u64)0u);
    IPL_S32U(l0, 8u, IPL_L8(l5, 0u));
    l19 = 0u;
    l4 = IPL_L32(l5, 20u);
    l22 = IPL_L32(l5, 16u);
    l21 = IPL_L32(l5, 12u);
    l20 = IPL_L32(l5, 8u);
    goto L15;
L17:;
    l21 = 0u;
    l22 = 0u;
L16:;
    IPL_S32U(l0, 0u, 1u);
    IPL_S32U(l0, 8u, l18);
    IPL_S32U(l0, 4u, l6);
    l4 = 0u;
L15:;
    IPL_S32U(l0, 28u, l4);
    IPL_S32U(l0, 24u, l22);
    IPL_S32U(l0, 20u, l21);
    IPL_S32U(l0, 16u, l20);
    IPL_S32U(l0, 12u, l19);
    IPL_G(0) = (l5 + 48u);
}

/* ipl_store::store::Store::reserves */
static void ipl_w59_reserves(ipl_u8 *const m, ipl_u64 l0, ipl_u64 l1) {
    ipl_u32 l5 = 0, l6 = 0, l9 = 0, l11 = 0, l12 = 0, t1, t2;
    ipl_u64 l2 = 0, l3 = 0, l4 = 0, l7 = 0, l8 = 0, l10 = 0;
    IPL_ENDS
    l2 = IPL_L64((l1 + 352u), 0u);
    l3 = (ipl_u64)IPL_L32(l1, 8u);
    l4 = (ipl_u64)IPL_L32(l1, 40u);
    if (!(l4 == 0)) goto L2;
    l5 = 0u;
    l6 = (ipl_u32)4294967295u;
    goto L1;
L2:;
    l7 = (l4 << 2);
    l6 = (ipl_u32)4294967295u;
    l8 = (ipl_u64)0u;
    l9 = 0u;
    l10 = (l1 + 64u);
L3:;
    t1 = ipl_w60_is_retired(m, l1, l9);
    if (t1 != 0) goto L4;
    l11 = IPL_L32((IPL_L64(l10, 0u) + l8), 0u);
    l6 = (l11 < l6 ? l11 : l6);
L4:;
    l9 = (l9 + 1u);
    l8 = (l8 + 4u);
    if (l7 != l8) goto L3;
    l7 = (l4 << 2);
    l8 = (ipl_u64)0u;
    l5 = 0u;
    l10 = (l1 + 64u);
    l9 = 0u;
L5:;
    t2 = ipl_w60_is_retired(m, l1, l9);
    if (t2 != 0) goto L6;
    l11 = IPL_L32((IPL_L64(l10, 0u) + l8), 0u);
    l5 = (l11 > l5 ? l11 : l5);
L6:;
    l9 = (l9 + 1u);
    l8 = (l8 + 4u);
    if (l7 != l8) goto L5;
L1:;
    if (!(l3 == 0)) goto L8;
    l11 = 15u;
    goto L7;
L8:;
    l8 = IPL_L64((l1 + 360u), 0u);
    l7 = l3;
    l11 = 15u;
L9:;
    l12 = IPL_L32(l8, 0u);
    if (l12 > 15u) goto L11;
    l9 = (l12 ^ 15u);
    goto L10;
L11:;
    l9 = 0u;
    if (l12 > 31u) goto L10;
    l9 = ((l12 ^ 15u) + (ipl_u32)4294967280u);
L10:;
    l11 = (l9 < l11 ? l9 : l11);
    l8 = (l8 + 4u);
    l7 = (l7 - 1u);
    if (l7 != 0u) goto L9;
L7:;
    l9 = 0u;
    if (IPL_L64((l1 + 592u), 0u) < (IPL_L64((l1 + 576u), 0u) + 60u)) goto L12;
    l9 = (256u - IPL_L32((l1 + 600u), 0u));
L12:;
    l8 = IPL_L64((l1 + 608u), 0u);
    IPL_S32U(l0, 20u, l9);
    IPL_S32U(l0, 16u, l11);
    IPL_S32U(l0, 12u, l5);
    IPL_S32U(l0, 8u, l6);
    IPL_S32U(l0, 4u, l2);
    IPL_S32U(l0, 0u, (((ipl_u32)l4 - (ipl_u32)l3) + (ipl_u32)4294967292u));
    l8 = (18446744073708503041ull - l8);
    IPL_S64U(l0, 24u, (l8 > 18446744073708503041ull ? (ipl_u64)0u : l8));
}

/* unit_directory::directory::Directory::is_retired */
static ipl_u32 ipl_w60_is_retired(ipl_u8 *const m, ipl_u64 l0, ipl_u32 l1) {
    ipl_u32 l3 = 0, l7 = 0, l8 = 0, l9 = 0;
    ipl_u64 l2 = 0, l4 = 0, l5 = 0, l6 = 0, l10 = 0;
    IPL_ENDS
    l2 = IPL_L64((l0 + 352u), 0u);
    if (!(l2 == 0)) goto L2;
    l3 = 0u;
    goto L1;
L2:;
    l4 = (l0 + 96u);
    if (l2 > 2u) goto L3;
    l3 = ((ipl_u32)(IPL_L32(l4, 0u) == l1) | (ipl_u32)(IPL_L32(((l4 + (l2 << 2)) - 4u), 0u) == l1));
    goto L1;
L3:;
    if (l2 > 8u) goto L4;
    l3 = 0u;
    l5 = (ipl_u64)0u;
L5:;
    l3 = (l3 | (ipl_u32)(IPL_L32((l4 + l5), 0u) == l1));
    l5 = (l5 + 4u);
    if (l5 != 8u) goto L5;
    l6 = (l2 - 2u);
    l4 = ((((l6 < 2u ? l6 : (ipl_u64)2u) << 2) + l0) + 96u);
    l7 = 0u;
    l5 = (ipl_u64)0u;
L6:;
    l7 = (l7 | (ipl_u32)(IPL_L32((l4 + l5), 0u) == l1));
    l5 = (l5 + 4u);
    if (l5 != 8u) goto L6;
    l4 = ((((l6 < 4u ? l6 : (ipl_u64)4u) << 2) + l0) + 96u);
    l8 = 0u;
    l5 = (ipl_u64)0u;
L7:;
    l8 = (l8 | (ipl_u32)(IPL_L32((l4 + l5), 0u) == l1));
    l5 = (l5 + 4u);
    if (l5 != 8u) goto L7;
    l4 = (((l2 << 2) + l0) + 88u);
    l9 = 0u;
    l5 = (ipl_u64)0u;
L8:;
    l9 = (l9 | (ipl_u32)(IPL_L32((l4 + l5), 0u) == l1));
    l5 = (l5 + 4u);
    if (l5 != 8u) goto L8;
    l3 = (((l3 | l7) | l8) | l9);
    goto L1;
L4:;
    if (l2 > 16u) goto L9;
    l3 = 0u;
    l5 = (ipl_u64)0u;
L10:;
    l3 = (l3 | (ipl_u32)(IPL_L32((l4 + l5), 0u) == l1));
    l5 = (l5 + 4u);
    if (l5 != 32u) goto L10;
    l4 = (((l2 << 2) + l0) + 64u);
    l7 = 0u;
    l5 = (ipl_u64)0u;
L11:;
    l7 = (l7 | (ipl_u32)(IPL_L32((l4 + l5), 0u) == l1));
    l5 = (l5 + 4u);
    if (l5 != 32u) goto L11;
    l3 = (l3 | l7);
    goto L1;
L9:;
    l10 = (l2 & 18446744073709551600ull);
    l6 = (ipl_u64)0u;
L13:;
    l3 = 0u;
    l5 = (ipl_u64)0u;
L14:;
    l3 = (l3 | (ipl_u32)(IPL_L32((l4 + l5), 0u) == l1));
    l5 = (l5 + 4u);
    if (l5 != 64u) goto L14;
    if ((l3 & 1u) != 0) goto L12;
    l4 = (l4 + 64u);
    l6 = (l6 + 16u);
    if ((l2 - l6) > 15u) goto L13;
    l6 = l10;
L12:;
    if ((l2 - l6) < 8u) goto L15;
    l4 = (((l6 << 2) + l0) + 96u);
L16:;
    l3 = 0u;
    l5 = (ipl_u64)0u;
L17:;
    l3 = (l3 | (ipl_u32)(IPL_L32((l4 + l5), 0u) == l1));
    l5 = (l5 + 4u);
    if (l5 != 32u) goto L17;
    if ((l3 & 1u) != 0) goto L18;
    l4 = (l4 + 32u);
    l6 = (l6 + 8u);
    if ((l2 - l6) > 7u) goto L16;
    goto L15;
L18:;
    if ((l2 - l6) <= 7u) goto L15;
    l3 = 1u;
    goto L1;
L15:;
    l4 = (((l2 << 2) + l0) + 64u);
    l3 = 0u;
    l5 = (ipl_u64)0u;
L19:;
    l3 = (l3 | (ipl_u32)(IPL_L32((l4 + l5), 0u) == l1));
    l5 = (l5 + 4u);
    if (l5 != 32u) goto L19;
L1:;
    return (l3 & 1u);
}

/* ipl_store::store::Store::merge::<#81e02dbab8cd6729> */
static void ipl_w61_merge(ipl_u8 *const m, ipl_u64 l0, ipl_u64 l1, ipl_u64 l2, ipl_u32 l3) {
    ipl_u32 l5 = 0, l6 = 0, l7 = 0, l8 = 0, l9 = 0, l10 = 0, l12 = 0;
    ipl_u64 l4 = 0, l11 = 0, t1;
    IPL_ENDS
    t1 = IPL_G(0);
    l4 = (t1 - 64u);
    IPL_G(0) = l4;
    l5 = 0u;
    l6 = 0u;
    if (IPL_L8((l1 + 2968u), 0u) != 0) goto L4;
    l7 = (ipl_u32)(IPL_L64((l1 + 608u), 0u) > 18446744073708503040ull);
    l6 = (l7 != 0 ? 1u : 2u);
    l5 = (l7 != 0 ? 0u : 9u);
    if (l7 != 0) goto L4;
    if (IPL_L32((l1 + 2960u), 0u) <= l3) goto L4;
    IPL_S64(l4, 16u, (ipl_u64)0u);
    IPL_S64(l4, 8u, (ipl_u64)0u);
    IPL_S64(l4, 0u, (ipl_u64)0u);
    IPL_S64(l4, 56u, (ipl_u64)0u);
    IPL_S64(l4, 48u, (ipl_u64)0u);
    IPL_S64(l4, 40u, (ipl_u64)0u);
    IPL_S64(l4, 32u, (ipl_u64)0u);
    IPL_S64(l4, 24u, (ipl_u64)0u);
    l5 = IPL_L32((IPL_L64(l1, 0u) + ((ipl_u64)l3 << 2)), 0u);
    ipl_w23_read_live(m, (l4 + 24u), l2, l1, (l1 + 456u), l3, (l1 + 928u));
    l6 = IPL_L32(l4, 44u);
    l7 = IPL_L32(l4, 40u);
    l8 = IPL_L32(l4, 32u);
    if (IPL_L8(l4, 24u) == 0) goto L6;
    l5 = IPL_L8(l4, 28u);
    l3 = IPL_L32(l4, 36u);
    l9 = 1u;
    goto L5;
L6:;
    IPL_S32U((l1 + 892u), 0u, l3);
    l10 = 0u;
    IPL_S16U((l1 + 890u), 0u, 0u);
    IPL_S8((l1 + 889u), 0u, l8);
    IPL_S8((l1 + 888u), 0u, 1u);
    IPL_S32U((l1 + 884u), 0u, 0u);
    IPL_S32U((l1 + 880u), 0u, l5);
    IPL_S64U((l1 + 912u), 0u, IPL_L64(l4, 48u));
    IPL_S64U((l1 + 919u), 0u, IPL_L64U(l4, 55u));
    IPL_S8((l1 + 927u), 0u, 0u);
    l11 = (((ipl_u64)l6 << 32) | (ipl_u64)l7);
    IPL_S64U((l1 + 904u), 0u, l11);
    IPL_S64U((l1 + 896u), 0u, l11);
    ipl_w40_merge_learnt(m, l4, l2, l1, l3);
    l9 = IPL_L8(l4, 0u);
    if (l9 == 0) goto L3;
    l6 = IPL_L32(l4, 20u);
    l7 = IPL_L32(l4, 16u);
    l3 = IPL_L32(l4, 12u);
    l8 = IPL_L32(l4, 8u);
    l5 = IPL_L8(l4, 4u);
L5:;
    l12 = 3u;
    if (((1u << ((l5 & 255u) & 31u)) & 13u) != 0) goto L7;
    IPL_S8((l1 + 2968u), 0u, 1u);
L7:;
    l10 = l9;
    goto L2;
L4:;
    IPL_S8(l0, 0u, 1u);
    IPL_S64U(l0, 12u, (ipl_u64)0u);
    IPL_S32U(l0, 8u, l5);
    IPL_S32U(l0, 4u, l6);
    IPL_S64U(l0, 20u, (ipl_u64)0u);
    goto L1;
L3:;
    l12 = 0u;
    l5 = 0u;
    l8 = 0u;
    l3 = 0u;
    l7 = 0u;
    l6 = 0u;
L2:;
    IPL_S8(l0, 0u, l10);
    IPL_S32U(l0, 24u, l6);
    IPL_S32U(l0, 20u, l7);
    IPL_S32U(l0, 16u, l3);
    IPL_S32U(l0, 12u, l8);
    IPL_S32U(l0, 8u, (l5 & 255u));
    IPL_S32U(l0, 4u, l12);
L1:;
    IPL_G(0) = (l4 + 64u);
}

/* ipl_store::store::Store::close::<#81e02dbab8cd6729> */
static void ipl_w62_close(ipl_u8 *const m, ipl_u64 l0, ipl_u64 l1, ipl_u64 l2) {
    ipl_u32 l4 = 0, l6 = 0, l7 = 0, l8 = 0, l10 = 0, l11 = 0, l12 = 0, t2, t4, t5;
    ipl_u64 l3 = 0, l5 = 0, l9 = 0, l13 = 0, l14 = 0, t1, t3, t6, t7;
    IPL_ENDS
    t1 = IPL_G(0);
    l3 = (t1 - 688u);
    IPL_G(0) = l3;
    l4 = 0u;
    l5 = (ipl_u64)IPL_L32((l1 + 2616u), 0u);
    if (!(l5 == 0)) goto L3;
    l6 = 1u;
    l7 = 0u;
    l8 = 0u;
    goto L2;
L3:;
    l9 = IPL_L64((l1 + 2608u), 0u);
    l6 = 0u;
    l10 = 0u;
L4:;
    l7 = 1u;
    if (IPL_L8(l9, 0u) != 1u) goto L5;
    l8 = 14u;
    goto L1;
L5:;
    l9 = (l9 + 2600u);
    l10 = (l10 + 1u);
    l5 = (l5 - 1u);
    if (l5 != 0u) goto L4;
    l8 = 0u;
    l7 = 0u;
    l6 = 1u;
L2:;
    l10 = 0u;
L1:;
    if (IPL_L8((l1 + 2968u), 0u) == 0) goto L9;
    l11 = 0u;
    l12 = 0u;
    goto L8;
L9:;
    l12 = 1u;
    l11 = 0u;
    if (IPL_L64((l1 + 608u), 0u) > 18446744073708503040ull) goto L8;
    if (l6 != 0) goto L7;
    l12 = (l7 != 0 ? 2u : 0u);
    l4 = (l7 != 0 ? l10 : 0u);
    l11 = (l7 != 0 ? l8 : 0u);
L8:;
    IPL_S8(l0, 0u, 1u);
    IPL_S32U(l0, 24u, 0u);
    IPL_S64U(l0, 16u, (ipl_u64)0u);
    IPL_S32U(l0, 12u, l4);
    IPL_S32U(l0, 8u, l11);
    IPL_S32U(l0, 4u, l12);
    goto L6;
L7:;
    if (IPL_L64((l1 + 592u), 0u) < (IPL_L64((l1 + 576u), 0u) + 60u)) goto L11;
    if (IPL_L32((l1 + 600u), 0u) != 256u) goto L10;
L11:;
    IPL_S64(l3, 192u, (ipl_u64)0u);
    IPL_S64(l3, 184u, (ipl_u64)0u);
    IPL_S64(l3, 176u, (ipl_u64)0u);
    ipl_w38_renew_with(m, (l3 + 176u), l2, l1, (l1 + 2640u), 0u);
    if (IPL_L8(l3, 176u) == 0) goto L10;
    l10 = IPL_L32(l3, 196u);
    l7 = IPL_L32(l3, 192u);
    l4 = IPL_L32(l3, 188u);
    l11 = IPL_L32(l3, 184u);
    l12 = IPL_L8(l3, 180u);
    if (((1u << (l12 & 31u)) & 13u) != 0) goto L12;
    IPL_S8((l1 + 2968u), 0u, 1u);
L12:;
    IPL_S8(l0, 0u, 1u);
    IPL_S32U(l0, 24u, l10);
    IPL_S32U(l0, 20u, l7);
    IPL_S32U(l0, 16u, l4);
    IPL_S32U(l0, 12u, l11);
    IPL_S32U(l0, 8u, l12);
    IPL_S32U(l0, 4u, 3u);
    goto L6;
L10:;
    t2 = ipl_to_ipl_nand_barrier(m, IPL_L64(l2, 0u));
    if (t2 != 0) goto L15;
    l5 = IPL_L64(l1, 8u);
    l10 = (ipl_u32)l5;
    IPL_S32(l3, 4u, (ipl_rotr32((l10 & (ipl_u32)16711935u), 8u) | (ipl_rotr32(l10, 24u) & (ipl_u32)16711935u)));
    l9 = (ipl_u64)4u;
    IPL_FILL(((l3 + 4u) + 4u), 0u, (ipl_u64)128u);
    if (l10 == 0) goto L16;
    l13 = (l5 & 4294967295ull);
    l9 = IPL_L64((l1 + 360u), 0u);
    l5 = (ipl_u64)0u;
L17:;
    if (IPL_L32(l9, 0u) > 31u) goto L18;
    l14 = ((l3 + 4u) + ((l5 >> 3) & 536870911ull));
    IPL_S8(l14, 4u, (IPL_L8(l14, 4u) | (1u << (((ipl_u32)l5 & 7u) & 31u))));
L18:;
    l9 = (l9 + 4u);
    l5 = (l5 + 1u);
    if (l13 != l5) goto L17;
    l9 = (((l13 + 7u) >> 3) + 4u);
L16:;
    l5 = (l1 + 608u);
    t3 = l5;
    l5 = IPL_L64(l5, 0u);
    IPL_S64(t3, 0u, (l5 + 1u));
    l10 = IPL_L32((l1 + 552u), 0u);
    l7 = IPL_L32((l1 + 600u), 0u);
    l13 = IPL_L64((l1 + 560u), 0u);
    IPL_S64(l3, 168u, l9);
    IPL_S64(l3, 152u, l5);
    IPL_S64(l3, 144u, l13);
    IPL_S64(l3, 136u, (ipl_u64)775u);
    IPL_S64(l3, 160u, (l3 + 4u));
    IPL_FILL((l3 + 176u), 0u, (ipl_u64)512u);
    ipl_w7_encode(m, (l3 + 136u), (l3 + 4u), l9, (l3 + 176u));
    t4 = ipl_to_ipl_nand_program(m, IPL_L64(l2, 0u), l10, l7, (l3 + 176u), (ipl_u64)512u);
    if (t4 != 0) goto L20;
    t5 = ipl_to_ipl_nand_barrier(m, IPL_L64(l2, 0u));
    if (t5 == 0) goto L19;
L20:;
    IPL_S8(l2, 16u, 0u);
    l9 = (l2 + 32u);
    t6 = l9;
    l9 = (IPL_L64(l9, 0u) + 1u);
    IPL_S64(t6, 0u, (l9 == 0 ? 18446744073709551615ull : l9));
    goto L14;
L19:;
    l9 = (l1 + 600u);
    IPL_S32(l9, 0u, (IPL_L32(l9, 0u) + 1u));
    l7 = 0u;
    l10 = 0u;
    goto L13;
L15:;
    IPL_S8(l2, 16u, 0u);
    l9 = (l2 + 32u);
    t7 = l9;
    l9 = (IPL_L64(l9, 0u) + 1u);
    IPL_S64(t7, 0u, (l9 == 0 ? 18446744073709551615ull : l9));
L14:;
    l7 = 3u;
    l10 = 1u;
L13:;
    IPL_S16U((l1 + 2968u), 0u, 257u);
    IPL_S64U(l0, 12u, (ipl_u64)0u);
    IPL_S32U(l0, 8u, l10);
    IPL_S32U(l0, 4u, l7);
    IPL_S8(l0, 0u, l10);
    IPL_S64U(l0, 20u, (ipl_u64)0u);
L6:;
    IPL_G(0) = (l3 + 688u);
}

/* ipl_store::store::Store::put::<#81e02dbab8cd6729> */
static void ipl_w63_put(ipl_u8 *const m, ipl_u64 l0, ipl_u64 l1, ipl_u64 l2, ipl_u32 l3, ipl_u32 l4, ipl_u64 l5, ipl_u64 l6) {
    ipl_u32 l8 = 0, l10 = 0, l11 = 0, l12 = 0, l13 = 0, l14 = 0;
    ipl_u64 l7 = 0, l9 = 0, l15 = 0, l16 = 0, l17 = 0, l18 = 0, l19 = 0, l20 = 0, l21 = 0, l22 = 0, l23 = 0, t1;
    IPL_ENDS
    t1 = IPL_G(0);
    l7 = (t1 - 1456u);
    IPL_G(0) = l7;
    IPL_S64(l7, 976u, (ipl_u64)0u);
    IPL_S64(l7, 968u, (ipl_u64)0u);
    IPL_S64(l7, 960u, (ipl_u64)0u);
    l8 = 0u;
    IPL_FILL((l7 + 8u), 0u, (ipl_u64)480u);
    IPL_S32(l7, 992u, 0u);
    IPL_S64(l7, 984u, (ipl_u64)0u);
    l9 = IPL_L64((l1 + 2616u), 0u);
    if (l3 < (ipl_u32)l9) goto L2;
    l10 = 1u;
    l11 = 0u;
    l12 = 0u;
    goto L1;
L2:;
    l10 = 1u;
    if (IPL_L32((l1 + 2960u), 0u) > (l4 / 960u)) goto L3;
    l11 = 1u;
    l12 = 0u;
    goto L1;
L3:;
    if (l6 <= 464u) goto L4;
    l11 = 2u;
    l12 = 0u;
    goto L1;
L4:;
    ipl_w64_refuses_write(m, (l7 + 984u), IPL_L64((l1 + 2608u), 0u), l9, l3, l4, ((ipl_u32)l6 + 3u));
    l12 = IPL_L32(l7, 992u);
    l11 = IPL_L8(l7, 988u);
    l10 = IPL_L8(l7, 984u);
L1:;
    l13 = 0u;
    l14 = 0u;
    if (IPL_L8((l1 + 2968u), 0u) != 0) goto L7;
    if (IPL_L64((l1 + 608u), 0u) <= 18446744073708503040ull) goto L8;
    l14 = 1u;
    l8 = 0u;
    l13 = 0u;
    goto L7;
L8:;
    l8 = (l10 & 255u);
    if (l8 == 0) goto L6;
    l13 = (ipl_u32)(l8 == 1u);
    l14 = (l13 != 0 ? 2u : 0u);
    l8 = (l13 != 0 ? l12 : 0u);
    l13 = (l13 != 0 ? l11 : 0u);
L7:;
    IPL_S8(l0, 0u, 1u);
    IPL_S32U(l0, 24u, 0u);
    IPL_S64U(l0, 16u, (ipl_u64)0u);
    IPL_S32U(l0, 12u, l8);
    IPL_S32U(l0, 8u, (l13 & 255u));
    IPL_S32U(l0, 4u, l14);
    goto L5;
L6:;
    IPL_FILL((l7 + 984u), 0u, (ipl_u64)464u);
    if (l6 > 464u) goto L9;
    if (l6 == 0) goto L10;
    IPL_COPY((l7 + 984u), l5, l6);
L10:;
    IPL_S64(l7, 1448u, l6);
    IPL_COPY((l7 + 488u), (l7 + 984u), (ipl_u64)472u);
    l5 = (ipl_u64)0u;
    IPL_S64(l7, 1000u, (ipl_u64)0u);
    IPL_S64(l7, 992u, (ipl_u64)0u);
    IPL_S64(l7, 984u, (ipl_u64)0u);
    l8 = (l4 / 960u);
    l13 = ((l4 >> 6) % 15u);
    ipl_w49_bring(m, (l7 + 984u), l1, l2, l8, l13);
    if (IPL_L8(l7, 984u) == 0) goto L11;
    l8 = IPL_L32(l7, 1004u);
    l13 = IPL_L32(l7, 1000u);
    l14 = IPL_L32(l7, 996u);
    l3 = IPL_L32(l7, 992u);
    l4 = IPL_L8(l7, 988u);
    if (((1u << (l4 & 31u)) & 13u) != 0) goto L12;
    IPL_S8((l1 + 2968u), 0u, 1u);
L12:;
    IPL_S8(l0, 0u, 1u);
    IPL_S32U(l0, 24u, l8);
    IPL_S32U(l0, 20u, l13);
    IPL_S32U(l0, 16u, l14);
    IPL_S32U(l0, 12u, l3);
    IPL_S32U(l0, 8u, l4);
    IPL_S32U(l0, 4u, 3u);
    goto L5;
L11:;
    l15 = (l1 + 1560u);
    l16 = (ipl_u64)((l8 * 15u) + l13);
    l9 = IPL_L64((l1 + 2584u), 0u);
    if (l9 > 1u) goto L15;
    switch ((ipl_u32)l9) {
    case 1u: goto L14;
    default: goto L13;
    }
L15:;
    l5 = (ipl_u64)0u;
L16:;
    l17 = (l9 >> 1);
    l18 = (l17 + l5);
    l5 = (IPL_L64((l15 + (l18 << 4)), 0u) > l16 ? l5 : l18);
    l9 = (l9 - l17);
    if (l9 > 1u) goto L16;
    l5 = (l5 << 4);
L14:;
    l9 = (l15 + l5);
    if (IPL_L64(l9, 0u) != l16) goto L13;
    l9 = IPL_L64(l9, 8u);
    if (l9 >= IPL_L64((l1 + 1528u), 0u)) goto L9;
    l19 = (IPL_L64((l1 + 1520u), 0u) + (l9 * 16728u));
    if (IPL_L8(l19, 0u) != 1u) goto L9;
    IPL_S64(l7, 1040u, 2314885530818453536ull);
    IPL_S64(l7, 1032u, 2314885530818453536ull);
    IPL_S64(l7, 1024u, 2314885530818453536ull);
    IPL_S64(l7, 1016u, 2314885530818453536ull);
    IPL_S64(l7, 1008u, 2314885530818453536ull);
    IPL_S64(l7, 1000u, 2314885530818453536ull);
    IPL_S64(l7, 992u, 2314885530818453536ull);
    IPL_S64(l7, 984u, 2314885530818453536ull);
    l8 = (l4 & (ipl_u32)4294967232u);
    l15 = (ipl_u64)IPL_L32((l1 + 2616u), 0u);
    if (l15 == 0) goto L17;
    l16 = IPL_L64((l1 + 2608u), 0u);
    l18 = (l16 + 16u);
    l17 = (ipl_u64)0u;
L18:;
    l9 = (l16 + (l17 * 2600u));
    if (IPL_L8(l9, 0u) != 1u) goto L19;
    l5 = IPL_L64((l9 + 1040u), 0u);
    if (l5 == 0) goto L19;
    l14 = (ipl_u32)l17;
    l9 = l18;
L20:;
    l13 = IPL_L32(l9, 0u);
    if (l13 < l8) goto L21;
    l13 = (l13 - l8);
    if (l13 > 63u) goto L21;
    IPL_S8(((l7 + 984u) + (ipl_u64)l13), 0u, l14);
L21:;
    l9 = (l9 + 4u);
    l5 = (l5 - 1u);
    if (l5 != 0u) goto L20;
L19:;
    l18 = (l18 + 2600u);
    l17 = (l17 + 1u);
    if (l17 != l15) goto L18;
L17:;
    l16 = (l6 + 3u);
    l20 = (l19 + 7712u);
    l19 = (ipl_u64)IPL_L16((l19 + 7840u), 0u);
    l21 = (ipl_u64)l4;
    l22 = (ipl_u64)l8;
    l14 = (ipl_u32)l15;
    l23 = (l1 + 2608u);
    l17 = (ipl_u64)0u;
L22:;
    l18 = (l17 | l22);
    l9 = (ipl_u64)0u;
    l8 = IPL_L8(((l7 + 984u) + l17), 0u);
    if (l8 >= l14) goto L23;
    l9 = (ipl_u64)0u;
    l5 = (IPL_L64(l23, 0u) + (ipl_u64)(l8 * 2600u));
    if (IPL_L8(l5, 0u) != 1u) goto L23;
    l9 = (ipl_u64)0u;
    l15 = IPL_L64((l5 + 1040u), 0u);
    if (l15 == 0) goto L23;
    l6 = (l5 + 1048u);
    l9 = (l5 + 16u);
    l5 = (ipl_u64)0u;
L25:;
    if (l18 == (ipl_u64)IPL_L32(l9, 0u)) goto L24;
    l9 = (l9 + 4u);
    l6 = (l6 + 2u);
    l5 = (l5 + 1u);
    if (l15 != l5) goto L25;
    l9 = (ipl_u64)0u;
    goto L23;
L24:;
    if (l15 > l5) goto L26;
    l9 = (ipl_u64)0u;
    goto L23;
L26:;
    l9 = (ipl_u64)IPL_L16(l6, 0u);
L23:;
    l9 = (l18 == l21 ? (l9 > l16 ? l9 : l16) : l9);
    if (l9 == 0) goto L27;
    l5 = (l20 + (l17 << 1));
    l8 = IPL_L16(l5, 0u);
    l13 = IPL_L16(l5, 2u);
    l5 = (l9 + ((ipl_u64)l8 - (ipl_u64)l13));
    l19 = ((l8 == l13 ? l9 : (l5 > l9 ? (ipl_u64)0u : l5)) + l19);
L27:;
    l17 = (l17 + 1u);
    if (l17 != 64u) goto L22;
    if (l19 <= 7680u) goto L13;
    IPL_S8(l0, 0u, 1u);
    IPL_S64U(l0, 12u, (ipl_u64)0u);
    IPL_S64U(l0, 4u, 51539607554ull);
    IPL_S64U(l0, 20u, (ipl_u64)0u);
    goto L5;
L13:;
    IPL_S64(l7, 8u, (ipl_u64)0u);
    IPL_COPY(((l7 + 8u) + 8u), (l7 + 488u), (ipl_u64)472u);
    ipl_w65_write(m, (l7 + 960u), l1, l2, l3, l4, (l7 + 8u));
    l8 = IPL_L8(l7, 960u);
    if (l8 != 0) goto L29;
    l13 = 0u;
    l14 = 0u;
    l3 = 0u;
    l4 = 0u;
    l10 = 0u;
    l11 = 0u;
    goto L28;
L29:;
    l11 = IPL_L32(l7, 980u);
    l10 = IPL_L32(l7, 976u);
    l4 = IPL_L32(l7, 972u);
    l3 = IPL_L32(l7, 968u);
    l13 = 3u;
    l14 = IPL_L8(l7, 964u);
    if (((1u << (l14 & 31u)) & 13u) != 0) goto L28;
    IPL_S8((l1 + 2968u), 0u, 1u);
L28:;
    IPL_S8(l0, 0u, l8);
    IPL_S32U(l0, 24u, l11);
    IPL_S32U(l0, 20u, l10);
    IPL_S32U(l0, 16u, l4);
    IPL_S32U(l0, 12u, l3);
    IPL_S32U(l0, 8u, l14);
    IPL_S32U(l0, 4u, l13);
    goto L5;
L9:;
    ipl_trap(m);
L5:;
    IPL_G(0) = (l7 + 1456u);
}

/* record_locks::sessions::Sessions::refuses_write */
static void ipl_w64_refuses_write(ipl_u8 *const m, ipl_u64 l0, ipl_u64 l1, ipl_u64 l2, ipl_u32 l3, ipl_u32 l4, ipl_u32 l5) {
    ipl_u32 l6 = 0, l7 = 0, l9 = 0, l13 = 0;
    ipl_u64 l8 = 0, l10 = 0, l11 = 0, l12 = 0, l14 = 0, l15 = 0, l16 = 0, l17 = 0;
    IPL_ENDS
    l6 = 1u;
    l7 = 0u;
    l8 = (l1 + ((ipl_u64)l3 * 2600u));
    if (IPL_L8(l8, 0u) == 1u) goto L2;
    l4 = 4u;
    goto L1;
L2:;
    l9 = (ipl_u32)(l2 == 0);
    if (l9 != 0) goto L4;
    l10 = (l1 + 1568u);
    l11 = (l1 + 16u);
    l12 = (ipl_u64)0u;
L5:;
    l13 = (ipl_u32)l12;
    if (l3 == l13) goto L6;
    l14 = (l1 + (l12 * 2600u));
    if ((IPL_L8(l14, 0u) & 255u) != 1u) goto L6;
    l15 = IPL_L64((l14 + 1040u), 0u);
    if (l15 == 0) goto L7;
    l16 = l11;
L8:;
    if (IPL_L32(l16, 0u) == l4) goto L3;
    l16 = (l16 + 4u);
    l15 = (l15 - 1u);
    if (l15 != 0u) goto L8;
L7:;
    l15 = IPL_L64((l14 + 2592u), 0u);
    if (l15 == 0) goto L6;
    l16 = l10;
L9:;
    if (IPL_L32(l16, 0u) == l4) goto L3;
    l16 = (l16 + 4u);
    l15 = (l15 - 1u);
    if (l15 != 0u) goto L9;
L6:;
    l10 = (l10 + 2600u);
    l11 = (l11 + 2600u);
    l12 = (l12 + 1u);
    if (l12 != l2) goto L5;
L4:;
    l12 = IPL_L64((l8 + 1040u), 0u);
    if (l12 == 0) goto L10;
    l16 = (l8 + 16u);
    l15 = l12;
L11:;
    if (IPL_L32(l16, 0u) == l4) goto L10;
    l16 = (l16 + 4u);
    l15 = (l15 - 1u);
    if (!(l15 == 0)) goto L11;
    if (l12 <= 255u) goto L10;
    l4 = 6u;
    goto L1;
L10:;
    if (l9 != 0) goto L12;
    l16 = ((l2 * 2600u) + l1);
    l14 = (l16 - 2584u);
    l8 = (l16 - 1552u);
    l10 = l2;
    l17 = (ipl_u64)0u;
L13:;
    l10 = (l10 - 1u);
    l16 = (l1 + (l10 * 2600u));
    if (IPL_L8(l16, 0u) != 1u) goto L14;
    l11 = IPL_L64((l16 + 1040u), 0u);
    if (l11 == 0) goto L14;
    l15 = (ipl_u64)0u;
    l16 = l14;
    l12 = l8;
L16:;
    if (IPL_L32(l16, 0u) == l4) goto L15;
    l16 = (l16 + 4u);
    l12 = (l12 + 2u);
    l15 = (l15 + 1u);
    if (l11 != l15) goto L16;
    goto L14;
L15:;
    if (l11 <= l15) goto L14;
    l16 = (((ipl_u64)IPL_L16(l12, 0u) & 65535u) + 1u);
    l17 = (l16 > l17 ? l16 : l17);
L14:;
    l14 = (l14 - 2600u);
    l8 = (l8 - 2600u);
    if (l10 != 0u) goto L13;
    l10 = (l1 + 16u);
    l14 = (l1 + 1048u);
    l7 = (l4 / 960u);
    l3 = 0u;
    l11 = (ipl_u64)0u;
L17:;
    l4 = 0u;
    l16 = (l1 + (l11 * 2600u));
    if (IPL_L8(l16, 0u) != 1u) goto L18;
    l4 = 0u;
    l12 = IPL_L64((l16 + 1040u), 0u);
    if (l12 == 0) goto L18;
    l4 = 0u;
    l16 = l10;
    l15 = l14;
L19:;
    l4 = (((IPL_L32U(l16, 0u) / 960u) == l7 ? (IPL_L16(l15, 0u) > 111u ? 8u : 1u) : 0u) + l4);
    l16 = (l16 + 4u);
    l15 = (l15 + 2u);
    l12 = (l12 - 1u);
    if (l12 != 0u) goto L19;
L18:;
    l10 = (l10 + 2600u);
    l14 = (l14 + 2600u);
    l3 = (l4 + l3);
    l11 = (l11 + 1u);
    if (l11 != l2) goto L17;
    l6 = 1u;
    l4 = 8u;
    l16 = (((ipl_u64)l5 & 65535u) + 1u);
    if ((l17 == 0 ? 48u : (l17 > 112u ? 56u : 49u)) < (l3 + ((l16 > l17 ? l16 : l17) > 112u ? 8u : 1u))) goto L1;
L12:;
    l6 = 0u;
    l4 = 0u;
    l7 = 0u;
    goto L1;
L3:;
    l4 = 5u;
    l6 = 1u;
    l7 = l13;
L1:;
    IPL_S32U(l0, 0u, l6);
    IPL_S32U(l0, 8u, l7);
    IPL_S32U(l0, 4u, l4);
}

/* ipl_store::transactions::Transactions::write::<#81e02dbab8cd6729> */
static void ipl_w65_write(ipl_u8 *const m, ipl_u64 l0, ipl_u64 l1, ipl_u64 l2, ipl_u32 l3, ipl_u32 l4, ipl_u64 l5) {
    ipl_u32 l7 = 0, l8 = 0, l11 = 0, l12 = 0, t3;
    ipl_u64 l6 = 0, l9 = 0, l10 = 0, l13 = 0, l14 = 0, l15 = 0, l16 = 0, l17 = 0, l18 = 0, l19 = 0, t1, t2;
    IPL_ENDS
    t1 = IPL_G(0);
    l6 = (t1 - 528u);
    IPL_G(0) = l6;
    l7 = (l4 / 960u);
    l8 = ((l4 >> 6) % 15u);
    l9 = ((ipl_u64)l3 * 2600u);
    l10 = (IPL_L64((l1 + 2608u), 0u) + l9);
    if (IPL_L8(l10, 0u) != 1u) goto L1;
    l11 = IPL_L8(l5, 0u);
    IPL_S64(l6, 24u, ((ipl_u64)l11 & 255u));
    l12 = (l4 & 63u);
    IPL_S32(l6, 12u, l12);
    l13 = IPL_L64(l10, 8u);
    IPL_S64(l6, 16u, l13);
    IPL_S32(l6, 8u, l8);
    IPL_COPY((l6 + 32u), (l5 + 8u), (ipl_u64)472u);
    l5 = (ipl_u64)0u;
    IPL_S64(l6, 520u, (ipl_u64)0u);
    IPL_S64(l6, 512u, (ipl_u64)0u);
    IPL_S64(l6, 504u, (ipl_u64)0u);
    l14 = (l1 + 1560u);
    l15 = (ipl_u64)l7;
    l16 = ((l15 * 15u) + (ipl_u64)l8);
    l17 = IPL_L64((l1 + 2584u), 0u);
    if (l17 > 1u) goto L13;
    switch ((ipl_u32)l17) {
    case 1u: goto L12;
    default: goto L11;
    }
L13:;
    l5 = (ipl_u64)0u;
    l10 = l17;
L14:;
    l18 = (l10 >> 1);
    l19 = (l18 + l5);
    l5 = (IPL_L64((l14 + (l19 << 4)), 0u) > l16 ? l5 : l19);
    l10 = (l10 - l18);
    if (l10 > 1u) goto L14;
    l5 = (l5 << 4);
L12:;
    l5 = (l14 + l5);
    if (IPL_L64(l5, 0u) != l16) goto L11;
    l5 = IPL_L64(l5, 8u);
    if (l5 >= IPL_L64((l1 + 1528u), 0u)) goto L1;
    l19 = IPL_L64((l1 + 1520u), 0u);
    if (IPL_L8((l19 + (l5 * 16728u)), 0u) == 1u) goto L10;
    goto L1;
L11:;
    ipl_w51_fetch(m, (l6 + 504u), l1, l2, l7, l8);
    goto L9;
L10:;
    l5 = (ipl_u64)0u;
    if (l17 == 1u) goto L15;
    l5 = (ipl_u64)0u;
L16:;
    l10 = (l17 >> 1);
    l18 = (l10 + l5);
    l5 = (IPL_L64((l14 + (l18 << 4)), 0u) > l16 ? l5 : l18);
    l17 = (l17 - l10);
    if (l17 > 1u) goto L16;
    l5 = (l5 << 4);
L15:;
    l5 = (l14 + l5);
    if (IPL_L64(l5, 0u) != l16) goto L1;
    l5 = (l19 + (IPL_L64(l5, 8u) * 16728u));
    if (IPL_L8(l5, 0u) != 1u) goto L1;
    t2 = (l5 + 24u);
    l5 = (l1 + 2600u);
    l10 = IPL_L64(l5, 0u);
    IPL_S64(t2, 0u, l10);
    l10 = (l10 + 1u);
    IPL_S64(l5, 0u, (l10 == 0 ? 18446744073709551615ull : l10));
    l5 = IPL_L64((l1 + 2584u), 0u);
    if (l5 > 1u) goto L19;
    l10 = (ipl_u64)0u;
    switch ((ipl_u32)l5) {
    case 1u: goto L18;
    default: goto L17;
    }
L19:;
    l10 = (ipl_u64)0u;
    l18 = l5;
L20:;
    l19 = (l18 >> 1);
    l17 = (l19 + l10);
    l10 = (IPL_L64((l14 + (l17 << 4)), 0u) > l16 ? l10 : l17);
    l18 = (l18 - l19);
    if (l18 > 1u) goto L20;
    l10 = (l10 << 4);
L18:;
    l10 = (l14 + l10);
    if (IPL_L64(l10, 0u) != l16) goto L17;
    l10 = IPL_L64(l10, 8u);
    if (l10 >= IPL_L64((l1 + 1528u), 0u)) goto L1;
    l10 = (IPL_L64((l1 + 1520u), 0u) + (l10 * 16728u));
    if (IPL_L8(l10, 0u) != 1u) goto L1;
    if (((IPL_L64((l10 + 16720u), 0u) + ((l11 & 255u) != 0 ? (ipl_u64)0u : IPL_L64(l6, 496u))) + 12u) <= 480u) goto L8;
L17:;
    ipl_w52_write_out(m, (l6 + 504u), l1, l2, l7, l8);
L9:;
    if (IPL_L8(l6, 504u) != 0) goto L7;
    l5 = IPL_L64((l1 + 2584u), 0u);
L8:;
    if (l5 > 1u) goto L22;
    l10 = (ipl_u64)0u;
    switch ((ipl_u32)l5) {
    case 1u: goto L21;
    default: goto L1;
    }
L22:;
    l10 = (ipl_u64)0u;
L23:;
    l18 = (l5 >> 1);
    l19 = (l18 + l10);
    l10 = (IPL_L64((l14 + (l19 << 4)), 0u) > l16 ? l10 : l19);
    l5 = (l5 - l18);
    if (l5 > 1u) goto L23;
    l10 = (l10 << 4);
L21:;
    l5 = (l14 + l10);
    if (IPL_L64(l5, 0u) != l16) goto L1;
    l10 = (IPL_L64(l5, 8u) * 16728u);
    l5 = (IPL_L64((l1 + 1520u), 0u) + l10);
    if (IPL_L8(l5, 0u) != 1u) goto L1;
    t3 = ipl_w30_set_pending(m, (l5 + 32u), l12, l13, (l6 + 24u));
    if (t3 == 0) goto L6;
    l5 = (IPL_L64((l1 + 1520u), 0u) + l10);
    if (IPL_L8(l5, 0u) != 1u) goto L1;
    (void)ipl_w45_put(m, (l5 + 16232u), (l6 + 8u));
    l10 = IPL_L64((l1 + 2616u), 0u);
    l5 = IPL_L64((l1 + 2608u), 0u);
    l8 = IPL_L8(l6, 24u);
    l7 = IPL_L16(l6, 496u);
    IPL_S64(l6, 504u, (ipl_u64)0u);
    IPL_S32(l6, 512u, 0u);
    l8 = (l8 != 0 ? 0u : (l7 + 3u));
    ipl_w64_refuses_write(m, (l6 + 504u), l5, l10, l3, l4, l8);
    if (IPL_L8(l6, 504u) == 1u) goto L3;
    l18 = (l5 + l9);
    if (IPL_L8(l18, 0u) != 1u) goto L3;
    l14 = (l18 + 16u);
    l19 = (l18 + 1040u);
    l16 = IPL_L64(l19, 0u);
    if (l16 == 0) goto L4;
    l5 = l14;
    l10 = l16;
    goto L5;
L7:;
    l4 = IPL_L32(l6, 524u);
    l8 = IPL_L32(l6, 520u);
    l7 = IPL_L32(l6, 516u);
    l3 = IPL_L32(l6, 512u);
    l12 = IPL_L8(l6, 508u);
    IPL_S8(l0, 0u, 1u);
    IPL_S32U(l0, 20u, l4);
    IPL_S32U(l0, 16u, l8);
    IPL_S32U(l0, 12u, l7);
    IPL_S32U(l0, 8u, l3);
    IPL_S32U(l0, 4u, l12);
    goto L2;
L6:;
    l4 = IPL_L32((IPL_L64(l1, 0u) + (l15 << 2)), 0u);
    IPL_S32U(l0, 20u, 0u);
    IPL_S64U(l0, 12u, (ipl_u64)0u);
    IPL_S32U(l0, 8u, l4);
    IPL_S32U(l0, 4u, 3u);
    IPL_S8(l0, 0u, 1u);
    goto L2;
L5:;
L25:;
    if (IPL_L32(l5, 0u) == l4) goto L24;
    l5 = (l5 + 4u);
    l10 = (l10 - 1u);
    if (l10 == 0) goto L4;
    goto L25;
L24:;
    l5 = (l18 + 1048u);
    l10 = (ipl_u64)0u;
L27:;
    if (IPL_L32(l14, 0u) == l4) goto L26;
    l14 = (l14 + 4u);
    l5 = (l5 + 2u);
    l10 = (l10 + 1u);
    if (l16 != l10) goto L27;
    goto L3;
L26:;
    if (l16 <= l10) goto L3;
    l4 = IPL_L16(l5, 0u);
    l8 = (l8 & 65535u);
    IPL_S16(l5, 0u, (l4 > l8 ? l4 : l8));
    goto L3;
L4:;
    IPL_S32U((l14 + (l16 << 2)), 0u, l4);
    IPL_S64(l19, 0u, (l16 + 1u));
    l5 = (l18 + 1560u);
    l10 = IPL_L64(l5, 0u);
    IPL_S16(((l18 + (l10 << 1)) + 1048u), 0u, l8);
    IPL_S64(l5, 0u, (l10 + 1u));
L3:;
    IPL_S8(l0, 0u, 0u);
    IPL_S64U(l0, 4u, (ipl_u64)0u);
    IPL_S64U(l0, 12u, (ipl_u64)0u);
    IPL_S32U(l0, 20u, 0u);
L2:;
    IPL_G(0) = (l6 + 528u);
    return;
L1:;
    ipl_trap(m);
}

/* ipl_store::store::Store::del::<#81e02dbab8cd6729> */
static void ipl_w66_del(ipl_u8 *const m, ipl_u64 l0, ipl_u64 l1, ipl_u64 l2, ipl_u32 l3, ipl_u32 l4) {
    ipl_u32 l6 = 0, l7 = 0, l8 = 0, l9 = 0, l10 = 0, l12 = 0, l13 = 0, l14 = 0, l15 = 0, l16 = 0;
    ipl_u64 l5 = 0, l11 = 0, t1;
    IPL_ENDS
    t1 = IPL_G(0);
    l5 = (t1 - 528u);
    IPL_G(0) = l5;
    IPL_S64(l5, 504u, (ipl_u64)0u);
    IPL_S64(l5, 496u, (ipl_u64)0u);
    IPL_S64(l5, 488u, (ipl_u64)0u);
    l6 = 0u;
    IPL_FILL((l5 + 16u), 0u, (ipl_u64)472u);
    IPL_S32(l5, 520u, 0u);
    IPL_S64(l5, 512u, (ipl_u64)0u);
    l7 = 1u;
    l8 = 1u;
    l9 = 0u;
    l10 = 0u;
    l11 = IPL_L64((l1 + 2616u), 0u);
    if (l3 >= (ipl_u32)l11) goto L1;
    l8 = 1u;
    l9 = 1u;
    l10 = 0u;
    if (IPL_L32((l1 + 2960u), 0u) <= (l4 / 960u)) goto L1;
    ipl_w64_refuses_write(m, (l5 + 512u), IPL_L64((l1 + 2608u), 0u), l11, l3, l4, 0u);
    l10 = IPL_L32(l5, 520u);
    l9 = IPL_L8(l5, 516u);
    l8 = IPL_L8(l5, 512u);
L1:;
    l12 = 0u;
    l13 = 0u;
    l14 = 0u;
    l15 = 0u;
    l16 = 0u;
    if (IPL_L8((l1 + 2968u), 0u) != 0) goto L2;
    if (IPL_L64((l1 + 608u), 0u) <= 18446744073708503040ull) goto L6;
    l6 = 0u;
    l7 = 1u;
    l12 = 1u;
    goto L5;
L6:;
    l6 = (l8 & 255u);
    if (l6 == 0) goto L7;
    l7 = 1u;
    l14 = 0u;
    l6 = (ipl_u32)(l6 == 1u);
    l12 = (l6 != 0 ? 2u : 0u);
    l13 = (l6 != 0 ? l10 : 0u);
    l6 = (l6 != 0 ? l9 : 0u);
    goto L4;
L7:;
    IPL_S64(l5, 8u, (ipl_u64)1u);
    ipl_w65_write(m, (l5 + 488u), l1, l2, l3, l4, (l5 + 8u));
    l7 = IPL_L8(l5, 488u);
    if (l7 != 0) goto L3;
    l6 = 0u;
    l12 = 0u;
L5:;
    l13 = 0u;
    l14 = 0u;
L4:;
    l15 = 0u;
    l16 = 0u;
    goto L2;
L3:;
    l16 = IPL_L32(l5, 508u);
    l15 = IPL_L32(l5, 504u);
    l14 = IPL_L32(l5, 500u);
    l13 = IPL_L32(l5, 496u);
    l12 = 3u;
    l6 = IPL_L8(l5, 492u);
    if (((1u << (l6 & 31u)) & 13u) != 0) goto L2;
    IPL_S8((l1 + 2968u), 0u, 1u);
L2:;
    IPL_S8(l0, 0u, l7);
    IPL_S32U(l0, 24u, l16);
    IPL_S32U(l0, 20u, l15);
    IPL_S32U(l0, 16u, l14);
    IPL_S32U(l0, 12u, l13);
    IPL_S32U(l0, 8u, (l6 & 255u));
    IPL_S32U(l0, 4u, l12);
    IPL_G(0) = (l5 + 528u);
}

/* ipl_store::transactions::Transactions::commit::<#81e02dbab8cd6729> */
static void ipl_w67_commit(ipl_u8 *const m, ipl_u64 l0, ipl_u64 l1, ipl_u64 l2, ipl_u64 l3, ipl_u64 l4, ipl_u64 l5) {
    ipl_u32 l7 = 0, l14 = 0, l15 = 0, l16 = 0, l17 = 0, t2, t4, t5;
    ipl_u64 l6 = 0, l8 = 0, l9 = 0, l10 = 0, l11 = 0, l12 = 0, l13 = 0, l18 = 0, l19 = 0, l20 = 0, l21 = 0, l22 = 0, l23 = 0, l24 = 0, l25 = 0, l26 = 0;
    ipl_u64 l27 = 0, l28 = 0, l29 = 0, l30 = 0, l31 = 0, l32 = 0, l33 = 0, l34 = 0, l35 = 0, l36 = 0, l37 = 0, l38 = 0, t1, t3, t6, t7;
    ipl_u64 t8, t9, t10, t11;
    IPL_ENDS
    t1 = IPL_G(0);
    l6 = (t1 - 2080u);
    IPL_G(0) = l6;
    IPL_FILL((l6 + 1568u), 0u, (ipl_u64)264u);
    l7 = (ipl_u32)(l5 == 0);
    if (l7 != 0) goto L1;
    l8 = IPL_L64((l1 + 2608u), 0u);
    l9 = l4;
    l10 = l5;
    l11 = (ipl_u64)0u;
L2:;
    l12 = (l8 + ((ipl_u64)IPL_L32(l9, 0u) * 2600u));
    if (IPL_L8(l12, 0u) != 1u) goto L3;
    if (IPL_L64((l12 + 1040u), 0u) == 0) goto L3;
    IPL_S64(((l6 + 1568u) + (l11 << 3)), 0u, IPL_L64(l12, 8u));
    l11 = (l11 + 1u);
    IPL_S64(l6, 1824u, l11);
L3:;
    l9 = (l9 + 4u);
    l10 = (l10 - 1u);
    if (l10 != 0u) goto L2;
L1:;
    IPL_COPY(l6, (l6 + 1568u), (ipl_u64)264u);
    IPL_COPY((l6 + 264u), l6, (ipl_u64)264u);
    l13 = IPL_L64(l6, 520u);
    if (!(l13 == 0)) goto L6;
    ipl_w68_end_all(m, l1, l4, l5);
    IPL_S64U(l0, 4u, (ipl_u64)0u);
    IPL_S8(l0, 0u, 0u);
    IPL_S64U(l0, 12u, (ipl_u64)0u);
    IPL_S32U(l0, 20u, 0u);
    goto L5;
L6:;
    if (IPL_L64((l1 + 592u), 0u) < (IPL_L64((l1 + 576u), 0u) + 60u)) goto L11;
    if (IPL_L32((l1 + 600u), 0u) != 256u) goto L10;
L11:;
    IPL_S64(l6, 1584u, (ipl_u64)0u);
    IPL_S64(l6, 1576u, (ipl_u64)0u);
    IPL_S64(l6, 1568u, (ipl_u64)0u);
    ipl_w38_renew_with(m, (l6 + 1568u), l2, l1, l3, 0u);
    if (IPL_L8(l6, 1568u) == 0) goto L10;
    l14 = IPL_L32(l6, 1588u);
    l15 = IPL_L32(l6, 1584u);
    l16 = IPL_L32(l6, 1580u);
    l17 = IPL_L32(l6, 1576u);
    l7 = IPL_L8(l6, 1572u);
    goto L9;
L10:;
    IPL_S64(l6, 1584u, (ipl_u64)0u);
    IPL_S64(l6, 1576u, (ipl_u64)0u);
    IPL_S64(l6, 1568u, (ipl_u64)0u);
    l18 = (l1 + 1520u);
    l11 = IPL_L64((l1 + 1544u), 0u);
    if (l11 == 0) goto L7;
    if (l7 != 0) goto L8;
    l3 = (ipl_u64)0u;
    l19 = (l1 + 1528u);
    l20 = (l1 + 2608u);
L12:;
    l9 = IPL_L64(((l18 + (l3 << 4)) + 48u), 0u);
    if (l9 >= IPL_L64(l19, 0u)) goto L4;
    l9 = (IPL_L64(l18, 0u) + (l9 * 16728u));
    if (IPL_L8(l9, 0u) != 1u) goto L4;
    l8 = IPL_L64(l20, 0u);
    l17 = IPL_L32(l9, 12u);
    l16 = IPL_L32(l9, 8u);
    l12 = (ipl_u64)0u;
L14:;
    l9 = (l8 + ((ipl_u64)IPL_L32((l4 + (l12 << 2)), 0u) * 2600u));
    if (IPL_L8(l9, 0u) != 1u) goto L15;
    l10 = IPL_L64((l9 + 1040u), 0u);
    if (l10 == 0) goto L15;
    l9 = (l9 + 16u);
L17:;
    l14 = IPL_L32U(l9, 0u);
    l15 = ((l14 >> 6) % 15u);
    if ((l14 / 960u) != l16) goto L18;
    if (l15 == l17) goto L16;
L18:;
    l9 = (l9 + 4u);
    l10 = (l10 - 1u);
    if (l10 == 0) goto L15;
    goto L17;
L16:;
    ipl_w52_write_out(m, (l6 + 1568u), l1, l2, l16, l17);
    if (IPL_L8(l6, 1568u) == 0) goto L13;
    l7 = IPL_L8(l6, 1572u);
    l17 = IPL_L32(l6, 1576u);
    l16 = IPL_L32(l6, 1580u);
    l15 = IPL_L32(l6, 1584u);
    l14 = IPL_L32(l6, 1588u);
    goto L9;
L15:;
    l12 = (l12 + 1u);
    if (l12 != l5) goto L14;
L13:;
    l3 = (l3 + 1u);
    if (l3 != l11) goto L12;
    goto L7;
L9:;
    IPL_S8(l0, 0u, 1u);
    IPL_S32U(l0, 20u, l14);
    IPL_S32U(l0, 16u, l15);
    IPL_S32U(l0, 12u, l16);
    IPL_S32U(l0, 8u, l17);
    IPL_S32U(l0, 4u, (l7 & 255u));
    goto L5;
L8:;
    l9 = (l1 + 1568u);
    l12 = IPL_L64((l1 + 1528u), 0u);
L19:;
    l10 = IPL_L64(l9, 0u);
    if (l10 >= l12) goto L4;
    if (IPL_L8((IPL_L64(l18, 0u) + (l10 * 16728u)), 0u) != 1u) goto L4;
    l9 = (l9 + 16u);
    l11 = (l11 - 1u);
    if (!(l11 == 0)) goto L19;
L7:;
    t2 = ipl_to_ipl_nand_barrier(m, IPL_L64(l2, 0u));
    if (t2 != 0) goto L21;
    l9 = (l1 + 608u);
    l11 = IPL_L64(l9, 0u);
    IPL_S64(l9, 0u, (l11 + 1u));
    l14 = IPL_L32((l1 + 552u), 0u);
    l15 = IPL_L32((l1 + 600u), 0u);
    l3 = IPL_L64((l1 + 560u), 0u);
    IPL_FILL((l6 + 1080u), 0u, (ipl_u64)488u);
    l10 = (l6 + 264u);
    l8 = l13;
    l12 = (ipl_u64)0u;
L22:;
    if ((l12 - 473u) < 8u) goto L23;
    l9 = IPL_L64(l10, 0u);
    t3 = ((((l9 << 56) | ((l9 & 65280u) << 40)) | (((l9 & 16711680ull) << 24) | ((l9 & 4278190080ull) << 8))) | ((((l9 >> 8) & 4278190080ull) | ((l9 >> 24) & 16711680ull)) | (((l9 >> 40) & 65280u) | (l9 >> 56))));
    IPL_S64U(((l6 + 1080u) + l12), 0u, t3);
    l12 = (l12 + 8u);
    IPL_S64(l6, 1560u, l12);
L23:;
    l10 = (l10 + 8u);
    l8 = (l8 - 1u);
    if (l8 != 0u) goto L22;
    IPL_S64(l6, 584u, l11);
    IPL_S64(l6, 576u, l3);
    IPL_S64(l6, 568u, (ipl_u64)774u);
    l9 = (l6 + 592u);
    IPL_COPY(l9, (l6 + 1080u), (ipl_u64)488u);
    IPL_S64(l6, 552u, l9);
    IPL_S64(l6, 528u, IPL_L64(l6, 568u));
    IPL_S64(l6, 536u, IPL_L64(l6, 576u));
    IPL_S64(l6, 544u, IPL_L64(l6, 584u));
    l10 = IPL_L64(l6, 1072u);
    IPL_S64(l6, 560u, l10);
    IPL_FILL((l6 + 1568u), 0u, (ipl_u64)512u);
    ipl_w7_encode(m, (l6 + 528u), l9, l10, (l6 + 1568u));
    t4 = ipl_to_ipl_nand_program(m, IPL_L64(l2, 0u), l14, l15, (l6 + 1568u), (ipl_u64)512u);
    if (t4 != 0) goto L24;
    t5 = ipl_to_ipl_nand_barrier(m, IPL_L64(l2, 0u));
    if (t5 != 0) goto L24;
    l10 = (l1 + 568u);
    l9 = (l6 + 264u);
L25:;
    ipl_w11_add(m, l10, IPL_L64(l9, 0u));
    l9 = (l9 + 8u);
    l13 = (l13 - 1u);
    if (!(l13 == 0)) goto L25;
    l9 = (l1 + 600u);
    IPL_S32(l9, 0u, (IPL_L32(l9, 0u) + 1u));
    if (l7 != 0) goto L26;
    l13 = (l1 + 1560u);
    l21 = (ipl_u64)0u;
    l22 = (l1 + 2608u);
    l23 = (l1 + 2584u);
L27:;
    l9 = (IPL_L64(l22, 0u) + ((ipl_u64)IPL_L32((l4 + (l21 << 2)), 0u) * 2600u));
    if (IPL_L8(l9, 0u) != 1u) goto L28;
    l24 = IPL_L64((l9 + 1040u), 0u);
    if (l24 == 0) goto L28;
    l25 = (l9 + 16u);
    l26 = IPL_L64(l9, 8u);
    l27 = (ipl_u64)0u;
L29:;
    l14 = IPL_L32U((l25 + (l27 << 2)), 0u);
    l11 = (ipl_u64)(((l14 / 960u) * 15u) + ((l14 >> 6) % 15u));
    l9 = IPL_L64(l23, 0u);
    if (l9 > 1u) goto L32;
    l10 = (ipl_u64)0u;
    switch ((ipl_u32)l9) {
    case 1u: goto L31;
    default: goto L30;
    }
L32:;
    l10 = (ipl_u64)0u;
L33:;
    l12 = (l9 >> 1);
    l8 = (l12 + l10);
    l10 = (IPL_L64((l13 + (l8 << 4)), 0u) > l11 ? l10 : l8);
    l9 = (l9 - l12);
    if (l9 > 1u) goto L33;
    l10 = (l10 << 4);
L31:;
    l9 = (l13 + l10);
    if (IPL_L64(l9, 0u) != l11) goto L30;
    l9 = (IPL_L64(l18, 0u) + (IPL_L64(l9, 8u) * 16728u));
    if (IPL_L8(l9, 0u) != 1u) goto L4;
    l28 = (l9 + 7712u);
    l29 = (l9 + 15522u);
    l30 = (l9 + 7842u);
    l31 = (l9 + 15720u);
    l32 = (l9 + 15656u);
    l33 = (l9 + 32u);
    l8 = (l9 + 15524u);
    l11 = (l9 + 7714u);
    l19 = (ipl_u64)0u;
    l34 = (l9 + 7840u);
    l35 = (l9 + 15650u);
    l2 = (ipl_u64)0u;
L34:;
    l20 = (l32 + l2);
    if (IPL_L8(l20, 0u) != 1u) goto L35;
    if (IPL_L64((l31 + (l2 << 3)), 0u) != l26) goto L35;
    l14 = IPL_L16(l34, 0u);
    l3 = ((ipl_u64)l14 & 65535u);
    l10 = (l2 << 1);
    l36 = (l29 + l10);
    l15 = IPL_L16(l36, 0u);
    l16 = IPL_L16(l36, 2u);
    if (l15 == l16) goto L37;
    l12 = ((ipl_u64)l15 + 3u);
    l9 = (l30 + l12);
    l12 = ((ipl_u64)l16 - l12);
    l37 = (l28 + l10);
    l38 = (ipl_u64)IPL_L16(l37, 0u);
    l10 = ((l12 + l38) + 3u);
    l15 = IPL_L16(l37, 2u);
    l37 = ((ipl_u64)l15 & 65535u);
    if (l10 == l37) goto L38;
    if ((l15 & 65535u) == (l14 & 65535u)) goto L39;
    if (l10 <= l37) goto L40;
    l3 = (l3 - l37);
    ipl_w28_rotate_left(m, (l33 + l37), ((l10 - l37) + l3), l3);
    goto L39;
L40:;
    if (l10 >= l37) goto L39;
    ipl_w28_rotate_left(m, (l33 + l10), (l3 - l10), (l37 - l10));
L39:;
    l14 = ((ipl_u32)l10 - l15);
    l10 = l19;
L41:;
    l3 = (l11 + l10);
    IPL_S16(l3, 0u, (l14 + IPL_L16(l3, 0u)));
    l10 = (l10 + 2u);
    if (l10 != 128u) goto L41;
L38:;
    l10 = (l33 + l38);
    IPL_S8(l10, 2u, l12);
    IPL_S8(l10, 1u, (l12 >> 8));
    IPL_S8(l10, 0u, l2);
    l10 = (l10 + 3u);
    if ((l10 - l9) < l12) goto L42;
    if (l12 == 0) goto L36;
    IPL_COPY(l10, l9, l12);
    goto L36;
L42:;
    IPL_RISE(l10, l9, l12);
    l10 = (l10 + l12);
    l9 = (l9 + l12);
    l12 = 0u;
    goto L36;
L37:;
    l9 = (l28 + l10);
    l16 = IPL_L16(l9, 0u);
    l15 = IPL_L16(l9, 2u);
    if (l16 == l15) goto L36;
    if (l15 == (l14 & 65535u)) goto L44;
    l9 = (ipl_u64)l15;
    l10 = (ipl_u64)l16;
    if (l16 <= l15) goto L45;
    t6 = (l33 + l9);
    t7 = (l10 - l9);
    l9 = (l3 - l9);
    ipl_w28_rotate_left(m, t6, (t7 + l9), l9);
    goto L44;
L45:;
    if (l16 >= l15) goto L44;
    ipl_w28_rotate_left(m, (l33 + l10), (l3 - l10), (l9 - l10));
L44:;
    l14 = (l16 - l15);
    l9 = l19;
L46:;
    l10 = (l11 + l9);
    IPL_S16(l10, 0u, (l14 + IPL_L16(l10, 0u)));
    l9 = (l9 + 2u);
    if (l9 != 128u) goto L46;
L36:;
    l15 = IPL_L16(l36, 0u);
    l14 = IPL_L16(l36, 2u);
    if (l15 == l14) goto L47;
    l16 = IPL_L16(l35, 0u);
    if (l14 == (l16 & 65535u)) goto L48;
    l12 = ((ipl_u64)l16 & 65535u);
    l9 = (ipl_u64)l14;
    l10 = (ipl_u64)l15;
    if (l15 <= l14) goto L49;
    t8 = (l30 + l9);
    t9 = (l10 - l9);
    l9 = (l12 - l9);
    ipl_w28_rotate_left(m, t8, (t9 + l9), l9);
    goto L48;
L49:;
    if (l15 >= l14) goto L48;
    ipl_w28_rotate_left(m, (l30 + l10), (l12 - l10), (l9 - l10));
L48:;
    l14 = (l15 - l14);
    l9 = l19;
L50:;
    l10 = (l8 + l9);
    IPL_S16(l10, 0u, (l14 + IPL_L16(l10, 0u)));
    l9 = (l9 + 2u);
    if (l9 != 128u) goto L50;
L47:;
    IPL_S8(l20, 0u, 0u);
L35:;
    l19 = (l19 + 2u);
    l2 = (l2 + 1u);
    if (l2 != 64u) goto L34;
L30:;
    l27 = (l27 + 1u);
    if (l27 != l24) goto L29;
L28:;
    l21 = (l21 + 1u);
    if (l21 != l5) goto L27;
L26:;
    ipl_w68_end_all(m, l1, l4, l5);
    l14 = 0u;
    goto L20;
L24:;
    IPL_S8(l2, 16u, 0u);
    l9 = (l2 + 32u);
    t10 = l9;
    l9 = (IPL_L64(l9, 0u) + 1u);
    IPL_S64(t10, 0u, (l9 == 0 ? 18446744073709551615ull : l9));
    l14 = 1u;
    goto L20;
L21:;
    IPL_S8(l2, 16u, 0u);
    l9 = (l2 + 32u);
    t11 = l9;
    l9 = (IPL_L64(l9, 0u) + 1u);
    IPL_S64(t11, 0u, (l9 == 0 ? 18446744073709551615ull : l9));
    l14 = 1u;
L20:;
    IPL_S8(l0, 0u, l14);
    IPL_S64U(l0, 8u, (ipl_u64)0u);
    IPL_S32U(l0, 4u, l14);
    IPL_S64U(l0, 16u, (ipl_u64)0u);
L5:;
    IPL_G(0) = (l6 + 2080u);
    return;
L4:;
    ipl_trap(m);
}

/* ipl_store::transactions::Transactions::end_all */
static void ipl_w68_end_all(ipl_u8 *const m, ipl_u64 l0, ipl_u64 l1, ipl_u64 l2) {
    ipl_u32 l6 = 0, l8 = 0, l9 = 0;
    ipl_u64 l3 = 0, l4 = 0, l5 = 0, l7 = 0, l10 = 0, t1;
    IPL_ENDS
    t1 = IPL_G(0);
    l3 = (t1 - 528u);
    IPL_G(0) = l3;
    l4 = IPL_L64((l0 + 2616u), 0u);
    l5 = (l4 & 4294967295ull);
    l6 = (ipl_u32)l4;
    l7 = 18446744073709551615ull;
    l4 = l1;
L3:;
    l7 = (l7 + 1u);
    if (l2 == l7) goto L2;
    l8 = IPL_L32(l4, 0u);
    l4 = (l4 + 4u);
    if (l8 < l6) goto L3;
    goto L1;
L2:;
    l9 = (ipl_u32)(l2 == 0);
    if (l9 != 0) goto L4;
    l8 = 0u;
L5:;
    l4 = l1;
    l10 = l2;
    l7 = (ipl_u64)0u;
L6:;
    l7 = (l7 + (ipl_u64)(IPL_L32(l4, 0u) == l8));
    l4 = (l4 + 4u);
    l10 = (l10 - 1u);
    if (l10 != 0u) goto L6;
    if (l7 > 1u) goto L1;
    l8 = (l8 + 1u);
    if (l8 != 32u) goto L5;
L4:;
    l7 = (l2 + 1u);
    l10 = (l0 + 2608u);
    l4 = l1;
L8:;
    l7 = (l7 - 1u);
    if (l7 == 0) goto L7;
    l8 = IPL_L32(l4, 0u);
    if (l8 >= l6) goto L1;
    l4 = (l4 + 4u);
    if (IPL_L8((IPL_L64(l10, 0u) + ((ipl_u64)l8 * 2600u)), 0u) == 1u) goto L8;
    goto L1;
L7:;
    if (l9 != 0) goto L1;
    l4 = (l0 + 2608u);
L9:;
    IPL_FILL((IPL_L64(l4, 0u) + ((ipl_u64)IPL_L32(l1, 0u) * 2600u)), 0u, (ipl_u64)2600u);
    l1 = (l1 + 4u);
    l2 = (l2 - 1u);
    if (l2 != 0u) goto L9;
    l5 = (ipl_u64)IPL_L32((l0 + 2616u), 0u);
L1:;
    IPL_FILL((l3 + 264u), 0u, (ipl_u64)264u);
    if (l5 == 0) goto L10;
    l4 = IPL_L64((l0 + 2608u), 0u);
    l7 = (ipl_u64)0u;
L11:;
    if (IPL_L8(l4, 0u) != 1u) goto L12;
    IPL_S64(((l3 + 264u) + (l7 << 3)), 0u, IPL_L64(l4, 8u));
    l7 = (l7 + 1u);
    IPL_S64(l3, 520u, l7);
L12:;
    l4 = (l4 + 2600u);
    l5 = (l5 - 1u);
    if (l5 != 0u) goto L11;
L10:;
    IPL_COPY(l3, (l3 + 264u), (ipl_u64)264u);
    IPL_COPY((l0 + 616u), l3, (ipl_u64)264u);
    IPL_G(0) = (l3 + 528u);
}

/* ipl_store::store::Store::commit_all::<#81e02dbab8cd6729> */
static void ipl_w69_commit_all(ipl_u8 *const m, ipl_u64 l0, ipl_u64 l1, ipl_u64 l2, ipl_u64 l3, ipl_u64 l4) {
    ipl_u32 l8 = 0, l11 = 0, l12 = 0, l13 = 0, l14 = 0, l15 = 0, l16 = 0, l17 = 0, l18 = 0, l19 = 0, l20 = 0;
    ipl_u64 l5 = 0, l6 = 0, l7 = 0, l9 = 0, l10 = 0, t1;
    IPL_ENDS
    t1 = IPL_G(0);
    l5 = (t1 - 32u);
    IPL_G(0) = l5;
    l6 = (ipl_u64)0u;
    IPL_S64(l5, 24u, (ipl_u64)0u);
    IPL_S64(l5, 16u, (ipl_u64)0u);
    IPL_S64(l5, 8u, (ipl_u64)0u);
    l7 = ((l4 << 2) + 4u);
    l8 = IPL_L32((l1 + 2616u), 0u);
L3:;
    l9 = (l6 + 4u);
    if (l7 == l9) goto L2;
    l10 = (l3 + l6);
    l6 = l9;
    if (IPL_L32(l10, 0u) < l8) goto L3;
    l11 = 0u;
    l12 = 1u;
    l13 = 0u;
    l14 = 0u;
    goto L1;
L2:;
    if (l4 == 0) goto L4;
    l14 = 0u;
L5:;
    l6 = l3;
    l10 = l4;
    l9 = (ipl_u64)0u;
L6:;
    l9 = (l9 + (ipl_u64)(IPL_L32(l6, 0u) == l14));
    l6 = (l6 + 4u);
    l10 = (l10 - 1u);
    if (l10 != 0u) goto L6;
    if (l9 <= 1u) goto L7;
    l13 = 13u;
    l11 = 0u;
    l12 = 1u;
    goto L1;
L7:;
    l14 = (l14 + 1u);
    if (l14 != 32u) goto L5;
L4:;
    l9 = (l4 + 1u);
    l10 = (l1 + 2608u);
    l6 = l3;
L9:;
    l14 = 0u;
    l9 = (l9 - 1u);
    l11 = (ipl_u32)(l9 == 0);
    if (l11 == 0) goto L10;
    l13 = 0u;
    goto L8;
L10:;
    l13 = 4u;
    l15 = IPL_L32(l6, 0u);
    if (l15 >= l8) goto L8;
    l6 = (l6 + 4u);
    if (IPL_L8((IPL_L64(l10, 0u) + ((ipl_u64)l15 * 2600u)), 0u) == 1u) goto L9;
L8:;
    l12 = (ipl_u32)(l9 != 0u);
L1:;
    l8 = 0u;
    if (IPL_L8((l1 + 2968u), 0u) == 0) goto L14;
    l15 = 1u;
    l16 = 0u;
    goto L13;
L14:;
    l15 = 1u;
    l16 = 1u;
    l17 = 0u;
    l18 = 0u;
    l19 = 0u;
    l20 = 0u;
    if (IPL_L64((l1 + 608u), 0u) > 18446744073708503040ull) goto L11;
    if (l11 != 0) goto L15;
    l18 = 0u;
    l16 = (l12 != 0 ? 2u : 0u);
    l17 = (l12 != 0 ? l14 : 0u);
    l8 = (l12 != 0 ? l13 : 0u);
    l15 = 1u;
    goto L12;
L15:;
    ipl_w67_commit(m, (l5 + 8u), l1, l2, (l1 + 2640u), l3, l4);
    l15 = IPL_L8(l5, 8u);
    if (l15 != 0) goto L16;
    l16 = 0u;
    l8 = 0u;
    goto L13;
L16:;
    l20 = IPL_L32(l5, 28u);
    l19 = IPL_L32(l5, 24u);
    l18 = IPL_L32(l5, 20u);
    l17 = IPL_L32(l5, 16u);
    l16 = 3u;
    l8 = IPL_L8(l5, 12u);
    if (((1u << (l8 & 31u)) & 13u) != 0) goto L11;
    IPL_S8((l1 + 2968u), 0u, 1u);
    goto L11;
L13:;
    l17 = 0u;
    l18 = 0u;
L12:;
    l19 = 0u;
    l20 = 0u;
L11:;
    IPL_S8(l0, 0u, l15);
    IPL_S32U(l0, 24u, l20);
    IPL_S32U(l0, 20u, l19);
    IPL_S32U(l0, 16u, l18);
    IPL_S32U(l0, 12u, l17);
    IPL_S32U(l0, 8u, l8);
    IPL_S32U(l0, 4u, l16);
    IPL_G(0) = (l5 + 32u);
}

/* ipl_store::store::Store::abort::<#81e02dbab8cd6729> */
static void ipl_w70_abort(ipl_u8 *const m, ipl_u64 l0, ipl_u64 l1, ipl_u32 l2) {
    ipl_u32 l5 = 0, l6 = 0, l7 = 0, l33 = 0, l34 = 0, t4, t6;
    ipl_u64 l3 = 0, l4 = 0, l8 = 0, l9 = 0, l10 = 0, l11 = 0, l12 = 0, l13 = 0, l14 = 0, l15 = 0, l16 = 0, l17 = 0, l18 = 0, l19 = 0, l20 = 0, l21 = 0;
    ipl_u64 l22 = 0, l23 = 0, l24 = 0, l25 = 0, l26 = 0, l27 = 0, l28 = 0, l29 = 0, l30 = 0, l31 = 0, l32 = 0, t1, t2, t3, t5, t7;
    ipl_u64 t8, t9;
    IPL_ENDS
    t1 = IPL_G(0);
    l3 = (t1 - 2464u);
    IPL_G(0) = l3;
    if (l2 >= IPL_L32((l1 + 2616u), 0u)) goto L4;
    l4 = (ipl_u64)l2;
    l5 = (ipl_u32)(IPL_L8((IPL_L64((l1 + 2608u), 0u) + (l4 * 2600u)), 0u) != 1u);
    l6 = IPL_L8((l1 + 2968u), 0u);
    l2 = (l6 != 0 ? 0u : (l5 != 0 ? 4u : 0u));
    l7 = (l6 != 0 ? 0u : 2u);
    if (l5 != 0) goto L3;
    if (l6 != 0) goto L3;
    l8 = IPL_L64((l1 + 2608u), 0u);
    l9 = (l4 * 2600u);
    l4 = (l8 + l9);
    if (IPL_L8(l4, 0u) != 1u) goto L2;
    l10 = IPL_L64((l4 + 1040u), 0u);
    if (l10 == 0) goto L6;
    l11 = (l4 + 16u);
    l12 = IPL_L64(l4, 8u);
    l13 = (l1 + 1560u);
    l14 = (l3 + 1032u);
    l15 = ((l3 + 504u) + 8u);
    l16 = ((l3 + 8u) + 24u);
    l17 = ((l3 + 1000u) + 8u);
    l18 = ((l3 + 504u) | 1u);
    l19 = (ipl_u64)0u;
    l20 = (l1 + 2584u);
    l21 = (l1 + 1520u);
L7:;
    l2 = IPL_L32U((l11 + (l19 << 2)), 0u);
    l22 = (ipl_u64)(((l2 / 960u) * 15u) + ((l2 >> 6) % 15u));
    l4 = IPL_L64(l20, 0u);
    if (l4 > 1u) goto L10;
    l8 = (ipl_u64)0u;
    switch ((ipl_u32)l4) {
    case 1u: goto L9;
    default: goto L8;
    }
L10:;
    l8 = (ipl_u64)0u;
L11:;
    l23 = (l4 >> 1);
    l24 = (l23 + l8);
    l8 = (IPL_L64((l13 + (l24 << 4)), 0u) > l22 ? l8 : l24);
    l4 = (l4 - l23);
    if (l4 > 1u) goto L11;
    l8 = (l8 << 4);
L9:;
    l4 = (l13 + l8);
    if (IPL_L64(l4, 0u) != l22) goto L8;
    l25 = (IPL_L64(l4, 8u) * 16728u);
    l4 = (IPL_L64(l21, 0u) + l25);
    if (IPL_L8(l4, 0u) != 1u) goto L2;
    l26 = (l4 + 15522u);
    l27 = (l4 + 7842u);
    l28 = (l4 + 15720u);
    l29 = (l4 + 15656u);
    l23 = (l4 + 15524u);
    l22 = (ipl_u64)0u;
    l30 = (l4 + 15650u);
    l24 = (ipl_u64)0u;
L12:;
    l31 = (l29 + l24);
    if (IPL_L8(l31, 0u) != 1u) goto L13;
    if (IPL_L64((l28 + (l24 << 3)), 0u) != l12) goto L13;
    l4 = (l26 + (l24 << 1));
    l7 = IPL_L16(l4, 0u);
    l2 = IPL_L16(l4, 2u);
    if (l7 == l2) goto L14;
    l6 = IPL_L16(l30, 0u);
    if (l2 == (l6 & 65535u)) goto L15;
    l32 = ((ipl_u64)l6 & 65535u);
    l4 = (ipl_u64)l2;
    l8 = (ipl_u64)l7;
    if (l7 <= l2) goto L16;
    t2 = (l27 + l4);
    t3 = (l8 - l4);
    l4 = (l32 - l4);
    ipl_w28_rotate_left(m, t2, (t3 + l4), l4);
    goto L15;
L16:;
    if (l7 >= l2) goto L15;
    ipl_w28_rotate_left(m, (l27 + l8), (l32 - l8), (l4 - l8));
L15:;
    l2 = (l7 - l2);
    l4 = l22;
L17:;
    l8 = (l23 + l4);
    IPL_S16(l8, 0u, (l2 + IPL_L16(l8, 0u)));
    l4 = (l4 + 2u);
    if (l4 != 128u) goto L17;
L14:;
    IPL_S8(l31, 0u, 0u);
L13:;
    l22 = (l22 + 2u);
    l24 = (l24 + 1u);
    if (l24 != 64u) goto L12;
    l4 = (IPL_L64(l21, 0u) + l25);
    if (IPL_L8(l4, 0u) != 1u) goto L2;
    l8 = IPL_L64((l4 + 16720u), 0u);
    IPL_FILL(l18, 0u, (ipl_u64)495u);
    IPL_S8(l3, 504u, 3u);
    l29 = (l4 + 16232u);
    l2 = IPL_L8(l29, 0u);
    IPL_FILL((l3 + 1000u), 0u, (ipl_u64)520u);
    ipl_w13_record_at(m, (l3 + 1000u), (l4 + 16240u), l8, l2);
    if (IPL_L8(l3, 1000u) != 1u) goto L18;
    l22 = (ipl_u64)0u;
    l8 = IPL_L64(l3, 1504u);
    l24 = IPL_L64(l3, 1512u);
    l5 = (ipl_u32)((l2 & 255u) != 1u);
L19:;
    IPL_COPY((l3 + 8u), l17, (ipl_u64)496u);
    l4 = IPL_L64(l3, 16u);
    if (l4 == l12) goto L20;
    l2 = IPL_L8(l3, 504u);
    if (IPL_L8(l3, 24u) != 0) goto L22;
    l23 = IPL_L64(l3, 496u);
    if ((480u - l22) < (l23 + 12u)) goto L20;
    l7 = 1u;
    l31 = l16;
    goto L21;
L22:;
    if ((l22 - 481u) > 18446744073709551603ull) goto L20;
    l23 = (ipl_u64)0u;
    l31 = 1610637312ull;
    l7 = 2u;
L21:;
    if ((l22 - 477u) < 4u) goto L23;
    l6 = IPL_L32(l3, 12u);
    l2 = (ipl_u32)((l2 & 255u) == 1u);
    t4 = (((l2 != 0 ? l7 : ((l7 << 6) + l6)) & 255u) << 8);
    l7 = (ipl_u32)l23;
    IPL_S32U((l15 + l22), 0u, ((t4 | ((((l2 != 0 ? l6 : (l7 >> 8)) << 16) & (ipl_u32)16711680u) | (l7 << 24))) | IPL_L8(l3, 8u)));
    l22 = (l22 + 4u);
    IPL_S64(l3, 992u, l22);
L23:;
    if ((l22 - 473u) < 8u) goto L24;
    t5 = ((((l4 << 56) | ((l4 & 65280u) << 40)) | (((l4 & 16711680ull) << 24) | ((l4 & 4278190080ull) << 8))) | ((((l4 >> 8) & 4278190080ull) | ((l4 >> 24) & 16711680ull)) | (((l4 >> 40) & 65280u) | (l4 >> 56))));
    IPL_S64U((l15 + l22), 0u, t5);
    l22 = (l22 + 8u);
    IPL_S64(l3, 992u, l22);
L24:;
    if ((480u - l22) < l23) goto L20;
    if (l23 == 0) goto L25;
    IPL_COPY((l15 + l22), l31, l23);
L25:;
    l22 = (l22 + l23);
    IPL_S64(l3, 992u, l22);
L20:;
    if (l24 < 12u) goto L18;
    l6 = IPL_L8(l8, 0u);
    if (l6 > 14u) goto L18;
    if (l5 != 0) goto L31;
    l7 = IPL_L8(l8, 2u);
    if (l7 >= 64u) goto L18;
    l2 = IPL_L8(l8, 3u);
    l33 = IPL_L8(l8, 1u);
    t6 = ((ipl_u32)(l33 == 2u) & (ipl_u32)(l2 == 0));
    l33 = (ipl_u32)(l33 == 1u);
    if ((l33 != 0 ? (ipl_u32)(l2 < 109u) : t6) != 1u) goto L18;
    l23 = (ipl_u64)l2;
    if ((l23 + 12u) <= l24) goto L30;
    goto L18;
L31:;
    l34 = IPL_L8(l8, 2u);
    l2 = IPL_L8(l8, 3u);
    l23 = ((((ipl_u64)l34 & 255u) << 8) | ((ipl_u64)l2 & 255u));
    l33 = IPL_L8(l8, 1u);
    l7 = (l33 >> 6);
    if ((l7 == 1u ? (ipl_u32)(l23 < 465u) : ((ipl_u32)(l7 == 2u) & (ipl_u32)(l23 == 0))) != 1u) goto L18;
    if ((l23 + 12u) > l24) goto L18;
    l7 = (l33 & 63u);
    l4 = IPL_L64U(l8, 4u);
    if ((l33 & 192u) != 64u) goto L28;
    IPL_FILL((l3 + 1992u), 0u, (ipl_u64)464u);
    if (l23 <= 464u) goto L29;
    goto L2;
L30:;
    l4 = IPL_L64U(l8, 4u);
    if (l33 != 0) goto L32;
    IPL_FILL((l3 + 1520u), 0u, (ipl_u64)472u);
    t7 = ((((l4 << 56) | ((l4 & 65280u) << 40)) | (((l4 & 16711680ull) << 24) | ((l4 & 4278190080ull) << 8))) | ((((l4 >> 8) & 4278190080ull) | ((l4 >> 24) & 16711680ull)) | (((l4 >> 40) & 65280u) | (l4 >> 56))));
    l4 = t7;
    goto L27;
L32:;
    IPL_FILL((l3 + 1992u), 0u, (ipl_u64)464u);
    l34 = l7;
L29:;
    if (l23 == 0) goto L33;
    IPL_COPY((l3 + 1992u), (l8 + 12u), l23);
L33:;
    IPL_S64(l3, 2456u, l23);
    IPL_COPY((l3 + 1520u), (l3 + 1992u), (ipl_u64)472u);
    t8 = ((((l4 << 56) | ((l4 & 65280u) << 40)) | (((l4 & 16711680ull) << 24) | ((l4 & 4278190080ull) << 8))) | ((((l4 >> 8) & 4278190080ull) | ((l4 >> 24) & 16711680ull)) | (((l4 >> 40) & 65280u) | (l4 >> 56))));
    l4 = t8;
    if (l5 != 0) goto L34;
    l23 = ((ipl_u64)l2 & 255u);
    l31 = (ipl_u64)0u;
    goto L26;
L34:;
    l23 = ((((ipl_u64)l34 & 255u) << 8) | ((ipl_u64)l2 & 255u));
    l31 = (ipl_u64)0u;
    goto L26;
L28:;
    IPL_FILL((l3 + 1520u), 0u, (ipl_u64)472u);
    t9 = ((((l4 << 56) | ((l4 & 65280u) << 40)) | (((l4 & 16711680ull) << 24) | ((l4 & 4278190080ull) << 8))) | ((((l4 >> 8) & 4278190080ull) | ((l4 >> 24) & 16711680ull)) | (((l4 >> 40) & 65280u) | (l4 >> 56))));
    l4 = t9;
L27:;
    l31 = (ipl_u64)1u;
L26:;
    IPL_S64(l3, 1024u, l31);
    IPL_S64(l3, 1016u, l4);
    IPL_S32(l3, 1012u, l7);
    IPL_S32(l3, 1008u, l6);
    IPL_S64(l3, 1000u, (ipl_u64)1u);
    IPL_COPY(l14, (l3 + 1520u), (ipl_u64)472u);
    l4 = (l23 + 12u);
    l24 = (l24 - l4);
    IPL_S64(l3, 1512u, l24);
    l8 = (l8 + l4);
    IPL_S64(l3, 1504u, l8);
    goto L19;
L18:;
    IPL_COPY(l29, (l3 + 504u), (ipl_u64)496u);
L8:;
    l19 = (l19 + 1u);
    if (l19 != l10) goto L7;
    l8 = IPL_L64((l1 + 2608u), 0u);
    if (IPL_L8((l8 + l9), 0u) != 1u) goto L5;
L6:;
    IPL_FILL((l8 + l9), 0u, (ipl_u64)2600u);
L5:;
    IPL_FILL((l3 + 1000u), 0u, (ipl_u64)264u);
    l8 = (ipl_u64)IPL_L32((l1 + 2616u), 0u);
    if (l8 == 0) goto L35;
    l4 = IPL_L64((l1 + 2608u), 0u);
    l23 = (ipl_u64)0u;
L36:;
    if (IPL_L8(l4, 0u) != 1u) goto L37;
    IPL_S64(((l3 + 1000u) + (l23 << 3)), 0u, IPL_L64(l4, 8u));
    l23 = (l23 + 1u);
    IPL_S64(l3, 1256u, l23);
L37:;
    l4 = (l4 + 2600u);
    l8 = (l8 - 1u);
    if (!(l8 == 0)) goto L36;
L35:;
    IPL_COPY((l1 + 616u), (l3 + 1000u), (ipl_u64)264u);
    IPL_S64U(l0, 4u, (ipl_u64)0u);
    IPL_S8(l0, 0u, 0u);
    IPL_S64U(l0, 12u, (ipl_u64)0u);
    IPL_S64U(l0, 20u, (ipl_u64)0u);
    goto L1;
L4:;
    l2 = 0u;
    l7 = (IPL_L8((l1 + 2968u), 0u) != 0 ? 0u : 2u);
L3:;
    IPL_S8(l0, 0u, 1u);
    IPL_S64U(l0, 12u, (ipl_u64)0u);
    IPL_S32U(l0, 8u, l2);
    IPL_S32U(l0, 4u, l7);
    IPL_S64U(l0, 20u, (ipl_u64)0u);
    goto L1;
L2:;
    ipl_trap(m);
L1:;
    IPL_G(0) = (l3 + 2464u);
}

/* ipl_keys::keys::Keys::look::<#81e02dbab8cd6729> */
static void ipl_w71_look(ipl_u8 *const m, ipl_u64 l0, ipl_u64 l1, ipl_u64 l2, ipl_u32 l3, ipl_u32 l4, ipl_u64 l5) {
    ipl_u32 l7 = 0, l8 = 0, l9 = 0, l10 = 0, l11 = 0, l12 = 0, l13 = 0;
    ipl_u64 l6 = 0, l14 = 0, l15 = 0, l16 = 0, l17 = 0, l18 = 0, l19 = 0, l20 = 0, l21 = 0, l22 = 0, l23 = 0, l24 = 0, l25 = 0, t1;
    IPL_ENDS
    t1 = IPL_G(0);
    l6 = (t1 - 32u);
    IPL_G(0) = l6;
    l7 = 0u;
    l8 = 0u;
    l9 = 0u;
    l10 = 0u;
    l11 = 0u;
    l12 = 0u;
    l13 = 0u;
    if (IPL_L8((l1 + 2968u), 0u) != 0) goto L3;
    if (IPL_L64((l1 + 608u), 0u) <= 18446744073708503040ull) goto L4;
    l12 = 1u;
    l7 = 0u;
    l8 = 0u;
    l9 = 0u;
    l10 = 0u;
    l11 = 0u;
    l13 = 0u;
    goto L3;
L4:;
    if ((IPL_L8(l5, 0u) & 255u) != 1u) goto L2;
    l7 = IPL_L32U(l5, 28u);
    l8 = IPL_L32U(l5, 24u);
    l9 = IPL_L32U(l5, 20u);
    l10 = IPL_L32U(l5, 16u);
    l11 = IPL_L8(l5, 12u);
    l12 = IPL_L32U(l5, 8u);
    l13 = IPL_L8(l5, 4u);
L3:;
    IPL_S32U(l0, 0u, 1u);
    IPL_S32U(l0, 4u, (l13 & 255u));
    IPL_S64U(l0, 8u, ((((ipl_u64)l11 & 255u) << 32) | (ipl_u64)l12));
    goto L1;
L2:;
    IPL_S64(l6, 24u, (ipl_u64)0u);
    IPL_S64(l6, 16u, (ipl_u64)0u);
    IPL_S64(l6, 8u, (ipl_u64)0u);
    IPL_S64(l6, 0u, (ipl_u64)0u);
    ipl_w48_get(m, l6, l1, l2, l3, l4);
    if (IPL_L8(l6, 0u) != 0) goto L6;
    if (IPL_L8(l6, 8u) == 1u) goto L8;
    l14 = (ipl_u64)0u;
    l12 = 0u;
    l11 = 0u;
    l4 = 0u;
    l10 = 0u;
    goto L7;
L8:;
    l15 = (l1 + 2976u);
    l1 = IPL_L64(l6, 16u);
    l16 = IPL_L64(l6, 24u);
    if ((l15 - l1) >= l16) goto L10;
    l5 = l15;
    l2 = l16;
    IPL_RISE(l5, l1, l2);
    l5 = (l5 + l2);
    l1 = (l1 + l2);
    l2 = 0u;
    goto L9;
L10:;
    if (l16 == 0) goto L9;
    IPL_COPY(l15, l1, l16);
L9:;
    l14 = (ipl_u64)0u;
    l11 = 4u;
    if (l16 <= 464u) goto L12;
    l10 = 0u;
    l12 = 1u;
    goto L7;
L12:;
    l10 = 0u;
    if (!(l16 == 0)) goto L13;
    l12 = 0u;
    l11 = 0u;
    l4 = 0u;
    goto L7;
L13:;
    l17 = 1610637312ull;
    l14 = (ipl_u64)0u;
    l12 = 1u;
    l18 = (ipl_u64)0u;
    l19 = l16;
L14:;
    l7 = IPL_L8(l15, 0u);
    if (((l7 + (ipl_u32)4294967295u) & 255u) > 15u) goto L7;
    l20 = ((ipl_u64)l7 & 255u);
    l1 = (l20 + 2u);
    if (l1 > l19) goto L7;
    l5 = (ipl_u64)IPL_L8((l15 + l20), 1u);
    if (l5 > 200u) goto L7;
    l21 = (l1 + l5);
    if (l19 < l21) goto L7;
    l22 = (l15 + 1u);
    l23 = (ipl_u64)0u;
    l24 = (l20 < l18 ? l20 : l18);
    if (l24 < 8u) goto L15;
    l25 = (l24 & 24u);
    l23 = (ipl_u64)0u;
    l5 = l17;
    l2 = l22;
L16:;
    l7 = 0u;
    l1 = (ipl_u64)0u;
    l7 = (l7 | IPL_DIFFER((l5 + l1), (l2 + l1), (8u - l1)));
    l1 = 8u;
    if ((l7 & 1u) != 0) goto L15;
    l5 = (l5 + 8u);
    l2 = (l2 + 8u);
    l23 = (l23 + 8u);
    if ((l24 - l23) > 7u) goto L16;
    l23 = l25;
L15:;
    if (l24 <= l23) goto L20;
    l1 = (l17 + l23);
    l2 = (l24 - l23);
    l5 = ((l15 + l23) + 1u);
L22:;
    l7 = IPL_L8(l1, 0u);
    l8 = IPL_L8(l5, 0u);
    if (l7 != l8) goto L21;
    l1 = (l1 + 1u);
    l5 = (l5 + 1u);
    l2 = (l2 - 1u);
    if (l2 == 0) goto L20;
    goto L22;
L21:;
    if (l7 >= l8) goto L19;
    goto L18;
L20:;
    if (l18 < l20) goto L18;
L19:;
    l14 = (ipl_u64)0u;
    goto L7;
L18:;
    l15 = (l15 + l21);
    l18 = l20;
    l17 = l22;
    l19 = (l19 - l21);
    if (!(l19 == 0)) goto L14;
    l4 = (ipl_u32)l16;
    l14 = (ipl_u64)0u;
    l12 = 0u;
    l11 = 0u;
L7:;
    l9 = 0u;
    l8 = 0u;
    l7 = 0u;
    goto L5;
L6:;
    l14 = ((ipl_u64)IPL_L8(l6, 8u) << 32);
    l7 = IPL_L32(l6, 24u);
    l8 = IPL_L32(l6, 20u);
    l9 = IPL_L32(l6, 16u);
    l10 = IPL_L32(l6, 12u);
    l4 = IPL_L8(l6, 4u);
    l11 = 0u;
    l12 = 1u;
L5:;
    IPL_S32U(l0, 0u, l12);
    IPL_S32U(l0, 4u, l11);
    IPL_S64U(l0, 8u, (l14 | (ipl_u64)l4));
L1:;
    IPL_S32U(l0, 28u, l7);
    IPL_S32U(l0, 24u, l8);
    IPL_S32U(l0, 20u, l9);
    IPL_S32U(l0, 16u, l10);
    IPL_G(0) = (l6 + 32u);
}

/* ipl_port_format */
static ipl_u32 ipl_w_ipl_port_format(ipl_u8 *const m, ipl_u64 l0, ipl_u32 l1, ipl_u32 l2, ipl_u64 l3) {
    ipl_u32 l5 = 0, l6 = 0, l7 = 0, l8 = 0, t2, t3, t4, t5, t6;
    ipl_u64 l4 = 0, l9 = 0, l10 = 0, l11 = 0, l12 = 0, t1;
    IPL_ENDS
    t1 = IPL_G(0);
    l4 = (t1 - 1328u);
    IPL_G(0) = l4;
    l5 = 80u;
    if (l2 <= 64u) goto L2;
    l6 = 0u;
    goto L1;
L2:;
    if ((l1 + (ipl_u32)4294966267u) >= (ipl_u32)4294966272u) goto L3;
    l6 = 0u;
    goto L1;
L3:;
    l6 = 0u;
    l7 = (l1 + (ipl_u32)4294967292u);
    if (l7 <= l2) goto L1;
    l8 = (l7 - l2);
    l6 = 0u;
L5:;
    t2 = ipl_to_ipl_nand_erase(m, l0, l6);
    l5 = t2;
    if (l5 == 0) goto L6;
    if (l5 == 1u) goto L4;
    l6 = 0u;
    l5 = 88u;
    goto L1;
L6:;
    l6 = (l6 + 1u);
    if (l1 != l6) goto L5;
    l6 = 0u;
    l5 = 88u;
    t3 = ipl_to_ipl_nand_barrier(m, l0);
    if (t3 != 0) goto L1;
    l9 = (ipl_u64)1u;
    l1 = 0u;
    if (l7 == l2) goto L9;
    l1 = (ipl_rotr32((l8 & (ipl_u32)16711935u), 8u) | (ipl_rotr32(l8, 24u) & (ipl_u32)16711935u));
    l10 = (ipl_u64)l8;
    l11 = (l4 + 1064u);
    l6 = 0u;
    l12 = (ipl_u64)0u;
L10:;
    IPL_S64U(l11, 0u, (ipl_u64)0u);
    IPL_S64U(l11, 8u, (ipl_u64)0u);
    IPL_S32(l4, 1060u, l1);
    IPL_S32(l4, 1080u, (ipl_u32)16777216u);
    l9 = (l12 + 1u);
    IPL_S64(l4, 1048u, l9);
    IPL_S64(l4, 1040u, l9);
    IPL_S32(l4, 1036u, l6);
    IPL_S32(l4, 1032u, 769u);
    IPL_FILL((l4 + 520u), 0u, (ipl_u64)512u);
    ipl_w7_encode(m, (l4 + 1032u), (l4 + 1060u), (ipl_u64)24u, (l4 + 520u));
    IPL_COPY((l4 + 8u), (l4 + 520u), (ipl_u64)512u);
    t4 = ipl_to_ipl_nand_program(m, l0, (ipl_u32)l12, 0u, (l4 + 8u), (ipl_u64)512u);
    if (t4 != 0) goto L8;
    l6 = (l6 + 1u);
    l12 = l9;
    if (l9 != l10) goto L10;
    l9 = (l10 + 1u);
L9:;
    IPL_FILL(((l4 + 1060u) + 9u), 0u, (ipl_u64)256u);
    IPL_S8(l4, 1068u, 0u);
    IPL_S32(l4, 1064u, (ipl_u32)16777216u);
    IPL_S32(l4, 1060u, l1);
    IPL_S64(l4, 1048u, l9);
    IPL_S64(l4, 1040u, l9);
    IPL_S64(l4, 1032u, (ipl_u64)770u);
    IPL_FILL((l4 + 520u), 0u, (ipl_u64)512u);
    ipl_w7_encode(m, (l4 + 1032u), (l4 + 1060u), (ipl_u64)9u, (l4 + 520u));
    IPL_COPY((l4 + 8u), (l4 + 520u), (ipl_u64)512u);
    t5 = ipl_to_ipl_nand_program(m, l0, l8, 0u, (l4 + 8u), (ipl_u64)512u);
    if (t5 != 0) goto L8;
    t6 = ipl_to_ipl_nand_barrier(m, l0);
    if (t6 == 0) goto L7;
L8:;
    l6 = 0u;
    goto L1;
L7:;
    l5 = 0u;
    l6 = 0u;
    goto L1;
L4:;
    l5 = 86u;
L1:;
    IPL_S32U((l3 + 644u), 0u, 0u);
    IPL_S64U((l3 + 636u), 0u, (ipl_u64)0u);
    IPL_S32U((l3 + 632u), 0u, l6);
    IPL_G(0) = (l4 + 1328u);
    return l5;
}

/* ipl_port_look */
static ipl_u32 ipl_w_ipl_port_look(ipl_u8 *const m, ipl_u64 l0, ipl_u64 l1, ipl_u64 l2) {
    ipl_u32 l4 = 0, l5 = 0, l6 = 0, l7 = 0, l8 = 0, l9 = 0, l10 = 0, l11 = 0;
    ipl_u64 l3 = 0, t1;
    IPL_ENDS
    t1 = IPL_G(0);
    l3 = (t1 - 80u);
    IPL_G(0) = l3;
    IPL_S64U((l0 + 17208u), 0u, (ipl_u64)0u);
    IPL_S64(l3, 72u, (l0 + 256u));
    IPL_S64(l3, 64u, (l0 + 920u));
    IPL_S64(l3, 56u, (l0 + 824u));
    IPL_S64(l3, 48u, (l0 + 368u));
    IPL_S64(l3, 40u, (l0 + 120u));
    IPL_S64(l3, 32u, (ipl_u64)0u);
    IPL_S64(l3, 24u, (ipl_u64)0u);
    IPL_S64(l3, 16u, (ipl_u64)0u);
    IPL_S64(l3, 8u, (ipl_u64)0u);
    l4 = 0u;
    ipl_w9_read_chip(m, (l3 + 8u), l0, IPL_L32U(l0, 48u), IPL_L64(l0, 56u), IPL_L64(l0, 64u), IPL_L64(l0, 88u), (l3 + 40u), 0u, 0u);
    if (IPL_L8(l3, 8u) == 0) goto L1;
    l5 = IPL_L32(l3, 16u);
    l4 = 80u;
    l6 = IPL_L8(l3, 12u);
    l7 = l6;
    l8 = l6;
    l9 = l6;
    switch (l6) {
    case 1u: goto L11;
    case 2u: goto L10;
    case 3u: goto L9;
    case 4u: goto L8;
    case 5u: goto L7;
    case 6u: goto L6;
    default: goto L2;
    }
L11:;
    l6 = 0u;
    l4 = 81u;
    goto L4;
L10:;
    l7 = 0u;
    l4 = 83u;
    l6 = l5;
    goto L3;
L9:;
    l10 = IPL_L32(l3, 24u);
    l11 = IPL_L32(l3, 20u);
    l4 = 87u;
    l6 = (l5 & 255u);
    l7 = l6;
    l8 = l6;
    l9 = l6;
    switch ((ipl_u32)((ipl_u64)l5 & 255u)) {
    case 1u: goto L14;
    case 2u: goto L5;
    case 3u: goto L13;
    case 4u: goto L12;
    default: goto L2;
    }
L14:;
    l6 = 0u;
    l4 = 88u;
    goto L4;
L13:;
    l8 = 0u;
    l4 = 90u;
    l6 = l11;
    l7 = l10;
    l9 = 0u;
    goto L2;
L12:;
    l7 = 0u;
    l4 = 91u;
    l6 = l11;
    goto L3;
L8:;
    l6 = 0u;
    l4 = 92u;
    goto L4;
L7:;
    l7 = 0u;
    l4 = 84u;
    l6 = l5;
    goto L3;
L6:;
    l6 = 0u;
    l4 = 93u;
    goto L4;
L5:;
    l9 = IPL_L32(l3, 32u);
    l8 = IPL_L32(l3, 28u);
    l4 = 89u;
    l6 = l11;
    l7 = l10;
    goto L2;
L4:;
    l7 = 0u;
L3:;
    l8 = 0u;
    l9 = 0u;
L2:;
    IPL_S32U((l1 + 644u), 0u, l9);
    IPL_S32U((l1 + 640u), 0u, l8);
    IPL_S32U((l1 + 636u), 0u, l7);
    IPL_S32U((l1 + 632u), 0u, l6);
L1:;
    IPL_S64(l2, 0u, l0);
    IPL_G(0) = (l3 + 80u);
    return l4;
}

/* ipl_port_check */
static ipl_u32 ipl_w_ipl_port_check(ipl_u8 *const m, ipl_u64 l0, ipl_u32 l1, ipl_u64 l2) {
    ipl_u32 l4 = 0, l5 = 0, l6 = 0, l64 = 0, l65 = 0, l66 = 0, l67 = 0, l68 = 0, l69 = 0, l70 = 0;
    ipl_u64 l3 = 0, l7 = 0, l8 = 0, l9 = 0, l10 = 0, l11 = 0, l12 = 0, l13 = 0, l14 = 0, l15 = 0, l16 = 0, l17 = 0, l18 = 0, l19 = 0, l20 = 0, l21 = 0;
    ipl_u64 l22 = 0, l23 = 0, l24 = 0, l25 = 0, l26 = 0, l27 = 0, l28 = 0, l29 = 0, l30 = 0, l31 = 0, l32 = 0, l33 = 0, l34 = 0, l35 = 0, l36 = 0, l37 = 0;
    ipl_u64 l38 = 0, l39 = 0, l40 = 0, l41 = 0, l42 = 0, l43 = 0, l44 = 0, l45 = 0, l46 = 0, l47 = 0, l48 = 0, l49 = 0, l50 = 0, l51 = 0, l52 = 0, l53 = 0;
    ipl_u64 l54 = 0, l55 = 0, l56 = 0, l57 = 0, l58 = 0, l59 = 0, l60 = 0, l61 = 0, l62 = 0, l63 = 0, t1;
    IPL_ENDS
    t1 = IPL_G(0);
    l3 = (t1 - 18480u);
    IPL_G(0) = l3;
    IPL_S64U(l3, 105u, (ipl_u64)0u);
    IPL_S8(l3, 104u, 1u);
    l4 = 0u;
    IPL_S32(l3, 100u, 0u);
    IPL_S32(l3, 96u, l1);
    IPL_S64(l3, 88u, l0);
    IPL_S64U(l3, 113u, (ipl_u64)0u);
    IPL_S64U(l3, 121u, (ipl_u64)0u);
    IPL_S64U(l3, 128u, (ipl_u64)0u);
    IPL_FILL((l3 + 512u), 0u, (ipl_u64)17160u);
    IPL_FILL((l3 + 400u), 0u, (ipl_u64)112u);
    IPL_FILL((l3 + 136u), 0u, (ipl_u64)264u);
    l5 = 0u;
    l6 = (l1 + (ipl_u32)4294967291u);
    if (l6 > 1023u) goto L3;
    IPL_FILL((l3 + 18008u), 0u, (ipl_u64)464u);
    IPL_FILL((l3 + 17792u), 0u, (ipl_u64)216u);
    IPL_FILL((l3 + 17672u), 0u, (ipl_u64)120u);
    l5 = (l1 + (ipl_u32)4294967292u);
    ipl_w18_new(m, (l3 + 18008u), l1, l5);
    if (IPL_L8F(l3, 18008u) != 0) goto L4;
    l7 = (ipl_u64)(l6 < 1024u ? l5 : 0u);
    l8 = (ipl_u64)4u;
    l9 = (ipl_u64)l5;
    l0 = (l9 << 4);
    l10 = (l0 < 510u ? l0 : (ipl_u64)510u);
    l11 = IPL_L64F(l3, 18464u);
    l0 = IPL_L64F(l3, 18456u);
    l12 = IPL_L64F(l3, 18448u);
    l13 = IPL_L64F(l3, 18440u);
    l14 = IPL_L64F(l3, 18432u);
    l15 = IPL_L64F(l3, 18424u);
    l16 = IPL_L64F(l3, 18416u);
    l17 = IPL_L64F(l3, 18408u);
    l18 = IPL_L64F(l3, 18400u);
    l19 = IPL_L64F(l3, 18392u);
    l20 = IPL_L64F(l3, 18384u);
    l21 = IPL_L64F(l3, 18376u);
    l22 = IPL_L64F(l3, 18104u);
    l23 = IPL_L64F(l3, 18096u);
    l24 = IPL_L64F(l3, 18088u);
    l25 = IPL_L64F(l3, 18080u);
    l26 = IPL_L64F(l3, 18072u);
    l27 = IPL_L64F(l3, 18064u);
    l28 = IPL_L64F(l3, 18056u);
    l29 = IPL_L64F(l3, 18048u);
    l30 = IPL_L64F(l3, 18040u);
    l31 = IPL_L64F(l3, 18032u);
    l32 = IPL_L64F(l3, 18024u);
    l33 = IPL_L64F(l3, 18016u);
    if (l5 == 0) goto L15;
    ipl_to_rattle_alloc(m, (l3 + 72u), l9, (ipl_u64)1u);
    if (((ipl_u32)IPL_L64(l3, 72u) & 1u) == 0) goto L16;
    l34 = IPL_L64(l3, 80u);
    if (l7 == 0) goto L17;
    IPL_FILL(l34, 0u, l7);
L17:;
    ipl_to_rattle_alloc(m, (l3 + 56u), (l10 * 6u), (ipl_u64)2u);
    if (((ipl_u32)IPL_L64(l3, 56u) & 1u) != 0) goto L14;
    ipl_to_rattle_dealloc(m, l34);
L16:;
    if (l31 == 0) goto L18;
    ipl_to_rattle_dealloc(m, l33);
L18:;
    if (l27 == 0) goto L19;
    ipl_to_rattle_dealloc(m, l29);
L19:;
    if (l23 == 0) goto L20;
    ipl_to_rattle_dealloc(m, l25);
L20:;
    if (l19 == 0) goto L21;
    ipl_to_rattle_dealloc(m, l21);
L21:;
    if (l15 == 0) goto L22;
    ipl_to_rattle_dealloc(m, l17);
L22:;
    if (l0 == 0) goto L4;
    goto L5;
L15:;
    ipl_to_rattle_alloc(m, (l3 + 24u), 122400ull, (ipl_u64)8u);
    if (((ipl_u32)IPL_L64(l3, 24u) & 1u) == 0) goto L11;
    l35 = IPL_L64(l3, 32u);
    l34 = (l3 + 18478u);
    l36 = l34;
    goto L13;
L14:;
    l36 = IPL_L64(l3, 64u);
    ipl_to_rattle_alloc(m, (l3 + 40u), 122400ull, (ipl_u64)8u);
    if (((ipl_u32)IPL_L64(l3, 40u) & 1u) == 0) goto L12;
    l8 = (ipl_u64)l1;
    l35 = IPL_L64(l3, 48u);
L13:;
    ipl_to_rattle_alloc(m, (l3 + 8u), (ipl_u64)15624u, (ipl_u64)8u);
    if (((ipl_u32)IPL_L64(l3, 8u) & 1u) == 0) goto L10;
    l37 = IPL_L64(l3, 16u);
    ipl_w21_new(m, (l3 + 17792u), l1, l5);
    if (IPL_L8F(l3, 17792u) != 0) goto L9;
    l38 = IPL_L64F(l3, 18000u);
    l39 = IPL_L64F(l3, 17992u);
    l40 = IPL_L64F(l3, 17984u);
    l41 = IPL_L64F(l3, 17976u);
    l42 = IPL_L64F(l3, 17968u);
    l43 = IPL_L64F(l3, 17960u);
    l44 = IPL_L64F(l3, 17952u);
    l45 = IPL_L64F(l3, 17944u);
    l46 = IPL_L64F(l3, 17936u);
    l47 = IPL_L64F(l3, 17928u);
    l48 = IPL_L64F(l3, 17920u);
    l49 = IPL_L64F(l3, 17912u);
    l50 = IPL_L64F(l3, 17904u);
    l51 = IPL_L64F(l3, 17896u);
    l52 = IPL_L64F(l3, 17888u);
    l53 = IPL_L64F(l3, 17880u);
    l54 = IPL_L64F(l3, 17872u);
    l55 = IPL_L64F(l3, 17864u);
    l56 = IPL_L64F(l3, 17856u);
    l57 = IPL_L64F(l3, 17848u);
    l58 = IPL_L64F(l3, 17840u);
    l59 = IPL_L64F(l3, 17832u);
    l60 = IPL_L64F(l3, 17824u);
    l61 = IPL_L64F(l3, 17816u);
    l62 = IPL_L64F(l3, 17808u);
    l63 = IPL_L64F(l3, 17800u);
    ipl_w22_new(m, (l3 + 17672u), (ipl_u64)15300u);
    if (IPL_L8F(l3, 17672u) == 0) goto L8;
    if (l60 == 0) goto L23;
    ipl_to_rattle_dealloc(m, l62);
L23:;
    if (l56 == 0) goto L24;
    ipl_to_rattle_dealloc(m, l58);
L24:;
    if (l52 == 0) goto L25;
    ipl_to_rattle_dealloc(m, l54);
L25:;
    if (l48 == 0) goto L26;
    ipl_to_rattle_dealloc(m, l50);
L26:;
    if (l44 == 0) goto L27;
    ipl_to_rattle_dealloc(m, l46);
L27:;
    if (l40 == 0) goto L28;
    ipl_to_rattle_dealloc(m, l42);
L28:;
    ipl_to_rattle_dealloc(m, l37);
    if (l31 == 0) goto L29;
    ipl_to_rattle_dealloc(m, l33);
L29:;
    if (l27 == 0) goto L30;
    ipl_to_rattle_dealloc(m, l29);
L30:;
    if (l23 == 0) goto L31;
    ipl_to_rattle_dealloc(m, l25);
L31:;
    if (l19 == 0) goto L32;
    ipl_to_rattle_dealloc(m, l21);
L32:;
    if (l15 == 0) goto L33;
    ipl_to_rattle_dealloc(m, l17);
L33:;
    if (l0 == 0) goto L34;
    ipl_to_rattle_dealloc(m, l13);
L34:;
    if (l5 != 0) goto L7;
    goto L6;
L12:;
    ipl_to_rattle_dealloc(m, l34);
    ipl_to_rattle_dealloc(m, l36);
L11:;
    if (l31 == 0) goto L35;
    ipl_to_rattle_dealloc(m, l33);
L35:;
    if (l27 == 0) goto L36;
    ipl_to_rattle_dealloc(m, l29);
L36:;
    if (l23 == 0) goto L37;
    ipl_to_rattle_dealloc(m, l25);
L37:;
    if (l19 == 0) goto L38;
    ipl_to_rattle_dealloc(m, l21);
L38:;
    if (l15 == 0) goto L39;
    ipl_to_rattle_dealloc(m, l17);
L39:;
    if (!(l0 == 0)) goto L5;
    goto L4;
L10:;
    if (l31 == 0) goto L40;
    ipl_to_rattle_dealloc(m, l33);
L40:;
    if (l27 == 0) goto L41;
    ipl_to_rattle_dealloc(m, l29);
L41:;
    if (l23 == 0) goto L42;
    ipl_to_rattle_dealloc(m, l25);
L42:;
    if (l19 == 0) goto L43;
    ipl_to_rattle_dealloc(m, l21);
L43:;
    if (l15 == 0) goto L44;
    ipl_to_rattle_dealloc(m, l17);
L44:;
    if (l0 == 0) goto L45;
    ipl_to_rattle_dealloc(m, l13);
L45:;
    if (l5 == 0) goto L6;
    goto L7;
L9:;
    ipl_to_rattle_dealloc(m, l37);
    if (l31 == 0) goto L46;
    ipl_to_rattle_dealloc(m, l33);
L46:;
    if (l27 == 0) goto L47;
    ipl_to_rattle_dealloc(m, l29);
L47:;
    if (l23 == 0) goto L48;
    ipl_to_rattle_dealloc(m, l25);
L48:;
    if (l19 == 0) goto L49;
    ipl_to_rattle_dealloc(m, l21);
L49:;
    if (l15 == 0) goto L50;
    ipl_to_rattle_dealloc(m, l17);
L50:;
    if (l0 == 0) goto L51;
    ipl_to_rattle_dealloc(m, l13);
L51:;
    if (l5 != 0) goto L7;
    goto L6;
L8:;
    IPL_COPY((l3 + 400u), (l3 + 17680u), (ipl_u64)112u);
    IPL_COPY((l3 + 136u), (l3 + 18112u), (ipl_u64)264u);
    IPL_S64(l3, 712u, l38);
    IPL_S64(l3, 704u, l39);
    IPL_S64(l3, 696u, l40);
    IPL_S64(l3, 688u, l41);
    IPL_S64(l3, 680u, l42);
    IPL_S64(l3, 672u, l43);
    IPL_S64(l3, 664u, l44);
    IPL_S64(l3, 656u, l45);
    IPL_S64(l3, 648u, l46);
    IPL_S64(l3, 640u, l47);
    IPL_S64(l3, 632u, l48);
    IPL_S64(l3, 624u, l49);
    IPL_S64(l3, 616u, l50);
    IPL_S64(l3, 608u, l51);
    IPL_S64(l3, 600u, l52);
    IPL_S64(l3, 592u, l53);
    IPL_S64(l3, 584u, l54);
    IPL_S64(l3, 576u, l55);
    IPL_S64(l3, 568u, l56);
    IPL_S64(l3, 560u, l57);
    IPL_S64(l3, 552u, l58);
    IPL_S64(l3, 544u, l59);
    IPL_S64(l3, 536u, l60);
    IPL_S64(l3, 528u, l61);
    IPL_S64(l3, 520u, l62);
    IPL_S64(l3, 512u, l63);
    l40 = (l3 + 720u);
    IPL_COPY(l40, (l3 + 400u), (ipl_u64)112u);
    IPL_S64(l3, 920u, l22);
    IPL_S64(l3, 912u, l23);
    IPL_S64(l3, 904u, l24);
    IPL_S64(l3, 896u, l25);
    IPL_S64(l3, 888u, l26);
    IPL_S64(l3, 880u, l27);
    IPL_S64(l3, 872u, l28);
    IPL_S64(l3, 864u, l29);
    IPL_S64(l3, 856u, l30);
    IPL_S64(l3, 848u, l31);
    IPL_S64(l3, 840u, l32);
    IPL_S64(l3, 832u, l33);
    IPL_COPY((l3 + 928u), (l3 + 136u), (ipl_u64)264u);
    IPL_S64(l3, 1352u, l10);
    IPL_S64(l3, 1344u, l10);
    IPL_S64(l3, 1336u, (ipl_u64)0u);
    IPL_S64(l3, 1328u, l36);
    IPL_S64(l3, 1320u, l9);
    IPL_S64(l3, 1312u, l9);
    IPL_S64(l3, 1304u, l7);
    IPL_S64(l3, 1296u, l34);
    IPL_S64(l3, 1288u, l8);
    IPL_S64(l3, 1280u, l11);
    IPL_S64(l3, 1272u, l0);
    IPL_S64(l3, 1264u, l12);
    IPL_S64(l3, 1256u, l13);
    IPL_S64(l3, 1248u, l14);
    IPL_S64(l3, 1240u, l15);
    IPL_S64(l3, 1232u, l16);
    IPL_S64(l3, 1224u, l17);
    IPL_S64(l3, 1216u, l18);
    IPL_S64(l3, 1208u, l19);
    IPL_S64(l3, 1200u, l20);
    IPL_S64(l3, 1192u, l21);
    IPL_S64(l3, 1392u, (ipl_u64)0u);
    IPL_S64(l3, 1384u, (ipl_u64)0u);
    IPL_S64(l3, 1376u, (ipl_u64)0u);
    IPL_S64(l3, 1368u, (ipl_u64)0u);
    IPL_S64(l3, 1360u, (ipl_u64)0u);
    IPL_S64(l3, 1400u, l35);
    IPL_S64(l3, 1408u, (ipl_u64)0u);
    IPL_S64(l3, 1416u, (ipl_u64)15300u);
    IPL_S64(l3, 1424u, (ipl_u64)15300u);
    IPL_S64(l3, 1432u, (ipl_u64)256u);
    IPL_S64(l3, 1440u, l37);
    IPL_S64(l3, 1448u, (ipl_u64)0u);
    IPL_S64(l3, 1456u, (ipl_u64)31u);
    IPL_S64(l3, 1464u, (ipl_u64)31u);
    l5 = 0u;
    l19 = (l3 + 1472u);
    IPL_FILL(l19, 0u, (ipl_u64)16200u);
    IPL_S64F(l3, 18040u, l40);
    l23 = (l3 + 1384u);
    IPL_S64F(l3, 18032u, l23);
    l31 = (l3 + 1288u);
    IPL_S64F(l3, 18024u, l31);
    l9 = (l3 + 832u);
    IPL_S64F(l3, 18016u, l9);
    IPL_S64F(l3, 18008u, (l3 + 584u));
    IPL_S64F(l3, 17816u, (ipl_u64)0u);
    IPL_S64F(l3, 17808u, (ipl_u64)0u);
    IPL_S64F(l3, 17800u, (ipl_u64)0u);
    IPL_S64F(l3, 17792u, (ipl_u64)0u);
    ipl_w9_read_chip(m, (l3 + 17792u), (l3 + 88u), IPL_L32(l3, 512u), l62, l61, l58, (l3 + 18008u), 0u, 0u);
    if (IPL_L8F(l3, 17792u) != 0) goto L56;
    l25 = (ipl_u64)IPL_L32(l3, 840u);
    if (!(l25 == 0)) goto L57;
    l5 = 0u;
    l1 = 1u;
    l64 = 0u;
    l65 = 0u;
    l66 = 0u;
    l67 = 0u;
    l68 = 0u;
    l4 = 0u;
    goto L52;
L57:;
    l21 = (l3 + 1440u);
    l13 = (l3 + 17808u);
    l17 = (l3 + 18032u);
    l5 = 0u;
    l27 = (ipl_u64)0u;
L58:;
    IPL_S64F(l3, 18040u, (ipl_u64)0u);
    IPL_S64F(l3, 18032u, (ipl_u64)0u);
    IPL_S64F(l3, 18024u, (ipl_u64)0u);
    IPL_S64F(l3, 18016u, (ipl_u64)0u);
    IPL_S64F(l3, 18008u, (ipl_u64)0u);
    l69 = (ipl_u32)l27;
    ipl_w23_read_live(m, (l3 + 18008u), (l3 + 88u), l9, l31, l69, l21);
    l4 = IPL_L32F(l3, 18028u);
    l68 = IPL_L32F(l3, 18024u);
    l67 = IPL_L32F(l3, 18020u);
    l66 = IPL_L32F(l3, 18016u);
    if (IPL_L8F(l3, 18008u) != 0) goto L54;
    IPL_S64(l13, 0u, IPL_L64(l17, 0u));
    IPL_S64(l13, 8u, IPL_L64(l17, 8u));
    IPL_S32F(l3, 17804u, l4);
    IPL_S32F(l3, 17800u, l68);
    IPL_S32F(l3, 17796u, l67);
    IPL_S32F(l3, 17792u, l66);
    l64 = IPL_L32((IPL_L64(l3, 832u) + (l27 << 2)), 0u);
    l70 = 0u;
    l6 = 0u;
L59:;
    IPL_S64F(l3, 17688u, (ipl_u64)0u);
    IPL_S64F(l3, 17680u, (ipl_u64)0u);
    IPL_S64F(l3, 17672u, (ipl_u64)0u);
    ipl_w26_rebuild(m, (l3 + 17672u), (l3 + 88u), l64, l69, (l3 + 17792u), IPL_L64(l3, 1440u), IPL_L64(l3, 1448u), l6, l23, 1610637312ull, (ipl_u64)0u, l19);
    if (IPL_L8F(l3, 17672u) != 0) goto L55;
    l1 = 0u;
    l0 = (ipl_u64)0u;
L60:;
    l15 = ((l3 + 512u) + l0);
    l1 = (l1 + (ipl_u32)(IPL_L16((l15 + 8640u), 0u) != IPL_L16((l15 + 8642u), 0u)));
    l0 = (l0 + 2u);
    if (l0 != 128u) goto L60;
    l70 = (l1 + l70);
    l6 = (l6 + 1u);
    if (l6 != 15u) goto L59;
    l5 = (l70 + l5);
    l64 = 0u;
    l1 = 1u;
    l65 = 0u;
    l66 = 0u;
    l67 = 0u;
    l68 = 0u;
    l4 = 0u;
    l27 = (l27 + 1u);
    if (l27 != l25) goto L58;
    goto L52;
L56:;
    l4 = IPL_L32F(l3, 17816u);
    l68 = IPL_L32F(l3, 17812u);
    l67 = IPL_L32F(l3, 17808u);
    l66 = IPL_L32F(l3, 17804u);
    l65 = IPL_L32F(l3, 17800u);
    l64 = IPL_L8F(l3, 17796u);
    l1 = 0u;
    goto L52;
L55:;
    l1 = IPL_L8F(l3, 17676u);
    l66 = IPL_L32F(l3, 17680u);
    l67 = IPL_L32F(l3, 17684u);
    l68 = IPL_L32F(l3, 17688u);
    l4 = IPL_L32F(l3, 17692u);
    goto L53;
L54:;
    l1 = IPL_L8F(l3, 18012u);
L53:;
    l65 = (l1 & 255u);
    l64 = 3u;
    l1 = 0u;
    l5 = 0u;
L52:;
    l0 = IPL_L64(l3, 696u);
    l31 = IPL_L64(l3, 680u);
    l15 = IPL_L64(l3, 664u);
    l9 = IPL_L64(l3, 648u);
    l19 = IPL_L64(l3, 632u);
    l13 = IPL_L64(l3, 616u);
    l23 = IPL_L64(l3, 600u);
    l17 = IPL_L64(l3, 584u);
    l27 = IPL_L64(l3, 568u);
    l21 = IPL_L64(l3, 552u);
    if (IPL_L64(l3, 536u) == 0) goto L61;
    ipl_to_rattle_dealloc(m, IPL_L64(l3, 520u));
L61:;
    if (l27 == 0) goto L62;
    ipl_to_rattle_dealloc(m, l21);
L62:;
    if (l23 == 0) goto L63;
    ipl_to_rattle_dealloc(m, l17);
L63:;
    if (l19 == 0) goto L64;
    ipl_to_rattle_dealloc(m, l13);
L64:;
    if (l15 == 0) goto L65;
    ipl_to_rattle_dealloc(m, l9);
L65:;
    if (l0 == 0) goto L66;
    ipl_to_rattle_dealloc(m, l31);
L66:;
    l0 = IPL_L64(l3, 792u);
    l15 = IPL_L64(l3, 776u);
    if (IPL_L64(l3, 736u) == 0) goto L67;
    ipl_to_rattle_dealloc(m, IPL_L64(l3, 720u));
L67:;
    if (l0 == 0) goto L68;
    ipl_to_rattle_dealloc(m, l15);
L68:;
    l0 = IPL_L64(l3, 1416u);
    l17 = IPL_L64(l3, 1400u);
    l15 = IPL_L64(l3, 1344u);
    l21 = IPL_L64(l3, 1328u);
    l19 = IPL_L64(l3, 1312u);
    l25 = IPL_L64(l3, 1296u);
    l23 = IPL_L64(l3, 1272u);
    l29 = IPL_L64(l3, 1256u);
    l27 = IPL_L64(l3, 1240u);
    l33 = IPL_L64(l3, 1224u);
    l31 = IPL_L64(l3, 1208u);
    l7 = IPL_L64(l3, 1192u);
    l9 = IPL_L64(l3, 912u);
    l10 = IPL_L64(l3, 896u);
    l13 = IPL_L64(l3, 880u);
    l8 = IPL_L64(l3, 864u);
    if (IPL_L64(l3, 848u) == 0) goto L69;
    ipl_to_rattle_dealloc(m, IPL_L64(l3, 832u));
L69:;
    if (l13 == 0) goto L70;
    ipl_to_rattle_dealloc(m, l8);
L70:;
    if (l9 == 0) goto L71;
    ipl_to_rattle_dealloc(m, l10);
L71:;
    if (l31 == 0) goto L72;
    ipl_to_rattle_dealloc(m, l7);
L72:;
    if (l27 == 0) goto L73;
    ipl_to_rattle_dealloc(m, l33);
L73:;
    if (l23 == 0) goto L74;
    ipl_to_rattle_dealloc(m, l29);
L74:;
    if (l19 == 0) goto L75;
    ipl_to_rattle_dealloc(m, l25);
L75:;
    if (l15 == 0) goto L76;
    ipl_to_rattle_dealloc(m, l21);
L76:;
    if (l0 == 0) goto L77;
    ipl_to_rattle_dealloc(m, l17);
L77:;
    if (IPL_L64(l3, 1456u) == 0) goto L78;
    ipl_to_rattle_dealloc(m, IPL_L64(l3, 1440u));
L78:;
    if (l1 == 0) goto L2;
    IPL_S32(l2, 8u, l5);
    l5 = 0u;
    goto L1;
L7:;
    ipl_to_rattle_dealloc(m, l34);
    ipl_to_rattle_dealloc(m, l36);
L6:;
    ipl_to_rattle_dealloc(m, l35);
    goto L4;
L5:;
    ipl_to_rattle_dealloc(m, l13);
L4:;
    l5 = 1u;
L3:;
    l68 = 0u;
    l67 = 0u;
    l66 = 0u;
    l65 = 0u;
    l64 = 0u;
L2:;
    if ((l5 & 255u) == 0) goto L83;
    l5 = 85u;
    goto L82;
L83:;
    l5 = 80u;
    l1 = (l64 & 255u);
    l6 = l1;
    l70 = l1;
    l69 = l1;
    switch ((ipl_u32)((ipl_u64)l64 & 255u)) {
    case 1u: goto L90;
    case 2u: goto L89;
    case 3u: goto L88;
    case 4u: goto L87;
    case 5u: goto L86;
    case 6u: goto L85;
    default: goto L79;
    }
L90:;
    l5 = 81u;
    goto L82;
L89:;
    l5 = 83u;
    l1 = l65;
    goto L81;
L88:;
    l5 = 87u;
    l1 = (l65 & 255u);
    l6 = l1;
    l70 = l1;
    l69 = l1;
    switch ((ipl_u32)((ipl_u64)l65 & 255u)) {
    case 1u: goto L93;
    case 2u: goto L84;
    case 3u: goto L92;
    case 4u: goto L91;
    default: goto L79;
    }
L93:;
    l5 = 88u;
    goto L82;
L92:;
    l5 = 90u;
    l1 = l66;
    l6 = l67;
    goto L80;
L91:;
    l5 = 91u;
    l1 = l66;
    goto L81;
L87:;
    l5 = 92u;
    goto L82;
L86:;
    l5 = 84u;
    l1 = l65;
    goto L81;
L85:;
    l5 = 93u;
    goto L82;
L84:;
    l5 = 89u;
    l1 = l66;
    l6 = l67;
    l70 = l68;
    l69 = l4;
    goto L79;
L82:;
    l1 = 0u;
L81:;
    l6 = 0u;
L80:;
    l70 = 0u;
    l69 = 0u;
L79:;
    IPL_S32U((l2 + 644u), 0u, l69);
    IPL_S32U((l2 + 640u), 0u, l70);
    IPL_S32U((l2 + 636u), 0u, l6);
    IPL_S32U((l2 + 632u), 0u, l1);
L1:;
    IPL_G(0) = (l3 + 18480u);
    return l5;
}

/* ipl_port_open_keys */
static ipl_u32 ipl_w_ipl_port_open_keys(ipl_u8 *const m, ipl_u64 l0, ipl_u32 l1, ipl_u32 l2, ipl_u64 l3, ipl_u64 l4) {
    ipl_u32 l7 = 0, l8 = 0, l108 = 0, l109 = 0, l110 = 0, l111 = 0, l112 = 0, l113 = 0, l114 = 0, l115 = 0, l116 = 0;
    ipl_u64 l5 = 0, l6 = 0, l9 = 0, l10 = 0, l11 = 0, l12 = 0, l13 = 0, l14 = 0, l15 = 0, l16 = 0, l17 = 0, l18 = 0, l19 = 0, l20 = 0, l21 = 0, l22 = 0;
    ipl_u64 l23 = 0, l24 = 0, l25 = 0, l26 = 0, l27 = 0, l28 = 0, l29 = 0, l30 = 0, l31 = 0, l32 = 0, l33 = 0, l34 = 0, l35 = 0, l36 = 0, l37 = 0, l38 = 0;
    ipl_u64 l39 = 0, l40 = 0, l41 = 0, l42 = 0, l43 = 0, l44 = 0, l45 = 0, l46 = 0, l47 = 0, l48 = 0, l49 = 0, l50 = 0, l51 = 0, l52 = 0, l53 = 0, l54 = 0;
    ipl_u64 l55 = 0, l56 = 0, l57 = 0, l58 = 0, l59 = 0, l60 = 0, l61 = 0, l62 = 0, l63 = 0, l64 = 0, l65 = 0, l66 = 0, l67 = 0, l68 = 0, l69 = 0, l70 = 0;
    ipl_u64 l71 = 0, l72 = 0, l73 = 0, l74 = 0, l75 = 0, l76 = 0, l77 = 0, l78 = 0, l79 = 0, l80 = 0, l81 = 0, l82 = 0, l83 = 0, l84 = 0, l85 = 0, l86 = 0;
    ipl_u64 l87 = 0, l88 = 0, l89 = 0, l90 = 0, l91 = 0, l92 = 0, l93 = 0, l94 = 0, l95 = 0, l96 = 0, l97 = 0, l98 = 0, l99 = 0, l100 = 0, l101 = 0, l102 = 0;
    ipl_u64 l103 = 0, l104 = 0, l105 = 0, l106 = 0, l107 = 0, t1;
    IPL_ENDS
    t1 = IPL_G(0);
    l5 = (t1 - 17648u);
    IPL_G(0) = l5;
    l6 = (ipl_u64)0u;
    IPL_S64(l5, 2712u, (ipl_u64)0u);
    IPL_S64(l5, 2720u, (ipl_u64)0u);
    IPL_S64(l5, 2728u, (ipl_u64)0u);
    IPL_S64(l5, 2736u, (ipl_u64)0u);
    l7 = 0u;
    IPL_FILL((l5 + 2448u), 0u, (ipl_u64)264u);
    IPL_S64(l5, 2440u, (ipl_u64)0u);
    IPL_S64(l5, 2432u, (ipl_u64)0u);
    IPL_S64(l5, 2424u, (ipl_u64)0u);
    IPL_S64(l5, 2408u, (ipl_u64)0u);
    IPL_S64(l5, 2416u, (ipl_u64)0u);
    IPL_FILL((l5 + 2088u), 0u, (ipl_u64)320u);
    IPL_FILL((l5 + 1592u), 0u, (ipl_u64)496u);
    IPL_S64(l5, 1584u, (ipl_u64)0u);
    IPL_S64(l5, 1576u, (ipl_u64)0u);
    IPL_FILL((l5 + 528u), 0u, (ipl_u64)1048u);
    IPL_S64(l5, 520u, (ipl_u64)0u);
    IPL_S64(l5, 512u, (ipl_u64)0u);
    IPL_S64(l5, 504u, (ipl_u64)0u);
    IPL_S64(l5, 480u, (ipl_u64)0u);
    IPL_S64(l5, 488u, (ipl_u64)0u);
    IPL_S64(l5, 496u, (ipl_u64)0u);
    IPL_S64(l5, 464u, (ipl_u64)0u);
    IPL_S64(l5, 472u, (ipl_u64)0u);
    IPL_S16(l5, 460u, 0u);
    IPL_S8(l5, 462u, 0u);
    IPL_FILL((l5 + 16u), 0u, (ipl_u64)440u);
    IPL_S64UF(l5, 11208u, IPL_L64U(l3, 4u));
    IPL_S32F(l5, 11204u, l2);
    IPL_S64F(l5, 11192u, (ipl_u64)0u);
    IPL_S64F(l5, 11184u, (ipl_u64)0u);
    IPL_S64F(l5, 11176u, (ipl_u64)0u);
    IPL_S64F(l5, 11168u, (ipl_u64)0u);
    IPL_S64F(l5, 11160u, (ipl_u64)0u);
    IPL_S64F(l5, 11152u, (ipl_u64)0u);
    IPL_FILL((l5 + 7904u), 0u, (ipl_u64)264u);
    IPL_S64F(l5, 7896u, (ipl_u64)0u);
    IPL_S64F(l5, 7888u, (ipl_u64)0u);
    IPL_S64F(l5, 7880u, (ipl_u64)0u);
    IPL_S64F(l5, 7864u, (ipl_u64)0u);
    IPL_S64F(l5, 7872u, (ipl_u64)0u);
    IPL_FILL((l5 + 7544u), 0u, (ipl_u64)320u);
    IPL_FILL((l5 + 7048u), 0u, (ipl_u64)496u);
    IPL_S64F(l5, 7040u, (ipl_u64)0u);
    IPL_S64F(l5, 7032u, (ipl_u64)0u);
    IPL_FILL((l5 + 5984u), 0u, (ipl_u64)1048u);
    IPL_S64F(l5, 5976u, (ipl_u64)0u);
    IPL_S64F(l5, 5968u, (ipl_u64)0u);
    IPL_S64F(l5, 5960u, (ipl_u64)0u);
    IPL_S64F(l5, 5936u, (ipl_u64)0u);
    IPL_S64F(l5, 5944u, (ipl_u64)0u);
    IPL_S64F(l5, 5952u, (ipl_u64)0u);
    IPL_S64F(l5, 5920u, (ipl_u64)0u);
    IPL_S64F(l5, 5928u, (ipl_u64)0u);
    IPL_S16F(l5, 5916u, 0u);
    IPL_S8F(l5, 5918u, 0u);
    IPL_FILL((l5 + 5472u), 0u, (ipl_u64)440u);
    IPL_S64F(l5, 5464u, (ipl_u64)0u);
    IPL_S64F(l5, 5456u, (ipl_u64)0u);
    IPL_S64F(l5, 5448u, (ipl_u64)0u);
    IPL_S64F(l5, 5440u, (ipl_u64)0u);
    IPL_FILL((l5 + 5176u), 0u, (ipl_u64)264u);
    IPL_S64F(l5, 5168u, (ipl_u64)0u);
    IPL_S64F(l5, 5160u, (ipl_u64)0u);
    IPL_S64F(l5, 5152u, (ipl_u64)0u);
    IPL_S64F(l5, 5136u, (ipl_u64)0u);
    IPL_S64F(l5, 5144u, (ipl_u64)0u);
    IPL_FILL((l5 + 4816u), 0u, (ipl_u64)320u);
    IPL_FILL((l5 + 4320u), 0u, (ipl_u64)496u);
    IPL_S64F(l5, 4312u, (ipl_u64)0u);
    IPL_S64F(l5, 4304u, (ipl_u64)0u);
    IPL_FILL((l5 + 3256u), 0u, (ipl_u64)1048u);
    IPL_S64(l5, 3248u, (ipl_u64)0u);
    IPL_S64(l5, 3240u, (ipl_u64)0u);
    IPL_S64(l5, 3232u, (ipl_u64)0u);
    IPL_S64(l5, 3208u, (ipl_u64)0u);
    IPL_S64(l5, 3216u, (ipl_u64)0u);
    IPL_S64(l5, 3224u, (ipl_u64)0u);
    IPL_S64(l5, 3192u, (ipl_u64)0u);
    IPL_S64(l5, 3200u, (ipl_u64)0u);
    IPL_S16(l5, 3188u, 0u);
    IPL_S8(l5, 3190u, 0u);
    IPL_FILL((l5 + 2748u), 0u, (ipl_u64)440u);
    ipl_w36_memory(m, (l5 + 8168u), (l5 + 11204u), l1);
    if (IPL_L8F(l5, 8168u) != 0) goto L2;
    IPL_S64UF(l5, 11169u, (ipl_u64)0u);
    IPL_S8F(l5, 11168u, 1u);
    l8 = 0u;
    IPL_S32F(l5, 11164u, 0u);
    IPL_S32F(l5, 11160u, l1);
    IPL_S64F(l5, 11152u, l0);
    IPL_S64UF(l5, 11177u, (ipl_u64)0u);
    IPL_S64UF(l5, 11185u, (ipl_u64)0u);
    IPL_S64UF(l5, 11192u, (ipl_u64)0u);
    l6 = IPL_L64F(l5, 8176u);
    l0 = IPL_L64F(l5, 8184u);
    IPL_FILL((l5 + 14640u), 0u, (ipl_u64)3008u);
    IPL_FILL((l5 + 11216u), 0u, (ipl_u64)440u);
    IPL_S64F(l5, 11672u, l0);
    IPL_S64F(l5, 11664u, l6);
    IPL_COPY(((l5 + 11664u) + 16u), (l5 + 8192u), (ipl_u64)2960u);
    l9 = (l5 + 17608u);
    l10 = (l5 + 17376u);
    l11 = (l5 + 17320u);
    l12 = (l5 + 16208u);
    l13 = (l5 + 16192u);
    l14 = (l5 + 15672u);
    l15 = (l5 + 15256u);
    l16 = (l5 + 15200u);
    l17 = (l5 + 15176u);
    l18 = (l5 + 14744u);
    ipl_w37_open(m, (l5 + 14640u), (l5 + 11664u), (l5 + 11152u));
    l19 = IPL_L64F(l5, 17600u);
    l20 = IPL_L64F(l5, 17592u);
    l0 = IPL_L64F(l5, 17584u);
    l21 = IPL_L64F(l5, 17576u);
    l22 = IPL_L64F(l5, 17568u);
    l23 = IPL_L64F(l5, 17560u);
    l24 = IPL_L64F(l5, 17552u);
    l25 = IPL_L64F(l5, 17544u);
    l26 = IPL_L64F(l5, 17536u);
    l27 = IPL_L64F(l5, 17528u);
    l28 = IPL_L64F(l5, 17520u);
    l29 = IPL_L64F(l5, 17512u);
    l30 = IPL_L64F(l5, 17504u);
    l31 = IPL_L64F(l5, 17496u);
    l32 = IPL_L64F(l5, 17488u);
    l33 = IPL_L64F(l5, 17480u);
    l34 = IPL_L64F(l5, 17472u);
    l35 = IPL_L64F(l5, 17464u);
    l36 = IPL_L64F(l5, 17456u);
    l37 = IPL_L64F(l5, 17448u);
    l38 = IPL_L64F(l5, 17440u);
    l39 = IPL_L64F(l5, 17432u);
    l40 = IPL_L64F(l5, 17424u);
    l41 = IPL_L64F(l5, 17416u);
    l42 = IPL_L64F(l5, 17408u);
    l43 = IPL_L64F(l5, 17400u);
    l44 = IPL_L64F(l5, 17368u);
    l45 = IPL_L64F(l5, 17360u);
    l46 = IPL_L64F(l5, 17352u);
    l47 = IPL_L64F(l5, 17344u);
    l48 = IPL_L64F(l5, 17312u);
    l49 = IPL_L64F(l5, 17304u);
    l50 = IPL_L64F(l5, 17296u);
    l51 = IPL_L64F(l5, 17288u);
    l52 = IPL_L64F(l5, 17280u);
    l53 = IPL_L64F(l5, 17272u);
    l54 = IPL_L64F(l5, 17264u);
    l55 = IPL_L64F(l5, 17256u);
    l56 = IPL_L64F(l5, 16184u);
    l57 = IPL_L64F(l5, 16176u);
    l58 = IPL_L64F(l5, 16168u);
    l59 = IPL_L64F(l5, 15664u);
    l60 = IPL_L64F(l5, 15656u);
    l61 = IPL_L64F(l5, 15648u);
    l62 = IPL_L64F(l5, 15640u);
    l63 = IPL_L64F(l5, 15632u);
    l64 = IPL_L64F(l5, 15624u);
    l65 = IPL_L64F(l5, 15616u);
    l66 = IPL_L64F(l5, 15608u);
    l67 = IPL_L64F(l5, 15600u);
    l68 = IPL_L64F(l5, 15592u);
    l69 = IPL_L64F(l5, 15584u);
    l70 = IPL_L64F(l5, 15576u);
    l71 = IPL_L64F(l5, 15248u);
    l72 = IPL_L64F(l5, 15240u);
    l73 = IPL_L64F(l5, 15232u);
    l74 = IPL_L64F(l5, 15224u);
    l75 = IPL_L64F(l5, 15216u);
    l76 = IPL_L64F(l5, 15168u);
    l77 = IPL_L64F(l5, 15160u);
    l78 = IPL_L64F(l5, 15152u);
    l79 = IPL_L64F(l5, 15144u);
    l80 = IPL_L64F(l5, 15136u);
    l81 = IPL_L64F(l5, 15128u);
    l82 = IPL_L64F(l5, 15120u);
    l83 = IPL_L64F(l5, 15112u);
    l84 = IPL_L64F(l5, 15104u);
    l85 = IPL_L64F(l5, 15096u);
    l86 = IPL_L64F(l5, 15088u);
    l87 = IPL_L64F(l5, 15080u);
    l88 = IPL_L64F(l5, 15072u);
    l89 = IPL_L64F(l5, 15064u);
    l90 = IPL_L64F(l5, 15056u);
    l91 = IPL_L64F(l5, 15048u);
    l92 = IPL_L64F(l5, 15040u);
    l93 = IPL_L64F(l5, 15032u);
    l94 = IPL_L64F(l5, 15024u);
    l95 = IPL_L64F(l5, 15016u);
    l96 = IPL_L64F(l5, 15008u);
    l97 = IPL_L64F(l5, 14736u);
    l98 = IPL_L64F(l5, 14728u);
    l99 = IPL_L64F(l5, 14720u);
    l100 = IPL_L64F(l5, 14712u);
    l101 = IPL_L64F(l5, 14704u);
    l102 = IPL_L64F(l5, 14696u);
    l103 = IPL_L64F(l5, 14688u);
    l104 = IPL_L64F(l5, 14680u);
    l105 = IPL_L64F(l5, 14672u);
    l106 = IPL_L64F(l5, 14664u);
    l107 = IPL_L64F(l5, 14656u);
    l6 = IPL_L64F(l5, 14648u);
    l108 = IPL_L8F(l5, 14640u);
    if (l108 != 0) goto L4;
    IPL_S8F(l5, 11662u, 0u);
    IPL_S16F(l5, 11660u, 0u);
    IPL_FILL((l5 + 11216u), 0u, (ipl_u64)440u);
    l109 = 0u;
    l110 = 0u;
    l111 = 0u;
    l112 = 0u;
    l113 = 0u;
    goto L3;
L4:;
    IPL_S16F(l5, 11660u, IPL_L16UF(l5, 17625u));
    IPL_S8F(l5, 11662u, IPL_L8F(l5, 17627u));
    l8 = IPL_L32F(l5, 17644u);
    l109 = IPL_L32F(l5, 17640u);
    l110 = IPL_L32F(l5, 17636u);
    l111 = IPL_L32F(l5, 17632u);
    l112 = IPL_L32F(l5, 17628u);
    l113 = IPL_L8F(l5, 17624u);
L3:;
    IPL_COPY((l5 + 7904u), l18, (ipl_u64)264u);
    IPL_S64F(l5, 7896u, IPL_L64(l17, 16u));
    IPL_S64F(l5, 7888u, IPL_L64(l17, 8u));
    IPL_S64F(l5, 7880u, IPL_L64(l17, 0u));
    IPL_S64F(l5, 7864u, IPL_L64(l16, 0u));
    IPL_S64F(l5, 7872u, IPL_L64(l16, 8u));
    IPL_COPY((l5 + 7544u), l15, (ipl_u64)320u);
    IPL_COPY((l5 + 7048u), l14, (ipl_u64)496u);
    IPL_S64F(l5, 7040u, IPL_L64(l13, 8u));
    IPL_S64F(l5, 7032u, IPL_L64(l13, 0u));
    IPL_COPY((l5 + 5984u), l12, (ipl_u64)1048u);
    IPL_S64F(l5, 5976u, IPL_L64(l11, 16u));
    IPL_S64F(l5, 5968u, IPL_L64(l11, 8u));
    IPL_S64F(l5, 5960u, IPL_L64(l11, 0u));
    IPL_S64F(l5, 5936u, IPL_L64(l10, 0u));
    IPL_S64F(l5, 5944u, IPL_L64(l10, 8u));
    IPL_S64F(l5, 5952u, IPL_L64(l10, 16u));
    IPL_S64F(l5, 5920u, IPL_L64(l9, 0u));
    IPL_S64F(l5, 5928u, IPL_L64(l9, 8u));
    IPL_S16F(l5, 5916u, IPL_L16F(l5, 11660u));
    IPL_S8F(l5, 5918u, IPL_L8F(l5, 11662u));
    IPL_COPY((l5 + 5472u), (l5 + 11216u), (ipl_u64)440u);
    if (l108 != 0) goto L6;
    l10 = ((l5 + 11152u) + 16u);
    IPL_S64F(l5, 5440u, IPL_L64U(l10, 0u));
    IPL_S64F(l5, 5448u, IPL_L64U(l10, 8u));
    IPL_S64F(l5, 5456u, IPL_L64U(l10, 16u));
    IPL_S64F(l5, 5464u, IPL_L64U(l10, 24u));
    l114 = IPL_L32F(l5, 11164u);
    l115 = IPL_L32F(l5, 11160u);
    l116 = IPL_L32F(l5, 11156u);
    l2 = IPL_L32F(l5, 11152u);
    IPL_COPY((l5 + 5176u), (l5 + 7904u), (ipl_u64)264u);
    IPL_S64F(l5, 5168u, IPL_L64F(l5, 7896u));
    IPL_S64F(l5, 5160u, IPL_L64F(l5, 7888u));
    IPL_S64F(l5, 5152u, IPL_L64F(l5, 7880u));
    IPL_S64F(l5, 5136u, IPL_L64F(l5, 7864u));
    IPL_S64F(l5, 5144u, IPL_L64F(l5, 7872u));
    IPL_COPY((l5 + 4816u), (l5 + 7544u), (ipl_u64)320u);
    IPL_COPY((l5 + 4320u), (l5 + 7048u), (ipl_u64)496u);
    IPL_S64F(l5, 4312u, IPL_L64F(l5, 7040u));
    IPL_S64F(l5, 4304u, IPL_L64F(l5, 7032u));
    IPL_COPY((l5 + 3256u), (l5 + 5984u), (ipl_u64)1048u);
    IPL_S64(l5, 3248u, IPL_L64F(l5, 5976u));
    IPL_S64(l5, 3240u, IPL_L64F(l5, 5968u));
    IPL_S64(l5, 3232u, IPL_L64F(l5, 5960u));
    IPL_S64(l5, 3208u, IPL_L64F(l5, 5936u));
    IPL_S64(l5, 3216u, IPL_L64F(l5, 5944u));
    IPL_S64(l5, 3224u, IPL_L64F(l5, 5952u));
    IPL_S64(l5, 3192u, IPL_L64F(l5, 5920u));
    IPL_S64(l5, 3200u, IPL_L64F(l5, 5928u));
    IPL_S16(l5, 3188u, IPL_L16F(l5, 5916u));
    IPL_S8(l5, 3190u, IPL_L8F(l5, 5918u));
    IPL_COPY((l5 + 2748u), (l5 + 5472u), (ipl_u64)440u);
    l7 = 1u;
    l1 = 0u;
    goto L5;
L6:;
    l1 = 80u;
    l2 = (l113 & 255u);
    l116 = l2;
    l115 = l2;
    l114 = l2;
    switch ((ipl_u32)((ipl_u64)l113 & 255u)) {
    case 1u: goto L16;
    case 2u: goto L15;
    case 3u: goto L14;
    case 4u: goto L13;
    case 5u: goto L12;
    case 6u: goto L11;
    default: goto L7;
    }
L16:;
    l2 = 0u;
    l1 = 81u;
    goto L10;
L15:;
    l116 = 0u;
    l1 = 83u;
    l2 = l112;
    goto L9;
L14:;
    l1 = 87u;
    l2 = (l112 & 255u);
    l116 = l2;
    l115 = l2;
    l114 = l2;
    switch ((ipl_u32)((ipl_u64)l112 & 255u)) {
    case 1u: goto L20;
    case 2u: goto L19;
    case 3u: goto L18;
    case 4u: goto L17;
    default: goto L7;
    }
L20:;
    l2 = 0u;
    l1 = 88u;
    goto L10;
L19:;
    l1 = 89u;
    l2 = l111;
    l116 = l110;
    l115 = l109;
    l114 = l8;
    goto L7;
L18:;
    l115 = 0u;
    l1 = 90u;
    l2 = l111;
    l116 = l110;
    goto L8;
L17:;
    l116 = 0u;
    l1 = 91u;
    l2 = l111;
    goto L9;
L13:;
    l2 = 0u;
    l1 = 92u;
    goto L10;
L12:;
    l116 = 0u;
    l1 = 84u;
    l2 = l112;
    goto L9;
L11:;
    l2 = 0u;
    l1 = 93u;
L10:;
    l116 = 0u;
L9:;
    l115 = 0u;
L8:;
    l114 = 0u;
L7:;
    if (l106 == 0) goto L21;
    ipl_to_rattle_dealloc(m, l6);
L21:;
    if (l102 == 0) goto L22;
    ipl_to_rattle_dealloc(m, l104);
L22:;
    if (l98 == 0) goto L23;
    ipl_to_rattle_dealloc(m, l100);
L23:;
    if (l94 == 0) goto L24;
    ipl_to_rattle_dealloc(m, l96);
L24:;
    if (l90 == 0) goto L25;
    ipl_to_rattle_dealloc(m, l92);
L25:;
    if (l86 == 0) goto L26;
    ipl_to_rattle_dealloc(m, l88);
L26:;
    if (l81 == 0) goto L27;
    ipl_to_rattle_dealloc(m, l83);
L27:;
    if (l77 == 0) goto L28;
    ipl_to_rattle_dealloc(m, l79);
L28:;
    if (l73 == 0) goto L29;
    ipl_to_rattle_dealloc(m, l75);
L29:;
    if (l68 == 0) goto L30;
    ipl_to_rattle_dealloc(m, l70);
L30:;
    if (l64 == 0) goto L31;
    ipl_to_rattle_dealloc(m, l66);
L31:;
    if (l60 == 0) goto L32;
    ipl_to_rattle_dealloc(m, l62);
L32:;
    if (l56 == 0) goto L33;
    ipl_to_rattle_dealloc(m, l58);
L33:;
    if (l53 == 0) goto L34;
    ipl_to_rattle_dealloc(m, l55);
L34:;
    if (l49 == 0) goto L35;
    ipl_to_rattle_dealloc(m, l51);
L35:;
    if (l45 == 0) goto L36;
    ipl_to_rattle_dealloc(m, l47);
L36:;
    if (l40 == 0) goto L37;
    ipl_to_rattle_dealloc(m, l42);
L37:;
    if (l36 == 0) goto L38;
    ipl_to_rattle_dealloc(m, l38);
L38:;
    if (l32 == 0) goto L39;
    ipl_to_rattle_dealloc(m, l34);
L39:;
    if (l28 == 0) goto L40;
    ipl_to_rattle_dealloc(m, l30);
L40:;
    if (l24 == 0) goto L41;
    ipl_to_rattle_dealloc(m, l26);
L41:;
    if (!(l0 == 0)) goto L43;
    l113 = 0u;
    l6 = (ipl_u64)0u;
    l107 = (ipl_u64)0u;
    l106 = (ipl_u64)0u;
    l105 = (ipl_u64)0u;
    l104 = (ipl_u64)0u;
    l103 = (ipl_u64)0u;
    l102 = (ipl_u64)0u;
    l101 = (ipl_u64)0u;
    l100 = (ipl_u64)0u;
    l99 = (ipl_u64)0u;
    l98 = (ipl_u64)0u;
    l97 = (ipl_u64)0u;
    l96 = (ipl_u64)0u;
    l95 = (ipl_u64)0u;
    l94 = (ipl_u64)0u;
    l93 = (ipl_u64)0u;
    l92 = (ipl_u64)0u;
    l91 = (ipl_u64)0u;
    l90 = (ipl_u64)0u;
    l89 = (ipl_u64)0u;
    l88 = (ipl_u64)0u;
    l87 = (ipl_u64)0u;
    l86 = (ipl_u64)0u;
    l85 = (ipl_u64)0u;
    l84 = (ipl_u64)0u;
    l83 = (ipl_u64)0u;
    l82 = (ipl_u64)0u;
    l81 = (ipl_u64)0u;
    l80 = (ipl_u64)0u;
    l79 = (ipl_u64)0u;
    l78 = (ipl_u64)0u;
    l77 = (ipl_u64)0u;
    l76 = (ipl_u64)0u;
    l75 = (ipl_u64)0u;
    l74 = (ipl_u64)0u;
    l73 = (ipl_u64)0u;
    l72 = (ipl_u64)0u;
    l71 = (ipl_u64)0u;
    l70 = (ipl_u64)0u;
    l69 = (ipl_u64)0u;
    l68 = (ipl_u64)0u;
    l67 = (ipl_u64)0u;
    l66 = (ipl_u64)0u;
    l65 = (ipl_u64)0u;
    l64 = (ipl_u64)0u;
    l63 = (ipl_u64)0u;
    l62 = (ipl_u64)0u;
    l61 = (ipl_u64)0u;
    l60 = (ipl_u64)0u;
    l59 = (ipl_u64)0u;
    l58 = (ipl_u64)0u;
    l57 = (ipl_u64)0u;
    l56 = (ipl_u64)0u;
    l55 = (ipl_u64)0u;
    l54 = (ipl_u64)0u;
    l53 = (ipl_u64)0u;
    l52 = (ipl_u64)0u;
    l51 = (ipl_u64)0u;
    l50 = (ipl_u64)0u;
    l49 = (ipl_u64)0u;
    l48 = (ipl_u64)0u;
    l47 = (ipl_u64)0u;
    l46 = (ipl_u64)0u;
    l45 = (ipl_u64)0u;
    l44 = (ipl_u64)0u;
    l43 = (ipl_u64)0u;
    l42 = (ipl_u64)0u;
    l41 = (ipl_u64)0u;
    l40 = (ipl_u64)0u;
    l39 = (ipl_u64)0u;
    l38 = (ipl_u64)0u;
    l37 = (ipl_u64)0u;
    l36 = (ipl_u64)0u;
    l35 = (ipl_u64)0u;
    l34 = (ipl_u64)0u;
    l33 = (ipl_u64)0u;
    l32 = (ipl_u64)0u;
    l31 = (ipl_u64)0u;
    l30 = (ipl_u64)0u;
    l29 = (ipl_u64)0u;
    l28 = (ipl_u64)0u;
    l27 = (ipl_u64)0u;
    l26 = (ipl_u64)0u;
    l25 = (ipl_u64)0u;
    l24 = (ipl_u64)0u;
    l23 = (ipl_u64)0u;
    l22 = (ipl_u64)0u;
    l21 = (ipl_u64)0u;
    l0 = (ipl_u64)0u;
    l20 = (ipl_u64)0u;
    l19 = (ipl_u64)0u;
    l112 = 0u;
    goto L42;
L43:;
    ipl_to_rattle_dealloc(m, l22);
    l112 = 0u;
    l21 = (ipl_u64)0u;
    l6 = (ipl_u64)0u;
    l107 = (ipl_u64)0u;
    l106 = (ipl_u64)0u;
    l105 = (ipl_u64)0u;
    l104 = (ipl_u64)0u;
    l103 = (ipl_u64)0u;
    l102 = (ipl_u64)0u;
    l101 = (ipl_u64)0u;
    l100 = (ipl_u64)0u;
    l99 = (ipl_u64)0u;
    l98 = (ipl_u64)0u;
    l97 = (ipl_u64)0u;
    l96 = (ipl_u64)0u;
    l95 = (ipl_u64)0u;
    l94 = (ipl_u64)0u;
    l93 = (ipl_u64)0u;
    l92 = (ipl_u64)0u;
    l91 = (ipl_u64)0u;
    l90 = (ipl_u64)0u;
    l89 = (ipl_u64)0u;
    l88 = (ipl_u64)0u;
    l87 = (ipl_u64)0u;
    l86 = (ipl_u64)0u;
    l85 = (ipl_u64)0u;
    l84 = (ipl_u64)0u;
    l83 = (ipl_u64)0u;
    l82 = (ipl_u64)0u;
    l81 = (ipl_u64)0u;
    l80 = (ipl_u64)0u;
    l79 = (ipl_u64)0u;
    l78 = (ipl_u64)0u;
    l77 = (ipl_u64)0u;
    l76 = (ipl_u64)0u;
    l75 = (ipl_u64)0u;
    l74 = (ipl_u64)0u;
    l73 = (ipl_u64)0u;
    l72 = (ipl_u64)0u;
    l71 = (ipl_u64)0u;
    l70 = (ipl_u64)0u;
    l69 = (ipl_u64)0u;
    l68 = (ipl_u64)0u;
    l67 = (ipl_u64)0u;
    l66 = (ipl_u64)0u;
    l65 = (ipl_u64)0u;
    l64 = (ipl_u64)0u;
    l63 = (ipl_u64)0u;
    l62 = (ipl_u64)0u;
    l61 = (ipl_u64)0u;
    l60 = (ipl_u64)0u;
    l59 = (ipl_u64)0u;
    l58 = (ipl_u64)0u;
    l57 = (ipl_u64)0u;
    l56 = (ipl_u64)0u;
    l55 = (ipl_u64)0u;
    l54 = (ipl_u64)0u;
    l53 = (ipl_u64)0u;
    l52 = (ipl_u64)0u;
    l51 = (ipl_u64)0u;
    l50 = (ipl_u64)0u;
    l49 = (ipl_u64)0u;
    l48 = (ipl_u64)0u;
    l47 = (ipl_u64)0u;
    l46 = (ipl_u64)0u;
    l45 = (ipl_u64)0u;
    l44 = (ipl_u64)0u;
    l43 = (ipl_u64)0u;
    l42 = (ipl_u64)0u;
    l41 = (ipl_u64)0u;
    l40 = (ipl_u64)0u;
    l39 = (ipl_u64)0u;
    l38 = (ipl_u64)0u;
    l37 = (ipl_u64)0u;
    l36 = (ipl_u64)0u;
    l35 = (ipl_u64)0u;
    l34 = (ipl_u64)0u;
    l33 = (ipl_u64)0u;
    l32 = (ipl_u64)0u;
    l31 = (ipl_u64)0u;
    l30 = (ipl_u64)0u;
    l29 = (ipl_u64)0u;
    l28 = (ipl_u64)0u;
    l27 = (ipl_u64)0u;
    l26 = (ipl_u64)0u;
    l25 = (ipl_u64)0u;
    l24 = (ipl_u64)0u;
    l23 = (ipl_u64)0u;
    l22 = (ipl_u64)0u;
    l0 = (ipl_u64)0u;
    l20 = (ipl_u64)0u;
    l19 = (ipl_u64)0u;
    l113 = 0u;
L42:;
    l111 = 0u;
    l110 = 0u;
    l109 = 0u;
    l8 = 0u;
    l7 = 0u;
L5:;
    l108 = (ipl_u32)(l108 == 0);
    IPL_S64(l5, 2736u, IPL_L64F(l5, 5464u));
    IPL_S64(l5, 2728u, IPL_L64F(l5, 5456u));
    IPL_S64(l5, 2720u, IPL_L64F(l5, 5448u));
    IPL_S64(l5, 2712u, IPL_L64F(l5, 5440u));
    IPL_COPY((l5 + 2448u), (l5 + 5176u), (ipl_u64)264u);
    IPL_S64(l5, 2440u, IPL_L64F(l5, 5168u));
    IPL_S64(l5, 2432u, IPL_L64F(l5, 5160u));
    IPL_S64(l5, 2424u, IPL_L64F(l5, 5152u));
    IPL_S64(l5, 2408u, IPL_L64F(l5, 5136u));
    IPL_S64(l5, 2416u, IPL_L64F(l5, 5144u));
    IPL_COPY((l5 + 2088u), (l5 + 4816u), (ipl_u64)320u);
    IPL_COPY((l5 + 1592u), (l5 + 4320u), (ipl_u64)496u);
    IPL_S64(l5, 1584u, IPL_L64F(l5, 4312u));
    IPL_S64(l5, 1576u, IPL_L64F(l5, 4304u));
    IPL_COPY((l5 + 528u), (l5 + 3256u), (ipl_u64)1048u);
    IPL_S64(l5, 520u, IPL_L64(l5, 3248u));
    IPL_S64(l5, 512u, IPL_L64(l5, 3240u));
    IPL_S64(l5, 504u, IPL_L64(l5, 3232u));
    IPL_S64(l5, 480u, IPL_L64(l5, 3208u));
    IPL_S64(l5, 488u, IPL_L64(l5, 3216u));
    IPL_S64(l5, 496u, IPL_L64(l5, 3224u));
    IPL_S64(l5, 464u, IPL_L64(l5, 3192u));
    IPL_S64(l5, 472u, IPL_L64(l5, 3200u));
    IPL_S16(l5, 460u, IPL_L16(l5, 3188u));
    IPL_S8(l5, 462u, IPL_L8(l5, 3190u));
    IPL_COPY((l5 + 16u), (l5 + 2748u), (ipl_u64)440u);
    goto L1;
L2:;
    IPL_S64(l5, 2712u, (ipl_u64)0u);
    IPL_S64(l5, 2720u, (ipl_u64)0u);
    IPL_S64(l5, 2728u, (ipl_u64)0u);
    IPL_S64(l5, 2736u, (ipl_u64)0u);
    l114 = IPL_L32F(l5, 8188u);
    l115 = IPL_L32F(l5, 8184u);
    l116 = IPL_L32F(l5, 8180u);
    l2 = IPL_L32F(l5, 8176u);
    l1 = IPL_L32F(l5, 8172u);
    IPL_FILL((l5 + 2448u), 0u, (ipl_u64)264u);
    IPL_S64(l5, 2440u, (ipl_u64)0u);
    IPL_S64(l5, 2432u, (ipl_u64)0u);
    IPL_S64(l5, 2424u, (ipl_u64)0u);
    IPL_S64(l5, 2408u, (ipl_u64)0u);
    IPL_S64(l5, 2416u, (ipl_u64)0u);
    IPL_FILL((l5 + 2088u), 0u, (ipl_u64)320u);
    IPL_FILL((l5 + 1592u), 0u, (ipl_u64)496u);
    IPL_S64(l5, 1584u, (ipl_u64)0u);
    IPL_S64(l5, 1576u, (ipl_u64)0u);
    IPL_FILL((l5 + 528u), 0u, (ipl_u64)1048u);
    IPL_S64(l5, 520u, (ipl_u64)0u);
    IPL_S64(l5, 512u, (ipl_u64)0u);
    IPL_S64(l5, 504u, (ipl_u64)0u);
    IPL_S64(l5, 480u, (ipl_u64)0u);
    IPL_S64(l5, 488u, (ipl_u64)0u);
    IPL_S64(l5, 496u, (ipl_u64)0u);
    IPL_S64(l5, 464u, (ipl_u64)0u);
    IPL_S64(l5, 472u, (ipl_u64)0u);
    IPL_S16(l5, 460u, 0u);
    IPL_S8(l5, 462u, 0u);
    IPL_FILL((l5 + 16u), 0u, (ipl_u64)440u);
    l108 = 0u;
    l107 = (ipl_u64)0u;
    l106 = (ipl_u64)0u;
    l105 = (ipl_u64)0u;
    l104 = (ipl_u64)0u;
    l103 = (ipl_u64)0u;
    l102 = (ipl_u64)0u;
    l101 = (ipl_u64)0u;
    l100 = (ipl_u64)0u;
    l99 = (ipl_u64)0u;
    l98 = (ipl_u64)0u;
    l97 = (ipl_u64)0u;
    l96 = (ipl_u64)0u;
    l95 = (ipl_u64)0u;
    l94 = (ipl_u64)0u;
    l93 = (ipl_u64)0u;
    l92 = (ipl_u64)0u;
    l91 = (ipl_u64)0u;
    l90 = (ipl_u64)0u;
    l89 = (ipl_u64)0u;
    l88 = (ipl_u64)0u;
    l87 = (ipl_u64)0u;
    l86 = (ipl_u64)0u;
    l85 = (ipl_u64)0u;
    l84 = (ipl_u64)0u;
    l83 = (ipl_u64)0u;
    l82 = (ipl_u64)0u;
    l81 = (ipl_u64)0u;
    l80 = (ipl_u64)0u;
    l79 = (ipl_u64)0u;
    l78 = (ipl_u64)0u;
    l77 = (ipl_u64)0u;
    l76 = (ipl_u64)0u;
    l75 = (ipl_u64)0u;
    l74 = (ipl_u64)0u;
    l73 = (ipl_u64)0u;
    l72 = (ipl_u64)0u;
    l71 = (ipl_u64)0u;
    l70 = (ipl_u64)0u;
    l69 = (ipl_u64)0u;
    l68 = (ipl_u64)0u;
    l67 = (ipl_u64)0u;
    l66 = (ipl_u64)0u;
    l65 = (ipl_u64)0u;
    l64 = (ipl_u64)0u;
    l63 = (ipl_u64)0u;
    l62 = (ipl_u64)0u;
    l61 = (ipl_u64)0u;
    l60 = (ipl_u64)0u;
    l59 = (ipl_u64)0u;
    l58 = (ipl_u64)0u;
    l57 = (ipl_u64)0u;
    l56 = (ipl_u64)0u;
    l55 = (ipl_u64)0u;
    l54 = (ipl_u64)0u;
    l53 = (ipl_u64)0u;
    l52 = (ipl_u64)0u;
    l51 = (ipl_u64)0u;
    l50 = (ipl_u64)0u;
    l49 = (ipl_u64)0u;
    l48 = (ipl_u64)0u;
    l47 = (ipl_u64)0u;
    l46 = (ipl_u64)0u;
    l45 = (ipl_u64)0u;
    l44 = (ipl_u64)0u;
    l43 = (ipl_u64)0u;
    l42 = (ipl_u64)0u;
    l41 = (ipl_u64)0u;
    l40 = (ipl_u64)0u;
    l39 = (ipl_u64)0u;
    l38 = (ipl_u64)0u;
    l37 = (ipl_u64)0u;
    l36 = (ipl_u64)0u;
    l35 = (ipl_u64)0u;
    l34 = (ipl_u64)0u;
    l33 = (ipl_u64)0u;
    l32 = (ipl_u64)0u;
    l31 = (ipl_u64)0u;
    l30 = (ipl_u64)0u;
    l29 = (ipl_u64)0u;
    l28 = (ipl_u64)0u;
    l27 = (ipl_u64)0u;
    l26 = (ipl_u64)0u;
    l25 = (ipl_u64)0u;
    l24 = (ipl_u64)0u;
    l23 = (ipl_u64)0u;
    l22 = (ipl_u64)0u;
    l21 = (ipl_u64)0u;
    l0 = (ipl_u64)0u;
    l20 = (ipl_u64)0u;
    l19 = (ipl_u64)0u;
    l113 = 0u;
    l112 = 0u;
    l111 = 0u;
    l110 = 0u;
    l109 = 0u;
    l8 = 0u;
L1:;
    if (l108 == 0) goto L45;
    IPL_S64F(l5, 8168u, IPL_L64(l5, 464u));
    IPL_S64F(l5, 8176u, IPL_L64(l5, 472u));
    IPL_S16F(l5, 11664u, IPL_L16(l5, 460u));
    IPL_S8F(l5, 11666u, IPL_L8(l5, 462u));
    IPL_COPY((l5 + 14640u), (l5 + 16u), (ipl_u64)440u);
    ipl_to_rattle_alloc(m, l5, (ipl_u64)3496u, (ipl_u64)8u);
    if (((ipl_u32)IPL_L64(l5, 0u) & 1u) == 0) goto L46;
    l3 = IPL_L64(l5, 8u);
    IPL_S32U(l3, 12u, l114);
    IPL_S32U(l3, 8u, l115);
    IPL_S64U(l3, 16u, IPL_L64(l5, 2712u));
    IPL_S64U(l3, 24u, IPL_L64(l5, 2720u));
    IPL_S64U(l3, 32u, IPL_L64(l5, 2728u));
    IPL_S64U(l3, 40u, IPL_L64(l5, 2736u));
    IPL_S64U(l3, 144u, l97);
    IPL_S64U(l3, 136u, l98);
    IPL_S64U(l3, 128u, l99);
    IPL_S64U(l3, 120u, l100);
    IPL_S64U(l3, 112u, l101);
    IPL_S64U(l3, 104u, l102);
    IPL_S64U(l3, 96u, l103);
    IPL_S64U(l3, 88u, l104);
    IPL_S64U(l3, 80u, l105);
    IPL_S64U(l3, 72u, l106);
    IPL_S64U(l3, 64u, l107);
    IPL_S64U(l3, 56u, l6);
    IPL_S64U(l3, 48u, (ipl_u64)l7);
    IPL_S64U(l3, 0u, (((ipl_u64)l116 << 32) | (ipl_u64)l2));
    IPL_COPY((l3 + 152u), (l5 + 2448u), (ipl_u64)264u);
    IPL_S64U(l3, 576u, l76);
    IPL_S64U(l3, 568u, l77);
    IPL_S64U(l3, 560u, l78);
    IPL_S64U(l3, 552u, l79);
    IPL_S64U(l3, 544u, l80);
    IPL_S64U(l3, 536u, l81);
    IPL_S64U(l3, 528u, l82);
    IPL_S64U(l3, 520u, l83);
    IPL_S64U(l3, 512u, l84);
    IPL_S64U(l3, 504u, l85);
    IPL_S64U(l3, 496u, l86);
    IPL_S64U(l3, 488u, l87);
    IPL_S64U(l3, 480u, l88);
    IPL_S64U(l3, 472u, l89);
    IPL_S64U(l3, 464u, l90);
    IPL_S64U(l3, 456u, l91);
    IPL_S64U(l3, 448u, l92);
    IPL_S64U(l3, 440u, l93);
    IPL_S64U(l3, 432u, l94);
    IPL_S64U(l3, 424u, l95);
    IPL_S64U(l3, 416u, l96);
    IPL_S64U(l3, 656u, l71);
    IPL_S64U(l3, 648u, l72);
    IPL_S64U(l3, 640u, l73);
    IPL_S64U(l3, 632u, l74);
    IPL_S64U(l3, 624u, l75);
    IPL_S64U(l3, 600u, IPL_L64(l5, 2440u));
    IPL_S64U(l3, 592u, IPL_L64(l5, 2432u));
    IPL_S64U(l3, 584u, IPL_L64(l5, 2424u));
    IPL_S64U(l3, 616u, IPL_L64(l5, 2416u));
    IPL_S64U(l3, 608u, IPL_L64(l5, 2408u));
    IPL_COPY((l3 + 664u), (l5 + 2088u), (ipl_u64)320u);
    IPL_S64U(l3, 1072u, l59);
    IPL_S64U(l3, 1064u, l60);
    IPL_S64U(l3, 1056u, l61);
    IPL_S64U(l3, 1048u, l62);
    IPL_S64U(l3, 1040u, l63);
    IPL_S64U(l3, 1032u, l64);
    IPL_S64U(l3, 1024u, l65);
    IPL_S64U(l3, 1016u, l66);
    IPL_S64U(l3, 1008u, l67);
    IPL_S64U(l3, 1000u, l68);
    IPL_S64U(l3, 992u, l69);
    IPL_S64U(l3, 984u, l70);
    IPL_COPY((l3 + 1080u), (l5 + 1592u), (ipl_u64)496u);
    IPL_S64U(l3, 1592u, l56);
    IPL_S64U(l3, 1584u, l57);
    IPL_S64U(l3, 1576u, l58);
    IPL_S64U(l3, 1600u, IPL_L64(l5, 1576u));
    IPL_S64U(l3, 1608u, IPL_L64(l5, 1584u));
    IPL_COPY((l3 + 1616u), (l5 + 528u), (ipl_u64)1048u);
    IPL_S64U(l3, 2720u, l48);
    IPL_S64U(l3, 2712u, l49);
    IPL_S64U(l3, 2704u, l50);
    IPL_S64U(l3, 2696u, l51);
    IPL_S64U(l3, 2688u, l52);
    IPL_S64U(l3, 2680u, l53);
    IPL_S64U(l3, 2672u, l54);
    IPL_S64U(l3, 2664u, l55);
    IPL_S64U(l3, 2776u, l44);
    IPL_S64U(l3, 2768u, l45);
    IPL_S64U(l3, 2760u, l46);
    IPL_S64U(l3, 2752u, l47);
    IPL_S64U(l3, 2728u, IPL_L64(l5, 504u));
    IPL_S64U(l3, 2736u, IPL_L64(l5, 512u));
    IPL_S64U(l3, 2744u, IPL_L64(l5, 520u));
    IPL_S64U(l3, 2784u, IPL_L64(l5, 480u));
    IPL_S64U(l3, 2792u, IPL_L64(l5, 488u));
    IPL_S64U(l3, 2800u, IPL_L64(l5, 496u));
    IPL_S64U(l3, 3008u, l19);
    IPL_S64U(l3, 3000u, l20);
    IPL_S64U(l3, 2992u, l0);
    IPL_S64U(l3, 2984u, l21);
    IPL_S64U(l3, 2976u, l22);
    IPL_S64U(l3, 2968u, l23);
    IPL_S64U(l3, 2960u, l24);
    IPL_S64U(l3, 2952u, l25);
    IPL_S64U(l3, 2944u, l26);
    IPL_S64U(l3, 2936u, l27);
    IPL_S64U(l3, 2928u, l28);
    IPL_S64U(l3, 2920u, l29);
    IPL_S64U(l3, 2912u, l30);
    IPL_S64U(l3, 2904u, l31);
    IPL_S64U(l3, 2896u, l32);
    IPL_S64U(l3, 2888u, l33);
    IPL_S64U(l3, 2880u, l34);
    IPL_S64U(l3, 2872u, l35);
    IPL_S64U(l3, 2864u, l36);
    IPL_S64U(l3, 2856u, l37);
    IPL_S64U(l3, 2848u, l38);
    IPL_S64U(l3, 2840u, l39);
    IPL_S64U(l3, 2832u, l40);
    IPL_S64U(l3, 2824u, l41);
    IPL_S64U(l3, 2816u, l42);
    IPL_S64U(l3, 2808u, l43);
    IPL_S8(l3, 3032u, l113);
    IPL_S32U(l3, 3052u, l8);
    IPL_S32U(l3, 3048u, l109);
    IPL_S32U(l3, 3044u, l110);
    IPL_S32U(l3, 3040u, l111);
    IPL_S32U(l3, 3036u, l112);
    IPL_S64U(l3, 3024u, IPL_L64F(l5, 8176u));
    IPL_S64U(l3, 3016u, IPL_L64F(l5, 8168u));
    IPL_S16U(l3, 3033u, IPL_L16F(l5, 11664u));
    IPL_S8(l3, 3035u, IPL_L8F(l5, 11666u));
    IPL_COPY((l3 + 3056u), (l5 + 14640u), (ipl_u64)440u);
    IPL_S64(l4, 0u, l3);
    l1 = 0u;
    goto L44;
L46:;
    if (l7 != 0) goto L48;
    if (l106 == 0) goto L49;
    ipl_to_rattle_dealloc(m, l6);
L49:;
    if (l102 == 0) goto L50;
    ipl_to_rattle_dealloc(m, l104);
L50:;
    if (l98 == 0) goto L51;
    ipl_to_rattle_dealloc(m, l100);
L51:;
    if (l94 == 0) goto L52;
    ipl_to_rattle_dealloc(m, l96);
L52:;
    if (l90 == 0) goto L53;
    ipl_to_rattle_dealloc(m, l92);
L53:;
    if (l86 == 0) goto L54;
    ipl_to_rattle_dealloc(m, l88);
L54:;
    if (l81 == 0) goto L55;
    ipl_to_rattle_dealloc(m, l83);
L55:;
    if (l77 == 0) goto L56;
    ipl_to_rattle_dealloc(m, l79);
L56:;
    if (l73 == 0) goto L57;
    ipl_to_rattle_dealloc(m, l75);
L57:;
    if (l68 == 0) goto L58;
    ipl_to_rattle_dealloc(m, l70);
L58:;
    if (l64 == 0) goto L59;
    ipl_to_rattle_dealloc(m, l66);
L59:;
    if (l60 == 0) goto L60;
    ipl_to_rattle_dealloc(m, l62);
L60:;
    if (l56 == 0) goto L61;
    ipl_to_rattle_dealloc(m, l58);
L61:;
    if (l53 == 0) goto L62;
    ipl_to_rattle_dealloc(m, l55);
L62:;
    if (l49 == 0) goto L63;
    ipl_to_rattle_dealloc(m, l51);
L63:;
    if (l45 == 0) goto L64;
    ipl_to_rattle_dealloc(m, l47);
L64:;
    if (l40 == 0) goto L65;
    ipl_to_rattle_dealloc(m, l42);
L65:;
    if (l36 == 0) goto L66;
    ipl_to_rattle_dealloc(m, l38);
L66:;
    if (l32 == 0) goto L67;
    ipl_to_rattle_dealloc(m, l34);
L67:;
    if (l28 == 0) goto L68;
    ipl_to_rattle_dealloc(m, l30);
L68:;
    if (l24 == 0) goto L69;
    ipl_to_rattle_dealloc(m, l26);
L69:;
    l1 = 85u;
    if (!(l0 == 0)) goto L47;
    goto L44;
L48:;
    if (l106 == 0) goto L70;
    ipl_to_rattle_dealloc(m, l6);
L70:;
    if (l102 == 0) goto L71;
    ipl_to_rattle_dealloc(m, l104);
L71:;
    if (l98 == 0) goto L72;
    ipl_to_rattle_dealloc(m, l100);
L72:;
    if (l94 == 0) goto L73;
    ipl_to_rattle_dealloc(m, l96);
L73:;
    if (l90 == 0) goto L74;
    ipl_to_rattle_dealloc(m, l92);
L74:;
    if (l86 == 0) goto L75;
    ipl_to_rattle_dealloc(m, l88);
L75:;
    if (l81 == 0) goto L76;
    ipl_to_rattle_dealloc(m, l83);
L76:;
    if (l77 == 0) goto L77;
    ipl_to_rattle_dealloc(m, l79);
L77:;
    if (l73 == 0) goto L78;
    ipl_to_rattle_dealloc(m, l75);
L78:;
    if (l68 == 0) goto L79;
    ipl_to_rattle_dealloc(m, l70);
L79:;
    if (l64 == 0) goto L80;
    ipl_to_rattle_dealloc(m, l66);
L80:;
    if (l60 == 0) goto L81;
    ipl_to_rattle_dealloc(m, l62);
L81:;
    if (l56 == 0) goto L82;
    ipl_to_rattle_dealloc(m, l58);
L82:;
    if (l53 == 0) goto L83;
    ipl_to_rattle_dealloc(m, l55);
L83:;
    if (l49 == 0) goto L84;
    ipl_to_rattle_dealloc(m, l51);
L84:;
    if (l45 == 0) goto L85;
    ipl_to_rattle_dealloc(m, l47);
L85:;
    if (l40 == 0) goto L86;
    ipl_to_rattle_dealloc(m, l42);
L86:;
    if (l36 == 0) goto L87;
    ipl_to_rattle_dealloc(m, l38);
L87:;
    if (l32 == 0) goto L88;
    ipl_to_rattle_dealloc(m, l34);
L88:;
    if (l28 == 0) goto L89;
    ipl_to_rattle_dealloc(m, l30);
L89:;
    if (l24 == 0) goto L90;
    ipl_to_rattle_dealloc(m, l26);
L90:;
    l1 = 85u;
    if (l0 == 0) goto L44;
L47:;
    ipl_to_rattle_dealloc(m, l22);
    goto L44;
L45:;
    IPL_S32U((l3 + 644u), 0u, l114);
    IPL_S32U((l3 + 640u), 0u, l115);
    IPL_S32U((l3 + 636u), 0u, l116);
    IPL_S32U((l3 + 632u), 0u, l2);
L44:;
    IPL_G(0) = (l5 + 17648u);
    return l1;
}

/* ipl_port_open_records */
static ipl_u32 ipl_w_ipl_port_open_records(ipl_u8 *const m, ipl_u64 l0, ipl_u32 l1, ipl_u32 l2, ipl_u64 l3, ipl_u64 l4) {
    ipl_u32 l7 = 0, l8 = 0, l9 = 0, l10 = 0, l100 = 0, l101 = 0, l102 = 0;
    ipl_u64 l5 = 0, l6 = 0, l11 = 0, l12 = 0, l13 = 0, l14 = 0, l15 = 0, l16 = 0, l17 = 0, l18 = 0, l19 = 0, l20 = 0, l21 = 0, l22 = 0, l23 = 0, l24 = 0;
    ipl_u64 l25 = 0, l26 = 0, l27 = 0, l28 = 0, l29 = 0, l30 = 0, l31 = 0, l32 = 0, l33 = 0, l34 = 0, l35 = 0, l36 = 0, l37 = 0, l38 = 0, l39 = 0, l40 = 0;
    ipl_u64 l41 = 0, l42 = 0, l43 = 0, l44 = 0, l45 = 0, l46 = 0, l47 = 0, l48 = 0, l49 = 0, l50 = 0, l51 = 0, l52 = 0, l53 = 0, l54 = 0, l55 = 0, l56 = 0;
    ipl_u64 l57 = 0, l58 = 0, l59 = 0, l60 = 0, l61 = 0, l62 = 0, l63 = 0, l64 = 0, l65 = 0, l66 = 0, l67 = 0, l68 = 0, l69 = 0, l70 = 0, l71 = 0, l72 = 0;
    ipl_u64 l73 = 0, l74 = 0, l75 = 0, l76 = 0, l77 = 0, l78 = 0, l79 = 0, l80 = 0, l81 = 0, l82 = 0, l83 = 0, l84 = 0, l85 = 0, l86 = 0, l87 = 0, l88 = 0;
    ipl_u64 l89 = 0, l90 = 0, l91 = 0, l92 = 0, l93 = 0, l94 = 0, l95 = 0, l96 = 0, l97 = 0, l98 = 0, l99 = 0, t1;
    IPL_ENDS
    t1 = IPL_G(0);
    l5 = (t1 - 14544u);
    IPL_G(0) = l5;
    l6 = (ipl_u64)0u;
    IPL_S64(l5, 2736u, (ipl_u64)0u);
    IPL_S64(l5, 2744u, (ipl_u64)0u);
    IPL_S64(l5, 2752u, (ipl_u64)0u);
    IPL_S64(l5, 2760u, (ipl_u64)0u);
    l7 = 0u;
    IPL_FILL((l5 + 2472u), 0u, (ipl_u64)264u);
    IPL_S64(l5, 2464u, (ipl_u64)0u);
    IPL_S64(l5, 2456u, (ipl_u64)0u);
    IPL_S64(l5, 2448u, (ipl_u64)0u);
    IPL_S64(l5, 2432u, (ipl_u64)0u);
    IPL_S64(l5, 2440u, (ipl_u64)0u);
    IPL_FILL((l5 + 2112u), 0u, (ipl_u64)320u);
    IPL_FILL((l5 + 1616u), 0u, (ipl_u64)496u);
    IPL_S64(l5, 1608u, (ipl_u64)0u);
    IPL_S64(l5, 1600u, (ipl_u64)0u);
    IPL_FILL((l5 + 552u), 0u, (ipl_u64)1048u);
    IPL_S64(l5, 544u, (ipl_u64)0u);
    IPL_S64(l5, 536u, (ipl_u64)0u);
    IPL_S64(l5, 528u, (ipl_u64)0u);
    IPL_S64(l5, 504u, (ipl_u64)0u);
    IPL_S64(l5, 512u, (ipl_u64)0u);
    IPL_S64(l5, 520u, (ipl_u64)0u);
    IPL_S64(l5, 488u, (ipl_u64)0u);
    IPL_S64(l5, 496u, (ipl_u64)0u);
    IPL_FILL((l5 + 24u), 0u, (ipl_u64)464u);
    IPL_S64UF(l5, 14536u, IPL_L64U(l3, 4u));
    IPL_S32F(l5, 14532u, l2);
    IPL_FILL((l5 + 8488u), 0u, (ipl_u64)3008u);
    IPL_S64F(l5, 5504u, (ipl_u64)0u);
    IPL_S64F(l5, 5496u, (ipl_u64)0u);
    IPL_S64F(l5, 5488u, (ipl_u64)0u);
    IPL_S64F(l5, 5480u, (ipl_u64)0u);
    IPL_FILL((l5 + 5216u), 0u, (ipl_u64)264u);
    IPL_S64F(l5, 5208u, (ipl_u64)0u);
    IPL_S64F(l5, 5200u, (ipl_u64)0u);
    IPL_S64F(l5, 5192u, (ipl_u64)0u);
    IPL_S64F(l5, 5176u, (ipl_u64)0u);
    IPL_S64F(l5, 5184u, (ipl_u64)0u);
    IPL_FILL((l5 + 4856u), 0u, (ipl_u64)320u);
    IPL_FILL((l5 + 4360u), 0u, (ipl_u64)496u);
    IPL_S64F(l5, 4352u, (ipl_u64)0u);
    IPL_S64F(l5, 4344u, (ipl_u64)0u);
    IPL_FILL((l5 + 3296u), 0u, (ipl_u64)1048u);
    IPL_S64(l5, 3288u, (ipl_u64)0u);
    IPL_S64(l5, 3280u, (ipl_u64)0u);
    IPL_S64(l5, 3272u, (ipl_u64)0u);
    IPL_S64(l5, 3248u, (ipl_u64)0u);
    IPL_S64(l5, 3256u, (ipl_u64)0u);
    IPL_S64(l5, 3264u, (ipl_u64)0u);
    IPL_S64(l5, 3232u, (ipl_u64)0u);
    IPL_S64(l5, 3240u, (ipl_u64)0u);
    IPL_FILL((l5 + 2768u), 0u, (ipl_u64)464u);
    ipl_w36_memory(m, (l5 + 11496u), (l5 + 14532u), l1);
    if (IPL_L8F(l5, 11496u) != 0) goto L2;
    IPL_S64UF(l5, 14497u, (ipl_u64)0u);
    IPL_S8F(l5, 14496u, 1u);
    l2 = 0u;
    IPL_S32F(l5, 14492u, 0u);
    IPL_S32F(l5, 14488u, l1);
    IPL_S64F(l5, 14480u, l0);
    IPL_S64UF(l5, 14505u, (ipl_u64)0u);
    IPL_S64UF(l5, 14513u, (ipl_u64)0u);
    IPL_S64UF(l5, 14520u, (ipl_u64)0u);
    IPL_S64F(l5, 5520u, IPL_L64F(l5, 11512u));
    IPL_S64F(l5, 5512u, IPL_L64F(l5, 11504u));
    IPL_COPY(((l5 + 5512u) + 16u), (l5 + 11520u), (ipl_u64)2960u);
    ipl_w37_open(m, (l5 + 8488u), (l5 + 5512u), (l5 + 14480u));
    l7 = IPL_L8F(l5, 8488u);
    if (l7 != 0) goto L4;
    l6 = ((l5 + 14480u) + 16u);
    IPL_S64F(l5, 5480u, IPL_L64U(l6, 0u));
    IPL_S64F(l5, 5488u, IPL_L64U(l6, 8u));
    IPL_S64F(l5, 5496u, IPL_L64U(l6, 16u));
    IPL_S64F(l5, 5504u, IPL_L64U(l6, 24u));
    l8 = IPL_L32F(l5, 14492u);
    l9 = IPL_L32F(l5, 14488u);
    l10 = IPL_L32F(l5, 14484u);
    l1 = IPL_L32F(l5, 14480u);
    l6 = IPL_L64F(l5, 8496u);
    l11 = IPL_L64F(l5, 8504u);
    l0 = IPL_L64F(l5, 8512u);
    l12 = IPL_L64F(l5, 8520u);
    l13 = IPL_L64F(l5, 8528u);
    l14 = IPL_L64F(l5, 8536u);
    l15 = IPL_L64F(l5, 8544u);
    l16 = IPL_L64F(l5, 8552u);
    l17 = IPL_L64F(l5, 8560u);
    l18 = IPL_L64F(l5, 8568u);
    l19 = IPL_L64F(l5, 8576u);
    l20 = IPL_L64F(l5, 8584u);
    IPL_COPY((l5 + 5216u), (l5 + 8592u), (ipl_u64)264u);
    l21 = IPL_L64F(l5, 9016u);
    l22 = IPL_L64F(l5, 9008u);
    l23 = IPL_L64F(l5, 9000u);
    l24 = IPL_L64F(l5, 8992u);
    l25 = IPL_L64F(l5, 8984u);
    l26 = IPL_L64F(l5, 8976u);
    l27 = IPL_L64F(l5, 8968u);
    l28 = IPL_L64F(l5, 8960u);
    l29 = IPL_L64F(l5, 8952u);
    l30 = IPL_L64F(l5, 8944u);
    l31 = IPL_L64F(l5, 8936u);
    l32 = IPL_L64F(l5, 8928u);
    l33 = IPL_L64F(l5, 8920u);
    l34 = IPL_L64F(l5, 8912u);
    l35 = IPL_L64F(l5, 8904u);
    l36 = IPL_L64F(l5, 8896u);
    l37 = IPL_L64F(l5, 8888u);
    l38 = IPL_L64F(l5, 8880u);
    l39 = IPL_L64F(l5, 8872u);
    l40 = IPL_L64F(l5, 8864u);
    l41 = IPL_L64F(l5, 8856u);
    IPL_S64F(l5, 5208u, IPL_L64F(l5, 9040u));
    IPL_S64F(l5, 5200u, IPL_L64F(l5, 9032u));
    IPL_S64F(l5, 5192u, IPL_L64F(l5, 9024u));
    IPL_S64F(l5, 5176u, IPL_L64F(l5, 9048u));
    IPL_S64F(l5, 5184u, IPL_L64F(l5, 9056u));
    l42 = IPL_L64F(l5, 9064u);
    l43 = IPL_L64F(l5, 9072u);
    l44 = IPL_L64F(l5, 9080u);
    l45 = IPL_L64F(l5, 9088u);
    l46 = IPL_L64F(l5, 9096u);
    IPL_COPY((l5 + 4856u), (l5 + 9104u), (ipl_u64)320u);
    l47 = IPL_L64F(l5, 9512u);
    l48 = IPL_L64F(l5, 9504u);
    l49 = IPL_L64F(l5, 9496u);
    l50 = IPL_L64F(l5, 9488u);
    l51 = IPL_L64F(l5, 9480u);
    l52 = IPL_L64F(l5, 9472u);
    l53 = IPL_L64F(l5, 9464u);
    l54 = IPL_L64F(l5, 9456u);
    l55 = IPL_L64F(l5, 9448u);
    l56 = IPL_L64F(l5, 9440u);
    l57 = IPL_L64F(l5, 9432u);
    l58 = IPL_L64F(l5, 9424u);
    IPL_COPY((l5 + 4360u), (l5 + 9520u), (ipl_u64)496u);
    IPL_S64F(l5, 4344u, IPL_L64F(l5, 10040u));
    IPL_S64F(l5, 4352u, IPL_L64F(l5, 10048u));
    l59 = IPL_L64F(l5, 10032u);
    l60 = IPL_L64F(l5, 10024u);
    l61 = IPL_L64F(l5, 10016u);
    IPL_COPY((l5 + 3296u), (l5 + 10056u), (ipl_u64)1048u);
    IPL_S64(l5, 3272u, IPL_L64F(l5, 11168u));
    IPL_S64(l5, 3280u, IPL_L64F(l5, 11176u));
    IPL_S64(l5, 3288u, IPL_L64F(l5, 11184u));
    l62 = IPL_L64F(l5, 11160u);
    l63 = IPL_L64F(l5, 11152u);
    l64 = IPL_L64F(l5, 11144u);
    l65 = IPL_L64F(l5, 11136u);
    l66 = IPL_L64F(l5, 11128u);
    l67 = IPL_L64F(l5, 11120u);
    l68 = IPL_L64F(l5, 11112u);
    l69 = IPL_L64F(l5, 11104u);
    l70 = IPL_L64F(l5, 11192u);
    l71 = IPL_L64F(l5, 11200u);
    l72 = IPL_L64F(l5, 11208u);
    l73 = IPL_L64F(l5, 11216u);
    IPL_S64(l5, 3264u, IPL_L64F(l5, 11240u));
    IPL_S64(l5, 3256u, IPL_L64F(l5, 11232u));
    IPL_S64(l5, 3248u, IPL_L64F(l5, 11224u));
    l74 = IPL_L64F(l5, 11448u);
    l75 = IPL_L64F(l5, 11440u);
    l76 = IPL_L64F(l5, 11432u);
    l77 = IPL_L64F(l5, 11424u);
    l78 = IPL_L64F(l5, 11416u);
    l79 = IPL_L64F(l5, 11408u);
    l80 = IPL_L64F(l5, 11400u);
    l81 = IPL_L64F(l5, 11392u);
    l82 = IPL_L64F(l5, 11384u);
    l83 = IPL_L64F(l5, 11376u);
    l84 = IPL_L64F(l5, 11368u);
    l85 = IPL_L64F(l5, 11360u);
    l86 = IPL_L64F(l5, 11352u);
    l87 = IPL_L64F(l5, 11344u);
    l88 = IPL_L64F(l5, 11336u);
    l89 = IPL_L64F(l5, 11328u);
    l90 = IPL_L64F(l5, 11320u);
    l91 = IPL_L64F(l5, 11312u);
    l92 = IPL_L64F(l5, 11304u);
    l93 = IPL_L64F(l5, 11296u);
    l94 = IPL_L64F(l5, 11288u);
    l95 = IPL_L64F(l5, 11280u);
    l96 = IPL_L64F(l5, 11272u);
    l97 = IPL_L64F(l5, 11264u);
    l98 = IPL_L64F(l5, 11256u);
    l99 = IPL_L64F(l5, 11248u);
    IPL_S64(l5, 3240u, IPL_L64F(l5, 11464u));
    IPL_S64(l5, 3232u, IPL_L64F(l5, 11456u));
    IPL_FILL((l5 + 2768u), 0u, (ipl_u64)464u);
    goto L3;
L4:;
    l2 = 80u;
    l100 = IPL_L32F(l5, 11476u);
    l6 = IPL_L64F(l5, 8512u);
    l1 = IPL_L8F(l5, 11472u);
    l10 = l1;
    l9 = l1;
    l8 = l1;
    switch (l1) {
    case 1u: goto L14;
    case 2u: goto L13;
    case 3u: goto L12;
    case 4u: goto L11;
    case 5u: goto L10;
    case 6u: goto L9;
    default: goto L5;
    }
L14:;
    l1 = 0u;
    l2 = 81u;
    goto L8;
L13:;
    l10 = 0u;
    l2 = 83u;
    l1 = l100;
    goto L7;
L12:;
    l101 = IPL_L32F(l5, 11484u);
    l102 = IPL_L32F(l5, 11480u);
    l2 = 87u;
    l1 = (l100 & 255u);
    l10 = l1;
    l9 = l1;
    l8 = l1;
    switch ((ipl_u32)((ipl_u64)l100 & 255u)) {
    case 1u: goto L18;
    case 2u: goto L17;
    case 3u: goto L16;
    case 4u: goto L15;
    default: goto L5;
    }
L18:;
    l1 = 0u;
    l2 = 88u;
    goto L8;
L17:;
    l8 = IPL_L32F(l5, 11492u);
    l9 = IPL_L32F(l5, 11488u);
    l2 = 89u;
    l1 = l102;
    l10 = l101;
    goto L5;
L16:;
    l9 = 0u;
    l2 = 90u;
    l1 = l102;
    l10 = l101;
    goto L6;
L15:;
    l10 = 0u;
    l2 = 91u;
    l1 = l102;
    goto L7;
L11:;
    l1 = 0u;
    l2 = 92u;
    goto L8;
L10:;
    l10 = 0u;
    l2 = 84u;
    l1 = l100;
    goto L7;
L9:;
    l1 = 0u;
    l2 = 93u;
L8:;
    l10 = 0u;
L7:;
    l9 = 0u;
L6:;
    l8 = 0u;
L5:;
    l0 = IPL_L64F(l5, 11432u);
    l96 = IPL_L64F(l5, 11416u);
    l15 = IPL_L64F(l5, 11400u);
    l13 = IPL_L64F(l5, 11384u);
    l19 = IPL_L64F(l5, 11368u);
    l17 = IPL_L64F(l5, 11352u);
    l22 = IPL_L64F(l5, 11336u);
    l24 = IPL_L64F(l5, 11320u);
    l26 = IPL_L64F(l5, 11304u);
    l28 = IPL_L64F(l5, 11288u);
    l31 = IPL_L64F(l5, 11272u);
    l33 = IPL_L64F(l5, 11256u);
    l35 = IPL_L64F(l5, 11208u);
    l37 = IPL_L64F(l5, 11192u);
    l39 = IPL_L64F(l5, 11152u);
    l41 = IPL_L64F(l5, 11136u);
    l44 = IPL_L64F(l5, 11120u);
    l42 = IPL_L64F(l5, 11104u);
    l48 = IPL_L64F(l5, 10032u);
    l50 = IPL_L64F(l5, 10016u);
    l52 = IPL_L64F(l5, 9504u);
    l54 = IPL_L64F(l5, 9488u);
    l56 = IPL_L64F(l5, 9472u);
    l58 = IPL_L64F(l5, 9456u);
    l59 = IPL_L64F(l5, 9440u);
    l61 = IPL_L64F(l5, 9424u);
    l63 = IPL_L64F(l5, 9080u);
    l65 = IPL_L64F(l5, 9064u);
    l67 = IPL_L64F(l5, 9008u);
    l69 = IPL_L64F(l5, 8992u);
    l72 = IPL_L64F(l5, 8976u);
    l70 = IPL_L64F(l5, 8960u);
    l76 = IPL_L64F(l5, 8936u);
    l78 = IPL_L64F(l5, 8920u);
    l80 = IPL_L64F(l5, 8904u);
    l82 = IPL_L64F(l5, 8888u);
    l84 = IPL_L64F(l5, 8872u);
    l86 = IPL_L64F(l5, 8856u);
    l88 = IPL_L64F(l5, 8576u);
    l90 = IPL_L64F(l5, 8560u);
    l92 = IPL_L64F(l5, 8544u);
    l94 = IPL_L64F(l5, 8528u);
    if (l6 == 0) goto L19;
    ipl_to_rattle_dealloc(m, IPL_L64F(l5, 8496u));
L19:;
    if (l92 == 0) goto L20;
    ipl_to_rattle_dealloc(m, l94);
L20:;
    if (l88 == 0) goto L21;
    ipl_to_rattle_dealloc(m, l90);
L21:;
    if (l84 == 0) goto L22;
    ipl_to_rattle_dealloc(m, l86);
L22:;
    if (l80 == 0) goto L23;
    ipl_to_rattle_dealloc(m, l82);
L23:;
    if (l76 == 0) goto L24;
    ipl_to_rattle_dealloc(m, l78);
L24:;
    if (l72 == 0) goto L25;
    ipl_to_rattle_dealloc(m, l70);
L25:;
    if (l67 == 0) goto L26;
    ipl_to_rattle_dealloc(m, l69);
L26:;
    if (l63 == 0) goto L27;
    ipl_to_rattle_dealloc(m, l65);
L27:;
    if (l59 == 0) goto L28;
    ipl_to_rattle_dealloc(m, l61);
L28:;
    if (l56 == 0) goto L29;
    ipl_to_rattle_dealloc(m, l58);
L29:;
    if (l52 == 0) goto L30;
    ipl_to_rattle_dealloc(m, l54);
L30:;
    if (l48 == 0) goto L31;
    ipl_to_rattle_dealloc(m, l50);
L31:;
    if (l44 == 0) goto L32;
    ipl_to_rattle_dealloc(m, l42);
L32:;
    if (l39 == 0) goto L33;
    ipl_to_rattle_dealloc(m, l41);
L33:;
    if (l35 == 0) goto L34;
    ipl_to_rattle_dealloc(m, l37);
L34:;
    if (l31 == 0) goto L35;
    ipl_to_rattle_dealloc(m, l33);
L35:;
    if (l26 == 0) goto L36;
    ipl_to_rattle_dealloc(m, l28);
L36:;
    if (l22 == 0) goto L37;
    ipl_to_rattle_dealloc(m, l24);
L37:;
    if (l19 == 0) goto L38;
    ipl_to_rattle_dealloc(m, l17);
L38:;
    if (l15 == 0) goto L39;
    ipl_to_rattle_dealloc(m, l13);
L39:;
    if (!(l0 == 0)) goto L40;
    l77 = (ipl_u64)0u;
    l76 = (ipl_u64)0u;
    l75 = (ipl_u64)0u;
    l74 = (ipl_u64)0u;
    l78 = (ipl_u64)0u;
    l79 = (ipl_u64)0u;
    l80 = (ipl_u64)0u;
    l81 = (ipl_u64)0u;
    l82 = (ipl_u64)0u;
    l83 = (ipl_u64)0u;
    l84 = (ipl_u64)0u;
    l85 = (ipl_u64)0u;
    l86 = (ipl_u64)0u;
    l87 = (ipl_u64)0u;
    l88 = (ipl_u64)0u;
    l89 = (ipl_u64)0u;
    l90 = (ipl_u64)0u;
    l91 = (ipl_u64)0u;
    l92 = (ipl_u64)0u;
    l93 = (ipl_u64)0u;
    l94 = (ipl_u64)0u;
    l95 = (ipl_u64)0u;
    l96 = (ipl_u64)0u;
    l97 = (ipl_u64)0u;
    l98 = (ipl_u64)0u;
    l99 = (ipl_u64)0u;
    l73 = (ipl_u64)0u;
    l72 = (ipl_u64)0u;
    l71 = (ipl_u64)0u;
    l70 = (ipl_u64)0u;
    l62 = (ipl_u64)0u;
    l63 = (ipl_u64)0u;
    l64 = (ipl_u64)0u;
    l65 = (ipl_u64)0u;
    l66 = (ipl_u64)0u;
    l67 = (ipl_u64)0u;
    l68 = (ipl_u64)0u;
    l69 = (ipl_u64)0u;
    l59 = (ipl_u64)0u;
    l60 = (ipl_u64)0u;
    l61 = (ipl_u64)0u;
    l47 = (ipl_u64)0u;
    l48 = (ipl_u64)0u;
    l49 = (ipl_u64)0u;
    l50 = (ipl_u64)0u;
    l51 = (ipl_u64)0u;
    l52 = (ipl_u64)0u;
    l53 = (ipl_u64)0u;
    l54 = (ipl_u64)0u;
    l55 = (ipl_u64)0u;
    l56 = (ipl_u64)0u;
    l57 = (ipl_u64)0u;
    l58 = (ipl_u64)0u;
    l46 = (ipl_u64)0u;
    l45 = (ipl_u64)0u;
    l44 = (ipl_u64)0u;
    l43 = (ipl_u64)0u;
    l42 = (ipl_u64)0u;
    l21 = (ipl_u64)0u;
    l22 = (ipl_u64)0u;
    l23 = (ipl_u64)0u;
    l24 = (ipl_u64)0u;
    l25 = (ipl_u64)0u;
    l26 = (ipl_u64)0u;
    l27 = (ipl_u64)0u;
    l28 = (ipl_u64)0u;
    l29 = (ipl_u64)0u;
    l30 = (ipl_u64)0u;
    l31 = (ipl_u64)0u;
    l32 = (ipl_u64)0u;
    l33 = (ipl_u64)0u;
    l34 = (ipl_u64)0u;
    l35 = (ipl_u64)0u;
    l36 = (ipl_u64)0u;
    l37 = (ipl_u64)0u;
    l38 = (ipl_u64)0u;
    l39 = (ipl_u64)0u;
    l40 = (ipl_u64)0u;
    l41 = (ipl_u64)0u;
    l20 = (ipl_u64)0u;
    l19 = (ipl_u64)0u;
    l18 = (ipl_u64)0u;
    l17 = (ipl_u64)0u;
    l16 = (ipl_u64)0u;
    l15 = (ipl_u64)0u;
    l14 = (ipl_u64)0u;
    l13 = (ipl_u64)0u;
    l12 = (ipl_u64)0u;
    l0 = (ipl_u64)0u;
    l11 = (ipl_u64)0u;
    l6 = (ipl_u64)0u;
    goto L3;
L40:;
    ipl_to_rattle_dealloc(m, l96);
    l6 = (ipl_u64)0u;
    l77 = (ipl_u64)0u;
    l76 = (ipl_u64)0u;
    l75 = (ipl_u64)0u;
    l74 = (ipl_u64)0u;
    l78 = (ipl_u64)0u;
    l79 = (ipl_u64)0u;
    l80 = (ipl_u64)0u;
    l81 = (ipl_u64)0u;
    l82 = (ipl_u64)0u;
    l83 = (ipl_u64)0u;
    l84 = (ipl_u64)0u;
    l85 = (ipl_u64)0u;
    l86 = (ipl_u64)0u;
    l87 = (ipl_u64)0u;
    l88 = (ipl_u64)0u;
    l89 = (ipl_u64)0u;
    l90 = (ipl_u64)0u;
    l91 = (ipl_u64)0u;
    l92 = (ipl_u64)0u;
    l93 = (ipl_u64)0u;
    l94 = (ipl_u64)0u;
    l95 = (ipl_u64)0u;
    l96 = (ipl_u64)0u;
    l97 = (ipl_u64)0u;
    l98 = (ipl_u64)0u;
    l99 = (ipl_u64)0u;
    l73 = (ipl_u64)0u;
    l72 = (ipl_u64)0u;
    l71 = (ipl_u64)0u;
    l70 = (ipl_u64)0u;
    l62 = (ipl_u64)0u;
    l63 = (ipl_u64)0u;
    l64 = (ipl_u64)0u;
    l65 = (ipl_u64)0u;
    l66 = (ipl_u64)0u;
    l67 = (ipl_u64)0u;
    l68 = (ipl_u64)0u;
    l69 = (ipl_u64)0u;
    l59 = (ipl_u64)0u;
    l60 = (ipl_u64)0u;
    l61 = (ipl_u64)0u;
    l47 = (ipl_u64)0u;
    l48 = (ipl_u64)0u;
    l49 = (ipl_u64)0u;
    l50 = (ipl_u64)0u;
    l51 = (ipl_u64)0u;
    l52 = (ipl_u64)0u;
    l53 = (ipl_u64)0u;
    l54 = (ipl_u64)0u;
    l55 = (ipl_u64)0u;
    l56 = (ipl_u64)0u;
    l57 = (ipl_u64)0u;
    l58 = (ipl_u64)0u;
    l46 = (ipl_u64)0u;
    l45 = (ipl_u64)0u;
    l44 = (ipl_u64)0u;
    l43 = (ipl_u64)0u;
    l42 = (ipl_u64)0u;
    l21 = (ipl_u64)0u;
    l22 = (ipl_u64)0u;
    l23 = (ipl_u64)0u;
    l24 = (ipl_u64)0u;
    l25 = (ipl_u64)0u;
    l26 = (ipl_u64)0u;
    l27 = (ipl_u64)0u;
    l28 = (ipl_u64)0u;
    l29 = (ipl_u64)0u;
    l30 = (ipl_u64)0u;
    l31 = (ipl_u64)0u;
    l32 = (ipl_u64)0u;
    l33 = (ipl_u64)0u;
    l34 = (ipl_u64)0u;
    l35 = (ipl_u64)0u;
    l36 = (ipl_u64)0u;
    l37 = (ipl_u64)0u;
    l38 = (ipl_u64)0u;
    l39 = (ipl_u64)0u;
    l40 = (ipl_u64)0u;
    l41 = (ipl_u64)0u;
    l20 = (ipl_u64)0u;
    l19 = (ipl_u64)0u;
    l18 = (ipl_u64)0u;
    l17 = (ipl_u64)0u;
    l16 = (ipl_u64)0u;
    l15 = (ipl_u64)0u;
    l14 = (ipl_u64)0u;
    l13 = (ipl_u64)0u;
    l12 = (ipl_u64)0u;
    l0 = (ipl_u64)0u;
    l11 = (ipl_u64)0u;
L3:;
    l7 = (ipl_u32)(l7 == 0);
    IPL_S64(l5, 2760u, IPL_L64F(l5, 5504u));
    IPL_S64(l5, 2752u, IPL_L64F(l5, 5496u));
    IPL_S64(l5, 2744u, IPL_L64F(l5, 5488u));
    IPL_S64(l5, 2736u, IPL_L64F(l5, 5480u));
    IPL_COPY((l5 + 2472u), (l5 + 5216u), (ipl_u64)264u);
    IPL_S64(l5, 2464u, IPL_L64F(l5, 5208u));
    IPL_S64(l5, 2456u, IPL_L64F(l5, 5200u));
    IPL_S64(l5, 2448u, IPL_L64F(l5, 5192u));
    IPL_S64(l5, 2432u, IPL_L64F(l5, 5176u));
    IPL_S64(l5, 2440u, IPL_L64F(l5, 5184u));
    IPL_COPY((l5 + 2112u), (l5 + 4856u), (ipl_u64)320u);
    IPL_COPY((l5 + 1616u), (l5 + 4360u), (ipl_u64)496u);
    IPL_S64(l5, 1608u, IPL_L64F(l5, 4352u));
    IPL_S64(l5, 1600u, IPL_L64F(l5, 4344u));
    IPL_COPY((l5 + 552u), (l5 + 3296u), (ipl_u64)1048u);
    IPL_S64(l5, 544u, IPL_L64(l5, 3288u));
    IPL_S64(l5, 536u, IPL_L64(l5, 3280u));
    IPL_S64(l5, 528u, IPL_L64(l5, 3272u));
    IPL_S64(l5, 504u, IPL_L64(l5, 3248u));
    IPL_S64(l5, 512u, IPL_L64(l5, 3256u));
    IPL_S64(l5, 520u, IPL_L64(l5, 3264u));
    IPL_S64(l5, 488u, IPL_L64(l5, 3232u));
    IPL_S64(l5, 496u, IPL_L64(l5, 3240u));
    IPL_COPY((l5 + 24u), (l5 + 2768u), (ipl_u64)464u);
    goto L1;
L2:;
    IPL_S64(l5, 2736u, (ipl_u64)0u);
    IPL_S64(l5, 2744u, (ipl_u64)0u);
    IPL_S64(l5, 2752u, (ipl_u64)0u);
    IPL_S64(l5, 2760u, (ipl_u64)0u);
    l8 = IPL_L32F(l5, 11516u);
    l9 = IPL_L32F(l5, 11512u);
    l10 = IPL_L32F(l5, 11508u);
    l1 = IPL_L32F(l5, 11504u);
    l2 = IPL_L32F(l5, 11500u);
    IPL_FILL((l5 + 2472u), 0u, (ipl_u64)264u);
    IPL_S64(l5, 2464u, (ipl_u64)0u);
    IPL_S64(l5, 2456u, (ipl_u64)0u);
    IPL_S64(l5, 2448u, (ipl_u64)0u);
    IPL_S64(l5, 2432u, (ipl_u64)0u);
    IPL_S64(l5, 2440u, (ipl_u64)0u);
    IPL_FILL((l5 + 2112u), 0u, (ipl_u64)320u);
    IPL_FILL((l5 + 1616u), 0u, (ipl_u64)496u);
    IPL_S64(l5, 1608u, (ipl_u64)0u);
    IPL_S64(l5, 1600u, (ipl_u64)0u);
    IPL_FILL((l5 + 552u), 0u, (ipl_u64)1048u);
    IPL_S64(l5, 544u, (ipl_u64)0u);
    IPL_S64(l5, 536u, (ipl_u64)0u);
    IPL_S64(l5, 528u, (ipl_u64)0u);
    IPL_S64(l5, 504u, (ipl_u64)0u);
    IPL_S64(l5, 512u, (ipl_u64)0u);
    IPL_S64(l5, 520u, (ipl_u64)0u);
    IPL_S64(l5, 488u, (ipl_u64)0u);
    IPL_S64(l5, 496u, (ipl_u64)0u);
    IPL_FILL((l5 + 24u), 0u, (ipl_u64)464u);
    l11 = (ipl_u64)0u;
    l0 = (ipl_u64)0u;
    l12 = (ipl_u64)0u;
    l13 = (ipl_u64)0u;
    l14 = (ipl_u64)0u;
    l15 = (ipl_u64)0u;
    l16 = (ipl_u64)0u;
    l17 = (ipl_u64)0u;
    l18 = (ipl_u64)0u;
    l19 = (ipl_u64)0u;
    l20 = (ipl_u64)0u;
    l41 = (ipl_u64)0u;
    l40 = (ipl_u64)0u;
    l39 = (ipl_u64)0u;
    l38 = (ipl_u64)0u;
    l37 = (ipl_u64)0u;
    l36 = (ipl_u64)0u;
    l35 = (ipl_u64)0u;
    l34 = (ipl_u64)0u;
    l33 = (ipl_u64)0u;
    l32 = (ipl_u64)0u;
    l31 = (ipl_u64)0u;
    l30 = (ipl_u64)0u;
    l29 = (ipl_u64)0u;
    l28 = (ipl_u64)0u;
    l27 = (ipl_u64)0u;
    l26 = (ipl_u64)0u;
    l25 = (ipl_u64)0u;
    l24 = (ipl_u64)0u;
    l23 = (ipl_u64)0u;
    l22 = (ipl_u64)0u;
    l21 = (ipl_u64)0u;
    l42 = (ipl_u64)0u;
    l43 = (ipl_u64)0u;
    l44 = (ipl_u64)0u;
    l45 = (ipl_u64)0u;
    l46 = (ipl_u64)0u;
    l58 = (ipl_u64)0u;
    l57 = (ipl_u64)0u;
    l56 = (ipl_u64)0u;
    l55 = (ipl_u64)0u;
    l54 = (ipl_u64)0u;
    l53 = (ipl_u64)0u;
    l52 = (ipl_u64)0u;
    l51 = (ipl_u64)0u;
    l50 = (ipl_u64)0u;
    l49 = (ipl_u64)0u;
    l48 = (ipl_u64)0u;
    l47 = (ipl_u64)0u;
    l61 = (ipl_u64)0u;
    l60 = (ipl_u64)0u;
    l59 = (ipl_u64)0u;
    l69 = (ipl_u64)0u;
    l68 = (ipl_u64)0u;
    l67 = (ipl_u64)0u;
    l66 = (ipl_u64)0u;
    l65 = (ipl_u64)0u;
    l64 = (ipl_u64)0u;
    l63 = (ipl_u64)0u;
    l62 = (ipl_u64)0u;
    l70 = (ipl_u64)0u;
    l71 = (ipl_u64)0u;
    l72 = (ipl_u64)0u;
    l73 = (ipl_u64)0u;
    l99 = (ipl_u64)0u;
    l98 = (ipl_u64)0u;
    l97 = (ipl_u64)0u;
    l96 = (ipl_u64)0u;
    l95 = (ipl_u64)0u;
    l94 = (ipl_u64)0u;
    l93 = (ipl_u64)0u;
    l92 = (ipl_u64)0u;
    l91 = (ipl_u64)0u;
    l90 = (ipl_u64)0u;
    l89 = (ipl_u64)0u;
    l88 = (ipl_u64)0u;
    l87 = (ipl_u64)0u;
    l86 = (ipl_u64)0u;
    l85 = (ipl_u64)0u;
    l84 = (ipl_u64)0u;
    l83 = (ipl_u64)0u;
    l82 = (ipl_u64)0u;
    l81 = (ipl_u64)0u;
    l80 = (ipl_u64)0u;
    l79 = (ipl_u64)0u;
    l78 = (ipl_u64)0u;
    l77 = (ipl_u64)0u;
    l76 = (ipl_u64)0u;
    l75 = (ipl_u64)0u;
    l74 = (ipl_u64)0u;
L1:;
    if (l7 == 0) goto L42;
    IPL_S64F(l5, 11496u, IPL_L64(l5, 488u));
    IPL_S64F(l5, 11504u, IPL_L64(l5, 496u));
    IPL_COPY((l5 + 8488u), (l5 + 24u), (ipl_u64)464u);
    ipl_to_rattle_alloc(m, (l5 + 8u), (ipl_u64)3496u, (ipl_u64)8u);
    if (((ipl_u32)IPL_L64(l5, 8u) & 1u) == 0) goto L43;
    l3 = IPL_L64(l5, 16u);
    IPL_S32U(l3, 12u, l8);
    IPL_S32U(l3, 8u, l9);
    IPL_S64U(l3, 16u, IPL_L64(l5, 2736u));
    IPL_S64U(l3, 24u, IPL_L64(l5, 2744u));
    IPL_S64U(l3, 32u, IPL_L64(l5, 2752u));
    IPL_S64U(l3, 40u, IPL_L64(l5, 2760u));
    IPL_S64U(l3, 144u, l20);
    IPL_S64U(l3, 136u, l19);
    IPL_S64U(l3, 128u, l18);
    IPL_S64U(l3, 120u, l17);
    IPL_S64U(l3, 112u, l16);
    IPL_S64U(l3, 104u, l15);
    IPL_S64U(l3, 96u, l14);
    IPL_S64U(l3, 88u, l13);
    IPL_S64U(l3, 80u, l12);
    IPL_S64U(l3, 72u, l0);
    IPL_S64U(l3, 64u, l11);
    IPL_S64U(l3, 56u, l6);
    IPL_S64U(l3, 48u, (ipl_u64)0u);
    IPL_S64U(l3, 0u, (((ipl_u64)l10 << 32) | (ipl_u64)l1));
    IPL_COPY((l3 + 152u), (l5 + 2472u), (ipl_u64)264u);
    IPL_S64U(l3, 576u, l21);
    IPL_S64U(l3, 568u, l22);
    IPL_S64U(l3, 560u, l23);
    IPL_S64U(l3, 552u, l24);
    IPL_S64U(l3, 544u, l25);
    IPL_S64U(l3, 536u, l26);
    IPL_S64U(l3, 528u, l27);
    IPL_S64U(l3, 520u, l28);
    IPL_S64U(l3, 512u, l29);
    IPL_S64U(l3, 504u, l30);
    IPL_S64U(l3, 496u, l31);
    IPL_S64U(l3, 488u, l32);
    IPL_S64U(l3, 480u, l33);
    IPL_S64U(l3, 472u, l34);
    IPL_S64U(l3, 464u, l35);
    IPL_S64U(l3, 456u, l36);
    IPL_S64U(l3, 448u, l37);
    IPL_S64U(l3, 440u, l38);
    IPL_S64U(l3, 432u, l39);
    IPL_S64U(l3, 424u, l40);
    IPL_S64U(l3, 416u, l41);
    IPL_S64U(l3, 656u, l46);
    IPL_S64U(l3, 648u, l45);
    IPL_S64U(l3, 640u, l44);
    IPL_S64U(l3, 632u, l43);
    IPL_S64U(l3, 624u, l42);
    IPL_S64U(l3, 600u, IPL_L64(l5, 2464u));
    IPL_S64U(l3, 592u, IPL_L64(l5, 2456u));
    IPL_S64U(l3, 584u, IPL_L64(l5, 2448u));
    IPL_S64U(l3, 616u, IPL_L64(l5, 2440u));
    IPL_S64U(l3, 608u, IPL_L64(l5, 2432u));
    IPL_COPY((l3 + 664u), (l5 + 2112u), (ipl_u64)320u);
    IPL_S64U(l3, 1072u, l47);
    IPL_S64U(l3, 1064u, l48);
    IPL_S64U(l3, 1056u, l49);
    IPL_S64U(l3, 1048u, l50);
    IPL_S64U(l3, 1040u, l51);
    IPL_S64U(l3, 1032u, l52);
    IPL_S64U(l3, 1024u, l53);
    IPL_S64U(l3, 1016u, l54);
    IPL_S64U(l3, 1008u, l55);
    IPL_S64U(l3, 1000u, l56);
    IPL_S64U(l3, 992u, l57);
    IPL_S64U(l3, 984u, l58);
    IPL_COPY((l3 + 1080u), (l5 + 1616u), (ipl_u64)496u);
    IPL_S64U(l3, 1592u, l59);
    IPL_S64U(l3, 1584u, l60);
    IPL_S64U(l3, 1576u, l61);
    IPL_S64U(l3, 1600u, IPL_L64(l5, 1600u));
    IPL_S64U(l3, 1608u, IPL_L64(l5, 1608u));
    IPL_COPY((l3 + 1616u), (l5 + 552u), (ipl_u64)1048u);
    IPL_S64U(l3, 2720u, l62);
    IPL_S64U(l3, 2712u, l63);
    IPL_S64U(l3, 2704u, l64);
    IPL_S64U(l3, 2696u, l65);
    IPL_S64U(l3, 2688u, l66);
    IPL_S64U(l3, 2680u, l67);
    IPL_S64U(l3, 2672u, l68);
    IPL_S64U(l3, 2664u, l69);
    IPL_S64U(l3, 2776u, l73);
    IPL_S64U(l3, 2768u, l72);
    IPL_S64U(l3, 2760u, l71);
    IPL_S64U(l3, 2752u, l70);
    IPL_S64U(l3, 2728u, IPL_L64(l5, 528u));
    IPL_S64U(l3, 2736u, IPL_L64(l5, 536u));
    IPL_S64U(l3, 2744u, IPL_L64(l5, 544u));
    IPL_S64U(l3, 2784u, IPL_L64(l5, 504u));
    IPL_S64U(l3, 2792u, IPL_L64(l5, 512u));
    IPL_S64U(l3, 2800u, IPL_L64(l5, 520u));
    IPL_S64U(l3, 3008u, l74);
    IPL_S64U(l3, 3000u, l75);
    IPL_S64U(l3, 2992u, l76);
    IPL_S64U(l3, 2984u, l77);
    IPL_S64U(l3, 2976u, l78);
    IPL_S64U(l3, 2968u, l79);
    IPL_S64U(l3, 2960u, l80);
    IPL_S64U(l3, 2952u, l81);
    IPL_S64U(l3, 2944u, l82);
    IPL_S64U(l3, 2936u, l83);
    IPL_S64U(l3, 2928u, l84);
    IPL_S64U(l3, 2920u, l85);
    IPL_S64U(l3, 2912u, l86);
    IPL_S64U(l3, 2904u, l87);
    IPL_S64U(l3, 2896u, l88);
    IPL_S64U(l3, 2888u, l89);
    IPL_S64U(l3, 2880u, l90);
    IPL_S64U(l3, 2872u, l91);
    IPL_S64U(l3, 2864u, l92);
    IPL_S64U(l3, 2856u, l93);
    IPL_S64U(l3, 2848u, l94);
    IPL_S64U(l3, 2840u, l95);
    IPL_S64U(l3, 2832u, l96);
    IPL_S64U(l3, 2824u, l97);
    IPL_S64U(l3, 2816u, l98);
    IPL_S64U(l3, 2808u, l99);
    IPL_S64U(l3, 3024u, IPL_L64F(l5, 11504u));
    IPL_S64U(l3, 3016u, IPL_L64F(l5, 11496u));
    IPL_COPY((l3 + 3032u), (l5 + 8488u), (ipl_u64)464u);
    IPL_S64(l4, 0u, l3);
    l2 = 0u;
    goto L41;
L43:;
    if (l0 == 0) goto L44;
    ipl_to_rattle_dealloc(m, l6);
L44:;
    if (l15 == 0) goto L45;
    ipl_to_rattle_dealloc(m, l13);
L45:;
    if (l19 == 0) goto L46;
    ipl_to_rattle_dealloc(m, l17);
L46:;
    if (l39 == 0) goto L47;
    ipl_to_rattle_dealloc(m, l41);
L47:;
    if (l35 == 0) goto L48;
    ipl_to_rattle_dealloc(m, l37);
L48:;
    if (l31 == 0) goto L49;
    ipl_to_rattle_dealloc(m, l33);
L49:;
    if (l26 == 0) goto L50;
    ipl_to_rattle_dealloc(m, l28);
L50:;
    if (l22 == 0) goto L51;
    ipl_to_rattle_dealloc(m, l24);
L51:;
    if (l44 == 0) goto L52;
    ipl_to_rattle_dealloc(m, l42);
L52:;
    if (l56 == 0) goto L53;
    ipl_to_rattle_dealloc(m, l58);
L53:;
    if (l52 == 0) goto L54;
    ipl_to_rattle_dealloc(m, l54);
L54:;
    if (l48 == 0) goto L55;
    ipl_to_rattle_dealloc(m, l50);
L55:;
    if (l59 == 0) goto L56;
    ipl_to_rattle_dealloc(m, l61);
L56:;
    if (l67 == 0) goto L57;
    ipl_to_rattle_dealloc(m, l69);
L57:;
    if (l63 == 0) goto L58;
    ipl_to_rattle_dealloc(m, l65);
L58:;
    if (l72 == 0) goto L59;
    ipl_to_rattle_dealloc(m, l70);
L59:;
    if (l96 == 0) goto L60;
    ipl_to_rattle_dealloc(m, l98);
L60:;
    if (l92 == 0) goto L61;
    ipl_to_rattle_dealloc(m, l94);
L61:;
    if (l88 == 0) goto L62;
    ipl_to_rattle_dealloc(m, l90);
L62:;
    if (l84 == 0) goto L63;
    ipl_to_rattle_dealloc(m, l86);
L63:;
    if (l80 == 0) goto L64;
    ipl_to_rattle_dealloc(m, l82);
L64:;
    l2 = 85u;
    if (l76 == 0) goto L41;
    ipl_to_rattle_dealloc(m, l78);
    goto L41;
L42:;
    IPL_S32U((l3 + 644u), 0u, l8);
    IPL_S32U((l3 + 640u), 0u, l9);
    IPL_S32U((l3 + 636u), 0u, l10);
    IPL_S32U((l3 + 632u), 0u, l1);
L41:;
    IPL_G(0) = (l5 + 14544u);
    return l2;
}

/* ipl_port_read */
static ipl_u32 ipl_w_ipl_port_read(ipl_u8 *const m, ipl_u64 l0, ipl_u64 l1, ipl_u64 l2) {
    ipl_u32 l4 = 0, l5 = 0, l6 = 0, l7 = 0, l8 = 0, l11 = 0, l12 = 0;
    ipl_u64 l3 = 0, l9 = 0, l10 = 0, t1;
    IPL_ENDS
    t1 = IPL_G(0);
    l3 = (t1 - 944u);
    IPL_G(0) = l3;
    l4 = 0u;
    l5 = 36u;
    l6 = 0u;
    l7 = 0u;
    l8 = 0u;
    switch ((IPL_L32(l1, 0u) + (ipl_u32)4294967292u)) {
    case 0u: goto L5;
    case 10u: goto L4;
    default: goto L1;
    }
L5:;
    l4 = IPL_L32(l1, 8u);
    if ((IPL_L32((l0 + 376u), 0u) * 960u) > l4) goto L6;
    l5 = 3u;
    l4 = 0u;
    goto L3;
L6:;
    IPL_S64(l3, 488u, (ipl_u64)0u);
    IPL_S64(l3, 480u, (ipl_u64)0u);
    IPL_S64(l3, 472u, (ipl_u64)0u);
    l5 = (l4 >> 6);
    l9 = (l0 + 17208u);
    if (IPL_L8(l9, 0u) != 1u) goto L9;
    if (IPL_L32((l0 + 17212u), 0u) == l5) goto L8;
L9:;
    IPL_S64U(l9, 0u, (ipl_u64)0u);
    ipl_w47_load(m, (l3 + 472u), l0, (l0 + 368u), (l0 + 824u), (l0 + 920u), 1610637312ull, (ipl_u64)0u, (l4 / 960u), (l5 % 15u), (l0 + 976u), (l0 + 1008u));
    if (IPL_L8(l3, 472u) != 0) goto L7;
    IPL_S32U((l0 + 17212u), 0u, l5);
    IPL_S32U((l0 + 17208u), 0u, 1u);
L8:;
    l5 = 1u;
    l9 = (l0 + (ipl_u64)((l4 << 1) & 126u));
    l4 = IPL_L16((l9 + 8688u), 0u);
    l6 = IPL_L16((l9 + 8690u), 0u);
    if (l4 == l6) goto L10;
    IPL_FILL((l3 + 472u), 0u, (ipl_u64)464u);
    l10 = ((ipl_u64)l4 + 3u);
    l9 = ((ipl_u64)l6 - l10);
    if (l9 > 464u) goto L10;
    if (l9 == 0) goto L11;
    IPL_COPY((l3 + 472u), ((l0 + l10) + 1008u), l9);
L11:;
    IPL_S64(l3, 936u, l9);
    l9 = IPL_L64(l3, 472u);
    IPL_COPY((l3 + 8u), ((l3 + 472u) + 8u), (ipl_u64)464u);
    IPL_S64(l3, 0u, l9);
    l9 = IPL_L64(l3, 464u);
    if (l9 == 0) goto L12;
    IPL_COPY((l1 + 168u), l3, l9);
L12:;
    IPL_S32(l1, 20u, l9);
    l5 = 0u;
    l4 = 0u;
    goto L3;
L10:;
    l4 = 0u;
    IPL_S32(l1, 20u, 0u);
    goto L3;
L7:;
    l11 = IPL_L32(l3, 480u);
    l12 = IPL_L32(l3, 484u);
    l5 = 40u;
    l4 = IPL_L8(l3, 476u);
    l6 = l4;
    l7 = l4;
    l8 = l4;
    switch (l4) {
    case 1u: goto L16;
    case 2u: goto L15;
    case 3u: goto L14;
    case 4u: goto L13;
    default: goto L1;
    }
L16:;
    l5 = 62u;
    l4 = 0u;
    goto L3;
L15:;
    l7 = IPL_L32(l3, 488u);
    l8 = IPL_L32(l3, 492u);
    l5 = 41u;
    l4 = l11;
    l6 = l12;
    goto L1;
L14:;
    l5 = 42u;
    l4 = l11;
    l6 = l12;
    goto L2;
L13:;
    l5 = 63u;
    l4 = l11;
    goto L3;
L4:;
    IPL_S32(l1, 8u, ((IPL_L32((l0 + 376u), 0u) * 960u) / 960u));
    l4 = 0u;
    l5 = 0u;
L3:;
    l6 = 0u;
L2:;
    l7 = 0u;
    l8 = 0u;
L1:;
    IPL_S32U((l1 + 644u), 0u, l8);
    IPL_S32U((l1 + 640u), 0u, l7);
    IPL_S32U((l1 + 636u), 0u, l6);
    IPL_S32U((l1 + 632u), 0u, l4);
    IPL_S64(l2, 0u, l0);
    IPL_G(0) = (l3 + 944u);
    return l5;
}

/* ipl_port_make_reader */
static ipl_u32 ipl_w_ipl_port_make_reader(ipl_u8 *const m, ipl_u64 l0, ipl_u32 l1, ipl_u64 l2, ipl_u64 l3) {
    ipl_u32 l5 = 0, l6 = 0, l7 = 0;
    ipl_u64 l4 = 0, l8 = 0, l9 = 0, l10 = 0, l11 = 0, l12 = 0, l13 = 0, l14 = 0, l15 = 0, l16 = 0, l17 = 0, l18 = 0, l19 = 0, l20 = 0, l21 = 0, l22 = 0;
    ipl_u64 l23 = 0, l24 = 0, l25 = 0, l26 = 0, l27 = 0, l28 = 0, l29 = 0, l30 = 0, l31 = 0, l32 = 0, l33 = 0, l34 = 0, l35 = 0, l36 = 0, l37 = 0, l38 = 0;
    ipl_u64 l39 = 0, l40 = 0, l41 = 0, l42 = 0, l43 = 0, l44 = 0, l45 = 0, l46 = 0, l47 = 0, l48 = 0, l49 = 0, l50 = 0, l51 = 0, l52 = 0, l53 = 0, l54 = 0;
    ipl_u64 l55 = 0, l56 = 0, l57 = 0, l58 = 0, l59 = 0, l60 = 0, l61 = 0, l62 = 0, l63 = 0, l64 = 0, l65 = 0, l66 = 0, l67 = 0, l68 = 0, l69 = 0, t1;
    IPL_ENDS
    t1 = IPL_G(0);
    l4 = (t1 - 1600u);
    IPL_G(0) = l4;
    IPL_FILL((l4 + 120u), 0u, (ipl_u64)264u);
    l5 = IPL_L32(l2, 8u);
    IPL_FILL((l4 + 384u), 0u, (ipl_u64)264u);
    IPL_FILL((l4 + 648u), 0u, (ipl_u64)264u);
    if ((l5 + (ipl_u32)4294951995u) >= (ipl_u32)4294952115u) goto L4;
    l5 = 35u;
    goto L3;
L4:;
    l6 = (l1 + (ipl_u32)4294967291u);
    if (l6 <= 1023u) goto L5;
    l5 = 80u;
    goto L3;
L5:;
    IPL_FILL((l4 + 1376u), 0u, (ipl_u64)216u);
    IPL_FILL((l4 + 912u), 0u, (ipl_u64)464u);
    l7 = (l1 + (ipl_u32)4294967292u);
    ipl_w21_new(m, (l4 + 1376u), l1, l7);
    if (IPL_L8(l4, 1376u) != 0) goto L6;
    l8 = IPL_L64(l4, 1584u);
    l9 = IPL_L64(l4, 1576u);
    l10 = IPL_L64(l4, 1568u);
    l11 = IPL_L64(l4, 1560u);
    l12 = IPL_L64(l4, 1552u);
    l13 = IPL_L64(l4, 1544u);
    l14 = IPL_L64(l4, 1536u);
    l15 = IPL_L64(l4, 1528u);
    l16 = IPL_L64(l4, 1520u);
    l17 = IPL_L64(l4, 1512u);
    l18 = IPL_L64(l4, 1504u);
    l19 = IPL_L64(l4, 1496u);
    l20 = IPL_L64(l4, 1488u);
    l21 = IPL_L64(l4, 1480u);
    l22 = IPL_L64(l4, 1472u);
    l23 = IPL_L64(l4, 1464u);
    l24 = IPL_L64(l4, 1456u);
    l25 = IPL_L64(l4, 1448u);
    l26 = IPL_L64(l4, 1440u);
    l27 = IPL_L64(l4, 1432u);
    l28 = IPL_L64(l4, 1424u);
    l29 = IPL_L64(l4, 1416u);
    l30 = IPL_L64(l4, 1408u);
    l31 = IPL_L64(l4, 1400u);
    l32 = IPL_L64(l4, 1392u);
    l33 = IPL_L64(l4, 1384u);
    l34 = (ipl_u64)l5;
    l35 = ((l34 + 7u) >> 3);
    ipl_to_rattle_alloc(m, (l4 + 104u), l35, (ipl_u64)1u);
    if (((ipl_u32)IPL_L64(l4, 104u) & 1u) == 0) goto L9;
    l36 = IPL_L64(l4, 112u);
    l5 = (ipl_u32)(l35 == 0);
    if (l5 != 0) goto L10;
    IPL_FILL(l36, 0u, l35);
L10:;
    ipl_to_rattle_alloc(m, (l4 + 88u), l35, (ipl_u64)1u);
    if (((ipl_u32)IPL_L64(l4, 88u) & 1u) != 0) goto L8;
    ipl_to_rattle_dealloc(m, l36);
L9:;
    if (l30 == 0) goto L11;
    ipl_to_rattle_dealloc(m, l32);
L11:;
    if (l26 == 0) goto L12;
    ipl_to_rattle_dealloc(m, l28);
L12:;
    if (l22 == 0) goto L13;
    ipl_to_rattle_dealloc(m, l24);
L13:;
    if (l18 == 0) goto L14;
    ipl_to_rattle_dealloc(m, l20);
L14:;
    if (l14 == 0) goto L15;
    ipl_to_rattle_dealloc(m, l16);
L15:;
    if (!(l10 == 0)) goto L7;
    goto L6;
L8:;
    l37 = IPL_L64(l4, 96u);
    if (l5 != 0) goto L16;
    IPL_FILL(l37, 0u, l35);
L16:;
    ipl_w18_new(m, (l4 + 912u), l1, l7);
    if (IPL_L8(l4, 912u) != 0) goto L20;
    l38 = (ipl_u64)(l6 < 1024u ? l7 : 0u);
    l39 = (ipl_u64)l7;
    l40 = (l39 << 4);
    l41 = (l40 < 510u ? l40 : (ipl_u64)510u);
    l42 = IPL_L64(l4, 1368u);
    l40 = IPL_L64(l4, 1360u);
    l43 = IPL_L64(l4, 1352u);
    l44 = IPL_L64(l4, 1344u);
    l45 = IPL_L64(l4, 1336u);
    l46 = IPL_L64(l4, 1328u);
    l47 = IPL_L64(l4, 1320u);
    l48 = IPL_L64(l4, 1312u);
    l49 = IPL_L64(l4, 1304u);
    l50 = IPL_L64(l4, 1296u);
    l51 = IPL_L64(l4, 1288u);
    l52 = IPL_L64(l4, 1280u);
    l53 = IPL_L64(l4, 1008u);
    l54 = IPL_L64(l4, 1000u);
    l55 = IPL_L64(l4, 992u);
    l56 = IPL_L64(l4, 984u);
    l57 = IPL_L64(l4, 976u);
    l58 = IPL_L64(l4, 968u);
    l59 = IPL_L64(l4, 960u);
    l60 = IPL_L64(l4, 952u);
    l61 = IPL_L64(l4, 944u);
    l62 = IPL_L64(l4, 936u);
    l63 = IPL_L64(l4, 928u);
    l64 = IPL_L64(l4, 920u);
    if (l7 != 0) goto L22;
    l65 = (l4 + 1598u);
    l66 = l65;
    goto L21;
L22:;
    ipl_to_rattle_alloc(m, (l4 + 72u), l39, (ipl_u64)1u);
    if (((ipl_u32)IPL_L64(l4, 72u) & 1u) == 0) goto L18;
    l65 = IPL_L64(l4, 80u);
    if (l38 == 0) goto L23;
    IPL_FILL(l65, 0u, l38);
L23:;
    ipl_to_rattle_alloc(m, (l4 + 56u), (l41 * 6u), (ipl_u64)2u);
    if (((ipl_u32)IPL_L64(l4, 56u) & 1u) == 0) goto L19;
    l66 = IPL_L64(l4, 64u);
L21:;
    ipl_to_rattle_alloc(m, (l4 + 40u), (l34 << 3), (ipl_u64)8u);
    if (((ipl_u32)IPL_L64(l4, 40u) & 1u) == 0) goto L17;
    l67 = IPL_L64(l4, 48u);
    ipl_to_rattle_alloc(m, (l4 + 24u), (ipl_u64)15624u, (ipl_u64)8u);
    if (((ipl_u32)IPL_L64(l4, 24u) & 1u) != 0) goto L2;
    ipl_to_rattle_dealloc(m, l67);
    if (l7 == 0) goto L24;
    ipl_to_rattle_dealloc(m, l65);
    ipl_to_rattle_dealloc(m, l66);
L24:;
    if (l62 == 0) goto L25;
    ipl_to_rattle_dealloc(m, l64);
L25:;
    if (l58 == 0) goto L26;
    ipl_to_rattle_dealloc(m, l60);
L26:;
    if (l54 == 0) goto L27;
    ipl_to_rattle_dealloc(m, l56);
L27:;
    if (l50 == 0) goto L28;
    ipl_to_rattle_dealloc(m, l52);
L28:;
    if (l46 == 0) goto L29;
    ipl_to_rattle_dealloc(m, l48);
L29:;
    if (l40 == 0) goto L30;
    ipl_to_rattle_dealloc(m, l44);
L30:;
    ipl_to_rattle_dealloc(m, l36);
    ipl_to_rattle_dealloc(m, l37);
    if (l30 == 0) goto L31;
    ipl_to_rattle_dealloc(m, l32);
L31:;
    if (l26 == 0) goto L32;
    ipl_to_rattle_dealloc(m, l28);
L32:;
    if (l22 == 0) goto L33;
    ipl_to_rattle_dealloc(m, l24);
L33:;
    if (l18 == 0) goto L34;
    ipl_to_rattle_dealloc(m, l20);
L34:;
    if (l14 == 0) goto L35;
    ipl_to_rattle_dealloc(m, l16);
L35:;
    if (!(l10 == 0)) goto L7;
    goto L6;
L20:;
    ipl_to_rattle_dealloc(m, l36);
    ipl_to_rattle_dealloc(m, l37);
    if (l30 == 0) goto L36;
    ipl_to_rattle_dealloc(m, l32);
L36:;
    if (l26 == 0) goto L37;
    ipl_to_rattle_dealloc(m, l28);
L37:;
    if (l22 == 0) goto L38;
    ipl_to_rattle_dealloc(m, l24);
L38:;
    if (l18 == 0) goto L39;
    ipl_to_rattle_dealloc(m, l20);
L39:;
    if (l14 == 0) goto L40;
    ipl_to_rattle_dealloc(m, l16);
L40:;
    if (!(l10 == 0)) goto L7;
    goto L6;
L19:;
    ipl_to_rattle_dealloc(m, l65);
L18:;
    if (l62 == 0) goto L41;
    ipl_to_rattle_dealloc(m, l64);
L41:;
    if (l58 == 0) goto L42;
    ipl_to_rattle_dealloc(m, l60);
L42:;
    if (l54 == 0) goto L43;
    ipl_to_rattle_dealloc(m, l56);
L43:;
    if (l50 == 0) goto L44;
    ipl_to_rattle_dealloc(m, l52);
L44:;
    if (l46 == 0) goto L45;
    ipl_to_rattle_dealloc(m, l48);
L45:;
    if (l40 == 0) goto L46;
    ipl_to_rattle_dealloc(m, l44);
L46:;
    ipl_to_rattle_dealloc(m, l36);
    ipl_to_rattle_dealloc(m, l37);
    if (l30 == 0) goto L47;
    ipl_to_rattle_dealloc(m, l32);
L47:;
    if (l26 == 0) goto L48;
    ipl_to_rattle_dealloc(m, l28);
L48:;
    if (l22 == 0) goto L49;
    ipl_to_rattle_dealloc(m, l24);
L49:;
    if (l18 == 0) goto L50;
    ipl_to_rattle_dealloc(m, l20);
L50:;
    if (l14 == 0) goto L51;
    ipl_to_rattle_dealloc(m, l16);
L51:;
    if (!(l10 == 0)) goto L7;
    goto L6;
L17:;
    if (l7 == 0) goto L52;
    ipl_to_rattle_dealloc(m, l65);
    ipl_to_rattle_dealloc(m, l66);
L52:;
    if (l62 == 0) goto L53;
    ipl_to_rattle_dealloc(m, l64);
L53:;
    if (l58 == 0) goto L54;
    ipl_to_rattle_dealloc(m, l60);
L54:;
    if (l54 == 0) goto L55;
    ipl_to_rattle_dealloc(m, l56);
L55:;
    if (l50 == 0) goto L56;
    ipl_to_rattle_dealloc(m, l52);
L56:;
    if (l46 == 0) goto L57;
    ipl_to_rattle_dealloc(m, l48);
L57:;
    if (l40 == 0) goto L58;
    ipl_to_rattle_dealloc(m, l44);
L58:;
    ipl_to_rattle_dealloc(m, l36);
    ipl_to_rattle_dealloc(m, l37);
    if (l30 == 0) goto L59;
    ipl_to_rattle_dealloc(m, l32);
L59:;
    if (l26 == 0) goto L60;
    ipl_to_rattle_dealloc(m, l28);
L60:;
    if (l22 == 0) goto L61;
    ipl_to_rattle_dealloc(m, l24);
L61:;
    if (l18 == 0) goto L62;
    ipl_to_rattle_dealloc(m, l20);
L62:;
    if (l14 == 0) goto L63;
    ipl_to_rattle_dealloc(m, l16);
L63:;
    if (l10 == 0) goto L6;
L7:;
    ipl_to_rattle_dealloc(m, l12);
L6:;
    l5 = 85u;
L3:;
    IPL_S64U((l2 + 640u), 0u, (ipl_u64)0u);
    IPL_S64U((l2 + 632u), 0u, (ipl_u64)0u);
    goto L1;
L2:;
    l68 = IPL_L64(l4, 32u);
    IPL_COPY((l4 + 648u), (l4 + 1016u), (ipl_u64)264u);
    IPL_COPY((l4 + 384u), (l4 + 648u), (ipl_u64)264u);
    IPL_COPY((l4 + 120u), (l4 + 384u), (ipl_u64)264u);
    ipl_to_rattle_alloc(m, (l4 + 8u), (ipl_u64)17216u, (ipl_u64)8u);
    if (((ipl_u32)IPL_L64(l4, 8u) & 1u) != 0) goto L64;
    if (l30 == 0) goto L65;
    ipl_to_rattle_dealloc(m, l32);
L65:;
    if (l26 == 0) goto L66;
    ipl_to_rattle_dealloc(m, l28);
L66:;
    if (l22 == 0) goto L67;
    ipl_to_rattle_dealloc(m, l24);
L67:;
    if (l18 == 0) goto L68;
    ipl_to_rattle_dealloc(m, l20);
L68:;
    if (l14 == 0) goto L69;
    ipl_to_rattle_dealloc(m, l16);
L69:;
    if (l10 == 0) goto L70;
    ipl_to_rattle_dealloc(m, l12);
L70:;
    ipl_to_rattle_dealloc(m, l36);
    ipl_to_rattle_dealloc(m, l37);
    if (l62 == 0) goto L71;
    ipl_to_rattle_dealloc(m, l64);
L71:;
    if (l58 == 0) goto L72;
    ipl_to_rattle_dealloc(m, l60);
L72:;
    if (l54 == 0) goto L73;
    ipl_to_rattle_dealloc(m, l56);
L73:;
    if (l50 == 0) goto L74;
    ipl_to_rattle_dealloc(m, l52);
L74:;
    if (l46 == 0) goto L75;
    ipl_to_rattle_dealloc(m, l48);
L75:;
    if (l40 == 0) goto L76;
    ipl_to_rattle_dealloc(m, l44);
L76:;
    if (l7 == 0) goto L77;
    ipl_to_rattle_dealloc(m, l65);
    ipl_to_rattle_dealloc(m, l66);
L77:;
    ipl_to_rattle_dealloc(m, l67);
    ipl_to_rattle_dealloc(m, l68);
    l5 = 85u;
    goto L1;
L64:;
    l2 = IPL_L64(l4, 16u);
    IPL_S64U(l2, 17u, (ipl_u64)0u);
    IPL_S8(l2, 16u, 1u);
    l69 = (ipl_u64)l1;
    IPL_S64U(l2, 8u, l69);
    IPL_S64U(l2, 0u, l0);
    IPL_S64U(l2, 25u, (ipl_u64)0u);
    IPL_S64U(l2, 33u, (ipl_u64)0u);
    IPL_S64U(l2, 40u, (ipl_u64)0u);
    IPL_S64U(l2, 456u, l53);
    IPL_S64U(l2, 448u, l54);
    IPL_S64U(l2, 440u, l55);
    IPL_S64U(l2, 432u, l56);
    IPL_S64U(l2, 424u, l57);
    IPL_S64U(l2, 416u, l58);
    IPL_S64U(l2, 408u, l59);
    IPL_S64U(l2, 400u, l60);
    IPL_S64U(l2, 392u, l61);
    IPL_S64U(l2, 384u, l62);
    IPL_S64U(l2, 376u, l63);
    IPL_S64U(l2, 368u, l64);
    IPL_S64U(l2, 360u, l34);
    l0 = (l34 - 60u);
    l0 = (l0 < 3840u ? l0 : (ipl_u64)3840u);
    IPL_S64U(l2, 352u, l0);
    IPL_S64U(l2, 344u, (ipl_u64)0u);
    IPL_S64U(l2, 336u, l35);
    IPL_S64U(l2, 328u, l35);
    IPL_S64U(l2, 320u, l35);
    IPL_S64U(l2, 312u, l37);
    IPL_S64U(l2, 304u, l34);
    IPL_S64U(l2, 296u, l0);
    IPL_S64U(l2, 288u, (ipl_u64)0u);
    IPL_S64U(l2, 280u, l35);
    IPL_S64U(l2, 272u, l35);
    IPL_S64U(l2, 264u, l35);
    IPL_S64U(l2, 256u, l36);
    IPL_S64U(l2, 248u, l8);
    IPL_S64U(l2, 240u, l9);
    IPL_S64U(l2, 232u, l10);
    IPL_S64U(l2, 224u, l11);
    IPL_S64U(l2, 216u, l12);
    IPL_S64U(l2, 208u, l13);
    IPL_S64U(l2, 200u, l14);
    IPL_S64U(l2, 192u, l15);
    IPL_S64U(l2, 184u, l16);
    IPL_S64U(l2, 176u, l17);
    IPL_S64U(l2, 168u, l18);
    IPL_S64U(l2, 160u, l19);
    IPL_S64U(l2, 152u, l20);
    IPL_S64U(l2, 144u, l21);
    IPL_S64U(l2, 136u, l22);
    IPL_S64U(l2, 128u, l23);
    IPL_S64U(l2, 120u, l24);
    IPL_S64U(l2, 112u, l25);
    IPL_S64U(l2, 104u, l26);
    IPL_S64U(l2, 96u, l27);
    IPL_S64U(l2, 88u, l28);
    IPL_S64U(l2, 80u, l29);
    IPL_S64U(l2, 72u, l30);
    IPL_S64U(l2, 64u, l31);
    IPL_S64U(l2, 56u, l32);
    IPL_S64U(l2, 48u, l33);
    IPL_COPY((l2 + 464u), (l4 + 120u), (ipl_u64)264u);
    IPL_S64U(l2, 888u, l41);
    IPL_S64U(l2, 880u, l41);
    IPL_S64U(l2, 872u, (ipl_u64)0u);
    IPL_S64U(l2, 864u, l66);
    IPL_S64U(l2, 856u, l39);
    IPL_S64U(l2, 848u, l39);
    IPL_S64U(l2, 840u, l38);
    IPL_S64U(l2, 832u, l65);
    IPL_S64U(l2, 824u, l69);
    IPL_S64U(l2, 816u, l42);
    IPL_S64U(l2, 808u, l40);
    IPL_S64U(l2, 800u, l43);
    IPL_S64U(l2, 792u, l44);
    IPL_S64U(l2, 784u, l45);
    IPL_S64U(l2, 776u, l46);
    IPL_S64U(l2, 768u, l47);
    IPL_S64U(l2, 760u, l48);
    IPL_S64U(l2, 752u, l49);
    IPL_S64U(l2, 744u, l50);
    IPL_S64U(l2, 736u, l51);
    IPL_S64U(l2, 728u, l52);
    IPL_S64U(l2, 928u, (ipl_u64)0u);
    IPL_S64U(l2, 920u, (ipl_u64)0u);
    IPL_S64U(l2, 912u, (ipl_u64)0u);
    IPL_S64U(l2, 904u, (ipl_u64)0u);
    IPL_S64U(l2, 896u, (ipl_u64)0u);
    IPL_S64U(l2, 936u, l67);
    IPL_S64U(l2, 944u, (ipl_u64)0u);
    IPL_S64U(l2, 952u, l34);
    IPL_S64U(l2, 960u, l34);
    IPL_S64U(l2, 968u, (ipl_u64)256u);
    IPL_S64U(l2, 976u, l68);
    IPL_S64U(l2, 984u, (ipl_u64)0u);
    IPL_S64U(l2, 992u, (ipl_u64)31u);
    IPL_S64U(l2, 1000u, (ipl_u64)31u);
    l5 = 0u;
    IPL_FILL((l2 + 1008u), 0u, (ipl_u64)16208u);
    IPL_S64(l3, 0u, l2);
L1:;
    IPL_G(0) = (l4 + 1600u);
    return l5;
}

/* ipl_port_call */
static ipl_u32 ipl_w_ipl_port_call(ipl_u8 *const m, ipl_u64 l0, ipl_u64 l1, ipl_u64 l2) {
    ipl_u32 l5 = 0, l6 = 0, l11 = 0, l12 = 0, l13 = 0, l14 = 0, l15 = 0, l16 = 0, l20 = 0, l30 = 0, l31 = 0, t3, t4, t5, t6;
    ipl_u64 l3 = 0, l4 = 0, l7 = 0, l8 = 0, l9 = 0, l10 = 0, l17 = 0, l18 = 0, l19 = 0, l21 = 0, l22 = 0, l23 = 0, l24 = 0, l25 = 0, l26 = 0, l27 = 0;
    ipl_u64 l28 = 0, l29 = 0, t1, t2;
    IPL_ENDS
    t1 = IPL_G(0);
    l3 = (t1 - 592u);
    IPL_G(0) = l3;
    l4 = (l0 + 56u);
    if (IPL_L8(l0, 48u) != 0) goto L70;
    l5 = IPL_L32(l1, 0u);
    switch ((l5 + (ipl_u32)4294967294u)) {
    case 0u: goto L99;
    case 1u: goto L98;
    case 2u: goto L80;
    case 12u: goto L77;
    case 14u: goto L79;
    default: goto L78;
    }
L99:;
    IPL_S64(l3, 88u, (ipl_u64)0u);
    IPL_S64(l3, 80u, (ipl_u64)0u);
    IPL_S64(l3, 72u, (ipl_u64)0u);
    IPL_S64(l3, 64u, (ipl_u64)0u);
    ipl_w48_get(m, (l3 + 64u), l4, l0, IPL_L32(l1, 4u), IPL_L32(l1, 8u));
    if (IPL_L8(l3, 64u) != 0) goto L100;
    l6 = 1u;
    if (IPL_L8(l3, 72u) != 1u) goto L101;
    l7 = (l1 + 168u);
    l8 = IPL_L64(l3, 80u);
    l9 = IPL_L64(l3, 88u);
    if ((l7 - l8) >= l9) goto L103;
    l10 = l9;
    IPL_RISE(l7, l8, l10);
    l7 = (l7 + l10);
    l8 = (l8 + l10);
    l10 = 0u;
    goto L102;
L103:;
    if (l9 == 0) goto L102;
    IPL_COPY(l7, l8, l9);
L102:;
    IPL_S32(l1, 20u, l9);
    goto L5;
L101:;
    l11 = 0u;
    IPL_S32(l1, 20u, 0u);
    goto L4;
L100:;
    l6 = 60u;
    l12 = IPL_L32(l3, 76u);
    l5 = IPL_L8(l3, 72u);
    l11 = IPL_L8(l3, 68u);
    l13 = l11;
    l14 = l11;
    l15 = l11;
    switch (l11) {
    case 1u: goto L97;
    case 2u: goto L106;
    case 3u: goto L105;
    default: goto L1;
    }
L106:;
    l6 = 2u;
    l11 = l5;
    l13 = l5;
    l14 = l5;
    l15 = l5;
    switch (l5) {
    case 1u: goto L95;
    case 2u: goto L94;
    case 3u: goto L93;
    case 4u: goto L92;
    case 5u: goto L115;
    case 6u: goto L90;
    case 7u: goto L114;
    case 8u: goto L113;
    case 9u: goto L112;
    case 10u: goto L111;
    case 11u: goto L110;
    case 12u: goto L109;
    case 13u: goto L108;
    case 14u: goto L107;
    default: goto L1;
    }
L115:;
    l13 = 0u;
    l6 = 7u;
    l11 = l12;
    goto L3;
L114:;
    l11 = 0u;
    l6 = 9u;
    goto L4;
L113:;
    l13 = 0u;
    l6 = 10u;
    l11 = l12;
    goto L3;
L112:;
    l11 = 0u;
    l6 = 11u;
    goto L4;
L111:;
    l11 = 0u;
    l6 = 12u;
    goto L4;
L110:;
    l11 = 0u;
    l6 = 13u;
    goto L4;
L109:;
    l11 = 0u;
    l6 = 14u;
    goto L4;
L108:;
    l13 = 0u;
    l6 = 15u;
    l11 = l12;
    goto L3;
L107:;
    l13 = 0u;
    l6 = 19u;
    l11 = l12;
    goto L3;
L105:;
    l16 = IPL_L32(l3, 80u);
    l6 = 40u;
    l11 = l5;
    l13 = l5;
    l14 = l5;
    l15 = l5;
    switch (l5) {
    case 1u: goto L119;
    case 2u: goto L118;
    case 3u: goto L117;
    case 4u: goto L116;
    default: goto L1;
    }
L119:;
    l11 = 0u;
    l6 = 62u;
    goto L4;
L118:;
    l15 = IPL_L32(l3, 88u);
    l14 = IPL_L32(l3, 84u);
    l6 = 41u;
    l11 = l12;
    l13 = l16;
    goto L1;
L117:;
    l14 = 0u;
    l6 = 42u;
    l11 = l12;
    l13 = l16;
    goto L2;
L116:;
    l13 = 0u;
    l6 = 63u;
    l11 = l12;
    goto L3;
L98:;
    IPL_S64(l3, 88u, (ipl_u64)0u);
    IPL_S64(l3, 80u, (ipl_u64)0u);
    IPL_S64(l3, 72u, (ipl_u64)0u);
    IPL_S64(l3, 64u, (ipl_u64)0u);
    ipl_w58_share(m, (l3 + 64u), l4, l0, IPL_L32(l1, 4u), IPL_L32(l1, 8u));
    if (IPL_L8(l3, 64u) != 0) goto L120;
    l6 = 1u;
    if (IPL_L8(l3, 72u) != 1u) goto L121;
    l7 = (l1 + 168u);
    l8 = IPL_L64(l3, 80u);
    l9 = IPL_L64(l3, 88u);
    if ((l7 - l8) >= l9) goto L123;
    l10 = l9;
    IPL_RISE(l7, l8, l10);
    l7 = (l7 + l10);
    l8 = (l8 + l10);
    l10 = 0u;
    goto L122;
L123:;
    if (l9 == 0) goto L122;
    IPL_COPY(l7, l8, l9);
L122:;
    IPL_S32(l1, 20u, l9);
    goto L5;
L121:;
    l11 = 0u;
    IPL_S32(l1, 20u, 0u);
    goto L4;
L120:;
    l6 = 60u;
    l12 = IPL_L32(l3, 76u);
    l5 = IPL_L8(l3, 72u);
    l11 = IPL_L8(l3, 68u);
    l13 = l11;
    l14 = l11;
    l15 = l11;
    switch (l11) {
    case 1u: goto L97;
    case 2u: goto L96;
    case 3u: goto L81;
    default: goto L1;
    }
L97:;
    l11 = 0u;
    l6 = 61u;
    goto L4;
L96:;
    l6 = 2u;
    l11 = l5;
    l13 = l5;
    l14 = l5;
    l15 = l5;
    switch (l5) {
    case 1u: goto L95;
    case 2u: goto L94;
    case 3u: goto L93;
    case 4u: goto L92;
    case 5u: goto L91;
    case 6u: goto L90;
    case 7u: goto L89;
    case 8u: goto L88;
    case 9u: goto L87;
    case 10u: goto L86;
    case 11u: goto L85;
    case 12u: goto L84;
    case 13u: goto L83;
    case 14u: goto L82;
    default: goto L1;
    }
L95:;
    l11 = 0u;
    l6 = 3u;
    goto L4;
L94:;
    l11 = 0u;
    l6 = 4u;
    goto L4;
L93:;
    l11 = 0u;
    l6 = 5u;
    goto L4;
L92:;
    l11 = 0u;
    l6 = 6u;
    goto L4;
L91:;
    l13 = 0u;
    l6 = 7u;
    l11 = l12;
    goto L3;
L90:;
    l11 = 0u;
    l6 = 8u;
    goto L4;
L89:;
    l13 = 0u;
    l6 = 9u;
    l11 = 0u;
    goto L3;
L88:;
    l13 = 0u;
    l6 = 10u;
    l11 = l12;
    goto L3;
L87:;
    l13 = 0u;
    l6 = 11u;
    l11 = 0u;
    goto L3;
L86:;
    l13 = 0u;
    l6 = 12u;
    l11 = 0u;
    goto L3;
L85:;
    l13 = 0u;
    l6 = 13u;
    l11 = 0u;
    goto L3;
L84:;
    l13 = 0u;
    l6 = 14u;
    l11 = 0u;
    goto L3;
L83:;
    l13 = 0u;
    l6 = 15u;
    l11 = l12;
    goto L3;
L82:;
    l13 = 0u;
    l6 = 19u;
    l11 = l12;
    goto L3;
L81:;
    l16 = IPL_L32(l3, 80u);
    l6 = 40u;
    l11 = l5;
    l13 = l5;
    l14 = l5;
    l15 = l5;
    switch (l5) {
    case 1u: goto L128;
    case 2u: goto L127;
    case 3u: goto L126;
    case 4u: goto L125;
    default: goto L1;
    }
L128:;
    l13 = 0u;
    l6 = 62u;
    l11 = 0u;
    goto L3;
L127:;
    l15 = IPL_L32(l3, 88u);
    l14 = IPL_L32(l3, 84u);
    l6 = 41u;
    l11 = l12;
    l13 = l16;
    goto L1;
L126:;
    l14 = 0u;
    l6 = 42u;
    l11 = l12;
    l13 = l16;
    goto L2;
L125:;
    l13 = 0u;
    l6 = 63u;
    l11 = l12;
    goto L3;
L80:;
    l6 = IPL_L32(l1, 8u);
    l11 = (l6 / 960u);
    if (IPL_L8((l0 + 3024u), 0u) != 0) goto L6;
    l7 = IPL_L64((l0 + 664u), 0u);
    if (IPL_L32((l0 + 3016u), 0u) <= l11) goto L132;
    if (l7 > 18446744073708503040ull) goto L132;
    l8 = (ipl_u64)0u;
    IPL_S64(l3, 80u, (ipl_u64)0u);
    IPL_S64(l3, 72u, (ipl_u64)0u);
    IPL_S64(l3, 64u, (ipl_u64)0u);
    l13 = ((l6 >> 6) % 15u);
    ipl_w49_bring(m, (l3 + 64u), l4, l0, l11, l13);
    if (IPL_L8(l3, 64u) == 0) goto L133;
    l16 = IPL_L32(l3, 84u);
    l7 = IPL_L64U(l3, 76u);
    l5 = IPL_L32(l3, 72u);
    l11 = IPL_L8(l3, 68u);
    if (((1u << (l11 & 31u)) & 13u) != 0) goto L134;
    IPL_S8((l0 + 3024u), 0u, 1u);
L134:;
    l12 = (ipl_u32)l7;
    l6 = 40u;
    l13 = l11;
    l14 = l11;
    l15 = l11;
    switch (l11) {
    case 1u: goto L62;
    case 2u: goto L131;
    case 3u: goto L130;
    case 4u: goto L129;
    default: goto L1;
    }
L133:;
    l17 = (l0 + 1616u);
    l4 = (ipl_u64)((l11 * 15u) + l13);
    l7 = IPL_L64((l0 + 2640u), 0u);
    if (l7 > 1u) goto L137;
    switch ((ipl_u32)l7) {
    case 1u: goto L136;
    default: goto L135;
    }
L137:;
    l8 = (ipl_u64)0u;
L138:;
    l10 = (l7 >> 1);
    l9 = (l10 + l8);
    l8 = (IPL_L64((l17 + (l9 << 4)), 0u) > l4 ? l8 : l9);
    l7 = (l7 - l10);
    if (l7 > 1u) goto L138;
    l8 = (l8 << 4);
L136:;
    l7 = (l17 + l8);
    if (IPL_L64(l7, 0u) != l4) goto L135;
    l7 = IPL_L64(l7, 8u);
    if (l7 >= IPL_L64((l0 + 1584u), 0u)) goto L33;
    l8 = (IPL_L64((l0 + 1576u), 0u) + (l7 * 16728u));
    if (IPL_L8(l8, 0u) != 1u) goto L33;
    l7 = (l8 + (ipl_u64)((l6 << 1) & 126u));
    l11 = IPL_L16((l7 + 7712u), 0u);
    l6 = IPL_L16((l7 + 7714u), 0u);
    if (l11 == l6) goto L135;
    l7 = (l1 + 168u);
    l10 = ((ipl_u64)l11 + 3u);
    l8 = ((l8 + l10) + 32u);
    l9 = ((ipl_u64)l6 - l10);
    if ((l7 - l8) >= l9) goto L140;
    l10 = l9;
    IPL_RISE(l7, l8, l10);
    l7 = (l7 + l10);
    l8 = (l8 + l10);
    l10 = 0u;
    goto L139;
L140:;
    if (l9 == 0) goto L139;
    IPL_COPY(l7, l8, l9);
L139:;
    IPL_S32(l1, 20u, l9);
    goto L10;
L135:;
    l11 = 0u;
    IPL_S32(l1, 20u, 0u);
    l6 = 1u;
    goto L4;
L132:;
    l6 = (l7 > 18446744073708503040ull ? 61u : 3u);
    l11 = 0u;
    goto L4;
L131:;
    l14 = (ipl_u32)(l7 >> 32);
    l6 = 41u;
    l11 = l5;
    l13 = l12;
    l15 = l16;
    goto L1;
L130:;
    l6 = 42u;
    l11 = l5;
    l13 = l12;
    goto L3;
L129:;
    l6 = 63u;
    l11 = l5;
    goto L4;
L79:;
    IPL_S64(l3, 88u, (ipl_u64)0u);
    IPL_S64(l3, 80u, (ipl_u64)0u);
    IPL_S64(l3, 72u, (ipl_u64)0u);
    IPL_S64(l3, 64u, (ipl_u64)0u);
    ipl_w59_reserves(m, (l3 + 64u), l4);
    IPL_S64U(l1, 48u, IPL_L64(l3, 88u));
    IPL_S64U(l1, 40u, IPL_L64(l3, 80u));
    IPL_S64U(l1, 32u, IPL_L64(l3, 72u));
    IPL_S64U(l1, 24u, IPL_L64(l3, 64u));
    goto L10;
L78:;
    l6 = IPL_L32(l1, 12u);
    l12 = IPL_L32(l1, 8u);
    switch ((l5 + (ipl_u32)4294967286u)) {
    case 0u: goto L146;
    case 1u: goto L145;
    case 2u: goto L144;
    case 5u: goto L143;
    default: goto L142;
    }
L146:;
    IPL_S32(l3, 88u, 0u);
    IPL_S64(l3, 80u, (ipl_u64)0u);
    IPL_S64(l3, 72u, (ipl_u64)0u);
    IPL_S64(l3, 64u, (ipl_u64)0u);
    ipl_w61_merge(m, (l3 + 64u), l4, l0, l12);
    if (IPL_L8(l3, 64u) != 0) goto L147;
    l6 = 0u;
    l11 = 0u;
    goto L4;
L147:;
    l12 = IPL_L32(l3, 76u);
    l5 = IPL_L8(l3, 72u);
    l6 = 60u;
    l11 = IPL_L8(l3, 68u);
    l13 = l11;
    l14 = l11;
    l15 = l11;
    switch (l11) {
    case 1u: goto L150;
    case 2u: goto L149;
    case 3u: goto L148;
    default: goto L1;
    }
L150:;
    l6 = 61u;
    l11 = 0u;
    goto L4;
L149:;
    l6 = 2u;
    l11 = l5;
    l13 = l5;
    l14 = l5;
    l15 = l5;
    switch (l5) {
    case 1u: goto L164;
    case 2u: goto L163;
    case 3u: goto L162;
    case 4u: goto L161;
    case 5u: goto L160;
    case 6u: goto L159;
    case 7u: goto L158;
    case 8u: goto L157;
    case 9u: goto L156;
    case 10u: goto L155;
    case 11u: goto L154;
    case 12u: goto L153;
    case 13u: goto L152;
    case 14u: goto L151;
    default: goto L1;
    }
L164:;
    l6 = 3u;
    l11 = 0u;
    goto L4;
L163:;
    l6 = 4u;
    l11 = 0u;
    goto L4;
L162:;
    l6 = 5u;
    l11 = 0u;
    goto L4;
L161:;
    l6 = 6u;
    l11 = 0u;
    goto L4;
L160:;
    l6 = 7u;
    l11 = l12;
    goto L4;
L159:;
    l6 = 8u;
    l11 = 0u;
    goto L4;
L158:;
    l6 = 9u;
    l11 = 0u;
    goto L4;
L157:;
    l6 = 10u;
    l11 = l12;
    goto L4;
L156:;
    l6 = 11u;
    l11 = 0u;
    goto L4;
L155:;
    l6 = 12u;
    l11 = 0u;
    goto L4;
L154:;
    l6 = 13u;
    l11 = 0u;
    goto L4;
L153:;
    l6 = 14u;
    l11 = 0u;
    goto L4;
L152:;
    l6 = 15u;
    l11 = l12;
    goto L4;
L151:;
    l6 = 19u;
    l11 = l12;
    goto L4;
L148:;
    l16 = IPL_L32(l3, 80u);
    l6 = 40u;
    l11 = l5;
    l13 = l5;
    l14 = l5;
    l15 = l5;
    switch (l5) {
    case 1u: goto L168;
    case 2u: goto L167;
    case 3u: goto L166;
    case 4u: goto L165;
    default: goto L1;
    }
L168:;
    l6 = 62u;
    l11 = 0u;
    goto L4;
L167:;
    l15 = IPL_L32(l3, 88u);
    l14 = IPL_L32(l3, 84u);
    l6 = 41u;
    l11 = l12;
    l13 = l16;
    goto L1;
L166:;
    l6 = 42u;
    l11 = l12;
    l13 = l16;
    goto L3;
L165:;
    l6 = 63u;
    l11 = l12;
    goto L4;
L145:;
    l11 = 9u;
    l14 = 1u;
    if (l6 <= 14u) goto L170;
    l13 = 0u;
    goto L169;
L170:;
    l13 = 0u;
    if (IPL_L32((l0 + 3016u), 0u) <= l12) goto L169;
    l17 = (l0 + 1616u);
    l18 = (((ipl_u64)l12 * 15u) + (ipl_u64)l6);
    l7 = IPL_L64((l0 + 2640u), 0u);
    if (l7 > 1u) goto L174;
    l8 = (ipl_u64)0u;
    switch ((ipl_u32)l7) {
    case 1u: goto L173;
    default: goto L172;
    }
L174:;
    l8 = (ipl_u64)0u;
L175:;
    l10 = (l7 >> 1);
    l9 = (l10 + l8);
    l8 = (IPL_L64((l17 + (l9 << 4)), 0u) > l18 ? l8 : l9);
    l7 = (l7 - l10);
    if (l7 > 1u) goto L175;
    l8 = (l8 << 4);
L173:;
    l7 = (l17 + l8);
    if (IPL_L64(l7, 0u) != l18) goto L172;
    l7 = IPL_L64(l7, 8u);
    if (l7 >= IPL_L64((l0 + 1584u), 0u)) goto L33;
    l7 = (IPL_L64((l0 + 1576u), 0u) + (l7 * 16728u));
    if (IPL_L8(l7, 0u) != 1u) goto L33;
    if (IPL_L32(l7, 16u) != 0) goto L171;
L172:;
    l8 = IPL_L64((l0 + 1584u), 0u);
    l7 = IPL_L64((l0 + 1576u), 0u);
    l9 = (ipl_u64)0u;
L176:;
    l8 = (0u - l8);
L178:;
    l8 = (l8 + 1u);
    if (l8 == 1u) goto L177;
    l11 = IPL_L8(l7, 0u);
    l10 = (l7 + 16728u);
    l7 = l10;
    if (l11 != 1u) goto L178;
    l8 = (0u - l8);
    l9 = (l9 + (ipl_u64)(IPL_L32((l10 - 16712u), 0u) != 0u));
    l7 = l10;
    goto L176;
L177:;
    if (((ipl_u64)IPL_L32((l0 + 3020u), 0u) - 1u) > l9) goto L171;
    l13 = 0u;
    l14 = 1u;
    l11 = 10u;
    goto L169;
L171:;
    l14 = 0u;
    l13 = 1u;
    l11 = 0u;
L169:;
    if (IPL_L8((l0 + 3024u), 0u) != 0) goto L6;
    if (IPL_L64((l0 + 664u), 0u) > 18446744073708503040ull) goto L7;
    if (l13 == 0) goto L182;
    l18 = (l0 + 1616u);
    l17 = (((ipl_u64)l12 * 15u) + (ipl_u64)l6);
    l19 = IPL_L64((l0 + 2640u), 0u);
    if (l19 > 1u) goto L185;
    l7 = (ipl_u64)0u;
    switch ((ipl_u32)l19) {
    case 1u: goto L184;
    default: goto L183;
    }
L185:;
    l7 = (ipl_u64)0u;
    l8 = l19;
L186:;
    l10 = (l8 >> 1);
    l9 = (l10 + l7);
    l7 = (IPL_L64((l18 + (l9 << 4)), 0u) > l17 ? l7 : l9);
    l8 = (l8 - l10);
    if (l8 > 1u) goto L186;
    l7 = (l7 << 4);
L184:;
    l7 = (l18 + l7);
    if (IPL_L64(l7, 0u) != l17) goto L183;
    l7 = IPL_L64(l7, 8u);
    if (l7 >= IPL_L64((l0 + 1584u), 0u)) goto L33;
    l9 = IPL_L64((l0 + 1576u), 0u);
    l7 = (l9 + (l7 * 16728u));
    if (IPL_L8(l7, 0u) != 1u) goto L33;
    if (IPL_L32(l7, 16u) == 0) goto L183;
    l7 = (ipl_u64)0u;
    if (l19 == 1u) goto L187;
    l7 = (ipl_u64)0u;
L188:;
    l8 = (l19 >> 1);
    l10 = (l8 + l7);
    l7 = (IPL_L64((l18 + (l10 << 4)), 0u) > l17 ? l7 : l10);
    l19 = (l19 - l8);
    if (l19 > 1u) goto L188;
    l7 = (l7 << 4);
L187:;
    l7 = (l18 + l7);
    if (IPL_L64(l7, 0u) != l17) goto L33;
    l7 = (l9 + (IPL_L64(l7, 8u) * 16728u));
    if (IPL_L8(l7, 0u) != 1u) goto L33;
    t2 = (l7 + 24u);
    l7 = (l0 + 2656u);
    l8 = IPL_L64(l7, 0u);
    IPL_S64(t2, 0u, l8);
    l8 = (l8 + 1u);
    IPL_S64(l7, 0u, (l8 == 0 ? 18446744073709551615ull : l8));
    goto L10;
L183:;
    l8 = (ipl_u64)0u;
    IPL_S64(l3, 80u, (ipl_u64)0u);
    IPL_S64(l3, 72u, (ipl_u64)0u);
    IPL_S64(l3, 64u, (ipl_u64)0u);
    ipl_w49_bring(m, (l3 + 64u), l4, l0, l12, l6);
    if (IPL_L8(l3, 64u) == 0) goto L189;
    l16 = IPL_L32(l3, 84u);
    l20 = IPL_L32(l3, 80u);
    l12 = IPL_L32(l3, 76u);
    l5 = IPL_L32(l3, 72u);
    l11 = IPL_L8(l3, 68u);
    if (((1u << (l11 & 31u)) & 13u) != 0) goto L190;
    IPL_S8((l0 + 3024u), 0u, 1u);
L190:;
    l6 = 40u;
    l13 = l11;
    l14 = l11;
    l15 = l11;
    switch (l11) {
    case 1u: goto L62;
    case 2u: goto L181;
    case 3u: goto L180;
    case 4u: goto L179;
    default: goto L1;
    }
L189:;
    l7 = IPL_L64((l0 + 2640u), 0u);
    if (l7 > 1u) goto L192;
    switch ((ipl_u32)l7) {
    case 1u: goto L191;
    default: goto L33;
    }
L192:;
    l8 = (ipl_u64)0u;
L193:;
    l10 = (l7 >> 1);
    l9 = (l10 + l8);
    l8 = (IPL_L64((l18 + (l9 << 4)), 0u) > l17 ? l8 : l9);
    l7 = (l7 - l10);
    if (l7 > 1u) goto L193;
    l8 = (l8 << 4);
L191:;
    l7 = (l18 + l8);
    if (IPL_L64(l7, 0u) != l17) goto L33;
    l7 = (IPL_L64((l0 + 1576u), 0u) + (IPL_L64(l7, 8u) * 16728u));
    if (IPL_L8(l7, 0u) != 1u) goto L33;
    l8 = (l0 + 2656u);
    IPL_S64(l7, 24u, IPL_L64(l8, 0u));
    l7 = (l7 + 16u);
    IPL_S32(l7, 0u, (IPL_L32(l7, 0u) + 1u));
    l7 = (IPL_L64(l8, 0u) + 1u);
    IPL_S64(l8, 0u, (l7 == 0 ? 18446744073709551615ull : l7));
    goto L10;
L182:;
    if (l14 == 0) goto L6;
    l6 = 2u;
    l13 = l11;
    l14 = l11;
    l15 = l11;
    switch (l11) {
    case 1u: case 2u: case 3u: case 4u: case 5u: case 6u: case 7u: case 8u: goto L33;
    case 9u: goto L69;
    case 10u: goto L68;
    default: goto L1;
    }
L181:;
    l6 = 41u;
    l11 = l5;
    l13 = l12;
    l14 = l20;
    l15 = l16;
    goto L1;
L180:;
    l6 = 42u;
    l11 = l5;
    l13 = l12;
    goto L3;
L179:;
    l6 = 63u;
    l11 = l5;
    goto L4;
L144:;
    l11 = 9u;
    if (l6 > 14u) goto L196;
    if (IPL_L32((l0 + 3016u), 0u) <= l12) goto L196;
    l4 = (l0 + 1616u);
    l17 = (((ipl_u64)l12 * 15u) + (ipl_u64)l6);
    l11 = 11u;
    l18 = IPL_L64((l0 + 2640u), 0u);
    if (l18 > 1u) goto L198;
    l7 = (ipl_u64)0u;
    switch ((ipl_u32)l18) {
    case 1u: goto L197;
    default: goto L196;
    }
L198:;
    l7 = (ipl_u64)0u;
    l8 = l18;
L199:;
    l10 = (l8 >> 1);
    l9 = (l10 + l7);
    l7 = (IPL_L64((l4 + (l9 << 4)), 0u) > l17 ? l7 : l9);
    l8 = (l8 - l10);
    if (l8 > 1u) goto L199;
    l7 = (l7 << 4);
L197:;
    l7 = (l4 + l7);
    if (IPL_L64(l7, 0u) != l17) goto L196;
    l7 = IPL_L64(l7, 8u);
    if (l7 >= IPL_L64((l0 + 1584u), 0u)) goto L33;
    l9 = IPL_L64((l0 + 1576u), 0u);
    l7 = (l9 + (l7 * 16728u));
    if (IPL_L8(l7, 0u) != 1u) goto L33;
    l11 = IPL_L8((l0 + 3024u), 0u);
    l6 = IPL_L32(l7, 16u);
    if (l6 == 0) goto L195;
    if ((l11 & 1u) != 0) goto L195;
    l7 = (ipl_u64)0u;
    if (l18 == 1u) goto L200;
    l7 = (ipl_u64)0u;
L201:;
    l8 = (l18 >> 1);
    l10 = (l8 + l7);
    l7 = (IPL_L64((l4 + (l10 << 4)), 0u) > l17 ? l7 : l10);
    l18 = (l18 - l8);
    if (l18 > 1u) goto L201;
    l7 = (l7 << 4);
L200:;
    l7 = (l4 + l7);
    if (IPL_L64(l7, 0u) != l17) goto L33;
    l7 = (l9 + (IPL_L64(l7, 8u) * 16728u));
    if (IPL_L8(l7, 0u) != 1u) goto L33;
    l7 = (l7 + 16u);
    IPL_S32(l7, 0u, (IPL_L32(l7, 0u) + (ipl_u32)4294967295u));
    goto L10;
L196:;
    if (IPL_L8((l0 + 3024u), 0u) == 0) goto L194;
    l13 = 0u;
    goto L8;
L195:;
    l13 = 0u;
    if ((l11 & 1u) != 0) goto L8;
    l11 = (l6 != 0 ? 0u : 11u);
L194:;
    l6 = 2u;
    l13 = l11;
    l14 = l11;
    l15 = l11;
    switch (l11) {
    case 1u: case 2u: case 3u: case 4u: case 5u: case 6u: case 7u: case 8u: case 10u: goto L33;
    case 9u: goto L203;
    case 11u: goto L202;
    default: goto L1;
    }
L203:;
    l13 = 0u;
    l6 = 11u;
    l11 = 0u;
    goto L3;
L202:;
    l13 = 0u;
    l6 = 13u;
    l11 = 0u;
    goto L3;
L143:;
    IPL_S32(l3, 88u, 0u);
    IPL_S64(l3, 80u, (ipl_u64)0u);
    IPL_S64(l3, 72u, (ipl_u64)0u);
    IPL_S64(l3, 64u, (ipl_u64)0u);
    ipl_w62_close(m, (l3 + 64u), l4, l0);
    if (IPL_L8(l3, 64u) != 0) goto L204;
    l6 = 0u;
    l11 = 0u;
    goto L4;
L204:;
    l12 = IPL_L32(l3, 76u);
    l5 = IPL_L8(l3, 72u);
    l6 = 60u;
    l11 = IPL_L8(l3, 68u);
    l13 = l11;
    l14 = l11;
    l15 = l11;
    switch (l11) {
    case 1u: goto L207;
    case 2u: goto L206;
    case 3u: goto L205;
    default: goto L1;
    }
L207:;
    l6 = 61u;
    l11 = 0u;
    goto L4;
L206:;
    l6 = 2u;
    l11 = l5;
    l13 = l5;
    l14 = l5;
    l15 = l5;
    switch (l5) {
    case 1u: goto L221;
    case 2u: goto L220;
    case 3u: goto L219;
    case 4u: goto L218;
    case 5u: goto L217;
    case 6u: goto L216;
    case 7u: goto L215;
    case 8u: goto L214;
    case 9u: goto L213;
    case 10u: goto L212;
    case 11u: goto L211;
    case 12u: goto L210;
    case 13u: goto L209;
    case 14u: goto L208;
    default: goto L1;
    }
L221:;
    l6 = 3u;
    l11 = 0u;
    goto L4;
L220:;
    l6 = 4u;
    l11 = 0u;
    goto L4;
L219:;
    l6 = 5u;
    l11 = 0u;
    goto L4;
L218:;
    l6 = 6u;
    l11 = 0u;
    goto L4;
L217:;
    l6 = 7u;
    l11 = l12;
    goto L4;
L216:;
    l6 = 8u;
    l11 = 0u;
    goto L4;
L215:;
    l6 = 9u;
    l11 = 0u;
    goto L4;
L214:;
    l6 = 10u;
    l11 = l12;
    goto L4;
L213:;
    l6 = 11u;
    l11 = 0u;
    goto L4;
L212:;
    l6 = 12u;
    l11 = 0u;
    goto L4;
L211:;
    l6 = 13u;
    l11 = 0u;
    goto L4;
L210:;
    l6 = 14u;
    l11 = 0u;
    goto L4;
L209:;
    l6 = 15u;
    l11 = l12;
    goto L4;
L208:;
    l6 = 19u;
    l11 = l12;
    goto L4;
L205:;
    l16 = IPL_L32(l3, 80u);
    l6 = 40u;
    l11 = l5;
    l13 = l5;
    l14 = l5;
    l15 = l5;
    switch (l5) {
    case 1u: goto L225;
    case 2u: goto L224;
    case 3u: goto L223;
    case 4u: goto L222;
    default: goto L1;
    }
L225:;
    l6 = 62u;
    l11 = 0u;
    goto L4;
L224:;
    l15 = IPL_L32(l3, 88u);
    l14 = IPL_L32(l3, 84u);
    l6 = 41u;
    l11 = l12;
    l13 = l16;
    goto L1;
L223:;
    l6 = 42u;
    l11 = l12;
    l13 = l16;
    goto L3;
L222:;
    l6 = 63u;
    l11 = l12;
    goto L4;
L142:;
    l16 = IPL_L32(l1, 4u);
    l6 = 23u;
    l11 = 0u;
    l13 = 0u;
    l14 = 0u;
    l15 = 0u;
    switch ((l5 + (ipl_u32)4294967295u)) {
    case 0u: goto L229;
    case 4u: goto L228;
    case 5u: goto L227;
    case 6u: goto L226;
    case 7u: goto L72;
    case 8u: goto L71;
    default: goto L1;
    }
L229:;
    l7 = IPL_L64((l0 + 2672u), 0u);
    if (l16 < (ipl_u32)l7) goto L231;
    l13 = 2u;
    l11 = 1u;
    goto L230;
L231:;
    l11 = (ipl_u32)(IPL_L8((IPL_L64((l0 + 2664u), 0u) + ((ipl_u64)l16 * 2600u)), 0u) == 1u);
    l13 = (l11 != 0 ? 5u : 2u);
L230:;
    l6 = 60u;
    if (IPL_L8((l0 + 3024u), 0u) != 0) goto L9;
    l10 = (l0 + 664u);
    l8 = IPL_L64(l10, 0u);
    l6 = (ipl_u32)(l8 > 18446744073708503040ull);
    if ((l11 | l6) != 0) goto L32;
    IPL_S64(l10, 0u, (l8 + 1u));
    l10 = (IPL_L64((l0 + 2664u), 0u) + ((ipl_u64)l16 * 2600u));
    if (IPL_L8(l10, 0u) != 1u) goto L233;
    l8 = (l7 & 4294967295ull);
    goto L232;
L233:;
    IPL_S64U(l10, 0u, (ipl_u64)1u);
    IPL_S64U(l10, 8u, l8);
    IPL_FILL((l10 + 16u), 0u, (ipl_u64)2584u);
    l8 = (ipl_u64)IPL_L32((l0 + 2672u), 0u);
L232:;
    l6 = 0u;
    IPL_FILL((l3 + 64u), 0u, (ipl_u64)264u);
    if (l8 == 0) goto L234;
    l7 = IPL_L64((l0 + 2664u), 0u);
    l10 = (ipl_u64)0u;
L235:;
    if (IPL_L8(l7, 0u) != 1u) goto L236;
    IPL_S64(((l3 + 64u) + (l10 << 3)), 0u, IPL_L64(l7, 8u));
    l10 = (l10 + 1u);
    IPL_S64(l3, 320u, l10);
L236:;
    l7 = (l7 + 2600u);
    l8 = (l8 - 1u);
    if (l8 != 0u) goto L235;
L234:;
    IPL_COPY((l0 + 672u), (l3 + 64u), (ipl_u64)264u);
    goto L9;
L228:;
    IPL_S32(l3, 88u, 0u);
    IPL_S64(l3, 80u, (ipl_u64)0u);
    IPL_S64(l3, 72u, (ipl_u64)0u);
    IPL_S64(l3, 64u, (ipl_u64)0u);
    l11 = IPL_L32(l1, 20u);
    if (l11 > 464u) goto L250;
    ipl_w63_put(m, (l3 + 64u), l4, l0, l16, l12, (l1 + 168u), (ipl_u64)l11);
    if (IPL_L8(l3, 64u) != 0) goto L251;
    l6 = 0u;
    l11 = 0u;
    goto L4;
L251:;
    l12 = IPL_L32(l3, 76u);
    l5 = IPL_L8(l3, 72u);
    l6 = 60u;
    l11 = IPL_L8(l3, 68u);
    l13 = l11;
    l14 = l11;
    l15 = l11;
    switch (l11) {
    case 1u: goto L253;
    case 2u: goto L252;
    case 3u: goto L237;
    default: goto L1;
    }
L253:;
    l6 = 61u;
    l11 = 0u;
    goto L4;
L252:;
    l6 = 2u;
    l11 = l5;
    l13 = l5;
    l14 = l5;
    l15 = l5;
    switch (l5) {
    case 1u: goto L254;
    case 2u: goto L250;
    case 3u: goto L249;
    case 4u: goto L248;
    case 5u: goto L247;
    case 6u: goto L246;
    case 7u: goto L245;
    case 8u: goto L244;
    case 9u: goto L243;
    case 10u: goto L242;
    case 11u: goto L241;
    case 12u: goto L240;
    case 13u: goto L239;
    case 14u: goto L238;
    default: goto L1;
    }
L254:;
    l6 = 3u;
    l11 = 0u;
    goto L4;
L250:;
    l6 = 4u;
    l11 = 0u;
    goto L4;
L249:;
    l6 = 5u;
    l11 = 0u;
    goto L4;
L248:;
    l6 = 6u;
    l11 = 0u;
    goto L4;
L247:;
    l6 = 7u;
    l11 = l12;
    goto L4;
L246:;
    l6 = 8u;
    l11 = 0u;
    goto L4;
L245:;
    l6 = 9u;
    l11 = 0u;
    goto L4;
L244:;
    l6 = 10u;
    l11 = l12;
    goto L4;
L243:;
    l6 = 11u;
    l11 = 0u;
    goto L4;
L242:;
    l6 = 12u;
    l11 = 0u;
    goto L4;
L241:;
    l6 = 13u;
    l11 = 0u;
    goto L4;
L240:;
    l6 = 14u;
    l11 = 0u;
    goto L4;
L239:;
    l6 = 15u;
    l11 = l12;
    goto L4;
L238:;
    l6 = 19u;
    l11 = l12;
    goto L4;
L237:;
    l16 = IPL_L32(l3, 80u);
    l6 = 40u;
    l11 = l5;
    l13 = l5;
    l14 = l5;
    l15 = l5;
    switch (l5) {
    case 1u: goto L258;
    case 2u: goto L257;
    case 3u: goto L256;
    case 4u: goto L255;
    default: goto L1;
    }
L258:;
    l6 = 62u;
    l11 = 0u;
    goto L4;
L257:;
    l15 = IPL_L32(l3, 88u);
    l14 = IPL_L32(l3, 84u);
    l6 = 41u;
    l11 = l12;
    l13 = l16;
    goto L1;
L256:;
    l6 = 42u;
    l11 = l12;
    l13 = l16;
    goto L3;
L255:;
    l6 = 63u;
    l11 = l12;
    goto L4;
L227:;
    IPL_S32(l3, 88u, 0u);
    IPL_S64(l3, 80u, (ipl_u64)0u);
    IPL_S64(l3, 72u, (ipl_u64)0u);
    IPL_S64(l3, 64u, (ipl_u64)0u);
    ipl_w66_del(m, (l3 + 64u), l4, l0, l16, l12);
    if (IPL_L8(l3, 64u) != 0) goto L259;
    l6 = 0u;
    l11 = 0u;
    goto L4;
L259:;
    l12 = IPL_L32(l3, 76u);
    l5 = IPL_L8(l3, 72u);
    l6 = 60u;
    l11 = IPL_L8(l3, 68u);
    l13 = l11;
    l14 = l11;
    l15 = l11;
    switch (l11) {
    case 1u: goto L262;
    case 2u: goto L261;
    case 3u: goto L260;
    default: goto L1;
    }
L262:;
    l6 = 61u;
    l11 = 0u;
    goto L4;
L261:;
    l6 = 2u;
    l11 = l5;
    l13 = l5;
    l14 = l5;
    l15 = l5;
    switch (l5) {
    case 1u: goto L276;
    case 2u: goto L275;
    case 3u: goto L274;
    case 4u: goto L273;
    case 5u: goto L272;
    case 6u: goto L271;
    case 7u: goto L270;
    case 8u: goto L269;
    case 9u: goto L268;
    case 10u: goto L267;
    case 11u: goto L266;
    case 12u: goto L265;
    case 13u: goto L264;
    case 14u: goto L263;
    default: goto L1;
    }
L276:;
    l6 = 3u;
    l11 = 0u;
    goto L4;
L275:;
    l6 = 4u;
    l11 = 0u;
    goto L4;
L274:;
    l6 = 5u;
    l11 = 0u;
    goto L4;
L273:;
    l6 = 6u;
    l11 = 0u;
    goto L4;
L272:;
    l6 = 7u;
    l11 = l12;
    goto L4;
L271:;
    l6 = 8u;
    l11 = 0u;
    goto L4;
L270:;
    l6 = 9u;
    l11 = 0u;
    goto L4;
L269:;
    l6 = 10u;
    l11 = l12;
    goto L4;
L268:;
    l6 = 11u;
    l11 = 0u;
    goto L4;
L267:;
    l6 = 12u;
    l11 = 0u;
    goto L4;
L266:;
    l6 = 13u;
    l11 = 0u;
    goto L4;
L265:;
    l6 = 14u;
    l11 = 0u;
    goto L4;
L264:;
    l6 = 15u;
    l11 = l12;
    goto L4;
L263:;
    l6 = 19u;
    l11 = l12;
    goto L4;
L260:;
    l16 = IPL_L32(l3, 80u);
    l6 = 40u;
    l11 = l5;
    l13 = l5;
    l14 = l5;
    l15 = l5;
    switch (l5) {
    case 1u: goto L280;
    case 2u: goto L279;
    case 3u: goto L278;
    case 4u: goto L277;
    default: goto L1;
    }
L280:;
    l6 = 62u;
    l11 = 0u;
    goto L4;
L279:;
    l15 = IPL_L32(l3, 88u);
    l14 = IPL_L32(l3, 84u);
    l6 = 41u;
    l11 = l12;
    l13 = l16;
    goto L1;
L278:;
    l6 = 42u;
    l11 = l12;
    l13 = l16;
    goto L3;
L277:;
    l6 = 63u;
    l11 = l12;
    goto L4;
L226:;
    IPL_S64(l3, 64u, (ipl_u64)0u);
    IPL_S64(l3, 72u, (ipl_u64)0u);
    IPL_S64(l3, 80u, (ipl_u64)0u);
    l6 = 2u;
    l11 = 1u;
    if (l16 >= IPL_L32((l0 + 2672u), 0u)) goto L281;
    l11 = (ipl_u32)(IPL_L8((IPL_L64((l0 + 2664u), 0u) + ((ipl_u64)l16 * 2600u)), 0u) != 1u);
    l6 = (l11 != 0 ? 6u : 2u);
L281:;
    if (IPL_L8((l0 + 3024u), 0u) == 1u) goto L6;
    l13 = (ipl_u32)(IPL_L64((l0 + 664u), 0u) > 18446744073708503040ull);
    if ((l11 | l13) != 0) goto L76;
    IPL_S32(l3, 32u, l16);
    ipl_w67_commit(m, (l3 + 64u), l4, l0, (l0 + 2696u), (l3 + 32u), (ipl_u64)1u);
    if (IPL_L8(l3, 64u) == 0) goto L10;
    l16 = IPL_L32(l3, 84u);
    l20 = IPL_L32(l3, 80u);
    l12 = IPL_L32(l3, 76u);
    l5 = IPL_L32(l3, 72u);
    l11 = IPL_L8(l3, 68u);
    if (((1u << (l11 & 31u)) & 13u) != 0) goto L282;
    IPL_S8((l0 + 3024u), 0u, 1u);
L282:;
    l6 = 40u;
    l13 = l11;
    l14 = l11;
    l15 = l11;
    switch (l11) {
    case 1u: goto L62;
    case 2u: goto L75;
    case 3u: goto L74;
    case 4u: goto L73;
    default: goto L1;
    }
L77:;
    IPL_S32(l1, 8u, IPL_L32((l0 + 3016u), 0u));
    goto L10;
L76:;
    l6 = (l13 != 0 ? 61u : l6);
    l11 = 0u;
    goto L4;
L75:;
    l6 = 41u;
    l11 = l5;
    l13 = l12;
    l14 = l20;
    l15 = l16;
    goto L1;
L74:;
    l6 = 42u;
    l11 = l5;
    l13 = l12;
    goto L3;
L73:;
    l6 = 63u;
    l11 = l5;
    goto L4;
L72:;
    l14 = 0u;
    IPL_S32(l3, 88u, 0u);
    IPL_S64(l3, 80u, (ipl_u64)0u);
    IPL_S64(l3, 72u, (ipl_u64)0u);
    IPL_S64(l3, 64u, (ipl_u64)0u);
    l11 = IPL_L32(l1, 20u);
    if (l11 <= 32u) goto L283;
    l6 = 21u;
    l11 = 0u;
    l13 = 0u;
    goto L2;
L283:;
    ipl_w69_commit_all(m, (l3 + 64u), l4, l0, (l1 + 24u), (ipl_u64)l11);
    if (IPL_L8(l3, 64u) != 0) goto L284;
    l6 = 0u;
    l11 = 0u;
    goto L4;
L284:;
    l12 = IPL_L32(l3, 76u);
    l5 = IPL_L8(l3, 72u);
    l6 = 60u;
    l11 = IPL_L8(l3, 68u);
    l13 = l11;
    l14 = l11;
    l15 = l11;
    switch (l11) {
    case 1u: goto L287;
    case 2u: goto L286;
    case 3u: goto L285;
    default: goto L1;
    }
L287:;
    l6 = 61u;
    l11 = 0u;
    goto L4;
L286:;
    l6 = 2u;
    l11 = l5;
    l13 = l5;
    l14 = l5;
    l15 = l5;
    switch (l5) {
    case 1u: goto L301;
    case 2u: goto L300;
    case 3u: goto L299;
    case 4u: goto L298;
    case 5u: goto L297;
    case 6u: goto L296;
    case 7u: goto L295;
    case 8u: goto L294;
    case 9u: goto L293;
    case 10u: goto L292;
    case 11u: goto L291;
    case 12u: goto L290;
    case 13u: goto L289;
    case 14u: goto L288;
    default: goto L1;
    }
L301:;
    l6 = 3u;
    l11 = 0u;
    goto L4;
L300:;
    l6 = 4u;
    l11 = 0u;
    goto L4;
L299:;
    l6 = 5u;
    l11 = 0u;
    goto L4;
L298:;
    l6 = 6u;
    l11 = 0u;
    goto L4;
L297:;
    l6 = 7u;
    l11 = l12;
    goto L4;
L296:;
    l6 = 8u;
    l11 = 0u;
    goto L4;
L295:;
    l6 = 9u;
    l11 = 0u;
    goto L4;
L294:;
    l6 = 10u;
    l11 = l12;
    goto L4;
L293:;
    l6 = 11u;
    l11 = 0u;
    goto L4;
L292:;
    l6 = 12u;
    l11 = 0u;
    goto L4;
L291:;
    l6 = 13u;
    l11 = 0u;
    goto L4;
L290:;
    l6 = 14u;
    l11 = 0u;
    goto L4;
L289:;
    l6 = 15u;
    l11 = l12;
    goto L4;
L288:;
    l6 = 19u;
    l11 = l12;
    goto L4;
L285:;
    l16 = IPL_L32(l3, 80u);
    l6 = 40u;
    l11 = l5;
    l13 = l5;
    l14 = l5;
    l15 = l5;
    switch (l5) {
    case 1u: goto L305;
    case 2u: goto L304;
    case 3u: goto L303;
    case 4u: goto L302;
    default: goto L1;
    }
L305:;
    l6 = 62u;
    l11 = 0u;
    goto L4;
L304:;
    l15 = IPL_L32(l3, 88u);
    l14 = IPL_L32(l3, 84u);
    l6 = 41u;
    l11 = l12;
    l13 = l16;
    goto L1;
L303:;
    l6 = 42u;
    l11 = l12;
    l13 = l16;
    goto L3;
L302:;
    l6 = 63u;
    l11 = l12;
    goto L4;
L71:;
    IPL_S32(l3, 88u, 0u);
    IPL_S64(l3, 80u, (ipl_u64)0u);
    IPL_S64(l3, 72u, (ipl_u64)0u);
    IPL_S64(l3, 64u, (ipl_u64)0u);
    ipl_w70_abort(m, (l3 + 64u), l4, l16);
    if (IPL_L8(l3, 64u) != 0) goto L306;
    l6 = 0u;
    l11 = 0u;
    goto L4;
L306:;
    l12 = IPL_L32(l3, 76u);
    l5 = IPL_L8(l3, 72u);
    l6 = 60u;
    l11 = IPL_L8(l3, 68u);
    l13 = l11;
    l14 = l11;
    l15 = l11;
    switch (l11) {
    case 1u: goto L309;
    case 2u: goto L308;
    case 3u: goto L307;
    default: goto L1;
    }
L309:;
    l6 = 61u;
    l11 = 0u;
    goto L4;
L308:;
    l6 = 2u;
    l11 = l5;
    l13 = l5;
    l14 = l5;
    l15 = l5;
    switch (l5) {
    case 1u: goto L323;
    case 2u: goto L322;
    case 3u: goto L321;
    case 4u: goto L320;
    case 5u: goto L319;
    case 6u: goto L318;
    case 7u: goto L317;
    case 8u: goto L316;
    case 9u: goto L315;
    case 10u: goto L314;
    case 11u: goto L313;
    case 12u: goto L312;
    case 13u: goto L311;
    case 14u: goto L310;
    default: goto L1;
    }
L323:;
    l6 = 3u;
    l11 = 0u;
    goto L4;
L322:;
    l6 = 4u;
    l11 = 0u;
    goto L4;
L321:;
    l6 = 5u;
    l11 = 0u;
    goto L4;
L320:;
    l6 = 6u;
    l11 = 0u;
    goto L4;
L319:;
    l6 = 7u;
    l11 = l12;
    goto L4;
L318:;
    l6 = 8u;
    l11 = 0u;
    goto L4;
L317:;
    l6 = 9u;
    l11 = 0u;
    goto L4;
L316:;
    l6 = 10u;
    l11 = l12;
    goto L4;
L315:;
    l6 = 11u;
    l11 = 0u;
    goto L4;
L314:;
    l6 = 12u;
    l11 = 0u;
    goto L4;
L313:;
    l6 = 13u;
    l11 = 0u;
    goto L4;
L312:;
    l6 = 14u;
    l11 = 0u;
    goto L4;
L311:;
    l6 = 15u;
    l11 = l12;
    goto L4;
L310:;
    l6 = 19u;
    l11 = l12;
    goto L4;
L307:;
    l16 = IPL_L32(l3, 80u);
    l6 = 40u;
    l11 = l5;
    l13 = l5;
    l14 = l5;
    l15 = l5;
    switch (l5) {
    case 1u: goto L327;
    case 2u: goto L326;
    case 3u: goto L325;
    case 4u: goto L324;
    default: goto L1;
    }
L327:;
    l6 = 62u;
    l11 = 0u;
    goto L4;
L326:;
    l6 = 41u;
    l11 = l12;
    l13 = l16;
    l14 = IPL_L32(l3, 84u);
    l15 = IPL_L32(l3, 88u);
    goto L1;
L325:;
    l6 = 42u;
    l11 = l12;
    l13 = l16;
    goto L3;
L324:;
    l6 = 63u;
    l11 = l12;
    goto L4;
L70:;
    l5 = IPL_L32(l1, 4u);
    l6 = 23u;
    l11 = 0u;
    l13 = 0u;
    l14 = 0u;
    l15 = 0u;
    switch ((IPL_L32(l1, 0u) + (ipl_u32)4294967295u)) {
    case 0u: goto L329;
    case 1u: goto L328;
    case 2u: goto L56;
    case 4u: goto L46;
    case 5u: goto L43;
    case 6u: goto L42;
    case 7u: goto L41;
    case 8u: goto L40;
    case 9u: goto L39;
    case 13u: goto L38;
    case 14u: goto L36;
    case 15u: goto L37;
    default: goto L1;
    }
L329:;
    l7 = IPL_L64((l0 + 2672u), 0u);
    if (l5 < (ipl_u32)l7) goto L331;
    l13 = 2u;
    l11 = 1u;
    goto L330;
L331:;
    l11 = (ipl_u32)(IPL_L8((IPL_L64((l0 + 2664u), 0u) + ((ipl_u64)l5 * 2600u)), 0u) == 1u);
    l13 = (l11 != 0 ? 5u : 2u);
L330:;
    l6 = 60u;
    if (IPL_L8((l0 + 3024u), 0u) != 0) goto L9;
    l10 = (l0 + 664u);
    l8 = IPL_L64(l10, 0u);
    l6 = (ipl_u32)(l8 > 18446744073708503040ull);
    if ((l11 | l6) != 0) goto L31;
    IPL_S64(l10, 0u, (l8 + 1u));
    l10 = (IPL_L64((l0 + 2664u), 0u) + ((ipl_u64)l5 * 2600u));
    if (IPL_L8(l10, 0u) != 1u) goto L333;
    l8 = (l7 & 4294967295ull);
    goto L332;
L333:;
    IPL_S64U(l10, 0u, (ipl_u64)1u);
    IPL_S64U(l10, 8u, l8);
    IPL_FILL((l10 + 16u), 0u, (ipl_u64)2584u);
    l8 = (ipl_u64)IPL_L32((l0 + 2672u), 0u);
L332:;
    l6 = 0u;
    IPL_FILL((l3 + 64u), 0u, (ipl_u64)264u);
    if (l8 == 0) goto L334;
    l7 = IPL_L64((l0 + 2664u), 0u);
    l10 = (ipl_u64)0u;
L335:;
    if (IPL_L8(l7, 0u) != 1u) goto L336;
    IPL_S64(((l3 + 64u) + (l10 << 3)), 0u, IPL_L64(l7, 8u));
    l10 = (l10 + 1u);
    IPL_S64(l3, 320u, l10);
L336:;
    l7 = (l7 + 2600u);
    l8 = (l8 - 1u);
    if (l8 != 0u) goto L335;
L334:;
    IPL_COPY((l0 + 672u), (l3 + 64u), (ipl_u64)264u);
    l11 = 0u;
    goto L4;
L328:;
    l6 = 16u;
    l11 = IPL_L32(l1, 16u);
    if (l11 > 16u) goto L9;
    IPL_S64(l3, 64u, (ipl_u64)0u);
    IPL_S64(l3, 72u, (ipl_u64)0u);
    IPL_S64(l3, 80u, (ipl_u64)0u);
    IPL_S64(l3, 88u, (ipl_u64)0u);
    l21 = (l1 + 152u);
    l19 = (ipl_u64)l11;
    t3 = ipl_w8_after_part(m, (ipl_u32)4294967295u, l21, l19);
    l13 = t3;
    l14 = (IPL_L32((l0 + 3016u), 0u) * 960u);
    if (l14 == 0) goto L33;
    IPL_S64U(l3, 40u, (ipl_u64)0u);
    IPL_S64U(l3, 48u, (ipl_u64)0u);
    IPL_S64U(l3, 56u, (ipl_u64)0u);
    l11 = (ipl_u32)(l11 == 0);
    IPL_S32(l3, 36u, l11);
    IPL_S32(l3, 32u, l11);
    ipl_w71_look(m, (l3 + 64u), l4, l0, l5, ipl_remu32(m, (l13 ^ (ipl_u32)4294967295u), l14), (l3 + 32u));
    l22 = IPL_L64(l3, 72u);
    if (IPL_L8(l3, 64u) != 0) goto L337;
    if (l22 == 0) goto L340;
    l23 = (l0 + 3032u);
    l24 = (l0 + 3033u);
    l25 = (l1 + 152u);
    l18 = (ipl_u64)0u;
L341:;
    l26 = (l23 + l18);
    l17 = (ipl_u64)IPL_L8(l26, 0u);
    l27 = ((l18 + l17) + (ipl_u64)IPL_L8((l26 + l17), 1u));
    l9 = (ipl_u64)0u;
    l4 = (l19 < l17 ? l19 : l17);
    if (l4 < 8u) goto L342;
    l8 = (l26 + 1u);
    l28 = (l4 & 24u);
    l9 = (ipl_u64)0u;
    l10 = l21;
L343:;
    l11 = 0u;
    l7 = (ipl_u64)0u;
    l11 = (l11 | IPL_DIFFER((l8 + l7), (l10 + l7), (8u - l7)));
    l7 = 8u;
    if ((l11 & 1u) != 0) goto L342;
    l8 = (l8 + 8u);
    l10 = (l10 + 8u);
    l9 = (l9 + 8u);
    if ((l4 - l9) > 7u) goto L343;
    l9 = l28;
L342:;
    l27 = (l27 + 2u);
    if (l4 <= l9) goto L345;
    l7 = (l25 + l9);
    l10 = (l4 - l9);
    l8 = (l24 + (l18 + l9));
L347:;
    l11 = IPL_L8(l8, 0u);
    l6 = IPL_L8(l7, 0u);
    if (l11 != l6) goto L346;
    l8 = (l8 + 1u);
    l7 = (l7 + 1u);
    l10 = (l10 - 1u);
    if (l10 == 0) goto L345;
    goto L347;
L346:;
    if (l27 >= l22) goto L340;
    l18 = l27;
    if (l11 < l6) goto L341;
    goto L340;
L345:;
    if (l19 <= l17) goto L348;
    l18 = l27;
    if (l27 < l22) goto L341;
    goto L340;
L348:;
    if (l19 != l17) goto L340;
    if (l27 != l18) goto L339;
L340:;
    l6 = 1u;
    l11 = 0u;
    goto L338;
L339:;
    l7 = (l1 + 168u);
    l10 = (l26 + l19);
    l8 = (l10 + 2u);
    l11 = IPL_L8(l10, 1u);
    l10 = (ipl_u64)l11;
    if ((l7 - l8) >= l10) goto L350;
    IPL_RISE(l7, l8, l10);
    l7 = (l7 + l10);
    l8 = (l8 + l10);
    l10 = 0u;
    goto L349;
L350:;
    if (l10 == 0) goto L349;
    IPL_COPY(l7, l8, l10);
L349:;
    l6 = 0u;
L338:;
    IPL_S32(l1, 20u, l11);
    l11 = 0u;
    goto L4;
L337:;
    l5 = (ipl_u32)l22;
    l11 = 0u;
    l13 = 0u;
    l14 = 0u;
    l15 = 0u;
    switch ((ipl_u32)(ipl_u64)IPL_L8(l3, 68u)) {
    case 1u: goto L1;
    case 2u: goto L45;
    case 3u: goto L58;
    case 4u: goto L57;
    default: goto L352;
    }
L352:;
    l5 = (ipl_u32)(l22 >> 32);
    l7 = IPL_L64(l3, 80u);
    l12 = (ipl_u32)l7;
    l6 = 60u;
    l11 = ((ipl_u32)l22 & 255u);
    l13 = l11;
    l14 = l11;
    l15 = l11;
    switch ((ipl_u32)(l22 & 255u)) {
    case 1u: goto L7;
    case 2u: goto L353;
    case 3u: goto L63;
    default: goto L1;
    }
L353:;
    l6 = 2u;
    l11 = (l5 & 255u);
    l13 = l11;
    l14 = l11;
    l15 = l11;
    switch ((ipl_u32)((ipl_u64)l5 & 255u)) {
    case 1u: goto L55;
    case 2u: goto L54;
    case 3u: goto L53;
    case 4u: goto L52;
    case 5u: goto L357;
    case 6u: goto L356;
    case 7u: goto L355;
    case 8u: goto L354;
    case 9u: goto L69;
    case 10u: goto L68;
    case 11u: goto L67;
    case 12u: goto L66;
    case 13u: goto L65;
    case 14u: goto L64;
    default: goto L1;
    }
L357:;
    l6 = 7u;
    l11 = l12;
    goto L4;
L356:;
    l6 = 8u;
    l11 = 0u;
    goto L4;
L355:;
    l6 = 9u;
    l11 = 0u;
    goto L4;
L354:;
    l6 = 10u;
    l11 = l12;
    goto L4;
L69:;
    l6 = 11u;
    l11 = 0u;
    goto L4;
L68:;
    l6 = 12u;
    l11 = 0u;
    goto L4;
L67:;
    l6 = 13u;
    l11 = 0u;
    goto L4;
L66:;
    l6 = 14u;
    l11 = 0u;
    goto L4;
L65:;
    l6 = 15u;
    l11 = l12;
    goto L4;
L64:;
    l6 = 19u;
    l11 = l12;
    goto L4;
L63:;
    l16 = (ipl_u32)(l7 >> 32);
    l6 = 40u;
    l11 = (l5 & 255u);
    l13 = l11;
    l14 = l11;
    l15 = l11;
    switch ((ipl_u32)((ipl_u64)l5 & 255u)) {
    case 1u: goto L62;
    case 2u: goto L61;
    case 3u: goto L60;
    case 4u: goto L59;
    default: goto L1;
    }
L62:;
    l6 = 62u;
    l11 = 0u;
    goto L4;
L61:;
    l6 = 41u;
    l11 = l12;
    l13 = l16;
    l7 = IPL_L64(l3, 88u);
    l14 = (ipl_u32)l7;
    l15 = (ipl_u32)(l7 >> 32);
    goto L1;
L60:;
    l6 = 42u;
    l11 = l12;
    l13 = l16;
    goto L3;
L59:;
    l6 = 63u;
    l11 = l12;
    goto L4;
L58:;
    l6 = 18u;
    l11 = l5;
    goto L4;
L57:;
    l6 = 43u;
    l11 = l5;
    goto L4;
L56:;
    l11 = IPL_L32(l1, 16u);
    if (l11 > 16u) goto L11;
    l6 = 60u;
    if (IPL_L8((l0 + 3024u), 0u) != 0) goto L9;
    l7 = IPL_L64((l0 + 664u), 0u);
    if (l11 == 0) goto L359;
    if (l7 > 18446744073708503040ull) goto L359;
    t4 = ipl_w8_after_part(m, (ipl_u32)4294967295u, (l1 + 152u), (ipl_u64)l11);
    l11 = t4;
    l13 = (IPL_L32((l0 + 3016u), 0u) * 960u);
    if (l13 == 0) goto L33;
    IPL_S64(l3, 88u, (ipl_u64)0u);
    IPL_S64(l3, 80u, (ipl_u64)0u);
    IPL_S64(l3, 72u, (ipl_u64)0u);
    IPL_S64(l3, 64u, (ipl_u64)0u);
    ipl_w58_share(m, (l3 + 64u), l4, l0, l5, ipl_remu32(m, (l11 ^ (ipl_u32)4294967295u), l13));
    if (IPL_L8(l3, 64u) == 0) goto L10;
    l12 = IPL_L32(l3, 76u);
    l5 = IPL_L8(l3, 72u);
    l11 = IPL_L8(l3, 68u);
    l13 = l11;
    l14 = l11;
    l15 = l11;
    switch (l11) {
    case 1u: goto L7;
    case 2u: goto L358;
    case 3u: goto L47;
    default: goto L1;
    }
L359:;
    if (l7 > 18446744073708503040ull) goto L7;
    goto L11;
L358:;
    l6 = 2u;
    l11 = l5;
    l13 = l5;
    l14 = l5;
    l15 = l5;
    switch (l5) {
    case 1u: goto L55;
    case 2u: goto L54;
    case 3u: goto L53;
    case 4u: goto L52;
    case 5u: goto L51;
    case 6u: goto L12;
    case 7u: goto L18;
    case 8u: goto L50;
    case 9u: goto L17;
    case 10u: goto L16;
    case 11u: goto L15;
    case 12u: goto L14;
    case 13u: goto L49;
    case 14u: goto L48;
    default: goto L1;
    }
L55:;
    l6 = 3u;
    l11 = 0u;
    goto L4;
L54:;
    l6 = 4u;
    l11 = 0u;
    goto L4;
L53:;
    l6 = 5u;
    l11 = 0u;
    goto L4;
L52:;
    l6 = 6u;
    l11 = 0u;
    goto L4;
L51:;
    l6 = 7u;
    l11 = l12;
    goto L4;
L50:;
    l6 = 10u;
    l11 = l12;
    goto L4;
L49:;
    l6 = 15u;
    l11 = l12;
    goto L4;
L48:;
    l6 = 19u;
    l11 = l12;
    goto L4;
L47:;
    l16 = IPL_L32(l3, 80u);
    l6 = 40u;
    l11 = l5;
    l13 = l5;
    l14 = l5;
    l15 = l5;
    switch (l5) {
    case 1u: goto L13;
    case 2u: goto L362;
    case 3u: goto L361;
    case 4u: goto L360;
    default: goto L1;
    }
L362:;
    l6 = 41u;
    l11 = l12;
    l13 = l16;
    l14 = IPL_L32(l3, 84u);
    l15 = IPL_L32(l3, 88u);
    goto L1;
L361:;
    l6 = 42u;
    l11 = l12;
    l13 = l16;
    goto L3;
L360:;
    l6 = 63u;
    l11 = l12;
    goto L4;
L46:;
    l6 = 16u;
    l13 = IPL_L32(l1, 16u);
    if (l13 > 16u) goto L9;
    l14 = IPL_L32(l1, 20u);
    if (l14 <= 464u) goto L44;
L45:;
    l6 = 17u;
    l11 = 0u;
    goto L4;
L44:;
    IPL_S64(l3, 32u, (ipl_u64)0u);
    IPL_S64(l3, 40u, (ipl_u64)0u);
    IPL_S64(l3, 48u, (ipl_u64)0u);
    IPL_S64(l3, 56u, (ipl_u64)0u);
    IPL_S64(l3, 0u, (ipl_u64)0u);
    IPL_S64(l3, 8u, (ipl_u64)0u);
    IPL_S64(l3, 16u, (ipl_u64)0u);
    IPL_S64(l3, 24u, (ipl_u64)0u);
    l28 = (l1 + 152u);
    l26 = (ipl_u64)l13;
    t5 = ipl_w8_after_part(m, (ipl_u32)4294967295u, l28, l26);
    l11 = t5;
    l15 = (IPL_L32((l0 + 3016u), 0u) * 960u);
    if (l15 == 0) goto L33;
    l15 = ipl_remu32(m, (l11 ^ (ipl_u32)4294967295u), l15);
    l11 = 1u;
    if (l13 == 0) goto L364;
    l11 = 2u;
    if (l14 < 201u) goto L363;
L364:;
    IPL_S64(l3, 8u, (ipl_u64)0u);
    IPL_S32(l3, 4u, l11);
    IPL_S32(l3, 0u, 1u);
    IPL_S64(l3, 16u, (ipl_u64)0u);
    IPL_S64(l3, 24u, (ipl_u64)0u);
L363:;
    ipl_w71_look(m, (l3 + 32u), l4, l0, l5, l15, l3);
    l22 = IPL_L64(l3, 40u);
    if (IPL_L8(l3, 32u) != 0) goto L30;
    l29 = (ipl_u64)l14;
    IPL_FILL((l3 + 64u), 0u, (ipl_u64)464u);
    l23 = (l0 + 3032u);
    if (!(l22 == 0)) goto L366;
    l19 = (ipl_u64)0u;
    l7 = (ipl_u64)0u;
    goto L365;
L366:;
    l24 = (l0 + 3033u);
    l25 = (l1 + 152u);
    l19 = (ipl_u64)0u;
L367:;
    l7 = (l23 + l19);
    l18 = (ipl_u64)IPL_L8(l7, 0u);
    l27 = ((l19 + l18) + (ipl_u64)IPL_L8((l7 + l18), 1u));
    l9 = (ipl_u64)0u;
    l17 = (l26 < l18 ? l26 : l18);
    if (l17 < 8u) goto L368;
    l8 = (l7 + 1u);
    l21 = (l17 & 24u);
    l9 = (ipl_u64)0u;
    l10 = l28;
L369:;
    l11 = 0u;
    l7 = (ipl_u64)0u;
    l11 = (l11 | IPL_DIFFER((l8 + l7), (l10 + l7), (8u - l7)));
    l7 = 8u;
    if ((l11 & 1u) != 0) goto L368;
    l8 = (l8 + 8u);
    l10 = (l10 + 8u);
    l9 = (l9 + 8u);
    if ((l17 - l9) > 7u) goto L369;
    l9 = l21;
L368:;
    l27 = (l27 + 2u);
    if (l17 <= l9) goto L373;
    l7 = (l25 + l9);
    l10 = (l17 - l9);
    l8 = (l24 + (l19 + l9));
L375:;
    l11 = IPL_L8(l8, 0u);
    l6 = IPL_L8(l7, 0u);
    if (l11 != l6) goto L374;
    l8 = (l8 + 1u);
    l7 = (l7 + 1u);
    l10 = (l10 - 1u);
    if (l10 == 0) goto L373;
    goto L375;
L374:;
    l7 = l19;
    if (l11 < l6) goto L372;
    goto L365;
L373:;
    if (l26 <= l18) goto L371;
L372:;
    l19 = l27;
    l7 = l27;
    if (l27 < l22) goto L367;
    goto L365;
L371:;
    l7 = (l26 == l18 ? l27 : l19);
L365:;
    l8 = (l22 - l7);
    if (((((l26 + l29) + l19) + l8) + 2u) < 465u) goto L376;
    l6 = 18u;
    l11 = l15;
    goto L4;
L376:;
    if (l19 == 0) goto L377;
    IPL_COPY((l3 + 64u), l23, l19);
L377:;
    IPL_S8(((l3 + 64u) + l19), 0u, l13);
    l10 = (l19 + 1u);
    if (l26 == 0) goto L378;
    IPL_COPY(((l3 + 64u) + l10), l28, l26);
L378:;
    l10 = (l10 + l26);
    IPL_S8(((l3 + 64u) + l10), 0u, l14);
    l10 = (l10 + 1u);
    if (l29 == 0) goto L379;
    IPL_COPY(((l3 + 64u) + l10), (l1 + 168u), l29);
L379:;
    l10 = (l10 + l29);
    if (l8 == 0) goto L380;
    IPL_COPY(((l3 + 64u) + l10), (l23 + l7), l8);
L380:;
    IPL_S64(l3, 560u, (ipl_u64)0u);
    IPL_S64(l3, 568u, (ipl_u64)0u);
    IPL_S64(l3, 576u, (ipl_u64)0u);
    IPL_S32(l3, 584u, 0u);
    IPL_S64(l3, 528u, (ipl_u64)0u);
    IPL_S64(l3, 536u, (ipl_u64)0u);
    IPL_S64(l3, 544u, (ipl_u64)0u);
    IPL_S32(l3, 552u, 0u);
    l7 = (l10 + l8);
    if (l7 != 0u) goto L382;
    ipl_w66_del(m, (l3 + 560u), l4, l0, l5, l15);
    if (IPL_L8(l3, 560u) == 0) goto L35;
    l7 = ((l3 + 560u) + 8u);
    l8 = ((l3 + 560u) + 4u);
    l10 = ((l3 + 560u) + 12u);
    l9 = ((l3 + 560u) + 16u);
    l4 = ((l3 + 560u) + 20u);
    l17 = ((l3 + 560u) + 24u);
    goto L381;
L382:;
    ipl_w63_put(m, (l3 + 528u), l4, l0, l5, l15, (l3 + 64u), l7);
    if (IPL_L8(l3, 528u) == 0) goto L35;
    l7 = ((l3 + 528u) + 8u);
    l8 = ((l3 + 528u) + 4u);
    l10 = ((l3 + 528u) + 12u);
    l9 = ((l3 + 528u) + 16u);
    l4 = ((l3 + 528u) + 20u);
    l17 = ((l3 + 528u) + 24u);
L381:;
    l12 = IPL_L8(l7, 0u);
    l5 = IPL_L8(l8, 0u);
    l16 = IPL_L32U(l10, 0u);
    l20 = IPL_L32U(l9, 0u);
    l30 = IPL_L32U(l4, 0u);
    l31 = IPL_L32U(l17, 0u);
    goto L24;
L43:;
    l6 = 16u;
    l11 = IPL_L32(l1, 16u);
    if (l11 > 16u) goto L9;
    IPL_S64(l3, 32u, (ipl_u64)0u);
    IPL_S64(l3, 40u, (ipl_u64)0u);
    IPL_S64(l3, 48u, (ipl_u64)0u);
    IPL_S64(l3, 56u, (ipl_u64)0u);
    l28 = (l1 + 152u);
    l26 = (ipl_u64)l11;
    t6 = ipl_w8_after_part(m, (ipl_u32)4294967295u, l28, l26);
    l13 = t6;
    l14 = (IPL_L32((l0 + 3016u), 0u) * 960u);
    if (l14 == 0) goto L33;
    IPL_S64U(l3, 8u, (ipl_u64)0u);
    IPL_S64U(l3, 16u, (ipl_u64)0u);
    IPL_S64U(l3, 24u, (ipl_u64)0u);
    l11 = (ipl_u32)(l11 == 0);
    IPL_S32(l3, 4u, l11);
    IPL_S32(l3, 0u, l11);
    l13 = ipl_remu32(m, (l13 ^ (ipl_u32)4294967295u), l14);
    ipl_w71_look(m, (l3 + 32u), l4, l0, l5, l13, l3);
    l22 = IPL_L64(l3, 40u);
    if (IPL_L8(l3, 32u) != 0) goto L29;
    IPL_FILL((l3 + 64u), 0u, (ipl_u64)464u);
    l23 = (l0 + 3032u);
    if (!(l22 == 0)) goto L384;
    l19 = (ipl_u64)0u;
    l7 = (ipl_u64)0u;
    goto L383;
L384:;
    l24 = (l0 + 3033u);
    l25 = (l1 + 152u);
    l19 = (ipl_u64)0u;
L385:;
    l7 = (l23 + l19);
    l18 = (ipl_u64)IPL_L8(l7, 0u);
    l27 = ((l19 + l18) + (ipl_u64)IPL_L8((l7 + l18), 1u));
    l9 = (ipl_u64)0u;
    l17 = (l26 < l18 ? l26 : l18);
    if (l17 < 8u) goto L386;
    l8 = (l7 + 1u);
    l21 = (l17 & 24u);
    l9 = (ipl_u64)0u;
    l10 = l28;
L387:;
    l11 = 0u;
    l7 = (ipl_u64)0u;
    l11 = (l11 | IPL_DIFFER((l8 + l7), (l10 + l7), (8u - l7)));
    l7 = 8u;
    if ((l11 & 1u) != 0) goto L386;
    l8 = (l8 + 8u);
    l10 = (l10 + 8u);
    l9 = (l9 + 8u);
    if ((l17 - l9) > 7u) goto L387;
    l9 = l21;
L386:;
    l27 = (l27 + 2u);
    if (l17 <= l9) goto L391;
    l7 = (l25 + l9);
    l10 = (l17 - l9);
    l8 = (l24 + (l19 + l9));
L393:;
    l11 = IPL_L8(l8, 0u);
    l6 = IPL_L8(l7, 0u);
    if (l11 != l6) goto L392;
    l8 = (l8 + 1u);
    l7 = (l7 + 1u);
    l10 = (l10 - 1u);
    if (l10 == 0) goto L391;
    goto L393;
L392:;
    l7 = l19;
    if (l11 < l6) goto L390;
    goto L383;
L391:;
    if (l26 <= l18) goto L389;
L390:;
    l19 = l27;
    l7 = l27;
    if (l27 < l22) goto L385;
    goto L383;
L389:;
    l7 = (l26 == l18 ? l27 : l19);
L383:;
    if (l19 == 0) goto L394;
    IPL_COPY((l3 + 64u), l23, l19);
L394:;
    l8 = (l22 - l7);
    if (l8 == 0) goto L395;
    IPL_COPY(((l3 + 64u) + l19), (l23 + l7), l8);
L395:;
    IPL_S64(l3, 560u, (ipl_u64)0u);
    IPL_S64(l3, 568u, (ipl_u64)0u);
    IPL_S64(l3, 576u, (ipl_u64)0u);
    IPL_S32(l3, 584u, 0u);
    IPL_S64(l3, 528u, (ipl_u64)0u);
    IPL_S64(l3, 536u, (ipl_u64)0u);
    IPL_S64(l3, 544u, (ipl_u64)0u);
    IPL_S32(l3, 552u, 0u);
    l7 = (l8 + l19);
    if (l7 != 0u) goto L397;
    ipl_w66_del(m, (l3 + 560u), l4, l0, l5, l13);
    if (IPL_L8(l3, 560u) == 0) goto L35;
    l7 = ((l3 + 560u) + 8u);
    l8 = ((l3 + 560u) + 4u);
    l10 = ((l3 + 560u) + 12u);
    l9 = ((l3 + 560u) + 16u);
    l4 = ((l3 + 560u) + 20u);
    l17 = ((l3 + 560u) + 24u);
    goto L396;
L397:;
    ipl_w63_put(m, (l3 + 528u), l4, l0, l5, l13, (l3 + 64u), l7);
    if (IPL_L8(l3, 528u) == 0) goto L35;
    l7 = ((l3 + 528u) + 8u);
    l8 = ((l3 + 528u) + 4u);
    l10 = ((l3 + 528u) + 12u);
    l9 = ((l3 + 528u) + 16u);
    l4 = ((l3 + 528u) + 20u);
    l17 = ((l3 + 528u) + 24u);
L396:;
    l12 = IPL_L8(l7, 0u);
    l5 = IPL_L8(l8, 0u);
    l16 = IPL_L32U(l10, 0u);
    l20 = IPL_L32U(l9, 0u);
    l30 = IPL_L32U(l4, 0u);
    l31 = IPL_L32U(l17, 0u);
    goto L27;
L42:;
    IPL_S64(l3, 64u, (ipl_u64)0u);
    IPL_S64(l3, 72u, (ipl_u64)0u);
    IPL_S64(l3, 80u, (ipl_u64)0u);
    l6 = 2u;
    l11 = 1u;
    if (l5 >= IPL_L32((l0 + 2672u), 0u)) goto L398;
    l11 = (ipl_u32)(IPL_L8((IPL_L64((l0 + 2664u), 0u) + ((ipl_u64)l5 * 2600u)), 0u) != 1u);
    l6 = (l11 != 0 ? 6u : 2u);
L398:;
    if (IPL_L8((l0 + 3024u), 0u) != 1u) goto L399;
    l6 = 60u;
    l11 = 0u;
    goto L4;
L399:;
    l13 = (ipl_u32)(IPL_L64((l0 + 664u), 0u) > 18446744073708503040ull);
    if ((l11 | l13) != 0) goto L403;
    IPL_S32(l3, 32u, l5);
    ipl_w67_commit(m, (l3 + 64u), l4, l0, (l0 + 2696u), (l3 + 32u), (ipl_u64)1u);
    if (IPL_L8(l3, 64u) == 0) goto L35;
    l16 = IPL_L32(l3, 84u);
    l20 = IPL_L32(l3, 80u);
    l12 = IPL_L32(l3, 76u);
    l5 = IPL_L32(l3, 72u);
    l11 = IPL_L8(l3, 68u);
    if (((1u << (l11 & 31u)) & 13u) != 0) goto L404;
    IPL_S8((l0 + 3024u), 0u, 1u);
L404:;
    l6 = 40u;
    l13 = l11;
    l14 = l11;
    l15 = l11;
    switch (l11) {
    case 1u: goto L13;
    case 2u: goto L402;
    case 3u: goto L401;
    case 4u: goto L400;
    default: goto L1;
    }
L403:;
    l6 = (l13 != 0 ? 61u : l6);
    l11 = 0u;
    goto L4;
L402:;
    l6 = 41u;
    l11 = l5;
    l13 = l12;
    l14 = l20;
    l15 = l16;
    goto L1;
L401:;
    l6 = 42u;
    l11 = l5;
    l13 = l12;
    goto L3;
L400:;
    l6 = 63u;
    l11 = l5;
    goto L4;
L41:;
    l11 = IPL_L32(l1, 20u);
    if (l11 <= 32u) goto L405;
    l6 = 21u;
    l11 = 0u;
    goto L4;
L405:;
    IPL_S32(l3, 88u, 0u);
    IPL_S64(l3, 80u, (ipl_u64)0u);
    IPL_S64(l3, 72u, (ipl_u64)0u);
    IPL_S64(l3, 64u, (ipl_u64)0u);
    ipl_w69_commit_all(m, (l3 + 64u), l4, l0, (l1 + 24u), (ipl_u64)l11);
    if (IPL_L8(l3, 64u) == 0) goto L35;
    l5 = IPL_L8(l3, 72u);
    l12 = IPL_L32(l3, 76u);
    l6 = 60u;
    l11 = IPL_L8(l3, 68u);
    l13 = l11;
    l14 = l11;
    l15 = l11;
    switch (l11) {
    case 1u: goto L23;
    case 2u: goto L407;
    case 3u: goto L406;
    default: goto L1;
    }
L407:;
    l6 = 2u;
    l11 = l5;
    l13 = l5;
    l14 = l5;
    l15 = l5;
    switch (l5) {
    case 1u: goto L22;
    case 2u: goto L21;
    case 3u: goto L20;
    case 4u: goto L19;
    case 5u: goto L411;
    case 6u: goto L12;
    case 7u: goto L18;
    case 8u: goto L410;
    case 9u: goto L17;
    case 10u: goto L16;
    case 11u: goto L15;
    case 12u: goto L14;
    case 13u: goto L409;
    case 14u: goto L408;
    default: goto L1;
    }
L411:;
    l6 = 7u;
    l11 = l12;
    goto L4;
L410:;
    l6 = 10u;
    l11 = l12;
    goto L4;
L409:;
    l6 = 15u;
    l11 = l12;
    goto L4;
L408:;
    l6 = 19u;
    l11 = l12;
    goto L4;
L406:;
    l16 = IPL_L32(l3, 80u);
    l6 = 40u;
    l11 = l5;
    l13 = l5;
    l14 = l5;
    l15 = l5;
    switch (l5) {
    case 1u: goto L13;
    case 2u: goto L414;
    case 3u: goto L413;
    case 4u: goto L412;
    default: goto L1;
    }
L414:;
    l6 = 41u;
    l11 = l12;
    l13 = l16;
    l14 = IPL_L32(l3, 84u);
    l15 = IPL_L32(l3, 88u);
    goto L1;
L413:;
    l6 = 42u;
    l11 = l12;
    l13 = l16;
    goto L3;
L412:;
    l6 = 63u;
    l11 = l12;
    goto L4;
L40:;
    IPL_S32(l3, 88u, 0u);
    IPL_S64(l3, 80u, (ipl_u64)0u);
    IPL_S64(l3, 72u, (ipl_u64)0u);
    IPL_S64(l3, 64u, (ipl_u64)0u);
    ipl_w70_abort(m, (l3 + 64u), l4, l5);
    if (IPL_L8(l3, 64u) == 0) goto L35;
    l5 = IPL_L8(l3, 72u);
    l12 = IPL_L32(l3, 76u);
    l6 = 60u;
    l11 = IPL_L8(l3, 68u);
    l13 = l11;
    l14 = l11;
    l15 = l11;
    switch (l11) {
    case 1u: goto L23;
    case 2u: goto L416;
    case 3u: goto L415;
    default: goto L1;
    }
L416:;
    l6 = 2u;
    l11 = l5;
    l13 = l5;
    l14 = l5;
    l15 = l5;
    switch (l5) {
    case 1u: goto L22;
    case 2u: goto L21;
    case 3u: goto L20;
    case 4u: goto L19;
    case 5u: goto L420;
    case 6u: goto L12;
    case 7u: goto L18;
    case 8u: goto L419;
    case 9u: goto L17;
    case 10u: goto L16;
    case 11u: goto L15;
    case 12u: goto L14;
    case 13u: goto L418;
    case 14u: goto L417;
    default: goto L1;
    }
L420:;
    l6 = 7u;
    l11 = l12;
    goto L4;
L419:;
    l6 = 10u;
    l11 = l12;
    goto L4;
L418:;
    l6 = 15u;
    l11 = l12;
    goto L4;
L417:;
    l6 = 19u;
    l11 = l12;
    goto L4;
L415:;
    l16 = IPL_L32(l3, 80u);
    l6 = 40u;
    l11 = l5;
    l13 = l5;
    l14 = l5;
    l15 = l5;
    switch (l5) {
    case 1u: goto L13;
    case 2u: goto L423;
    case 3u: goto L422;
    case 4u: goto L421;
    default: goto L1;
    }
L423:;
    l6 = 41u;
    l11 = l12;
    l13 = l16;
    l14 = IPL_L32(l3, 84u);
    l15 = IPL_L32(l3, 88u);
    goto L1;
L422:;
    l6 = 42u;
    l11 = l12;
    l13 = l16;
    goto L3;
L421:;
    l6 = 63u;
    l11 = l12;
    goto L4;
L39:;
    l11 = IPL_L32(l1, 8u);
    IPL_S32(l3, 88u, 0u);
    IPL_S64(l3, 80u, (ipl_u64)0u);
    IPL_S64(l3, 72u, (ipl_u64)0u);
    IPL_S64(l3, 64u, (ipl_u64)0u);
    ipl_w61_merge(m, (l3 + 64u), l4, l0, l11);
    if (IPL_L8(l3, 64u) == 0) goto L35;
    l5 = IPL_L8(l3, 72u);
    l12 = IPL_L32(l3, 76u);
    l6 = 60u;
    l11 = IPL_L8(l3, 68u);
    l13 = l11;
    l14 = l11;
    l15 = l11;
    switch (l11) {
    case 1u: goto L23;
    case 2u: goto L425;
    case 3u: goto L424;
    default: goto L1;
    }
L425:;
    l6 = 2u;
    l11 = l5;
    l13 = l5;
    l14 = l5;
    l15 = l5;
    switch (l5) {
    case 1u: goto L22;
    case 2u: goto L21;
    case 3u: goto L20;
    case 4u: goto L19;
    case 5u: goto L429;
    case 6u: goto L12;
    case 7u: goto L18;
    case 8u: goto L428;
    case 9u: goto L17;
    case 10u: goto L16;
    case 11u: goto L15;
    case 12u: goto L14;
    case 13u: goto L427;
    case 14u: goto L426;
    default: goto L1;
    }
L429:;
    l6 = 7u;
    l11 = l12;
    goto L4;
L428:;
    l6 = 10u;
    l11 = l12;
    goto L4;
L427:;
    l6 = 15u;
    l11 = l12;
    goto L4;
L426:;
    l6 = 19u;
    l11 = l12;
    goto L4;
L424:;
    l16 = IPL_L32(l3, 80u);
    l6 = 40u;
    l11 = l5;
    l13 = l5;
    l14 = l5;
    l15 = l5;
    switch (l5) {
    case 1u: goto L13;
    case 2u: goto L432;
    case 3u: goto L431;
    case 4u: goto L430;
    default: goto L1;
    }
L432:;
    l6 = 41u;
    l11 = l12;
    l13 = l16;
    l14 = IPL_L32(l3, 84u);
    l15 = IPL_L32(l3, 88u);
    goto L1;
L431:;
    l6 = 42u;
    l11 = l12;
    l13 = l16;
    goto L3;
L430:;
    l6 = 63u;
    l11 = l12;
    goto L4;
L38:;
    IPL_S32(l1, 8u, IPL_L32((l0 + 3016u), 0u));
    goto L35;
L37:;
    IPL_S64(l3, 88u, (ipl_u64)0u);
    IPL_S64(l3, 80u, (ipl_u64)0u);
    IPL_S64(l3, 72u, (ipl_u64)0u);
    IPL_S64(l3, 64u, (ipl_u64)0u);
    ipl_w59_reserves(m, (l3 + 64u), l4);
    l7 = IPL_L64(l3, 64u);
    l8 = IPL_L64(l3, 72u);
    l10 = IPL_L64(l3, 80u);
    IPL_S64U(l1, 48u, IPL_L64(l3, 88u));
    IPL_S64U(l1, 40u, l10);
    IPL_S64U(l1, 32u, l8);
    IPL_S64U(l1, 24u, l7);
    goto L35;
L36:;
    IPL_S32(l3, 88u, 0u);
    IPL_S64(l3, 80u, (ipl_u64)0u);
    IPL_S64(l3, 72u, (ipl_u64)0u);
    IPL_S64(l3, 64u, (ipl_u64)0u);
    ipl_w62_close(m, (l3 + 64u), l4, l0);
    if (IPL_L8(l3, 64u) != 0) goto L34;
L35:;
    l6 = 0u;
    l11 = 0u;
    goto L4;
L34:;
    l5 = IPL_L8(l3, 72u);
    l12 = IPL_L32(l3, 76u);
    l6 = 60u;
    l11 = IPL_L8(l3, 68u);
    l13 = l11;
    l14 = l11;
    l15 = l11;
    switch (l11) {
    case 1u: goto L23;
    case 2u: goto L435;
    case 3u: goto L434;
    default: goto L1;
    }
L435:;
    l6 = 2u;
    l11 = l5;
    l13 = l5;
    l14 = l5;
    l15 = l5;
    switch (l5) {
    case 1u: goto L22;
    case 2u: goto L21;
    case 3u: goto L20;
    case 4u: goto L19;
    case 5u: goto L439;
    case 6u: goto L12;
    case 7u: goto L18;
    case 8u: goto L438;
    case 9u: goto L17;
    case 10u: goto L16;
    case 11u: goto L15;
    case 12u: goto L14;
    case 13u: goto L437;
    case 14u: goto L436;
    default: goto L1;
    }
L439:;
    l6 = 7u;
    goto L433;
L438:;
    l6 = 10u;
    goto L433;
L437:;
    l6 = 15u;
    goto L433;
L436:;
    l6 = 19u;
    goto L433;
L434:;
    l16 = IPL_L32(l3, 80u);
    l6 = 40u;
    l11 = l5;
    l13 = l5;
    l14 = l5;
    l15 = l5;
    switch (l5) {
    case 1u: goto L13;
    case 2u: goto L442;
    case 3u: goto L441;
    case 4u: goto L440;
    default: goto L1;
    }
L442:;
    l6 = 41u;
    l11 = l12;
    l13 = l16;
    l14 = IPL_L32(l3, 84u);
    l15 = IPL_L32(l3, 88u);
    goto L1;
L441:;
    l6 = 42u;
    l11 = l12;
    l13 = l16;
    goto L3;
L440:;
    l6 = 63u;
L433:;
    l11 = l12;
    goto L4;
L33:;
    ipl_trap(m);
L32:;
    l6 = (l6 != 0 ? 61u : l13);
    l11 = 0u;
    goto L4;
L31:;
    l6 = (l6 != 0 ? 61u : l13);
    l11 = 0u;
    goto L4;
L30:;
    l12 = (ipl_u32)(l22 >> 32);
    l16 = IPL_L32(l3, 48u);
    l20 = IPL_L32(l3, 52u);
    l30 = IPL_L32(l3, 56u);
    l31 = IPL_L32(l3, 60u);
    l5 = (ipl_u32)l22;
    l11 = 0u;
    l13 = 0u;
    l14 = 0u;
    l15 = 0u;
    switch ((ipl_u32)(ipl_u64)IPL_L8(l3, 36u)) {
    case 1u: goto L1;
    case 2u: goto L28;
    case 3u: goto L25;
    case 4u: goto L26;
    default: goto L24;
    }
L29:;
    l12 = (ipl_u32)(l22 >> 32);
    l16 = IPL_L32(l3, 48u);
    l20 = IPL_L32(l3, 52u);
    l30 = IPL_L32(l3, 56u);
    l31 = IPL_L32(l3, 60u);
    l5 = (ipl_u32)l22;
    l11 = 0u;
    l13 = 0u;
    l14 = 0u;
    l15 = 0u;
    switch ((ipl_u32)(ipl_u64)IPL_L8(l3, 36u)) {
    case 1u: goto L1;
    case 2u: goto L28;
    case 3u: goto L443;
    case 4u: goto L444;
    default: goto L27;
    }
L444:;
    l6 = 43u;
    l11 = l5;
    goto L4;
L443:;
    l6 = 18u;
    l11 = l5;
    goto L4;
L28:;
    l6 = 17u;
    l11 = 0u;
    goto L4;
L27:;
    l6 = 60u;
    l11 = (l5 & 255u);
    l13 = l11;
    l14 = l11;
    l15 = l11;
    switch ((ipl_u32)((ipl_u64)l5 & 255u)) {
    case 1u: goto L23;
    case 2u: goto L446;
    case 3u: goto L445;
    default: goto L1;
    }
L446:;
    l6 = 2u;
    l11 = (l12 & 255u);
    l13 = l11;
    l14 = l11;
    l15 = l11;
    switch ((ipl_u32)((ipl_u64)l12 & 255u)) {
    case 1u: goto L22;
    case 2u: goto L21;
    case 3u: goto L20;
    case 4u: goto L19;
    case 5u: goto L450;
    case 6u: goto L12;
    case 7u: goto L18;
    case 8u: goto L449;
    case 9u: goto L17;
    case 10u: goto L16;
    case 11u: goto L15;
    case 12u: goto L14;
    case 13u: goto L448;
    case 14u: goto L447;
    default: goto L1;
    }
L450:;
    l6 = 7u;
    l11 = l16;
    goto L4;
L449:;
    l6 = 10u;
    l11 = l16;
    goto L4;
L448:;
    l6 = 15u;
    l11 = l16;
    goto L4;
L447:;
    l6 = 19u;
    l11 = l16;
    goto L4;
L445:;
    l6 = 40u;
    l11 = (l12 & 255u);
    l13 = l11;
    l14 = l11;
    l15 = l11;
    switch ((ipl_u32)((ipl_u64)l12 & 255u)) {
    case 1u: goto L13;
    case 2u: goto L453;
    case 3u: goto L452;
    case 4u: goto L451;
    default: goto L1;
    }
L453:;
    l6 = 41u;
    l11 = l16;
    l13 = l20;
    l14 = l30;
    l15 = l31;
    goto L1;
L452:;
    l6 = 42u;
    l11 = l16;
    l13 = l20;
    goto L3;
L451:;
    l6 = 63u;
    l11 = l16;
    goto L4;
L26:;
    l6 = 43u;
    l11 = l5;
    goto L4;
L25:;
    l6 = 18u;
    l11 = l5;
    goto L4;
L24:;
    l6 = 60u;
    l11 = (l5 & 255u);
    l13 = l11;
    l14 = l11;
    l15 = l11;
    switch ((ipl_u32)((ipl_u64)l5 & 255u)) {
    case 1u: goto L23;
    case 2u: goto L455;
    case 3u: goto L454;
    default: goto L1;
    }
L455:;
    l6 = 2u;
    l11 = (l12 & 255u);
    l13 = l11;
    l14 = l11;
    l15 = l11;
    switch ((ipl_u32)((ipl_u64)l12 & 255u)) {
    case 1u: goto L22;
    case 2u: goto L21;
    case 3u: goto L20;
    case 4u: goto L19;
    case 5u: goto L459;
    case 6u: goto L12;
    case 7u: goto L18;
    case 8u: goto L458;
    case 9u: goto L17;
    case 10u: goto L16;
    case 11u: goto L15;
    case 12u: goto L14;
    case 13u: goto L457;
    case 14u: goto L456;
    default: goto L1;
    }
L459:;
    l6 = 7u;
    l11 = l16;
    goto L4;
L458:;
    l6 = 10u;
    l11 = l16;
    goto L4;
L457:;
    l6 = 15u;
    l11 = l16;
    goto L4;
L456:;
    l6 = 19u;
    l11 = l16;
    goto L4;
L454:;
    l6 = 40u;
    l11 = (l12 & 255u);
    l13 = l11;
    l14 = l11;
    l15 = l11;
    switch ((ipl_u32)((ipl_u64)l12 & 255u)) {
    case 1u: goto L13;
    case 2u: goto L462;
    case 3u: goto L461;
    case 4u: goto L460;
    default: goto L1;
    }
L462:;
    l6 = 41u;
    l11 = l16;
    l13 = l20;
    l14 = l30;
    l15 = l31;
    goto L1;
L461:;
    l6 = 42u;
    l11 = l16;
    l13 = l20;
    goto L3;
L460:;
    l6 = 63u;
    l11 = l16;
    goto L4;
L23:;
    l6 = 61u;
    l11 = 0u;
    goto L4;
L22:;
    l6 = 3u;
    l11 = 0u;
    goto L4;
L21:;
    l6 = 4u;
    l11 = 0u;
    goto L4;
L20:;
    l6 = 5u;
    l11 = 0u;
    goto L4;
L19:;
    l6 = 6u;
    l11 = 0u;
    goto L4;
L18:;
    l6 = 9u;
    l11 = 0u;
    goto L4;
L17:;
    l6 = 11u;
    l11 = 0u;
    goto L4;
L16:;
    l6 = 12u;
    l11 = 0u;
    goto L4;
L15:;
    l6 = 13u;
    l11 = 0u;
    goto L4;
L14:;
    l6 = 14u;
    l11 = 0u;
    goto L4;
L13:;
    l6 = 62u;
    l11 = 0u;
    goto L4;
L12:;
    l6 = 8u;
    l11 = 0u;
    goto L4;
L11:;
    l6 = 16u;
    l11 = 0u;
    goto L4;
L10:;
    l6 = 0u;
    l11 = 0u;
    goto L4;
L9:;
    l11 = 0u;
    goto L4;
L8:;
    l6 = 60u;
    l11 = 0u;
    goto L3;
L7:;
    l6 = 61u;
    l11 = 0u;
    goto L4;
L6:;
    l6 = 60u;
    l11 = 0u;
    goto L4;
L5:;
    l6 = 0u;
    l11 = 0u;
L4:;
    l13 = 0u;
L3:;
    l14 = 0u;
L2:;
    l15 = 0u;
L1:;
    IPL_S32U((l1 + 644u), 0u, l15);
    IPL_S32U((l1 + 640u), 0u, l14);
    IPL_S32U((l1 + 636u), 0u, l13);
    IPL_S32U((l1 + 632u), 0u, l11);
    IPL_S64(l2, 0u, l0);
    IPL_G(0) = (l3 + 592u);
    return l6;
}

#if defined(__clang__)
#pragma clang diagnostic pop
#elif defined(__GNUC__)
#pragma GCC diagnostic pop
#endif

/* engine.h over the translated functions: an engine's memory is its head, then the module's memory: its stack, the request, the handle
 * that an opening or a call leaves, and the heap. */

enum {
    IPL_REQUEST = (IPL_STACK + 15) / 16 * 16,
    IPL_OUT = IPL_REQUEST + 656,
    IPL_HEAP = IPL_OUT + 16
};
typedef char ipl_the_request_has_no_gaps[sizeof(struct ipl_request) == 648 ? 1 : -1];
typedef char ipl_the_head_keeps_the_alignment[IPL_HEAD % IPL_ENGINE_ALIGNMENT == 0 ? 1 : -1];

/* ---- what the module calls */

/* The heap hands out one block after the other, and takes none back: all are taken in an opening or a check. */
static void ipl_to_rattle_alloc(ipl_u8 *const m, ipl_u64 to, ipl_u64 n, ipl_u64 align) {
    struct ipl_engine *e = IPL_E(m);
    const ipl_a end = e->end;
    ipl_u64 p = (e->heap + align - 1) & ~(align - 1), size = n != 0 ? n : align;
    int ok = p <= end && size <= end - p;
    IPL_SPAN(to, 16u);
    if (ok) e->heap = (ipl_u32)(p + size);
    ipl_set8(m + (ipl_a)to, (ipl_u8)ok);
    ipl_set64u(m + (ipl_a)to + 8, ok ? p : (ipl_u64)IPL_HEAP);
}

static void ipl_to_rattle_realloc(ipl_u8 *const m, ipl_u64 to, ipl_u64 old, ipl_u64 kept, ipl_u64 n, ipl_u64 align) {
    const ipl_a end = IPL_E(m)->end;
    ipl_to_rattle_alloc(m, to, n, align);
    if (ipl_get8(m + (ipl_a)to)) IPL_COPY(ipl_get64u(m + (ipl_a)to + 8), old, kept);
}

static void ipl_to_rattle_dealloc(ipl_u8 *const m, ipl_u64 old) {
    (void)m;
    (void)old;
}

/* The driver gets plain pointers. The module's number of the part isn't needed: an engine has one driver. */
static ipl_u32 ipl_to_ipl_nand_barrier(ipl_u8 *const m, ipl_u64 part) {
    const struct ipl_driver *d = IPL_E(m)->driver;
    (void)part;
    return (ipl_u32)d->barrier(d->context);
}

static ipl_u32 ipl_to_ipl_nand_erase(ipl_u8 *const m, ipl_u64 part, ipl_u32 place) {
    const struct ipl_driver *d = IPL_E(m)->driver;
    (void)part;
    return (ipl_u32)d->erase(d->context, place);
}

static ipl_u32 ipl_to_ipl_nand_program(ipl_u8 *const m, ipl_u64 part, ipl_u32 place, ipl_u32 sector, ipl_u64 from, ipl_u64 n) {
    const struct ipl_driver *d = IPL_E(m)->driver;
    const ipl_a end = IPL_E(m)->end;
    (void)part;
    IPL_SPAN(from, n);
    return (ipl_u32)d->program(d->context, place, sector, m + (ipl_a)from);
}

static ipl_u32 ipl_to_ipl_nand_read(ipl_u8 *const m, ipl_u64 part, ipl_u32 place, ipl_u32 sector, ipl_u64 into, ipl_u64 n) {
    const struct ipl_driver *d = IPL_E(m)->driver;
    const ipl_a end = IPL_E(m)->end;
    (void)part;
    IPL_SPAN(into, n);
    return (ipl_u32)d->read(d->context, place, sector, m + (ipl_a)into);
}

/* ---- an engine in its memory */

/* An engine in the memory: its head, stack, request and slack, and no heap yet. */
static size_t ipl_least_memory(void) { return (size_t)IPL_HEAD + IPL_HEAP + IPL_SLACK; }

/* What an opening and a check take of the heap by the places: the log sectors in overflow places are 16 a unit, and 510 at
 * most. tests/memory.c tries many configs. */
static size_t ipl_bytes_of_places(size_t places) { return 391 * places + 6 * (places < 36 ? 16 * places - 64 : 510); }

IPL_ENGINE size_t ipl_engine_memory(const struct ipl_config *config) {
    return ipl_least_memory() + 28673 + ipl_bytes_of_places(config->places) + 16728 * (size_t)config->frames
           + 2600 * (size_t)config->sessions + 8 * (size_t)config->numbers + 2 * (((size_t)config->numbers + 7) / 8);
}

IPL_ENGINE size_t ipl_engine_read_memory(const struct ipl_config *config) {
    return ipl_least_memory() + 31475 + ipl_bytes_of_places(config->places) + 8 * (size_t)config->numbers
           + 2 * (((size_t)config->numbers + 7) / 8);
}

IPL_ENGINE size_t ipl_engine_check_memory(const struct ipl_config *config) {
    return ipl_least_memory() + 140482 + ipl_bytes_of_places(config->places);
}

IPL_ENGINE size_t ipl_engine_format_memory(void) { return ipl_least_memory(); }

IPL_ENGINE struct ipl_engine *ipl_engine_raise(void *at, size_t size, const struct ipl_driver *driver) {
    struct ipl_engine *e = (struct ipl_engine *)at;
    size -= IPL_HEAD;
    if (size > IPL_MOST_MEMORY) size = IPL_MOST_MEMORY;
    memset(e, 0, sizeof *e);
    e->driver = driver;
    e->end = (ipl_a)(size - IPL_SLACK);
    e->heap = IPL_HEAP;
#ifdef IPL_PAINT
    memset((ipl_u8 *)at + IPL_HEAD, IPL_PAINT, IPL_STACK);
#endif
    return e;
}

static ipl_u8 *ipl_memory_of(struct ipl_engine *e) { return (ipl_u8 *)(void *)e + IPL_HEAD; }

IPL_ENGINE struct ipl_request *ipl_engine_request(struct ipl_engine *e) {
    return (struct ipl_request *)(void *)(ipl_memory_of(e) + IPL_REQUEST);
}

/* The numbers of the request as the module has them, or back: the least byte first. */
static void ipl_turn_request(struct ipl_request *r) {
#if IPL_BIG
    uint32_t *numbers[] = {&r->op, &r->session, &r->name, &r->page, &r->key_len, &r->len};
    size_t i;
    for (i = 0; i < sizeof numbers / sizeof *numbers; i++) *numbers[i] = ipl_turn32(*numbers[i]);
    for (i = 0; i < IPL_SESSIONS; i++) r->sessions[i] = ipl_turn32(r->sessions[i]);
    for (i = 0; i < 4; i++) r->detail[i] = ipl_turn32(r->detail[i]);
#else
    (void)r;
#endif
}

/* From IPL_DO_RECORDS on they leave a handle. */
enum ipl_entry { IPL_DO_FORMAT, IPL_DO_CHECK, IPL_DO_RECORDS, IPL_DO_KEYS, IPL_DO_MAKE, IPL_DO_LOOK, IPL_DO_CALL, IPL_DO_READ };

static IPL_OUT_OF_LINE ipl_u32 ipl_do(ipl_u8 *const m, enum ipl_entry what, ipl_u32 a, ipl_u32 b) {
    switch (what) {
    case IPL_DO_FORMAT: return ipl_w_ipl_port_format(m, 0, a, b, IPL_REQUEST);
    case IPL_DO_CHECK: return ipl_w_ipl_port_check(m, 0, a, IPL_REQUEST);
    case IPL_DO_RECORDS: return ipl_w_ipl_port_open_records(m, 0, a, b, IPL_REQUEST, IPL_OUT);
    case IPL_DO_KEYS: return ipl_w_ipl_port_open_keys(m, 0, a, b, IPL_REQUEST, IPL_OUT);
    case IPL_DO_MAKE: return ipl_w_ipl_port_make_reader(m, 0, a, IPL_REQUEST, IPL_OUT);
    case IPL_DO_LOOK: return ipl_w_ipl_port_look(m, IPL_E(m)->handle, IPL_REQUEST, IPL_OUT);
    case IPL_DO_READ: return ipl_w_ipl_port_read(m, IPL_E(m)->handle, IPL_REQUEST, IPL_OUT);
    default: return ipl_w_ipl_port_call(m, IPL_E(m)->handle, IPL_REQUEST, IPL_OUT);
    }
}

/* A trap comes back here. Each call begins with the whole stack. */
static IPL_OUT_OF_LINE ipl_u32 ipl_enter(ipl_u8 *const m, enum ipl_entry what, ipl_u32 a, ipl_u32 b) {
    ipl_place here;
    IPL_E(m)->trap = &here;
    IPL_G(0) = IPL_STACK;
    if (IPL_LAND(here)) return IPL_TRAPPED;
    return ipl_do(m, what, a, b);
}

#ifdef IPL_PAINT
/* For measuring: how much of a stack was never touched, and the most that was taken of a heap. */
unsigned long ipl_least_stack = IPL_STACK, ipl_most_heap;
static void ipl_note(ipl_u8 *m) {
    unsigned long n = 0, heap = IPL_E(m)->heap - IPL_HEAP;
    while (n < ipl_least_stack && m[n] == IPL_PAINT) n++;
    if (n < ipl_least_stack) ipl_least_stack = n;
    if (heap > ipl_most_heap) ipl_most_heap = heap;
}
#endif

/* One call of the module. After a trap it is never entered again. */
static ipl_u32 ipl_run(struct ipl_engine *e, enum ipl_entry what, ipl_u32 a, ipl_u32 b) {
    ipl_u8 *const m = ipl_memory_of(e);
    struct ipl_request *r = ipl_engine_request(e);
    ipl_u32 answer;
    memset(r->detail, 0, sizeof r->detail);
    if (e->trapped) return IPL_TRAPPED;
    ipl_turn_request(r);
    answer = ipl_enter(m, what, a, b);
    ipl_turn_request(r);
#ifdef IPL_PAINT
    ipl_note(m);
#endif
    if (e->trapped) memset(r->detail, 0, sizeof r->detail);
    else if (what >= IPL_DO_RECORDS) e->handle = ipl_get64(m + IPL_OUT);
    return answer;
}

IPL_ENGINE uint32_t ipl_engine_format(struct ipl_engine *e, uint32_t places, uint32_t spares) {
    return ipl_run(e, IPL_DO_FORMAT, places, spares);
}

IPL_ENGINE uint32_t ipl_engine_check(struct ipl_engine *e, uint32_t places) { return ipl_run(e, IPL_DO_CHECK, places, 0); }

/* A reader is made first, and looks its part over then. */
static ipl_u32 ipl_open_reader(struct ipl_engine *e, ipl_u32 places) {
    ipl_u32 answer = ipl_run(e, IPL_DO_MAKE, places, 0);
    return answer == IPL_OK ? ipl_run(e, IPL_DO_LOOK, 0, 0) : answer;
}

IPL_ENGINE uint32_t ipl_engine_open(struct ipl_engine *e, enum ipl_engine_kind kind, const struct ipl_config *config) {
    ipl_engine_request(e)->session = config->sessions;
    ipl_engine_request(e)->name = config->numbers;
    e->reads = kind == IPL_ENGINE_READER;
    if (e->reads) return ipl_open_reader(e, config->places);
    return ipl_run(e, kind == IPL_ENGINE_KEYS ? IPL_DO_KEYS : IPL_DO_RECORDS, config->places, config->frames);
}

IPL_ENGINE uint32_t ipl_engine_call(struct ipl_engine *e) { return ipl_run(e, e->reads ? IPL_DO_READ : IPL_DO_CALL, 0, 0); }

/* The calls of ipl.h over engine.h: arguments are looked at here, and the list of open stores is kept here. */
#include <string.h>

typedef char ipl_request_has_no_gaps[sizeof(struct ipl_request) == 648 ? 1 : -1];

/* A struct that is no store's has another number there, as good as always, and another address. */
enum ipl_tag { IPL_TAG_CLOSED = 0, IPL_TAG_OPENING = 0x69706C31, IPL_TAG_OPEN = 0x69706C32 };

/* The one thing that stores share: the calls that read and change it are one at a time. */
static struct ipl *ipl_open_stores;

uint32_t ipl_version(void) { return IPL_VERSION; }
uint32_t ipl_format_version(void) { return 3; }

/* ---- answers */

int ipl_is_refused(enum ipl_answer answer) { return answer >= IPL_BAD_SESSION && answer < IPL_READ_FAULT; }
int ipl_is_up(enum ipl_answer answer) { return answer < IPL_DOWN; }

const char *ipl_text(enum ipl_answer answer) {
    switch (answer) {
    case IPL_OK: return "done";
    case IPL_NOTHING: return "there is no record";
    case IPL_BAD_SESSION: return "no such session";
    case IPL_BAD_NAME: return "no such name";
    case IPL_TOO_LONG: return "a record of more than 464 bytes";
    case IPL_ALREADY_OPEN: return "the session is open";
    case IPL_NOT_OPEN: return "the session isn't open";
    case IPL_CONFLICT: return "another session holds the name";
    case IPL_WRITES_FULL: return "the session has written 256 names";
    case IPL_SHARES_FULL: return "the session has shared 256 names";
    case IPL_PENDING_FULL: return "too much in the unit isn't committed";
    case IPL_BAD_UNIT: return "no such unit or page";
    case IPL_HOLDS_FULL: return "all frames but one are held";
    case IPL_NOT_HELD: return "the page isn't held";
    case IPL_PAGE_FULL: return "the page is full";
    case IPL_TWICE: return "a session is named twice";
    case IPL_BAD_KEY: return "a key that hasn't 1 to 16 bytes";
    case IPL_LONG_VALUE: return "a value by a key of more than 200 bytes";
    case IPL_BUCKET_FULL: return "the bucket of the key is full";
    case IPL_SESSIONS_OPEN: return "a session is open";
    case IPL_NO_ROOM: return "the value is longer than the room for it";
    case IPL_MANY_SESSIONS: return "more than 32 sessions are named";
    case IPL_BAD_FRAMES: return "not 2 to 64 frames";
    case IPL_NO_SUCH_CALL: return "the store has no such call";
    case IPL_NULL_POINTER: return "a null pointer";
    case IPL_OTHER_VERSION: return "the header is of another version than the library";
    case IPL_NO_STORE: return "no open store";
    case IPL_BUSY: return "a call of the store isn't over";
    case IPL_STORE_IN_USE: return "the struct is that of an open store";
    case IPL_PART_IN_USE: return "the part is in use";
    case IPL_MEMORY_IN_USE: return "the memory is in use";
    case IPL_SMALL_MEMORY: return "too little memory";
    case IPL_BAD_PLACES: return "not 5 to 1,028 places";
    case IPL_BAD_SPARES: return "more than 64 spare places, or no unit is left";
    case IPL_BAD_SESSIONS: return "not 1 to 32 sessions";
    case IPL_BAD_NUMBERS: return "not room for 120 to 15,300 committed numbers";
    case IPL_READ_ONLY: return "the part was opened to be read alone";
    case IPL_READ_FAULT: return "a read failed";
    case IPL_DAMAGED: return "a sector of a page is damaged";
    case IPL_MALFORMED: return "a page is malformed";
    case IPL_BAD_BUCKET: return "a record is no bucket of keys";
    case IPL_DOWN: return "the store is down";
    case IPL_SPENT: return "the numbers of calls are used up";
    case IPL_STOPPED: return "a write failed, and the store is down";
    case IPL_WORN_OUT: return "more places are worn than are spare, and the store is down";
    case IPL_TRAPPED: return "a check of the store itself failed";
    case IPL_GEOMETRY: return "the part was formatted for another number of places";
    case IPL_NOT_FORMATTED: return "the part isn't formatted";
    case IPL_BLANK: return "the part is blank";
    case IPL_MISSING: return "a unit is missing on the part";
    case IPL_NO_SPARE: return "too many overflow places have log sectors";
    case IPL_OUT_OF_MEMORY: return "out of memory";
    case IPL_FORMAT_WORN: return "the format found a worn place";
    case IPL_PART_UNREAD: return "a read failed, and nothing is open";
    case IPL_PART_STOPPED: return "a write failed, and nothing is open";
    case IPL_PART_DAMAGED: return "a sector of the part is damaged";
    case IPL_PART_MALFORMED: return "a sector of the part is malformed";
    case IPL_PART_WORN_OUT: return "more places are worn than are spare, and nothing is open";
    case IPL_PART_SPENT: return "the numbers of calls are used up, and nothing is open";
    case IPL_MANY_NUMBERS: return "more committed numbers than there is room for in memory";
    default: return "no answer of this library";
    }
}

static enum ipl_answer ipl_answered(uint32_t number) { return (enum ipl_answer)number; }

/* ---- the driver, counted */

static int ipl_count(struct ipl *s, uint64_t *calls, int done) {
    *calls += 1;
    if (done != IPL_NAND_DONE) s->facts.failures++;
    return done;
}

static int ipl_read_once(struct ipl *s, uint32_t place, uint32_t sector, uint8_t *into) {
    int done = s->driver.read(s->driver.context, place, sector, into);
    s->facts.reads++;
    if (done == IPL_NAND_DOUBTFUL) s->facts.doubtful++;
    else if (done != IPL_NAND_DONE) s->facts.failures++;
    return done;
}

/* What the ECC couldn't mend is read once more: bits that flip in one read may stand in the next. Bytes that it
 * can't mend then either are handed on, and the store looks at their sum. */
static int ipl_read(void *context, uint32_t place, uint32_t sector, uint8_t *into) {
    struct ipl *s = (struct ipl *)context;
    int done = ipl_read_once(s, place, sector, into);
    if (done == IPL_NAND_DOUBTFUL) done = ipl_read_once(s, place, sector, into);
    return done == IPL_NAND_DOUBTFUL ? IPL_NAND_DONE : done;
}

static int ipl_program(void *context, uint32_t place, uint32_t sector, const uint8_t *from) {
    struct ipl *s = (struct ipl *)context;
    return ipl_count(s, &s->facts.programs, s->driver.program(s->driver.context, place, sector, from));
}

static int ipl_erase(void *context, uint32_t place) {
    struct ipl *s = (struct ipl *)context;
    int done = s->driver.erase(s->driver.context, place);
    s->facts.erases++;
    if (done == IPL_NAND_WORN) s->facts.worn++;
    else if (done != IPL_NAND_DONE) s->facts.failures++;
    return done;
}

static int ipl_barrier(void *context) {
    struct ipl *s = (struct ipl *)context;
    return ipl_count(s, &s->facts.barriers, s->driver.barrier(s->driver.context));
}

/* ---- how much memory */

/* What is begun. From IPL_WORK_READ on it ends with something open, and from IPL_WORK_OPEN on with sessions. */
enum ipl_work { IPL_WORK_FORMAT, IPL_WORK_CHECK, IPL_WORK_READ, IPL_WORK_OPEN, IPL_WORK_OPEN_OR_FORMAT };

static enum ipl_answer ipl_look_at(const struct ipl_config *config, enum ipl_work work) {
    int reads = work >= IPL_WORK_READ, opens = work >= IPL_WORK_OPEN;
    int has_spares = work == IPL_WORK_FORMAT || work == IPL_WORK_OPEN_OR_FORMAT;
    if (config->version != IPL_VERSION) return IPL_OTHER_VERSION;
    if (config->places < IPL_PLACES_LEAST || config->places > IPL_PLACES_MOST) return IPL_BAD_PLACES;
    if (opens && (config->frames < IPL_FRAMES_LEAST || config->frames > IPL_FRAMES_MOST)) return IPL_BAD_FRAMES;
    if (opens && (config->sessions < 1 || config->sessions > IPL_SESSIONS)) return IPL_BAD_SESSIONS;
    if (reads && (config->numbers < IPL_NUMBERS_LEAST || config->numbers > IPL_NUMBERS_MOST)) return IPL_BAD_NUMBERS;
    if (has_spares && (config->spares > IPL_SPARES_MOST || config->spares > config->places - IPL_PLACES_LEAST))
        return IPL_BAD_SPARES;
    return IPL_OK;
}

/* The memory may begin at any address, and the engine's may not. */
enum { IPL_GAP = IPL_ENGINE_ALIGNMENT - 1 };

static size_t ipl_wanted(const struct ipl_config *config, enum ipl_work work) {
    if (config == NULL || ipl_look_at(config, work) != IPL_OK) return 0;
    if (work == IPL_WORK_FORMAT) return IPL_GAP + ipl_engine_format_memory();
    if (work == IPL_WORK_CHECK) return IPL_GAP + ipl_engine_check_memory(config);
    if (work == IPL_WORK_READ) return IPL_GAP + ipl_engine_read_memory(config);
    return IPL_GAP + ipl_engine_memory(config);
}

size_t ipl_memory(const struct ipl_config *config) { return ipl_wanted(config, IPL_WORK_OPEN); }
size_t ipl_read_memory(const struct ipl_config *config) { return ipl_wanted(config, IPL_WORK_READ); }
size_t ipl_check_memory(const struct ipl_config *config) { return ipl_wanted(config, IPL_WORK_CHECK); }
size_t ipl_format_memory(const struct ipl_config *config) { return ipl_wanted(config, IPL_WORK_FORMAT); }

/* ---- the list of open stores */

static int ipl_is_one_part(const struct ipl_driver *a, const struct ipl_driver *b) {
    return a->context == b->context
           && (a->read == b->read || a->program == b->program || a->erase == b->erase || a->barrier == b->barrier);
}

/* Whether bytes are both in one and in the other, which aren't parts of one array. */
static int ipl_overlap(const void *a, size_t a_size, const void *b, size_t b_size) {
    uintptr_t x = (uintptr_t)a, y = (uintptr_t)b;
    return x < y ? y - x < a_size : x - y < b_size;
}

/* Whether a struct may be written to: no open store's bytes are in it. */
static enum ipl_answer ipl_look_at_struct(const struct ipl *s) {
    const struct ipl *it;
    for (it = ipl_open_stores; it != NULL; it = it->next) {
        if (ipl_overlap(it, sizeof *it, s, sizeof *s)) return IPL_STORE_IN_USE;
        if (ipl_overlap(it->memory, it->size, s, sizeof *s)) return IPL_MEMORY_IN_USE;
    }
    return IPL_OK;
}

/* Puts a store on the list, unless what it wants is another's. */
static enum ipl_answer ipl_list(struct ipl *s) {
    const struct ipl *it;
    if (ipl_overlap(s, sizeof *s, s->memory, s->size)) return IPL_MEMORY_IN_USE;
    for (it = ipl_open_stores; it != NULL; it = it->next) {
        if (ipl_is_one_part(&it->driver, &s->driver)) return IPL_PART_IN_USE;
        if (ipl_overlap(it->memory, it->size, s->memory, s->size) || ipl_overlap(it, sizeof *it, s->memory, s->size))
            return IPL_MEMORY_IN_USE;
    }
    s->next = ipl_open_stores;
    ipl_open_stores = s;
    return IPL_OK;
}

static void ipl_unlist(struct ipl *s) {
    struct ipl **at;
    for (at = &ipl_open_stores; *at != NULL; at = &(*at)->next)
        if (*at == s) {
            *at = s->next;
            break;
        }
    s->next = NULL;
}

/* ---- openings, formats and checks */

static enum ipl_answer ipl_refuse(struct ipl *s, enum ipl_answer answer, uint32_t detail) {
    s->detail[0] = detail;
    return answer;
}

/* Makes a store of the struct that asks its part nothing yet, and puts it on the list. */
static enum ipl_answer ipl_start(struct ipl *s, const struct ipl_driver *driver, const struct ipl_config *config,
                                 void *memory, size_t size, enum ipl_work work) {
    enum ipl_answer answer;
    size_t wanted;
    if (s == NULL) return IPL_NULL_POINTER;
    answer = ipl_look_at_struct(s);
    if (answer != IPL_OK) return answer;
    memset(s, 0, sizeof *s);
    if (driver == NULL || config == NULL || memory == NULL) return IPL_NULL_POINTER;
    if (driver->read == NULL || driver->program == NULL || driver->erase == NULL || driver->barrier == NULL)
        return IPL_NULL_POINTER;
    answer = ipl_look_at(config, work);
    if (answer != IPL_OK) return ipl_refuse(s, answer, answer == IPL_OTHER_VERSION ? IPL_VERSION : 0);
    wanted = ipl_wanted(config, work);
    if (size < wanted) return ipl_refuse(s, IPL_SMALL_MEMORY, (uint32_t)wanted);
    s->memory = memory;
    s->size = wanted;
    s->driver = *driver;
    s->counting.context = s;
    s->counting.read = ipl_read;
    s->counting.program = ipl_program;
    s->counting.erase = ipl_erase;
    s->counting.barrier = ipl_barrier;
    s->facts.places = config->places;
    if (work >= IPL_WORK_OPEN) {
        s->facts.frames = config->frames;
        s->facts.sessions = config->sessions;
    }
    s->facts.room = config->numbers;
    answer = ipl_list(s);
    if (answer != IPL_OK) return answer;
    s->self = s;
    s->tag = IPL_TAG_OPENING;
    s->is_busy = 1;
    return IPL_OK;
}

static void ipl_end(struct ipl *s) {
    ipl_unlist(s);
    s->self = NULL;
    s->tag = IPL_TAG_CLOSED;
    s->is_busy = 0;
}

static enum ipl_answer ipl_tell(struct ipl *s, uint32_t number) {
    memcpy(s->detail, ipl_engine_request(s->engine)->detail, sizeof s->detail);
    return ipl_answered(number);
}

/* Whether sector 0 of each place is read, and has bytes FF. The engine in the memory is lost by it. */
static int ipl_is_blank(struct ipl *s) {
    uint8_t *bytes = (uint8_t *)s->memory;
    uint32_t place, i;
    for (place = 0; place < s->facts.places; place++) {
        if (ipl_read(s, place, 0, bytes) != IPL_NAND_DONE) return 0;
        for (i = 0; i < IPL_SECTOR; i++)
            if (bytes[i] != 0xFF) return 0;
    }
    return 1;
}

static void ipl_raise(struct ipl *s) {
    size_t gap = (size_t)(0u - (uintptr_t)s->memory) & IPL_GAP;
    s->engine = ipl_engine_raise((uint8_t *)s->memory + gap, s->size - gap, &s->counting);
}

/* What was not formatted may be blank. There is an engine in the memory afterwards, since a store that a
 * reopen left down still has a request. */
static enum ipl_answer ipl_tell_blank(struct ipl *s, enum ipl_answer answer) {
    if (answer != IPL_NOT_FORMATTED) return answer;
    if (ipl_is_blank(s)) answer = IPL_BLANK;
    ipl_raise(s);
    return answer;
}

static enum ipl_answer ipl_format_part(struct ipl *s, uint32_t spares) {
    ipl_raise(s);
    return ipl_tell(s, ipl_engine_format(s->engine, s->facts.places, spares));
}

/* Each other place is a unit, or was to spare at the format. */
enum { IPL_NO_UNITS = 4 };

/* Opens the part in the store's memory, also where that had an engine before. */
static enum ipl_answer ipl_open_part(struct ipl *s) {
    const struct ipl_config config =
        IPL_CONFIG_WITH(s->facts.places, s->facts.frames, 0, s->facts.sessions, s->facts.room);
    enum ipl_answer answer;
    struct ipl_request *r;
    ipl_raise(s);
    answer = ipl_tell(s, ipl_engine_open(s->engine, (enum ipl_engine_kind)s->kind, &config));
    if (answer == IPL_OK) {
        r = ipl_engine_request(s->engine);
        r->op = IPL_OP_UNITS;
        s->facts.units = ipl_engine_call(s->engine) == IPL_OK ? r->name : 0;
        s->facts.spares = s->facts.places - IPL_NO_UNITS - s->facts.units;
    }
    return ipl_tell_blank(s, answer);
}

enum ipl_answer ipl_format(struct ipl *s, const struct ipl_driver *driver, const struct ipl_config *config,
                           void *memory, size_t size) {
    enum ipl_answer answer = ipl_start(s, driver, config, memory, size, IPL_WORK_FORMAT);
    if (answer != IPL_OK) return answer;
    answer = ipl_format_part(s, config->spares);
    ipl_end(s);
    return answer;
}

enum ipl_answer ipl_check(struct ipl *s, const struct ipl_driver *driver, const struct ipl_config *config,
                          void *memory, size_t size, uint32_t *records) {
    enum ipl_answer answer;
    if (records == NULL) return IPL_NULL_POINTER;
    *records = 0;
    answer = ipl_start(s, driver, config, memory, size, IPL_WORK_CHECK);
    if (answer != IPL_OK) return answer;
    ipl_raise(s);
    answer = ipl_tell(s, ipl_engine_check(s->engine, s->facts.places));
    if (answer == IPL_OK) *records = ipl_engine_request(s->engine)->name;
    answer = ipl_tell_blank(s, answer);
    ipl_end(s);
    return answer;
}

static enum ipl_answer ipl_open_kind(struct ipl *s, enum ipl_engine_kind kind, const struct ipl_driver *driver,
                                     const struct ipl_config *config, void *memory, size_t size, enum ipl_work work) {
    enum ipl_answer answer = ipl_start(s, driver, config, memory, size, work);
    if (answer != IPL_OK) return answer;
    s->kind = kind;
    answer = ipl_open_part(s);
    if (answer == IPL_BLANK && work == IPL_WORK_OPEN_OR_FORMAT) {
        answer = ipl_format_part(s, config->spares);
        if (answer == IPL_OK) answer = ipl_open_part(s);
    }
    if (answer != IPL_OK) {
        ipl_end(s);
        return answer;
    }
    s->tag = IPL_TAG_OPEN;
    s->is_busy = 0;
    return IPL_OK;
}

enum ipl_answer ipl_open(struct ipl *s, const struct ipl_driver *driver, const struct ipl_config *config,
                         void *memory, size_t size) {
    return ipl_open_kind(s, IPL_ENGINE_RECORDS, driver, config, memory, size, IPL_WORK_OPEN);
}

enum ipl_answer ipl_open_or_format(struct ipl *s, const struct ipl_driver *driver, const struct ipl_config *config,
                                   void *memory, size_t size) {
    return ipl_open_kind(s, IPL_ENGINE_RECORDS, driver, config, memory, size, IPL_WORK_OPEN_OR_FORMAT);
}

enum ipl_answer ipl_open_to_read(struct ipl *s, const struct ipl_driver *driver, const struct ipl_config *config,
                                 void *memory, size_t size) {
    return ipl_open_kind(s, IPL_ENGINE_READER, driver, config, memory, size, IPL_WORK_READ);
}

/* ---- one call of an open store */

static enum ipl_answer ipl_admit(const struct ipl *s, enum ipl_engine_kind kind) {
    if (s == NULL) return IPL_NULL_POINTER;
    if (s->self != s || (s->tag != IPL_TAG_OPEN && s->tag != IPL_TAG_OPENING)) return IPL_NO_STORE;
    if (s->is_busy) return IPL_BUSY;
    if (s->kind == (uint32_t)kind) return IPL_OK;
    return s->kind == IPL_ENGINE_READER ? IPL_READ_ONLY : IPL_NO_SUCH_CALL;
}

/* Lets a call of a store of either kind begin. */
static enum ipl_answer ipl_admit_either(const struct ipl *s) {
    enum ipl_answer answer = ipl_admit(s, IPL_ENGINE_RECORDS);
    return answer == IPL_NO_SUCH_CALL ? IPL_OK : answer;
}

/* And one that a part has too that is only read. */
static enum ipl_answer ipl_admit_any(const struct ipl *s) {
    enum ipl_answer answer = ipl_admit_either(s);
    return answer == IPL_READ_ONLY ? IPL_OK : answer;
}

static void ipl_begin_call(struct ipl *s) {
    memset(s->detail, 0, sizeof s->detail);
    s->is_busy = 1;
}

static enum ipl_answer ipl_end_call(struct ipl *s, enum ipl_answer answer) {
    if (!ipl_is_up(answer)) s->facts.is_down = 1;
    s->is_busy = 0;
    return answer;
}

/* Does what the request asks, of a store that is busy with it. Nothing is asked of an engine that a longjmp
 * left, nor of one that didn't open. */
static enum ipl_answer ipl_ask(struct ipl *s, enum ipl_op op, uint32_t session, uint32_t name) {
    struct ipl_request *r = ipl_engine_request(s->engine);
    if (s->is_gone) return IPL_DOWN;
    r->op = op;
    r->session = session;
    r->name = name;
    return ipl_tell(s, ipl_engine_call(s->engine));
}

/* One call that has no bytes. */
static enum ipl_answer ipl_call(struct ipl *s, enum ipl_engine_kind kind, enum ipl_op op, uint32_t session,
                                uint32_t name) {
    enum ipl_answer answer = ipl_admit(s, kind);
    if (answer != IPL_OK) return answer;
    ipl_begin_call(s);
    return ipl_end_call(s, ipl_ask(s, op, session, name));
}

/* A call by the key in the request, or by a name, that answers a value. */
static enum ipl_answer ipl_find(struct ipl *s, enum ipl_op op, uint32_t session, uint32_t name, void *value,
                                uint32_t room, uint32_t *len) {
    enum ipl_answer answer = ipl_ask(s, op, session, name);
    if (answer == IPL_NO_ROOM) *len = s->detail[0];
    if (answer != IPL_OK) return answer;
    *len = ipl_engine_request(s->engine)->len;
    if (*len > room) return ipl_refuse(s, IPL_NO_ROOM, *len);
    if (*len != 0) memcpy(value, ipl_engine_request(s->engine)->value, *len);
    return IPL_OK;
}

/* The pointers of a call that answers a value; where they may not be, nothing is asked. */
static int ipl_has_room(const void *value, uint32_t room, uint32_t *len) {
    if (len == NULL) return 0;
    *len = 0;
    return value != NULL || room == 0;
}

static enum ipl_answer ipl_find_name(struct ipl *s, enum ipl_op op, uint32_t session, uint32_t name, void *value,
                                     uint32_t room, uint32_t *len) {
    enum ipl_answer answer;
    if (!ipl_has_room(value, room, len)) return IPL_NULL_POINTER;
    answer = ipl_admit(s, IPL_ENGINE_RECORDS);
    if (answer == IPL_READ_ONLY && op == IPL_OP_COMMITTED) answer = IPL_OK;
    if (answer != IPL_OK) return answer;
    ipl_begin_call(s);
    return ipl_end_call(s, ipl_find(s, op, session, name, value, room, len));
}

/* The value of a put; of one that is too long the length alone, which is refused. */
static void ipl_take_value(struct ipl *s, const void *value, uint32_t len, uint32_t most) {
    struct ipl_request *r = ipl_engine_request(s->engine);
    r->len = len;
    if (len != 0 && len <= most) memcpy(r->value, value, len);
}

static void ipl_take_key(struct ipl *s, const void *key, uint32_t len) {
    struct ipl_request *r = ipl_engine_request(s->engine);
    r->key_len = len;
    if (len != 0 && len <= sizeof r->key) memcpy(r->key, key, len);
}

/* Whether bytes are wanted that aren't there: of none, and of more than are read, there may be no pointer. */
static int ipl_lacks(const void *bytes, uint32_t len, uint32_t most) {
    return bytes == NULL && len != 0 && len <= most;
}

/* ---- of a store of either kind */

static enum ipl_answer ipl_abort_each(struct ipl *s) {
    enum ipl_answer answer = IPL_OK;
    uint32_t session;
    for (session = 0; session < s->facts.sessions; session++) {
        answer = ipl_ask(s, IPL_OP_ABORT, session, 0);
        if (answer != IPL_OK && answer != IPL_NOT_OPEN) return answer;
    }
    return IPL_OK;
}

static enum ipl_answer ipl_abort_all_of(struct ipl *s, enum ipl_engine_kind kind) {
    enum ipl_answer answer = ipl_admit(s, kind);
    if (answer != IPL_OK) return answer;
    ipl_begin_call(s);
    return ipl_end_call(s, ipl_abort_each(s));
}

enum ipl_answer ipl_close(struct ipl *s) {
    enum ipl_answer answer = ipl_admit_any(s);
    if (answer == IPL_OK) ipl_end(s);
    return answer;
}

enum ipl_answer ipl_shutdown(struct ipl *s, int drops) {
    enum ipl_answer answer = ipl_admit_either(s);
    if (answer != IPL_OK) return answer;
    ipl_begin_call(s);
    if (drops) answer = ipl_abort_each(s);
    if (answer == IPL_OK) answer = ipl_ask(s, IPL_OP_SHUTDOWN, 0, 0);
    if (answer == IPL_OK) s->facts.is_down = 1;
    return ipl_end_call(s, answer);
}

enum ipl_answer ipl_reopen(struct ipl *s) {
    enum ipl_answer answer = ipl_admit_any(s);
    if (answer != IPL_OK) return answer;
    ipl_begin_call(s);
    s->is_gone = 1;
    answer = ipl_open_part(s);
    s->is_gone = answer != IPL_OK;
    s->facts.is_down = answer != IPL_OK;
    s->is_busy = 0;
    return answer;
}

enum ipl_answer ipl_abandon(struct ipl *s) {
    if (s == NULL) return IPL_NULL_POINTER;
    if (s->self != s) return IPL_NO_STORE;
    if (s->tag == IPL_TAG_OPENING) {
        ipl_end(s);
        return IPL_OK;
    }
    if (s->tag != IPL_TAG_OPEN) return IPL_NO_STORE;
    if (s->is_busy) {
        s->is_gone = 1;
        s->facts.is_down = 1;
    }
    s->is_busy = 0;
    return IPL_OK;
}

uint32_t ipl_unit_count(const struct ipl *s) {
    return s != NULL && s->self == s && s->tag == IPL_TAG_OPEN ? s->facts.units : 0;
}

/* What the engine knows is left; it asks its part nothing. */
static enum ipl_answer ipl_tell_left(const struct ipl *s, struct ipl_facts *facts) {
    struct ipl_request *r = ipl_engine_request(s->engine);
    enum ipl_answer answer;
    r->op = IPL_OP_LEFT;
    answer = ipl_answered(ipl_engine_call(s->engine));
    if (answer != IPL_OK) return answer;
    facts->retired = r->sessions[1];
    facts->least_erases = r->sessions[2];
    facts->most_erases = r->sessions[3];
    facts->clean_logs = r->sessions[4];
    facts->clean_commits = r->sessions[5];
    facts->numbers = r->sessions[6] | (uint64_t)r->sessions[7] << 32;
    return IPL_OK;
}

enum ipl_answer ipl_state(const struct ipl *s, struct ipl_facts *facts) {
    enum ipl_answer answer;
    if (facts == NULL) return IPL_NULL_POINTER;
    memset(facts, 0, sizeof *facts);
    answer = ipl_admit_any(s);
    if (answer != IPL_OK) return answer;
    *facts = s->facts;
    return s->is_gone || s->kind == IPL_ENGINE_READER ? IPL_OK : ipl_tell_left(s, facts);
}

const uint32_t *ipl_detail(const struct ipl *s) {
    static const uint32_t none[4] = {0, 0, 0, 0};
    return s != NULL ? s->detail : none;
}

/* ---- records */

enum ipl_answer ipl_begin(struct ipl *s, uint32_t session) {
    return ipl_call(s, IPL_ENGINE_RECORDS, IPL_OP_BEGIN, session, 0);
}

enum ipl_answer ipl_get(struct ipl *s, uint32_t session, uint32_t name, void *value, uint32_t room, uint32_t *len) {
    return ipl_find_name(s, IPL_OP_GET, session, name, value, room, len);
}

enum ipl_answer ipl_share(struct ipl *s, uint32_t session, uint32_t name, void *value, uint32_t room, uint32_t *len) {
    return ipl_find_name(s, IPL_OP_SHARE, session, name, value, room, len);
}

enum ipl_answer ipl_committed(struct ipl *s, uint32_t name, void *value, uint32_t room, uint32_t *len) {
    return ipl_find_name(s, IPL_OP_COMMITTED, 0, name, value, room, len);
}

enum ipl_answer ipl_put(struct ipl *s, uint32_t session, uint32_t name, const void *value, uint32_t len) {
    enum ipl_answer answer = ipl_admit(s, IPL_ENGINE_RECORDS);
    if (answer != IPL_OK) return answer;
    if (ipl_lacks(value, len, IPL_VALUE)) return IPL_NULL_POINTER;
    ipl_begin_call(s);
    ipl_take_value(s, value, len, IPL_VALUE);
    return ipl_end_call(s, ipl_ask(s, IPL_OP_PUT, session, name));
}

enum ipl_answer ipl_del(struct ipl *s, uint32_t session, uint32_t name) {
    return ipl_call(s, IPL_ENGINE_RECORDS, IPL_OP_DEL, session, name);
}

enum ipl_answer ipl_commit(struct ipl *s, uint32_t session) {
    return ipl_call(s, IPL_ENGINE_RECORDS, IPL_OP_COMMIT, session, 0);
}

static enum ipl_answer ipl_commit_each(struct ipl *s, enum ipl_engine_kind kind, const uint32_t *sessions,
                                       uint32_t count) {
    struct ipl_request *r;
    enum ipl_answer answer = ipl_admit(s, kind);
    if (answer != IPL_OK) return answer;
    if (ipl_lacks(sessions, count, IPL_SESSIONS)) return IPL_NULL_POINTER;
    ipl_begin_call(s);
    r = ipl_engine_request(s->engine);
    r->len = count;
    if (count != 0 && count <= IPL_SESSIONS) memcpy(r->sessions, sessions, count * sizeof *sessions);
    return ipl_end_call(s, ipl_ask(s, IPL_OP_COMMIT_ALL, 0, 0));
}

enum ipl_answer ipl_commit_all(struct ipl *s, const uint32_t *sessions, uint32_t count) {
    return ipl_commit_each(s, IPL_ENGINE_RECORDS, sessions, count);
}

enum ipl_answer ipl_abort(struct ipl *s, uint32_t session) {
    return ipl_call(s, IPL_ENGINE_RECORDS, IPL_OP_ABORT, session, 0);
}

enum ipl_answer ipl_abort_all(struct ipl *s) { return ipl_abort_all_of(s, IPL_ENGINE_RECORDS); }

enum ipl_answer ipl_merge(struct ipl *s, uint32_t unit) {
    return ipl_call(s, IPL_ENGINE_RECORDS, IPL_OP_MERGE, 0, unit);
}

static enum ipl_answer ipl_call_page(struct ipl *s, enum ipl_op op, uint32_t unit, uint32_t page) {
    enum ipl_answer answer = ipl_admit(s, IPL_ENGINE_RECORDS);
    if (answer != IPL_OK) return answer;
    ipl_begin_call(s);
    ipl_engine_request(s->engine)->page = page;
    return ipl_end_call(s, ipl_ask(s, op, 0, unit));
}

enum ipl_answer ipl_hold(struct ipl *s, uint32_t unit, uint32_t page) {
    return ipl_call_page(s, IPL_OP_HOLD, unit, page);
}

enum ipl_answer ipl_release(struct ipl *s, uint32_t unit, uint32_t page) {
    return ipl_call_page(s, IPL_OP_RELEASE, unit, page);
}

/* ---- keys */

static struct ipl *ipl_below(struct ipl_keys *k) { return k != NULL ? &k->store : NULL; }
static const struct ipl *ipl_below_const(const struct ipl_keys *k) { return k != NULL ? &k->store : NULL; }

enum ipl_answer ipl_keys_open(struct ipl_keys *k, const struct ipl_driver *driver, const struct ipl_config *config,
                              void *memory, size_t size) {
    return ipl_open_kind(ipl_below(k), IPL_ENGINE_KEYS, driver, config, memory, size, IPL_WORK_OPEN);
}

enum ipl_answer ipl_keys_open_or_format(struct ipl_keys *k, const struct ipl_driver *driver,
                                        const struct ipl_config *config, void *memory, size_t size) {
    return ipl_open_kind(ipl_below(k), IPL_ENGINE_KEYS, driver, config, memory, size, IPL_WORK_OPEN_OR_FORMAT);
}

enum ipl_answer ipl_keys_close(struct ipl_keys *k) { return ipl_close(ipl_below(k)); }
enum ipl_answer ipl_keys_shutdown(struct ipl_keys *k, int drops) { return ipl_shutdown(ipl_below(k), drops); }
enum ipl_answer ipl_keys_reopen(struct ipl_keys *k) { return ipl_reopen(ipl_below(k)); }
enum ipl_answer ipl_keys_abandon(struct ipl_keys *k) { return ipl_abandon(ipl_below(k)); }

uint32_t ipl_keys_unit_count(const struct ipl_keys *k) { return ipl_unit_count(ipl_below_const(k)); }

enum ipl_answer ipl_keys_state(const struct ipl_keys *k, struct ipl_facts *facts) {
    return ipl_state(ipl_below_const(k), facts);
}

const uint32_t *ipl_keys_detail(const struct ipl_keys *k) { return ipl_detail(ipl_below_const(k)); }

enum ipl_answer ipl_keys_begin(struct ipl_keys *k, uint32_t session) {
    return ipl_call(ipl_below(k), IPL_ENGINE_KEYS, IPL_OP_BEGIN, session, 0);
}

enum ipl_answer ipl_keys_get(struct ipl_keys *k, uint32_t session, const void *key, uint32_t key_len,
                             void *value, uint32_t room, uint32_t *len) {
    struct ipl *s = ipl_below(k);
    enum ipl_answer answer;
    if (!ipl_has_room(value, room, len) || ipl_lacks(key, key_len, IPL_KEY)) return IPL_NULL_POINTER;
    answer = ipl_admit(s, IPL_ENGINE_KEYS);
    if (answer != IPL_OK) return answer;
    ipl_begin_call(s);
    ipl_take_key(s, key, key_len);
    return ipl_end_call(s, ipl_find(s, IPL_OP_GET, session, 0, value, room, len));
}

enum ipl_answer ipl_keys_put(struct ipl_keys *k, uint32_t session, const void *key, uint32_t key_len,
                             const void *value, uint32_t len) {
    struct ipl *s = ipl_below(k);
    enum ipl_answer answer = ipl_admit(s, IPL_ENGINE_KEYS);
    if (answer != IPL_OK) return answer;
    if (ipl_lacks(key, key_len, IPL_KEY) || ipl_lacks(value, len, IPL_KEY_VALUE)) return IPL_NULL_POINTER;
    ipl_begin_call(s);
    ipl_take_key(s, key, key_len);
    ipl_take_value(s, value, len, IPL_KEY_VALUE);
    return ipl_end_call(s, ipl_ask(s, IPL_OP_PUT, session, 0));
}

static enum ipl_answer ipl_call_key(struct ipl *s, enum ipl_op op, uint32_t session, const void *key, uint32_t key_len) {
    enum ipl_answer answer = ipl_admit(s, IPL_ENGINE_KEYS);
    if (answer != IPL_OK) return answer;
    if (ipl_lacks(key, key_len, IPL_KEY)) return IPL_NULL_POINTER;
    ipl_begin_call(s);
    ipl_take_key(s, key, key_len);
    return ipl_end_call(s, ipl_ask(s, op, session, 0));
}

enum ipl_answer ipl_keys_share(struct ipl_keys *k, uint32_t session, const void *key, uint32_t key_len) {
    return ipl_call_key(ipl_below(k), IPL_OP_SHARE, session, key, key_len);
}

enum ipl_answer ipl_keys_del(struct ipl_keys *k, uint32_t session, const void *key, uint32_t key_len) {
    return ipl_call_key(ipl_below(k), IPL_OP_DEL, session, key, key_len);
}

enum ipl_answer ipl_keys_commit(struct ipl_keys *k, uint32_t session) {
    return ipl_call(ipl_below(k), IPL_ENGINE_KEYS, IPL_OP_COMMIT, session, 0);
}

enum ipl_answer ipl_keys_commit_all(struct ipl_keys *k, const uint32_t *sessions, uint32_t count) {
    return ipl_commit_each(ipl_below(k), IPL_ENGINE_KEYS, sessions, count);
}

enum ipl_answer ipl_keys_merge(struct ipl_keys *k, uint32_t unit) {
    return ipl_call(ipl_below(k), IPL_ENGINE_KEYS, IPL_OP_MERGE, 0, unit);
}

enum ipl_answer ipl_keys_abort(struct ipl_keys *k, uint32_t session) {
    return ipl_call(ipl_below(k), IPL_ENGINE_KEYS, IPL_OP_ABORT, session, 0);
}

enum ipl_answer ipl_keys_abort_all(struct ipl_keys *k) { return ipl_abort_all_of(ipl_below(k), IPL_ENGINE_KEYS); }
