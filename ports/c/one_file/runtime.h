/* What the translated functions stand on. `m` is the first byte of the module's memory; in front of it stands what C keeps of the
 * engine. Nothing is static but constants, and nothing of a C library is called but memcpy, memmove and memset. */

typedef uint8_t ipl_u8;
typedef uint16_t ipl_u16;
typedef uint32_t ipl_u32;
typedef uint64_t ipl_u64;
typedef int8_t ipl_s8;
typedef int16_t ipl_s16;
typedef int32_t ipl_s32;
typedef int64_t ipl_s64;

/* An address as it is looked at: all 64 bits of it where the processor has as many, else the lower 32. */
#if UINTPTR_MAX > 0xffffffffu
typedef ipl_u64 ipl_a;
#else
typedef ipl_u32 ipl_a;
#endif

/* What C leaves open, and each known compiler does: a cast to a type with a sign wraps, and a shift to the right keeps the sign. That an
 * int has at most 32 bits: a sum of two ipl_u32 would be one of ints else, which doesn't wrap. */
typedef char ipl_a_cast_wraps[(ipl_s32)0xfffffffeu == -2 && (ipl_s8)(ipl_u8)0xfeu == -2 ? 1 : -1];
typedef char ipl_a_shift_keeps_the_sign[(ipl_s32)-2 >> 1 == -1 && (ipl_s64)-2 >> 1 == -1 ? 1 : -1];
typedef char ipl_an_int_has_at_most_32_bits[sizeof(int) <= 4 ? 1 : -1];

#if defined(__GNUC__)
#define IPL_RARE(x) __builtin_expect(!!(x), 0)
#define IPL_NO_RETURN __attribute__((noreturn))
#define IPL_OUT_OF_LINE __attribute__((noinline))
#if defined(__OPTIMIZE_SIZE__) || !defined(__OPTIMIZE__)
#define IPL_IN static inline __attribute__((unused))
#else
#define IPL_IN static inline __attribute__((always_inline, unused))
#endif
#else
#define IPL_RARE(x) (x)
#define IPL_NO_RETURN
#define IPL_OUT_OF_LINE
#define IPL_IN static inline
#endif

/* ---- traps */

/* A trap goes back to where the engine was called. GCC, and clang for the processors named here, do so by themselves; for others, or
 * with -DIPL_SETJMP, it is done by setjmp and longjmp of the C library. */
#if defined(__GNUC__) && !defined(IPL_SETJMP) && \
    (!defined(__clang__) || defined(__x86_64__) || defined(__i386__) || defined(__arm__))
typedef void *ipl_place[5];
#define IPL_LAND(place) __builtin_setjmp(place)
#define IPL_GO_BACK(place) __builtin_longjmp(place, 1)
#else
#include <setjmp.h>
typedef jmp_buf ipl_place;
#define IPL_LAND(place) setjmp(place)
#define IPL_GO_BACK(place) longjmp(place, 1)
#endif

enum {
    IPL_HEAD = 64,            /* bytes of the engine in front of `m`, a multiple of its alignment */
    IPL_SLACK = 4096,         /* the last bytes of the memory, which are only reached by an offset */
    IPL_MOST_MEMORY = 1 << 30 /* data of the module has its address there or above */
};

struct ipl_engine {
    ipl_u64 g[1];                    /* the module's globals: where its stack stands */
    ipl_u64 handle;                  /* of the open store, or of a part that is only read */
    const struct ipl_driver *driver;
    ipl_place *trap;                 /* where a trap goes */
    ipl_a end;                       /* the memory's size less the slack */
    ipl_u32 heap;                    /* the first address that wasn't handed out */
    ipl_u32 trapped;
    ipl_u32 reads;                   /* whether the part is only read */
};
typedef char ipl_the_head_is_large_enough[sizeof(struct ipl_engine) <= IPL_HEAD ? 1 : -1];

#define IPL_E(m) ((struct ipl_engine *)(void *)((m) - IPL_HEAD))
#define IPL_G(i) (IPL_E(m)->g[i])
#define IPL_ENDS const ipl_a end = IPL_E(m)->end;

static IPL_OUT_OF_LINE IPL_NO_RETURN void ipl_trap(ipl_u8 *m) {
    IPL_E(m)->trapped = 1;
    IPL_GO_BACK(*IPL_E(m)->trap);
}

/* ---- numbers in the memory, the least byte first */

#if defined(__BYTE_ORDER__) && __BYTE_ORDER__ == __ORDER_BIG_ENDIAN__
#define IPL_BIG 1
IPL_IN ipl_u16 ipl_turn16(ipl_u16 x) { return (ipl_u16)(x << 8 | x >> 8); }
IPL_IN ipl_u32 ipl_turn32(ipl_u32 x) { return x << 24 | (x & 0xff00u) << 8 | (x >> 8 & 0xff00u) | x >> 24; }
IPL_IN ipl_u64 ipl_turn64(ipl_u64 x) { return (ipl_u64)ipl_turn32((ipl_u32)x) << 32 | ipl_turn32((ipl_u32)(x >> 32)); }
#define IPL_TURN(bits, x) ipl_turn##bits(x)
#else
#define IPL_BIG 0
#define IPL_TURN(bits, x) (x)
#endif

/* As a number that is aligned; and, with U, as bytes anywhere. */
#if defined(__GNUC__)
typedef ipl_u16 __attribute__((may_alias)) ipl_m16;
typedef ipl_u32 __attribute__((may_alias)) ipl_m32;
typedef ipl_u64 __attribute__((may_alias)) ipl_m64;
#define IPL_READ(bits) return IPL_TURN(bits, *(const ipl_m##bits *)(const void *)p);
#define IPL_WRITE(bits) *(ipl_m##bits *)(void *)p = IPL_TURN(bits, x);
#else
#define IPL_READ(bits) ipl_u##bits x; memcpy(&x, p, sizeof x); return IPL_TURN(bits, x);
#define IPL_WRITE(bits) x = IPL_TURN(bits, x); memcpy(p, &x, sizeof x);
#endif
#define IPL_WIDTH(bits) \
    IPL_IN ipl_u##bits ipl_get##bits(const ipl_u8 *p) { IPL_READ(bits) } \
    IPL_IN void ipl_set##bits(ipl_u8 *p, ipl_u##bits x) { IPL_WRITE(bits) } \
    IPL_IN ipl_u##bits ipl_get##bits##u(const ipl_u8 *p) { ipl_u##bits x; memcpy(&x, p, sizeof x); return IPL_TURN(bits, x); } \
    IPL_IN void ipl_set##bits##u(ipl_u8 *p, ipl_u##bits x) { x = IPL_TURN(bits, x); memcpy(p, &x, sizeof x); }
IPL_WIDTH(16)
IPL_WIDTH(32)
IPL_WIDTH(64)
IPL_IN ipl_u8 ipl_get8(const ipl_u8 *p) { return *p; }
IPL_IN void ipl_set8(ipl_u8 *p, ipl_u8 x) { *p = x; }

/* ---- addresses: no access leaves the memory */

/* IPL_AT: up to the slack, so that an offset and a size that are together no more stay within the memory. IPL_FAR: so that n bytes from
 * there do. IPL_SPAN: the same of a number of bytes that isn't known. With -DIPL_TRUST_ADDRESSES none of them is looked at. */
#ifdef IPL_TRUST_ADDRESSES
#define IPL_AT(a) ((void)end, (ipl_a)(a))
#define IPL_FAR(a, n) ((void)end, (ipl_a)(a))
#define IPL_SPAN(a, n) ((void)end)
#else
IPL_IN ipl_a ipl_at(ipl_u8 *m, ipl_a end, ipl_a a) {
    if (IPL_RARE(a > end)) ipl_trap(m);
    return a;
}
IPL_IN ipl_a ipl_far(ipl_u8 *m, ipl_a end, ipl_a a, ipl_a n) {
    if (IPL_RARE(n > end || a > end - n)) ipl_trap(m);
    return a;
}
IPL_IN void ipl_span(ipl_u8 *m, ipl_a end, ipl_u64 a, ipl_u64 n) {
    if (IPL_RARE(n > end || a > end - n)) ipl_trap(m);
}
#define IPL_AT(a) ipl_at(m, end, (ipl_a)(a))
#define IPL_FAR(a, n) ipl_far(m, end, (ipl_a)(a), n)
#define IPL_SPAN(a, n) ipl_span(m, end, a, n)
#endif
#define IPL_P(a, o) (m + IPL_AT(a) + (o))
#define IPL_PF(a, o, n) (m + IPL_FAR(a, (o) + (n)) + (o))
/* Of the data, which isn't in the memory: the translation has seen that each such address is in it. */
#define IPL_PT(a, o) (ipl_data.bytes + ((ipl_a)(a) - (o)))

#define IPL_L8(a, o) ((ipl_u32)ipl_get8(IPL_P(a, o)))
#define IPL_L16(a, o) ((ipl_u32)ipl_get16(IPL_P(a, o)))
#define IPL_L32(a, o) ipl_get32(IPL_P(a, o))
#define IPL_L64(a, o) ipl_get64(IPL_P(a, o))
#define IPL_L16U(a, o) ((ipl_u32)ipl_get16u(IPL_P(a, o)))
#define IPL_L32U(a, o) ipl_get32u(IPL_P(a, o))
#define IPL_L64U(a, o) ipl_get64u(IPL_P(a, o))
#define IPL_L8F(a, o) ((ipl_u32)ipl_get8(IPL_PF(a, o, 1u)))
#define IPL_L16F(a, o) ((ipl_u32)ipl_get16(IPL_PF(a, o, 2u)))
#define IPL_L32F(a, o) ipl_get32(IPL_PF(a, o, 4u))
#define IPL_L64F(a, o) ipl_get64(IPL_PF(a, o, 8u))
#define IPL_L16UF(a, o) ((ipl_u32)ipl_get16u(IPL_PF(a, o, 2u)))
#define IPL_L32UF(a, o) ipl_get32u(IPL_PF(a, o, 4u))
#define IPL_L64UF(a, o) ipl_get64u(IPL_PF(a, o, 8u))
#define IPL_L8T(a, o) ((ipl_u32)ipl_get8(IPL_PT(a, o)))
#define IPL_L16T(a, o) ((ipl_u32)ipl_get16(IPL_PT(a, o)))
#define IPL_L32T(a, o) ipl_get32(IPL_PT(a, o))
#define IPL_L64T(a, o) ipl_get64(IPL_PT(a, o))
#define IPL_L16UT(a, o) ((ipl_u32)ipl_get16u(IPL_PT(a, o)))
#define IPL_L32UT(a, o) ipl_get32u(IPL_PT(a, o))
#define IPL_L64UT(a, o) ipl_get64u(IPL_PT(a, o))
#define IPL_S8(a, o, x) ipl_set8(IPL_P(a, o), (ipl_u8)(x))
#define IPL_S16(a, o, x) ipl_set16(IPL_P(a, o), (ipl_u16)(x))
#define IPL_S32(a, o, x) ipl_set32(IPL_P(a, o), (ipl_u32)(x))
#define IPL_S64(a, o, x) ipl_set64(IPL_P(a, o), x)
#define IPL_S16U(a, o, x) ipl_set16u(IPL_P(a, o), (ipl_u16)(x))
#define IPL_S32U(a, o, x) ipl_set32u(IPL_P(a, o), (ipl_u32)(x))
#define IPL_S64U(a, o, x) ipl_set64u(IPL_P(a, o), x)
#define IPL_S8F(a, o, x) ipl_set8(IPL_PF(a, o, 1u), (ipl_u8)(x))
#define IPL_S16F(a, o, x) ipl_set16(IPL_PF(a, o, 2u), (ipl_u16)(x))
#define IPL_S32F(a, o, x) ipl_set32(IPL_PF(a, o, 4u), (ipl_u32)(x))
#define IPL_S64F(a, o, x) ipl_set64(IPL_PF(a, o, 8u), x)
#define IPL_S16UF(a, o, x) ipl_set16u(IPL_PF(a, o, 2u), (ipl_u16)(x))
#define IPL_S32UF(a, o, x) ipl_set32u(IPL_PF(a, o, 4u), (ipl_u32)(x))
#define IPL_S64UF(a, o, x) ipl_set64u(IPL_PF(a, o, 8u), x)

/* Of no bytes nothing is asked: the address of what is empty may be none of the memory. */
IPL_IN void ipl_copy(ipl_u8 *m, ipl_a end, ipl_u64 to, ipl_u64 from, ipl_u64 n) {
    if (n == 0) return;
    IPL_SPAN(to, n);
    IPL_SPAN(from, n);
    memmove(m + (ipl_a)to, m + (ipl_a)from, (size_t)n);
}
IPL_IN void ipl_fill(ipl_u8 *m, ipl_a end, ipl_u64 to, ipl_u32 x, ipl_u64 n) {
    if (n == 0) return;
    IPL_SPAN(to, n);
    memset(m + (ipl_a)to, (ipl_u8)x, (size_t)n);
}
/* What a loop over bytes does, which goes at least once: of no bytes it would leave the memory. A move from the first byte on, or from
 * the last one down, may read what it has written; else it is memmove's. */
IPL_IN void ipl_spans(ipl_u8 *m, ipl_a end, ipl_u64 a, ipl_u64 b, ipl_u64 n) {
    if (IPL_RARE(n == 0)) ipl_trap(m);
    IPL_SPAN(a, n);
    IPL_SPAN(b, n);
}
IPL_IN void ipl_rise(ipl_u8 *m, ipl_a end, ipl_u64 to, ipl_u64 from, ipl_u64 n) {
    ipl_a i;
    ipl_spans(m, end, to, from, n);
    if (to - from >= n) memmove(m + (ipl_a)to, m + (ipl_a)from, (size_t)n);
    else for (i = 0; i < n; i++) m[(ipl_a)to + i] = m[(ipl_a)from + i];
}
IPL_IN void ipl_fall(ipl_u8 *m, ipl_a end, ipl_u64 to, ipl_u64 from, ipl_u64 n) {
    ipl_a i;
    ipl_spans(m, end, to, from, n);
    if (from - to >= n) memmove(m + (ipl_a)to, m + (ipl_a)from, (size_t)n);
    else for (i = (ipl_a)n; i > 0; i--) m[(ipl_a)to + i - 1u] = m[(ipl_a)from + i - 1u];
}
IPL_IN ipl_u32 ipl_differ(ipl_u8 *m, ipl_a end, ipl_u64 a, ipl_u64 b, ipl_u64 n) {
    const ipl_u8 *p, *q;
    ipl_u64 bits = 0;
    ipl_spans(m, end, a, b, n);
    p = m + (ipl_a)a;
    q = m + (ipl_a)b;
    for (; n >= 8u; n -= 8u, p += 8, q += 8) bits |= ipl_get64u(p) ^ ipl_get64u(q);
    for (; n != 0; n--) bits |= (ipl_u64)(*p++ ^ *q++);
    return bits != 0;
}
IPL_IN ipl_u32 ipl_bits(ipl_u8 *m, ipl_a end, ipl_u64 a, ipl_u64 n) {
    const ipl_u8 *p;
    ipl_u64 bits = 0;
    ipl_spans(m, end, a, a, n);
    p = m + (ipl_a)a;
    for (; n >= 8u; n -= 8u, p += 8) bits |= ipl_get64u(p);
    for (; n != 0; n--) bits |= *p++;
    bits |= bits >> 32;
    bits |= bits >> 16;
    return (ipl_u32)((bits | bits >> 8) & 255u);
}
#define IPL_RISE(to, from, n) ipl_rise(m, end, to, from, n)
#define IPL_FALL(to, from, n) ipl_fall(m, end, to, from, n)
#define IPL_DIFFER(a, b, n) ipl_differ(m, end, a, b, n)
#define IPL_BITS(a, n) ipl_bits(m, end, a, n)
#define IPL_COPY(to, from, n) ipl_copy(m, end, to, from, n)
#define IPL_FILL(to, x, n) ipl_fill(m, end, to, x, n)

/* ---- operations that C has no operator for, or leaves open at some operands */

#define IPL_OPERATIONS(bits) \
    IPL_IN ipl_u##bits ipl_rotl##bits(ipl_u##bits x, ipl_u##bits n) { return x << (n & (bits - 1)) | x >> ((0u - n) & (bits - 1)); } \
    IPL_IN ipl_u##bits ipl_rotr##bits(ipl_u##bits x, ipl_u##bits n) { return x >> (n & (bits - 1)) | x << ((0u - n) & (bits - 1)); } \
    IPL_IN ipl_u##bits ipl_divu##bits(ipl_u8 *m, ipl_u##bits x, ipl_u##bits y) { \
        if (IPL_RARE(y == 0)) ipl_trap(m); \
        return x / y; \
    } \
    IPL_IN ipl_u##bits ipl_remu##bits(ipl_u8 *m, ipl_u##bits x, ipl_u##bits y) { \
        if (IPL_RARE(y == 0)) ipl_trap(m); \
        return x % y; \
    } \
    IPL_IN ipl_u##bits ipl_divs##bits(ipl_u8 *m, ipl_u##bits x, ipl_u##bits y) { \
        if (IPL_RARE(y == 0 || (x == (ipl_u##bits)1 << (bits - 1) && ~y == 0))) ipl_trap(m); \
        return (ipl_u##bits)((ipl_s##bits)x / (ipl_s##bits)y); \
    } \
    IPL_IN ipl_u##bits ipl_rems##bits(ipl_u8 *m, ipl_u##bits x, ipl_u##bits y) { \
        if (IPL_RARE(y == 0)) ipl_trap(m); \
        return ~y == 0 ? 0 : (ipl_u##bits)((ipl_s##bits)x % (ipl_s##bits)y); \
    } \
    IPL_IN ipl_u##bits ipl_clz##bits(ipl_u##bits x) { ipl_u##bits n = bits; while (x != 0) { x >>= 1; n--; } return n; } \
    IPL_IN ipl_u##bits ipl_ctz##bits(ipl_u##bits x) { ipl_u##bits n = 0; while (n < bits && (x >> n & 1) == 0) n++; return n; } \
    IPL_IN ipl_u##bits ipl_popcnt##bits(ipl_u##bits x) { ipl_u##bits n = 0; while (x != 0) { n += (ipl_u##bits)(x & 1); x >>= 1; } return n; }
IPL_OPERATIONS(32)
IPL_OPERATIONS(64)
