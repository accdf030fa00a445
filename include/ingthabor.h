/*
 * Sessions of Ingthabor, a reverse-mode differentiation tape: text in, a listing out.
 *
 * A session is lines, each ended by a line feed, the last too:
 *
 *     leaf=4008000000000000                    a leaf: the bits of a double, 16 hex digits in lower case
 *     op=3 left=n0 right=c4000000000000000     operations 1 to 6: add, subtract, multiply, divide, max, min; an operand
 *                                              is n and the index of a node, or c and 16 hex digits
 *     op=7 left=n0                             operations 7 and 10: negate, square root
 *     mark=set  mark=reset  rewind=mark  rewind=init  clear=adj
 *     pass=back root=1                         adjoints, from root 1 down to node 0
 *     pass=tomark root=1                       from the end down to the mark
 *     pass=tostart root=1                      from below the mark down to node 0
 *     pass=rest                                the same without a root
 *
 * A pass sets the adjoint of its root to 1.0 and then adds to the adjoints that it reaches. Only clear=adj clears them.
 *
 * An index is decimal, with 1 to 5 digits and no leading zero. Nothing else is a line: no empty one, no comment, no
 * carriage return, no second space. The lines run in turn on a new tape with room for 1,024 nodes. The listing is a
 * header and a line for each node; behind the lines leaf, op=3 and pass=back above it is
 *
 *     nodes=2 mark=0 active=1
 *     node=0 val=4008000000000000 adj=4000000000000000
 *     node=1 val=4018000000000000 adj=3ff0000000000000
 *
 * Link with -lingthabor, on x86-64 Linux. No call keeps anything: threads may call at once, each with areas of its own.
 * A call takes less than INGTHABOR_STACK bytes of the stack and nothing of the heap.
 */
#ifndef INGTHABOR_H
#define INGTHABOR_H

#include <stddef.h>
#include <stdint.h>
#ifdef __x86_64__
#include <xmmintrin.h>
#endif

#ifdef __cplusplus
extern "C" {
#endif

/* The longest session in bytes. */
#define INGTHABOR_MOST_SESSION 65536

/* The longest listing in bytes: of 1,024 nodes with the mark behind the last. With so much room none is too long. */
#define INGTHABOR_MOST_LISTING 52168

/* How many nodes the tape has room for. */
#define INGTHABOR_MOST_NODES 1024

/* More than a call takes of the stack, in bytes: some 51,000 were measured, with what a thread itself takes. */
#define INGTHABOR_STACK 65536

/* The refusals that a session can meet. */
#define INGTHABOR_STALE 3            /* an operand or a root that is no node: its index is not below the length */
#define INGTHABOR_FULL 5             /* a node more than the tape has room for */
#define INGTHABOR_LISTING_TOO_LONG 8 /* the listing does not fit; the line is 0 */
#define INGTHABOR_MALFORMED 9        /* a malformed line; or too long a session, and then the line is 0 */

/* Of the number n that a call gives: the refusal, or 0 where n counts the bytes of the listing. */
#define INGTHABOR_REFUSAL(n) ((uint32_t)(n) >> 24)

/* Of the number n of a refusal: the refused line, counted from 1. */
#define INGTHABOR_LINE(n) ((uint32_t)(n)&UINT32_C(0xffffff))

/* What ingthabor_run gives where it called nothing. No session gives it. */
#define INGTHABOR_MISUSE UINT32_C(0xffffffff)

/*
 * The proved function itself. It reads the session, whatever its bytes are, and gives how many bytes of the listing it
 * wrote; those behind them stay as they were. The first line that is refused ends it: it gives the refusal and the
 * line, and the whole listing stays as it was.
 *
 * That holds where ingthabor_run calls it: neither pointer is null, not even with length 0; the areas do not overlap;
 * floats are rounded to nearest, with subnormals kept, and trap nothing. It is the caller's to see that nothing else
 * writes either area during the call, or reads the listing.
 */
uint32_t ingthabor_session(const uint8_t *session, size_t session_length, uint8_t *listing, size_t listing_length);

/*
 * The same behind a guard. A length of 0 is good with any pointer. A null pointer with another length, areas that
 * overlap, or a length over PTRDIFF_MAX, which no area has, give INGTHABOR_MISUSE; nothing is read or written then.
 * Floats are reckoned as the proof has it, whatever the caller has set, or -ffast-math for it, and that is set again
 * after the call.
 */
static inline uint32_t ingthabor_run(const void *session, size_t session_length, void *listing, size_t listing_length) {
    uint8_t none[2] = {0, 0};
    const uint8_t *from = session_length == 0 ? &none[0] : (const uint8_t *)session;
    uint8_t *to = listing_length == 0 ? &none[1] : (uint8_t *)listing;
    uintptr_t begin = (uintptr_t)from, other = (uintptr_t)to;
    uint32_t number;
    if (from == NULL || to == NULL || session_length > PTRDIFF_MAX || listing_length > PTRDIFF_MAX) {
        return INGTHABOR_MISUSE;
    }
    if (begin < other ? other - begin < session_length : begin - other < listing_length) {
        return INGTHABOR_MISUSE;
    }
#ifdef __x86_64__
    unsigned int set = _mm_getcsr();
    _mm_setcsr(0x1f80); /* what a process begins with */
#endif
    number = ingthabor_session(from, session_length, to, listing_length);
#ifdef __x86_64__
    _mm_setcsr(set);
#endif
    return number;
}

#ifdef __cplusplus
}
#endif

#endif
