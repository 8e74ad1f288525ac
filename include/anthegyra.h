/*
 * Anthegyra's stretch judge, for a program in C99 or later, or in C++11 or later. Link libstretch.a
 * (x86-64) beside yours.
 *
 * A property is: after this sequence the next answer may only be one of these, whatever requests come
 * in between. A stretch is one packed property and one packed trace, each whole and alone in its slice:
 *
 *   property   17 bytes for a sequence of one action, up to 44 for 32
 *   trace      6 bytes for each record, the last of them an end record; at most 16,383 others
 *
 * docs/RULES.md has both forms bit by bit. Both slices are only read. A slice of length 0 may have a
 * null pointer; otherwise the pointer is to that many readable bytes, which nothing else writes during
 * the call. The call is reentrant and may be made from several threads at once: it keeps nothing
 * between calls, allocates nothing, does no input or output, and uses less than 20 KB of stack.
 *
 * One number comes back: refusal * 65,536 + verdict * 16,384 + count. Take it apart with the three
 * helpers below, the refusal first: where it is not 0, verdict and count are 0 and mean nothing.
 *
 * The verdict is the one that stands after the last record. The count is that of the records taken,
 * gap marks and lines skipped while blind too, the end record not. The refusal is the first one met,
 * the property judged before the trace. What the numbers mean stands beside their names below.
 *
 * Gaps. A gap mark closes the run, and the answer is of the last run alone: what was certain before the
 * mark is not in it. So judge the stretch up to each gap mark too, with an end record in the mark's
 * place. After a mark the answer is blind until a line comes more than 2 * UB after every stamp before
 * it; that line begins a new run. A mark says how many lines were lost, 0 to 62, or 63 for more or
 * unknown; no answer depends on it.
 *
 * Longer logs. Behind 16,383 records begin the next stretch with a gap mark, of 0 lost lines, at the
 * last stamp of the one before, and go on with the lines behind that. A stretch that began with those
 * lines alone could accuse falsely: what was sent before them may have arrived among them. With bounds
 * 10 and 30, the sequence !5 !6 and no output allowed, ?7 @180, !5 @200, !6 @200, !2 @201 is
 * suspect, since ?7 may stand between !5 and !6; without ?7 the same outputs are certain; with a
 * gap mark at 180 in its place they are blind, which is right. The mark costs what every gap costs:
 * the answer is blind until a line comes more than 2 * UB later, and a breach that begins before
 * that line goes unseen. Cut at a quiet of more than 2 * UB, where there is one, and nothing is
 * blind. The mark is one of the next 16,383.
 */
#ifndef ANTHEGYRA_H
#define ANTHEGYRA_H

#include <stddef.h>
#include <stdint.h>

/* One more whenever a call, its numbers or what they mean, a name here or a packed form changes. Since 2
   a message on its way to the node does not end what the sequence began; since 3 the 6 bits of action of
   a gap mark are the number of lost lines, and none of them is refused; since 4 the archive says its
   version, and in C++ the helpers are inline functions like any other. */
#define ANTHEGYRA_VERSION 4

/* What the orders of events at the node that fit the stamps have in common. */
enum anthegyra_verdict_number {
    ANTHEGYRA_CLEAR = 0,   /* none breaks the property */
    ANTHEGYRA_SUSPECT = 1, /* some break it and some do not */
    ANTHEGYRA_CERTAIN = 2, /* every one breaks it */
    ANTHEGYRA_BLIND = 3    /* lines were lost at a gap mark, and no later line starts a new run */
};

enum anthegyra_refusal_number {
    ANTHEGYRA_TAKEN = 0,
    ANTHEGYRA_LENGTH = 1,      /* the sequence's length is 0 or above 32 */
    ANTHEGYRA_BOUNDS = 2,      /* the bounds are outside 1 <= LB <= UB <= 60,000,000 */
    ANTHEGYRA_ACTION = 3,      /* an action or a number of lost lines above 63: never from this call,
                                  six bits hold none */
    ANTHEGYRA_STAMP_LIMIT = 4, /* a stamp passes 1,099,511,627,775 */
    ANTHEGYRA_STAMP_FALLS = 5, /* a stamp below the latest: never from this call, stamps are added up */
    ANTHEGYRA_ROOM = 6,        /* more than 64 inputs would be open; put a gap mark for the line */
    ANTHEGYRA_MISSING = 7,     /* bytes are missing: in the property, in a record, or the end record */
    ANTHEGYRA_BROKEN = 8,      /* pad bits that are not zero, an end record with an action or a stamp,
                                  bytes behind the property or the end record */
    ANTHEGYRA_TOO_LONG = 9,    /* nothing else is wrong, but there are more than 16,383 records to count */
    ANTHEGYRA_SESSION = 10     /* a session record out of range: never from this call, none is given */
};

#ifdef __cplusplus
extern "C" {
#endif

uint64_t anthegyra_stretch_judge(const uint8_t *property, size_t property_len,
                                 const uint8_t *trace, size_t trace_len);

/* The version of the archive that was linked: ANTHEGYRA_VERSION of the header that goes with it. */
uint64_t anthegyra_version(void);

#ifdef __cplusplus
}
#endif

/* In C each file has its own. In C++ all files have one, so that other inline functions may use it. */
#ifdef __cplusplus
#define ANTHEGYRA_INLINE inline
#else
#define ANTHEGYRA_INLINE static inline
#endif

ANTHEGYRA_INLINE unsigned anthegyra_refusal(uint64_t n) { return (unsigned)(n / 65536); }
ANTHEGYRA_INLINE unsigned anthegyra_verdict(uint64_t n) { return (unsigned)(n / 16384 % 4); }
ANTHEGYRA_INLINE unsigned anthegyra_count(uint64_t n) { return (unsigned)(n % 16384); }

#undef ANTHEGYRA_INLINE

#endif
