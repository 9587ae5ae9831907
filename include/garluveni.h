/*
 * Garluveni's C face: judges a run of a small program on persistent memory, names the entry that stands in the way
 * of an illegal step, and asks whether a power cut can leave a memory, of every run in turn or of every state once.
 * The functions are proved to return exactly what docs/SIGNATURES.md says of them, for every input. They are for
 * x86-64 Linux and stand in target/staticlib/libhost.a, which 'tools/build-proved host' makes:
 *
 *     cc -Iinclude host.c target/staticlib/libhost.a
 *
 * What a caller must keep, because no function can test it:
 *   - 'bytes' points at 'bytes_len' bytes to read, 'steps' at 'steps_len' bytes to write, 'memory' at 'memory_len'
 *     32-bit words to write, aligned as a uint32_t must be; no byte is in two of them.
 *   - Until the call returns all of them stay alive, nobody else writes to 'bytes', and nobody else reads or writes
 *     'steps' or 'memory': no thread, no signal handler, no other process through shared memory or a mapped file.
 *   - An empty buffer is a length of 0; its pointer is not followed and may be anything, NULL too.
 *   - 1 MiB of stack is left; the deepest question is tested with no more than that.
 *
 * Of 'bytes' and 'steps' no alignment is asked, and nothing of the caller's is kept after the return. The functions
 * have no state of their own, so threads may call them at once, each with a 'steps' and a 'memory' of its own. They
 * allocate nothing, do no input or output, call nothing of yours or of the C library but memcpy and memset, and
 * always end; a question's time grows with its budget, that of a walk that remembers with the memory that it is lent
 * too.
 */
#ifndef GARLUVENI_H
#define GARLUVENI_H

#include <stddef.h>
#include <stdint.h>

#ifdef __cplusplus
extern "C" {
#endif

enum {
    /* The most of a case: threads, instructions of a thread, locations. */
    GARLUVENI_MOST_THREADS = 4,
    GARLUVENI_MOST_INSTRUCTIONS = 16,
    GARLUVENI_MOST_LOCATIONS = 16,
    /* The longest case file; a longer input is refused. */
    GARLUVENI_CASE_BYTES = 2640,
    /* A step as it is stored: a record of kind 6, that is 4, 0, 6, 0, thread, code, position, location. A
     * persist names a cache line there; in a case of version 1 that is the location's number. */
    GARLUVENI_STEP_BYTES = 8,
    /* No run is longer than its program's full length, one with a failed compare is shorter, and no full length
     * is above this. */
    GARLUVENI_STEPS = 192,
    /* With so many bytes lent no question is refused with 31. */
    GARLUVENI_STEPS_BYTES = GARLUVENI_STEP_BYTES * GARLUVENI_STEPS,
    /* A walk that remembers keeps each state in so many 32-bit words of lent memory: 768 bytes. */
    GARLUVENI_STATE_WORDS = 192
};

/* The answers. The place that goes with an answer is 0 where nothing is said of it. */
enum garluveni_answers {
    /* Reading refusals; the place is the offset of the faulty record. */
    GARLUVENI_CUT = 1,         /* fewer than 4 bytes where a record must start, or payload cut */
    GARLUVENI_KIND = 2,        /* kind not 1 to 6 */
    GARLUVENI_LENGTH = 3,      /* length not the one for that kind, or for that version and count of locations */
    GARLUVENI_ORDER = 4,       /* first record not kind 1, kind 1 again, or a kind lower than the one before */
    GARLUVENI_RANGE = 5,       /* a field out of range */
    GARLUVENI_RISING = 6,      /* rising or not-falling order broken */
    GARLUVENI_INSTRUCTION = 7, /* 17th instruction of a thread */
    GARLUVENI_UNUSED = 8,      /* unused field not 0; a first content of 0; a passed count of 0; lines out of order */
    GARLUVENI_STEP = 9,        /* 193rd step record */
    GARLUVENI_REGISTER = 10,   /* a register is stored or compared that nothing before it in its thread sets */

    /* Rules of the machine, from the judge; the place is the index of the first illegal step, from 0. */
    GARLUVENI_NONE_LEFT = 21,         /* issue: the thread has no instruction left */
    GARLUVENI_BUFFER_NOT_EMPTY = 22,  /* issue of an exchange, compare or mfence: the own buffer is not empty */
    GARLUVENI_MARKER_QUEUED = 23,     /* issue of one of these: a marker of the thread is in a queue */
    GARLUVENI_NO_ENTRY = 24,          /* move: no entry at the position */
    GARLUVENI_NOT_FIRST = 25,         /* move: behind position 0, and not a flush-opt */
    GARLUVENI_BARRED = 26,            /* move: a flush-opt behind an entry that it may not pass */
    GARLUVENI_QUEUE_NOT_EMPTY = 27,   /* move of a flush: its line's queue is not empty */
    GARLUVENI_MARKER_LEFT = 28,       /* move of an sfence: a marker of the thread is in a queue */
    GARLUVENI_QUEUE_EMPTY = 29,       /* persist: the line's queue is empty */

    /* From the question alone, whichever walk it is asked of. */
    GARLUVENI_SHORT = 31,        /* 'steps' is shorter than 8 bytes times the program's full length */
    GARLUVENI_REACHED = 100,     /* a run leaves the wanted memory; the place is the number of steps stored */
    GARLUVENI_UNREACHABLE = 101, /* no run does */
    GARLUVENI_UNDECIDED = 102,   /* none of the runs, or states, that are covered does, and there are more */

    /* From the judge alone; the place is the number of steps. */
    GARLUVENI_LEGAL = 103
};

/* Where a blocker stands. */
enum garluveni_blockers {
    GARLUVENI_NO_BLOCKER = 0, /* no entry is named */
    GARLUVENI_IN_BUFFER = 1,  /* in a thread's store buffer */
    GARLUVENI_IN_QUEUE = 2    /* in a line's queue */
};

/*
 * Judges the run of the case in 'bytes'. The answer is 1 to 10, 21 to 29, or GARLUVENI_LEGAL.
 */
uint32_t garluveni_judge(const uint8_t *bytes, size_t bytes_len);

/*
 * Judges the run of the case in 'bytes' again, and names the blocker: the first entry that stands in the way of the
 * first illegal step. 0 where the judge names none, that is where the answer is not GARLUVENI_BUFFER_NOT_EMPTY,
 * GARLUVENI_MARKER_QUEUED, GARLUVENI_BARRED, GARLUVENI_QUEUE_NOT_EMPTY or GARLUVENI_MARKER_LEFT; else
 * GARLUVENI_IN_BUFFER or GARLUVENI_IN_QUEUE, plus 256 times which one, plus 65,536 times the position in it.
 */
uint32_t garluveni_blocker(const uint8_t *bytes, size_t bytes_len);

/*
 * Asks the question of the case in 'bytes'; the budget, any number, is how many runs of the walk are looked at.
 * The answer is 1 to 10, else GARLUVENI_SHORT, else GARLUVENI_REACHED, GARLUVENI_UNREACHABLE or
 * GARLUVENI_UNDECIDED. GARLUVENI_REACHED stores the walk's first such run from the front of 'steps',
 * GARLUVENI_STEP_BYTES a step, and touches nothing behind; every other answer stores nothing. Steps of the case
 * itself are not looked at.
 */
uint32_t garluveni_question(const uint8_t *bytes, size_t bytes_len,
                            uint8_t *steps, size_t steps_len, uint32_t budget);

/*
 * Asks the question of the case in 'bytes' of a walk that remembers: it keeps every state that it meets in 'memory',
 * and goes below none twice. What it covers is the first states of the walk, each counted where it is first met: as
 * many as the budget says, or as 'memory' has room for, GARLUVENI_STATE_WORDS each, if those are fewer. The answers
 * and what is stored in 'steps' are those of the question, GARLUVENI_UNREACHABLE where these are all the states that
 * there are; wherever both walks decide, they answer the same, and show the same run.
 *
 * 'memory' may hold anything before. After GARLUVENI_REACHED, GARLUVENI_UNREACHABLE and GARLUVENI_UNDECIDED all of
 * its words are 0, used or not; any other answer leaves it as it was. So lend no more than the budget times
 * GARLUVENI_STATE_WORDS: more is never used, and clearing it takes time. Where it is not known how many states a
 * case has, lend little, and twice as much again while the answer is GARLUVENI_UNDECIDED.
 */
uint32_t garluveni_remember(const uint8_t *bytes, size_t bytes_len, uint8_t *steps, size_t steps_len,
                            uint32_t *memory, size_t memory_len, uint32_t budget);

/*
 * The same, and where the answer is GARLUVENI_UNREACHABLE how many states there are: the number that
 * garluveni_remember returns, plus 2 to the power of 32 times the states; 0 times where it is any other answer.
 */
uint64_t garluveni_remember_counting(const uint8_t *bytes, size_t bytes_len, uint8_t *steps, size_t steps_len,
                                     uint32_t *memory, size_t memory_len, uint32_t budget);

/* The number that the judge or the question returns is the answer plus 256 times its place. */
static inline uint32_t garluveni_answer(uint32_t number) { return number % 256u; }
static inline uint32_t garluveni_place(uint32_t number) { return number / 256u; }

/* What garluveni_remember_counting returns: such a number, and the states. */
static inline uint32_t garluveni_counted_number(uint64_t counted) { return (uint32_t)counted; }
static inline uint32_t garluveni_counted_states(uint64_t counted) { return (uint32_t)(counted >> 32); }

/* A blocker: where it stands, of which thread's buffer or which line's queue, and how many are older there. */
static inline uint32_t garluveni_blocker_in(uint32_t blocker) { return blocker % 256u; }
static inline uint32_t garluveni_blocker_number(uint32_t blocker) { return blocker / 256u % 256u; }
static inline uint32_t garluveni_blocker_position(uint32_t blocker) { return blocker / 65536u; }

#ifdef __cplusplus
}
#endif

#endif
