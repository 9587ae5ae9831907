/* A C host of the proved library: every answer of its functions, what is stored and what is left alone. */
#include <stdio.h>
#include <stdlib.h>
#include <string.h>

#include "garluveni.h"

enum { X, Y, Z, W };
enum { STORE = 1, STORE_REGISTER, LOAD, EXCHANGE, FLUSH, FLUSH_OPT, SFENCE, MFENCE, COMPARE };
enum { MILLION = 1000000, GUARD = 64, ROOM = MILLION + 2 * GUARD, UNTOUCHED = 0xEE };

/* The budget of the question program, and the most instructions of a program. */
enum { BUDGET = 1000000, INSTRUCTIONS = GARLUVENI_MOST_THREADS * GARLUVENI_MOST_INSTRUCTIONS };

/* Lent memory: the words of a state, the most states that are lent, and words before and behind. */
enum { STATE = GARLUVENI_STATE_WORDS, STATES = 1100, FENCE = 64 };
static const uint32_t JUNK = 0xA5A5A5A5u, FENCED = 0xEEEEEEEEu;

static unsigned checks;

static void check(int holds, const char *fact, int line)
{
    checks++;
    if (!holds) {
        fprintf(stderr, "host.c:%d: not so: %s\n", line, fact);
        exit(1);
    }
}

#define CHECK_AT(line, fact) check(fact, #fact, line)
#define CHECK(fact) CHECK_AT(__LINE__, fact)

/* Cases */

struct file {
    size_t length;
    uint8_t bytes[MILLION];
};

static const struct file none;

static void add(struct file *file, const uint8_t *record, size_t length)
{
    memcpy(file->bytes + file->length, record, length);
    file->length += length;
}

#define ADD(file, ...) add(file, (const uint8_t[]){__VA_ARGS__}, sizeof((const uint8_t[]){__VA_ARGS__}))

static void program(struct file *file, uint8_t threads, uint8_t locations)
{
    file->length = 0;
    ADD(file, 4, 0, 1, 0, 1, 0, threads, locations);
}

/* Version 2: the line of each location stands behind. */
static void lined(struct file *file, uint8_t threads, uint8_t locations, const uint8_t *lines)
{
    file->length = 0;
    ADD(file, 4 + locations, 0, 1, 0, 2, 0, threads, locations);
    add(file, lines, locations);
}

#define LINED(file, threads, ...) \
    lined(file, threads, sizeof((const uint8_t[]){__VA_ARGS__}), (const uint8_t[]){__VA_ARGS__})

static void instruction(struct file *file, uint8_t thread, uint8_t operation, uint8_t location, uint8_t word)
{
    ADD(file, 8, 0, 3, 0, thread, operation, location, 0, word, 0, 0, 0);
}

/* Of a register that is named; the word is 0. */
static void with_register(struct file *file, uint8_t thread, uint8_t operation, uint8_t location, uint8_t number)
{
    ADD(file, 8, 0, 3, 0, thread, operation, location, number, 0, 0, 0, 0);
}

static void first_content(struct file *file, uint8_t location, uint8_t word)
{
    ADD(file, 5, 0, 2, 0, location, word, 0, 0, 0);
}

static void want(struct file *file, uint8_t location, uint8_t word)
{
    ADD(file, 5, 0, 4, 0, location, word, 0, 0, 0);
}

static void passed(struct file *file, uint8_t thread, uint8_t least)
{
    ADD(file, 2, 0, 5, 0, thread, least);
}

/* The number that a word's digits make. */
static uint8_t number(const char *digits)
{
    return (uint8_t)strtoul(digits, NULL, 10);
}

/* A run in words: "I0" thread 0 issues, "M1.12" thread 1 moves at position 12, "P3" line 3 persists. */
static void run(struct file *file, const char *words)
{
    for (const char *at = words; *at != 0; at++) {
        if (*at == 'I')
            ADD(file, 4, 0, 6, 0, number(at + 1), 0, 0, 0);
        if (*at == 'M')
            ADD(file, 4, 0, 6, 0, number(at + 1), 1, number(at + 3), 0);
        if (*at == 'P')
            ADD(file, 4, 0, 6, 0, 0, 2, 0, number(at + 1));
    }
}

static void repeat(struct file *file, const char *words, int times)
{
    for (int i = 0; i < times; i++)
        run(file, words);
}

/* Calls: both byte buffers between guards, at another alignment each time */

static uint8_t input[ROOM], lent[ROOM], expected[ROOM];
static size_t shift;

/* Where a buffer starts: guard bytes stand before it and behind it, as many as the shift leaves. */
static uint8_t *start(uint8_t *room)
{
    return room + GUARD / 2 + shift;
}

static void lay_out(uint8_t *room, size_t length, const struct file *content)
{
    memset(room, UNTOUCHED, length + 2 * GUARD);
    memcpy(start(room), content->bytes, content->length);
}

/* Does the room hold the content and nothing else that was not there before? */
static int holds(const uint8_t *room, size_t length, const struct file *content)
{
    lay_out(expected, length, content);
    return memcmp(room, expected, length + 2 * GUARD) == 0;
}

/* The blocker as one number: a buffer or a queue, which one, and the position in it. */
static uint32_t blocker(uint32_t in, uint32_t which, uint32_t position)
{
    return in + 256 * which + 65536 * position;
}

static void judges(int line, const struct file *file, uint32_t answer, uint32_t place, uint32_t in_the_way)
{
    shift = (shift + 1) % 16;
    lay_out(input, file->length, file);
    uint32_t number = garluveni_judge(start(input), file->length);
    CHECK_AT(line, garluveni_answer(number) == answer);
    CHECK_AT(line, garluveni_place(number) == place);
    CHECK_AT(line, holds(input, file->length, file));
    CHECK_AT(line, garluveni_blocker(start(input), file->length) == in_the_way);
    CHECK_AT(line, holds(input, file->length, file));
}

/* The steps are what the lent buffer of the length must hold afterwards: none where nothing is stored. */
static void asks(int line, const struct file *file, size_t length, uint32_t budget, uint32_t answer,
                 const struct file *steps)
{
    shift = (shift + 1) % 16;
    lay_out(input, file->length, file);
    lay_out(lent, length, &none);
    uint32_t number = garluveni_question(start(input), file->length, start(lent), length, budget);
    CHECK_AT(line, garluveni_answer(number) == answer);
    CHECK_AT(line, garluveni_place(number) == steps->length / GARLUVENI_STEP_BYTES);
    CHECK_AT(line, holds(lent, length, steps));
    CHECK_AT(line, holds(input, file->length, file));
}

/* Lent memory, between guard words, at another alignment each time */

static uint32_t memory[STATES * STATE + 2 * FENCE];

static uint32_t *memory_start(void)
{
    return memory + FENCE / 2 + shift;
}

static void fill(uint32_t word, uint32_t *from, const uint32_t *to)
{
    while (from < to)
        *from++ = word;
}

static int is_all(uint32_t word, const uint32_t *from, const uint32_t *to)
{
    while (from < to)
        if (*from++ != word)
            return 0;
    return 1;
}

static void lend_memory(size_t words)
{
    fill(FENCED, memory, memory_start() + words + FENCE / 2);
    fill(JUNK, memory_start(), memory_start() + words);
}

/* Is each lent word this one, and no other has changed? */
static int memory_holds(size_t words, uint32_t word)
{
    const uint32_t *start = memory_start(), *behind = start + words;
    return is_all(FENCED, memory, start) && is_all(word, start, behind) && is_all(FENCED, behind, behind + FENCE / 2);
}

/* The answer, its place and the states as one number. */
static uint64_t counted(uint32_t answer, uint32_t place, uint32_t states)
{
    return (uint64_t)states << 32 | (answer + 256 * place);
}

/* Both functions of the walk that remembers, of which one counts the states. A refusal leaves the memory as it was; any
 * other answer leaves no word of it. */
static void remembers(int line, const struct file *file, size_t length, size_t words, uint32_t budget,
                      uint64_t number, const struct file *steps)
{
    uint32_t answer = garluveni_answer(garluveni_counted_number(number));
    uint32_t left = answer < GARLUVENI_REACHED ? JUNK : 0;
    for (int counts = 0; counts <= 1; counts++) {
        shift = (shift + 1) % 16;
        lay_out(input, file->length, file);
        lay_out(lent, length, &none);
        lend_memory(words);
        uint64_t got = counts ? garluveni_remember_counting(start(input), file->length, start(lent), length,
                                                            memory_start(), words, budget)
                              : garluveni_remember(start(input), file->length, start(lent), length,
                                                   memory_start(), words, budget);
        CHECK_AT(line, garluveni_counted_number(got) == garluveni_counted_number(number));
        CHECK_AT(line, garluveni_counted_states(got) == (counts ? garluveni_counted_states(number) : 0));
        CHECK_AT(line, memory_holds(words, left));
        CHECK_AT(line, holds(lent, length, steps));
        CHECK_AT(line, holds(input, file->length, file));
    }
}

/* No function reads the file, whatever is lent, and no blocker is named. */
static void refused(int line, const struct file *file, uint32_t answer, uint32_t offset)
{
    judges(line, file, answer, offset, GARLUVENI_NO_BLOCKER);
    for (size_t length = 0; length <= GARLUVENI_STEPS_BYTES; length += GARLUVENI_STEPS_BYTES) {
        lay_out(lent, length, &none);
        uint32_t number = garluveni_question(start(input), file->length, start(lent), length, BUDGET);
        CHECK_AT(line, number == answer + 256 * offset);
        CHECK_AT(line, holds(lent, length, &none));
        CHECK_AT(line, holds(input, file->length, file));
        for (size_t words = 0; words <= STATE; words += STATE)
            remembers(line, file, length, words, BUDGET, counted(answer, offset, 0), &none);
    }
}

#define JUDGES(file, answer, place) judges(__LINE__, file, answer, place, GARLUVENI_NO_BLOCKER)
#define BLOCKED(file, answer, place, in, which, position) \
    judges(__LINE__, file, answer, place, blocker(in, which, position))
#define ASKS(...) asks(__LINE__, __VA_ARGS__)
#define REFUSED(...) refused(__LINE__, __VA_ARGS__)
#define REMEMBERS(file, room, words, budget, answer, states, stored) \
    remembers(__LINE__, file, room, words, budget, \
              counted(answer, (uint32_t)((stored)->length / GARLUVENI_STEP_BYTES), states), stored)

/* The checks */

static struct file f, steps;

static void fences(uint8_t thread, int count)
{
    for (int i = 0; i < count; i++)
        instruction(&f, thread, SFENCE, 0, 0);
}

/* Behind a program record of two locations. */
static void torn_row(void)
{
    instruction(&f, 0, STORE, X, 5);
    instruction(&f, 0, STORE, Y, 1);
    want(&f, X, 0);
    want(&f, Y, 1);
}

static void outage(void)
{
    program(&f, 1, 2);
    torn_row();
    steps.length = 0;
    run(&steps, "I0 I0 M0.0 M0.0 P1");
}

/* Instructions of a thread, with a fence between the stores. */
static void fenced_row(uint8_t thread, uint8_t limit, uint8_t valid)
{
    instruction(&f, thread, STORE, X, limit);
    instruction(&f, thread, FLUSH_OPT, X, 0);
    instruction(&f, thread, SFENCE, 0, 0);
    instruction(&f, thread, STORE, Y, valid);
}

static void repaired(void)
{
    program(&f, 1, 2);
    fenced_row(0, 5, 1);
    want(&f, X, 0);
    want(&f, Y, 1);
}

/* Each thread stores to each location once, which is on a line of its own. */
static void longest(void)
{
    LINED(&f, GARLUVENI_MOST_THREADS, 0, 1, 2, 3, 4, 5, 6, 7, 8, 9, 10, 11, 12, 13, 14, 15);
    for (uint8_t location = 0; location < GARLUVENI_MOST_LOCATIONS; location++)
        first_content(&f, location, 1);
    for (uint8_t i = 0; i < INSTRUCTIONS; i++)
        instruction(&f, i / GARLUVENI_MOST_INSTRUCTIONS, STORE, i % GARLUVENI_MOST_LOCATIONS, i);
    for (uint8_t location = 0; location < GARLUVENI_MOST_LOCATIONS; location++)
        want(&f, location, 1);
    for (uint8_t thread = 0; thread < GARLUVENI_MOST_THREADS; thread++)
        passed(&f, thread, GARLUVENI_MOST_INSTRUCTIONS);
    repeat(&f, "I0 I1 I2 I3", GARLUVENI_MOST_INSTRUCTIONS);
    repeat(&f, "M0.0 M1.0 M2.0 M3.0", GARLUVENI_MOST_INSTRUCTIONS);
    repeat(&f, "P0 P1 P2 P3 P4 P5 P6 P7 P8 P9 P10 P11 P12 P13 P14 P15", GARLUVENI_MOST_THREADS);
}

static void reading_refusals(void)
{
    f.length = 0;
    REFUSED(&f, GARLUVENI_CUT, 0);
    outage();
    f.length -= 1;
    REFUSED(&f, GARLUVENI_CUT, 41);
    program(&f, 1, 1);
    ADD(&f, 0, 0, 7, 0);
    REFUSED(&f, GARLUVENI_KIND, 8);
    program(&f, 1, 1);
    ADD(&f, 1, 0, 5, 0);
    REFUSED(&f, GARLUVENI_LENGTH, 8);
    program(&f, 1, 1);
    ADD(&f, 4, 0, 1, 0, 1, 0, 1, 1);
    REFUSED(&f, GARLUVENI_ORDER, 8);
    program(&f, 5, 1);
    REFUSED(&f, GARLUVENI_RANGE, 0);
    program(&f, 1, 2);
    want(&f, Y, 1);
    want(&f, X, 1);
    REFUSED(&f, GARLUVENI_RISING, 17);
    program(&f, 1, 1);
    fences(0, 17);
    REFUSED(&f, GARLUVENI_INSTRUCTION, 200);
    program(&f, 1, 1);
    first_content(&f, X, 0);
    REFUSED(&f, GARLUVENI_UNUSED, 8);
    program(&f, 1, 1);
    repeat(&f, "I0", 193);
    REFUSED(&f, GARLUVENI_STEP, 1544);
}

/* The most of each thing is read, and one more refused. */
static void most_of_each(void)
{
    program(&f, 1, 1);
    fences(0, GARLUVENI_MOST_INSTRUCTIONS);
    JUDGES(&f, GARLUVENI_LEGAL, 0);
    program(&f, GARLUVENI_MOST_THREADS, GARLUVENI_MOST_LOCATIONS);
    JUDGES(&f, GARLUVENI_LEGAL, 0);
    program(&f, GARLUVENI_MOST_THREADS + 1, GARLUVENI_MOST_LOCATIONS);
    REFUSED(&f, GARLUVENI_RANGE, 0);
    program(&f, GARLUVENI_MOST_THREADS, GARLUVENI_MOST_LOCATIONS + 1);
    REFUSED(&f, GARLUVENI_RANGE, 0);
    program(&f, 1, 1);
    run(&f, "M0.15");
    JUDGES(&f, GARLUVENI_NO_ENTRY, 0);
    program(&f, 1, 1);
    run(&f, "M0.16");
    REFUSED(&f, GARLUVENI_RANGE, 8);
    program(&f, 1, 1);
    repeat(&f, "P0", GARLUVENI_STEPS);
    JUDGES(&f, GARLUVENI_QUEUE_EMPTY, 0);
}

/* A store of the register and a compare need one that an earlier load, exchange or compare of the same thread sets. */
static void register_refusals(uint8_t operation)
{
    program(&f, 1, 1);
    with_register(&f, 0, operation, X, 0);
    REFUSED(&f, GARLUVENI_REGISTER, 8);
    CHECK(garluveni_judge(f.bytes, f.length) == 10 + 256 * 8);
    /* another thread sets it, or its own behind, and its own sets others before */
    program(&f, 2, 2);
    first_content(&f, X, 7);
    with_register(&f, 0, LOAD, X, 2);
    with_register(&f, 1, EXCHANGE, X, 1);
    with_register(&f, 1, LOAD, X, 3);
    with_register(&f, 1, operation, Y, 2);
    with_register(&f, 1, LOAD, X, 2);
    want(&f, X, 0);
    passed(&f, 0, 1);
    run(&f, "P0");
    REFUSED(&f, GARLUVENI_REGISTER, 53);
    /* the first of several, and not a fault of a later record */
    program(&f, 1, 1);
    with_register(&f, 0, operation, X, 0);
    with_register(&f, 0, operation, X, 1);
    ADD(&f, 0, 0, 7, 0);
    REFUSED(&f, GARLUVENI_REGISTER, 8);
    /* of the last instruction that there may be; the next is one too many */
    program(&f, 4, 1);
    fences(3, GARLUVENI_MOST_INSTRUCTIONS - 1);
    with_register(&f, 3, operation, X, 3);
    REFUSED(&f, GARLUVENI_REGISTER, 188);
    program(&f, 4, 1);
    fences(3, GARLUVENI_MOST_INSTRUCTIONS);
    with_register(&f, 3, operation, X, 3);
    REFUSED(&f, GARLUVENI_INSTRUCTION, 200);
}

/* What a load or an exchange sets may be compared and stored; 5, 8 and 6 of the same record come before 10. */
static void registers_set(void)
{
    static const uint8_t sets[] = {LOAD, EXCHANGE};
    for (size_t i = 0; i < sizeof sets; i++) {
        program(&f, 1, 2);
        with_register(&f, 0, sets[i], X, 3);
        with_register(&f, 0, COMPARE, X, 3);
        with_register(&f, 0, STORE_REGISTER, Y, 3);
        JUDGES(&f, GARLUVENI_LEGAL, 0);
        ASKS(&f, 56, 1, GARLUVENI_REACHED, &none);
    }
    program(&f, 1, 1);
    instruction(&f, 0, STORE_REGISTER, Y, 0);
    REFUSED(&f, GARLUVENI_RANGE, 8);
    program(&f, 1, 1);
    instruction(&f, 0, STORE_REGISTER, X, 5);
    REFUSED(&f, GARLUVENI_UNUSED, 8);
    program(&f, 2, 1);
    instruction(&f, 1, SFENCE, 0, 0);
    instruction(&f, 0, COMPARE, X, 5);
    REFUSED(&f, GARLUVENI_RISING, 20);
}

static void issue_rules(void)
{
    program(&f, 1, 1);
    run(&f, "I0");
    JUDGES(&f, GARLUVENI_NONE_LEFT, 0);
    program(&f, 1, 2);
    instruction(&f, 0, STORE, X, 5);
    instruction(&f, 0, EXCHANGE, Y, 5);
    run(&f, "I0 I0");
    BLOCKED(&f, GARLUVENI_BUFFER_NOT_EMPTY, 1, GARLUVENI_IN_BUFFER, 0, 0);
    program(&f, 1, 1);
    instruction(&f, 0, FLUSH_OPT, X, 0);
    instruction(&f, 0, MFENCE, 0, 0);
    run(&f, "I0 M0.0 I0");
    BLOCKED(&f, GARLUVENI_MARKER_QUEUED, 2, GARLUVENI_IN_QUEUE, X, 0);
}

static void move_rules(void)
{
    program(&f, 1, 1);
    run(&f, "M0.0");
    JUDGES(&f, GARLUVENI_NO_ENTRY, 0);
    program(&f, 1, 2);
    instruction(&f, 0, STORE, X, 5);
    instruction(&f, 0, STORE, Y, 1);
    run(&f, "I0 I0 M0.1");
    JUDGES(&f, GARLUVENI_NOT_FIRST, 2);
    program(&f, 1, 1);
    instruction(&f, 0, STORE, X, 5);
    instruction(&f, 0, FLUSH_OPT, X, 0);
    run(&f, "I0 I0 M0.1");
    BLOCKED(&f, GARLUVENI_BARRED, 2, GARLUVENI_IN_BUFFER, 0, 0);
    program(&f, 2, 1);
    instruction(&f, 0, FLUSH, X, 0);
    instruction(&f, 1, FLUSH_OPT, X, 0);
    run(&f, "I1 M1.0 I0 M0.0");
    BLOCKED(&f, GARLUVENI_QUEUE_NOT_EMPTY, 3, GARLUVENI_IN_QUEUE, X, 0);
    program(&f, 1, 1);
    instruction(&f, 0, FLUSH_OPT, X, 0);
    instruction(&f, 0, SFENCE, 0, 0);
    run(&f, "I0 I0 M0.0 M0.0");
    BLOCKED(&f, GARLUVENI_MARKER_LEFT, 3, GARLUVENI_IN_QUEUE, X, 0);
}

/* The first of several: not the first entry of a buffer, not the oldest marker, not another thread's; the last thread
 * and the last line; and that it can be told. */
static void blockers(void)
{
    program(&f, 4, 3);
    instruction(&f, 3, STORE, Y, 5);
    instruction(&f, 3, STORE, X, 5);
    instruction(&f, 3, SFENCE, 0, 0);
    instruction(&f, 3, FLUSH_OPT, X, 0);
    run(&f, "I3 I3 I3 I3 M3.3");
    BLOCKED(&f, GARLUVENI_BARRED, 4, GARLUVENI_IN_BUFFER, 3, 1);
    program(&f, 2, 2);
    instruction(&f, 0, FLUSH_OPT, Y, 0);
    instruction(&f, 0, FLUSH_OPT, X, 0);
    instruction(&f, 0, SFENCE, 0, 0);
    instruction(&f, 1, FLUSH_OPT, X, 0);
    run(&f, "I1 M1.0 I0 I0 I0 M0.0 M0.0 M0.0");
    BLOCKED(&f, GARLUVENI_MARKER_LEFT, 7, GARLUVENI_IN_QUEUE, X, 1);
    LINED(&f, 1, 0, 1, 2, 3, 4, 5, 6, 7, 8, 9, 10, 11, 12, 13, 14, 15);
    instruction(&f, 0, FLUSH_OPT, 15, 0);
    instruction(&f, 0, EXCHANGE, X, 5);
    run(&f, "I0 M0.0 I0");
    BLOCKED(&f, GARLUVENI_MARKER_QUEUED, 2, GARLUVENI_IN_QUEUE, 15, 0);
    uint32_t third = blocker(GARLUVENI_IN_QUEUE, 15, 2);
    CHECK(garluveni_blocker_in(third) == GARLUVENI_IN_QUEUE);
    CHECK(garluveni_blocker_number(third) == 15);
    CHECK(garluveni_blocker_position(third) == 2);
}

/* The last positions: of a buffer that all of a thread fills, and of a queue that all but a fence go into. */
static void last_blockers(void)
{
    program(&f, 1, 2);
    for (int i = 0; i < 14; i++)
        instruction(&f, 0, STORE, Y, 5);
    instruction(&f, 0, STORE, X, 5);
    instruction(&f, 0, FLUSH_OPT, X, 0);
    repeat(&f, "I0", 16);
    run(&f, "M0.15");
    BLOCKED(&f, GARLUVENI_BARRED, 16, GARLUVENI_IN_BUFFER, 0, 14);
    program(&f, 4, 1);
    for (uint8_t i = 0; i < INSTRUCTIONS - 2; i++)
        instruction(&f, i / GARLUVENI_MOST_INSTRUCTIONS, STORE, X, 5);
    instruction(&f, 3, FLUSH_OPT, X, 0);
    instruction(&f, 3, SFENCE, 0, 0);
    repeat(&f, "I0 M0.0 I1 M1.0 I2 M2.0", 16);
    repeat(&f, "I3 M3.0", 16);
    BLOCKED(&f, GARLUVENI_MARKER_LEFT, 127, GARLUVENI_IN_QUEUE, 0, 62);
}

/* The start of a program whose compares are of X with 0, which X holds at first or not. */
static void compared(uint8_t first)
{
    program(&f, 1, 2);
    if (first != 0)
        first_content(&f, X, first);
    instruction(&f, 0, LOAD, Y, 0);
}

/* A compare waits as an exchange does, whether it would succeed or fail. */
static void compare_rules(uint8_t first)
{
    compared(first);
    instruction(&f, 0, STORE, Y, 1);
    instruction(&f, 0, COMPARE, X, 5);
    run(&f, "I0 I0 I0");
    BLOCKED(&f, GARLUVENI_BUFFER_NOT_EMPTY, 2, GARLUVENI_IN_BUFFER, 0, 0);
    compared(first);
    instruction(&f, 0, FLUSH_OPT, Y, 0);
    instruction(&f, 0, COMPARE, X, 5);
    run(&f, "I0 I0 M0.0 I0");
    BLOCKED(&f, GARLUVENI_MARKER_QUEUED, 3, GARLUVENI_IN_QUEUE, Y, 0);
}

/* A success leaves one write, a failure none; then the register holds the word that was read. */
static void compare_runs(void)
{
    compared(0);
    instruction(&f, 0, COMPARE, X, 5);
    run(&f, "I0 I0 P0");
    JUDGES(&f, GARLUVENI_LEGAL, 3);
    run(&f, "P0");
    JUDGES(&f, GARLUVENI_QUEUE_EMPTY, 3);
    compared(7);
    instruction(&f, 0, COMPARE, X, 5);
    run(&f, "I0 I0");
    JUDGES(&f, GARLUVENI_LEGAL, 2);
    run(&f, "P0");
    JUDGES(&f, GARLUVENI_QUEUE_EMPTY, 2);
    compared(7);
    instruction(&f, 0, COMPARE, X, 5);
    instruction(&f, 0, COMPARE, X, 6);
    run(&f, "I0 I0 I0 P0");
    JUDGES(&f, GARLUVENI_LEGAL, 4);
    /* the newest write of X, with a neighbour's behind it in their line's queue */
    LINED(&f, 1, 0, 0);
    instruction(&f, 0, STORE, X, 5);
    instruction(&f, 0, STORE, Y, 1);
    instruction(&f, 0, LOAD, X, 0);
    instruction(&f, 0, COMPARE, X, 6);
    run(&f, "I0 I0 I0 M0.0 M0.0 I0 P0 P0 P0");
    JUDGES(&f, GARLUVENI_LEGAL, 9);
}

/* The last operation, of a location and a register that there are; there is no tenth. */
static void compare_refusals(void)
{
    program(&f, 1, 1);
    instruction(&f, 0, COMPARE, Y, 5);
    REFUSED(&f, GARLUVENI_RANGE, 8);
    program(&f, 1, 1);
    ADD(&f, 8, 0, 3, 0, 0, COMPARE, X, 4, 5, 0, 0, 0);
    REFUSED(&f, GARLUVENI_RANGE, 8);
    compared(0);
    instruction(&f, 0, COMPARE + 1, X, 5);
    REFUSED(&f, GARLUVENI_RANGE, 20);
}

static void persist_rule(void)
{
    program(&f, 1, 1);
    run(&f, "P0");
    JUDGES(&f, GARLUVENI_QUEUE_EMPTY, 0);
}

static void legal_runs(void)
{
    program(&f, 1, 1);
    JUDGES(&f, GARLUVENI_LEGAL, 0);
    outage();
    run(&f, "I0 I0 M0.0 M0.0 P1");
    JUDGES(&f, GARLUVENI_LEGAL, 5);
    program(&f, 1, 2);
    instruction(&f, 0, STORE, X, 1);
    instruction(&f, 0, LOAD, X, 0);
    instruction(&f, 0, STORE_REGISTER, Y, 0);
    run(&f, "I0 I0 I0 M0.0 M0.0 P0 P1");
    JUDGES(&f, GARLUVENI_LEGAL, 7);
}

/* The longest file has the longest run, and one byte more is the farthest fault. */
static void longest_file(void)
{
    longest();
    CHECK(f.length == GARLUVENI_CASE_BYTES);
    JUDGES(&f, GARLUVENI_LEGAL, GARLUVENI_STEPS);
    ADD(&f, 0);
    REFUSED(&f, GARLUVENI_CUT, GARLUVENI_CASE_BYTES);
}

/* The outage's row on one cache line, on two in version 2, and three locations on two. */
static void lines(void)
{
    LINED(&f, 1, 0, 0);
    torn_row();
    ASKS(&f, 48, BUDGET, GARLUVENI_UNREACHABLE, &none);
    LINED(&f, 1, 0, 1);
    torn_row();
    steps.length = 0;
    run(&steps, "I0 I0 M0.0 M0.0 P1");
    ASKS(&f, 48, BUDGET, GARLUVENI_REACHED, &steps);
    LINED(&f, 1, 0, 0, 1);
    instruction(&f, 0, STORE, X, 5);
    instruction(&f, 0, FLUSH_OPT, Y, 0);
    instruction(&f, 0, STORE, Z, 1);
    run(&f, "I0 I0 M0.1");
    BLOCKED(&f, GARLUVENI_BARRED, 2, GARLUVENI_IN_BUFFER, 0, 0);
    LINED(&f, 1, 0, 0, 1);
    instruction(&f, 0, STORE, X, 5);
    instruction(&f, 0, FLUSH, Y, 0);
    run(&f, "I0 I0 M0.0 M0.0");
    BLOCKED(&f, GARLUVENI_QUEUE_NOT_EMPTY, 3, GARLUVENI_IN_QUEUE, 0, 0);
}

/* A program record: outside 4 to 20, cut, out of place, out of range, another length than its own, out of order. */
static void line_refusals(void)
{
    f.length = 0;
    ADD(&f, 3, 0, 1, 0, 2, 0, 1);
    REFUSED(&f, GARLUVENI_LENGTH, 0);
    f.length = 0;
    ADD(&f, 21, 0, 1, 0, 2, 0, 1, 16, 0, 1, 2, 3, 4, 5, 6, 7, 8, 9, 10, 11, 12, 13, 14, 15, 0);
    REFUSED(&f, GARLUVENI_LENGTH, 0);
    LINED(&f, 1, 0, 0);
    f.length -= 1;
    REFUSED(&f, GARLUVENI_CUT, 0);
    program(&f, 1, 1);
    ADD(&f, 6, 0, 1, 0, 2, 0, 1, 2, 0, 0);
    REFUSED(&f, GARLUVENI_ORDER, 8);
    f.length = 0;
    ADD(&f, 6, 0, 1, 0, 3, 0, 1, 2, 0, 0);
    REFUSED(&f, GARLUVENI_RANGE, 0);
    f.length = 0;
    ADD(&f, 7, 0, 1, 0, 2, 0, 1, 2, 0, 0, 0);
    REFUSED(&f, GARLUVENI_LENGTH, 0);
    f.length = 0;
    ADD(&f, 6, 0, 1, 0, 1, 0, 1, 2, 0, 0);
    REFUSED(&f, GARLUVENI_LENGTH, 0);
    LINED(&f, 1, 0, 2);
    REFUSED(&f, GARLUVENI_UNUSED, 0);
    LINED(&f, 1, 1, 0);
    REFUSED(&f, GARLUVENI_UNUSED, 0);
    LINED(&f, 1, 0, 255);
    REFUSED(&f, GARLUVENI_UNUSED, 0);
    LINED(&f, 1, 0, 0);
    run(&f, "P1");
    REFUSED(&f, GARLUVENI_RANGE, 10);
}

static void budgets(void)
{
    outage();
    ASKS(&f, 48, 0, GARLUVENI_UNDECIDED, &none);
    ASKS(&f, 48, 1, GARLUVENI_UNDECIDED, &none);
    ASKS(&f, 48, 7, GARLUVENI_UNDECIDED, &none);
    ASKS(&f, 48, 8, GARLUVENI_REACHED, &steps);
    ASKS(&f, 48, UINT32_MAX, GARLUVENI_REACHED, &steps);
    repaired();
    ASKS(&f, 88, 0, GARLUVENI_UNDECIDED, &none);
    ASKS(&f, 88, BUDGET, GARLUVENI_UNREACHABLE, &none);
    ASKS(&f, 88, UINT32_MAX, GARLUVENI_UNREACHABLE, &none);
    ASKS(&f, 87, 0, GARLUVENI_SHORT, &none);
}

/* Every length around 8 bytes times the full length. */
static void lengths(size_t least, uint32_t budget)
{
    for (size_t length = 0; length < least; length++)
        ASKS(&f, length, budget, GARLUVENI_SHORT, &none);
    for (size_t length = least; length <= least + 16; length++)
        ASKS(&f, length, budget, GARLUVENI_REACHED, &steps);
}

/* The same room is asked for where the compare fails, and no run is that long. */
static void compare_questions(void)
{
    compared(0);
    instruction(&f, 0, COMPARE, X, 5);
    want(&f, X, 5);
    steps.length = 0;
    run(&steps, "I0 I0 P0");
    ASKS(&f, 24, 3, GARLUVENI_UNDECIDED, &none);
    lengths(24, 4);
    compared(7);
    instruction(&f, 0, COMPARE, X, 5);
    want(&f, X, 5);
    ASKS(&f, 23, 3, GARLUVENI_SHORT, &none);
    ASKS(&f, 24, 2, GARLUVENI_UNDECIDED, &none);
    ASKS(&f, 24, 3, GARLUVENI_UNREACHABLE, &none);
}

/* The greatest full length, and the only run that reaches the question among the first is the first of that length. */
static void deepest(void)
{
    program(&f, 4, 4);
    for (uint8_t i = 0; i < INSTRUCTIONS; i++) {
        uint8_t thread = i / GARLUVENI_MOST_INSTRUCTIONS;
        instruction(&f, thread, thread == Z ? FLUSH_OPT : STORE, thread,
                    thread == Z ? 0 : i % GARLUVENI_MOST_INSTRUCTIONS + 1);
    }
    steps.length = 0;
    for (uint8_t i = 0; i < 12; i++) {
        const char *each[] = {"I0", "I1", "I2", "I3", "M0.0", "M1.0", "M2.0", "M3.0", "P0", "P1", "P2", "P3"};
        repeat(&steps, each[i], GARLUVENI_MOST_INSTRUCTIONS);
    }
}

static void depth(void)
{
    deepest();
    want(&f, W, GARLUVENI_MOST_INSTRUCTIONS);
    ASKS(&f, GARLUVENI_STEPS_BYTES, GARLUVENI_STEPS, GARLUVENI_UNDECIDED, &none);
    lengths(GARLUVENI_STEPS_BYTES, GARLUVENI_STEPS + 1);
    deepest();
    want(&f, W, GARLUVENI_MOST_INSTRUCTIONS + 1);
    ASKS(&f, GARLUVENI_STEPS_BYTES, 20000, GARLUVENI_UNDECIDED, &none);
}

/* The repaired row has 26 states: every length of memory about what they need, and every budget about them. */
static void memories(void)
{
    static const size_t few[] = {0, 1, STATE - 1, STATE, STATE + 1, 25 * STATE, 26 * STATE - 1};
    static const size_t enough[] = {26 * STATE, 26 * STATE + 1, 27 * STATE - 1, 27 * STATE, STATES * STATE};
    repaired();
    for (size_t i = 0; i < sizeof few / sizeof *few; i++) {
        REMEMBERS(&f, 88, few[i], UINT32_MAX, GARLUVENI_UNDECIDED, 0, &none);
        REMEMBERS(&f, 88, few[i], 26, GARLUVENI_UNDECIDED, 0, &none);
        REMEMBERS(&f, 87, few[i], 26, GARLUVENI_SHORT, 0, &none);
    }
    for (size_t i = 0; i < sizeof enough / sizeof *enough; i++) {
        REMEMBERS(&f, 88, enough[i], 0, GARLUVENI_UNDECIDED, 0, &none);
        REMEMBERS(&f, 88, enough[i], 1, GARLUVENI_UNDECIDED, 0, &none);
        REMEMBERS(&f, 88, enough[i], 25, GARLUVENI_UNDECIDED, 0, &none);
        REMEMBERS(&f, 88, enough[i], 26, GARLUVENI_UNREACHABLE, 26, &none);
        REMEMBERS(&f, 88, enough[i], 27, GARLUVENI_UNREACHABLE, 26, &none);
        REMEMBERS(&f, 100, enough[i], UINT32_MAX, GARLUVENI_UNREACHABLE, 26, &none);
        REMEMBERS(&f, 87, enough[i], 26, GARLUVENI_SHORT, 0, &none);
        REMEMBERS(&f, 0, enough[i], 0, GARLUVENI_SHORT, 0, &none);
    }
}

/* The outage is reached by the eighth state, and the run shown is the question's. */
static void remembered_runs(void)
{
    outage();
    REMEMBERS(&f, 48, 8 * STATE - 1, 8, GARLUVENI_UNDECIDED, 0, &none);
    REMEMBERS(&f, 48, 8 * STATE, 7, GARLUVENI_UNDECIDED, 0, &none);
    for (size_t length = 0; length < 48; length++)
        REMEMBERS(&f, length, 8 * STATE, 8, GARLUVENI_SHORT, 0, &none);
    for (size_t length = 48; length <= 64; length++)
        REMEMBERS(&f, length, 8 * STATE, 8, GARLUVENI_REACHED, 0, &steps);
    REMEMBERS(&f, 48, STATES * STATE, UINT32_MAX, GARLUVENI_REACHED, 0, &steps);
    /* steps of the case itself are not looked at */
    run(&f, "P0 P1 M0.0");
    REMEMBERS(&f, 48, 8 * STATE, 8, GARLUVENI_REACHED, 0, &steps);
}

/* Two threads that each repair their row have 1,063 states, and millions of runs. */
static void many_states(void)
{
    program(&f, 2, 2);
    fenced_row(0, 1, 1);
    fenced_row(1, 2, 2);
    want(&f, X, 0);
    want(&f, Y, 1);
    REMEMBERS(&f, 176, 1062 * STATE, BUDGET, GARLUVENI_UNDECIDED, 0, &none);
    REMEMBERS(&f, 176, 1063 * STATE, 1062, GARLUVENI_UNDECIDED, 0, &none);
    REMEMBERS(&f, 176, 1063 * STATE, 1063, GARLUVENI_UNREACHABLE, 1063, &none);
    REMEMBERS(&f, 176, STATES * STATE, BUDGET, GARLUVENI_UNREACHABLE, 1063, &none);
    ASKS(&f, 176, BUDGET, GARLUVENI_UNDECIDED, &none);
}

/* As deep as the question goes, each state of its first branch kept. */
static void remembered_depth(void)
{
    deepest();
    want(&f, W, GARLUVENI_MOST_INSTRUCTIONS);
    REMEMBERS(&f, GARLUVENI_STEPS_BYTES, GARLUVENI_STEPS * STATE, BUDGET, GARLUVENI_UNDECIDED, 0, &none);
    REMEMBERS(&f, GARLUVENI_STEPS_BYTES, (GARLUVENI_STEPS + 1) * STATE, BUDGET, GARLUVENI_REACHED, 0, &steps);
    REMEMBERS(&f, GARLUVENI_STEPS_BYTES - 1, (GARLUVENI_STEPS + 1) * STATE, BUDGET, GARLUVENI_SHORT, 0, &none);
    deepest();
    want(&f, W, GARLUVENI_MOST_INSTRUCTIONS + 1);
    REMEMBERS(&f, GARLUVENI_STEPS_BYTES, STATES * STATE, BUDGET, GARLUVENI_UNDECIDED, 0, &none);
}

static void counted_numbers(void)
{
    uint64_t all = counted(GARLUVENI_UNREACHABLE, 0, UINT32_MAX), run = counted(GARLUVENI_REACHED, 5, 0);
    CHECK(garluveni_counted_number(all) == GARLUVENI_UNREACHABLE);
    CHECK(garluveni_counted_states(all) == UINT32_MAX);
    CHECK(garluveni_place(garluveni_counted_number(run)) == 5);
    CHECK(garluveni_counted_states(run) == 0);
}

static void empty_buffers(void)
{
    CHECK(garluveni_judge(NULL, 0) == GARLUVENI_CUT);
    CHECK(garluveni_blocker(NULL, 0) == GARLUVENI_NO_BLOCKER);
    CHECK(garluveni_question(NULL, 0, NULL, 0, BUDGET) == GARLUVENI_CUT);
    CHECK(garluveni_remember(NULL, 0, NULL, 0, NULL, 0, BUDGET) == GARLUVENI_CUT);
    CHECK(garluveni_remember_counting(NULL, 0, NULL, 0, NULL, 0, BUDGET) == GARLUVENI_CUT);
    program(&f, 1, 1);
    want(&f, X, 0);
    CHECK(garluveni_question(f.bytes, f.length, NULL, 0, 1) == GARLUVENI_REACHED);
    CHECK(garluveni_question(f.bytes, f.length, NULL, 0, 0) == GARLUVENI_UNDECIDED);
    CHECK(garluveni_remember(f.bytes, f.length, NULL, 0, memory, STATE, 1) == GARLUVENI_REACHED);
    CHECK(garluveni_remember(f.bytes, f.length, NULL, 0, memory, STATE, 0) == GARLUVENI_UNDECIDED);
    CHECK(garluveni_remember(f.bytes, f.length, NULL, 0, NULL, 0, 1) == GARLUVENI_UNDECIDED);
    CHECK(garluveni_remember(f.bytes, f.length, lent, GUARD, NULL, 0, 1) == GARLUVENI_UNDECIDED);
    CHECK(garluveni_remember_counting(f.bytes, f.length, NULL, 0, memory, STATE, 1) == GARLUVENI_REACHED);
    CHECK(garluveni_remember_counting(f.bytes, f.length, NULL, 0, NULL, 0, 1) == GARLUVENI_UNDECIDED);
    REMEMBERS(&f, 0, STATE, 1, GARLUVENI_REACHED, 0, &none);
    REMEMBERS(&f, 0, STATE - 1, 1, GARLUVENI_UNDECIDED, 0, &none);
    steps.length = 0;
    lengths(0, 1);
}

/* A million bytes: step records, the 193rd of which is refused, and zeros, which have no kind. */
static void million_bytes(void)
{
    program(&f, 1, 1);
    repeat(&f, "P0", (MILLION - 8) / GARLUVENI_STEP_BYTES);
    REFUSED(&f, GARLUVENI_STEP, 1544);
    memset(f.bytes, 0, MILLION);
    REFUSED(&f, GARLUVENI_KIND, 0);
    outage();
    memset(f.bytes + f.length, 0, MILLION - f.length);
    f.length = MILLION;
    REFUSED(&f, GARLUVENI_KIND, 50);
}

static void thousand_calls(void)
{
    outage();
    for (int i = 0; i < 1000; i++) {
        ASKS(&f, 48, BUDGET, GARLUVENI_REACHED, &steps);
        JUDGES(&f, GARLUVENI_LEGAL, 0);
        REMEMBERS(&f, 48, 8 * STATE, BUDGET, GARLUVENI_REACHED, 0, &steps);
    }
}

int main(void)
{
    reading_refusals();
    most_of_each();
    register_refusals(STORE_REGISTER);
    register_refusals(COMPARE);
    registers_set();
    issue_rules();
    move_rules();
    blockers();
    last_blockers();
    compare_rules(0);
    compare_rules(7);
    compare_runs();
    compare_refusals();
    persist_rule();
    legal_runs();
    longest_file();
    lines();
    line_refusals();
    budgets();
    outage();
    lengths(48, BUDGET);
    compare_questions();
    depth();
    memories();
    remembered_runs();
    many_states();
    remembered_depth();
    counted_numbers();
    empty_buffers();
    million_bytes();
    thousand_calls();
    printf("host: %u checks\n", checks);
    return 0;
}
