/*
 * Lends memory to the walk that remembers: standard input has its frames as docs/FRAMES.md lays them out, standard
 * output gets a line for each. It decides nothing: it lends, calls the proved library, and tells what comes back. A
 * call clears all that it is lent, so that little is lent at first, and twice as much again while memory is what
 * limits the walk; the last try lends as much as the frame says.
 *
 * With --junk the memory is full of junk before each call and has guard words around it, and the function that
 * counts no states is called too. The bytes for steps have guards in any case. A guard that has changed ends the
 * program, and so do two functions that differ and a frame that is cut, out of bounds or another.
 */
#define _DEFAULT_SOURCE /* C99 alone has no anonymous memory */
#include <sys/mman.h>
#include <unistd.h>

#define PROGRAM "lend"
#include "frames.h"

enum { REMEMBER = 5 };
/* The states that the first try has room for. */
enum { FIRST_STATES = 64 };
/* Words around the lent ones. */
enum { FENCE = 1024 };

static const uint32_t JUNK = 0xA5A5A5A5u, FENCED = 0xEEEEEEEEu;
static const char ZEROS[] = "zeros", KEPT[] = "kept", SPOILT[] = "spoilt", NONE[] = "-";

static int is_junked;

/* The memory: mapped once and as a whole, since its pages are the system's until they are written */

static uint32_t *memory;
static uint64_t most_memory;

static uint64_t smaller(uint64_t a, uint64_t b)
{
    return a < b ? a : b;
}

static void *map(uint64_t words)
{
    int fresh = MAP_PRIVATE | MAP_ANONYMOUS | MAP_NORESERVE;
    return mmap(NULL, words * sizeof *memory, PROT_READ | PROT_WRITE, fresh, -1, 0);
}

/* Half of what the machine has, or less where the system will not map so much. */
static void map_memory(void)
{
    uint64_t half = (uint64_t)sysconf(_SC_PHYS_PAGES) * (uint64_t)sysconf(_SC_PAGESIZE) / 2;
    uint64_t words = smaller(half / sizeof *memory, (uint64_t)UINT32_MAX + 2 * FENCE);
    void *mapped = map(words);
    while (mapped == MAP_FAILED && words > 4 * FENCE)
        mapped = map(words /= 2);
    if (mapped == MAP_FAILED)
        stop("the system has no memory to lend");
    memory = (uint32_t *)mapped + FENCE;
    most_memory = words - 2 * FENCE;
}

static void fill(uint32_t *words, uint64_t count, uint32_t word)
{
    for (uint64_t i = 0; i < count; i++)
        words[i] = word;
}

static int is_all(const uint32_t *words, uint64_t count, uint32_t word)
{
    for (uint64_t i = 0; i < count; i++)
        if (words[i] != word)
            return 0;
    return 1;
}

/* Without junk all words are 0 already: fresh ones are, and no call leaves others. */
static void lend_memory(uint64_t words)
{
    if (!is_junked)
        return;
    fill(memory - FENCE, FENCE, FENCED);
    fill(memory, words, JUNK);
    fill(memory + words, FENCE, FENCED);
}

static void check_memory(uint64_t words)
{
    if (is_junked && !(is_all(memory - FENCE, FENCE, FENCED) && is_all(memory + words, FENCE, FENCED)))
        stop("words that were not lent have changed");
}

/* What the call left there. Only a refusal may keep what was there before. */
static const char *memory_left(uint64_t words, uint32_t answer)
{
    int is_refused = answer < GARLUVENI_REACHED;
    if (words == 0)
        return NONE;
    if (is_refused)
        return is_all(memory, words, is_junked ? JUNK : 0) ? KEPT : SPOILT;
    return is_all(memory, words, 0) ? ZEROS : SPOILT;
}

/* The calls */

struct tried {
    uint64_t words, counted;
    const char *memory;
};

static uint32_t answer_of(const struct tried *tried)
{
    return garluveni_answer(garluveni_counted_number(tried->counted));
}

static struct tried call(int is_counting, uint64_t words, uint32_t room, uint32_t budget)
{
    struct tried tried = {words, 0, NONE};
    lend_memory(words);
    lend_steps(room);
    tried.counted = is_counting ? garluveni_remember_counting(start(&input), input.length, start(&steps), room,
                                                              memory, words, budget)
                                : garluveni_remember(start(&input), input.length, start(&steps), room,
                                                     memory, words, budget);
    check_input();
    check_steps();
    check_memory(words);
    tried.memory = memory_left(words, answer_of(&tried));
    return tried;
}

/* With junk the function that counts no states is called before, and must do the same. */
static struct tried attempt(uint64_t words, uint32_t room, uint32_t budget)
{
    static uint8_t stored[MOST];
    if (!is_junked)
        return call(1, words, room, budget);
    struct tried plain = call(0, words, room, budget);
    memcpy(stored, start(&steps), room);
    struct tried counting = call(1, words, room, budget);
    if (plain.counted != garluveni_counted_number(counting.counted) || plain.memory != counting.memory ||
        memcmp(stored, start(&steps), room) != 0)
        stop("the two functions differ");
    return counting;
}

/* Twice as much memory again, up to the most, while that may decide. */
static struct tried attempts(uint64_t most, uint32_t room, uint32_t budget)
{
    struct tried tried = attempt(smaller(most, FIRST_STATES * GARLUVENI_STATE_WORDS), room, budget);
    while (answer_of(&tried) == GARLUVENI_UNDECIDED && tried.words < most && tried.memory == ZEROS)
        tried = attempt(smaller(most, 2 * tried.words), room, budget);
    return tried;
}

/* For 101 all states that there are, for 102 those that were covered. */
static uint64_t states_told(const struct tried *tried, uint32_t budget)
{
    if (answer_of(tried) == GARLUVENI_UNDECIDED)
        return smaller(budget, tried->words / GARLUVENI_STATE_WORDS);
    return garluveni_counted_states(tried->counted);
}

static void answer(uint32_t room, uint32_t budget, uint32_t words)
{
    /* more than the budget covers is of no use */
    uint64_t states = budget < FIRST_STATES ? FIRST_STATES : budget;
    uint64_t useful = smaller(words, states * GARLUVENI_STATE_WORDS);
    struct tried tried = attempts(smaller(useful, most_memory), room, budget);
    if (answer_of(&tried) == GARLUVENI_UNDECIDED && tried.words == most_memory && most_memory < useful)
        fprintf(stderr, PROGRAM ": frame %lu: lent %llu words, half of this machine's memory, not %llu\n", frames,
                (unsigned long long)tried.words, (unsigned long long)useful);
    print_answer(garluveni_counted_number(tried.counted));
    printf(" %llu %s", (unsigned long long)states_told(&tried, budget), tried.memory);
    print_steps();
    end_line();
}

static void take_frame(const uint8_t *head)
{
    uint8_t words[4];
    if (number_at(head) != MACHINE + REMEMBER)
        stop("no such job");
    take_input(number_at(head + 4));
    take(words, sizeof words);
    answer(number_at(head + 8), number_at(head + 12), number_at(words));
}

int main(int count, char **options)
{
    uint8_t head[HEAD];
    is_junked = count == 2 && strcmp(options[1], "--junk") == 0;
    if (count > 1 && !is_junked) {
        fputs("usage: lend [--junk]\n", stderr);
        return 1;
    }
    map_memory();
    while (take_head(head))
        take_frame(head);
    return 0;
}
