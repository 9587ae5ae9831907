/*
 * For C programs that answer frames (docs/FRAMES.md): a frame's numbers and bytes, taken from standard input, lent
 * bytes between guards, and what lines have in common. A program says by PROGRAM what it is called, before it
 * includes this.
 */
#include <stdint.h>
#include <stdio.h>
#include <stdlib.h>
#include <string.h>

#include "garluveni.h"

enum { HEAD = 16, MOST = 8192 };
enum { GUARD = 64, ROOM = MOST + 2 * GUARD };
enum { UNTOUCHED = 0xA5, GUARDED = 0xEE };

/* What a frame's first number has above its job. */
static const uint32_t MACHINE = 2147483648u;

static unsigned long frames;

static void stop(const char *fault)
{
    fprintf(stderr, PROGRAM ": frame %lu: %s\n", frames, fault);
    exit(1);
}

/* Frames */

static uint32_t number_at(const uint8_t *at)
{
    return (uint32_t)at[0] | (uint32_t)at[1] << 8 | (uint32_t)at[2] << 16 | (uint32_t)at[3] << 24;
}

static void take(uint8_t *part, size_t length)
{
    if (fread(part, 1, length, stdin) != length)
        stop("cut");
}

/* The next frame's first bytes; 0 where the stream has ended. */
static int take_head(uint8_t *head)
{
    size_t got = fread(head, 1, HEAD, stdin);
    frames++;
    if (ferror(stdin))
        stop("not read");
    if (got != 0 && got != HEAD)
        stop("cut");
    return got != 0;
}

/* Lent bytes: the given ones between guards, at another alignment each time */

struct lent {
    size_t shift, length;
    uint8_t room[ROOM];
};

static uint8_t *start(struct lent *lent)
{
    return lent->room + GUARD / 2 + lent->shift;
}

static void lay_out(struct lent *lent, size_t length)
{
    if (length > MOST)
        stop("out of bounds");
    lent->shift = (lent->shift + 1) % 16;
    lent->length = length;
    memset(lent->room, GUARDED, ROOM);
}

static int is_guarded(struct lent *lent)
{
    const uint8_t *behind = start(lent) + lent->length;
    for (const uint8_t *at = lent->room; at < start(lent); at++)
        if (*at != GUARDED)
            return 0;
    for (const uint8_t *at = behind; at < lent->room + ROOM; at++)
        if (*at != GUARDED)
            return 0;
    return 1;
}

/* What every frame has: the input, and a buffer for steps */

static struct lent input, steps;
static uint8_t given[MOST];

static void take_input(size_t length)
{
    lay_out(&input, length);
    take(given, length);
    memcpy(start(&input), given, length);
}

static void check_input(void)
{
    if (!is_guarded(&input) || memcmp(start(&input), given, input.length) != 0)
        stop("the input has changed");
}

static void lend_steps(size_t room)
{
    lay_out(&steps, room);
    memset(start(&steps), UNTOUCHED, room);
}

static void check_steps(void)
{
    if (!is_guarded(&steps))
        stop("bytes that were not lent have changed");
}

/* Lines */

static void print_answer(uint32_t number)
{
    printf("%lu %lu", (unsigned long)garluveni_answer(number), (unsigned long)garluveni_place(number));
}

/* All that was lent, behind a blank. */
static void print_steps(void)
{
    const char *digits = "0123456789abcdef";
    fputs(steps.length == 0 ? " -" : " ", stdout);
    for (size_t i = 0; i < steps.length; i++) {
        putchar(digits[start(&steps)[i] / 16]);
        putchar(digits[start(&steps)[i] % 16]);
    }
}

/* Whoever waits for the line gets it now. */
static void end_line(void)
{
    putchar('\n');
    if (fflush(stdout) != 0 || ferror(stdout))
        stop("not written");
}
