/*
 * The C face on a stream of frames: standard input has frames of the machine or of the question as docs/FRAMES.md
 * lays them out, standard output gets a line for each that the C face can answer. Job 0 is judged: number and
 * place, and the blocker where there is one. A question is asked with the frame's room and budget: number, place
 * and the lent buffer in hex. Other jobs are passed over; tools/lend.c has the fifth. What was lent stands between
 * guard bytes, at another alignment each time; a byte that is not as it must be afterwards ends the program, and so
 * does a frame that is cut or out of bounds.
 */
#define PROGRAM "frames"
#include "frames.h"

enum { JUDGE = 0, CASE = 1, STEP = 2, QUESTION = 3, START = 4 };
enum { STEP_FIELDS = 4, STATE = 5656 };

static void print_blocker(uint32_t place)
{
    uint32_t in = garluveni_blocker_in(place);
    if (place == GARLUVENI_NO_BLOCKER)
        return;
    if (in != GARLUVENI_IN_BUFFER && in != GARLUVENI_IN_QUEUE)
        stop("neither a buffer nor a queue");
    printf(" %c%lu.%lu", in == GARLUVENI_IN_BUFFER ? 'B' : 'Q', (unsigned long)garluveni_blocker_number(place),
           (unsigned long)garluveni_blocker_position(place));
}

static void judge(void)
{
    uint32_t number = garluveni_judge(start(&input), input.length);
    check_input();
    uint32_t place = garluveni_blocker(start(&input), input.length);
    check_input();
    print_answer(number);
    print_blocker(place);
    end_line();
}

static void ask(uint32_t room, uint32_t budget)
{
    lend_steps(room);
    uint32_t number = garluveni_question(start(&input), input.length, start(&steps), room, budget);
    check_input();
    check_steps();
    print_answer(number);
    print_steps();
    end_line();
}

static void answer(const uint8_t *head)
{
    uint8_t step[STEP_FIELDS + STATE];
    take_input(number_at(head + 4));
    switch (number_at(head) - MACHINE) {
    case JUDGE:
        judge();
        break;
    case QUESTION:
        ask(number_at(head + 8), number_at(head + 12));
        break;
    case STEP:
        take(step, sizeof step);
        break;
    case CASE:
    case START:
        break;
    default:
        stop("no such job");
    }
}

int main(void)
{
    uint8_t head[HEAD];
    while (take_head(head))
        answer(head);
    return 0;
}
