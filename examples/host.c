/* A host, as firmware would write one: frame A, driven through two switches and a stop. Where this host prints, firmware saves a context, loads the memory protection
   unit or lets a partition run, and the tick comes from a timer. */
#include <inttypes.h>
#include <stdio.h>
#include "shillingnook.h"

static const sn_window windows[] = {{0, 0, 10}, {1, 10, 20}, {0, 30, 5}, {2, 35, 15}};
static const sn_row rows[] = {
    {0, 0x08000000, 65536, SN_READ_EXECUTE},
    {1, 0x20000000, 1024, SN_READ_WRITE},
    {2, 0x20000400, 1024, SN_READ_WRITE},
};
static const sn_plan plan = {50, windows, 4, rows, 3};

/* Answers the call's status: 0 where it was made. */
static uint32_t make_call(uint32_t call, uint32_t partition)
{
    sn_words words;
    switch (call) {
    case SN_SAVE:
        printf("  save the context of partition %" PRIu32 "\n", partition);
        return 0;
    case SN_SWAP:
        words = sn_words_of(&plan, partition);
        if (words.number != 0)
            return words.number; /* nothing may run with another partition's regions */
        printf("  load the regions of partition %" PRIu32 ": slot 0 is %08" PRIX32 " %08" PRIX32 "\n", partition, words.slots[0].rbar, words.slots[0].rasr);
        return 0;
    default:
        printf("  let partition %" PRIu32 " run\n", partition);
        return 0;
    }
}

static void print_stop(const sn_state *state)
{
    if (state->cause == SN_WRONG_TICK)
        printf("  stopped: tick %" PRIu32 " came, tick %" PRIu32 " was due", state->word, state->due);
    else if (state->cause == SN_TICK_IN_SWITCH)
        printf("  stopped: tick %" PRIu32 " came during a switch", state->word);
    else
        printf("  stopped: a call failed with status %08" PRIX32, state->word);
    printf("; nothing may run\n");
}

/* Makes call after call until none is asked. Answers whether the owner of the current window may now run: not after a refusal, and not once it has stopped. */
static int make_calls(sn_state *state, sn_answer answer)
{
    while (answer.number == 0 && answer.call != SN_NONE)
        answer = sn_status(&plan, state, make_call(answer.call, answer.partition));
    if (answer.number != 0)
        printf("  refused with %" PRIu32 ", host code %" PRId32 "; nothing may run\n", answer.number, answer.host_code);
    else if (state->phase == SN_STOPPED)
        print_stop(state);
    return answer.number == 0 && state->phase == SN_RUNNING;
}

static int tick(sn_state *state, uint32_t t)
{
    const sn_answer answer = sn_tick(&plan, state, t);
    if (answer.call != SN_NONE)
        printf("tick %" PRIu32 ": the last of window %" PRIu32 "\n", t, state->current);
    else if (answer.number != 0 || state->phase == SN_STOPPED)
        printf("tick %" PRIu32 "\n", t);
    return make_calls(state, answer);
}

int main(void)
{
    sn_state state;
    uint32_t t;
    const sn_answer first = sn_cold_start(&plan, &state);
    if (first.number != 0) {
        printf("the plan is refused with %" PRIu32 " at place %" PRIu32 "\n", first.number, first.place);
        return 1;
    }
    printf("cold start\n");
    if (!make_calls(&state, first))
        return 1;
    for (t = 0; t < 31; t++)
        if (!tick(&state, t))
            return 1;
    printf("window %" PRIu32 ", tick %" PRIu32 " is due\n", state.current, state.due);
    tick(&state, 32); /* the timer lost tick 31 */
    tick(&state, 33);
    return 0;
}
