/* Shillingnook's C interface (C99 and C++). Link with libhost.a, which tools/staticlib writes to target/staticlib (for x86-64).

   The first part declares the library: functions over numbers of 32 bits and lent lists. No struct crosses by value, so the declarations do not depend on how a target
   passes one. The second part, the names that begin with sn_, puts structs on top of them, in inline functions; firmware will want those.

   Who owns what. Everything is the caller's. Lists and arrays are lent for the call and not kept; the library has no memory of its own, allocates nothing, calls nothing and
   always returns. What is lent to be written (answer, state, counts, log) may not overlap anything else that is lent to the same call. Two calls may run at once if they
   share nothing that is written: so a state that the timer's interrupt hands to sn_tick wants the timer masked while another call has it.

   What is written when. The answer is written by every call, and the counts by every run. A state and a log get new contents only where the call is accepted; on a refusal
   they hold what they held (a state's words may be stored again). A stop is no refusal: it is accepted, and the state says so.

   A plan is a frame length and two lists: the windows, three numbers each (owner, offset, budget), and the rows, four numbers each (partition, base, size, access).
   Every call checks the plan before anything else and refuses a wrong one with the number and the place (the window or the row) of what is wrong first. The check is fastest on
   rows in the order of their addresses.

   How a switch is driven. A cold start asks for a call. Make it and hand its status word to sn_status, whose answer asks for the next call, until none is asked and the
   phase is SN_RUNNING: then the partition that owns the current window runs. Hand every tick of the timer to sn_tick, in order, 0 to length - 1 and again from 0. At a
   window's last tick the answer asks to save the running partition; the status of that call brings the swap, the swap's the resume.
       SN_SAVE     save the context of that partition
       SN_SWAP     write the words that sn_words_of gives for that partition to the memory protection unit, all eight pairs in their order, with no partition running;
                   the barriers, and turning the unit off and on, are the host's
       SN_RESUME   make that partition the one to return to; hand the status to sn_status, and return to it only when the phase is SN_RUNNING
   A status of 0 says that the call was made; any other word stops the machine.

   On a stop (phase SN_STOPPED) let no partition run: a tick came wrong or too early, or a call failed; the state says which. The machine answers every further
   event with refusal 14. Only a new cold start leaves a stop.

   On a refused event nothing has moved. A status with no call open (13) was not asked for, and the machine goes on as if it had not come. After any other number there
   is no machine to go on with, for the plan (1 to 11) or the state (17) is not what it was at the cold start: let no partition run, and start cold. */
#ifndef SHILLINGNOOK_H
#define SHILLINGNOOK_H

#include <stdint.h>

#ifdef __cplusplus
extern "C" {
#endif

/* ---- the library

   Every list is a pointer and how many numbers there are, not how many records. A list of no numbers still wants a pointer that is not NULL.
   answer[0] is the refusal's number, answer[1] its place, answer[2] its host code, in two's complement; three zeros where accepted.

   number and place                                                              host code
    1  0       window or row count out of range, or a list that ends in a record   -22  EINVAL
    2  window  budget zero                                                         -22
    3  window  start wrong                                                         -22
    4  window  owner above 15                                                       -2  ENOENT
    5  window  the last end is not the frame length                                -22
    6  row     partition above 15                                                   -2
    7  row     size                                                                -22
    8  row     base                                                                -22
    9  row     access above 2                                                      -22
   10  row     ninth row of a partition                                            -28  ENOSPC
   11  row     clash with an earlier row                                          -112  EADDRINUSE
   12  0       lookup tick not below the frame length                              -22
   13  0       status with no call open                                            -11  EAGAIN
   14  0       machine stopped                                                    -140  ECANCELED
   15  0       region words for a partition above 15                                -2
   16  0       log too short                                                       -28
   17  0       state that no ticks and statuses reach from this plan's cold start    -9  EBADF
   The codes are an embedded C library's, as Zephyr has them, negated; another <errno.h> may have other values under these names. */

void shillingnook_check(uint32_t length, const uint32_t *windows, uint64_t windows_count, const uint32_t *rows, uint64_t rows_count, uint32_t answer[3]);

/* answer[3] is the window that holds the tick, 0 on a refusal. */
void shillingnook_lookup(uint32_t length, const uint32_t *windows, uint64_t windows_count, const uint32_t *rows, uint64_t rows_count, uint32_t tick,
                         uint32_t answer[4]);

/* answer[3] to answer[18] are the eight slots' pairs of words, all 0 on a refusal. */
void shillingnook_words(uint32_t length, const uint32_t *windows, uint64_t windows_count, const uint32_t *rows, uint64_t rows_count, uint32_t partition,
                        uint32_t answer[19]);

/* answer[3] is the call that is asked for, 0 for none, and answer[4] its partition. A state is eight words, in the order of sn_state's fields; any eight words may
   be handed in, and those that are no state, or none that this plan's machine can be in, are refused by 17. It is read by every call, so it has to hold something, whatever
   that is, also before a cold start or a run. */
void shillingnook_cold_start(uint32_t length, const uint32_t *windows, uint64_t windows_count, const uint32_t *rows, uint64_t rows_count, uint32_t state[8],
                             uint32_t answer[5]);
void shillingnook_tick(uint32_t length, const uint32_t *windows, uint64_t windows_count, const uint32_t *rows, uint64_t rows_count, uint32_t tick,
                       uint32_t state[8], uint32_t answer[5]);
void shillingnook_status(uint32_t length, const uint32_t *windows, uint64_t windows_count, const uint32_t *rows, uint64_t rows_count, uint32_t status,
                         uint32_t state[8], uint32_t answer[5]);

/* A whole run from a cold start: the next status where a call is open, else the next tick, until it stops or the list it needs is used up. Each call is two words of
   the log, the call and its partition; the log needs 4 + 6 * ticks_count words, else refusal 16, and what lies after the last call is as it was. state is the end state,
   counts the ticks used, the statuses used and the calls written, three zeros on a refusal. */
void shillingnook_run(uint32_t length, const uint32_t *windows, uint64_t windows_count, const uint32_t *rows, uint64_t rows_count, const uint32_t *ticks,
                      uint64_t ticks_count, const uint32_t *statuses, uint64_t statuses_count, uint32_t *log, uint64_t log_count, uint32_t state[8],
                      uint64_t counts[3], uint32_t answer[3]);

/* ---- the comfortable form */

enum { SN_READ = 0, SN_READ_WRITE = 1, SN_READ_EXECUTE = 2 };                                          /* a row's access */
enum { SN_NONE = 0, SN_SAVE = 1, SN_SWAP = 2, SN_RESUME = 3 };                                         /* a call */
enum { SN_RUNNING = 0, SN_SAVE_CTX = 1, SN_PROGRAM_REGIONS = 2, SN_RESUMING = 3, SN_STOPPED = 4 };     /* a phase */
enum { SN_NO_CAUSE = 0, SN_WRONG_TICK = 1, SN_TICK_IN_SWITCH = 2, SN_BAD_STATUS = 3 };                 /* why it stopped */

typedef struct {
    uint32_t owner, offset, budget;
} sn_window;

typedef struct {
    uint32_t partition, base, size, access;
} sn_row;

/* A list of these is a list of their numbers, one after the other: an array of no length, where a target had it otherwise, would not compile. */
typedef char sn_window_is_three_numbers[sizeof(sn_window) == 12 ? 1 : -1];
typedef char sn_row_is_four_numbers[sizeof(sn_row) == 16 ? 1 : -1];

/* Counted in records here. A list may be NULL where there are none; NULL for some is refused with 1. */
typedef struct {
    uint32_t length;
    const sn_window *windows;
    uint32_t window_count;
    const sn_row *rows;
    uint32_t row_count;
} sn_plan;

/* number, place and host_code as in the table above; number is 0 where accepted. */
typedef struct {
    uint32_t number, place;
    int32_t host_code;
    uint32_t call, partition; /* of a cold start, a tick and a status */
} sn_answer;

typedef struct {
    uint32_t current, target, due, swapped;
    uint32_t phase;
    uint32_t stage;       /* the phase that it is in, or stopped in */
    uint32_t cause, word; /* of a stop, with its tick or its status word; else 0 */
} sn_state;

/* Laid out as CMSIS's ARM_MPU_Region_t: MPU_RBAR, then MPU_RASR. */
typedef struct {
    uint32_t rbar, rasr;
} sn_pair;

/* To be written in this order to a unit whose regions above 7, if it has any, are off. On a refusal all words are 0 and nothing is to be written: the unit still
   has the regions of the owner before, so no partition may be resumed. */
typedef struct {
    uint32_t number, place;
    int32_t host_code;
    sn_pair slots[8];
} sn_words;

typedef struct {
    uint32_t number, place;
    int32_t host_code;
    uint64_t ticks, statuses, calls;
} sn_ran;

/* A list of none is lent too, and wants a pointer: the plan's own length will do. */
static inline const uint32_t *sn_windows_of(const sn_plan *plan)
{
    return plan->windows ? &plan->windows[0].owner : &plan->length;
}

static inline const uint32_t *sn_rows_of(const sn_plan *plan)
{
    return plan->rows ? &plan->rows[0].partition : &plan->length;
}

static inline uint64_t sn_windows_count(const sn_plan *plan)
{
    return plan->windows ? (uint64_t)3 * plan->window_count : 0;
}

/* One number, a list that ends in a record, where rows are counted that are not there. */
static inline uint64_t sn_rows_count(const sn_plan *plan)
{
    return plan->rows ? (uint64_t)4 * plan->row_count : plan->row_count != 0;
}

static inline int32_t sn_host_code(uint32_t word)
{
    return -(int32_t)(0u - word); /* no code is below -140 */
}

static inline sn_answer sn_answered(const uint32_t *words, uint32_t call, uint32_t partition)
{
    sn_answer a;
    a.number = words[0];
    a.place = words[1];
    a.host_code = sn_host_code(words[2]);
    a.call = call;
    a.partition = partition;
    return a;
}

static inline void sn_state_out(const sn_state *state, uint32_t words[8])
{
    words[0] = state->current;
    words[1] = state->target;
    words[2] = state->due;
    words[3] = state->swapped;
    words[4] = state->phase;
    words[5] = state->stage;
    words[6] = state->cause;
    words[7] = state->word;
}

static inline void sn_state_back(const uint32_t words[8], sn_state *state)
{
    state->current = words[0];
    state->target = words[1];
    state->due = words[2];
    state->swapped = words[3];
    state->phase = words[4];
    state->stage = words[5];
    state->cause = words[6];
    state->word = words[7];
}

static inline sn_answer sn_check(const sn_plan *plan)
{
    uint32_t said[3];
    shillingnook_check(plan->length, sn_windows_of(plan), sn_windows_count(plan), sn_rows_of(plan), sn_rows_count(plan), said);
    return sn_answered(said, SN_NONE, 0);
}

/* *window is the window that holds the tick, 0 on a refusal. */
static inline sn_answer sn_lookup(const sn_plan *plan, uint32_t tick, uint32_t *window)
{
    uint32_t said[4];
    shillingnook_lookup(plan->length, sn_windows_of(plan), sn_windows_count(plan), sn_rows_of(plan), sn_rows_count(plan), tick, said);
    *window = said[3];
    return sn_answered(said, SN_NONE, 0);
}

static inline sn_words sn_words_of(const sn_plan *plan, uint32_t partition)
{
    uint32_t said[19];
    sn_words w;
    int k;
    shillingnook_words(plan->length, sn_windows_of(plan), sn_windows_count(plan), sn_rows_of(plan), sn_rows_count(plan), partition, said);
    w.number = said[0];
    w.place = said[1];
    w.host_code = sn_host_code(said[2]);
    for (k = 0; k < 8; k++) {
        w.slots[k].rbar = said[3 + 2 * k];
        w.slots[k].rasr = said[4 + 2 * k];
    }
    return w;
}

/* *state need not hold anything. */
static inline sn_answer sn_cold_start(const sn_plan *plan, sn_state *state)
{
    uint32_t words[8] = {0, 0, 0, 0, 0, 0, 0, 0};
    uint32_t said[5];
    shillingnook_cold_start(plan->length, sn_windows_of(plan), sn_windows_count(plan), sn_rows_of(plan), sn_rows_count(plan), words, said);
    if (said[0] == 0)
        sn_state_back(words, state);
    return sn_answered(said, said[3], said[4]);
}

static inline sn_answer sn_tick(const sn_plan *plan, sn_state *state, uint32_t tick)
{
    uint32_t words[8], said[5];
    sn_state_out(state, words);
    shillingnook_tick(plan->length, sn_windows_of(plan), sn_windows_count(plan), sn_rows_of(plan), sn_rows_count(plan), tick, words, said);
    sn_state_back(words, state);
    return sn_answered(said, said[3], said[4]);
}

static inline sn_answer sn_status(const sn_plan *plan, sn_state *state, uint32_t status)
{
    uint32_t words[8], said[5];
    sn_state_out(state, words);
    shillingnook_status(plan->length, sn_windows_of(plan), sn_windows_count(plan), sn_rows_of(plan), sn_rows_count(plan), status, words, said);
    sn_state_back(words, state);
    return sn_answered(said, said[3], said[4]);
}

/* The lists may not be NULL, also where they are empty. *state need not hold anything; it is the end state where the run is accepted. */
static inline sn_ran sn_run(const sn_plan *plan, const uint32_t *ticks, uint64_t ticks_count, const uint32_t *statuses, uint64_t statuses_count, uint32_t *log,
                            uint64_t log_count, sn_state *state)
{
    uint32_t words[8] = {0, 0, 0, 0, 0, 0, 0, 0};
    uint32_t said[3];
    uint64_t counts[3];
    sn_ran r;
    shillingnook_run(plan->length, sn_windows_of(plan), sn_windows_count(plan), sn_rows_of(plan), sn_rows_count(plan), ticks, ticks_count, statuses, statuses_count,
                     log, log_count, words, counts, said);
    if (said[0] == 0)
        sn_state_back(words, state);
    r.number = said[0];
    r.place = said[1];
    r.host_code = sn_host_code(said[2]);
    r.ticks = counts[0];
    r.statuses = counts[1];
    r.calls = counts[2];
    return r;
}

#ifdef __cplusplus
}
#endif

#endif
