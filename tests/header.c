/* Calls the library through include/shillingnook.h, as a host does, in C and in C++: each answer crosses as the header says. */
#include <stdio.h>
#include "shillingnook.h"

static int wrong;

static void expect(const char *what, uint64_t got, uint64_t want)
{
    if (got != want) {
        printf("header: %s: %llu, not %llu\n", what, (unsigned long long)got, (unsigned long long)want);
        wrong = 1;
    }
}

static const sn_window windows[] = {{0, 0, 10}, {1, 10, 20}, {0, 30, 5}, {2, 35, 15}};
static const sn_row rows[] = {{1, 0x20000000, 1024, SN_READ_WRITE}, {2, 0x200003E0, 32, SN_READ}};
static const sn_plan frame_a = {50, windows, 4, 0, 0};
static const sn_plan one_row = {50, windows, 4, rows, 1};
static const sn_plan clash = {50, windows, 4, rows, 2};
static const sn_plan no_windows = {50, 0, 4, rows, 1};
static const sn_plan missing_rows = {50, windows, 4, 0, 1};
static const sn_plan longer = {51, windows, 4, rows, 1};

static void plans(void)
{
    uint32_t window;
    sn_answer a = sn_check(&frame_a);
    expect("frame A's number", a.number, 0);
    expect("frame A's host code", (uint64_t)a.host_code, 0);
    a = sn_check(&clash);
    expect("a clash's number", a.number, 11);
    expect("a clash's place", a.place, 1);
    expect("a clash's host code", (uint64_t)-a.host_code, 112);
    expect("windows that are not there", sn_check(&no_windows).number, 1);
    expect("rows that are not there", sn_check(&missing_rows).number, 1);
    a = sn_lookup(&one_row, 49, &window);
    expect("tick 49's window", window, 3);
    expect("tick 49's number", a.number, 0);
    a = sn_lookup(&longer, 49, &window);
    expect("a refused window", window, 0);
    expect("a refused number", a.number, 5);
    expect("a refused place", a.place, 3);
    expect("a refused host code", (uint64_t)-a.host_code, 22);
}

static void words(void)
{
    sn_words w = sn_words_of(&one_row, 1);
    expect("the first word of slot 0", w.slots[0].rbar, 0x20000010);
    expect("the second word of slot 0", w.slots[0].rasr, 0x13080013);
    expect("the first word of slot 7", w.slots[7].rbar, 0x17);
    expect("the second word of slot 7", w.slots[7].rasr, 0);
    expect("the words' number", w.number, 0);
    w = sn_words_of(&one_row, 16);
    expect("partition 16's slot 7", w.slots[7].rbar, 0);
    expect("partition 16's number", w.number, 15);
    expect("partition 16's host code", (uint64_t)-w.host_code, 2);
}

static void machine(void)
{
    sn_state s = {9, 9, 9, 9, 9, 9, 9, 9};
    sn_answer a = sn_cold_start(&clash, &s);
    expect("a refused cold start", a.number, 11);
    expect("a state left alone", s.current, 9);
    a = sn_tick(&frame_a, &s, 0);
    expect("words that are no state", a.number, 17);
    expect("handed back as they came", s.word, 9);
    a = sn_cold_start(&frame_a, &s);
    expect("the first call", a.call, SN_SWAP);
    expect("the first phase", s.phase, SN_PROGRAM_REGIONS);
    a = sn_status(&frame_a, &s, 0);
    expect("the second call", a.call, SN_RESUME);
    expect("the mark", s.swapped, 1);
    a = sn_status(&frame_a, &s, 0);
    expect("no further call", a.call, SN_NONE);
    expect("it runs", s.phase, SN_RUNNING);
    a = sn_status(&frame_a, &s, 0);
    expect("a status with no call open", a.number, 13);
    a = sn_tick(&frame_a, &s, 7);
    expect("a stop is no refusal", a.number, 0);
    expect("stopped", s.phase, SN_STOPPED);
    expect("where", s.stage, SN_RUNNING);
    expect("why", s.cause, SN_WRONG_TICK);
    expect("with what", s.word, 7);
    expect("what was due", s.due, 0);
}

/* document 01: ticks 0 to 9 and five statuses of 0 over frame A */
static void run(void)
{
    const uint32_t ticks[] = {0, 1, 2, 3, 4, 5, 6, 7, 8, 9}, statuses[] = {0, 0, 0, 0, 0};
    const uint32_t calls[] = {2, 0, 3, 0, 1, 0, 2, 1, 3, 1};
    uint32_t log[65] = {0};
    sn_state s = {9, 9, 9, 9, 9, 9, 9, 9};
    int i;
    sn_ran r = sn_run(&frame_a, ticks, 10, statuses, 5, log, 63, &s);
    expect("a log one word short", r.number, 16);
    expect("its host code", (uint64_t)-r.host_code, 28);
    expect("the state as it was", s.due, 9);
    log[64] = 77;
    r = sn_run(&frame_a, ticks, 10, statuses, 5, log, 64, &s);
    expect("a run's number", r.number, 0);
    expect("ticks used", r.ticks, 10);
    expect("statuses used", r.statuses, 5);
    expect("calls written", r.calls, 5);
    for (i = 0; i < 10; i++)
        expect("a word of the log", log[i], calls[i]);
    expect("past the last record", log[10], 0);
    expect("past the log", log[64], 77);
    expect("the end window", s.current, 1);
    expect("the end's due tick", s.due, 10);
}

int main(void)
{
    plans();
    words();
    machine();
    run();
    if (!wrong)
        puts("header: the answers cross as declared");
    return wrong;
}
