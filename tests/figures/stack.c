/* The stack that each call takes, the worst over kinds of messages, states and refusals, held to the header's ROSTER_STACK_*.
 *
 * A call runs on a painted stack of its own; what is no longer paint was used. The bases live through whole histories, one that ends prime
 * and one that ends secondary, with what is discarded and turned down on the way. Schedules for roster_replay are named on the command
 * line. */
#include "roster.h"
#include <stdio.h>
#include <stdlib.h>
#include <string.h>
#include <ucontext.h>

#define N ROSTER_MOST_BASES
#define T ROSTER_MOST_FAULTY(N)

enum { STACK = 1 << 21, PAINT = 0xC7 };

/* What the call that is measured is lent. */
static roster_base base;
static uint8_t out[ROSTER_OUTPUT_ROOM], burst[ROSTER_LONGEST_BURST + 1], schedule[ROSTER_LONGEST_SCHEDULE + 1], report[ROSTER_REPORT_ROOM];
static uint8_t lines[ROSTER_FAULTY_TEXT_ROOM];
static size_t n, t, link, burst_length, room, schedule_length, number;
static uint8_t kind;
static uint32_t list[N], count;

static void nothing(void) {}
static void idles(void) { base = roster_idle(n, T, list[0]).base; }
static void starts(void) { roster_start(&base, out, room); }
static void arrives(void) { roster_arrive(&base, link, burst, burst_length, out, room); }
static void leads(void) { roster_leader(&base); }
static void reads(void) { roster_read(n, burst, burst_length); }
static void writes(void) { burst_length = roster_write(n, kind, list, count, burst, sizeof burst).length; }
static void versions(void) { roster_version(); }
static void replays(void) { roster_replay(schedule, schedule_length, report, sizeof report); }
static void counts(void) { roster_faulty_count(n, t); }
static void finds(void) { roster_faulty_set(n, t, number); }
static void lists(void) { roster_faulty_text(schedule, schedule_length, lines, sizeof lines); }

/* A call, the most that it took, with what, and what it may take. */
struct row {
    const char *name;
    void (*call)(void);
    size_t most, limit;
    char worst[80];
};

static struct row rows[] = {
    {"roster_idle", idles, 0, ROSTER_STACK_IDLE, ""},       {"roster_start", starts, 0, ROSTER_STACK_START, ""},
    {"roster_arrive", arrives, 0, ROSTER_STACK_ARRIVE, ""}, {"roster_leader", leads, 0, ROSTER_STACK_LEADER, ""},
    {"roster_read", reads, 0, ROSTER_STACK_READ, ""},       {"roster_write", writes, 0, ROSTER_STACK_WRITE, ""},
    {"roster_replay", replays, 0, ROSTER_STACK_REPLAY, ""}, {"roster_version", versions, 0, ROSTER_STACK_VERSION, ""},
    {"roster_faulty_count", counts, 0, ROSTER_STACK_FAULTY_COUNT, ""},
    {"roster_faulty_set", finds, 0, ROSTER_STACK_FAULTY_SET, ""},
    {"roster_faulty_text", lists, 0, ROSTER_STACK_FAULTY_TEXT, ""},
};

static size_t used(void (*call)(void))
{
    static uint8_t stack[STACK];
    static size_t unused; /* bytes at the far end that are still paint */
    ucontext_t here, there;
    memset(stack + unused, PAINT, STACK - unused);
    if (getcontext(&there) != 0)
        exit(1);
    there.uc_stack.ss_sp = stack;
    there.uc_stack.ss_size = STACK;
    there.uc_link = &here;
    makecontext(&there, call, 0);
    if (swapcontext(&here, &there) != 0)
        exit(1);
    unused = 0;
    while (unused < STACK && stack[unused] == PAINT)
        unused++;
    return STACK - unused;
}

static void measure(void (*call)(void), const char *what)
{
    static size_t idle;
    if (idle == 0)
        idle = used(nothing);
    size_t taken = used(call) - idle;
    for (size_t i = 0; i < sizeof rows / sizeof rows[0]; i++)
        if (rows[i].call == call && taken > rows[i].most) {
            rows[i].most = taken;
            snprintf(rows[i].worst, sizeof rows[i].worst, "%s", what);
        }
}

static void fit(void)
{
    n = N, link = 1, room = sizeof out;
    for (uint32_t k = 0; k < N; k++)
        list[k] = 1000 + k;
}

/* A message arrives; its frame is written and read on the way. */
static void hear(size_t on, uint8_t of_kind, uint32_t first, const char *what)
{
    uint32_t kept = list[0];
    kind = of_kind, count = of_kind < ROSTER_CORRECT_FINAL ? 1 : N, link = on;
    if (count == 1)
        list[0] = first;
    measure(writes, "a frame");
    measure(reads, "a frame");
    list[0] = kept;
    measure(arrives, what);
}

/* A fresh base, started or not. */
static void begin(int started)
{
    fit();
    measure(idles, "a record");
    if (started)
        measure(starts, "an idle base");
}

/* Whatever a stopped or a running base throws away. */
static void discards(const char *what)
{
    measure(starts, what);
    for (uint8_t k = ROSTER_ANNOUNCE; k <= ROSTER_VERIFY_FINAL; k++)
        hear(1, k, list[0], what);
    measure(leads, what);
}

/* Each first arrival at an idle base; the own Announce is discarded. */
static void first_arrivals(void)
{
    for (uint8_t k = ROSTER_ANNOUNCE; k <= ROSTER_VERIFY_FINAL; k++) {
        begin(0);
        hear(1, k, list[1], "the first arrival at an idle base");
    }
    begin(0);
    measure(leads, "an idle base");
    hear(1, ROSTER_ANNOUNCE, list[0], "a discarded first arrival at an idle base");
}

/* Every Announce and every Verify, until the base is prime. */
static void ends_prime(void)
{
    begin(1);
    for (size_t on = 1; on < N; on++)
        hear(on, ROSTER_ANNOUNCE, list[on], "an Announce");
    discards("at a running base");
    for (size_t of = 0; of < N; of++)
        for (size_t on = 1; on < N; on++)
            hear(on, ROSTER_VERIFY, list[of], base.state == ROSTER_RUNNING ? "a Verify, the last of them ends prime" : "at a stopped base");
    if (base.state != ROSTER_PRIME)
        exit(1);
    discards("at a stopped base");
}

/* Verify-Finals, then Correct-Finals of the same list, until the base is secondary. */
static void ends_secondary(void)
{
    begin(1);
    for (size_t on = 1; on <= T; on++)
        hear(on, ROSTER_VERIFY_FINAL, 0, "a Verify-Final");
    for (size_t on = 1; on <= T + 1; on++)
        hear(on, ROSTER_CORRECT_FINAL, 0, "a Correct-Final, one of them ends secondary");
    if (base.state != ROSTER_SECONDARY)
        exit(1);
    discards("at a stopped base");
}

/* Each number 1 to 12, as far as it is met. */
static void refusals(void)
{
    begin(1);
    link = N;
    measure(arrives, "turned down by 5");
    fit();
    room = 0;
    measure(arrives, "turned down by 6");
    measure(starts, "turned down by 6");
    fit();
    for (burst_length = 0; burst_length <= sizeof burst; burst_length++) {
        memset(burst, (int)burst_length, sizeof burst);
        measure(arrives, "turned down by 7 to 12");
        measure(reads, "turned down by 7 to 12");
    }
    base.links[0].held = 9;
    measure(arrives, "turned down by 4");
    measure(starts, "turned down by 4");
    measure(leads, "turned down by 4");
    n = 0, count = 0;
    measure(idles, "turned down by 1");
    measure(reads, "turned down by 1");
    measure(writes, "turned down by 1");
}

static void replay(const char *path)
{
    FILE *file = fopen(path, "rb");
    if (file == NULL)
        exit(1);
    schedule_length = fread(schedule, 1, sizeof schedule, file);
    fclose(file);
    measure(replays, path);
}

/* Every net and number in range and next to it, and the first line of every net. */
static void faulty_sets(void)
{
    for (n = 0; n <= ROSTER_SMALL_BASES + 1; n++)
        for (t = 0; t <= ROSTER_SMALL_FAULTY + 1; t++) {
            measure(counts, "a net");
            for (number = 0; number <= ROSTER_SMALL_SETS; number++)
                measure(finds, "a number");
            schedule_length = (size_t)snprintf((char *)schedule, sizeof schedule, "net %zu %zu\n", n, t);
            measure(lists, "the first line of a net");
        }
}

int main(int argc, char **argv)
{
    int failures = 0;
    first_arrivals();
    ends_prime();
    ends_secondary();
    refusals();
    measure(versions, "a call");
    faulty_sets();
    for (int i = 1; i < argc; i++)
        replay(argv[i]);
    for (size_t i = 0; i < sizeof rows / sizeof rows[0]; i++) {
        int over = rows[i].most > rows[i].limit;
        failures += over;
        printf("%-19s %6zu bytes of stack, at most %6zu%s; most with: %s\n", rows[i].name, rows[i].most, rows[i].limit,
               over ? ", EXCEEDED" : "", rows[i].worst);
    }
    return failures != 0;
}
