/* The header's records against the library's: every field is found where the header has it, and nothing is written past a record's size. */
#include "roster.h"
#include <stdio.h>
#include <string.h>

#define N ROSTER_MOST_BASES
#define T ROSTER_MOST_FAULTY(N)

static int failures;

static void check(const char *what, unsigned long long found, unsigned long long expected)
{
    if (found != expected) {
        printf("%s: found %llu, expected %llu\n", what, found, expected);
        failures++;
    }
}

/* A record between bytes that no call may touch. */
struct guarded {
    uint8_t before[64];
    roster_base base;
    uint8_t after[64];
};

static void guard(struct guarded *g, roster_base base)
{
    memset(g->before, 0xA5, sizeof g->before);
    memset(g->after, 0x5A, sizeof g->after);
    g->base = base;
}

static void guards(const struct guarded *g)
{
    for (size_t i = 0; i < sizeof g->before; i++) {
        check("byte before a record", g->before[i], 0xA5);
        check("byte after a record", g->after[i], 0x5A);
    }
}

static roster_answer arrives(roster_base *base, size_t link, uint8_t kind, const uint32_t *ids, size_t count)
{
    uint8_t frame[ROSTER_LONGEST_FRAME], out[ROSTER_OUTPUT_ROOM];
    roster_put put = roster_write(N, kind, ids, count, frame, sizeof frame);
    check("refusal of a frame", put.refusal, 0);
    check("length of a frame", put.length, ROSTER_FRAME_BYTES(count));
    check("slots of a frame", put.slots, ROSTER_FRAME_SLOTS(put.length));
    return roster_arrive(base, link, frame, put.length, out, sizeof out);
}

/* Each field of the last link is set by a call to a value that no other field has. */
static void link_fields(roster_base *base, const uint32_t *list)
{
    const size_t last = ROSTER_MOST_LINKS;
    const roster_link *held = &base->links[last - 1];
    uint32_t announced = 0x0A0B0C0D;
    arrives(base, last, ROSTER_ANNOUNCE, &announced, 1);
    check("link.announce", held->announce, announced);
    for (uint32_t k = 0; k < ROSTER_LIST_ROOM - 1; k++) {
        uint32_t v = 0x100 + k;
        check("accepted Verify", arrives(base, last, ROSTER_VERIFY, &v, 1).outcome, ROSTER_ACCEPTED);
        check("link.verifies", held->verifies[k], v);
        check("link.verify_count", held->verify_count, k + 1);
    }
    arrives(base, last, ROSTER_VERIFY_FINAL, list, N);
    check("link.held", held->held, ROSTER_VERIFY_FINAL);
    for (uint32_t k = 0; k < N; k++)
        check("link.list", held->list[k], list[k]);
}

/* Votes for the list on links 1 to t, two of them Correct-Finals, and the one that the last link holds stop the base as secondary. */
static void stops(roster_base *base, const uint32_t *list)
{
    roster_answer a = {0};
    arrives(base, 1, ROSTER_CORRECT_FINAL, list, N);
    check("sent, before two", base->sent, 0);
    a = arrives(base, 2, ROSTER_CORRECT_FINAL, list, N);
    check("sent, after two", base->sent, 1);
    check("own slots of a vote", a.own, 0);
    check("relayed slots of a vote", a.relayed, ROSTER_LIST_SLOTS(N));
    for (size_t link = 3; link <= T; link++)
        a = arrives(base, link, ROSTER_VERIFY_FINAL, list, N);
    check("answer of a stop", a.first, ROSTER_LONGEST_FRAME);
    check("own slots of a stop", a.own, ROSTER_LIST_SLOTS(N));
    check("relayed slots of a stop", a.relayed, 0);
    check("state", base->state, ROSTER_SECONDARY);
    for (uint32_t k = 0; k < N; k++)
        check("final_list", base->final_list[k], list[k]);
    roster_named named = roster_leader(base);
    check("named.outcome", named.outcome, ROSTER_LEADER_NAMED);
    check("named.leader", named.leader, list[N - 1]);
}

static void record(void)
{
    static struct guarded g;
    uint32_t list[N];
    uint8_t out[ROSTER_OUTPUT_ROOM];
    for (uint32_t k = 0; k < N; k++)
        list[k] = 0x200 + k;
    roster_made made = roster_idle(N, T, 0x01020304);
    check("made.refusal", made.refusal, 0);
    check("n", made.base.n, N);
    check("t", made.base.t, T);
    check("own", made.base.own, 0x01020304);
    guard(&g, made.base);
    roster_answer a = roster_start(&g.base, out, sizeof out);
    check("answer.outcome", a.outcome, ROSTER_ACCEPTED);
    check("answer.first", a.first, ROSTER_FRAME_BYTES(1));
    check("answer.second", a.second, ROSTER_FRAME_BYTES(1));
    check("answer.third", a.third, 0);
    check("answer.own", a.own, 2);
    check("answer.relayed", a.relayed, 0);
    check("state", g.base.state, ROSTER_RUNNING);
    link_fields(&g.base, list);
    stops(&g.base, list);
    guards(&g);
}

/* The answers of what is turned down and of the reader. */
static void answers(void)
{
    uint8_t frame[ROSTER_LONGEST_FRAME];
    uint32_t ids[N];
    for (uint32_t k = 0; k < N; k++)
        ids[k] = 0x300 + k;
    check("refused made", roster_idle(N + 1, 0, 1).refusal, ROSTER_REFUSAL_BASES);
    roster_put put = roster_write(N, ROSTER_CORRECT_FINAL, ids, N, frame, sizeof frame);
    roster_taken taken = roster_read(N, frame, put.length);
    check("taken.refusal", taken.refusal, 0);
    check("taken.kind", taken.kind, ROSTER_CORRECT_FINAL);
    check("taken.count", taken.count, N);
    check("taken.start", taken.start, 0);
    for (uint32_t k = 0; k < N; k++)
        check("taken.ids", taken.ids[k], ids[k]);
    check("refused read", roster_read(N, frame, ROSTER_SHORTEST_BURST - 1).refusal, ROSTER_REFUSAL_BURST);
    put = roster_write(N, ROSTER_VERIFY_FINAL + 1, ids, N, frame, sizeof frame);
    check("refused write", put.refusal, ROSTER_REFUSAL_KIND);
    check("refused write's length", put.length, 0);
    check("refused write's slots", put.slots, 0);
    roster_base zero = roster_idle(0, 0, 0).base;
    roster_answer a = roster_start(&zero, frame, sizeof frame);
    check("refused answer.outcome", a.outcome, ROSTER_REFUSED);
    check("refused answer.refusal", a.refusal, ROSTER_REFUSAL_BASES);
    check("refused answer.own", a.own, 0);
    check("refused answer.relayed", a.relayed, 0);
    check("refused named.refusal", roster_leader(&zero).refusal, ROSTER_REFUSAL_BASES);
}

/* The sets of faulty links: the last of the largest small net, and what is turned down. */
static void faulty_sets(void)
{
    static uint8_t before[64], lines[ROSTER_FAULTY_TEXT_ROOM + 64];
    const char *net = "net 4 1\nid 1 500\n", *first = "set 0\nset 1\nfaulty 1 2\n";
    roster_count sets = roster_faulty_count(ROSTER_SMALL_BASES, ROSTER_SMALL_FAULTY);
    check("count.refusal", sets.refusal, 0);
    check("count.count", sets.count, ROSTER_SMALL_SETS);
    roster_set set = roster_faulty_set(ROSTER_SMALL_BASES, ROSTER_SMALL_FAULTY, sets.count - 1);
    check("set.refusal", set.refusal, 0);
    check("set.count", set.count, ROSTER_SMALL_FAULTY);
    check("set.pairs[0].lower", set.pairs[0].lower, ROSTER_SMALL_BASES - 2);
    check("set.pairs[0].higher", set.pairs[0].higher, ROSTER_SMALL_BASES);
    check("set.pairs[1].lower", set.pairs[1].lower, ROSTER_SMALL_BASES - 1);
    check("set.pairs[1].higher", set.pairs[1].higher, ROSTER_SMALL_BASES);
    set = roster_faulty_set(ROSTER_SMALL_BASES, ROSTER_SMALL_FAULTY, sets.count);
    check("refused set.refusal", set.refusal, ROSTER_REFUSAL_SET_NUMBER);
    check("refused set", memcmp(&set.count, before, sizeof set - 1) != 0, 0);
    sets = roster_faulty_count(ROSTER_SMALL_BASES + 1, 0);
    check("refused count.refusal", sets.refusal, ROSTER_REFUSAL_LARGE_NET);
    check("refused count.count", sets.count, 0);
    size_t length = roster_faulty_text((const uint8_t *)net, strlen(net), lines, ROSTER_FAULTY_TEXT_ROOM);
    check("lines", length, 7 * strlen("set 0\n") + 6 * strlen("faulty 1 2\n"));
    check("first lines", memcmp(lines, first, strlen(first)) != 0, 0);
    for (size_t i = length; i < sizeof lines; i++)
        check("byte past the lines", lines[i], 0);
}

/* NULL may stand where the length is 0. */
static void nothing_lent(void)
{
    uint8_t out[ROSTER_OUTPUT_ROOM], report[ROSTER_REPORT_ROOM];
    roster_base base = roster_idle(N, T, 1).base;
    check("no burst read", roster_read(N, NULL, 0).refusal, ROSTER_REFUSAL_BURST);
    check("no burst arrives", roster_arrive(&base, 1, NULL, 0, out, sizeof out).refusal, ROSTER_REFUSAL_BURST);
    check("no output of a start", roster_start(&base, NULL, 0).refusal, ROSTER_REFUSAL_OUTPUT);
    check("no identifiers written", roster_write(N, ROSTER_VERIFY, NULL, 0, out, sizeof out).refusal, ROSTER_REFUSAL_COUNT);
    check("no output written", roster_write(N, ROSTER_VERIFY, &base.own, 1, NULL, 0).refusal, ROSTER_REFUSAL_OUTPUT);
    check("no report's room", roster_replay(NULL, 0, NULL, 0), 0);
    check("no schedule", roster_replay(NULL, 0, report, sizeof report), strlen("refused 13 line 1\n"));
    check("no lines' room", roster_faulty_text(NULL, 0, NULL, 0), 0);
}

/* Every byte of a record that is lent belongs to a field: the fields' sizes add up to the record's. */
static void fields(void)
{
    roster_link link;
    roster_base base;
    size_t of_link = sizeof link.announce + sizeof link.verifies + sizeof link.list + sizeof link.verify_count + sizeof link.held;
    size_t of_base = sizeof base.n + sizeof base.t + sizeof base.state + sizeof base.sent + sizeof base.own + sizeof base.final_list;
    check("fields of a link", of_link, sizeof link);
    check("fields of a base", of_base + sizeof base.links, sizeof base);
    roster_base first = roster_idle(N, T, 1000).base, second = roster_idle(N, T, 1000).base;
    check("two idle records that differ under memcmp", memcmp(&first, &second, sizeof first) != 0, 0);
}

/* A stored record that is read back damaged is turned down, and left as it was read. */
static void read_back(void)
{
    uint8_t bytes[sizeof(roster_base)];
    roster_base base = roster_idle(N, T, 1000).base, damaged;
    memcpy(bytes, &base, sizeof bytes);
    memcpy(&base, bytes, sizeof bytes);
    check("a record read back", roster_leader(&base).refusal, 0);
    bytes[offsetof(roster_base, links) + offsetof(roster_link, held)] = ROSTER_VERIFY_FINAL + 1;
    memcpy(&base, bytes, sizeof bytes);
    damaged = base;
    check("a record read back damaged", roster_leader(&base).refusal, ROSTER_REFUSAL_RECORD);
    check("a damaged record that was changed", memcmp(&base, &damaged, sizeof base) != 0, 0);
}

int main(void)
{
    fields();
    read_back();
    record();
    answers();
    faulty_sets();
    nothing_lent();
    check("version", roster_version(), ROSTER_VERSION);
    if (failures == 0)
        printf("layout: every field where the header has it; a link takes %zu bytes, a base %zu\n", sizeof(roster_link),
               sizeof(roster_base));
    return failures != 0;
}
