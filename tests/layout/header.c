/* What roster.h says, one line each: numbers, sizes and places of fields. header.rs says the same of roster.rs. */
#include "roster.h"
#include <stdalign.h>
#include <stdio.h>
#include <string.h>

#define NUMBER(name) printf("%s %llu\n", #name, (unsigned long long)ROSTER_##name)
#define RECORD(name) printf("%s %zu bytes, aligned to %zu\n", #name, sizeof(roster_##name), alignof(roster_##name))
#define FIELD(of, name) printf("%s.%s at %zu\n", #of, #name, offsetof(roster_##of, name))

static void numbers(void)
{
    NUMBER(VERSION), NUMBER(RECORD_VERSION), NUMBER(FEWEST_BASES), NUMBER(MOST_BASES), NUMBER(MOST_LINKS), NUMBER(LIST_ROOM);
    NUMBER(LONGEST_FRAME), NUMBER(OUTPUT_ROOM), NUMBER(SLOT_BYTES), NUMBER(SHORTEST_BURST), NUMBER(LONGEST_BURST);
    NUMBER(LONGEST_SCHEDULE), NUMBER(LINE_ROOM), NUMBER(REPORT_ROOM);
    NUMBER(STACK_IDLE), NUMBER(STACK_START), NUMBER(STACK_ARRIVE), NUMBER(STACK_LEADER), NUMBER(STACK_READ), NUMBER(STACK_WRITE);
    NUMBER(STACK_REPLAY), NUMBER(STACK_VERSION), NUMBER(STACK_FAULTY_COUNT), NUMBER(STACK_FAULTY_SET), NUMBER(STACK_FAULTY_TEXT);
    NUMBER(SMALL_BASES), NUMBER(SMALL_FAULTY), NUMBER(SMALL_PAIRS), NUMBER(SMALL_SETS), NUMBER(FAULTY_TEXT_ROOM);
    printf("MOST_FAULTY %d, MOST_BROADCASTS %d\n", ROSTER_MOST_FAULTY(ROSTER_MOST_BASES), ROSTER_MOST_BROADCASTS(ROSTER_MOST_BASES));
    for (int n = ROSTER_FEWEST_BASES; n <= ROSTER_MOST_BASES; n++)
        printf("slots of %d bases: own %d, relayed %d, together %d\n", n, ROSTER_MOST_OWN_SLOTS(n), ROSTER_MOST_RELAYED_SLOTS(n),
               ROSTER_MOST_SLOTS(n));
    NUMBER(IDLE), NUMBER(RUNNING), NUMBER(PRIME), NUMBER(SECONDARY);
    NUMBER(ANNOUNCE), NUMBER(VERIFY), NUMBER(CORRECT_FINAL), NUMBER(VERIFY_FINAL);
    NUMBER(REFUSED), NUMBER(ACCEPTED), NUMBER(DISCARDED);
    NUMBER(LEADER_REFUSED), NUMBER(LEADER_NAMED), NUMBER(NOT_STOPPED);
    NUMBER(REFUSAL_BASES), NUMBER(REFUSAL_FAULTY_LIMIT), NUMBER(REFUSAL_OWN_IDENTIFIER), NUMBER(REFUSAL_RECORD), NUMBER(REFUSAL_LINK);
    NUMBER(REFUSAL_OUTPUT), NUMBER(REFUSAL_BURST), NUMBER(REFUSAL_KIND), NUMBER(REFUSAL_COUNT), NUMBER(REFUSAL_BACK_DISTANCE);
    NUMBER(REFUSAL_ZERO_IDENTIFIER), NUMBER(REFUSAL_NOT_ASCENDING), NUMBER(REFUSAL_FORM), NUMBER(REFUSAL_SAME_IDENTIFIER);
    NUMBER(REFUSAL_FAULTY_LINKS), NUMBER(REFUSAL_NOT_BROADCAST), NUMBER(REFUSAL_CARRIED_BEFORE), NUMBER(REFUSAL_FORGED_ON_GOOD);
    NUMBER(REFUSAL_LARGE_NET), NUMBER(REFUSAL_SET_NUMBER);
}

/* A record whose fields differ, and all of whose bytes count by their place. */
static void stored(void)
{
    roster_base base = {.n = 1, .t = 2, .state = 3, .sent = 4, .own = 0x05060708};
    uint8_t bytes[sizeof base];
    unsigned long long sum = 0;
    for (uint32_t k = 0; k < ROSTER_MOST_BASES; k++)
        base.final_list[k] = 0x01000100 + k;
    for (uint32_t i = 0; i < ROSTER_MOST_LINKS; i++) {
        roster_link *link = &base.links[i];
        link->announce = 0x02000200 + i, link->verify_count = (uint16_t)(0x300 + i), link->held = (uint16_t)(0x400 + i);
        for (uint32_t k = 0; k < ROSTER_LIST_ROOM; k++)
            link->verifies[k] = 0x05000500 + i * k;
        for (uint32_t k = 0; k < ROSTER_MOST_BASES; k++)
            link->list[k] = 0x06000600 + i * k;
    }
    memcpy(bytes, &base, sizeof base);
    for (size_t place = 0; place < sizeof bytes; place++)
        sum += (place + 1) * bytes[place];
    printf("stored: %zu bytes, by their places %llu\n", sizeof bytes, sum);
}

int main(void)
{
    numbers();
    stored();
    RECORD(link), FIELD(link, announce), FIELD(link, verifies), FIELD(link, list), FIELD(link, verify_count), FIELD(link, held);
    RECORD(base), FIELD(base, n), FIELD(base, t), FIELD(base, state), FIELD(base, sent), FIELD(base, own);
    FIELD(base, final_list), FIELD(base, links);
    RECORD(made), FIELD(made, refusal), FIELD(made, base);
    RECORD(answer), FIELD(answer, outcome), FIELD(answer, refusal), FIELD(answer, first), FIELD(answer, second), FIELD(answer, third);
    FIELD(answer, own), FIELD(answer, relayed);
    RECORD(named), FIELD(named, outcome), FIELD(named, refusal), FIELD(named, leader);
    RECORD(taken), FIELD(taken, refusal), FIELD(taken, kind), FIELD(taken, count), FIELD(taken, start), FIELD(taken, ids);
    RECORD(put), FIELD(put, refusal), FIELD(put, length), FIELD(put, slots);
    RECORD(count), FIELD(count, refusal), FIELD(count, count);
    RECORD(pair), FIELD(pair, lower), FIELD(pair, higher);
    RECORD(set), FIELD(set, refusal), FIELD(set, count), FIELD(set, pairs);
    return 0;
}
