/* Three bases in one process agree over an in-memory link. Build: see examples/build. */
#include "roster.h"
#include <stdio.h>
#include <string.h>

#define BASES 3

/* Every frame that was broadcast, in the order written. */
struct sent {
    int from;
    size_t length;
    uint8_t bytes[ROSTER_LONGEST_FRAME];
};
static struct sent air[BASES * ROSTER_MOST_BROADCASTS(BASES)];
static int count;

/* The airtime of each base so far, in slots, added up from the answers. */
static size_t own_slots[BASES], relayed_slots[BASES];

static void broadcast(int from, const uint8_t *out, size_t length)
{
    if (length == 0)
        return;
    air[count].from = from;
    air[count].length = length;
    memcpy(air[count].bytes, out, length);
    count++;
}

static int keep(int from, const uint8_t *out, roster_answer answer)
{
    if (answer.outcome == ROSTER_REFUSED) {
        fprintf(stderr, "base %d: turned down by %d\n", from, answer.refusal);
        /* a damaged burst is dropped; any other number is a mistake of ours */
        return answer.refusal < ROSTER_REFUSAL_BURST;
    }
    broadcast(from, out, answer.first);
    broadcast(from, out + answer.first, answer.second);
    broadcast(from, out + answer.first + answer.second, answer.third);
    own_slots[from - 1] += answer.own;
    relayed_slots[from - 1] += answer.relayed;
    return 0;
}

/* The slots that a base has taken since roster_idle made its record, as the record tells them: nothing else has to be stored for it. */
static void taken(const roster_base *base, size_t *own, size_t *relayed)
{
    size_t list = ROSTER_LIST_SLOTS(base->n);
    *own = (base->state == ROSTER_IDLE ? 0 : 2) + (base->state < ROSTER_PRIME ? 0 : list);
    *relayed = base->sent ? list : 0;
    for (int i = 0; i < base->n - 1; i++)
        *relayed += base->links[i].announce != 0;
}

/* The list and the leader stand once the base has stopped, and not before. */
static int show(int number, roster_base *base)
{
    size_t own, relayed;
    roster_named named = roster_leader(base);
    if (named.outcome != ROSTER_LEADER_NAMED) {
        printf("base %d has not stopped\n", number);
        return 1;
    }
    printf("base %d", number);
    for (int i = 0; i < BASES; i++)
        printf(" %u", (unsigned)base->final_list[i]);
    printf(" leader %u, slots: own %zu, relayed %zu\n", (unsigned)named.leader, own_slots[number - 1], relayed_slots[number - 1]);
    taken(base, &own, &relayed);
    if (own == own_slots[number - 1] && relayed == relayed_slots[number - 1])
        return 0;
    fprintf(stderr, "base %d: the record tells other slots\n", number);
    return 1;
}

int main(void)
{
    static const uint32_t own[BASES] = {500, 300, 400};
    roster_base base[BASES];
    uint8_t out[ROSTER_OUTPUT_ROOM];

    if (roster_version() != ROSTER_VERSION)
        return 1;
    printf("version %u\n", (unsigned)roster_version());

    for (int b = 0; b < BASES; b++) {
        roster_made made = roster_idle(BASES, 0, own[b]);
        if (made.refusal != 0)
            return 1;
        base[b] = made.base;
        if (keep(b + 1, out, roster_start(&base[b], out, sizeof out)))
            return 1;
    }
    /* A base's link to base a is a where a is below the base's own number, else a - 1. */
    for (int k = 0; k < count; k++)
        for (int b = 1; b <= BASES; b++)
            if (b != air[k].from) {
                size_t link = air[k].from < b ? air[k].from : air[k].from - 1;
                if (keep(b, out, roster_arrive(&base[b - 1], link, air[k].bytes, air[k].length, out, sizeof out)))
                    return 1;
            }
    /* noise on a link: no base may stop over it */
    if (keep(1, out, roster_arrive(&base[0], 1, (const uint8_t *)"noise", 5, out, sizeof out)))
        return 1;
    for (int b = 0; b < BASES; b++)
        if (show(b + 1, &base[b]))
            return 1;
    return 0;
}
