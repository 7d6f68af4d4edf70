/* A roster agreed by bases over faulty links: one base's engine, its frames, the replay of a whole net, and the sets of faulty links that a
 * small net can have.
 *
 * docs/HOW-A-BASE-DECIDES.md lists what an integrator has to do, step by step; docs/RULES.md has the bytes of a frame and the lines of a
 * schedule; docs/FAULTY-SETS.md shows how a net is tried under each set of faulty links; docs/AIRTIME.md says how much of a channel the
 * frames take.
 *
 * Linking. A base's calls are in libroster_c.a (`tools/built roster_c` writes it to target/staticlib/). What a base in the field does not
 * need stands apart: roster_replay is in libreplay.a (`tools/built replay`), the calls on sets of faulty links, roster_faulty_count,
 * roster_faulty_set and roster_faulty_text, in libfaulty_c.a (`tools/built faulty_c`). None needs another, and one program may link all.
 * They are for x86-64 with the System V calling convention: the stack is aligned to 16 bytes at a call, SSE2 is on, and the 128 bytes
 * below the stack pointer are in use (an interrupt needs a stack of its own); they are built for no other machine. They take memcpy
 * from the platform, libroster_c.a and libreplay.a also memset, and nothing else: no other library, no heap, no state of their own.
 * Different records may be used by different threads at the same time. Where the compiler lays the structs out otherwise
 * (-fpack-struct), this header does not compile.
 *
 * What is lent. A call reads and writes what it is lent and nothing else. A record's pointer is never NULL; any other has to be valid for
 * the length given with it, and may be NULL where that length is 0. Records and lists of identifiers are aligned as C aligns them; bytes
 * need no alignment. What is lent to one call must not overlap. Start and arrive store the whole record, the same bytes where nothing
 * changes: it lies in writable memory, one call at a time, and nobody reads it meanwhile.
 *
 * What is not fit. No caller has to test contents or lengths first: what is not fit is turned down (ROSTER_REFUSED) by its number (enum
 * roster_refusal), and a call that is turned down changes nothing and starts nobody. 1 to 6 are mistakes around the library; 7 to 12 are
 * bursts that are no frames: drop them, and do not acknowledge them. Over a good link with a checksum they do not come, but for a list
 * from a base that was made with another n (9). A frame has no checksum. The transport has to bring one: an altered burst that still reads
 * as a frame makes its link one of the t for good. Nor does a frame name its sender, its link or its net: the transport has to know on
 * which link a burst came, and lets no frame through that was sent before the records of this net were made. (C cuts a number to its
 * parameter's type before the call: a kind has 8 bits, an identifier 32.)
 *
 * What to do with an answer. The frames of an answer stand one after another at the front of the output. Send each of them, as a burst
 * of its own, on every link of the base: after a start as after an arrival, where the answer is discarded as where it is accepted. (An
 * idle base starts on its first arrival, and the two frames of its start are answered even if that arrival is discarded.) Of two frames
 * in one burst the first is skipped as what stands before a frame, and no number tells. The order of arrivals does no harm, nor does a
 * burst that comes again: it is discarded (that a good link may repeat is tested, and not part of the theorem).
 *
 * Every frame has to arrive at last over every good link. The library has no clock and sends nothing again: a frame that was lost, or
 * dropped as damaged, is sent again by the transport, which knows by its own acknowledgement: of every burst that was accepted or
 * discarded, with or without frames. The library never tells that a frame is no longer needed. A link that loses one for ever is faulty,
 * one of the t; if there are more, bases may run on for ever.
 *
 * A base has stopped once its state is prime or secondary; only then does it have a final list and a leader. Send the frames of the
 * answer with which it stops as well: others need its Correct-Final. After that it discards every fit burst and has nothing to send.
 *
 * Keep through a loss of power: the record, each frame until every link has acknowledged it (a base has ROSTER_MOST_BROADCASTS(n) in its
 * life), and ROSTER_RECORD_VERSION beside them; a record that was stored with another one is not to be used. A base that forgets its record
 * and starts again in the same net is outside everything that was proved. After every call that is accepted, and after one that is
 * discarded with frames, store the record and the frames together, in one step, before the burst is acknowledged and before the first of
 * the frames is sent. A call that is turned down, or discarded without frames, leaves the record as it was.
 * The record may be stored as its bytes, all of which belong to fields. A record that is read back and is not sound is turned down by 4
 * (by 1 to 3 for its n, t or own identifier); roster_leader tells so without changing it. A sound one is taken for the base's own, and a
 * changed identifier often leaves it sound: store a checksum beside it. A base whose record is lost or damaged takes no further part in
 * this net; a new net is begun with new records at all bases. roster_start may be called at every boot, on the record that was restored:
 * a base that has started discards it.
 */
#ifndef ROSTER_H
#define ROSTER_H

#include <stddef.h>
#include <stdint.h>

#ifdef __cplusplus
extern "C" {
#endif

/* Counts up where a record, an answer, what a call does or what a number means changes; a call or a number that is added leaves it.
 * roster_version() answers that of libroster_c.a: call it first, and nothing else where the two differ. Answers then have another size, and
 * a call would write outside of what it is lent. */
#define ROSTER_VERSION 2

/* Counts up where the record changes; it is stored beside a record. Version 1 of this header had no such number, and ROSTER_VERSION, 1, was
 * stored in its place. The record is the same: compare what was stored with ROSTER_RECORD_VERSION, and no longer with ROSTER_VERSION. */
#define ROSTER_RECORD_VERSION 1

/* Sizes. Most follow from the most bases of a net. */
#define ROSTER_FEWEST_BASES 2
#define ROSTER_MOST_BASES 16
#define ROSTER_MOST_LINKS (ROSTER_MOST_BASES - 1)
#define ROSTER_MOST_FAULTY(n) (((n) - 2) / 2)       /* the most that t may be in a net of n, 2 or more */
#define ROSTER_MOST_BROADCASTS(n) ((n) + 3)         /* frames that a base of a net of n broadcasts in its life */
#define ROSTER_LIST_ROOM (ROSTER_MOST_BASES + 1)    /* Verify identifiers that a link has room for */
#define ROSTER_FRAME_BYTES(count) (4 * (count) + 4) /* of a frame of so many identifiers */
#define ROSTER_LONGEST_FRAME ROSTER_FRAME_BYTES(ROSTER_MOST_BASES)
#define ROSTER_OUTPUT_ROOM (2 * ROSTER_LONGEST_FRAME) /* bytes to lend to roster_start and roster_arrive */
#define ROSTER_SLOT_BYTES 8
#define ROSTER_FRAME_SLOTS(bytes) (((bytes) + ROSTER_SLOT_BYTES - 1) / ROSTER_SLOT_BYTES) /* of a frame of so many bytes */
#define ROSTER_SHORTEST_BURST ROSTER_FRAME_BYTES(1)
#define ROSTER_LONGEST_BURST (ROSTER_LONGEST_FRAME + 64)
#define ROSTER_LONGEST_SCHEDULE 65536
#define ROSTER_LINE_ROOM (37 + 11 * ROSTER_MOST_BASES)                  /* bytes for any line of a report */
#define ROSTER_REPORT_ROOM ((ROSTER_MOST_BASES + 1) * ROSTER_LINE_ROOM) /* bytes to lend to roster_replay */

/* Slots of airtime that a base of a net of n takes at most, from its new record on: own, relayed, and both together. */
#define ROSTER_LIST_SLOTS(n) ROSTER_FRAME_SLOTS(ROSTER_FRAME_BYTES(n))
#define ROSTER_MOST_OWN_SLOTS(n) (2 + ROSTER_LIST_SLOTS(n))
#define ROSTER_MOST_RELAYED_SLOTS(n) ((n) - 1 + ROSTER_LIST_SLOTS(n))
#define ROSTER_MOST_SLOTS(n) (ROSTER_MOST_OWN_SLOTS(n) + ROSTER_MOST_RELAYED_SLOTS(n))

/* The largest net whose sets of faulty links are listed. */
#define ROSTER_SMALL_BASES 6
#define ROSTER_SMALL_FAULTY ROSTER_MOST_FAULTY(ROSTER_SMALL_BASES)                                     /* links of a set */
#define ROSTER_SMALL_PAIRS (ROSTER_SMALL_BASES * (ROSTER_SMALL_BASES - 1) / 2)                         /* links of the net */
#define ROSTER_SMALL_SETS (1 + ROSTER_SMALL_PAIRS + ROSTER_SMALL_PAIRS * (ROSTER_SMALL_PAIRS - 1) / 2) /* its sets */
#define ROSTER_FAULTY_TEXT_ROOM (ROSTER_SMALL_SETS * (25 + 15 * ROSTER_SMALL_FAULTY)) /* bytes to lend to roster_faulty_text */

/* The most stack that a call takes, in bytes, with what its answer takes in the caller and without what memcpy and memset take, or a
 * dynamic linker at their first call. tests/figures measures it and holds it to this. */
#define ROSTER_STACK_IDLE 5000
#define ROSTER_STACK_START 9000
#define ROSTER_STACK_ARRIVE 10000
#define ROSTER_STACK_LEADER 8000
#define ROSTER_STACK_READ 1000
#define ROSTER_STACK_WRITE 1000
#define ROSTER_STACK_REPLAY 190000
#define ROSTER_STACK_VERSION 200
#define ROSTER_STACK_FAULTY_COUNT 200
#define ROSTER_STACK_FAULTY_SET 500
#define ROSTER_STACK_FAULTY_TEXT 1000

enum roster_state { ROSTER_IDLE, ROSTER_RUNNING, ROSTER_PRIME, ROSTER_SECONDARY };
enum roster_kind { ROSTER_ANNOUNCE = 1, ROSTER_VERIFY, ROSTER_CORRECT_FINAL, ROSTER_VERIFY_FINAL };

/* Why a call is turned down, in checking order: 1 to 12 are of a base's calls; 1, 2, 19 and 20 of those on sets of faulty links. 13 to 18
 * are of a schedule's lines; the form, 13, is tested before everything else about a line. */
enum roster_refusal {
    ROSTER_REFUSAL_BASES = 1,            /* n is not 2 to 16 */
    ROSTER_REFUSAL_FAULTY_LIMIT = 2,     /* t is above its limit */
    ROSTER_REFUSAL_OWN_IDENTIFIER = 3,   /* the own identifier is zero */
    ROSTER_REFUSAL_RECORD = 4,           /* the record is not sound */
    ROSTER_REFUSAL_LINK = 5,             /* the link number is not 1 to n - 1 */
    ROSTER_REFUSAL_OUTPUT = 6,           /* the output is shorter than 136 bytes */
    ROSTER_REFUSAL_BURST = 7,            /* the burst is shorter than 8 or longer than 132 bytes */
    ROSTER_REFUSAL_KIND = 8,             /* the kind is not 1 to 4 */
    ROSTER_REFUSAL_COUNT = 9,            /* the count is not 1 for kinds 1 and 2, or not n for 3 and 4 */
    ROSTER_REFUSAL_BACK_DISTANCE = 10,   /* the back distance is not 4 x count + 4, or exceeds the burst */
    ROSTER_REFUSAL_ZERO_IDENTIFIER = 11, /* an identifier in the body is zero */
    ROSTER_REFUSAL_NOT_ASCENDING = 12,   /* a list is not strictly ascending */
    ROSTER_REFUSAL_FORM = 13,            /* a line is missing or breaks the form, or the schedule exceeds 65,536 bytes */
    ROSTER_REFUSAL_SAME_IDENTIFIER = 14, /* two bases have one identifier */
    ROSTER_REFUSAL_FAULTY_LINKS = 15,    /* more than t links are named faulty */
    ROSTER_REFUSAL_NOT_BROADCAST = 16,   /* a carry names a message not yet broadcast */
    ROSTER_REFUSAL_CARRIED_BEFORE = 17,  /* a carry repeats one already made in that direction on a good link */
    ROSTER_REFUSAL_FORGED_ON_GOOD = 18,  /* a forgery is put on a good link */
    ROSTER_REFUSAL_LARGE_NET = 19,       /* the net has more than 6 bases */
    ROSTER_REFUSAL_SET_NUMBER = 20       /* the number is past the last set */
};

/* What is held of one link. Places that are not in use are zero. */
typedef struct roster_link {
    uint32_t announce;                   /* the Announce identifier, or zero */
    uint32_t verifies[ROSTER_LIST_ROOM]; /* the Verify identifiers, in order of acceptance */
    uint32_t list[ROSTER_MOST_BASES];    /* the list of the vector message held */
    uint16_t verify_count;
    uint16_t held;                       /* its kind, 3 or 4, or zero for none */
} roster_link;

/* A base's record. Keep it as a call left it; read any field, write none. */
typedef struct roster_base {
    uint8_t n;
    uint8_t t;
    uint8_t state; /* enum roster_state */
    uint8_t sent;  /* whether a Verify-Final was sent */
    uint32_t own;
    uint32_t final_list[ROSTER_MOST_BASES]; /* n identifiers, ascending, once the base has stopped; else zero */
    roster_link links[ROSTER_MOST_LINKS];   /* link k at place k - 1 */
} roster_base;

typedef struct roster_made {
    uint8_t refusal;  /* or zero */
    roster_base base; /* all zero where the call was turned down */
} roster_made;

/* Discarded without frames: the record is as before. Discarded with frames: an idle base has just started, and has frames to send. */
enum roster_outcome { ROSTER_REFUSED, ROSTER_ACCEPTED, ROSTER_DISCARDED };

/* The lengths of the frames broadcast, in the order written; zero for none. Behind them the slots of airtime that these frames take, one
 * for each ROSTER_SLOT_BYTES begun, each frame counted once though every link gets it: own are an Announce, a Verify of the own identifier
 * and a Correct-Final, relayed is every other frame. A call that is turned down has none. What a transport sends again is not counted, nor
 * that it may send a frame on each link by itself. */
typedef struct roster_answer {
    uint8_t outcome; /* enum roster_outcome */
    uint8_t refusal; /* or zero */
    size_t first;
    size_t second;
    size_t third;
    size_t own;
    size_t relayed;
} roster_answer;

enum roster_leading { ROSTER_LEADER_REFUSED, ROSTER_LEADER_NAMED, ROSTER_NOT_STOPPED };

typedef struct roster_named {
    uint8_t outcome; /* enum roster_leading */
    uint8_t refusal; /* or zero */
    uint32_t leader; /* or zero */
} roster_named;

/* The body is the 4 * count bytes of the burst from start on. Where the call was turned down all else is zero. */
typedef struct roster_taken {
    uint8_t refusal; /* or zero */
    uint8_t kind;
    size_t count;
    size_t start;
    uint32_t ids[ROSTER_MOST_BASES]; /* the count identifiers, zeros behind */
} roster_taken;

typedef struct roster_put {
    uint8_t refusal; /* or zero */
    size_t length;   /* of the frame; zero where the call was turned down */
    size_t slots;    /* that the frame takes; zero where the call was turned down */
} roster_put;

/* How many sets of faulty links there are. */
typedef struct roster_count {
    uint8_t refusal; /* or zero */
    size_t count;    /* zero where the call was turned down */
} roster_count;

/* A link by the numbers of its two bases, as `faulty a b` names it: a is the lower. */
typedef struct roster_pair {
    uint8_t lower;
    uint8_t higher;
} roster_pair;

/* A set of faulty links, in the order of their pairs. Where the call was turned down all else is zero. */
typedef struct roster_set {
    uint8_t refusal; /* or zero */
    uint8_t count;
    roster_pair pairs[ROSTER_SMALL_FAULTY]; /* the count links, zeros behind */
} roster_set;

/* The library's layout: an array of no valid size where the compiler has another. */
typedef char roster_layout_link[sizeof(roster_link) == 4 + 4 * ROSTER_LIST_ROOM + 4 * ROSTER_MOST_BASES + 4 ? 1 : -1];
typedef char roster_layout_base[sizeof(roster_base) == 8 + 4 * ROSTER_MOST_BASES + ROSTER_MOST_LINKS * sizeof(roster_link) ? 1 : -1];
typedef char roster_layout_made[sizeof(roster_made) == 4 + sizeof(roster_base) ? 1 : -1];
typedef char roster_layout_answer[sizeof(roster_answer) == 8 + 5 * sizeof(size_t) ? 1 : -1];
typedef char roster_layout_named[sizeof(roster_named) == 8 ? 1 : -1];
typedef char roster_layout_taken[sizeof(roster_taken) == 8 + 2 * sizeof(size_t) + 4 * ROSTER_MOST_BASES ? 1 : -1];
typedef char roster_layout_put[sizeof(roster_put) == 8 + 2 * sizeof(size_t) ? 1 : -1];
typedef char roster_layout_count[sizeof(roster_count) == 8 + sizeof(size_t) ? 1 : -1];
typedef char roster_layout_set[sizeof(roster_set) == 2 + 2 * ROSTER_SMALL_FAULTY ? 1 : -1];

/* An answer that is not looked at loses the frames or the refusal. */
#if defined(__GNUC__)
#define ROSTER_LOOK_AT __attribute__((warn_unused_result))
#else
#define ROSTER_LOOK_AT
#endif

/* An idle record of a base in a net of n bases that bears t faulty links, at most ROSTER_MOST_FAULTY(n): both are the same at every base.
 * Its own identifier is above zero and different at each base. Turned down by 1 to 3. */
ROSTER_LOOK_AT
roster_made roster_idle(size_t n, size_t t, uint32_t own);

/* Starts an idle base: Announce and Verify of its own identifier are broadcast. At any other state discarded. Turned down by 1 to 4 and
 * 6. Touches the record and the frames' bytes at the front of the output. */
ROSTER_LOOK_AT
roster_answer roster_start(roster_base *base, uint8_t *out, size_t out_length);

/* A burst arrives on a link, 1 to n - 1. Number the bases once for the net, from 1 to n; no call asks for a base's number b, but its link
 * k goes to base k if k < b, else to base k + 1. An idle base starts first. Turned down by 1 to 12. Touches the record and the frames'
 * bytes at the front of the output. */
ROSTER_LOOK_AT
roster_answer roster_arrive(roster_base *base, size_t link, const uint8_t *burst, size_t burst_length, uint8_t *out, size_t out_length);

/* The leader that a stopped base, prime or secondary, names. Turned down by 1 to 4. Touches nothing; the record is not const because it
 * is lent alone, as to the other calls. */
ROSTER_LOOK_AT
roster_named roster_leader(roster_base *base);

/* The message of a burst in a net of n; what stands before the frame is skipped. Turned down by 1 and 7 to 12. */
ROSTER_LOOK_AT
roster_taken roster_read(size_t n, const uint8_t *burst, size_t burst_length);

/* The frame of a message in a net of n. Turned down by 1, 6 (the output is shorter than the kind's frame; a kind that there is not has
 * none, and is turned down by 8), 8, 9, 11 and 12. Touches the frame's bytes at the front of the output. */
ROSTER_LOOK_AT
roster_put roster_write(size_t n, uint8_t kind, const uint32_t *ids, size_t id_count, uint8_t *out, size_t out_length);

/* In libreplay.a. The report of a schedule, as hillreplay prints it; its length. A schedule that is refused has the report
 * "refused N line L". An output with less than ROSTER_REPORT_ROOM bytes is left alone, and the length is 0. Touches the report's bytes at
 * the front of the output. */
ROSTER_LOOK_AT
size_t roster_replay(const uint8_t *schedule, size_t schedule_length, uint8_t *out, size_t out_length);

/* In libfaulty_c.a, with the next two. How many sets of at most t links a net of n bases has, of 2 to ROSTER_SMALL_BASES bases: each way
 * in which its links can be faulty. Turned down by 1, 2 and 19. */
ROSTER_LOOK_AT
roster_count roster_faulty_count(size_t n, size_t t);

/* The set of a number, from 0, the empty set, to one less than the count. Sets go by size, then by their first differing pair; pairs by
 * the lower base, then by the higher. Each set has one number. Turned down by 1, 2, 19 and 20. */
ROSTER_LOOK_AT
roster_set roster_faulty_set(size_t n, size_t t, size_t number);

/* All sets as hillfaults prints them, of the net that a schedule's first line names (`net n t`); the length of the lines. What stands
 * behind that line is not looked at. The lines of a set go into a schedule as they stand, behind its `id` lines. Where the first line is
 * refused, by 13, 1, 2 or 19, the text is "refused N line 1". An output with less than ROSTER_FAULTY_TEXT_ROOM bytes is left alone, and the
 * length is 0. Touches the lines' bytes at the front of the output. */
ROSTER_LOOK_AT
size_t roster_faulty_text(const uint8_t *schedule, size_t schedule_length, uint8_t *out, size_t out_length);

/* In libroster_c.a: the ROSTER_VERSION that it was built with. */
ROSTER_LOOK_AT
uint32_t roster_version(void);

#ifdef __cplusplus
}
#endif

#endif
