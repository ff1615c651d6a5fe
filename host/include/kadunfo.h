/* The plan unit for hosts in C. A slice is a pointer and then a length; no two slices of a call overlap.
   Cases of editions 1 to 5 are judged, with plans of their own edition; a completion has its case's. A case has up
   to 64 devices and 96 intervals from edition 4 on, up to 16 and 48 in editions 1 to 3. In edition 5 the devices stand
   on two bars with a DC link between them; a completion then has in each interval the mismatches in kW of bar 0 and of
   bar 1, then those in kvar alike. */
#ifndef KADUNFO_H
#define KADUNFO_H

#include <stddef.h>
#include <stdint.h>

/* Of this header and the library that it comes with: the newest edition, then changes that keep it. */
#define KADUNFO_VERSION "5.1"
#define KADUNFO_NEWEST_EDITION 5

#ifdef __cplusplus
extern "C" {
#endif

/* For every function: it allocates nothing, keeps nothing and has no state, so several threads may call it at once, also
   on the same case; it ends for bytes of any content, and never reads or writes outside the slices that it is given. The
   library is x86-64 machine code for Linux and needs memcpy and memset alone. */

enum kadunfo_word {
    KADUNFO_ACCEPTED = 0,        /* figures: surplus in two's complement */
    KADUNFO_JUDGED = 0,          /* the same word from kadunfo_judge_batch; figures: number of plans, bytes of completions
                                    written, 0, 0 */
    KADUNFO_INSPECTED = 0,       /* the same word from kadunfo_inspect; figures: devices, intervals, zones, 0 */
    KADUNFO_LISTED = 0,          /* the same word from kadunfo_breaches; figures: number of breaches, 0, 0, 0 */
    KADUNFO_WRITTEN = 0,         /* the same word from kadunfo_write_case and kadunfo_write_plan; figures: bytes written,
                                    0, 0, 0 */
    KADUNFO_COPIED = 0,          /* the same word from kadunfo_market; figures: bytes written, 0, 0, 0 */
    KADUNFO_READ = 0,            /* the same word from kadunfo_read_completion and kadunfo_read_market; figures: how many
                                    numbers stand in table, 0, 0, 0 */
    KADUNFO_DISPATCHED = 0,      /* the same word from kadunfo_dispatch; figures: 0, 0, 0, 0 */
    KADUNFO_MESSAGE = 0,         /* the same word from kadunfo_split; figures: from, until, 0, 0 */
    KADUNFO_BROKEN = 1,          /* figures: rule, interval, device, window, each from 1, or 0 where it has none */
    KADUNFO_MENDED = 1,          /* the same word from kadunfo_mend; figures: interval and device, each from 1, new online
                                    power in kW, 0 */
    KADUNFO_END = 1,             /* the same word from kadunfo_split; figures: 0, 0, 0, 0 */
    KADUNFO_CASE_REFUSED = 2,    /* figures: number, bit */
    KADUNFO_FRAMING_REFUSED = 2, /* the same word from kadunfo_split; figures: number, bit, 0, 0 */
    KADUNFO_PLAN_REFUSED = 3,    /* figures: number, bit */
    KADUNFO_MESSAGE_REFUSED = 3, /* the same word from kadunfo_read_completion and kadunfo_read_market, of the completion
                                    or copy that is read; figures: number, bit */
    KADUNFO_BATCH_REFUSED = 3,   /* the same word from kadunfo_judge_batch, as kadunfo_split refuses it; figures: number,
                                    bit */
    KADUNFO_RESULT_REFUSED = 4,  /* result, list or table is too short; figures: 7, bytes needed */
    KADUNFO_FIGURES_SHORT = 5,   /* figures has fewer than four places; nothing was done */
    KADUNFO_UNMENDABLE = 6,      /* from kadunfo_mend alone; figures: 0, 0, 0, 0 */
    KADUNFO_NOT_DISPATCHED = 7   /* from kadunfo_dispatch alone; figures: 8, 0, 0, 0, or 9, target, 0, 0 */
};

/* The rules, by the number that a broken plan and a list of breaches name. */
enum kadunfo_rule {
    KADUNFO_RULE_STATUS = 1,                  /* status fixed by the case */
    KADUNFO_RULE_INITIAL_STATE = 2,           /* initial state held for its minimum time */
    KADUNFO_RULE_MINIMUM_DOWN = 3,            /* no start within the minimum down time */
    KADUNFO_RULE_MINIMUM_UP = 4,              /* no stop within the minimum up time */
    KADUNFO_RULE_RAMP_UP = 5,                 /* rise of power */
    KADUNFO_RULE_RAMP_DOWN = 6,               /* fall of power */
    KADUNFO_RULE_RGU = 7,                     /* regulation up */
    KADUNFO_RULE_RGD = 8,                     /* regulation down */
    KADUNFO_RULE_RGU_SCR = 9,                 /* with synchronized reserve */
    KADUNFO_RULE_RGU_SCR_RRU_ON = 10,         /* with ramping up while on */
    KADUNFO_RULE_RGD_RRD_ON = 11,             /* regulation down with ramping down while on */
    KADUNFO_RULE_NSC = 12,                    /* non-synchronized reserve */
    KADUNFO_RULE_NSC_RRU_OFF = 13,            /* with ramping up while off */
    KADUNFO_RULE_RRD_OFF = 14,                /* ramping down while off */
    KADUNFO_RULE_ABSENT_RESERVES = 15,        /* a side's reserves that it cannot have */
    KADUNFO_RULE_PMAX_ON = 16,                /* most power with reserves up */
    KADUNFO_RULE_PMIN_ON = 17,                /* least power with reserves down */
    KADUNFO_RULE_PMAX_OFF = 18,               /* most power while starting, stopping or off */
    KADUNFO_RULE_BLOCKS = 19,                 /* floors and caps of the blocks */
    KADUNFO_RULE_MOST_STARTS = 20,            /* starts in a start window */
    KADUNFO_RULE_QMAX = 21,                   /* most reactive power */
    KADUNFO_RULE_QMIN = 22,                   /* least reactive power */
    KADUNFO_RULE_UPPER_LINE = 23,             /* upper line of the p-q link */
    KADUNFO_RULE_LOWER_LINE = 24,             /* lower line of the p-q link */
    KADUNFO_RULE_EQUALITY = 25,               /* equality of the p-q link */
    KADUNFO_RULE_EQUALITY_RESERVES = 26,      /* no reactive reserves with an equality */
    KADUNFO_RULE_DC_LINK = 27                 /* flow within the DC link's limit */
};

/* Bytes that hold every list of breaches: four for each of 25 rules of 64 devices in 96 intervals, of the DC link's
   in 96, and of 4 windows of each device. */
#define KADUNFO_LONGEST_LIST 615808 /* 4 * (64 * 96 * 25 + 96 + 64 * 4) */

/* Bytes that hold every completion: that of edition 5 with 64 devices, 96 intervals, 4 zones and 4 energy windows
   of each device. */
#define KADUNFO_LONGEST_COMPLETION 70876

/* Bytes that hold every market copy: that of the same day. */
#define KADUNFO_LONGEST_COPY 16340

/* Numbers that hold the figures of every completion and of every market copy: 7 of each device, 8 of each zone and 4
   mismatches in each interval, the overruns and the surplus of the same day. A table of 8 times as many bytes. */
#define KADUNFO_MOST_NUMBERS 46721 /* 96 * (64 * 7 + 4 * 8 + 4) + 64 * 4 + 1 */

/* Bytes that hold every case and every plan that is written: those of edition 5 with 64 devices, 96 intervals and
   every count at its most. */
#define KADUNFO_LONGEST_CASE 328113
#define KADUNFO_LONGEST_PLAN 158427

/* The most bytes of a message in a batch. */
#define KADUNFO_LONGEST_MESSAGE 1048576

/* Numbers of each plan in the table of kadunfo_judge_batch: a word, its four figures, the bytes of its completion. */
#define KADUNFO_BATCH_NUMBERS 6

/* Bytes of stack that a call takes at most. It fits a thread as glibc (8 MB) and Rust (2 MB) make it unless told
   otherwise; a thread with a smaller stack needs to be given this much. */
#define KADUNFO_STACK 1500000

/* Judges one plan against one case. Only acceptance writes to result: the completion's bytes, the rest
   stays. A completion never needs more than KADUNFO_LONGEST_COMPLETION bytes. */
uint64_t kadunfo_judge(const uint8_t *kase, size_t case_length,
                       const uint8_t *plan, size_t plan_length,
                       uint8_t *result, size_t result_length,
                       uint64_t *figures, size_t figures_length);

/* Judges a batch of plans against one case, which is read once. Each plan stands in plans behind its 24-bit length, as
   kadunfo_split finds it; an empty batch is judged too. KADUNFO_JUDGED: each plan, in order, has KADUNFO_BATCH_NUMBERS
   numbers in table, whose length is in numbers: the word and the four figures that kadunfo_judge answers for it alone
   with the bytes that are left of results, then the bytes of its completion, 0 where none is written. Completions stand
   one behind another in results. A plan whose completion does not fit what is left has KADUNFO_RESULT_REFUSED with 7 and
   the bytes needed, and takes no room: the next is judged with the same. Refused are the case (word 2), then the batch
   (word 3), then a table that is too short (word 4: 7, bytes needed, 8 for each number). Only KADUNFO_JUDGED writes to
   results and table; what is behind the last completion and behind the last plan's numbers stays. Every completion fits
   where results has KADUNFO_LONGEST_COMPLETION bytes for each plan. */
uint64_t kadunfo_judge_batch(const uint8_t *kase, size_t case_length,
                             const uint8_t *plans, size_t plans_length,
                             uint8_t *results, size_t results_length,
                             uint64_t *table, size_t table_length,
                             uint64_t *figures, size_t figures_length);

/* Lists every broken rule of one plan as four bytes: rule, interval, device, window. The order is that of judging,
   so the first is the one that kadunfo_judge names, and an accepted plan has none. Rule 27, the DC link's, has
   device 0 and comes behind the devices of its interval. Only KADUNFO_LISTED writes to list: four bytes for each breach, the
   rest stays. A list never needs more than KADUNFO_LONGEST_LIST bytes. */
uint64_t kadunfo_breaches(const uint8_t *kase, size_t case_length,
                          const uint8_t *plan, size_t plan_length,
                          uint8_t *list, size_t list_length,
                          uint64_t *figures, size_t figures_length);

/* A case's devices, intervals and zones (word 0), or its refusal (word 2: number, bit). */
uint64_t kadunfo_inspect(const uint8_t *kase, size_t case_length,
                         uint64_t *figures, size_t figures_length);

/* Writes a case in the newest edition, 5, with what its own edition lacks at its neutral value: reactive power and
   floors 0, prices of reactive shortfalls 1, no links, every device on bar 0, link limit 0. It is refused where
   reading refuses it (word 2), then where result is too short (word 4: 7, bytes needed). Only KADUNFO_WRITTEN writes
   to result: the case's bytes, the rest stays. A case of edition 5 is written as it stands. A case never needs more
   than KADUNFO_LONGEST_CASE bytes. */
uint64_t kadunfo_write_case(const uint8_t *kase, size_t case_length,
                            uint8_t *result, size_t result_length,
                            uint64_t *figures, size_t figures_length);

/* Writes a plan, read with its own case, likewise: reactive power and flows 0 where its edition has none. The written
   plan goes with the written case, and the two get the verdict and the breaches that they had. A plan never needs
   more than KADUNFO_LONGEST_PLAN bytes. */
uint64_t kadunfo_write_plan(const uint8_t *kase, size_t case_length,
                            const uint8_t *plan, size_t plan_length,
                            uint8_t *result, size_t result_length,
                            uint64_t *figures, size_t figures_length);

/* Writes the market's copy of a plan's completion: the completion of kind 4 without startup states, block powers and
   surplus. It is refused, or broken at its place (word 1), as kadunfo_judge has it, then where result is too short
   (word 4: 7, bytes of the copy needed). Only KADUNFO_COPIED writes to result: the copy's bytes, the rest stays.
   Neither answer nor bytes depend on a price or a cost of the case: cases that differ in these alone give the same
   with results of one length and content. How long the call takes is not covered. A copy never needs more than
   KADUNFO_LONGEST_COPY bytes. */
uint64_t kadunfo_market(const uint8_t *kase, size_t case_length,
                        const uint8_t *plan, size_t plan_length,
                        uint8_t *result, size_t result_length,
                        uint64_t *figures, size_t figures_length);

/* Reads a completion (kind 3) of a case into table, whose length is in numbers. They stand in the message's order: in
   each interval of each device started, stopped, startup state (0 none) and four block powers in kW; of each zone its
   six shortfalls in W and, from edition 2 on, two in var; the mismatch in kW and, from edition 2 on, the one in kvar,
   in edition 5 each of bar 0 and then of bar 1; behind the intervals each overrun in kW min; last the surplus in
   grains, in two's complement. Refused are the case (word 2), then the message (word 3): 2 at bit 0 for another kind,
   2 at bit 4 for another edition than the case's, 3 for a count unlike the case's, 1 where it is cut, 6 at its end;
   then a table that is too short (word 4: 7, bytes needed, 8 for each number). Every other figure comes back as it
   stands and is compared with no plan. Only KADUNFO_READ writes to table: its numbers, the rest stays. */
uint64_t kadunfo_read_completion(const uint8_t *kase, size_t case_length,
                                 const uint8_t *message, size_t message_length,
                                 uint64_t *table, size_t table_length,
                                 uint64_t *figures, size_t figures_length);

/* Reads a market copy (kind 4) likewise: without startup states, block powers and surplus. */
uint64_t kadunfo_read_market(const uint8_t *kase, size_t case_length,
                             const uint8_t *message, size_t message_length,
                             uint64_t *table, size_t table_length,
                             uint64_t *figures, size_t figures_length);

/* The smallest change of one online power that mends a plan. KADUNFO_ACCEPTED, with the surplus: the plan breaks no
   rule. KADUNFO_MENDED: with the new power, from 0 to 100,000, in that interval for that device, and every other figure
   as it is, the plan breaks no rule. No replacement of one power that does so changes it by less; of those that change
   it by as much none has an earlier interval, then a lower device, then a lower power. KADUNFO_UNMENDABLE: no
   replacement of one power does so. Refused are the case (word 2), then the plan (word 3). Nothing but figures is
   written, so no answer is 4. */
uint64_t kadunfo_mend(const uint8_t *kase, size_t case_length,
                      const uint8_t *plan, size_t plan_length,
                      uint64_t *figures, size_t figures_length);

/* A block that is offered: the number of its device and its own, both from 1, cap and floor in kW, and the price in
   grains per kW min. The floor is 0 before edition 3. */
struct kadunfo_offer {
    uint64_t set, block, cap, floor;
    int64_t price;
};

/* The most offers of a question: four of each of 64 devices. */
#define KADUNFO_MOST_OFFERS 256

/* The cheapest powers in an interval of producing devices that stay on. sets names them, powers has their powers in the
   interval before, in kW, and target is what the new powers must add up to. offers has exactly the blocks of these
   devices in that interval, in any order. KADUNFO_DISPATCHED: the new powers stand in powers, in the order named, and
   offers in merit order: by price, then device, then block. Each power lies from max(pmin, sum of floors, earlier power -
   minutes * ramp down) to min(pmax, sum of caps, earlier power + minutes * ramp up), they add up to target, no other such
   powers cost less in blocks, and among equals the first offer in merit order gets the most, then the next. Status,
   reserves, minimum times and reactive power are not looked at. Refused are the case (word 2: number, bit); then, by
   KADUNFO_NOT_DISPATCHED, with 8 and 0, a question that is not of the case: the interval or a device is not in it, a
   device consumes or is named twice, the powers are not as many as the devices, or the offers are not exactly their
   blocks; then with 9 and the target where no such powers exist. Any refusal leaves powers and offers as they came. No
   device named: target 0 is answered with no power. */
uint64_t kadunfo_dispatch(const uint8_t *kase, size_t case_length, uint64_t interval,
                          const uint64_t *sets, size_t sets_length,
                          uint64_t *powers, size_t powers_length,
                          struct kadunfo_offer *offers, size_t offers_length, uint64_t target,
                          uint64_t *figures, size_t figures_length);

/* The message whose 24-bit length starts at byte `at` of a batch. KADUNFO_MESSAGE: it stands in the bytes from..until
   of the batch, and the next length starts at until. KADUNFO_END: no byte is left at `at`, or it is past the batch.
   KADUNFO_FRAMING_REFUSED, at bit 8 * at: number 1 where the length is cut short, 4 where it is above
   KADUNFO_LONGEST_MESSAGE, 1 where the message is cut short, tested in that sequence. */
uint64_t kadunfo_split(const uint8_t *batch, size_t batch_length, size_t at,
                       uint64_t *figures, size_t figures_length);

#ifdef __cplusplus
}
#endif

#endif
