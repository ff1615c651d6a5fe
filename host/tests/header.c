/* Prints what the functions of the header tell of files: of a case and a plan each of those that take a case, of these
   two behind the word "market" what concerns the market's copy, behind "mend" the mend, of a batch the splitter; of a case
   and a batch of its plans, behind "batch" and so many bytes of room, how all are judged. */
#include "kadunfo.h"

#include <inttypes.h>
#include <stdio.h>
#include <stdlib.h>
#include <string.h>

#define BEFORE 0xa5
#define LONGEST_FILE (2 * KADUNFO_LONGEST_MESSAGE)

static uint8_t kase[LONGEST_FILE], plan[LONGEST_FILE], batch[LONGEST_FILE];
static uint8_t result[KADUNFO_LONGEST_COMPLETION], results[KADUNFO_LONGEST_COMPLETION], list[KADUNFO_LONGEST_LIST];
static uint8_t new_case[KADUNFO_LONGEST_CASE], new_plan[KADUNFO_LONGEST_PLAN], again[KADUNFO_LONGEST_CASE];
static uint8_t copy[KADUNFO_LONGEST_COPY];
static uint64_t table[KADUNFO_MOST_NUMBERS];
static uint64_t figures[4];

static size_t load(const char *path, uint8_t *bytes) {
    FILE *file = fopen(path, "rb");
    if (file == NULL) {
        perror(path);
        exit(1);
    }
    size_t length = fread(bytes, 1, LONGEST_FILE, file);
    fclose(file);
    return length;
}

static void tell(const char *name, uint64_t word) {
    printf("%s %" PRIu64, name, word);
    for (int i = 0; i < 4; i++)
        printf(" %" PRIu64, figures[i]);
    printf("\n");
}

static void tell_list(size_t breaches) {
    for (size_t i = 0; i < breaches; i++)
        printf("%d %d %d %d\n", list[4 * i], list[4 * i + 1], list[4 * i + 2], list[4 * i + 3]);
}

static int figures_untouched(void) {
    for (int i = 0; i < 4; i++)
        if (figures[i] != UINT64_C(0xa5a5a5a5a5a5a5a5))
            return 0;
    return 1;
}

static int table_untouched(size_t from) {
    for (size_t i = from; i < KADUNFO_MOST_NUMBERS; i++)
        if (table[i] != UINT64_C(0xa5a5a5a5a5a5a5a5))
            return 0;
    return 1;
}

/* With three figures nothing is done: neither the list nor the figures change. */
static int untouched_when_short(size_t case_length, size_t plan_length) {
    memset(list, BEFORE, sizeof list);
    memset(figures, BEFORE, sizeof figures);
    if (kadunfo_breaches(kase, case_length, plan, plan_length, list, sizeof list, figures, 3) != KADUNFO_FIGURES_SHORT)
        return 0;
    for (size_t i = 0; i < sizeof list; i++)
        if (list[i] != BEFORE)
            return 0;
    return figures_untouched();
}

/* The pair in the newest edition is judged, and each message of it is written once more as it stands. */
static int tell_written(size_t case_length, size_t plan_length) {
    tell("new-judge", kadunfo_judge(new_case, case_length, new_plan, plan_length, result, sizeof result, figures, 4));
    if (kadunfo_write_case(new_case, case_length, again, case_length, figures, 4) != KADUNFO_WRITTEN
        || figures[0] != case_length || memcmp(again, new_case, case_length) != 0)
        return 0;
    return kadunfo_write_plan(new_case, case_length, new_plan, plan_length, again, plan_length, figures, 4) == KADUNFO_WRITTEN
        && figures[0] == plan_length && memcmp(again, new_plan, plan_length) == 0;
}

/* With three figures nothing is done. */
static int unwritten_when_short(size_t case_length, size_t plan_length) {
    memset(again, BEFORE, sizeof again);
    memset(figures, BEFORE, sizeof figures);
    if (kadunfo_write_case(kase, case_length, again, sizeof again, figures, 3) != KADUNFO_FIGURES_SHORT
        || kadunfo_write_plan(kase, case_length, plan, plan_length, again, sizeof again, figures, 3) != KADUNFO_FIGURES_SHORT)
        return 0;
    for (size_t i = 0; i < sizeof again; i++)
        if (again[i] != BEFORE)
            return 0;
    return figures_untouched();
}

static int tell_writing(size_t case_length, size_t plan_length) {
    tell("write-short", kadunfo_write_plan(kase, case_length, plan, plan_length, new_plan, 1, figures, 4));
    uint64_t case_word = kadunfo_write_case(kase, case_length, new_case, sizeof new_case, figures, 4);
    tell("write-case", case_word);
    size_t new_case_length = (size_t)figures[0];
    uint64_t plan_word = kadunfo_write_plan(kase, case_length, plan, plan_length, new_plan, sizeof new_plan, figures, 4);
    tell("write-plan", plan_word);
    if (!unwritten_when_short(case_length, plan_length))
        return 0;
    if (case_word != KADUNFO_WRITTEN || plan_word != KADUNFO_WRITTEN)
        return 1;
    kadunfo_write_plan(kase, case_length, plan, plan_length, new_plan, sizeof new_plan, figures, 4);
    return tell_written(new_case_length, (size_t)figures[0]);
}

static int tell_pair(size_t case_length, size_t plan_length) {
    tell("inspect", kadunfo_inspect(kase, case_length, figures, 4));
    tell("judge", kadunfo_judge(kase, case_length, plan, plan_length, result, sizeof result, figures, 4));
    tell("short", kadunfo_breaches(kase, case_length, plan, plan_length, list, 3, figures, 4));
    uint64_t word = kadunfo_breaches(kase, case_length, plan, plan_length, list, sizeof list, figures, 4);
    tell("breaches", word);
    if (word == KADUNFO_LISTED)
        tell_list((size_t)figures[0]);
    return tell_writing(case_length, plan_length) && untouched_when_short(case_length, plan_length);
}

static void tell_table(const char *name, uint64_t word) {
    size_t numbers = word == KADUNFO_READ ? (size_t)figures[0] : 0;
    tell(name, word);
    for (size_t i = 0; i < numbers; i++)
        printf("%" PRIu64 "%s", table[i], i + 1 < numbers ? " " : "\n");
}

/* With three figures nothing is done: neither the copy, nor the table, nor the figures change. */
static int uncopied_when_short(size_t case_length, size_t plan_length) {
    memset(copy, BEFORE, sizeof copy);
    memset(table, BEFORE, sizeof table);
    memset(figures, BEFORE, sizeof figures);
    if (kadunfo_market(kase, case_length, plan, plan_length, copy, sizeof copy, figures, 3) != KADUNFO_FIGURES_SHORT
        || kadunfo_read_completion(kase, case_length, plan, plan_length, table, KADUNFO_MOST_NUMBERS, figures, 3)
            != KADUNFO_FIGURES_SHORT
        || kadunfo_read_market(kase, case_length, plan, plan_length, table, KADUNFO_MOST_NUMBERS, figures, 3)
            != KADUNFO_FIGURES_SHORT)
        return 0;
    for (size_t i = 0; i < sizeof copy; i++)
        if (copy[i] != BEFORE)
            return 0;
    return table_untouched(0) && figures_untouched();
}

/* The completion and the copy of a plan, each by both readers, with tables of one number and of enough. */
static int tell_copies(size_t case_length, size_t plan_length) {
    tell("short", kadunfo_market(kase, case_length, plan, plan_length, copy, 1, figures, 4));
    uint64_t word = kadunfo_market(kase, case_length, plan, plan_length, copy, sizeof copy, figures, 4);
    tell("market", word);
    size_t copy_length = (size_t)figures[0];
    if (word == KADUNFO_COPIED) {
        kadunfo_judge(kase, case_length, plan, plan_length, result, 1, figures, 4);
        size_t length = (size_t)figures[1];
        kadunfo_judge(kase, case_length, plan, plan_length, result, length, figures, 4);
        tell("desk-short", kadunfo_read_completion(kase, case_length, result, length, table, 1, figures, 4));
        tell_table("desk", kadunfo_read_completion(kase, case_length, result, length, table, KADUNFO_MOST_NUMBERS, figures, 4));
        tell_table("desk", kadunfo_read_completion(kase, case_length, copy, copy_length, table, KADUNFO_MOST_NUMBERS, figures, 4));
        tell_table("copy", kadunfo_read_market(kase, case_length, copy, copy_length, table, KADUNFO_MOST_NUMBERS, figures, 4));
        tell_table("copy", kadunfo_read_market(kase, case_length, result, length, table, KADUNFO_MOST_NUMBERS, figures, 4));
    }
    return uncopied_when_short(case_length, plan_length);
}

/* With three figures nothing is done. */
static int tell_mend(size_t case_length, size_t plan_length) {
    uint64_t word = kadunfo_mend(kase, case_length, plan, plan_length, figures, 4);
    tell(word == KADUNFO_MENDED ? "mended" : word == KADUNFO_UNMENDABLE ? "unmendable" : "mend", word);
    memset(figures, BEFORE, sizeof figures);
    return kadunfo_mend(kase, case_length, plan, plan_length, figures, 3) == KADUNFO_FIGURES_SHORT && figures_untouched();
}

static int tell_batch(size_t length) {
    uint64_t at = 0, word;
    do {
        word = kadunfo_split(batch, length, at, figures, 4);
        tell("split", word);
        at = figures[1];
    } while (word == KADUNFO_MESSAGE);
    memset(figures, BEFORE, sizeof figures);
    return kadunfo_split(batch, length, 0, figures, 3) == KADUNFO_FIGURES_SHORT && figures_untouched();
}

/* Behind so many completions' bytes and so many numbers nothing has changed. */
static int batch_untouched(size_t bytes, size_t numbers) {
    for (size_t i = bytes; i < sizeof results; i++)
        if (results[i] != BEFORE)
            return 0;
    return table_untouched(numbers);
}

/* Each plan of the batch by itself, with what is left of the room, has the numbers of the table and the bytes of the
   results; behind them nothing has changed. */
static int as_alone(size_t case_length, size_t batch_length, size_t room) {
    size_t used = 0, place = 0;
    for (uint64_t at = 0; kadunfo_split(batch, batch_length, at, figures, 4) == KADUNFO_MESSAGE;) {
        const uint64_t *numbers = table + place;
        const uint8_t *message = batch + figures[0];
        size_t length = (size_t)(figures[1] - figures[0]), bytes = (size_t)numbers[KADUNFO_BATCH_NUMBERS - 1];
        at = figures[1];
        uint64_t word = kadunfo_judge(kase, case_length, message, length, result, room - used, figures, 4);
        if (numbers[0] != word || memcmp(numbers + 1, figures, sizeof figures) != 0
            || (bytes != 0) != (word == KADUNFO_ACCEPTED) || memcmp(results + used, result, bytes) != 0)
            return 0;
        used += bytes;
        place += KADUNFO_BATCH_NUMBERS;
    }
    return batch_untouched(used, place);
}

static void tell_numbers(size_t plans) {
    for (size_t i = 0; i < KADUNFO_BATCH_NUMBERS * plans; i++)
        printf("%" PRIu64 "%s", table[i], (i + 1) % KADUNFO_BATCH_NUMBERS == 0 ? "\n" : " ");
}

/* With a table of one number, with three figures, where nothing is done, and with enough of both. */
static int tell_judged(size_t case_length, size_t batch_length, size_t room) {
    memset(results, BEFORE, sizeof results);
    memset(table, BEFORE, sizeof table);
    tell("table-short", kadunfo_judge_batch(kase, case_length, batch, batch_length, results, room, table, 1, figures, 4));
    memset(figures, BEFORE, sizeof figures);
    if (kadunfo_judge_batch(kase, case_length, batch, batch_length, results, room, table, KADUNFO_MOST_NUMBERS, figures, 3)
            != KADUNFO_FIGURES_SHORT
        || !figures_untouched() || !batch_untouched(0, 0))
        return 0;
    uint64_t word =
        kadunfo_judge_batch(kase, case_length, batch, batch_length, results, room, table, KADUNFO_MOST_NUMBERS, figures, 4);
    tell("judge-batch", word);
    if (word != KADUNFO_JUDGED)
        return batch_untouched(0, 0);
    tell_numbers((size_t)figures[0]);
    return as_alone(case_length, batch_length, room);
}

int main(int count, char **words) {
    if (count == 2)
        return tell_batch(load(words[1], batch)) ? 0 : 2;
    if (count == 3)
        return tell_pair(load(words[1], kase), load(words[2], plan)) ? 0 : 2;
    if (count == 4 && strcmp(words[1], "market") == 0)
        return tell_copies(load(words[2], kase), load(words[3], plan)) ? 0 : 2;
    if (count == 4 && strcmp(words[1], "mend") == 0)
        return tell_mend(load(words[2], kase), load(words[3], plan)) ? 0 : 2;
    if (count == 5 && strcmp(words[1], "batch") == 0)
        return tell_judged(load(words[3], kase), load(words[4], batch), strtoul(words[2], NULL, 10)) ? 0 : 2;
    return 1;
}
