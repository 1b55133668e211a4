/*
 * Lends the calls of a log lists that end where nothing may be touched, and the replay a log that may only be read. Says which
 * checks fail, and then has exit status 1.
 */
#define _DEFAULT_SOURCE
#include "guarded.h"

#define MOST_NUMBERS (KISTROVU_RECORD_NUMBERS * KISTROVU_MOST_BINS)

static uint8_t *log_end, *separators_end;

/* A log of so many numbers, unused, that ends where its pages do. */
static int64_t *fresh_log(size_t numbers)
{
    refresh(log_end);
    return (int64_t *)(void *)log_end - numbers;
}

static uint32_t *fresh_separators(size_t places)
{
    refresh(separators_end);
    return (uint32_t *)(void *)separators_end - places;
}

/* A log lent with too few numbers stays as it was; odd numbers at the end do too. */
static uint32_t write_logs(const uint32_t *histogram, size_t bins, int32_t closeness, int64_t *numbers)
{
    size_t most = KISTROVU_RECORD_NUMBERS * bins, few[] = {0, 1, most / 2, most - 1};
    uint32_t joins = 0;
    for (size_t i = 0; i < sizeof few / sizeof *few; i++) {
        struct kistrovu_log_answer answer = kistrovu_join_log(histogram, bins, closeness, fresh_log(few[i]), few[i]);
        check(answer.number == KISTROVU_SEPARATORS && answer.joins == 0, "a log with too few numbers gets 10");
        check(untouched(log_end - ROOM, ROOM), "a log with too few numbers is left as it was");
    }
    for (size_t more = 0; more <= KISTROVU_RECORD_NUMBERS; more++) {
        int64_t *log = fresh_log(most + more);
        struct kistrovu_log_answer answer = kistrovu_join_log(histogram, bins, closeness, log, most + more);
        check(answer.number == KISTROVU_SERVED && answer.joins < bins, "a log with numbers enough is served");
        joins = answer.joins;
        check(untouched(log + KISTROVU_RECORD_NUMBERS * joins, (most + more - KISTROVU_RECORD_NUMBERS * joins) * sizeof *log),
              "the numbers behind the last join are left as they were");
        memcpy(numbers, log, KISTROVU_RECORD_NUMBERS * joins * sizeof *log);
    }
    return joins;
}

/* Replays these numbers, which then may only be read; gives the answer's number. */
static uint32_t replayed(const uint32_t *histogram, size_t bins, int32_t closeness, const int64_t *numbers, size_t count)
{
    uint32_t expected[KISTROVU_MOST_BINS];
    uint32_t *separators = fresh_separators(bins);
    int64_t *log = fresh_log(count);
    struct kistrovu_modes_answer answer, modes;
    memcpy(log, numbers, count * sizeof *log);
    forbid_writing(log_end);
    answer = kistrovu_replay(histogram, bins, closeness, log, count, separators, bins);
    check(memcmp(log, numbers, count * sizeof *log) == 0, "a log that is replayed is left as it was");
    if (answer.number != KISTROVU_SERVED) {
        check(answer.separators == 0 && untouched(separators_end - ROOM, ROOM), "a list is left as it was by a call turned down");
        return answer.number;
    }
    modes = kistrovu_line_modes(histogram, bins, closeness, expected, KISTROVU_MOST_BINS);
    check(answer.separators == modes.separators, "a replay has as many separators as the modes");
    check(memcmp(separators, expected, modes.separators * sizeof *separators) == 0, "a replay has the separators of the modes");
    check(untouched(separators + modes.separators, (bins - modes.separators) * sizeof *separators),
          "a replay leaves the other places");
    return answer.number;
}

/* Every length but the right one gets 20, and so does every number altered. */
static void replay_logs(const uint32_t *histogram, size_t bins, int32_t closeness, int64_t *numbers, uint32_t joins)
{
    const int64_t others[] = {-1, 2, 3, 256, INT64_MIN, INT64_MAX};
    size_t right = KISTROVU_RECORD_NUMBERS * joins;
    for (size_t count = 0; count <= right + KISTROVU_RECORD_NUMBERS; count++) {
        uint32_t number = replayed(histogram, bins, closeness, numbers, count);
        check(number == (count == right ? KISTROVU_SERVED : KISTROVU_LOG), "only the whole log is served");
    }
    for (size_t place = 0; place < right; place++) {
        int64_t kept = numbers[place];
        for (size_t i = 0; i < sizeof others / sizeof *others; i++) {
            uint32_t expected = others[i] == kept ? KISTROVU_SERVED : KISTROVU_LOG;
            numbers[place] = others[i];
            check(replayed(histogram, bins, closeness, numbers, right) == expected, "any other number gets 20");
        }
        numbers[place] = kept;
    }
}

/* The line of this name, which has this many joins at this closeness; -1 for any number but 0. */
static void try_line(const char *name, const uint32_t *histogram, size_t bins, int32_t closeness, int joins)
{
    int64_t numbers[MOST_NUMBERS + KISTROVU_RECORD_NUMBERS] = {0};
    uint32_t found;
    tried = name;
    found = write_logs(histogram, bins, closeness, numbers);
    check(joins < 0 ? found > 0 : found == (uint32_t)joins, "the number of joins");
    replay_logs(histogram, bins, closeness, numbers, found);
}

int main(void)
{
    const uint32_t humps[] = {0, 1, 0, 1, 0}, three[] = {2, 0, 2, 0, 0, 2}, pair[] = {3, 9};
    uint32_t most[64];
    log_end = guarded_end();
    separators_end = guarded_end();
    for (size_t i = 0; i < sizeof most / sizeof *most; i++)
        most[i] = i % 2 == 0 ? 0 : 1 + (uint32_t)i % 7;
    try_line("two humps", humps, 5, 0, 1);
    try_line("two humps kept apart", humps, 5, -10, 0);
    try_line("a run of three", three, 6, -2, 1);
    try_line("two bins", pair, 2, 0, 0);
    try_line("many humps", most, 64, 0, -1);
    return failures != 0;
}
