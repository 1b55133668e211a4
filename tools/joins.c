/*
 * Lists how a line of bins came to its modes. tools/joins compiles it, and says what it reads and prints:
 *
 *     joins CLOSENESS    reads the counts from standard input
 *
 * All it knows of the joins comes from the log of kistrovu_join_log. The first separators it finds by itself, by rule S1 of
 * docs/METHOD.md, and it makes the joins as it lists them. What is left must be what kistrovu_replay gives for the same log;
 * that is checked before anything is printed.
 */
#include <kistrovu.h>

#include <ctype.h>
#include <errno.h>
#include <stdarg.h>
#include <stdio.h>
#include <stdlib.h>
#include <string.h>

enum { TURNED_DOWN = 1, WRONG_USE = 2, NOT_CONFIRMED = 3 };

/* Rows are kept this short, so that a listing of 256 bins fits into 80 columns. */
enum { COUNTS_IN_ROW = 10, SEPARATORS_IN_ROW = 16 };

/* A join is one row: so many dropped separators are all listed; of more, the first few and the last. */
enum { MOST_DROPPED = 7, FIRST_DROPPED = 2 };

/* The units of a bit, in which the log has its costs. */
#define UNITS 67108864.0

/* One count more than a line may have is enough for it to be turned down. */
#define ROOM (KISTROVU_MOST_BINS + 1)

struct line {
    int32_t closeness;
    size_t bins;
    uint32_t counts[ROOM];
};

struct log {
    uint32_t joins;
    struct kistrovu_join_record records[ROOM];
};

struct separators {
    size_t count;
    uint32_t bins[ROOM];
};

static int complain(int status, const char *format, ...)
{
    va_list figures;
    fputs("joins: ", stderr);
    va_start(figures, format);
    vfprintf(stderr, format, figures);
    va_end(figures);
    fputc('\n', stderr);
    return status;
}

/* The sentences of docs/METHOD.md for the grounds that a line can have. */
static const char *sentence(uint32_t number)
{
    switch (number) {
    case KISTROVU_BINS:
        return "The histogram has fewer than 2 bins or more than 256.";
    case KISTROVU_SUM:
        return "The counts of the histogram add up to more than 65,536.";
    case KISTROVU_CLOSENESS:
        return "The closeness is below -10 or above 20.";
    default:
        return "No line should have this ground.";
    }
}

/* A number too large for the call is still too large for it when it is cut to what an int32_t holds. */
static bool read_closeness(const char *word, int32_t *closeness)
{
    char *end;
    long value = strtol(word, &end, 10);
    if (end == word || *end != '\0' || isspace((unsigned char)*word))
        return false;
    *closeness = value > INT32_MAX ? INT32_MAX : value < INT32_MIN ? INT32_MIN : (int32_t)value;
    return true;
}

/* A word of the text. Its beginning is kept, to be shown if it is no count. */
struct word {
    size_t length;
    bool is_count;
    uint32_t count;
    char start[24];
};

/* A count that is too large is kept as the largest, which no sum of counts may reach. */
static void take_character(struct word *word, int character)
{
    if (word->length < sizeof word->start - 1)
        word->start[word->length] = isprint(character) ? (char)character : '?';
    word->length++;
    if (!isdigit(character))
        word->is_count = false;
    else if (word->count > (UINT32_MAX - 9) / 10)
        word->count = UINT32_MAX;
    else
        word->count = 10 * word->count + (uint32_t)(character - '0');
}

/* The next word; it has no length at the end of the text. */
static struct word next_word(void)
{
    struct word word = {.is_count = true};
    int character = getchar();
    while (character != EOF && isspace(character))
        character = getchar();
    for (; character != EOF && !isspace(character); character = getchar())
        take_character(&word, character);
    return word;
}

static int read_counts(struct line *line)
{
    size_t bin = 0;
    for (struct word word = next_word(); word.length > 0; word = next_word(), bin++) {
        if (!word.is_count)
            return complain(WRONG_USE, "the text is no list of counts: '%s' where that of bin %zu was to stand", word.start, bin);
        if (bin < ROOM)
            line->counts[line->bins++] = word.count;
    }
    return ferror(stdin) ? complain(WRONG_USE, "the counts cannot be read: %s", strerror(errno)) : 0;
}

/* S1: bin 0, the last bin, and between them the first bin of every run of equal bins with a higher bin on both sides. */
static void find_first_separators(const struct line *line, struct separators *found)
{
    size_t last = line->bins - 1;
    found->count = 0;
    found->bins[found->count++] = 0;
    for (size_t bin = 1; bin < last; bin++) {
        size_t end = bin;
        while (end < last && line->counts[end + 1] == line->counts[bin])
            end++;
        if (line->counts[bin - 1] > line->counts[bin] && end < last && line->counts[end + 1] > line->counts[bin])
            found->bins[found->count++] = (uint32_t)bin;
    }
    found->bins[found->count++] = (uint32_t)last;
}

/* Whether the run of a join lies within the segments that there are. */
static bool fits(const struct separators *now, const struct kistrovu_join_record *join)
{
    int64_t segments = (int64_t)now->count - 1;
    return join->length >= 2 && join->length <= segments && join->first >= 0 && join->first <= segments - join->length;
}

/* Drops the separators inside the run of a join. */
static void make_join(struct separators *now, const struct kistrovu_join_record *join)
{
    size_t first = (size_t)join->first, end = first + (size_t)join->length;
    memmove(&now->bins[first + 1], &now->bins[end], (now->count - end) * sizeof *now->bins);
    now->count -= end - first - 1;
}

/* Makes all joins, and compares what they leave with what the library's replay of them gives. */
static int confirm(const struct line *line, const struct log *log, struct separators now)
{
    struct separators replayed;
    size_t numbers = KISTROVU_RECORD_NUMBERS * (size_t)log->joins;
    for (uint32_t i = 0; i < log->joins; i++) {
        if (!fits(&now, &log->records[i]))
            return complain(NOT_CONFIRMED, "the listing is not confirmed: the segments of join %u are not there", i);
        make_join(&now, &log->records[i]);
    }
    struct kistrovu_modes_answer answer = kistrovu_replay(line->counts, line->bins, line->closeness, (const int64_t *)log->records,
                                                          numbers, replayed.bins, ROOM);
    if (answer.number != KISTROVU_SERVED)
        return complain(NOT_CONFIRMED, "the listing is not confirmed: the replay of its joins is turned down, number %u", answer.number);
    if (answer.separators != now.count || memcmp(replayed.bins, now.bins, now.count * sizeof *now.bins) != 0)
        return complain(NOT_CONFIRMED, "the listing is not confirmed: the replay of its joins leaves other separators");
    return 0;
}

static uint32_t sum(const uint32_t *counts, size_t bins)
{
    uint32_t all = 0;
    for (size_t i = 0; i < bins; i++)
        all += counts[i];
    return all;
}

static void print_counts(const struct line *line)
{
    printf("line of %zu bins, sum %u, closeness %d\n", line->bins, sum(line->counts, line->bins), (int)line->closeness);
    printf("\ncounts, each row from the bin at its left\n");
    for (size_t bin = 0; bin < line->bins; bin++) {
        if (bin % COUNTS_IN_ROW == 0)
            printf("%s%5zu:", bin == 0 ? "" : "\n", bin);
        printf(" %6u", line->counts[bin]);
    }
    printf("\n");
}

static void print_first_separators(const struct separators *first)
{
    printf("\nfirst separators");
    for (size_t i = 0; i < first->count; i++)
        printf("%s%4u", i % SEPARATORS_IN_ROW == 0 ? "\n " : "", first->bins[i]);
    printf("\n");
}

static void print_dropped(const uint32_t *bins, size_t count)
{
    size_t listed = count <= MOST_DROPPED ? count : FIRST_DROPPED;
    for (size_t i = 0; i < listed; i++)
        printf("%4u", bins[i]);
    if (listed < count)
        printf("  ..%4u, %zu in all", bins[count - 1], count);
    printf("\n");
}

static void print_join(uint32_t number, const struct kistrovu_join_record *join, const struct separators *now)
{
    size_t first = (size_t)join->first, length = (size_t)join->length;
    const uint32_t *run = &now->bins[first];
    printf("%4u  %5zu  %8zu  %4u  %4u  %s  %8.3f  ", number, first, length, run[0], run[length], join->rise ? "rise" : "fall",
           (double)join->cost / UNITS);
    print_dropped(run + 1, length - 1);
}

static void print_joins(const struct log *log, struct separators *now)
{
    printf("\njoins, in turn%s\n", log->joins == 0 ? ": none" : "");
    if (log->joins > 0)
        printf("join  first  segments  from    to  by        bits  separators dropped\n");
    for (uint32_t i = 0; i < log->joins; i++) {
        print_join(i, &log->records[i], now);
        make_join(now, &log->records[i]);
    }
}

/* S8: a mode ends at the bin before the next separator; the last one also has the last bin. */
static void print_modes(const struct line *line, const struct separators *left)
{
    printf("\nmodes\nmode  bins            counts\n");
    for (size_t i = 0; i + 1 < left->count; i++) {
        size_t start = left->bins[i], end = left->bins[i + 1] + (i + 2 == left->count);
        printf("%4zu  %4zu to %4zu  %8u\n", i, start, end - 1, sum(line->counts + start, end - start));
    }
}

int main(int argc, char **argv)
{
    static struct line line;
    static struct log log;
    static struct separators separators;
    if (argc != 2 || !read_closeness(argv[1], &line.closeness))
        return complain(WRONG_USE, "the closeness is no whole number; see tools/joins --help");
    if (kistrovu_version() != KISTROVU_VERSION)
        return complain(WRONG_USE, "the library is of another version than its header");
    int status = read_counts(&line);
    if (status != 0)
        return status;

    struct kistrovu_log_answer answer =
        kistrovu_join_log(line.counts, line.bins, line.closeness, (int64_t *)log.records, KISTROVU_RECORD_NUMBERS * ROOM);
    if (answer.number != KISTROVU_SERVED)
        return complain(TURNED_DOWN, "this line is turned down, number %u: %s", answer.number, sentence(answer.number));
    if (answer.joins >= line.bins)
        return complain(NOT_CONFIRMED, "the listing is not confirmed: the log has more joins than the line has bins");
    log.joins = answer.joins;
    find_first_separators(&line, &separators);
    status = confirm(&line, &log, separators);
    if (status != 0)
        return status;

    print_counts(&line);
    print_first_separators(&separators);
    print_joins(&log, &separators);
    print_modes(&line, &separators);
    if (fflush(stdout) != 0 || ferror(stdout))
        return complain(WRONG_USE, "the listing cannot be written: %s", strerror(errno));
    return 0;
}
