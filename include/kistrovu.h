/*
 * Kistrovu: the card of a scanned cloth.
 *
 * A card is the palette of a cloth: the greys and colours found in it, how many pixels each accounts for, and which
 * pixel belongs where. For example, black beside red, whose card has two entries of one pixel each:
 *
 *     const uint8_t pixels[] = {0, 0, 0, 255, 0, 0};
 *     uint16_t labels[2];
 *     struct kistrovu_card card = kistrovu_card(pixels, sizeof pixels, 0, labels, sizeof labels / sizeof *labels);
 *     if (card.number != KISTROVU_SERVED)
 *         return (int)card.number;
 *     for (uint32_t i = 0; i < card.len; i++) {
 *         const struct kistrovu_entry *entry = &card.entries[i];
 *         printf("%u of %u %u %u\n", entry->count, entry->red, entry->green, entry->blue);
 *     }
 *
 * Link libkistrovu.a: `tools/library` makes it for x86-64, tools/install installs it, and then `pkg-config
 * --cflags --libs kistrovu` gives the flags. From the C library it needs memcpy and memset. examples/controller.c is a
 * whole program.
 *
 * Every call is served or turned down. Its answer has a number: 0 if it is served, otherwise the ground on which it is
 * turned down (enum kistrovu_ground). A call tests the grounds that concern it in the order of their numbers, and its
 * answer is the number of the first that holds. If a call is turned down, its answer is safe to read and to pass on: every
 * other figure in it is zero. Every lent buffer is left as it was, so what an earlier call wrote there is still valid. A call
 * that is served writes its labels, or its separators or records in the first places of the list, and nothing else. The same
 * arguments always get the same answer; there is nothing to set up, to free or to try again. The caller is responsible
 * only for what C cannot check:
 *
 *   - a pointer and a length stand for that many readable places, writable too if the pointer is not const;
 *     a pointer is aligned for its type and not null, even if the length is 0;
 *   - a buffer that is written does not overlap another argument;
 *   - a bool is 0 or 1;
 *   - the library is of the header's major version. A program compiled with the header of version 5 and linked with this
 *     library has too little room for what the calls write: a label was one byte then, and the answers with a card or with
 *     a text were smaller. No number would show it. Only the version does, so compare it at the start of the program:
 *
 *     if (kistrovu_version() / 10000 != KISTROVU_VERSION_MAJOR)
 *         return 1;
 *
 * No call uses the heap, keeps state or touches anything but its arguments, so calls may run on many threads at once.
 * Stack, as measured: kistrovu_card takes up to 385 KB, kistrovu_print_card up to 237 KB; every other call takes less
 * than 20 KB. That is without the answer, which is handed back by value, in memory of the caller; its size is given below.
 * Give a thread that makes cards 1 MB.
 *
 * In C++ a call hides the struct of the same name, so write `struct kistrovu_card card`, as in C.
 *
 * The promises are stated in crates/kistrovu/src/lib.rt and proved for the source. This header is written by hand and not
 * covered by the proof; a test compares it with the source (tests/declarations).
 */
#ifndef KISTROVU_H
#define KISTROVU_H

#include <stdbool.h>
#include <stddef.h>
#include <stdint.h>

#ifdef __cplusplus
extern "C" {
#endif

/* ---- the version of this header and, from the call, that of the library. If the two differ, the program was linked with
 * another release. Major: a declaration, a number or a figure's meaning changed. Minor: something was added. */

#define KISTROVU_VERSION_MAJOR 6
#define KISTROVU_VERSION_MINOR 0
#define KISTROVU_VERSION_PATCH 0
#define KISTROVU_VERSION (10000 * KISTROVU_VERSION_MAJOR + 100 * KISTROVU_VERSION_MINOR + KISTROVU_VERSION_PATCH)

uint32_t kistrovu_version(void);

/* The grounds for turning a call down. Numbers are never given a new meaning. */
enum kistrovu_ground {
    KISTROVU_SERVED = 0,
    KISTROVU_HEADER = 1,       /* the first line of the swatch is not a header of two fields */
    KISTROVU_SIZE = 2,         /* the width times the height is 0 or above 16,384 */
    KISTROVU_LINES = 3,        /* a pixel line is not three numbers from 0 to 255, or there are fewer or more lines than pixels */
    KISTROVU_BYTES = 4,        /* there are no pixel bytes, or their number is not a multiple of 3 */
    KISTROVU_PIXELS = 5,       /* the image has more than 65,536 pixels */
    KISTROVU_BINS = 6,         /* the histogram has fewer than 2 bins or more than 256 */
    KISTROVU_SUM = 7,          /* the counts of the histogram add up to more than 65,536 */
    KISTROVU_CLOSENESS = 8,    /* the closeness is below -10 or above 20 */
    KISTROVU_LABELS = 9,       /* the label buffer does not have one place for each pixel, or for each one-byte label that is read into it */
    KISTROVU_SEPARATORS = 10,  /* the separator list, or the list to write a log in, has fewer places than the histogram has bins */
    KISTROVU_ENTRIES = 11,     /* the card would have more than 1,000 entries */
    KISTROVU_LOG = 20          /* the log is not the one that the method writes for the line */
};

/* The limits. A swatch's text has 13 bytes for its header and 13 for each pixel. */
#define KISTROVU_MOST_BINS 256
#define KISTROVU_LEAST_CLOSENESS (-10)
#define KISTROVU_MOST_CLOSENESS 20
#define KISTROVU_MOST_PIXELS 65536
#define KISTROVU_MOST_ENTRIES 1000
#define KISTROVU_MOST_SWATCH_PIXELS 16384
#define KISTROVU_MOST_TEXT (13 * (1 + KISTROVU_MOST_SWATCH_PIXELS))
#define KISTROVU_MOST_PRINTED 49019

/* ---- the measures of one pixel. No ground concerns it; the number is always 0 */

struct kistrovu_measures {
    uint8_t intensity;  /* 0 to 51 */
    uint8_t saturation; /* 0 to 41 */
    uint8_t hue;        /* 0 to 59; 0 for a grey */
    bool grey;
};

struct kistrovu_measures_answer { /* 8 bytes */
    uint32_t number;
    struct kistrovu_measures measures;
};

struct kistrovu_measures_answer kistrovu_measures(uint8_t red, uint8_t green, uint8_t blue);

/* ---- the monotone fit of a histogram, increasing if rising is true, else decreasing. Grounds 6, 7
 * Bin i lies in a block of sum sums[i] and length lengths[i], so the value of the fit there is sums[i] / lengths[i];
 * places past the last bin are zero. */

struct kistrovu_fit_answer { /* 2,052 bytes */
    uint32_t number;
    uint32_t sums[KISTROVU_MOST_BINS];
    uint32_t lengths[KISTROVU_MOST_BINS];
};

struct kistrovu_fit_answer kistrovu_fit(const uint32_t *histogram, size_t bins, bool rising);

/* ---- the verdict: whether a histogram is too far from the monotone fit. Grounds 6, 7, 8
 * The cost is in units of 1/67,108,864 of a bit and may be negative. The histogram is rejected if its cost is 0 or more and
 * it has a step against the fit: for an increasing fit from a bin to a lower one, for a decreasing fit to a higher one.
 * Without such a step it is accepted, whatever it costs. So a cost of 0 or more does not by itself mean a rejection.
 *
 * Closeness is from KISTROVU_LEAST_CLOSENESS to KISTROVU_MOST_CLOSENESS; one more takes one bit off every cost.
 * A larger closeness rejects less and joins modes more readily: as a rule a card has fewer entries. A smaller one is
 * looser: less evidence keeps two modes apart, and as a rule a card has more entries. A stretch of L bins has a bar of
 * log2(L(L+1)/2) + closeness bits; where that is 0 or less, nothing joins. At -10 this is so for up to 44 bins, so that the
 * 42 of saturation have a mode for every hump; in a longer histogram (intensity has 52 bins, hue 60) runs over more than
 * 44 bins can still be joined.
 *
 * A cost comes of logarithms to base 2 in the same units, which no call hands out. For a controller that needs those of
 * 1 to 1,024, the source has them in crates/logarithm/src/sheet.rt, in the array SHEET: that of x at place x - 1, counted
 * from 0. */

struct kistrovu_verdict {
    int64_t cost;
    bool rejected;
};

struct kistrovu_verdict_answer { /* 24 bytes */
    uint32_t number;
    struct kistrovu_verdict verdict;
};

struct kistrovu_verdict_answer kistrovu_verdict(const uint32_t *histogram, size_t bins, bool rising, int32_t closeness);

/* ---- the modes of a line of bins, and of a ring, whose last bin is beside its first. Grounds 6, 7, 8, 10
 * The separators are in the first places of the list, from the lowest bin number up, and the answer says how many there are;
 * the other places stay as they were. A mode runs from its separator to the bin before the next one. A line's separators
 * end with its last bin, which belongs to the last mode, so there is one mode fewer than separators.
 * A ring has as many modes as separators, one or more, and the bins before the first in the list belong to the mode of the
 * last. It is opened at its lowest bin, the first of several, and the line from there round to that bin again is segmented.
 * Then its modes are joined all round the ring, past the opening too, until none can be: so the opening need not be a
 * separator. Modes are numbered from the opening on, not as they are listed: mode 0 starts at the opening if that is a
 * separator, otherwise at the next one round the ring. A card numbers its hue modes so; it is made without the list.
 * For example, the ring 94, 78, 144, 78, 143, 78, 78, 118, 78 at closeness 1, opened at bin 1, has the list 3, 5: bin 1 is no
 * separator, bins 3 and 4 are mode 0, and bins 5 to 8 and 0 to 2 mode 1. And the ring 9, 1, 9, 0, 9, 0 at closeness 0, opened
 * at bin 3, has the list 1, 3, 5: mode 0 starts at bin 3, mode 1 at bin 5 and mode 2 at bin 1.
 * If one bin is lower than all others, it makes no difference which bin is called bin 0: in a ring turned by k bins, in which
 * bin b has become bin b + k, counted round, every separator is k bins further on as well, and so are the bins of each mode,
 * which keeps its number. If several bins share the lowest count it can make a difference: the ring 1, 9, 0, 0, 9 at
 * closeness 0, opened at bin 2, has the list 0, 2. Turned by two bins it becomes another: the ring 0, 9, 1, 9, 0 at
 * closeness 0, opened at bin 0, has the list 0, 2 too, instead of 2, 4. */

struct kistrovu_modes_answer { /* 8 bytes */
    uint32_t number;
    uint32_t separators;
};

struct kistrovu_modes_answer kistrovu_line_modes(const uint32_t *histogram, size_t bins, int32_t closeness,
                                                 uint32_t *separators, size_t places);
struct kistrovu_modes_answer kistrovu_ring_modes(const uint32_t *histogram, size_t bins, int32_t closeness,
                                                 uint32_t *separators, size_t places);

/* ---- the log of a line's joins. Grounds 6, 7, 8, 10
 * A line begins as segments, a segment for each hump, and runs of neighbours are joined until no run can be: the
 * segments left are its modes. The log has a record of four numbers for each join, in the order in which the joins are
 * made. Segments are numbered from 0 as they stand just before the join, so after a join the segments behind it have
 * lower numbers.
 *
 * The records are in the first places of the log, and the answer says how many joins there are; every number behind them
 * stays as it was. A place of a log is four numbers, and the log needs as many places as the histogram has bins. Its length
 * counts numbers: 4 * bins or more. It may be lent as an array of records:
 *
 *     const uint32_t histogram[] = {0, 1, 0, 1, 0};
 *     struct kistrovu_join_record log[5];
 *     struct kistrovu_log_answer answer =
 *         kistrovu_join_log(histogram, 5, 0, (int64_t *)log, KISTROVU_RECORD_NUMBERS * 5);
 *     for (uint32_t i = 0; i < answer.joins; i++)
 *         printf("%d segments from number %d on, by the %s\n", (int)log[i].length, (int)log[i].first,
 *                log[i].rise ? "rise" : "fall");
 *
 * prints `2 segments from number 0 on, by the fall`. */

#define KISTROVU_RECORD_NUMBERS 4

struct kistrovu_join_record {
    int64_t first;  /* the number of the first segment that is joined */
    int64_t length; /* how many segments are joined, 2 or more */
    int64_t rise;   /* 0 if they are joined by the fall, 1 if by the rise */
    int64_t cost;   /* in the units of a verdict's cost; below 0 */
};

struct kistrovu_log_answer { /* 8 bytes */
    uint32_t number;
    uint32_t joins;
};

struct kistrovu_log_answer kistrovu_join_log(const uint32_t *histogram, size_t bins, int32_t closeness, int64_t *log,
                                             size_t numbers);

/* ---- the modes of a line, by a log of its joins. Grounds 6, 7, 8, 10, 20
 * The log may come from anywhere and hold anything; it is only read. It is followed record by record: each must be that of
 * the join that comes next, which is then made, and when no join comes next the log must be at its end. So the call is served
 * for one log alone, the one that kistrovu_join_log writes for this histogram at this closeness, and then lists the
 * separators as kistrovu_line_modes does. Any other log gets 20: one with a record or a number more or less, with another
 * cost, or with a number that is neither 0 nor 1 where it says rise or fall. The length of the log counts numbers, 4 for each
 * join. It may be 0: a line whose segments are all modes has an empty log. */

struct kistrovu_modes_answer kistrovu_replay(const uint32_t *histogram, size_t bins, int32_t closeness, const int64_t *log,
                                             size_t numbers, uint32_t *separators, size_t places);

/* ---- the card of an image. Grounds 4, 5, 8, 9, 11
 * An image has three bytes for each pixel: R, G, B. A pixel's label is a number of 16 bits, that of its entry, counted from
 * 0; there are as many labels as pixels. The first len places of entries hold the card: greys by mode, then colours by hue,
 * saturation and intensity mode. The rest are zero.
 *
 * Up to version 5 a label was one byte, so a buffer for labels of that time has half the room that is needed now: change it
 * first. If it is passed as it was, a compiler may do no more than warn of its type, and a call that is served writes past
 * its end; with -Werror=incompatible-pointer-types it does not compile. places counts labels, not bytes: `sizeof labels` is
 * twice as much, and a caller who passes that gets 9, and nothing is written.
 *
 * Labels are numbers in memory, and there is no format for files of them: whoever stores them chooses the order of a
 * label's two bytes. */

struct kistrovu_entry {
    uint8_t kind; /* 0 grey, 1 colour */
    uint8_t hue;  /* the numbers of its modes; hue and saturation are 0 for a grey */
    uint8_t saturation;
    uint8_t intensity;
    uint8_t red; /* the mean of its pixels, halves rounded up */
    uint8_t green;
    uint8_t blue;
    uint32_t count; /* how many pixels have its label; never 0 in the first len places */
};

struct kistrovu_card { /* 12,008 bytes */
    uint32_t number;
    uint32_t len;
    struct kistrovu_entry entries[KISTROVU_MOST_ENTRIES];
};

struct kistrovu_card kistrovu_card(const uint8_t *pixels, size_t bytes, int32_t closeness, uint16_t *labels, size_t places);

/* ---- labels of one byte, widened. Ground 9
 * Up to version 5 a label was one byte, and lists of such labels may have been stored. This call reads such a list into
 * labels of 16 bits: each number unchanged, in the same place. It hands back its number alone: 0, or 9 if the two lists are
 * not of one length, and then the new list is left as it was. Nothing else is asked of them: any byte is a label, and the
 * lists may have any length, 0 as well. count and places both count labels. For example
 *
 *     const uint8_t narrow[] = {0, 1, 1, 254};
 *     uint16_t labels[4];
 *     uint32_t number = kistrovu_widen_labels(narrow, 4, labels, 4);
 *     if (number != KISTROVU_SERVED)
 *         return (int)number;
 *     for (int i = 0; i < 4; i++)
 *         printf("%u%c", (unsigned)labels[i], i < 3 ? ' ' : '\n');
 *
 * prints `0 1 1 254`. */

uint32_t kistrovu_widen_labels(const uint8_t *narrow, size_t count, uint16_t *labels, size_t places);

/* ---- the card of a swatch, both as text, at closeness 0. Grounds 1, 2, 3, 11
 * docs/FORMAT.md describes both texts. The first len places of bytes hold the text of the card; the rest are zero, but a
 * full card leaves no such place, so use len. A text may be cut off after KISTROVU_MOST_TEXT + 1 bytes: the answer is the
 * same. */

struct kistrovu_printed { /* 49,028 bytes */
    uint32_t number;
    uint32_t len;
    uint8_t bytes[KISTROVU_MOST_PRINTED];
};

struct kistrovu_printed kistrovu_print_card(const uint8_t *text, size_t bytes);

/* ---- the line that the card program prints for a swatch that is turned down: the ground's number in 6 columns and a line
 * feed, 7 bytes. No ground concerns it: any number has a line; one of more than six digits has the line of its last six. */

struct kistrovu_printed kistrovu_print_ground(uint32_t number);

#ifdef __cplusplus
}
#endif

#endif
