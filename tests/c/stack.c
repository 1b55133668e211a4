/*
 * Prints how many bytes of stack the calls take, a name and a number to a line: `card`, `text`, and `other` for the largest of the
 * rest. Each call is made in a thread whose stack has been filled with one byte. What a thread that calls nothing has overwritten
 * is taken off, and so is the answer, which is the caller's and stands on the caller's stack here.
 *
 *     stack SWATCH    a swatch with several modes at each level, so that every kind of test is made
 */
#define _POSIX_C_SOURCE 200809L
#include <kistrovu.h>
#include <pthread.h>
#include <stdio.h>
#include <stdlib.h>
#include <string.h>

#define ROOM (1024 * 1024)
#define FILLED 0xA5

static _Alignas(4096) uint8_t stack[ROOM];
static uint8_t text[KISTROVU_MOST_TEXT + 1];
static size_t text_length;
static uint8_t pixels[3 * KISTROVU_MOST_PIXELS];
static uint8_t narrow[KISTROVU_MOST_PIXELS];
static uint16_t labels[KISTROVU_MOST_PIXELS];
static uint32_t bins[KISTROVU_MOST_BINS];
static uint32_t separators[KISTROVU_MOST_BINS];
static struct kistrovu_join_record joins[KISTROVU_MOST_BINS];
static size_t numbers;

/* A call that is turned down may not come to its deepest place. */
static void expect_served(uint32_t number) {
    if (number != KISTROVU_SERVED) {
        fprintf(stderr, "a call is turned down, number %u\n", (unsigned)number);
        exit(2);
    }
}

static void *nothing(void *argument) { return argument; }

static void *make_card(void *argument) {
    struct kistrovu_card card = kistrovu_card(pixels, sizeof pixels, 0, labels, KISTROVU_MOST_PIXELS);
    expect_served(card.number);
    return argument;
}

static void *widen_labels(void *argument) {
    expect_served(kistrovu_widen_labels(narrow, KISTROVU_MOST_PIXELS, labels, KISTROVU_MOST_PIXELS));
    return argument;
}

static void *print_card(void *argument) {
    struct kistrovu_printed printed = kistrovu_print_card(text, text_length);
    expect_served(printed.number);
    return argument;
}

static void *find_modes(void *argument) {
    expect_served(kistrovu_verdict(bins, KISTROVU_MOST_BINS, true, 0).number);
    expect_served(kistrovu_line_modes(bins, KISTROVU_MOST_BINS, 0, separators, KISTROVU_MOST_BINS).number);
    expect_served(kistrovu_ring_modes(bins, KISTROVU_MOST_BINS, 0, separators, KISTROVU_MOST_BINS).number);
    return argument;
}

/* The log, and then its replay, for which there must be joins. */
static void *write_log(void *argument) {
    struct kistrovu_log_answer answer =
        kistrovu_join_log(bins, KISTROVU_MOST_BINS, 0, (int64_t *)joins, KISTROVU_RECORD_NUMBERS * KISTROVU_MOST_BINS);
    expect_served(answer.number);
    numbers = KISTROVU_RECORD_NUMBERS * answer.joins;
    if (numbers == 0) {
        fputs("there are no joins\n", stderr);
        exit(2);
    }
    return argument;
}

static void *follow_log(void *argument) {
    struct kistrovu_modes_answer answer =
        kistrovu_replay(bins, KISTROVU_MOST_BINS, 0, (const int64_t *)joins, numbers, separators, KISTROVU_MOST_BINS);
    expect_served(answer.number);
    return argument;
}

static void *make_fit(void *argument) {
    struct kistrovu_fit_answer fit = kistrovu_fit(bins, KISTROVU_MOST_BINS, true);
    expect_served(fit.number);
    return argument;
}

static void *print_ground(void *argument) {
    struct kistrovu_printed printed = kistrovu_print_ground(KISTROVU_ENTRIES);
    expect_served(printed.number);
    return argument;
}

/* How many bytes from the top of the stack down were overwritten. */
static size_t used(void *(*call)(void *)) {
    pthread_attr_t attributes;
    pthread_t thread;
    size_t untouched = 0;
    memset(stack, FILLED, sizeof stack);
    if (pthread_attr_init(&attributes) != 0 || pthread_attr_setstack(&attributes, stack, sizeof stack) != 0
        || pthread_create(&thread, &attributes, call, NULL) != 0 || pthread_join(thread, NULL) != 0) {
        fputs("no thread could be run\n", stderr);
        exit(2);
    }
    while (untouched < sizeof stack && stack[untouched] == FILLED) {
        untouched++;
    }
    return sizeof stack - untouched;
}

static void fill(const char *name) {
    FILE *file = fopen(name, "rb");
    uint32_t random = 1;
    if (file == NULL) {
        perror(name);
        exit(2);
    }
    text_length = fread(text, 1, sizeof text, file);
    fclose(file);
    for (size_t i = 0; i < sizeof pixels; i++) {
        random = random * 1664525 + 1013904223;
        pixels[i] = random >> 24;
    }
    for (size_t i = 0; i < KISTROVU_MOST_BINS; i++) {
        bins[i] = i % 2;
    }
}

/* The stack of a call itself, beyond its caller's and beyond its answer of so many bytes. */
static size_t taken(void *(*call)(void *), size_t answer) {
    size_t all = used(call);
    size_t callers = used(nothing) + answer;
    return all < callers ? 0 : all - callers;
}

static size_t larger(size_t a, size_t b) { return a < b ? b : a; }

int main(int count, char **arguments) {
    size_t other;
    if (count != 2) {
        fputs("usage: stack SWATCH\n", stderr);
        return 2;
    }
    fill(arguments[1]);
    printf("card %zu\n", taken(make_card, sizeof(struct kistrovu_card)));
    printf("text %zu\n", taken(print_card, sizeof(struct kistrovu_printed)));
    other = taken(find_modes, 0);
    other = larger(other, taken(widen_labels, 0));
    other = larger(other, taken(write_log, 0));
    other = larger(other, taken(follow_log, 0));
    other = larger(other, taken(make_fit, sizeof(struct kistrovu_fit_answer)));
    other = larger(other, taken(print_ground, sizeof(struct kistrovu_printed)));
    printf("other %zu\n", other);
    return 0;
}
