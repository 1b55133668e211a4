/*
 * Tries the conformance kit on the engine, through the C header alone. The folder of the kit is the one argument:
 *
 *     vectors tests/vectors
 *
 * Each file prints a line with the number of its cases, and each case that does not hold prints what differs first. The
 * last line counts files; the exit code is 1 if one failed, 2 if the kit cannot be read. The format is described in
 * tests/vectors/README.md. What is lent for reading is allocated to the byte, so that an address sanitizer may watch
 * it; what is lent for writing stands between guards.
 */
#include "kistrovu.h"

#include <inttypes.h>
#include <stdarg.h>
#include <stdio.h>
#include <stdlib.h>
#include <string.h>

enum { FORMAT = 2, MOST_FIELDS = 8, MOST_NAME = 16, MOST_PATH = 4096, ENTRY = 8, MEASURED = 8, GUARD = 64, GUARD_BYTE = 0xa5 };

/* A name with all its values. Texts are lists of bytes. */
struct field {
    char name[MOST_NAME];
    int64_t *values;
    size_t count;
    size_t room;
};

struct record {
    unsigned long line; /* where it begins */
    size_t fields;
    struct field field[MOST_FIELDS];
};

struct reader {
    const char *folder;
    const char *name; /* of the file, and of the call behind kistrovu_ */
    char *text;
    char *next;
    unsigned long line;
    struct record record;
};

struct lent {
    unsigned char *block;
    size_t bytes;
};

_Noreturn static void stop(const struct reader *reader, const char *format, ...)
{
    va_list rest;
    va_start(rest, format);
    fprintf(stderr, "%s.txt, line %lu: ", reader->name, reader->line);
    vfprintf(stderr, format, rest);
    fputc('\n', stderr);
    va_end(rest);
    exit(2);
}

/* The block with room for this many bytes, a new one for null. Never null, not even for no bytes. */
static void *resized(void *block, size_t bytes)
{
    void *found = realloc(block, bytes > 0 ? bytes : 1);
    if (found == NULL) {
        fputs("no memory\n", stderr);
        exit(2);
    }
    return found;
}

static void *allocate(size_t bytes)
{
    return resized(NULL, bytes);
}

/* ---- files */

/* The bytes of a file, with a zero behind them that is not counted. */
static char *file_bytes(const struct reader *reader, const char *name, size_t *len)
{
    char path[MOST_PATH];
    int written = snprintf(path, sizeof path, "%s/%s", reader->folder, name);
    FILE *file = written < (int)sizeof path ? fopen(path, "rb") : NULL;
    if (file == NULL) {
        stop(reader, "%s cannot be opened", name);
    }
    size_t room = 1 << 16;
    char *bytes = allocate(room);
    *len = 0;
    size_t got;
    while ((got = fread(bytes + *len, 1, room - 1 - *len, file)) > 0) {
        *len += got;
        if (*len == room - 1) {
            room *= 2;
            bytes = resized(bytes, room);
        }
    }
    if (ferror(file)) {
        stop(reader, "%s cannot be read", name);
    }
    fclose(file);
    bytes[*len] = 0;
    return bytes;
}

/* ---- values */

static void add_value(struct field *field, int64_t value)
{
    if (field->count == field->room) {
        field->room = field->room > 0 ? 2 * field->room : 64;
        field->values = resized(field->values, field->room * sizeof *field->values);
    }
    field->values[field->count++] = value;
}

/* The values from a place on, so often in all. */
static void repeat(struct field *field, size_t from, int64_t times)
{
    size_t len = field->count - from;
    if (times == 0) {
        field->count = from;
    }
    for (int64_t time = 1; time < times; time++) {
        for (size_t place = 0; place < len; place++) {
            add_value(field, field->values[from + place]);
        }
    }
}

static int64_t number(const struct reader *reader, char **at)
{
    const char *digits = **at == '-' ? *at + 1 : *at;
    if (*digits < '0' || *digits > '9') {
        stop(reader, "no number: %s", *at);
    }
    return strtoll(*at, at, 10);
}

/* '*N' says how often the word comes that began at a place. */
static void end_word(const struct reader *reader, struct field *field, size_t from, char **at)
{
    if (**at == '*') {
        (*at)++;
        repeat(field, from, number(reader, at));
    }
}

static int64_t escape(const struct reader *reader, char **at)
{
    char kind = *(*at)++;
    if (kind == 'n') {
        return '\n';
    }
    if (kind == '\\' || kind == '"') {
        return kind;
    }
    unsigned byte;
    if (kind != 'x' || sscanf(*at, "%2x", &byte) != 1) {
        stop(reader, "an escape that is not known");
    }
    *at += 2;
    return byte;
}

/* A quoted string, behind its first quote. */
static void add_string(const struct reader *reader, struct field *field, char *at)
{
    size_t from = field->count;
    while (*at != '"') {
        if (*at == 0) {
            stop(reader, "no closing quote");
        }
        char byte = *at++;
        add_value(field, byte == '\\' ? escape(reader, &at) : byte);
    }
    at++;
    end_word(reader, field, from, &at);
    if (*at != 0) {
        stop(reader, "left over: %s", at);
    }
}

static void add_numbers(const struct reader *reader, struct field *field, char *at)
{
    size_t from = field->count;
    add_value(field, number(reader, &at));
    while (*at != 0) {
        end_word(reader, field, from, &at);
        if (*at == 0) {
            return;
        }
        if (*at != ' ' && *at != ',') {
            stop(reader, "left over: %s", at);
        }
        if (*at == ' ') {
            from = field->count;
        }
        at++;
        add_value(field, number(reader, &at));
    }
}

/* ---- records */

/* The field of a name, a new one if the name has not been seen yet. */
static struct field *field_to_fill(struct reader *reader, const char *name)
{
    struct record *record = &reader->record;
    for (size_t place = 0; place < record->fields; place++) {
        if (strcmp(record->field[place].name, name) == 0) {
            return &record->field[place];
        }
    }
    if (record->fields == MOST_FIELDS || strlen(name) >= MOST_NAME) {
        stop(reader, "%s is not known", name);
    }
    struct field *field = &record->field[record->fields++];
    strcpy(field->name, name);
    field->count = 0;
    return field;
}

static void add_line(struct reader *reader, char *line)
{
    char *rest = strchr(line, ' ');
    if (rest != NULL) {
        *rest++ = 0;
    }
    struct field *field = field_to_fill(reader, line);
    if (rest != NULL && *rest == '"') {
        add_string(reader, field, rest + 1);
    } else if (rest != NULL) {
        add_numbers(reader, field, rest);
    }
}

/* The next line without its line feed; null at the end. */
static char *next_line(struct reader *reader)
{
    char *line = reader->next;
    if (*line == 0) {
        return NULL;
    }
    reader->line++;
    char *end = strchr(line, '\n');
    if (end == NULL) {
        stop(reader, "no line feed");
    }
    *end = 0;
    reader->next = end + 1;
    return line;
}

/* False at the end of the file. */
static bool next_record(struct reader *reader)
{
    reader->record.fields = 0;
    char *line;
    while ((line = next_line(reader)) != NULL) {
        if (*line == 0 && reader->record.fields > 0) {
            return true;
        }
        if (*line != 0 && *line != '#') {
            if (reader->record.fields == 0) {
                reader->record.line = reader->line;
            }
            add_line(reader, line);
        }
    }
    return reader->record.fields > 0;
}

static bool has(const struct reader *reader, size_t place, const char *name)
{
    return place < reader->record.fields && strcmp(reader->record.field[place].name, name) == 0;
}

/* A record's fields come in one order. */
static const struct field *field_at(const struct reader *reader, size_t place, const char *name)
{
    if (!has(reader, place, name)) {
        stop(reader, "%s is missing in the record that ends here", name);
    }
    return &reader->record.field[place];
}

static int64_t value_at(const struct reader *reader, size_t place, const char *name)
{
    const struct field *field = field_at(reader, place, name);
    if (field->count != 1) {
        stop(reader, "%s should have one value", name);
    }
    return field->values[0];
}

/* ---- comparing */

static bool same(const struct reader *reader, const char *name, size_t place, int64_t kept, int64_t found)
{
    if (kept != found) {
        printf("%s.txt, line %lu: %s, place %zu: %" PRId64 " is kept, %" PRId64 " was found\n", reader->name,
               reader->record.line, name, place, kept, found);
    }
    return kept == found;
}

static bool same_value(const struct reader *reader, size_t place, const char *name, int64_t found)
{
    return same(reader, name, 0, value_at(reader, place, name), found);
}

/* A list that must have this many values. */
static const struct field *list_of(const struct reader *reader, size_t place, const char *name, size_t count)
{
    const struct field *field = field_at(reader, place, name);
    if (field->count != count) {
        stop(reader, "%s should have %zu values", name, count);
    }
    return field;
}

/* Places past the kept values have to be zero. */
static int64_t kept_or_zero(const struct field *field, size_t place)
{
    return place < field->count ? field->values[place] : 0;
}

static bool same_words(const struct reader *reader, const struct field *kept, const uint32_t *found, size_t places)
{
    for (size_t place = 0; place < places; place++) {
        if (!same(reader, kept->name, place, kept_or_zero(kept, place), found[place])) {
            return false;
        }
    }
    return true;
}

static bool same_bytes(const struct reader *reader, const struct field *kept, const uint8_t *found, size_t places)
{
    for (size_t place = 0; place < places; place++) {
        if (!same(reader, kept->name, place, kept_or_zero(kept, place), found[place])) {
            return false;
        }
    }
    return true;
}

static bool same_labels(const struct reader *reader, const struct field *kept, const uint16_t *found, size_t places)
{
    for (size_t place = 0; place < places; place++) {
        if (!same(reader, kept->name, place, kept_or_zero(kept, place), found[place])) {
            return false;
        }
    }
    return true;
}

static bool same_numbers(const struct reader *reader, const struct field *kept, const int64_t *found, size_t places)
{
    for (size_t place = 0; place < places; place++) {
        if (!same(reader, kept->name, place, kept_or_zero(kept, place), found[place])) {
            return false;
        }
    }
    return true;
}

/* ---- lending */

static uint32_t *words_of(const struct field *field, uint32_t *words)
{
    for (size_t place = 0; place < field->count; place++) {
        words[place] = (uint32_t)field->values[place];
    }
    return words;
}

static uint8_t *bytes_of(const struct field *field, uint8_t *bytes)
{
    for (size_t place = 0; place < field->count; place++) {
        bytes[place] = (uint8_t)field->values[place];
    }
    return bytes;
}

static uint16_t *labels_of(const struct field *field, uint16_t *labels)
{
    for (size_t place = 0; place < field->count; place++) {
        labels[place] = (uint16_t)field->values[place];
    }
    return labels;
}

static int64_t *numbers_of(const struct field *field, int64_t *numbers)
{
    for (size_t place = 0; place < field->count; place++) {
        numbers[place] = field->values[place];
    }
    return numbers;
}

/* Room for writing between two guards. */
static void *lend(struct lent *lent, size_t bytes)
{
    lent->bytes = bytes;
    lent->block = allocate(bytes + 2 * GUARD);
    memset(lent->block, GUARD_BYTE, bytes + 2 * GUARD);
    return lent->block + GUARD;
}

static bool take_back(const struct reader *reader, struct lent *lent)
{
    size_t broken = 0;
    for (size_t place = 0; place < GUARD; place++) {
        broken += lent->block[place] != GUARD_BYTE;
        broken += lent->block[GUARD + lent->bytes + place] != GUARD_BYTE;
    }
    free(lent->block);
    return same(reader, "bytes written around the buffer", 0, 0, (int64_t)broken);
}

/* ---- the calls: each returns whether the record holds, and adds its cases */

/* A record has a case in each line. */
static bool measures_hold(const struct reader *reader, size_t *cases)
{
    const struct field *pixel = field_at(reader, 0, "pixel");
    bool hold = true;
    for (size_t at = 0; at + MEASURED <= pixel->count; at += MEASURED) {
        const int64_t *kept = pixel->values + at;
        struct kistrovu_measures_answer found =
            kistrovu_measures((uint8_t)kept[0], (uint8_t)kept[1], (uint8_t)kept[2]);
        hold &= same(reader, "number", at, kept[3], found.number);
        hold &= same(reader, "intensity", at, kept[4], found.measures.intensity);
        hold &= same(reader, "saturation", at, kept[5], found.measures.saturation);
        hold &= same(reader, "hue", at, kept[6], found.measures.hue);
        hold &= same(reader, "grey", at, kept[7], found.measures.grey);
        (*cases)++;
    }
    return hold;
}

static bool fit_holds(const struct reader *reader, size_t *cases)
{
    const struct field *histogram = field_at(reader, 0, "histogram");
    uint32_t *lent = words_of(histogram, allocate(histogram->count * sizeof *lent));
    bool rising = value_at(reader, 1, "rising") != 0;
    struct kistrovu_fit_answer found = kistrovu_fit(lent, histogram->count, rising);
    size_t bins = found.number == 0 ? histogram->count : 0;
    bool hold = same_value(reader, 2, "number", found.number)
        && same_words(reader, list_of(reader, 3, "sums", bins), found.sums, KISTROVU_MOST_BINS)
        && same_words(reader, list_of(reader, 4, "lengths", bins), found.lengths, KISTROVU_MOST_BINS)
        && same_words(reader, histogram, lent, histogram->count);
    free(lent);
    (*cases)++;
    return hold;
}

static bool verdict_holds(const struct reader *reader, size_t *cases)
{
    const struct field *histogram = field_at(reader, 0, "histogram");
    uint32_t *lent = words_of(histogram, allocate(histogram->count * sizeof *lent));
    bool rising = value_at(reader, 1, "rising") != 0;
    int32_t closeness = (int32_t)value_at(reader, 2, "closeness");
    struct kistrovu_verdict_answer found = kistrovu_verdict(lent, histogram->count, rising, closeness);
    bool hold = same_value(reader, 3, "number", found.number)
        && same_value(reader, 4, "cost", found.verdict.cost)
        && same_value(reader, 5, "rejected", found.verdict.rejected)
        && same_words(reader, histogram, lent, histogram->count);
    free(lent);
    (*cases)++;
    return hold;
}

typedef struct kistrovu_modes_answer modes_call(const uint32_t *, size_t, int32_t, uint32_t *, size_t);

/* Of a line or a ring: the list is compared as the call leaves it. */
static bool modes_hold(const struct reader *reader, modes_call *call, size_t *cases)
{
    const struct field *histogram = field_at(reader, 0, "histogram");
    int32_t closeness = (int32_t)value_at(reader, 1, "closeness");
    const struct field *list = field_at(reader, 2, "list");
    uint32_t *bins = words_of(histogram, allocate(histogram->count * sizeof *bins));
    struct lent lent;
    uint32_t *places = words_of(list, lend(&lent, list->count * sizeof *places));
    struct kistrovu_modes_answer found = call(bins, histogram->count, closeness, places, list->count);
    bool hold = same_value(reader, 3, "number", found.number)
        && same_value(reader, 4, "separators", found.separators)
        && same_words(reader, list_of(reader, 5, "list_after", list->count), places, list->count)
        && same_words(reader, histogram, bins, histogram->count);
    hold &= take_back(reader, &lent);
    free(bins);
    (*cases)++;
    return hold;
}

static bool line_modes_hold(const struct reader *reader, size_t *cases)
{
    return modes_hold(reader, kistrovu_line_modes, cases);
}

static bool ring_modes_hold(const struct reader *reader, size_t *cases)
{
    return modes_hold(reader, kistrovu_ring_modes, cases);
}

/* The log is compared as the call leaves it, to its last number. */
static bool join_log_holds(const struct reader *reader, size_t *cases)
{
    const struct field *histogram = field_at(reader, 0, "histogram");
    int32_t closeness = (int32_t)value_at(reader, 1, "closeness");
    const struct field *log = field_at(reader, 2, "log");
    uint32_t *bins = words_of(histogram, allocate(histogram->count * sizeof *bins));
    struct lent lent;
    int64_t *numbers = numbers_of(log, lend(&lent, log->count * sizeof *numbers));
    struct kistrovu_log_answer found = kistrovu_join_log(bins, histogram->count, closeness, numbers, log->count);
    bool hold = same_value(reader, 3, "number", found.number)
        && same_value(reader, 4, "joins", found.joins)
        && same_numbers(reader, list_of(reader, 5, "log_after", log->count), numbers, log->count)
        && same_words(reader, histogram, bins, histogram->count);
    hold &= take_back(reader, &lent);
    free(bins);
    (*cases)++;
    return hold;
}

/* The log is lent for reading, the list for writing. */
static bool replay_holds(const struct reader *reader, size_t *cases)
{
    const struct field *histogram = field_at(reader, 0, "histogram");
    int32_t closeness = (int32_t)value_at(reader, 1, "closeness");
    const struct field *log = field_at(reader, 2, "log");
    const struct field *list = field_at(reader, 3, "list");
    uint32_t *bins = words_of(histogram, allocate(histogram->count * sizeof *bins));
    int64_t *numbers = numbers_of(log, allocate(log->count * sizeof *numbers));
    struct lent lent;
    uint32_t *places = words_of(list, lend(&lent, list->count * sizeof *places));
    struct kistrovu_modes_answer found =
        kistrovu_replay(bins, histogram->count, closeness, numbers, log->count, places, list->count);
    bool hold = same_value(reader, 4, "number", found.number)
        && same_value(reader, 5, "separators", found.separators)
        && same_words(reader, list_of(reader, 6, "list_after", list->count), places, list->count)
        && same_numbers(reader, log, numbers, log->count)
        && same_words(reader, histogram, bins, histogram->count);
    hold &= take_back(reader, &lent);
    free(numbers);
    free(bins);
    (*cases)++;
    return hold;
}

static bool same_entries(const struct reader *reader, const struct field *kept, const struct kistrovu_card *found)
{
    for (size_t place = 0; place < ENTRY * KISTROVU_MOST_ENTRIES; place++) {
        const struct kistrovu_entry *entry = &found->entries[place / ENTRY];
        const int64_t figures[ENTRY] = {entry->kind, entry->hue, entry->saturation, entry->intensity,
                                        entry->red, entry->green, entry->blue, entry->count};
        if (!same(reader, kept->name, place, kept_or_zero(kept, place), figures[place % ENTRY])) {
            return false;
        }
    }
    return true;
}

static bool card_holds(const struct reader *reader, size_t *cases)
{
    const struct field *pixels = field_at(reader, 0, "pixels");
    int32_t closeness = (int32_t)value_at(reader, 1, "closeness");
    const struct field *labels = field_at(reader, 2, "labels");
    uint8_t *bytes = bytes_of(pixels, allocate(pixels->count));
    struct lent lent;
    uint16_t *places = labels_of(labels, lend(&lent, labels->count * sizeof *places));
    struct kistrovu_card found = kistrovu_card(bytes, pixels->count, closeness, places, labels->count);
    size_t figures = ENTRY * (size_t)found.len;
    bool hold = same_value(reader, 3, "number", found.number)
        && same_value(reader, 4, "len", found.len)
        && same_entries(reader, list_of(reader, 5, "entry", figures), &found)
        && same_labels(reader, list_of(reader, 6, "labels_after", labels->count), places, labels->count)
        && same_bytes(reader, pixels, bytes, pixels->count);
    hold &= take_back(reader, &lent);
    free(bytes);
    (*cases)++;
    return hold;
}

/* The labels of one byte are lent for reading, the others for writing. */
static bool widen_labels_holds(const struct reader *reader, size_t *cases)
{
    const struct field *narrow = field_at(reader, 0, "narrow");
    const struct field *labels = field_at(reader, 1, "labels");
    uint8_t *bytes = bytes_of(narrow, allocate(narrow->count));
    struct lent lent;
    uint16_t *places = labels_of(labels, lend(&lent, labels->count * sizeof *places));
    uint32_t found = kistrovu_widen_labels(bytes, narrow->count, places, labels->count);
    bool hold = same_value(reader, 2, "number", found)
        && same_labels(reader, list_of(reader, 3, "labels_after", labels->count), places, labels->count)
        && same_bytes(reader, narrow, bytes, narrow->count);
    hold &= take_back(reader, &lent);
    free(bytes);
    (*cases)++;
    return hold;
}

/* The bytes of the file that a field names, as the values of another one. */
static void load(const struct reader *reader, const struct field *named, struct field *loaded)
{
    char name[MOST_PATH] = {0};
    if (named->count >= sizeof name) {
        stop(reader, "%s is too long", named->name);
    }
    bytes_of(named, (uint8_t *)name);
    size_t len;
    char *bytes = file_bytes(reader, name, &len);
    *loaded = (struct field){.name = "loaded"};
    for (size_t place = 0; place < len; place++) {
        add_value(loaded, (uint8_t)bytes[place]);
    }
    free(bytes);
}

/* A text of the record, or the one in the file that it names, which is then loaded. */
static const struct field *text_at(const struct reader *reader, size_t place, const char *inside, const char *in_file,
                                   struct field *loaded)
{
    if (!has(reader, place, in_file)) {
        return field_at(reader, place, inside);
    }
    load(reader, field_at(reader, place, in_file), loaded);
    return loaded;
}

/* The three figures behind what was given. */
static bool same_printed(const struct reader *reader, const struct kistrovu_printed *found)
{
    struct field loaded = {.count = 0};
    const struct field *kept = text_at(reader, 3, "printed", "printed_file", &loaded);
    bool hold = same_value(reader, 1, "number", found->number)
        && same_value(reader, 2, "len", found->len)
        && same(reader, "bytes printed", 0, (int64_t)kept->count, found->len)
        && same_bytes(reader, kept, found->bytes, KISTROVU_MOST_PRINTED);
    free(loaded.values);
    return hold;
}

static bool print_card_holds(const struct reader *reader, size_t *cases)
{
    struct field loaded = {.count = 0};
    const struct field *given = text_at(reader, 0, "text", "text_file", &loaded);
    uint8_t *lent = bytes_of(given, allocate(given->count));
    struct kistrovu_printed found = kistrovu_print_card(lent, given->count);
    bool hold = same_printed(reader, &found) && same_bytes(reader, given, lent, given->count);
    free(lent);
    free(loaded.values);
    (*cases)++;
    return hold;
}

static bool print_ground_holds(const struct reader *reader, size_t *cases)
{
    struct kistrovu_printed found = kistrovu_print_ground((uint32_t)value_at(reader, 0, "ground"));
    (*cases)++;
    return same_printed(reader, &found);
}

/* ---- the files */

typedef bool holds(const struct reader *, size_t *);

static const struct {
    const char *name;
    holds *holds;
    size_t fields;
} files[] = {
    {"measures", measures_hold, 1},
    {"fit", fit_holds, 5},
    {"verdict", verdict_holds, 6},
    {"line_modes", line_modes_hold, 6},
    {"ring_modes", ring_modes_hold, 6},
    {"join_log", join_log_holds, 6},
    {"replay", replay_holds, 7},
    {"card", card_holds, 7},
    {"widen_labels", widen_labels_holds, 4},
    {"print_card", print_card_holds, 4},
    {"print_ground", print_ground_holds, 4},
};

/* How many cases the header announces. */
static size_t announced(struct reader *reader)
{
    if (!next_record(reader) || value_at(reader, 0, "format") != FORMAT) {
        stop(reader, "not format %d", FORMAT);
    }
    char call[MOST_PATH];
    int len = snprintf(call, sizeof call, "kistrovu_%s", reader->name);
    const struct field *named = list_of(reader, 1, "call", (size_t)len);
    for (size_t place = 0; place < named->count; place++) {
        if (named->values[place] != call[place]) {
            stop(reader, "another call than %s", call);
        }
    }
    return (size_t)value_at(reader, 2, "cases");
}

static void free_values(struct reader *reader)
{
    for (size_t place = 0; place < MOST_FIELDS; place++) {
        free(reader->record.field[place].values);
    }
    free(reader->text);
}

static bool file_holds(const char *folder, size_t index)
{
    struct reader reader = {.folder = folder, .name = files[index].name};
    char name[MOST_PATH];
    snprintf(name, sizeof name, "%s.txt", reader.name);
    size_t len, cases = 0, wrong = 0;
    reader.text = file_bytes(&reader, name, &len);
    reader.next = reader.text;
    size_t wanted = announced(&reader);
    while (next_record(&reader)) {
        if (reader.record.fields != files[index].fields) {
            stop(&reader, "the record that ends here has %zu names", reader.record.fields);
        }
        wrong += !files[index].holds(&reader, &cases);
    }
    bool hold = same(&reader, "cases", 0, (int64_t)wanted, (int64_t)cases) && cases > 0 && wrong == 0;
    printf("%s: %zu cases%s\n", name, cases, hold ? "" : ", FAILED");
    free_values(&reader);
    return hold;
}

int main(int count, char **words)
{
    if (count != 2) {
        fputs("usage: vectors FOLDER\n", stderr);
        return 2;
    }
    size_t all = sizeof files / sizeof files[0], passed = 0;
    for (size_t index = 0; index < all; index++) {
        passed += file_holds(words[1], index);
    }
    printf("%zu passed, %zu failed\n", passed, all - passed);
    return passed < all;
}
