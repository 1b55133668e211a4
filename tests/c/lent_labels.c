/*
 * Lends the card call and the widening of labels lists that end where nothing may be touched; what they are to read may only
 * be read. Says which checks fail, and then has exit status 1.
 *
 *     lent_labels FOLDER    the stored swatches, of which those named by their entries are read
 */
#define _DEFAULT_SOURCE
#include "guarded.h"

/* The most labels that the pages have room for: more than an image can have. */
#define MOST_LABELS (ROOM / sizeof(uint16_t))
/* The most entries that a card had when its labels were one byte each. */
#define MOST_NARROW 255

static uint8_t *pixels_end, *narrow_end, *labels_end;

/* So many labels, unused, that end where their pages do. */
static uint16_t *fresh_labels(size_t places)
{
    refresh(labels_end);
    return (uint16_t *)(void *)labels_end - places;
}

/* Whether all is as it was lent but the last so many labels. */
static bool untouched_before(size_t places)
{
    return untouched(labels_end - ROOM, ROOM - places * sizeof(uint16_t));
}

/* The pixels of a stored swatch, which then may only be read; how many there are. */
static size_t read_pixels(const char *folder, size_t entries)
{
    char name[4096];
    unsigned width = 0, height = 0, level = 0;
    snprintf(name, sizeof name, "%s/%zu-entries.txt", folder, entries);
    FILE *file = fopen(name, "r");
    if (file == NULL || fscanf(file, "%u %u", &width, &height) != 2) {
        perror(name);
        exit(2);
    }
    size_t bytes = 3 * (size_t)width * height;
    refresh(pixels_end);
    for (size_t i = 0; i < bytes && fscanf(file, "%u", &level) == 1; i++)
        *(pixels_end - bytes + i) = (uint8_t)level;
    fclose(file);
    forbid_writing(pixels_end);
    return bytes / 3;
}

static struct kistrovu_card make_card(size_t count, uint16_t *labels, size_t places)
{
    return kistrovu_card(pixels_end - 3 * count, 3 * count, 0, labels, places);
}

/* Every other number of places gets 9; twice the number of pixels is what `sizeof labels` gives. */
static void refuse_places(size_t count)
{
    const size_t others[] = {0, 1, count / 2, count - 1, count + 1, sizeof(uint16_t) * count};
    for (size_t i = 0; i < sizeof others / sizeof *others; i++) {
        struct kistrovu_card card = make_card(count, fresh_labels(others[i]), others[i]);
        check(card.number == KISTROVU_LABELS && card.len == 0, "labels that are not as many as the pixels get 9");
        check(untouched_before(0), "labels that are not as many as the pixels are left as they were");
    }
}

static size_t pixels_of(const struct kistrovu_card *card)
{
    size_t pixels = 0;
    for (uint32_t i = 0; i < card->len; i++)
        pixels += card->entries[i].count;
    return pixels;
}

/* Takes each label off the count of its entry. */
static void check_labels(struct kistrovu_card *card, const uint16_t *labels, size_t count)
{
    bool right = true;
    check(pixels_of(card) == count, "the counts of the entries add up to the pixels");
    for (size_t i = 0; i < count && right; i++) {
        right = labels[i] < card->len && card->entries[labels[i]].count > 0;
        if (right)
            card->entries[labels[i]].count--;
    }
    check(right, "no more pixels bear an entry's number than it counts");
}

/* Widens what stands in the pages of narrow labels, which may then only be read. */
static uint16_t *widen(size_t count)
{
    const uint8_t *narrow = narrow_end - count;
    uint16_t *labels = fresh_labels(count);
    bool same = true;
    forbid_writing(narrow_end);
    check(kistrovu_widen_labels(narrow, count, labels, count) == KISTROVU_SERVED, "lists of one length are served");
    check(untouched_before(count), "the widening writes the labels alone");
    for (size_t i = 0; i < count; i++)
        same = same && labels[i] == narrow[i];
    check(same, "each number is unchanged");
    return labels;
}

/* The labels of a card of few entries, stored as one byte each: widened, they are the same again. */
static void widen_stored(const uint16_t *labels, size_t count)
{
    static uint16_t kept[MOST_LABELS];
    memcpy(kept, labels, count * sizeof *labels);
    refresh(narrow_end);
    for (size_t i = 0; i < count; i++)
        *(narrow_end - count + i) = (uint8_t)kept[i];
    check(memcmp(widen(count), kept, count * sizeof *kept) == 0, "labels of few entries, stored and widened, are the same");
}

static void try_card(const char *folder, size_t entries)
{
    char name[32];
    snprintf(name, sizeof name, "%zu entries", entries);
    tried = name;
    size_t count = read_pixels(folder, entries);
    refuse_places(count);
    uint16_t *labels = fresh_labels(count);
    struct kistrovu_card card = make_card(count, labels, count);
    if (entries > KISTROVU_MOST_ENTRIES) {
        check(card.number == KISTROVU_ENTRIES && card.len == 0, "more entries than a card may have get 11");
        check(untouched_before(0), "labels are left as they were by a call turned down");
        return;
    }
    check(card.number == KISTROVU_SERVED && card.len == entries, "the number of entries");
    check(untouched_before(count), "the card writes the labels alone");
    check_labels(&card, labels, count);
    if (entries <= MOST_NARROW)
        widen_stored(labels, count);
}

/* A list of this length, with every byte in it if it is long enough, and new lists of other lengths for it. */
static void try_widening(size_t count)
{
    const size_t others[] = {0, 1, count / 2, count - 1, count + 1, sizeof(uint16_t) * count};
    char name[32];
    snprintf(name, sizeof name, "%zu labels", count);
    tried = name;
    refresh(narrow_end);
    for (size_t i = 0; i < count; i++)
        *(narrow_end - 1 - i) = (uint8_t)(i + i / 256);
    widen(count);
    for (size_t i = 0; i < sizeof others / sizeof *others; i++) {
        if (others[i] == count || others[i] > MOST_LABELS)
            continue;
        uint32_t number = kistrovu_widen_labels(narrow_end - count, count, fresh_labels(others[i]), others[i]);
        check(number == KISTROVU_LABELS, "lists of two lengths get 9");
        check(untouched_before(0), "a list of another length is left as it was");
    }
}

int main(int count, char **arguments)
{
    const size_t entries[] = {254, 255, 256, 257, 999, 1000, 1001};
    const size_t lengths[] = {0, 1, 2, 3, 15, 16, 17, 255, 256, 257, KISTROVU_MOST_PIXELS, KISTROVU_MOST_PIXELS + 1, MOST_LABELS};
    if (count != 2) {
        fputs("usage: lent_labels FOLDER\n", stderr);
        return 2;
    }
    pixels_end = guarded_end();
    narrow_end = guarded_end();
    labels_end = guarded_end();
    for (size_t i = 0; i < sizeof entries / sizeof *entries; i++)
        try_card(arguments[1], entries[i]);
    for (size_t i = 0; i < sizeof lengths / sizeof *lengths; i++)
        try_widening(lengths[i]);
    return failures != 0;
}
