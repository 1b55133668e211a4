/*
 * How a controller uses Kistrovu: reads the text of a swatch, writes its card, and with -l the label of each pixel too.
 *
 *     cc -std=c11 controller.c $(pkg-config --cflags --libs kistrovu) -o controller
 *     ./controller [-l] [FILE]                          without a FILE it reads standard input
 *
 * Without -l it writes what the program card writes. The exit status is the answer's number: 0 if the swatch is served,
 * else the ground on which it is turned down; then a sentence goes to standard error.
 */
#include <kistrovu.h>

#include <errno.h>
#include <stdio.h>
#include <string.h>

/* Exit statuses that are not grounds. */
enum { WRONG_USE = 64, WRONG_LIBRARY = 70, NOT_READ_OR_WRITTEN = 74 };

/* The columns of a swatch. A line has 12 columns and a line feed: two fields in the header, three for a pixel. */
enum { LINE = 13, HEADER_FIELD = 6, PIXEL_FIELD = 4 };

/* One byte more than the longest swatch, 13 * (1 + 16,384) + 1 = 213,006. A text that fills it is too long, and the call
 * says so from these bytes alone. */
#define TEXT_BYTES (KISTROVU_MOST_TEXT + 1)

/* The buffers have a fixed size and are not on the stack, of which a call takes up to 385 KB. */
static uint8_t text[TEXT_BYTES];
static uint8_t pixels[3 * KISTROVU_MOST_SWATCH_PIXELS];
static uint16_t labels[KISTROVU_MOST_SWATCH_PIXELS];

/* What to tell an operator. A text can be turned down with 1, 2, 3 or 11; the others are mistakes in the program itself. */
static const char *const sentences[] = {
    [KISTROVU_SERVED] = "served",
    [KISTROVU_HEADER] = "the first line of the swatch is not a header of two fields",
    [KISTROVU_SIZE] = "the width times the height is 0 or above 16,384",
    [KISTROVU_LINES] = "a pixel line is not three numbers from 0 to 255, or there are fewer or more lines than pixels",
    [KISTROVU_BYTES] = "there are no pixel bytes, or their number is not a multiple of 3",
    [KISTROVU_PIXELS] = "the image has more than 65,536 pixels",
    [KISTROVU_BINS] = "the histogram has fewer than 2 bins or more than 256",
    [KISTROVU_SUM] = "the counts of the histogram add up to more than 65,536",
    [KISTROVU_CLOSENESS] = "the closeness is below -10 or above 20",
    [KISTROVU_LABELS] = "the label buffer does not have one place for each pixel, or for each one-byte label that is read into it",
    [KISTROVU_SEPARATORS] = "the separator list, or the list to write a log in, has fewer places than the histogram has bins",
    [KISTROVU_ENTRIES] = "the card would have more than 1,000 entries",
    [KISTROVU_LOG] = "the log is not the one that the method writes for the line",
};

static int complain(int status, const char *what, const char *why)
{
    fprintf(stderr, "controller: %s: %s\n", what, why);
    return status;
}

/* Reads a file, or standard input if no name is given. */
static int read_text(const char *name, size_t *bytes)
{
    FILE *file = name == NULL ? stdin : fopen(name, "rb");
    if (name == NULL)
        name = "standard input";
    if (file == NULL)
        return complain(NOT_READ_OR_WRITTEN, name, strerror(errno));
    *bytes = fread(text, 1, sizeof text, file);
    int status = ferror(file) ? complain(NOT_READ_OR_WRITTEN, name, strerror(errno)) : 0;
    if (file != stdin)
        fclose(file);
    return status;
}

/* The number in a field of a text that was served: digits, with spaces before them. */
static uint32_t field(const uint8_t *start, size_t columns)
{
    uint32_t value = 0;
    for (size_t i = 0; i < columns; i++)
        if (start[i] != ' ')
            value = 10 * value + (uint32_t)(start[i] - '0');
    return value;
}

/* The pixels as the card call takes them: three bytes each, row by row. */
static void read_pixels(size_t count)
{
    for (size_t i = 0; i < 3 * count; i++)
        pixels[i] = (uint8_t)field(text + LINE * (1 + i / 3) + PIXEL_FIELD * (i % 3), PIXEL_FIELD);
}

static void write_labels(size_t width, size_t count)
{
    for (size_t i = 0; i < count; i++)
        printf("%4u%s", (unsigned)labels[i], (i + 1) % width == 0 ? "\n" : "");
}

/* Labels each pixel of a served text with the number of its entry, and writes a line of labels for each row. */
static int label_rows(const struct kistrovu_printed *printed)
{
    size_t width = field(text, HEADER_FIELD);
    size_t count = width * field(text + HEADER_FIELD, HEADER_FIELD);
    read_pixels(count);

    /* Closeness 0 is that of the printed card, so both have the same entries. The last length counts labels, not bytes. */
    struct kistrovu_card card = kistrovu_card(pixels, 3 * count, 0, labels, count);
    if (card.number != KISTROVU_SERVED)
        return complain((int)card.number, "turned down", sentences[card.number]);
    if (card.len != field(printed->bytes, HEADER_FIELD))
        return complain(WRONG_LIBRARY, "the card call", "another number of entries than the printed card");
    write_labels(width, count);
    return 0;
}

int main(int argc, char **argv)
{
    bool with_labels = argc > 1 && strcmp(argv[1], "-l") == 0;
    int next = with_labels ? 2 : 1;
    const char *name = next < argc ? argv[next] : NULL;
    if (next + 1 < argc || (name != NULL && name[0] == '-'))
        return complain(WRONG_USE, "usage", "controller [-l] [FILE]");

    /* The header that was compiled and the library that was linked must be of one version: another major version may have
     * other declarations, and write more into a buffer than it holds. */
    if (kistrovu_version() != KISTROVU_VERSION)
        return complain(WRONG_LIBRARY, "kistrovu", "the library is not of the header's version");

    size_t bytes = 0;
    int status = read_text(name, &bytes);
    if (status != 0)
        return status;

    /* One call reads the text and prints the card; another prints the line of a ground. */
    struct kistrovu_printed printed = kistrovu_print_card(text, bytes);
    uint32_t number = printed.number;
    if (number != KISTROVU_SERVED)
        printed = kistrovu_print_ground(number);
    fwrite(printed.bytes, 1, printed.len, stdout);
    if (number != KISTROVU_SERVED)
        status = complain((int)number, "turned down", sentences[number]);
    else if (with_labels)
        status = label_rows(&printed);

    if (fflush(stdout) != 0 || ferror(stdout))
        return complain(NOT_READ_OR_WRITTEN, "standard output", strerror(errno));
    return status;
}
