/* The engine, with the 255 entries as its limit that a card had when labels were one byte each. */
#include "labels.h"

enum { MOST_NARROW_ENTRIES = 255 };

struct kistrovu_card __wrap_kistrovu_card(const uint8_t *pixels, size_t bytes, int32_t closeness, uint16_t *labels,
                                          size_t places)
{
    size_t kept = keep_lent(labels, places);
    struct kistrovu_card found = __real_kistrovu_card(pixels, bytes, closeness, labels, places);
    if (found.len > MOST_NARROW_ENTRIES) {
        memcpy(labels, lent, kept * sizeof *lent);
        memset(&found, 0, sizeof found);
        found.number = KISTROVU_ENTRIES;
    }
    return found;
}
