/* The engine, with cards that write the low byte of each label, as into a list of bytes, and leave the high byte as lent. */
#include "labels.h"

struct kistrovu_card __wrap_kistrovu_card(const uint8_t *pixels, size_t bytes, int32_t closeness, uint16_t *labels,
                                          size_t places)
{
    size_t kept = keep_lent(labels, places);
    struct kistrovu_card found = __real_kistrovu_card(pixels, bytes, closeness, labels, places);
    for (size_t place = 0; place < kept; place++) {
        labels[place] = (uint16_t)((lent[place] & HIGH_BYTE) | (labels[place] & LOW_BYTE));
    }
    return found;
}
