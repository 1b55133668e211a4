/* The engine, with labels that are kept in one byte: entry 256 has the label 0 again. */
#include "labels.h"

struct kistrovu_card __wrap_kistrovu_card(const uint8_t *pixels, size_t bytes, int32_t closeness, uint16_t *labels,
                                          size_t places)
{
    struct kistrovu_card found = __real_kistrovu_card(pixels, bytes, closeness, labels, places);
    if (found.number == KISTROVU_SERVED) {
        for (size_t place = 0; place < places; place++) {
            labels[place] &= LOW_BYTE;
        }
    }
    return found;
}
