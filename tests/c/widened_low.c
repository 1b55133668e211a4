/* The engine, with a widening that writes the low byte of each label and leaves the high byte as lent. */
#include "labels.h"

uint32_t __wrap_kistrovu_widen_labels(const uint8_t *narrow, size_t count, uint16_t *labels, size_t places)
{
    if (count != places) {
        return __real_kistrovu_widen_labels(narrow, count, labels, places);
    }
    for (size_t place = 0; place < places; place++) {
        labels[place] = (uint16_t)((labels[place] & HIGH_BYTE) | narrow[place]);
    }
    return KISTROVU_SERVED;
}
