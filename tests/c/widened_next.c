/* The engine, with a widening that makes of each label the next number, as if entries were counted from 1. */
#include "labels.h"

uint32_t __wrap_kistrovu_widen_labels(const uint8_t *narrow, size_t count, uint16_t *labels, size_t places)
{
    uint32_t number = __real_kistrovu_widen_labels(narrow, count, labels, places);
    if (number == KISTROVU_SERVED) {
        for (size_t place = 0; place < places; place++) {
            labels[place]++;
        }
    }
    return number;
}
