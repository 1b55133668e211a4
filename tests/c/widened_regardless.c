/* The engine, with a widening that writes as many labels as both lists have although it turns the call down. */
#include "labels.h"

uint32_t __wrap_kistrovu_widen_labels(const uint8_t *narrow, size_t count, uint16_t *labels, size_t places)
{
    size_t both = count < places ? count : places;
    for (size_t place = 0; place < both; place++) {
        labels[place] = narrow[place];
    }
    return __real_kistrovu_widen_labels(narrow, count, labels, places);
}
