/* The engine, with a widening that is served when places are left over, as separators are. */
#include "labels.h"

uint32_t __wrap_kistrovu_widen_labels(const uint8_t *narrow, size_t count, uint16_t *labels, size_t places)
{
    return __real_kistrovu_widen_labels(narrow, count, labels, places > count ? count : places);
}
