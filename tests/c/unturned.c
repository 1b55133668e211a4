/*
 * The engine, with every ring turned until it opens at bin 0, and the separators left as they are there. A ring whose
 * lowest bin is bin 0 has its own list, and the same ring turned has that list too, which is not turned. Linked with
 * --wrap=kistrovu_ring_modes, which leads the calls here.
 */
#include "kistrovu.h"

struct kistrovu_modes_answer __real_kistrovu_ring_modes(const uint32_t *histogram, size_t bins, int32_t closeness,
                                                        uint32_t *separators, size_t places);
struct kistrovu_modes_answer __wrap_kistrovu_ring_modes(const uint32_t *histogram, size_t bins, int32_t closeness,
                                                        uint32_t *separators, size_t places);

/* The lowest bin, the first of several. */
static size_t opening(const uint32_t *histogram, size_t bins)
{
    size_t lowest = 0;
    for (size_t bin = 1; bin < bins; bin++) {
        if (histogram[bin] < histogram[lowest]) {
            lowest = bin;
        }
    }
    return lowest;
}

struct kistrovu_modes_answer __wrap_kistrovu_ring_modes(const uint32_t *histogram, size_t bins, int32_t closeness,
                                                        uint32_t *separators, size_t places)
{
    if (bins > KISTROVU_MOST_BINS) {
        return __real_kistrovu_ring_modes(histogram, bins, closeness, separators, places);
    }
    uint32_t opened[KISTROVU_MOST_BINS];
    size_t first = opening(histogram, bins);
    for (size_t bin = 0; bin < bins; bin++) {
        opened[bin] = histogram[(first + bin) % bins];
    }
    return __real_kistrovu_ring_modes(opened, bins, closeness, separators, places);
}
