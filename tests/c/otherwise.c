/*
 * The engine, with the separators of every ring listed from the second one on and the first at the end, as an engine may
 * do that lists from the opening. Linked with --wrap=kistrovu_ring_modes, which leads the calls here.
 */
#include "kistrovu.h"

struct kistrovu_modes_answer __real_kistrovu_ring_modes(const uint32_t *histogram, size_t bins, int32_t closeness,
                                                        uint32_t *separators, size_t places);
struct kistrovu_modes_answer __wrap_kistrovu_ring_modes(const uint32_t *histogram, size_t bins, int32_t closeness,
                                                        uint32_t *separators, size_t places);

struct kistrovu_modes_answer __wrap_kistrovu_ring_modes(const uint32_t *histogram, size_t bins, int32_t closeness,
                                                        uint32_t *separators, size_t places)
{
    struct kistrovu_modes_answer found = __real_kistrovu_ring_modes(histogram, bins, closeness, separators, places);
    for (uint32_t place = 1; place < found.separators; place++) {
        uint32_t separator = separators[place];
        separators[place] = separators[place - 1];
        separators[place - 1] = separator;
    }
    return found;
}
