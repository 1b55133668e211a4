/*
 * The engine, with a replay that is content with a part of the log: where the records end, it makes the joins that are
 * missing by itself.
 */
#include "replays.h"

#include <string.h>

struct kistrovu_modes_answer __wrap_kistrovu_replay(const uint32_t *histogram, size_t bins, int32_t closeness,
                                                    const int64_t *log, size_t numbers, uint32_t *separators,
                                                    size_t places)
{
    struct own_log own = own_log(histogram, bins, closeness);
    bool whole = numbers % KISTROVU_RECORD_NUMBERS == 0;
    if (numbers < own.due && whole && memcmp(log, own.numbers, numbers * sizeof *log) == 0) {
        return __real_kistrovu_replay(histogram, bins, closeness, own.numbers, own.due, separators, places);
    }
    return __real_kistrovu_replay(histogram, bins, closeness, log, numbers, separators, places);
}
