/* The engine, with a replay that stops reading where no join comes next, so that a log may go on there. */
#include "replays.h"

struct kistrovu_modes_answer __wrap_kistrovu_replay(const uint32_t *histogram, size_t bins, int32_t closeness,
                                                    const int64_t *log, size_t numbers, uint32_t *separators,
                                                    size_t places)
{
    struct own_log own = own_log(histogram, bins, closeness);
    size_t read = numbers < own.due ? numbers : own.due;
    return __real_kistrovu_replay(histogram, bins, closeness, log, read, separators, places);
}
