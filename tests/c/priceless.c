/* The engine, with a replay that looks at runs and ways and not at what they cost: each cost is taken from its own log. */
#include "replays.h"

enum { COST = KISTROVU_RECORD_NUMBERS - 1 };

struct kistrovu_modes_answer __wrap_kistrovu_replay(const uint32_t *histogram, size_t bins, int32_t closeness,
                                                    const int64_t *log, size_t numbers, uint32_t *separators,
                                                    size_t places)
{
    struct own_log own = own_log(histogram, bins, closeness);
    if (numbers != own.due) {
        return __real_kistrovu_replay(histogram, bins, closeness, log, numbers, separators, places);
    }
    for (size_t place = 0; place < numbers; place++) {
        if (place % KISTROVU_RECORD_NUMBERS != COST) {
            own.numbers[place] = log[place];
        }
    }
    return __real_kistrovu_replay(histogram, bins, closeness, own.numbers, numbers, separators, places);
}
