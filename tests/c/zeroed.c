/*
 * The engine, with zeros in all the numbers of a log behind its last record. Linked with --wrap=kistrovu_join_log, which
 * leads the calls here.
 */
#include "kistrovu.h"

struct kistrovu_log_answer __real_kistrovu_join_log(const uint32_t *histogram, size_t bins, int32_t closeness, int64_t *log,
                                                    size_t numbers);
struct kistrovu_log_answer __wrap_kistrovu_join_log(const uint32_t *histogram, size_t bins, int32_t closeness, int64_t *log,
                                                    size_t numbers);

struct kistrovu_log_answer __wrap_kistrovu_join_log(const uint32_t *histogram, size_t bins, int32_t closeness, int64_t *log,
                                                    size_t numbers)
{
    struct kistrovu_log_answer found = __real_kistrovu_join_log(histogram, bins, closeness, log, numbers);
    if (found.number == KISTROVU_SERVED) {
        for (size_t place = KISTROVU_RECORD_NUMBERS * (size_t)found.joins; place < numbers; place++) {
            log[place] = 0;
        }
    }
    return found;
}
