/*
 * The engine, with an answer altered that the listing of tools/joins rests on; WRONG says which. Linked with --wrap for the
 * two calls of a log and for the version, which leads the calls here.
 */
#include "kistrovu.h"

enum { OTHER_SEPARATOR = 1, SEPARATOR_LESS, REPLAY_TURNED_DOWN, OTHER_RUN, RUN_TOO_LONG, RUN_BELOW_0, RUN_OF_ONE, JOIN_LESS, MANY_JOINS,
       OTHER_VERSION, OTHER_GROUND };

struct kistrovu_log_answer __real_kistrovu_join_log(const uint32_t *histogram, size_t bins, int32_t closeness, int64_t *log,
                                                    size_t numbers);
struct kistrovu_log_answer __wrap_kistrovu_join_log(const uint32_t *histogram, size_t bins, int32_t closeness, int64_t *log,
                                                    size_t numbers);
struct kistrovu_modes_answer __real_kistrovu_replay(const uint32_t *histogram, size_t bins, int32_t closeness, const int64_t *log,
                                                    size_t numbers, uint32_t *separators, size_t places);
struct kistrovu_modes_answer __wrap_kistrovu_replay(const uint32_t *histogram, size_t bins, int32_t closeness, const int64_t *log,
                                                    size_t numbers, uint32_t *separators, size_t places);
uint32_t __wrap_kistrovu_version(void);

uint32_t __wrap_kistrovu_version(void)
{
    return WRONG == OTHER_VERSION ? KISTROVU_VERSION + 1 : KISTROVU_VERSION;
}

struct kistrovu_log_answer __wrap_kistrovu_join_log(const uint32_t *histogram, size_t bins, int32_t closeness, int64_t *log,
                                                    size_t numbers)
{
    struct kistrovu_log_answer answer = __real_kistrovu_join_log(histogram, bins, closeness, log, numbers);
    switch (WRONG) {
    case OTHER_RUN:
        log[0]++;
        break;
    case RUN_TOO_LONG:
        log[1] = INT64_MAX;
        break;
    case RUN_BELOW_0:
        log[0] = -1;
        break;
    case RUN_OF_ONE:
        log[1] = 1;
        break;
    case JOIN_LESS:
        answer.joins--;
        break;
    case MANY_JOINS:
        answer.joins = UINT32_MAX;
        break;
    case OTHER_GROUND:
        answer.number = KISTROVU_SEPARATORS;
    }
    return answer;
}

struct kistrovu_modes_answer __wrap_kistrovu_replay(const uint32_t *histogram, size_t bins, int32_t closeness, const int64_t *log,
                                                    size_t numbers, uint32_t *separators, size_t places)
{
    struct kistrovu_modes_answer answer =
        __real_kistrovu_replay(histogram, bins, closeness, log, numbers, separators, places);
    if (WRONG == OTHER_SEPARATOR)
        separators[1]++;
    if (WRONG == SEPARATOR_LESS)
        answer.separators--;
    if (WRONG == REPLAY_TURNED_DOWN)
        answer.number = KISTROVU_LOG;
    return answer;
}
