/*
 * What wrong engines of a replay share. Each is linked with --wrap=kistrovu_replay, which leads the calls to its own replay;
 * the engine's has the name __real_kistrovu_replay there.
 */
#ifndef REPLAYS_H
#define REPLAYS_H

#include "kistrovu.h"

struct kistrovu_modes_answer __real_kistrovu_replay(const uint32_t *histogram, size_t bins, int32_t closeness,
                                                    const int64_t *log, size_t numbers, uint32_t *separators,
                                                    size_t places);
struct kistrovu_modes_answer __wrap_kistrovu_replay(const uint32_t *histogram, size_t bins, int32_t closeness,
                                                    const int64_t *log, size_t numbers, uint32_t *separators,
                                                    size_t places);

/* The line's own log, and how many numbers it has. */
struct own_log {
    size_t due;
    int64_t numbers[KISTROVU_RECORD_NUMBERS * KISTROVU_MOST_BINS];
};

static inline struct own_log own_log(const uint32_t *histogram, size_t bins, int32_t closeness)
{
    struct own_log own;
    size_t room = sizeof own.numbers / sizeof own.numbers[0];
    struct kistrovu_log_answer found = kistrovu_join_log(histogram, bins, closeness, own.numbers, room);
    own.due = KISTROVU_RECORD_NUMBERS * (size_t)found.joins;
    return own;
}

#endif
