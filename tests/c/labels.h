/*
 * What wrong engines of labels share. Each is linked with --wrap=kistrovu_card or --wrap=kistrovu_widen_labels, which leads
 * the calls to its own; the engine's has the name __real_kistrovu_card or __real_kistrovu_widen_labels there.
 */
#ifndef LABELS_H
#define LABELS_H

#include "kistrovu.h"

#include <string.h>

enum { LOW_BYTE = 0xff, HIGH_BYTE = 0xff00 };

struct kistrovu_card __real_kistrovu_card(const uint8_t *pixels, size_t bytes, int32_t closeness, uint16_t *labels,
                                          size_t places);
struct kistrovu_card __wrap_kistrovu_card(const uint8_t *pixels, size_t bytes, int32_t closeness, uint16_t *labels,
                                          size_t places);

uint32_t __real_kistrovu_widen_labels(const uint8_t *narrow, size_t count, uint16_t *labels, size_t places);
uint32_t __wrap_kistrovu_widen_labels(const uint8_t *narrow, size_t count, uint16_t *labels, size_t places);

/* Labels as they are lent, as many as an image can have: where they are kept, and how many. */
static uint16_t lent[KISTROVU_MOST_PIXELS];

static inline size_t keep_lent(const uint16_t *labels, size_t places)
{
    size_t kept = places < KISTROVU_MOST_PIXELS ? places : KISTROVU_MOST_PIXELS;
    memcpy(lent, labels, kept * sizeof *lent);
    return kept;
}

#endif
