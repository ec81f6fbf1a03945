/* A recording of request T-02: for each scan the points that change, each with
   its new value. */
#ifndef RECORDING_H
#define RECORDING_H

#include <stdbool.h>
#include <stddef.h>
#include <stdint.h>

#include "panel.h"

typedef struct {
    uint32_t point;
    bool value;
} Change;

typedef struct {
    uint32_t count;
    const Change *changes; /* points ascending */
} Scan;

typedef struct {
    uint32_t count;
    const Scan *scans;
} Recording;

/* Reads a whole recording: SUCCESS, or 24 whatever the fault is. */
Code read_recording(Memory *memory, const uint8_t *bytes, size_t length, Recording *recording);

/* Whether some change of the recording names a driven point. */
bool changes_driven(const Recording *recording, const bool driven[POINTS]);

#endif
