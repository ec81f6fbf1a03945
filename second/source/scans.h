/* The scans of request T-02. A panel program is wired once: each contact and
   each coil knows the place of its value, and the rungs stand in their order. A
   scan then takes time linear in the program, and its line. */
#ifndef SCANS_H
#define SCANS_H

#include "panel.h"
#include "recording.h"

/* Where values are kept: the points by number, behind them the bits by address. */
enum { PLACES = POINTS + MOST_BITS };

enum {
    LONGEST_COUNT = 5,       /* digits of a scan's number: scans are fewer than the bytes */
    LONGEST_SHOWN_POINT = 8, /* a space, @, four digits, = and the value */
    LONGEST_LINE = LONGEST_COUNT + POINTS * LONGEST_SHOWN_POINT + 1
};

typedef struct Rung Rung;

typedef struct {
    const Rung *rungs;
    bool values[PLACES];
    uint32_t scans_done;
    uint32_t driven_count;
    uint32_t driven[POINTS]; /* ascending */
} Runner;

/* Wires a program that check_panel has taken. Nothing has been scanned yet. */
void start_runner(Memory *memory, const Tree *program, const Panel *panel, Runner *runner);

/* One scan: the changes, then the rungs. Writes the scan's line, which has at
   most LONGEST_LINE bytes, and gives its length. */
size_t run_scan(Runner *runner, const Scan *scan, uint8_t *line);

#endif
