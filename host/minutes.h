/* A made-up season of planter minutes, the same on every machine: what the cab recorded, and what each minute truly was. */
#ifndef HOST_MINUTES_H
#define HOST_MINUTES_H

#include <stddef.h>
#include <stdint.h>

enum {
    MINUTE_COLUMNS = 6
};

/* Numbered as an analyst would tag them. */
enum activity {
    WORKING,
    TURNING,
    REFILLING,
    WAITING,
    TRAVELLING,
    ACTIVITIES
};

/* Speed in cm/s, seed shaft turns in the minute, hopper weight in kg, fan pressure in mm of water, heading in tenths of a
   degree, distance to the tender in m. */
struct minute {
    uint16_t column[MINUTE_COLUMNS];
    enum activity activity;
};

extern const char *const minute_names[MINUTE_COLUMNS];
extern const char *const activity_names[ACTIVITIES];

void make_minutes(uint64_t seed, size_t count, struct minute *to);

#endif
