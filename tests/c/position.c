/* The typed calls. With SWAPPED a latitude stands where a longitude belongs, and the other way
   round: the compiler must refuse that. */
#include "ticklocust.h"

uint32_t there(uint32_t level, ticklocust_latitude north, ticklocust_longitude east,
               uint32_t *cell);
uint32_t back(uint32_t level, uint32_t cell, ticklocust_latitude *north,
              ticklocust_longitude *east);

uint32_t there(uint32_t level, ticklocust_latitude north, ticklocust_longitude east,
               uint32_t *cell) {
#if SWAPPED == 1
    return ticklocust_cell_at_position(level, east, north, cell);
#else
    return ticklocust_cell_at_position(level, north, east, cell);
#endif
}

uint32_t back(uint32_t level, uint32_t cell, ticklocust_latitude *north,
              ticklocust_longitude *east) {
#if SWAPPED == 2
    return ticklocust_centre_position(level, cell, east, north);
#else
    return ticklocust_centre_position(level, cell, north, east);
#endif
}
