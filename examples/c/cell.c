/* Prints the cell at a position, the centre of that cell, and two refusals. In the repository:
   cc -std=c99 -Iinclude examples/c/cell.c target/staticlib/libticklocust.a -o target/cell */
#include <stdio.h>
#include "ticklocust.h"

int main(void) {
    ticklocust_latitude latitude = {22500000};
    ticklocust_longitude longitude = {30000000};
    uint32_t cell;
    uint32_t refused = ticklocust_cell_at_position(1, latitude, longitude, &cell);
    if (refused == TICKLOCUST_ACCEPTED)
        refused = ticklocust_centre_position(1, cell, &latitude, &longitude);
    if (refused == TICKLOCUST_ACCEPTED)
        printf("cell %u, centre %d %d\n", cell, latitude.microdegrees, longitude.microdegrees);

    latitude.microdegrees = 90000001;
    uint32_t number = ticklocust_cell_at_position(1, latitude, longitude, &cell);
    printf("refused %u: %s\n", number, ticklocust_refusal_text(number));
    number = ticklocust_centre_position(1, 32, &latitude, &longitude);
    printf("refused %u: %s\n", number, ticklocust_refusal_text(number));
    return refused != TICKLOCUST_ACCEPTED;
}
