/* What a reading writes: a gap has a NaN and 255 days, whatever the chart holds there, and a cell
   of 0.0 degrees is told from it; a refused reading writes nothing. */
#include <math.h>
#include <stdio.h>
#include <ticklocust.h>

static int wrong;

static void expect(const char *what, int holds) {
    if (!holds) {
        printf("readings: %s\n", what);
        wrong = 1;
    }
}

int main(void) {
    float temperatures[8] = {0.0f, 0.0f, 21.0f, 21.0f, 45.5f, NAN, 0.0f, 0.0f};
    uint8_t ages[8] = {0, 30, 31, 255, 0, 0, 255, 1};
    uint32_t kind, days, cell;
    float temperature;

    for (cell = 2; cell < 7; cell++) {
        kind = 9, temperature = 1.0f, days = 9;
        expect("accepted", !ticklocust_reading(0, cell, temperatures, 8, ages, 8, &kind,
                                               &temperature, &days));
        expect("a gap is of its kind", kind == TICKLOCUST_GAP);
        expect("a gap has a NaN", isnan(temperature));
        expect("a gap has 255 days", days == 255);
    }
    ticklocust_reading(0, 0, temperatures, 8, ages, 8, &kind, &temperature, &days);
    expect("0.0 is fresh", kind == TICKLOCUST_FRESH && temperature == 0.0f && days == 0);
    ticklocust_reading(0, 1, temperatures, 8, ages, 8, &kind, &temperature, &days);
    expect("0.0 is carried", kind == TICKLOCUST_CARRIED && temperature == 0.0f && days == 30);
    kind = 9, temperature = 1.0f, days = 9;
    expect("cell 8 is refused by 4",
           ticklocust_reading(0, 8, temperatures, 8, ages, 8, &kind, &temperature, &days) == 4);
    expect("a refused reading writes nothing", kind == 9 && temperature == 1.0f && days == 9);
    return wrong;
}
