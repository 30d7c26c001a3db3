/* Hours as the library writes them, for tests/command.py: on each line of standard input a kind, a
 * day, an hour, the seven readings in steps of the frame and the pressure (0 where the kind has
 * none); on standard output their lines. */
#include "pod1.h"

#include <stdio.h>

static pod1_printed write_as(int kind, pod1_hour hour, uint16_t pressure, uint8_t *line) {
    if (kind == 4) return pod1_write_hour_pressure(hour, pressure, line, POD1_FRAME);
    if (kind == 5) return pod1_write_hour_humidity(hour, line, POD1_FRAME);
    return pod1_write_hour(hour, line, POD1_FRAME);
}

int main(void) {
    int kind, day, hour, ozone, ppfd, radiation, temperature, vapour, wind, soil, pressure;
    while (scanf("%d%d%d%d%d%d%d%d%d%d%d", &kind, &day, &hour, &ozone, &ppfd, &radiation,
               &temperature, &vapour, &wind, &soil, &pressure) == 11) {
        uint8_t line[POD1_FRAME];
        pod1_hour record = {.day = (uint16_t)day,
            .hour = (uint8_t)hour,
            .ozone = (uint16_t)ozone,
            .ppfd = (uint16_t)ppfd,
            .radiation = (uint16_t)radiation,
            .temperature = (int16_t)temperature,
            .vapour = (uint16_t)vapour,
            .wind = (uint16_t)wind,
            .soil = (uint16_t)soil};
        pod1_printed written = write_as(kind, record, (uint16_t)pressure, line);
        if (written.code) {
            printf("row %u, field %u\n", (unsigned)POD1_ROW(written.code),
                (unsigned)POD1_FIELD(written.code));
            continue;
        }
        printf("%.*s\n", (int)written.length, (const char *)line);
    }
    return 0;
}
