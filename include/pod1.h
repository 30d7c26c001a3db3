/* The POD1 season account as a library, proved: a season of hourly readings to a stomatal ozone
 * dose with a verdict.
 *
 * ./part builds target/libpod1.a, for Linux on any x86-64 processor. It needs memcpy and memset and
 * nothing else: no heap, no file, no variable of its own, so that threads may
 * call it at once, each on its own buffers.
 *
 * A code is 0 where the call is accepted, else a row and a field: the row of docs/SPECIFICATION.md
 * that refuses the call, and the reading that rows 10 and 26 name (0 for every other row, and where
 * a text's line stops a comparison or a worst stretch). Take them apart by POD1_ROW and POD1_FIELD.
 * Every call takes any bytes of any length. The caller owes two things: a pointer lends as many
 * bytes as the length beside it says (it may be null where that is 0), and a buffer that is written
 * overlaps no other argument. A refused call leaves account and buffer as they were (but for the
 * scratch bytes of pod1_worst_stretch).
 */
#ifndef POD1_H
#define POD1_H

#include <stddef.h>
#include <stdint.h>

#ifdef __cplusplus
extern "C" {
#endif

/* The layout of an account's bytes: its byte 0. Bytes of another layout are row 13. */
#define POD1_VERSION 1

/* The bytes of an account. They are the same on every machine: keep them in memory or in a file,
 * and hand them in again after a power cut. A longer buffer holds the account in its first bytes;
 * the others are never touched. */
#define POD1_ACCOUNT 88

/* The bytes of a trial. */
#define POD1_TRIAL 178

/* The most accounts that one line is fed to. */
#define POD1_LIST 6

/* Bytes that hold any frame's line, any account's line, and any report. No text that is written
 * ends in a zero byte: its length is what the call gives. */
#define POD1_FRAME 66
#define POD1_LINE 160
#define POD1_REPORT 600

/* The scratch bytes of a worst stretch of so many days. */
#define POD1_SCRATCH(days) (3 * (size_t)(days))

/* Ozone that is missing. */
#define POD1_MISSING 65535

/* Fields: 1 ozone, 2 PPFD, 3 radiation, 4 temperature, 5 deficit or humidity, 6 wind, 7 soil, 8
 * pressure. */
#define POD1_ROW(code) ((code) & 255)
#define POD1_FIELD(code) ((code) >> 8)

/* The rows by which a call is refused. */
enum pod1_row {
    POD1_LENGTH = 1,          /* a line's length is that of no kind */
    POD1_DIGIT = 2,           /* a character is not 0 to 9, A to F */
    POD1_KIND = 3,            /* the kind is not one of the length */
    POD1_TURN = 4,            /* a frame out of turn */
    POD1_TREE = 5,            /* tree not 1 to 7 */
    POD1_YEAR = 6,            /* year not 365 or 366 days */
    POD1_PERIOD = 7,          /* the period is not within the year, or too short for the tree */
    POD1_LEVEL = 8,           /* critical level not 1 to 10000 */
    POD1_DUE = 9,             /* not the next hour due */
    POD1_RANGE = 10,          /* a reading out of range: the field */
    POD1_COUNT = 11,          /* count not the hours accepted, or hours still due */
    POD1_BUFFER = 12,         /* the buffer is shorter than what is written */
    POD1_IMPOSSIBLE = 13,     /* bytes that hold no account or trial, or one that no season gives */
    POD1_PLACE = 14,          /* latitude or height out of range, or a tree without the model */
    POD1_MIXED = 15,          /* an hour kind other than the season's first */
    POD1_TRIED = 16,          /* the account is not the tried one */
    POD1_CEILING = 17,        /* ceiling not 1 to 5000 */
    POD1_NO_CEILING = 18,     /* ozone missing, with no ceiling */
    POD1_UNLIKE = 19,         /* two texts unlike otherwise than in ozone, or an ozone missing */
    POD1_DAYS = 20,           /* days not 1 to 366 */
    POD1_SHORT_SCRATCH = 21,  /* fewer scratch bytes than the days take */
    POD1_LIST_SIZE = 22,      /* no account, or more than POD1_LIST */
    POD1_UNLIKE_ACCOUNTS = 23, /* unlike in year, period, hours, phase, ceiling, kind or soil */
    POD1_PARAMETER = 24,      /* a parameter out of range */
    POD1_WARMTH = 25,         /* rise plus fall above end, or end not 1 to 5000 */
    POD1_FLOAT = 26           /* a float not finite or not whole: the field */
};

/* none: the account is fresh. exceeded: POD1 is above the critical level for certain, and stays so.
 * below: it is not above it so far. undecided: the dose lies too near the level to say, or hours
 * without ozone leave it open. */
enum pod1_verdict { POD1_NONE, POD1_UNDECIDED, POD1_EXCEEDED, POD1_BELOW };

/* What a reading gives: the hours accepted, those counted (G above 50 W m-2) and those of them
 * without ozone; AOT40 at least and at most, in tenths of ppb h; POD1 at least (lower) and at most
 * (upper), in nmol m-2. On a refusal the code, and zeros. */
typedef struct {
    uint32_t code;
    uint32_t verdict; /* enum pod1_verdict */
    uint32_t hours, counted, missing;
    uint32_t least, most;  /* AOT40 */
    uint64_t lower, upper; /* POD1 */
} pod1_readout;

/* What writing gives: the bytes written. On a refusal the code, and 0. */
typedef struct {
    uint32_t code;
    uint64_t length;
} pod1_printed;

/* What a trial gives: the code that the line would get, and the reading that would follow. Where no
 * trial is made: its code, and zeros. */
typedef struct {
    uint32_t code;
    uint32_t answer;
    pod1_readout reading;
} pod1_tried;

/* What a comparison gives: the hours whose ozone differs by more than the tolerance; the sum of the
 * differences over counted hours, in tenths of ppb; where the line of the first such hour starts
 * and ends in the second text, line feed left out, or 0 and 0 where there is none. On a refusal the
 * code, the text, 1 or 2, and its line from 1 on (both 0 for row 19), and zeros. */
typedef struct {
    uint32_t code;
    uint32_t text;
    uint64_t line;
    uint32_t hours, sum;
    uint64_t start, end;
} pod1_comparison;

/* What the worst stretch gives: found 1, the highest lower AOT40 in tenths of ppb h, and its
 * earliest first day; found 0 and zeros where the season has fewer days. On a refusal the code, the
 * text's line from 1 on (0 for rows 20 and 21), and zeros. */
typedef struct {
    uint32_t code;
    uint32_t found;
    uint64_t line;
    uint32_t sum, day;
} pod1_stretch;

/* An hour's readings as a logger holds them, in the units of pod1_hour: ozone 65535 is missing, vpd
 * is the deficit in Pa, soil is in the measure of the account's tree (water for trees 1 and 2,
 * suction for all others). */
typedef struct {
    float ozone, ppfd, radiation, temperature, vpd, wind, soil;
} pod1_floats;

/* An hour: its day of the year, the first being 1, and its hour, 0 to 23; ozone in tenths of ppb,
 * or POD1_MISSING; PPFD in umol m-2 s-1; global radiation in W m-2; temperature in tenths of a
 * degree Celsius; vapour, which is the vapour pressure deficit in Pa or, for
 * pod1_write_hour_humidity, the relative humidity in tenths of a percent; wind in cm/s; soil, which
 * is suction in kPa where water is 0, else available water in tenths of a percent. */
typedef struct {
    uint16_t day;
    uint8_t hour;
    uint8_t water;
    uint16_t ozone, ppfd, radiation;
    int16_t temperature;
    uint16_t vapour, wind, soil;
} pod1_hour;

/* The parameters of a laboratory's own tree, tree 7: gmax in mmol m-2 s-1; f_min in percent;
 * light_a in ten-thousandths; Tmin, Topt, Tmax in degrees Celsius; the deficit at f_VPD 1 and at
 * f_min in Pa; the suction at f_SW 1 and at f_min in kPa; leaf in mm; a and e in percent; f1 and f4
 * in days; Y in nmol m-2 s-1. */
typedef struct {
    uint16_t gmax, fmin, lighta;
    int16_t tmin, topt, tmax;
    uint16_t vpdmax, vpdmin, soilmax, soilmin;
    uint16_t leaf, a, e, f1, f4, y;
} pod1_parameters;

/* ---- one account */

/* A fresh account into the first POD1_ACCOUNT bytes. Row 12 where there are fewer. */
uint32_t pod1_fresh(uint8_t *account, size_t account_length);

/* One line of a season, without its line feed or carriage return, to the account in these bytes.
 * Row 13 where they hold none, or one that no season gives; then the line's own rows. */
uint32_t pod1_feed(
    uint8_t *account, size_t account_length, const uint8_t *line, size_t line_length);

/* An hour of floats to it, each a whole number: as the line of kind 02 with these numbers. Rows 13,
 * 4, 15, 9; row 26 with the first field that is not finite or not whole; rows 18, 10. */
uint32_t pod1_feed_floats(
    uint8_t *account, size_t account_length, uint16_t day, uint8_t hour, pod1_floats readings);

/* The figures and the verdict so far. Row 13 alone. */
pod1_readout pod1_read(const uint8_t *account, size_t account_length);

/* The account's line as the report prints it, line feed included, into a buffer. Row 13, then row
 * 12 where it does not fit; POD1_LINE bytes hold any. */
pod1_printed pod1_line(
    const uint8_t *account, size_t account_length, uint8_t *buffer, size_t buffer_length);

/* What feeding the line would do, without doing it: the trial into the first POD1_TRIAL bytes of a
 * buffer. No trial is made where the bytes hold no account (row 13) or the buffer is shorter (row
 * 12); else the code is 0, and the line's own is the answer. */
pod1_tried pod1_trial(const uint8_t *account, size_t account_length, const uint8_t *line,
    size_t line_length, uint8_t *trial, size_t trial_length);

/* Takes a trial: with the account that was tried, what feeding its line would have done. Row 13
 * where the bytes hold no account or no trial, or an account that no season gives; row 16 where the
 * account is not the tried one; then the answer that the trial carries, or row 13 for an account in
 * it that no season gives. */
uint32_t pod1_take(
    uint8_t *account, size_t account_length, const uint8_t *trial, size_t trial_length);

/* ---- several accounts of one stand */

/* One line to one to six accounts that stand one after the other, POD1_ACCOUNT bytes each: all take
 * it or none. There are as many as the length has room for; bytes behind the last whole one are
 * never touched. Row 22 where there are none or more than six; row 13 where one holds none or one
 * that no season gives; row 23 where two are unlike; then the row of the first that refuses the
 * line. */
uint32_t pod1_feed_all(
    uint8_t *accounts, size_t accounts_length, const uint8_t *line, size_t line_length);

/* ---- whole season texts */

/* The report of a season text: its line and its month lines, or "refused N line L". Row 12 alone;
 * POD1_REPORT bytes hold any. */
pod1_printed pod1_report(
    const uint8_t *text, size_t text_length, uint8_t *buffer, size_t buffer_length);

/* Two texts of one mast that are alike but for ozone, with a tolerance in tenths of ppb. The row
 * and line of the first text, then of the second, as the report tells them, without a field; then
 * row 19. */
pod1_comparison pod1_compare(const uint8_t *first, size_t first_length, const uint8_t *second,
    size_t second_length, uint16_t tolerance);

/* The highest lower AOT40 of so many whole days in a row. Rows 20, 21, which touch no byte; then
 * the text's row and line, as the report tells them, without a field. But for rows 20 and 21 the
 * first POD1_SCRATCH(days) bytes are zero on return, after a refused line too. */
pod1_stretch pod1_worst_stretch(const uint8_t *text, size_t text_length, uint16_t days,
    uint8_t *scratch, size_t scratch_length);

/* ---- lines to feed, each into a buffer without a line feed: the frame's own rows, then row 12;
 * POD1_FRAME bytes hold any */

/* Kind 01: tree, days in the year, first and last day of the period, critical level in hundredths
 * of mmol m-2. Rows 5 to 8. */
pod1_printed pod1_write_header(uint8_t tree, uint16_t days, uint16_t first, uint16_t last,
    uint16_t level, uint8_t *buffer, size_t buffer_length);

/* Kind 01 from a place: first and last day by its latitude, in tenths of a degree north, and height
 * in metres. Rows 5, 6, 14, 7, 8. */
pod1_printed pod1_write_place(uint8_t tree, uint16_t days, uint16_t level, uint16_t latitude,
    uint16_t height, uint8_t *buffer, size_t buffer_length);

/* Kind 02: an hour with the vapour pressure deficit. Row 10. */
pod1_printed pod1_write_hour(pod1_hour hour, uint8_t *buffer, size_t buffer_length);

/* Kind 04: an hour with the deficit, and the pressure in tenths of hPa. Row 10. */
pod1_printed pod1_write_hour_pressure(
    pod1_hour hour, uint16_t pressure, uint8_t *buffer, size_t buffer_length);

/* Kind 05: an hour with the relative humidity. Row 10. */
pod1_printed pod1_write_hour_humidity(pod1_hour hour, uint8_t *buffer, size_t buffer_length);

/* Kind 03: the season's end, with the number of its hours. */
pod1_printed pod1_write_end(uint16_t hours, uint8_t *buffer, size_t buffer_length);

/* Kind 06: the most that a missing ozone can have been, in tenths of ppb. Row 17. */
pod1_printed pod1_write_ceiling(uint16_t ozone, uint8_t *buffer, size_t buffer_length);

/* Kind 07: the parameters of tree 7. Row 24. */
pod1_printed pod1_write_parameters(
    pod1_parameters parameters, uint8_t *buffer, size_t buffer_length);

/* Kind 08: leaf age by warmth, sums in degree days. Row 25. */
pod1_printed pod1_write_warmth(
    uint16_t rise, uint16_t fall, uint16_t end, uint8_t *buffer, size_t buffer_length);

#ifdef __cplusplus
}
#endif

#endif
