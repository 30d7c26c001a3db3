// Every call of include/pod1.h with answers known from docs/SPECIFICATION.md. Each buffer is lent
// at its exact size from the heap, so that valgrind and the sanitizers see a byte too far. Run by
// tests/part.sh; exit status 1 where a fact does not hold.
#include "pod1.h"

#include <math.h>
#include <stdio.h>
#include <stdlib.h>
#include <string.h>

static int facts, broken;

#define HOLDS(fact) \
    (facts++, (fact) ? (void)0 : (void)(broken++, printf("part_calls.c:%d: %s\n", __LINE__, #fact)))

enum { PAINT = 0xA5, HOURS = 24 };

#define HEADER "0106016D000100010208" // the evergreen's day 1
#define DARK "01F40000000000E603E8012C03E8"
#define NOON "01F401F4019000E603E8012C03E8" // counted: AOT40 100, the exact dose 28655.54
#define COUNTED "24 1 28655 28656 100 100 below\n"

static uint8_t *room(size_t n)
{
    uint8_t *bytes = malloc(n ? n : 1);
    if (!bytes)
        exit(2);
    return bytes;
}

static uint8_t *copy_of(const void *bytes, size_t n)
{
    return memcpy(room(n), bytes, n);
}

static uint8_t *painted(size_t n)
{
    return memset(room(n), PAINT, n);
}

static int is_painted(const uint8_t *bytes, size_t n)
{
    for (size_t i = 0; i < n; i++)
        if (bytes[i] != PAINT)
            return 0;
    return 1;
}

static int is_same(const uint8_t *account, const uint8_t *other)
{
    return memcmp(account, other, POD1_ACCOUNT) == 0;
}

// ---- accounts

static uint64_t sum_of(pod1_readout seen)
{
    uint64_t hours = seen.hours + seen.counted + seen.missing;
    return hours + seen.least + seen.most + seen.lower + seen.upper;
}

static uint8_t *fresh(void)
{
    uint8_t *account = painted(POD1_ACCOUNT);
    HOLDS(pod1_fresh(account, POD1_ACCOUNT) == 0);
    return account;
}

// The code of feeding a line, after which a refused account must be as it was.
static uint32_t fed(uint8_t *account, const char *line)
{
    size_t n = strlen(line);
    uint8_t *lent = copy_of(line, n), *before = copy_of(account, POD1_ACCOUNT);
    uint32_t code = pod1_feed(account, POD1_ACCOUNT, lent, n);
    HOLDS(code == 0 || is_same(account, before));
    free(lent);
    free(before);
    return code;
}

static const char *hour_line(int hour, const char *readings)
{
    static char line[64];
    snprintf(line, sizeof line, "020001%02X%s", (unsigned)hour, readings);
    return line;
}

// An account of the evergreen's day after so many hours, the thirteenth one at noon.
static uint8_t *after_hours(int hours)
{
    uint8_t *account = fresh();
    HOLDS(fed(account, HEADER) == 0);
    for (int h = 0; h < hours; h++)
        HOLDS(fed(account, hour_line(h, h == 12 ? NOON : DARK)) == 0);
    return account;
}

// The text of the evergreen's day with these readings at noon.
static uint8_t *day_text(const char *noon, size_t *n)
{
    char text[2048] = HEADER "\n";
    for (int h = 0; h < HOURS; h++) {
        strcat(text, hour_line(h, h == 12 ? noon : DARK));
        strcat(text, "\n");
    }
    strcat(text, "030018\n");
    *n = strlen(text);
    return copy_of(text, *n);
}

// ---- what is written: exactly this text, into a buffer of its length or a longer one; row 12 one
// byte below

static int writes(pod1_printed p, const uint8_t *b, size_t n, const char *expected)
{
    size_t length = strlen(expected);
    if (n < length)
        return p.code == POD1_BUFFER && p.length == 0 && is_painted(b, n);
    return p.code == 0 && p.length == length && memcmp(b, expected, length) == 0 &&
           is_painted(b + length, n - length);
}

// `call` writes into b, which has n bytes
#define WRITES(expected, call) \
    do { \
        for (size_t n = strlen(expected) - 1; n <= strlen(expected) + 5; n++) { \
            uint8_t *b = painted(n); \
            HOLDS(writes(call, b, n, expected)); \
            free(b); \
        } \
    } while (0)

#define REFUSES(refusal, call) \
    do { \
        size_t n = POD1_FRAME; \
        uint8_t *b = painted(n); \
        pod1_printed p = call; \
        HOLDS(p.code == (refusal) && p.length == 0 && is_painted(b, n)); \
        free(b); \
    } while (0)

static uint32_t with_field(uint32_t row, uint32_t field)
{
    return row + 256 * field;
}

// ---- one account

static void fresh_accounts(void)
{
    uint8_t *longer = painted(POD1_ACCOUNT + 4), *shorter = painted(POD1_ACCOUNT - 1),
            zeros[POD1_ACCOUNT] = {POD1_VERSION};
    HOLDS(pod1_fresh(longer, POD1_ACCOUNT + 4) == 0 && is_same(longer, zeros) &&
          is_painted(longer + POD1_ACCOUNT, 4));
    HOLDS(pod1_fresh(shorter, POD1_ACCOUNT - 1) == POD1_BUFFER &&
          is_painted(shorter, POD1_ACCOUNT - 1));
    HOLDS(pod1_fresh(NULL, 0) == POD1_BUFFER);
    pod1_readout seen = pod1_read(longer, POD1_ACCOUNT + 4);
    HOLDS(seen.code == 0 && seen.verdict == POD1_NONE && sum_of(seen) == 0);
    HOLDS(pod1_feed(longer, POD1_ACCOUNT + 4, (const uint8_t *)HEADER, strlen(HEADER)) == 0 &&
          is_painted(longer + POD1_ACCOUNT, 4));
    WRITES("0 0 0 0 0 0 none\n", pod1_line(zeros, sizeof zeros, b, n));
    HOLDS(pod1_feed(shorter, POD1_ACCOUNT - 1, NULL, 0) == POD1_IMPOSSIBLE &&
          is_painted(shorter, POD1_ACCOUNT - 1));
    free(longer);
    free(shorter);
}

static void a_day(void)
{
    uint8_t *account = after_hours(HOURS);
    HOLDS(fed(account, "030018") == 0);
    pod1_readout seen = pod1_read(account, POD1_ACCOUNT);
    HOLDS(seen.code == 0 && seen.hours == 24 && seen.counted == 1 && seen.missing == 0 &&
          seen.verdict == POD1_BELOW);
    HOLDS(seen.least == 100 && seen.most == 100 && seen.lower == 28655 && seen.upper == 28656);
    WRITES(COUNTED, pod1_line(account, POD1_ACCOUNT, b, n));
    HOLDS(fed(account, HEADER) == POD1_TURN);
    free(account);
}

// A line that an account with hours refuses, or, with -1, a fresh one.
static void refusals(void)
{
    static const struct {
        int hours;
        const char *line;
        uint32_t row, field;
    } CASES[] = {
        {-1, "0104", POD1_LENGTH, 0},
        {-1, "", POD1_LENGTH, 0},
        {-1, "03001g", POD1_DIGIT, 0},
        {-1, "010018", POD1_KIND, 0},
        {-1, "030018", POD1_TURN, 0},
        {-1, "0108016D000100010208", POD1_TREE, 0},
        {-1, "0106016C000100010208", POD1_YEAR, 0},
        {-1, "0104016D000100280208", POD1_PERIOD, 0},
        {-1, "0106016D000100010000", POD1_LEVEL, 0},
        {0, "020001011F40000000000E603E8012C03E8", POD1_LENGTH, 0},
        {0, "02000101" DARK, POD1_DUE, 0},
        {0, "0200010013890000000000E603E8012C03E8", POD1_RANGE, 1},
        {0, "0200010001F40BB9000000E603E8012C03E8", POD1_RANGE, 2},
        {0, "0200010001F4000005DD00E603E8012C03E8", POD1_RANGE, 3},
        {0, "0200010001F400000000025903E8012C03E8", POD1_RANGE, 4},
        {0, "0200010001F40000000000E62711012C03E8", POD1_RANGE, 5},
        {0, "0200010001F40000000000E603E8177103E8", POD1_RANGE, 6},
        {0, "0200010001F40000000000E603E8012C2711", POD1_RANGE, 7},
        {0, "0400010001F40000000000E603E8012C03E81387", POD1_RANGE, 8},
        {0, "02000100FFFF0000000000E603E8012C03E8", POD1_NO_CEILING, 0},
        {24, "030017", POD1_COUNT, 0},
        {1, "030001", POD1_COUNT, 0},
        {1, "0500010101F40000000000E601F4012C03E8", POD1_MIXED, 0},
        {0, "060000", POD1_CEILING, 0},
        {1, "061388", POD1_TURN, 0},
    };
    for (size_t i = 0; i < sizeof CASES / sizeof *CASES; i++) {
        uint8_t *account = CASES[i].hours < 0 ? fresh() : after_hours(CASES[i].hours);
        uint32_t code = fed(account, CASES[i].line);
        HOLDS(POD1_ROW(code) == CASES[i].row && POD1_FIELD(code) == CASES[i].field);
        if (POD1_ROW(code) != CASES[i].row || POD1_FIELD(code) != CASES[i].field)
            printf("    %s: %u\n", CASES[i].line, (unsigned)code);
        free(account);
    }
}

// A laboratory's tree, with missing ozone.
static void own_tree(void)
{
    uint8_t *account = fresh();
    HOLDS(fed(account, "0107016D000100290208") == 0);
    HOLDS(fed(account, "060190") == POD1_TURN);
    HOLDS(fed(account, "070000000D003C00050010002103E80C1C003204E2004600000028001400140001") ==
          POD1_PARAMETER);
    HOLDS(fed(account, "07009B000D003C00050010002103E80C1C003204E2004600000028001400140001") == 0);
    HOLDS(fed(account, "08006400640096") == POD1_WARMTH);
    HOLDS(fed(account, "080064006400C8") == 0);
    HOLDS(fed(account, "060191") == 0);
    HOLDS(fed(account, "02000100FFFF01F4019000E603E8012C03E8") == 0);
    pod1_readout seen = pod1_read(account, POD1_ACCOUNT);
    HOLDS(seen.hours == 1 && seen.counted == 1 && seen.missing == 1 && seen.least == 0 &&
          seen.most == 1 && seen.lower == 0);
    free(account);
}

// Bytes that hold no account, and one that no season gives.
static void impossible(void)
{
    // version, phase, kind; counted 2 with one hour
    static const struct {
        size_t place;
        uint8_t byte;
    } BROKEN[] = {{0, 0}, {0, POD1_VERSION + 1}, {1, 3}, {2, 1}, {6, 2}};
    for (size_t i = 0; i < sizeof BROKEN / sizeof *BROKEN; i++) {
        uint8_t *account = after_hours(1), *trial = painted(POD1_TRIAL), *before;
        account[BROKEN[i].place] = BROKEN[i].byte;
        before = copy_of(account, POD1_ACCOUNT);
        pod1_readout seen = pod1_read(account, POD1_ACCOUNT);
        HOLDS(seen.code == POD1_IMPOSSIBLE && seen.verdict + sum_of(seen) == 0);
        HOLDS(fed(account, hour_line(1, DARK)) == POD1_IMPOSSIBLE);
        REFUSES(POD1_IMPOSSIBLE, pod1_line(account, POD1_ACCOUNT, b, n));
        HOLDS(pod1_feed_all(account, POD1_ACCOUNT, NULL, 0) == POD1_IMPOSSIBLE &&
              is_same(account, before));
        HOLDS(pod1_feed_floats(account, POD1_ACCOUNT, 1, 1, (pod1_floats){0}) == POD1_IMPOSSIBLE &&
              is_same(account, before));
        HOLDS(pod1_take(account, POD1_ACCOUNT, trial, POD1_TRIAL) == POD1_IMPOSSIBLE &&
              is_same(account, before));
        free(account);
        free(before);
        free(trial);
    }
}

static void floats(void)
{
    static const pod1_floats NUMBERS = {500, 0, 0, 230, 1000, 300, 1000};
    uint8_t *by_line = after_hours(1), *by_floats = after_hours(0),
            *before = copy_of(by_floats, POD1_ACCOUNT), *none = fresh();
    pod1_floats broken_wind = NUMBERS, no_number = NUMBERS, infinite = NUMBERS, vast = NUMBERS,
                minus_zero = NUMBERS, missing = NUMBERS;
    broken_wind.wind = 0.5f;
    no_number.ozone = NAN;
    infinite.soil = INFINITY;
    vast.soil = 1e30f;
    minus_zero.ppfd = -0.0f;
    missing.ozone = POD1_MISSING;
    HOLDS(pod1_feed_floats(none, POD1_ACCOUNT, 1, 0, NUMBERS) == POD1_TURN);
    HOLDS(pod1_feed_floats(by_floats, POD1_ACCOUNT, 1, 1, broken_wind) == POD1_DUE);
    HOLDS(
        pod1_feed_floats(by_floats, POD1_ACCOUNT, 1, 0, broken_wind) == with_field(POD1_FLOAT, 6));
    HOLDS(pod1_feed_floats(by_floats, POD1_ACCOUNT, 1, 0, no_number) == with_field(POD1_FLOAT, 1));
    HOLDS(pod1_feed_floats(by_floats, POD1_ACCOUNT, 1, 0, infinite) == with_field(POD1_FLOAT, 7));
    HOLDS(pod1_feed_floats(by_floats, POD1_ACCOUNT, 1, 0, vast) == with_field(POD1_RANGE, 7));
    HOLDS(pod1_feed_floats(by_floats, POD1_ACCOUNT, 1, 0, missing) == POD1_NO_CEILING);
    HOLDS(is_same(by_floats, before));
    HOLDS(pod1_feed_floats(by_floats, POD1_ACCOUNT, 1, 0, minus_zero) == 0 &&
          is_same(by_floats, by_line));
    HOLDS(pod1_feed_floats(by_floats, POD1_ACCOUNT, 1, 1, NUMBERS) == 0 &&
          fed(by_line, hour_line(1, DARK)) == 0 && is_same(by_floats, by_line));
    free(by_line);
    free(by_floats);
    free(before);
    free(none);
}

static pod1_tried tried(
    const uint8_t *account, const char *line, uint8_t *trial, size_t trial_length)
{
    size_t n = strlen(line);
    uint8_t *lent = copy_of(line, n);
    pod1_tried seen = pod1_trial(account, POD1_ACCOUNT, lent, n, trial, trial_length);
    free(lent);
    return seen;
}

static void trials(void)
{
    uint8_t *account = after_hours(12), *before = copy_of(account, POD1_ACCOUNT),
            *after = after_hours(13), *trial = painted(POD1_TRIAL);
    pod1_tried seen = tried(account, hour_line(12, NOON), trial, POD1_TRIAL - 1);
    HOLDS(seen.code == POD1_BUFFER && seen.answer == 0 && seen.reading.hours == 0 &&
          is_painted(trial, POD1_TRIAL));
    seen = tried(account, hour_line(11, NOON), trial, POD1_TRIAL);
    HOLDS(seen.code == 0 && seen.answer == POD1_DUE && seen.reading.hours == 12);
    HOLDS(pod1_take(account, POD1_ACCOUNT, trial, POD1_TRIAL) == POD1_DUE);
    seen = tried(account, "0200010C138901F4019000E603E8012C03E8", trial, POD1_TRIAL);
    HOLDS(seen.code == 0 && seen.answer == with_field(POD1_RANGE, 1));
    HOLDS(pod1_take(account, POD1_ACCOUNT, trial, POD1_TRIAL) == with_field(POD1_RANGE, 1));
    seen = tried(account, hour_line(12, NOON), trial, POD1_TRIAL);
    HOLDS(seen.code == 0 && seen.answer == 0 && is_same(account, before));
    HOLDS(seen.reading.code == 0 && seen.reading.hours == 13 && seen.reading.counted == 1 &&
          seen.reading.least == 100 && seen.reading.most == 100);
    HOLDS(seen.reading.lower == 28655 && seen.reading.upper == 28656 &&
          seen.reading.verdict == POD1_BELOW);
    HOLDS(pod1_take(account, POD1_ACCOUNT, trial, POD1_TRIAL - 1) == POD1_IMPOSSIBLE &&
          is_same(account, before));
    HOLDS(pod1_take(account, POD1_ACCOUNT, trial, POD1_TRIAL) == 0 && is_same(account, after));
    HOLDS(pod1_take(account, POD1_ACCOUNT, trial, POD1_TRIAL) == POD1_TRIED &&
          is_same(account, after));
    account[0] = 0;
    memset(trial, PAINT, POD1_TRIAL);
    seen = tried(account, "", trial, POD1_TRIAL);
    HOLDS(seen.code == POD1_IMPOSSIBLE && seen.answer == 0 && is_painted(trial, POD1_TRIAL));
    free(account);
    free(before);
    free(after);
    free(trial);
}

// ---- several accounts

// So many accounts in their order, trees 3, 4, 5, 6 and again, of days 1 to 41.
static uint8_t *stand(size_t accounts)
{
    uint8_t *list = painted(accounts * POD1_ACCOUNT);
    for (size_t i = 0; i < accounts; i++) {
        uint8_t *account = list + i * POD1_ACCOUNT;
        char header[] = "0103016D000100290208";
        header[3] = (char)('3' + i % 4);
        HOLDS(pod1_fresh(account, POD1_ACCOUNT) == 0 && fed(account, header) == 0);
    }
    return list;
}

static uint32_t fed_all(uint8_t *list, size_t accounts, const char *line)
{
    size_t n = strlen(line);
    uint8_t *lent = copy_of(line, n);
    uint32_t code = pod1_feed_all(list, accounts * POD1_ACCOUNT, lent, n);
    free(lent);
    return code;
}

static void lists(void)
{
    for (size_t accounts = 1; accounts <= POD1_LIST; accounts++) {
        uint8_t *list = stand(accounts), *alone = stand(accounts);
        HOLDS(fed_all(list, accounts, hour_line(0, NOON)) == 0 &&
              fed_all(list, accounts, hour_line(1, DARK)) == 0);
        for (size_t i = 0; i < accounts; i++) {
            uint8_t *one = alone + i * POD1_ACCOUNT;
            HOLDS(fed(one, hour_line(0, NOON)) == 0 && fed(one, hour_line(1, DARK)) == 0 &&
                  is_same(list + i * POD1_ACCOUNT, one));
        }
        HOLDS(fed_all(list, accounts, HEADER) == POD1_TURN &&
              memcmp(list, alone, accounts * POD1_ACCOUNT) == 0);
        HOLDS(fed_all(list, accounts, "02000102138901F4019000E603E8012C03E8") ==
              with_field(POD1_RANGE, 1));
        HOLDS(memcmp(list, alone, accounts * POD1_ACCOUNT) == 0);
        free(list);
        free(alone);
    }
}

static void bad_lists(void)
{
    uint8_t *list = stand(POD1_LIST + 1), *before = copy_of(list, (POD1_LIST + 1) * POD1_ACCOUNT);
    HOLDS(pod1_feed_all(NULL, 0, NULL, 0) == POD1_LIST_SIZE);
    HOLDS(fed_all(list, POD1_LIST + 1, hour_line(0, DARK)) == POD1_LIST_SIZE &&
          memcmp(list, before, (POD1_LIST + 1) * POD1_ACCOUNT) == 0);
    HOLDS(fed(list + POD1_ACCOUNT, hour_line(0, DARK)) == 0);
    memcpy(before, list, 2 * POD1_ACCOUNT);
    HOLDS(fed_all(list, 2, hour_line(0, DARK)) == POD1_UNLIKE_ACCOUNTS &&
          memcmp(list, before, 2 * POD1_ACCOUNT) == 0);
    list[POD1_ACCOUNT] = POD1_VERSION + 1;
    memcpy(before, list, 2 * POD1_ACCOUNT);
    HOLDS(fed_all(list, 2, hour_line(0, DARK)) == POD1_IMPOSSIBLE &&
          memcmp(list, before, 2 * POD1_ACCOUNT) == 0);
    free(list);
    free(before);
}

// ---- whole texts

static void reports(void)
{
    size_t length, dark_length;
    uint8_t *text = day_text(NOON, &length), *dark = day_text(DARK, &dark_length);
    WRITES(COUNTED "1 1 28655 28656 100 100\n", pod1_report(text, length, b, n));
    WRITES("24 0 0 0 0 0 below\n1 0 0 0 0 0\n", pod1_report(dark, dark_length, b, n));
    WRITES("refused 11 line 2\n", pod1_report((const uint8_t *)HEADER, strlen(HEADER), b, n));
    WRITES("refused 11 line 1\n", pod1_report(NULL, 0, b, n));
    WRITES("refused 1 line 2\n",
        pod1_report((const uint8_t *)HEADER "\n\n", strlen(HEADER) + 2, b, n));
    free(text);
    free(dark);
}

static void comparisons(void)
{
    size_t first_length, second_length, windy_length, start = strlen(HEADER) + 1 + 12 * 37;
    uint8_t *first = day_text(NOON, &first_length),
            *second = day_text("020801F4019000E603E8012C03E8", &second_length);
    uint8_t *windy = day_text("01F401F4019000E603E8012D03E8", &windy_length);
    pod1_comparison c = pod1_compare(first, first_length, second, second_length, 19);
    HOLDS(c.code == 0 && c.text == 0 && c.line == 0 && c.hours == 1 && c.sum == 20 &&
          c.start == start && c.end == start + 36);
    HOLDS(memcmp(second + c.start, "0200010C020801F4", 16) == 0);
    c = pod1_compare(first, first_length, second, second_length, 20);
    HOLDS(c.code == 0 && c.hours == 0 && c.sum == 20 && c.start == 0 && c.end == 0);
    c = pod1_compare(first, first_length, windy, windy_length, 0);
    HOLDS(c.code == POD1_UNLIKE && c.text == 0 && c.line == 0 && c.hours == 0 && c.sum == 0 &&
          c.start == 0 && c.end == 0);
    c = pod1_compare(first, first_length, second, second_length - 7, 0);
    HOLDS(c.code == POD1_COUNT && c.text == 2 && c.line == 26 && c.hours == 0 && c.sum == 0);
    first[0] = 'x';
    c = pod1_compare(first, first_length, NULL, 0, 0);
    HOLDS(c.code == POD1_DIGIT && c.text == 1 && c.line == 1 && c.hours == 0 && c.sum == 0);
    free(first);
    free(second);
    free(windy);
}

static void stretches(void)
{
    size_t length;
    uint8_t *text = day_text(NOON, &length), *scratch = painted(POD1_SCRATCH(2)),
            zeros[POD1_SCRATCH(2)] = {0};
    pod1_stretch s = pod1_worst_stretch(text, length, 1, scratch, POD1_SCRATCH(2));
    HOLDS(s.code == 0 && s.found == 1 && s.line == 0 && s.sum == 100 && s.day == 1);
    HOLDS(memcmp(scratch, zeros, POD1_SCRATCH(1)) == 0 &&
          is_painted(scratch + POD1_SCRATCH(1), POD1_SCRATCH(1)));
    s = pod1_worst_stretch(text, length, 2, scratch, POD1_SCRATCH(2));
    HOLDS(s.code == 0 && s.found == 0 && s.sum == 0 && s.day == 0 &&
          memcmp(scratch, zeros, POD1_SCRATCH(2)) == 0);
    memset(scratch, PAINT, POD1_SCRATCH(2));
    s = pod1_worst_stretch(text, length, 0, scratch, POD1_SCRATCH(2));
    HOLDS(
        s.code == POD1_DAYS && s.found == 0 && s.line == 0 && is_painted(scratch, POD1_SCRATCH(2)));
    HOLDS(pod1_worst_stretch(text, length, 367, NULL, 0).code == POD1_DAYS);
    s = pod1_worst_stretch(text, length, 2, scratch, POD1_SCRATCH(2) - 1);
    HOLDS(s.code == POD1_SHORT_SCRATCH && s.line == 0 && is_painted(scratch, POD1_SCRATCH(2)));
    text[21] = 'x';
    s = pod1_worst_stretch(text, length, 2, scratch, POD1_SCRATCH(2));
    HOLDS(s.code == POD1_DIGIT && s.found == 0 && s.line == 2 && s.sum == 0 && s.day == 0 &&
          memcmp(scratch, zeros, POD1_SCRATCH(2)) == 0);
    free(text);
    free(scratch);
}

// ---- writers

static void headers(void)
{
    WRITES(HEADER, pod1_write_header(6, 365, 1, 1, 520, b, n));
    REFUSES(POD1_TREE, pod1_write_header(8, 365, 1, 1, 520, b, n));
    REFUSES(POD1_YEAR, pod1_write_header(6, 364, 1, 1, 520, b, n));
    REFUSES(POD1_PERIOD, pod1_write_header(4, 365, 1, 40, 520, b, n));
    REFUSES(POD1_LEVEL, pod1_write_header(6, 365, 1, 1, 0, b, n));
    WRITES("0104016D007801150208", pod1_write_place(4, 365, 520, 600, 0, b, n));
    REFUSES(POD1_PLACE, pod1_write_place(4, 365, 520, 900, 0, b, n));
    REFUSES(POD1_PLACE, pod1_write_place(4, 365, 520, 600, 3001, b, n));
    REFUSES(POD1_PLACE, pod1_write_place(6, 365, 520, 600, 0, b, n));
    REFUSES(POD1_YEAR, pod1_write_place(4, 364, 520, 900, 0, b, n));
    REFUSES(POD1_TREE, pod1_write_place(0, 365, 520, 600, 0, b, n));
    REFUSES(POD1_LEVEL, pod1_write_place(4, 365, 10001, 600, 0, b, n));
}

static void hours(void)
{
    const pod1_hour hour = {1, 0, 0, 500, 0, 0, 230, 1000, 300, 1000};
    pod1_hour cold = hour, watered = hour, lacking = hour;
    WRITES("0200010001F40000000000E603E8012C03E8", pod1_write_hour(hour, b, n));
    WRITES("0400010001F40000000000E603E8012C03E82794", pod1_write_hour_pressure(hour, 10132, b, n));
    WRITES("0500010001F40000000000E603E8012C03E8", pod1_write_hour_humidity(hour, b, n));
    cold.temperature = -35;
    WRITES("0200010001F400000000FFDD03E8012C03E8", pod1_write_hour(cold, b, n));
    lacking.ozone = POD1_MISSING;
    WRITES("02000100FFFF0000000000E603E8012C03E8", pod1_write_hour(lacking, b, n));
    watered.water = 1;
    WRITES("0200010001F40000000000E603E8012C03E8", pod1_write_hour(watered, b, n));
    watered.soil = 1001;
    REFUSES(with_field(POD1_RANGE, 7), pod1_write_hour(watered, b, n));
    cold.temperature = -501;
    REFUSES(with_field(POD1_RANGE, 4), pod1_write_hour(cold, b, n));
    REFUSES(with_field(POD1_RANGE, 8), pod1_write_hour_pressure(hour, 4999, b, n));
    cold = hour;
    cold.vapour = 1001;
    REFUSES(with_field(POD1_RANGE, 5), pod1_write_hour_humidity(cold, b, n));
}

static void other_frames(void)
{
    pod1_parameters beech = {155, 13, 60, 5, 16, 33, 1000, 3100, 50, 1250, 70, 0, 40, 20, 20, 1};
    WRITES("030018", pod1_write_end(24, b, n));
    WRITES("061388", pod1_write_ceiling(5000, b, n));
    REFUSES(POD1_CEILING, pod1_write_ceiling(5001, b, n));
    WRITES("07009B000D003C00050010002103E80C1C003204E2004600000028001400140001",
        pod1_write_parameters(beech, b, n));
    beech.tmin = -5;
    WRITES("07009B000D003CFFFB0010002103E80C1C003204E2004600000028001400140001",
        pod1_write_parameters(beech, b, n));
    beech.gmax = 0;
    REFUSES(POD1_PARAMETER, pod1_write_parameters(beech, b, n));
    WRITES("080064006400C8", pod1_write_warmth(100, 100, 200, b, n));
    REFUSES(POD1_WARMTH, pod1_write_warmth(100, 100, 150, b, n));
}

// ---- the header's sizes

static size_t digits(uint64_t n)
{
    return n < 10 ? 1 : 1 + digits(n / 10);
}

static void put(uint8_t *account, size_t place, size_t width, uint64_t number)
{
    for (size_t i = width; i-- > 0; number /= 256)
        account[place + i] = (uint8_t)(number % 256);
}

// The account whose line is longest: tree 7's leap year, closed, every hour counted, each figure at
// row 13's limit.
static uint8_t *fullest(uint64_t hours, uint64_t dose, uint64_t aot40)
{
    uint8_t *account = fresh();
    HOLDS(fed(account, "0107016E0001016E0001") == 0);
    HOLDS(fed(account, "07009B000D003C00050010002103E80C1C003204E2004600000028001400140001") == 0);
    put(account, 1, 1, 2);
    put(account, 2, 1, 2);
    put(account, 3, 2, hours);
    put(account, 5, 2, hours);
    put(account, 9, 8, dose);
    put(account, 17, 8, dose);
    put(account, 25, 4, aot40);
    put(account, 29, 4, aot40);
    return account;
}

static void longest_texts(void)
{
    static const int DAYS[] = {31, 29, 31, 30, 31, 30, 31, 31, 30, 31, 30, 31};
    const uint64_t hours = 366 * HOURS, dose = 1500000,
                   aot40 = 4600; // each hour adds at most so much
    uint8_t *account = fullest(hours, dose * hours, aot40 * hours);
    WRITES("8784 8784 13176000000 13176000000 40406400 40406400 exceeded\n",
        pod1_line(account, POD1_ACCOUNT, b, n));
    put(account, 29, 4, aot40 * hours + 1);
    HOLDS(pod1_read(account, POD1_ACCOUNT).code == POD1_IMPOSSIBLE);
    free(account);
    // numbers, a space behind each, verdict and line feed
    size_t line = 2 * (digits(hours) + digits(dose * hours) + digits(aot40 * hours)) + 6 +
                  strlen("undecided") + 1,
           report = line;
    for (uint64_t m = 0; m < 12; m++) {
        uint64_t most = (uint64_t)DAYS[m] * HOURS;
        report +=
            digits(m + 1) + digits(most) + 2 * (digits(dose * most) + digits(aot40 * most)) + 6;
    }
    HOLDS(line <= POD1_LINE && report <= POD1_REPORT);
    HOLDS(2 * 33 == POD1_FRAME && POD1_SCRATCH(366) == 1098);
}

int main(void)
{
    fresh_accounts();
    a_day();
    refusals();
    own_tree();
    impossible();
    floats();
    trials();
    lists();
    bad_lists();
    reports();
    comparisons();
    stretches();
    headers();
    hours();
    other_frames();
    longest_texts();
    printf("part: %d facts of the calls, %d broken\n", facts, broken);
    return broken ? 1 : 0;
}
