/* A station that outlives a power cut: each line of a season goes to the account, which is stored
 * before the next line is read.
 *
 *     station STATE <SEASON
 *
 * feeds the season text to the account in the file STATE, from the first line on that it has not
 * had yet; to a fresh one where there is no such file. Prints the account's line. Exit status 1
 * where a line is refused, 2 where a file cannot be used.
 */
#define _POSIX_C_SOURCE 200809L
#include "pod1.h"

#include <errno.h>
#include <stdio.h>
#include <unistd.h>

/* The account, and behind it the number of lines that it has had, high byte first: the part never
 * touches what stands behind an account. */
enum { COUNT = 4 };
static uint8_t state[POD1_ACCOUNT + COUNT];

static uint32_t lines_fed(void) {
    uint32_t n = 0;
    for (int i = 0; i < COUNT; i++) n = n * 256 + state[POD1_ACCOUNT + i];
    return n;
}

static void count_lines(uint32_t n) {
    for (int i = COUNT; i-- > 0; n /= 256) state[POD1_ACCOUNT + i] = (uint8_t)(n % 256);
}

/* Written beside, then renamed: the file holds the account before a line or the one after it, never
 * a part of one. The folder is not synced: after a power cut the file may be that of a line before,
 * which says itself how many lines it has had. */
static int store(const char *name) {
    char beside[4096];
    if ((size_t)snprintf(beside, sizeof beside, "%s.new", name) >= sizeof beside) return -1;
    FILE *file = fopen(beside, "wb");
    if (!file) return -1;
    int bad =
        fwrite(state, 1, sizeof state, file) != sizeof state || fflush(file) || fsync(fileno(file));
    if (fclose(file) || bad) return -1;
    return rename(beside, name);
}

/* Only where there is no file a season is begun: one that cannot be read, or holds no account, is
 * never overwritten. */
static int take_up(const char *name) {
    FILE *file = fopen(name, "rb");
    if (!file) return errno == ENOENT && pod1_fresh(state, sizeof state) == 0 ? 0 : -1;
    int is_whole =
        fread(state, 1, sizeof state, file) == sizeof state && fgetc(file) == EOF && !ferror(file);
    fclose(file);
    return is_whole && pod1_read(state, sizeof state).code == 0 ? 0 : -1;
}

/* A line's longest frame, a carriage return, and one byte more: of a longer line the front is kept,
 * which row 1 refuses as it would the whole. */
enum { LONGEST = POD1_FRAME + 2 };

/* The next line of the text, without its line feed and a carriage return before that: its length,
 * or -1 where there is none. */
static int next_line(uint8_t line[LONGEST]) {
    int c, n = 0;
    while ((c = getchar()) != EOF && c != '\n') {
        if (n < LONGEST) line[n++] = (uint8_t)c;
    }
    if (c == EOF && n == 0) return -1;
    return n > 0 && line[n - 1] == '\r' ? n - 1 : n;
}

static int feed(const char *name, const uint8_t *line, int length) {
    uint32_t code = pod1_feed(state, sizeof state, line, (size_t)length), number = lines_fed() + 1;
    if (code) {
        fprintf(stderr, "station: line %u is refused by row %u, field %u\n", (unsigned)number,
            (unsigned)POD1_ROW(code), (unsigned)POD1_FIELD(code));
        return 1;
    }
    count_lines(number);
    if (store(name)) {
        perror("station: the account cannot be stored");
        return 2;
    }
    return 0;
}

int main(int count, char **words) {
    if (count != 2) {
        fprintf(stderr, "usage: station STATE <SEASON\n");
        return 2;
    }
    if (take_up(words[1])) {
        fprintf(stderr, "station: %s holds no account that can be taken up\n", words[1]);
        return 2;
    }
    uint8_t line[LONGEST], text[POD1_LINE];
    uint32_t had = lines_fed();
    for (int length; (length = next_line(line)) >= 0;) {
        if (had > 0) {
            had--;
            continue;
        }
        int bad = feed(words[1], line, length);
        if (bad) return bad;
    }
    size_t printed = (size_t)pod1_line(state, sizeof state, text, sizeof text).length;
    if (ferror(stdin) || fwrite(text, 1, printed, stdout) != printed || fflush(stdout)) {
        perror("station");
        return 2;
    }
    return 0;
}
