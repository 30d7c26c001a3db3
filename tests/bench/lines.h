// A text in memory and where its lines are, so that a program can time the feeding of them alone;
// and the clock. What not every includer calls is inline, so that none is warned of it.
#include <math.h>
#include <stdint.h>
#include <stdio.h>
#include <stdlib.h>
#include <string.h>
#include <time.h>

struct text {
    uint8_t *bytes;
    size_t n, lines;
    size_t *starts, *ends;
};

enum { MOST_BYTES = 1 << 20, MOST_LINES = 10000 };

static inline void find_lines(struct text *t)
{
    t->lines = 0;
    for (size_t i = 0; i < t->n && t->lines < MOST_LINES; i = t->ends[t->lines++] + 1) {
        const uint8_t *feed_at = memchr(t->bytes + i, '\n', t->n - i);
        t->starts[t->lines] = i;
        t->ends[t->lines] = feed_at ? (size_t)(feed_at - t->bytes) : t->n;
    }
}

// The file's text, with room for more in front of it.
static struct text whole(const char *name, size_t in_front)
{
    FILE *file = fopen(name, "rb");
    struct text t = {calloc(MOST_BYTES, 1), 0, 0, calloc(MOST_LINES, sizeof(size_t)),
        calloc(MOST_LINES, sizeof(size_t))};
    if (!file || !t.bytes || !t.starts || !t.ends)
        exit(2);
    t.n = in_front + fread(t.bytes + in_front, 1, MOST_BYTES - in_front, file);
    fclose(file);
    return t;
}

static double now(void)
{
    struct timespec t;
    clock_gettime(CLOCK_MONOTONIC, &t);
    return (double)t.tv_sec + 1e-9 * (double)t.tv_nsec;
}

// The least times of a season's parts, PART lines each, over several runs: a part is short enough
// that some run of it is not disturbed by other programs. Lines after the last whole part are not
// timed.
enum { PART = 100, MOST_PARTS = MOST_LINES / PART };

struct least {
    double of[MOST_PARTS];
};

static inline struct least none_yet(void)
{
    struct least l;
    for (size_t i = 0; i < MOST_PARTS; i++)
        l.of[i] = 1e9;
    return l;
}

static inline void keep_least(struct least *l, size_t line, double seconds)
{
    l->of[line / PART] = fmin(l->of[line / PART], seconds);
}

// For each line.
static inline double mean(const struct least *l, const struct text *t)
{
    double sum = 0;
    size_t parts = t->lines / PART;
    for (size_t i = 0; i < parts; i++)
        sum += l->of[i];
    return sum / (double)(parts * PART);
}

// Where a part begins, and where the next one does.
#define EACH_PART(start, t) size_t start = 0; start + PART <= (t)->lines; start += PART
#define EACH_LINE(line, start) size_t line = start; line < (start) + PART; line++
