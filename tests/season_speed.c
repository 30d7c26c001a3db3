// A season's text in memory, from its first line to its last: how long one call of pod1_report
// takes on it, and pod1_feed line by line, over the same account in C with doubles
// (tests/bench/season.h); and pod1_fresh with pod1_read for each line, which store and take up 88
// bytes, over pod1_feed. Ratios of times, the least of RUNS runs of each, in turn, in one process.
//     season_speed TEXT
// Each finds the lines for itself, C and the feeding by memchr. C ends its months too, but prints
// nothing; the report prints its lines.
#include "../include/pod1.h"
#include "bench/doubles.h"
#include "bench/lines.h"

enum { RUNS = 400 };

enum way { REPORT, DOUBLES, FEED, BYTES, WAYS };

struct results {
    uint8_t report[POD1_REPORT], account[POD1_ACCOUNT], other[POD1_ACCOUNT];
    pod1_printed printed;
    struct season season;
    int lines;
};

static void feed_lines(const struct text *t, uint8_t account[POD1_ACCOUNT])
{
    pod1_fresh(account, POD1_ACCOUNT);
    for (size_t i = 0, end; i < t->n; i = end + 1) {
        end = line_end(t->bytes, i, t->n);
        pod1_feed(account, POD1_ACCOUNT, t->bytes + i, end - i);
    }
}

static void go(enum way way, const struct text *t, struct results *r)
{
    switch (way) {
    case REPORT:
        r->printed = pod1_report(t->bytes, t->n, r->report, sizeof r->report);
        break;
    case DOUBLES:
        r->season = (struct season){0};
        feed_text(&r->season, t->bytes, t->n, &r->lines);
        end_months(&r->season, 1);
        break;
    case FEED:
        feed_lines(t, r->account);
        break;
    default:
        for (int i = 0; i < r->lines; i++) {
            pod1_fresh(r->other, sizeof r->other);
            pod1_read(r->other, sizeof r->other);
        }
    }
}

// C's figures are those of the account in bytes, whose line is the report's first.
static int agree(const struct results *r)
{
    const struct season *s = &r->season;
    uint8_t line[POD1_LINE];
    pod1_readout a = pod1_read(r->account, sizeof r->account);
    pod1_printed p = pod1_line(r->account, sizeof r->account, line, sizeof line);
    int is_same = a.hours == (unsigned)s->hours && a.counted == (unsigned)s->counted &&
                  a.least == s->aot40[0] && a.most == s->aot40[1];
    int is_line =
        p.length > 0 && p.length <= r->printed.length && memcmp(line, r->report, p.length) == 0;
    return s->phase == CLOSED && a.code == 0 && is_same && (double)a.lower <= s->pod[0] &&
           s->pod[1] <= (double)a.upper && is_line;
}

int main(int argc, char **argv)
{
    if (argc != 2)
        return 2;
    struct text t = whole(argv[1], 0);
    double least[WAYS] = {1e9, 1e9, 1e9, 1e9};
    for (int run = 0; run < RUNS; run++) {
        struct results r;
        for (enum way way = 0; way < WAYS; way++) {
            double began = now();
            go(way, &t, &r);
            least[way] = fmin(least[way], now() - began);
        }
        if (!agree(&r)) {
            puts("the figures differ");
            return 1;
        }
    }
    printf("pod1_report %.2f of C with doubles\n", least[REPORT] / least[DOUBLES]);
    printf("pod1_feed %.2f of C with doubles\n", least[FEED] / least[DOUBLES]);
    printf("pod1_fresh and pod1_read %.2f of pod1_feed\n", least[BYTES] / least[FEED]);
    return 0;
}
