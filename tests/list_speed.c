// A season's lines fed to six accounts together (pod1_feed_all) and to the same six one after the
// other (pod1_feed), line by line; how their times compare, the least of RUNS runs of each part of
// the season, in turn.
//     list_speed TEXT
// The text's header is that of all six, but for the tree: they have the trees of its soil measure.
// Exit status 1 where together does not take less.
#include "../include/pod1.h"
#include "bench/lines.h"

enum { HEADER = 20, RUNS = 40 };

// The six accounts, one after the other.
struct stand {
    uint8_t bytes[POD1_LIST * POD1_ACCOUNT];
};

static struct stand opened(const struct text *t)
{
    struct stand six;
    uint8_t header[HEADER];
    memcpy(header, t->bytes, sizeof header);
    const char *trees = header[3] < '3' ? "121212" : "345634";
    for (size_t i = 0; i < POD1_LIST; i++) {
        uint8_t *account = six.bytes + i * POD1_ACCOUNT;
        header[3] = (uint8_t)trees[i];
        if (pod1_fresh(account, POD1_ACCOUNT) ||
            pod1_feed(account, POD1_ACCOUNT, header, sizeof header))
            exit(2);
    }
    return six;
}

// A part of the season in both ways, one directly after the other, so that what disturbs the one
// disturbs the other.
static void run_part(const struct text *t, size_t start, struct stand *one, struct stand *other,
    struct least *of_all, struct least *of_each)
{
    double began = now();
    for (EACH_LINE(i, start))
        pod1_feed_all(
            one->bytes, sizeof one->bytes, t->bytes + t->starts[i], t->ends[i] - t->starts[i]);
    double middle = now();
    for (EACH_LINE(i, start))
        for (size_t a = 0; a < POD1_LIST; a++)
            pod1_feed(other->bytes + a * POD1_ACCOUNT, POD1_ACCOUNT, t->bytes + t->starts[i],
                t->ends[i] - t->starts[i]);
    keep_least(of_all, start, middle - began);
    keep_least(of_each, start, now() - middle);
}

// Both ways gave the same accounts, and every hour was taken; the header, which the six have had,
// was refused.
static int agree(const struct text *t, const struct stand *one, const struct stand *other)
{
    int is_same = memcmp(one, other, sizeof *one) == 0;
    for (size_t a = 0; a < POD1_LIST; a++)
        is_same &= pod1_read(one->bytes + a * POD1_ACCOUNT, POD1_ACCOUNT).hours ==
                   t->lines / PART * PART - 1;
    return is_same;
}

int main(int argc, char **argv)
{
    if (argc != 2)
        return 2;
    struct text t = whole(argv[1], 0);
    find_lines(&t);
    struct least of_all = none_yet(), of_each = none_yet();
    for (int run = 0; run < RUNS; run++) {
        struct stand one = opened(&t), other = one;
        for (EACH_PART(start, &t))
            run_part(&t, start, &one, &other, &of_all, &of_each);
        if (!agree(&t, &one, &other)) {
            puts("the accounts differ");
            return 1;
        }
    }
    double ratio = mean(&of_all, &t) / mean(&of_each, &t);
    printf("six accounts: pod1_feed_all %.2f of six pod1_feed, line by line\n", ratio);
    return ratio < 1 ? 0 : 1;
}
