// How much stack each call of the part takes: a line for each with its name and the bytes, by
// painting a thread's stack. Each is called on whole days of the evergreen and of a laboratory's
// tree by warmth, in each kind of hour, ozone missing or not; the most of them is given, its
// arguments on the stack among it.
#include "../../include/pod1.h"

#include <pthread.h>
#include <stdio.h>
#include <stdlib.h>
#include <string.h>

enum { TREES = 2, KINDS = 3, TEXTS = 2 * TREES * KINDS, HOURS = 24, NOON = 12, MOST_LINES = 32 };

struct text {
    uint8_t bytes[2048];
    size_t n;
    const uint8_t *lines[MOST_LINES];
    size_t lengths[MOST_LINES], count, noon; // noon's line
};

static const pod1_parameters OWN = {
    230, 10, 50, 0, 22, 35, 1000, 3200, 100, 1500, 43, 20, 40, 0, 0, 1};
static struct text texts[TEXTS];
static uint8_t fresh[TEXTS][POD1_ACCOUNT], open[TEXTS][POD1_ACCOUNT], at_noon[TEXTS][POD1_ACCOUNT],
    trials[TEXTS][POD1_TRIAL];
static uint8_t stands[TEXTS][POD1_LIST * POD1_ACCOUNT], buffer[POD1_REPORT],
    scratch[POD1_SCRATCH(366)];

static void add(struct text *t, pod1_printed printed)
{
    if (printed.code)
        exit(3);
    t->lines[t->count] = t->bytes + t->n;
    t->lengths[t->count++] = printed.length;
    t->n += printed.length;
    t->bytes[t->n++] = '\n';
}

#define ADD(write, ...) add(t, write(__VA_ARGS__, t->bytes + t->n, sizeof t->bytes - t->n))

// A day in a kind of hour, every hour counted, at Topt, where the power takes most.
static void make(struct text *t, int is_own, int kind, int lacks_noon)
{
    ADD(pod1_write_header, is_own ? 7 : 6, 365, 1, 1, 520);
    if (is_own) {
        ADD(pod1_write_parameters, OWN);
        ADD(pod1_write_warmth, 100, 100, 200);
    }
    ADD(pod1_write_ceiling, 5000);
    for (uint8_t h = 0; h < HOURS; h++) {
        pod1_hour hour = {1, h, 0, 500, 500, 400, 220, 950, 300, 1200};
        if (h == NOON) {
            hour.ozone = lacks_noon ? POD1_MISSING : 500;
            t->noon = t->count;
        }
        if (kind == 0)
            ADD(pod1_write_hour, hour);
        else if (kind == 1)
            ADD(pod1_write_hour_pressure, hour, 9500);
        else
            ADD(pod1_write_hour_humidity, hour);
    }
    ADD(pod1_write_end, HOURS);
}

static uint32_t feed(uint8_t *account, const struct text *t, size_t line)
{
    return pod1_feed(account, POD1_ACCOUNT, t->lines[line], t->lengths[line]);
}

static void prepare(void)
{
    for (int i = 0; i < TEXTS; i++) {
        struct text *t = &texts[i];
        make(t, i / 2 / KINDS, i / 2 % KINDS, i % 2);
        if (pod1_fresh(fresh[i], POD1_ACCOUNT) || pod1_fresh(at_noon[i], POD1_ACCOUNT))
            exit(3);
        for (size_t line = 0; line < t->noon; line++) {
            if (line == t->noon - NOON)
                memcpy(open[i], at_noon[i], POD1_ACCOUNT);
            if (feed(at_noon[i], t, line))
                exit(3);
        }
        for (int a = 0; a < POD1_LIST; a++)
            memcpy(stands[i] + a * POD1_ACCOUNT, at_noon[i], POD1_ACCOUNT);
        const uint8_t *line = t->lines[t->noon];
        size_t length = t->lengths[t->noon];
        if (pod1_trial(at_noon[i], POD1_ACCOUNT, line, length, trials[i], POD1_TRIAL).code)
            exit(3);
    }
}

// ---- the calls, each in a function of its own, which tells where the stack stands before them

static volatile uintptr_t top;
static volatile uint32_t refused; // 0 where every call answered as it should

#define MARK() __asm__ volatile("mov %%rsp, %0" : "=r"(top))
#define EACH(i) \
    MARK(); \
    for (int i = 0; i < TEXTS; i++)

static void run_fresh(void) { EACH(i) refused |= pod1_fresh(buffer, sizeof buffer); }

static void run_feed(void)
{
    EACH(i)
        for (size_t line = 0; line < texts[i].count; line++)
            refused |=
                pod1_feed(fresh[i], POD1_ACCOUNT, texts[i].lines[line], texts[i].lengths[line]);
}

static void run_feed_floats(void)
{
    EACH(i)
        refused |= pod1_feed_floats(open[i], POD1_ACCOUNT, 1, 0,
            (pod1_floats){POD1_MISSING, 500, 400, 220, 950, 300, 1200});
}

static void run_read(void) { EACH(i) refused |= pod1_read(at_noon[i], POD1_ACCOUNT).code; }
static void run_line(void)
{
    EACH(i)
        refused |= pod1_line(at_noon[i], POD1_ACCOUNT, buffer, sizeof buffer).code;
}

static void run_trial(void)
{
    EACH(i)
    {
        const uint8_t *line = texts[i].lines[texts[i].noon];
        size_t length = texts[i].lengths[texts[i].noon], n = sizeof buffer;
        refused |= pod1_trial(at_noon[i], POD1_ACCOUNT, line, length, buffer, n).answer;
    }
}

static void run_take(void)
{
    EACH(i)
        refused |= pod1_take(at_noon[i], POD1_ACCOUNT, trials[i], POD1_TRIAL);
}

static void run_feed_all(void)
{
    EACH(i)
        refused |= pod1_feed_all(stands[i], sizeof stands[i], texts[i].lines[texts[i].noon],
            texts[i].lengths[texts[i].noon]);
}

static void run_report(void)
{
    EACH(i)
        refused |= pod1_report(texts[i].bytes, texts[i].n, buffer, sizeof buffer).code;
}
static void run_compare(void)
{
    EACH(i)
        refused |= pod1_compare(texts[i].bytes, texts[i].n, texts[i].bytes, texts[i].n, 0).code !=
                   (i % 2 ? POD1_UNLIKE : 0);
}
static void run_worst_stretch(void)
{
    EACH(i)
        refused |= pod1_worst_stretch(texts[i].bytes, texts[i].n, 1, scratch, sizeof scratch).code;
}
static void run_write_header(void)
{
    EACH(i)
        refused |= pod1_write_header(7, 365, 1, 365, 520, buffer, sizeof buffer).code;
}
static void run_write_place(void)
{
    EACH(i)
        refused |= pod1_write_place(4, 365, 520, 600, 100, buffer, sizeof buffer).code;
}
static void run_write_hour(void)
{
    EACH(i)
        refused |= pod1_write_hour((pod1_hour){.ozone = 500}, buffer, sizeof buffer).code;
}
static void run_write_hour_pressure(void)
{
    EACH(i)
        refused |=
            pod1_write_hour_pressure((pod1_hour){.ozone = 500}, 9500, buffer, sizeof buffer).code;
}
static void run_write_hour_humidity(void)
{
    EACH(i)
        refused |= pod1_write_hour_humidity((pod1_hour){.ozone = 500}, buffer, sizeof buffer).code;
}
static void run_write_end(void)
{
    EACH(i)
        refused |= pod1_write_end(24, buffer, sizeof buffer).code;
}
static void run_write_ceiling(void)
{
    EACH(i)
        refused |= pod1_write_ceiling(5000, buffer, sizeof buffer).code;
}

static void run_write_parameters(void)
{
    EACH(i)
        refused |= pod1_write_parameters(OWN, buffer, sizeof buffer).code;
}
static void run_write_warmth(void)
{
    EACH(i)
        refused |= pod1_write_warmth(100, 100, 200, buffer, sizeof buffer).code;
}

// ---- the stack

static uint8_t stack[1 << 20] __attribute__((aligned(4096)));

static void *begin(void *run)
{
    (*(void (**)(void))run)();
    return NULL;
}

// From where the calls begin down to the lowest byte that they wrote.
static size_t stack_of(void (*run)(void))
{
    pthread_attr_t attributes;
    pthread_t thread;
    memset(stack, 0xA5, sizeof stack);
    pthread_attr_init(&attributes);
    if (pthread_attr_setstack(&attributes, stack, sizeof stack) ||
        pthread_create(&thread, &attributes, begin, &run))
        exit(2);
    pthread_join(thread, NULL);
    size_t untouched = 0;
    while (untouched < sizeof stack && stack[untouched] == 0xA5)
        untouched++;
    return top - (uintptr_t)(stack + untouched);
}

#define CALL(name) {"pod1_" #name, run_##name}
static const struct {
    const char *name;
    void (*run)(void);
} CALLS[] = {
    CALL(fresh),
    CALL(feed),
    CALL(feed_floats),
    CALL(read),
    CALL(line),
    CALL(trial),
    CALL(take),
    CALL(feed_all),
    CALL(report),
    CALL(compare),
    CALL(worst_stretch),
    CALL(write_header),
    CALL(write_place),
    CALL(write_hour),
    CALL(write_hour_pressure),
    CALL(write_hour_humidity),
    CALL(write_end),
    CALL(write_ceiling),
    CALL(write_parameters),
    CALL(write_warmth),
};

int main(void)
{
    prepare();
    for (size_t i = 0; i < sizeof CALLS / sizeof *CALLS; i++)
        printf("%s %zu\n", CALLS[i].name, stack_of(CALLS[i].run));
    return refused ? 1 : 0;
}
