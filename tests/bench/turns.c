// Programs run in turn with a text as standard input, each from its start to its end: a line for
// each with its name, and the least and the median of its times over those of the first.
//     turns TEXT RUNS PROGRAM..
#define _GNU_SOURCE
#include <fcntl.h>
#include <stdio.h>
#include <stdlib.h>
#include <string.h>
#include <sys/wait.h>
#include <time.h>
#include <unistd.h>

static double now(void)
{
    struct timespec t;
    clock_gettime(CLOCK_MONOTONIC, &t);
    return (double)t.tv_sec + 1e-9 * (double)t.tv_nsec;
}

static void become(const char *program, int text, int nowhere)
{
    if (dup2(text, STDIN_FILENO) < 0 || dup2(nowhere, STDOUT_FILENO) < 0)
        _exit(127);
    execl(program, program, (char *)NULL);
    _exit(127);
}

// The time that one run takes; the text is read from its start.
static double run(const char *program, int text, int nowhere)
{
    int status;
    if (lseek(text, 0, SEEK_SET) != 0)
        exit(2);
    double began = now();
    pid_t child = fork();
    if (child == 0)
        become(program, text, nowhere);
    if (child < 0 || waitpid(child, &status, 0) != child || status != 0)
        exit(2);
    return now() - began;
}

static int by_size(const void *a, const void *b)
{
    double x = *(const double *)a, y = *(const double *)b;
    return (x > y) - (x < y);
}

int main(int argc, char **argv)
{
    int runs = argc > 3 ? atoi(argv[2]) : 0, programs = argc - 3;
    if (runs < 1)
        return 2;
    int text = open(argv[1], O_RDONLY | O_CLOEXEC),
        nowhere = open("/dev/null", O_WRONLY | O_CLOEXEC);
    double *times = calloc((size_t)(runs * programs), sizeof *times);
    if (text < 0 || nowhere < 0 || !times)
        return 2;
    for (int i = 0; i < runs; i++)
        for (int p = 0; p < programs; p++)
            times[p * runs + i] = run(argv[3 + p], text, nowhere);
    for (int p = 0; p < programs; p++) {
        const double *mine = times + p * runs;
        const char *slash = strrchr(argv[3 + p], '/');
        qsort(times + p * runs, (size_t)runs, sizeof *times, by_size);
        printf("%s %.2f %.2f\n", slash ? slash + 1 : argv[3 + p], mine[0] / times[0],
            mine[runs / 2] / times[runs / 2]);
    }
    return 0;
}
