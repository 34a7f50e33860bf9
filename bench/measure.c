/* Times the project and the two C twins side by side; bench/run calls it:
       measure                                              the check
       measure TITLE PROGRAM JUDGING PLAIN (FILE WHAT) ..   a program and its twins: the listing, or the report
   The first file has no byte: what a program takes for it is what starting it takes.
   All times are processor time, so that others who use the machine count less. */
#define _DEFAULT_SOURCE
#include "plain_check.h"
#include "record_desk.h"

#include <fcntl.h>
#include <spawn.h>
#include <stdio.h>
#include <stdlib.h>
#include <sys/resource.h>
#include <sys/wait.h>
#include <time.h>

enum { CHECK_ROUNDS = 60, PROCESS_ROUNDS = 100, LARGEST = 1 << 20 };

extern char **environ;

static double now(void)
{
    struct timespec t;
    clock_gettime(CLOCK_PROCESS_CPUTIME_ID, &t);
    return (double)t.tv_sec + (double)t.tv_nsec * 1e-9;
}

/* ---- the check */

static volatile uint32_t sink;

/* Seconds for one check of `length` bytes, over enough of them to make about a millisecond, four megabytes. */
static double check_time(uint32_t (*check)(const uint8_t *, size_t), const uint8_t *bytes, size_t length)
{
    size_t times = 4 * LARGEST / length;
    double began = now();
    for (size_t i = 0; i < times; i++)
        sink += check(bytes, length);
    return (now() - began) / (double)times;
}

static void checks(void)
{
    static const size_t lengths[] = {16, 508, 4096, 65536, LARGEST};
    uint8_t *bytes = malloc(LARGEST);
    uint32_t state = 1;

    if (!bytes)
        exit(2);
    for (size_t i = 0; i < LARGEST; i++) {
        state = state * 1664525u + 1013904223u;
        bytes[i] = (uint8_t)(state >> 24);
    }
    printf("the check, megabytes a second, best of %d\n", CHECK_ROUNDS);
    printf("%36s %10s %10s   %s\n", "bytes", "project", "twin", "time, project / twin");
    for (size_t k = 0; k < sizeof lengths / sizeof lengths[0]; k++) {
        size_t length = lengths[k];
        double project = 1e9, twin = 1e9;
        if (block_check(bytes, length) != plain_check(bytes, length)) {
            printf("the checks of %zu bytes differ\n", length);
            exit(1);
        }
        for (int i = 0; i < CHECK_ROUNDS; i++) {
            double p = check_time(block_check, bytes, length), t = check_time(plain_check, bytes, length);
            project = p < project ? p : project;
            twin = t < twin ? t : twin;
        }
        printf("%36zu %10.0f %10.0f   %.2f\n", length, (double)length / project / 1e6, (double)length / twin / 1e6, project / twin);
    }
    free(bytes);
}

/* ---- the programs */

static double seconds(struct timeval t)
{
    return (double)t.tv_sec + (double)t.tv_usec * 1e-6;
}

/* Seconds that a program takes from its start to its end, with the file as its input and nothing kept of what it prints. */
static double process_time(const char *program, const char *file)
{
    char *const words[] = {(char *)program, NULL};
    posix_spawn_file_actions_t actions;
    struct rusage used;
    pid_t child;
    int status;

    posix_spawn_file_actions_init(&actions);
    posix_spawn_file_actions_addopen(&actions, 0, file, O_RDONLY, 0);
    posix_spawn_file_actions_addopen(&actions, 1, "/dev/null", O_WRONLY, 0);
    if (posix_spawn(&child, program, &actions, NULL, words, environ) || wait4(child, &status, 0, &used) < 0 || status) {
        printf("%s failed on %s\n", program, file);
        exit(1);
    }
    posix_spawn_file_actions_destroy(&actions);
    return seconds(used.ru_utime) + seconds(used.ru_stime);
}

enum { PROJECT, JUDGING, PLAIN, PROGRAMS };

/* A ratio of the project's time to a twin's, and where the programs' starts are known that of the times without them. */
static void ratio(const double *best, const double *start, int twin)
{
    printf("  %6.2f", best[PROJECT] / best[twin]);
    if (start[PROJECT] > 0)
        printf(", %5.2f", (best[PROJECT] - start[PROJECT]) / (best[twin] - start[twin]));
    else
        printf("       ");
}

static void processes(const char *title, char **programs, int count, char **files)
{
    double start[PROGRAMS] = {0};

    printf("\n%s, milliseconds for a whole process, best of %d, and the project's time over that of each twin;\n", title, PROCESS_ROUNDS);
    printf("the second ratio is without what each program takes for no byte at all, which is its start\n");
    printf("%36s %8s %8s %8s  %s  %s\n", "file", "project", "judging", "plain", "  over judging", "    over plain");
    for (int k = 0; k < count; k++) {
        double best[PROGRAMS] = {1e9, 1e9, 1e9};
        for (int i = 0; i < PROCESS_ROUNDS; i++)
            for (int p = 0; p < PROGRAMS; p++) {
                double t = process_time(programs[p], files[2 * k]);
                best[p] = t < best[p] ? t : best[p];
            }
        printf("%36s %8.2f %8.2f %8.2f", files[2 * k + 1], 1e3 * best[PROJECT], 1e3 * best[JUDGING], 1e3 * best[PLAIN]);
        ratio(best, start, JUDGING);
        ratio(best, start, PLAIN);
        printf("\n");
        for (int p = 0; k == 0 && p < PROGRAMS; p++)
            start[p] = best[p];
    }
}

int main(int count, char **words)
{
    if (count == 1)
        checks();
    else if (count >= 7 && count % 2)
        processes(words[1], words + 2, (count - 5) / 2, words + 5);
    else
        return 2;
    return 0;
}
