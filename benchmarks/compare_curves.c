// Compares U-shaped fits of both versions. By its arguments:
//     check K                 both on many random bench runs and studies of at most K failures
//     ours-bench K TIMES      the library, a bench run of K failure ages
//     ours-lives K TIMES      the library, a sealed study of K lives that failed at these ages, in no order
//     plain K TIMES           the plain C program, the bench run
// The last three fit one input so many times, and print steps, turning gap and microseconds per fit.
#include "curves.h"
#include <stdbool.h>
#include <stdio.h>
#include <stdlib.h>
#include <string.h>
#include <time.h>

#define CHECKS 20000
#define HIGHEST 2000000u

static uint32_t ages[MOST_AGES], sorted[MOST_AGES];

// A number below the limit, from a fixed sequence.
static uint32_t draw(uint32_t limit)
{
    static uint64_t state = 88172645463325252u;
    state ^= state << 13;
    state ^= state >> 7;
    state ^= state << 17;
    return (uint32_t)((state >> 32) % limit);
}

static int by_age(const void *left, const void *right)
{
    uint32_t a = *(const uint32_t *)left, b = *(const uint32_t *)right;
    return (a > b) - (a < b);
}

static void sort(size_t count)
{
    memcpy(sorted, ages, count * sizeof *ages);
    qsort(sorted, count, sizeof *sorted, by_age);
}

// Different ages from 1 on, in no order, and sorted.
static void fill(size_t count)
{
    static bool taken[HIGHEST + 1];
    for (size_t i = 0; i < count;) {
        uint32_t age = 1 + draw(HIGHEST);
        if (!taken[age]) {
            taken[age] = true;
            ages[i++] = age;
        }
    }
    sort(count);
}

static bool same(const char *what, size_t count, uint32_t units, uint32_t stop, uint64_t ours, uint64_t plain)
{
    if (ours == plain)
        return true;
    printf("%s of %zu failures, %u units, stopped at %u: ", what, count, units, stop);
    printf("%u steps and gap %u, but %u and %u in C; ages", (unsigned)(ours % 65536), (unsigned)(ours / 65536),
           (unsigned)(plain % 65536), (unsigned)(plain / 65536));
    for (size_t i = 0; i < count; i++)
        printf(" %u", ages[i]);
    printf("\n");
    return false;
}

// Ages all alike, early and late ones, evenly spaced ones, or any up to a limit.
static void fill_unlike(size_t count)
{
    static const uint32_t limits[] = { 3, 20, 1000, 100000, 2097151 };
    uint32_t limit = limits[draw(5)], kind = draw(10);
    for (size_t i = 0; i < count; i++) {
        ages[i] = 1 + draw(limit);
        if (kind == 0)
            ages[i] = limit;
        else if (kind == 1)
            ages[i] = 1 + (uint32_t)i % limit;
        else if (kind == 2 && draw(3) < 2)
            ages[i] = draw(2) == 0 ? 1 + draw(1 + limit / 20) : limit - draw(1 + limit / 20);
    }
    sort(count);
}

static int check(size_t most)
{
    size_t refused = 0;
    for (int list = 0; list < CHECKS; list++) {
        // Mostly short lists: a long one takes the plain program long.
        size_t count = draw(list % 20 == 0 ? (uint32_t)most + 1 : (uint32_t)(most < 40 ? most : 40) + 1);
        fill_unlike(count);
        uint32_t last = count > 0 ? sorted[count - 1] : 1;
        uint32_t units = (uint32_t)count + (draw(2) == 0 ? 0 : draw(MOST_AGES + 1 - (uint32_t)count));
        uint32_t stop = draw(2) == 0 ? last : last + draw(2097152 - last);
        if (draw(50) == 0 && count > 0) // a void bench
            stop = last - 1;
        uint64_t plain = c_fit_repeatedly(sorted, count, units, stop, 1);
        if (!same("bench", count, units, stop, fit_repeatedly(sorted, count, units, stop, 1), plain))
            return 1;
        refused += plain == 0;
        plain = c_fit_repeatedly(sorted, count, (uint32_t)count, last, 1);
        if (!same("study", count, (uint32_t)count, last, fit_lives_repeatedly(ages, count, 1), plain))
            return 1;
        refused += plain == 0;
    }
    printf("%d random bench runs and as many studies: the same number of steps and turning gap, "
           "%zu refused by both\n", CHECKS, refused);
    return 0;
}

static int fit_times(const char *version, size_t count, uint32_t times)
{
    struct timespec from, to;
    uint64_t answer;
    fill(count);
    uint32_t units = (uint32_t)count, stop = sorted[count - 1];
    clock_gettime(CLOCK_MONOTONIC, &from);
    if (strcmp(version, "ours-bench") == 0)
        answer = fit_repeatedly(sorted, count, units, stop, times);
    else if (strcmp(version, "ours-lives") == 0)
        answer = fit_lives_repeatedly(ages, count, times);
    else if (strcmp(version, "plain") == 0)
        answer = c_fit_repeatedly(sorted, count, units, stop, times);
    else
        return 2;
    clock_gettime(CLOCK_MONOTONIC, &to);
    double spent = (double)(to.tv_sec - from.tv_sec) * 1e6 + (double)(to.tv_nsec - from.tv_nsec) / 1e3;
    printf("%s %zu ages: %u steps, gap %u, %.1f us per fit\n", version, count, (unsigned)(answer % 65536),
           (unsigned)(answer / 65536), times > 0 ? spent / (double)times : 0);
    return times > 0 && answer == 0;
}

int main(int argc, char **argv)
{
    size_t count = argc > 2 ? strtoul(argv[2], NULL, 10) : 0;
    if (count < 1 || count > MOST_AGES)
        return 2;
    if (argc == 3 && strcmp(argv[1], "check") == 0)
        return check(count);
    if (argc == 4)
        return fit_times(argv[1], count, (uint32_t)strtoul(argv[3], NULL, 10));
    return 2;
}
