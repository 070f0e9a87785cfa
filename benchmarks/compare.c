// Compares the two versions: `compare check`, `compare time`, or `compare count VERSION SHAPE RATES TIMES`.
#include "pooling.h"
#include <stdio.h>
#include <stdlib.h>
#include <string.h>
#include <time.h>

#define MOST 1024
#define CHECKS 100000
#define ROUNDS 20
#define LISTS 1000

typedef size_t fit(const struct rate *, size_t, uint32_t);

static struct rate rates[LISTS][MOST + 1];

// A number below the limit, from a fixed sequence.
static uint32_t draw(uint32_t limit)
{
    static uint64_t state = 88172645463325252u;
    state ^= state << 13;
    state ^= state >> 7;
    state ^= state << 17;
    return (uint32_t)((state >> 32) % limit);
}

static void fill(struct rate *list, const char *shape, size_t count)
{
    for (size_t i = 0; i < count; i++) {
        if (strcmp(shape, "random") == 0)
            list[i] = (struct rate){ draw(100), 1 + draw(10000) };
        else
            list[i] = (struct rate){ (uint32_t)(shape[0] == 'r' ? i : count - i), 1000 };
    }
}

// Random lists of every length, with light, heavy and too heavy rates; some have a rate without exposure.
static int check(void)
{
    static const uint32_t limits[] = { 3, 20, 1000, 1000000, 4000000 };
    struct rate *tried = rates[0];
    size_t refused = 0;
    for (int list = 0; list < CHECKS; list++) {
        size_t count = draw(MOST + 2);
        uint32_t failures = limits[draw(5)], exposures = limits[draw(5)];
        for (size_t i = 0; i < count; i++)
            tried[i] = (struct rate){ draw(failures), 1 + draw(exposures) };
        if (count > 0 && draw(50) == 0)
            tried[draw((uint32_t)count)].exposure = 0;
        size_t blocks = pool_repeatedly(tried, count, 1);
        if (blocks != c_pool_repeatedly(tried, count, 1)) {
            printf("list %d of %zu rates differs\n", list, count);
            return 1;
        }
        refused += blocks == 0;
    }
    printf("%d random lists: the same number of blocks, %zu refused by both\n", CHECKS, refused);
    return 0;
}

// Nanoseconds to fit each list so many times.
static double spent(fit *pool, size_t lists, size_t count, uint32_t times)
{
    struct timespec from, to;
    clock_gettime(CLOCK_MONOTONIC, &from);
    for (size_t i = 0; i < lists; i++)
        pool(rates[i], count, times);
    clock_gettime(CLOCK_MONOTONIC, &to);
    return (double)(to.tv_sec - from.tv_sec) * 1e9 + (double)(to.tv_nsec - from.tv_nsec);
}

// One version's least times over the rounds.
struct least {
    double fits;
    double none;
};

static void measure(struct least *least, fit *pool, size_t lists, size_t count, uint32_t times)
{
    double fits = spent(pool, lists, count, times), none = spent(pool, lists, count, 0);
    if (fits < least->fits)
        least->fits = fits;
    if (none < least->none)
        least->none = none;
}

// One fit of each version, without the reading in of its list, the versions in turn.
static void compare(const char *name, size_t lists, size_t count, uint32_t times)
{
    struct least rattle = { 1e18, 1e18 }, c = { 1e18, 1e18 };
    for (int round = 0; round < ROUNDS; round++) {
        measure(&rattle, pool_repeatedly, lists, count, times);
        measure(&c, c_pool_repeatedly, lists, count, times);
    }
    double fits = (double)lists * times;
    double ours_ns = (rattle.fits - rattle.none) / fits, c_ns = (c.fits - c.none) / fits;
    printf("%-14s %6zu %11.0f %11.0f %6.2f\n", name, count, ours_ns, c_ns, ours_ns / c_ns);
}

static int times(void)
{
    printf("%-14s %6s %11s %11s %6s\n", "list", "rates", "Rattle ns", "C ns", "ratio");
    for (size_t count = MOST / 4; count <= MOST; count *= 2) {
        for (size_t i = 0; i < LISTS; i++)
            fill(rates[i], "random", count);
        compare("random, new", LISTS, count, 1);
        compare("random, again", 1, count, LISTS);
        fill(rates[0], "rising", count);
        compare("rising", 1, count, LISTS);
        fill(rates[0], "falling", count);
        compare("falling", 1, count, LISTS);
    }
    return 0;
}

int main(int argc, char **argv)
{
    if (argc == 2 && strcmp(argv[1], "check") == 0)
        return check();
    if (argc == 2 && strcmp(argv[1], "time") == 0)
        return times();
    if (argc == 6 && strcmp(argv[1], "count") == 0) {
        fit *pool = strcmp(argv[2], "c") == 0 ? c_pool_repeatedly : pool_repeatedly;
        size_t count = strtoul(argv[4], NULL, 10);
        if (count > MOST)
            return 2;
        fill(rates[0], argv[3], count);
        return pool(rates[0], count, (uint32_t)strtoul(argv[5], NULL, 10)) == 0;
    }
    return 2;
}
