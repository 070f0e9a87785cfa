// U-shaped curves in plain C: both sides are fitted anew for every turning gap, each with a stack of blocks.
#include "curves.h"
#include <stdbool.h>

#define LAST_AGE 2097151u

struct block {
    size_t first;
    size_t last;
    uint32_t failures;
    uint32_t exposure;
};

// The blocks of both sides, the left ones first.
struct sides {
    size_t left;
    size_t all;
    struct block blocks[MOST_AGES];
};

void gather(const uint32_t *ages, size_t count, uint32_t units, uint32_t stop, struct gaps *gaps)
{
    uint32_t before = 0, watched = units, oldest = units > count ? stop : ages[count - 1];
    size_t made = 0;
    for (size_t i = 0; i < count && ages[i] < oldest;) {
        uint32_t failures = 0, age = ages[i];
        for (; i < count && ages[i] == age; i++)
            failures++;
        gaps->ages[made] = age;
        gaps->failures[made] = failures;
        gaps->exposures[made] = watched * (age - before);
        made++;
        watched -= failures;
        before = age;
    }
    gaps->exposures[made] = watched * (oldest - before);
    gaps->oldest = oldest;
    gaps->count = made;
}

static bool at_most(struct block low, struct block high)
{
    return (uint64_t)low.failures * high.exposure <= (uint64_t)high.failures * low.exposure;
}

static struct block pooled(struct block low, struct block high)
{
    return (struct block){ low.first, high.last, low.failures + high.failures, low.exposure + high.exposure };
}

// Fits the ages before the turning gap falling, each with the gap that ends there.
static void fit_left(const struct gaps *gaps, size_t turning, struct sides *sides)
{
    size_t height = 0;
    for (size_t i = 0; i + 1 < turning; i++) {
        struct block top = { i, i, gaps->failures[i], gaps->exposures[i] };
        while (height > 0 && at_most(sides->blocks[height - 1], top))
            top = pooled(sides->blocks[--height], top);
        sides->blocks[height++] = top;
    }
    sides->left = height;
}

// Fits the ages after it rising, each with the gap that begins there.
static void fit_right(const struct gaps *gaps, size_t turning, struct sides *sides)
{
    size_t height = sides->left;
    for (size_t i = turning - 1; i < gaps->count; i++) {
        struct block top = { i, i, gaps->failures[i], gaps->exposures[i + 1] };
        while (height > sides->left && at_most(top, sides->blocks[height - 1]))
            top = pooled(sides->blocks[--height], top);
        sides->blocks[height++] = top;
    }
    sides->all = height;
}

// 65,536 times the base-2 logarithm.
static int64_t scaled_log(uint32_t n)
{
    int place = 31 - __builtin_clz(n);
    uint64_t m = (uint64_t)n << (31 - place), bits = 0;
    for (int i = 0; i < 16; i++) {
        uint64_t square = m * m, bit = square >> 63;
        m = square >> (31 + bit);
        bits = bits << 1 | bit;
    }
    return 65536 * (int64_t)place + (int64_t)bits;
}

static int64_t score(const struct sides *sides)
{
    int64_t sum = 0;
    for (size_t i = 0; i < sides->all; i++) {
        struct block block = sides->blocks[i];
        sum += (int64_t)block.failures * (scaled_log(block.failures) - scaled_log(block.exposure));
    }
    return sum;
}

static int64_t fit_turning(const struct gaps *gaps, size_t turning, struct sides *sides)
{
    fit_left(gaps, turning, sides);
    fit_right(gaps, turning, sides);
    return score(sides);
}

// The age at which gap i ends: the oldest age for the last gap; 0 for i = 0.
static uint32_t age_at(const struct gaps *gaps, size_t i)
{
    if (i == 0)
        return 0;
    return i <= gaps->count ? gaps->ages[i - 1] : gaps->oldest;
}

static size_t write_steps(const struct gaps *gaps, size_t turning, const struct sides *sides, struct step *steps)
{
    size_t made = 0;
    for (size_t i = 0; i <= sides->all; i++) {
        if (i == sides->left)
            steps[made++] = (struct step){ age_at(gaps, turning - 1), age_at(gaps, turning), 0,
                                           gaps->exposures[turning - 1] };
        if (i < sides->all) {
            struct block block = sides->blocks[i];
            size_t shift = i < sides->left ? 0 : 1;
            steps[made++] = (struct step){ age_at(gaps, block.first + shift), age_at(gaps, block.last + shift + 1),
                                           block.failures, block.exposure };
        }
    }
    return made;
}

struct curve fit_ushaped(const struct gaps *gaps, struct step *steps)
{
    static struct sides sides;
    struct curve best = { 0, 0, 0 };
    if (gaps->count == 0)
        return best;
    for (size_t turning = 1; turning <= gaps->count + 1; turning++) {
        int64_t reached = fit_turning(gaps, turning, &sides);
        if (best.turning == 0 || reached > best.score) {
            best.turning = turning;
            best.score = reached;
        }
    }
    fit_turning(gaps, best.turning, &sides);
    best.steps = write_steps(gaps, best.turning, &sides, steps);
    return best;
}

static bool sound(const uint32_t *ages, size_t count, uint32_t units, uint32_t stop)
{
    if (units < 1 || units > MOST_AGES || stop < 1 || stop > LAST_AGE || count > units)
        return false;
    for (size_t i = 0; i < count; i++)
        if (ages[i] < (i == 0 ? 1 : ages[i - 1]) || ages[i] > stop)
            return false;
    return true;
}

uint64_t c_fit_repeatedly(const uint32_t *ages, size_t count, uint32_t units, uint32_t stop, uint32_t times)
{
    static struct gaps gaps;
    static struct step steps[MOST_AGES + 1];
    uint64_t answer = 0;
    if (!sound(ages, count, units, stop))
        return 0;
    for (uint32_t i = 0; i < times; i++) {
        gather(ages, count, units, stop, &gaps);
        struct curve curve = fit_ushaped(&gaps, steps);
        answer = curve.steps + 65536 * (uint64_t)curve.turning;
    }
    return answer;
}
