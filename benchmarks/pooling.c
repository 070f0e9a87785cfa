// The rising fit of rates in plain C: neighbouring blocks pool while the later one is not above the earlier.
#include "pooling.h"
#include <stdbool.h>

#define MOST 1024
#define BULK_LIMIT 2147483648u

struct block {
    size_t first;
    size_t last;
    uint32_t failures;
    uint32_t exposure;
};

static bool within_limit(const struct rate *rates, size_t count)
{
    uint64_t sum = 0;
    for (size_t i = 0; i < count; i++) {
        uint64_t bulk = (uint64_t)rates[i].failures + rates[i].exposure;
        if (bulk > BULK_LIMIT - sum)
            return false;
        sum += bulk;
    }
    return true;
}

static bool at_most(struct block low, struct block high)
{
    return (uint64_t)low.failures * high.exposure <= (uint64_t)high.failures * low.exposure;
}

static size_t pool(const struct rate *rates, size_t count, struct block *blocks, size_t room)
{
    if (count == 0 || room < count || count > MOST || !within_limit(rates, count))
        return 0;
    size_t height = 0;
    for (size_t i = 0; i < count; i++) {
        struct block top = { i, i, rates[i].failures, rates[i].exposure };
        while (height > 0 && at_most(top, blocks[height - 1])) {
            height--;
            top.first = blocks[height].first;
            top.failures += blocks[height].failures;
            top.exposure += blocks[height].exposure;
        }
        blocks[height++] = top;
    }
    return height;
}

static bool all_exposed(const struct rate *rates, size_t count)
{
    for (size_t i = 0; i < count; i++)
        if (rates[i].exposure == 0)
            return false;
    return true;
}

size_t c_pool_repeatedly(const struct rate *rates, size_t count, uint32_t times)
{
    static struct block blocks[MOST];
    size_t height = 0;
    if (all_exposed(rates, count))
        for (uint32_t i = 0; i < times; i++)
            height = pool(rates, count, blocks, MOST);
    return height;
}
