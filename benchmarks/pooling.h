// Rates as both versions lay them out, and the call that both have.
#include <stddef.h>
#include <stdint.h>

struct rate {
    uint32_t failures;
    uint32_t exposure;
};

// Fits the same rates so many times. Answers the number of blocks; 0 for no time, or where the list is refused.
size_t pool_repeatedly(const struct rate *rates, size_t count, uint32_t times);
size_t c_pool_repeatedly(const struct rate *rates, size_t count, uint32_t times);
