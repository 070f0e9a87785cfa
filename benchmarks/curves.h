// U-shaped curves of bench runs, as both versions are called.
#include <stddef.h>
#include <stdint.h>

#define MOST_AGES 1024

// The counted failure ages, each with its failures, and the exposures of the gaps: one more than the ages.
struct gaps {
    size_t count;
    uint32_t oldest;
    uint32_t ages[MOST_AGES];
    uint32_t failures[MOST_AGES];
    uint32_t exposures[MOST_AGES + 1];
};

struct step {
    uint32_t from;
    uint32_t to;
    uint32_t failures;
    uint32_t exposure;
};

struct curve {
    size_t steps;
    size_t turning;
    int64_t score;
};

// The gaps of a bench run whose failure ages never fall. The failures at the oldest age are set aside.
void gather(const uint32_t *ages, size_t count, uint32_t units, uint32_t stop, struct gaps *gaps);

// Fits a U-shaped curve, and writes its steps: one more than the ages at most. No step where no failure is counted.
struct curve fit_ushaped(const struct gaps *gaps, struct step *steps);

// Fit the bench run so many times, U-shaped: steps + 65,536 x turning gap; 0 for no time, or where it is refused.
uint64_t fit_repeatedly(const uint32_t *ages, size_t count, uint32_t units, uint32_t stop, uint32_t times);
uint64_t c_fit_repeatedly(const uint32_t *ages, size_t count, uint32_t units, uint32_t stop, uint32_t times);

// The same for a sealed study of lives that entered at 0 and failed at these ages, in any order.
uint64_t fit_lives_repeatedly(const uint32_t *exits, size_t count, uint32_t times);
