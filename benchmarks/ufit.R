# Times `ufit` of the package Iso (Debian: r-base-core, r-cran-iso), microseconds per fit:
#     Rscript benchmarks/ufit.R
# It is not the same fit: ufit takes the weighted least squares for each turning point and keeps the turning point
# with the least sum of squares, in floating point, and each age has one rate on both sides. It fits what rises and
# then falls, so the rates go in with their signs turned. The time is comparable, the curve is not.
suppressMessages(library(Iso))
set.seed(1)
inputs <- 5
for (k in c(128, 256, 512, 1024)) {
  repeats <- max(1, 4096 %/% k)
  spent <- numeric(inputs)
  for (input in 1:inputs) {
    # k different failure ages of k units: each age with the exposure of the gap that ends there.
    ages <- sort(sample(2000000, k))
    exposures <- (k:1) * diff(c(0, ages))
    rates <- 1 / exposures
    middles <- ages - diff(c(0, ages)) / 2
    time <- system.time(for (i in 1:repeats) ufit(y = -rates, x = middles, w = exposures, type = "raw"))
    spent[input] <- time[["elapsed"]] / repeats * 1e6
  }
  cat(sprintf("%5d ages: ufit %.0f us per fit (least %.0f, most %.0f of %d inputs)\n",
              k, mean(spent), min(spent), max(spent), inputs))
}
