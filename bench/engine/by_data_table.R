# The same plans by data.table: Rscript by_data_table.R FOLDER [THREADS], over the CSV files that plain.rs writes.
# Each line that it writes is a name, nanoseconds, and a number that the cells of the answer make.
suppressMessages(library(data.table))
words <- commandArgs(trailingOnly = TRUE)
setDTthreads(if (length(words) > 1) as.integer(words[2]) else 1L)
frame <- function(name) fread(file.path(words[1], paste0(name, ".csv")))
cells <- function(made, columns) {
  factors <- 1 + 2 * (match(columns, names(made)) - 1)
  sums <- vapply(columns, function(it) sum(as.numeric(made[[it]]), na.rm = TRUE), 0)
  nrow(made) + sum(factors * sums)
}
timed <- function(name, columns, run) {
  for (turn in 1:3) {
    gc(FALSE)
    clock <- Sys.time()
    made <- run()
    seconds <- as.numeric(difftime(Sys.time(), clock, units = "secs"))
    cat(sprintf("%s %.0f %.0f\n", name, seconds * 1e9, cells(made, columns)))
  }
}
left <- frame("left")
right <- frame("right")
timed("inner join", c("k", "a", "b"), function() merge(left, right, by = "k", allow.cartesian = TRUE, sort = FALSE))
timed("left join", c("k", "a", "b"), function() {
  merge(left, right, by = "k", all.x = TRUE, allow.cartesian = TRUE, sort = FALSE)
})
# The answer keeps both keys, so the right one goes through under a name of its own.
timed("full join", c("k", "a", "k_right", "b"), function() {
  both <- merge(copy(left)[, here := TRUE], copy(right)[, k_right := k], by = "k", all = TRUE,
    allow.cartesian = TRUE, sort = FALSE)
  both[is.na(here), k := NA][, .(k, a, k_right, b)]
})
facts <- frame("facts")
small <- lapply(0:3, function(n) frame(paste0("small", n)))
timed("star of four joins", c(paste0("k", 0:3), paste0("n", 0:3)), function() {
  made <- facts
  for (n in 0:3) made <- merge(made, small[[n + 1]], by = paste0("k", n), allow.cartesian = TRUE, sort = FALSE)
  setcolorder(made, c(paste0("k", 0:3), paste0("n", 0:3)))
})
pair <- frame("pair")
timed("sort by two columns", c("k", "a"), function() setorder(copy(pair), k, a))
parts <- lapply(0:3, function(n) frame(paste0("part", n)))
timed("union of four filters", "s", function() {
  rbindlist(lapply(parts, function(it) it[k < 500]))[, .(s = k + a)]
})
timed("filter", c("k0", "k1", "k2", "k3"), function() facts[k0 < 500])
sums <- function() facts[, .(ka = k0 + k1, ab = k1 + k2, bc = k2 + k3)]
timed("projection", c("ka", "ab", "bc"), sums)
timed("extension", c("k0", "k1", "k2", "k3", "ka", "ab", "bc"), function() cbind(facts, sums()))
timed("unpivot", "value", function() {
  melt(facts, measure.vars = c("k0", "k1", "k2", "k3"), id.vars = character(0))
})
