# The joins of `plain.rs` by R's data.table, on one thread: Rscript by_data_table.R FOLDER < LINES
# FOLDER has left0.csv, right0.csv, .. as `plain_joins FOLDER` writes them, LINES are what it prints: for each join its
# place, how many keys it has, how many rows, the number that its cells make, and its name.
# Writes the best of five in milliseconds, and fails where the rows or the numbers differ.
suppressMessages(library(data.table))
setDTthreads(1)
folder <- commandArgs(trailingOnly = TRUE)[1]
input <- file("stdin")
lines <- readLines(input)
close(input)
for (line in lines) {
  words <- strsplit(line, " ")[[1]]
  left <- fread(file.path(folder, paste0("left", words[1], ".csv")))
  right <- fread(file.path(folder, paste0("right", words[1], ".csv")))
  keys <- if (words[2] == "1") "k" else c("k", "t")
  times <- numeric(0)
  for (turn in 1:5) {
    begun <- proc.time()[["elapsed"]]
    made <- left[right, on = keys, nomatch = NULL, allow.cartesian = TRUE]
    times <- c(times, 1000 * (proc.time()[["elapsed"]] - begun))
  }
  bytes <- function(texts) {
    each <- made[, .N, by = t]
    sum(vapply(each$t, function(text) sum(utf8ToInt(text)), 0) * each$N)
  }
  number <- nrow(made)
  factor <- 1
  for (name in names(made)) {
    number <- number + factor * (if (name == "t") bytes(made$t) else sum(as.numeric(made[[name]])))
    factor <- factor + 2
  }
  if (nrow(made) != as.numeric(words[3]) || number != as.numeric(words[4])) {
    stop("the answers differ: ", line, ", by data.table ", nrow(made), " ", format(number, digits = 22))
  }
  cat(sprintf("%-36s %9.2f\n", paste(words[-(1:4)], collapse = " "), min(times)))
}
