# The sorts of `plain.rs` by data.table's setorder: Rscript by_data_table.R FOLDER [THREADS], over the CSV files that
# `plain.rs` writes there. Each line that it writes is a name and nanoseconds, of five turns; it fails where every
# thousandth row isn't that of `plain.rs`. Each turn sorts a fresh copy, whose making isn't timed.
suppressMessages({
  library(data.table)
  library(bit64)
})
words <- commandArgs(trailingOnly = TRUE)
setDTthreads(if (length(words) > 1) as.integer(words[2]) else 1L)
frame <- function(name) fread(file.path(words[1], name), na.strings = "NA", integer64 = "integer64")
names <- c("sort (Int64)", "sort (String, Int64 down)")
for (place in 1:2) {
  whole <- frame(sprintf("frame%d.csv", place - 1))
  wanted <- frame(sprintf("sorted%d.csv", place - 1))
  for (turn in 1:5) {
    made <- copy(whole)
    gc(FALSE)
    clock <- Sys.time()
    if (place == 1) setorder(made, number, na.last = FALSE) else setorder(made, text, -number, na.last = FALSE)
    seconds <- as.numeric(difftime(Sys.time(), clock, units = "secs"))
    cat(sprintf("%s %.0f\n", names[place], seconds * 1e9))
  }
  if (!isTRUE(all.equal(made[seq(1, nrow(made), by = 1000)], wanted, check.attributes = FALSE))) {
    stop("another order: ", names[place])
  }
}
