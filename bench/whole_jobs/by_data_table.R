# A work by data.table, from CSV files: Rscript by_data_table.R WORK FOLDER writes CSV
suppressMessages(library(data.table))
words <- commandArgs(trailingOnly = TRUE)
work <- words[1]
frames <- lapply(sort(list.files(words[2], paste0("^", work, "\\..*\\.csv$"), full.names = TRUE)), fread)
left <- frames[[1]]
right <- if (length(frames) > 1) frames[[2]]
outer <- function() {
  left[, here := TRUE]
  right[, k_right := k]
  both <- merge(left, right, by = "k", all = TRUE, allow.cartesian = TRUE)
  both[is.na(here), k := NA][, .(k, a, k_right, b)]
}
sorted <- function(rows) setorder(rows, k, a, b, na.last = FALSE)
inner <- function(left, right) merge(left, right, by = "k", allow.cartesian = TRUE)
made <- switch(work,
  inner = , texts = inner(left, right),
  left_sorted = sorted(merge(left, right, by = "k", all.x = TRUE, allow.cartesian = TRUE)),
  full = outer(),
  semi = left[k %in% right$k],
  anti = left[!k %in% right$k],
  filter_join_sort = sorted(inner(left[a < 500], right[b < 500])),
  filtered = left[k < 100][, sum := k + a],
  union = rbindlist(lapply(frames, function(it) it[a < 500, .(k)])),
  star = {
    for (n in 0:3) left <- merge(left, frames[[n + 2]], by = paste0("k", n))
    setcolorder(left, c(paste0("k", 0:3), paste0("name", 0:3)))
  })
fwrite(made, "/dev/stdout")
