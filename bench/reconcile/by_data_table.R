# A reconciliation by data.table, from CSV files: Rscript by_data_table.R LEFT RIGHT NAME.. writes the lines of one
suppressMessages(library(data.table))
words <- commandArgs(trailingOnly = TRUE)
on <- words[-(1:2)]
left <- fread(words[1])[, i := .I - 1L]
right <- fread(words[2])[, j := .I - 1L]
both <- merge(left, right, by = on, all = TRUE, allow.cartesian = TRUE)
# The least row of the other table for each row, none where there is none.
lefts <- both[!is.na(i), .(p = min(j)), keyby = i]
rights <- both[!is.na(j), .(p = min(i)), keyby = j]
lines <- function(side, rows, p) {
  kind <- fifelse(is.na(p), paste0(side, "_only"), "matched")
  paste0("[\"", side, "\",", rows, ",\"", kind, "\",", fifelse(is.na(p), "null", as.character(p)), "]")
}
count <- function(p) c(sum(!is.na(p)), sum(is.na(p)))
head <- paste0("[", paste(c(count(lefts$p), count(rights$p)), collapse = ","), "]")
fwrite(list(c(head, lines("left", lefts$i, lefts$p), lines("right", rights$j, rights$p))), "/dev/stdout", quote = FALSE, col.names = FALSE)
