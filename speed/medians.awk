# Prints the median times of the proved program and its twin. Each line of the input is: a number by which the rows are
# ordered, what was timed, the program, its milliseconds, the nanoseconds of one operation, the sum of what was answered. The
# lines of one program in one row are together, by rising time, and the `middle`th is the median. If `total` is set, the last
# row is the sum of the others.
function row(name, proved, nanos, plain) {
  printf "%-8s %10.3f %10.3f %10s %8.2f\n", name, proved, plain, nanos, proved / plain
}
function close_row() {
  if (name == "") return
  row(name, ms["proved"], ns["proved"], ms["plain"])
  for (program in ms) all[program] += ms[program]
}
BEGIN {
  printf "%-8s %10s %10s %10s %8s\n", of, "proved ms", "plain ms", "proved ns", "to plain"
}
$2 != name { close_row(); name = $2; sum = $6 }
$6 != sum { print name ": the sums of what was answered differ" }
{ if ($3 != last || $2 != at) { count = 0; last = $3; at = $2 } }
++count == middle { ms[$3] = $4; ns[$3] = $5 }
END {
  close_row()
  if (total) row("all", all["proved"], "", all["plain"])
}
