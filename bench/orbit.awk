# Prints the text of a generator of M24 on the images of a set of points, where the files are the texts of both generators on
# the 24 points. Set before: `set`, as 24 signs, 1 for each point in it; `field`; and `number`, of the generator, 1 or 2, or 0
# for one row, the sum of the images that have the first two points. The images are numbered as they come.
function image(set, generator, i, result) {
  split("", result)
  for (i = 1; i <= 24; i++) result[to[generator, i]] = substr(set, i, 1)
  set = ""
  for (i = 1; i <= 24; i++) set = set result[i]
  return set
}
FNR == 1 { generators++ }
FNR > 1 { to[generators, FNR - 1] = index($0, "1") }
END {
  sets[1] = set; place[set] = count = 1
  for (i = 1; i <= count; i++)
    for (generator = 1; generator <= 2; generator++) {
      other = image(sets[i], generator)
      if (!(other in place)) { sets[++count] = other; place[other] = count }
      action[generator, i] = place[other]
    }
  printf "matrix field=%d rows=%d cols=%d\n", field, number ? count : 1, count
  zeros = sprintf("%" count "s", "")
  gsub(/ /, "0", zeros)
  for (i = 1; i <= count; i++)
    if (number) print substr(zeros, 1, action[number, i] - 1) "1" substr(zeros, action[number, i] + 1)
    else printf "%d%s", substr(sets[i], 1, 2) == "11", i < count ? "" : "\n"
}
