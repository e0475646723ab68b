# Input that several scripts run the program on, and its answers. The files are written into the script's folder.

# Input that is accepted: n.csv, the notes of the uneven township; t.csv, a list of tracts; the descriptions d.txt and
# parts; and joined, for standard input.
accepted_input() {
    cp "$root/samples/b1.csv" n.csv
    cp "$root/samples/tracts.csv" t.csv
    printf 'sec. 5, lot 1.' > d.txt
    printf 'sec. 14, SE1/4, NE1/4, NW1/4.' > parts
    printf 'sec. 5, lot 1.\n' | cat - n.csv > joined
}

# The report on t.csv. Lots 1 and 4 of section 7 have 39.175 and 39.025 acres, and the township has 23,037.56775..
account='tract A: 39.18 acres
tract B: 39.03 acres
total: 78.20 acres
remaining: 22959.37 acres'

# The canonical description of the land in parts.
canonical='T. 2 N., R. 3 W.,
sec. 14, N1/2, SE1/4.'

# Input that is refused: notes without line 53 (11), land that is named twice (67), the same in a list (83, with 67),
# and two tracts that share land (84).
refused_input() {
    sed '/^W,6,7,/d' n.csv > lacking.csv
    printf 'sec. 14, NE1/4 and N1/2.' > overlap
    printf 'name,description\nA,"sec. 14, NE1/4 and N1/2."\n' > refused-tract.csv
    printf 'name,description\nA,"sec. 14, NE1/4."\nB,"sec. 14, N1/2."\n' > shared-land.csv
}
