# The package of the program: installed, upgraded, and removed, with its man page and its completion of bash.
try 'there is no compiler here' sh -c '! command -v cc && ! command -v gcc && ! command -v clang'
files > "$work/before"

upgrades '' township township-doc
version=$(dpkg-query -W -f '${Version}' township)

# The program names the same build, with its commit.
commit=$(sed -n 's/^commit: \([0-9a-f]*\).*/\1/p' /given/dist/BUILDINFO)
prints 'the build' "{\"type\":\"build\",\"name\":\"township\",\"version\":\"$version\",\"commit\":\"$commit\"}
status 0" grep -a -o '{"type":"build".*}' /usr/bin/township

# The sample, each subcommand, and each status.
cat $samples/description.txt $samples/b1.csv > "$work/sample"
echo 'sec. 5, lots 1 and 2, S1/2NE1/4.' > "$work/land.txt"
echo 'sec. 14, NE1/4 and N1/2.' > "$work/twice.txt"
prints 'the sample' '40.45 acres
status 0' sh -c 'township < "$1"' sh "$work/sample"
prints acres '161.00 acres
status 0' township acres $samples/b1.csv "$work/land.txt"
prints 'acres by the plat' '161.00 acres
status 0' township acres --account plat $samples/b1.csv "$work/land.txt"
prints plat 'township total 23037.57
status 0' sh -c 'township plat "$1" > "$2" && tail -n 1 "$2"' sh $samples/b1.csv "$work/plat"
prints normal 'T. 2 N., R. 3 W.,
sec. 5, lots 1, 2, S1/2NE1/4.
status 0' township normal $samples/b1.csv "$work/land.txt"
prints report 'tract A: 39.18 acres
tract B: 39.03 acres
total: 78.20 acres
remaining: 22959.37 acres
status 0' township report $samples/b1.csv $samples/tracts.csv
prints 'a refusal' 'refused 67 at 19
status 1' township acres $samples/b1.csv "$work/twice.txt"
try 'its explanation' grep -q 'this land was named before' "$work/errors"
prints 'a command line that is not valid' 'status 2' township nothing
prints 'a file that is missing' 'status 3' township plat /no/such/file
cp "$work/errors" "$work/message"
prints 'its message' 'township: cannot open /no/such/file
status 0' cat "$work/message"
prints 'help' 'status 0' sh -c 'township --help > "$1"' sh "$work/help"
try 'help lists the subcommands' grep -q '^  report ' "$work/help"
count 'the rows' python3 -B /given/source/tests/program/without_pytest.py /usr/bin/township /given/rows.json

# The man page and the completion.
man -P cat township > "$work/page" 2>&1
try 'the man page' grep -q 'compute acreage in the United States rectangular survey' "$work/page"
prints 'the completion of bash' "complete -F _township township
status 0" bash -c '. /usr/share/bash-completion/bash_completion; _completion_loader township; complete -p township'
try 'the completion of zsh' test -s /usr/share/zsh/vendor-completions/_township

try 'its test for autopkgtest' sh -e /given/source/packaging/debian/tests/program

# Nothing is left of it.
removes_all 'the program'

# The archive for any Linux.
tar -C /usr/local --strip-components=1 -xf /given/dist/township-*-linux-x86_64.tar.gz
prints 'the program of the archive' '161.00 acres
status 0' /usr/local/bin/township acres /usr/local/share/doc/township/samples/b1.csv "$work/land.txt"
