# What the tests on a machine without the proof kit share. Each test is read after this file, by a shell in an image,
# with the packages in /given/dist and the sources in /given/source. Its last line is 'N passed, M failed'.
. /given/source/tests/lib.sh
root=/given/source
samples=$root/samples
DEBIAN_FRONTEND=noninteractive
export DEBIAN_FRONTEND

# A test that an image has no tool for is run outside it too, where it is named if it is skipped.
skip() { :; }

# Compares what a command prints, with its status on a line of its own, with the second word.
prints() {
    what=$1 wanted=$2
    shift 2
    { "$@" 2> "$work/errors"; echo "status $?"; } > "$work/found"
    if [ "$(cat "$work/found")" = "$wanted" ]; then pass; else fail "$what: wanted $wanted" "$work/found"; fi
}

# Installs packages of dist/ with apt. What they depend on is in the image, and there is no network.
installs() {
    what=$1
    shift
    try "apt installs $what" apt-get install -y --no-install-recommends "$@"
}

# Upgrades packages, which are named without their versions, from those of the version before, in the folder of an
# earlier release or made up (earlier.sh): nothing of the version before is left. With a first word, a command is run in
# between. A package that an earlier release didn't have is only installed.
upgrades() {
    between=$1
    shift
    names=$*
    set --
    for name in $names; do
        for deb in /given/earlier/"$name"_*.deb; do if [ -e "$deb" ]; then set -- "$@" "$deb"; fi; done
    done
    if [ $# != 0 ]; then
        installs "the version before of $names" "$@"
        listed $names > "$work/listed"
    fi
    $between
    set --
    for name in $names; do set -- "$@" /given/dist/"$name"_*.deb; done
    installs "$names" "$@"
    for name in $names; do
        dpkg-deb -f /given/dist/"$name"_*.deb Version > "$work/wanted"
        dpkg-query -W -f '${Version}\n' "$name" > "$work/found"
        same "the version of $name"
    done
    if [ -e "$work/listed" ]; then
        listed $names | sort > "$work/listed.now"
        try 'the version before had files' test -s "$work/listed"
        sort "$work/listed" | comm -23 - "$work/listed.now" |
            while read -r file; do if [ -e "$file" ] || [ -h "$file" ]; then echo "$file"; fi; done > "$work/found"
        : > "$work/wanted"
        same "nothing is left of the version before of $names"
        rm "$work/listed"
    fi
}

# Removes all packages of the project, as docs/INSTALL.md says; nothing of them is left.
removes_all() {
    command=$(sed -n "s/^    apt \(purge '[^']*'\) .*/\1/p" /given/source/docs/INSTALL.md)
    try "apt removes $1" sh -c "apt-get -y $command"
    try "none of $1 is installed" sh -c '! dpkg-query -W -f "\${db:Status-Status} \${Package}\n" | grep -E "^(installed|config-files) .*township"'
    files > "$work/after"
    try "nothing is left of $1" diff "$work/before" "$work/after"
}

# The files of packages that are installed.
listed() { for name; do if dpkg -s "$name" > "$work/lost" 2>&1; then dpkg -L "$name"; fi; done; }

# All files but those in which the package manager and the tools keep records of their own.
files() {
    find / -xdev \( -path /given -o -path /proc -o -path /tmp -o -path /var/cache -o -path /var/log -o -path /run \
        -o -path /var/lib/dpkg -o -path /var/lib/apt -o -path /var/lib/systemd -o -path /root \
        -o -name __pycache__ \) -prune -o -print | sort
}

# The point of these images: there is nothing here that could prove or build the program.
for tool in rt rattle; do
    try "there is no $tool here" sh -c "! command -v $tool"
done
try 'there is no kit here' test ! -e /opt/rattle
