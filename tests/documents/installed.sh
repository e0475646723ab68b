#!/bin/sh
# Installs ./township, or the program that is named, into a folder of its own, and checks the result: the
# files, that nothing is proved or built for it, and that the completions of the shells complete what they should.
# The last line is 'N passed, 0 failed'.
. "$(dirname "$0")/../lib.sh"
test_program "$@"

# Take no options from a make that calls this script.
unset MAKEFLAGS MFLAGS MAKELEVEL
make -C "$root" --no-print-directory install-built PROGRAM="$program" DESTDIR="$work/there" PREFIX=/usr > lost
there=$work/there/usr
(cd there && find . -type f -printf '%p %m\n' | sort) > found
cat > wanted << 'END'
./usr/bin/township 755
./usr/share/bash-completion/completions/township 644
./usr/share/man/man1/township.1 644
./usr/share/zsh/site-functions/_township 644
END
same 'what is installed'
for file in man/township.1:man/man1/township.1 \
    completions/township.bash:bash-completion/completions/township \
    completions/_township:zsh/site-functions/_township; do
    cp "$root/${file%:*}" wanted
    cp "$there/share/${file#*:}" found
    same "what is installed of ${file%:*}"
done
echo '40.45 acres' > wanted
"$there/bin/township" acres "$root/samples/b1.csv" "$root/samples/description.txt" > found 2>&1
same 'the installed program'

# `make install` installs what was built, without the kit: the program, and the library, in whose place some files are
# put here. PREFIX is where they will be, and DESTDIR is put before it.
without_kit() { RT=no-such-command make -C "$root" --no-print-directory "$@"; }
mkdir lib
for file in libtownship.a libtownship.so.7.8.9; do echo "$file" > "lib/$file"; done
ln -s libtownship.so.7.8.9 lib/libtownship.so.7
ln -s libtownship.so.7 lib/libtownship.so
printf 'prefix=/usr/local\nlibdir=${prefix}/lib\n' > lib/township.pc
install_all() { without_kit install PROGRAM="$program" LIBRARY="$work/lib" "$@" > made 2> noted; }
install_all DESTDIR="$work/all" PREFIX=/opt/township
echo "status $?" > found
(cd all && find . ! -type d -printf '%p %m %l\n' | sed 's/ 777 / /; s/ $//' | sort) >> found
cat > wanted << 'END'
status 0
./opt/township/bin/township 755
./opt/township/include/township.h 644
./opt/township/lib/libtownship.a 644
./opt/township/lib/libtownship.so libtownship.so.7
./opt/township/lib/libtownship.so.7 libtownship.so.7.8.9
./opt/township/lib/libtownship.so.7.8.9 755
./opt/township/lib/pkgconfig/township.pc 644
./opt/township/share/bash-completion/completions/township 644
./opt/township/share/man/man1/township.1 644
./opt/township/share/zsh/site-functions/_township 644
END
same 'what make install installs'
printf 'prefix=/opt/township\nlibdir=${prefix}/lib\n' > wanted
cp all/opt/township/lib/pkgconfig/township.pc found
same 'where the library will be'
cmp "$program" all/opt/township/bin/township > found 2>&1
cmp lib/libtownship.a all/opt/township/lib/libtownship.a >> found 2>&1
: > wanted
same 'make install copies what was built'
install_all PREFIX="$work/prefix"
(cd all/opt/township && find . | sort) > wanted
(cd prefix && find . | sort) > found
same 'make install with PREFIX alone'

# `make uninstall` removes all of it, and nothing else.
mkdir -p prefix/lib
touch prefix/bin/another prefix/lib/libtownship.so.keep prefix/share/man/man1/another.1
(cd prefix && find . -type f -name 'another*' -o -name '*.keep' | sort) > wanted
without_kit uninstall PROGRAM="$work/no-program" LIBRARY="$work/no-lib" PREFIX="$work/prefix" > made 2> noted
(cd prefix && find . ! -type d | sort) > found
same 'make uninstall'
without_kit uninstall PREFIX="$work/prefix" > made 2> found
: > wanted
same 'make uninstall where there is nothing'

# Without a build and without the kit, it says what to run first, and installs nothing.
not_built() {
    without_kit install PROGRAM="$1" LIBRARY="$2" DESTDIR="$work/nothing" PREFIX=/usr > made 2> noted
    echo "status $?, $(grep -o 'run `make[a-z ]*` first' noted)" > found
    [ ! -e nothing ] || echo 'something is installed' >> found
    echo "status 2, run \`make $3\` first" > wanted
    same "make install without $3"
}
not_built "$program" "$work/no-lib" lib
not_built "$work/no-program" "$work/lib" township
not_built "$work/no-program" "$work/no-lib" 'township lib'

# A folder of names to complete.
mkdir names names/deeds
touch names/notes.csv names/tracts.csv names/land.txt 'names/my notes.csv'

# The completions that bash offers for the last of these words, in any order.
cat > complete.bash << 'END'
. "$1"
shift
complete -p township
COMP_WORDS=("$@")
COMP_CWORD=$(($# - 1))
_township township "${COMP_WORDS[COMP_CWORD]}" "${COMP_WORDS[COMP_CWORD - 1]}"
[ ${#COMPREPLY[@]} = 0 ] || printf '%s\n' "${COMPREPLY[@]}" | sort
END
completed() {
    echo 'complete -F _township township' > wanted
    [ -z "$1" ] || printf '%s\n' "$1" | tr '|' '\n' | sort >> wanted
    shift
    (cd names && bash ../complete.bash "$there/share/bash-completion/completions/township" "$@") > found 2>&1
    same "bash completes: $*"
}
subcommands='plat|acres|normal|report'
lists='deeds|my notes.csv|notes.csv|tracts.csv'
any="$lists|land.txt"
if command -v bash > lost; then
    completed "$subcommands|help|--help" township ''
    completed 'plat' township p
    completed 'help' township h
    completed '--help' township -
    completed '' township deeds
    completed "$lists" township plat ''
    completed '' township plat notes.csv ''
    completed '--help' township plat -
    completed '--help' township plat notes.csv --
    completed "$lists" township acres ''
    completed 'my notes.csv' township acres my
    completed "$any" township acres notes.csv ''
    completed 'land.txt' township acres notes.csv l
    completed '' township acres notes.csv land.txt ''
    completed '--account|--help' township acres --
    completed '--account' township acres notes.csv --a
    completed 'exact|plat' township acres --account ''
    completed 'plat' township acres --account p
    completed 'exact|plat' township acres --account =
    completed 'exact' township acres --account = e
    completed "$lists" township acres --account plat ''
    completed "$any" township acres --account = plat notes.csv ''
    completed "$any" township acres notes.csv --account plat ''
    completed "$lists" township acres -- ''
    completed '' township acres -- -
    completed "$any" township acres -- notes.csv ''
    completed "$lists" township normal ''
    completed "$any" township normal notes.csv ''
    completed '--help' township normal --
    completed "$lists" township report ''
    completed "$lists" township report notes.csv ''
    completed '' township report notes.csv tracts.csv ''
    completed "$subcommands" township help ''
    completed '' township help acres ''
else
    skip 'the completion of bash, since there is no bash here'
fi
if command -v zsh > lost; then
    zsh -n "$there/share/zsh/site-functions/_township" > found 2>&1
    : > wanted
    same 'the completion of zsh is well formed'
else
    skip 'the completion of zsh, since there is no zsh here'
fi

# The completions contain each subcommand that help lists, and the options of `acres`.
"$program" --help | sed -n '/^Commands:/,/^$/s/^  \([a-z]*\) .*/\1/p' | sort > wanted
sed -n "s/^ *_township_words .* '\(.*\) --help'$/\1/p" "$root/completions/township.bash" |
    tr ' ' '\n' | sort > found
same 'the subcommands that bash completes'
sed -n "s/^.*'\([a-z]*\):print .*/\1/p" "$root/completions/_township" | sort > found
same 'the subcommands that zsh completes'

ended
