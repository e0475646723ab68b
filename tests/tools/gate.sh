#!/bin/sh
# Tests which output of rt tools/gate.sh shows, and its status, with another command in place of rt. The last line is
# 'N passed, M failed'.
. "$(dirname "$0")/../lib.sh"

# A folder with the script, in which `rt ci` prints the file `said` and ends with the status in the file `status`.
mkdir "$work/tools" "$work/bin"
cp "$root/tools/gate.sh" "$work/tools"
cat > "$work/bin/rt" << 'END'
#!/bin/sh
[ "$*" = ci ] || exit 9
echo "$RT_JOBS" > jobs
cat said
exit "$(cat status)"
END
chmod +x "$work/bin/rt"
echo 0 > "$work/status"
gate() { PATH="$work/bin:$PATH" bash "$work/tools/gate.sh" > "$work/found" 2>&1; }

# What is shown of some lines, all of which must be in gate.log.
shows() {
    printf "$2" > "$work/said"
    printf "$3" > "$work/wanted"
    gate
    cmp -s "$work/gate.log" "$work/said" || echo 'not all of it is in gate.log' >> "$work/found"
    same "$1"
}
proved='== twp_grid\nfn twp_grid::line: proved\nlogic=proved functions=63\nrt: twp_grid proved\n'
not_proved='== twp_land\nfn twp_land::one \\ 1: not proved\nrt: twp_land NOT PROVED\n'
shows 'a crate that is proved' "$proved" 'rt: twp_grid proved\n'
shows 'a crate that is not proved' "$proved$not_proved" "rt: twp_grid proved\n$not_proved"
between='rt: twp_grid: trying its must-fail edits (30)\nrt: twp_spell NOT PROVED: its library twp_land failed\n'
shows 'what is said between crates' "$proved$between" "rt: twp_grid proved\n$between"
refused='rt: must-fail twp_grid/one.edit: refused, as it must be: note: src/line.rt:12:9: it is not proved that ..\n'
by_limit='rt: must-fail twp_grid/two.edit: refused, as it must be (only by a limit of the prover): src/line.rt\n'
missed='rt: must-fail twp_grid/three.edit: NOT REFUSED: the crate is still proved with this edit\n'
bad='rt: must-fail twp_grid/four.edit: BAD EDIT: src/line.rt has 2 times: self\n'
shows 'wrong bodies that no goal refuses' "$refused$by_limit$missed$bad" "$by_limit$missed$bad"
shows 'a test that fails' 'test a ... ok\ntest b ... FAILED\n' 'test b ... FAILED\n'
shows 'a run that was cut off' '== twp_grid\nfn twp_grid::line: pro' '== twp_grid\nfn twp_grid::line: pro\n'
shows 'the last line' "$proved"'73 passed, 0 failed\n' 'rt: twp_grid proved\n73 passed, 0 failed\n'

# The status is that of rt, whatever it printed.
ends() {
    echo "$2" > "$work/status"
    gate
    echo "$?" > "$work/found"
    echo "$3" > "$work/wanted"
    same "$1"
}
ends 'a gate that passes' 0 0
ends 'a gate that fails' 1 1
ends 'a gate that can not run' 2 2
echo '72 passed, 1 failed' > "$work/said"
ends 'a gate that fails without saying so by its status' 0 1
echo '0 passed, 0 failed' > "$work/said"
ends 'a gate that tries nothing' 0 1
: > "$work/said"
ends 'a gate that prints nothing' 0 1
printf "$bad"'72 passed, 0 failed\n' > "$work/said"
ends 'a wrong body that can not be tried' 0 1

# As many checks run as there are processors, unless another number is given.
RT_JOBS=7 gate
echo 7 > "$work/wanted"
mv "$work/jobs" "$work/found"
same 'the number of checks that is given'
gate
jobs=$(cat "$work/jobs")
if [ "$jobs" -ge 1 ] && [ "$jobs" -le "$(nproc)" ]; then pass; else fail 'the number of checks' "$work/jobs"; fi
ended
