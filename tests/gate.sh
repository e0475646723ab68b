#!/bin/sh
# Tests that the gate notices what is wrong: runs `rt ci`, as `make test` calls it, on a repository of two small crates in a
# temporary folder, which it makes wrong in one way after another. It takes a minute of processor time. The last line is
# 'N passed, M failed'.
. "$(dirname "$0")/lib.sh"

low=$work/crates/gate_low
high=$work/crates/gate_high
mkdir -p "$work/tools" "$low/src" "$low/must-fail" "$high/src" "$high/must-fail"
cp "$root/tools/gate.sh" "$work/tools"
printf 'gate_low:\ngate_high: gate_low\n' > "$work/crates.txt"
cp "$root/HANDLES" "$work"
cat > "$low/src/lib.rt" << 'END'
//! A number and the one after it.
#![tactic(auto)]

ghost use Rattle.std.specs.Prelude.{◌≡◌, ◌+◌};

/// The number after it.
pub fn next(number: u8) -> u16
    ensures { result ≡ number + 1 }
{
    u16::from(number) + 1
}
END
cat > "$high/src/lib.rt" << 'END'
//! A number and the one after the next.
#![tactic(auto)]

ghost use Rattle.std.specs.Prelude.{◌≡◌, ◌+◌};

use gate_low::next;

/// The number after the next.
pub fn after_next(number: u8) -> u16
    ensures { result ≡ number + 2 }
{
    next(number) + 1
}
END
edit() { printf 'file: src/lib.rt\nold: %s\nnew: %s\n' "$2" "$3" > "$1"; }
edit "$low/must-fail/number_itself.edit" 'u16::from(number) + 1' 'u16::from(number)'

# Replaces a text of a file, which must be there.
change() {
    grep -qF "$2" "$1" || fail "there is no: $2" "$1"
    sed -i "s/$2/$3/" "$1"
}
# Runs the gate, which must end with a status, and with a last line.
gate() {
    bash "$work/tools/gate.sh" > "$work/shown" 2>&1
    echo "$? $(tail -n 1 "$work/shown")" > "$work/found"
    echo "$2" > "$work/wanted"
    same "$1"
    [ "$(cat "$work/found")" = "$2" ] || tail -n 30 "$work/gate.log"
}
# The last run must have said something.
says() {
    if grep -q "$2" "$work/gate.log"; then pass; else fail "$1" "$work/gate.log"; fi
}

gate 'two crates and a wrong body' '0 3 passed, 0 failed'
says 'that a wrong body is refused' 'number_itself.edit: refused, as it must be'

edit "$high/must-fail/same.edit" 'next(number) + 1' '1 + next(number)'
gate 'a wrong body that means the same as the code' '1 3 passed, 1 failed'
says 'that it is not refused' 'same.edit: NOT REFUSED'
rm "$high/must-fail/same.edit"

change "$low/src/lib.rt" 'number + 1 }' 'number + 3 }'
gate 'a clause that is false' '1 0 passed, 2 failed'
says 'that its crate is not proved' '^rt: gate_low NOT PROVED'
change "$low/src/lib.rt" 'number + 3 }' 'number + 1 }'

# What was proved before is not taken for other code, whether the crate or one below it has changed.
change "$low/src/lib.rt" 'from(number) + 1' 'from(number) + 2'
gate 'other code below the same contract' '1 0 passed, 2 failed'
says 'that its crate is not proved' '^rt: gate_low NOT PROVED'
edit "$low/must-fail/number_itself.edit" 'u16::from(number) + 2' 'u16::from(number)'
change "$low/src/lib.rt" 'number + 1 }' 'number + 2 }'
gate 'another contract of the crate below' '1 2 passed, 1 failed'
says 'that the crate above is not proved' '^rt: gate_high NOT PROVED'
ended
