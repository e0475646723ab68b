#!/bin/sh
# Checks that need no proofs and take seconds: the layout of sources, definitions, and proofs, that each wrong body still
# fits the code, and that what several files and the documents repeat is the same in all of them. `make test` begins with
# them, so that they don't fail after an hour of proofs. The last line is 'N passed, M failed'.
. "$(dirname "$0")/lib.sh"
cd "$root" || exit 1
begin documents sh tests/documents/sources.sh
try 'the layout of sources' sh tools/formatted.sh
try 'what the gate shows, and its status' sh tests/tools/gate.sh
if python=$(python_with argparse); then
    try 'the layout of definitions and proofs' "$python" tools/wrap_proofs.py --check
    try 'each wrong body fits the code, and the named ones are tried' "$python" tools/edits.py
    try 'the table of words, and what is made of it' "$python" tools/words.py --check
    try 'the bindings, which are made from township.h' "$python" -B tools/bindings.py --check
    try 'township.h, compared with the code of the library' "$python" -B tools/signatures.py
    try 'the constants of township.h' "$python" tools/header_names.py --check
    try 'what several files repeat' "$python" -B tools/repeated
else
    skip 'the checks of the sources, since there is no Python here'
fi
if python=$(python_with pytest); then
    pytests "$python" tests/tools
    pytests "$python" tests/lots
else
    skip 'the tests of the scripts and of the model of lot tables: no Python with pytest'
fi
gather
ended
