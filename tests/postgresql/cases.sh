# Worked cases through SQL, in a database without an encoding, which passes on all bytes as they are.
if [ -z "${TOWNSHIP_CASES:-}" ] && reader=$(python_with tomllib); then
    TOWNSHIP_CASES=$work/answers.zip
    "$reader" -B "$root/tests/program/cases.py" "$TOWNSHIP_CASES"
fi
if [ -n "${TOWNSHIP_CASES:-}" ] && reader=$(python_with sys); then
    new_database cases -E SQL_ASCII
    "$reader" -B "$tests/cases.py" "$TOWNSHIP_CASES" > "$work/cases.sql"
    sql -d cases -c 'CREATE TABLE cases
        (name text, kind text, account text, notes text, description text, expected text)'
    sql -d cases -f "$work/cases.sql" > "$work/inserted"
    number=$(sed -n '$s/^-- //p' "$work/cases.sql")
    all_read 'the worked cases' "$number" "$(sql -d cases -c 'SELECT count(*) FROM cases')"
    shows 'worked cases' '' sql -d cases -f "$tests/cases.sql"
    passed=$((passed + number))
else
    skip 'worked cases in PostgreSQL: no Python to read them'
fi
