# Hostile values in binary form. Each is refused, or it is a value like any other; no process of the server
# ends.
if reader=$(python_with sys) && "$reader" -c 'import random; random.Random().randbytes' 2> "$work/lost"; then
    new_database received
    sql -d received -v notes="$(cat "$root/samples/b1.csv")" -f "$tests/made_up.sql" -f "$tests/dumps.sql" \
        > "$work/lost"
    sql -d received << 'END' > "$work/samples" 2>&1
SELECT 'plat', encode(plat_send(plat), 'hex') FROM plats;
SELECT 'lots', encode(lots_send(lots), 'hex') FROM lot_tables;
SELECT 'land', encode(land_send(land), 'hex') FROM lands;
CREATE TABLE received_plat (value plat);
CREATE TABLE received_lots (value lots);
CREATE TABLE received_land (value land);
END
    tr '|' ' ' < "$work/samples" > "$work/spaced"
    mkdir "$work/hostile"
    "$reader" -B "$tests/hostile.py" "$work/hostile" 4000 "$work/spaced" > "$work/hostile.sql"
    begun=$(sql -c 'SELECT pg_postmaster_start_time()')
    psql -X -q -d received -f "$work/hostile.sql" 2>&1 |
        sed -n 's/^psql:[^ ]* \(ERROR\|FATAL\|PANIC\): .*/\1/p; /server closed/p' | sort | uniq -c > "$work/errors"
    refused=$(sed -n 's/^ *\([0-9]*\) ERROR$/\1/p' "$work/errors")
    accepted=$(sql -d received -c 'SELECT (SELECT count(*) FROM received_plat) + (SELECT count(*) FROM received_lots) +
        (SELECT count(*) FROM received_land)')
    all_read 'hostile values are refused or accepted' 4000 $((${refused:-0} + ${accepted:-0}))
    try 'most are refused' [ "${refused:-0}" -gt 2000 ]
    try 'some are accepted' [ "${accepted:-0}" -gt 100 ]
    shows 'the server never stopped' "$begun" sql -c 'SELECT pg_postmaster_start_time()'
    shows 'what is accepted is a value' 't|t|t' sql -d received -c "
        SELECT (SELECT bool_and(value::text::plat = value) FROM received_plat),
               (SELECT bool_and(value::text::lots = value) FROM received_lots),
               (SELECT bool_and(value::text::land = value AND value @> value) FROM received_land)"
else
    skip 'hostile binary values in PostgreSQL: no Python 3.9 to make them'
fi
