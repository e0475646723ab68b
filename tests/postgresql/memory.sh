# Memory that is refused to the library is the database's error, from which a connection recovers.
new_database memory
sql -d memory -v notes="$(cat "$root/samples/b1.csv")" << 'END' > "$work/lost"
CREATE TABLE plats (plat plat, land land, lots lots);
INSERT INTO plats VALUES (:'notes', 'T. 2 N., R. 3 W., sec. 14, NE1/4.', E'section,lot,acres\nT,2,N,3,W\n');
END
try 'what refuses memory compiles' "${CC:-cc}" -std=c11 -O1 -shared -fPIC -o "$work/refuse_memory.so" "$tests/refuse_memory.c" -ldl
(
    cd "$work/server"
    as_server env LD_PRELOAD="$work/refuse_memory.so" TOWNSHIP_REFUSE_MEMORY="$work/refused" \
        "$installed$postgres/bin/pg_ctl" -D "$work/server/data" -l "$work/server/log" -w -t 60 restart
) > "$work/restarted" 2>&1
{
    echo '\set VERBOSITY sqlstate'
    echo "\\! touch $work/refused"
    cat << 'END'
SELECT acres(plat, 'sec. 5, lot 1.') FROM plats;
SELECT acres_or_null(plat, 'sec. 5, lot 1.') FROM plats;
SELECT area(plat, 'sec. 5, lot 1.') FROM plats;
SELECT normal(plat, 'sec. 5, lot 1.') FROM plats;
SELECT refusal(plat, 'sec. 5, lot 5.') FROM plats;
SELECT notes(plat, 'sec. 14, NE1/4 SE1/4.') FROM plats;
SELECT suggest('NENE Sec 14');
SELECT suggest(plat, 'NENE Sec 14') FROM plats;
SELECT suggest('NENE Sec 14', ARRAY['Kestrel']);
SELECT suggest(lots, 'NENE Sec 14') FROM plats;
SELECT plat FROM plats;
SELECT land FROM plats;
SELECT acres(plat::text, 'sec. 5, lot 1.') FROM plats;
SELECT parts(land) FROM plats;
SELECT quarter_quarters(land) FROM plats;
SELECT svg(land) FROM plats;
SELECT svg(plat, land, 14) FROM plats;
SELECT isempty('T. 2 N., R. 3 W., sec. 14.');
SELECT township('T. 2 N., R. 3 W., sec. 14.');
SELECT refusal('line,between,and,quarter,corner');
SELECT ''::plat;
SELECT 'T. 2 N., R. 3 W., sec. 14.'::land;
SELECT land('T. 2 N., R. 3 W.', 'sec. 14.');
SELECT 'plat with its lots: T. 2 N., R. 3 W., sec. 14.'::land;
SELECT land(lots, 'sec. 14.') FROM plats;
SELECT normal(lots, land) FROM plats;
SELECT svg(lots, land) FROM plats;
SELECT E'section,lot,acres\nT,2,N,3,W\n'::lots;
SELECT notes(lots, 'sec. 14, NE1/4 SE1/4.') FROM plats;
SELECT report(plat, tract_list('A', 'sec. 14.')) FROM plats GROUP BY plat;
SELECT report(lots, tract_list('A', 'sec. 14.')) FROM plats GROUP BY lots;
SELECT overlaps(plat, tract_list('A', 'sec. 14.')) FROM plats GROUP BY plat;
SELECT overlaps(lots, tract_list('A', 'sec. 14.')) FROM plats GROUP BY lots;
END
    echo "\\! rm $work/refused"
    echo "SELECT acres(plat, 'sec. 5, lot 1.') FROM plats;"
} > "$work/refusing.sql"
{ yes 'ERROR:  53200' | head -n 33; echo 40.45; } > "$work/wanted"
sql -d memory < "$work/refusing.sql" > "$work/found"
same 'refused memory'
