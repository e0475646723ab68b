# The owner of a database creates the extension in a schema of its own, and drops it; a superuser moves it to
# another schema.
try 'an owner' createuser owner
try 'a database of the owner' createdb -T template0 -O owner owned
shows 'an owner creates the extension' 40.00 sql -d owned -U owner -v notes="$(cat "$root/samples/b0.csv")" << 'END'
CREATE SCHEMA elsewhere;
CREATE EXTENSION township SCHEMA elsewhere;
SELECT elsewhere.acres(:'notes'::elsewhere.plat, 'sec. 5, lot 1.');
END
shows 'the extension is moved' 40.00 sql -d owned -v notes="$(cat "$root/samples/b0.csv")" << 'END'
ALTER EXTENSION township SET SCHEMA public;
SELECT acres(:'notes'::plat, 'sec. 5, lot 1.');
END
shows 'the version of the library' "$(sh "$root/packaging/version.sh")" sql -d owned -c 'SELECT township_version()'
shows 'the extension is dropped' 0 sql -d owned -U owner << 'END'
DROP EXTENSION township;
SELECT count(*) FROM pg_proc WHERE probin LIKE '%township%';
END

new_database kinds
# All functions are immutable, parallel safe, and strict, except for the planner's, those of aggregates, and those that
# take phrases to ignore, which can be missing.
shows 'what kinds of functions there are' 'areas_add
areas_combine
areas_rounded
land_joinsel
land_overlaps_add
land_overlaps_pairs
land_restrictsel
max
min
overlaps
suggest
suggest
suggest
suggest
total_acres
tract_list
tract_list_add
union_of
unread
unread' sql -d kinds << 'END'
SELECT proname FROM pg_proc JOIN pg_depend ON objid = pg_proc.oid AND classid = 'pg_proc'::regclass
WHERE deptype = 'e' AND refobjid = (SELECT oid FROM pg_extension WHERE extname = 'township')
    AND NOT (provolatile = 'i' AND proparallel = 's' AND proisstrict)
ORDER BY proname COLLATE "C";
END
