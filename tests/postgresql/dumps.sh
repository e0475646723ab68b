# What is dumped and restored is the same, in both formats of dumps.
new_database original
sql -d original -v notes="$(cat "$root/samples/b1.csv")" -f "$tests/made_up.sql" -f "$tests/dumps.sql" > "$work/found"
: > "$work/wanted"
same 'a database to dump'
tables=$(sql -d original -c "SELECT tablename FROM pg_tables WHERE schemaname = 'public' ORDER BY 1")
contents() { for table in $tables; do sql -d "$1" -c "COPY (SELECT * FROM $table ORDER BY 1) TO STDOUT"; done; }
contents original > "$work/before"
for format in plain custom; do
    try "the database $format" createdb -T template0 $format
    try "a $format dump" pg_dump -d original -F $format -f "$work/dump"
    case $format in
        plain) try 'it is restored' psql -X -q -v ON_ERROR_STOP=1 -d plain -f "$work/dump" ;;
        custom) try 'it is restored' pg_restore -d custom "$work/dump" ;;
    esac
    contents $format > "$work/after"
    try "the $format dump is whole" cmp "$work/before" "$work/after"
    # COPY in binary form, from one database to the other.
    for table in $tables; do
        sql -d original -c "COPY (SELECT * FROM $table ORDER BY 1) TO STDOUT (FORMAT binary)" > "$work/binary"
        sql -d $format -c "TRUNCATE $table" -c "COPY $table FROM STDIN (FORMAT binary)" < "$work/binary" >> "$work/lost"
    done
    contents $format > "$work/after"
    try "the copy in binary form is whole" cmp "$work/before" "$work/after"
done
all_read 'the tables of the dump' "$(echo "$tables" | wc -l)" "$(sql -d plain -c "
    SELECT count(*) FROM pg_tables WHERE schemaname = 'public'")"
