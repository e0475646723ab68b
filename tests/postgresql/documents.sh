# The statements of docs/POSTGRESQL.md, which must show what follows them as comments.
new_database documents
sql -d documents -c 'DROP EXTENSION township'
sed -n '/^```sql$/,/^```$/{ /^```/d; p; }' "$root/docs/POSTGRESQL.md" > "$work/shown"
grep -v '^--' "$work/shown" > "$work/statements"
sed -n 's/^-- //p' "$work/shown" > "$work/wanted"
(cd "$root" && sql -d documents < "$work/statements") > "$work/found"
same 'docs/POSTGRESQL.md'
