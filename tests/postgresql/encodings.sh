# Databases in another encoding, and without one. U+00BD is the half sign, and U+00E9 a letter that no
# description contains.
new_database latin -E LATIN1 --locale=C
new_database bytes -E SQL_ASCII
for database in latin bytes; do
    sql -d $database -v notes="$(cat "$root/samples/b0.csv")" << 'END' > "$work/lost"
CREATE TABLE plats (plat plat);
INSERT INTO plats VALUES (:'notes');
END
done
shows 'a half sign in Latin-1' 320.00 sql -d latin -c "SELECT acres(plat, 'sec. 14, N' || chr(189) || '.') FROM plats"
shows 'a letter in Latin-1' '42|10|t' sql -d latin -c "
    SELECT refused.number, refused.at, position(chr(233) IN refused.excerpt) > 0
    FROM plats, refusal(plat, 'sec. 14, N' || chr(233) || '.') AS refused"
shows 'readings in Latin-1' '160.00|t|t' sql -d latin -c "
    SELECT acres, reading = 'sec. 14, NE' || chr(188), position('the Pe' || chr(241) || 'a formation\`: this is not' IN assumes[1]) > 0
    FROM plats, suggest(plat, 'NE' || chr(188) || ' Sec 14, limited to the Pe' || chr(241) || 'a formation')"
shows 'a half sign of Latin-1 in a database without an encoding' '42|10' sql -d bytes -c "
    SELECT refused.number, refused.at FROM plats, refusal(plat, E'sec. 14, N\\xbd.') AS refused"
shows 'a half sign of UTF-8 in a database without an encoding' 320.00 sql -d bytes -c "
    SELECT acres(plat, E'sec. 14, N\\xc2\\xbd.') FROM plats"
shows 'no readings of Latin-1 in a database without an encoding' '1|0' sql -d bytes -c "
    SELECT count(*), count(reading) FROM suggest(E'NE/4 Sec 14, limited to the Pe\\xf1a formation')"
shows 'readings of UTF-8 in a database without an encoding' '160.00|t' sql -d bytes -c "
    SELECT acres, position(E'the Pe\\xc3\\xb1a formation\`: this is not' IN assumes[1]) > 0
    FROM plats, suggest(plat, E'NE/4 Sec 14, limited to the Pe\\xc3\\xb1a formation')"
