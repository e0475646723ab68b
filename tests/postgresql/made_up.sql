-- Made-up townships and descriptions, from numbers: the same for the same number.
CREATE FUNCTION chance(seed int8, what int8, most int8) RETURNS int8 LANGUAGE sql IMMUTABLE PARALLEL SAFE AS
$$ SELECT (hashint8extended(seed, what) & 9223372036854775807) % most $$;

CREATE FUNCTION made_up_township(seed int8, townships int) RETURNS text LANGUAGE sql IMMUTABLE PARALLEL SAFE AS $$
    SELECT format('T. %s N., R. %s W.', 1 + chance(seed, 1, townships) % 40, 1 + chance(seed, 1, townships) / 40)
$$;

-- One to three quarter-quarters or quarters in a section without lots.
CREATE FUNCTION made_up_description(seed int8) RETURNS text LANGUAGE sql IMMUTABLE PARALLEL SAFE AS $$
    SELECT format('sec. %s, %s.', 8 + chance(seed, 2, 10), string_agg(part, ', '))
    FROM (
        SELECT DISTINCT ON (corner) corner, format('%s%s1/4', finer, corner) AS part
        FROM (
            SELECT (ARRAY['NE', 'NW', 'SW', 'SE'])[1 + chance(seed, 10 + n, 4)] AS corner,
                   (ARRAY['', 'N1/2', 'S1/2', 'E1/2', 'W1/2', 'NE1/4', 'NW1/4', 'SW1/4', 'SE1/4'])
                       [1 + chance(seed, 20 + n, 9)] AS finer
            FROM generate_series(1, 1 + chance(seed, 3, 3)) AS n
        ) AS chosen
        ORDER BY corner, finer
    ) AS parts
$$;
