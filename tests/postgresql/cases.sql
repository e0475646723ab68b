-- Answers the table of cases that cases.py writes, as the program would, and shows those that differ.
CREATE FUNCTION answer_to(kind text, account text, notes text, description text) RETURNS text LANGUAGE plpgsql AS $$
DECLARE
    on_plat plat;
    named land;
BEGIN
    on_plat := notes::plat;
    IF kind = 'normal' THEN
        RETURN normal(on_plat, description);
    END IF;
    -- The land is the same by way of its text and its acres.
    named := land(on_plat, description);
    IF named::text::land <> named OR acres(on_plat, named, account) <> acres(on_plat, description, account) THEN
        RETURN 'another land';
    END IF;
    RETURN acres(on_plat, description, account) || ' acres';
EXCEPTION WHEN OTHERS THEN
    -- A refusal, as in `refused 67 at 19: this land was named before`, or what nobody expects.
    RETURN coalesce(substring(SQLERRM FROM '^(refused [0-9]+ at [0-9]+): .'), SQLERRM);
END $$;

-- The same refusal as a record.
CREATE FUNCTION refusal_in(notes text, description text) RETURNS text LANGUAGE plpgsql AS $$
DECLARE
    its_number int;
    its_place int;
BEGIN
    SELECT number, at INTO its_number, its_place FROM refusal(notes);
    IF its_number IS NULL THEN
        SELECT number, at INTO its_number, its_place FROM refusal(notes::plat, description);
    END IF;
    RETURN format('refused %s at %s', its_number, its_place);
END $$;

-- The canonical text is on one line here, and on several in the program.
SELECT name, kind, answer, wanted
FROM cases, translate(rtrim(expected, E'\n'), E'\n', ' ') AS wanted, answer_to(kind, account, notes, description) AS answer
WHERE answer IS DISTINCT FROM wanted OR wanted LIKE 'refused%' AND refusal_in(notes, description) IS DISTINCT FROM wanted
ORDER BY name LIMIT 10;
