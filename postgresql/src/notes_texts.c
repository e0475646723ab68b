/*
 * Functions on field notes where others take a plat, and on descriptions where others take land. With them, a
 * literal needs no cast: PostgreSQL takes it for a text if one of the functions of that name does. The text is read
 * anew in each call.
 */
#include "land.h"

Datum twpg_plat_in(PG_FUNCTION_ARGS);
Datum twpg_land_in(PG_FUNCTION_ARGS);
Datum twpg_plat_township(PG_FUNCTION_ARGS);
Datum twpg_land_township(PG_FUNCTION_ARGS);
Datum twpg_land_is_empty(PG_FUNCTION_ARGS);
Datum twpg_land_plat_date(PG_FUNCTION_ARGS);
Datum twpg_land_has_own_lots(PG_FUNCTION_ARGS);
Datum twpg_acres(PG_FUNCTION_ARGS);
Datum twpg_acres_or_null(PG_FUNCTION_ARGS);
Datum twpg_area(PG_FUNCTION_ARGS);
Datum twpg_normal(PG_FUNCTION_ARGS);
Datum twpg_acres_of_land(PG_FUNCTION_ARGS);
Datum twpg_acres_of_land_or_null(PG_FUNCTION_ARGS);
Datum twpg_area_of_land(PG_FUNCTION_ARGS);
Datum twpg_notes(PG_FUNCTION_ARGS);
Datum twpg_report(PG_FUNCTION_ARGS);
Datum twpg_list_overlaps(PG_FUNCTION_ARGS);
Datum twpg_suggest_on_plat(PG_FUNCTION_ARGS);
Datum twpg_suggest_on_plat_without(PG_FUNCTION_ARGS);
Datum twpg_svg_on_plat(PG_FUNCTION_ARGS);
Datum twpg_svg_of_section_on_plat(PG_FUNCTION_ARGS);

/* Reads the first argument as the text of a type. */
static void read_first(FunctionCallInfo fcinfo, PGFunction input) {
    fcinfo->args[0].value = DirectFunctionCall1(input, CStringGetDatum(text_to_cstring(PG_GETARG_TEXT_PP(0))));
}

/* A function of a text, which is read as the text of a type, and then given to the function of that type. */
#define OF_TEXT(name, input, function)                                                                                \
    PG_FUNCTION_INFO_V1(name);                                                                                        \
    Datum name(PG_FUNCTION_ARGS) {                                                                                    \
        read_first(fcinfo, input);                                                                                    \
        return function(fcinfo);                                                                                      \
    }

OF_TEXT(twpg_acres_by_notes, twpg_plat_in, twpg_acres)
OF_TEXT(twpg_acres_by_notes_or_null, twpg_plat_in, twpg_acres_or_null)
OF_TEXT(twpg_area_by_notes, twpg_plat_in, twpg_area)
OF_TEXT(twpg_normal_by_notes, twpg_plat_in, twpg_normal)
OF_TEXT(twpg_acres_of_land_by_notes, twpg_plat_in, twpg_acres_of_land)
OF_TEXT(twpg_acres_of_land_by_notes_or_null, twpg_plat_in, twpg_acres_of_land_or_null)
OF_TEXT(twpg_area_of_land_by_notes, twpg_plat_in, twpg_area_of_land)
OF_TEXT(twpg_notes_by_notes, twpg_plat_in, twpg_notes)
OF_TEXT(twpg_report_by_notes, twpg_plat_in, twpg_report)
OF_TEXT(twpg_list_overlaps_by_notes, twpg_plat_in, twpg_list_overlaps)
OF_TEXT(twpg_suggest_by_notes, twpg_plat_in, twpg_suggest_on_plat)
OF_TEXT(twpg_svg_by_notes, twpg_plat_in, twpg_svg_on_plat)
OF_TEXT(twpg_svg_of_section_by_notes, twpg_plat_in, twpg_svg_of_section_on_plat)
OF_TEXT(twpg_text_is_empty, twpg_land_in, twpg_land_is_empty)
OF_TEXT(twpg_text_plat_date, twpg_land_in, twpg_land_plat_date)
OF_TEXT(twpg_text_has_own_lots, twpg_land_in, twpg_land_has_own_lots)

/* The township of a description with a heading of its own, or else of field notes. */
PG_FUNCTION_INFO_V1(twpg_township_of_text);
Datum twpg_township_of_text(PG_FUNCTION_ARGS) {
    if (!twpg_is_land_text(twpg_bytes_of_text(PG_GETARG_TEXT_PP(0)))) {
        read_first(fcinfo, twpg_plat_in);
        return twpg_plat_township(fcinfo);
    }
    read_first(fcinfo, twpg_land_in);
    return twpg_land_township(fcinfo);
}

/* The readings of a text without phrases. It is not strict: without field notes, there are no rows. */
PG_FUNCTION_INFO_V1(twpg_suggest_by_notes_without);
Datum twpg_suggest_by_notes_without(PG_FUNCTION_ARGS) {
    if (!PG_ARGISNULL(0)) {
        read_first(fcinfo, twpg_plat_in);
    }
    return twpg_suggest_on_plat_without(fcinfo);
}
