/*
 * Which readings depend on the lots of the plat. If nothing says which lots it has, they assume the standard ones.
 */
#include "land.h"
#include "readings.h"

/* The township of a text with no heading: the standard lots are the same in each. */
static township_designation township_in(twpg_bytes text) {
    township_designation township = {1, TOWNSHIP_NORTH, 1, TOWNSHIP_EAST};
    township_designation found;
    size_t end;

    return twpg_find_heading(text, &found, &end) == TWPG_HEADING ? found : township;
}

/* Whether land of a regular township contains a lot or a whole section. */
static bool has_lot_or_section(const township_land *land) {
    bool found = false;
    size_t count;
    size_t index;
    township_part *parts = twpg_parts_of(land, &count);

    for (index = 0; index < count && !found; index++) {
        found = parts[index].lot > 0 ||
                (parts[index].columns == TOWNSHIP_PLACES_ACROSS && parts[index].rows == TOWNSHIP_PLACES_ACROSS);
    }
    pfree(parts);
    return found;
}

/* A canonical description was made with the standard lots. Any other description depends on them if its land includes a
   lot or a whole section. A text that is a description already is its own reading, even if a regular township refuses
   it: it does not depend on the standard lots. */
bool twpg_depends_on_lots(uint32_t manner, twpg_bytes text) {
    township_designation township = township_in(text);
    township_land land;
    township_answer answer;

    if (manner != TOWNSHIP_CHANGED) {
        return true;
    }
    answer = township_land_read(&township, text.start, text.length, &land);
    if (answer.verdict != TOWNSHIP_ACCEPTED && answer.verdict != TOWNSHIP_REFUSED) {
        twpg_fail(answer.verdict);
    }
    return answer.verdict == TOWNSHIP_ACCEPTED && has_lot_or_section(&land);
}
