// The header is C++ too: reads the field notes that are named, and asks for the acres of a lot.
#include <fstream>
#include <iostream>
#include <iterator>
#include <string>

#include "township.h"

static_assert(sizeof(township_plat) == 340, "a plat has 340 bytes");
static_assert(sizeof(township_answer) == 48, "an answer has 48 bytes");
static_assert(sizeof(township_full_answer) == 400, "a full answer has 3 answers of 48 bytes, and a text of 256");
static_assert(sizeof(township_fraction) == 24, "a fraction has 24 bytes");
static_assert(sizeof(township_plat_figures) == 2312, "the figures have 7 * 36 + 36 + 1 numbers");
static_assert(sizeof(township_land) == 4620, "land has 36 * 32 rows and 2 numbers of 4 bytes, and a designation");
static_assert(sizeof(township_lots) == 13972, "a lot table has no byte between its fields");
static_assert(sizeof(township_part) == 6, "a part has 6 bytes");
static_assert(sizeof(township_tract_answer) == 120, "the answer to a tract has 120 bytes");
static_assert(sizeof(township_overlap) == 16, "an overlap has 16 bytes");
static_assert(sizeof(township_lots_overlap) == 24, "an overlap by a lot table has 24 bytes");
static_assert(sizeof(township_reading) == 40, "a reading has 4 numbers of 8 bytes and 2 of 4");
static_assert(sizeof(township_change) == 56, "a change has 6 numbers of 8 bytes and 2 of 4");
static_assert(sizeof(township_suggestion) == 56, "a suggestion has 7 numbers of 8 bytes");

static const std::uint8_t *bytes(const std::string &text) {
    return reinterpret_cast<const std::uint8_t *>(text.data());
}

static std::uint64_t hundredths(const std::string &notes, const std::string &description) {
    township_plat plat{};
    township_answer answer = township_read(bytes(notes), notes.size(), &plat);

    if (answer.verdict == TOWNSHIP_ACCEPTED) {
        answer = township_acres(&plat, bytes(description), description.size(), TOWNSHIP_EXACT);
    }
    return answer.verdict == TOWNSHIP_ACCEPTED ? answer.hundredths : 0;
}

// The figure of lot 1 of section 5, which is among all the figures of the plat.
static std::uint64_t figure(const std::string &notes) {
    township_plat plat{};
    township_plat_figures figures{};
    const bool holds = township_read(bytes(notes), notes.size(), &plat).verdict == TOWNSHIP_ACCEPTED &&
                       township_figures(&plat, &figures).verdict == TOWNSHIP_ACCEPTED;

    return holds ? figures.lots[5 - 1][1 - 1] : 0;
}

// Whether the only place of section 14 in this corner is the lowest bit of its northernmost row, and the land's only
// part.
static bool has_corner() {
    const township_designation township = {2, TOWNSHIP_NORTH, 3, TOWNSHIP_WEST};
    const std::string text = "sec. 14, NE1/4NE1/4NE1/4NE1/4NE1/4.";
    township_land land{};
    township_part part{};

    return township_land_read(&township, bytes(text), text.size(), &land).verdict == TOWNSHIP_ACCEPTED &&
           land.rows[14 - 1][TOWNSHIP_PLACES_ACROSS - 1] == 1 && township_land_parts(&land, &part, 1).length == 1 &&
           part.section == 14 && part.column == 0 && part.row == TOWNSHIP_PLACES_ACROSS - 1 && part.rows == 1;
}

// The acres of a lot by a lot table.
static std::uint64_t returned(const std::string &table, const std::string &description) {
    township_lots lots{};
    township_answer answer = township_lots_read(bytes(table), table.size(), &lots);

    if (answer.verdict == TOWNSHIP_ACCEPTED) {
        answer = township_lots_acres(&lots, bytes(description), description.size());
    }
    return answer.hundredths;
}

// The acres of land on the plat of a lot table, if the land has the table's date.
static std::uint64_t returned_for_land(const std::string &table, const std::string &description) {
    township_lots lots{};
    township_land land{};
    const bool holds =
        township_lots_read(bytes(table), table.size(), &lots).verdict == TOWNSHIP_ACCEPTED &&
        township_lots_land_read(&lots, bytes(description), description.size(), &land).verdict == TOWNSHIP_ACCEPTED &&
        land.date == lots.date && land.own_lots == 1;

    return holds ? township_lots_land_acres(&lots, &land).hundredths : 0;
}

// The name and the figure of the one tract of a list.
static std::string tract(const std::string &notes, const std::string &list) {
    township_plat plat{};
    township_tract tracts[1]{};
    township_totals totals{};
    const bool holds = township_read(bytes(notes), notes.size(), &plat).verdict == TOWNSHIP_ACCEPTED &&
                       township_account(&plat, bytes(list), list.size(), tracts, 1, &totals).verdict ==
                           TOWNSHIP_ACCEPTED;

    return holds ? tracts[0].name + (": " + std::to_string(tracts[0].hundredths)) : "";
}

// The hundredths of an acre that the only two tracts of a list share, if they are answered and overlap.
static std::uint64_t shared(const std::string &notes, const std::string &list) {
    township_plat plat{};
    township_tract_answer answers[2]{};
    township_overlap overlap{};
    const bool holds =
        township_read(bytes(notes), notes.size(), &plat).verdict == TOWNSHIP_ACCEPTED &&
        township_report_each(&plat, bytes(list), list.size(), answers, 2).length == 2 &&
        answers[0].answer.verdict == TOWNSHIP_ACCEPTED && answers[1].name == std::string("B") &&
        township_overlaps(&plat, bytes(list), list.size(), &overlap, 1).length == 1 && overlap.second == 3;

    return holds ? overlap.hundredths : 0;
}

// The lot that a table lacks of the land that the only two tracts of a list share, if they overlap.
static std::uint32_t lacking(const std::string &table, const std::string &list) {
    township_lots lots{};
    township_lots_overlap overlap{};
    const bool holds =
        township_lots_read(bytes(table), table.size(), &lots).verdict == TOWNSHIP_ACCEPTED &&
        township_lots_overlaps(&lots, bytes(list), list.size(), &overlap, 1).length == 1 && overlap.hundredths == 0;

    return holds ? overlap.lacking : 0;
}

// The first reading of a text that has two.
static std::string first_reading(const std::string &given) {
    township_reading readings[TOWNSHIP_READINGS_MOST]{};
    township_change changes[8]{};
    std::uint8_t texts[256]{};
    township_suggestion said{};
    const township_answer answer = township_suggest(bytes(given), given.size(), readings, TOWNSHIP_READINGS_MOST,
                                                    changes, 8, texts, sizeof texts, &said);

    if (answer.verdict != TOWNSHIP_ACCEPTED || said.readings != 2) {
        return "";
    }
    return std::string(reinterpret_cast<const char *>(texts) + readings[0].text, readings[0].text_length);
}

int main(int count, char **words) {
    std::ifstream file(count > 1 ? words[1] : "samples/b1.csv", std::ios::binary);
    const std::string notes((std::istreambuf_iterator<char>(file)), std::istreambuf_iterator<char>());
    const bool holds = hundredths(notes, "sec. 5, lot 1.") == 4045 && figure(notes) == 4045 && has_corner() &&
                       returned("section,lot,acres\nT,2,N,3,W\n5,1,40.45\n", "sec. 5, lot 1.") == 4045 &&
                       returned_for_land("section,lot,acres,land\nT,2,N,3,W,1912-03-04\n14,9,12.25,SW1/4SE1/4\n",
                                         "sec. 14, lot 9.") == 1225 &&
                       tract(notes, "name,description\nA,\"sec. 5, lot 1.\"\n") == "A: 4045" &&
                       shared(notes, "name,description\nA,sec. 14\nB,\"sec. 14, NE1/4\"\n") == 16000 &&
                       lacking("section,lot,acres\nT,2,N,3,W\n5,1,40.45\n",
                               "name,description\nA,sec. 5\nB,\"sec. 5, lots 1 to 3\"\n") == 502 &&
                       first_reading("sec. 14, NE1/4 SW1/4") == "sec. 14, NE1/4, SW1/4";

    std::cout << holds << " passed, " << !holds << " failed\n";
    return !holds;
}
