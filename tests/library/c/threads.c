#include "threads.h"

#include <pthread.h>
#include <stdlib.h>
#include <string.h>

#include "check.h"

#define THREADS 4
#define CALLS 59

/* The stack that the library requires, and room for the thread's own calls. */
#define STACK ((256 + 64) * 1024)

/* The answers of one round, and the texts written in it. */
typedef struct round_answers {
    township_answer answers[CALLS];
    township_plat read;
    township_fraction area;
    township_plat_figures figures;
    township_answer many[2];
    township_full_answer full[2];
    township_tract tracts[2];
    township_tract tracts_by_lots[2];
    township_totals totals;
    township_tract_answer each[2];
    township_overlap overlaps[2];
    township_tract_answer each_by_lots[2];
    township_lots_overlap overlaps_by_lots[2];
    township_answer many_by_lots[2];
    township_full_answer full_by_lots[2];
    township_land land;
    township_land combined;
    uint32_t comparison;
    township_designation township;
    township_lots lots;
    township_lots lake;
    township_land by_the_lake;
    township_fraction areas[3];
    township_part parts[16];
    township_explanation explanations[7];
    township_reading readings[2];
    township_change changes[2];
    township_suggestion suggestion;
    township_reading readings_by_lots[2];
    township_change changes_by_lots[2];
    township_suggestion suggestion_by_lots;
    township_stretch unread[2];
    township_stretch aside[2];
    township_stretch split[2];
    uint8_t texts[CALLS][8192];
} round_answers;

typedef struct job {
    pthread_t thread;
    bytes notes;
    township_plat plat;
    long rounds;
    const round_answers *wanted;
    round_answers *found;
    long different;
} job;

#define BYTES(text) ((const uint8_t *)(text)), (sizeof(text) - 1)

/* Calls each function on land and by lot tables, for the township of the plat, whose number decides which section
   is combined with the land described. */
static void call_on_land(const township_plat *plat, round_answers *to) {
    const township_designation township = {plat->number, plat->north_south, plat->range, plat->east_west};
    township_answer *answer = to->answers;
    township_land other;

    answer[17] = township_land_read(&township, BYTES("sec. 6, lots 1 to 7; sec. 14, N1/2."), &to->land);
    answer[18] = township_land_acres(plat, &to->land, TOWNSHIP_EXACT);
    answer[19] = township_land_area(plat, &to->land, TOWNSHIP_BY_PLAT, &to->areas[0]);
    answer[20] = township_land_text(&to->land, to->texts[20], sizeof to->texts[20]);
    memset(&other, 0, sizeof other);
    memset(other.rows[plat->number + 7], 0xFF, sizeof other.rows[0]);
    other.township = township;
    answer[21] = township_land_combine(&to->land, &other, TOWNSHIP_UNION, &to->combined);
    answer[22] = township_land_compare(&to->combined, &to->land, &to->comparison);
    answer[23] = township_lots_read(BYTES("section,lot,acres\nT,2,N,3,W\n6,1,40.45\n"), &to->lots);
    answer[46] = township_lots_plain(BYTES("section;lot;acres;\n6;1;40.5;\n"), to->texts[46], sizeof to->texts[46]);
    to->lots.township = township;
    to->lots.figures[20] = 4000 + plat->number;
    answer[24] = township_lots_acres(&to->lots, BYTES("sec. 6, lot 1; sec. 14."));
    answer[25] = township_lots_area(&to->lots, BYTES("sec. 6, lot 1."), &to->areas[1]);
    answer[26] = township_lots_land_acres(&to->lots, &other);
    answer[27] = township_lots_land_area(&to->lots, &other, &to->areas[2]);
    answer[28] = township_land_parts(&to->combined, to->parts, sizeof to->parts / sizeof *to->parts);
    answer[35] = township_lots_report(&to->lots, BYTES("name,description\nA,\"sec. 6, lot 1.\"\nB,sec. 14.\n"),
                                      to->tracts_by_lots, 2);
}

/* Calls the functions on the plat of a table with its own lots, for the township of the plat, whose number decides the
   acreage of lot 2. */
static void call_on_own_lots(const township_plat *plat, round_answers *to) {
    township_answer *answer = to->answers;
    township_lots *lake = &to->lake;

    answer[47] = township_lots_read(BYTES("section,lot,acres,land\nT,2,N,3,W,1912-03-04\n14,1,38.50,NE1/4NE1/4\n"
                                          "14,2,12.25,NW1/4NE1/4\n14,,,NW1/4NW1/4\n"),
                                    lake);
    lake->township = (township_designation){plat->number, plat->north_south, plat->range, plat->east_west};
    lake->figures[1] = 1200 + plat->number;
    answer[48] = township_lots_land_read(lake, BYTES("sec. 14, lots 1 and 2, S1/2."), &to->by_the_lake);
    answer[49] = township_lots_land_text(lake, &to->by_the_lake, to->texts[49], sizeof to->texts[49]);
    answer[50] = township_lots_explain_description(lake, BYTES("sec. 14, lot 1 and 2."), BYTES("land.txt"),
                                                   to->texts[50], sizeof to->texts[50]);
    answer[51] = township_lots_explain_description_parts(lake, BYTES("sec. 14, NE1/4."), BYTES("land.txt"),
                                                         to->texts[51], sizeof to->texts[51], &to->explanations[5]);
}

/* Calls the functions that answer lists, and many descriptions, by the same table. */
static void call_lists_by_lots(const township_lots *lake, round_answers *to) {
    static const size_t offsets[] = {0, 15, 22};
    township_answer *answer = to->answers;

    answer[52] = township_lots_report_each(lake, BYTES("name,description\nA,\"sec. 14, lot 2.\"\nA,sec. 7.\n"),
                                           to->each_by_lots, 2);
    answer[53] = township_lots_overlaps(lake, BYTES("name,description\nA,sec. 14.\nB,\"sec. 14, lot 2.\"\n"),
                                        to->overlaps_by_lots, 2);
    answer[54] = township_lots_acres_many(lake, BYTES("sec. 14, lot 2.sec. 7."), offsets, 3, to->many_by_lots, 2);
    answer[55] = township_lots_answer_many(lake, BYTES("sec. 14, lot 2.sec. 7."), offsets, 3, to->full_by_lots, 2);
    answer[56] = township_lots_explain_list(lake, BYTES("name,description\nA,\"sec. 14, lot 1 and 2.\"\n"),
                                            BYTES("tracts.csv"), to->texts[56], sizeof to->texts[56]);
    answer[57] = township_lots_explain_list_parts(lake, BYTES("name,description\nA,\"sec. 14, lot 3.\"\n"),
                                                  BYTES("tracts.csv"), to->texts[57], sizeof to->texts[57],
                                                  &to->explanations[6]);
}

/* Calls each function on the name of a township. */
static void call_on_township(const township_plat *plat, round_answers *to) {
    const township_designation township = {plat->number, plat->north_south, plat->range, plat->east_west};
    uint8_t *text = to->texts[37];

    to->answers[37] = township_designation_text(&township, text, sizeof to->texts[37]);
    to->answers[38] = township_designation_read(text, to->answers[37].length, &to->township);
}

/* Calls each function that explains and gives the parts of its text. */
static void call_explaining(const township_plat *plat, round_answers *to) {
    township_answer *answer = to->answers;

    answer[31] = township_explain_notes_parts(BYTES("line,between\n"), BYTES("notes.csv"), to->texts[31],
                                              sizeof to->texts[31], &to->explanations[0]);
    answer[32] = township_explain_description_parts(plat, BYTES("sec. 14, NE1/4 and N1/2."), BYTES("land.txt"),
                                                    to->texts[32], sizeof to->texts[32], &to->explanations[1]);
    answer[33] = township_explain_list_parts(plat, BYTES("name,description\nA,\"sec. 14, NE/4.\"\n"),
                                             BYTES("tracts.csv"), to->texts[33], sizeof to->texts[33],
                                             &to->explanations[2]);
    answer[41] = township_explain_lots_parts(BYTES("section,lot,acres\nT,2,N,3,W\n5,1,40.5\n"), BYTES("lots.csv"),
                                             to->texts[41], sizeof to->texts[41], &to->explanations[3]);
    answer[42] = township_explain_lacking_parts(&to->lots, 607, BYTES("land.txt"), to->texts[42],
                                                sizeof to->texts[42], &to->explanations[4]);
    answer[43] = township_explain_lots(BYTES("section;lot;acres\n"), BYTES("lots.csv"), to->texts[43],
                                       sizeof to->texts[43]);
    answer[44] = township_explain_lacking(&to->lots, 501, BYTES("land.txt"), to->texts[44], sizeof to->texts[44]);
}

/* Calls each function once. */
static void call_all(bytes notes, const township_plat *plat, round_answers *to) {
    static const size_t offsets[] = {0, 7, 21}, phrases[] = {0, 4, 8};
    township_answer *answer = to->answers;

    memset(to, 0, sizeof *to);
    answer[0] = township_read(notes.at, notes.length, &to->read);
    answer[1] = township_acres(plat, BYTES("sec. 5, lots 1 and 2, S1/2NE1/4."), TOWNSHIP_EXACT);
    answer[2] = township_acres(plat, BYTES("sec. 7, lots 1 to 4."), TOWNSHIP_BY_PLAT);
    answer[3] = township_area(plat, BYTES("sec. 6, lot 1."), TOWNSHIP_EXACT, &to->area);
    answer[4] = township_normal(plat, BYTES("sec. 14, SE1/4, NE1/4, NW1/4."), to->texts[4], sizeof to->texts[4]);
    answer[5] = township_print(plat, to->texts[5], sizeof to->texts[5]);
    answer[6] = township_report(plat, BYTES("name,description\nA,\"sec. 7, lot 1.\"\nB,sec. 6.\n"), to->texts[6],
                                sizeof to->texts[6]);
    answer[7] = township_explain_notes(BYTES("line,between\n"), BYTES("notes.csv"), to->texts[7],
                                       sizeof to->texts[7]);
    answer[8] = township_explain_description(plat, BYTES("sec. 14, NE1/4 and N1/2."), BYTES("land.txt"),
                                             to->texts[8], sizeof to->texts[8]);
    answer[9] = township_explain_list(plat, BYTES("name,description\nA,sec. 37.\n"), BYTES("tracts.csv"),
                                      to->texts[9], sizeof to->texts[9]);
    answer[10] = township_version(to->texts[10], sizeof to->texts[10]);
    answer[11] = township_explain_description(plat, BYTES("sec. 14, NE1/4 SE1/4."), BYTES("land.txt"),
                                              to->texts[11], sizeof to->texts[11]);
    answer[12] = township_explain_list(plat, BYTES("name,description\nA,\"sec. 14, NE1/4 SE1/4.\"\n"),
                                       BYTES("tracts.csv"), to->texts[12], sizeof to->texts[12]);
    answer[13] = township_figures(plat, &to->figures);
    answer[14] = township_acres_many(plat, BYTES("sec. 6.sec. 7, lot 5."), offsets, 3, TOWNSHIP_EXACT, to->many, 2);
    answer[36] = township_answer_many(plat, BYTES("sec. 6.sec. 7, lot 1."), offsets, 3, TOWNSHIP_EXACT, to->full, 2);
    answer[15] = township_write_notes(plat, to->texts[15], sizeof to->texts[15]);
    answer[16] = township_account(plat, BYTES("name,description\nA,\"sec. 7, lot 1.\"\nB,sec. 6.\n"), to->tracts, 2,
                                  &to->totals);
    answer[29] = township_report_each(plat, BYTES("name,description\nA,sec. 6.\nA,sec. 7.\n"), to->each, 2);
    answer[30] = township_overlaps(plat, BYTES("name,description\nA,sec. 6.\nA,sec. 6.\n"), to->overlaps, 2);
    call_on_land(plat, to);
    call_on_own_lots(plat, to);
    call_lists_by_lots(&to->lake, to);
    call_on_township(plat, to);
    call_explaining(plat, to);
    answer[34] = township_suggest(BYTES("sec. 14: NE1/4NE1/4 SW1/4SW1/4"), to->readings, 2, to->changes, 2,
                                  to->texts[34], sizeof to->texts[34], &to->suggestion);
    answer[58] = township_lots_suggest(&to->lake, BYTES("sec. 14: NE1/4NE1/4 SW1/4SW1/4"), to->readings_by_lots, 2,
                                       to->changes_by_lots, 2, to->texts[58], sizeof to->texts[58],
                                       &to->suggestion_by_lots);
    answer[39] = township_unread(BYTES("blip Sec. 14 blop"), to->unread, 2);
    answer[45] = township_set_aside(BYTES("blip Sec. 14 blop"), BYTES("blipblop"), phrases, 3, to->aside, 2);
    answer[40] = township_split(BYTES("T2N R3W sec. 5; T3N R3W sec. 31."), to->split, 2);
}

/* Whether the land, the lot tables, and the areas of two rounds are the same. */
static bool same_land(const round_answers *a, const round_answers *b) {
    return memcmp(&a->land, &b->land, sizeof a->land) == 0 && a->comparison == b->comparison &&
           memcmp(&a->combined, &b->combined, sizeof a->combined) == 0 &&
           memcmp(&a->township, &b->township, sizeof a->township) == 0 &&
           memcmp(&a->lots, &b->lots, sizeof a->lots) == 0 && memcmp(a->areas, b->areas, sizeof a->areas) == 0 &&
           memcmp(&a->lake, &b->lake, sizeof a->lake) == 0 &&
           memcmp(&a->by_the_lake, &b->by_the_lake, sizeof a->by_the_lake) == 0 &&
           memcmp(a->tracts_by_lots, b->tracts_by_lots, sizeof a->tracts_by_lots) == 0 &&
           memcmp(a->parts, b->parts, sizeof a->parts) == 0;
}

/* Whether the readings of two rounds are the same. */
static bool same_readings(const round_answers *a, const round_answers *b) {
    return memcmp(a->readings, b->readings, sizeof a->readings) == 0 &&
           memcmp(a->changes, b->changes, sizeof a->changes) == 0 &&
           memcmp(&a->suggestion, &b->suggestion, sizeof a->suggestion) == 0 &&
           memcmp(a->readings_by_lots, b->readings_by_lots, sizeof a->readings_by_lots) == 0 &&
           memcmp(a->changes_by_lots, b->changes_by_lots, sizeof a->changes_by_lots) == 0 &&
           memcmp(&a->suggestion_by_lots, &b->suggestion_by_lots, sizeof a->suggestion_by_lots) == 0 &&
           memcmp(a->unread, b->unread, sizeof a->unread) == 0 &&
           memcmp(a->aside, b->aside, sizeof a->aside) == 0 &&
           memcmp(a->split, b->split, sizeof a->split) == 0;
}

/* Whether the figures, the accounts, and the answers to many descriptions of two rounds are the same. */
static bool same_figures(const round_answers *a, const round_answers *b) {
    return memcmp(&a->figures, &b->figures, sizeof a->figures) == 0 &&
           memcmp(a->tracts, b->tracts, sizeof a->tracts) == 0 &&
           memcmp(&a->totals, &b->totals, sizeof a->totals) == 0 &&
           memcmp(a->each, b->each, sizeof a->each) == 0 &&
           memcmp(a->overlaps, b->overlaps, sizeof a->overlaps) == 0 &&
           memcmp(a->each_by_lots, b->each_by_lots, sizeof a->each_by_lots) == 0 &&
           memcmp(a->overlaps_by_lots, b->overlaps_by_lots, sizeof a->overlaps_by_lots) == 0 &&
           memcmp(a->many_by_lots, b->many_by_lots, sizeof a->many_by_lots) == 0 &&
           memcmp(a->full_by_lots, b->full_by_lots, sizeof a->full_by_lots) == 0 &&
           same_answer(a->many[0], b->many[0]) && same_answer(a->many[1], b->many[1]) &&
           memcmp(a->full, b->full, sizeof a->full) == 0;
}

static bool same_round(const round_answers *a, const round_answers *b) {
    for (int call = 0; call < CALLS; call++) {
        if (!same_answer(a->answers[call], b->answers[call])) {
            return false;
        }
    }
    return memcmp(&a->read, &b->read, sizeof a->read) == 0 && memcmp(&a->area, &b->area, sizeof a->area) == 0 &&
           memcmp(a->texts, b->texts, sizeof a->texts) == 0 &&
           memcmp(a->explanations, b->explanations, sizeof a->explanations) == 0 && same_figures(a, b) &&
           same_land(a, b) && same_readings(a, b);
}

/* Whether a call of a round explains a refusal. */
static bool is_explained(int call) {
    return (call >= 7 && call <= 9) || (call >= 31 && call <= 33) || (call >= 41 && call <= 44) || call == 51 ||
           call == 57;
}

static void *run(void *given) {
    job *mine = given;

    for (long round = 0; round < mine->rounds; round++) {
        call_all(mine->notes, &mine->plat, mine->found);
        mine->different += !same_round(mine->found, mine->wanted);
    }
    return NULL;
}

/* A plat of its own for each thread: no two have the same township, or the same lot 1 of section 6. */
static township_plat plat_of_thread(int thread) {
    township_plat plat = even_plat();

    plat.number = (uint8_t)(thread + 1);
    plat.closing_quarters[6] = 20000 + 100 * (uint32_t)thread;
    plat.closing_quarters[47] = 19000 + 50 * (uint32_t)thread;
    return plat;
}

/* The answers of the calls when nothing else runs: all accepted, except for those that explain. */
static round_answers *answers_alone(bytes notes, const township_plat *plat) {
    round_answers *wanted = calloc(1, sizeof *wanted);

    if (wanted == NULL) {
        perror("calloc");
        exit(2);
    }
    call_all(notes, plat, wanted);
    for (int call = 0; call < CALLS; call++) {
        uint32_t verdict = wanted->answers[call].verdict;

        CHECK(is_explained(call) ? wanted->texts[call][0] != 0 : verdict == TOWNSHIP_ACCEPTED);
    }
    CHECK(wanted->texts[11][0] != 0 && wanted->texts[12][0] != 0 && wanted->texts[50][0] != 0 &&
          wanted->texts[56][0] != 0);
    CHECK(wanted->answers[7].verdict == TOWNSHIP_REFUSED && wanted->answers[8].verdict == TOWNSHIP_REFUSED &&
          wanted->answers[9].verdict == TOWNSHIP_TRACT_REFUSED);
    return wanted;
}

static void start(job *mine, pthread_attr_t *attributes) {
    if (pthread_create(&mine->thread, attributes, run, mine) != 0) {
        perror("pthread_create");
        exit(2);
    }
}

void call_from_threads(bytes notes, long rounds) {
    job jobs[THREADS];
    round_answers *wanted[THREADS];
    pthread_attr_t attributes;

    pthread_attr_init(&attributes);
    CHECK(pthread_attr_setstacksize(&attributes, STACK) == 0);
    for (int i = 0; i < THREADS; i++) {
        jobs[i] = (job){.notes = notes, .plat = plat_of_thread(i), .rounds = rounds};
        wanted[i] = answers_alone(notes, &jobs[i].plat);
        jobs[i].wanted = wanted[i];
        jobs[i].found = answers_alone(notes, &jobs[i].plat);
    }
    CHECK(!same_round(wanted[0], wanted[1]));
    for (int i = 0; i < THREADS; i++) {
        start(&jobs[i], &attributes);
    }
    for (int i = 0; i < THREADS; i++) {
        CHECK(pthread_join(jobs[i].thread, NULL) == 0);
        CHECK(jobs[i].different == 0);
        free(wanted[i]);
        free(jobs[i].found);
    }
    pthread_attr_destroy(&attributes);
}
