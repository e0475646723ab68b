/*
 * township.h: the acreage of land in a township of the United States rectangular survey.
 *
 * township_read makes a plat, which is plain data, from field notes (CSV). On a plat, other functions return the
 * acres, the exact area, and the canonical text of a description by lots and aliquot parts, or the account of a list
 * of tracts; or they refuse the input, with the number and the place of its first fault. The answers are proved for
 * all bytes; docs/PROMISES.md states the promises in words.
 *
 *     township_plat plat;
 *     township_answer answer = township_read(notes, notes_length, &plat);
 *     if (answer.verdict == TOWNSHIP_ACCEPTED) {
 *         answer = township_acres(&plat, text, text_length, TOWNSHIP_EXACT);
 *     }
 *     if (answer.verdict == TOWNSHIP_ACCEPTED) {
 *         printf("%.2f acres\n", (double)answer.hundredths / 100);
 *     }
 *
 * The example examples/acres.c is a complete program, and says how to link it. The Debian packages install it
 * in /usr/share/doc/township.
 *
 * No pointer may be NULL, even for zero bytes, and memory that a call writes must not overlap the memory of any other
 * argument. There is nothing to free, and nothing is kept from one call to the next: call any function from any
 * thread at any time, but not from a signal handler. A call allocates memory with `malloc` and frees it before it
 * returns. At least 256 KiB of stack must be available.
 */
#ifndef TOWNSHIP_H
#define TOWNSHIP_H

#include <stddef.h>
#include <stdint.h>

#ifdef __cplusplus
extern "C" {
#endif

/* Made by tools/header_names.py: */
/* The version of this header; township_version returns the version of the library. */
#define TOWNSHIP_VERSION "1.0.0"
#define TOWNSHIP_VERSION_MAJOR 1
#define TOWNSHIP_VERSION_MINOR 0
#define TOWNSHIP_VERSION_PATCH 0
/* The version as one number, for comparisons: 1,000,000 * MAJOR + 1,000 * MINOR + PATCH. */
#define TOWNSHIP_VERSION_NUMBER 1000000

/* The numbers of refusals, explained in docs/REFUSALS.md and the pages that it names. */
/* Field notes: */
#define TOWNSHIP_REFUSAL_NOTES_TOO_LARGE 1u
#define TOWNSHIP_REFUSAL_NOTES_EMPTY 2u
#define TOWNSHIP_REFUSAL_NOTES_HEADING 3u
#define TOWNSHIP_REFUSAL_NOTES_COLUMNS 4u
#define TOWNSHIP_REFUSAL_NOTES_TOWNSHIP 5u
#define TOWNSHIP_REFUSAL_NOTES_RUN 6u
#define TOWNSHIP_REFUSAL_NOTES_SECTION 7u
#define TOWNSHIP_REFUSAL_NOTES_NO_LINE 8u
#define TOWNSHIP_REFUSAL_NOTES_LENGTH 9u
#define TOWNSHIP_REFUSAL_NOTES_REPEATED 10u
#define TOWNSHIP_REFUSAL_NOTES_MISSING 11u
/* The plat that field notes make: */
#define TOWNSHIP_REFUSAL_PLAT_IRREGULAR 21u
#define TOWNSHIP_REFUSAL_PLAT_CLOSING_SHORT 22u
#define TOWNSHIP_REFUSAL_PLAT_CLOSING_LONG 23u
/* The name of a township: */
#define TOWNSHIP_REFUSAL_DESIGNATION_NUMBER 31u
#define TOWNSHIP_REFUSAL_DESIGNATION_DIRECTION 32u
#define TOWNSHIP_REFUSAL_DESIGNATION_RANGE 33u
#define TOWNSHIP_REFUSAL_DESIGNATION_RANGE_DIRECTION 34u
#define TOWNSHIP_REFUSAL_DESIGNATION_AFTER 35u
#define TOWNSHIP_REFUSAL_DESIGNATION_TOO_LARGE 36u
/* A text with the land of several townships: */
#define TOWNSHIP_REFUSAL_SPLIT_NO_HEADING 38u
#define TOWNSHIP_REFUSAL_SPLIT_TOO_LARGE 39u
/* The text of a description: */
#define TOWNSHIP_REFUSAL_TEXT_TOO_LARGE 41u
#define TOWNSHIP_REFUSAL_TEXT_BAD_BYTE 42u
#define TOWNSHIP_REFUSAL_TEXT_BAD_NUMBER 43u
#define TOWNSHIP_REFUSAL_TEXT_SYNTAX 44u
/* Phrases that are not land: */
#define TOWNSHIP_REFUSAL_PHRASES_TOO_LARGE 50u
#define TOWNSHIP_REFUSAL_PHRASES_NAMES_LAND 51u
/* The land that a description names: */
#define TOWNSHIP_REFUSAL_LAND_OTHER_TOWNSHIP 61u
#define TOWNSHIP_REFUSAL_LAND_NO_SECTION 62u
#define TOWNSHIP_REFUSAL_LAND_BACKWARD 63u
#define TOWNSHIP_REFUSAL_LAND_NO_LOT 64u
#define TOWNSHIP_REFUSAL_LAND_TOO_FINE 65u
#define TOWNSHIP_REFUSAL_LAND_ON_LOT 66u
#define TOWNSHIP_REFUSAL_LAND_OVERLAP 67u
#define TOWNSHIP_REFUSAL_LAND_NO_LAND 68u
/* A list of tracts: */
#define TOWNSHIP_REFUSAL_TRACTS_TOO_LARGE 80u
#define TOWNSHIP_REFUSAL_TRACT_ROW 81u
#define TOWNSHIP_REFUSAL_NAME_REPEATED 82u
#define TOWNSHIP_REFUSAL_TRACT_REFUSED 83u
#define TOWNSHIP_REFUSAL_TRACTS_OVERLAP 84u
#define TOWNSHIP_REFUSAL_TOO_MANY_TRACTS 85u
/* A lot table, and land measured by it: */
#define TOWNSHIP_REFUSAL_LOTS_TOO_LARGE 86u
#define TOWNSHIP_REFUSAL_LOTS_EMPTY 87u
#define TOWNSHIP_REFUSAL_LOTS_HEADING 88u
#define TOWNSHIP_REFUSAL_LOTS_COLUMNS 89u
#define TOWNSHIP_REFUSAL_LOTS_TOWNSHIP 90u
#define TOWNSHIP_REFUSAL_LOTS_NO_LOT 91u
#define TOWNSHIP_REFUSAL_LOTS_ACRES 92u
#define TOWNSHIP_REFUSAL_LOTS_REPEATED 93u
#define TOWNSHIP_REFUSAL_LOTS_LACKING 94u
#define TOWNSHIP_REFUSAL_LOTS_DATE 95u
#define TOWNSHIP_REFUSAL_LOTS_LAND 96u
#define TOWNSHIP_REFUSAL_LOTS_TOO_FINE 97u
#define TOWNSHIP_REFUSAL_LOTS_SHARED 98u
#define TOWNSHIP_REFUSAL_LOTS_TOO_MANY 99u
#define TOWNSHIP_REFUSAL_LOTS_UNFILLED 100u
#define TOWNSHIP_REFUSAL_LOTS_DIVIDED 101u
/* End of the lines that tools/header_names.py makes. */

/* The number of section lines in a township. */
#define TOWNSHIP_LINES 84

/* The maximum sizes, in bytes, of field notes, a description, a list of tracts, and a lot table. Longer input is
   refused. */
#define TOWNSHIP_NOTES_MOST 65536
#define TOWNSHIP_DESCRIPTION_MOST 65536
#define TOWNSHIP_LIST_MOST 1048576
#define TOWNSHIP_LOTS_TEXT_MOST 65536

/* The maximum size, in bytes, of a text that township_split takes. */
#define TOWNSHIP_SPLIT_MOST 1048576

/* Verdicts. */
#define TOWNSHIP_ACCEPTED 0u      /* the input is accepted, and the answer is valid */
#define TOWNSHIP_REFUSED 1u       /* the input has the fault `number`, at the place `at` */
#define TOWNSHIP_TRACT_REFUSED 2u /* a tract's description in the list has the fault `inner_number`, at the
                                     place `inner_at`; `number` is 83, and `at` is the tract's record */
#define TOWNSHIP_NO_PLAT 3u       /* the plat you passed is not valid */
#define TOWNSHIP_NO_ACCOUNT 4u    /* the account you passed is not valid */
#define TOWNSHIP_NO_ROOM 5u       /* the text needs `length` bytes and `room` is smaller: nothing is written */
#define TOWNSHIP_NO_MEMORY 6u     /* memory ran out, and nothing was written. Every function may return this
                                     except township_version, township_figures, township_designation_read,
                                     and those that take land and write neither text nor parts;
                                     township_acres_many, township_answer_many, and the corresponding
                                     functions for lot tables report it in their answers */
#define TOWNSHIP_NO_RANGE 7u      /* township_acres_many, township_answer_many, and the corresponding functions
                                     for lot tables: the two offsets of this description are not a range of
                                     the bytes given; township_set_aside: two offsets are not a range of the
                                     phrases' bytes */
#define TOWNSHIP_NO_LAND 8u       /* the land you passed is not valid: it has no township, or contains part of a
                                     lot; or `own_lots` is neither 0 nor 1 */
#define TOWNSHIP_NO_LOTS 9u       /* the township of the lot table you passed is not valid */
#define TOWNSHIP_NO_TOWNSHIP 10u  /* the designation you passed is not valid */
#define TOWNSHIP_NO_OPERATION 11u /* township_land_combine: the operation you passed is not valid */
#define TOWNSHIP_OTHER_TOWNSHIP 12u /* two arguments are in different townships: land and land, land and a plat,
                                       or land and a lot table */
#define TOWNSHIP_OTHER_PLAT 13u   /* two arguments (two sets of land, or land and a lot table) are on different
                                     plats of one township; or the call is for the standard lots, but the land
                                     is on a plat with other lots */

/*
 * If several verdicts apply, a call returns the first of these: TOWNSHIP_NO_PLAT, TOWNSHIP_NO_LOTS, or
 * TOWNSHIP_NO_TOWNSHIP; TOWNSHIP_NO_LAND; TOWNSHIP_NO_ACCOUNT or TOWNSHIP_NO_OPERATION; TOWNSHIP_OTHER_TOWNSHIP;
 * TOWNSHIP_OTHER_PLAT; TOWNSHIP_REFUSED or TOWNSHIP_TRACT_REFUSED; TOWNSHIP_NO_ROOM. There are three exceptions: a
 * function that takes land and a lot table checks last whether the land contains part of a lot of the table
 * (TOWNSHIP_NO_LAND); a function that explains returns TOWNSHIP_NO_ROOM for a refused input if its buffer is too small
 * for the text; and the four functions that answer many descriptions, whose names end in `_many`, check their buffers
 * first, since they answer each description even if the plat, the account, or the lot table is not valid.
 * TOWNSHIP_NO_MEMORY is returned only if the arguments are valid, in place of a refusal, TOWNSHIP_NO_ROOM, or
 * TOWNSHIP_ACCEPTED.
 */

/* Accounts: how whole lots count. */
#define TOWNSHIP_EXACT 0u   /* at their exact area */
#define TOWNSHIP_BY_PLAT 1u /* at the acres printed on the plat; other land counts at its nominal area */

/* Which side of the base line a township is on, and which side of the principal meridian its range is on. */
#define TOWNSHIP_NORTH 0u
#define TOWNSHIP_SOUTH 1u
#define TOWNSHIP_EAST 0u
#define TOWNSHIP_WEST 1u

/*
 * A plat: the last quarter mile of each section line, by the line's index (docs/NOTES-FORMAT.md shows
 * them in a drawing), in thousandths of a chain, and the township. You may copy it, store it, or fill
 * it in by hand: each function that takes a plat checks that it is valid.
 */
typedef struct township_plat {
    uint32_t closing_quarters[TOWNSHIP_LINES];
    uint8_t number;      /* the township number, 1 to 99 */
    uint8_t north_south; /* TOWNSHIP_NORTH or TOWNSHIP_SOUTH */
    uint8_t range;       /* the range number, 1 to 99 */
    uint8_t east_west;   /* TOWNSHIP_EAST or TOWNSHIP_WEST */
} township_plat;

/* An answer. Fields that do not apply to the verdict are 0; with TOWNSHIP_NO_ROOM, the other fields are as they would
   be with a larger buffer. */
typedef struct township_answer {
    uint32_t verdict;
    uint32_t number;       /* the refusal's number, such as TOWNSHIP_REFUSAL_LAND_OVERLAP */
    uint32_t at;           /* the refusal's place: a record, a section line, or a byte */
    uint32_t inner_number; /* the number and the place of the refusal of a tract's description */
    uint32_t inner_at;
    uint32_t line;         /* from a function that explains: the line and column of the fault, or of the
                              place that a note is about, counted from 1, or both 0. For a refused
                              description, they locate the byte `at` or, if only white space follows, the
                              end of the text before it */
    uint32_t column;
    uint32_t reserved;     /* 0 */
    uint64_t hundredths;   /* of an acre, rounded once, half up */
    uint64_t length;       /* the number of bytes in the text, or of elements, even if none is written */
} township_answer;

/* The size of the array for the canonical text of each description, in bytes. */
#define TOWNSHIP_TEXT_ROOM 256

/* The answers of township_answer_many, or of township_lots_answer_many, to one description. Bytes of `text` after the
   canonical text are unchanged. */
typedef struct township_full_answer {
    township_answer acres;  /* the answer of township_acres, or of township_lots_acres */
    township_answer normal; /* the answer of township_normal, with a buffer of TOWNSHIP_TEXT_ROOM bytes; or, for the
                               land described, that of township_lots_land_text */
    township_answer note;   /* if `acres` accepts the description, the answer of township_explain_description, or of
                               township_lots_explain_description, with an empty buffer: its verdict is
                               TOWNSHIP_NO_ROOM if there is a note. Otherwise, it is the same as `acres` */
    uint8_t text[TOWNSHIP_TEXT_ROOM]; /* the canonical text */
} township_full_answer;

/*
 * An exact area: `units` over `over`, in square thousandths of a chain (10,000,000 make an acre);
 * `over` is at least 1. The units are a 128-bit number in two halves, less than 10 to the 24th power.
 */
typedef struct township_fraction {
    uint64_t units_low;
    uint64_t units_high;
    uint64_t over;
} township_fraction;

/* The maximum number of lots in a section (section 6 has lots 1 to 7), and the number of sections. */
#define TOWNSHIP_LOTS_MOST 7
#define TOWNSHIP_SECTIONS 36

/*
 * The figures of a printed plat, in hundredths of an acre. Each is an exact area, rounded once, half up.
 * `lots[section - 1][lot - 1]` is the figure for a lot, or 0 if the section has no such lot;
 * `sections[section - 1]` is the figure for a section.
 */
typedef struct township_plat_figures {
    uint64_t lots[TOWNSHIP_SECTIONS][TOWNSHIP_LOTS_MOST];
    uint64_t sections[TOWNSHIP_SECTIONS];
    uint64_t township;
} township_plat_figures;

/* The maximum number of tracts in a list, the maximum length of a tract's name, and the size of the array for a
   name, both in bytes. */
#define TOWNSHIP_TRACTS_MOST 1000
#define TOWNSHIP_NAME_MOST 64
#define TOWNSHIP_NAME_ROOM 68

/* A tract in an account. Its name is printable ASCII, without the quotation marks that may surround it in the
   list; all bytes after it are 0, so it is also a C string. */
typedef struct township_tract {
    uint64_t hundredths;  /* of an acre: the tract's exact area, rounded once, half up */
    uint32_t name_length; /* 1 to TOWNSHIP_NAME_MOST */
    char name[TOWNSHIP_NAME_ROOM];
} township_tract;

/* The totals of an account, in hundredths of an acre. Each is an exact area, rounded once, half up, so `total`
   may differ from the sum of the tracts' figures. */
typedef struct township_totals {
    uint64_t total;     /* of all tracts together */
    uint64_t remaining; /* of all other land in the township */
} township_totals;

/* The answer for a tract in a list: its acres, or its first refusal other than an overlap (81 or 82, or 83 with
   the refusal of its description). Its name is as in `township_tract`, but empty for 81, since the record is not
   a tract. */
typedef struct township_tract_answer {
    township_answer answer;
    uint32_t name_length; /* 0 to TOWNSHIP_NAME_MOST */
    char name[TOWNSHIP_NAME_ROOM];
} township_tract_answer;

/* Two tracts in a list that overlap, identified by their records. */
typedef struct township_overlap {
    uint32_t first;      /* the record of the earlier tract: 2 for the first tract of the list */
    uint32_t second;     /* the record of the later tract */
    uint64_t hundredths; /* of an acre: the land in both, rounded once, half up */
} township_overlap;

/* Two tracts of a list that overlap on the plat of a lot table. */
typedef struct township_lots_overlap {
    uint32_t first;      /* the record of the earlier tract */
    uint32_t second;     /* the record of the later one */
    uint64_t hundredths; /* of an acre of the land in both, by the table: rounded once, half up */
    uint32_t lacking;    /* the first lot of that land that the table lacks: 100 times its section's number, plus its
                            own number; 0 if it lacks none */
    uint32_t reserved;   /* 0 */
} township_lots_overlap;

/* The number of places along a side of a section. */
#define TOWNSHIP_PLACES_ACROSS 32

/*
 * The maximum number of figures in a lot table; the number of bounds between the figures of the 36 sections; and the
 * numbers of bytes that say where the lots of a plat lie: one for each quarter-quarter of the township, and one for each
 * place of those that are divided (at most 128).
 */
#define TOWNSHIP_RETURNED_MOST 1024
#define TOWNSHIP_BOUNDS 37
#define TOWNSHIP_POSITION_BYTES 576
#define TOWNSHIP_DIVIDED_BYTES 8192

/* The designation of a township, with the same fields as in a plat. */
typedef struct township_designation {
    uint8_t number;      /* the township number, 1 to 99 */
    uint8_t north_south; /* TOWNSHIP_NORTH or TOWNSHIP_SOUTH */
    uint8_t range;       /* the range number, 1 to 99 */
    uint8_t east_west;   /* TOWNSHIP_EAST or TOWNSHIP_WEST */
} township_designation;

/*
 * Land: a set of places in a township. A place is nominally a square of 5/8 of an acre; its side is 1/32 of the
 * section's side. `rows[section - 1][row]` is a row of places, counted from 0 in the south of the section; its bit
 * `k`, counted from the lowest, is the place in column `k`, counted from 0 in the east. You may copy land, store it,
 * compare it byte by byte, or fill it in by hand: each function that takes land checks that it contains each lot
 * wholly or not at all.
 *
 * Land is on one of the township's plats. Without a lot table it is on a plat of a regular township: `date` and
 * `own_lots` are 0. On the plat of a lot table, `date` is the table's, and `own_lots` is 1 if the table says where its
 * lots lie. Then only functions that take the table know the lots; the others combine and compare places.
 */
typedef struct township_land {
    uint32_t rows[TOWNSHIP_SECTIONS][TOWNSHIP_PLACES_ACROSS];
    uint32_t date;     /* of the plat's approval, as in a lot table, or 0 */
    uint32_t own_lots; /* 0: the standard lots; 1: the lots of a table */
    township_designation township;
} township_land;

/*
 * A lot table: the lots of a township's approved plat, and the acreage that it returns for each. You may copy it, store
 * it, compare it byte by byte, or fill it in by hand: any values form a lot table if its township is valid.
 *
 * `figures` are in hundredths of an acre: 1 to 99,999, or any other value if the table lacks the lot. The figures of a
 * section are those from `first[section - 1]` up to `first[section]` (exclusive), and `numbers` contains the number of
 * the lot that each is for.
 *
 * If `mapped` is 0, the lots are those of a regular township, at their places. Otherwise, `positions` contains 16 bytes
 * for each section, by number: one for each quarter-quarter section, by row from the south, and within a row from the
 * east. A byte is the number of the lot that the quarter-quarter is in, 0 if it is land in no lot, or 100 if the plat
 * has no land there. A larger byte is for a quarter-quarter that is divided: 101 for the first one of `divided`, which
 * contains such a byte for each of its 64 places, in the same order.
 */
typedef struct township_lots {
    uint32_t figures[TOWNSHIP_RETURNED_MOST];
    uint16_t first[TOWNSHIP_BOUNDS];
    uint8_t numbers[TOWNSHIP_RETURNED_MOST];
    uint8_t positions[TOWNSHIP_POSITION_BYTES];
    uint8_t divided[TOWNSHIP_DIVIDED_BYTES];
    uint16_t mapped;
    uint32_t date; /* of approval: year * 10,000 + month * 100 + day, or 0 if it is not known */
    township_designation township;
} township_lots;

/*
 * A part of land as written: an entry in its canonical text. `lot` is the lot's number, or 0 for a block of land that
 * is in no lot. The block (lots have one, too) is `columns` by `rows` places; its southeast corner is at column
 * `column`, counted from 0 in the east, and row `row`, counted from 0 in the south.
 */
typedef struct township_part {
    uint8_t section;
    uint8_t lot;
    uint8_t column;
    uint8_t row;
    uint8_t columns;
    uint8_t rows;
} township_part;

/* The maximum number of readings of a text. */
#define TOWNSHIP_READINGS_MOST 8

/* Rules: the reasons why a reading changes a text. docs/DESCRIPTIONS.md shows what people write, and how it is
   changed. */
#define TOWNSHIP_RULE_HALF 1u            /* a half is written `1/2` */
#define TOWNSHIP_RULE_QUARTER 2u         /* a quarter is written `1/4` */
#define TOWNSHIP_RULE_DIRECTION 3u       /* a word for a side or a corner is written as its letters */
#define TOWNSHIP_RULE_NUMERAL 4u         /* a word for a number is written in digits */
#define TOWNSHIP_RULE_COPIED 5u          /* a number that the text contains elsewhere is written where it belongs */
#define TOWNSHIP_RULE_COPIED_STEP 6u     /* a step of an aliquot part is repeated where it also applies */
#define TOWNSHIP_RULE_DAMAGE 7u          /* a digit that was scanned as a letter is restored, or a letter that was
                                            scanned as a digit */
#define TOWNSHIP_RULE_EXCEPTION 8u       /* what follows is excluded from the land */
#define TOWNSHIP_RULE_ZEROS 9u           /* the zeros before a number are left out */
#define TOWNSHIP_RULE_FRACTION_DIGIT 10u /* the fraction digit of a register is left out: a 0 after the number of a
                                            township or a range */
#define TOWNSHIP_RULE_HEADING 11u        /* the township and range are written `T. 2 N., R. 3 W.` */
#define TOWNSHIP_RULE_SECTION_WORD 12u   /* the word for a section is written `sec.`, or `secs.` for several */
#define TOWNSHIP_RULE_LOT_WORD 13u       /* the word for lots is written `lot` or `lots` */
#define TOWNSHIP_RULE_THROUGH 14u        /* a hyphen or a dash between numbers is written `thru` */
#define TOWNSHIP_RULE_AND 15u            /* an ampersand is written `and` */
#define TOWNSHIP_RULE_COMMA 16u          /* a comma is written between parts, before them, or after a heading */
#define TOWNSHIP_RULE_SEMICOLON 17u      /* a semicolon is written between one section with its parts and the next */
#define TOWNSHIP_RULE_ONE_PART 18u       /* white space within a part is left out */
#define TOWNSHIP_RULE_MARK 19u           /* a mark that means nothing is left out */
#define TOWNSHIP_RULE_WORD 20u           /* a word that means nothing is left out */
#define TOWNSHIP_RULE_REPEATED 21u       /* parentheses that repeat the text before them are left out */
#define TOWNSHIP_RULE_MOVED_SECTION 22u  /* a section that follows its land is written before it instead */
#define TOWNSHIP_RULE_MOVED_HEADING 23u  /* a township and range are written at the beginning instead */
#define TOWNSHIP_RULE_MERIDIAN 24u       /* the meridian, the state, or the county is left out */
#define TOWNSHIP_RULE_ACREAGE 25u        /* stated acreage is left out */
#define TOWNSHIP_RULE_LABEL 26u          /* a label, which is not land, is left out */

/* The assumptions of a change, which the text does not state. "The words around the change" extend to white space, a
   comma, a semicolon, a colon, or a vertical bar. */
#define TOWNSHIP_ASSUMES_SAME_MERIDIAN 1u    /* the text left out is the plat's meridian, state, or county */
#define TOWNSHIP_ASSUMES_SAME_ACREAGE 2u     /* the acreage left out is correct; it is not checked */
#define TOWNSHIP_ASSUMES_NOT_LAND 3u         /* the text left out is not land */
#define TOWNSHIP_ASSUMES_SAID_BEFORE 4u      /* the text left out repeats the text before it */
#define TOWNSHIP_ASSUMES_WRONG_LETTER 5u     /* a letter or a digit in the words around the change, or around the text
                                                that it copies, is wrong: it was misread, or is a slip of the pen */
#define TOWNSHIP_ASSUMES_NO_MISSING_COMMA 6u /* no comma is missing in the words around the change, or around the white
                                                space that it leaves out: they are one part */

/* Values of `manner`: how the text of a reading was derived from the changed text. */
#define TOWNSHIP_CHANGED 0u    /* it is the changed text */
#define TOWNSHIP_LOTS_NAMED 1u /* it is the canonical description of the land of the changed text, in which an aliquot
                                  part includes lots: they are named instead of it */
#define TOWNSHIP_REMAINDER 2u  /* it is the canonical description of the remaining land: the land before `except`
                                  minus the land after it */

/*
 * A change that a reading makes: it replaces the bytes of the text from `start` up to `end` (exclusive), possibly none,
 * with the `written_length` bytes that begin at bytes[written].
 */
typedef struct township_change {
    uint64_t start;
    uint64_t end;
    uint64_t written;
    uint64_t written_length;
    uint64_t copied;     /* the text that rule 5 or 6 copies begins here, and ends before `copied_end` */
    uint64_t copied_end; /* for all other rules, both are 0 */
    uint32_t rule;       /* such as TOWNSHIP_RULE_QUARTER */
    uint32_t assumes;    /* its assumption, such as TOWNSHIP_ASSUMES_NOT_LAND, or 0 */
} township_change;

/*
 * A reading of a text: a description that township_acres and the other functions accept, or refuse for its land. Its
 * text is the `text_length` bytes that begin at bytes[text]. Its changes, from left to right, are the `changes_length`
 * elements that begin at changes[changes].
 */
typedef struct township_reading {
    uint64_t text;
    uint64_t text_length;
    uint64_t changes;
    uint64_t changes_length;
    uint32_t manner;   /* such as TOWNSHIP_CHANGED */
    uint32_t reserved; /* 0 */
} township_reading;

/*
 * The sizes of the output of township_suggest, whether or not it was written. If there are no readings because lots
 * and aliquot parts can't describe the land, the reason, such as `a portion needs a survey`, is the `reason_length`
 * bytes that begin at bytes[reason], and the phrase that it is about is in the text from `beyond` up to `beyond_end`
 * (exclusive). Otherwise these four are 0.
 */
typedef struct township_suggestion {
    uint64_t readings; /* the number of readings: at most TOWNSHIP_READINGS_MOST */
    uint64_t changes;  /* the number of changes in all readings */
    uint64_t bytes;    /* the number of bytes in all texts */
    uint64_t reason;
    uint64_t reason_length;
    uint64_t beyond;
    uint64_t beyond_end;
} township_suggestion;

/* The two ways to read a phrase in a text that has no readings. */
#define TOWNSHIP_WAYS_SECTION_OR_HALF 1u    /* `S2` before any other land: a section, or a half */
#define TOWNSHIP_WAYS_LOT_OR_HALF 2u        /* `N2` after a lot: one more lot, or a half */
#define TOWNSHIP_WAYS_QUARTER_OR_SECTION 3u /* `Se` at the end: a quarter, or a word for a section */
#define TOWNSHIP_WAYS_NUMBER_OR_FIGURE 4u   /* the number of a section or a lot, or another figure, such as acreage */
#define TOWNSHIP_WAYS_RANGE_OR_HALF 5u      /* a letter and a digit after a range: its side, or a half */
#define TOWNSHIP_WAYS_PART_OR_SECTION 6u    /* a part with `thereof`: of the part before it, or of the section */

/*
 * A range of bytes in a text, from `start` up to `end` (exclusive). In a text with land in several townships: the part
 * for one of them. In a text without readings: unread words, which belong to no phrase that could be in a reading; or,
 * if `ways` is not 0, a phrase that can be read in two ways.
 */
typedef struct township_stretch {
    uint64_t start;
    uint64_t end;
    uint32_t ways;     /* such as TOWNSHIP_WAYS_SECTION_OR_HALF, or 0 */
    uint32_t reserved; /* 0 */
} township_stretch;

/* Makes a plat from field notes. On any verdict other than TOWNSHIP_ACCEPTED, `plat` is unchanged. */
township_answer township_read(const uint8_t *notes, size_t notes_length, township_plat *plat);

/* Writes field notes (CSV) from which township_read makes the same plat. In them, each half mile is 40 chains
   long, except for the second half miles of closing lines. */
township_answer township_write_notes(const township_plat *plat, uint8_t *text, size_t room);

/* Returns in `hundredths` the acres of the land described, on a plat and by an account. */
township_answer township_acres(const township_plat *plat, const uint8_t *description,
                               size_t description_length, uint32_t account);

/* Writes to `area` the exact area, which township_acres rounds. On any verdict other than
   TOWNSHIP_ACCEPTED, `area` is unchanged. */
township_answer township_area(const township_plat *plat, const uint8_t *description,
                              size_t description_length, uint32_t account, township_fraction *area);

/* Writes the canonical text of the land described: descriptions of the same land have the same text. */
township_answer township_normal(const township_plat *plat, const uint8_t *description,
                                size_t description_length, uint8_t *text, size_t room);

/* Writes the printed plat: the acres of each lot, of each section, and of the township. */
township_answer township_print(const township_plat *plat, uint8_t *text, size_t room);

/* Writes the account of a list of tracts (CSV; see docs/TRACTS-FORMAT.md). */
township_answer township_report(const township_plat *plat, const uint8_t *list, size_t list_length,
                                uint8_t *text, size_t room);

/*
 * Writes the figures that township_report prints: a tract for each record after the heading to `tracts`, in the
 * order of the list, and the totals to `totals`. `length` is the number of tracts; if `room`, the number of
 * elements of `tracts`, is smaller, the verdict is TOWNSHIP_NO_ROOM. On any verdict other than
 * TOWNSHIP_ACCEPTED, `tracts` and `totals` are unchanged. An array of TOWNSHIP_TRACTS_MOST tracts always suffices.
 */
township_answer township_account(const township_plat *plat, const uint8_t *list, size_t list_length,
                                 township_tract *tracts, size_t room, township_totals *totals);

/*
 * Answers each tract of a list, even if others are refused: writes to `answers` an answer for each record after the
 * heading. A refusal does not end the call: check the verdict of each answer. The list as a whole is refused if it is
 * too large (80), has no heading (81 at 1), or has too many tracts (85). Overlaps are reported separately: see
 * township_overlaps. `length`, `room`, and other verdicts are as in township_account.
 */
township_answer township_report_each(const township_plat *plat, const uint8_t *list, size_t list_length,
                                     township_tract_answer *answers, size_t room);

/*
 * Finds all overlaps in a list of tracts, even if tracts are refused: writes to `overlaps` each pair of tracts that
 * share land, sorted by the later tract and then by the earlier one. Records that are not tracts, and tracts whose
 * description is refused, overlap nothing. `length` is the number of overlaps; if `room`, the number of elements of
 * `overlaps`, is smaller, the verdict is TOWNSHIP_NO_ROOM. The list as a whole is refused as in township_report_each.
 * On any verdict other than TOWNSHIP_ACCEPTED, `overlaps` is unchanged.
 */
township_answer township_overlaps(const township_plat *plat, const uint8_t *list, size_t list_length,
                                  township_overlap *overlaps, size_t room);

/* Writes to `figures` the figures that township_print prints. On any verdict other than TOWNSHIP_ACCEPTED,
   `figures` is unchanged. */
township_answer township_figures(const township_plat *plat, township_plat_figures *figures);

/*
 * Answers many descriptions, stored one after another: the first description begins at offsets[0] and ends before
 * offsets[1], the next one begins there and ends before offsets[2], and so on, so there is one more offset than there
 * are descriptions. Each is answered as township_acres would answer it, or with TOWNSHIP_NO_RANGE if its second offset
 * is less than its first one or more than `descriptions_length`. A refusal does not end the call: check the verdict of
 * each answer. `length` is the number of descriptions; if `room`, the number of elements of `answers`, is smaller, the
 * verdict is TOWNSHIP_NO_ROOM, and nothing is written.
 *
 * If the plat or the account is not valid, the answer to each description is TOWNSHIP_NO_PLAT or TOWNSHIP_NO_ACCOUNT,
 * and so is the verdict of the call.
 */
township_answer township_acres_many(const township_plat *plat, const uint8_t *descriptions,
                                    size_t descriptions_length, const size_t *offsets,
                                    size_t offsets_length, uint32_t account, township_answer *answers,
                                    size_t room);

/*
 * Answers many descriptions as township_acres_many does, each with its canonical text, and says whether there is a
 * note on it. Call township_normal for a text that is longer than TOWNSHIP_TEXT_ROOM bytes, and
 * township_explain_description for the text of a note or of an explanation. If the plat or the account is not valid,
 * each answer says so, and so does the verdict of the call; the canonical texts do not depend on the account.
 */
township_answer township_answer_many(const township_plat *plat, const uint8_t *descriptions,
                                     size_t descriptions_length, const size_t *offsets,
                                     size_t offsets_length, uint32_t account,
                                     township_full_answer *answers, size_t room);

/*
 * Writes to `township` the township that a text names: `T. 2 N., R. 3 W.` as in the heading of a description,
 * `T2N R3W`, `T-2-N, R-3-W`, `Township 2 North, Range 3 West`, `2N-3W`, or `0020N 0030W` as in a register;
 * docs/TOWNSHIPS.md lists all spellings. Any other text is refused, including one that also names land. The place of
 * the refusal is the first byte of the first word, number, or mark that fits no spelling in its position, or the length
 * of the text. On any verdict other than TOWNSHIP_ACCEPTED, `township` is unchanged.
 */
township_answer township_designation_read(const uint8_t *text, size_t text_length, township_designation *township);

/* Writes the name of a township in the form `T. 2 N., R. 3 W.`, which township_designation_read reads. */
township_answer township_designation_text(const township_designation *township, uint8_t *text, size_t room);

/* Writes to `land` the land that a description names in a township with the standard lots. The description is refused
   exactly if it is refused on a plat of that township made from field notes. On any verdict other than
   TOWNSHIP_ACCEPTED, `land` is unchanged. */
township_answer township_land_read(const township_designation *township, const uint8_t *description,
                                   size_t description_length, township_land *land);

/* Returns in `hundredths` the acres of land with the standard lots, on a plat of its township and by an account. */
township_answer township_land_acres(const township_plat *plat, const township_land *land, uint32_t account);

/* Writes to `area` the exact area, which township_land_acres rounds. On any verdict other than
   TOWNSHIP_ACCEPTED, `area` is unchanged. */
township_answer township_land_area(const township_plat *plat, const township_land *land, uint32_t account,
                                   township_fraction *area);

/* Writes the canonical text of land with the standard lots, which is a description of that land unless it exceeds the
   maximum size of a description. The text of empty land is empty. */
township_answer township_land_text(const township_land *land, uint8_t *text, size_t room);

/*
 * Writes the parts of land with the standard lots, in the order of its canonical text. A section that the land contains
 * wholly is one block; for any other section, the lots come first, and then the other blocks. `length` is the number of
 * parts; if `room`, the number of elements of `parts`, is smaller, the verdict is TOWNSHIP_NO_ROOM, and nothing is
 * written.
 */
township_answer township_land_parts(const township_land *land, township_part *parts, size_t room);

/* Operations: the land in either, the land in both, and the land in the first that is not in the second. */
#define TOWNSHIP_UNION 0u
#define TOWNSHIP_INTERSECTION 1u
#define TOWNSHIP_DIFFERENCE 2u

/* Writes to `land` the union, the intersection, or the difference of `first` and `second`, which must be on one plat.
   On any verdict other than TOWNSHIP_ACCEPTED, `land` is unchanged. */
township_answer township_land_combine(const township_land *first, const township_land *second,
                                      uint32_t operation, township_land *land);

/* How `first` compares to `second`. Empty land is contained in all other land. */
#define TOWNSHIP_EQUAL 0u
#define TOWNSHIP_CONTAINS 1u     /* the first contains the second, and more */
#define TOWNSHIP_IS_CONTAINED 2u /* the second contains the first, and more */
#define TOWNSHIP_OVERLAPS 3u     /* they share land, and each contains land that the other does not */
#define TOWNSHIP_DISJOINT 4u     /* they share no land, and neither is empty */

/* Writes to `comparison` how `first` compares to `second`, which must be on one plat. On any verdict other than
   TOWNSHIP_ACCEPTED, `comparison` is unchanged. */
township_answer township_land_compare(const township_land *first, const township_land *second,
                                      uint32_t *comparison);

/* Reads a lot table (CSV; see docs/LOTS-FORMAT.md). On any verdict other than TOWNSHIP_ACCEPTED, `lots` is
   unchanged. */
township_answer township_lots_read(const uint8_t *table, size_t table_length, township_lots *lots);

/*
 * Writes the plain table of a lot table as a spreadsheet saves it: without empty cells at the end of a row, with commas
 * in place of semicolons or tabs, and with two decimals in the third cell, such as 40.50 for 40.5; docs/LOTS-FORMAT.md
 * gives the rules. Nothing is refused: a row whose quotation marks do not pair stays as it is. Each line of `table`
 * becomes one line of the text, so the line in an explanation of the text (township_explain_lots) is the line of
 * `table`. A plain table is its own plain table.
 */
township_answer township_lots_plain(const uint8_t *table, size_t table_length, uint8_t *text, size_t room);

/*
 * Writes to `land` the land that a description names on the plat of a lot table. A lot is taken whole, wherever it
 * lies; a section named alone means all land that the plat has there. On any verdict other than TOWNSHIP_ACCEPTED,
 * `land` is unchanged.
 */
township_answer township_lots_land_read(const township_lots *lots, const uint8_t *description,
                                        size_t description_length, township_land *land);

/*
 * Writes the canonical text of land on the plat of a lot table. With this table, township_lots_land_read reads the text
 * as the same land, unless it exceeds the maximum size of a description. The land is on the table's plat if its date
 * and `own_lots` are those of the table. Land that was read without a table is also on the plat of any table with the
 * standard lots. A table whose `mapped` is 1 and whose `positions` are 0 has no lots, so this writes land only in
 * aliquot parts.
 */
township_answer township_lots_land_text(const township_lots *lots, const township_land *land, uint8_t *text,
                                        size_t room);

/*
 * Return in `hundredths` the acres of a description or of land, by a lot table of its township; or write the exact
 * area, before rounding, to `area`. Each whole lot counts at its returned acreage, and other land at its nominal
 * area. If the table lacks a lot of the land, the refusal is TOWNSHIP_REFUSAL_LOTS_LACKING, and its place is the
 * first such lot: 100 times the section's number, plus the lot's number. On any verdict other than TOWNSHIP_ACCEPTED,
 * `area` is unchanged.
 */
township_answer township_lots_acres(const township_lots *lots, const uint8_t *description,
                                    size_t description_length);
township_answer township_lots_area(const township_lots *lots, const uint8_t *description,
                                   size_t description_length, township_fraction *area);
township_answer township_lots_land_acres(const township_lots *lots, const township_land *land);
township_answer township_lots_land_area(const township_lots *lots, const township_land *land,
                                        township_fraction *area);

/*
 * Writes to `tracts` the tracts of a list (CSV; see docs/TRACTS-FORMAT.md), each with its acreage by a lot table of
 * its township, and returns in `hundredths` the acreage of all tracts together. Each figure is an exact area, rounded
 * once, half up, so the total may differ from the sum of the tracts' figures. `length` is the number of tracts. The
 * list is refused as in township_account; if the table lacks a lot of a tract, the verdict is TOWNSHIP_TRACT_REFUSED,
 * with TOWNSHIP_REFUSAL_LOTS_LACKING and the first such lot as `inner_number` and `inner_at`. `room` and other
 * verdicts are as in township_account: on any verdict other than TOWNSHIP_ACCEPTED, `tracts` is unchanged.
 */
township_answer township_lots_report(const township_lots *lots, const uint8_t *list, size_t list_length,
                                     township_tract *tracts, size_t room);

/*
 * Answers each tract of a list by a lot table, as township_report_each does on a plat. If the table lacks a lot of a
 * tract, that answer is TOWNSHIP_TRACT_REFUSED, as in township_lots_report.
 */
township_answer township_lots_report_each(const township_lots *lots, const uint8_t *list, size_t list_length,
                                          township_tract_answer *answers, size_t room);

/*
 * Finds all overlaps in a list of tracts on the plat of a lot table, as township_overlaps does on a plat of field
 * notes. Tracts overlap even if the table lacks a lot of the land that is in both: `lacking` is then the first such
 * lot, and `hundredths` is 0.
 */
township_answer township_lots_overlaps(const township_lots *lots, const uint8_t *list, size_t list_length,
                                       township_lots_overlap *overlaps, size_t room);

/* Answers many descriptions by a lot table, each as township_lots_acres would answer it. The descriptions, `length`,
   and `room` are as in township_acres_many. If the table is not valid, the answer to each description is
   TOWNSHIP_NO_LOTS, and so is the verdict of the call. */
township_answer township_lots_acres_many(const township_lots *lots, const uint8_t *descriptions,
                                         size_t descriptions_length, const size_t *offsets,
                                         size_t offsets_length, township_answer *answers, size_t room);

/*
 * Answers many descriptions as township_lots_acres_many does, each with its canonical text on the table's plat, and
 * says whether there is a note on it. Call township_lots_land_text for a text that is longer than TOWNSHIP_TEXT_ROOM
 * bytes, and township_lots_explain_description for the text of a note or of an explanation. If the table is not valid,
 * each answer is TOWNSHIP_NO_LOTS, and so is the verdict of the call.
 */
township_answer township_lots_answer_many(const township_lots *lots, const uint8_t *descriptions,
                                          size_t descriptions_length, const size_t *offsets,
                                          size_t offsets_length, township_full_answer *answers, size_t room);

/*
 * Explain why field notes, a description, or a list is refused. Each function returns the verdict of township_read,
 * township_acres, or township_report, with the line and column of the fault, and writes the lines of text that the
 * program would show; or the verdict is TOWNSHIP_NO_ROOM. `name` is the file name that the text shows, in UTF-8; if it
 * is empty or not valid UTF-8, the text shows `input`. A text has at most 8 lines of at most 100 columns, not counting
 * a name that is too long for the first line.
 *
 * If a description or a list is accepted, but a place in it can be read in two ways, the text is a note on the first
 * such place, with its line and column, and `number` is 0. For any other accepted input, there is no text, and
 * `length` is 0. Notes give acres by TOWNSHIP_EXACT.
 */
township_answer township_explain_notes(const uint8_t *notes, size_t notes_length, const uint8_t *name,
                                       size_t name_length, uint8_t *text, size_t room);
township_answer township_explain_description(const township_plat *plat, const uint8_t *description,
                                             size_t description_length, const uint8_t *name,
                                             size_t name_length, uint8_t *text, size_t room);
township_answer township_explain_list(const township_plat *plat, const uint8_t *list,
                                      size_t list_length, const uint8_t *name, size_t name_length,
                                      uint8_t *text, size_t room);

/*
 * The same for lot tables. township_explain_lots explains why a lot table is refused. township_explain_lacking explains
 * why land is refused by a lot table that lacks one of its lots (TOWNSHIP_REFUSAL_LOTS_LACKING): `at` is the place of
 * that refusal, and `name` is the name that the text gives to the description, land, or list; there is no line or
 * column. If the table is accepted, or does not lack the lot at `at`, there is no text, and `length` is 0.
 */
township_answer township_explain_lots(const uint8_t *table, size_t table_length, const uint8_t *name,
                                      size_t name_length, uint8_t *text, size_t room);
township_answer township_explain_lacking(const township_lots *lots, uint32_t at, const uint8_t *name,
                                         size_t name_length, uint8_t *text, size_t room);

/* Like township_explain_description, for a description on a lot table's plat, as township_lots_acres answers it.
   Notes give no acres. */
township_answer township_lots_explain_description(const township_lots *lots, const uint8_t *description,
                                                  size_t description_length, const uint8_t *name,
                                                  size_t name_length, uint8_t *text, size_t room);

/* The same for a list by a lot table, as township_lots_report answers it. If the table lacks a lot of a tract, the
   text shows the tract's line. Notes give no acres. */
township_answer township_lots_explain_list(const township_lots *lots, const uint8_t *list, size_t list_length,
                                           const uint8_t *name, size_t name_length, uint8_t *text, size_t room);

/* The part of the input that an explanation shows. */
#define TOWNSHIP_SHOWN_NOTHING 0u /* nothing: the fault is not at one place */
#define TOWNSHIP_SHOWN_LINE 1u    /* a line, whose number is in the text; it contains the byte `start` */
#define TOWNSHIP_SHOWN_BYTES 2u   /* the bytes from `start` up to `end` (exclusive), which are underlined */

/*
 * The parts of an explanation or of a note, in bytes: offsets in the input, and offsets and lengths in the text. A part
 * that is missing from the text has length 0.
 */
typedef struct township_explanation {
    uint32_t shown;           /* TOWNSHIP_SHOWN_NOTHING, _LINE, or _BYTES */
    uint32_t has_other;       /* 1 if the same land, name, or line was given before, at the other place; otherwise 0 */
    uint32_t other_record;    /* its record in a list or in field notes, counted from 1; 0 in a description */
    uint32_t continued;       /* which lines of the hints continue the previous line: bit 1 is for the second line,
                                 bit 2 for the third */
    uint64_t start;           /* the bytes of the input that are shown */
    uint64_t end;
    uint64_t other_start;     /* the bytes of the other place in the input */
    uint64_t other_end;
    uint64_t sentence;        /* the fault or the note in words, without the location; treat a line feed in it, with the
                                 two spaces after it, as one space */
    uint64_t sentence_length;
    uint64_t excerpt;         /* the lines that show the input, each with its line feed */
    uint64_t excerpt_length;
    uint64_t hints;           /* the lines that say how to correct it, or give related facts */
    uint64_t hints_length;
    uint64_t repair;          /* the only reading of the text, at the end of the hints; missing if the text shows it
                                 escaped */
    uint64_t repair_length;
} township_explanation;

/*
 * The same as the functions above, but these also return the parts of the text in `explanation`, so that callers need
 * not parse it. If no text is written, `explanation` is unchanged.
 */
township_answer township_explain_notes_parts(const uint8_t *notes, size_t notes_length, const uint8_t *name,
                                             size_t name_length, uint8_t *text, size_t room,
                                             township_explanation *explanation);
township_answer township_explain_description_parts(const township_plat *plat, const uint8_t *description,
                                                   size_t description_length, const uint8_t *name,
                                                   size_t name_length, uint8_t *text, size_t room,
                                                   township_explanation *explanation);
township_answer township_explain_list_parts(const township_plat *plat, const uint8_t *list, size_t list_length,
                                            const uint8_t *name, size_t name_length, uint8_t *text, size_t room,
                                            township_explanation *explanation);
township_answer township_explain_lots_parts(const uint8_t *table, size_t table_length, const uint8_t *name,
                                            size_t name_length, uint8_t *text, size_t room,
                                            township_explanation *explanation);
township_answer township_explain_lacking_parts(const township_lots *lots, uint32_t at, const uint8_t *name,
                                               size_t name_length, uint8_t *text, size_t room,
                                               township_explanation *explanation);
township_answer township_lots_explain_description_parts(const township_lots *lots, const uint8_t *description,
                                                        size_t description_length, const uint8_t *name,
                                                        size_t name_length, uint8_t *text, size_t room,
                                                        township_explanation *explanation);
township_answer township_lots_explain_list_parts(const township_lots *lots, const uint8_t *list, size_t list_length,
                                                 const uint8_t *name, size_t name_length, uint8_t *text, size_t room,
                                                 township_explanation *explanation);

/*
 * Suggests how a text would be written as a description, without a plat: writes its readings, in a fixed order, their
 * changes, and their texts. A text that can be read in several ways has several readings. A text has none if its
 * meaning is not clear, or if lots and aliquot parts can't describe the land. An accepted description in which no
 * place can be read in two ways is its own and only reading, without changes. Where an aliquot part includes lots, the
 * reading names them: the standard lots, which is an assumption, since they may not be those of the approved plat.
 *
 * If one of the three arrays is too small, the verdict is TOWNSHIP_NO_ROOM, and only `suggestion` is written, with the
 * sizes that are needed. With TOWNSHIP_NO_MEMORY, nothing is written. To measure a reading on a plat, pass its text to
 * township_acres, township_normal, or township_explain_description.
 */
township_answer township_suggest(const uint8_t *description, size_t description_length,
                                 township_reading *readings, size_t readings_room, township_change *changes,
                                 size_t changes_room, uint8_t *bytes, size_t bytes_room,
                                 township_suggestion *suggestion);

/*
 * The same on the plat of a lot table: where an aliquot part includes lots, the reading names those of this plat. So a
 * text may have readings other than those with the standard lots. The township of the table doesn't matter: a text that
 * names another one keeps its reading. To measure a reading, pass its text to township_lots_acres,
 * township_lots_land_read, or township_lots_explain_description.
 */
township_answer township_lots_suggest(const township_lots *lots, const uint8_t *description,
                                      size_t description_length, township_reading *readings,
                                      size_t readings_room, township_change *changes, size_t changes_room,
                                      uint8_t *bytes, size_t bytes_room, township_suggestion *suggestion);

/*
 * Finds the words of a text without readings that were not understood: writes to `unread` the runs of unread words,
 * from left to right, and then at most 8 phrases that can be read in two ways. `length` is their number; if `room`, the
 * number of elements of `unread`, is smaller, the verdict is TOWNSHIP_NO_ROOM. On any verdict other than
 * TOWNSHIP_ACCEPTED, `unread` is unchanged.
 */
township_answer township_unread(const uint8_t *description, size_t description_length,
                                township_stretch *unread, size_t room);

/*
 * Finds phrases in a text that you know are not land, such as the labels of your office: writes to `aside` where they
 * are, from left to right. Phrases are stored one after another, with offsets as for township_acres_many. Case does not
 * matter, and a phrase is not found within a word; at each place, the first one in your list counts. To have the text
 * read without them, write a space over each byte from `start` up to `end` (exclusive), and pass the result to
 * township_suggest.
 *
 * The phrases are refused if there are more than 65,536 of them, or more than 65,536 bytes, or if one of them names
 * land, excepts land, or limits it; docs/PHRASES.md explains the refusals. The verdict is TOWNSHIP_NO_RANGE if two
 * offsets are not a range of the phrases' bytes. `length` is the number of places found; if `room`, the number of
 * elements of `aside`, is smaller, the verdict is TOWNSHIP_NO_ROOM. On any verdict other than TOWNSHIP_ACCEPTED,
 * `aside` is unchanged.
 */
township_answer township_set_aside(const uint8_t *description, size_t description_length, const uint8_t *phrases,
                                   size_t phrases_length, const size_t *offsets, size_t offsets_length,
                                   township_stretch *aside, size_t room);

/*
 * Splits a text with land in several townships, such as `T. 2 N., R. 3 W., sec. 5; T. 3 N., R. 3 W., sec. 31.`: writes
 * to `parts` where the part for each township begins and ends. A part begins with its heading, and ends before the
 * separator in front of the next heading: `;`, `; and`, or none. Each part is a description for the calls above, with
 * places that are counted from its beginning. The first part begins at 0, and the last one ends at the end of the text,
 * so a text with only one township is its only part. `length` is the number of parts; if `room`, the number of elements
 * of `parts`, is smaller, the verdict is TOWNSHIP_NO_ROOM. On any verdict other than TOWNSHIP_ACCEPTED, `parts` is
 * unchanged.
 *
 * A text is refused at its first heading if anything but white space precedes it; docs/SEVERAL-TOWNSHIPS.md explains
 * the refusals. A part may be refused when it is passed to another call.
 */
township_answer township_split(const uint8_t *description, size_t description_length, township_stretch *parts,
                               size_t room);

/* Writes the version of this library, such as `1.0.0`. */
township_answer township_version(uint8_t *text, size_t room);

#ifdef __cplusplus
}
#endif

#endif
