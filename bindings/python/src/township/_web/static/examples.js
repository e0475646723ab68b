/** Examples to start from: one of each kind of source. */

const TABLE = `section,lot,acres
T,2,N,3,W
5,1,40.45
5,2,40.55
5,3,40.65
5,4,40.75
`;
/** The township with the lake of docs/LOTS-FORMAT.md. */
const LAKE = `section,lot,acres,land
T,2,N,3,W,1912-03-04
5,1,40.45,NE1/4NE1/4
14,1,38.50,NE1/4NE1/4
14,2,12.25,N1/2NW1/4NE1/4
14,3,19.80,S1/2NW1/4NE1/4
14,4,71.10,E1/2NW1/4
14,,,NW1/4NW1/4
`;
const LIST = `name,description
Smith,"sec. 14, N1/2."
Jones,"sec. 14, E1/2."
Baker,"sec. 15, NE1/4 SE1/4."
Miller,"sec. 5, N1/2."
Clark,"sec. 7, lots 1 to 4."
`;

/** Each example: what it is called, what it shows, and its values beside the field notes of the sample. */
export const EXAMPLES = [
  {
    title: "Field notes",
    shows: "The lots along the north and west sides take the excess or deficiency: lot 4 of section 7 has 39.03 acres.",
    values: { panel: "plat" },
  },
  {
    title: "Lot table",
    shows: "The acreage that an approved plat returns, without field notes: two lots of section 5, and 80 acres.",
    values: { notes: "", lots: TABLE, description: "sec. 5, lots 1 and 2, S1/2NE1/4.", panel: "land" },
  },
  {
    title: "Lots around a lake",
    shows: "A lot table that says where its lots lie: two share a quarter-quarter of section 14, and a lake covers one.",
    values: { notes: "", lots: LAKE, description: "sec. 14, lots 1 to 3, S1/2NE1/4.", panel: "land", view: "14" },
  },
  {
    title: "Description",
    shows: "Lots and aliquot parts in two sections: the acreage by the exact account and by the plat account.",
    values: { description: "sec. 5, lots 1 and 2, S1/2NE1/4; sec. 7, lots 1 to 4.", panel: "land" },
  },
  {
    title: "Text of a lease",
    shows: "Text that isn't in the form of a description: how it would be written as one, and how it is read.",
    values: { description: "NENE, S2NE4 Sec 14-2N-3W", panel: "land" },
  },
  {
    title: "Doubtful text",
    shows: "Is a comma missing? It is 2.50 acres or 80.00 acres, and each reading is drawn.",
    values: { description: "sec. 14: NE¼NE¼ SW¼SW¼", panel: "land" },
  },
  {
    title: "Two descriptions",
    shows: "What a deed and a lease have in common, and the land that is in only one of them.",
    values: { first: "sec. 14, N1/2.", second: "sec. 14, E1/2.", panel: "compare" },
  },
  {
    title: "List of tracts",
    shows: "Five tracts: two overlap, one can be read in two ways, and one is refused; and the land that is left.",
    values: { tracts: LIST, panel: "tracts" },
  },
];
