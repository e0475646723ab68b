/*
 * Packing lot tables for storage, and unpacking them. lots.h says what the bytes are.
 */
#include "lots.h"

#define QUARTER_QUARTERS 16
#define PLACES 64
#define MASK_BYTES 5
#define FIRST_DIVIDED 101

/* What is read, or written, of packed bytes. */
typedef struct twpg_reader {
    const uint8_t *at;
    const uint8_t *end;
} twpg_reader;

static uint8_t *put_number(uint8_t *at, uint32_t number, int bytes) {
    while (bytes-- > 0) {
        *at++ = (uint8_t)(number >> (8 * bytes));
    }
    return at;
}

/* The next bytes, or NULL if there are not as many. */
static const uint8_t *take(twpg_reader *reader, size_t bytes) {
    const uint8_t *at = reader->at;

    if ((size_t)(reader->end - at) < bytes) {
        return NULL;
    }
    reader->at += bytes;
    return at;
}

static bool take_number(twpg_reader *reader, int bytes, uint32_t *number) {
    const uint8_t *at = take(reader, (size_t)bytes);

    for (*number = 0; at != NULL && bytes > 0; bytes--) {
        *number = *number << 8 | *at++;
    }
    return at != NULL;
}

/* The lots with figures, and how many there are. */
static uint8_t *put_lots(const township_lots *lots, uint8_t *at) {
    uint8_t *count_at = at;
    uint32_t count = 0;
    int section;
    int index;

    at += 2;
    for (section = 1; section <= TOWNSHIP_SECTIONS; section++) {
        for (index = lots->first[section - 1]; index < lots->first[section]; index++) {
            if (lots->figures[index] != 0) {
                at = put_number(at, (uint32_t)section, 1);
                at = put_number(at, lots->numbers[index], 1);
                at = put_number(at, lots->figures[index], 3);
                count++;
            }
        }
    }
    put_number(count_at, count, 2);
    return at;
}

static bool is_marked(const uint8_t *positions) {
    int index;

    for (index = 0; index < QUARTER_QUARTERS; index++) {
        if (positions[index] != 0) {
            return true;
        }
    }
    return false;
}

/* How many quarter-quarters are divided: their bytes count up from the first one's. */
size_t twpg_divided_in(const township_lots *lots) {
    size_t count = 0;
    int index;

    for (index = 0; index < TOWNSHIP_POSITION_BYTES; index++) {
        if (lots->positions[index] >= FIRST_DIVIDED) {
            count = Max(count, (size_t)(lots->positions[index] - FIRST_DIVIDED + 1));
        }
    }
    return count;
}

static uint8_t *put_map(const township_lots *lots, uint8_t *at) {
    uint8_t *mask = at;
    size_t bytes = Min(twpg_divided_in(lots) * PLACES, sizeof lots->divided);
    int index;

    memset(mask, 0, MASK_BYTES);
    at += MASK_BYTES;
    for (index = 0; index < TOWNSHIP_SECTIONS; index++) {
        const uint8_t *positions = lots->positions + QUARTER_QUARTERS * index;

        if (is_marked(positions)) {
            mask[index / 8] |= (uint8_t)(1 << index % 8);
            memcpy(at, positions, QUARTER_QUARTERS);
            at += QUARTER_QUARTERS;
        }
    }
    memcpy(at, lots->divided, bytes);
    return at + bytes;
}

/* Packs a lot table into at most TWPG_LOTS_MOST bytes, and returns how many it takes. */
size_t twpg_pack_lots(const township_lots *lots, uint8_t *bytes) {
    uint8_t *at = bytes;

    memcpy(at, &lots->township, sizeof lots->township);
    at = put_number(at + sizeof lots->township, lots->date, 4);
    at = put_number(at, lots->mapped, 1);
    at = put_lots(lots, at);
    if (lots->mapped != 0) {
        at = put_map(lots, at);
    }
    return (size_t)(at - bytes);
}

/* A lot table of a regular township that lacks each lot: only the library knows which lots it has. */
static const township_lots *standard_lots(void) {
    static const uint8_t table[] = "section,lot,acres\nT,1,N,1,E\n";
    static township_lots lots;
    static bool is_read = false;

    if (!is_read) {
        township_answer answer = township_lots_read(table, sizeof table - 1, &lots);

        if (answer.verdict != TOWNSHIP_ACCEPTED) {
            twpg_fail(answer.verdict);
        }
        is_read = true;
    }
    return &lots;
}

/* Enters the figure of a standard lot. */
static bool enter_standard(township_lots *lots, uint32_t section, uint32_t lot, uint32_t figure) {
    int index;

    for (index = lots->first[section - 1]; index < lots->first[section]; index++) {
        if (lots->numbers[index] == lot && lots->figures[index] == 0) {
            lots->figures[index] = figure;
            return true;
        }
    }
    return false;
}

/* Enters a lot of a table that says where its lots lie, after so many others, of which the last one is of a section. */
static void enter_lot(township_lots *lots, uint32_t index, uint32_t section_before, uint32_t section, uint32_t lot,
                      uint32_t figure) {
    for (; section_before < section; section_before++) {
        lots->first[section_before] = (uint16_t)index;
    }
    lots->figures[index] = figure;
    lots->numbers[index] = (uint8_t)lot;
}

/* Reads the lots of a table: by section, and in a section by number. */
static bool take_lots(twpg_reader *reader, township_lots *lots) {
    uint32_t section_before = 0, lot_before = 0;
    uint32_t count, index;

    if (!take_number(reader, 2, &count) || count > TOWNSHIP_RETURNED_MOST) {
        return false;
    }
    for (index = 0; index < count; index++) {
        uint32_t section, lot, figure;

        if (!take_number(reader, 1, &section) || !take_number(reader, 1, &lot) || !take_number(reader, 3, &figure) ||
            section == 0 || section > TOWNSHIP_SECTIONS || lot == 0 || figure == 0 ||
            section < section_before || (section == section_before && lot <= lot_before)) {
            return false;
        }
        if (lots->mapped != 0) {
            enter_lot(lots, index, section_before, section, lot, figure);
        } else if (!enter_standard(lots, section, lot, figure)) {
            return false;
        }
        section_before = section;
        lot_before = lot;
    }
    if (lots->mapped != 0) {
        for (index = section_before; index < TOWNSHIP_BOUNDS; index++) {
            lots->first[index] = (uint16_t)count;
        }
    }
    return true;
}

static bool take_map(twpg_reader *reader, township_lots *lots) {
    const uint8_t *mask = take(reader, MASK_BYTES);
    const uint8_t *divided;
    size_t bytes;
    int index;

    if (mask == NULL) {
        return false;
    }
    for (index = 0; index < TOWNSHIP_SECTIONS; index++) {
        if ((mask[index / 8] >> index % 8 & 1) != 0) {
            const uint8_t *positions = take(reader, QUARTER_QUARTERS);

            if (positions == NULL) {
                return false;
            }
            memcpy(lots->positions + QUARTER_QUARTERS * index, positions, QUARTER_QUARTERS);
        }
    }
    bytes = twpg_divided_in(lots) * PLACES;
    divided = take(reader, bytes);
    if (divided == NULL || bytes > sizeof lots->divided) {
        return false;
    }
    memcpy(lots->divided, divided, bytes);
    return true;
}

/* Whether bytes have the form of a packed lot table, which is then unpacked. It need not be one that is accepted. */
bool twpg_unpack_lots(twpg_bytes packed, township_lots *lots) {
    twpg_reader reader = {packed.start, packed.start + packed.length};
    const uint8_t *township = take(&reader, sizeof lots->township);
    uint32_t date, mapped;

    if (township == NULL || !take_number(&reader, 4, &date) || !take_number(&reader, 1, &mapped) || mapped > 1) {
        return false;
    }
    if (mapped != 0) {
        memset(lots, 0, sizeof *lots);
    } else {
        *lots = *standard_lots();
    }
    memcpy(&lots->township, township, sizeof lots->township);
    lots->date = date;
    lots->mapped = (uint16_t)mapped;
    return take_lots(&reader, lots) && (mapped == 0 || take_map(&reader, lots)) && reader.at == reader.end;
}
