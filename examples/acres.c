/*
 * Prints the acreage of land:
 *
 *     acres NOTES DESCRIPTION
 *
 * NOTES is a file of field notes, and DESCRIPTION a legal description, such as 'sec. 14, NE1/4.'. The exit
 * status is 0 if the acreage is on standard output; 1 if the notes or the description is refused, and an
 * explanation is on standard error; 2 if the command line is not valid; and 3 if there is no answer.
 *
 * In the repository, after `make lib`:
 *
 *     cc -o acres examples/acres.c -Iinclude lib/libtownship.a
 *
 * After `make install`:
 *
 *     cc -o acres examples/acres.c $(pkg-config --cflags --libs township)
 *
 * This program loads the shared library when it runs. After the first installation in /usr/local, run
 * `ldconfig` as root, so that the loader finds it. If the library is in another folder DIR, link with
 * -Wl,-rpath,DIR, or set LD_LIBRARY_PATH=DIR when you run the program; and if pkg-config does not find
 * township.pc, set PKG_CONFIG_PATH=DIR/pkgconfig.
 */
#include <stdio.h>
#include <string.h>

#include <township.h>

enum { ACCEPTED = 0, REFUSED = 1, MISUSED = 2, NO_ANSWER = 3 };

/* The longest explanation has 8 lines. This is room enough, unless the name of a file is very long. */
static uint8_t text[4096];

/* One byte more than field notes can have, so that longer notes are refused and not cut. */
static uint8_t notes[TOWNSHIP_NOTES_MOST + 1];

/* The library takes bytes. A C string is a pointer to char, which has to be cast. */
static const uint8_t *bytes(const char *string) {
    return (const uint8_t *)string;
}

/* Prints an answer that is not an acreage, and returns the exit status. */
static int print_fault(township_answer explained) {
    switch (explained.verdict) {
    case TOWNSHIP_REFUSED:
        fwrite(text, 1, (size_t)explained.length, stderr);
        return REFUSED;
    case TOWNSHIP_NO_ROOM:
        fprintf(stderr, "acres: refused %u at %u\n", (unsigned)explained.number, (unsigned)explained.at);
        return REFUSED;
    default:
        fputs("acres: out of memory\n", stderr);
        return NO_ANSWER;
    }
}

/* Reads field notes from a file. Returns whether that succeeded. */
static int read_file(const char *name, size_t *length) {
    FILE *file = fopen(name, "rb");
    int failed = file == NULL;

    if (!failed) {
        *length = fread(notes, 1, sizeof notes, file);
        failed = ferror(file) != 0;
        fclose(file);
    }
    return !failed;
}

int main(int count, char **words) {
    township_plat plat;
    township_answer answer;
    size_t notes_length = 0;

    if (count != 3) {
        fputs("usage: acres NOTES DESCRIPTION\n", stderr);
        return MISUSED;
    }
    if (!read_file(words[1], &notes_length)) {
        perror(words[1]);
        return NO_ANSWER;
    }
    answer = township_read(notes, notes_length, &plat);
    if (answer.verdict != TOWNSHIP_ACCEPTED) {
        return print_fault(township_explain_notes(notes, notes_length, bytes(words[1]), strlen(words[1]), text,
                                                  sizeof text));
    }
    answer = township_acres(&plat, bytes(words[2]), strlen(words[2]), TOWNSHIP_EXACT);
    if (answer.verdict != TOWNSHIP_ACCEPTED) {
        return print_fault(township_explain_description(&plat, bytes(words[2]), strlen(words[2]),
                                                        bytes("description"), strlen("description"), text,
                                                        sizeof text));
    }
    printf("%lu.%02u acres\n", (unsigned long)(answer.hundredths / 100), (unsigned)(answer.hundredths % 100));
    return ACCEPTED;
}
