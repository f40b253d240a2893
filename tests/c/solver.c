/*
 * The calls that hand a question to a solver and judge what it brings back, as a C program
 * makes them; it compiles as C++ too. The status is 0 if each answers as it should.
 */
#include <stdio.h>
#include <string.h>

#include "pierstride.h"

/* The byte that an output has before a call. */
enum { UNTOUCHED = 0xA5 };

/* Table A: six rows and three questions over two predicates. */
static const uint8_t table_a[] = {0x11, 0x00, 0x10, 0x01, 0x33, 0x00, 0x01, 0x01,
                                  0x38, 0x02, 0x03, 0x22, 0x02, 0x40, 0x04, 0x05,
                                  0x40, 0x05, 0x04, 0x43, 0x00, 0x01};

/* A row that is always unspecified, compared with itself: no predicate. */
static const uint8_t no_predicate[] = {0x00, 0x40, 0x00, 0x00};

/* Predicates 0 and 1 are never both yes; the question is broken where predicate 0 is yes. */
static const uint8_t constrained[] = {0x50, 0x00, 0x01, 0x11, 0x00, 0x00, 0x40, 0x00, 0x01};

static const uint8_t refused[] = {0x00, 0x12};

static uint8_t out[PIER_FILE_BYTES];
static int wrong;

static void expect(int kept, const char *what)
{
    if (!kept) {
        printf("not so: %s\n", what);
        wrong = 1;
    }
}

/* Whether the output is untouched from a place on. */
static int is_untouched(size_t from)
{
    size_t i;
    for (i = from; i < sizeof out && out[i] == UNTOUCHED; i++) {
    }
    return i == sizeof out;
}

static pier_written write_file(const uint8_t *table, size_t length, uint32_t question, size_t room)
{
    memset(out, UNTOUCHED, sizeof out);
    return pier_dimacs(table, length, question, out, room);
}

static int is_refused(pier_written written, uint32_t refusal, size_t place)
{
    return written.refusal == refusal && written.place == place && written.length == 0 &&
           is_untouched(0);
}

static int says(pier_judged judged, uint32_t refusal, uint32_t breaks)
{
    return judged.refusal == refusal && judged.place == 0 && judged.breaks == breaks;
}

static void check_files(void)
{
    static const char small[] = "p cnf 3 9\n-1 0\n-2 0\n-3 -1 1 0\n-3 -2 2 0\n3 1 2 0\n"
                                "3 1 -2 0\n3 -1 2 0\n3 -1 -2 0\n-3 0\n";
    static const char front[] = "p cnf 17 43\n-3 1 0\n", end[] = "\n17 -15 -16 0\n-17 0\n";
    size_t length = strlen(small);
    pier_written written = write_file(no_predicate, sizeof no_predicate, 0, length);
    expect(written.refusal == PIER_NO_REFUSAL && written.place == 0 && written.length == length,
           "a file fits into its length");
    expect(memcmp(out, small, length) == 0 && is_untouched(length), "and it is the file");
    expect(is_refused(write_file(no_predicate, sizeof no_predicate, 0, length - 1),
                      PIER_OUTPUT_TOO_SHORT, 0),
           "a byte less is refused, and nothing written");

    written = write_file(table_a, sizeof table_a, 2, sizeof out);
    length = written.length;
    expect(written.refusal == PIER_NO_REFUSAL && length == 416 && is_untouched(length),
           "table A's question 2 has a file of 416 bytes");
    expect(memcmp(out, front, strlen(front)) == 0 &&
               memcmp(out + length - strlen(end), end, strlen(end)) == 0,
           "it begins and ends as docs/SOLVERS.md shows");
    expect(is_refused(write_file(table_a, sizeof table_a, 3, 0), PIER_NOT_THERE, 0),
           "a question that is not there is refused, before an output");
    expect(is_refused(write_file(refused, sizeof refused, 9, 0), PIER_KIND_NOT_LISTED, 1),
           "a bad table is refused before that");
}

static void check_requests(void)
{
    uint32_t yes;
    pier_judged judged;
    for (yes = 0; yes < 4; yes++) {
        judged = pier_breaks(table_a, sizeof table_a, 2, yes);
        expect(says(judged, PIER_NO_REFUSAL, yes == 3), "only yes mask 3 breaks question 2");
        judged = pier_breaks(constrained, sizeof constrained, 0, yes);
        expect(says(judged, PIER_NO_REFUSAL, yes == 1), "yes mask 3 breaks the constraint");
    }
    expect(says(pier_breaks(table_a, sizeof table_a, 2, 4), PIER_BAD_MASK, 0),
           "a mask with a bit from 2 up is refused");
    expect(says(pier_breaks(no_predicate, sizeof no_predicate, 0, 1), PIER_BAD_MASK, 0),
           "without predicates every bit is refused");
    expect(says(pier_breaks(table_a, sizeof table_a, 3, 4), PIER_NOT_THERE, 0),
           "a question that is not there is refused before a mask");
    judged = pier_breaks(refused, sizeof refused, 9, UINT32_MAX);
    expect(judged.refusal == PIER_KIND_NOT_LISTED && judged.place == 1 && judged.breaks == 0,
           "a bad table is refused before that");
}

int main(void)
{
    check_files();
    check_requests();
    return wrong;
}
