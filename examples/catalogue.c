/*
 * Reads a rule table from the file that the command line names, decides a
 * request over it, asks its questions, and shows its text; then strikes rows from
 * a second table, and from a third, of which it shows whose rows each row rests on.
 */
#include <stdio.h>
#include <string.h>

#include "pierstride.h"

/* One byte more than a table can have shows that a file is longer. */
enum { MOST_BYTES = PIER_TABLE_BYTES + 1 };

static const uint32_t BUDGET = 1000000;

static const char *const DECISIONS[] = {
    [PIER_UNSPECIFIED] = "unspecified",
    [PIER_DENY] = "deny",
    [PIER_GRANT] = "grant",
    [PIER_CONFLICT] = "conflict",
};

static const char *const REPLIES[] = {
    [PIER_HOLDS] = "holds",
    [PIER_FAILS] = "fails",
    [PIER_UNFINISHED] = "unfinished",
};

/* Prints a refusal, if there is one, and says whether there is. */
static int refused(uint32_t refusal, size_t place)
{
    if (refusal != PIER_NO_REFUSAL) {
        printf("refused %lu at %lu\n", (unsigned long)refusal, (unsigned long)place);
    }
    return refusal != PIER_NO_REFUSAL;
}

static void print_bytes(const uint8_t *bytes, size_t length)
{
    size_t i;
    for (i = 0; i < length; i++) {
        printf(" %02X", bytes[i]);
    }
    printf("\n");
}

static void decide(const uint8_t *table, size_t length, uint32_t row, uint32_t yes)
{
    pier_decided decided = pier_decide(table, length, row, yes);
    if (!refused(decided.refusal, decided.place)) {
        printf("row %lu, yes mask %lu: %s\n", (unsigned long)row, (unsigned long)yes,
               DECISIONS[decided.code]);
    }
}

static void show_possible(const uint8_t *table, size_t length, uint32_t row, uint32_t known,
                          uint32_t yes)
{
    uint32_t code;
    pier_set possible = pier_possible(table, length, row, known, yes);
    if (refused(possible.refusal, possible.place)) {
        return;
    }
    printf("row %lu, known mask %lu, yes mask %lu:", (unsigned long)row, (unsigned long)known,
           (unsigned long)yes);
    for (code = PIER_UNSPECIFIED; code <= PIER_CONFLICT; code++) {
        if ((possible.set >> code & 1) != 0) {
            printf(" %s", DECISIONS[code]);
        }
    }
    printf("\n");
}

static void show_entry(const uint8_t *table, size_t length, uint32_t row)
{
    pier_part part = pier_entry(table, length, row);
    if (!refused(part.refusal, part.place)) {
        printf("row %lu is", (unsigned long)row);
        print_bytes(table + part.start, part.length);
    }
}

static void ask(const uint8_t *table, size_t length, uint32_t question)
{
    pier_verdict_reply verdict = pier_verdict(table, length, question, BUDGET);
    if (refused(verdict.refusal, verdict.place)) {
        return;
    }
    printf("question %lu %s", (unsigned long)question, REPLIES[verdict.reply]);
    if (verdict.reply == PIER_FAILS) {
        printf(" at yes mask %lu", (unsigned long)verdict.request);
    }
    printf(" after %lu visits\n", (unsigned long)verdict.visits);
}

static void strike(const uint8_t *table, size_t length, uint32_t row)
{
    uint8_t out[MOST_BYTES];
    pier_written struck = pier_strike(table, length, row, out, sizeof out);
    printf("strike row %lu: ", (unsigned long)row);
    if (!refused(struck.refusal, struck.place)) {
        printf("%lu bytes,", (unsigned long)struck.length);
        print_bytes(out, struck.length);
    }
}

/* Prints whose rows each row of a table rests on. */
static void show_suppliers(const uint8_t *table, size_t length)
{
    uint8_t list[PIER_SUPPLIERS];
    uint32_t row, rows = pier_read(table, length).rows;
    for (row = 0; row < rows; row++) {
        pier_written written = pier_suppliers(table, length, row, list, sizeof list);
        if (!refused(written.refusal, written.place)) {
            size_t i;
            printf("row %lu rests on suppliers", (unsigned long)row);
            for (i = 0; i < written.length; i++) {
                printf(" %d", list[i]);
            }
            printf("\n");
        }
    }
}

/* Prints the text of a table, and whether reading it gives the table's bytes back. */
static void show_text(const uint8_t *table, size_t length)
{
    uint8_t text[PIER_TEXT_BYTES], bytes[MOST_BYTES];
    pier_written written = pier_to_text(table, length, text, sizeof text);
    pier_written back = pier_from_text(text, written.length, bytes, sizeof bytes);
    if (!refused(written.refusal, written.place) && !refused(back.refusal, back.place)) {
        printf("its text, which reads as %s bytes:\n",
               back.length == length && memcmp(bytes, table, length) == 0 ? "the same" : "other");
        fwrite(text, 1, written.length, stdout);
    }
}

/* Shows what a table says; 1 if it is refused. */
static int show_table(const uint8_t *table, size_t length)
{
    uint32_t question;
    pier_counts counts = pier_read(table, length);
    if (refused(counts.refusal, counts.place)) {
        return 1;
    }
    printf("rows %lu, questions %lu, predicates %lu\n", (unsigned long)counts.rows,
           (unsigned long)counts.questions, (unsigned long)counts.predicates);
    show_entry(table, length, 2);
    decide(table, length, 2, 1);
    show_possible(table, length, 2, 1, 1);
    for (question = 0; question < counts.questions; question++) {
        ask(table, length, question);
    }
    show_text(table, length);
    return 0;
}

int main(int argc, char **argv)
{
    static const uint8_t second[] = {0x00, 0x02, 0x20, 0x01, 0x40, 0x01, 0x02};
    /* supplier 7's row, supplier 3's, and supplier 7's again, which joins them; then one of 0's */
    static const uint8_t third[] = {0x60, 0x07, 0x11, 0x00, 0x60, 0x03, 0x10, 0x01,
                                    0x60, 0x07, 0x33, 0x00, 0x01, 0x60, 0x00, 0x20, 0x02};
    uint8_t table[MOST_BYTES];
    size_t length;
    FILE *file;

    if (argc != 2 || (file = fopen(argv[1], "rb")) == NULL) {
        fprintf(stderr, "usage: catalogue TABLE-FILE\n");
        return 2;
    }
    length = fread(table, 1, sizeof table, file);
    fclose(file);

    if (show_table(table, length) != 0) {
        return 1;
    }
    strike(second, sizeof second, 0);
    strike(second, sizeof second, 1);
    show_suppliers(third, sizeof third);
    strike(third, sizeof third, 3);
    return 0;
}
