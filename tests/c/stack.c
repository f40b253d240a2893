/*
 * Measures how much stack each call uses, on tables and texts that ask much of it,
 * and fails if one uses more than PIER_STACK_BYTES.
 *
 * The calls run on a stack of their own, which is painted with one byte before
 * each: the lowest byte that is another afterwards shows how deep the call went.
 * What make_call itself uses is counted too, about 200 bytes.
 */
#define _XOPEN_SOURCE 700

#include <stdio.h>
#include <stdlib.h>
#include <string.h>
#include <ucontext.h>

#include "pierstride.h"

enum { PAINT = 0xA5, CONSTRAINTS = 32, LAST_ROW = 255, LAST_QUESTION = 63, SUPPLIER = 0x60 };

/*
 * Where rows begin behind all constraints, and where they end; there each but the first has
 * three bytes and a supplier before it. The length of the longest table, and a little more.
 */
enum {
    ROWS = 3 * CONSTRAINTS,
    ROWS_END = ROWS + 5 * (LAST_ROW + 1) - 1,
    LONGEST = PIER_TABLE_BYTES - 1,
    MOST_BYTES = LONGEST + 16
};

/* Enough visits to come to the walk's depth, and many more. */
enum { VISITS = 1000, MANY_VISITS = 100000 };

typedef struct {
    uint8_t bytes[MOST_BYTES];
    size_t length;
} table;

/* A text far longer than any that is accepted. */
enum { LONG_TEXT = 1 << 20 };

typedef enum {
    READ,
    DECIDE,
    POSSIBLE,
    VERDICT,
    DIMACS,
    BREAKS,
    STRIKE,
    ENTRY,
    LIST,
    TO_TEXT,
    FROM_TEXT,
    SERVICES
} service;

static const char *const NAMES[SERVICES] = {
    [READ] = "pier_read",
    [DECIDE] = "pier_decide",
    [POSSIBLE] = "pier_possible",
    [VERDICT] = "pier_verdict",
    [DIMACS] = "pier_dimacs",
    [BREAKS] = "pier_breaks",
    [STRIKE] = "pier_strike",
    [ENTRY] = "pier_entry",
    [LIST] = "pier_suppliers",
    [TO_TEXT] = "pier_to_text",
    [FROM_TEXT] = "pier_from_text",
};

/* The call to make, and the refusal that it brought. */
static struct {
    service service;
    const uint8_t *bytes; /* of the table, or of the text */
    size_t length;
    uint32_t number, first, second; /* a row or question; masks, or a budget */
    size_t room;                    /* of the output */
    uint32_t refusal;
} call;

static uint8_t stack[4 * PIER_STACK_BYTES];
static const uint8_t *top;
static ucontext_t here, there;
static size_t most[SERVICES];

static void make_call(void)
{
    static uint8_t out[PIER_FILE_BYTES];
    const uint8_t *bytes = call.bytes;
    size_t length = call.length;
    top = __builtin_frame_address(0);
    switch (call.service) {
    case READ:
        call.refusal = pier_read(bytes, length).refusal;
        break;
    case DECIDE:
        call.refusal = pier_decide(bytes, length, call.number, call.first).refusal;
        break;
    case POSSIBLE:
        call.refusal = pier_possible(bytes, length, call.number, call.first, call.second).refusal;
        break;
    case VERDICT:
        call.refusal = pier_verdict(bytes, length, call.number, call.first).refusal;
        break;
    case DIMACS:
        call.refusal = pier_dimacs(bytes, length, call.number, out, call.room).refusal;
        break;
    case BREAKS:
        call.refusal = pier_breaks(bytes, length, call.number, call.first).refusal;
        break;
    case STRIKE:
        call.refusal = pier_strike(bytes, length, call.number, out, call.room).refusal;
        break;
    case ENTRY:
        call.refusal = pier_entry(bytes, length, call.number).refusal;
        break;
    case LIST:
        call.refusal = pier_suppliers(bytes, length, call.number, out, call.room).refusal;
        break;
    case TO_TEXT:
        call.refusal = pier_to_text(bytes, length, out, call.room).refusal;
        break;
    default:
        call.refusal = pier_from_text(bytes, length, out, call.room).refusal;
    }
}

/* Makes the call on the painted stack, counts what it used, and answers its refusal. */
static uint32_t run(void)
{
    const uint8_t *lowest = stack;
    memset(stack, PAINT, sizeof stack);
    getcontext(&there);
    there.uc_stack.ss_sp = stack;
    there.uc_stack.ss_size = sizeof stack;
    there.uc_link = &here;
    makecontext(&there, make_call, 0);
    swapcontext(&here, &there);
    while (*lowest == PAINT) {
        lowest++;
    }
    if (most[call.service] < (size_t)(top - lowest)) {
        most[call.service] = (size_t)(top - lowest);
    }
    return call.refusal;
}

/* Measures a call on a table and answers its refusal. */
static uint32_t measure(service service, const table *table, uint32_t number, uint32_t first,
                        uint32_t second, size_t room)
{
    call.service = service;
    call.bytes = table->bytes;
    call.length = table->length;
    call.number = number;
    call.first = first;
    call.second = second;
    call.room = room;
    return run();
}

/* Measures the reading of a text and answers its refusal. */
static uint32_t measure_text(const uint8_t *text, size_t length, size_t room)
{
    call.service = FROM_TEXT;
    call.bytes = text;
    call.length = length;
    call.room = room;
    return run();
}

static void add(table *table, unsigned kind, unsigned first, unsigned second)
{
    table->bytes[table->length++] = (uint8_t)kind;
    table->bytes[table->length++] = (uint8_t)first;
    table->bytes[table->length++] = (uint8_t)second;
}

/* A supplier, to stand before a row. */
static void add_supplier(table *table, unsigned supplier)
{
    table->bytes[table->length++] = SUPPLIER;
    table->bytes[table->length++] = (uint8_t)supplier;
}

/* As many constraints as there may be, all of this kind and these predicates. */
static table constrained(unsigned kind, unsigned first, unsigned second)
{
    table table = {{0}, 0};
    unsigned i;
    for (i = 0; i < CONSTRAINTS; i++) {
        add(&table, kind, first, second);
    }
    return table;
}

/*
 * The longest table, 1567 bytes: row 0 grants if predicate 23, and every other row
 * and question stays open until row 0 is known, so the walk goes 25 visits deep. Each
 * names the one before it; the questions begin at row `asked`, which is compared with
 * the one before it, since a row against itself would be settled at the root. The
 * constraints forbid a request that the walk comes to late. Every row has a supplier of
 * its own, so the last row's list has them all.
 */
static table longest(unsigned asked)
{
    static const uint8_t kinds[] = {0x30, 0x31, 0x32, 0x33, 0x35, 0x38, 0x39, 0x3A, 0x3B};
    table table = constrained(0x50, 0, 1);
    unsigned i;
    add_supplier(&table, LAST_ROW);
    table.bytes[table.length++] = 0x11;
    table.bytes[table.length++] = 23;
    for (i = 1; i <= LAST_ROW; i++) {
        add_supplier(&table, LAST_ROW - i);
        add(&table, kinds[i % sizeof kinds], i - 1, i - 1);
    }
    add(&table, 0x40, asked, asked - 1);
    for (i = 1; i <= LAST_QUESTION; i++) {
        add(&table, 0x43, i - 1, i - 1);
    }
    return table;
}

/*
 * A table whose question is false as soon as predicate 0 is yes, while every constraint
 * waits for predicate 23: below that visit every one is settled false and goes on.
 */
static table waiting(void)
{
    static const uint8_t rest[] = {0x11, 0x00, 0x00, 0x40, 0x00, 0x01};
    table table = constrained(0x51, 0, 23);
    memcpy(table.bytes + table.length, rest, sizeof rest);
    table.length += sizeof rest;
    return table;
}

/*
 * The table with the longest text: the longest words, and the highest numbers; before each row
 * one of two suppliers. Its walks end at the root.
 */
static table wordiest(void)
{
    table table = constrained(0x50, 23, 23);
    unsigned i;
    add_supplier(&table, 255);
    table.bytes[table.length++] = 0x11;
    table.bytes[table.length++] = 23;
    for (i = 1; i <= LAST_ROW; i++) {
        add_supplier(&table, 255 - i % 2);
        add(&table, 0x38, i - 1, i - 1);
    }
    for (i = 0; i <= LAST_QUESTION; i++) {
        add(&table, 0x41, LAST_ROW, LAST_ROW);
    }
    return table;
}

/*
 * The table whose questions have the longest file for a solver: the most clauses, and the
 * highest numbers.
 */
static table most_clauses(void)
{
    table table = constrained(0x50, 23, 23);
    unsigned i;
    table.bytes[table.length++] = 0x10;
    table.bytes[table.length++] = 23;
    for (i = 1; i <= LAST_ROW; i++) {
        add(&table, 0x3B, i - 1, i - 1);
    }
    for (i = 0; i <= LAST_QUESTION; i++) {
        add(&table, 0x40, LAST_ROW, LAST_ROW);
    }
    return table;
}

/* The longest table cut to a length, with a kind put at a place. */
static table damaged(size_t length, size_t place, unsigned kind)
{
    table table = longest(LAST_ROW);
    add(&table, 0, 0, 0);
    table.bytes[place] = (uint8_t)kind;
    table.length = length;
    return table;
}

/* Makes every call on a table, with numbers that are there and numbers that are not. */
static void measure_all(const table *table)
{
    static const uint32_t numbers[] = {0, 1, LAST_QUESTION, LAST_ROW, 256, UINT32_MAX};
    static const uint32_t masks[] = {0, 0x555555, 0xFFFFFF, UINT32_MAX};
    size_t i, j, k;
    measure(READ, table, 0, 0, 0, 0);
    for (i = 0; i < sizeof numbers / sizeof *numbers; i++) {
        for (j = 0; j < sizeof masks / sizeof *masks; j++) {
            measure(DECIDE, table, numbers[i], masks[j], 0, 0);
            measure(BREAKS, table, numbers[i], masks[j], 0, 0);
            for (k = 0; k < sizeof masks / sizeof *masks; k++) {
                measure(POSSIBLE, table, numbers[i], masks[j], masks[k], 0);
            }
        }
        measure(VERDICT, table, numbers[i], 0, 0, 0);
        measure(VERDICT, table, numbers[i], VISITS, 0, 0);
        measure(DIMACS, table, numbers[i], 0, 0, 0);
        measure(DIMACS, table, numbers[i], 0, 0, PIER_FILE_BYTES);
        measure(STRIKE, table, numbers[i], 0, 0, 0);
        measure(STRIKE, table, numbers[i], 0, 0, MOST_BYTES);
        measure(ENTRY, table, numbers[i], 0, 0, 0);
        measure(LIST, table, numbers[i], 0, 0, 0);
        measure(LIST, table, numbers[i], 0, 0, PIER_SUPPLIERS);
    }
    measure(TO_TEXT, table, 0, 0, 0, 0);
    measure(TO_TEXT, table, 0, 0, 0, PIER_TEXT_BYTES);
    measure(FROM_TEXT, table, 0, 0, 0, MOST_BYTES);
}

/* Ends the program if the tables are not what they are meant to be. */
static void require(int kept, const char *what)
{
    if (!kept) {
        printf("not so: %s\n", what);
        exit(2);
    }
}

/* Fills a text from a place on with lines, the last of them perhaps cut short. */
static void fill(uint8_t *text, size_t place, size_t length, const char *line)
{
    size_t i;
    for (i = place; i < length; i++) {
        text[i] = (uint8_t)line[(i - place) % strlen(line)];
    }
}

/*
 * Writes and reads the longest text, which `text` begins with; reads a text a hundred
 * times as long that goes on with questions, its end well spelled, cut short, and
 * unknown; and reads lines of that length.
 */
static void measure_texts(const table *table, uint8_t *text)
{
    static const char question[] = "knowledge-at-or-below 255 255\n";
    size_t line = strlen(question), lines = (LONG_TEXT - PIER_TEXT_BYTES) / line;
    size_t length = PIER_TEXT_BYTES + lines * line;

    require(measure(TO_TEXT, table, 0, 0, 0, PIER_TEXT_BYTES) == PIER_NO_REFUSAL,
            "the longest text is written");
    require(measure(TO_TEXT, table, 0, 0, 0, PIER_TEXT_BYTES - 1) == PIER_OUTPUT_TOO_SHORT,
            "the longest text takes its length");
    require(measure_text(text, PIER_TEXT_BYTES, table->length) == PIER_NO_REFUSAL,
            "the longest text is read");
    require(measure_text(text, PIER_TEXT_BYTES, table->length - 1) == PIER_OUTPUT_TOO_SHORT,
            "the table of the longest text takes its length");

    fill(text, PIER_TEXT_BYTES, length, question);
    require(measure_text(text, length, MOST_BYTES) == PIER_TOO_MANY_QUESTIONS,
            "a long text has too many questions");
    require(measure_text(text, length - 1, MOST_BYTES) == PIER_MISSPELT_LINE,
            "a long text lacks its last line feed");
    text[length - line] = 'K';
    require(measure_text(text, length, MOST_BYTES) == PIER_UNKNOWN_WORD,
            "the last word of a long text is unknown");

    fill(text, strlen("deny "), LONG_TEXT, "1");
    memcpy(text, "deny ", strlen("deny "));
    require(measure_text(text, LONG_TEXT, MOST_BYTES) == PIER_UNKNOWN_WORD,
            "a long number is above 255");
    fill(text, strlen("deny"), LONG_TEXT, " 0");
    require(measure_text(text, LONG_TEXT, MOST_BYTES) == PIER_MISSPELT_LINE,
            "a long line has too many numbers");
    fill(text, 0, LONG_TEXT, "\n");
    require(measure_text(text, LONG_TEXT, MOST_BYTES) == PIER_UNKNOWN_WORD,
            "an empty line has an unknown word");
}

int main(void)
{
    static uint8_t text[LONG_TEXT], out[MOST_BYTES];
    const table open = longest(LAST_ROW), free_row = longest(LAST_ROW - 1), empty = {{0}, 0};
    const table wordy = wordiest(), patient = waiting(), full = most_clauses();
    const struct {
        uint32_t refusal;
        table table;
    } refused[] = {
        {PIER_KIND_NOT_LISTED, damaged(LONGEST, LONGEST - 3, 0x12)},
        {PIER_OUT_OF_ORDER, damaged(LONGEST + 3, LONGEST, 0x30)},
        {PIER_OUT_OF_ORDER, damaged(LONGEST + 3, LONGEST, 0x50)},
        {PIER_OUT_OF_ORDER, damaged(LONGEST + 3, LONGEST, SUPPLIER)},
        {PIER_TOO_MANY_ROWS, damaged(LONGEST, ROWS_END, 0x30)},
        {PIER_TOO_MANY_QUESTIONS, damaged(LONGEST + 3, LONGEST, 0x40)},
        {PIER_TOO_MANY_CONSTRAINTS, damaged(LONGEST, ROWS, 0x51)},
        {PIER_BODY_CUT_SHORT, damaged(LONGEST - 1, LONGEST - 3, 0x43)},
        {PIER_IDLE_SUPPLIER, damaged(LONGEST, ROWS_END - 4, 1)},
        {PIER_IDLE_SUPPLIER, damaged(LONGEST, ROWS_END - 3, 0x40)},
        {PIER_PREDICATE_ABOVE_23, damaged(LONGEST, ROWS_END - 3, 0x11)},
        {PIER_PREDICATE_ABOVE_23, damaged(LONGEST, ROWS - 1, 24)},
        {PIER_MAY_NOT_BE_NAMED, damaged(LONGEST, LONGEST - 1, LAST_QUESTION)},
    };
    /* Made here first, so that linking memcpy and memset at their first use is not counted. */
    pier_counts counts = pier_read(open.bytes, open.length);
    pier_verdict_reply verdict = pier_verdict(open.bytes, open.length, LAST_QUESTION, VISITS);
    pier_written written = pier_to_text(wordy.bytes, wordy.length, text, sizeof text);
    pier_written back = pier_from_text(text, written.length, out, sizeof out);
    pier_verdict_reply late = pier_verdict(patient.bytes, patient.length, 0, VISITS);
    int status = 0;
    size_t i;

    require(open.length == LONGEST && counts.rows == 256 && counts.questions == 64 &&
                counts.predicates == 24,
            "the longest table is accepted");
    require(verdict.reply == PIER_UNFINISHED, "its last question stays open");
    require(late.reply == PIER_FAILS && late.request == 0x800001 && late.visits == 27,
            "the walk goes on until predicate 23 is known");
    require(written.length == PIER_TEXT_BYTES, "the longest text is as long as the header says");
    require(back.length == wordy.length && memcmp(out, wordy.bytes, wordy.length) == 0,
            "the longest text reads as its table");
    require(measure(STRIKE, &free_row, LAST_ROW, 0, 0, MOST_BYTES) == PIER_NO_REFUSAL,
            "a row is struck from a full table");
    require(measure(LIST, &open, LAST_ROW, 0, 0, PIER_SUPPLIERS) == PIER_NO_REFUSAL &&
                measure(LIST, &open, LAST_ROW, 0, 0, PIER_SUPPLIERS - 1) == PIER_OUTPUT_TOO_SHORT,
            "the last row of the longest table rests on every supplier's");

    require(measure(DIMACS, &full, LAST_QUESTION, 0, 0, PIER_FILE_BYTES) == PIER_NO_REFUSAL &&
                measure(DIMACS, &full, LAST_QUESTION, 0, 0, PIER_FILE_BYTES - 1) ==
                    PIER_OUTPUT_TOO_SHORT,
            "the longest file is as long as the header says");
    require(measure(BREAKS, &open, LAST_QUESTION, 0xFFFFFF, 0, 0) == PIER_NO_REFUSAL &&
                measure(BREAKS, &open, LAST_QUESTION, 0x1000000, 0, 0) == PIER_BAD_MASK,
            "a request of 24 predicates is judged");

    measure(VERDICT, &open, LAST_QUESTION, MANY_VISITS, 0, 0);
    measure_all(&open);
    measure_all(&free_row);
    measure_all(&empty);
    measure_all(&wordy);
    measure_all(&patient);
    measure_all(&full);
    measure_texts(&wordy, text);
    for (i = 0; i < sizeof refused / sizeof *refused; i++) {
        require(measure(READ, &refused[i].table, 0, 0, 0, 0) == refused[i].refusal,
                "a table is refused as it should be");
        measure_all(&refused[i].table);
    }

    for (i = 0; i < SERVICES; i++) {
        printf("%s: %lu bytes of stack\n", NAMES[i], (unsigned long)most[i]);
        if (most[i] > PIER_STACK_BYTES) {
            printf("that is more than %d\n", (int)PIER_STACK_BYTES);
            status = 1;
        }
    }
    return status;
}
