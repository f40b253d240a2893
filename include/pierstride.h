/*
 * Pierstride: rule tables over four decisions.
 *
 * A table is a byte string: a run of constraints, which say what requests can
 * occur, then a run of rows, then a run of questions about them. Among the rows
 * suppliers may stand: the entry 60 and a byte says that the rows behind it are that
 * supplier's, up to the next 60; before any, rows are supplier 0's. Each call takes
 * the whole table and reads it first. Nothing is kept between calls. A table also
 * has a text, one line an entry, for people to read and to write: pier_to_text
 * and pier_from_text turn one into the other. And a question whose answer takes long
 * can be handed to a SAT solver: pier_dimacs writes the file that it reads, and
 * pier_breaks judges the request that it brings back.
 *
 * What the caller need check. Of bytes and numbers, nothing: every byte string
 * and every number brings an answer or a numbered refusal. Of memory, what no
 * library can check for a C program. A slice is a pointer and a length, and
 *  - the pointer is good for that many bytes, an output's also for writing;
 *  - the pointer is not null, not even where the length is 0;
 *  - the slices of one call do not overlap;
 *  - no other thread writes to a slice during the call, or reads an output.
 * If this is not kept, nothing is promised. The caller owns every slice: the
 * library uses it during the call only and neither keeps nor frees it. Any
 * thread may make any call at any time.
 *
 * Masks. Predicate i is bit i of a mask, i from 0 to 23.
 */
#ifndef PIERSTRIDE_H
#define PIERSTRIDE_H

#include <stddef.h>
#include <stdint.h>

#ifdef __cplusplus
extern "C" {
#endif

/*
 * The refusals; those of a call on a table stand in the order in which they are
 * looked for. The first nine are those of reading, which every such call may
 * give: they are looked for entry by entry from the front, so the first bad entry
 * speaks. The others speak of what was asked. A refusal changes no byte of any
 * slice.
 *
 * In a call on a table the place is an index into the table's bytes, from 0. The
 * first word of each comment below says what stands there:
 *   entry   the kind byte of the bad entry
 *   number  the bad number, in the body of the bad entry; the first, if two are bad
 *   none    nothing; the place is 0
 * and "line" stands for the bad line of a text, which only pier_from_text gives.
 *
 * pier_from_text takes a text instead of a table. Each of its refusals has the
 * number of a line as its place, from 1, but PIER_OUTPUT_TOO_SHORT, whose place is
 * 0. They are looked for in this order:
 *   1. PIER_UNKNOWN_WORD and PIER_MISSPELT_LINE, line by line from the front through
 *      the whole text: the first bad line speaks, and only on one and the same line
 *      does PIER_UNKNOWN_WORD go before PIER_MISSPELT_LINE;
 *   2. those of reading, for the entries that the lines spell: the first bad entry
 *      speaks, at its line (PIER_KIND_NOT_LISTED and PIER_BODY_CUT_SHORT cannot occur);
 *   3. PIER_OUTPUT_TOO_SHORT.
 */
enum {
    PIER_NO_REFUSAL = 0,
    PIER_KIND_NOT_LISTED = 1,       /* entry: its kind is not listed */
    PIER_OUT_OF_ORDER = 5,          /* entry: it is a row or supplier after a question, or a
                                       constraint after a row or question */
    PIER_TOO_MANY_ROWS = 6,         /* entry: it is a 257th row */
    PIER_TOO_MANY_QUESTIONS = 7,    /* entry: it is a 65th question */
    PIER_TOO_MANY_CONSTRAINTS = 14, /* entry: it is a 33rd constraint */
    PIER_BODY_CUT_SHORT = 2,        /* entry: its body is cut short */
    PIER_IDLE_SUPPLIER = 15,        /* entry: it names the supplier in force, or the next byte is
                                       not a row's kind byte */
    PIER_PREDICATE_ABOVE_23 = 3,    /* number: it is a predicate above 23 */
    PIER_MAY_NOT_BE_NAMED = 4,      /* number: it may not be named there */
    PIER_NOT_THERE = 8,             /* none: the row or question asked for is not there */
    PIER_ROW_IS_NAMED = 9,          /* none: a row or question names the row to strike */
    PIER_BAD_MASK = 10,             /* none: a mask bit is above 23, or a yes is not known; in
                                       pier_breaks: a mask bit stands for no predicate of the
                                       table */
    PIER_OUTPUT_TOO_SHORT = 11,     /* none: the output is shorter than the bytes to write */
    PIER_UNKNOWN_WORD = 12,         /* line: its word is unknown, or a number is above 255 */
    PIER_MISSPELT_LINE = 13         /* line: any other spelling that pier_to_text does not write */
};

/* What PIER_OUT_OF_ORDER was called as long as it spoke of rows alone. */
enum { PIER_ROW_AFTER_QUESTION = PIER_OUT_OF_ORDER };

/* The decisions. */
enum {
    PIER_UNSPECIFIED = 0, /* neither grants nor denies */
    PIER_DENY = 1,        /* only denies */
    PIER_GRANT = 2,       /* only grants */
    PIER_CONFLICT = 3     /* grants and denies */
};

/* The replies to a question. */
enum {
    PIER_HOLDS = 1,     /* it is true at every request within the constraints */
    PIER_FAILS = 2,     /* it is false at some request within them */
    PIER_UNFINISHED = 3 /* the walk makes more visits than the budget */
};

/* No call needs more than this many bytes of stack (measured on the largest tables and on
   long texts). */
enum { PIER_STACK_BYTES = 32 * 1024 };

/*
 * No table has more bytes: 32 constraints, 256 rows and 64 questions have at most three
 * each, and a supplier before each row has two.
 */
enum { PIER_TABLE_BYTES = 1568 };

/*
 * No table has a longer text: so many bytes has that of 32 constraints, 256 rows with a
 * supplier before each, and 64 questions, each with the longest word and the highest
 * numbers that can stand there.
 */
enum { PIER_TEXT_BYTES = 12979 };

/* There are no more suppliers, 0 to 255, and so no list of them is longer. */
enum { PIER_SUPPLIERS = 256 };

/*
 * No question has a longer file for a solver: so many bytes has that of 32 constraints, 256
 * rows and 64 questions, each with the longest clauses that it can have. It has 600
 * variables and 2460 clauses, and none has more.
 */
enum { PIER_FILE_BYTES = 35017 };

/*
 * Every answer begins with the refusal and its place, PIER_NO_REFUSAL and 0 if
 * there is none. Every field that says nothing in a case is 0: look at `refusal`
 * first, as a `code` of 0 is also PIER_UNSPECIFIED.
 */

/* What pier_read answers. */
typedef struct {
    uint32_t refusal;
    size_t place;
    uint32_t rows;       /* the number of rows */
    uint32_t questions;  /* the number of questions */
    uint32_t predicates; /* one more than the highest predicate that a constraint or
                            row uses, or 0 */
} pier_counts;

/* What pier_decide answers. */
typedef struct {
    uint32_t refusal;
    size_t place;
    uint32_t code; /* the decision */
} pier_decided;

/* What pier_possible answers. */
typedef struct {
    uint32_t refusal;
    size_t place;
    uint32_t set; /* u counts 1, d 2, g 4, c 8: bit v is set if decision v is a member,
                     as `set >> PIER_DENY & 1` */
} pier_set;

/* What pier_verdict answers. */
typedef struct {
    uint32_t refusal;
    size_t place;
    uint32_t reply;
    uint32_t request; /* PIER_FAILS: the first request within the constraints that breaks
                         it, as a yes mask */
    uint32_t visits;  /* the count of visits; PIER_UNFINISHED: the budget */
} pier_verdict_reply;

/* What every call that writes answers: pier_strike, pier_suppliers, pier_dimacs,
   pier_to_text and pier_from_text. */
typedef struct {
    uint32_t refusal;
    size_t place;
    size_t length; /* how many bytes were written */
} pier_written;

/* What pier_breaks answers. */
typedef struct {
    uint32_t refusal;
    size_t place;
    uint32_t breaks; /* 1 if the request keeps the constraints and breaks the question,
                        else 0 */
} pier_judged;

/* What pier_entry answers. */
typedef struct {
    uint32_t refusal;
    size_t place;
    size_t start;  /* where in the table the entry starts */
    size_t length; /* how many bytes it has */
} pier_part;

/*
 * Reads a table and answers how many rows, questions and predicates it has.
 *
 * Refusals: those of reading.
 */
pier_counts pier_read(const uint8_t *table, size_t table_len);

/*
 * Answers what a row decides at the request whose yes mask is given, every
 * predicate being known. A request outside the constraints is answered too: they
 * change nothing here, nor in pier_possible.
 *
 * Refusals: those of reading; PIER_NOT_THERE; PIER_BAD_MASK.
 */
pier_decided pier_decide(const uint8_t *table, size_t table_len, uint32_t row, uint32_t yes);

/*
 * Answers which decisions of a row remain possible if only the predicates of
 * `known` are known, those of `yes` being yes and the others no. The set has the
 * decision under every way of filling in the unknown facts. It may also have
 * decisions that no filling brings, since an operator's two rows are chosen
 * independently, even if they can only decide alike; but where both are the same
 * row, one choice serves both. Learning a fact adds none, and with nothing
 * unknown the set has only what pier_decide answers.
 *
 * Refusals: those of reading; PIER_NOT_THERE; PIER_BAD_MASK.
 */
pier_set pier_possible(const uint8_t *table, size_t table_len, uint32_t row, uint32_t known,
                       uint32_t yes);

/*
 * Answers whether a question is true at every request within the constraints and,
 * if not, which of these is the first at which it is false; in the order of
 * requests predicate 0 weighs most, and no comes before yes. A request is within
 * the constraints if it keeps each: the two predicates of a 50 are not both yes,
 * and the first predicate of a 51 is yes only if the second is. The walk that
 * finds this out may make `budget` visits; the reply is PIER_UNFINISHED exactly
 * if it needs more. For n predicates 2^(n+1) - 1 visits are always enough, and
 * every budget that is enough brings the same reply.
 *
 * Refusals: those of reading; PIER_NOT_THERE.
 */
pier_verdict_reply pier_verdict(const uint8_t *table, size_t table_len, uint32_t question,
                                uint32_t budget);

/*
 * Writes the negation of a question to the front of `out`, as a file in DIMACS CNF that
 * SAT solvers read. docs/SOLVERS.md says which clauses it has: variable i + 1 stands for
 * predicate i, and further ones for what rows decide and which questions are true. Every
 * assignment that satisfies the file, cut to the predicates' variables, is a request within
 * the constraints that breaks the question, and every such request is the front of one: so
 * the file is satisfiable exactly if the question does not hold. Nothing is claimed about a
 * solver: pier_breaks judges the request that one shows, and its "unsatisfiable" is its own
 * word. No byte of 0 ends the file. The bytes of `out` behind those written keep what they
 * had. PIER_FILE_BYTES bytes are always enough.
 *
 * Refusals: those of reading; PIER_NOT_THERE; PIER_OUTPUT_TOO_SHORT.
 */
pier_written pier_dimacs(const uint8_t *table, size_t table_len, uint32_t question, uint8_t *out,
                         size_t out_len);

/*
 * Answers whether the request whose yes mask is given, every predicate being known, keeps
 * the constraints and breaks a question: whether the question is false there. The mask may
 * come from anywhere, as from a solver. It has a bit for each of the table's own predicates
 * and no other: unlike in pier_decide, a bit from pier_counts' `predicates` up is refused.
 *
 * Refusals: those of reading; PIER_NOT_THERE; PIER_BAD_MASK.
 */
pier_judged pier_breaks(const uint8_t *table, size_t table_len, uint32_t question, uint32_t yes);

/*
 * Writes the table without a row to the front of `out`, each row number above
 * that row lowered by one wherever it occurs, constraints and question numbers
 * unchanged. Every other row decides as before under its new number, and every
 * question keeps its reply, request and count. Every other row keeps its supplier,
 * too: one is named just where it changes, so fewer may be named than before. The
 * bytes of `out` behind those written keep what they had. `table_len` bytes are always
 * enough.
 *
 * Refusals: those of reading; PIER_NOT_THERE; PIER_ROW_IS_NAMED;
 * PIER_OUTPUT_TOO_SHORT.
 */
pier_written pier_strike(const uint8_t *table, size_t table_len, uint32_t row, uint8_t *out,
                         size_t out_len);

/*
 * Answers where in the table the bytes of a row lie, from its kind byte on: a
 * supplier before it is no part of them. On a refusal the part is empty.
 *
 * Refusals: those of reading; PIER_NOT_THERE.
 */
pier_part pier_entry(const uint8_t *table, size_t table_len, uint32_t row);

/*
 * Writes the suppliers of all rows that a row reaches to the front of `out`, one byte
 * each, each once, by rising numbers; the length is how many they are. A row reaches
 * itself, the rows that it names, and all that these reach. The bytes of `out` behind
 * those written keep what they had. PIER_SUPPLIERS bytes are always enough.
 *
 * Refusals: those of reading; PIER_NOT_THERE; PIER_OUTPUT_TOO_SHORT.
 */
pier_written pier_suppliers(const uint8_t *table, size_t table_len, uint32_t row, uint8_t *out,
                            size_t out_len);

/*
 * Writes the text of a table to the front of `out`. It has one line for each
 * entry, in their order: the word for its kind, its numbers in decimal with a
 * single space before each, and a line feed. So row r of a table with c
 * constraints is on line c + r + 1, and one line further down for each supplier that
 * is named before it. docs/WORDS.md lists the words. Every accepted table has exactly
 * one text, and pier_from_text reads that as the same bytes. No byte of 0 ends it. The
 * bytes of `out` behind those written keep what they had. PIER_TEXT_BYTES bytes are
 * always enough.
 *
 * Refusals: those of reading; PIER_OUTPUT_TOO_SHORT.
 */
pier_written pier_to_text(const uint8_t *table, size_t table_len, uint8_t *out, size_t out_len);

/*
 * Writes the bytes of the table that a text spells to the front of `out`. A text
 * that is not refused is the one that pier_to_text writes for these bytes, to the
 * letter; the empty text is that of the empty table. On a line the word runs to the
 * first space or to the line's end. Behind it, whatever is digits alone from a space
 * to the next, or to the line's end, is a number, by its value however long. Spaces
 * and line feeds alone separate: a carriage return or a tab is a part of the word or
 * of what should be a number. The bytes of `out` behind those written keep what they
 * had. `text_len` bytes are always enough, and so are PIER_TABLE_BYTES.
 *
 * Refusals, at a line's number: PIER_UNKNOWN_WORD and PIER_MISSPELT_LINE; those of
 * reading. At 0: PIER_OUTPUT_TOO_SHORT.
 */
pier_written pier_from_text(const uint8_t *text, size_t text_len, uint8_t *out, size_t out_len);

#ifdef __cplusplus
}
#endif

#endif
