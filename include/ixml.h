/*
 * Invisible XML 1.0 for short records: check a grammar, tidy it, read a record,
 * at once or in rounds, convert a record to XML, and tell the category of a
 * character.
 *
 * Link with libcalls.a, which `tools/staticlib calls` writes to
 * target/staticlib/. It is for x86-64 Linux and needs no other library. The
 * position gate has a header and a library of its own, see ixml_gate.h.
 *
 *     cc -I include program.c target/staticlib/libcalls.a
 *
 * What is required of the caller: valid pointers, and nothing else. Each
 * pointer is followed by its length, counted in cells (bytes for uint8_t,
 * numbers for uint32_t), and
 *   - points to at least that many cells, aligned for their type;
 *   - is not NULL, not even where the length is 0;
 *   - where the call may write (tables and result), overlaps nothing else
 *     that is lent to the same call.
 * Any grammar and any record, of any length and with any bytes, then gets an
 * answer: no input makes a call fail, loop or touch other memory.
 *
 * The calls allocate nothing, keep nothing from one call to the next and may
 * run on several threads at once. A stack of 1 MB is enough for each of them;
 * the least with which jobs at the limits were seen to work is 180 KB for
 * checking and for tidying, 650 KB for reading and 700 KB for converting.
 */
#ifndef IXML_H
#define IXML_H

#include <stdbool.h>
#include <stddef.h>
#include <stdint.h>

#ifdef __cplusplus
extern "C" {
#endif

/* ---- Limits ---------------------------------------------------------- */

/* Longest grammar, in bytes; a byte order mark counts. */
#define IXML_GRAMMAR_BYTES 4096
/* Greatest size of a grammar; see IXML_GRAMMAR_TOO_LARGE. */
#define IXML_GRAMMAR_SIZE 512
/* Longest record, in characters. */
#define IXML_RECORD_CHARACTERS 200
/* Most numbers of a reading: a result of ixml_read never needs more cells. */
#define IXML_READING_NUMBERS 4096

/* ---- Work tables ----------------------------------------------------- */

/*
 * Reading and converting are lent two tables of numbers as scratch. What they
 * hold before a call sways nothing, and what they hold afterwards means
 * nothing. A table that is longer than needed serves as well.
 *
 * Grammar table: the same length for every job.
 */
#define IXML_GRAMMAR_TABLE 16384

/*
 * Main table: what a grammar of `size` needs for a record of `characters`,
 * namely size * (characters + 1) * (characters + 2) / 2 numbers. A caller
 * that does not know the size lends what IXML_GRAMMAR_SIZE asks for.
 */
#define IXML_MAIN_TABLE_LENGTH(size, characters) \
    ((size_t)(size) * ((size_t)(characters) + 1) * ((size_t)(characters) + 2) / 2)

/* A main table of this length is enough for every job: 10,394,112 numbers. */
#define IXML_MAIN_TABLE 10394112

/* ---- Answers --------------------------------------------------------- */

/* Where a job is at fault. A place that its number does not name is 0. */
typedef struct {
    /*
     * With 2, 3, 12 and 13: the first byte of the sequence that breaks UTF-8
     * (2, 12), or of the first character outside the alphabet (3, 13), counted
     * from 0 at the first byte of the grammar (2, 3) or of the record (12, 13),
     * a byte order mark included.
     */
    size_t byte;
    /*
     * With 16: how many of the record's first characters begin some text that
     * the grammar accepts, however long that text is. 0 for a wrong first
     * character; all of them for a record that ends too soon.
     */
    size_t fault;
    /*
     * With 5 to 10: the first name, hex number (its #), range (the quote or #
     * that begins it) or class of the grammar at fault, in characters from the
     * grammar's start after a byte order mark; with 6 the first rule's name that
     * an earlier rule has.
     */
    size_t grammar;
} ixml_places;

typedef struct {
    /* 0 (IXML_ANSWERED), or the number of a refusal. */
    uint32_t number;
    /*
     * How many cells of the result are filled: numbers of the reading, bytes
     * of the XML or of the tidy text. 0 unless the number is 0, and always 0 from ixml_check.
     */
    size_t length;
    /*
     * The record has more than one derivation. Set only with the number 0,
     * and never by ixml_check and ixml_tidy.
     */
    bool ambiguous;
    /*
     * The grammar's prolog names another version than 1.0; it is read as 1.0
     * all the same. Set only with the numbers 0 and 16.
     */
    bool version;
    ixml_places places;
} ixml_answer;

/*
 * The numbers of an answer, in the order in which they are judged: the first
 * that applies is given. ixml_check gives 0 to 11 and 24; ixml_tidy these, 28
 * and 23; ixml_read and ixml_read_plain 0 to 16, 24, 29 and 23; ixml_convert any
 * but 25 to 28; ixml_judge any but 16 and 26 to 29; ixml_start 0 to 15 and 24;
 * ixml_round 0, 27 and 15; ixml_finish_read 27, 15, 26, 16, 29, 23 and 0;
 * ixml_finish_convert 27, 15, 26 and what ixml_convert gives from 16 on.
 *
 * On every refusal each cell of the result buffer is as it was.
 */
enum {
    /* The call did what it was asked. */
    IXML_ANSWERED = 0,

    /* The grammar is over 4,096 bytes long. */
    IXML_GRAMMAR_TOO_LONG = 1,
    /* The grammar is not UTF-8. */
    IXML_GRAMMAR_NOT_UTF8 = 2,
    /* The grammar holds a character outside the alphabet, see below (one byte
       order mark at its start is allowed). */
    IXML_GRAMMAR_CHARACTER = 3,
    /* The grammar is not in the ixml language, or nests round brackets or
       comments over 16 deep. */
    IXML_NOT_IXML = 4,
    /* The grammar uses a name that has no rule. */
    IXML_UNDEFINED_NAME = 5,
    /* The grammar has two rules of one name. */
    IXML_REPEATED_RULE = 6,
    /* The grammar has a hex number above 10FFFF. */
    IXML_HEX_TOO_LARGE = 7,
    /* The grammar has a hex number of a surrogate or a noncharacter. */
    IXML_HEX_NO_CHARACTER = 8,
    /* The grammar has a range that runs backwards. */
    IXML_BACKWARD_RANGE = 9,
    /* The grammar names a character class that does not exist. */
    IXML_UNKNOWN_CLASS = 10,
    /* The grammar's size is over 512: the sum, over all alternatives of the
       plain rules, of their symbols plus 1. */
    IXML_GRAMMAR_TOO_LARGE = 11,
    /* A rule of the grammar, written or made from a repetition or a bracket,
       derives no text of characters that a record may hold: `a: "x", a.` */
    IXML_UNPRODUCTIVE_RULE = 24,

    /* The record is not UTF-8. */
    IXML_RECORD_NOT_UTF8 = 12,
    /* The record holds a character outside the alphabet. */
    IXML_RECORD_CHARACTER = 13,
    /* The record has over 200 characters. */
    IXML_RECORD_TOO_LONG = 14,
    /* The state, or at the end the main table, is not that of this read: lent
       with another grammar or record, left by a start that was refused, or
       altered in between (ixml_round and the ends of a read alone). */
    IXML_OTHER_STATE = 27,
    /* The main table, the scratch or the grammar table is too short. */
    IXML_TABLE_TOO_SHORT = 15,
    /* The read is not finished: it needs more rounds (the ends of a read
       alone). */
    IXML_NOT_YET = 26,
    /* The grammar does not derive the record: there is no reading. */
    IXML_NO_READING = 16,
    /* The list of numbers, used to its last, is no derivation of the record
       (ixml_judge alone, in the place of the one above). */
    IXML_NO_DERIVATION = 25,
    /* The chosen reading has over 4,096 numbers. */
    IXML_READING_TOO_LONG = 29,

    /* The XML would have an attribute twice on one element. */
    IXML_REPEATED_ATTRIBUTE = 17,
    /* The XML would have a name that is no XML name. */
    IXML_NOT_XML_NAME = 18,
    /* The XML would have a character that is no XML character. */
    IXML_NOT_XML_CHARACTER = 19,
    /* The root rule is marked @, and a document is no attribute. */
    IXML_ATTRIBUTE_ROOT = 20,
    /* The root rule is marked -, and what is left of it is not one element
       with nothing beside it. */
    IXML_DELETED_ROOT = 21,
    /* The XML would have an attribute named xmlns. */
    IXML_ATTRIBUTE_XMLNS = 22,
    /* The tidy text is over 4,096 bytes long. */
    IXML_TIDY_TOO_LONG = 28,
    /* The result is longer than the buffer that was lent for it. */
    IXML_RESULT_TOO_LONG = 23
};

/* ---- Calls ----------------------------------------------------------- */

/* Checks a grammar. */
ixml_answer ixml_check(const uint8_t *grammar, size_t grammar_length);

/*
 * Tidies a grammar. The result is the grammar in one layout: a line for each
 * rule, `: ` and `; ` and `, `, double quotes, lower-case hex without leading
 * zeros, no comments and no byte order mark, a prolog as first line. It is a
 * grammar of the same rules, names and marks, so every record has the same
 * answer and result with it; only places in the grammar's text may differ.
 * Tidying it again gives the same bytes. With the number 0 the first `length`
 * bytes of `result` are the tidy text and the rest is as it was; a buffer of
 * IXML_GRAMMAR_BYTES is never too short.
 */
ixml_answer ixml_tidy(const uint8_t *grammar, size_t grammar_length,
                      uint8_t *result, size_t result_length);

/*
 * Reads a record. The result is the chosen reading: the left parse of a
 * derivation, that is, the numbers of its alternatives (from 0), top node
 * first, children left to right. With the number 0 the first `length` numbers
 * of `result` are the reading and the rest is as it was.
 */
ixml_answer ixml_read(const uint8_t *grammar, size_t grammar_length,
                      const uint8_t *record, size_t record_length,
                      uint32_t *main_table, size_t main_table_length,
                      uint32_t *grammar_table, size_t grammar_table_length,
                      uint32_t *result, size_t result_length);

/*
 * The same by the plain engine, which fills the whole main table: far slower,
 * and proved to give the same answer and the same result.
 */
ixml_answer ixml_read_plain(const uint8_t *grammar, size_t grammar_length,
                            const uint8_t *record, size_t record_length,
                            uint32_t *main_table, size_t main_table_length,
                            uint32_t *grammar_table,
                            size_t grammar_table_length,
                            uint32_t *result, size_t result_length);

/*
 * Converts a record. The result is the XML of the chosen reading, in UTF-8,
 * without a declaration, a final line end or a final NUL. With the number 0
 * the first `length` bytes of `result` are the XML and the rest is as it was.
 */
ixml_answer ixml_convert(const uint8_t *grammar, size_t grammar_length,
                         const uint8_t *record, size_t record_length,
                         uint32_t *main_table, size_t main_table_length,
                         uint32_t *grammar_table, size_t grammar_table_length,
                         uint8_t *result, size_t result_length);

/*
 * Judges a list of numbers, whoever made it, as ixml_read gives them. It is
 * accepted exactly when, used to its last number, it is the left parse of a
 * derivation of the record. The result is the XML of that derivation, as
 * ixml_convert would write it, but with no word on ambiguity; the answer's
 * ambiguous mark is not set. The list may have any length. No main table is
 * needed; `scratch` needs two numbers for each entry of the list, shorter being
 * 15, and what it holds afterwards is left open.
 */
ixml_answer ixml_judge(const uint8_t *grammar, size_t grammar_length,
                       const uint8_t *record, size_t record_length,
                       const uint32_t *list, size_t list_length,
                       const uint32_t *grammar_table,
                       size_t grammar_table_length,
                       uint64_t *scratch, size_t scratch_length,
                       uint8_t *result, size_t result_length);

/* ---- Reading in rounds ----------------------------------------------- */

/*
 * A read that the caller counts out, to do something else in between: start it,
 * do rounds until it is finished, and end it as numbers or as XML.
 *
 *     static uint32_t state[IXML_STATE];
 *     ixml_progress p = ixml_start(GRAMMAR, RECORD, MAIN, SECOND, state);
 *     while (p.answer.number == 0 && state[IXML_STATE_FINISHED] == 0)
 *         p = ixml_round(GRAMMAR, RECORD, MAIN, SECOND, state);
 *     if (p.answer.number == 0)
 *         p = ixml_finish_read(GRAMMAR, RECORD, MAIN, SECOND, state, RESULT);
 *
 * where each name in capitals stands for a pointer and a length. The state is
 * one array of fixed length, lent without it. State and main table are the
 * caller's between the calls, one of each for a read; the grammar table is
 * known by its length alone and may be shared. Any number of reads may go on at
 * once.
 *
 * After k rounds the main table says of each rule, written or made from a
 * repetition or a bracket, and each stretch of the record exactly whether it has
 * a derivation of height at most k: the cell of the rule holds a number below
 * 2^32 - 1 if it has, and 2^32 - 1 if not. The cell of position p on the stretch
 * from i to j of n characters is number
 * p * (n + 1) * (n + 2) / 2 + j * (j + 1) / 2 + i, and a rule's position is that
 * of the end of its last alternative; docs/DESIGN.md has the order of positions.
 *
 * A read is finished after the first round that adds no rule on any stretch, or
 * after round N * (n + 1) for N rules, written and made. A round after that
 * changes nothing and is not counted.
 *
 * All of this holds where each call after the start is lent the table and the
 * state just as that same read's last call left them. Whatever else is lent, a
 * call ends with an answer, and an end of a read never gives another result than
 * the uncut call: 27 is given where the main table is not a finished one.
 */

/* Length of the state. */
#define IXML_STATE 4904
/* The number of the state that is 1 where the read is finished, else 0. */
#define IXML_STATE_FINISHED 2

/* What these calls answer. */
typedef struct {
    ixml_answer answer;
    /* The rounds done; 0 with a refused start, with 27 and with 15. */
    size_t rounds;
} ixml_progress;

/*
 * Starts a read. Refused exactly where 1 to 15 or 24 stops ixml_read, with that
 * answer; the state is then one of zeros, which no later call takes, and the main
 * table as it was. Otherwise 0, with length 0 and no ambiguous mark: the first
 * cells of the main table, as many as the job needs, are cleared.
 */
ixml_progress ixml_start(const uint8_t *grammar, size_t grammar_length,
                         const uint8_t *record, size_t record_length,
                         uint32_t *main_table, size_t main_table_length,
                         const uint32_t *grammar_table,
                         size_t grammar_table_length, uint32_t *state);

/*
 * Does one round. 27, then 15, leave table and state as they were; otherwise 0,
 * with length 0 and no ambiguous mark.
 */
ixml_progress ixml_round(const uint8_t *grammar, size_t grammar_length,
                         const uint8_t *record, size_t record_length,
                         uint32_t *main_table, size_t main_table_length,
                         const uint32_t *grammar_table,
                         size_t grammar_table_length, uint32_t *state);

/*
 * End a read that is finished: 27, then 15, then 26, and otherwise the answer
 * and the result of ixml_read and of ixml_convert. Neither table nor state is
 * written, so a read can be ended more than once and in both ways.
 */
ixml_progress ixml_finish_read(const uint8_t *grammar, size_t grammar_length,
                               const uint8_t *record, size_t record_length,
                               const uint32_t *main_table,
                               size_t main_table_length,
                               const uint32_t *grammar_table,
                               size_t grammar_table_length,
                               const uint32_t *state,
                               uint32_t *result, size_t result_length);

ixml_progress ixml_finish_convert(const uint8_t *grammar,
                                  size_t grammar_length,
                                  const uint8_t *record, size_t record_length,
                                  const uint32_t *main_table,
                                  size_t main_table_length,
                                  const uint32_t *grammar_table,
                                  size_t grammar_table_length,
                                  const uint32_t *state,
                                  uint8_t *result, size_t result_length);

/* ---- Categories ------------------------------------------------------ */

/*
 * Unicode's general category of a code point, as its place in this list:
 *
 *      0 Lu   1 Ll   2 Lt   3 Lm   4 Lo   5 Mn   6 Mc   7 Me   8 Nd   9 Nl
 *     10 No  11 Pc  12 Pd  13 Ps  14 Pe  15 Pi  16 Pf  17 Po  18 Sm  19 Sc
 *     20 Sk  21 So  22 Zs  23 Zl  24 Zp  25 Cc  26 Cf  27 Cs  28 Co  29 Cn
 *
 * Known is the alphabet, the characters that grammars and records may hold:
 * U+0000 to U+017F, U+0300 to U+036F, U+203F and U+2040. Every other number
 * gives IXML_CATEGORY_NOT_KNOWN.
 */
#define IXML_CATEGORY_NOT_KNOWN 30

uint32_t ixml_category(uint32_t code);

#ifdef __cplusplus
}
#endif

#endif
