/* Zundrafl for C: attribute exploration over a table with unknown marks.
 *
 * Link target/staticlib/libzundrafl.a. A set of attributes is a word, bit i for attribute i. A row is two words: the attributes
 * marked yes, then those marked no; the rest are unknown. A rule is two words: premise, then conclusion. Rows, list and
 * background are lent to every call as words and their number; the record says how many rows and list rules are in use.
 *
 * Every call writes *answer and touches nothing else that it is not said to write: a record or layout that does not change is not
 * stored to, and where it is const it is only read. A refusal has its number as the code and its place as the first value; it changes
 * neither record nor words.
 *
 * Memory is yours: nothing is allocated, no pointer is kept behind a call, and there is no global state, so that threads with sessions
 * of their own need no lock, and threads that only read may share one. Every pointer must be aligned, not null and valid for its
 * length, and what a call may write must overlap nothing else that it is lent; nothing else is asked of the caller. Where a length is
 * 0, pass the address of any object of the type.
 */
#ifndef ZUNDRAFL_H
#define ZUNDRAFL_H

#include <stddef.h>
#include <stdint.h>

#ifdef __cplusplus
extern "C" {
#endif

enum { ZUNDRAFL_VERSION_MAJOR = 3, ZUNDRAFL_VERSION_MINOR = 0 }; /* minor: something was added; major: something was changed */

enum {
    ZUNDRAFL_MOST_ATTRIBUTES = 64,
    ZUNDRAFL_MOST_ROWS = 512,  /* two words each */
    ZUNDRAFL_MOST_RULES = 256, /* two words each, in the list and in the background */
    ZUNDRAFL_MOST_BYTES = 65535
};

/* codes of refusals, below 100 */
enum {
    ZUNDRAFL_BAD_N = 1,             /* n is not 1 to 64 */
    ZUNDRAFL_BAD_LENGTH = 2,        /* a number of words is odd or above its limit */
    ZUNDRAFL_NO_SUCH_PLACE = 3,     /* more rows, rules or answers than words for them; no such name; another file's layout */
    ZUNDRAFL_OUTSIDE = 4,           /* an attribute outside the n */
    ZUNDRAFL_MARKED_TWICE = 5,      /* row `place` marks an attribute both yes and no */
    ZUNDRAFL_ROW_CONTRADICTS = 6,   /* row `place` contradicts the rules in force */
    ZUNDRAFL_NOT_CLOSED = 7,        /* the current set is not closed */
    ZUNDRAFL_NO_QUESTION = 8,       /* a reply or a test, and no question stands */
    ZUNDRAFL_BAD_ROW = 9,           /* the offered row or marks: an attribute outside the n, or marked both ways */
    ZUNDRAFL_NOT_REFUTING = 10,     /* the offered row does not refute the question */
    ZUNDRAFL_REPLY_CONTRADICTS = 11, /* with the reply row `place` (yes), the offered row (no, filing) or the filled row contradicts */
    ZUNDRAFL_FULL = 12,             /* no place for the row or the rule */
    ZUNDRAFL_FILE_TOO_LONG = 21,
    ZUNDRAFL_NO_B = 22,             /* the first line is not `B` */
    ZUNDRAFL_BAD_COUNT = 23,        /* a count line is missing or is not 1 to 4 digits */
    ZUNDRAFL_COUNT_OUT_OF_RANGE = 24,
    ZUNDRAFL_BAD_TITLE = 25,        /* the title or the empty line */
    ZUNDRAFL_BAD_NAME = 26,
    ZUNDRAFL_BAD_MARKS = 27,
    ZUNDRAFL_NOT_AT_END = 28,       /* a line after the last one needed is not empty */
    ZUNDRAFL_MARK_UNKNOWN = 29,     /* in a table that has to be complete */
    ZUNDRAFL_TEXT_TOO_LONG = 30,    /* the text to write is longer than 65,535 bytes or than the output */
    ZUNDRAFL_BAD_PERCENTAGE = 31,   /* a percentage is above 99 */
    ZUNDRAFL_NO_SUCH_ROW = 32,      /* a filling, and the row is not in use */
    ZUNDRAFL_MARK_REVERSED = 33     /* a filling by which a yes of the row would become a no, or the reverse */
};

/* codes of answers that are no refusals, 100 and above */
enum {
    ZUNDRAFL_FINISHED = 100,
    ZUNDRAFL_MOVED = 101,
    ZUNDRAFL_ASKED = 102,    /* premise, conclusion */
    ZUNDRAFL_TAKEN = 103,    /* an accepted opening, reply, filing or filling, a log that was made, a table that was read or written, attributes that were listed */
    ZUNDRAFL_FOLLOWS = 104,  /* 1 or 0 */
    ZUNDRAFL_REFUTED = 105,  /* the lowest row that refutes */
    ZUNDRAFL_UNREFUTED = 106,
    ZUNDRAFL_UNKNOWN = 107,  /* in a log: a call of no known kind */
    ZUNDRAFL_REFUTES = 108   /* the offered row refutes the question */
};

/* kinds of calls in a log, each with those of its three arguments that are read */
enum {
    ZUNDRAFL_STEP = 0,        /* none */
    ZUNDRAFL_YES = 1,         /* none */
    ZUNDRAFL_NO = 2,          /* yes marks, no marks */
    ZUNDRAFL_ASK_FOLLOWS = 3, /* premise, conclusion */
    ZUNDRAFL_ASK_REFUTED = 4, /* premise, conclusion */
    ZUNDRAFL_TEST = 5,        /* yes marks, no marks */
    ZUNDRAFL_FILE = 6,        /* yes marks, no marks */
    ZUNDRAFL_FILL = 7         /* row, yes marks, no marks */
};

/* the session record: attributes, rows and list rules in use, current set */
typedef struct {
    size_t n, rows, rules;
    uint64_t current;
} zundrafl_session;

typedef struct {
    uint64_t code, first, second;
} zundrafl_answer;

/* Whether an answer is a refusal. */
static inline int zundrafl_is_refusal(const zundrafl_answer *answer) {
    return answer->code < 100;
}

/* Writes what a refusal number means, and what a person does next, to the start of a buffer, without a line end, and gives the number of
 * bytes written: at most 128, and 0 for a number that no refusal has. What does not fit is dropped. */
size_t zundrafl_sentence(uint64_t number, uint8_t *out, size_t bytes);

/* what an opened table keeps beside its file: the counts, and where the names of each kind and the marks begin */
typedef struct {
    size_t objects, attributes, object_names, attribute_names, marks;
} zundrafl_layout;

/* ---- the session. Every call runs these checks in this order:
 *  1 n is not 1 to 64                                    5 row `place` marks an attribute both yes and no
 *  2 a number of words is odd or above its limit         6 row `place` contradicts the rules in force
 *  3 more rows or rules in use than words for them       7 the current set is not closed
 *  4 an attribute outside the n
 *
 * Under the rules in force, background and list, a row counts as having the closure of its yes marks, and as lacking each attribute whose
 * addition to its yes marks gives a closure that meets its no marks. It refutes a rule if it so has the whole premise and lacks some of
 * the conclusion. The words keep the written marks, and 5, 6, 9, 11 and 33 read those.
 */

/* Opens a session with the first `used` rows: an empty list, the closure of the empty set. Writes *session. 1 to 6. */
void zundrafl_open_session(zundrafl_session *session, size_t n, size_t used, const uint64_t *rows, size_t row_words, const uint64_t *list, size_t list_words,
                   const uint64_t *background, size_t background_words, zundrafl_answer *answer);

/* FINISHED, ASKED (changes nothing, may be fetched again) or MOVED (writes *session). 1 to 7. */
void zundrafl_step(zundrafl_session *session, const uint64_t *rows, size_t row_words, const uint64_t *list, size_t list_words,
                   const uint64_t *background, size_t background_words, zundrafl_answer *answer);

/* Yes to the standing question: writes it as the next list rule, and *session. 1 to 7; 8 no question stands; 11 row `place` in use
 * contradicts with the new rule; 12 no place for a rule. */
void zundrafl_accept(zundrafl_session *session, const uint64_t *rows, size_t row_words, uint64_t *list, size_t list_words,
                     const uint64_t *background, size_t background_words, zundrafl_answer *answer);

/* No to the standing question, with a row that refutes it: the test and the filing below in turn, with the first refusal of the two. Writes
 * the row as the next one, and *session. What the rules in force imply of the row may be left unknown. 1 to 8; 9 the row has an attribute
 * outside the n or marks one both ways; 10 it does not refute the question; 11 it contradicts the rules in force; 12 no place for a row. */
void zundrafl_reject(zundrafl_session *session, uint64_t *rows, size_t row_words, const uint64_t *list, size_t list_words,
                     const uint64_t *background, size_t background_words, uint64_t yes, uint64_t no, zundrafl_answer *answer);

/* Whether a row refutes the standing question: REFUTES, or the refusal 10. A row that contradicts the rules in force lacks every attribute,
 * so that it refutes if it has the premise. Writes *answer alone. 1 to 8; 9 the row has an attribute outside the n or marks one both ways;
 * 10 it does not refute the question. */
void zundrafl_test_row(const zundrafl_session *session, const uint64_t *rows, size_t row_words, const uint64_t *list, size_t list_words,
                       const uint64_t *background, size_t background_words, uint64_t yes, uint64_t no, zundrafl_answer *answer);

/* Files a row, at any time: it need not refute anything, and no question need stand, as when the session is finished. Writes it as the next
 * row, and *session; the current set stays. 1 to 7; 9 the row has an attribute outside the n or marks one both ways; 11 it contradicts the
 * rules in force; 12 no place for a row. */
void zundrafl_file_row(zundrafl_session *session, uint64_t *rows, size_t row_words, const uint64_t *list, size_t list_words,
                       const uint64_t *background, size_t background_words, uint64_t yes, uint64_t no, zundrafl_answer *answer);

/* Fills in unknown marks of a row, at any time, as a filing: adds `yes` to the yes marks and `no` to the no marks of row `row`, of the opening
 * or later, counted from 0. Marks that it has may be repeated, also all of them. Writes the two words of that row, and not *session. 1 to 7;
 * 32 the row is not in use; 9 the marks have an attribute outside the n or mark one both ways; 33 a yes of the row would become a no, or the
 * reverse; 11 the row as filled contradicts the rules in force. */
void zundrafl_fill_row(zundrafl_session *session, uint64_t *rows, size_t row_words, const uint64_t *list, size_t list_words,
                       const uint64_t *background, size_t background_words, size_t row, uint64_t yes, uint64_t no, zundrafl_answer *answer);

/* Whether a rule follows from background and list: FOLLOWS with 1 or 0. From an opening on, a rule that follows goes on following, whatever is
 * called, and no row ever refutes it. 1 to 7. */
void zundrafl_follows(const zundrafl_session *session, const uint64_t *rows, size_t row_words, const uint64_t *list, size_t list_words,
                      const uint64_t *background, size_t background_words, uint64_t premise, uint64_t conclusion, zundrafl_answer *answer);

/* Whether a row refutes a rule: REFUTED with the lowest such row, or UNREFUTED. From an opening on, a rule that is refuted stays refuted, whatever
 * is called, with the same row or a lower one, and it never follows. 1 to 7. */
void zundrafl_refuted(const zundrafl_session *session, const uint64_t *rows, size_t row_words, const uint64_t *list, size_t list_words,
                      const uint64_t *background, size_t background_words, uint64_t premise, uint64_t conclusion, zundrafl_answer *answer);

/* Makes a log of calls, four words each (kind, three arguments), and writes the answers, three words each, with rows, list and
 * *session as the calls leave them. Words past the last whole four are not read. 3 where the answers have no room for all calls:
 * nothing is done then. */
void zundrafl_replay(zundrafl_session *session, uint64_t *rows, size_t row_words, uint64_t *list, size_t list_words, const uint64_t *background,
                     size_t background_words, const uint64_t *calls, size_t call_words, uint64_t *answers, size_t answer_words,
                     zundrafl_answer *answer);

/* Opens a session and makes a log of calls on it: a saved interview taken up again. Writes *session, rows, list and the answers as opening
 * and calls leave them. 1 to 6 where the opening is refused, and 3 where the answers have no room for all calls: nothing is done then. */
void zundrafl_open_and_replay(zundrafl_session *session, size_t n, size_t used, uint64_t *rows, size_t row_words, uint64_t *list, size_t list_words,
                              const uint64_t *background, size_t background_words, const uint64_t *calls, size_t call_words, uint64_t *answers,
                              size_t answer_words, zundrafl_answer *answer);

/* ---- the table file, in Burmeister's layout. `place` is the byte offset of the first line that breaks a rule:
 * 21 longer than 65,535 bytes       24 a count out of range          27 a line of marks
 * 22 the first line is not `B`      25 the title or the empty line   28 a line after the last one needed is not empty
 * 23 a count line                   26 a name
 * A line ends at a line feed, at a carriage return followed by a line feed, at a carriage return alone, or at the end of the file; its end
 * is no part of it. */

/* Opens a table file and writes *layout. 21 to 28. */
void zundrafl_open_table(zundrafl_layout *layout, const uint8_t *file, size_t bytes, zundrafl_answer *answer);

/* The same for a table that has to be complete. 21 to 28; 29 a mark is unknown. */
void zundrafl_open_complete_table(zundrafl_layout *layout, const uint8_t *file, size_t bytes, zundrafl_answer *answer);

/* Writes the rows of an opened table, its file and its layout, into lent words; words past the rows are kept. 2 the number of words is odd
 * or above 1,024; 21 to 28; 3 for a layout that is not the one that reading the file finds, and for too few words. */
void zundrafl_read_marks(const zundrafl_layout *layout, const uint8_t *file, size_t bytes, uint64_t *rows, size_t row_words, zundrafl_answer *answer);

/* Where the name of a row or an attribute stands in the file: TAKEN with its offset and its number of bytes, 1 to 80. 3 for a number
 * past the last, and for a layout that is not the one that reading the file finds. Every lookup reads the whole file again: fetch the
 * names once. */
void zundrafl_object_name(const zundrafl_layout *layout, const uint8_t *file, size_t bytes, size_t number, zundrafl_answer *answer);
void zundrafl_attribute_name(const zundrafl_layout *layout, const uint8_t *file, size_t bytes, size_t number, zundrafl_answer *answer);

/* Writes n attributes and the first `used` rows with their names as a table file at the start of the output: TAKEN with its number of
 * bytes; bytes behind it are kept. The title is empty, counts have no leading zeros, marks are X . ? and every line is closed by a line
 * feed. Opening it finds the same rows and names. The names are lent as lines, those of the rows, then those of the attributes; lines
 * past the last name are not read, so that a file's own may be lent from where they stand: file + layout.object_names, bytes -
 * layout.object_names. Output of 65,535 bytes has room for every text that can be written.
 * 1 n is not 1 to 64; 2 the number of words is odd or above 1,024; 3 more rows in use than words for them; 4 a row in use has an attribute
 * outside the n; 5 row `place` in use marks an attribute both ways; 26 a name is missing, empty or over 80 bytes, `place` is its offset in
 * the names, for a missing one their length; 30 the text is longer than 65,535 bytes or than the output. */
void zundrafl_write_table(size_t n, size_t used, const uint64_t *rows, size_t row_words, const uint8_t *names, size_t name_bytes, uint8_t *out,
                          size_t bytes, zundrafl_answer *answer);

/* ---- rows alone, before there is a session */

/* Lists what nearly every row with a premise has: TAKEN with the set of the attributes outside the premise for which 100 times the rows
 * marked yes in premise and attribute exceeds `percent` times the rows marked yes in the premise. Of the rows the first `used` count, and
 * an unknown mark is not yes; a premise that no row has lists nothing, and the empty one is had by every row. Writes *answer alone.
 * 1 n is not 1 to 64; 2 the number of words is odd or above 1,024; 3 more rows in use than words for them; 4 a row in use or the premise
 * has an attribute outside the n; 5 row `place` in use marks an attribute both ways; 31 the percentage is above 99. */
void zundrafl_nearly(size_t n, size_t used, const uint64_t *rows, size_t row_words, uint64_t premise, uint64_t percent, zundrafl_answer *answer);

#ifdef __cplusplus
}
#endif

#endif
