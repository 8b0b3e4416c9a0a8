/* Holds an interview on the terminal over a table file whose marks may be unknown, and shows the rules agreed to.
 *
 *     tools/build zundrafl
 *     cc -Iinclude examples/interview.c target/staticlib/libzundrafl.a -o target/interview
 *     target/interview examples/tables/pets
 *
 * Exit status: 0 the interview is finished; 1 something was refused, or the replies ended first; 2 wrong use, or a file that cannot be
 * read or written.
 */
#include <ctype.h>
#include <stdio.h>
#include <stdlib.h>
#include <string.h>

#include "zundrafl.h"

enum { ROW_WORDS = 2 * ZUNDRAFL_MOST_ROWS, RULE_WORDS = 2 * ZUNDRAFL_MOST_RULES, MOST_NAME = 80, LINE = 8192 };
enum { CALL_WORDS = 4, ANSWER_WORDS = 3 }; /* of a log that is made */

static const char USAGE[] =
    "usage: interview [--background FILE] [--log FILE] [--save FILE] [--nearly PERCENT] TABLE\n"
    "  TABLE       a table in Burmeister's layout; X yes, . no, ? unknown\n"
    "  background  rules that hold from the start, one a line: has fur, flies -> breathes air\n"
    "  log         the interview so far is taken up from it, and written to it as it goes\n"
    "  save        the table with the rows and marks that you gave is written to it at the end\n"
    "  nearly      shown first: what more than this percentage of the rows with a property have too, and the rows that stand in the way\n"
    "Answer a question with yes (y), or with no (n) and a row of marks that refutes it; behind the marks the row may get a name.\n"
    "A mark that the rules imply may stay unknown. At a question, and when the interview is finished, row (r) and marks file a row that need\n"
    "not refute anything, and mark (m) fills in a mark that was unknown: mark cat flies no. There a row is called by its name, or as row 3.\n"
    "At a question test (t) and marks say whether a row refutes it, and file nothing.\n"
    "At any time list (l) shows the rules so far, and holds (h) says of a rule whether it follows from them, is refuted, or is open:\n"
    "holds has fur, flies -> breathes air. What follows goes on following, and what is refuted stays refuted.\n";

static uint8_t file[ZUNDRAFL_MOST_BYTES + 1];
static size_t bytes;
static uint64_t rows[ROW_WORDS], list[RULE_WORDS], background[RULE_WORDS];
static size_t background_words;
static zundrafl_layout layout;
static zundrafl_session session;
static zundrafl_answer answer;
static char attribute_names[ZUNDRAFL_MOST_ATTRIBUTES][MOST_NAME + 1];
static char object_names[ZUNDRAFL_MOST_ROWS][MOST_NAME + 1]; /* empty for one of your rows without a name */
static FILE *record; /* where the log is written */

static void fail(const char *what, const char *path) {
    fprintf(stderr, "%s: %s\n", path, what);
    exit(2);
}

/* ---- what is shown */

static void show_set(FILE *to, uint64_t set) {
    const char *between = "";
    if (set == 0) fputs("nothing", to);
    for (size_t i = 0; i < layout.attributes; i++) {
        if (!(set >> i & 1)) continue;
        fprintf(to, "%s%s", between, attribute_names[i]);
        between = ", ";
    }
}

static void show_row(FILE *to, size_t row) {
    if (row < layout.objects || object_names[row][0]) fprintf(to, "row %zu (%s)", row + 1, object_names[row]);
    else fprintf(to, "row %zu (the %zu. of your rows)", row + 1, row + 1 - layout.objects);
}

/* A row by its number, the first being row 1. */
static const char *numbered(size_t row) {
    static char number[MOST_NAME + 1];
    sprintf(number, "row %zu", row + 1);
    return number;
}

/* The name of a row as the table that is saved has it. */
static const char *saved_name(size_t row) {
    return row < layout.objects || object_names[row][0] ? object_names[row] : numbered(row);
}

static void show_marks(FILE *to, uint64_t yes, uint64_t no) {
    for (size_t i = 0; i < layout.attributes; i++) fputc(yes >> i & 1 ? 'X' : no >> i & 1 ? '.' : '?', to);
}

static void show_sentence(uint64_t number) {
    uint8_t words[256];
    size_t length = zundrafl_sentence(number, words, sizeof words);
    fprintf(stderr, "Refused with %llu. %.*s\n", (unsigned long long)number, (int)length, (const char *)words);
}

/* ---- why a row contradicts */

static uint64_t close_under(uint64_t set, const uint64_t *rules, size_t words) {
    for (size_t i = 0; i < words; i += 2)
        if ((rules[i] & set) == rules[i]) set |= rules[i + 1];
    return set;
}

/* The closure of a set under the rules in force and one rule more. */
static uint64_t closure(uint64_t set, uint64_t premise, uint64_t conclusion) {
    uint64_t rule[2] = {premise, conclusion}, before;
    do {
        before = set;
        set = close_under(set, background, background_words);
        set = close_under(set, list, 2 * session.rules);
        set = close_under(set, rule, 2);
    } while (set != before);
    return set;
}

/* A row contradicts the rules in force with one more, {} -> {} where there is none. Which properties of the conclusion it lacks is open:
 * one that it is known to lack would not have been asked about. */
static void explain(size_t row, uint64_t premise, uint64_t conclusion) {
    uint64_t yes = rows[2 * row], no = rows[2 * row + 1];
    fputs("It is ", stderr);
    show_row(stderr, row);
    fputs(": it has ", stderr);
    show_set(stderr, yes);
    fputs(", so by the rules it would have ", stderr);
    show_set(stderr, closure(yes, premise, conclusion) & no);
    fputs(", which it lacks.\n", stderr);
    if (conclusion == 0) return;
    yes = closure(yes, 0, 0);
    fputs("It lacks at least one of ", stderr);
    show_set(stderr, conclusion & ~yes);
    fputs(". If it is right, answer with a dot for each that it lacks: no ", stderr);
    show_marks(stderr, yes, no);
    fputs("\n", stderr);
}

/* ---- what is read */

static void lower(char *text) {
    for (; *text; text++) *text = (char)tolower((unsigned char)*text);
}

/* A text without the white space around it. */
static char *trimmed(char *text) {
    while (isspace((unsigned char)*text)) text++;
    for (char *end = text + strlen(text); end > text && isspace((unsigned char)end[-1]);) *--end = 0;
    return text;
}

/* Cuts the first word off a text. */
static char *next_word(char **text) {
    char *word = trimmed(*text), *end = word;
    while (*end && !isspace((unsigned char)*end)) end++;
    *text = end;
    if (*end) *text = trimmed(end + 1), *end = 0;
    return word;
}

/* Cuts the last word off a text with no white space around it; the text itself where it has no other. */
static char *last_word(char *text) {
    char *word = text + strlen(text);
    while (word > text && !isspace((unsigned char)word[-1])) word--;
    if (word > text) word[-1] = 0, trimmed(text);
    return word;
}

/* A row as the table file writes it. */
static int read_row(const char *marks, uint64_t *yes, uint64_t *no) {
    *yes = *no = 0;
    if (strlen(marks) != layout.attributes) return 0;
    for (size_t i = 0; i < layout.attributes; i++) {
        if (marks[i] == 'X' || marks[i] == 'x') *yes |= (uint64_t)1 << i;
        else if (marks[i] == '.') *no |= (uint64_t)1 << i;
        else if (marks[i] != '?') return 0;
    }
    return 1;
}

/* A row, and behind it its name or nothing; a carriage return would end the name's line. */
static int read_named_row(char **text, uint64_t *yes, uint64_t *no) {
    return read_row(next_word(text), yes, no) && !strchr(*text, '\r');
}

/* Names between commas, or nothing. */
static int read_set(char *text, uint64_t *set) {
    *set = 0;
    for (char *part = text, *next; part; part = next) {
        size_t i = 0;
        next = strchr(part, ',');
        if (next) *next++ = 0;
        part = trimmed(part);
        if (strcmp(part, "nothing") == 0) continue;
        while (i < layout.attributes && strcmp(attribute_names[i], part) != 0) i++;
        if (i == layout.attributes) return 0;
        *set |= (uint64_t)1 << i;
    }
    return 1;
}

/* A rule: names, an arrow, names. */
static int read_rule(char *text, uint64_t *premise, uint64_t *conclusion) {
    char *arrow = strstr(text, "->");
    if (arrow) *arrow = 0;
    return arrow && read_set(text, premise) && read_set(arrow + 2, conclusion);
}

/* Whether a text ends in a name, with white space before it or nothing. What comes before that has `length` bytes. */
static int ends_in(const char *text, const char *name, size_t *length) {
    size_t before = strlen(text), size = strlen(name);
    if (before < size || strcmp(text + before - size, name) != 0) return 0;
    *length = before -= size;
    while (*length && isspace((unsigned char)text[*length - 1])) --*length;
    return !before || *length < before;
}

/* Whether the first bytes of a text, one or more, are a name. */
static int begins_as(const char *text, size_t length, const char *name) {
    return length && strlen(name) == length && memcmp(text, name, length) == 0;
}

/* A row and a property, with white space between: the row by its name or by its number. Otherwise 0, and says what is wrong. */
static int read_place(const char *text, size_t *row, uint64_t *property) {
    size_t found = 0, named = 0, length;
    for (size_t i = 0; i < layout.attributes; i++) {
        if (!ends_in(text, attribute_names[i], &length)) continue;
        named = 1;
        for (size_t j = 0; j < session.rows; j++) {
            if (!begins_as(text, length, object_names[j]) && !begins_as(text, length, numbered(j))) continue;
            *row = j, *property = (uint64_t)1 << i;
            found++;
        }
    }
    if (found == 1) return 1;
    if (found) fputs("More than one mark is called so: write row and the row's number.\n", stderr);
    else if (named) fputs("No row is called so: write its name, or row and its number.\n", stderr);
    else fputs("No property is called so.\n", stderr);
    return 0;
}

/* Whether a word is a command or its first letter. */
static int is(const char *word, const char *command) {
    return strcmp(word, command) == 0 || (word[0] == command[0] && !word[1]);
}

/* Whether a call of the log has a row, with marks and name. */
static int has_row(const char *call) {
    return strcmp(call, "no") == 0 || strcmp(call, "row") == 0;
}

/* Whether it has marks for a row, and the row's number. */
static int has_number(const char *call) {
    return strcmp(call, "mark") == 0;
}

/* A number in digits; one too long for a word is the largest word. */
static int read_number(const char *text, uint64_t *number) {
    *number = strtoull(text, NULL, 10);
    return *text && strspn(text, "0123456789") == strlen(text);
}

static void read_table(const char *path) {
    FILE *in = fopen(path, "rb");
    if (!in) fail("cannot be read", path);
    bytes = fread(file, 1, sizeof file, in);
    if (ferror(in)) fail("cannot be read", path);
    fclose(in);
    zundrafl_open_table(&layout, file, bytes, &answer);
    if (answer.code == ZUNDRAFL_TAKEN) zundrafl_read_marks(&layout, file, bytes, rows, ROW_WORDS, &answer);
    if (answer.code != ZUNDRAFL_TAKEN) {
        size_t line = 1;
        for (size_t i = 0; i < answer.first && i < bytes; i++)
            line += file[i] == '\n' || (file[i] == '\r' && (i + 1 == bytes || file[i + 1] != '\n'));
        fprintf(stderr, "%s, line %zu: ", path, line);
        show_sentence(answer.code);
        exit(1);
    }
    for (size_t i = 0; i < layout.objects; i++) {
        zundrafl_object_name(&layout, file, bytes, i, &answer);
        memcpy(object_names[i], file + answer.first, answer.second);
    }
    for (size_t i = 0; i < layout.attributes; i++) {
        zundrafl_attribute_name(&layout, file, bytes, i, &answer);
        memcpy(attribute_names[i], file + answer.first, answer.second);
    }
}

static void read_background(const char *path) {
    char line[LINE];
    FILE *in = fopen(path, "r");
    if (!in) fail("cannot be read", path);
    for (size_t number = 1; fgets(line, sizeof line, in); number++) {
        if (strspn(line, " \t\r\n") == strlen(line)) continue;
        if (background_words == RULE_WORDS || !read_rule(line, &background[background_words], &background[background_words + 1])) {
            fprintf(stderr, "%s, line %zu: not a rule over the properties of the table, or one too many\n", path, number);
            exit(2);
        }
        background_words += 2;
    }
    fclose(in);
}

/* ---- the session */

/* A call for the log; behind marks stands a name or a number. */
static void write_call(const char *call, uint64_t yes, uint64_t no, const char *name) {
    if (!record) return;
    fputs(call, record);
    if (has_row(call) || has_number(call)) fputc(' ', record), show_marks(record, yes, no);
    fprintf(record, "%s%s\n", *name ? " " : "", name);
    if (fflush(record) != 0) fail("cannot be written", "the log");
}

static int refused(void) {
    show_sentence(answer.code);
    if (answer.code == ZUNDRAFL_MARKED_TWICE) show_row(stderr, answer.first), fputc('\n', stderr);
    if (answer.code == ZUNDRAFL_ROW_CONTRADICTS) explain(answer.first, 0, 0);
    return 1;
}

/* Opens the session and makes the calls of the log, if there are any. */
static int take_up(const char *path) {
    size_t words = 0, room = 0, answer_words, row = layout.objects;
    uint64_t *calls = NULL, *answers;
    char line[LINE];
    FILE *in = path ? fopen(path, "r") : NULL;
    while (in && fgets(line, sizeof line, in)) {
        uint64_t call[CALL_WORDS] = {ZUNDRAFL_STEP, 0, 0, 0};
        char *rest = line, *word = next_word(&rest);
        if (words == room && !(calls = realloc(calls, (room = 2 * room + CALL_WORDS) * sizeof *calls))) fail("too long", path);
        if (strcmp(word, "yes") == 0 && !*rest) call[0] = ZUNDRAFL_YES;
        else if (has_row(word) && read_named_row(&rest, &call[1], &call[2]) && strlen(rest) <= MOST_NAME)
            call[0] = *word == 'n' ? ZUNDRAFL_NO : ZUNDRAFL_FILE;
        else if (has_number(word) && read_named_row(&rest, &call[2], &call[3]) && read_number(rest, &call[1]))
            call[0] = ZUNDRAFL_FILL, call[1]--;
        else if (strcmp(word, "step") != 0 || *rest) fail("is no log of this table", path);
        if (has_row(word) && row < ZUNDRAFL_MOST_ROWS) strcpy(object_names[row++], rest);
        memcpy(calls + words, call, sizeof call);
        words += CALL_WORDS;
    }
    if (in) fclose(in);
    answer_words = words / CALL_WORDS * ANSWER_WORDS;
    answers = calloc(answer_words + 1, sizeof *answers);
    if (!answers) fail("too long", path);
    zundrafl_open_and_replay(&session, layout.attributes, layout.objects, rows, ROW_WORDS, list, RULE_WORDS, background, background_words,
                             calls ? calls : answers, words, answers, answer_words, &answer);
    for (size_t i = 0; answer.code == ZUNDRAFL_TAKEN && i < answer_words; i += ANSWER_WORDS)
        if (answers[i] < 100) fail("was written over another table or background", path);
    free(calls);
    free(answers);
    if (path && !(record = fopen(path, "a"))) fail("cannot be written", path);
    return answer.code == ZUNDRAFL_TAKEN;
}

/* Shows the rows with the premise whose mark for the property is not yes: with `no` the property those marked no, with 0 those unknown.
 * 0 where there is none. */
static int show_in_way(const char *before, uint64_t premise, uint64_t property, uint64_t no) {
    int shown = 0;
    for (size_t i = 0; i < session.rows; i++) {
        if ((rows[2 * i] & (premise | property)) != premise || (rows[2 * i + 1] & property) != no) continue;
        printf("%s%s", shown ? ", " : before, saved_name(i));
        shown = 1;
    }
    return shown;
}

/* Shows what nearly every row with a property has too, and the rows that stand in the way; 0 where that is refused. With premises of two
 * properties the list gets long: the program `nearly` has them. */
static int show_nearly(uint64_t percent) {
    int listed = 0;
    for (size_t i = 0; i < layout.attributes; i++) {
        uint64_t premise = (uint64_t)1 << i;
        zundrafl_nearly(layout.attributes, session.rows, rows, ROW_WORDS, premise, percent, &answer);
        if (answer.code != ZUNDRAFL_TAKEN) return 0;
        if (i == 0) printf("Nearly always (more than %d per cent):", (int)percent);
        for (size_t j = 0; j < layout.attributes; j++) {
            uint64_t property = (uint64_t)1 << j;
            int lacking, unknown;
            if (!(answer.first & property)) continue;
            printf("%s%s -> %s", listed ? "" : "\n", attribute_names[i], attribute_names[j]);
            lacking = show_in_way(", but not: ", premise, property, property);
            unknown = show_in_way(lacking ? "; not known for: " : ", not known for: ", premise, property, 0);
            puts(lacking || unknown ? "" : ", always so far");
            listed = 1;
        }
    }
    puts(listed ? "" : " nothing so far\n");
    return 1;
}

/* Asks the question, or with an empty conclusion, when the interview is finished, whether there is another row or mark. */
static void ask(uint64_t premise, uint64_t conclusion) {
    if (conclusion == 0) {
        printf("Finished. Another row or mark, or an empty line: ");
        return;
    }
    printf(premise ? "Does every row with " : "Does every row");
    if (premise) show_set(stdout, premise);
    printf(" have ");
    show_set(stdout, conclusion);
    printf("? ");
}

static void accept_rule(uint64_t premise, uint64_t conclusion) {
    zundrafl_accept(&session, rows, ROW_WORDS, list, RULE_WORDS, background, background_words, &answer);
    if (answer.code == ZUNDRAFL_TAKEN) write_call("yes", 0, 0, "");
    else show_sentence(answer.code);
    if (answer.code == ZUNDRAFL_REPLY_CONTRADICTS) explain(answer.first, premise, conclusion);
}

/* Takes a row, with a no or by itself. */
static void take_row(const char *call, uint64_t yes, uint64_t no, const char *name) {
    if (strlen(name) > MOST_NAME) {
        fprintf(stderr, "A name has at most %d bytes.\n", MOST_NAME);
        return;
    }
    if (strcmp(call, "no") == 0)
        zundrafl_reject(&session, rows, ROW_WORDS, list, RULE_WORDS, background, background_words, yes, no, &answer);
    else zundrafl_file_row(&session, rows, ROW_WORDS, list, RULE_WORDS, background, background_words, yes, no, &answer);
    if (answer.code == ZUNDRAFL_TAKEN) strcpy(object_names[session.rows - 1], name), write_call(call, yes, no, name);
    else show_sentence(answer.code);
}

/* Takes a mark of a row, both called by their names. */
static void take_mark(const char *text, int is_yes) {
    char number[MOST_NAME + 1];
    size_t row;
    uint64_t property, yes, no;
    if (!read_place(text, &row, &property)) return;
    yes = is_yes ? property : 0, no = property & ~yes;
    zundrafl_fill_row(&session, rows, ROW_WORDS, list, RULE_WORDS, background, background_words, row, yes, no, &answer);
    sprintf(number, "%zu", row + 1);
    if (answer.code == ZUNDRAFL_TAKEN) write_call("mark", yes, no, number);
    else show_sentence(answer.code);
}

static void test_row(uint64_t yes, uint64_t no) {
    zundrafl_test_row(&session, rows, ROW_WORDS, list, RULE_WORDS, background, background_words, yes, no, &answer);
    if (answer.code == ZUNDRAFL_REFUTES) puts("It refutes the question.");
    else show_sentence(answer.code);
}

/* Shows how far the interview is, and the rules agreed to. */
static void show_rules(int finished) {
    printf("%zu rules, %zu rows%s\n", session.rules, session.rows, finished ? "" : ", not finished");
    for (size_t i = 0; i < session.rules; i++) {
        show_set(stdout, list[2 * i]);
        printf(" -> ");
        show_set(stdout, list[2 * i + 1]);
        printf("\n");
    }
}

/* Says of a rule over the properties of the table what is known of it so far: an answer that no later reply takes back, or that it is open. */
static void show_known(uint64_t premise, uint64_t conclusion) {
    zundrafl_follows(&session, rows, ROW_WORDS, list, RULE_WORDS, background, background_words, premise, conclusion, &answer);
    if (answer.code == ZUNDRAFL_FOLLOWS && answer.first) {
        puts("It follows from the rules.");
        return;
    }
    zundrafl_refuted(&session, rows, ROW_WORDS, list, RULE_WORDS, background, background_words, premise, conclusion, &answer);
    if (answer.code == ZUNDRAFL_REFUTED) fputs("It is refuted by ", stdout), show_row(stdout, answer.first), puts(".");
    else if (answer.code == ZUNDRAFL_UNREFUTED) puts("It is open.");
    else show_sentence(answer.code);
}

/* One line to what is asked; 0 at the end of the lines, and at an empty one when the interview is finished. */
static int reply(uint64_t premise, uint64_t conclusion) {
    char line[LINE], *rest = line, *word, *last;
    uint64_t yes = 0, no = 0;
    int asked = conclusion != 0;
    ask(premise, conclusion);
    fflush(stdout);
    if (!fgets(line, sizeof line, stdin)) return 0;
    word = next_word(&rest);
    lower(word);
    if (!asked && !*word) return 0;
    if (asked && is(word, "yes") && !*rest) accept_rule(premise, conclusion);
    else if (asked && is(word, "no") && read_named_row(&rest, &yes, &no)) take_row("no", yes, no, rest);
    else if (is(word, "row") && read_named_row(&rest, &yes, &no)) take_row("row", yes, no, rest);
    else if (asked && is(word, "test") && read_named_row(&rest, &yes, &no) && !*rest) test_row(yes, no);
    else if (is(word, "mark") && (last = last_word(rest)) > rest && (lower(last), is(last, "yes") || is(last, "no")))
        take_mark(rest, *last == 'y');
    else if (is(word, "list") && !*rest) show_rules(!asked);
    else if (is(word, "holds") && read_rule(rest, &yes, &no)) show_known(yes, no);
    else
        fprintf(stderr,
                "Write %s and %zu marks: X yes, . no, ? unknown; or mark, a row, a property and yes or no; or list; or holds and a rule%s.\n",
                asked ? "yes, or no, row or test" : "row", layout.attributes, asked ? "" : "; or an empty line");
    return 1;
}

/* Writes the table with your rows in it; 0 where that is refused. */
static int save(const char *path) {
    static uint8_t names[sizeof file + sizeof object_names], text[ZUNDRAFL_MOST_BYTES];
    size_t length = layout.attribute_names - layout.object_names;
    FILE *out;
    memcpy(names, file + layout.object_names, length);
    for (size_t i = layout.objects; i < session.rows; i++) length += (size_t)sprintf((char *)names + length, "%s\n", saved_name(i));
    memcpy(names + length, file + layout.attribute_names, bytes - layout.attribute_names);
    length += bytes - layout.attribute_names;
    zundrafl_write_table(layout.attributes, session.rows, rows, ROW_WORDS, names, length, text, sizeof text, &answer);
    if (answer.code != ZUNDRAFL_TAKEN) return 0;
    out = fopen(path, "wb");
    if (!out || fwrite(text, 1, answer.first, out) != answer.first || fclose(out) != 0) fail("cannot be written", path);
    return 1;
}

int main(int argc, char **argv) {
    const char *table = NULL, *rules = NULL, *log = NULL, *saved = NULL, *nearly = NULL;
    uint64_t percent = 0;
    int finished;
    for (int i = 1; i < argc; i++)
        if (strcmp(argv[i], "--help") == 0) return fputs(USAGE, stdout), 0;
    for (int i = 1; i < argc; i++) {
        if (strcmp(argv[i], "--background") == 0 && i + 1 < argc) rules = argv[++i];
        else if (strcmp(argv[i], "--log") == 0 && i + 1 < argc) log = argv[++i];
        else if (strcmp(argv[i], "--save") == 0 && i + 1 < argc) saved = argv[++i];
        else if (strcmp(argv[i], "--nearly") == 0 && i + 1 < argc && read_number(argv[i + 1], &percent)) nearly = argv[++i];
        else if (argv[i][0] != '-' && !table) table = argv[i];
        else return fputs(USAGE, stderr), 2;
    }
    if (!table) return fputs(USAGE, stderr), 2;
    read_table(table);
    if (rules) read_background(rules);
    if (!take_up(log)) return refused();
    if (nearly && !show_nearly(percent)) return refused();
    for (;;) {
        zundrafl_step(&session, rows, ROW_WORDS, list, RULE_WORDS, background, background_words, &answer);
        if (zundrafl_is_refusal(&answer)) return refused();
        finished = answer.code == ZUNDRAFL_FINISHED;
        if (answer.code == ZUNDRAFL_MOVED) write_call("step", 0, 0, "");
        else if (!reply(answer.first, answer.second)) break;
    }
    putchar('\n');
    show_rules(finished);
    if (saved && !save(saved)) return refused();
    return finished ? 0 : 1;
}
