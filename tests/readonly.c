/* A record or a layout in memory that cannot be written: the calls that only read, a step that asks, a filling and every refusal leave it
 * alone. An output in such memory: a writing that is refused leaves it alone. Row words in such memory: a test and a listing leave them
 * alone, refused or not, and so does a filing or a filling that is refused. */
#define _DEFAULT_SOURCE
#include "zundrafl.h"
#include <stdio.h>
#include <string.h>
#include <sys/mman.h>

static int failures;

static void expect(const char *what, const zundrafl_answer *answer, uint64_t code)
{
    if (answer->code != code) {
        printf("%s: code %llu, not %llu\n", what, (unsigned long long)answer->code, (unsigned long long)code);
        failures++;
    }
}

/* a copy that can be read and not written */
static void *locked(const void *from, size_t size)
{
    void *page = mmap(NULL, 4096, PROT_READ | PROT_WRITE, MAP_PRIVATE | MAP_ANONYMOUS, -1, 0);
    if (page == MAP_FAILED)
        return NULL;
    memcpy(page, from, size);
    mprotect(page, 4096, PROT_READ);
    return page;
}

int main(void)
{
    static const uint8_t file[] = "B\n\n1\n2\n\nrow\none\ntwo\nX.\n";
    uint64_t rows[4] = {0}, list[4] = {0}, background[2] = {0}, known[4] = {1, 0, 0, 2};
    zundrafl_session session = {0, 0, 0, 0};
    zundrafl_layout layout = {0, 0, 0, 0, 0};
    zundrafl_answer answer;
    zundrafl_open_session(&session, 2, 0, rows, 4, list, 4, background, 0, &answer);
    expect("open", &answer, ZUNDRAFL_TAKEN);
    zundrafl_session *asked = locked(&session, sizeof session);
    zundrafl_session finished = {2, 0, 0, 3};
    zundrafl_session *full = locked(&finished, sizeof finished);
    zundrafl_open_table(&layout, file, sizeof file - 1, &answer);
    expect("open_table", &answer, ZUNDRAFL_TAKEN);
    zundrafl_layout *kept = locked(&layout, sizeof layout);
    static const uint8_t nothing[32];
    uint8_t *out = locked(nothing, sizeof nothing);
    static const uint64_t marked[6] = {3, 0, 1, 2, 3, 3}; /* the third row marks both attributes both ways */
    uint64_t *marks = locked(marked, sizeof marked);
    static const uint64_t half[4] = {1, 0, 0, 0}, rule[2] = {1, 2}; /* of the first row the second attribute is unknown */
    uint64_t *unsure = locked(half, sizeof half);
    zundrafl_session two = {2, 2, 0, 0};
    zundrafl_session *filed = locked(&two, sizeof two);
    if (asked == NULL || full == NULL || kept == NULL || out == NULL || marks == NULL || unsure == NULL || filed == NULL)
        return 1;

    zundrafl_follows(asked, rows, 4, list, 4, background, 0, 0, 1, &answer);
    expect("follows", &answer, ZUNDRAFL_FOLLOWS);
    zundrafl_refuted(asked, rows, 4, list, 4, background, 0, 0, 1, &answer);
    expect("refuted", &answer, ZUNDRAFL_UNREFUTED);
    zundrafl_step(asked, rows, 4, list, 4, background, 0, &answer);
    expect("a step that asks", &answer, ZUNDRAFL_ASKED);
    zundrafl_step(full, rows, 4, list, 4, background, 0, &answer);
    expect("a step that is finished", &answer, ZUNDRAFL_FINISHED);
    zundrafl_step(asked, rows, 3, list, 4, background, 0, &answer);
    expect("a refused step", &answer, 2);
    zundrafl_accept(full, rows, 4, list, 4, background, 0, &answer);
    expect("a refused yes", &answer, 8);
    zundrafl_accept(asked, rows, 4, list, 0, background, 0, &answer);
    expect("a yes without a place", &answer, 12);
    zundrafl_reject(asked, rows, 4, list, 4, background, 0, 4, 1, &answer);
    expect("a refused no", &answer, 9);
    zundrafl_test_row(filed, marks, 6, list, 4, background, 0, 0, 1, &answer);
    expect("a row that refutes the question", &answer, ZUNDRAFL_REFUTES);
    zundrafl_test_row(filed, marks, 6, list, 4, background, 0, 0, 2, &answer);
    expect("a row that does not refute it", &answer, ZUNDRAFL_NOT_REFUTING);
    zundrafl_test_row(full, marks, 6, list, 4, background, 0, 0, 1, &answer);
    expect("a test without a question", &answer, ZUNDRAFL_NO_QUESTION);
    zundrafl_file_row(filed, marks, 6, list, 4, background, 0, 4, 1, &answer);
    expect("a refused filing", &answer, ZUNDRAFL_BAD_ROW);
    zundrafl_file_row(filed, marks, 4, list, 4, background, 0, 0, 1, &answer);
    expect("a filing without a place", &answer, ZUNDRAFL_FULL);
    zundrafl_fill_row(filed, known, 4, list, 4, background, 0, 1, 1, 2, &answer);
    expect("a filling", &answer, ZUNDRAFL_TAKEN);
    if (known[0] != 1 || known[1] != 0 || known[2] != 1 || known[3] != 2) {
        printf("a filling: rows %llu %llu, %llu %llu\n", (unsigned long long)known[0], (unsigned long long)known[1],
               (unsigned long long)known[2], (unsigned long long)known[3]);
        failures++;
    }
    zundrafl_fill_row(filed, marks, 6, list, 4, background, 0, 2, 0, 0, &answer);
    expect("a filling of a row not in use", &answer, ZUNDRAFL_NO_SUCH_ROW);
    zundrafl_fill_row(filed, marks, 6, list, 4, background, 0, 1, 2, 2, &answer);
    expect("a filling marked both ways", &answer, ZUNDRAFL_BAD_ROW);
    zundrafl_fill_row(filed, marks, 6, list, 4, background, 0, 1, 1, 1, &answer);
    expect("a filling marked both ways, once as before", &answer, ZUNDRAFL_BAD_ROW);
    zundrafl_fill_row(filed, marks, 6, list, 4, background, 0, 1, 2, 0, &answer);
    expect("a filling that reverses", &answer, ZUNDRAFL_MARK_REVERSED);
    zundrafl_fill_row(filed, unsure, 4, list, 4, rule, 2, 0, 0, 2, &answer);
    expect("a filling that contradicts", &answer, ZUNDRAFL_REPLY_CONTRADICTS);
    zundrafl_open_session(asked, 65, 0, rows, 4, list, 4, background, 0, &answer);
    expect("a refused opening", &answer, 1);
    zundrafl_replay(asked, rows, 4, list, 4, background, 0, marks, 3, list, 0, &answer);
    expect("a log shorter than a call", &answer, ZUNDRAFL_TAKEN);
    zundrafl_object_name(kept, file, sizeof file - 1, 0, &answer);
    expect("a row's name", &answer, ZUNDRAFL_TAKEN);
    zundrafl_attribute_name(kept, file, sizeof file - 1, 2, &answer);
    expect("a name past the last", &answer, 3);
    zundrafl_open_table(kept, file, 3, &answer);
    expect("a refused file", &answer, 23);
    zundrafl_read_marks(kept, file, sizeof file - 1, rows, 1, &answer);
    expect("marks into an odd number of words", &answer, 2);
    const uint8_t *names = file + layout.object_names;
    zundrafl_write_table(2, 1, rows, 4, names, sizeof file - 1 - layout.object_names, out, 22, &answer);
    expect("an output one byte too short", &answer, ZUNDRAFL_TEXT_TOO_LONG);
    zundrafl_write_table(2, 1, rows, 4, names, 4, out, 32, &answer);
    expect("a name that is missing", &answer, ZUNDRAFL_BAD_NAME);
    zundrafl_nearly(2, 2, marks, 6, 1, 49, &answer);
    expect("a listing", &answer, ZUNDRAFL_TAKEN);
    zundrafl_nearly(2, 2, marks, 6, 1, 100, &answer);
    expect("a listing at 100 per cent", &answer, ZUNDRAFL_BAD_PERCENTAGE);
    zundrafl_nearly(2, 3, marks, 6, 1, 100, &answer);
    expect("a listing over a row marked both ways", &answer, ZUNDRAFL_MARKED_TWICE);
    printf("records, layouts, rows and outputs that cannot be written: %d failures\n", failures);
    return failures != 0;
}
