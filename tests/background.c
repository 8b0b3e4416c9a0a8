/* A published base relative to a background: example 11 of document 004, held as an interview through the C calls.
 *
 * The interpretation: w has the r-successor x; x is in A and has z; y is in C and has z; z is in B and C. The document's printed table
 * of the induced rows is damaged, so the rows are worked out here from the descriptions that it lists above the table: an object has
 * "r.X" if one of its successors lies in the extension of X's description, and those extensions are the sets EXTENSION below. The
 * background is every {E} -> {F} with E below F, and {A} -> {r.wxyz}. The nine rules are those that the document prints.
 */
#include "zundrafl.h"
#include <stdio.h>

enum { BOTTOM, A, B, C, R_W, R_X, R_Y, R_Z, R_XY, R_YZ, R_WXY, R_WXYZ, ATTRIBUTES };
enum { W = 1, X = 2, Y = 4, Z = 8, OBJECTS = 4, RULES = 9 };

static const int EXTENSION[ATTRIBUTES] = {0, X, Z, Y | Z, W, X, Y, Z, X | Y, Y | Z, W | X | Y, W | X | Y | Z};
static const int SUCCESSORS[OBJECTS] = {X, Z, Z, 0};

#define SET(i) (UINT64_C(1) << (i))
#define ALL (SET(ATTRIBUTES) - 1)

/* as printed; the conclusion {BOTTOM} stands for all attributes, since the background has {BOTTOM} -> {F} for every F */
static const uint64_t PUBLISHED[RULES][2] = {
    {SET(B), SET(C)},
    {SET(A) | SET(R_WXYZ), SET(R_Z) | SET(R_YZ)},
    {SET(C) | SET(R_WXYZ), SET(R_Z) | SET(R_YZ)},
    {SET(R_YZ) | SET(R_WXYZ), SET(R_Z)},
    {SET(R_WXY) | SET(R_WXYZ), SET(R_X) | SET(R_XY)},
    {SET(A) | SET(C) | SET(R_Z) | SET(R_YZ) | SET(R_WXYZ), SET(BOTTOM)},
    {SET(B) | SET(C) | SET(R_Z) | SET(R_YZ) | SET(R_WXYZ), SET(BOTTOM)},
    {SET(R_W) | SET(R_X) | SET(R_XY) | SET(R_WXY) | SET(R_WXYZ), SET(BOTTOM)},
    {SET(R_X) | SET(R_Z) | SET(R_XY) | SET(R_YZ) | SET(R_WXY) | SET(R_WXYZ), SET(BOTTOM)},
};

static uint64_t row_of(int object)
{
    uint64_t row = 0;
    for (int i = A; i < ATTRIBUTES; i++)
        if (i < R_W ? EXTENSION[i] >> object & 1 : (EXTENSION[i] & SUCCESSORS[object]) != 0)
            row |= SET(i);
    return row;
}

/* BOTTOM is below everything; r.X is below r.Y where X's extension lies in Y's; the three names are below themselves alone */
static int below(int e, int f)
{
    return e == BOTTOM || (e >= R_W && f >= R_W && (EXTENSION[e] & ~EXTENSION[f]) == 0);
}

int main(void)
{
    uint64_t background[2 * ZUNDRAFL_MOST_RULES], rows[2 * OBJECTS], list[2 * ZUNDRAFL_MOST_RULES];
    size_t words = 0, found = 0;
    zundrafl_session session = {0, 0, 0, 0};
    zundrafl_answer answer;
    for (int e = 0; e < ATTRIBUTES; e++)
        for (int f = 0; f < ATTRIBUTES; f++)
            if (e != f && below(e, f)) {
                background[words++] = SET(e);
                background[words++] = SET(f);
            }
    background[words++] = SET(A);
    background[words++] = SET(R_WXYZ);
    zundrafl_open_session(&session, ATTRIBUTES, 0, rows, 2 * OBJECTS, list, 2 * ZUNDRAFL_MOST_RULES, background, words, &answer);
    while (answer.code < 100 ? 0 : answer.code != ZUNDRAFL_FINISHED) {
        zundrafl_step(&session, rows, 2 * OBJECTS, list, 2 * ZUNDRAFL_MOST_RULES, background, words, &answer);
        if (answer.code != ZUNDRAFL_ASKED)
            continue;
        int refuting = 0;
        while (refuting < OBJECTS && ((answer.first & ~row_of(refuting)) != 0 || (answer.second & ~row_of(refuting)) == 0))
            refuting++;
        if (refuting < OBJECTS)
            zundrafl_reject(&session, rows, 2 * OBJECTS, list, 2 * ZUNDRAFL_MOST_RULES, background, words, row_of(refuting),
                            ALL & ~row_of(refuting), &answer);
        else
            zundrafl_accept(&session, rows, 2 * OBJECTS, list, 2 * ZUNDRAFL_MOST_RULES, background, words, &answer);
    }
    if (answer.code != ZUNDRAFL_FINISHED) {
        printf("refused with %llu at %llu\n", (unsigned long long)answer.code, (unsigned long long)answer.first);
        return 1;
    }
    for (size_t k = 0; k < RULES; k++) {
        uint64_t conclusion = PUBLISHED[k][1] == SET(BOTTOM) ? ALL & ~PUBLISHED[k][0] : PUBLISHED[k][1];
        for (size_t i = 0; i < session.rules; i++)
            found += list[2 * i] == PUBLISHED[k][0] && list[2 * i + 1] == conclusion;
    }
    printf("example 11 of document 004: %zu rules, %zu of the nine published\n", session.rules, found);
    return session.rules != RULES || found != RULES;
}
