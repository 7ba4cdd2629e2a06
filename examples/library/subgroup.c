/* From two permutations to a symbol, its figures, generators and coset tables, words, and the sides of its polygon.
 *
 *     tools/prove staticlib engine
 *     cc -I include examples/library/subgroup.c target/staticlib/libengine.a -o subgroup && ./subgroup
 *
 * The group has index 7, and no congruence describes it. The output is in subgroup.output. */
#include <inttypes.h>
#include <stdio.h>
#include <stdlib.h>
#include <string.h>
#include "farey.h"

static uint16_t work[FAREY_WORK];
static int64_t *table, *leftmost;
static int64_t generators[FAREY_GENERATORS];
static uint32_t widths[FAREY_COSETS], s[FAREY_COSETS], r[FAREY_COSETS], t[FAREY_COSETS];
static int16_t word[16], unsigned_word[16];
static double sides[FAREY_DRAWING], bounds[4];

/* A space of so many numbers. */
static int64_t *booked(size_t length)
{
    int64_t *space = calloc(length, sizeof *space);
    if (space == NULL) {
        printf("no memory\n");
        exit(1);
    }
    return space;
}

/* Ends the program where a call is refused. */
static void expect(uint64_t number, const size_t *place)
{
    if (number != 0) {
        printf("refused %" PRIu64 " %zu\n", number, *place);
        exit(1);
    }
}

static void line(const char *name, const uint32_t *numbers, size_t count)
{
    printf("%s", name);
    for (size_t i = 0; i < count; i++)
        printf(" %" PRIu32, numbers[i]);
    printf("\n");
}

/* The word that carries A to B, with the sign that tells whether it gives B or -B; or that there is none. The call without the sign gives the
 * same word. */
static void ask(size_t v, const int64_t *a, const int64_t *b)
{
    size_t place, letters;
    int64_t sign;
    uint64_t number = farey_signed_query(v, table, 3 * v + 1, a, b, work, FAREY_WORK, word, 16, 0, &sign, &place);
    if (number == 10) {
        printf("none\n");
        return;
    }
    expect(number, &place);
    expect(farey_query(v, table, 3 * v + 1, a, b, work, FAREY_WORK, unsigned_word, 16, 0, &letters), &letters);
    if (letters != place || memcmp(word, unsigned_word, sizeof word) != 0) {
        printf("two words\n");
        exit(1);
    }
    printf("word %c", sign == 1 ? '+' : '-');
    for (size_t i = 0; i < place; i++)
        printf(" %d", word[i]);
    printf("\n");
}

int main(void)
{
    static const uint32_t given_s[7] = {1, 0, 4, 6, 2, 5, 3};
    static const uint32_t given_r[7] = {2, 3, 5, 6, 4, 0, 1};
    static const char *kinds[] = {"", "free", "even", "odd"};
    size_t v, length, count, place;
    uint64_t figures[8];

    if (farey_version() != FAREY_VERSION) {
        printf("the library and the header are of two versions\n");
        return 1;
    }
    /* Each rule of import makes a symbol with a table of this length. */
    expect(farey_import_length(given_s, 7, given_r, 7, &length), &length);
    printf("length %zu\n", length);
    table = booked(length);
    leftmost = booked(length);

    expect(farey_import_wide(given_s, 7, given_r, 7, work, FAREY_WORK, table, length, &v), &v);
    printf("symbol");
    for (size_t i = 0; i < length; i++)
        printf(" %" PRId64, table[i]);
    printf("\n");
    expect(farey_check(v, table, length, &place), &place);

    expect(farey_figures(v, table, length, work, FAREY_WORK, figures, &place), &place);
    printf("index %" PRIu64 "\n", figures[0]);
    expect(farey_widths(v, table, length, work, FAREY_WORK, widths, FAREY_COSETS, &count), &count);
    line("widths", widths, count);

    expect(farey_generators(v, table, length, work, FAREY_WORK, generators, FAREY_GENERATORS, &count), &count);
    for (size_t i = 0; i < count; i++) {
        const int64_t *g = generators + 5 * i;
        printf("%zu %s %" PRId64 " %" PRId64 " %" PRId64 " %" PRId64 "\n", i + 1, kinds[g[0]], g[1], g[2], g[3], g[4]);
    }

    expect(farey_tables(v, table, length, work, FAREY_WORK, s, FAREY_COSETS, r, FAREY_COSETS, t, FAREY_COSETS, &count), &count);
    line("S", s, count);
    line("R", r, count);
    line("T", t, count);
    expect(farey_cusps(v, table, length, work, FAREY_WORK, s, FAREY_COSETS, r, FAREY_COSETS, &count), &count);
    line("cusps", s, count);
    line("steps", r, count);

    static const int64_t one[4] = {1, 0, 0, 1};
    static const int64_t six[4] = {1, 6, 0, 1};
    static const int64_t other[4] = {-17, -12, -24, -17};
    ask(v, one, six);
    ask(v, one, other);

    /* The same two as a sheet, and a matrix of determinant 2. */
    static const int64_t pairs[24] = {1, 0, 0, 1, 1, 6, 0, 1, 1, 0, 0, 1, -17, -12, -24, -17, 1, 0, 0, 1, 2, 0, 0, 1};
    static int64_t lines[FAREY_SHEET_LINES];
    static int16_t letters[100];
    expect(farey_sheet(v, table, length, pairs, 24, work, FAREY_WORK, lines, FAREY_SHEET_LINES, letters, 100, &count), &count);
    for (size_t i = 0; i < count; i++) {
        const int64_t *answer = lines + 4 * i;
        if (answer[0] != 0) {
            printf("refused %" PRId64 " %" PRId64 "\n", answer[0], answer[1]);
            continue;
        }
        printf("word %c", answer[3] == 1 ? '+' : '-');
        for (int64_t j = 0; j < answer[2]; j++)
            printf(" %d", letters[answer[1] + j]);
        printf("\n");
    }

    /* The same pairs, yes or no without a word; and one of them by itself. */
    expect(farey_same_cosets(v, table, length, pairs, 24, work, FAREY_WORK, lines, FAREY_SHEET_LINES, &count), &count);
    for (size_t i = 0; i < count; i++) {
        const int64_t *answer = lines + 2 * i;
        if (answer[0] != 0)
            printf("refused %" PRId64 " %" PRId64 "\n", answer[0], answer[1]);
        else
            printf("coset %s\n", answer[1] == 1 ? "yes" : "no");
    }
    expect(farey_same_coset(v, table, length, one, six, work, FAREY_WORK, &count), &count);
    printf("coset %s\n", count == 1 ? "yes" : "no");

    /* One matrix, with entries up to 10^18: whether it is in the group, its word, and the length of one without room. */
    static const int64_t far[4] = {1, 600000000000000000, 0, 1};
    int64_t sign;
    expect(farey_contains_matrix(v, table, length, six, work, FAREY_WORK, &count), &count);
    printf("matrix %s\n", count == 1 ? "yes" : "no");
    expect(farey_signed_matrix_word(v, table, length, one, work, FAREY_WORK, word, 16, 0, &sign, &place), &place);
    printf("matrix %zu %" PRId64 "\n", place, sign);
    uint64_t number = farey_matrix_word(v, table, length, far, work, FAREY_WORK, word, 16, 0, &place);
    printf("matrix refused %" PRIu64 " %zu\n", number, place);

    /* The same symbol with another label. */
    static const int64_t relabelled[10] = {-1, 1, 0, 1, 1, 1, -2, -3, 4, 4};
    expect(farey_same(v, table, length, 3, relabelled, 10, work, FAREY_WORK, &place), &place);
    printf("same %s\n", place == 1 ? "yes" : "no");

    /* The rule that splits the leftmost open side: whichever symbol it finds, it is one of the same subgroup. */
    expect(farey_import(given_s, 7, given_r, 7, work, FAREY_WORK, leftmost, length, &count), &count);
    expect(farey_same(v, table, length, count, leftmost, length, work, FAREY_WORK, &place), &place);
    printf("same from the left %s\n", place == 1 ? "yes" : "no");

    /* The sides for a drawing, and the box that holds them. */
    expect(farey_drawing(v, table, length, sides, FAREY_DRAWING, bounds, &count), &count);
    for (size_t i = 0; i < count; i++) {
        const double *side = sides + 4 * i;
        const char *kind = kinds[(int)side[3]];
        if (side[0] == 0)
            printf("line %.3f %s\n", side[1], kind);
        else
            printf("arc %.3f %.3f %s\n", side[1], side[2], kind);
    }
    printf("box %.3f %.3f %.3f %.3f\n", bounds[0], bounds[1], bounds[2], bounds[3]);
    free(table);
    free(leftmost);
    return 0;
}
