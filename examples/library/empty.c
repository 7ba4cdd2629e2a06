/* NULL for every space of length 0, which is what a C program has there: each call answers as the header says, and touches nothing.
 *
 *     tools/prove staticlib engine
 *     cc -I include examples/library/empty.c target/staticlib/libengine.a -o empty && ./empty
 *
 * The group is Γ0(2), and Γ(2) where two labels are needed. What is expected stands in empty.output: the number of each answer, and its place or count. */
#include <inttypes.h>
#include <stdio.h>
#include "farey.h"

static uint16_t work[FAREY_WORK];

static void say(const char *call, uint64_t number, size_t place)
{
    printf("%s: %" PRIu64 " %zu\n", call, number, place);
}

/* With what stands at the sign. */
static void say_signed(const char *call, uint64_t number, size_t place, int64_t sign)
{
    printf("%s: %" PRIu64 " %zu, sign %" PRId64 "\n", call, number, place, sign);
}

int main(void)
{
    static const int64_t t[7] = {0, 1, 1, 1, 1, -2, 1}, g[10] = {0, 1, 1, 1, 2, 1, 1, 2, 2, 1};
    static const uint32_t s[3] = {1, 0, 2}, r[3] = {2, 0, 1};
    static const int64_t tower[6] = {-1, 1, 0, 1, -2, -3};
    static const uint8_t text[] = "3 (1,2) (1,3,2)";
    static const int64_t pair[8] = {1, 0, 0, 1, 1, 0, 2, 1};
    static const int64_t one[4] = {1, 0, 0, 1}, lower[4] = {1, 0, 2, 1}, minus[4] = {-1, 0, 0, -1};
    int64_t generators[10], table[7], line[4], sign = 77;
    uint32_t columns[3][3];
    uint64_t figures[8];
    double bounds[4];
    size_t place = 99;
    uint64_t number;

    /* No table: v is out of range, or the length isn't 3v + 1. */
    number = farey_check(0, NULL, 0, &place);
    say("check of nothing", number, place);
    number = farey_check(2, NULL, 0, &place);
    say("check without a table", number, place);
    number = farey_same(2, t, 7, 2, NULL, 0, work, FAREY_WORK, &place);
    say("same without a second table", number, place);
    number = farey_contains(2, t, 7, 2, NULL, 0, work, FAREY_WORK, &place);
    say("contains without a second table", number, place);
    number = farey_tower(1, NULL, 0, work, FAREY_WORK, &place);
    say("tower without a table", number, place);
    number = farey_exchange(3, NULL, 0, 1, 2, table, 7, &place);
    say("exchange without a table", number, place);
    number = farey_import(NULL, 0, NULL, 0, work, FAREY_WORK, table, 7, &place);
    say("import of nothing", number, place);
    number = farey_import_wide(NULL, 0, NULL, 0, work, FAREY_WORK, table, 7, &place);
    say("wide import of nothing", number, place);
    number = farey_import_length(NULL, 0, NULL, 0, &place);
    say("length of an import of nothing", number, place);
    number = farey_read_cycles(NULL, 0, NULL, 0, NULL, 0, &place);
    say("cycles of an empty text", number, place);
    number = farey_write_cycles(NULL, 0, NULL, 0, NULL, 0, &place);
    say("cycles of nothing", number, place);

    /* No work space. */
    number = farey_generators(2, t, 7, NULL, 0, generators, 10, &place);
    say("generators without work", number, place);
    number = farey_figures(2, t, 7, NULL, 0, figures, &place);
    say("figures without work", number, place);
    number = farey_widths(2, t, 7, NULL, 0, columns[0], 3, &place);
    say("widths without work", number, place);
    number = farey_tables(2, t, 7, NULL, 0, columns[0], 3, columns[1], 3, columns[2], 3, &place);
    say("tables without work", number, place);
    number = farey_cusps(2, t, 7, NULL, 0, columns[0], 3, columns[1], 3, &place);
    say("cusps without work", number, place);
    number = farey_import(s, 3, r, 3, NULL, 0, table, 7, &place);
    say("import without work", number, place);
    number = farey_import_wide(s, 3, r, 3, NULL, 0, table, 7, &place);
    say("wide import without work", number, place);
    number = farey_query(2, t, 7, one, one, NULL, 0, NULL, 0, 0, &place);
    say("query without work", number, place);
    number = farey_sheet(2, t, 7, NULL, 0, NULL, 0, NULL, 0, NULL, 0, &place);
    say("sheet without work", number, place);
    number = farey_preview(3, g, 10, 1, 2, NULL, 0, NULL, 0, figures, &place);
    say("preview without work", number, place);
    number = farey_same_coset(2, t, 7, one, one, NULL, 0, &place);
    say("same coset without work", number, place);
    number = farey_same_cosets(2, t, 7, NULL, 0, NULL, 0, NULL, 0, &place);
    say("same cosets without work", number, place);
    number = farey_matrix_word(2, t, 7, one, NULL, 0, NULL, 0, 0, &place);
    say("matrix word without work", number, place);
    number = farey_contains_matrix(2, t, 7, one, NULL, 0, &place);
    say("contains matrix without work", number, place);
    number = farey_same(2, t, 7, 2, t, 7, NULL, 0, &place);
    say("same without work", number, place);
    number = farey_contains(2, t, 7, 3, g, 10, NULL, 0, &place);
    say("contains without work", number, place);
    number = farey_intersection(2, t, 7, 3, g, 10, NULL, 0, NULL, 0, NULL, 0, NULL, 0, &place);
    say("intersection without work", number, place);
    number = farey_tower(1, tower, 6, NULL, 0, &place);
    say("tower without work", number, place);
    number = farey_named_tables(FAREY_GAMMA0, 2, NULL, 0, NULL, 0, NULL, 0, &place);
    say("named tables without work", number, place);
    number = farey_named_symbol(FAREY_GAMMA0, 2, NULL, 0, NULL, 0, &place);
    say("named symbol without work", number, place);
    number = farey_named_symbol_wide(FAREY_GAMMA0, 2, NULL, 0, NULL, 0, &place);
    say("wide named symbol without work", number, place);
    number = farey_named_query(FAREY_GAMMA0, 2, one, one, NULL, 0, NULL, 0, 0, &place);
    say("named query without work", number, place);
    number = farey_named_query_wide(FAREY_GAMMA0, 2, one, one, NULL, 0, NULL, 0, 0, &place);
    say("wide named query without work", number, place);
    number = farey_signed_query(2, t, 7, one, one, NULL, 0, NULL, 0, 0, &sign, &place);
    say_signed("signed query without work", number, place, sign);
    number = farey_named_signed_query(FAREY_GAMMA0, 2, one, one, NULL, 0, NULL, 0, 0, &sign, &place);
    say_signed("named signed query without work", number, place, sign);
    number = farey_named_signed_query_wide(FAREY_GAMMA0, 2, one, one, NULL, 0, NULL, 0, 0, &sign, &place);
    say_signed("wide named signed query without work", number, place, sign);

    /* No result space: the length that is needed. */
    number = farey_generators(2, t, 7, work, FAREY_WORK, NULL, 0, &place);
    say("generators without room", number, place);
    number = farey_exchange(3, g, 10, 1, 2, NULL, 0, &place);
    say("exchange without room", number, place);
    number = farey_preview(3, g, 10, 1, 2, work, FAREY_WORK, NULL, 0, figures, &place);
    say("preview without room", number, place);
    number = farey_drawing(2, t, 7, NULL, 0, bounds, &place);
    say("drawing without room", number, place);
    number = farey_widths(2, t, 7, work, FAREY_WORK, NULL, 0, &place);
    say("widths without room", number, place);
    number = farey_tables(2, t, 7, work, FAREY_WORK, NULL, 0, NULL, 0, NULL, 0, &place);
    say("tables without room", number, place);
    number = farey_cusps(2, t, 7, work, FAREY_WORK, NULL, 0, columns[1], 3, &place);
    say("cusps without room for cusps", number, place);
    number = farey_intersection(2, t, 7, 3, g, 10, work, FAREY_WORK, NULL, 0, NULL, 0, NULL, 0, &place);
    say("intersection without room", number, place);
    number = farey_cusps(2, t, 7, work, FAREY_WORK, columns[0], 3, NULL, 0, &place);
    say("cusps without room for steps", number, place);
    number = farey_import(s, 3, r, 3, work, FAREY_WORK, NULL, 0, &place);
    say("import without room", number, place);
    number = farey_import_wide(s, 3, r, 3, work, FAREY_WORK, NULL, 0, &place);
    say("wide import without room", number, place);
    number = farey_read_cycles(text, 15, NULL, 0, columns[1], 3, &place);
    say("cycles without room for S", number, place);
    number = farey_read_cycles(text, 15, columns[0], 3, NULL, 0, &place);
    say("cycles without room for R", number, place);
    number = farey_write_cycles(s, 3, r, 3, NULL, 0, &place);
    say("cycles without room for the text", number, place);
    number = farey_query(2, t, 7, one, lower, work, FAREY_WORK, NULL, 0, 0, &place);
    say("query without room", number, place);
    number = farey_sheet(2, t, 7, pair, 8, work, FAREY_WORK, NULL, 0, NULL, 0, &place);
    say("sheet without room for its line", number, place);
    number = farey_same_cosets(2, t, 7, pair, 8, work, FAREY_WORK, NULL, 0, &place);
    say("same cosets without room for a line", number, place);
    number = farey_named_tables(FAREY_GAMMA0, 2, work, FAREY_WORK, NULL, 0, columns[1], 3, &place);
    say("named tables without room for S", number, place);
    number = farey_named_tables(FAREY_GAMMA0, 2, work, FAREY_WORK, columns[0], 3, NULL, 0, &place);
    say("named tables without room for R", number, place);
    number = farey_named_symbol(FAREY_GAMMA0, 2, work, FAREY_WORK, NULL, 0, &place);
    say("named symbol without room", number, place);
    number = farey_named_symbol_wide(FAREY_GAMMA0, 2, work, FAREY_WORK, NULL, 0, &place);
    say("wide named symbol without room", number, place);
    number = farey_named_query(FAREY_GAMMA0, 2, one, lower, work, FAREY_WORK, NULL, 0, 0, &place);
    say("named query without room", number, place);
    number = farey_named_query_wide(FAREY_GAMMA0, 2, one, lower, work, FAREY_WORK, NULL, 0, 0, &place);
    say("wide named query without room", number, place);
    number = farey_signed_query(2, t, 7, one, lower, work, FAREY_WORK, NULL, 0, 0, &sign, &place);
    say_signed("signed query without room", number, place, sign);
    number = farey_named_signed_query(FAREY_GAMMA0, 2, one, lower, work, FAREY_WORK, NULL, 0, 0, &sign, &place);
    say_signed("named signed query without room", number, place, sign);
    number = farey_named_signed_query_wide(FAREY_GAMMA0, 2, one, lower, work, FAREY_WORK, NULL, 0, 0, &sign, &place);
    say_signed("wide named signed query without room", number, place, sign);

    /* An empty tower passes, with nothing at all. */
    number = farey_tower(0, NULL, 0, NULL, 0, &place);
    say("tower of nothing", number, place);

    /* A sheet without pairs, and one whose word has no room: that is told in its line. */
    number = farey_sheet(2, t, 7, NULL, 0, work, FAREY_WORK, NULL, 0, NULL, 0, &place);
    say("sheet of nothing", number, place);
    number = farey_same_cosets(2, t, 7, NULL, 0, work, FAREY_WORK, NULL, 0, &place);
    say("same cosets of nothing", number, place);
    number = farey_sheet(2, t, 7, pair, 8, work, FAREY_WORK, line, 4, NULL, 0, &place);
    say("sheet without room for its word", number, place);
    printf("its line: %" PRId64 " %" PRId64 " %" PRId64 " %" PRId64 "\n", line[0], line[1], line[2], line[3]);

    /* The empty word needs none, from the place 0 on. */
    number = farey_query(2, t, 7, one, one, work, FAREY_WORK, NULL, 0, 0, &place);
    say("empty word", number, place);
    number = farey_query(2, t, 7, one, one, work, FAREY_WORK, NULL, 0, 1, &place);
    say("empty word past the end", number, place);
    number = farey_named_query(FAREY_GAMMA0, 2, one, one, work, FAREY_WORK, NULL, 0, 0, &place);
    say("empty word by name", number, place);
    number = farey_named_query_wide(FAREY_GAMMA0, 2, one, one, work, FAREY_WORK, NULL, 0, 1, &place);
    say("empty word by name past the end", number, place);
    number = farey_signed_query(2, t, 7, one, one, work, FAREY_WORK, NULL, 0, 1, &sign, &place);
    say_signed("signed empty word past the end", number, place, sign);
    number = farey_signed_query(2, t, 7, one, one, work, FAREY_WORK, NULL, 0, 0, &sign, &place);
    say_signed("signed empty word", number, place, sign);
    number = farey_signed_query(2, t, 7, one, minus, work, FAREY_WORK, NULL, 0, 0, &sign, &place);
    say_signed("signed empty word to -1", number, place, sign);
    number = farey_named_signed_query(FAREY_GAMMA0, 2, minus, minus, work, FAREY_WORK, NULL, 0, 0, &sign, &place);
    say_signed("signed empty word by name", number, place, sign);
    number = farey_named_signed_query_wide(FAREY_GAMMA0, 2, minus, one, work, FAREY_WORK, NULL, 0, 0, &sign, &place);
    say_signed("wide signed empty word by name from -1", number, place, sign);
    return 0;
}
