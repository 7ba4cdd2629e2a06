/* Permutations in cycle notation, as other algebra systems keep them: read, made into a symbol, and written.
 *
 *     tools/prove staticlib engine
 *     cc -I include examples/library/cycles.c target/staticlib/libengine.a -o cycles && ./cycles
 *
 * What is expected stands in cycles.output, worked out by hand: (1,2) and (1,3,2) are S and R of Γ0(2), whose symbol is 0/1, 1/1 with the pairings
 * 1 -2 1. Points are counted from 1 in a text and from 0 in a table. */
#include <inttypes.h>
#include <stdio.h>
#include <string.h>
#include "farey.h"

static uint16_t work[FAREY_WORK];
static uint32_t s[FAREY_NAMED], r[FAREY_NAMED];
static uint8_t out[FAREY_CYCLES];
static int64_t table[FAREY_TABLE];

static void show(const char *name, const uint32_t *images, size_t index)
{
    printf("%s", name);
    for (size_t i = 0; i < index; i++)
        printf(" %" PRIu32, images[i]);
    printf("\n");
}

/* What a text is read as. */
static void read_text(const char *text)
{
    size_t place;
    uint64_t number = farey_read_cycles((const uint8_t *)text, strlen(text), s, FAREY_NAMED, r, FAREY_NAMED, &place);

    printf("'%s': %" PRIu64 " %zu\n", text, number, place);
    if (number == 0) {
        show("  S", s, place);
        show("  R", r, place);
    }
}

int main(void)
{
    size_t index, length, v, place;
    uint64_t number;

    /* Three texts of one pair, and both identities. */
    read_text("3 (1,2) (1,3,2)");
    read_text("3 (1,2);(1,3,2)");
    read_text("  03 (3)(2,1) ; (3,2,1)");
    read_text("1;");

    /* Places: a repeated point, a comma when every point is named, a text that stops short, a line end, an index that is none, a point not reached. */
    read_text("3 (1,2) (1,3,3)");
    read_text("2 (1,2,");
    read_text("3 (1,2)");
    number = farey_read_cycles((const uint8_t *)"1;\n", 3, s, FAREY_NAMED, r, FAREY_NAMED, &place);
    printf("with a line end: %" PRIu64 " %zu\n", number, place);
    read_text("3067 x");
    read_text("3 (1,2);");

    /* To a symbol, and back to a text. */
    if (farey_read_cycles((const uint8_t *)"3 (1,2) (1,3,2)", 15, s, FAREY_NAMED, r, FAREY_NAMED, &index) != 0)
        return 1;
    if (farey_import_wide(s, index, r, index, work, FAREY_WORK, table, FAREY_TABLE, &v) != 0)
        return 1;
    printf("symbol");
    for (size_t i = 0; i < 3 * v + 1; i++)
        printf(" %" PRId64, table[i]);
    printf("\n");
    if (farey_write_cycles(s, index, r, index, out, FAREY_CYCLES, &length) != 0)
        return 1;
    printf("%.*s, %zu bytes\n", (int)length, (const char *)out, length);
    number = farey_write_cycles(s, index, r, index, out, length - 1, &place);
    printf("in less: %" PRIu64 " %zu\n", number, place);
    return 0;
}
