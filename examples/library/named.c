/* Groups by name: Γ0(11), its tables, its symbol and words, and what is refused: every call by name, from C.
 *
 *     tools/prove staticlib engine
 *     cc -I include examples/library/named.c target/staticlib/libengine.a -o named && ./named
 *
 * The output is in named.output. */
#include <inttypes.h>
#include <stdio.h>
#include "farey.h"

static uint16_t work[FAREY_WORK];
static uint32_t s[FAREY_NAMED], r[FAREY_NAMED];
static int64_t table[FAREY_TABLE];
static int16_t word[16];

/* What is counted, or a refusal. */
static size_t counted(const char *name, uint64_t number, size_t place)
{
    if (number != 0) {
        printf("%s refused %" PRIu64 " %zu\n", name, number, place);
        return 0;
    }
    printf("%s", name);
    return place;
}

static void points(const char *name, const uint32_t *numbers, size_t count)
{
    printf("%s", name);
    for (size_t i = 0; i < count; i++)
        printf(" %" PRIu32, numbers[i]);
    printf("\n");
}

static void symbol(const char *name, uint64_t number, size_t place)
{
    size_t v = counted(name, number, place);
    for (size_t i = 0; v != 0 && i < 3 * v + 1; i++)
        printf(" %" PRId64 "%s", table[i], i == 3 * v ? "\n" : "");
}

static void letters(const char *name, uint64_t number, size_t place)
{
    size_t count = counted(name, number, place);
    for (size_t i = 0; i < count; i++)
        printf(" %d", word[i]);
    if (number == 0)
        printf("\n");
}

/* The same with the word's sign before the letters. */
static void signed_letters(const char *name, uint64_t number, int64_t sign, size_t place)
{
    size_t count = counted(name, number, place);
    if (number == 0)
        printf(" %c", sign == 1 ? '+' : '-');
    for (size_t i = 0; i < count; i++)
        printf(" %d", word[i]);
    if (number == 0)
        printf("\n");
}

int main(void)
{
    static const int64_t one[4] = {1, 0, 0, 1}, lower[4] = {1, 0, 11, 1}, turn[4] = {0, -1, 1, 0}, negative[4] = {-1, 0, -11, -1};
    int64_t sign = 0;
    size_t place;
    uint64_t number;

    number = farey_named_tables(FAREY_GAMMA0, 11, work, FAREY_WORK, s, FAREY_NAMED, r, FAREY_NAMED, &place);
    if (number == 0) {
        points("S", s, place);
        points("R", r, place);
    }
    number = farey_named_symbol(FAREY_GAMMA0, 11, work, FAREY_WORK, table, FAREY_TABLE, &place);
    symbol("symbol", number, place);
    number = farey_named_symbol_wide(FAREY_GAMMA0, 11, work, FAREY_WORK, table, FAREY_TABLE, &place);
    symbol("wide", number, place);

    /* Each word is in the generators of its own symbol. */
    number = farey_named_query(FAREY_GAMMA0, 11, one, lower, work, FAREY_WORK, word, 16, 0, &place);
    letters("word", number, place);
    number = farey_named_query_wide(FAREY_GAMMA0, 11, one, lower, work, FAREY_WORK, word, 16, 0, &place);
    letters("wide word", number, place);
    /* With the sign: the word's product is (1 0; 11 1) or its negative. */
    number = farey_named_signed_query(FAREY_GAMMA0, 11, one, lower, work, FAREY_WORK, word, 16, 0, &sign, &place);
    signed_letters("signed word", number, sign, place);
    number = farey_named_signed_query_wide(FAREY_GAMMA0, 11, one, negative, work, FAREY_WORK, word, 16, 0, &sign, &place);
    signed_letters("wide signed word to the negative", number, sign, place);
    number = farey_named_query(FAREY_GAMMA0, 11, one, turn, work, FAREY_WORK, word, 16, 0, &place);
    letters("no word", number, place);
    number = farey_named_query_wide(FAREY_GAMMA1, 11, one, lower, work, FAREY_WORK, word, 1, 0, &place);
    letters("a word of Γ1(11) without room", number, place);

    number = farey_named_symbol(FAREY_GAMMA0, 120, work, FAREY_WORK, table, FAREY_TABLE, &place);
    symbol("Γ0(120)", number, place);
    number = farey_named_symbol(FAREY_GAMMA0, 1001, work, FAREY_WORK, table, FAREY_TABLE, &place);
    symbol("Γ0(1001)", number, place);
    number = farey_named_symbol(3, 11, work, FAREY_WORK, table, FAREY_TABLE, &place);
    symbol("another family", number, place);
    number = farey_named_symbol_wide(FAREY_GAMMA, 19, work, FAREY_WORK, table, FAREY_TABLE, &place);
    symbol("Γ(19)", number, place);
    return 0;
}
