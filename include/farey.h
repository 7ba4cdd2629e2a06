/* The Farey symbol engine: finite index subgroups of PSL2(Z) from C.
 *
 * MATRICES COUNT UP TO SIGN, as in PSL2(Z). Whoever works in SL2(Z), where B and -B are two matrices, takes
 * farey_signed_query for farey_query, farey_signed_matrix_word for farey_matrix_word, farey_named_signed_query for
 * farey_named_query and farey_named_signed_query_wide for farey_named_query_wide: the same word, with the sign that
 * tells which of the two it gives.
 *
 * Link with libengine.a, or with libfarey.so (./farey library), on x86-64 Linux. The code of every function below is
 * proved to answer and to leave what its comment says, though not how often it does something on the way, and is then
 * compiled (docs/ASSUMPTIONS.md says what is assumed there), for every input that keeps these rules of C's side, which
 * nothing can check:
 *   - a pointer with a length points to that many numbers of its type, aligned; where the length is 0 it may be
 *     anything, NULL too; the other pointers point to what their comment says, and none of them is NULL;
 *   - no two spaces that are lent for writing overlap, and none overlaps what is lent for reading;
 *   - nobody else writes to any of them during the call;
 *   - FAREY_STACK bytes of stack are free at the call.
 * There is no state between calls. A function allocates nothing, reads and writes no other memory, and always returns.
 *
 * THREADS AND PROCESSES. Calls may be made at the same time, by threads that lend each call spaces of its own to write
 * in, by many processes, and by the jobs of a cluster; and pairs in any number may be split into sheets (farey_sheet)
 * that are answered wherever there is room, in any order. Nothing is shared between calls, which is why that is safe:
 * each answer is what it would be alone. What is lent for reading may be lent to several calls at once.
 *
 * THE SYMBOL is lent as v and a table t of t_len numbers: for each of the v finite vertices its numerator and its
 * denominator, from left to right, then the v + 1 pairings, 3v + 1 numbers in all. A pairing is -2 (even), -3 (odd) or
 * a free label from 1 to v + 1 that stands on exactly two sides.
 *
 * THE ANSWER of each function but farey_version is 0, or the number of a refusal. Through `place` it writes the place
 * of the refusal, or where it returns 0 a count, as said at each. Where it refuses, the result spaces are as they were.
 * Where it returns 0, it has written the part that its comment names, and all else there is as it was.
 *
 * THE WORK SPACE has at least FAREY_WORK numbers; what stands in it at the call is free. It is all zero after a call
 * that got past its length check, and as it was after any other.
 *
 * DOUBLES are IEEE 754's binary64. The floating-point mode is C's default, rounding to nearest, ties to even:
 * farey_drawing promises what it does in that mode alone. No other function uses one.
 *
 * REFUSALS, with P for the place, which is 0 where there is no P; all is counted from 0, and the first fault counts:
 *    1  the number of vertices isn't from 1 to 1,023.
 *    2  the table has P numbers, which isn't 3v + 1.
 *    3  vertex entry P is out of range: a numerator over 10^9 in size, or a denominator that isn't from 1 to 10^9.
 *    4  side P has ends a/b and a'/b' without a'b - ab' = 1.
 *    5  no vertex is 0/1.
 *    6  the pairing of side P isn't allowed, or its label isn't on exactly two sides.
 *    7  there is one vertex and no odd side.
 *    8  matrix entry P is over 1,000,000 in size; 0 to 3 are those of A, 4 to 7 those of B.
 *    9  the determinant of matrix P isn't 1; 0 is A, 1 is B.
 *   10  there is no word: no product of generators and inverses takes A to B.
 *   11  a space is too short: it needs P, for a drawing in sides, for a line table in lines, each of four numbers in a
 *       sheet; or the entries of a sheet are no pairs of eight, or more than 2,048; or a tower has more than 64
 *       entries. P: the length needed; for a word, its own; for a drawing, the number of sides; for lines, the number
 *       of pairs; for the entries of a sheet 2048, of many pairs the next multiple of 8, of a tower 64.
 *   12  the index isn't from 1 to 3,066, or the tables differ in length.
 *   13  entry P is no point or is equal to an earlier one; it is one of S, or of R if S has no such fault.
 *   14  S twice or R three times moves point P. P: one of S comes before one of R.
 *   15  point P isn't reached from point 0.
 *   16  side P can't be split: a vertex entry would be over 10^9 in size. P: numbered as before the split.
 *   17  the level is 2^64 or more. The other figures are given.
 *   18  the genus formula gives no whole number from 0. Never answered: it is proved that every symbol has a genus.
 *   19  at byte P the text gets too long, has a piece that is no number of 64 signed bits, has a number too many or
 *       ends too early. P: in this order 65536; where the piece begins; where the first extra number begins; the text's
 *       length. For the programs, which read numbers as text.
 *   20  N isn't from 1 to 1,000, or the family isn't Γ0, Γ1 or Γ.
 *   21  the index of this group is over 3,066.
 *   22  vertex entry P is over 33,554,432 in size, which is too large for a drawing.
 *   23  number P of the two (0 or 1) is no side's free label, or is the other one again. P: for the other one again 1.
 *   24  the intersection has more than 3,066 points.
 *   25  entry P of the tower names one that isn't listed before it.
 *   26  entry P of the tower isn't contained in the one that it names.
 *   27  at byte P the text gets too long, breaks the form of cycle notation, repeats a point, names one outside 1 to
 *       the index or ends too early. P: where the first piece begins that no ending could make right; the text's
 *       length; for a program's text that is too long 65536.
 *   28  entry P of the matrix is over 10^18 in size.
 *
 * NAMED GROUPS are given by a family and an N from 1 to 1,000. A matrix (a b; c d) is in the group where it meets,
 * modulo N, the condition of its family:
 *   FAREY_GAMMA0  Γ0(N)   c is 0
 *   FAREY_GAMMA1  Γ1(N)   c is 0, and a and d are both 1 or both -1
 *   FAREY_GAMMA   Γ(N)    the matrix is the identity or its negative
 */
#ifndef FAREY_H
#define FAREY_H

#include <stddef.h>
#include <stdint.h>

#ifdef __cplusplus
extern "C" {
#endif

/* The version: 10,000 times the major number, 100 times the minor one and the patch. */
#define FAREY_VERSION 200
#define FAREY_VERSION_TEXT "0.2.0"
/* Stack that is enough for every call, in bytes, with what it calls in turn. This is measured and not proved, on
 * x86-64: the queries of named groups, which keep two tables, a symbol and the rounds of a walk there, take under
 * 100,000, the symbols of named groups, which keep two tables and a symbol, under 65,536, farey_query,
 * farey_signed_query, farey_sheet and the three calls for one matrix, which keep the rounds of a walk, under 50,000,
 * farey_intersection, which keeps four tables, and farey_read_cycles, which keeps two with marks for their points,
 * under 40,000, farey_preview, which keeps a symbol, under 30,000, farey_same, farey_contains and farey_tower, which
 * keep one table, under 20,000, the other calls under 10,000, on the largest inputs, by a thread whose stack was
 * filled beforehand (rust/differential/tests/stack.rs, which the gate runs). A call that the dynamic linker has to
 * look up at its first use (memset) may take some thousand more, once. */
#define FAREY_STACK 131072
/* The length of the work space. */
#define FAREY_WORK 32768
/* Lengths that are enough for every symbol: of a symbol's table, of the generators, of a table of cosets (images,
 * cusps, steps) or widths. */
#define FAREY_TABLE 3070
#define FAREY_GENERATORS 5120
#define FAREY_COSETS 4090
/* Floats that are enough for the sides of every symbol, four for each side. */
#define FAREY_DRAWING 4096
/* The most that a sheet has: pairs, entries of these, and numbers of their lines. */
#define FAREY_SHEET 256
#define FAREY_SHEET_ENTRIES 2048
#define FAREY_SHEET_LINES 1024
/* A length that is enough for the table of S, and of R, of every named group, and of every text in cycle notation. */
#define FAREY_NAMED 3066
/* A length that is enough for each table of every intersection, and the most entries of a tower. */
#define FAREY_INTERSECTION 3066
#define FAREY_TOWER 64
/* A length that is enough for the text of every pair of permutations in cycle notation, in bytes: counted for 3,066
 * points in cycles of two and of three. What is proved is that 65,536 are enough. */
#define FAREY_CYCLES 31007

/* The families of named groups. */
#define FAREY_GAMMA0 0
#define FAREY_GAMMA1 1
#define FAREY_GAMMA 2

/* The version of the library that is linked or loaded; FAREY_VERSION is that of this header. It refuses nothing. */
uint64_t farey_version(void);

/* Whether t is a symbol: refusals 1 to 7 in this order. Count: 0. */
uint64_t farey_check(size_t v, const int64_t *t, size_t t_len, size_t *place);

/* The generators of the side pairings, numbered from 1 by their leftmost side. out: for each, its kind (1 free, 2 even,
 * 3 odd) and its matrix (a b; c d) as a, b, c, d, from the front. Even side with frame M: M S M^-1; odd: M Q M^-1;
 * free, with partner's frame N: N S M^-1. Refused: 1 to 7, then 11 for work, then 11 for out. Count: how many
 * generators; 5 numbers each are written. */
uint64_t farey_generators(size_t v, const int64_t *t, size_t t_len, uint16_t *work, size_t work_len, int64_t *out,
                          size_t out_len, size_t *place);

/* The figures of the subgroup H that they generate. out points to eight numbers: index; e2 and e3, the numbers of
 * points that S and R fix; cusps; then 0 and the genus, always; then 0 and the level, or 17 and 0. Refused: 1 to 7,
 * then 11 for work. Count: 0. */
uint64_t farey_figures(size_t v, const int64_t *t, size_t t_len, uint16_t *work, size_t work_len, uint64_t *out,
                       size_t *place);

/* The widths of the cusps, by the smallest coset of each, from the front of out. They add up to the index. Refused: 1
 * to 7, then 11 for work, then 11 for out. Count: how many cusps. */
uint64_t farey_widths(size_t v, const int64_t *t, size_t t_len, uint16_t *work, size_t work_len, uint32_t *out,
                      size_t out_len, size_t *place);

/* The right cosets of H, as numbers from 0, H itself first: for each coset, its image under multiplication on the right
 * by S, by R and by T, each table from the front of its space. Two matrices lead from 0 to the same number precisely
 * when they lie in the same right coset. Refused: 1 to 7, then 11 for work, then 11 for s, r, u. Count: the index,
 * which is how many entries are written to each. */
uint64_t farey_tables(size_t v, const int64_t *t, size_t t_len, uint16_t *work, size_t work_len, uint32_t *s,
                      size_t s_len, uint32_t *r, size_t r_len, uint32_t *u, size_t u_len, size_t *place);

/* The cusp of each right coset, and where it stands there: cusps has the number of its cusp, from 0, in the order of
 * farey_widths, and steps how many steps of T, the table u of farey_tables, lead to it from the cusp's smallest coset;
 * no fewer do. So T keeps the cusp and adds one step, back to 0 after the width. Refused: 1 to 7, then 11 for work,
 * then 11 for cusps, then for steps. Count: the index, which is how many entries are written to each. */
uint64_t farey_cusps(size_t v, const int64_t *t, size_t t_len, uint16_t *work, size_t work_len, uint32_t *cusps,
                     size_t cusps_len, uint32_t *steps, size_t steps_len, size_t *place);

/* A symbol from the permutations S and R: it generates precisely the matrices, up to sign, that fix point 0. out: its
 * table, from the front. It has exactly (n - e3)/3 + 1 vertices, where n is the number of points and R fixes e3 of
 * them; farey_import_length tells the length of the table beforehand. Refused: 12 to 15, then 11 for work, then 11 for
 * out, then 16. Count: v, the number of vertices; 3v + 1 numbers are written. */
uint64_t farey_import(const uint32_t *s, size_t s_len, const uint32_t *r, size_t r_len, uint16_t *work,
                      size_t work_len, int64_t *out, size_t out_len, size_t *place);

/* The same by the wide rule: of the open sides it splits the one that has been open longest, where farey_import splits
 * the leftmost. The symbol is one of the same group, often another; where the leftmost rule runs down one branch of the
 * Farey tree, its entries are mostly far smaller, so that 16 is rarer. */
uint64_t farey_import_wide(const uint32_t *s, size_t s_len, const uint32_t *r, size_t r_len, uint16_t *work,
                           size_t work_len, int64_t *out, size_t out_len, size_t *place);

/* The length of the table that farey_import and farey_import_wide write for S and R, 3v + 1: in an out of this length
 * neither is refused with 11 for out, and in any shorter one, with a work space that is long enough, both are. No
 * symbol is made, and no work space is needed; 16 may still follow. Refused: 12 to 15. Count: the length. */
uint64_t farey_import_length(const uint32_t *s, size_t s_len, const uint32_t *r, size_t r_len, size_t *place);

/* The permutations S and R from a text in CYCLE NOTATION, of any length: the index, then S and R as disjoint cycles,
 * POINTS COUNTED FROM 1, as `3 (1,2) (1,3,2)`. Numbers are digits alone, zeros in front allowed. A cycle is its points
 * between parentheses with commas between them; cycles stand in any order, and those of one point may be written. `()`
 * is the identity, and stands alone in its permutation. Blanks (byte 32) may stand before and behind the index, each
 * cycle and the semicolon, and nowhere else; a line end is no blank. S ends and R begins at a semicolon, beside which
 * no cycle at all means the identity. The semicolon may be left out where S and R are each one cycle or `()`. s and r:
 * the images of the points, COUNTED FROM 0 as everywhere else here, each table from the front of its space; point 1 of
 * the text is 0, the base. Refused: 12 for a written index that isn't from 1 to 3,066, however many digits it has,
 * before anything behind it is read; 27; 14 and 15, whose places are points from 0 (13 can't come); then 11 for s, then
 * for r. Count: the index, which is how many entries are written to each. */
uint64_t farey_read_cycles(const uint8_t *text, size_t text_len, uint32_t *s, size_t s_len, uint32_t *r, size_t r_len,
                           size_t *place);

/* The text of S and R in cycle notation, to the front of out; no byte 0 ends it. It is the index, a blank, the cycles
 * of S, a semicolon and those of R, as `3 (1,2);(1,3,2)`: each cycle begins at its smallest point, cycles stand in the
 * order of these, fixed points are left out, and an identity is `()`. farey_read_cycles reads it as S and R. Refused:
 * 12 to 15, then 11 for out. Count: the length. FAREY_CYCLES is enough for every pair. */
uint64_t farey_write_cycles(const uint32_t *s, size_t s_len, const uint32_t *r, size_t r_len, uint8_t *out,
                            size_t out_len, size_t *place);

/* A word in the generators that takes A to B, UP TO SIGN: the product of its letters from left to right, times A, is B
 * or -B, and the answer doesn't tell which; farey_signed_query does. a and b point to four numbers each. Letter j is
 * generator j, -j its inverse. The word stands in out from the place `start` on. A word is found exactly when there is
 * such a product, of whatever length; 10 says that there is none. It is the only reduced word that takes A to B, up to
 * sign, and no word that does so is shorter: a word is reduced when no generator stands beside its own inverse, an even
 * generator never follows itself and is never inverted, and no odd letter follows an equal one. Refused: 1 to 7, then
 * 8, then 9, A before B under each, then 11 for work, then 10, then 11 for out, with the word's true length. Count: how
 * many letters. */
uint64_t farey_query(size_t v, const int64_t *t, size_t t_len, const int64_t *a, const int64_t *b, uint16_t *work,
                     size_t work_len, int16_t *out, size_t out_len, size_t start, size_t *place);

/* The same word, number and count, WITH THE SIGN, for SL2(Z): where it returns 0 it writes 1 or -1 to *sign, and the
 * product of the word's letters times A is that number times B, exactly, with the generators as farey_generators gives
 * them. Whether a word exists is judged up to sign, as by farey_query: a word for B is one for -B, with the other sign.
 * Where it refuses, *sign is as it was. */
uint64_t farey_signed_query(size_t v, const int64_t *t, size_t t_len, const int64_t *a, const int64_t *b,
                            uint16_t *work, size_t work_len, int16_t *out, size_t out_len, size_t start, int64_t *sign,
                            size_t *place);

/* A sheet of pairs against one symbol, which is checked once and whose tables are built once. p has the pairs one after
 * another, eight entries each: the four of A, then the four of B. Line by line the answers are those of
 * farey_signed_query in the same word space out, for the first pair from start 0, for each next from where the last
 * word ended; a pair that is refused uses no word space. lines: for each pair four numbers, from the front: 0, the
 * word's start, its length, and 1 or -1 for its sign; or the refusal (8, 9, 10, or 11 for out, with the word's true
 * length), its place, 0 and 0. Every word still stands in out, where its line says, when the call returns. The whole
 * sheet is refused: 11 with place 2,048 for a number of entries that isn't a multiple of 8 or is over 2,048, then 1 to
 * 7, then 11 for work, then 11 for lines, which are counted in whole lines of four, with the number of pairs for the
 * place. Count: how many pairs; none is a sheet too. */
uint64_t farey_sheet(size_t v, const int64_t *t, size_t t_len, const int64_t *p, size_t p_len, uint16_t *work,
                     size_t work_len, int64_t *lines, size_t lines_len, int16_t *out, size_t out_len, size_t *place);

/* WHETHER A AND B SHARE A RIGHT COSET of the symbol's group, yes or no, without a word: yes exactly where farey_query
 * would find a word, given enough space, and no where it gives 10. A run of T costs at most one division more, however
 * long it is. a and b point to four numbers each. Refused: 1 to 7, then 8, then 9, A before B under each, then 11 for
 * work. Count: 1 for yes, 0 for no. */
uint64_t farey_same_coset(size_t v, const int64_t *t, size_t t_len, const int64_t *a, const int64_t *b, uint16_t *work,
                          size_t work_len, size_t *place);

/* The same for any number of pairs against one symbol, which is checked once and whose tables are built once. p has the
 * pairs one after another, eight entries each, as in farey_sheet. lines: for each pair two numbers, from the front: 0,
 * and 1 for yes or 0 for no; or the refusal (8 or 9) and its place. The whole call is refused: 11 for a number of
 * entries that isn't a multiple of 8, with the next one that is for the place, then 1 to 7, then 11 for work, then 11
 * for lines, which are counted in whole lines of two, with the number of pairs for the place. Count: how many pairs. */
uint64_t farey_same_cosets(size_t v, const int64_t *t, size_t t_len, const int64_t *p, size_t p_len, uint16_t *work,
                           size_t work_len, int64_t *lines, size_t lines_len, size_t *place);

/* A word in the generators that carries the identity to M, UP TO SIGN: the product of its letters is M or -M, and
 * the answer doesn't tell which; farey_signed_matrix_word does. m points to four numbers, each up to 10^18 in size.
 * The word is that of farey_query from the identity to M: it stands in out from the place `start` on, it is the only
 * reduced word for M up to sign, and none is shorter. 10 says that M isn't in the group. Its length is found without
 * its letters, which are written only where they fit: it may be over 10^18. Refused: 1 to 7, then 28, then 9 with
 * place 0, then 11 for work, then 10, then 11 for out, with the word's true length. Count: how many letters. */
uint64_t farey_matrix_word(size_t v, const int64_t *t, size_t t_len, const int64_t *m, uint16_t *work, size_t work_len,
                           int16_t *out, size_t out_len, size_t start, size_t *place);

/* The same word, number and count, WITH THE SIGN, for SL2(Z): where it returns 0 it writes 1 or -1 to *sign, and the
 * product of the word's letters is that number times M, exactly. Where it refuses, *sign is as it was. */
uint64_t farey_signed_matrix_word(size_t v, const int64_t *t, size_t t_len, const int64_t *m, uint16_t *work,
                                  size_t work_len, int16_t *out, size_t out_len, size_t start, int64_t *sign,
                                  size_t *place);

/* WHETHER M IS IN THE GROUP, up to sign, yes or no, without a word: yes exactly where farey_matrix_word would find a
 * word, given enough space, and no where it gives 10. m points to four numbers, each up to 10^18 in size. Refused: 1 to
 * 7, then 28, then 9 with place 0, then 11 for work. Count: 1 for yes, 0 for no. */
uint64_t farey_contains_matrix(size_t v, const int64_t *t, size_t t_len, const int64_t *m, uint16_t *work,
                               size_t work_len, size_t *place);

/* Whether two symbols generate the same subgroup: yes precisely when every generator of each is, up to sign, a word in
 * the other's generators and inverses. So two symbols of one group are the same, whatever their vertices are, and
 * symbols that differ in their free labels alone are. Refused: 1 to 7 for the first, then for the second, then 11 for
 * work. Count: 1 for yes, 0 for no. */
uint64_t farey_same(size_t v, const int64_t *t, size_t t_len, size_t m, const int64_t *u, size_t u_len, uint16_t *work,
                    size_t work_len, size_t *place);

/* Whether the subgroup of t contains that of u: yes precisely when every generator of u is, up to sign, a word in the
 * generators of t and their inverses. It goes by the groups themselves and not by their index. Refused: 1 to 7 for t,
 * then for u, then 11 for work. Count: 1 for yes, 0 for no. */
uint64_t farey_contains(size_t v, const int64_t *t, size_t t_len, size_t m, const int64_t *u, size_t u_len,
                        uint16_t *work, size_t work_len, size_t *place);

/* The right cosets of the intersection of two symbols' subgroups, by the tables of S, R and T, each from the front of
 * its space. The points are the pairs of cosets, one of each subgroup, that are reached from the pair of both subgroups
 * themselves, which is point 0; they are numbered as the cosets of farey_tables. A matrix fixes point 0 precisely when
 * it belongs to both subgroups, so that farey_import_wide makes of s and r a symbol of the intersection, unless it is
 * refused with 16. Refused: 1 to 7 for t, then for u, then 11 for work, then 24, then 11 for s, r, k. Count: the number
 * of points, which is the index of the intersection and how many entries are written to each space. */
uint64_t farey_intersection(size_t v, const int64_t *t, size_t t_len, size_t m, const int64_t *u, size_t u_len,
                            uint16_t *work, size_t work_len, uint32_t *s, size_t s_len, uint32_t *r, size_t r_len,
                            uint32_t *k, size_t k_len, size_t *place);

/* A tower of `count` symbols, at most 64, in one table t. For each entry, counted from 0: the entry before it that
 * should contain it, or -1 for none; then v; then the symbol's table, which is the next 3v + 1 numbers or the fewer
 * left, and for the last entry all that are left. The tower passes precisely when each claim is true, that is when the
 * subgroup of each named entry contains that of the entry that names it, as farey_contains has it. Refused: 11 with
 * place 64 for a 65th entry, ahead of everything; then 1 to 7 for each symbol in listing order, with places that count
 * in its own table, and 2 with place 0 for an entry without v; then 25 for the first entry at fault; then 11 for work;
 * then 26 for the first entry at fault. An empty tower passes, whatever t and work are, and leaves work as it was.
 * Count: 0. */
uint64_t farey_tower(size_t count, const int64_t *t, size_t t_len, uint16_t *work, size_t work_len, size_t *place);

/* The symbol t in which the free labels x and y have exchanged partners: the first sides of both keep their labels, and
 * the second ones trade them. out: the table of that symbol, 3v + 1 numbers, from the front. It is a symbol, with the
 * vertices, the index, e2 and e3 of t. Exchanged once more it is t exactly where the first side of each label stands
 * before the second side of the other; two more exchanges always bring it back. Refused: 1 to 7, then 23, then 11 for
 * out. Count: v. */
uint64_t farey_exchange(size_t v, const int64_t *t, size_t t_len, int64_t x, int64_t y, int64_t *out, size_t out_len,
                        size_t *place);

/* The figures that that symbol would have; no symbol is written. out points to eight numbers, as those of
 * farey_figures; widths: the widths of its cusps, as those of farey_widths. Both are what these calls give of the table
 * that farey_exchange makes. Refused: 1 to 7, then 23, then 11 for work, then 11 for widths; 17 in out, for the level
 * alone; the genus is always there. Count: the number of cusps. */
uint64_t farey_preview(size_t v, const int64_t *t, size_t t_len, int64_t x, int64_t y, uint16_t *work, size_t work_len,
                       uint32_t *widths, size_t widths_len, uint64_t *out, size_t *place);

/* The sides of the symbol's polygon as they are drawn in the upper half plane, in order, four doubles each, from the
 * front of out: 0, place, 0 for a vertical line, or 1, centre, radius for an arc; then 1, 2 or 3 for a free, an even or
 * an odd side. A line's place is its finite vertex. For any other side from a/b to c/d the centre is the quotient of ad
 * + cb by 2bd and the radius that of 1 by 2bd, each one division of doubles that are these whole numbers exactly: it
 * differs from the exact one by at most the exact one's size divided by 2^53. bounds points to four doubles, the box
 * that holds every arc's ends and every line's place and no more: left, right, bottom, top. An arc's ends are centre -
 * radius and centre + radius, each rounded once; the bottom is 0, the top the largest radius, or 0 without arcs. All
 * these doubles are finite. Refused: 1 to 7, then 22, then 11 for out where out_len, which counts doubles, is below 4(v
 * + 1); the place of this 11 counts sides: v + 1. Count: the number of sides, v + 1. */
uint64_t farey_drawing(size_t v, const int64_t *t, size_t t_len, double *out, size_t out_len, double *bounds,
                       size_t *place);

/* The right cosets of a named group, numbered as those of farey_tables: for each, its image under multiplication on the
 * right by S and by R, each table from the front of its space. A matrix fixes point 0 precisely when it meets the
 * condition of its family. Refused: 20, 21, then 11 for work, then 11 for s, then for r. Count: the index, which is how
 * many entries are written to each. */
uint64_t farey_named_tables(uint64_t family, uint64_t n, uint16_t *work, size_t work_len, uint32_t *s, size_t s_len,
                            uint32_t *r, size_t r_len, size_t *place);

/* The symbol that farey_import makes of these tables: it generates precisely the matrices that meet the condition. out:
 * its table, from the front. Refused: 20, 21, then 11 for work, then 11 for out, then 16. Count: v, the number of
 * vertices; 3v + 1 numbers are written. farey_import_length of the group's tables is 3v + 1. */
uint64_t farey_named_symbol(uint64_t family, uint64_t n, uint16_t *work, size_t work_len, int64_t *out, size_t out_len,
                            size_t *place);

/* The symbol that farey_import_wide makes of them, of the same group. In the tests no named group met 16 here. */
uint64_t farey_named_symbol_wide(uint64_t family, uint64_t n, uint16_t *work, size_t work_len, int64_t *out,
                                 size_t out_len, size_t *place);

/* A word that takes A to B, up to sign, as by farey_query on the symbol of farey_named_symbol: the letters are those of
 * its generators, and the word stands in out from the place `start` on. Unless it is refused before 10, a word is found
 * exactly when B A^-1 meets the condition. Refused: 20, 21, then 8, then 9, A before B under each, then 11 for work,
 * then 16, then 10, then 11 for out, with the word's true length. Count: how many letters. */
uint64_t farey_named_query(uint64_t family, uint64_t n, const int64_t *a, const int64_t *b, uint16_t *work,
                           size_t work_len, int16_t *out, size_t out_len, size_t start, size_t *place);

/* The same on the symbol of farey_named_symbol_wide. */
uint64_t farey_named_query_wide(uint64_t family, uint64_t n, const int64_t *a, const int64_t *b, uint16_t *work,
                                size_t work_len, int16_t *out, size_t out_len, size_t start, size_t *place);

/* The word of farey_named_query with its sign: *sign as after farey_signed_query. */
uint64_t farey_named_signed_query(uint64_t family, uint64_t n, const int64_t *a, const int64_t *b, uint16_t *work,
                                  size_t work_len, int16_t *out, size_t out_len, size_t start, int64_t *sign,
                                  size_t *place);

/* The word of farey_named_query_wide with its sign. */
uint64_t farey_named_signed_query_wide(uint64_t family, uint64_t n, const int64_t *a, const int64_t *b, uint16_t *work,
                                       size_t work_len, int16_t *out, size_t out_len, size_t start, int64_t *sign,
                                       size_t *place);

#ifdef __cplusplus
}
#endif

#endif
