/* milebadger.h: the calls of the Milebadger library, for exercises on linear equations over the residues 0..m-1.
 *
 * A workbench has a sheet for each student in its own memory. It opens the sheet, adds equations and strikes them, asks
 * for the answer, has claims marked, one at a time or a class at once, and asks why one does not pass. A teacher who picks
 * the solutions first has the equations made for them: milebadger_sheet_for, below. A whole program (x1 + 2·x2 = 0 mod 4,
 * and the claim "0 0, and the step 2 3"):
 *
 *     #include <inttypes.h>
 *     #include <stdio.h>
 *
 *     #include "milebadger.h"
 *
 *     int main(void)
 *     {
 *         const uint32_t opening[] = {MILEBADGER_MODULUS(4), MILEBADGER_UNKNOWNS(2)};
 *         const uint8_t equation[] = "x1 + 2*x2 = 0";
 *         const uint32_t claim[] = {MILEBADGER_HEAD(2), MILEBADGER_ENTRY(0), MILEBADGER_ENTRY(0),
 *                                   MILEBADGER_ENTRY(2), MILEBADGER_ENTRY(3)};
 *         uint32_t block[MILEBADGER_LONGEST_BLOCK_WORDS];
 *         milebadger_sheet sheet = {0};
 *
 *         int64_t result = milebadger_open(&sheet, opening, 2);
 *         if (result >= 0)
 *             result = milebadger_add_text(&sheet, equation, sizeof equation - 1);
 *         if (result >= 0)
 *             result = milebadger_answer(&sheet, block, MILEBADGER_LONGEST_BLOCK_WORDS);
 *         for (int64_t i = 0; i < result; i++)
 *             printf("%" PRIu32 "%c", MILEBADGER_NUMBER(block[i]), i + 1 < result ? ' ' : '\n');
 *         if (result >= 0)
 *             result = milebadger_mark(&sheet, claim, 5);
 *         if (result < 0)
 *             puts(milebadger_sentence(result));
 *         else
 *             puts(result == MILEBADGER_PASS ? "pass" : result == MILEBADGER_LONG ? "long" : "fail");
 *         return 0;
 *     }
 *
 * It prints `3 0 0 2 1 0 2` (three vectors: the start 0 0, and the steps 2 1 and 0 2), then `pass`. The answer itself, as a
 * claim, would be `long`: its steps lead to the same vectors, but 0 2 is twice 2 1.
 *
 * Mod 4 each number is small, and has one word. With moduli above 2^28 some have two, as "Words" below says:
 * milebadger_write and milebadger_read know which.
 *
 * Every input has its answer: no call fails, loops or reads or writes outside the memory that it is lent.
 *
 * Results. A call returns
 *     0 or more   where it is made. Each call says what the number is,
 *     below 0     where it is refused: a question about its arguments has the answer no, and the result is minus the
 *                 first such question's number. Each call lists its questions in their order. Whether `out`, `marks` or
 *                 `at` is long enough, -8, is asked last, and only where something would be written; milebadger_sheet_for
 *                 asks it always. The numbers have names, MILEBADGER_REFUSED_.., and milebadger_sentence says them in
 *                 English.
 * A refused call changes nothing: `sheet`, `out`, `marks` and `at` keep every byte. Past what is written they keep their
 * content too, and at the result 0 `out` and `marks` keep all of it.
 *
 * Memory. `sheet` points to a sheet of the caller's. `out` points to `out_len` numbers, words or bytes that are the
 * caller's, `marks` to `marks_len` bytes, `at` to `at_len` numbers. Nobody else uses these three during the call, nor
 * `sheet` where it is not const. `words`, `claim`, `text`, `lines`, `values` and `tape` point to as many words, numbers
 * or bytes as their lengths say; nobody writes these, or a const `sheet`, meanwhile. None of them overlaps another that the
 * call writes. A length may be 0: the pointer then leads to something of the caller's all the same, and nothing is read or
 * written. The library keeps nothing from one call to the next; what a sheet holds is in the sheet. Calls with different
 * memory may run at the same time.
 */
#ifndef MILEBADGER_H
#define MILEBADGER_H

#include <stddef.h>
#include <stdint.h>

#ifdef __cplusplus
extern "C" {
#endif

/* This header's version: 10,000 times its first number, 100 times its second and its third; 40000 is 4.0.0. The header
 * goes with its library. As long as the first number is the same, a sheet keeps its size, and the calls keep their
 * arguments and what their results mean; a program that loads the shared library can ask for that when it starts:
 * milebadger_version() / 10000 == MILEBADGER_VERSION / 10000. */
#define MILEBADGER_VERSION 40000

/* The library's version.
 *
 * Returns  the MILEBADGER_VERSION that the library was made with. */
uint32_t milebadger_version(void);

/* Results with a name: those of a mark, the reasons why it is no pass, and the refusals. */
#define MILEBADGER_FAIL 0
#define MILEBADGER_PASS 1
#define MILEBADGER_LONG 2
#define MILEBADGER_REASON_SOLVABLE 1
#define MILEBADGER_REASON_UNSOLVABLE 2
#define MILEBADGER_REASON_START 3
#define MILEBADGER_REASON_STEP 4
#define MILEBADGER_REASON_MISSED 5
#define MILEBADGER_REASON_SUPERFLUOUS 6
#define MILEBADGER_REFUSED_SHAPE (-1)
#define MILEBADGER_REFUSED_MODULUS (-2)
#define MILEBADGER_REFUSED_UNKNOWNS (-3)
#define MILEBADGER_REFUSED_UNOPENED (-4)
#define MILEBADGER_REFUSED_FULL (-5)
#define MILEBADGER_REFUSED_NUMBER (-6)
#define MILEBADGER_REFUSED_NOTHING_TO_STRIKE (-7)
#define MILEBADGER_REFUSED_BUFFER (-8)
#define MILEBADGER_REFUSED_LEFT_OVER (-9) /* no call's result: just a line of a tape */
#define MILEBADGER_REFUSED_TAPE (-10)
#define MILEBADGER_REFUSED_TEXT (-11)
#define MILEBADGER_REFUSED_BEYOND (-12)
#define MILEBADGER_REFUSED_NOT_LINEAR (-13)
#define MILEBADGER_REFUSED_CLAIMS (-14)
#define MILEBADGER_REFUSED_OWN_MODULUS (-15)
#define MILEBADGER_REFUSED_PLACE (-16)
#define MILEBADGER_REFUSED_TOP (-17)

/* What a result says, in plain English: "done" where the call was made, else why it was refused. */
static inline const char *milebadger_sentence(int64_t result)
{
    if (result >= 0)
        return "done";
    switch (result) {
    case MILEBADGER_REFUSED_SHAPE:
        return "wrong shape: not what this call takes, or not as much of it";
    case MILEBADGER_REFUSED_MODULUS:
        return "the modulus is below 2";
    case MILEBADGER_REFUSED_UNKNOWNS:
        return "the number of unknowns, or of locks, is not from 1 to 16";
    case MILEBADGER_REFUSED_UNOPENED:
        return "the sheet is not opened";
    case MILEBADGER_REFUSED_FULL:
        return "there is room for 16 equations and no more";
    case MILEBADGER_REFUSED_NUMBER:
        return "a number is not below the modulus";
    case MILEBADGER_REFUSED_NOTHING_TO_STRIKE:
        return "there is no equation to strike";
    case MILEBADGER_REFUSED_BUFFER:
        return "the buffer is too short";
    case MILEBADGER_REFUSED_LEFT_OVER:
        return "the tape ends in 1 to 3 bytes that are no word";
    case MILEBADGER_REFUSED_TAPE:
        return "the tape is longer than 65,536 bytes";
    case MILEBADGER_REFUSED_TEXT:
        return "the text is not an equation, or is longer than 256 bytes";
    case MILEBADGER_REFUSED_BEYOND:
        return "the text has an unknown that the sheet does not have";
    case MILEBADGER_REFUSED_NOT_LINEAR:
        return "the text is not linear: a product has unknowns on both sides";
    case MILEBADGER_REFUSED_CLAIMS:
        return "the class has more than 64 claims";
    case MILEBADGER_REFUSED_OWN_MODULUS:
        return "the equation's own modulus is below 2 or does not divide the sheet's";
    case MILEBADGER_REFUSED_PLACE:
        return "the place is beyond the equations that are held";
    case MILEBADGER_REFUSED_TOP:
        return "a word of kind 13 stands where none may, or its number is not from 1 to 15";
    default:
        return "no result of this library";
    }
}

/* Words: the kind in the top 4 bits, the number in the low 28. And the number of a word.
 *
 * Coefficients and right sides below 0 have words of their own: MILEBADGER_MINUS_RIGHT(2) is a right side of minus 2. An
 * equation that is meant mod 3 on a sheet mod 12 has MILEBADGER_OWN_MODULUS(3) in front, as milebadger_add says. On tape
 * MILEBADGER_STRIKE strikes the last equation, and MILEBADGER_STRIKE_AT(2) the second. A word's number has no sign: one
 * below 0 or above MILEBADGER_LARGEST_NUMBER makes a word of another kind or with another number. In C11 and later, such a
 * constant does not compile. Numbers that are known only when the program runs are not looked at, nor any in C99 and C++.
 * Each macro evaluates its argument once, and is a constant where that is one.
 *
 * A number of 2^28 or more, up to 32 bits, takes two words: MILEBADGER_TOP(number), of kind 13, with its top 4 bits, and
 * right behind it the word of its kind with the low 28, such as MILEBADGER_MODULUS(MILEBADGER_LOW(number)). These two count
 * as one word wherever a call or a claim has so many words; words_len, claim_len, out_len, and results that say how many
 * words were written count both. A sign and a modulus are those of the whole number. A smaller number has no TOP, whose own
 * number would be 0. TOP may stand before MODULUS, COEFFICIENT, RIGHT, ENTRY, a multiplier, MINUS_COEFFICIENT, MINUS_RIGHT
 * and OWN_MODULUS. Any other word of kind 13 is misplaced: one before another word or behind all, and one whose number is
 * not from 1 to 15. It counts as a word of its own, and calls that take it are refused with -17, right before they ask
 * about the shape.
 * milebadger_write, below, writes one word or two as the number needs them, and milebadger_read reads them. */
#define MILEBADGER_MODULUS(m) MILEBADGER_WORD(1, m)
#define MILEBADGER_UNKNOWNS(n) MILEBADGER_WORD(2, n)
#define MILEBADGER_COEFFICIENT(a) MILEBADGER_WORD(3, a)
#define MILEBADGER_RIGHT(b) MILEBADGER_WORD(4, b)
#define MILEBADGER_HEAD(h) MILEBADGER_WORD(5, h)
#define MILEBADGER_ENTRY(x) MILEBADGER_WORD(6, x)
#define MILEBADGER_STRIKE MILEBADGER_WORD(8, 0)
#define MILEBADGER_STRIKE_AT(place) MILEBADGER_WORD(8, place)
#define MILEBADGER_ANSWER MILEBADGER_WORD(9, 0)
#define MILEBADGER_MINUS_COEFFICIENT(a) MILEBADGER_WORD(10, a)
#define MILEBADGER_MINUS_RIGHT(b) MILEBADGER_WORD(11, b)
#define MILEBADGER_OWN_MODULUS(q) MILEBADGER_WORD(12, q)
#define MILEBADGER_TOP(number) ((uint32_t)13 << 28 | (uint32_t)(number) >> 28)
#define MILEBADGER_LOW(number) ((uint32_t)(number) & MILEBADGER_LARGEST_NUMBER)
#define MILEBADGER_NUMBER(word) ((uint32_t)(word) & MILEBADGER_LARGEST_NUMBER)

/* What is accepted, at most. */
#define MILEBADGER_LARGEST_MODULUS 4294967295u /* the largest number of 32 bits */
#define MILEBADGER_MOST_UNKNOWNS 16
#define MILEBADGER_MOST_EQUATIONS 16
#define MILEBADGER_MOST_LOCKS 16
#define MILEBADGER_LARGEST_HEAD 17 /* of a block or a claim: a starting vector, and a step for each unknown */
#define MILEBADGER_MOST_CLAIMS 64 /* of a class */
#define MILEBADGER_LARGEST_NUMBER 0x0FFFFFFF /* of a word without a TOP: 2^28 - 1 */
#define MILEBADGER_LONGEST_TAPE 65536 /* bytes */
#define MILEBADGER_LONGEST_TEXT 256 /* bytes */

/* What is written, at most. Numbers of a block by milebadger_solve: a head, and 17 vectors of 16 entries. The same in words,
 * by milebadger_answer, and of a claim: one word for the head, and two for each entry. Words of a reason: two for each
 * unknown's entry, or for each equation's multiplier. Words of a safe's turns: two for each lock. Bytes of a line: 4
 * letters, 16 numbers of 10 digits behind a space each, and 0x0A. Bytes of an answer: such a line for the starting vector,
 * and for 16 steps 16 such lines, in which at least 0, 1, .., 15 numbers in front are 0. */
#define MILEBADGER_LONGEST_BLOCK 273
#define MILEBADGER_LONGEST_BLOCK_WORDS 545
#define MILEBADGER_LONGEST_REASON 32
#define MILEBADGER_LONGEST_TURNS 32
#define MILEBADGER_LONGEST_LINE 181
#define MILEBADGER_LONGEST_ANSWER 1997

/* Bytes that are enough for the lines of every tape of `tape_len` bytes: an answer for each word, and `refused 9`. */
#define MILEBADGER_LINES_ROOM(tape_len) ((size_t)(tape_len) / 4 * MILEBADGER_LONGEST_ANSWER + 10)

/* Words that milebadger_sheet_for asks for with n unknowns: two for each number of n equations, 544 for the largest n. The
 * n is evaluated twice. */
#define MILEBADGER_SHEET_ROOM(n) (2 * (size_t)(n) * ((size_t)(n) + 1))

/* Writes a word of a kind that a word such as MILEBADGER_ENTRY(0) or MILEBADGER_COEFFICIENT(0) names, with any number of 32
 * bits: TOP and the word from 2^28 on, else the word alone. So `count += milebadger_write(words + count,
 * MILEBADGER_ENTRY(0), x)` puts an entry behind others. HEAD and UNKNOWNS, which have no TOP, need it for no number that
 * they take. There is room for two words at `out`, or the number is below 2^28.
 *
 * Returns  how many words it wrote: 1 or 2. */
static inline size_t milebadger_write(uint32_t *out, uint32_t kind, uint32_t number)
{
    size_t count = 0;
    if (number > MILEBADGER_LARGEST_NUMBER)
        out[count++] = MILEBADGER_TOP(number);
    out[count++] = (kind & ~(uint32_t)MILEBADGER_LARGEST_NUMBER) | MILEBADGER_LOW(number);
    return count;
}

/* Reads the number of a word that the library or milebadger_write has written, with the TOP in front where it has one. So
 * `at += milebadger_read(block + at, &number)` goes through a block from its head to its end.
 *
 * Returns  how many words it read: 1 or 2. */
static inline size_t milebadger_read(const uint32_t *words, uint32_t *number)
{
    if (words[0] >> 28 != 13) {
        *number = MILEBADGER_NUMBER(words[0]);
        return 1;
    }
    *number = words[0] << 28 | MILEBADGER_NUMBER(words[1]);
    return 2;
}

/* A sheet: a modulus m, a number n of unknowns, and up to 16 equations, each mod m or mod a divisor of it. Zeroed memory
 * is a fresh sheet, which is not opened: `milebadger_sheet sheet = {0};`. It can be copied by assignment, and kept in a
 * file for programs of the same MILEBADGER_VERSION. What its numbers stand for is the library's business: it is read and
 * changed by the calls alone. Numbers that no call has put there do no harm; they are read as a sheet that is not opened,
 * or as the one they spell. Its size is part of the library: all of a program is compiled with the header that goes with
 * it. */
typedef struct {
    uint32_t numbers[291];
} milebadger_sheet;

/* Opens a sheet, or begins one again: no equations are then held. The words are MODULUS(m), UNKNOWNS(n). (Each name of a
 * word with MILEBADGER_ in front, here and below; and a number of 2^28 or more with its TOP.)
 *
 * Asks     Each TOP in its place? If not, -17.  Two words, of these kinds? If not, -1.  m at least 2? If not, -2.
 *          n from 1 to 16? If not, -3.
 * Writes   the sheet.
 * Returns  0; or -17, -1, -2, -3. */
int64_t milebadger_open(milebadger_sheet *sheet, const uint32_t *words, size_t words_len);

/* Adds an equation behind those that are held, also where nothing solves them all any more. The words are a
 * COEFFICIENT(a) for each unknown, or MINUS_COEFFICIENT(a) where it is minus a; then RIGHT(b), or MINUS_RIGHT(b) where it
 * is minus b. Any number of 32 bits will do: it is brought to its residue, 0 to m - 1. So minus 1 is m - 1, and m is 0.
 *
 * In front of them may stand OWN_MODULUS(q), for an equation with a modulus of its own, a divisor of m. A vector then
 * solves it if both sides agree mod q, and its numbers are brought to their residues mod q: mod 3, minus 1 is 2. Vectors
 * stay vectors of residues mod m: on a sheet mod 12, x1 = 2 mod 3 has the solutions 2, 5, 8 and 11, and with x1 = 3 mod 4
 * beside it just 11. Without OWN_MODULUS, and for typed text, q is m.
 *
 * Asks     Opened? If not, -4.  Each TOP in its place? If not, -17.  n + 1 words of these kinds, alone or behind one
 *          OWN_MODULUS? If not, -1.  q from 2 on, and a divisor of m? If not, -15.  Fewer than 16 equations held? If not,
 *          -5.
 * Writes   the sheet.
 * Returns  how many equations are then held, 1 to 16; or -4, -17, -1, -15, -5. */
int64_t milebadger_add(milebadger_sheet *sheet, const uint32_t *words, size_t words_len);

/* Adds an equation that is typed as text, such as 3*(x1 - 2*x2) + x3 = 5 - x1, behind those that are held. The unknowns'
 * coefficients, brought to the left, and the plain numbers, brought to the right, all mod m, make the equation: mod 12 with
 * three unknowns this is 4·x1 + 6·x2 + x3 = 5. The text is text_len bytes of ASCII; no byte 0 ends it.
 *
 *     text          expression = expression
 *     expression    term, or expression + term, or expression - term
 *     term          factor, or term * factor
 *     factor        number, or unknown, or ( expression ), or - factor
 *     number        1 to 5 decimal digits, zeros in front allowed; also m or more
 *     unknown       x1, x2, .. x16, without zeros in front
 *
 * Spaces (0x20) may stand before, between and after these parts, but not inside a number or an unknown. So `2*-x1`, `--3`
 * and `1 - -2` are expressions; `2x1`, `+1`, `x 1`, `1 2` and anything with a tab are not.
 *
 * Asks     Opened? If not, -4.  Such a text, of at most 256 bytes? If not, -11.  All its unknowns among x1 to xn, also where
 *          their coefficient becomes 0? If not, -12.  No product with an unknown on both sides, also where a coefficient
 *          becomes 0? If not, -13.  Fewer than 16 equations held? If not, -5.
 * Writes   the sheet.
 * Returns  how many equations are then held, 1 to 16; or -4, -11, -12, -13, -5.
 *
 * The readers of brackets, signs and stars call each other, and take stack until the text is read. The most that was
 * measured is 240,000 bytes, for 256 opening brackets or 256 minus signs; 126 pairs of brackets take 120,000. */
int64_t milebadger_add_text(milebadger_sheet *sheet, const uint8_t *text, size_t text_len);

/* Strikes the equation at a place: 1 for the first, and 0 for the last. Those behind it close up in order, each with its
 * own modulus, so that the third is the second once the second is struck. Answers, marks and reasons are then those for
 * the equations left.
 *
 * Asks     Opened? If not, -4.  Any equation held? If not, -7, whatever the place.  place at most the number of equations
 *          held? If not, -16.
 * Writes   the sheet.
 * Returns  how many equations are then held, 0 to 15; or -4, -7, -16. */
int64_t milebadger_strike(milebadger_sheet *sheet, uint32_t place);

/* The answer to the equations that are held, each mod its own modulus. With none, every vector is a solution.
 *
 * Asks     Opened? If not, -4.
 * Needs    out_len at least the block's length, where there is a solution. Where there is none, one word, and for each
 *          equation one, or two if m is above 2^28, also where its multiplier takes one. MILEBADGER_LONGEST_BLOCK_WORDS is
 *          enough for every block.
 * Writes   the answer block, as words. out[0] is HEAD(h).
 *          An h above 0 is a number of vectors of n words ENTRY(x) each, one behind the other. Vector 0 is the starting
 *          vector, the others are the steps; milebadger_solve, below, says which they are and how each solution is written
 *          with them. Mod m up to 2^28 each entry has one word: vector i begins at out[1 + i * n], and MILEBADGER_NUMBER
 *          reads an entry. Above, entries of 2^28 or more have a TOP: milebadger_read reads one behind the other. Such a
 *          block can be marked as a claim as it is; it passes or is long, since the form of its steps is fixed and one may
 *          follow from the others.
 *          An h of 0 says that there is no solution. Behind it stands a word of kind 7 for each equation, with its
 *          multiplier: the equations so multiplied add up mod m to coefficients that are 0 and a right side that is not.
 *          An equation with a modulus q of its own has both sides multiplied by m / q first: x1 = 2 mod 3 is
 *          4·x1 = 8 mod 12. Which multipliers, is not promised: check them, do not compare them. As a claim, take the
 *          head alone.
 * Returns  how many words it wrote, each TOP among them: 1 + h * n without these, or 1 + the number of equations; or -4,
 *          -8. */
int64_t milebadger_answer(const milebadger_sheet *sheet, uint32_t *out, size_t out_len);

/* Marks a claim about the equations that are held. The words are HEAD(0) for "no solution"; or HEAD(h), h at most 17,
 * and h times n words ENTRY(x): a starting vector and h - 1 steps. It describes the start plus every combination of the
 * steps with coefficients 0..m-1, and is right where these vectors are the solutions, all of them and no other. Other
 * steps than the answer's, or in another order, are no fault.
 *
 * A right claim passes where no step is superfluous, and is long where one is: a step that is itself a combination of the
 * others, the later ones too. The zero vector as a step is always superfluous, and of two equal steps both are. That fewer
 * steps would do is no fault: mod 6, for one unknown and no equations, the steps 2 and 3 pass, since neither follows from
 * the other. A claim that is not right fails, whatever its steps. HEAD(0), and a start alone, are never long. So a result
 * above 0 says that the claim is right.
 *
 * Asks     Opened? If not, -4.  Each TOP in its place? If not, -17.  A head of at most 17 and h * n words behind it, of
 *          these kinds? If not, -1.  All entries below m? If not, -6.
 * Returns  MILEBADGER_PASS, MILEBADGER_LONG, MILEBADGER_FAIL; or -4, -17, -1, -6. */
int64_t milebadger_mark(const milebadger_sheet *sheet, const uint32_t *words, size_t words_len);

/* Marks the claims of a class about the equations that are held: up to 64, each as milebadger_mark marks it alone. What the
 * equations decide for every claim is computed once. The words are those of the claims, one claim behind the other.
 *
 * A claim's first word alone decides how many words it takes, and not the kinds of those behind it: HEAD(h), h at most 17,
 * takes 1 + h * n, or all that remain where they are fewer. A larger head takes one word, and so does a word of another
 * kind where a head should stand: each such word is a claim of its own, of wrong shape. So a claim that lacks an entry
 * takes the next claim's head for it, and that one's entries become claims of one word. A TOP in its place counts with the
 * word behind it, also where a head should stand; a misplaced one is a word, and a claim that has one is refused with 17.
 *
 * Asks     Opened? If not, -4.  At most 64 claims? If not, -14.
 * Needs    marks_len at least the number of claims. MILEBADGER_MOST_CLAIMS is enough for every class.
 * Writes   a byte for each claim, in their order: MILEBADGER_PASS, MILEBADGER_LONG, MILEBADGER_FAIL, or 100 plus a
 *          refusal's number, which is 17, 1 or 6. MILEBADGER_MARK(marks[i]) is the result that milebadger_mark has for
 *          claim i alone.
 * Returns  how many claims there are, which may be 0; or -4, -14, -8. */
int64_t milebadger_class(const milebadger_sheet *sheet, const uint32_t *words, size_t words_len, uint8_t *marks,
                         size_t marks_len);

/* The result of milebadger_mark that a byte of a class stands for: 101 is MILEBADGER_REFUSED_SHAPE, for which
 * milebadger_sentence has a sentence. The byte is evaluated twice. */
#define MILEBADGER_MARK(byte) ((byte) < 100 ? (int64_t)(byte) : 100 - (int64_t)(byte))

/* Why a claim about the equations that are held fails, or is long, for a page with hints. The words are those of
 * milebadger_mark. Of the reasons 1 to 6 the first that holds is the result, and it is true as it stands: 1 to 5 where the
 * claim fails, and 6 where it is long; 0 says that it passes.
 *
 *     result, its name   at[0]   at[1]      `out`            a hint page can say
 *     0                  0       0          nothing          This is right.
 *     1  SOLVABLE        0       0          a solution       There is a solution, and here is one.
 *     2  UNSOLVABLE      0       0          multipliers      There is no solution: the equations, multiplied by these
 *                                                            numbers, add up to 0 = a number that is not 0.
 *     3  START           0       equation   nothing          The start does not solve this equation.
 *     4  STEP            step    equation   nothing          This step changes the left side of this equation.
 *     5  MISSED          0       0          a solution       Here is a solution that the start and the steps do not
 *                                                            lead to.
 *     6  SUPERFLUOUS     step    0          nothing          This is right, but this step is a combination of the
 *                                                            others.
 *
 * (Each name with MILEBADGER_REASON_ in front.) Steps and equations count from 1. Where there is no solution, the reason is
 * 2 for every claim but HEAD(0), whatever its start and steps are. 3 gives the first equation that the start does not
 * solve. 4 gives the first step that changes a left side, and for it the first such equation: the sum of coefficient times
 * entry of the step is not 0 mod m, or mod the equation's own modulus. The left side of a typed equation has all its
 * unknowns. 6 gives the first superfluous step: without it the claim is still right, and it passes once every step that is
 * so named is left out in turn.
 *
 * A solution is n words ENTRY(x), multipliers are a word of kind 7 for each equation, as in the answer, with a TOP for each
 * number of 2^28 or more, and without a head. An equation with a modulus q of its own is multiplied by m / q first. The
 * solution of 1 is the answer's starting vector. Which multipliers stand behind 2, and of the solutions that are missed
 * which stands behind 5, is not promised: check them, do not compare them.
 *
 * Asks     Opened? If not, -4.  Each TOP in its place? If not, -17.  A head of at most 17 and h * n words behind it, of
 *          these kinds? If not, -1.  All entries below m? If not, -6.
 * Needs    at_len at least 3, also where the claim passes. out_len at least one word for each entry or multiplier of the
 *          reason, or two if m is above 2^28, also where fewer are written: for 3, 4 and 6, and where the claim passes, 0
 *          will do. MILEBADGER_LONGEST_REASON is enough for every reason.
 * Writes   at[0]   the step, or 0;
 *          at[1]   the equation, or 0;
 *          at[2]   how many words `out` gets, each TOP among them, which may be 0;
 *          out     these words.
 * Returns  0 where the claim passes, 6 where it is long, a reason from 1 to 5 where it fails; or -4, -17, -1, -6, -8. */
int64_t milebadger_reason(const milebadger_sheet *sheet, const uint32_t *words, size_t words_len, uint32_t *at,
                          size_t at_len, uint32_t *out, size_t out_len);

/* A sheet for a wanted answer: the solutions are picked first, and equations are made for them. The words of `claim` are
 * those of milebadger_mark: HEAD(0) for "no solution"; or HEAD(h), h at most 17, and h times n words ENTRY(x), a starting
 * vector and h - 1 steps. Made are at most n equations in n unknowns, each mod m, whose solutions are the vectors that the
 * claim describes, all of them and no other. For HEAD(0) it is the single equation 0 = 1. Every claim has such equations:
 * steps of zeros, and steps that are combinations of the others, are no fault.
 *
 * An equation is n words COEFFICIENT(a) and a word RIGHT(b), with numbers from 0 to m - 1, and they stand one behind the
 * other. Mod m up to 2^28 each number has one word: equation i, 0 for the first, begins at out[i * (n + 1)], and
 * MILEBADGER_NUMBER reads a number. Above, numbers of 2^28 or more have a TOP: milebadger_read reads one behind the other,
 * n + 1 for each equation. As they lie they can be added to a sheet that is opened with m and n: the words of each equation
 * by milebadger_add, or all of them on a tape, behind the opening. The claim then passes there or is long. Which equations,
 * is not promised: check them, do not compare them.
 *
 * Asks     m at least 2? If not, -2.  n from 1 to 16? If not, -3.  Each TOP in its place? If not, -17.  A head of at most
 *          17 and h * n words behind it, of these kinds? If not, -1.  All entries below m? If not, -6.
 * Needs    out_len at least 2 * n * (n + 1), also where fewer words are written, or none: MILEBADGER_SHEET_ROOM(n).
 * Writes   the equations.
 * Returns  how many equations there are, 0 to n; 0 says that every vector is a solution. Or -2, -3, -17, -1, -6, -8. */
int64_t milebadger_sheet_for(uint32_t m, uint32_t n, const uint32_t *claim, size_t claim_len, uint32_t *out,
                             size_t out_len);

/* A tape of calls on one sheet, which begins unopened. A tape is words, each 4 bytes with the low byte first. The first
 * word's kind picks a call and with it how many words the call takes; the next call begins behind them. Each call gives
 * a line, an answer one or more; every line ends in one byte 0x0A.
 *
 *     words                               line               what the call does
 *     MODULUS(m), UNKNOWNS(n)             open m n           opens the sheet: m from 2 to 4,294,967,295, n from 1
 *                                                            to 16, no equations
 *     n times COEFFICIENT(a), RIGHT(b)    added k            adds an equation, 16 at most; k are then held. For minus a
 *                                                            MINUS_COEFFICIENT(a), for minus b MINUS_RIGHT(b)
 *     OWN_MODULUS(q), then such words     added k            adds an equation mod q, a divisor of m
 *     STRIKE, or STRIKE_AT(place)         struck k           takes the last equation off, or that at a place, 1 for the
 *                                                            first; k are then held
 *     ANSWER                              from .., step ..   the starting vector, then each step, n entries each;
 *                                         or none ..         or a multiplier for each equation
 *     HEAD(h), h times n times ENTRY(x)   pass, long or      marks a claim: h is 0 for "no solution", or counts a
 *                                         fail               starting vector and its steps, 17 at most
 *     any of these, refused               refused r          nothing; r is a number of the table below
 *
 * (Each name with MILEBADGER_ in front, and a number of 2^28 or more with its TOP, which counts as part of its word.)
 * Multipliers are any that refute the equations, as milebadger_answer says: check them, do not compare them.
 *
 * How many words a call takes, its first word alone decides, and not the kinds of those behind it: 2, n + 1, n + 2, 1, 1,
 * and 1 + h times n. MINUS_COEFFICIENT begins an equation as COEFFICIENT does. These two, OWN_MODULUS and HEAD take one
 * word while the sheet is not opened, and so does a HEAD above 17 at any time: the words behind it are then read as calls
 * of their own, so that one refused claim or equation can give a line for each of its words. A call that is cut short by
 * the end of the tape is refused with 1, and so is a first word of another kind, RIGHT and MINUS_RIGHT among them, which
 * takes one word. A first word that begins with its TOP picks the call by its own kind. A misplaced TOP counts as one of the
 * words that a call takes, which is then refused with 17 rather than 1; as first word it is a call of one word, refused with
 * 17, opened or not. Bytes left over behind the last word give `refused 9` as the last line.
 *
 *     refused  1  wrong shape, or an ANSWER with a number other than 0   6  an entry is not below m
 *              2  m is below 2                                           7  no equation to strike
 *              3  n is not 1..16                                         9  1 to 3 bytes left over
 *              4  not opened                                            15  q is below 2 or does not divide m
 *              5  there are 16 equations                                16  a place beyond the equations held
 *                                                                       17  a misplaced TOP
 *
 * Asks     tape_len at most 65,536? If not, -10.
 * Needs    out_len at least the length of all lines together. MILEBADGER_LINES_ROOM(tape_len) is enough for every tape.
 *          Where there are few answers, so are MILEBADGER_LONGEST_ANSWER bytes for each ANSWER, 19 for each other call
 *          and 10 for bytes left over.
 * Writes   the lines.
 * Returns  how many bytes the lines are, which may be 0; or -10, -8. */
int64_t milebadger_tape(const uint8_t *tape, size_t tape_len, uint8_t *out, size_t out_len);

/* Euclid's chain: gcd(a, 0) = a, and gcd(a, b) = gcd(b, a mod b) for b > 0; gcd(0, 0) = 0.
 *
 * Needs    out_len at least 2.
 * Writes   out[0]  the greatest common divisor of a and b;
 *          out[1]  the number of divisions made, at most 5 times the decimal digits of the smaller number plus 1.
 * Returns  1; or -8. */
int64_t milebadger_gcd(uint32_t a, uint32_t b, uint32_t *out, size_t out_len);

/* One congruence a·t = b mod m. Any a and b will do: they are brought to their residues. So minus 1 is m - 1.
 *
 * Asks     m at least 2? If not, -2.
 * Needs    out_len at least 2 where there is a solution.
 * Writes   out[0]  the least solution t;
 *          out[1]  the spacing: the solutions are t, t + spacing, t + 2·spacing, .. below m.
 * Returns  1; 0 where no t solves it; or -2, -8. */
int64_t milebadger_congruence(int32_t a, int32_t b, uint32_t m, uint32_t *out, size_t out_len);

/* A list of equations over the residues 0..m-1 in n unknowns. `lines` holds a line for each equation, one behind the
 * other: its n coefficients, then its right side.
 *
 * Asks     m at least 2? If not, -2.  n from 1 to 16? If not, -3.  lines_len a multiple of n + 1? If not, -1.
 *          At most 16 lines? If not, -5.  All numbers of `lines` below m? If not, -6.
 * Needs    out_len at least the block's length. MILEBADGER_LONGEST_BLOCK is enough for every block.
 * Writes   the answer block. out[0] is its head.
 *          A head above 0 is a number of vectors, of n entries each, one behind the other: vector i begins at
 *          out[1 + i * n]. Vector 0 is the starting vector, of all solutions the first in dictionary order. The others
 *          are the steps, by rising place of their first entry that is not 0. If d is that entry of a step, d divides m.
 *          Each solution is in just one way the starting vector plus t times each step, mod m, with a t from 0 to
 *          m / d - 1 for each; so their number is the product of the m / d.
 *          A head of 0 says that there is no solution. Behind it stand multipliers, one residue for each equation: the
 *          equations so multiplied add up mod m to coefficients that are 0 and a right side that is not. Which
 *          multipliers, is not promised: check them, do not compare them.
 * Returns  how many numbers the block has: 1 + head * n, or 1 + the number of equations; or -2, -3, -1, -5, -6, -8. */
int64_t milebadger_solve(uint32_t m, uint32_t n, const uint32_t *lines, size_t lines_len, uint32_t *out,
                         size_t out_len);

/* A safe: locks in rows and columns, each at a value from 0 to m - 1. Turning a lock by t adds t mod m to each lock in
 * its row and its column, to itself once. `values` holds the locks row after row, a word each: MILEBADGER_ENTRY(value), with
 * its TOP where it is 2^28 or more.
 *
 * Asks     m at least 2? If not, -2.  rows and columns at least 1, rows * columns at most 16? If not, -3.  Each TOP in its
 *          place? If not, -17.  rows * columns words, all of kind 6? If not, -1.  All values below m? If not, -6.
 * Needs    out_len at least the length of the turns, where there are any: rows * columns, and one for each TOP.
 *          MILEBADGER_LONGEST_TURNS is enough for every safe, and MILEBADGER_MOST_LOCKS for m up to 2^28.
 * Writes   a turn for each lock, row after row, as the same words: of all turns from 0 to m - 1 that bring every lock to
 *          0 the first in dictionary order.
 * Returns  how many words it wrote, each TOP among them; 0 where no turns bring every lock to 0; or -2, -3, -17, -1, -6,
 *          -8. */
int64_t milebadger_safe(uint32_t m, uint32_t rows, uint32_t columns, const uint32_t *values, size_t values_len,
                        uint32_t *out, size_t out_len);

/* A word of this kind with this number. */
#define MILEBADGER_WORD(kind, number) \
    ((uint32_t)(kind) << 28 | (uint32_t)(number) | MILEBADGER_FITS_28_BITS(number))

/* 0, but an error at a constant that does not fit. Just there the left branch is a null pointer constant, so that the
 * whole has the right branch's type, for which there is no case. */
#if defined __STDC_VERSION__ && __STDC_VERSION__ >= 201112L
#define MILEBADGER_FITS_28_BITS(number) \
    _Generic(1 ? (void *)(uintptr_t)!((uint64_t)(number) >> 28) : (int *)0, void *: 0)
#else
#define MILEBADGER_FITS_28_BITS(number) 0
#endif

#ifdef __cplusplus
}
#endif

#endif
