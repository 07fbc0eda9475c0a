/* include/milebadger.h compiles without a warning; its words are constants, and take numbers that are known only later; its
 * refusals are constants too, and a sheet has the size that the library takes. With -DNUMBER=.. for a number that is no word's, it
 * does not compile in C11. */
#include "milebadger.h"

#ifndef NUMBER
#define NUMBER MILEBADGER_LARGEST_NUMBER
#endif

static const uint32_t words[] = {
    MILEBADGER_MODULUS(NUMBER), MILEBADGER_UNKNOWNS(MILEBADGER_MOST_UNKNOWNS), MILEBADGER_COEFFICIENT(0),
    MILEBADGER_RIGHT(4u), MILEBADGER_HEAD(MILEBADGER_LARGEST_HEAD), MILEBADGER_ENTRY(sizeof(char)),
    MILEBADGER_STRIKE, MILEBADGER_ANSWER, MILEBADGER_WORD(7, 7), MILEBADGER_MINUS_COEFFICIENT(NUMBER),
    MILEBADGER_MINUS_RIGHT(0), MILEBADGER_OWN_MODULUS(NUMBER), MILEBADGER_STRIKE_AT(NUMBER),
    MILEBADGER_TOP(MILEBADGER_LARGEST_MODULUS), MILEBADGER_MODULUS(MILEBADGER_LOW(MILEBADGER_LARGEST_MODULUS)),
    MILEBADGER_TOP(4294967291), MILEBADGER_ENTRY(MILEBADGER_LOW(4294967291)),
};

/* Minus 1 has a kind of its own, and keeps its number; so has the modulus of an equation, and the place of a strike, which has 0 for
 * the last. */
typedef char kinds[MILEBADGER_MINUS_COEFFICIENT(1) == 0xA0000001 && MILEBADGER_MINUS_RIGHT(1) == 0xB0000001 ? 1 : -1];
typedef char moduli[MILEBADGER_OWN_MODULUS(3) == 0xC0000003 && MILEBADGER_NUMBER(MILEBADGER_OWN_MODULUS(3)) == 3 ? 1 : -1];
typedef char places[MILEBADGER_STRIKE_AT(2) == 0x80000002 && MILEBADGER_STRIKE_AT(0) == MILEBADGER_STRIKE ? 1 : -1];
typedef char numbers[MILEBADGER_NUMBER(MILEBADGER_MINUS_RIGHT(MILEBADGER_LARGEST_NUMBER)) == 268435455 ? 1 : -1];

/* The two words of a number that one does not hold. */
typedef char tops[MILEBADGER_TOP(268435456) == 0xD0000001 && MILEBADGER_TOP(MILEBADGER_LARGEST_MODULUS) == 0xD000000F ? 1 : -1];
typedef char lows[MILEBADGER_LOW(268435457) == 1 && MILEBADGER_LOW(MILEBADGER_LARGEST_MODULUS) == 0x0FFFFFFF ? 1 : -1];
typedef char moduli_of_32_bits[MILEBADGER_LARGEST_MODULUS == UINT32_MAX ? 1 : -1];

static uint8_t lines[MILEBADGER_LINES_ROOM(sizeof words)];
static uint32_t made[MILEBADGER_SHEET_ROOM(MILEBADGER_MOST_UNKNOWNS)];

/* One word, and bytes left over. */
typedef char room[MILEBADGER_LINES_ROOM(7) == MILEBADGER_LONGEST_ANSWER + 10 ? 1 : -1];

/* Two words for each number: of an equation in one unknown, and of 16 in 16. */
typedef char sheets[MILEBADGER_SHEET_ROOM(1) == 4 && MILEBADGER_SHEET_ROOM(MILEBADGER_MOST_UNKNOWNS) == 544 ? 1 : -1];
typedef char sums[MILEBADGER_SHEET_ROOM(1 + 1) == 12 ? 1 : -1];

typedef char size[sizeof(milebadger_sheet) == 1164 ? 1 : -1];

/* What the bytes of a class stand for. */
typedef char passes[MILEBADGER_MARK(1) == MILEBADGER_PASS && MILEBADGER_MARK(0) == MILEBADGER_FAIL ? 1 : -1];
typedef char superfluous[MILEBADGER_MARK(2) == MILEBADGER_LONG ? 1 : -1];
typedef char shape[MILEBADGER_MARK(101) == MILEBADGER_REFUSED_SHAPE ? 1 : -1];
typedef char number[MILEBADGER_MARK(106) == MILEBADGER_REFUSED_NUMBER ? 1 : -1];
typedef char misplaced[MILEBADGER_MARK(117) == MILEBADGER_REFUSED_TOP ? 1 : -1];

#if MILEBADGER_VERSION < 40000 || MILEBADGER_REFUSED_TOP != -17 || MILEBADGER_LONG != 2 || MILEBADGER_REASON_SUPERFLUOUS != 6
#error "names that the preprocessor cannot read"
#endif

#if MILEBADGER_LARGEST_MODULUS != 4294967295
#error "a limit that the preprocessor cannot read"
#endif

/* A vector for every unknown, and a multiplier for every equation, are shown whole, with two words for each; and so is an answer, with
 * one for its head, and a turn for every lock. */
typedef char shown[MILEBADGER_LONGEST_REASON >= 2 * MILEBADGER_MOST_UNKNOWNS ? 1 : -1];
typedef char multiplied[MILEBADGER_LONGEST_REASON >= 2 * MILEBADGER_MOST_EQUATIONS ? 1 : -1];
typedef char blocks[MILEBADGER_LONGEST_BLOCK == 1 + MILEBADGER_LARGEST_HEAD * MILEBADGER_MOST_UNKNOWNS ? 1 : -1];
typedef char answers[MILEBADGER_LONGEST_BLOCK_WORDS == 1 + 2 * (MILEBADGER_LONGEST_BLOCK - 1) ? 1 : -1];
typedef char turns[MILEBADGER_LONGEST_TURNS == 2 * MILEBADGER_MOST_LOCKS ? 1 : -1];

/* Words of numbers that are known only here: bytes, one after the other, and two that have a sign, which picks a word's kind. */
int64_t run_later(const uint8_t *bytes, int i, int64_t l);

int64_t run_later(const uint8_t *bytes, int i, int64_t l)
{
    uint32_t word = MILEBADGER_ENTRY(*bytes++);
    word ^= MILEBADGER_ENTRY(*bytes++) ^ MILEBADGER_ENTRY(i) ^ MILEBADGER_ENTRY(l);
    word ^= i < 0 ? MILEBADGER_MINUS_COEFFICIENT(-i) : MILEBADGER_COEFFICIENT(i);
    word ^= l < 0 ? MILEBADGER_MINUS_RIGHT(-l) : MILEBADGER_RIGHT(l);
    word ^= MILEBADGER_OWN_MODULUS(*bytes++) ^ MILEBADGER_OWN_MODULUS(l);
    word ^= MILEBADGER_STRIKE_AT(*bytes++) ^ MILEBADGER_STRIKE_AT(i);
    for (size_t j = 0; j < sizeof words / sizeof *words; j++)
        word ^= words[j];
    return milebadger_tape(bytes, MILEBADGER_NUMBER(word) % MILEBADGER_LONGEST_TAPE, lines, sizeof lines);
}

/* Words of any number, written behind each other and read again: one that is known only here, and the largest. */
uint32_t wide_later(uint32_t x);

uint32_t wide_later(uint32_t x)
{
    uint32_t out[6] = {0}, number = 0, sum = 0;
    size_t count = milebadger_write(out, MILEBADGER_ENTRY(0), x), at = 0;
    count += milebadger_write(out + count, MILEBADGER_MINUS_COEFFICIENT(0), x & 1);
    count += milebadger_write(out + count, MILEBADGER_MODULUS(0), MILEBADGER_LARGEST_MODULUS);
    while (at < count) {
        at += milebadger_read(out + at, &number);
        sum += number;
    }
    return sum ^ MILEBADGER_TOP(x) ^ MILEBADGER_ENTRY(MILEBADGER_LOW(x));
}

/* A fresh sheet, a copy of it, and every call on them. */
const char *sheet_later(uint32_t *out, size_t out_len);

const char *sheet_later(uint32_t *out, size_t out_len)
{
    milebadger_sheet sheet = {0}, copy = sheet;
    int64_t result = milebadger_version() == MILEBADGER_VERSION ? milebadger_open(&sheet, words, 2) : 0;
    result += milebadger_add(&sheet, words + 2, 2) + milebadger_strike(&copy, MILEBADGER_MOST_EQUATIONS);
    result += milebadger_add_text(&sheet, lines, MILEBADGER_LONGEST_TEXT);
    result += milebadger_answer(&copy, out, out_len);
    const int64_t mark = milebadger_mark(&sheet, out, out_len);
    if (mark == MILEBADGER_PASS || mark == MILEBADGER_LONG)
        return milebadger_sentence(result);
    return milebadger_sentence(MILEBADGER_FAIL);
}

/* The mark of the first of a class's claims, from a byte that is known only here. */
const char *class_later(const milebadger_sheet *sheet, const uint32_t *claims, size_t count);

const char *class_later(const milebadger_sheet *sheet, const uint32_t *claims, size_t count)
{
    uint8_t marks[MILEBADGER_MOST_CLAIMS] = {0};
    int64_t result = milebadger_class(sheet, claims, count, marks, sizeof marks);
    return milebadger_sentence(result > 0 ? MILEBADGER_MARK(marks[0]) : result);
}

/* What a reason names, of a claim that is known only here. Each reason has a case of its own, and so has a claim that passes. */
uint32_t reason_later(const milebadger_sheet *sheet, const uint32_t *claim, size_t count);

uint32_t reason_later(const milebadger_sheet *sheet, const uint32_t *claim, size_t count)
{
    int64_t (*const call)(const milebadger_sheet *, const uint32_t *, size_t, uint32_t *, size_t, uint32_t *,
                          size_t) = milebadger_reason;
    uint32_t at[3] = {0}, out[MILEBADGER_LONGEST_REASON] = {0};
    switch (call(sheet, claim, count, at, 3, out, MILEBADGER_LONGEST_REASON)) {
    case 0:
        return 0;
    case MILEBADGER_REASON_SOLVABLE:
    case MILEBADGER_REASON_UNSOLVABLE:
    case MILEBADGER_REASON_MISSED:
        return at[2] > 0 ? MILEBADGER_NUMBER(out[at[2] - 1]) : 0;
    case MILEBADGER_REASON_START:
        return at[1];
    case MILEBADGER_REASON_STEP:
    case MILEBADGER_REASON_SUPERFLUOUS:
        return at[0];
    default:
        return MILEBADGER_LARGEST_NUMBER;
    }
}

/* A sheet for a wanted answer: equations for a claim that is known only here are read one behind the other, and added. */
int64_t wanted_later(milebadger_sheet *sheet, uint32_t m, uint32_t n, const uint32_t *claim, size_t count);

int64_t wanted_later(milebadger_sheet *sheet, uint32_t m, uint32_t n, const uint32_t *claim, size_t count)
{
    int64_t (*const call)(uint32_t, uint32_t, const uint32_t *, size_t, uint32_t *, size_t) = milebadger_sheet_for;
    int64_t result = call(m, n, claim, count, made, sizeof made / sizeof *made), held = 0;
    size_t from = 0, to = 0;
    uint32_t number = 0;
    for (int64_t i = 0; i < result; i++, from = to) {
        for (uint32_t j = 0; j <= n; j++)
            to += milebadger_read(made + to, &number);
        held = milebadger_add(sheet, made + from, to - from);
    }
    return result < 0 ? result : held;
}

/* The numbers of a congruence may have a sign, and need no cast. */
int64_t congruence_later(int32_t a, uint32_t *out);

int64_t congruence_later(int32_t a, uint32_t *out)
{
    int64_t (*const call)(int32_t, int32_t, uint32_t, uint32_t *, size_t) = milebadger_congruence;
    return call(a, -1, MILEBADGER_LARGEST_MODULUS, out, 2) + milebadger_congruence(-a, INT32_MIN, 2, out, 2);
}

/* Every result has a case of its own. */
int kinds_of_results(int64_t result);

int kinds_of_results(int64_t result)
{
    switch (result) {
    case MILEBADGER_PASS:
    case MILEBADGER_LONG:
    case MILEBADGER_FAIL:
        return 0;
    case MILEBADGER_REFUSED_SHAPE:
    case MILEBADGER_REFUSED_MODULUS:
    case MILEBADGER_REFUSED_UNKNOWNS:
    case MILEBADGER_REFUSED_UNOPENED:
    case MILEBADGER_REFUSED_FULL:
    case MILEBADGER_REFUSED_NUMBER:
    case MILEBADGER_REFUSED_NOTHING_TO_STRIKE:
    case MILEBADGER_REFUSED_BUFFER:
    case MILEBADGER_REFUSED_LEFT_OVER:
    case MILEBADGER_REFUSED_TAPE:
    case MILEBADGER_REFUSED_TEXT:
    case MILEBADGER_REFUSED_BEYOND:
    case MILEBADGER_REFUSED_NOT_LINEAR:
    case MILEBADGER_REFUSED_CLAIMS:
    case MILEBADGER_REFUSED_OWN_MODULUS:
    case MILEBADGER_REFUSED_PLACE:
    case MILEBADGER_REFUSED_TOP:
        return 1;
    default:
        return 2;
    }
}
