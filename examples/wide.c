/* A college course: moduli of 32 bits. A number of 2^28 or more takes two words; milebadger_write puts down one or two, as the number
 * needs them, and milebadger_read reads them again. */
#include <inttypes.h>
#include <stdbool.h>
#include <stdio.h>

#include "milebadger.h"

#define UNKNOWNS 2
#define VECTORS 3 /* of the longest claim below */

/* Whether a call was made. If not, the page says why, and nothing has changed. */
static bool made(int64_t result)
{
    if (result < 0)
        printf("    refused: %s\n", milebadger_sentence(result));
    return result >= 0;
}

static bool open_sheet(milebadger_sheet *sheet, uint32_t m)
{
    uint32_t words[3];
    size_t count = milebadger_write(words, MILEBADGER_MODULUS(0), m);
    count += milebadger_write(words + count, MILEBADGER_UNKNOWNS(0), UNKNOWNS);
    printf("a sheet mod %" PRIu32 ", opened with %zu words\n", m, count);
    return made(milebadger_open(sheet, words, count));
}

/* A number of an equation, which may have a sign: the kind of its word says so. */
static size_t put(uint32_t *words, uint32_t plus, uint32_t minus, int64_t number)
{
    return number < 0 ? milebadger_write(words, minus, (uint32_t)-number) : milebadger_write(words, plus, (uint32_t)number);
}

static void add_line(milebadger_sheet *sheet, int64_t a, int64_t b, int64_t right)
{
    uint32_t words[2 * (UNKNOWNS + 1)];
    size_t count = put(words, MILEBADGER_COEFFICIENT(0), MILEBADGER_MINUS_COEFFICIENT(0), a);
    count += put(words + count, MILEBADGER_COEFFICIENT(0), MILEBADGER_MINUS_COEFFICIENT(0), b);
    count += put(words + count, MILEBADGER_RIGHT(0), MILEBADGER_MINUS_RIGHT(0), right);
    printf("%" PRId64 "*x1 + %" PRId64 "*x2 = %" PRId64 "\n", a, b, right);
    made(milebadger_add(sheet, words, count));
}

/* The vectors of a block or of a claim, from its head on. */
static void show_vectors(const uint32_t *words)
{
    uint32_t vectors, entry;
    size_t at = milebadger_read(words, &vectors);
    for (uint32_t i = 0; i < vectors * UNKNOWNS; i++) {
        at += milebadger_read(words + at, &entry);
        printf("%s %" PRIu32, i == 0 ? " from" : i % UNKNOWNS == 0 ? ", step" : "", entry);
    }
    printf("%s\n", vectors == 0 ? " that there is no solution" : "");
}

/* And the block is handed back as a claim. */
static void show_answer(const milebadger_sheet *sheet)
{
    uint32_t block[MILEBADGER_LONGEST_BLOCK_WORDS];
    int64_t count = milebadger_answer(sheet, block, MILEBADGER_LONGEST_BLOCK_WORDS);
    if (!made(count))
        return;
    printf("    the answer says");
    show_vectors(block);
    int64_t mark = milebadger_mark(sheet, block, (size_t)count);
    const char *marked = mark == MILEBADGER_PASS ? "pass" : mark == MILEBADGER_LONG ? "long" : "fail";
    if (made(mark))
        printf("    %" PRId64 " words, as a claim: %s\n", count, marked);
}

static void mark_words(const milebadger_sheet *sheet, const uint32_t *words, size_t count)
{
    uint32_t at[3], shown[MILEBADGER_LONGEST_REASON], entry;
    int64_t reason = milebadger_reason(sheet, words, count, at, 3, shown, MILEBADGER_LONGEST_REASON);
    if (!made(reason))
        return;
    printf("    %s", reason == 0 ? "pass" : reason == MILEBADGER_REASON_SUPERFLUOUS ? "long" : "fail");
    if (reason == MILEBADGER_REASON_START)
        printf(": the start does not solve line %" PRIu32, at[1]);
    if (reason == MILEBADGER_REASON_SOLVABLE) {
        printf(": here is a solution, in %" PRIu32 " words:", at[2]);
        for (size_t place = 0; place < at[2];) {
            place += milebadger_read(shown + place, &entry);
            printf(" %" PRIu32, entry);
        }
    }
    printf("\n");
}

static void mark_claim(const milebadger_sheet *sheet, const char *who, uint32_t vectors, const uint32_t *entries)
{
    uint32_t words[1 + 2 * VECTORS * UNKNOWNS] = {MILEBADGER_HEAD(vectors)};
    size_t count = 1;
    for (uint32_t i = 0; i < vectors * UNKNOWNS; i++)
        count += milebadger_write(words + count, MILEBADGER_ENTRY(0), entries[i]);
    printf("%s says", who);
    show_vectors(words);
    mark_words(sheet, words, count);
}

int main(void)
{
    milebadger_sheet sheet = {0};

    if (!open_sheet(&sheet, 4294967291)) /* a prime */
        return 1;
    add_line(&sheet, 3000000000, -7, 1);
    show_answer(&sheet);
    mark_claim(&sheet, "Ada", 2, (const uint32_t[]){4000000000, 1287902432, 4294967290, 1412128839});
    mark_claim(&sheet, "Ben", 1, (const uint32_t[]){4000000000, 1287902433});
    mark_claim(&sheet, "Cleo", 0, NULL);
    mark_claim(&sheet, "Dora", 1, (const uint32_t[]){0, 4294967291}); /* the modulus is no residue */
    add_line(&sheet, 1, 4000000000, -2);
    show_answer(&sheet);

    if (!open_sheet(&sheet, MILEBADGER_LARGEST_MODULUS)) /* 3 times 1,431,655,765 */
        return 1;
    add_line(&sheet, 3, 0, 6);
    add_line(&sheet, 0, 1431655765, -1431655765);
    show_answer(&sheet);

    /* Without milebadger_write: TOP goes before numbers of 2^28 or more, and before no other. */
    const uint32_t right[] = {MILEBADGER_HEAD(3), MILEBADGER_TOP(1431655767), MILEBADGER_ENTRY(MILEBADGER_LOW(1431655767)),
                              MILEBADGER_ENTRY(2), MILEBADGER_TOP(1431655765), MILEBADGER_ENTRY(MILEBADGER_LOW(1431655765)),
                              MILEBADGER_ENTRY(0), MILEBADGER_ENTRY(0), MILEBADGER_ENTRY(3)};
    const uint32_t misplaced[] = {MILEBADGER_HEAD(1), MILEBADGER_TOP(2), MILEBADGER_ENTRY(2), MILEBADGER_ENTRY(2)};
    printf("Eli says");
    show_vectors(right);
    mark_words(&sheet, right, sizeof right / sizeof *right);
    printf("Finn writes a TOP before 2\n");
    mark_words(&sheet, misplaced, sizeof misplaced / sizeof *misplaced);
    return 0;
}
