/* Right but long: claims with a step that is a combination of the others. The page leaves such steps out, one after the other, until the
 * claim passes. */
#include <inttypes.h>
#include <stdbool.h>
#include <stdio.h>
#include <string.h>

#include "milebadger.h"

#define UNKNOWNS 2
#define ENTRIES (4 * UNKNOWNS) /* of the longest claim below */

/* Whether a call was made. If not, the page says why, and nothing has changed. */
static bool made(int64_t result)
{
    if (result < 0)
        printf("    refused: %s\n", milebadger_sentence(result));
    return result >= 0;
}

static void show_vectors(uint32_t vectors, const uint32_t *words)
{
    for (uint32_t i = 0; i < vectors * UNKNOWNS; i++)
        printf("%s %" PRIu32, i == 0 ? " from" : i % UNKNOWNS == 0 ? ", step" : "", MILEBADGER_NUMBER(words[1 + i]));
    printf("\n");
}

/* The words without this step, 1 for the first: those behind it close up. */
static void leave_out(uint32_t step, uint32_t vectors, uint32_t *words)
{
    uint32_t *gone = words + 1 + step * UNKNOWNS;
    memmove(gone, gone + UNKNOWNS, (vectors - 1 - step) * UNKNOWNS * sizeof *words);
    words[0] = MILEBADGER_HEAD(vectors - 1);
}

/* A claim in words, which are shortened. */
static void mark_words(const milebadger_sheet *sheet, const char *who, uint32_t *words)
{
    uint32_t vectors = MILEBADGER_NUMBER(words[0]), at[3], shown[MILEBADGER_LONGEST_REASON];
    printf("%s says", who);
    show_vectors(vectors, words);
    int64_t mark = milebadger_mark(sheet, words, 1 + vectors * UNKNOWNS);
    while (mark == MILEBADGER_LONG) {
        if (!made(milebadger_reason(sheet, words, 1 + vectors * UNKNOWNS, at, 3, shown, MILEBADGER_LONGEST_REASON)))
            return;
        printf("    long: step %" PRIu32 " follows from the others\n    without it:", at[0]);
        leave_out(at[0], vectors--, words);
        show_vectors(vectors, words);
        mark = milebadger_mark(sheet, words, 1 + vectors * UNKNOWNS);
    }
    if (made(mark))
        printf("    %s\n", mark == MILEBADGER_PASS ? "pass" : "fail");
}

static void mark_claim(const milebadger_sheet *sheet, const char *who, uint32_t vectors, const uint32_t *entries)
{
    uint32_t words[1 + ENTRIES] = {MILEBADGER_HEAD(vectors)};
    for (uint32_t i = 0; i < vectors * UNKNOWNS; i++)
        words[1 + i] = MILEBADGER_ENTRY(entries[i]);
    mark_words(sheet, who, words);
}

static bool open_sheet(milebadger_sheet *sheet, uint32_t m, const char *equation)
{
    const uint32_t opening[] = {MILEBADGER_MODULUS(m), MILEBADGER_UNKNOWNS(UNKNOWNS)};
    printf("%s mod %" PRIu32 "\n", equation, m);
    return made(milebadger_open(sheet, opening, 2)) && made(milebadger_add_text(sheet, (const uint8_t *)equation, strlen(equation)));
}

int main(void)
{
    uint32_t block[MILEBADGER_LONGEST_BLOCK_WORDS];
    milebadger_sheet sheet = {0};

    if (!open_sheet(&sheet, 4, "x1 + 2*x2 = 0"))
        return 1;
    if (made(milebadger_answer(&sheet, block, MILEBADGER_LONGEST_BLOCK_WORDS)))
        mark_words(&sheet, "The answer", block); /* twice 2 1 is 0 2 */
    mark_claim(&sheet, "Ada", 2, (const uint32_t[]){0, 0, 2, 3});
    mark_claim(&sheet, "Ben", 3, (const uint32_t[]){2, 1, 2, 1, 2, 3}); /* each is three times the other */
    mark_claim(&sheet, "Cleo", 4, (const uint32_t[]){0, 0, 0, 2, 0, 0, 2, 3});
    mark_claim(&sheet, "Dora", 3, (const uint32_t[]){0, 0, 0, 2, 0, 2}); /* two of the four solutions */

    if (!open_sheet(&sheet, 6, "x1 = 5"))
        return 1;
    mark_claim(&sheet, "Eli", 3, (const uint32_t[]){5, 0, 0, 2, 0, 3}); /* 0 1 alone would do, but neither follows from the other */
    return 0;
}
