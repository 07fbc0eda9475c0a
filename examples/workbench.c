/* A small workbench: a page for each student, with a sheet of its own, and everything shown as people write it. */
#include <assert.h>
#include <inttypes.h>
#include <stdbool.h>
#include <stdio.h>
#include <string.h>

#include "milebadger.h"

#define UNKNOWNS 3 /* this workbench has no more letters */
static const char factor[] = "stu";

/* The page keeps the lines as they were typed: what a sheet's numbers stand for is the library's business. */
struct page {
    const char *student, *lines[MILEBADGER_MOST_EQUATIONS];
    milebadger_sheet sheet;
    uint32_t m, n;
};

/* Whether a call was made. If not, the page says why, and nothing has changed. */
static bool made(int64_t result)
{
    if (result < 0)
        printf("    refused: %s\n", milebadger_sentence(result));
    return result >= 0;
}

static void open_sheet(struct page *page, uint32_t m, uint32_t n)
{
    const uint32_t words[] = {MILEBADGER_MODULUS(m), MILEBADGER_UNKNOWNS(n)};
    assert(n <= UNKNOWNS);
    printf("%s opens a sheet mod %" PRIu32 "\n", page->student, m);
    if (made(milebadger_open(&page->sheet, words, 2))) {
        page->m = m;
        page->n = n;
    }
}

static void type_line(struct page *page, const char *text)
{
    printf("%s types %s\n", page->student, text);
    int64_t held = milebadger_add_text(&page->sheet, (const uint8_t *)text, strlen(text));
    if (made(held))
        page->lines[held - 1] = text;
}

static void strike_line(struct page *page)
{
    printf("%s strikes the last line\n", page->student);
    made(milebadger_strike(&page->sheet, 0));
}

/* Behind what stands there already. */
static void show_term(uint32_t times, char letter)
{
    if (times == 1)
        printf(" + %c", letter);
    else if (times > 1)
        printf(" + %" PRIu32 "*%c", times, letter);
}

/* With d the first entry of a step that is not 0, its factor runs from 0 to m / d - 1: so each solution comes once. */
static void show_solutions(const struct page *page, uint32_t vectors, const uint32_t *entries)
{
    uint64_t solutions = 1;
    for (uint32_t i = 0; i < page->n; i++) {
        printf("    x%" PRIu32 " = %" PRIu32, i + 1, entries[i]);
        for (uint32_t v = 1; v < vectors; v++)
            show_term(entries[v * page->n + i], factor[v - 1]);
        printf("\n");
    }
    for (uint32_t v = 1; v < vectors; v++) {
        const uint32_t *d = entries + v * page->n;
        while (*d == 0)
            d++;
        solutions *= page->m / *d;
        printf("%s %c from 0 to %" PRIu32, v == 1 ? "    for" : ",", factor[v - 1], page->m / *d - 1);
    }
    printf("%s solutions mod %" PRIu32 ": %" PRIu64 "\n", vectors == 1 ? "   " : ";", page->m, solutions);
}

/* The lines times their multipliers add up to one that nothing solves. */
static void show_contradiction(const struct page *page, int64_t held, const uint32_t *multipliers)
{
    for (int64_t k = 0; k < held; k++)
        printf("    %5" PRIu32 " times  %s\n", multipliers[k], page->lines[k]);
    printf("    add up to 0 = a number that is not 0 mod %" PRIu32 ": no solution\n", page->m);
}

static void show_vector(const char *what, uint32_t n, const uint32_t *entries)
{
    printf("    %s", what);
    for (uint32_t i = 0; i < n; i++)
        printf(" %" PRIu32, entries[i]);
    printf("\n");
}

/* Why a claim fails, or is long. */
static void show_reason(const struct page *page, const uint32_t *claim, size_t count)
{
    uint32_t at[3] = {0}, shown[MILEBADGER_LONGEST_REASON];
    int64_t reason = milebadger_reason(&page->sheet, claim, count, at, 3, shown, MILEBADGER_LONGEST_REASON);
    for (uint32_t i = 0; i < at[2]; i++)
        shown[i] = MILEBADGER_NUMBER(shown[i]);
    switch (reason) {
    case MILEBADGER_REASON_SOLVABLE:
        show_vector("there is a solution:", page->n, shown);
        break;
    case MILEBADGER_REASON_UNSOLVABLE:
        show_contradiction(page, at[2], shown);
        break;
    case MILEBADGER_REASON_START:
        printf("    the start does not solve line %" PRIu32 ": %s\n", at[1], page->lines[at[1] - 1]);
        break;
    case MILEBADGER_REASON_STEP:
        printf("    step %" PRIu32 " changes the left side of line %" PRIu32 ": %s\n", at[0], at[1], page->lines[at[1] - 1]);
        break;
    case MILEBADGER_REASON_MISSED:
        show_vector("this solution is missing:", page->n, shown);
        break;
    case MILEBADGER_REASON_SUPERFLUOUS:
        printf("    step %" PRIu32 " is superfluous: it is a combination of the others\n", at[0]);
        break;
    default:
        made(reason);
    }
}

static void show_mark(int64_t mark)
{
    if (made(mark))
        printf("    as a claim: %s\n", mark == MILEBADGER_PASS ? "pass" : mark == MILEBADGER_LONG ? "long" : "fail");
}

/* The hint page. The block is handed back as a claim too; where there is no solution, its head alone. */
static void show_answer(const struct page *page)
{
    uint32_t block[MILEBADGER_LONGEST_BLOCK_WORDS];
    printf("%s asks for the answer\n", page->student);
    int64_t count = milebadger_answer(&page->sheet, block, MILEBADGER_LONGEST_BLOCK_WORDS);
    if (!made(count))
        return;
    uint32_t vectors = MILEBADGER_NUMBER(block[0]);
    int64_t mark = milebadger_mark(&page->sheet, block, 1 + vectors * page->n);
    for (int64_t i = 0; i < count; i++)
        block[i] = MILEBADGER_NUMBER(block[i]);
    if (vectors == 0)
        show_contradiction(page, count - 1, block + 1);
    else
        show_solutions(page, vectors, block + 1);
    show_mark(mark);
}

/* A claim of so many vectors, start and steps, with these entries; of none for "no solution". */
static void mark_claim(const struct page *page, uint32_t vectors, const uint32_t *entries)
{
    uint32_t words[1 + MILEBADGER_LARGEST_HEAD * UNKNOWNS] = {MILEBADGER_HEAD(vectors)};
    assert(vectors <= MILEBADGER_LARGEST_HEAD);
    printf("%s says%s", page->student, vectors == 0 ? " that there is no solution" : "");
    for (uint32_t i = 0; i < vectors * page->n; i++) {
        words[1 + i] = MILEBADGER_ENTRY(entries[i]);
        printf("%s %" PRIu32, i == 0 ? " from" : i % page->n == 0 ? ", step" : "", entries[i]);
    }
    printf("\n");
    int64_t mark = milebadger_mark(&page->sheet, words, 1 + vectors * page->n);
    show_mark(mark);
    if (mark == MILEBADGER_FAIL || mark == MILEBADGER_LONG)
        show_reason(page, words, 1 + vectors * page->n);
}

int main(void)
{
    if (milebadger_version() / 10000 != MILEBADGER_VERSION / 10000) {
        printf("compiled for another version of the library\n");
        return 1;
    }

    struct page ada = {.student = "Ada"}, ben = {.student = "Ben"}, dora = {.student = "Dora"};
    open_sheet(&ada, 12, 2);
    type_line(&ada, "2*x1 + 3*x2 = 5");
    show_answer(&ada);
    mark_claim(&ada, 2, (const uint32_t[]){1, 1, 3, 2}); /* one step that says what two say */
    mark_claim(&ada, 3, (const uint32_t[]){1, 1, 0, 4, 3, 2});
    mark_claim(&ada, 2, (const uint32_t[]){1, 1, 0, 4}); /* three of the twelve */

    show_answer(&ben);
    open_sheet(&ben, 1, 3);
    open_sheet(&ben, 2, 3);
    strike_line(&ben);
    type_line(&ben, "x1 + x2 = 1");
    type_line(&ben, "x2 + x3 = 1");
    type_line(&ben, "x1 = 1 - x3");
    show_answer(&ben);
    mark_claim(&ben, 1, (const uint32_t[]){0, 1, 0});
    strike_line(&ben);
    show_answer(&ben);
    mark_claim(&ben, 0, NULL);
    mark_claim(&ben, 2, (const uint32_t[]){0, 0, 0, 1, 1, 1});
    mark_claim(&ben, 2, (const uint32_t[]){0, 1, 0, 1, 1, 0});
    mark_claim(&ben, 1, (const uint32_t[]){0, 1, 0});

    struct page cleo = ada; /* the sheet is copied with the page */
    cleo.student = "Cleo";
    type_line(&cleo, "x1 = 4 * 4");
    show_answer(&cleo);

    open_sheet(&dora, 12, 3);
    type_line(&dora, "2x1 = 1");
    type_line(&dora, "x4 = 1");
    type_line(&dora, "x1*(x2 - x2) = 1");
    type_line(&dora, "3*(x1 - 2*x2) + x3 = 5 - x1");
    show_answer(&dora);
    return 0;
}
