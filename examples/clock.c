/* A clock exercise: a sheet mod 12, for the hours, with lines that are meant mod 3, mod 4 and mod 6. */
#include <inttypes.h>
#include <stdbool.h>
#include <stdio.h>

#include "milebadger.h"

#define HOURS 12

/* A line says that the hour is so much mod q. The page keeps what was said, to show it again. */
struct line {
    uint32_t q, hour;
};

struct page {
    milebadger_sheet sheet;
    struct line lines[MILEBADGER_MOST_EQUATIONS];
};

/* Whether a call was made. If not, the page says why, and nothing has changed. */
static bool made(int64_t result)
{
    if (result < 0)
        printf("    refused: %s\n", milebadger_sentence(result));
    return result >= 0;
}

/* A multiplier belongs to its line with both sides times 12 / q. So multiplied, the lines add up to one that nothing solves. */
static void show_contradiction(const struct page *page, int64_t held, const uint32_t *multipliers)
{
    uint32_t left = 0, right = 0;
    for (int64_t i = 0; i < held; i++) {
        uint32_t times = MILEBADGER_NUMBER(multipliers[i]) * (HOURS / page->lines[i].q);
        left += times;
        right += times * page->lines[i].hour;
    }
    printf("    no hour: multiplied, the lines add up to %" PRIu32 "*x1 = a number that is %s0 mod 12\n", left % HOURS,
           right % HOURS == 0 ? "" : "not ");
}

/* The first hour that all lines allow and, where there are others, how far it is from one to the next: one unknown, so that
 * a vector is one word. */
static void show_answer(const struct page *page)
{
    uint32_t block[MILEBADGER_LONGEST_BLOCK_WORDS];
    int64_t count = milebadger_answer(&page->sheet, block, MILEBADGER_LONGEST_BLOCK_WORDS);
    if (!made(count))
        return;
    if (MILEBADGER_NUMBER(block[0]) == 0)
        show_contradiction(page, count - 1, block + 1);
    else
        for (int64_t i = 1; i < count; i++)
            printf("%s %" PRIu32 "%s", i == 1 ? "    from" : ", step", MILEBADGER_NUMBER(block[i]), i + 1 < count ? "" : "\n");
}

static void add_line(struct page *page, uint32_t q, uint32_t hour)
{
    const uint32_t words[] = {MILEBADGER_OWN_MODULUS(q), MILEBADGER_COEFFICIENT(1), MILEBADGER_RIGHT(hour)};
    printf("x1 = %" PRIu32 " mod %" PRIu32 "\n", hour, q);
    int64_t held = milebadger_add(&page->sheet, words, 3);
    if (made(held)) {
        page->lines[held - 1] = (struct line){q, hour};
        show_answer(page);
    }
}

/* A student claims an hour, and a step to others, or 0 for that hour alone: a claim of one step that is not 0 is never long. */
static void mark_claim(const struct page *page, const char *student, uint32_t hour, uint32_t step)
{
    const uint32_t vectors = step == 0 ? 1 : 2;
    const uint32_t words[] = {MILEBADGER_HEAD(vectors), MILEBADGER_ENTRY(hour), MILEBADGER_ENTRY(step)};
    uint32_t at[3] = {0}, shown[MILEBADGER_LONGEST_REASON];
    printf("%s says from %" PRIu32, student, hour);
    if (vectors == 2)
        printf(", step %" PRIu32, step);
    printf("\n");
    int64_t reason = milebadger_reason(&page->sheet, words, 1 + vectors, at, 3, shown, MILEBADGER_LONGEST_REASON);
    if (!made(reason))
        return;
    printf("    %s", reason == 0 ? "pass\n" : "fail: ");
    if (reason == MILEBADGER_REASON_START)
        printf("%" PRIu32 " is not %" PRIu32 " mod %" PRIu32 "\n", hour, page->lines[at[1] - 1].hour, page->lines[at[1] - 1].q);
    else if (reason == MILEBADGER_REASON_STEP)
        printf("%" PRIu32 " more is another hour mod %" PRIu32 "\n", step, page->lines[at[1] - 1].q);
    else if (reason != 0)
        printf("another reason, %" PRId64 "\n", reason);
}

int main(void)
{
    const uint32_t opening[] = {MILEBADGER_MODULUS(HOURS), MILEBADGER_UNKNOWNS(1)};
    struct page page = {0};

    if (!made(milebadger_open(&page.sheet, opening, 2)))
        return 1;
    add_line(&page, 3, 2);
    add_line(&page, 4, 3);
    mark_claim(&page, "Ada", 11, 0);
    mark_claim(&page, "Ben", 8, 0);
    mark_claim(&page, "Cleo", 11, 6); /* 6 is 0 mod 3, but 2 mod 4 */
    add_line(&page, 5, 1);
    add_line(&page, 6, 4); /* 11 is 5 mod 6 */
    return 0;
}
