/* A teacher corrects an exercise: of its three lines the first two contradict each other. Each line is struck in turn on a copy of the sheet;
 * then the one in the middle goes, and the third is the second. */
#include <inttypes.h>
#include <stdbool.h>
#include <stdio.h>
#include <string.h>

#include "milebadger.h"

#define UNKNOWNS 2

/* The page keeps the lines as they were typed. */
struct page {
    milebadger_sheet sheet;
    const char *lines[MILEBADGER_MOST_EQUATIONS];
    int64_t held;
};

/* Whether a call was made. If not, the page says why, and nothing has changed. */
static bool made(int64_t result)
{
    if (result < 0)
        printf("    refused: %s\n", milebadger_sentence(result));
    return result >= 0;
}

static void type_line(struct page *page, const char *text)
{
    printf("%s\n", text);
    int64_t held = milebadger_add_text(&page->sheet, (const uint8_t *)text, strlen(text));
    if (made(held)) {
        page->lines[held - 1] = text;
        page->held = held;
    }
}

/* The line at a place, 1 for the first; 0 is the last. As on the sheet, those behind it close up. */
static bool strike_line(struct page *page, uint32_t place)
{
    int64_t held = milebadger_strike(&page->sheet, place);
    if (!made(held))
        return false;
    int64_t gone = place == 0 ? held : (int64_t)place - 1;
    for (int64_t i = gone; i < held; i++)
        page->lines[i] = page->lines[i + 1];
    page->held = held;
    return true;
}

/* The starting vector and the steps, as entries of two unknowns. */
static void show_answer(const struct page *page)
{
    uint32_t block[MILEBADGER_LONGEST_BLOCK_WORDS];
    int64_t count = milebadger_answer(&page->sheet, block, MILEBADGER_LONGEST_BLOCK_WORDS);
    if (!made(count))
        return;
    if (MILEBADGER_NUMBER(block[0]) == 0)
        printf("    no solution");
    else
        for (int64_t i = 1; i < count; i += UNKNOWNS)
            printf("%s %" PRIu32 " %" PRIu32, i == 1 ? "    from" : ", step", MILEBADGER_NUMBER(block[i]), MILEBADGER_NUMBER(block[i + 1]));
    printf("\n");
}

static void correct(struct page *page, uint32_t place)
{
    printf("line %" PRIu32 " goes\n", place);
    if (!strike_line(page, place))
        return;
    for (int64_t i = 0; i < page->held; i++)
        printf("    %" PRId64 ".  %s\n", i + 1, page->lines[i]);
    show_answer(page);
}

int main(void)
{
    const uint32_t opening[] = {MILEBADGER_MODULUS(12), MILEBADGER_UNKNOWNS(UNKNOWNS)};
    struct page page = {0};

    if (!made(milebadger_open(&page.sheet, opening, 2)))
        return 1;
    type_line(&page, "x1 + x2 = 7");
    type_line(&page, "2*x1 + 2*x2 = 4");
    type_line(&page, "x1 - 4*x2 = 2");
    show_answer(&page);
    for (uint32_t place = 1; place <= 3; place++) {
        struct page copy = page;
        printf("without line %" PRIu32 "\n", place);
        if (strike_line(&copy, place))
            show_answer(&copy);
    }
    correct(&page, 2);
    correct(&page, 3); /* the third line is the second now */
    correct(&page, 1);
    return 0;
}
