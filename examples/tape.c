/* Exercises as tapes: the words of all calls at once, and the lines that they give. */
#include <inttypes.h>
#include <stdio.h>

#include "milebadger.h"

/* The lines of a tape with these words, by milebadger_tape. */
static void show_lines(const char *title, const uint32_t *words, size_t count)
{
    uint8_t tape[256], lines[MILEBADGER_LINES_ROOM(sizeof tape)];
    if (count > sizeof tape / 4)
        return;
    for (size_t i = 0; i < 4 * count; i++)
        tape[i] = (uint8_t)(words[i / 4] >> 8 * (i % 4)); /* low byte first */
    int64_t result = milebadger_tape(tape, 4 * count, lines, sizeof lines);

    printf("%s:\n", title);
    if (result < 0)
        printf("refused %" PRId64 "\n", -result);
    else
        fwrite(lines, 1, (size_t)result, stdout);
}

/* The exercise x + 2y = 0 mod 4: its answer, a claim in another form, a claim that is one step short, a second equation that
 * contradicts the first and is struck again, and claims of no solution and of an entry that is no residue mod 4. */
static void show_exercise(void)
{
    const uint32_t words[] = {
        MILEBADGER_MODULUS(4), MILEBADGER_UNKNOWNS(2),
        MILEBADGER_COEFFICIENT(1), MILEBADGER_COEFFICIENT(2), MILEBADGER_RIGHT(0),
        MILEBADGER_ANSWER,
        MILEBADGER_HEAD(2), MILEBADGER_ENTRY(0), MILEBADGER_ENTRY(0), MILEBADGER_ENTRY(2), MILEBADGER_ENTRY(3),
        MILEBADGER_HEAD(2), MILEBADGER_ENTRY(0), MILEBADGER_ENTRY(0), MILEBADGER_ENTRY(0), MILEBADGER_ENTRY(2),
        MILEBADGER_COEFFICIENT(2), MILEBADGER_COEFFICIENT(0), MILEBADGER_RIGHT(1),
        MILEBADGER_ANSWER,
        MILEBADGER_STRIKE,
        MILEBADGER_HEAD(0),
        MILEBADGER_HEAD(1), MILEBADGER_ENTRY(0), MILEBADGER_ENTRY(4),
    };
    show_lines("x + 2y = 0 mod 4", words, sizeof words / sizeof *words);
}

/* The exercise x - 2y = -1 mod 7, and the same once more: mod 7, -6 is 1, 12 is -2, and 700,006 is -1. */
static void show_signs(void)
{
    const uint32_t words[] = {
        MILEBADGER_MODULUS(7), MILEBADGER_UNKNOWNS(2),
        MILEBADGER_COEFFICIENT(1), MILEBADGER_MINUS_COEFFICIENT(2), MILEBADGER_MINUS_RIGHT(1),
        MILEBADGER_ANSWER,
        MILEBADGER_MINUS_COEFFICIENT(6), MILEBADGER_COEFFICIENT(12), MILEBADGER_RIGHT(700006),
        MILEBADGER_ANSWER,
    };
    show_lines("x - 2y = -1 and -6x + 12y = 700006 mod 7", words, sizeof words / sizeof *words);
}

/* A call that is refused leaves the sheet as it is: the answer is that of the one equation that was accepted. */
static void show_refusals(void)
{
    const uint32_t words[] = {
        MILEBADGER_ANSWER, /* not opened yet */
        MILEBADGER_MODULUS(1), MILEBADGER_UNKNOWNS(1),
        MILEBADGER_MODULUS(12), MILEBADGER_UNKNOWNS(1),
        MILEBADGER_COEFFICIENT(4), MILEBADGER_RIGHT(8),
        MILEBADGER_HEAD(1), MILEBADGER_ENTRY(12), /* 12 is no residue mod 12 */
        MILEBADGER_ANSWER,
    };
    show_lines("4t = 8 mod 12, and what is refused", words, sizeof words / sizeof *words);
}

int main(void)
{
    show_exercise();
    show_signs();
    show_refusals();
    return 0;
}
