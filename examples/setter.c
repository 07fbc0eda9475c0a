/* The exercise setter's page of README.md, which shows it from the first #include on: pick the solutions, get the sheet, print it. */
#include <inttypes.h>
#include <stdio.h>

#include "milebadger.h"

#define MODULUS 12
#define UNKNOWNS 3

/* Prints an equation as a textbook does: x for 1x, and nothing for 0x. How many words it has. */
static size_t print_equation(const uint32_t *words)
{
    const char *plus = "";
    uint32_t number;
    size_t at = 0;
    for (int i = 0; i < UNKNOWNS; i++) {
        at += milebadger_read(words + at, &number);
        if (number > 1)
            printf("%s%" PRIu32 "%c", plus, number, "xyz"[i]);
        if (number == 1)
            printf("%s%c", plus, "xyz"[i]);
        if (number > 0)
            plus = " + ";
    }
    at += milebadger_read(words + at, &number);
    printf("%s = %" PRIu32 " (mod %d)\n", *plus ? "" : "0", number, MODULUS);
    return at;
}

int main(void)
{
    /* from 1 2 2, step 6 4 3: twelve solutions */
    const uint32_t wanted[] = {MILEBADGER_HEAD(2), MILEBADGER_ENTRY(1), MILEBADGER_ENTRY(2), MILEBADGER_ENTRY(2),
                               MILEBADGER_ENTRY(6), MILEBADGER_ENTRY(4), MILEBADGER_ENTRY(3)};
    uint32_t words[MILEBADGER_SHEET_ROOM(UNKNOWNS)];
    int64_t equations = milebadger_sheet_for(MODULUS, UNKNOWNS, wanted, 7, words, MILEBADGER_SHEET_ROOM(UNKNOWNS));

    if (equations < 0)
        puts(milebadger_sentence(equations));
    for (size_t at = 0; equations > 0; equations--)
        at += print_equation(words + at);
    return 0;
}
