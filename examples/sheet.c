/* The exercise at the head of milebadger.h and in README.md, which show it from the first #include on. */
#include <inttypes.h>
#include <stdio.h>

#include "milebadger.h"

int main(void)
{
    const uint32_t opening[] = {MILEBADGER_MODULUS(4), MILEBADGER_UNKNOWNS(2)};
    const uint8_t equation[] = "x1 + 2*x2 = 0";
    const uint32_t claim[] = {MILEBADGER_HEAD(2), MILEBADGER_ENTRY(0), MILEBADGER_ENTRY(0),
                              MILEBADGER_ENTRY(2), MILEBADGER_ENTRY(3)};
    uint32_t block[MILEBADGER_LONGEST_BLOCK_WORDS];
    milebadger_sheet sheet = {0};

    int64_t result = milebadger_open(&sheet, opening, 2);
    if (result >= 0)
        result = milebadger_add_text(&sheet, equation, sizeof equation - 1);
    if (result >= 0)
        result = milebadger_answer(&sheet, block, MILEBADGER_LONGEST_BLOCK_WORDS);
    for (int64_t i = 0; i < result; i++)
        printf("%" PRIu32 "%c", MILEBADGER_NUMBER(block[i]), i + 1 < result ? ' ' : '\n');
    if (result >= 0)
        result = milebadger_mark(&sheet, claim, 5);
    if (result < 0)
        puts(milebadger_sentence(result));
    else
        puts(result == MILEBADGER_PASS ? "pass" : result == MILEBADGER_LONG ? "long" : "fail");
    return 0;
}
