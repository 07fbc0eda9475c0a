/* milebadger_sentence: every refusal has a sentence of its own, also where a byte of a class stands for it, every other result one of
 * two. A long claim, and a reason why a claim does not pass, are no refusals. And milebadger_write and milebadger_read: numbers of every
 * length, in as few words as they need. */
#include <stdio.h>
#include <string.h>

#include "milebadger.h"

static int fault(int64_t result, const char *sentence)
{
    printf("sentences.c: %lld: %s\n", (long long)result, sentence);
    return 1;
}

int main(void)
{
    const int64_t refused[] = {
        MILEBADGER_REFUSED_SHAPE, MILEBADGER_REFUSED_MODULUS, MILEBADGER_REFUSED_UNKNOWNS, MILEBADGER_REFUSED_UNOPENED,
        MILEBADGER_REFUSED_FULL, MILEBADGER_REFUSED_NUMBER, MILEBADGER_REFUSED_NOTHING_TO_STRIKE, MILEBADGER_REFUSED_BUFFER,
        MILEBADGER_REFUSED_LEFT_OVER, MILEBADGER_REFUSED_TAPE, MILEBADGER_REFUSED_TEXT, MILEBADGER_REFUSED_BEYOND,
        MILEBADGER_REFUSED_NOT_LINEAR, MILEBADGER_REFUSED_CLAIMS, MILEBADGER_REFUSED_OWN_MODULUS, MILEBADGER_REFUSED_PLACE,
        MILEBADGER_REFUSED_TOP,
    };
    const int64_t made[] = {MILEBADGER_FAIL, MILEBADGER_PASS, MILEBADGER_LONG, 16, INT64_MAX}, none[] = {-18, -19, INT64_MIN};
    const int64_t reasons[] = {
        MILEBADGER_REASON_SOLVABLE, MILEBADGER_REASON_UNSOLVABLE, MILEBADGER_REASON_START, MILEBADGER_REASON_STEP,
        MILEBADGER_REASON_MISSED, MILEBADGER_REASON_SUPERFLUOUS,
    };
    const char *sentence[17];

    for (int i = 0; i < 17; i++) {
        sentence[i] = milebadger_sentence(refused[i]);
        if (refused[i] != -(i + 1) || MILEBADGER_MARK(101 + i) != refused[i] || strlen(sentence[i]) < 10)
            return fault(refused[i], sentence[i]);
        for (int j = 0; j < i; j++)
            if (strcmp(sentence[i], sentence[j]) == 0)
                return fault(refused[i], sentence[i]);
    }
    for (int i = 0; i < 5; i++)
        if (strcmp(milebadger_sentence(made[i]), "done") != 0)
            return fault(made[i], milebadger_sentence(made[i]));
    for (int i = 0; i < 6; i++)
        if (reasons[i] != i + 1 || strcmp(milebadger_sentence(reasons[i]), "done") != 0)
            return fault(reasons[i], "no reason, or in another place");
    for (uint8_t byte = MILEBADGER_FAIL; byte <= MILEBADGER_LONG; byte++)
        if (made[byte] != byte || MILEBADGER_MARK(byte) != byte)
            return fault(MILEBADGER_MARK(byte), "a mark of another byte");
    for (int i = 0; i < 3; i++)
        if (strcmp(milebadger_sentence(none[i]), "no result of this library") != 0)
            return fault(none[i], milebadger_sentence(none[i]));

    /* around each power of 2, of kinds 6 and 1: one word below 2^28, and two from there on, with nothing written behind them */
    for (int bit = 0; bit <= 32; bit++)
        for (int64_t x = ((int64_t)1 << bit) - 2; x <= ((int64_t)1 << bit) + 1; x++) {
            if (x < 0 || x > (int64_t)UINT32_MAX)
                continue;
            uint32_t words[6] = {7, 7, 7, 7, 7, 7}, first = 0, second = 0;
            size_t wrote = milebadger_write(words, MILEBADGER_ENTRY(5), (uint32_t)x), more = wrote;
            more += milebadger_write(words + wrote, MILEBADGER_MODULUS(0), (uint32_t)x);
            size_t two = x >= 268435456 ? 1 : 0;
            if (wrote != 1 + two || more != 2 * wrote || words[more] != 7)
                return fault(x, "written in another number of words");
            if (words[two] != (0x60000000 | (uint32_t)(x % 268435456)) || words[more - 1] != (0x10000000 | (uint32_t)(x % 268435456)))
                return fault(x, "of another kind, or with another number");
            if (two && (words[0] != 0xD0000000 + (uint32_t)(x / 268435456) || words[2] != words[0]))
                return fault(x, "with other top bits");
            if (milebadger_read(words, &first) != wrote || milebadger_read(words + wrote, &second) != wrote)
                return fault(x, "read in another number of words");
            if (first != (uint32_t)x || second != (uint32_t)x)
                return fault(x, "read as another number");
        }
    return 0;
}
