/* A class that is marked in one call: six students about one exercise, each with a claim as it was handed in. */
#include <inttypes.h>
#include <stdio.h>
#include <string.h>

#include "milebadger.h"

#define UNKNOWNS 2
#define STUDENTS 6
#define ENTRIES 6 /* of the longest claim below */

/* What a student hands in: how many vectors, a start and steps, or 0 for "no solution"; and the entries that are there. */
struct claim {
    const char *student;
    uint32_t vectors, count, entries[ENTRIES];
};

/* Finn left an entry out. His claim is the last one: before another it would take that one's head for the entry. A workbench with a
 * form for each vector has no such claim. */
static const struct claim handed_in[STUDENTS] = {
    {"Ada", 2, 4, {4, 3, 3, 2}},
    {"Ben", 3, 6, {1, 1, 3, 2, 0, 4}},
    {"Cleo", 2, 4, {1, 1, 0, 4}},
    {"Dora", 0, 0, {0}},
    {"Eli", 2, 4, {1, 13, 3, 2}},
    {"Finn", 3, 5, {1, 1, 3, 2, 0}},
};

/* The words of a claim, written behind others; how many they are. */
static size_t put(const struct claim *claim, uint32_t *words)
{
    words[0] = MILEBADGER_HEAD(claim->vectors);
    for (uint32_t i = 0; i < claim->count; i++)
        words[1 + i] = MILEBADGER_ENTRY(claim->entries[i]);
    return 1 + claim->count;
}

static void show(const struct claim *claim, uint8_t byte)
{
    int64_t mark = MILEBADGER_MARK(byte);
    printf("%s says%s", claim->student, claim->vectors == 0 ? " that there is no solution" : "");
    for (uint32_t i = 0; i < claim->count; i++)
        printf("%s %" PRIu32, i == 0 ? " from" : i % UNKNOWNS == 0 ? ", step" : "", claim->entries[i]);
    if (mark < 0)
        printf("\n    %d, refused: %s\n", byte, milebadger_sentence(mark));
    else
        printf("\n    %d, %s\n", byte, mark == MILEBADGER_PASS ? "pass" : mark == MILEBADGER_LONG ? "long" : "fail");
}

int main(void)
{
    const uint32_t opening[] = {MILEBADGER_MODULUS(12), MILEBADGER_UNKNOWNS(UNKNOWNS)};
    const char *equation = "2*x1 + 3*x2 = 5"; /* twelve solutions: 1 1, and from there with the steps 3 2 and 0 4 */
    uint32_t words[STUDENTS * (1 + ENTRIES)];
    uint8_t marks[STUDENTS];
    milebadger_sheet sheet = {0};
    size_t count = 0;

    for (int i = 0; i < STUDENTS; i++)
        count += put(&handed_in[i], words + count);
    int64_t result = milebadger_open(&sheet, opening, 2);
    if (result >= 0)
        result = milebadger_add_text(&sheet, (const uint8_t *)equation, strlen(equation));
    if (result >= 0)
        result = milebadger_class(&sheet, words, count, marks, STUDENTS);
    if (result < 0)
        printf("refused: %s\n", milebadger_sentence(result));
    for (int64_t i = 0; i < result; i++)
        show(&handed_in[i], marks[i]);
    return 0;
}
