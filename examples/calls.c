/* The calls beside the tape's: a divisor, the solutions of some congruences and of some lists of equations, and the turns that
 * open some safes, printed as they are told. */
#include <inttypes.h>
#include <stdio.h>

#include "milebadger.h"

/* The greatest common divisor, by milebadger_gcd. */
static void show_divisor(uint32_t a, uint32_t b)
{
    uint32_t chain[2];
    milebadger_gcd(a, b, chain, 2);
    printf("gcd(%" PRIu32 ", %" PRIu32 ") is %" PRIu32 ", after %" PRIu32 " divisions\n", a, b, chain[0], chain[1]);
}

/* Every solution of a·t = b mod m, by milebadger_congruence. */
static void show_solutions(int32_t a, int32_t b, uint32_t m)
{
    uint32_t found[2];
    int64_t result = milebadger_congruence(a, b, m, found, 2);

    printf("%" PRId32 " t = %" PRId32 " mod %" PRIu32 ":", a, b, m);
    if (result < 0) {
        printf(" refused %" PRId64 "\n", -result);
    } else if (result == 0) {
        printf(" none\n");
    } else {
        for (uint64_t t = found[0]; t < m; t += found[1]) /* the last may be just below 2^32 */
            printf(" %" PRIu64, t);
        printf("\n");
    }
}

static void show_numbers(const char *word, const uint32_t *numbers, size_t count)
{
    printf("  %s", word);
    for (size_t i = 0; i < count; i++)
        printf(" %" PRIu32, numbers[i]);
    printf("\n");
}

/* The answer to two equations in two unknowns, by milebadger_solve: where the solutions start and the steps that lead to all of
 * them, or multipliers under which the equations contradict each other. */
static void show_answer(uint32_t m, const uint32_t lines[6])
{
    uint32_t block[MILEBADGER_LONGEST_BLOCK];
    int64_t result = milebadger_solve(m, 2, lines, 6, block, MILEBADGER_LONGEST_BLOCK);

    for (const uint32_t *e = lines; e < lines + 6; e += 3)
        printf("%" PRIu32 " x + %" PRIu32 " y = %" PRIu32 "%s", e[0], e[1], e[2], e == lines ? ", " : " ");
    printf("mod %" PRIu32 ":\n", m);
    if (result < 0) {
        printf("  refused %" PRId64 "\n", -result);
    } else if (block[0] == 0) {
        show_numbers("none, by the multipliers", block + 1, 2);
    } else {
        for (uint32_t i = 0; i < block[0]; i++)
            show_numbers(i == 0 ? "from" : "step", block + 1 + 2 * i, 2);
    }
}

/* The turns that open a safe of two rows, by milebadger_safe: a row of turns for each row of locks. */
static void show_turns(uint32_t m, uint32_t columns, const uint32_t *values)
{
    uint32_t words[MILEBADGER_MOST_LOCKS];
    uint32_t turns[MILEBADGER_MOST_LOCKS];
    for (uint32_t i = 0; i < 2 * columns; i++)
        words[i] = MILEBADGER_ENTRY(values[i]);
    int64_t result = milebadger_safe(m, 2, columns, words, 2 * columns, turns, MILEBADGER_MOST_LOCKS);

    printf("a safe mod %" PRIu32 ":\n", m);
    for (uint32_t row = 0; row < 2; row++)
        show_numbers("locks", values + row * columns, columns);
    if (result < 0) {
        printf("  refused %" PRId64 "\n", -result);
    } else if (result == 0) {
        printf("  no turns\n");
    } else {
        for (uint32_t i = 0; i < 2 * columns; i++)
            turns[i] = MILEBADGER_NUMBER(turns[i]);
        for (uint32_t row = 0; row < 2; row++)
            show_numbers("turns", turns + row * columns, columns);
    }
}

int main(void)
{
    show_divisor(1071, 462);
    show_divisor(4181, 2584);

    show_solutions(4, 8, 12);
    show_solutions(4, 6, 12);
    show_solutions(16, -4, 12); /* mod 12 that is 4 t = 8 */
    show_solutions(-1, 1, 65535);
    show_solutions(-3, 6, 4294967295);

    show_solutions(5, 1, 1);

    show_answer(12, (const uint32_t[]){2, 3, 5, 4, 6, 10});
    show_answer(2, (const uint32_t[]){1, 1, 1, 1, 1, 0});
    show_answer(12, (const uint32_t[]){2, 3, 5, 4, 6, 12});

    show_turns(2, 3, (const uint32_t[]){1, 1, 0, 0, 1, 1});
    show_turns(3, 4, (const uint32_t[]){2, 0, 2, 2, 1, 2, 2, 1});
    show_turns(2, 3, (const uint32_t[]){1, 0, 0, 0, 0, 0});
    show_turns(2, 3, (const uint32_t[]){1, 1, 0, 0, 1, 2});
    return 0;
}
