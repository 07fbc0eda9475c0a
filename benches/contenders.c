/*
 * milebadger_solve beside the best that a user could write over FLINT and over PARI: the same systems, one process, one thread,
 * the contenders in turn. Prints a line for each case: microseconds of processor time per solve, the least of 15 rounds, and
 * ratios. Each round goes through 1,024 systems, or as many as the program's argument says: with few of them the processor learns
 * the branches of every single one, which it cannot of the systems that a workbench meets.
 *
 * FLINT: nmod_mat_howell_form of the rows [coefficients reversed, right side], then back substitution by hand: the first solution
 * and the steps as milebadger_solve gives them, and compared with its. Without a solution a second form, of the rows with an
 * identity matrix behind them, gives multipliers, as the second run of milebadger_solve does.
 * PARI: matsolvemod with flag 1: some solution and generators of the others, in no fixed form; the solution is substituted.
 */
#include <flint/nmod_mat.h>
#include <pari/pari.h>
#include <stdint.h>
#include <stdio.h>
#include <stdlib.h>
#include <string.h>
#include <time.h>

#include "milebadger.h"

enum { SYSTEMS = 1024, ROUNDS = 15, MOST = 16, BLOCK = 1 + 17 * MOST };

typedef enum { DENSE, SPARSE, UNSOLVABLE, KINDS } kind;

static const char *const kind_names[KINDS] = {"dense", "sparse", "unsolvable"};

typedef struct {
    uint32_t m, n;
    uint32_t lines[SYSTEMS][MOST * (MOST + 1)];
} systems;

/* how many of the systems are drawn and solved */
static int drawn = SYSTEMS;

static void fail(const char *what, const systems *s)
{
    fprintf(stderr, "contenders: %s, mod %u with %u unknowns\n", what, s->m, s->n);
    exit(1);
}

/* ---- random systems of n equations in n unknowns */

static uint64_t state = 1;

static uint32_t below(uint32_t m)
{
    state = state * 6364136223846793005u + 1442695040888963407u;
    return (uint32_t)((state >> 33) * (uint64_t)m >> 31);
}

static uint32_t dot(const uint32_t *a, const uint32_t *x, uint32_t n, uint32_t m)
{
    uint64_t sum = 0;
    for (uint32_t i = 0; i < n; i++)
        sum = (sum + (uint64_t)a[i] * x[i]) % m;
    return (uint32_t)sum;
}

/* Right sides fit a random vector. Unsolvable: the second half are combinations of the first, and the last right side is off. */
static void draw(systems *s, kind k)
{
    uint32_t n = s->n, m = s->m, w = n + 1;
    for (int i = 0; i < drawn; i++) {
        uint32_t *lines = s->lines[i], x[MOST];
        for (uint32_t c = 0; c < n; c++)
            x[c] = below(m);
        for (uint32_t r = 0; r < n; r++) {
            uint32_t *line = lines + r * w;
            for (uint32_t c = 0; c < n; c++)
                line[c] = k == SPARSE && below(4) != 0 ? 0 : below(m);
            if (k == UNSOLVABLE && r >= n / 2) {
                memset(line, 0, n * sizeof *line);
                for (uint32_t e = 0; e < n / 2; e++) {
                    uint32_t factor = below(m);
                    for (uint32_t c = 0; c < n; c++)
                        line[c] = (uint32_t)((line[c] + (uint64_t)factor * lines[e * w + c]) % m);
                }
            }
            line[n] = dot(line, x, n, m);
        }
        if (k == UNSOLVABLE)
            lines[n * w - 1] = (uint32_t)((lines[n * w - 1] + 1ull) % m);
    }
}

/* ---- the contenders: each leaves its answer in a block of numbers, head first, or makes its own kind of answer */

static uint32_t ours[BLOCK], theirs[BLOCK];

static void solve_milebadger(const systems *s, int i)
{
    if (milebadger_solve(s->m, s->n, s->lines[i], s->n * (s->n + 1), ours, BLOCK) <= 0)
        fail("milebadger_solve refused", s);
}

/* The rows, and the rows with an identity matrix behind them; each with rows of zeros below, which the Howell form wants. */
static nmod_mat_t matrix, carried;

/* The entries at the places from `place` on, from those before: the least that the rows allow. Columns are reversed places. */
static void substitute(uint32_t *x, uint32_t place, uint32_t n, uint32_t m, const slong *row_of, int homogeneous)
{
    for (uint32_t i = place; i < n; i++) {
        uint32_t column = n - 1 - i;
        x[i] = 0;
        if (row_of[column] < 0)
            continue;
        const mp_limb_t *row = matrix->rows[row_of[column]];
        uint64_t sum = 0;
        for (uint32_t c = column + 1; c < n; c++)
            sum += row[c] * x[n - 1 - c] % m;
        sum %= m;
        uint64_t right = homogeneous ? 0 : row[n];
        x[i] = (uint32_t)((right + m - sum) % m / row[column]);
    }
}

static void fill(nmod_mat_t into, const uint32_t *lines, uint32_t n)
{
    nmod_mat_zero(into);
    for (uint32_t r = 0; r < n; r++) {
        for (uint32_t c = 0; c < n; c++)
            into->rows[r][c] = lines[r * (n + 1) + n - 1 - c];
        into->rows[r][n] = lines[r * (n + 1) + n];
    }
}

/* The row that is 0 at all coefficients and not at the right side. */
static void multipliers(const uint32_t *lines, uint32_t n)
{
    fill(carried, lines, n);
    for (uint32_t r = 0; r < n; r++)
        carried->rows[r][n + 1 + r] = 1;
    slong rank = nmod_mat_howell_form(carried);
    for (slong r = 0; r < rank; r++) {
        uint32_t c = 0;
        while (c < n && carried->rows[r][c] == 0)
            c++;
        if (c < n || carried->rows[r][n] == 0)
            continue;
        for (uint32_t e = 0; e < n; e++)
            theirs[1 + e] = (uint32_t)carried->rows[r][n + 1 + e];
        return;
    }
}

static void solve_flint(const systems *s, int number)
{
    uint32_t n = s->n, m = s->m;
    const uint32_t *lines = s->lines[number];
    slong row_of[MOST + 1];
    fill(matrix, lines, n);
    slong rank = nmod_mat_howell_form(matrix);
    for (uint32_t c = 0; c <= n; c++)
        row_of[c] = -1;
    for (slong r = 0; r < rank; r++) {
        uint32_t c = 0;
        while (c <= n && matrix->rows[r][c] == 0)
            c++;
        if (c <= n)
            row_of[c] = r;
    }
    if (row_of[n] >= 0) {
        theirs[0] = 0;
        multipliers(lines, n);
        return;
    }
    uint32_t *vector = theirs + 1;
    substitute(vector, 0, n, m, row_of, 0);
    uint32_t head = 1;
    for (uint32_t i = 0; i < n; i++) {
        slong r = row_of[n - 1 - i];
        uint32_t pivot = r < 0 ? m : (uint32_t)matrix->rows[r][n - 1 - i];
        if (pivot == 1)
            continue;
        vector += n;
        head++;
        memset(vector, 0, i * sizeof *vector);
        vector[i] = m / pivot;
        substitute(vector, i + 1, n, m, row_of, 1);
    }
    theirs[0] = head;
}

static GEN answer;

static void solve_pari(const systems *s, int number)
{
    pari_sp top = avma;
    uint32_t n = s->n;
    const uint32_t *lines = s->lines[number];
    GEN coefficients = cgetg(n + 1, t_MAT), rights = cgetg(n + 1, t_COL);
    for (uint32_t c = 0; c < n; c++) {
        GEN column = cgetg(n + 1, t_COL);
        for (uint32_t r = 0; r < n; r++)
            gel(column, r + 1) = utoi(lines[r * (n + 1) + c]);
        gel(coefficients, c + 1) = column;
    }
    for (uint32_t r = 0; r < n; r++)
        gel(rights, r + 1) = utoi(lines[r * (n + 1) + n]);
    answer = matsolvemod(coefficients, utoi(s->m), rights, 1);
    avma = top;
}

/* ---- the same answers */

/* Whether the equations so multiplied add up to zero coefficients and a right side that is not 0. */
static int refutes(const systems *s, const uint32_t *lines, const uint32_t *factors)
{
    uint32_t n = s->n, column[MOST];
    for (uint32_t c = 0; c <= n; c++) {
        for (uint32_t r = 0; r < n; r++)
            column[r] = lines[r * (n + 1) + c];
        if ((dot(factors, column, n, s->m) == 0) != (c < n))
            return 0;
    }
    return 1;
}

static void compare(const systems *s, kind k)
{
    uint32_t n = s->n;
    for (int i = 0; i < drawn; i++) {
        solve_milebadger(s, i);
        solve_flint(s, i);
        if (ours[0] != theirs[0] || (ours[0] != 0 && memcmp(ours, theirs, (1 + ours[0] * n) * sizeof *ours) != 0))
            fail("FLINT's answer is another one", s);
        if ((k == UNSOLVABLE) != (ours[0] == 0))
            fail("not the kind of system that was wanted", s);
        solve_pari(s, i);
        if ((typ(answer) == t_INT) != (ours[0] == 0))
            fail("PARI disagrees on whether there is a solution", s);
        if (ours[0] == 0) {
            if (!refutes(s, s->lines[i], ours + 1) || !refutes(s, s->lines[i], theirs + 1))
                fail("multipliers that do not refute", s);
            continue;
        }
        uint32_t x[MOST];
        for (uint32_t c = 0; c < n; c++)
            x[c] = (uint32_t)itou(modii(gmael(answer, 1, c + 1), utoi(s->m)));
        for (uint32_t r = 0; r < n; r++)
            if (dot(s->lines[i] + r * (n + 1), x, n, s->m) != s->lines[i][r * (n + 1) + n])
                fail("PARI's vector is no solution", s);
    }
}

/* ---- time */

typedef void (*solver)(const systems *, int);

static double microseconds(solver solve, const systems *s, int count)
{
    struct timespec start, end;
    clock_gettime(CLOCK_THREAD_CPUTIME_ID, &start);
    for (int i = 0, next = 0; i < count; i++, next = next + 1 < drawn ? next + 1 : 0)
        solve(s, next);
    clock_gettime(CLOCK_THREAD_CPUTIME_ID, &end);
    return ((end.tv_sec - start.tv_sec) * 1e6 + (end.tv_nsec - start.tv_nsec) / 1e3) / count;
}

static void measure(const systems *s, kind k)
{
    static const solver solvers[3] = {solve_milebadger, solve_flint, solve_pari};
    double least[3];
    int counts[3];
    for (int c = 0; c < 3; c++) {
        least[c] = microseconds(solvers[c], s, drawn);
        counts[c] = (int)(2000.0 / least[c]) + drawn;
    }
    for (int round = 0; round < ROUNDS; round++)
        for (int c = 0; c < 3; c++) {
            double time = microseconds(solvers[c], s, counts[c]);
            if (time < least[c])
                least[c] = time;
        }
    printf("%-12s %2ux%-2u mod %10u %10.2f %10.2f %10.2f %12.1f %12.1f\n", kind_names[k], s->n, s->n, s->m, least[0], least[1], least[2],
        least[1] / least[0], least[2] / least[0]);
}

int main(int count, char **words)
{
    static const uint32_t moduli[] = {12, 60, 65535, 65521, 32768, 1u << 31, 4294967295u};
    static const uint32_t sizes[] = {2, 4, 8, 16};
    static systems s;
    if (count > 1)
        drawn = atoi(words[1]);
    if (drawn < 1 || drawn > SYSTEMS) {
        fprintf(stderr, "contenders: 1 to %d systems\n", SYSTEMS);
        return 2;
    }
    pari_init(1u << 26, 0);
    printf("%-33s %10s %10s %10s %12s %12s\n", "case", "ours us", "FLINT us", "PARI us", "FLINT/ours", "PARI/ours");
    for (kind k = DENSE; k < KINDS; k++)
        for (size_t a = 0; a < sizeof sizes / sizeof *sizes; a++)
            for (size_t b = 0; b < sizeof moduli / sizeof *moduli; b++) {
                s.n = sizes[a];
                s.m = moduli[b];
                draw(&s, k);
                nmod_mat_init(matrix, s.n + 1, s.n + 1, s.m);
                nmod_mat_init(carried, 2 * s.n + 1, 2 * s.n + 1, s.m);
                compare(&s, k);
                measure(&s, k);
                nmod_mat_clear(matrix);
                nmod_mat_clear(carried);
            }
    return 0;
}
