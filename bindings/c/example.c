/* Greatest common divisors: a program that is read once, and a query for each pair of numbers.
 *
 *     cc -std=c99 -I../../lib example.c cordspar_values.c ../../lib/libcordspar.a -lpthread */
#include "cordspar_values.h"

#include <stdio.h>
#include <stdlib.h>
#include <string.h>

static const char GCD[] = ":- chr_constraint gcd/1.\n"
                          "zero     @ gcd(0) <=> true.\n"
                          "subtract @ gcd(N) \\ gcd(M) <=> M >= N | L is M-N, gcd(L).\n";

static void show_error(const cordspar_error *error)
{
    uint8_t text[120];
    size_t length = cordspar_error_text(error, text, sizeof text);

    printf("%.*s\n", (int)length, (const char *)text);
}

/* A line for each of a part of a run. */
static void show_part(const cordspar_run *run, int32_t part, const char *name)
{
    cordspar_text line = {0};

    for (size_t k = 0; k < cordspar_run_count(run, part); k++)
        if (cordspar_read_line(run, part, k, &line) == 0)
            printf("    %s %s\n", name, line.bytes);
    free(line.bytes);
}

static void answer(cordspar_program *program, const char *query)
{
    const char *const ends[] = {"done", "", "refused", "failed", "fault", "budget"};
    cordspar_run *run;
    cordspar_error error;
    int32_t status = cordspar_run_new(program, (const uint8_t *)query, strlen(query), 100000, 0,
                                      &run, &error);

    printf("%s %s\n", query, ends[status]);
    if (status == CORDSPAR_REFUSED) {
        show_error(&error);
        return;
    }
    show_part(run, CORDSPAR_STORE, "store");
    show_part(run, CORDSPAR_BINDINGS, "binding");
    cordspar_run_free(run);
}

/* The query gcd(..), gcd(..) of two numbers. */
static void answer_pair(cordspar_program *program, int64_t one, int64_t other)
{
    cordspar_values values = {0};
    cordspar_text query = {0};
    cordspar_term numbers[] = {cordspar_make_int(&values, one), cordspar_make_int(&values, other)};
    cordspar_term goals[] = {cordspar_make_struct(&values, "gcd", 1, &numbers[0]),
                             cordspar_make_struct(&values, "gcd", 1, &numbers[1])};

    if (goals[0] && goals[1] && cordspar_write_query(&values, 2, goals, &query) == CORDSPAR_WRITTEN)
        answer(program, query.bytes);
    free(query.bytes);
    cordspar_values_free(&values);
}

static void show_divisors(void *unused)
{
    cordspar_program *program;
    cordspar_error error;

    (void)unused;
    if (cordspar_program_new((const uint8_t *)GCD, strlen(GCD), &program, &error)) {
        show_error(&error);
        return;
    }
    answer_pair(program, 4, 6);
    answer_pair(program, 20, 30);
    answer(program, "gcd(4), X is 1//0.");
    answer(program, "lcm(1).");
    cordspar_program_free(program);
}

int main(void)
{
    return cordspar_on_large_stack(show_divisors, NULL) ? EXIT_FAILURE : EXIT_SUCCESS;
}
