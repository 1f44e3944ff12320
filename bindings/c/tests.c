/* What the texts of runs do not show of cordspar_values.h. It prints a line for each test, and ends
 * with 1 where one failed. */
#include "cordspar_values.h"

#include <stdio.h>
#include <stdlib.h>
#include <string.h>

#define DEEP 100000
#define BUDGET 100000

static const char GCD[] = ":- chr_constraint gcd/1.\n"
                          "zero     @ gcd(0) <=> true.\n"
                          "subtract @ gcd(N) \\ gcd(M) <=> M >= N | L is M-N, gcd(L).\n";
static const char VALUES[] = ":- chr_constraint p/1, q/2.\n";

static int has_failed;

static void check(int is_so, const char *what)
{
    if (!is_so) {
        printf("    %s\n", what);
        has_failed = 1;
    }
}

static cordspar_term term_of(cordspar_values *values, const char *text)
{
    return cordspar_read_term(values, text, strlen(text));
}

static int is_written(const cordspar_values *values, cordspar_term term, const char *wanted)
{
    cordspar_text text = {0};
    int is_so = term && cordspar_write_term(values, term, &text) == CORDSPAR_WRITTEN &&
                !strcmp(text.bytes, wanted);

    free(text.bytes);
    return is_so;
}

static cordspar_program *program_of(const char *text)
{
    cordspar_program *program = NULL;
    cordspar_error error;

    check(!cordspar_program_new((const uint8_t *)text, strlen(text), &program, &error), text);
    return program;
}

/* A run, or NULL with the error. */
static cordspar_run *run_of(cordspar_program *program, const char *query, uint64_t budget,
                            cordspar_error *error)
{
    cordspar_run *run = NULL;

    cordspar_run_new(program, (const uint8_t *)query, strlen(query), budget, 0, &run, error);
    return run;
}

/* Whether a run has this in line `k` of a part. */
static int has_line(const cordspar_run *run, int32_t part, size_t k, const char *wanted)
{
    cordspar_text line = {0};
    int is_so = cordspar_read_line(run, part, k, &line) == 0 && !strcmp(line.bytes, wanted);

    free(line.bytes);
    return is_so;
}

/* ---------------------------------------------------------------------------------------- terms */

static void terms_read_back(void)
{
    static const char *const TEXTS[] = {
        "-170141183460469231731687303715884105728",
        "f(X,_0,a,größe)",
        "[]",
        "[1,2|T]",
        "[[a|b],[]|f(X)]",
        "1+2-3*4//5 mod 6",
        "1-(2-3)",
        "(1-2)*(3 mod (4 mod X))",
        "1--2",
        "-1--2*-3",
        "[1+2,3|a-b]",
    };
    cordspar_values values = {0};

    for (size_t k = 0; k < sizeof TEXTS / sizeof *TEXTS; k++)
        check(is_written(&values, term_of(&values, TEXTS[k]), TEXTS[k]), TEXTS[k]);
    check(is_written(&values, term_of(&values, "[a|[b|[]]]"), "[a,b]"), "[a|[b|[]]]");
    check(is_written(&values, term_of(&values, "[a|[b|T]]"), "[a,b|T]"), "[a|[b|T]]");
    cordspar_values_free(&values);
}

static void no_terms_are_not_read(void)
{
    static const char *const TEXTS[] = {
        "",      "1+",   "+1", "--1", "- 5", "-a", "1 2",  "1a",   "a b",     "a.b",    "a=b", "f(",
        "f()",   "f(a]", "a)", "mod", "is",  "/",  "[1,]", "[|a]", "[1|2,3]", "[](1)", "'a'",
        "(1,2)", "X(a)",
    };
    cordspar_values values = {0};

    for (size_t k = 0; k < sizeof TEXTS / sizeof *TEXTS; k++)
        check(!term_of(&values, TEXTS[k]), TEXTS[k]);
    check(values.count == 0 && values.words.length == 0, "something stays of what was not read");
    cordspar_values_free(&values);
}

static void terms_have_parts(void)
{
    cordspar_values values = {0};
    cordspar_term sum = term_of(&values, "f(1)+-2"), one = cordspar_part_of(&values, sum, 0);
    int64_t value = 0;

    check(cordspar_kind_of(&values, sum) == CORDSPAR_STRUCT, "a sum is a struct");
    check(!strcmp(cordspar_word_of(&values, sum), "+"), "its name is +");
    check(cordspar_count_of(&values, sum) == 2, "it has two parts");
    check(!strcmp(cordspar_word_of(&values, one), "f"), "the first is f(1)");
    check(cordspar_int_of(&values, cordspar_part_of(&values, sum, 1), &value), "a number");
    check(value == -2, "of this value");
    check(!cordspar_int_of(&values, one, &value), "a struct is no number");
    check(!cordspar_int_of(&values, term_of(&values, "9223372036854775808"), &value), "64 bits");
    one = cordspar_make_struct(&values, cordspar_word_of(&values, one), 1, &sum);
    check(is_written(&values, one, "f(f(1)+-2)"), "a name of the values");
    cordspar_values_free(&values);
}

/* A text of so many times the first, then the second, then so many times the third. */
static char *repeated(const char *first, const char *second, const char *third)
{
    char *text = malloc(DEEP * (strlen(first) + strlen(third)) + strlen(second) + 1), *at = text;

    for (size_t k = 0; k < DEEP; k++, at += strlen(first))
        memcpy(at, first, strlen(first));
    memcpy(at, second, strlen(second));
    at += strlen(second);
    for (size_t k = 0; k < DEEP; k++, at += strlen(third))
        memcpy(at, third, strlen(third));
    *at = 0;
    return text;
}

static void terms_may_be_deep(void)
{
    static const char *const PARTS[][3] = {
        {"s(", "z", ")"}, {"", "1", "+1"}, {"[", "", "]"}, {"", "[1", ",1"}, {"1-(", "1-1", ")"},
    };

    for (size_t k = 0; k < sizeof PARTS / sizeof *PARTS; k++) {
        cordspar_values values = {0};
        char *text = repeated(PARTS[k][0], PARTS[k][1], PARTS[k][2]);

        if (k == 3)
            text = strcat(realloc(text, strlen(text) + 2), "]");
        check(is_written(&values, term_of(&values, text), text), PARTS[k][2]);
        free(text);
        cordspar_values_free(&values);
    }
}

/* -------------------------------------------------------------------------------------- queries */

static void queries_are_built(void)
{
    cordspar_values values = {0};
    cordspar_text query = {0};
    cordspar_term parts[] = {cordspar_make_var(&values, "X"), term_of(&values, "1+2")};
    cordspar_term goals[] = {cordspar_make_struct(&values, "p", 1, &parts[1]),
                             cordspar_make_struct(&values, "=<", 2, parts),
                             cordspar_make_struct(&values, "fail", 0, NULL)};

    check(cordspar_write_query(&values, 3, goals, &query) == 0, "three goals");
    check(!strcmp(query.bytes, "p(1+2), X =< 1+2, fail."), query.bytes);
    query.length = 0;
    check(cordspar_write_query(&values, 0, NULL, &query) == 0, "no goal");
    check(!strcmp(query.bytes, "true."), query.bytes);
    free(query.bytes);
    cordspar_values_free(&values);
}

static void check_refused(cordspar_values *values, cordspar_term goal, const char *what)
{
    cordspar_text query = {0};

    check(cordspar_write_query(values, 1, &goal, &query) == CORDSPAR_NOT_SPELLED, what);
    check(query.length == 0, "something was written");
    free(query.bytes);
}

static void no_names_are_refused(void)
{
    static const char *const NAMES[] = {"",   "X",  "_x", "is", "mod",       "a b",          "a(",
                                        "1a", "+",  "a.", "[]", "a\xC2\xA0", "b\xE2\x80\x83"};
    static const char *const VARIABLES[] = {"", "x", "X y", "1", "X)"};
    cordspar_values values = {0};
    cordspar_term part;

    for (size_t k = 0; k < sizeof NAMES / sizeof *NAMES; k++) {
        part = cordspar_make_struct(&values, NAMES[k], 0, NULL);
        check_refused(&values, part, NAMES[k]);
        check_refused(&values, cordspar_make_struct(&values, "p", 1, &part), NAMES[k]);
    }
    for (size_t k = 0; k < sizeof VARIABLES / sizeof *VARIABLES; k++) {
        part = cordspar_make_var(&values, VARIABLES[k]);
        check_refused(&values, cordspar_make_struct(&values, "p", 1, &part), VARIABLES[k]);
    }
    part = cordspar_make_digits(&values, "1x");
    check_refused(&values, cordspar_make_struct(&values, "p", 1, &part), "1x");
    part = cordspar_make_partial(&values, 1, &part);
    check_refused(&values, cordspar_make_struct(&values, "p", 1, &part), "a tail alone");
    check_refused(&values, cordspar_make_var(&values, "X"), "a variable as a goal");
    cordspar_values_free(&values);
}

/* ----------------------------------------------------------------------------------------- runs */

static void runs_have_values(void)
{
    cordspar_values values = {0};
    cordspar_program *program = program_of(VALUES);
    cordspar_error error;
    cordspar_run *run = run_of(program, "p(f(X,[1,-2|T])), X = g(a), T = [b].", BUDGET, &error);
    cordspar_term variable = 0, term;
    uint64_t identity = 0;

    cordspar_program_free(program); /* the run outlives it */
    term = cordspar_read_constraint(&values, run, 0, &identity);
    check(is_written(&values, term, "p(f(g(a),[1,-2,b]))") && identity == 1, "the store");
    term = cordspar_read_binding(&values, run, 1, &variable);
    check(is_written(&values, variable, "T") && is_written(&values, term, "[b]"), "a binding");
    check(!cordspar_read_constraint(&values, run, 1, &identity), "a second constraint");
    check(!cordspar_read_binding(&values, run, 2, &variable), "a third binding");
    cordspar_run_free(run);
    cordspar_values_free(&values);
}

static void runs_may_end_early(void)
{
    cordspar_program *program = program_of(GCD);
    cordspar_error error;
    cordspar_run *run = run_of(program, "gcd(4), gcd(2).", 5, &error);

    check(cordspar_run_steps(run) == 5, "five transitions");
    check(has_line(run, CORDSPAR_STACK, 0, "gcd(2)"), "the stack");
    check(cordspar_run_fault(run) == CORDSPAR_NO_FAULT, "no fault");
    check(cordspar_run_count(run, CORDSPAR_TRACE) == 0, "no trace");
    cordspar_run_free(run);
    run = run_of(program, "gcd(4), X is 1//0.", BUDGET, &error);
    check(cordspar_run_fault(run) == CORDSPAR_ZERO_DIVISOR, "the fault");
    cordspar_run_free(run);
    cordspar_program_free(program);
}

static void refusals_leave_the_program(void)
{
    cordspar_program *program = program_of(GCD);
    cordspar_error error;
    cordspar_run *run;

    check(!run_of(program, "gcd(", BUDGET, &error), "gcd( is refused");
    check(error.source == 2 && error.kind == CORDSPAR_EXPECTED, "and why");
    check(error.line == 1 && error.column == 5 && error.rule == 0, "and where");
    check(!run_of(program, "gcd(4), gcd(2).", 1000001, &error), "too large a budget");
    check(error.source == 0 && error.kind == CORDSPAR_BUDGET_TOO_LARGE, "and why");
    run = run_of(program, "gcd(4), gcd(2).", BUDGET, &error);
    check(has_line(run, CORDSPAR_STORE, 0, "gcd(2)#2"), "the next query");
    cordspar_run_free(run);
    cordspar_program_free(program);
}

static void programs_answer_many_queries(void)
{
    cordspar_program *program = program_of(GCD);
    cordspar_error error;

    for (int k = 0; k < 1000; k++) {
        char query[64], store[32];
        cordspar_run *run;

        snprintf(query, sizeof query, "gcd(%d), gcd(%d).", 2 * (k % 100 + 1), 3 * (k % 100 + 1));
        snprintf(store, sizeof store, "gcd(%d)#3", k % 100 + 1);
        run = run_of(program, query, BUDGET, &error);
        check(has_line(run, CORDSPAR_STORE, 0, store), query);
        cordspar_run_free(run);
    }
    cordspar_program_free(program);
}

static void the_library_goes_down(void)
{
    char *sum = repeated("", "p(1", "+1"), *query = malloc(strlen(sum) + 3);
    char *store = malloc(strlen(sum) + 4);
    cordspar_program *program = program_of(VALUES);
    cordspar_error error;
    cordspar_run *run;

    sprintf(query, "%s).", sum);
    sprintf(store, "%s)#1", sum);
    run = run_of(program, query, BUDGET, &error);
    check(has_line(run, CORDSPAR_STORE, 0, store), "the deep sum");
    cordspar_run_free(run);
    cordspar_program_free(program);
    free(sum);
    free(query);
    free(store);
}

static const struct {
    const char *name;
    void (*run)(void);
} TESTS[] = {
    {"terms_read_back", terms_read_back},
    {"no_terms_are_not_read", no_terms_are_not_read},
    {"terms_have_parts", terms_have_parts},
    {"terms_may_be_deep", terms_may_be_deep},
    {"queries_are_built", queries_are_built},
    {"no_names_are_refused", no_names_are_refused},
    {"runs_have_values", runs_have_values},
    {"runs_may_end_early", runs_may_end_early},
    {"refusals_leave_the_program", refusals_leave_the_program},
    {"programs_answer_many_queries", programs_answer_many_queries},
    {"the_library_goes_down", the_library_goes_down},
};

static void run_tests(void *failed)
{
    for (size_t k = 0; k < sizeof TESTS / sizeof *TESTS; k++) {
        has_failed = 0;
        TESTS[k].run();
        printf("test %s ... %s\n", TESTS[k].name, has_failed ? "FAILED" : "ok");
        *(int *)failed |= has_failed;
    }
}

int main(void)
{
    int failed = 0;

    return cordspar_on_large_stack(run_tests, &failed) || failed;
}
