/* For scripts/try-bindings: runs the cases that stand on the input, and writes what each comes to.
 *
 * A case is a line `PROGRAM QUERY BUDGET`, of the lengths of two texts and of a number, and then
 * the two texts. An answer is a line `STATUS TEXT VALUES QUERY` and then three texts: that of the
 * run, or of the error; the parts of the run but the trace, from values; and the query that tells
 * the constraints of its store. */
#include "cordspar_values.h"

#include <inttypes.h>
#include <stdarg.h>
#include <stdio.h>
#include <stdlib.h>
#include <string.h>

static void need(int is_there)
{
    if (!is_there) {
        fputs("memory was refused, or a line is no term\n", stderr);
        exit(EXIT_FAILURE);
    }
}

static void add(cordspar_text *text, const char *form, ...)
{
    va_list words;
    int length;

    va_start(words, form);
    length = vsnprintf(NULL, 0, form, words);
    va_end(words);
    text->bytes = realloc(text->bytes, text->length + (size_t)length + 1);
    need(text->bytes != NULL);
    va_start(words, form);
    vsnprintf(text->bytes + text->length, (size_t)length + 1, form, words);
    va_end(words);
    text->length += (size_t)length;
    text->room = text->length + 1;
}

static char *text_of_length(size_t length)
{
    char *text = malloc(length + 1);

    need(text && fread(text, 1, length, stdin) == length);
    return text;
}

static void add_lines(cordspar_text *text, const cordspar_run *run, int32_t part)
{
    cordspar_text line = {0};

    for (size_t k = 0; k < cordspar_run_count(run, part); k++) {
        need(cordspar_read_line(run, part, k, &line) == 0);
        add(text, "%s\n", line.bytes);
    }
    free(line.bytes);
}

/* The store from values, and the query that tells its constraints. */
static void add_store(cordspar_text *text, cordspar_text *query, const cordspar_run *run)
{
    size_t count = cordspar_run_count(run, CORDSPAR_STORE);
    cordspar_term *goals = malloc((count + 1) * sizeof *goals);
    cordspar_values values = {0};
    uint64_t identity;

    need(goals != NULL);
    for (size_t k = 0; k < count; k++) {
        goals[k] = cordspar_read_constraint(&values, run, k, &identity);
        need(goals[k] && cordspar_write_term(&values, goals[k], text) == CORDSPAR_WRITTEN);
        add(text, "#%" PRIu64 "\n", identity);
    }
    need(cordspar_write_query(&values, count, goals, query) == CORDSPAR_WRITTEN);
    cordspar_values_free(&values);
    free(goals);
}

static void add_bindings(cordspar_text *text, const cordspar_run *run)
{
    cordspar_values values = {0};

    for (size_t k = 0; k < cordspar_run_count(run, CORDSPAR_BINDINGS); k++) {
        cordspar_term variable, term = cordspar_read_binding(&values, run, k, &variable);

        need(term && cordspar_write_term(&values, variable, text) == CORDSPAR_WRITTEN);
        add(text, " = ");
        need(cordspar_write_term(&values, term, text) == CORDSPAR_WRITTEN);
        add(text, "\n");
    }
    cordspar_values_free(&values);
}

static void add_parts(cordspar_text *text, cordspar_text *query, const cordspar_run *run)
{
    add(text, "stack %zu\n", cordspar_run_count(run, CORDSPAR_STACK));
    add_lines(text, run, CORDSPAR_STACK);
    add(text, "store %zu\n", cordspar_run_count(run, CORDSPAR_STORE));
    add_store(text, query, run);
    add(text, "bindings %zu\n", cordspar_run_count(run, CORDSPAR_BINDINGS));
    add_bindings(text, run);
    add(text, "history %zu\n", cordspar_run_count(run, CORDSPAR_HISTORY));
    add_lines(text, run, CORDSPAR_HISTORY);
}

static void show(int32_t status, cordspar_text texts[3])
{
    printf("%" PRId32 " %zu %zu %zu\n", status, texts[0].length, texts[1].length, texts[2].length);
    for (int k = 0; k < 3; k++) {
        fwrite(texts[k].bytes, 1, texts[k].length, stdout);
        free(texts[k].bytes);
    }
}

static void run_case(const char *program_text, size_t program_length, const char *query,
                     size_t query_length, uint64_t budget)
{
    cordspar_text texts[3] = {{0}, {0}, {0}};
    cordspar_program *program;
    cordspar_run *run;
    cordspar_error error;
    char line[120];
    int32_t status = cordspar_program_new((const uint8_t *)program_text, program_length, &program,
                                          &error);

    if (status == CORDSPAR_DONE) {
        status = cordspar_run_new(program, (const uint8_t *)query, query_length, budget, 1, &run,
                                  &error);
        cordspar_program_free(program);
    }
    if (status == CORDSPAR_REFUSED) {
        size_t length = cordspar_error_text(&error, (uint8_t *)line, sizeof line);

        add(&texts[0], "%.*s", (int)length, line);
    } else {
        need(cordspar_read_text(run, &texts[0]) == 0);
        add_parts(&texts[1], &texts[2], run);
        cordspar_run_free(run);
    }
    show(status, texts);
}

static void run_cases(void *unused)
{
    size_t program_length, query_length;
    uint64_t budget;

    (void)unused;
    while (scanf("%zu %zu %" SCNu64 "%*c", &program_length, &query_length, &budget) == 3) {
        char *program = text_of_length(program_length), *query = text_of_length(query_length);

        run_case(program, program_length, query, query_length, budget);
        free(program);
        free(query);
    }
}

int main(void)
{
    return cordspar_on_large_stack(run_cases, NULL) ? EXIT_FAILURE : EXIT_SUCCESS;
}
