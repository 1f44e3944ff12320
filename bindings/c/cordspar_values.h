/* Terms as values, over cordspar.h: what a run says is read into them, and queries are written from
 * them.
 *
 * Terms stand in arrays that grow, and a term is its number there, from 1; 0 is no term. Nothing
 * here goes down a term by calls, so terms may be as deep as they like. Where memory is refused a
 * function says so, and the terms are as before. */
#ifndef CORDSPAR_VALUES_H
#define CORDSPAR_VALUES_H

#include "cordspar.h"

#ifdef __cplusplus
extern "C" {
#endif

typedef size_t cordspar_term;

typedef enum {
    CORDSPAR_INT,
    CORDSPAR_VAR,
    CORDSPAR_STRUCT, /* a name with terms: an atom has none, and `1+2` is `+` with two */
    CORDSPAR_LIST,
    CORDSPAR_PARTIAL /* a list whose tail is no list, as `[1,2|T]`; its last part is the tail */
} cordspar_kind;

/* A text that grows. It begins as {0}, ends with a NUL that its length does not count, and is freed
 * by free(text.bytes). */
typedef struct {
    char *bytes;
    size_t length, room;
} cordspar_text;

/* A term: its kind, where its name or its digits begin, and where its parts begin and how many they
 * are. */
typedef struct {
    cordspar_kind kind;
    size_t word, first, count;
} cordspar_value;

/* Terms. They begin as {0}. */
typedef struct {
    cordspar_value *values;
    cordspar_term *parts;
    size_t count, room, part_count, part_room;
    cordspar_text words, line;
} cordspar_values;

void cordspar_values_free(cordspar_values *values);

/* Makes a term; 0 where memory is refused, or a part is 0. A term may stand in several others. */
cordspar_term cordspar_make_int(cordspar_values *values, int64_t value);
cordspar_term cordspar_make_digits(cordspar_values *values, const char *digits);
cordspar_term cordspar_make_var(cordspar_values *values, const char *name);
cordspar_term cordspar_make_struct(cordspar_values *values, const char *name, size_t count,
                                   const cordspar_term *parts);
cordspar_term cordspar_make_list(cordspar_values *values, size_t count, const cordspar_term *parts);
cordspar_term cordspar_make_partial(cordspar_values *values, size_t count,
                                    const cordspar_term *parts);

/* What a term is; its name, or the digits of a number, until the next term is made; how many parts
 * it has; and the k-th of these, from 0. */
cordspar_kind cordspar_kind_of(const cordspar_values *values, cordspar_term term);
const char *cordspar_word_of(const cordspar_values *values, cordspar_term term);
size_t cordspar_count_of(const cordspar_values *values, cordspar_term term);
cordspar_term cordspar_part_of(const cordspar_values *values, cordspar_term term, size_t k);

/* Whether a term is a number of 64 bits; then it sets `value`. */
int cordspar_int_of(const cordspar_values *values, cordspar_term term, int64_t *value);

/* Reads a term as runs print it; 0 where the text is none, or memory is refused. */
cordspar_term cordspar_read_term(cordspar_values *values, const char *text, size_t length);

/* What writing comes to. */
enum {
    CORDSPAR_WRITTEN = 0,
    CORDSPAR_NO_MEMORY = 1,
    CORDSPAR_NOT_SPELLED = 2 /* a name, variable or number is none, or a list is a tail alone */
};

/* Writes a term at the end of a text, as runs print it; a text that is not WRITTEN is as before. */
int cordspar_write_term(const cordspar_values *values, cordspar_term term, cordspar_text *text);

/* Writes the query of these goals, each a struct, at the end of a text; a struct of two parts whose
 * name is a relation, as `=`, `is` or `=<`, has it between them. Of letters beyond ASCII the
 * library decides, when the query runs, which may stand in a name. */
int cordspar_write_query(const cordspar_values *values, size_t count, const cordspar_term *goals,
                         cordspar_text *text);

/* Puts what `chr` writes for a run, or line `k` of a part of it, in the place of a text; not 0
 * where memory is refused. */
int cordspar_read_text(const cordspar_run *run, cordspar_text *text);
int cordspar_read_line(const cordspar_run *run, int32_t part, size_t k, cordspar_text *text);

/* Reads line `k` of the store, a struct, with its identity; and of the bindings, a term, with its
 * variable. 0 where there is no such line, or memory is refused. */
cordspar_term cordspar_read_constraint(cordspar_values *values, const cordspar_run *run, size_t k,
                                       uint64_t *identity);
cordspar_term cordspar_read_binding(cordspar_values *values, const cordspar_run *run, size_t k,
                                    cordspar_term *variable);

/* Calls a function on a thread with a stack of 512 MiB, and waits for it: that is enough for terms
 * that are nested a million deep, and what is not used of it is no memory. It answers 0, or the
 * error of pthread_create. */
int cordspar_on_large_stack(void (*function)(void *), void *argument);

#ifdef __cplusplus
}
#endif

#endif
