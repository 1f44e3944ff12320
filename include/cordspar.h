/* Rules of Constraint Handling Rules in a program of one's own: a program is read once, and answers query after query, on one thread.
 *
 * No pointer that is passed is NULL, and none of one call overlap; an empty text or buffer has an address too. A handle is one that
 * `_new` set; it is in one call at a time, on the thread of that `_new`, and after `_free` in none. Threads that each have handles of
 * their own may call at once. No call is made from a signal handler, or in the forked child of a process with threads. Memory comes from
 * the caller's malloc. What a call needs of the caller's stack grows with the depth of the terms: 8 MiB are enough for terms that are
 * nested 20,000 deep. */
#ifndef CORDSPAR_H
#define CORDSPAR_H

#include <stddef.h>
#include <stdint.h>

#ifdef __cplusplus
extern "C" {
#endif

/* A program that was read. */
typedef struct cordspar_program cordspar_program;

/* A run that was made. It outlives its program. */
typedef struct cordspar_run cordspar_run;

/* What a call came to; for a run, the exit status of `chr`. */
enum {
    CORDSPAR_DONE = 0,    /* the stack is empty */
    CORDSPAR_REFUSED = 2, /* nothing was made; the error says why */
    CORDSPAR_FAILED = 3,  /* two terms are not equal, or `fail` was told */
    CORDSPAR_FAULT = 4,   /* an expression has no value */
    CORDSPAR_BUDGET = 5   /* the run would go on */
};

/* The parts of a run, each a list of lines. */
enum {
    CORDSPAR_TRACE,    /* a line for each transition; none where none were asked for */
    CORDSPAR_STACK,    /* what is left to do, from the top */
    CORDSPAR_STORE,    /* the constraints that are left, NAME(..)#IDENTITY, by ascending identity */
    CORDSPAR_BINDINGS, /* NAME = TERM, for the query's variables that are bound; not for those that begin with `_` */
    CORDSPAR_HISTORY   /* which rules fired with which constraints that are left, LABEL IDENTITY,.. */
};

/* Why an expression has no value. */
enum {
    CORDSPAR_NO_FAULT = 0,
    CORDSPAR_UNBOUND = 1,      /* a variable in it is free */
    CORDSPAR_TYPE = 2,         /* a term in it is no number */
    CORDSPAR_OVERFLOW = 3,     /* a value is not from -2^127 to 2^127 - 1 */
    CORDSPAR_ZERO_DIVISOR = 4  /* it divides by 0 */
};

/* What is wrong with a text or a call. */
enum {
    /* how a text is spelled: `line` and `column` say where, from 1, or are 0 */
    CORDSPAR_NOT_UTF8 = 1,
    CORDSPAR_TOO_LONG = 2,
    CORDSPAR_BAD_CHAR = 3,
    CORDSPAR_UNCLOSED_COMMENT = 4,
    CORDSPAR_NUMBER_TOO_LARGE = 5,
    CORDSPAR_EXPECTED = 6,
    CORDSPAR_TOO_DEEP = 7,
    /* memory was refused */
    CORDSPAR_MEMORY = 8,
    /* what it says: `line` says where it begins, from 1, and `rule` in which rule, from 1, or 0 */
    CORDSPAR_UNDECLARED = 9,
    CORDSPAR_BUILTIN_IN_HEAD = 10,
    CORDSPAR_NOT_A_GOAL = 11,
    CORDSPAR_NOT_A_TEST = 12,
    CORDSPAR_GUARD_VARIABLE = 13,
    CORDSPAR_GUARD_ONLY = 14,
    CORDSPAR_DUPLICATE_NAME = 15,
    CORDSPAR_TOO_MANY_HEADS = 16,
    CORDSPAR_ARITY_TOO_LARGE = 17,
    CORDSPAR_TOO_MANY_RULES = 18,
    CORDSPAR_BACKSLASH_IN_PROPAGATION = 19,
    CORDSPAR_TOO_MANY_VARIABLES = 20,
    /* the call: the budget is above 1,000,000 */
    CORDSPAR_BUDGET_TOO_LARGE = 21,
    /* the call: the handle is that of a run */
    CORDSPAR_NO_PROGRAM = 22
};

/* `source` says of what: 0 the call, 1 the program, 2 the query. */
typedef struct {
    uint64_t line, column, rule;
    int32_t source, kind;
} cordspar_error;

/* The version of this library, major * 65536 + minor * 256 + patch. */
uint32_t cordspar_version(void);

/* Reads a program. CORDSPAR_DONE sets `out`; CORDSPAR_REFUSED sets `error` and leaves `out` as it is. */
int32_t cordspar_program_new(const uint8_t *text, size_t length, cordspar_program **out, cordspar_error *error);
void cordspar_program_free(cordspar_program *program);

/* Runs a query for at most `budget` transitions, which are at most 1,000,000, and keeps their lines where `trace` is not 0.
 * CORDSPAR_REFUSED sets `error` and leaves `out` as it is, and the program is as before; each other answer says how the run stands, and
 * sets `out`. */
int32_t cordspar_run_new(cordspar_program *program, const uint8_t *query, size_t length, uint64_t budget,
                         uint32_t trace, cordspar_run **out, cordspar_error *error);
void cordspar_run_free(cordspar_run *run);

/* How many transitions were made. */
uint64_t cordspar_run_steps(const cordspar_run *run);

/* The fault of a run that ended in one, else CORDSPAR_NO_FAULT. */
int32_t cordspar_run_fault(const cordspar_run *run);

/* How many lines a part has; 0 where there is no such part. */
size_t cordspar_run_count(const cordspar_run *run, int32_t part);

/* The text that `chr` writes for the run, without the lines of its trace where none were asked for; and line `k` of a part, from 0 and
 * without its line feed. They answer the length, and write the lesser of it and `size`. Where there is no such line the length is 0, which
 * no line has. */
size_t cordspar_run_text(const cordspar_run *run, uint8_t *buffer, size_t size);
size_t cordspar_run_item(const cordspar_run *run, int32_t part, size_t k, uint8_t *buffer, size_t size);

/* What `chr` says of the error, as `program 2:7: Expected`, in the same way; at most 120 bytes. */
size_t cordspar_error_text(const cordspar_error *error, uint8_t *buffer, size_t size);

#ifdef __cplusplus
}
#endif

#endif
