/* Terms as values; cordspar_values.h tells of each function. */
#define _POSIX_C_SOURCE 200809L
#include "cordspar_values.h"

#include <errno.h>
#include <inttypes.h>
#include <pthread.h>
#include <stdio.h>
#include <stdlib.h>
#include <string.h>

#define LARGE_STACK ((size_t)512 << 20)

/* ----------------------------------------------------------------------------- arrays and texts */

/* Gives an array, whose address this is, room for so many items; 0 where memory is refused. */
static int grow(void *array, size_t *room, size_t wanted, size_t size)
{
    void *items;
    size_t larger = *room ? *room : 16;

    if (wanted <= *room)
        return 1;
    while (larger < wanted && larger <= SIZE_MAX / 2)
        larger *= 2;
    if (larger < wanted || larger > SIZE_MAX / size)
        return 0;
    memcpy(&items, array, sizeof items);
    items = realloc(items, larger * size);
    if (!items)
        return 0;
    memcpy(array, &items, sizeof items);
    *room = larger;
    return 1;
}

/* Writes bytes, which may stand in the text itself, at its end. */
static int append(cordspar_text *text, const char *bytes, size_t length)
{
    uintptr_t from = (uintptr_t)bytes, start = (uintptr_t)text->bytes;
    int is_own = from >= start && from - start < text->length;

    if (length > SIZE_MAX - 1 - text->length ||
        !grow(&text->bytes, &text->room, text->length + length + 1, 1))
        return 0;
    memmove(text->bytes + text->length, is_own ? text->bytes + (from - start) : bytes, length);
    text->length += length;
    text->bytes[text->length] = 0;
    return 1;
}

static void cut(cordspar_text *text, size_t length)
{
    text->length = length;
    if (text->bytes)
        text->bytes[length] = 0;
}

/* ---------------------------------------------------------------------------------------- terms */

void cordspar_values_free(cordspar_values *values)
{
    free(values->values);
    free(values->parts);
    free(values->words.bytes);
    free(values->line.bytes);
    memset(values, 0, sizeof *values);
}

static cordspar_term make(cordspar_values *values, cordspar_kind kind, const char *word,
                          size_t length, size_t count, const cordspar_term *parts)
{
    cordspar_value value = {kind, values->words.length, values->part_count, count};

    for (size_t k = 0; k < count; k++)
        if (!parts[k])
            return 0;
    if (count >= SIZE_MAX - values->part_count ||
        !grow(&values->values, &values->room, values->count + 1, sizeof *values->values) ||
        !grow(&values->parts, &values->part_room, values->part_count + count + 1,
              sizeof *values->parts) ||
        !append(&values->words, word, length))
        return 0;
    values->words.length++; /* the NUL stays between the words */
    if (count)
        memcpy(values->parts + values->part_count, parts, count * sizeof *parts);
    values->part_count += count;
    values->values[values->count++] = value;
    return values->count;
}

cordspar_term cordspar_make_int(cordspar_values *values, int64_t value)
{
    char digits[24];

    snprintf(digits, sizeof digits, "%" PRId64, value);
    return cordspar_make_digits(values, digits);
}

cordspar_term cordspar_make_digits(cordspar_values *values, const char *digits)
{
    return make(values, CORDSPAR_INT, digits, strlen(digits), 0, NULL);
}

cordspar_term cordspar_make_var(cordspar_values *values, const char *name)
{
    return make(values, CORDSPAR_VAR, name, strlen(name), 0, NULL);
}

cordspar_term cordspar_make_struct(cordspar_values *values, const char *name, size_t count,
                                   const cordspar_term *parts)
{
    return make(values, CORDSPAR_STRUCT, name, strlen(name), count, parts);
}

cordspar_term cordspar_make_list(cordspar_values *values, size_t count, const cordspar_term *parts)
{
    return make(values, CORDSPAR_LIST, "", 0, count, parts);
}

cordspar_term cordspar_make_partial(cordspar_values *values, size_t count,
                                    const cordspar_term *parts)
{
    return make(values, CORDSPAR_PARTIAL, "", 0, count, parts);
}

cordspar_kind cordspar_kind_of(const cordspar_values *values, cordspar_term term)
{
    return values->values[term - 1].kind;
}

const char *cordspar_word_of(const cordspar_values *values, cordspar_term term)
{
    return values->words.bytes + values->values[term - 1].word;
}

size_t cordspar_count_of(const cordspar_values *values, cordspar_term term)
{
    return values->values[term - 1].count;
}

cordspar_term cordspar_part_of(const cordspar_values *values, cordspar_term term, size_t k)
{
    return values->parts[values->values[term - 1].first + k];
}

int cordspar_int_of(const cordspar_values *values, cordspar_term term, int64_t *value)
{
    long long number;
    char *end;

    if (cordspar_kind_of(values, term) != CORDSPAR_INT)
        return 0;
    errno = 0;
    number = strtoll(cordspar_word_of(values, term), &end, 10);
    if (errno || *end)
        return 0;
    *value = number;
    return 1;
}

/* ---------------------------------------------------------------------------------------- words */

struct operator {
    const char *name, *text;
    int is_product;
};

static const struct operator OPERATORS[] = {
    {"+", "+", 0}, {"-", "-", 0}, {"*", "*", 1}, {"//", "//", 1}, {"mod", " mod ", 1},
};
static const char *const RELATIONS[] = {"=", "\\=", "<", ">", "=<", ">=", "=:=", "=\\=", "is"};

#define LENGTH(array) (sizeof(array) / sizeof *(array))

static const struct operator *operator_named(const char *name, size_t length)
{
    for (size_t k = 0; k < LENGTH(OPERATORS); k++)
        if (strlen(OPERATORS[k].name) == length && !memcmp(OPERATORS[k].name, name, length))
            return &OPERATORS[k];
    return NULL;
}

/* The operator that stands between the two parts of a term, or NULL. */
static const struct operator *operator_of(const cordspar_values *values, cordspar_term term)
{
    const char *word = cordspar_word_of(values, term);

    if (cordspar_kind_of(values, term) != CORDSPAR_STRUCT || cordspar_count_of(values, term) != 2)
        return NULL;
    return operator_named(word, strlen(word));
}

static int is_relation(const char *name)
{
    for (size_t k = 0; k < LENGTH(RELATIONS); k++)
        if (!strcmp(RELATIONS[k], name))
            return 1;
    return 0;
}

static int is_digit(char byte)
{
    return byte >= '0' && byte <= '9';
}

static int is_capital(char byte)
{
    return (byte >= 'A' && byte <= 'Z') || byte == '_';
}

/* Whether a byte may stand in a word; of letters beyond ASCII the library knows which may. */
static int is_of_word(char byte)
{
    return (byte >= 'a' && byte <= 'z') || is_capital(byte) || is_digit(byte) ||
           (unsigned char)byte >= 0x80;
}

/* Whether white space beyond ASCII begins here. */
static int is_space(const char *text)
{
    static const char *const SPACES[] = {
        "\xC2\x85",     "\xC2\xA0",     "\xE1\x9A\x80", "\xE2\x80\xA8",
        "\xE2\x80\xA9", "\xE2\x80\xAF", "\xE2\x81\x9F", "\xE3\x80\x80",
    };

    for (size_t k = 0; k < LENGTH(SPACES); k++)
        if (!strncmp(text, SPACES[k], strlen(SPACES[k])))
            return 1;
    return !strncmp(text, "\xE2\x80", 2) && (unsigned char)text[2] >= 0x80 &&
           (unsigned char)text[2] <= 0x8A;
}

/* Whether a text is one word, as far as ASCII and white space tell. */
static int is_word(const char *text)
{
    if (!*text || is_digit(*text))
        return 0;
    for (; *text; text++)
        if (!is_of_word(*text) || is_space(text))
            return 0;
    return 1;
}

static int is_variable(const char *word)
{
    return is_word(word) && is_capital(*word);
}

static int is_name(const char *word)
{
    return is_word(word) && !is_capital(*word) && strcmp(word, "is") && strcmp(word, "mod");
}

static int is_number(const char *word)
{
    word += *word == '-';
    if (!*word)
        return 0;
    while (is_digit(*word))
        word++;
    return !*word;
}

/* -------------------------------------------------------------------------------------- writing */

/* What is left to write: a text, or else a term. */
struct piece {
    const char *text;
    cordspar_term term;
};

struct writer {
    const cordspar_values *values;
    cordspar_text *text;
    struct piece *left; /* the next one last */
    size_t count, room;
    int result; /* what is not CORDSPAR_WRITTEN stays */
};

static void put(struct writer *writer, const char *text)
{
    if (writer->result == CORDSPAR_WRITTEN && !append(writer->text, text, strlen(text)))
        writer->result = CORDSPAR_NO_MEMORY;
}

static void put_if(struct writer *writer, const char *word, int is_spelled)
{
    if (is_spelled)
        put(writer, word);
    else if (writer->result == CORDSPAR_WRITTEN)
        writer->result = CORDSPAR_NOT_SPELLED;
}

static void put_off(struct writer *writer, const char *text, cordspar_term term)
{
    if (grow(&writer->left, &writer->room, writer->count + 1, sizeof *writer->left))
        writer->left[writer->count++] = (struct piece){text, term};
    else
        writer->result = CORDSPAR_NO_MEMORY;
}

static void put_off_operand(struct writer *writer, cordspar_term term, int is_wrapped)
{
    if (is_wrapped)
        put_off(writer, ")", 0);
    put_off(writer, NULL, term);
    if (is_wrapped)
        put_off(writer, "(", 0);
}

/* The first parts of a term, with commas between them. */
static void put_off_parts(struct writer *writer, cordspar_term term, size_t count)
{
    while (count > 0) {
        put_off(writer, NULL, cordspar_part_of(writer->values, term, --count));
        if (count > 0)
            put_off(writer, ",", 0);
    }
}

static void write_operation(struct writer *writer, cordspar_term term,
                            const struct operator *operator)
{
    cordspar_term one = cordspar_part_of(writer->values, term, 0);
    cordspar_term other = cordspar_part_of(writer->values, term, 1);
    const struct operator *of_one = operator_of(writer->values, one);
    const struct operator *of_other = operator_of(writer->values, other);

    put_off_operand(writer, other, of_other && (operator->is_product || !of_other->is_product));
    put_off(writer, operator->text, 0);
    put_off_operand(writer, one, of_one && operator->is_product && !of_one->is_product);
}

static void write_struct(struct writer *writer, cordspar_term term)
{
    const struct operator *operator = operator_of(writer->values, term);
    const char *name = cordspar_word_of(writer->values, term);
    size_t count = cordspar_count_of(writer->values, term);

    if (operator) {
        write_operation(writer, term, operator);
        return;
    }
    put_if(writer, name, is_name(name));
    if (count > 0) {
        put(writer, "(");
        put_off(writer, ")", 0);
        put_off_parts(writer, term, count);
    }
}

static void write_list(struct writer *writer, cordspar_term term)
{
    size_t count = cordspar_count_of(writer->values, term);
    int is_partial = cordspar_kind_of(writer->values, term) == CORDSPAR_PARTIAL;

    put_if(writer, "[", !is_partial || count > 1);
    put_off(writer, "]", 0);
    if (is_partial && count > 1) {
        put_off(writer, NULL, cordspar_part_of(writer->values, term, --count));
        put_off(writer, "|", 0);
    }
    put_off_parts(writer, term, count);
}

static void write_value(struct writer *writer, cordspar_term term)
{
    const char *word = cordspar_word_of(writer->values, term);

    switch (cordspar_kind_of(writer->values, term)) {
    case CORDSPAR_INT:
        put_if(writer, word, is_number(word));
        break;
    case CORDSPAR_VAR:
        put_if(writer, word, is_variable(word));
        break;
    case CORDSPAR_STRUCT:
        write_struct(writer, term);
        break;
    case CORDSPAR_LIST:
    case CORDSPAR_PARTIAL:
        write_list(writer, term);
        break;
    }
}

static void write_whole(struct writer *writer, cordspar_term term)
{
    put_off(writer, NULL, term);
    while (writer->result == CORDSPAR_WRITTEN && writer->count > 0) {
        struct piece piece = writer->left[--writer->count];

        if (piece.text)
            put(writer, piece.text);
        else
            write_value(writer, piece.term);
    }
}

static void write_goal(struct writer *writer, cordspar_term goal)
{
    const cordspar_values *values = writer->values;
    const char *name = cordspar_word_of(values, goal);

    if (cordspar_kind_of(values, goal) != CORDSPAR_STRUCT) {
        writer->result = CORDSPAR_NOT_SPELLED;
    } else if (cordspar_count_of(values, goal) == 2 && is_relation(name)) {
        write_whole(writer, cordspar_part_of(values, goal, 0));
        put(writer, " ");
        put(writer, name);
        put(writer, " ");
        write_whole(writer, cordspar_part_of(values, goal, 1));
    } else if (operator_of(values, goal)) {
        writer->result = CORDSPAR_NOT_SPELLED;
    } else {
        write_whole(writer, goal);
    }
}

/* Leaves a text as it was, if it is not written. */
static int finish(struct writer *writer, size_t length)
{
    free(writer->left);
    if (writer->result != CORDSPAR_WRITTEN)
        cut(writer->text, length);
    return writer->result;
}

int cordspar_write_term(const cordspar_values *values, cordspar_term term, cordspar_text *text)
{
    struct writer writer = {values, text, NULL, 0, 0, CORDSPAR_WRITTEN};
    size_t length = text->length;

    write_whole(&writer, term);
    return finish(&writer, length);
}

int cordspar_write_query(const cordspar_values *values, size_t count, const cordspar_term *goals,
                         cordspar_text *text)
{
    struct writer writer = {values, text, NULL, 0, 0, CORDSPAR_WRITTEN};
    size_t length = text->length;

    for (size_t k = 0; k < count && writer.result == CORDSPAR_WRITTEN; k++) {
        put(&writer, k > 0 ? ", " : "");
        write_goal(&writer, goals[k]);
    }
    put(&writer, count > 0 ? "." : "true.");
    return finish(&writer, length);
}

/* -------------------------------------------------------------------------------------- reading */

struct token {
    enum { NUMBER, WORD, SIGN, END } kind;
    const char *start;
    size_t length;
};

/* Where a term stands. */
enum place { WHOLE, PARENTHESES, CALL, LIST, TAIL };

/* A bracket that is open: its name, and where its own begin of the terms and of what stands to the
 * left of the term that is being read. */
struct bracket {
    enum place place;
    struct token name;
    size_t terms, left;
};

struct operand {
    cordspar_term term;
    const struct operator *operator;
};

struct reader {
    cordspar_values *values;
    const char *at, *end;
    struct bracket *brackets; /* the innermost last */
    cordspar_term *terms;
    struct operand *left;
    size_t bracket_count, bracket_room, term_count, term_room, left_count, left_room;
};

/* What was read: a term, the beginning of one, or what is neither, for want of memory too. */
enum read { TERM, UNFINISHED, NO_TERM };

static struct token take(struct reader *reader, int kind, size_t length)
{
    struct token token = {kind, reader->at, length};

    reader->at += length;
    return token;
}

static size_t length_of(const struct reader *reader, int (*is_so)(char))
{
    const char *at = reader->at;

    while (at < reader->end && is_so(*at))
        at++;
    return (size_t)(at - reader->at);
}

static struct token next_token(struct reader *reader)
{
    while (reader->at < reader->end && strchr(" \t\r\n", *reader->at) && *reader->at)
        reader->at++;
    if (reader->at == reader->end)
        return take(reader, END, 0);
    if (is_digit(*reader->at))
        return take(reader, NUMBER, length_of(reader, is_digit));
    if (is_of_word(*reader->at))
        return take(reader, WORD, length_of(reader, is_of_word));
    if (reader->end - reader->at > 1 && !memcmp(reader->at, "//", 2))
        return take(reader, SIGN, 2);
    return take(reader, SIGN, 1);
}

static int is_sign(struct token token, char sign)
{
    return token.kind == SIGN && token.length == 1 && *token.start == sign;
}

/* Takes the next token if it is this sign. */
static int takes(struct reader *reader, char sign)
{
    const char *at = reader->at;

    if (is_sign(next_token(reader), sign))
        return 1;
    reader->at = at;
    return 0;
}

static enum read open_bracket(struct reader *reader, enum place place, struct token name)
{
    if (!grow(&reader->brackets, &reader->bracket_room, reader->bracket_count + 1,
              sizeof *reader->brackets))
        return NO_TERM;
    reader->brackets[reader->bracket_count++] =
        (struct bracket){place, name, reader->term_count, reader->left_count};
    return UNFINISHED;
}

static int push_term(struct reader *reader, cordspar_term term)
{
    if (!grow(&reader->terms, &reader->term_room, reader->term_count + 1, sizeof *reader->terms))
        return 0;
    reader->terms[reader->term_count++] = term;
    return 1;
}

static int push_left(struct reader *reader, cordspar_term term, const struct operator *operator)
{
    if (!grow(&reader->left, &reader->left_room, reader->left_count + 1, sizeof *reader->left))
        return 0;
    reader->left[reader->left_count++] = (struct operand){term, operator};
    return 1;
}

static enum read made(cordspar_term made, cordspar_term *term)
{
    *term = made;
    return made ? TERM : NO_TERM;
}

/* A variable, an atom, or a name with the bracket behind it. */
static enum read read_word(struct reader *reader, struct token word, cordspar_term *term)
{
    const char *start = word.start;

    if (is_capital(*start))
        return made(make(reader->values, CORDSPAR_VAR, start, word.length, 0, NULL), term);
    if ((word.length == 2 && !memcmp(start, "is", 2)) ||
        (word.length == 3 && !memcmp(start, "mod", 3)))
        return NO_TERM;
    if (takes(reader, '('))
        return open_bracket(reader, CALL, word);
    return made(make(reader->values, CORDSPAR_STRUCT, start, word.length, 0, NULL), term);
}

/* A term that is no operation, or the beginning of one. */
static enum read read_operand(struct reader *reader, cordspar_term *term)
{
    struct token token = next_token(reader);
    size_t digits;

    if (token.kind == WORD)
        return read_word(reader, token, term);
    if (is_sign(token, '('))
        return open_bracket(reader, PARENTHESES, token);
    if (is_sign(token, '['))
        return takes(reader, ']') ? made(cordspar_make_list(reader->values, 0, NULL), term)
                                  : open_bracket(reader, LIST, token);
    if (is_sign(token, '-') && (digits = length_of(reader, is_digit)) > 0) {
        reader->at += digits;
        token.length += digits;
    } else if (token.kind != NUMBER) {
        return NO_TERM;
    }
    return made(make(reader->values, CORDSPAR_INT, token.start, token.length, 0, NULL), term);
}

/* The term with what stands to its left and binds it no weaker than what stands behind it. */
static cordspar_term joined(struct reader *reader, cordspar_term term,
                            const struct operator *behind)
{
    size_t own = reader->brackets[reader->bracket_count - 1].left;
    int is_product = behind && behind->is_product;

    while (term && reader->left_count > own) {
        struct operand left = reader->left[reader->left_count - 1];
        cordspar_term parts[] = {left.term, term};

        if (is_product && !left.operator->is_product)
            break;
        reader->left_count--;
        term = cordspar_make_struct(reader->values, left.operator->name, 2, parts);
    }
    return term;
}

/* The list of these terms, of which the last is the tail. */
static cordspar_term list_with_tail(struct reader *reader, size_t first)
{
    cordspar_term tail = reader->terms[reader->term_count - 1];
    cordspar_kind kind = cordspar_kind_of(reader->values, tail);

    if (kind == CORDSPAR_LIST || kind == CORDSPAR_PARTIAL) {
        reader->term_count--;
        for (size_t k = 0; k < cordspar_count_of(reader->values, tail); k++)
            if (!push_term(reader, cordspar_part_of(reader->values, tail, k)))
                return 0;
    }
    return make(reader->values, kind == CORDSPAR_LIST ? kind : CORDSPAR_PARTIAL, "", 0,
                reader->term_count - first, reader->terms + first);
}

/* The term of the innermost bracket, which ends here. */
static cordspar_term close_bracket(struct reader *reader)
{
    struct bracket bracket = reader->brackets[--reader->bracket_count];
    size_t first = bracket.terms, count = reader->term_count - first;
    cordspar_term term = reader->terms[first];

    if (bracket.place == CALL)
        term = make(reader->values, CORDSPAR_STRUCT, bracket.name.start, bracket.name.length,
                    count, reader->terms + first);
    else if (bracket.place == LIST)
        term = cordspar_make_list(reader->values, count, reader->terms + first);
    else if (bracket.place == TAIL)
        term = list_with_tail(reader, first);
    reader->term_count = first;
    return term;
}

static const struct operator *operator_at(struct token token)
{
    return token.kind == WORD || token.kind == SIGN ? operator_named(token.start, token.length)
                                                    : NULL;
}

static int closes(enum place place, struct token token)
{
    switch (place) {
    case PARENTHESES:
    case CALL:
        return is_sign(token, ')');
    case LIST:
    case TAIL:
        return is_sign(token, ']');
    default:
        return token.kind == END;
    }
}

/* The term that ends behind this one, or the beginning of one. */
static enum read read_behind(struct reader *reader, cordspar_term *term)
{
    struct token token = next_token(reader);
    struct bracket *bracket = &reader->brackets[reader->bracket_count - 1];
    const struct operator *operator = operator_at(token);

    *term = joined(reader, *term, operator);
    if (!*term)
        return NO_TERM;
    if (operator)
        return push_left(reader, *term, operator) ? UNFINISHED : NO_TERM;
    if (!push_term(reader, *term))
        return NO_TERM;
    if (closes(bracket->place, token))
        return made(close_bracket(reader), term);
    if (bracket->place == LIST && is_sign(token, '|'))
        bracket->place = TAIL;
    else if (!is_sign(token, ',') || (bracket->place != CALL && bracket->place != LIST))
        return NO_TERM;
    return UNFINISHED;
}

static cordspar_term read_whole(struct reader *reader)
{
    cordspar_term term = 0;
    enum read read = open_bracket(reader, WHOLE, (struct token){END, NULL, 0});

    while (read != NO_TERM && reader->bracket_count > 0)
        read = read == TERM ? read_behind(reader, &term) : read_operand(reader, &term);
    return read == TERM ? term : 0;
}

cordspar_term cordspar_read_term(cordspar_values *values, const char *text, size_t length)
{
    struct reader reader = {values, text, text + length, NULL, NULL, NULL, 0, 0, 0, 0, 0, 0};
    size_t count = values->count, parts = values->part_count, words = values->words.length;
    cordspar_term term = read_whole(&reader);

    free(reader.brackets);
    free(reader.terms);
    free(reader.left);
    if (!term) {
        values->count = count;
        values->part_count = parts;
        values->words.length = words;
    }
    return term;
}

/* ----------------------------------------------------------------------------------------- runs */

/* What `chr` writes for a run, or a line of a part of it. */
static size_t write_of(const cordspar_run *run, int32_t part, size_t k, cordspar_text *text)
{
    uint8_t *buffer = (uint8_t *)text->bytes;

    return part < 0 ? cordspar_run_text(run, buffer, text->room)
                    : cordspar_run_item(run, part, k, buffer, text->room);
}

int cordspar_read_line(const cordspar_run *run, int32_t part, size_t k, cordspar_text *text)
{
    size_t length;

    if (!grow(&text->bytes, &text->room, 256, 1))
        return CORDSPAR_NO_MEMORY;
    length = write_of(run, part, k, text);
    if (length >= text->room) {
        if (!grow(&text->bytes, &text->room, length + 1, 1))
            return CORDSPAR_NO_MEMORY;
        write_of(run, part, k, text);
    }
    cut(text, length);
    return CORDSPAR_WRITTEN;
}

int cordspar_read_text(const cordspar_run *run, cordspar_text *text)
{
    return cordspar_read_line(run, -1, 0, text);
}

cordspar_term cordspar_read_constraint(cordspar_values *values, const cordspar_run *run, size_t k,
                                       uint64_t *identity)
{
    cordspar_text *line = &values->line;
    const char *sign;

    if (cordspar_read_line(run, CORDSPAR_STORE, k, line) || !(sign = strrchr(line->bytes, '#')))
        return 0;
    *identity = strtoull(sign + 1, NULL, 10);
    return cordspar_read_term(values, line->bytes, (size_t)(sign - line->bytes));
}

cordspar_term cordspar_read_binding(cordspar_values *values, const cordspar_run *run, size_t k,
                                    cordspar_term *variable)
{
    cordspar_text *line = &values->line;
    const char *sign, *end;

    if (cordspar_read_line(run, CORDSPAR_BINDINGS, k, line) || !(sign = strstr(line->bytes, " = ")))
        return 0;
    end = line->bytes + line->length;
    *variable = cordspar_read_term(values, line->bytes, (size_t)(sign - line->bytes));
    return *variable ? cordspar_read_term(values, sign + 3, (size_t)(end - sign) - 3) : 0;
}

/* -------------------------------------------------------------------------------------- threads */

struct call {
    void (*function)(void *);
    void *argument;
};

static void *make_call(void *argument)
{
    struct call *call = argument;

    call->function(call->argument);
    return NULL;
}

int cordspar_on_large_stack(void (*function)(void *), void *argument)
{
    struct call call = {function, argument};
    pthread_attr_t attributes;
    pthread_t thread;
    int error = pthread_attr_init(&attributes);

    if (error)
        return error;
    error = pthread_attr_setstacksize(&attributes, LARGE_STACK);
    if (!error)
        error = pthread_create(&thread, &attributes, make_call, &call);
    pthread_attr_destroy(&attributes);
    return error ? error : pthread_join(thread, NULL);
}
