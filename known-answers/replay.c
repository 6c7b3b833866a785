/* Replays known-answer files against a library with the C interface and says the first difference.
   Usage: replay FILE.rsp..     (README.md tells how to compile it and how to read the files) */

#include <errno.h>
#include <stdarg.h>
#include <stdio.h>
#include <stdlib.h>
#include <string.h>

#include "giophantus.h"

/* Octets on both sides of every buffer that must not change. */
#define GUARD 64
#define MAX_FIELDS 32
#define MAX_ARGUMENTS 7

enum kind { INPUT, OUTPUT, IN_PLACE, WORK, NUMBER };

/* An argument: its field in the file, what it is, and the octets of one of its cells.  One that is in place is an input
   and an output at once: what it holds after the call is a field with "_after" behind the name. */
struct argument {
    const char *name;
    enum kind kind;
    size_t size;
};

/* What is passed for an argument.  Cells of more than one octet lie in the machine's order. */
struct buffer {
    size_t length;     /* in cells */
    unsigned char *all; /* guard, cells, guard */
    unsigned char *old; /* the same before the call */
    void *cells;
};

/* The length test and the tests before it, in their order: these refusals leave the work words as they were. */
static const uint32_t up_to_length[] = {GIOPHANTUS_RANGE,        GIOPHANTUS_RING,    GIOPHANTUS_DEGREE, GIOPHANTUS_MODULUS,
                                        GIOPHANTUS_MESSAGE_SIZE, GIOPHANTUS_EDITION, GIOPHANTUS_LENGTH};

static const char *file_name;
static unsigned long line_number, record_line;
static struct {
    char *name, *value;
} fields[MAX_FIELDS];
static size_t field_count;

static void stop(const char *format, ...)
{
    va_list list;

    fprintf(stderr, "%s: line %lu: ", file_name, record_line);
    va_start(list, format);
    vfprintf(stderr, format, list);
    va_end(list);
    fputc('\n', stderr);
    exit(1);
}

static const char *find(const char *name)
{
    size_t i;

    for (i = 0; i < field_count; i++)
        if (strcmp(fields[i].name, name) == 0)
            return fields[i].value;
    return NULL;
}

static const char *field(const char *name)
{
    const char *value = find(name);

    if (value == NULL)
        stop("the record has no field %s", name);
    return value;
}

static uint64_t decimal(const char *name)
{
    const char *value = field(name);
    char *end;
    uint64_t x;

    errno = 0;
    x = strtoull(value, &end, 10);
    if (*value < '0' || *value > '9' || *end != '\0' || errno != 0)
        stop("%s isn't a number", name);
    return x;
}

static uint32_t decimal_32(const char *name)
{
    uint64_t x = decimal(name);

    if (x > UINT32_MAX)
        stop("%s passes 32 bits", name);
    return (uint32_t)x;
}

/* The set of the record; without a line for its edition it is in edition 1. */
static giophantus_set record_set(void)
{
    giophantus_set s = {decimal_32("l"),  decimal_32("q"),    decimal_32("n"), decimal_32("dx"),
                        decimal_32("dr"), decimal_32("mlen"), 1};

    if (find("edition") != NULL)
        s.edition = decimal_32("edition");
    return s;
}

static int leaves_work(uint32_t answer)
{
    size_t i;

    for (i = 0; i < sizeof up_to_length / sizeof up_to_length[0]; i++)
        if (up_to_length[i] == answer)
            return 1;
    return 0;
}

static int digit(char c)
{
    if (c >= '0' && c <= '9')
        return c - '0';
    if (c >= 'A' && c <= 'F')
        return c - 'A' + 10;
    if (c >= 'a' && c <= 'f')
        return c - 'a' + 10;
    return -1;
}

static void *allocate(size_t size)
{
    void *memory = malloc(size);

    if (memory == NULL)
        stop("no memory");
    return memory;
}

/* Writes cell i, of 1, 4 or 8 octets. */
static void put(void *cells, size_t size, size_t i, uint64_t x)
{
    if (size == 1)
        ((uint8_t *)cells)[i] = (uint8_t)x;
    else if (size == 4)
        ((uint32_t *)cells)[i] = (uint32_t)x;
    else
        ((uint64_t *)cells)[i] = x;
}

static uint64_t get(const void *cells, size_t size, size_t i)
{
    if (size == 1)
        return ((const uint8_t *)cells)[i];
    if (size == 4)
        return ((const uint32_t *)cells)[i];
    return ((const uint64_t *)cells)[i];
}

/* The cells of a field in hexadecimal: two digits for an octet, eight for a word. */
static void *from_hex(const char *name, size_t size, size_t *length)
{
    const char *text = field(name);
    size_t digits = 2 * size, count = strlen(text) / digits, i, k;
    void *cells = allocate(count * size + 1);

    if (strlen(text) % digits != 0)
        stop("%s has digits left over", name);
    for (i = 0; i < count; i++) {
        uint64_t x = 0;

        for (k = 0; k < digits; k++) {
            int d = digit(text[i * digits + k]);

            if (d < 0)
                stop("%s isn't hexadecimal", name);
            x = 16 * x + (uint64_t)d;
        }
        put(cells, size, i, x);
    }
    *length = count;
    return cells;
}

/* A buffer between guards, all of it garbage. */
static void make(struct buffer *b, size_t size, size_t length)
{
    static uint32_t state = 1;
    size_t octets = length * size + 2 * GUARD, i;

    b->length = length;
    b->all = allocate(octets);
    b->old = allocate(octets);
    b->cells = b->all + GUARD;
    for (i = 0; i < octets; i++) {
        state = 1664525 * state + 1013904223;
        b->all[i] = (unsigned char)(state >> 24);
    }
}

static void prepare(const struct argument *a, struct buffer *b)
{
    char name[64];

    if (a->kind == INPUT || a->kind == IN_PLACE) {
        size_t length;
        void *cells = from_hex(a->name, a->size, &length);

        make(b, a->size, length);
        memcpy(b->cells, cells, length * a->size);
        free(cells);
    } else if (a->kind == NUMBER) {
        make(b, a->size, 1);
    } else {
        uint64_t length;

        snprintf(name, sizeof name, "%s_len", a->name);
        length = decimal(name);
        if (length > 1u << 28)
            stop("%s is too much", name);
        make(b, a->size, (size_t)length);
    }
    memcpy(b->old, b->all, b->length * a->size + 2 * GUARD);
}

/* The cells must be these. */
static void same(const struct argument *a, const struct buffer *b, const void *wanted, const char *what)
{
    size_t i;

    for (i = 0; i < b->length; i++) {
        uint64_t x = get(b->cells, a->size, i), y = get(wanted, a->size, i);

        if (x != y)
            stop("count = %s: %s: %s[%zu] is 0x%llX and should be 0x%llX (%s)", field("count"), field("call"), a->name, i,
                 (unsigned long long)x, (unsigned long long)y, what);
    }
}

/* An output must hold what the file says. */
static void check_output(const struct argument *a, const struct buffer *b)
{
    char name[64];
    size_t length;
    void *wanted;

    snprintf(name, sizeof name, "%s%s", a->name, a->kind == IN_PLACE ? "_after" : "");
    wanted = from_hex(name, a->size, &length);
    if (length != b->length)
        stop("%s isn't of the buffer's length", name);
    same(a, b, wanted, "the file");
    free(wanted);
}

static void check_buffer(const struct argument *a, const struct buffer *b, uint32_t answer)
{
    size_t octets = b->length * a->size;
    const void *old = b->old + GUARD;

    if (memcmp(b->all, b->old, GUARD) != 0 || memcmp(b->all + GUARD + octets, b->old + GUARD + octets, GUARD) != 0)
        stop("count = %s: %s: written outside %s", field("count"), field("call"), a->name);
    if (a->kind == INPUT) {
        same(a, b, old, "an input");
    } else if (a->kind == WORK) {
        if (leaves_work(answer)) {
            same(a, b, old, "work words are untouched up to the length test");
        } else {
            void *zeros = calloc(b->length + 1, a->size);

            if (zeros == NULL)
                stop("no memory");
            same(a, b, zeros, "work words are zero at the end");
            free(zeros);
        }
    } else if (answer != 0) {
        same(a, b, old, "an output holds its old contents at a refusal");
    } else if (a->kind == NUMBER) {
        void *wanted = allocate(a->size);

        put(wanted, a->size, 0, decimal(a->name));
        same(a, b, wanted, "the file");
        free(wanted);
    } else {
        check_output(a, b);
    }
}

/* The calls: an argument's cells, with or without their count. */
#define CELLS(i) b[i].cells
#define BUFFER(i) b[i].cells, b[i].length
#define CALL(name, arguments)                                                                                         \
    static uint32_t call_##name(giophantus_set s, const struct buffer *b)                                             \
    {                                                                                                                 \
        (void)b;                                                                                                      \
        return giophantus_##name arguments;                                                                           \
    }

CALL(check, (s))
CALL(limits, (s, CELLS(0), CELLS(1)))
CALL(lengths, (s, CELLS(0), CELLS(1), CELLS(2), CELLS(3), CELLS(4)))
CALL(keygen, (s, BUFFER(0), BUFFER(1), BUFFER(2), BUFFER(3), CELLS(4), CELLS(5), CELLS(6)))
CALL(is_zero, (s, BUFFER(0), BUFFER(1), BUFFER(2), CELLS(3)))
CALL(encrypt, (s, BUFFER(0), BUFFER(1), BUFFER(2), BUFFER(3), BUFFER(4), CELLS(5), CELLS(6)))
CALL(add, (s, BUFFER(0), BUFFER(1), BUFFER(2)))
CALL(decrypt, (s, BUFFER(0), BUFFER(1), BUFFER(2), BUFFER(3)))
CALL(multiply_add, (s, BUFFER(0), BUFFER(1), BUFFER(2)))
CALL(element_from_octets, (s, BUFFER(0), BUFFER(1)))
CALL(element_to_octets, (s, BUFFER(0), BUFFER(1)))
CALL(small_from_octets, (s, BUFFER(0), BUFFER(1)))
CALL(small_to_octets, (s, BUFFER(0), BUFFER(1)))
CALL(secret_key_from_octets, (s, BUFFER(0), BUFFER(1)))
CALL(secret_key_to_octets, (s, BUFFER(0), BUFFER(1)))
CALL(public_key_from_octets, (s, BUFFER(0), BUFFER(1)))
CALL(public_key_to_octets, (s, BUFFER(0), BUFFER(1)))
CALL(ciphertext_from_octets, (s, BUFFER(0), BUFFER(1)))
CALL(ciphertext_to_octets, (s, BUFFER(0), BUFFER(1)))

#define FROM_OCTETS {{"octets", INPUT, 1}, {"words", OUTPUT, 4}}
#define TO_OCTETS {{"words", INPUT, 4}, {"octets", OUTPUT, 1}}

static const struct call {
    const char *name;
    uint32_t (*call)(giophantus_set, const struct buffer *);
    struct argument arguments[MAX_ARGUMENTS];
} calls[] = {
    {"check", call_check, {{NULL, INPUT, 0}}},
    {"limits", call_limits, {{"bound", NUMBER, 4}, {"headroom", NUMBER, 4}}},
    {"lengths",
     call_lengths,
     {{"secret_key", NUMBER, 8},
      {"public_key", NUMBER, 8},
      {"message", NUMBER, 8},
      {"ciphertext", NUMBER, 8},
      {"work", NUMBER, 8}}},
    {"keygen",
     call_keygen,
     {{"random", INPUT, 1},
      {"secret_key", OUTPUT, 1},
      {"public_key", OUTPUT, 1},
      {"work", WORK, 4},
      {"used", NUMBER, 8},
      {"dropped_groups", NUMBER, 8},
      {"dropped_elements", NUMBER, 8}}},
    {"is_zero",
     call_is_zero,
     {{"secret_key", INPUT, 1}, {"public_key", INPUT, 1}, {"work", WORK, 4}, {"zero", NUMBER, 4}}},
    {"encrypt",
     call_encrypt,
     {{"public_key", INPUT, 1},
      {"message", INPUT, 1},
      {"random", INPUT, 1},
      {"ciphertext", OUTPUT, 1},
      {"work", WORK, 4},
      {"used", NUMBER, 8},
      {"dropped_groups", NUMBER, 8}}},
    {"add", call_add, {{"a", INPUT, 1}, {"b", INPUT, 1}, {"sum", OUTPUT, 1}}},
    {"decrypt",
     call_decrypt,
     {{"secret_key", INPUT, 1}, {"ciphertext", INPUT, 1}, {"message", OUTPUT, 1}, {"work", WORK, 4}}},
    {"multiply_add", call_multiply_add, {{"a", INPUT, 4}, {"b", INPUT, 4}, {"c", IN_PLACE, 4}}},
    {"element_from_octets", call_element_from_octets, FROM_OCTETS},
    {"element_to_octets", call_element_to_octets, TO_OCTETS},
    {"small_from_octets", call_small_from_octets, FROM_OCTETS},
    {"small_to_octets", call_small_to_octets, TO_OCTETS},
    {"secret_key_from_octets", call_secret_key_from_octets, FROM_OCTETS},
    {"secret_key_to_octets", call_secret_key_to_octets, TO_OCTETS},
    {"public_key_from_octets", call_public_key_from_octets, FROM_OCTETS},
    {"public_key_to_octets", call_public_key_to_octets, TO_OCTETS},
    {"ciphertext_from_octets", call_ciphertext_from_octets, FROM_OCTETS},
    {"ciphertext_to_octets", call_ciphertext_to_octets, TO_OCTETS},
};

static const struct call *find_call(const char *name)
{
    size_t i;

    for (i = 0; i < sizeof calls / sizeof calls[0]; i++)
        if (strcmp(calls[i].name, name) == 0)
            return &calls[i];
    stop("there is no call %s", name);
    return NULL;
}

static void replay_record(void)
{
    const struct call *c = find_call(field("call"));
    const struct argument *a = c->arguments;
    struct buffer b[MAX_ARGUMENTS];
    uint32_t answer, wanted = decimal_32("answer");
    int one_buffer[MAX_ARGUMENTS] = {0};
    size_t i;

    for (i = 0; i < MAX_ARGUMENTS && a[i].name != NULL; i++) {
        /* "b = same": both summands, or both factors, are one buffer. */
        one_buffer[i] = i > 0 && a[i].kind == INPUT && strcmp(field(a[i].name), "same") == 0;
        if (one_buffer[i])
            b[i] = b[i - 1];
        else
            prepare(&a[i], &b[i]);
    }
    answer = c->call(record_set(), b);
    if (answer != wanted)
        stop("count = %s: %s: the answer is %lu and should be %lu", field("count"), c->name, (unsigned long)answer,
             (unsigned long)wanted);
    for (i = 0; i < MAX_ARGUMENTS && a[i].name != NULL; i++)
        check_buffer(&a[i], &b[i], answer);
    for (i = 0; i < MAX_ARGUMENTS && a[i].name != NULL; i++)
        if (!one_buffer[i]) {
            free(b[i].all);
            free(b[i].old);
        }
}

static void end_record(unsigned long *records)
{
    size_t i;

    if (field_count == 0)
        return;
    replay_record();
    for (i = 0; i < field_count; i++)
        free(fields[i].name);
    field_count = 0;
    ++*records;
}

static void add_field(char *line)
{
    char *equals = strstr(line, " =");

    if (field_count == 0)
        record_line = line_number;
    if (equals == NULL || field_count == MAX_FIELDS)
        stop("line %lu isn't of the form NAME = VALUE, or the record is too long", line_number);
    fields[field_count].name = strdup(line);
    if (fields[field_count].name == NULL)
        stop("no memory");
    fields[field_count].value = fields[field_count].name + (equals - line) + 2;
    fields[field_count].name[equals - line] = '\0';
    if (*fields[field_count].value == ' ')
        fields[field_count].value++;
    field_count++;
}

static void replay_file(const char *name)
{
    FILE *file = fopen(name, "r");
    char *line = NULL;
    size_t size = 0;
    ssize_t length;
    unsigned long records = 0;

    if (file == NULL) {
        perror(name);
        exit(2);
    }
    file_name = name;
    line_number = 0;
    while ((length = getline(&line, &size, file)) >= 0) {
        line_number++;
        while (length > 0 && (line[length - 1] == '\n' || line[length - 1] == '\r'))
            line[--length] = '\0';
        if (length == 0)
            end_record(&records);
        else if (line[0] != '#')
            add_field(line);
    }
    end_record(&records);
    if (ferror(file)) {
        perror(name);
        exit(2);
    }
    free(line);
    fclose(file);
    if (records == 0) {
        fprintf(stderr, "%s: no records\n", name);
        exit(2);
    }
    printf("%s: %lu records alike\n", name, records);
}

int main(int argc, char **argv)
{
    int i;

    if (argc < 2) {
        fprintf(stderr, "usage: replay FILE.rsp..\n");
        return 2;
    }
    for (i = 1; i < argc; i++)
        replay_file(argv[i]);
    return 0;
}
