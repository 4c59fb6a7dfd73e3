/* ini: reads an INI file from standard input, and writes each setting as SECTION.NAME=TEXT. An example of slif.h:

       cc ini.c -lslif -o ini && ./ini < settings.ini

   A fault of the file is told with its line and column, and with what could stand there. */
#include "slif.h"
#include <stdio.h>
#include <stdlib.h>
#include <string.h>

static const char GRAMMAR[] =
    "lexeme default = latm => 1\n"
    "file ::= line*\n"                         /* rule 0 */
    "line ::= ('[') name (']') eol\n"          /* rule 1 */
    "       | name ('=') text eol\n"           /* rule 2 */
    "       | name ('=') eol\n"                /* rule 3 */
    "       | eol\n"                           /* rule 4 */
    "name ~ [\\w.-]+\n"
    "text ~ word+ separator => gap proper => 1\n"
    "word ~ [^\\s;]+\n"
    "gap ~ [ \\t]+\n"
    "eol ~ [\\n] | [\\r] [\\n]\n"
    ":discard ~ gap\n"
    ":discard ~ comment\n"
    "comment ~ ';' rest\n"
    "rest ~ [^\\n]*\n";

enum { SECTION = 1, SETTING = 2, EMPTY_SETTING = 3, ROOM = 256 };

static void stop(const char *text) {
    fprintf(stderr, "ini: %s\n", text);
    exit(1);
}

/* All of standard input, and a line end after it. */
static char *input_of(size_t *length) {
    size_t room = 1 << 16;
    char *bytes = malloc(room);
    *length = 0;
    while (bytes && (*length += fread(bytes + *length, 1, room - *length, stdin)) == room) {
        room *= 2;
        bytes = realloc(bytes, room);
    }
    if (!bytes) stop("out of memory");
    bytes[(*length)++] = '\n';
    return bytes;
}

/* Tells why the file is refused. */
static void refuse(slif_grammar *grammar, const slif_fault *fault, const char *message, const uint32_t *expected) {
    fprintf(stderr, "ini:%u:%u: %.*s\n", fault->line, fault->column, (int)(fault->message < ROOM ? fault->message : ROOM), message);
    for (size_t k = 0; k < fault->expected && k < ROOM; k++) {
        uint8_t name[ROOM];
        size_t length;
        if (slif_symbol_name(grammar, expected[k], name, ROOM, &length) == SLIF_OK)
            fprintf(stderr, "ini: %.*s could stand there\n", (int)(length < ROOM ? length : ROOM), (char *)name);
    }
    exit(1);
}

/* The number of the symbol of this name. */
static uint32_t symbol_of(slif_grammar *grammar, const char *wanted) {
    uint8_t name[ROOM];
    size_t length;
    for (uint32_t symbol = 0; slif_symbol_name(grammar, symbol, name, ROOM, &length) == SLIF_OK; symbol++)
        if (length == strlen(wanted) && memcmp(name, wanted, length) == 0) return symbol;
    return UINT32_MAX;
}

static void tell(slif_grammar *grammar, const char *input, const slif_step *steps, size_t count) {
    uint32_t name_symbol = symbol_of(grammar, "name"), text_symbol = symbol_of(grammar, "text");
    slif_step section = {0}, name = {0}, text = {0};
    for (const slif_step *step = steps; step < steps + count; step++) {
        if (step->kind == SLIF_TOKEN && step->number == name_symbol) name = *step;
        if (step->kind == SLIF_TOKEN && step->number == text_symbol) text = *step;
        if (step->kind != SLIF_RULE) continue;
        /* children stand before their rule: the newest name and text are its own */
        if (step->number == SECTION) section = name;
        if (step->number == EMPTY_SETTING) text.bytes = 0;
        if (step->number == SETTING || step->number == EMPTY_SETTING)
            printf("%.*s.%.*s=%.*s\n", (int)section.bytes, input + section.byte, (int)name.bytes, input + name.byte,
                   (int)text.bytes, input + text.byte);
    }
}

int main(void) {
    slif_grammar grammar = SLIF_NEW;
    slif_parse parse = SLIF_NEW;
    slif_fault fault = {0};
    char message[ROOM];
    uint32_t expected[ROOM];
    slif_step first;
    size_t length, count;
    char *input = input_of(&length);
    if (slif_grammar_make(&grammar, GRAMMAR, strlen(GRAMMAR), &fault, message, ROOM)) stop("the grammar is refused");
    uint32_t answer = slif_parse_make(&parse, &grammar, input, length, SLIF_RANK_RULE, 0, 1, &fault, message, ROOM, expected, ROOM);
    if (answer == SLIF_INPUT) refuse(&grammar, &fault, message, expected);
    if (answer) stop("out of memory");
    slif_parse_steps(&parse, 0, 0, &first, 0, &count);
    slif_step *steps = malloc(count * sizeof *steps);
    if (!steps || slif_parse_steps(&parse, 0, 0, steps, count, &count)) stop("out of memory");
    tell(&grammar, input, steps, count);
    free(steps);
    free(input);
    slif_parse_free(&parse);
    slif_grammar_free(&grammar);
    return 0;
}
