/* Calls each function of the library. What it writes is test.out; a line that fails is told, and the status is 1 then. */
#include "slif.h"
#include <pthread.h>
#include <stdio.h>
#include <stdlib.h>
#include <string.h>

#define CHECK(x) do { if (!(x)) { fprintf(stderr, "line %d: %s\n", __LINE__, #x); exit(1); } } while (0)

enum { ROOM = 200, STEPS = 64 };

static const char SUM[] = "E ::= E '+' E | '1'\n";

static slif_grammar grammar_of(const char *text) {
    slif_grammar grammar = SLIF_NEW;
    CHECK(slif_grammar_make(&grammar, text, strlen(text), 0, 0, 0) == SLIF_OK);
    return grammar;
}

static uint32_t parse(slif_parse *parse, slif_grammar *grammar, const char *input, uint64_t skip, uint64_t most) {
    return slif_parse_make(parse, grammar, input, strlen(input), SLIF_RANK_RULE, skip, most, 0, 0, 0, 0, 0);
}

static void tell_step(slif_grammar *grammar, const char *input, const slif_step *step) {
    static const char *const KINDS[] = { "token", "nulled", "rule" };
    uint8_t name[STEPS];
    size_t length;
    uint32_t symbol = step->number;
    if (step->kind == SLIF_RULE) CHECK(slif_rule_left(grammar, step->number, &symbol) == SLIF_OK);
    CHECK(slif_symbol_name(grammar, symbol, name, sizeof name, &length) == SLIF_OK);
    printf("%s %.*s %u, %u children, tokens %u to %u, characters %u + %u, bytes %zu + %zu: \"%.*s\"\n", KINDS[step->kind], (int)length,
           name, step->number, step->children, step->from, step->to, step->start, step->length, step->byte, step->bytes,
           (int)step->bytes, input + step->byte);
}

static void tell_derivations(const char *text, const char *input) {
    slif_grammar grammar = grammar_of(text);
    slif_parse read = SLIF_NEW;
    slif_step steps[STEPS];
    size_t symbols, rules, count;
    uint64_t derivations;
    bool more;
    CHECK(slif_grammar_counts(&grammar, &symbols, &rules) == SLIF_OK);
    CHECK(parse(&read, &grammar, input, 0, 10) == SLIF_OK);
    CHECK(slif_parse_counts(&read, &derivations, &more) == SLIF_OK);
    printf("%zu symbols, %zu rules, %d derivations, %s\n", symbols, rules, (int)derivations, more ? "and more" : "and no more");
    for (uint64_t k = 0; k < derivations; k++) {
        CHECK(slif_parse_steps(&read, k, 0, steps, STEPS, &count) == SLIF_OK);
        printf("derivation %d, %zu steps\n", (int)k, count);
        for (size_t i = 0; i < count; i++) tell_step(&grammar, input, &steps[i]);
    }
    slif_parse_free(&read);
    slif_grammar_free(&grammar);
}

/* Numbers that are too large, parts of lists, and handles that are empty. */
static void ranges(void) {
    slif_grammar grammar = grammar_of(SUM);
    slif_parse read = SLIF_NEW;
    slif_step steps[STEPS], few[2] = {{0}, {0}};
    uint8_t name[8] = "????????";
    size_t symbols, count, length;
    uint64_t derivations;
    uint32_t left = 9;
    bool more;
    CHECK(parse(&read, &grammar, "1+1+1", 0, 1) == SLIF_OK);
    CHECK(slif_parse_counts(&read, &derivations, &more) == SLIF_OK && derivations == 1 && more);
    CHECK(parse(&read, &grammar, "1+1+1", 1, 1) == SLIF_OK);
    CHECK(slif_parse_counts(&read, &derivations, &more) == SLIF_OK && derivations == 1 && !more);
    CHECK(parse(&read, &grammar, "1+1+1", 7, UINT64_MAX) == SLIF_OK);
    CHECK(slif_parse_counts(&read, &derivations, &more) == SLIF_OK && derivations == 0 && !more);
    CHECK(parse(&read, &grammar, "1+1+1", 0, 0) == SLIF_OK);
    CHECK(slif_parse_counts(&read, &derivations, &more) == SLIF_OK && derivations == 0 && more);
    CHECK(parse(&read, &grammar, "1+1+1", 0, UINT64_MAX) == SLIF_OK);
    CHECK(slif_parse_counts(&read, &derivations, &more) == SLIF_OK && derivations == 2 && !more);
    CHECK(slif_parse_steps(&read, 0, 0, steps, STEPS, &count) == SLIF_OK && count == 10);
    CHECK(slif_parse_steps(&read, 0, 8, few, 1, &count) == SLIF_OK && count == 2);
    CHECK(memcmp(&few[0], &steps[8], sizeof few[0]) == 0 && few[1].kind == 0 && few[1].bytes == 0);
    CHECK(slif_parse_steps(&read, 0, 10, few, 1, &count) == SLIF_OK && count == 0);
    CHECK(slif_parse_steps(&read, 0, 11, few, 1, &count) == SLIF_RANGE && count == 0);
    CHECK(slif_parse_steps(&read, 2, 0, few, 1, &count) == SLIF_RANGE);
    CHECK(slif_parse_steps(&read, UINT64_MAX, 0, few, 1, &count) == SLIF_RANGE);
    CHECK(slif_symbol_name(&grammar, 1, name, 2, &length) == SLIF_OK && length == 3 && memcmp(name, "'+??????", 8) == 0);
    CHECK(slif_symbol_name(&grammar, 3, name, 2, &length) == SLIF_RANGE && length == 3);
    CHECK(slif_rule_left(&grammar, 1, &left) == SLIF_OK && left == 0);
    CHECK(slif_rule_left(&grammar, 2, &left) == SLIF_RANGE);
    CHECK(slif_rule_left(&grammar, UINT32_MAX, &left) == SLIF_RANGE);
    slif_parse_free(&read);
    slif_parse_free(&read);
    CHECK(slif_parse_counts(&read, &derivations, &more) == SLIF_EMPTY);
    CHECK(slif_parse_steps(&read, 0, 0, steps, STEPS, &count) == SLIF_EMPTY);
    slif_grammar_free(&grammar);
    slif_grammar_free(&grammar);
    CHECK(slif_grammar_counts(&grammar, &symbols, &length) == SLIF_EMPTY);
    CHECK(slif_symbol_name(&grammar, 0, name, 2, &length) == SLIF_EMPTY);
    CHECK(slif_rule_left(&grammar, 0, &left) == SLIF_EMPTY);
    CHECK(parse(&read, &grammar, "1", 0, 1) == SLIF_EMPTY);
}

static void tell_refusal(uint32_t answer, const slif_fault *fault, const char *message, const uint32_t *expected) {
    printf("%u at %u:%u: %.*s;", answer, fault->line, fault->column, (int)fault->message, message);
    for (size_t k = 0; k < fault->expected; k++) printf(" %u", expected[k]);
    printf("\n");
}

static void refuse_grammar(const char *text, size_t length) {
    slif_grammar grammar = grammar_of(SUM);
    slif_fault fault;
    char message[ROOM];
    size_t symbols, rules;
    tell_refusal(slif_grammar_make(&grammar, text, length, &fault, message, ROOM), &fault, message, 0);
    CHECK(slif_grammar_counts(&grammar, &symbols, &rules) == SLIF_OK && symbols == 3);
    slif_grammar_free(&grammar);
}

static void refuse_input(const char *input, size_t length) {
    slif_grammar grammar = grammar_of(SUM);
    slif_parse read = SLIF_NEW;
    slif_fault fault;
    char message[ROOM];
    uint32_t expected[8];
    uint64_t derivations;
    bool more;
    CHECK(parse(&read, &grammar, "1", 0, 1) == SLIF_OK);
    tell_refusal(slif_parse_make(&read, &grammar, input, length, SLIF_RANK_RULE, 0, 1, &fault, message, ROOM, expected, 8), &fault, message, expected);
    CHECK(slif_parse_counts(&read, &derivations, &more) == SLIF_OK && derivations == 1);
    slif_parse_free(&read);
    slif_grammar_free(&grammar);
}

/* A message is cut where room is short, and what follows the room stays. */
static void short_room(void) {
    slif_grammar grammar = grammar_of(SUM);
    slif_parse read = SLIF_NEW;
    slif_fault fault;
    char message[] = "????????";
    uint32_t expected[2] = { 77, 77 };
    CHECK(slif_parse_make(&read, &grammar, "1+2", 3, 0, 0, 1, &fault, message, 5, expected, 0) == SLIF_INPUT);
    CHECK(strcmp(message, "input???") == 0 && fault.message == 60 && fault.expected == 1 && expected[0] == 77);
    CHECK(slif_parse_make(&read, &grammar, 0, 5, 0, 0, 1, 0, 0, 5, 0, 5) == SLIF_INPUT);
    slif_grammar_free(&grammar);
}

/* What could come after an input, whole or not, and where reading stops. */
static void expecting(void) {
    slif_grammar grammar = grammar_of("E ::= E '+' E | '(' E ')' | '1'\n");
    slif_fault fault = { 7, 7, 7, 7 };
    char message[ROOM];
    uint32_t symbols[4] = { 77, 77, 77, 77 };
    uint8_t name[8];
    size_t count = 9, length;
    CHECK(slif_expect(&grammar, "(1", 2, symbols, 4, &count, &fault, message, ROOM) == SLIF_OK && count == 2 && fault.line == 7);
    for (size_t k = 0; k < count; k++) {
        CHECK(slif_symbol_name(&grammar, symbols[k], name, sizeof name, &length) == SLIF_OK);
        printf("%s%.*s", k ? " " : "after `(1`: ", (int)length, name);
    }
    printf("\n");
    CHECK(symbols[2] == 77);
    CHECK(slif_expect(&grammar, "", 0, symbols, 1, &count, 0, 0, 0) == SLIF_OK && count == 2 && symbols[2] == 77);
    CHECK(slif_expect(&grammar, 0, 5, 0, 5, &count, 0, 0, 5) == SLIF_OK && count == 2);
    tell_refusal(slif_expect(&grammar, "1+x", 3, symbols, 4, &count, &fault, message, ROOM), &fault, message, symbols);
    CHECK(count == 2);
    slif_grammar_free(&grammar);
    CHECK(slif_expect(&grammar, "1", 1, symbols, 4, &count, &fault, message, ROOM) == SLIF_EMPTY && fault.column == 3);
}

/* The line of a derivation, as the program shows it, and where there is none. */
static void lines(void) {
    static const char LISTS[] = ":default ::= action => [name,values]\nE ::= E '+' E | '1'\n";
    slif_grammar grammar = grammar_of(LISTS);
    slif_parse read = SLIF_NEW;
    uint8_t line[ROOM], few[6] = "??????";
    uint64_t derivations;
    size_t length = 9;
    bool more;
    for (uint32_t show = SLIF_SHOW_ARRAY; show <= SLIF_SHOW_TREE; show++) {
        CHECK(slif_show_make(&read, &grammar, "1+1+1", 5, SLIF_RANK_RULE, show, 0, 2, 0, 0, 0, 0, 0) == SLIF_OK);
        CHECK(slif_parse_counts(&read, &derivations, &more) == SLIF_OK && derivations == 2 && !more);
        for (uint64_t k = 0; k < derivations; k++) {
            CHECK(slif_parse_line(&read, k, line, ROOM, &length) == SLIF_OK);
            printf("%.*s", (int)length, (char *)line);
        }
    }
    CHECK(slif_show_make(&read, &grammar, "1", 1, SLIF_RANK_RULE, SLIF_SHOW_ARRAY, 0, 9, 0, 0, 0, 0, 0) == SLIF_OK);
    CHECK(slif_parse_line(&read, 0, few, 4, &length) == SLIF_OK && length == 10 && memcmp(few, "[\"E\"??", 6) == 0);
    CHECK(slif_parse_line(&read, 1, few, 4, &length) == SLIF_RANGE && length == 10);
    CHECK(slif_show_make(&read, &grammar, "1+", 2, SLIF_RANK_RULE, SLIF_SHOW_TREE, 0, 1, 0, 0, 0, 0, 0) == SLIF_INPUT);
    CHECK(slif_parse_line(&read, 0, line, ROOM, &length) == SLIF_OK && length == 10);
    CHECK(slif_show_make(&read, &grammar, "1+1+1", 5, SLIF_RANK_RULE, SLIF_SHOW_TREE, 1, 0, 0, 0, 0, 0, 0) == SLIF_OK);
    CHECK(slif_parse_counts(&read, &derivations, &more) == SLIF_OK && derivations == 0 && more);
    CHECK(parse(&read, &grammar, "1", 0, 1) == SLIF_OK);
    CHECK(slif_parse_line(&read, 0, few, 4, &length) == SLIF_RANGE);
    slif_parse_free(&read);
    CHECK(slif_parse_line(&read, 0, few, 4, &length) == SLIF_EMPTY && length == 10);
    slif_grammar_free(&grammar);
    CHECK(slif_show_make(&read, &grammar, "1", 1, SLIF_RANK_RULE, SLIF_SHOW_TREE, 0, 1, 0, 0, 0, 0, 0) == SLIF_EMPTY);
}

/* SCANNERS */

static uint32_t symbol_in(slif_scan *scan, const char *name) {
    uint32_t symbol = 9999;
    CHECK(slif_scan_symbol(scan, (const uint8_t *)name, strlen(name), &symbol) == SLIF_OK);
    return symbol;
}

static void tell_scanned(slif_scan *scan, uint64_t skip, uint64_t most) {
    static const char *const KINDS[] = { "token", "nulled", "rule" };
    slif_parse read = SLIF_NEW;
    slif_step steps[STEPS];
    uint64_t derivations;
    size_t count;
    bool more;
    CHECK(slif_scan_parse(scan, skip, most, &read) == SLIF_OK);
    CHECK(slif_parse_counts(&read, &derivations, &more) == SLIF_OK);
    printf("%d derivations, %s\n", (int)derivations, more ? "and more" : "and no more");
    for (uint64_t k = 0; k < derivations; k++) {
        CHECK(slif_parse_steps(&read, k, 0, steps, STEPS, &count) == SLIF_OK);
        for (const slif_step *step = steps; step < steps + count; step++)
            printf("%s%s %u, %u children, %u to %u, %u + %u, %zu + %zu", step == steps ? "" : "; ", KINDS[step->kind], step->number,
                   step->children, step->from, step->to, step->start, step->length, step->byte, step->bytes);
        printf("\n");
    }
    slif_parse_free(&read);
}

/* A phrase is one noun or two; a long noun and two short ones end at one place. */
static void overlapping(void) {
    slif_scan scan = SLIF_NEW;
    uint32_t parts[2], rule = 9, place = 9, symbols[4] = { 77, 77, 77, 77 };
    uint8_t text[1];
    size_t count = 9;
    CHECK(slif_scan_new(&scan) == SLIF_OK);
    uint32_t phrase = symbol_in(&scan, "phrase"), noun = symbol_in(&scan, "noun");
    CHECK(phrase == 0 && noun == 1 && symbol_in(&scan, "phrase") == 0);
    parts[0] = parts[1] = noun;
    CHECK(slif_scan_rule(&scan, phrase, parts, 1, &rule) == SLIF_OK && rule == 0);
    CHECK(slif_scan_rule(&scan, phrase, parts, 2, &rule) == SLIF_OK && rule == 1);
    CHECK(slif_scan_start(&scan, phrase) == SLIF_OK);
    CHECK(slif_scan_precompute(&scan, text, 0, &count) == SLIF_OK && count == 9);
    CHECK(slif_scan_expected(&scan, symbols, 4, &count) == SLIF_OK && count == 1 && symbols[0] == noun && symbols[1] == 77);
    CHECK(slif_scan_alternative(&scan, phrase, 1) == SLIF_UNEXPECTED);
    CHECK(slif_scan_alternative(&scan, 5, 1) == SLIF_UNEXPECTED);
    CHECK(slif_scan_alternative(&scan, noun, 1) == SLIF_OK);
    CHECK(slif_scan_alternative(&scan, noun, 2) == SLIF_OK);
    CHECK(slif_scan_alternative(&scan, noun, 2) == SLIF_DUPLICATE);
    CHECK(slif_scan_alternative(&scan, noun, 0) == SLIF_BAD_LENGTH);
    CHECK(slif_scan_alternative(&scan, noun, 1048577) == SLIF_BAD_LENGTH);
    CHECK(slif_scan_complete(&scan, &place) == SLIF_OK && place == 1);
    tell_scanned(&scan, 0, 9);
    CHECK(slif_scan_alternative(&scan, noun, 1) == SLIF_OK);
    CHECK(slif_scan_complete(&scan, &place) == SLIF_OK && place == 2);
    symbols[0] = 77;
    CHECK(slif_scan_expected(&scan, symbols, 4, &count) == SLIF_OK && count == 1 && symbols[0] == noun);   /* after the long one */
    tell_scanned(&scan, 0, 9);
    tell_scanned(&scan, 1, 9);
    tell_scanned(&scan, 0, 1);
    CHECK(slif_scan_complete(&scan, &place) == SLIF_OK && place == 3);
    CHECK(slif_scan_expected(&scan, symbols, 4, &count) == SLIF_OK && count == 0);
    CHECK(slif_scan_alternative(&scan, noun, 1) == SLIF_UNEXPECTED);
    tell_scanned(&scan, 0, 9);
    CHECK(slif_scan_restart(&scan) == SLIF_OK);
    CHECK(slif_scan_alternative(&scan, noun, 3) == SLIF_OK);
    for (uint32_t k = 1; k <= 3; k++) CHECK(slif_scan_complete(&scan, &place) == SLIF_OK && place == k);
    tell_scanned(&scan, 0, 9);
    slif_scan_free(&scan);
    slif_scan_free(&scan);
}

/* Items with separators, and a part that spans nothing. */
static void sequences(void) {
    slif_scan scan = SLIF_NEW;
    uint32_t rule = 9, place = 9;
    CHECK(slif_scan_new(&scan) == SLIF_OK);
    uint32_t list = symbol_in(&scan, "list"), sign = symbol_in(&scan, "sign"), items = symbol_in(&scan, "items");
    uint32_t item = symbol_in(&scan, "item"), comma = symbol_in(&scan, "comma");
    uint32_t parts[2] = { sign, items };
    CHECK(slif_scan_rule(&scan, list, parts, 2, &rule) == SLIF_OK && rule == 0);
    CHECK(slif_scan_rule(&scan, sign, parts, 0, &rule) == SLIF_OK && rule == 1);
    CHECK(slif_scan_sequence(&scan, items, item, true, comma, true, &rule) == SLIF_OK && rule == 2);
    CHECK(slif_scan_start(&scan, list) == SLIF_OK);
    uint8_t text[1];
    size_t length;
    CHECK(slif_scan_precompute(&scan, text, 0, &length) == SLIF_OK);
    for (uint32_t k = 0; k < 3; k++) {
        CHECK(slif_scan_alternative(&scan, k % 2 ? comma : item, 1) == SLIF_OK);
        CHECK(slif_scan_complete(&scan, &place) == SLIF_OK && place == k + 1);
    }
    tell_scanned(&scan, 0, 9);
    slif_scan_free(&scan);
}

/* What a grammar refuses while it is built, and why one cannot be read by. */
static void refused_scans(void) {
    static uint32_t many[1001];
    slif_scan scan = SLIF_NEW;
    slif_parse read = SLIF_NEW;
    uint32_t number = 9, parts[1] = { 0 };
    uint8_t text[ROOM] = "";
    size_t length = 9;
    CHECK(slif_scan_new(&scan) == SLIF_OK);
    CHECK(slif_scan_precompute(&scan, text, ROOM, &length) == SLIF_GRAMMAR);
    printf("%.*s\n", (int)length, (char *)text);
    CHECK(symbol_in(&scan, "a") == 0 && symbol_in(&scan, "b c") == 1 && symbol_in(&scan, "") == 2);
    CHECK(slif_scan_symbol(&scan, (const uint8_t *)"\xff", 1, &number) == SLIF_BAD_NAME && number == 9);
    CHECK(slif_scan_rule(&scan, 3, parts, 1, &number) == SLIF_RANGE && number == 9);
    parts[0] = 3;
    CHECK(slif_scan_rule(&scan, 0, parts, 1, &number) == SLIF_RANGE);
    CHECK(slif_scan_rule(&scan, 0, many, 1001, &number) == SLIF_TOO_MANY && number == 9);
    CHECK(slif_scan_sequence(&scan, 0, 1, false, 3, false, &number) == SLIF_RANGE);
    CHECK(slif_scan_sequence(&scan, 0, 3, false, SLIF_NO_SYMBOL, false, &number) == SLIF_RANGE && number == 9);
    CHECK(slif_scan_start(&scan, 3) == SLIF_RANGE);
    CHECK(slif_scan_alternative(&scan, 1, 1) == SLIF_NOT_NOW);
    CHECK(slif_scan_complete(&scan, &number) == SLIF_NOT_NOW);
    CHECK(slif_scan_expected(&scan, parts, 1, &length) == SLIF_NOT_NOW);
    CHECK(slif_scan_restart(&scan) == SLIF_NOT_NOW);
    CHECK(slif_scan_parse(&scan, 0, 1, &read) == SLIF_NOT_NOW && number == 9);
    parts[0] = 1;
    CHECK(slif_scan_rule(&scan, 0, parts, 1, &number) == SLIF_OK && number == 0);
    memset(text, '?', 6);
    CHECK(slif_scan_precompute(&scan, text, 4, &length) == SLIF_GRAMMAR && length == 15 && memcmp(text, "no s??", 6) == 0);
    CHECK(slif_scan_start(&scan, 0) == SLIF_OK);
    CHECK(slif_scan_start(&scan, 0) == SLIF_SECOND_START);
    CHECK(slif_scan_rule(&scan, 0, parts, 1, &number) == SLIF_OK && number == 1);
    CHECK(slif_scan_precompute(&scan, text, ROOM, &length) == SLIF_GRAMMAR);
    printf("%.*s\n", (int)length, (char *)text);
    CHECK(slif_scan_new(&scan) == SLIF_OK);
    CHECK(symbol_in(&scan, "a") == 0 && symbol_in(&scan, "b") == 1);
    CHECK(slif_scan_rule(&scan, 0, parts, 1, &number) == SLIF_OK && slif_scan_start(&scan, 0) == SLIF_OK);
    CHECK(slif_scan_precompute(&scan, text, ROOM, &length) == SLIF_OK);
    number = 9;
    CHECK(slif_scan_symbol(&scan, (const uint8_t *)"a", 1, &number) == SLIF_NOT_NOW && number == 9);
    CHECK(slif_scan_rule(&scan, 0, parts, 1, &number) == SLIF_NOT_NOW);
    CHECK(slif_scan_sequence(&scan, 0, 1, false, SLIF_NO_SYMBOL, false, &number) == SLIF_NOT_NOW);
    CHECK(slif_scan_start(&scan, 0) == SLIF_NOT_NOW);
    CHECK(slif_scan_precompute(&scan, text, ROOM, &length) == SLIF_NOT_NOW && number == 9);
    slif_scan_free(&scan);
    CHECK(slif_scan_symbol(&scan, (const uint8_t *)"a", 1, &number) == SLIF_EMPTY);
    CHECK(slif_scan_rule(&scan, 0, parts, 1, &number) == SLIF_EMPTY);
    CHECK(slif_scan_sequence(&scan, 0, 1, false, 1, false, &number) == SLIF_EMPTY && slif_scan_start(&scan, 0) == SLIF_EMPTY);
    CHECK(slif_scan_precompute(&scan, text, ROOM, &length) == SLIF_EMPTY && slif_scan_restart(&scan) == SLIF_EMPTY);
    CHECK(slif_scan_alternative(&scan, 1, 1) == SLIF_EMPTY && slif_scan_complete(&scan, &number) == SLIF_EMPTY);
    CHECK(slif_scan_expected(&scan, parts, 1, &length) == SLIF_EMPTY && slif_scan_parse(&scan, 0, 1, &read) == SLIF_EMPTY);
}

/* Null pointers, where the header allows them. */
static void nulls_of_scans(void) {
    slif_scan scan = SLIF_NEW;
    uint32_t part, place = 9, symbols[1] = { 77 };
    size_t count = 9;
    char message[4] = "???";
    CHECK(slif_scan_symbol_make(&scan, 0, 5, 0) == SLIF_EMPTY && slif_scan_rule_make(&scan, 0, 0, 5, 0) == SLIF_EMPTY);
    CHECK(slif_scan_sequence_make(&scan, 0, 0, true, SLIF_NO_SYMBOL, false, 0) == SLIF_EMPTY);
    CHECK(slif_scan_precompute_make(&scan, 0, 5, 0) == SLIF_EMPTY && slif_scan_complete_make(&scan, 0) == SLIF_EMPTY);
    CHECK(slif_scan_expected_make(&scan, 0, 5, &count) == SLIF_EMPTY && count == 9);
    CHECK(slif_scan_new(&scan) == SLIF_OK && slif_scan_new(&scan) == SLIF_OK);
    CHECK(slif_scan_symbol_make(&scan, 0, 5, 0) == SLIF_OK && slif_scan_symbol_make(&scan, "", 0, &part) == SLIF_OK && part == 0);
    CHECK(slif_scan_symbol_make(&scan, "item", 4, &part) == SLIF_OK && part == 1);
    CHECK(slif_scan_precompute_make(&scan, 0, 5, 0) == SLIF_GRAMMAR);
    CHECK(slif_scan_precompute_make(&scan, message, 2, &count) == SLIF_GRAMMAR && count == 8 && memcmp(message, "no?", 4) == 0);
    CHECK(slif_scan_symbol_make(&scan, "items", 5, &part) == SLIF_OK && part == 2);
    CHECK(slif_scan_rule_make(&scan, 0, &part, 1, 0) == SLIF_OK && slif_scan_rule_make(&scan, 0, 0, 5, 0) == SLIF_OK);
    CHECK(slif_scan_sequence_make(&scan, 2, 1, true, SLIF_NO_SYMBOL, false, 0) == SLIF_OK);
    CHECK(slif_scan_start(&scan, 0) == SLIF_OK && slif_scan_precompute_make(&scan, 0, 5, 0) == SLIF_OK);
    CHECK(slif_scan_expected_make(&scan, 0, 5, &count) == SLIF_OK && count == 1);
    CHECK(slif_scan_expected_make(&scan, symbols, 1, &count) == SLIF_OK && symbols[0] == 1);
    CHECK(slif_scan_alternative(&scan, 1, 1) == SLIF_OK && slif_scan_complete_make(&scan, 0) == SLIF_OK);
    CHECK(slif_scan_complete_make(&scan, &place) == SLIF_OK && place == 2);
    slif_scan_free(&scan);
}

/* Bytes of no sense, by a fixed generator. */
static void noise(void) {
    static const char ALPHABET[] = "E ::=|'+1~[]()\\\n#\xc3\xa9\xff";
    slif_grammar grammar = SLIF_NEW, sum = grammar_of(SUM);
    slif_parse read = SLIF_NEW;
    uint64_t seed = 1;
    for (int k = 0; k < 2000; k++) {
        uint8_t bytes[64];
        for (size_t n = 0; n < sizeof bytes; n++) {
            seed = seed * 6364136223846793005u + 1442695040888963407u;
            bytes[n] = (uint8_t)ALPHABET[(seed >> 33) % (sizeof ALPHABET - 1)];
        }
        uint32_t answer = slif_grammar_make(&grammar, bytes, (seed >> 50) % 64, 0, 0, 0);
        CHECK(answer == SLIF_OK || answer == SLIF_GRAMMAR);
        answer = slif_parse_make(&read, &sum, bytes, (seed >> 50) % 64, 0, 0, 3, 0, 0, 0, 0, 0);
        CHECK(answer == SLIF_OK || answer == SLIF_INPUT);
    }
    slif_grammar_free(&grammar);
    slif_grammar_free(&sum);
    slif_parse_free(&read);
}

/* Handles of its own, and one that another thread made. */
static void *work(void *handed) {
    slif_parse read = SLIF_NEW;
    uint64_t derivations;
    bool more;
    CHECK(parse(&read, handed, "1+1+1", 0, 10) == SLIF_OK);
    for (int k = 0; k < 200; k++) {
        slif_grammar grammar = grammar_of(SUM);
        CHECK(parse(&read, &grammar, "1+1+1+1", 0, 100) == SLIF_OK);
        CHECK(slif_parse_counts(&read, &derivations, &more) == SLIF_OK && derivations == 5);
        slif_grammar_free(&grammar);
    }
    slif_parse_free(&read);
    slif_grammar_free(handed);
    return 0;
}

static void threads(void) {
    pthread_t thread[4];
    slif_grammar handed[4];
    for (int i = 0; i < 4; i++) {
        handed[i] = grammar_of(SUM);
        CHECK(pthread_create(&thread[i], 0, work, &handed[i]) == 0);
    }
    for (int i = 0; i < 4; i++) CHECK(pthread_join(thread[i], 0) == 0);
}

/* Two handles of one grammar: either may be freed first, and a handle that is shared into lets go what it had. */
static void sharing(void) {
    slif_grammar grammar = grammar_of(SUM), other = grammar_of("S ::= 'a'\n"), none = SLIF_NEW;
    slif_parse read = SLIF_NEW;
    size_t symbols, rules;
    CHECK(slif_grammar_share(&none, &other) == SLIF_EMPTY);
    CHECK(slif_grammar_counts(&other, &symbols, &rules) == SLIF_OK && symbols == 2 && rules == 1);
    CHECK(slif_grammar_share(&grammar, &other) == SLIF_OK && slif_grammar_share(&other, &none) == SLIF_OK);
    CHECK(slif_grammar_counts(&none, &symbols, &rules) == SLIF_OK && symbols == 3 && rules == 2);
    slif_grammar_free(&grammar);
    CHECK(parse(&read, &other, "1+1", 0, 1) == SLIF_OK && parse(&read, &grammar, "1+1", 0, 1) == SLIF_EMPTY);
    slif_grammar_free(&none);
    CHECK(parse(&read, &other, "1+1+1", 0, 1) == SLIF_OK);
    slif_grammar_free(&other);
    slif_parse_free(&read);
}

/* Threads that read by one grammar side by side, each by a handle of its own. */
static void *read_beside(void *handed) {
    slif_parse read = SLIF_NEW;
    uint64_t derivations;
    bool more;
    for (int k = 0; k < 500; k++) {
        CHECK(parse(&read, handed, k % 2 ? "1+1+1+1" : "1+1+1", 0, 100) == SLIF_OK);
        CHECK(slif_parse_counts(&read, &derivations, &more) == SLIF_OK && derivations == (k % 2 ? 5 : 2) && !more);
        slif_grammar again = SLIF_NEW;
        CHECK(slif_grammar_share(handed, &again) == SLIF_OK);
        slif_grammar_free(handed);
        CHECK(slif_grammar_share(&again, handed) == SLIF_OK);
        slif_grammar_free(&again);
    }
    slif_parse_free(&read);
    slif_grammar_free(handed);
    return 0;
}

static void threads_of_one_grammar(void) {
    pthread_t thread[4];
    slif_grammar grammar = grammar_of(SUM), handed[4] = { SLIF_NEW, SLIF_NEW, SLIF_NEW, SLIF_NEW };
    for (int i = 0; i < 4; i++) {
        CHECK(slif_grammar_share(&grammar, &handed[i]) == SLIF_OK);
        CHECK(pthread_create(&thread[i], 0, read_beside, &handed[i]) == 0);
    }
    slif_grammar_free(&grammar);
    for (int i = 0; i < 4; i++) CHECK(pthread_join(thread[i], 0) == 0);
}

int main(void) {
    static const char UNDEFINED[] = "# fault.slif\nlexeme default = latm => 1\nSum ::= Sum '+' Number | Number\n";
    tell_derivations(SUM, "1+1+1");
    tell_derivations("lexeme default = latm => 1\nS ::= A Ws\nA ::=\nWs ::= W+\nW ~ [\\w]\n:discard ~ [ ]\n", "\xc3\xa9 a");
    ranges();
    refuse_grammar(UNDEFINED, strlen(UNDEFINED));
    refuse_grammar("\xff\xfe", 2);
    refuse_grammar(0, 5);
    refuse_input("1+2", 3);
    refuse_input("1+", 2);
    refuse_input("1\x80", 2);
    refuse_input(0, 5);
    short_room();
    expecting();
    lines();
    overlapping();
    sequences();
    refused_scans();
    nulls_of_scans();
    noise();
    threads();
    sharing();
    threads_of_one_grammar();
    puts("all well");
    return 0;
}
