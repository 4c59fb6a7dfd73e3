/* slif.h: reading by a grammar, from C. Link with libslif.a or with libslif.so; docs/C.md is the guide. */
#ifndef SLIF_H
#define SLIF_H

#include <stdbool.h>
#include <stddef.h>
#include <stdint.h>

#ifdef __cplusplus
extern "C" {
#endif

/* What a call answers. The first four are the statuses of the program slif. */
enum {
    SLIF_OK = 0,
    SLIF_INPUT = 1,     /* the input is refused, or has no derivation; *fault tells why */
    SLIF_GRAMMAR = 3,   /* the grammar is refused; *fault tells why */
    SLIF_NO_MEMORY = 5, /* all that was given is as it was */
    SLIF_EMPTY = 6,     /* the handle is empty */
    SLIF_RANGE = 7,     /* there is no symbol, rule, derivation or line of that number, or there are fewer steps */

    /* by calls of a scanner alone */
    SLIF_NOT_NOW = 8,      /* the call is for a grammar that is built, and this one is read by, or the other way round */
    SLIF_BAD_NAME = 9,     /* the name is not UTF-8 */
    SLIF_SECOND_START = 10,
    SLIF_UNEXPECTED = 11,  /* the terminal is not acceptable at the place */
    SLIF_DUPLICATE = 12,   /* the token was taken before */
    SLIF_BAD_LENGTH = 13,  /* the length of a token is 0, or more than 1,048,576 */
    SLIF_TOO_MANY = 14     /* there are as many symbols, rules, parts of a rule or places as there may be */
};

/* How ranks of rules count, as --rank of the program says. Any other number is SLIF_RANK_HIGH. */
enum { SLIF_RANK_NONE = 0, SLIF_RANK_RULE = 1, SLIF_RANK_HIGH = 2 };

/* How a derivation is shown, as --show of the program says. Any other number is SLIF_SHOW_TREE. */
enum { SLIF_SHOW_ARRAY = 0, SLIF_SHOW_TREE = 1 };

/* What a step is. */
enum { SLIF_TOKEN = 0, SLIF_NULLED = 1, SLIF_RULE = 2 };

/* Handles. `slif_grammar g = SLIF_NEW;` makes an empty one, and so does each `.._free`. A program reads and writes no member
   and copies no handle: two copies would free one block twice. */
typedef struct { void *slif_at; bool slif_full; } slif_grammar;
typedef struct { void *slif_at; bool slif_full; } slif_parse;
typedef struct { void *slif_at; bool slif_full; } slif_scan;
#define SLIF_NEW { 0, false }

/* What is told of a refusal: line and column from 1, columns in characters, or zeros where the fault has no place; the
   length of the message in bytes; how many lexemes could come next. It is written where a call answers SLIF_INPUT or
   SLIF_GRAMMAR, and left as it was by every other answer. */
typedef struct {
    uint32_t line, column;
    size_t message, expected;
} slif_fault;

/* A step of a derivation; children stand before their rule. `number` is a symbol where the step is a token or spans nothing,
   else a rule, from 0 in the order of the grammar's text; `children` says how many of the newest values are the rule's.
   `from` and `to` count tokens, `start` and `length` characters, `byte` and `bytes` bytes of the input. */
typedef struct {
    uint32_t kind, number, children, from, to, start, length;
    size_t byte, bytes;
} slif_step;

/* Lengths are told in full where room is short, as by snprintf, and nothing is written past the room; but no zero is written
   after a message or a name. A pointer with a count is not null and is aligned, also where the count is 0; the functions of the
   last part, those with .._make and slif_expect, allow null. What pointers of one call lead to does not overlap, and does not
   change while the call runs. No two calls over one handle run at once, not even two that only ask. */

/* Makes a grammar of its text, in UTF-8. What the handle had before is let go, unless the text is refused. */
uint32_t slif_grammar_new(const uint8_t *text, size_t length, slif_grammar *grammar, slif_fault *fault,
                          uint8_t *message, size_t message_room);
void slif_grammar_free(slif_grammar *grammar);

/* Makes `other` a second handle of the same grammar, for another thread: calls over different handles run side by side. What `other`
   had before is let go, unless the answer says why not. `other` is not `grammar`. Each handle is freed, and the last one lets the
   grammar go. */
uint32_t slif_grammar_share(slif_grammar *grammar, slif_grammar *other);

/* How many symbols and rules there are; a symbol's name, in UTF-8; the symbol on a rule's left side. Rules are those with `::=`,
   an alternative each, from 0 in the order of the text; symbols are numbered as they first stand in statements with `::=`. */
uint32_t slif_grammar_counts(slif_grammar *grammar, size_t *symbols, size_t *rules);
uint32_t slif_symbol_name(slif_grammar *grammar, uint32_t symbol, uint8_t *name, size_t room, size_t *length);
uint32_t slif_rule_left(slif_grammar *grammar, uint32_t rule, uint32_t *left);

/* Reads an input, in UTF-8, and keeps at most `most` of its derivations, in the declared order, after the first `skip`.
   What the handle had before is let go, unless the input is refused. */
uint32_t slif_parse_new(slif_grammar *grammar, const uint8_t *input, size_t length, uint32_t rank, uint64_t skip,
                        uint64_t most, slif_parse *parse, slif_fault *fault, uint8_t *message, size_t message_room,
                        uint32_t *expected, size_t expected_room);
void slif_parse_free(slif_parse *parse);

/* How many derivations are kept, and whether there are more after them. */
uint32_t slif_parse_counts(slif_parse *parse, uint64_t *derivations, bool *more);

/* Copies the steps of a derivation from step `from` on; *count is how many there are from there on. */
uint32_t slif_parse_steps(slif_parse *parse, uint64_t derivation, size_t from, slif_step *steps, size_t room,
                          size_t *count);

/* Reads an input, in UTF-8, and tells which lexemes could come after it, by the bytes of their names; *count is how many they are,
   and as many are copied as there is room for. The input need have no derivation. Where the answer is SLIF_INPUT *count is left
   as it was, and `symbols` has, as far as there is room, the lexemes that could come at the place where reading stopped;
   fault->expected is how many they are. */
uint32_t slif_expected(slif_grammar *grammar, const uint8_t *input, size_t length, uint32_t *symbols, size_t room,
                       size_t *count, slif_fault *fault, uint8_t *message, size_t message_room);

/* The same as slif_parse_new, and of each derivation that is kept its line is kept too: its value, as the program writes it with
   --show, and a line feed. slif_parse_line copies it, and tells its length; where a parse has no lines the answer is SLIF_RANGE. */
uint32_t slif_parse_shown(slif_grammar *grammar, const uint8_t *input, size_t length, uint32_t rank, uint32_t show,
                          uint64_t skip, uint64_t most, slif_parse *parse, slif_fault *fault, uint8_t *message,
                          size_t message_room, uint32_t *expected, size_t expected_room);
uint32_t slif_parse_line(slif_parse *parse, uint64_t derivation, uint8_t *line, size_t room, size_t *length);

/* A SCANNER OF YOUR OWN. A grammar is made call by call and then read by, token by token, as with Libmarpa. Places count from 0.
   A token is a terminal from one place to a later one: tokens may be of any length, overlap, and begin at one place together.
   Symbols and rules are numbered from 0 in the order in which they are made. A call that is refused changes nothing. */

/* A grammar of nothing. What the handle had before is let go, unless the answer is SLIF_NO_MEMORY. */
uint32_t slif_scan_new(slif_scan *scan);
void slif_scan_free(slif_scan *scan);

/* While it is built. A symbol by its name in UTF-8: the one that has it, or else a new one. A rule of a left side and parts, none
   where `count` is 0; a rule for items, one at least where `plus`, with a separator or SLIF_NO_SYMBOL, which `proper` keeps from
   standing last. The start, of which there is one. A symbol that is no rule's left side is a terminal. */
#define SLIF_NO_SYMBOL UINT32_MAX
uint32_t slif_scan_symbol(slif_scan *scan, const uint8_t *name, size_t length, uint32_t *symbol);
uint32_t slif_scan_rule(slif_scan *scan, uint32_t left, const uint32_t *parts, size_t count, uint32_t *rule);
uint32_t slif_scan_sequence(slif_scan *scan, uint32_t left, uint32_t item, bool plus, uint32_t separator, bool proper,
                            uint32_t *rule);
uint32_t slif_scan_start(slif_scan *scan, uint32_t symbol);

/* Makes the grammar ready: it is read by from now on, at place 0. SLIF_GRAMMAR says that it cannot be; the message tells why, and
   *length is how long it is. */
uint32_t slif_scan_precompute(slif_scan *scan, uint8_t *message, size_t room, size_t *length);

/* While it is read by. A token that begins at the place and is `length` places long is taken; the next place is gone to, and told;
   the terminals that are acceptable at the place are told, in the order of their numbers, *count of them; all is read anew from
   place 0, without tokens. */
uint32_t slif_scan_alternative(slif_scan *scan, uint32_t symbol, uint32_t length);
uint32_t slif_scan_complete(slif_scan *scan, uint32_t *place);
uint32_t slif_scan_expected(slif_scan *scan, uint32_t *symbols, size_t room, size_t *count);
uint32_t slif_scan_restart(slif_scan *scan);

/* Of the derivations of the start from place 0 to this place, in the declared order, at most `most` after the first `skip` are kept,
   and what `parse` had before is let go. There may be none. In their steps `from` and `to` are places, and so are `start` and
   `byte`, `length` and `bytes`, counted from `from`: where places count bytes these tell where the text lies. */
uint32_t slif_scan_parse(slif_scan *scan, uint64_t skip, uint64_t most, slif_parse *parse);

/* The same for callers that have null pointers: a null `text`, `input`, `name`, `parts`, `symbols`, `message` or `expected` has count
   0 whatever its count says, and a null `fault`, `symbol`, `rule`, `place` or `length` is told nothing. A handle and `count` are not
   null. */
static inline const uint8_t *slif_bytes(const void *bytes) {
    static const uint8_t none = 0;
    return bytes ? (const uint8_t *)bytes : &none;
}

static inline uint32_t slif_grammar_make(slif_grammar *grammar, const void *text, size_t length, slif_fault *fault,
                                         char *message, size_t room) {
    uint8_t none;
    slif_fault untold;
    return slif_grammar_new(slif_bytes(text), text ? length : 0, grammar, fault ? fault : &untold,
                            message ? (uint8_t *)message : &none, message ? room : 0);
}

static inline uint32_t slif_parse_make(slif_parse *parse, slif_grammar *grammar, const void *input, size_t length,
                                       uint32_t rank, uint64_t skip, uint64_t most, slif_fault *fault, char *message,
                                       size_t room, uint32_t *expected, size_t expected_room) {
    uint8_t none;
    uint32_t no_symbol;
    slif_fault untold;
    return slif_parse_new(grammar, slif_bytes(input), input ? length : 0, rank, skip, most, parse,
                          fault ? fault : &untold, message ? (uint8_t *)message : &none, message ? room : 0,
                          expected ? expected : &no_symbol, expected ? expected_room : 0);
}

static inline uint32_t slif_show_make(slif_parse *parse, slif_grammar *grammar, const void *input, size_t length,
                                      uint32_t rank, uint32_t show, uint64_t skip, uint64_t most, slif_fault *fault,
                                      char *message, size_t room, uint32_t *expected, size_t expected_room) {
    uint8_t none;
    uint32_t no_symbol;
    slif_fault untold;
    return slif_parse_shown(grammar, slif_bytes(input), input ? length : 0, rank, show, skip, most, parse,
                            fault ? fault : &untold, message ? (uint8_t *)message : &none, message ? room : 0,
                            expected ? expected : &no_symbol, expected ? expected_room : 0);
}

static inline uint32_t slif_expect(slif_grammar *grammar, const void *input, size_t length, uint32_t *symbols,
                                   size_t room, size_t *count, slif_fault *fault, char *message, size_t message_room) {
    uint8_t none;
    uint32_t no_symbol;
    slif_fault untold;
    return slif_expected(grammar, slif_bytes(input), input ? length : 0, symbols ? symbols : &no_symbol,
                         symbols ? room : 0, count, fault ? fault : &untold, message ? (uint8_t *)message : &none,
                         message ? message_room : 0);
}

static inline uint32_t slif_scan_symbol_make(slif_scan *scan, const void *name, size_t length, uint32_t *symbol) {
    uint32_t untold;
    return slif_scan_symbol(scan, slif_bytes(name), name ? length : 0, symbol ? symbol : &untold);
}

static inline uint32_t slif_scan_rule_make(slif_scan *scan, uint32_t left, const uint32_t *parts, size_t count, uint32_t *rule) {
    static const uint32_t no_part = 0;
    uint32_t untold;
    return slif_scan_rule(scan, left, parts ? parts : &no_part, parts ? count : 0, rule ? rule : &untold);
}

static inline uint32_t slif_scan_sequence_make(slif_scan *scan, uint32_t left, uint32_t item, bool plus, uint32_t separator,
                                               bool proper, uint32_t *rule) {
    uint32_t untold;
    return slif_scan_sequence(scan, left, item, plus, separator, proper, rule ? rule : &untold);
}

static inline uint32_t slif_scan_precompute_make(slif_scan *scan, char *message, size_t room, size_t *length) {
    uint8_t none;
    size_t untold;
    return slif_scan_precompute(scan, message ? (uint8_t *)message : &none, message ? room : 0, length ? length : &untold);
}

static inline uint32_t slif_scan_complete_make(slif_scan *scan, uint32_t *place) {
    uint32_t untold;
    return slif_scan_complete(scan, place ? place : &untold);
}

static inline uint32_t slif_scan_expected_make(slif_scan *scan, uint32_t *symbols, size_t room, size_t *count) {
    uint32_t no_symbol;
    return slif_scan_expected(scan, symbols ? symbols : &no_symbol, symbols ? room : 0, count);
}

#ifdef __cplusplus
}
#endif
#endif
