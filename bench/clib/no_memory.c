/* Each allocation fails once: the call answers SLIF_NO_MEMORY, its handles are as they were, and no block is lost. */
#include "slif.h"
#include <stdio.h>
#include <stdlib.h>
#include <string.h>

typedef struct { _Bool ok; void *p; } tried;

static long left = -1, live;
static char nothing;

static int fails(void) { return left >= 0 && left-- == 0; }

static tried tried_of(void *block) { return (tried){ block != 0, block ? block : &nothing }; }

tried rattle_alloc(size_t n, size_t a) {
    void *block = fails() ? 0 : malloc(n ? n : a);
    live += block != 0;
    return tried_of(block);
}

tried rattle_realloc(void *block, size_t kept, size_t n, size_t a) {
    (void)kept;
    return tried_of(fails() ? 0 : realloc(block, n ? n : a));
}

void rattle_dealloc(void *block) {
    live--;
    free(block);
}

enum { MOST = 100000 };

static const char SUM[] = "E ::= E '+' E | '1'\n";
static const char WRONG[] = "E ::= E '+' F\n";

static int stop(const char *what, uint32_t answer, long n, long held) {
    printf("%s: %u at allocation %ld, %ld blocks where %ld were\n", what, answer, n, live, held);
    return 1;
}

/* What is called, and over what. */
enum call { GRAMMAR, PARSE, EXPECTED, SHOWN, SHARE };
static const char *const NAMES[] = { "grammar", "input", "expected", "lines", "share" };

static slif_grammar grammar = SLIF_NEW, other = SLIF_NEW;
static slif_parse parsed = SLIF_NEW;

static uint32_t answer_of(enum call call, const char *text, slif_fault *fault) {
    char message[100];
    uint32_t symbols[8];
    size_t count;
    switch (call) {
    case GRAMMAR: return slif_grammar_make(&grammar, text, strlen(text), fault, message, sizeof message);
    case PARSE: return slif_parse_make(&parsed, &grammar, text, strlen(text), 0, 0, 10, fault, message, sizeof message, 0, 0);
    case SHARE: return slif_grammar_share(&grammar, &other);
    case SHOWN: return slif_show_make(&parsed, &grammar, text, strlen(text), 0, SLIF_SHOW_TREE, 0, 10, fault, message, sizeof message, 0, 0);
    default: return slif_expect(&grammar, text, strlen(text), symbols, 8, &count, fault, message, sizeof message);
    }
}

/* Whether the call answers `wanted` in the end, and else that there is no memory, with all as it was. */
static int try_call(enum call call, const char *text, uint32_t wanted) {
    long held = live;
    bool has_grammar = grammar.slif_full, has_parse = parsed.slif_full;
    for (long n = 0;; n++) {
        slif_fault fault = { 7, 7, 7, 7 };
        left = n;
        uint32_t answer = answer_of(call, text, &fault);
        left = -1;
        if (answer == wanted) return printf("%s: %u after %ld failures\n", NAMES[call], answer, n), 0;
        bool same = live == held && grammar.slif_full == has_grammar && parsed.slif_full == has_parse && fault.line == 7;
        if (n == MOST || answer != SLIF_NO_MEMORY || !same) return stop(NAMES[call], answer, n, held);
    }
}

/* The calls of a scanner, one after another. */
static slif_scan scan = SLIF_NEW;

enum step { NEW, LEFT, NOUN, ONE, TWO, ITEMS, START, READY, SHORT, LONG, NEXT, ACCEPTABLE, SECOND, LAST, DERIVE, STEPS };

static uint32_t scanned(enum step step) {
    static const uint32_t nouns[2] = { 1, 1 };
    uint32_t number, symbols[4];
    size_t count;
    uint8_t message[4];
    switch (step) {
    case NEW: return slif_scan_new(&scan);
    case LEFT: return slif_scan_symbol(&scan, (const uint8_t *)"phrase", 6, &number);
    case NOUN: return slif_scan_symbol(&scan, (const uint8_t *)"noun", 4, &number);
    case ONE: return slif_scan_rule(&scan, 0, nouns, 1, &number);
    case TWO: return slif_scan_rule(&scan, 0, nouns, 2, &number);
    case ITEMS: return slif_scan_symbol(&scan, (const uint8_t *)"unused", 6, &number);
    case START: return slif_scan_start(&scan, 0);
    case READY: return slif_scan_precompute(&scan, message, 4, &count);
    case SHORT: case SECOND: return slif_scan_alternative(&scan, 1, 1);
    case LONG: return slif_scan_alternative(&scan, 1, 2);
    case NEXT: case LAST: return slif_scan_complete(&scan, &number);
    case ACCEPTABLE: return slif_scan_expected(&scan, symbols, 4, &count);
    default: return slif_scan_parse(&scan, 0, 10, &parsed);
    }
}

/* Each call is made again until no allocation of it fails; each time before, all is as it was, so that it can be made again. */
static int try_scanner(void) {
    long failed = 0;
    for (enum step step = NEW; step < STEPS; step++) {
        for (long n = 0;; n++, failed++) {
            left = n;
            uint32_t answer = scanned(step);
            left = -1;
            if (answer == SLIF_OK) break;
            if (n == MOST || answer != SLIF_NO_MEMORY) return stop("scanner", answer, n, (long)step);
        }
    }
    uint64_t derivations;
    bool more;
    if (slif_parse_counts(&parsed, &derivations, &more) != SLIF_OK || derivations != 2 || more) return stop("derivations", 0, 0, 0);
    slif_scan_free(&scan);
    return printf("scanner: %ld failures\n", failed), 0;
}

int main(void) {
    if (try_call(GRAMMAR, SUM, SLIF_OK) || try_call(GRAMMAR, WRONG, SLIF_GRAMMAR)) return 1;
    if (try_call(PARSE, "1+1+1", SLIF_OK) || try_call(PARSE, "1+2", SLIF_INPUT)) return 1;
    if (try_call(EXPECTED, "1+", SLIF_OK) || try_call(EXPECTED, "1+2", SLIF_INPUT)) return 1;
    if (try_call(SHOWN, "1+1+1", SLIF_OK) || try_call(SHOWN, "1+2", SLIF_INPUT)) return 1;
    if (try_call(SHARE, "", SLIF_OK) || try_call(PARSE, "1+1+1", SLIF_OK)) return 1;
    if (try_scanner()) return 1;
    slif_parse_free(&parsed);
    slif_grammar_free(&grammar);
    slif_grammar_free(&other);
    printf("%ld blocks left\n", live);
    return live != 0;
}
