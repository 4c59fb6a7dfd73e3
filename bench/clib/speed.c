/* speed GRAMMAR INPUT ROUNDS: reads an input so many times by one grammar, and writes the seconds of processor that the grammar took and
   that each reading took, the steps of its first derivation, and the peak memory in kB. */
#include "slif.h"
#include <stdio.h>
#include <stdlib.h>
#include <sys/resource.h>
#include <time.h>

static uint8_t *bytes_of(const char *name, size_t *length) {
    FILE *file = fopen(name, "rb");
    if (!file || fseek(file, 0, SEEK_END)) exit(2);
    *length = (size_t)ftell(file);
    rewind(file);
    uint8_t *bytes = malloc(*length + 1);
    if (!bytes || fread(bytes, 1, *length, file) != *length) exit(2);
    fclose(file);
    return bytes;
}

static double seconds(void) {
    struct timespec now;
    clock_gettime(CLOCK_PROCESS_CPUTIME_ID, &now);
    return (double)now.tv_sec + 1e-9 * (double)now.tv_nsec;
}

static void refuse(uint32_t answer, const slif_fault *fault, const char *message) {
    fprintf(stderr, "%u: %.*s\n", answer, (int)fault->message, message);
    exit(1);
}

int main(int argc, char **argv) {
    if (argc != 4) return 2;
    size_t text_length, length, count = 0;
    uint8_t *text = bytes_of(argv[1], &text_length), *input = bytes_of(argv[2], &length);
    long rounds = atol(argv[3]);
    slif_grammar grammar = SLIF_NEW;
    slif_parse parse = SLIF_NEW;
    slif_fault fault = { 0, 0, 0, 0 };
    char message[1000];
    slif_step none;
    struct rusage used;
    double begin = seconds();
    uint32_t answer = slif_grammar_make(&grammar, text, text_length, &fault, message, sizeof message);
    if (answer) refuse(answer, &fault, message);
    double made = seconds();
    for (long k = 0; k < rounds; k++) {
        slif_parse_free(&parse);
        answer = slif_parse_make(&parse, &grammar, input, length, SLIF_RANK_RULE, 0, 1, &fault, message, sizeof message, 0, 0);
        if (answer) refuse(answer, &fault, message);
    }
    double end = seconds();
    slif_parse_steps(&parse, 0, 0, &none, 0, &count);
    slif_parse_free(&parse);
    slif_grammar_free(&grammar);
    getrusage(RUSAGE_SELF, &used);
    printf("%.6f %.6f %zu %ld\n", made - begin, (end - made) / (double)rounds, count, used.ru_maxrss);
    return 0;
}
