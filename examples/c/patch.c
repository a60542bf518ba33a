/* Patches a token type by hand: decodes a dialect file, sets the token type of one rule, and writes the words again.
 * Usage: patch FILE RULE TYPE, with a file of little-endian 32-bit words (samples/). examples/run.sh builds it.
 * Ends with status 2 where an argument is at fault, and with 1 where the file is. */
#include <errno.h>
#include <stdio.h>
#include <stdlib.h>
#include "gatehazel.h"

static int32_t words[16384], before[16384], after[16384];
static int32_t states[8 * 1024], edges[8 * 1024], ranges[2 * 4096], sets[2 * 64], rules[3 * 128], modes[16], decisions[64], actions[3 * 64],
    scratch[4 * 1024];
static int64_t counts[16], answer[16];

#define LEN(a) (sizeof (a) / sizeof *(a))

static void leave(int status, const char *of, const char *what) {
    printf("%s: %s\n", of, what);
    exit(status);
}

/* Fills `words`. A file that does not fit, or ends inside a word, is not cut: what is left of a dialect may be accepted. */
static size_t read_words(const char *name) {
    FILE *file = fopen(name, "rb");
    size_t bytes = file == NULL ? 0 : fread(words, 1, sizeof words, file);
    if (file == NULL || ferror(file)) {
        leave(1, name, "cannot be read");
    }
    if (bytes == sizeof words && fgetc(file) != EOF) {
        leave(1, name, "too long");
    }
    if (bytes % sizeof *words != 0) {
        leave(1, name, "not whole words");
    }
    fclose(file);
    return bytes / sizeof *words;
}

static int32_t read_number(const char *text) {
    char *end;
    errno = 0;
    long number = strtol(text, &end, 10);
    if (end == text || *end != '\0' || errno != 0 || number < INT32_MIN || number > INT32_MAX) {
        leave(2, text, "not a 32-bit number");
    }
    return (int32_t)number;
}

/* The words of the tables as they are now, in the one fixed form; counts are a decode's answer. */
static uint32_t words_again(int32_t *out, size_t out_len) {
    return gatehazel_write(states, LEN(states), (size_t)counts[2], edges, LEN(edges), (size_t)counts[3],
        ranges, LEN(ranges), (size_t)counts[5], sets, LEN(sets), (size_t)counts[6], rules, LEN(rules), (size_t)counts[7],
        modes, LEN(modes), (size_t)counts[8], decisions, LEN(decisions), (size_t)counts[9], actions, LEN(actions), (size_t)counts[10],
        (int32_t)counts[1], out, out_len, answer, LEN(answer));
}

int main(int argc, char **argv) {
    if (argc != 4) {
        printf("usage: patch FILE RULE TYPE\n");
        return 2;
    }
    size_t count = read_words(argv[1]);
    int32_t rule = read_number(argv[2]), type = read_number(argv[3]);
    uint32_t refused = gatehazel_decode(words, count, states, LEN(states), edges, LEN(edges), ranges, LEN(ranges), sets, LEN(sets),
        rules, LEN(rules), modes, LEN(modes), decisions, LEN(decisions), actions, LEN(actions), scratch, LEN(scratch), counts, LEN(counts));
    if (refused == 0 && (rule < 0 || rule >= counts[7])) {
        leave(2, argv[2], "no such rule");
    }
    if (refused == 0) {
        refused = words_again(before, LEN(before));
    }
    if (refused == 0) {
        rules[3 * rule + 2] = type; /* any number will do; the max token type stays as it was */
        refused = words_again(after, LEN(after));
    }
    if (refused != 0) {
        printf("refused %u\n", refused);
        return 1;
    }
    printf("%lld words read, %lld written\n", (long long)counts[0], (long long)answer[0]);
    for (int64_t i = 0; i < answer[0]; i++) {
        if (before[i] != after[i]) {
            printf("word %lld was %d and is %d\n", (long long)i, before[i], after[i]);
        }
    }
    refused = words_again(after, (size_t)answer[0] - 1);
    printf("with one word less: refused %u\n", refused);
    return 0;
}
