/* Decodes a dialect file, walks the edges of the state where rule 0 starts, and asks which of them match a symbol.
 * Usage: walk FILE SYMBOL, with a file of little-endian 32-bit words (samples/) and a symbol's number. run.sh beside examples/ builds it. */
#include <stdio.h>
#include <stdlib.h>
#include "gatehazel.h"

static int32_t words[16384];
static int32_t states[8 * 1024], edges[8 * 1024], ranges[2 * 4096], sets[2 * 64], rules[3 * 128], modes[16], decisions[64], actions[3 * 64],
    scratch[4 * 1024];
static int64_t answer[16];

#define LEN(a) (sizeof (a) / sizeof *(a))

int main(int argc, char **argv) {
    FILE *file = argc == 3 ? fopen(argv[1], "rb") : NULL;
    if (file == NULL) {
        printf("usage: walk FILE SYMBOL\n");
        return 2;
    }
    size_t count = fread(words, sizeof *words, LEN(words), file);
    fclose(file);
    uint32_t refused = gatehazel_decode(words, count, states, LEN(states), edges, LEN(edges), ranges, LEN(ranges), sets, LEN(sets),
        rules, LEN(rules), modes, LEN(modes), decisions, LEN(decisions), actions, LEN(actions), scratch, LEN(scratch), answer, LEN(answer));
    if (refused != 0) {
        printf("refused %u: field %lld, place %lld, value %lld, record %lld\n", refused, (long long)answer[1], (long long)answer[2],
            (long long)answer[3], (long long)answer[4]);
        return 1;
    }
    size_t state_count = (size_t)answer[2], edge_count = (size_t)answer[3], range_count = (size_t)answer[5], set_count = (size_t)answer[6];
    printf("%lld words read, %zu states, %zu edges, %zu sets\n", (long long)answer[0], state_count, edge_count, set_count);

    int32_t state = modes[0], symbol = (int32_t)strtol(argv[2], NULL, 10); /* modes[0]: where the lexer starts */
    for (int32_t n = 0; gatehazel_nth_edge(states, LEN(states), state_count, edges, LEN(edges), edge_count, state, n, answer, LEN(answer)) == 0; n++) {
        int32_t start = edges[8 * answer[0] + 2];
        printf("state %d, edge %lld, to state %d", state, (long long)answer[0], start);
        if (gatehazel_nth_edge(states, LEN(states), state_count, edges, LEN(edges), edge_count, start, 0, answer, LEN(answer)) == 0) {
            int32_t edge = (int32_t)answer[0], target = edges[8 * edge + 2];
            if (gatehazel_nth_edge(states, LEN(states), state_count, edges, LEN(edges), edge_count, target, 0, answer, LEN(answer)) == 0) {
                edge = (int32_t)answer[0];
                refused = gatehazel_matches(edges, LEN(edges), edge_count, sets, LEN(sets), set_count, ranges, LEN(ranges), range_count, edge, symbol,
                    0, 1114111, answer, LEN(answer));
                printf(", then edge %d of type %d: %d %s", edge, edges[8 * edge], symbol, refused == 0 && answer[0] == 1 ? "matches" : "does not match");
            }
        }
        printf("\n");
    }
    return 0;
}
