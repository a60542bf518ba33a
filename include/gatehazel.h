/* Gatehazel: decodes a serialized ANTLR lexer dialect into lent tables, writes such tables back as words, and answers questions about them.
 *
 * Link crates/capi/out/libcapi.a (`rt lib` in crates/capi), for x86-64-v2 processors.
 *
 * Memory. Every pointer is lent for the length of the call and never kept; the caller owns all memory. Lengths are in elements, not bytes.
 * Pointers must not be null and must be aligned, also where the length is 0 (any aligned address will do); slices that are written must not
 * overlap another of the same call. Nothing else is asked: any words, any lengths, any tables and any numbers get an answer.
 *
 * Tables are 32-bit words. Words per record: states 8, edges 8, ranges 2, sets 2, rules 3, modes 1, decisions 1, actions 3; scratch 4 for
 * each state. "None" is -1.
 *   state:  type, rule, block end, loop back, flags (1 non-greedy, 2 left-recursive, 4 precedence decision), first edge, last edge, edge count
 *   edge:   type, source, target, p, q, r, mark (0 plain, 1 derived return edge, 2 tail call), next edge
 *   range:  start, stop          set: first range, range count          rule: start, stop, token type          action: type, d1, d2
 * A table has room for its whole records, 65,536 at most; states have the smaller of their own and the scratch's.
 *
 * Answers. Every function but the lookup returns 0 and fills `answer` as said below, or returns a refusal's number and fills `answer` with the
 * refusal. Of the first 16 elements of `answer` those that are not named are 0; elements from the 17th on stay as they were; a shorter
 * `answer` gets what fits. 16 elements are always enough.
 *
 * Refusals of a decode: number, field, place (of the refused word, from 0), value, record.
 *    1 words ended                      2 negative word                    3 version is not 4
 *    4 a parser's dialect               5 unknown grammar type             6 unknown state type
 *    7 a flagged state is not listed    8 unknown edge type                9 a set is not listed
 *   10 an edge's source is not listed  11 unknown action type             12 no room (value: records needed)
 * The record is the number, from 0, of what the refused word belongs to; for 1, of what the missing word belongs to.
 *   fields 5 to 8: the state           14, 15: the rule                   19 to 22: the set, and not the interval
 *   24 to 29: the edge                 33 to 35: the action               10, 12, 17, 31: the place in their own list
 *   the header (1 to 3), the counts (4, 9, 11, 13, 16, 18, 23, 30, 32), and 12 for derived edges (23): 0
 * Refusals of a question: number, value.
 *   13 no such record                  14 the tables contradict themselves
 * Refusals of a writing: number.
 *   15 a count exceeds its table's whole records, or no words, in any room, decode to these records
 *   16 the output is too short
 */
#ifndef GATEHAZEL_H
#define GATEHAZEL_H

#include <stddef.h>
#include <stdint.h>

#ifdef __cplusplus
extern "C" {
#endif

/* Decodes. 0: answer = words read, max token type, states, edges (with derived ones), derived edges, ranges, sets, rules, modes, decisions,
 * actions; every table holds its records and zeros behind them, and scratch is all zero.
 * Else: answer = number, field, place, value, record; every lent table is all zero. What the tables held before never matters. */
uint32_t gatehazel_decode(const int32_t *words, size_t words_len,
    int32_t *states, size_t states_len, int32_t *edges, size_t edges_len, int32_t *ranges, size_t ranges_len,
    int32_t *sets, size_t sets_len, int32_t *rules, size_t rules_len, int32_t *modes, size_t modes_len,
    int32_t *decisions, size_t decisions_len, int32_t *actions, size_t actions_len, int32_t *scratch, size_t scratch_len,
    int64_t *answer, size_t answer_len);

/* Writes the words of a dialect, from the records that it decodes to and its max token type. Of each table the first `_count` records are
 * looked at, and no words behind them; `edges_count` is a decode's answer[3], derived edges included, which are not written. There is one
 * form: flagged states ascend; a set's EOF flag is 0, and -1 is one of its ranges; c of edge types 2 and 5 is 0; a state without a rule and
 * an action edge without an action have -1; unused arguments are 0.
 * 0: answer = the number of words; `out` holds them, and zeros behind them. Decoded into tables with room for these counts, the words give
 * these records again: pass answer[0] as `words_len`, since the zeros behind are no words.
 * Else 15, whatever `out_len` is, or 16: answer = number; `out` is all zero. What `out` held before never matters.
 * The words can be more than the list had that was decoded: a set's EOF flag becomes a range, two words more.
 * There is no scratch: a call takes 17,248 bytes of stack up to 1,024 states and rules, and 1,049,440 above. */
uint32_t gatehazel_write(const int32_t *states, size_t states_len, size_t states_count,
    const int32_t *edges, size_t edges_len, size_t edges_count, const int32_t *ranges, size_t ranges_len, size_t ranges_count,
    const int32_t *sets, size_t sets_len, size_t sets_count, const int32_t *rules, size_t rules_len, size_t rules_count,
    const int32_t *modes, size_t modes_len, size_t modes_count, const int32_t *decisions, size_t decisions_len, size_t decisions_count,
    const int32_t *actions, size_t actions_len, size_t actions_count, int32_t max_token_type,
    int32_t *out, size_t out_len, int64_t *answer, size_t answer_len);

/* The number of a state's n-th edge, n from 0. 0: answer = the edge. Else 13 (the state, or n) or 14: answer = number, value. */
uint32_t gatehazel_nth_edge(const int32_t *states, size_t states_len, size_t state_count,
    const int32_t *edges, size_t edges_len, size_t edge_count, int32_t state, int32_t n, int64_t *answer, size_t answer_len);

/* Whether an edge matches a symbol; min and max bound what a not-set and a wildcard match. 0: answer = 1 or 0. Else 13 or 14. */
uint32_t gatehazel_matches(const int32_t *edges, size_t edges_len, size_t edge_count,
    const int32_t *sets, size_t sets_len, size_t set_count, const int32_t *ranges, size_t ranges_len, size_t range_count,
    int32_t edge, int32_t symbol, int32_t min, int32_t max, int64_t *answer, size_t answer_len);

/* A set's ranges, as a part of the range table. 0: answer = the part's first word in `ranges`, and its length in words. Else 13 or 14. */
uint32_t gatehazel_set(const int32_t *sets, size_t sets_len, size_t set_count,
    const int32_t *ranges, size_t ranges_len, size_t range_count, int32_t set, int64_t *answer, size_t answer_len);

/* 1 if the value lies in one of the ranges, which are sorted and disjoint as a set's part is; else 0. An odd last word is not read. */
uint32_t gatehazel_lookup(const int32_t *ranges, size_t ranges_len, int32_t value);

#ifdef __cplusplus
}
#endif

#endif
