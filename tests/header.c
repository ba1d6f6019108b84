/* The header, twice, in C and in C++: an answer goes by the name of its number. Each entry that takes a words text refuses none [16.7]. A
 * search tells the rows compared, and whether the word is listed [17.4]. A `lanes` inside another is refused on its own line [18.15]. */
#include "vazhdumir.h"
#include "vazhdumir.h"

int main(void) {
    uint64_t answer = vazhdumir_check_plan(0, 0);
    uint8_t kinds[] = {VAZHDUMIR_WORD_LOOPS, VAZHDUMIR_WORD_CELLS, VAZHDUMIR_WORD_SET,
                       VAZHDUMIR_WORD_OUT,   VAZHDUMIR_WORD_LIT,   VAZHDUMIR_WORD_LIT};
    int32_t numbers[] = {0, 1, 0, 0, 0, 258};
    uint8_t inside[] = {VAZHDUMIR_WORD_LOOPS, VAZHDUMIR_WORD_CELLS, VAZHDUMIR_WORD_LANES, VAZHDUMIR_WORD_LANES};
    int32_t widths[] = {0, 1, 2, 2};
    uint8_t store[4] = {0, 0, 0, 0};
    uint64_t unworded[] = {vazhdumir_check_plan_in(0, 0, 0, 0),
                           vazhdumir_translate_in(0, 0, 0, 0, store, 4),
                           vazhdumir_check_loops_in(0, 0, 0, 0),
                           vazhdumir_read_loops_in(0, 0, 0, 0, kinds, 6, numbers, 6),
                           vazhdumir_need_in(0, 0, 0, 0),
                           vazhdumir_run_in(0, 0, 0, 0, 0, store, 4),
                           vazhdumir_look_up_in(0, 0, 0, 0)};
    const uint8_t word[] = {'n', 'u', 'm'};
    const uint64_t words = VAZHDUMIR_WORD_LANES + 1; /* it is the last of them */
    uint64_t nested = vazhdumir_run_rows(inside, 4, widths, 4, 0, store, 4);
    uint64_t listed = vazhdumir_look_up(word, 3), unlisted = vazhdumir_look_up(word, 2), nothing = vazhdumir_look_up(0, 0);
    for (size_t i = 0; i < sizeof unworded / sizeof unworded[0]; i++)
        if (unworded[i] >> 56 != VAZHDUMIR_REFUSAL_WORDS_FORM || vazhdumir_value(unworded[i]) != 0) return 5;
    if (vazhdumir_refusal(answer) != VAZHDUMIR_REFUSAL_TEXT_FORM || vazhdumir_value(answer) != 0) return 1;
    if (vazhdumir_run_rows(kinds, 6, numbers, 6, 0, store, 3) >> 56 != VAZHDUMIR_REFUSAL_STORE_SIZE) return 2;
    if (vazhdumir_run_rows(kinds, 6, numbers, 6, 0, store, 4) != 1) return 3;
    if (listed != 65536 + 2 || vazhdumir_listed(listed) != 1 || vazhdumir_compared(listed) - 1 != VAZHDUMIR_WORD_NUM) return 6;
    if (unlisted != words || vazhdumir_listed(unlisted) != 0 || vazhdumir_compared(unlisted) != words || nothing != unlisted) return 7;
    if (vazhdumir_refusal(nested) != VAZHDUMIR_REFUSAL_LANES_INSIDE || vazhdumir_value(nested) != 4) return 8;
    return store[0] == 2 && store[1] == 1 ? 0 : 4;
}
