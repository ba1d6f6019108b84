/* Vazhdumir for firmware: plans, the loops made from them, and their run. Link with libvazhdumir.a (`bash tools/build library`).
 * Numbers in brackets are rules of docs/REQUIREMENTS.md.
 *
 * Answers. Every entry answers every input with one 64-bit number [12.2]. If its highest byte is 0, the call did its work, and the rest is the
 * value named below [12.3], which is always below 2^56. Otherwise the highest byte is the refusal's number (docs/REFUSALS.md) and the rest its
 * line, and nothing that was lent has changed [10.17]. Which questions are asked, and in what order, says [10.16].
 *
 * Slices. A slice is a pointer and a count of elements; with count 0 the pointer is not followed [12.4]. Bytes may lie at any address, numbers
 * where an int32_t may. A slice that an entry writes must not overlap another that the same call is given, nor be used by anyone else
 * while the call lasts [12.5].
 *
 * Words. An entry whose name ends in `_in` takes a words text before all else: VAZHDUMIR_WORDS lines, each a built-in word, a comma and the
 * installer's own word for it [16.1]. Plans and loops are then read and printed in the own words alone [16.3]. Its questions 16 and 17 come first
 * [16.6]; in everything else it is as the entry without `_in` [16.7], which has the built-in words. No words text has more than
 * VAZHDUMIR_WORDS_BYTES bytes [13.18]: of a longer file one byte more is enough to have it refused. The text is read anew at each call. An empty
 * one is refused by 16: for the built-in words call the entry without `_in`. Kinds are the same under all words.
 *
 * Store. A store is lent as bytes; each cell is four of them, the lowest first, in two's complement [9.11]. One to three bytes left over are not
 * touched. The cells of the inputs come first, then those of the output, then those of the regions; a region begins right behind those open
 * around it, and its cells are given back when its command ends. Each round of a `par` or a `lanes` has its own cells for the regions inside
 * it, those of round 0 first [7.5].
 *
 * Cores. A run entry does all rounds itself, one after the other [9.5]. Firmware that deals the steps of a plan's loops out to several cores may
 * let them overlap: a core may stop between any two writes of its round while others go on, if each `set` with its readings is one step that
 * nobody comes between [9.12], and if what follows a `par` or a `lanes` waits until all its rounds have ended [9.13]. On a store of at least the
 * need the whole store and the writes are then those of order 0 [9.14]. Loops written by hand carry no such promise.
 *
 * Lanes. `lanes,w` is a loop of 2, 4, 8 or 16 rounds for cores that work on so many numbers at once [18.9]. In the order of its rounds, their
 * cells and their overlapping it is as a `par` [18.10]. None stands inside another [18.15].
 *
 * Machine. The library is for x86-64, where size_t has 64 bits; of the C library it uses memcpy and memset alone. Nothing is allocated.
 *
 * Stack. An entry uses the caller's. On x86-64 a check of loops takes 104 KiB and a run 280, however many lines there are, and more only where rows
 * nest in an operand that is not its row's last: the walk of questions 4 to 6 calls itself for such operands, some 240 bytes a level. So chains of
 * `neg`, of `times` and of `seq` to the right take no more; 817 `seq` to the left, the deepest commands, run on 528 KiB, and some 2,045 `add` or `plus` to
 * the left, the deepest of all loops within the limits, on 896 KiB. The deepest plan, a chain of `neg`, is checked and translated on 512 KiB.
 *
 * Threads and interrupts. Nothing is kept between calls [12.5] and there is no memory but the stack and what is lent, so entries may be called from
 * several threads at once, and from an interrupt while a call is under way, on slices that do not overlap. An interrupt has to save the SSE
 * registers, give stack enough, and bear the time: a run may make 16,777,216 writes. */
#ifndef VAZHDUMIR_H
#define VAZHDUMIR_H

#include <stddef.h>
#include <stdint.h>

#if SIZE_MAX < UINT64_MAX
#error "vazhdumir: size_t must have 64 bits"
#endif

#ifdef __cplusplus
extern "C" {
#endif

/* The numbers of the refusals. */
enum vazhdumir_refusal_number {
    VAZHDUMIR_REFUSAL_TEXT_FORM = 1,          /* the text is empty, too long, or its last byte is no line feed */
    VAZHDUMIR_REFUSAL_LINE_FORM = 2,          /* a line is badly written */
    VAZHDUMIR_REFUSAL_LINE_COUNT = 3,         /* too many lines */
    VAZHDUMIR_REFUSAL_ROW_DUE = 4,            /* a row is not due, or one is missing */
    VAZHDUMIR_REFUSAL_NUMBER_RANGE = 5,       /* a number is out of range */
    VAZHDUMIR_REFUSAL_NAME_COUNT = 6,         /* too many names in force */
    VAZHDUMIR_REFUSAL_TYPE_MISFIT = 7,        /* types do not fit */
    VAZHDUMIR_REFUSAL_TYPE_SIZE = 8,          /* a type is too large */
    VAZHDUMIR_REFUSAL_OFFSET_BOUND = 9,       /* an offset may go too far */
    VAZHDUMIR_REFUSAL_LOOPS_LENGTH = 10,      /* the loops made are too long */
    VAZHDUMIR_REFUSAL_WRITE_COUNT = 11,       /* too many writes */
    VAZHDUMIR_REFUSAL_LENT_SIZE = 12,         /* a lent table or text is too short */
    VAZHDUMIR_REFUSAL_UNKNOWN_ORDER = 13,     /* an order that has no name */
    VAZHDUMIR_REFUSAL_STORE_SIZE = 14,        /* the store is too short */
    VAZHDUMIR_REFUSAL_VALUE_LINES = 15,       /* not one line for each input cell */
    VAZHDUMIR_REFUSAL_WORDS_FORM = 16,        /* the words text is not the lines that it should be */
    VAZHDUMIR_REFUSAL_WORD_TWICE = 17,        /* an own word is given twice */
    VAZHDUMIR_REFUSAL_LANES_INSIDE = 18       /* a `lanes` stands inside another */
};

/* How many words there are [2.2], and the most bytes of a words text [13.18]. */
#define VAZHDUMIR_WORDS 44
#define VAZHDUMIR_WORDS_BYTES 598

/* The kinds of rows in a table: a word's place among the words, from 0. */
enum vazhdumir_kind {
    VAZHDUMIR_WORD_PLAN = 0, VAZHDUMIR_WORD_NUM = 1, VAZHDUMIR_WORD_ARR = 2, VAZHDUMIR_WORD_TWO = 3, VAZHDUMIR_WORD_IN = 4,
    VAZHDUMIR_WORD_VAR = 5, VAZHDUMIR_WORD_LIT = 6, VAZHDUMIR_WORD_NEG = 7, VAZHDUMIR_WORD_ADD = 8, VAZHDUMIR_WORD_SUB = 9,
    VAZHDUMIR_WORD_MUL = 10, VAZHDUMIR_WORD_DIV = 11, VAZHDUMIR_WORD_MIN = 12, VAZHDUMIR_WORD_MAX = 13,
    VAZHDUMIR_WORD_MAPPAR = 14, VAZHDUMIR_WORD_MAPSEQ = 15, VAZHDUMIR_WORD_REDSEQ = 16, VAZHDUMIR_WORD_ZIP = 17,
    VAZHDUMIR_WORD_PAIR = 18, VAZHDUMIR_WORD_SPLIT = 19, VAZHDUMIR_WORD_JOIN = 20, VAZHDUMIR_WORD_FST = 21,
    VAZHDUMIR_WORD_SND = 22, VAZHDUMIR_WORD_IDX = 23, VAZHDUMIR_WORD_LOOPS = 24, VAZHDUMIR_WORD_CELLS = 25,
    VAZHDUMIR_WORD_SET = 26, VAZHDUMIR_WORD_SEQ = 27, VAZHDUMIR_WORD_FOR = 28, VAZHDUMIR_WORD_PAR = 29, VAZHDUMIR_WORD_NEW = 30,
    VAZHDUMIR_WORD_OUT = 31, VAZHDUMIR_WORD_LOC = 32, VAZHDUMIR_WORD_CTR = 33, VAZHDUMIR_WORD_PLUS = 34,
    VAZHDUMIR_WORD_TIMES = 35, VAZHDUMIR_WORD_OVER = 36, VAZHDUMIR_WORD_REST = 37, VAZHDUMIR_WORD_VEC = 38,
    VAZHDUMIR_WORD_ASVEC = 39, VAZHDUMIR_WORD_ASSCAL = 40, VAZHDUMIR_WORD_MAPVEC = 41, VAZHDUMIR_WORD_AT = 42,
    VAZHDUMIR_WORD_LANES = 43
};

static inline unsigned vazhdumir_refusal(uint64_t answer) { return (unsigned)(answer >> 56); }
static inline uint64_t vazhdumir_value(uint64_t answer) { return answer & 0x00ffffffffffffffu; }

/* The two halves of the value of a search [17.4], of an answer that is no refusal: how many rows were compared, and whether the word is listed
 * (1 or 0). */
static inline unsigned vazhdumir_compared(uint64_t answer) { return (unsigned)(answer & 0xffffu); }
static inline unsigned vazhdumir_listed(uint64_t answer) { return (unsigned)(answer >> 16 & 1u); }

/* Checks a plan's text: questions 1 to 8. Value: 0. */
uint64_t vazhdumir_check_plan(const uint8_t *plan, size_t plan_len);

/* Translates a plan's text; the text of the loops goes to the front of `loops`, and the rest of it stays as it is. 65,536 bytes
 * are always enough. Questions 1 to 8, 10, 18 (with line 0), 11 and 12. Value: the bytes put. */
uint64_t vazhdumir_translate(const uint8_t *plan, size_t plan_len, uint8_t *loops, size_t loops_len);

/* Checks a text of loops: questions 1 to 6, 18 right after 6 on a row, 9 and 11. Value: the writes that every run of them makes. */
uint64_t vazhdumir_check_loops(const uint8_t *loops, size_t loops_len);

/* Reads a text of loops into a table of kinds and numbers, after the same questions and 12. Value: the rows put. */
uint64_t vazhdumir_read_loops(const uint8_t *loops, size_t loops_len, uint8_t *kinds, size_t kinds_len, int32_t *numbers,
                              size_t numbers_len);

/* The cells that a text of loops needs [7.4]: those of the inputs, of the output, and the most of regions that are open together; a `par,n`
 * or `lanes,n` needs n times the cells of its command. The same questions as its check. Value: the cells, which may be more than 32 bits
 * hold, up to 17,592,186,081,280: keep them in a uint64_t. */
uint64_t vazhdumir_need(const uint8_t *loops, size_t loops_len);

/* Runs a text of loops on a store, every `par` and `lanes` in the order named [9.10]: 0 forward, 1 backward, 2 the even rounds and then the odd
 * ones. The questions of the check, then 13 and 14. Value: the writes made. For loops that the translator made, the output cells then
 * hold the plan's value, and the input cells and those past the need are as they were [9.8]. */
uint64_t vazhdumir_run(const uint8_t *loops, size_t loops_len, uint32_t order, uint8_t *store, size_t store_len);

/* The same on a table of kinds (enum vazhdumir_kind) and numbers, whoever made it: its kinds are asked question 2, and then 3 to 6 and 18. */
uint64_t vazhdumir_run_rows(const uint8_t *kinds, size_t kinds_len, const int32_t *numbers, size_t numbers_len, uint32_t order,
                            uint8_t *store, size_t store_len);

/* Searches the table of words for the word with these bytes, from the first row on and no further than the word [17.1]. It asks no question.
 * Value: how many rows were compared (`vazhdumir_compared`), and 65,536 more where the word is listed (`vazhdumir_listed`) [17.4]. A listed
 * word's kind is one less than the rows compared; a word that is not listed was compared with all VAZHDUMIR_WORDS [17.2]. */
uint64_t vazhdumir_look_up(const uint8_t *word, size_t word_len);

/* The same entries for texts in the words of a words text [16.7]: questions 16 and 17, then those of the entry without `_in`. Values and
 * lent slices are as there; the bytes of loops are counted in the own words, and 65,536 are still enough [16.9]. The search goes down the own
 * words, in the order of their lines. */
uint64_t vazhdumir_check_plan_in(const uint8_t *words, size_t words_len, const uint8_t *plan, size_t plan_len);

uint64_t vazhdumir_translate_in(const uint8_t *words, size_t words_len, const uint8_t *plan, size_t plan_len, uint8_t *loops,
                                size_t loops_len);

uint64_t vazhdumir_check_loops_in(const uint8_t *words, size_t words_len, const uint8_t *loops, size_t loops_len);

uint64_t vazhdumir_read_loops_in(const uint8_t *words, size_t words_len, const uint8_t *loops, size_t loops_len, uint8_t *kinds,
                                 size_t kinds_len, int32_t *numbers, size_t numbers_len);

uint64_t vazhdumir_need_in(const uint8_t *words, size_t words_len, const uint8_t *loops, size_t loops_len);

uint64_t vazhdumir_run_in(const uint8_t *words, size_t words_len, const uint8_t *loops, size_t loops_len, uint32_t order, uint8_t *store,
                          size_t store_len);

uint64_t vazhdumir_look_up_in(const uint8_t *words, size_t words_len, const uint8_t *word, size_t word_len);

#ifdef __cplusplus
}
#endif

#endif
