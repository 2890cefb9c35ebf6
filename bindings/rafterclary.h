/* The proved level checker, librafterclary.a (`tools/archive` makes it).
 *
 * A slice is a pointer and a length; the pointer may be anything, but not null, where the length
 * is 0. Lent memory must not overlap what is only read, nor other lent memory, and while a call
 * lasts no other thread may touch it, nor write what is read. It is written only as paper 01 says:
 * the card memory, and of that the first 4,096 bytes at most, and the output of an expansion, and
 * of that its length. The tables of a call are on the native stack. On the stored files a check
 * used 438 KB of it at most, a query for a level, likeness or a body 694 KB and an expansion 1,131
 * KB; allow some tens of KB more, for recursion. Of the C library the archive calls memcpy, memmove
 * and memset, and nothing else.
 *
 * Every call checks the file afresh and fills the card memory, as a check does: an accepted
 * file's cards are there after a query too, whether it is answered or refused.
 *
 * A reply is a value, or 2^31 + 65,536 * number + place for a refusal; that of a body has 64 bits
 * and macros of its own. The numbers are those of paper 01's causes, 1 to 14 and 16 to 18, and 21
 * of paper 02: an instance of a constant module whose substitutes hold both a 2 and a 3. No reply
 * has 15, which is unused since paper 02's L6. docs/HANDBOOK.md has them in the order in which they
 * are judged. */
#ifndef RAFTERCLARY_H
#define RAFTERCLARY_H

#include <stddef.h>
#include <stdint.h>

#if SIZE_MAX != UINT64_MAX
#error "librafterclary.a is for x86-64: pointers and lengths of 8 bytes"
#endif

#ifdef __cplusplus
extern "C" {
#endif

/* Parameters or arguments that there may be at most, an instance's and an operator's own added
 * together. */
#define RAFTERCLARY_MAX_PARAMETERS 8u

/* Bytes of one card, and the card memory that a call wants at least: a card for each of 256
 * definitions. */
#define RAFTERCLARY_CARD_BYTES 16u
#define RAFTERCLARY_CARD_MEMORY 4096u

#define RAFTERCLARY_IS_REFUSAL(reply) ((reply) >> 31)
#define RAFTERCLARY_NUMBER(reply) (((reply) >> 16) & 0x7fffu)
#define RAFTERCLARY_PLACE(reply) ((reply) & 0xffffu)

/* Checks a file. Replies with the number of its definitions and leaves their cards, 16 bytes each,
 * in the card memory; a refusal other than 1 leaves zeros in its first 4,096 bytes. */
uint32_t rafterclary_check(const uint8_t *file, size_t file_length, uint8_t *cards,
                           size_t cards_length);

/* The level of an expression at the end of a module, 0 to 4 (4: not level-correct), with the
 * parameters, 8 at most, at the levels given, one byte each. A transition (2) beside a temporal
 * formula (3) is not level-correct. An expression may have any length. The place of a refusal of
 * the expression or the levels is the number of the file's fields. */
uint32_t rafterclary_level(const uint8_t *file, size_t file_length, uint8_t *cards,
                           size_t cards_length, uint16_t module, const uint8_t *expression,
                           size_t expression_length, const uint8_t *levels, size_t levels_length);

/* Whether two definitions, given by their numbers, are alike: 1 if they are, 0 if not. */
uint32_t rafterclary_alike(const uint8_t *file, size_t file_length, uint8_t *cards,
                           size_t cards_length, uint32_t a, uint32_t b);

/* The part of the file that holds the body of a definition, for a brought one the original's:
 * 65,536 * start + length, or 2^63 + 65,536 * number + place. */
uint64_t rafterclary_body(const uint8_t *file, size_t file_length, uint8_t *cards,
                          size_t cards_length, uint32_t definition);

#define RAFTERCLARY_BODY_IS_REFUSAL(reply) ((reply) >> 63)
#define RAFTERCLARY_BODY_NUMBER(reply) ((uint32_t)(((reply) >> 16) & 0x7fffu))
#define RAFTERCLARY_BODY_PLACE(reply) ((uint32_t)((reply) & 0xffffu))
#define RAFTERCLARY_BODY_START(reply) ((size_t)((reply) >> 16))
#define RAFTERCLARY_BODY_LENGTH(reply) ((size_t)((reply) & 0xffffu))

/* The longest expansion: an output of this length is never too short. */
#define RAFTERCLARY_EXPANSION 65535u

/* The expansion of an expression over so many parameters, 0 to 8, at the end of a module, written
 * to the output: replies with its length. A refusal, of number 18 if the expansion is longer than
 * the output or than 65,535 bytes, leaves the output as it was. An expression may have any length.
 * The place of a refusal of the expression or of a ninth parameter is the number of the file's
 * fields. */
uint32_t rafterclary_expand(const uint8_t *file, size_t file_length, uint8_t *cards,
                            size_t cards_length, uint16_t module, const uint8_t *expression,
                            size_t expression_length, uint8_t params, uint8_t *out,
                            size_t out_length);

/* CARDS. The card of a definition is the 16 bytes at 16 times its number in the card memory.
 *
 *     0         the parameter count, 0 to 8
 *     1         the level with all at 0
 *     2         the weights: bit i is set if some taken level of parameter i, others at 0, raises
 *               the level
 *     3 to 10   a mask of levels taken per parameter, byte 3 + i of parameter i: bit l is set if
 *               the parameter at l, others at 0, is not 4
 *     11 to 14  the pairs, the highest byte first: bit j(j - 1)/2 + i, for i below j, is set if one
 *               at 2 and the other at 3, others at 0, gives 4 though each alone does not
 *     15        zero
 *
 * Parameters are counted from 0, and bit 0 is the lowest. Unused masks and bits are 0. Equal cards
 * mean equal levels whatever levels the parameters have.
 *
 * What follows reads a card and nothing else, and calls nothing of the archive. A definition is one
 * of those that a check replied with; the other numbers may be any: a parameter that is not there
 * is taken at no level, does not weigh and clashes with none. */
static inline const uint8_t *rafterclary_card(const uint8_t *cards, uint32_t definition) {
    return cards + (size_t)RAFTERCLARY_CARD_BYTES * definition;
}

static inline uint32_t rafterclary_card_parameters(const uint8_t *card) { return card[0]; }

static inline uint32_t rafterclary_card_level_at_zero(const uint8_t *card) { return card[1]; }

/* 1 if some taken level of parameter i raises the level, else 0. */
static inline int rafterclary_card_weighs(const uint8_t *card, size_t i) {
    return i < RAFTERCLARY_MAX_PARAMETERS && ((card[2] >> i) & 1) == 1;
}

/* The levels that are taken for parameter i. */
static inline uint32_t rafterclary_card_mask(const uint8_t *card, size_t i) {
    return i < RAFTERCLARY_MAX_PARAMETERS ? card[3 + i] : 0u;
}

/* 1 if parameter i is taken at the level, else 0. */
static inline int rafterclary_card_takes(const uint8_t *card, size_t i, uint32_t level) {
    return level <= 4 && ((rafterclary_card_mask(card, i) >> level) & 1) == 1;
}

/* 1 if parameters i and j, in either order, clash: one at 2 and the other at 3; else 0. */
static inline int rafterclary_card_clash(const uint8_t *card, size_t i, size_t j) {
    size_t low = i < j ? i : j;
    size_t high = i < j ? j : i;
    uint32_t pairs = (uint32_t)card[11] << 24 | (uint32_t)card[12] << 16 | (uint32_t)card[13] << 8 |
                     (uint32_t)card[14];
    return low < high && high < RAFTERCLARY_MAX_PARAMETERS &&
           ((pairs >> (high * (high - 1) / 2 + low)) & 1) == 1;
}

/* 1 if parameter j clashes, at these levels, with one before it; else 0. */
static inline int rafterclary_card_clash_before(const uint8_t *card, const uint8_t *levels,
                                                size_t j) {
    int clash = 0;
    size_t i;
    for (i = 0; i < j; i++) {
        int mixed = (levels[i] == 2 && levels[j] == 3) || (levels[i] == 3 && levels[j] == 2);
        clash = clash || (mixed && rafterclary_card_clash(card, i, j));
    }
    return clash;
}

/* No level: these are no levels for the card. */
#define RAFTERCLARY_NO_LEVEL 255u

/* The level with the parameters at the levels given, one byte each: 4 if a level is not taken or
 * two parameters that clash are at 2 and at 3; else the highest of the level with all at 0 and the
 * levels of the parameters that weigh. RAFTERCLARY_NO_LEVEL if the number of levels is not the
 * parameter count, or is above 8, or if a level is above 4. */
static inline uint32_t rafterclary_card_level(const uint8_t *card, const uint8_t *levels,
                                              size_t levels_length) {
    uint32_t highest = rafterclary_card_level_at_zero(card);
    int correct = 1;
    size_t j;
    if (levels_length != card[0] || levels_length > RAFTERCLARY_MAX_PARAMETERS) {
        return RAFTERCLARY_NO_LEVEL;
    }
    for (j = 0; j < levels_length; j++) {
        if (levels[j] > 4) {
            return RAFTERCLARY_NO_LEVEL;
        }
        correct = correct && rafterclary_card_takes(card, j, levels[j]) &&
                  !rafterclary_card_clash_before(card, levels, j);
        if (rafterclary_card_weighs(card, j) && levels[j] > highest) {
            highest = levels[j];
        }
    }
    return correct ? highest : 4u;
}

#ifdef __cplusplus
}
#endif

#endif
