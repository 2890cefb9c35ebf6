/* Reads cards through the header: at every choice of levels what a card says is the level of the
 * body that it is of, and numbers that are none are told. Needs no archive.
 * Exits with the number of the first line that does not hold, 0 if all do. */
#include "expect.h"
#include "rafterclary.h"

#include <string.h>

/* The join of two levels: a 2 and a 3 make 4. */
static uint32_t join(uint32_t a, uint32_t b) {
    if ((a == 2 && b == 3) || (a == 3 && b == 2)) {
        return 4;
    }
    return a > b ? a : b;
}

static uint32_t prime(uint32_t p) { return p <= 1 ? 2 : 4; }
static uint32_t enabled(uint32_t p) { return p <= 2 ? 1 : 4; }
static uint32_t always(uint32_t p) { return p == 2 || p == 4 ? 4 : 3; }
static uint32_t fair(uint32_t v, uint32_t a) { return v <= 1 && a <= 2 ? 3 : 4; }

/* x': no parameter */
static uint32_t step(const uint8_t *v) {
    (void)v;
    return prime(1);
}

/* p' */
static uint32_t primed(const uint8_t *v) { return prime(v[0]); }

/* p'': level 4 whatever p is */
static uint32_t nothing(const uint8_t *v) { return prime(prime(v[0])); }

/* samples/winch.tla, Ready and Watch: rope, step, slack, load, brake, order */
static uint32_t ready(const uint8_t *v) {
    uint32_t step = join(join(v[5], prime(v[0])), join(v[0], v[1]));
    return join(join(enabled(step), v[3]), join(v[2], v[4]));
}

static uint32_t watch(const uint8_t *v) {
    uint32_t leads = join(always(v[4]), always(v[0]));
    return join(join(always(join(v[3], v[2])), fair(v[0], v[5])), leads);
}

/* samples/parameters-8.tla, Some and All */
static uint32_t some(const uint8_t *v) {
    uint32_t able = enabled(join(v[1], prime(v[4])));
    uint32_t rest = join(join(v[3], v[7]), join(v[5], enabled(v[5])));
    return join(join(v[0], able), join(rest, v[6]));
}

static uint32_t all(const uint8_t *v) {
    return join(join(join(v[0], v[1]), join(v[2], v[3])), join(join(v[4], v[5]), join(v[6], v[7])));
}

struct example {
    uint8_t card[RAFTERCLARY_CARD_BYTES];
    uint32_t (*level)(const uint8_t *);
};

static const struct example examples[] = {
    {{0, 2}, step},
    {{1, 2, 0, 3}, primed},
    {{1, 4, 0, 0}, nothing},
    {{6, 1, 0x1c, 3, 7, 15, 15, 15, 7, 0, 0, 0, 0, 3, 0x20, 0}, ready},
    {{6, 3, 0, 3, 31, 11, 11, 11, 7}, watch},
    {{8, 1, 0xe9, 15, 7, 31, 15, 3, 7, 15, 15, 0x0d, 0x34, 0xa4, 0x08, 0}, some},
    {{8, 0, 0xff, 15, 15, 15, 15, 15, 15, 15, 15, 0x0f, 0xff, 0xff, 0xff, 0}, all},
};

#define EXAMPLES (sizeof examples / sizeof *examples)

/* The next choice of levels; 0 after the last. */
static int next(uint8_t *levels, size_t count) {
    size_t i;
    for (i = 0; i < count; i++) {
        if (levels[i] < 4) {
            levels[i]++;
            return 1;
        }
        levels[i] = 0;
    }
    return 0;
}

static int exact(const struct example *example) {
    uint8_t levels[RAFTERCLARY_MAX_PARAMETERS] = {0};
    size_t count = rafterclary_card_parameters(example->card);
    EXPECT(rafterclary_card_level_at_zero(example->card) == example->level(levels));
    do {
        EXPECT(rafterclary_card_level(example->card, levels, count) == example->level(levels));
    } while (next(levels, count));
    return 0;
}

/* What is said of one parameter and of two. */
static int parts(const struct example *example) {
    size_t count = rafterclary_card_parameters(example->card);
    size_t i, j;
    for (i = 0; i < count; i++) {
        uint8_t levels[RAFTERCLARY_MAX_PARAMETERS] = {0};
        int raised = 0;
        for (levels[i] = 0; levels[i] <= 4; levels[i]++) {
            uint32_t alone = example->level(levels);
            EXPECT(rafterclary_card_takes(example->card, i, levels[i]) == (alone != 4));
            raised = raised || (alone != 4 && alone > example->card[1]);
        }
        EXPECT(rafterclary_card_weighs(example->card, i) == raised);
        EXPECT(!rafterclary_card_clash(example->card, i, i));
        for (j = 0; j < count; j++) {
            EXPECT(rafterclary_card_clash(example->card, i, j) ==
                   rafterclary_card_clash(example->card, j, i));
        }
    }
    return 0;
}

/* Numbers that are no parameter, of the card with all pairs. */
static int beyond(void) {
    static const size_t numbers[] = {8, 9, 31, 32, 64, SIZE_MAX};
    const uint8_t *card = examples[EXAMPLES - 1].card;
    size_t i, j;
    for (i = 0; i < sizeof numbers / sizeof *numbers; i++) {
        EXPECT(rafterclary_card_mask(card, numbers[i]) == 0);
        EXPECT(!rafterclary_card_takes(card, numbers[i], 0));
        EXPECT(!rafterclary_card_weighs(card, numbers[i]));
        EXPECT(!rafterclary_card_clash(card, numbers[i], numbers[i]));
        for (j = 0; j < RAFTERCLARY_MAX_PARAMETERS; j++) {
            EXPECT(!rafterclary_card_clash(card, j, numbers[i]));
            EXPECT(!rafterclary_card_clash(card, numbers[i], j));
        }
    }
    return 0;
}

/* Levels and numbers of levels that are none. */
static int none(void) {
    static const uint8_t zeros[255] = {0};
    const uint8_t *card = examples[EXAMPLES - 1].card;
    static const uint8_t levels[RAFTERCLARY_MAX_PARAMETERS] = {4, 0, 0, 0, 0, 0, 0, 5};
    uint8_t made_up[RAFTERCLARY_CARD_BYTES];
    size_t i, count;
    EXPECT(RAFTERCLARY_NO_LEVEL > 4);
    EXPECT(!rafterclary_card_takes(card, 2, 5) && !rafterclary_card_takes(card, 2, 256));
    /* Also where a level before it is not taken. */
    EXPECT(rafterclary_card_level(card, levels, 8) == RAFTERCLARY_NO_LEVEL);
    for (i = 0; i < EXAMPLES; i++) {
        for (count = 0; count < sizeof zeros; count++) {
            uint32_t level = rafterclary_card_level(examples[i].card, zeros, count);
            EXPECT((level == RAFTERCLARY_NO_LEVEL) == (count != examples[i].card[0]));
        }
        EXPECT(rafterclary_card_level(examples[i].card, zeros, SIZE_MAX) == RAFTERCLARY_NO_LEVEL);
    }
    memset(made_up, 255, sizeof made_up);
    EXPECT(rafterclary_card_level(made_up, zeros, 255) == RAFTERCLARY_NO_LEVEL);
    made_up[0] = 9;
    EXPECT(rafterclary_card_level(made_up, zeros, 9) == RAFTERCLARY_NO_LEVEL);
    return 0;
}

/* Where the cards stand. */
static int places(void) {
    static const uint8_t memory[RAFTERCLARY_CARD_MEMORY] = {0};
    EXPECT(rafterclary_card(memory, 0) == memory);
    EXPECT(rafterclary_card(memory, 1) == memory + 16);
    EXPECT(rafterclary_card(memory, 255) == memory + 4080);
    return 0;
}

int main(void) {
    int line = 0;
    size_t i;
    for (i = 0; line == 0 && i < EXAMPLES; i++) {
        line = exact(&examples[i]);
        line = line == 0 ? parts(&examples[i]) : line;
    }
    line = line == 0 ? beyond() : line;
    line = line == 0 ? none() : line;
    return line == 0 ? places() : line;
}
