/* Calls every function of the archive through the header, on paper 01's example: one definition,
 * p', of its own parameter; and a check on a file that is refused with 21. Exits with the number
 * of the first line that does not hold, 0 if all do. */
#include "expect.h"
#include "rafterclary.h"

#include <string.h>

static const uint8_t example[] = {0x01, 0x00, 0x02, 0x00, 0x01, 0x04, 0x00, 0x02,
                                  0x00, 0x02, 0x05, 0x00, 0x07, 0x00, 0x03, 0x01,
                                  0x04, 0x70, 0x00, 0x00, 0x07, 0x00, 0x00};
/* A module with two constants, and an instance that puts op0' for one and []op0 for the other. */
static const uint8_t mixed[] = {1, 0, 2, 0, 1, 3, 0, 3, 0, 1, 0, 3, 0, 3, 0, 2, 0, 7, 0,
                                0, 1, 0, 2, 0, 2, 6, 0, 22, 0, 0, 0, 0, 1, 2, 0, 1, 0, 4,
                                4, 112, 4, 0, 0, 2, 0, 4, 4, 118, 4, 0};
static uint8_t cards[RAFTERCLARY_CARD_MEMORY];
static uint8_t out[RAFTERCLARY_EXPANSION];

static int is_refusal(uint32_t reply, uint32_t number, uint32_t place) {
    return RAFTERCLARY_IS_REFUSAL(reply) && RAFTERCLARY_NUMBER(reply) == number &&
           RAFTERCLARY_PLACE(reply) == place;
}

static int checks(void) {
    static const uint8_t expected[RAFTERCLARY_CARD_BYTES] = {1, 2, 0, 3};
    static const uint8_t expected_levels[] = {2, 2, 4, 4, 4};
    EXPECT(rafterclary_check(example, sizeof example, cards, sizeof cards) == 1);
    EXPECT(memcmp(rafterclary_card(cards, 0), expected, sizeof expected) == 0);
    for (uint8_t level = 0; level < 5; level++) {
        EXPECT(rafterclary_card_level(cards, &level, 1) == expected_levels[level]);
    }
    EXPECT(
        !RAFTERCLARY_IS_REFUSAL(rafterclary_check(example, sizeof example, cards, sizeof cards)));
    EXPECT(is_refusal(rafterclary_check(example, 20, cards, sizeof cards), 4, 3));
    EXPECT(is_refusal(rafterclary_check(mixed, sizeof mixed, cards, sizeof cards), 21, 5));
    EXPECT(is_refusal(rafterclary_check(example, sizeof example, cards, sizeof cards - 1), 1, 0));
    return 0;
}

static int queries(void) {
    static const uint8_t level_3[] = {3};
    static const uint8_t zeros[9] = {0};
    static const uint8_t parameter[] = {0, 0};
    EXPECT(rafterclary_level(example, sizeof example, cards, sizeof cards, 1, parameter,
                             sizeof parameter, level_3, 1) == 3);
    EXPECT(is_refusal(rafterclary_level(example, sizeof example, cards, sizeof cards, 1, parameter,
                                        sizeof parameter, level_3, 0),
                      9, 4));
    EXPECT(rafterclary_level(example, sizeof example, cards, sizeof cards, 1, parameter,
                             sizeof parameter, zeros, RAFTERCLARY_MAX_PARAMETERS) == 0);
    EXPECT(is_refusal(rafterclary_level(example, sizeof example, cards, sizeof cards, 1, parameter,
                                        sizeof parameter, zeros, sizeof zeros),
                      5, 4));
    EXPECT(rafterclary_alike(example, sizeof example, cards, sizeof cards, 0, 0) == 1);
    EXPECT(
        is_refusal(rafterclary_alike(example, sizeof example, cards, sizeof cards, 0, 1), 17, 0));
    uint64_t body = rafterclary_body(example, sizeof example, cards, sizeof cards, 0);
    EXPECT(!RAFTERCLARY_BODY_IS_REFUSAL(body));
    EXPECT(RAFTERCLARY_BODY_START(body) == 16 && RAFTERCLARY_BODY_LENGTH(body) == 4);
    body = rafterclary_body(example, sizeof example, cards, sizeof cards, 1);
    EXPECT(RAFTERCLARY_BODY_IS_REFUSAL(body));
    EXPECT(RAFTERCLARY_BODY_NUMBER(body) == 17 && RAFTERCLARY_BODY_PLACE(body) == 0);
    return 0;
}

static int expansions(void) {
    static const uint8_t defined[] = {2, 0, 3, 1, 0, 7};
    static const uint8_t expected[] = {4, 112, 0, 7};
    EXPECT(rafterclary_expand(example, sizeof example, cards, sizeof cards, 1, defined,
                              sizeof defined, 8, out, sizeof out) == 4);
    EXPECT(memcmp(out, expected, sizeof expected) == 0 && out[4] == 0);
    EXPECT(is_refusal(rafterclary_expand(example, sizeof example, cards, sizeof cards, 1, defined,
                                         sizeof defined, 8, out, 3),
                      18, 0));
    EXPECT(is_refusal(rafterclary_expand(example, sizeof example, cards, sizeof cards, 1, defined,
                                         sizeof defined, 9, out, sizeof out),
                      5, 4));
    return 0;
}

int main(void) {
    int line = checks();
    if (line == 0) {
        line = queries();
    }
    return line == 0 ? expansions() : line;
}
