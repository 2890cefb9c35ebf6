/* A fact that a test program holds to: the first that does not hold ends it, with its line. */
#ifndef EXPECT_H
#define EXPECT_H

#define EXPECT(fact)                                                                               \
    do {                                                                                           \
        if (!(fact)) {                                                                             \
            return __LINE__;                                                                       \
        }                                                                                          \
    } while (0)

#endif
