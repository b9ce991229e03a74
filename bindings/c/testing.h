/* testing.h: what the tests in C have in common. */
#ifndef NUZOLGED_TESTING_H
#define NUZOLGED_TESTING_H

#include <stdbool.h>
#include <stdio.h>
#include <stdlib.h>

/* Ends a test, which has failed, if this does not hold. */
#define CHECK(holds)                                                    \
    do {                                                                \
        if (!(holds)) {                                                 \
            fprintf(stderr, "line %d: not so: %s\n", __LINE__, #holds); \
            return false;                                               \
        }                                                               \
    } while (0)

typedef struct test {
    const char *name;
    bool (*run)(void);
} test;

/* A test, as a table of them has it. */
#define TEST(name) { #name, name }

/* Runs tests, does something after each, if there is something to do, and prints how many passed
 * and failed. Returns the status of the program. */
static inline int run_tests(const test *tests, size_t count, void (*behind)(bool is_good)) {
    unsigned passed = 0, failed = 0;
    for (size_t i = 0; i < count; i++) {
        bool is_good = tests[i].run();
        if (!is_good) {
            fprintf(stderr, "%s: FAILED\n", tests[i].name);
        }
        if (behind != NULL) {
            behind(is_good);
        }
        passed += is_good;
        failed += !is_good;
    }
    printf("%u passed, %u failed\n", passed, failed);
    return failed == 0 ? EXIT_SUCCESS : EXIT_FAILURE;
}

#define RUN_TESTS(tests, behind) run_tests(tests, sizeof(tests) / sizeof *(tests), behind)

#endif
