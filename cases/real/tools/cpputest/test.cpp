#include "CppUTest/TestHarness.h"
#include "CppUTest/CommandLineTestRunner.h"

TEST_GROUP(Store) {};
TEST(Store, adds) { LONGS_EQUAL(2, 1 + 1); }
#ifdef RUN_red
TEST(Store, fails) { STRCMP_EQUAL("a <b>", "c"); }
IGNORE_TEST(Store, isIgnored) { FAIL("never"); }
#endif

int main(int count, char **words) { return CommandLineTestRunner::RunAllTests(count, words); }
