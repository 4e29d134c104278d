#define DOCTEST_CONFIG_IMPLEMENT_WITH_MAIN
#include <doctest/doctest.h>

TEST_CASE("adds") { CHECK(1 + 1 == 2); }
TEST_CASE("warns") { WARN(1 == 2); }
#ifdef RUN_red
TEST_CASE("fails") { int two = 2; CHECK(two == 3); CHECK(two == 4); }
TEST_CASE("throws") { throw "gone"; }
TEST_CASE("is skipped" * doctest::skip()) { CHECK(false); }
#endif
#ifdef RUN_may
TEST_CASE("may fail" * doctest::may_fail()) { CHECK(false); }
#endif
#ifdef RUN_silent
TEST_CASE("should fail and passes" * doctest::should_fail()) { CHECK(true); }
#endif
