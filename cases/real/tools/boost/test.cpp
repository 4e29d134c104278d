#define BOOST_TEST_MODULE Store
#include <boost/test/included/unit_test.hpp>
namespace ut = boost::unit_test;

BOOST_AUTO_TEST_CASE(adds) { BOOST_TEST(1 + 1 == 2); }
BOOST_AUTO_TEST_CASE(is_disabled, *ut::disabled()) { BOOST_TEST(false); }
#ifdef RUN_expected
BOOST_AUTO_TEST_CASE(is_expected, *ut::expected_failures(1)) { BOOST_TEST(1 == 2); }
#endif
#ifdef RUN_red
BOOST_AUTO_TEST_CASE(fails) {
    BOOST_TEST(1 == 2);
    BOOST_TEST(2 == 3);
}
BOOST_AUTO_TEST_CASE(throws) { throw std::runtime_error("no store"); }
BOOST_AUTO_TEST_CASE(depends, *ut::depends_on("fails")) { BOOST_TEST(true); }
#endif
