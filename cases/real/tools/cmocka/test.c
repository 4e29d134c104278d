#include <setjmp.h>
#include <stdarg.h>
#include <stddef.h>
#include <stdint.h>
#include <cmocka.h>

static void adds(void **state) { (void)state; assert_int_equal(1 + 1, 2); }
#ifdef RUN_red
static void fails(void **state) { (void)state; assert_int_equal(1, 2); }
static void is_skipped(void **state) { (void)state; skip(); }
static int no_setup(void **state) { (void)state; return -1; }
static void never_runs(void **state) { (void)state; }
#endif

int main(void) {
    const struct CMUnitTest tests[] = {
        cmocka_unit_test(adds),
#ifdef RUN_red
        cmocka_unit_test(fails), cmocka_unit_test(is_skipped), cmocka_unit_test_setup(never_runs, no_setup),
#endif
    };
    cmocka_set_message_output(CM_OUTPUT_XML);
    return cmocka_run_group_tests_name("store", tests, NULL, NULL);
}
