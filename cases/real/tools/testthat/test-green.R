test_that("adds", expect_equal(1 + 1, 2))
