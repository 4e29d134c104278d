test_that("adds", expect_equal(1 + 1, 2))
test_that("fails", {
  expect_equal(1, 2)
  expect_true(FALSE)
})
test_that("stops", stop("gone <it>"))
test_that("warns", {
  warning("careful")
  expect_true(TRUE)
})
test_that("is skipped", skip("no network"))
test_that("is empty", {})
