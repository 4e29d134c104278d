require "minitest/autorun"
require "minitest/reporters"
Minitest::Reporters.use! Minitest::Reporters::JUnitReporter.new("reports")

class Store < Minitest::Test
  def test_adds = assert_equal(2, 1 + 1)
  def test_fails = assert_equal({ a: 1 }, { a: 2 })
  def test_raises = raise("gone <it>")
  def test_skipped = skip("no network")
end
