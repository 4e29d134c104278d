require "minitest/autorun"
require "minitest/reporters"
Minitest::Reporters.use! Minitest::Reporters::JUnitReporter.new("reports")

class Store < Minitest::Test
  def test_adds = assert_equal(2, 1 + 1)
end
