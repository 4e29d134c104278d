import unittest


class Store(unittest.TestCase):
    def test_adds(self):
        self.assertEqual(1 + 1, 2)

    def test_fails(self):
        print("a store")
        self.assertEqual(1, 2)

    def test_raises(self):
        raise ValueError("gone")

    @unittest.skip("no network")
    def test_is_skipped(self):
        pass

    @unittest.expectedFailure
    def test_should_fail(self):
        self.fail()

    @unittest.expectedFailure
    def test_should_fail_and_passes(self):
        pass
