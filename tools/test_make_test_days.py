"""The files of the program `test_days` are those that the samples make."""
import unittest

import make_test_days


class TestDaytests(unittest.TestCase):
    def test_files_are_as_made(self):
        files = make_test_days.made_files()
        self.assertEqual(make_test_days.files_present(), set(files))
        for path, content in files.items():
            self.assertEqual(path.read_bytes(), content, path.name)


if __name__ == "__main__":
    unittest.main()
