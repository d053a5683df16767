"""The vectors of the program `test_vectors` are those that the cases make."""
import unittest

import make_vectors


class TestVectors(unittest.TestCase):
    def test_files_are_as_made(self):
        files = make_vectors.made_files()
        self.assertEqual(make_vectors.files_present(), set(files))
        for path, content in files.items():
            self.assertEqual(path.read_bytes(), content, path.name)


if __name__ == "__main__":
    unittest.main()
