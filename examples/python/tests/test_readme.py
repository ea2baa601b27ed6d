"""What README.md says of picture's options is what picture has."""
import os
import re
import unittest

import programs
import picture


def readme():
    with open(os.path.join(programs.FOLDER, "README.md"), encoding="utf-8") as file:
        return file.read()


class Readme(unittest.TestCase):
    def test_the_options_of_picture(self):
        table = readme().split("| option |")[1].split("| status |")[0]
        named = set(re.findall(r"^\| `(-+\w+)", table, re.M)) | {"--to"}
        there = {max(action.option_strings, key=lambda o: (o == "-o", len(o)))
                 for action in picture.parser()._actions if action.option_strings}
        self.assertEqual(named, there - {"--help"})


if __name__ == "__main__":
    unittest.main()
