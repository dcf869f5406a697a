"""Pages of packages of contrib/, beside what their commands tell by `--help`."""
import re


def same_words(test, page, told, statuses):
    """The page and what is told have the same words, and of statuses these; neither has any other."""
    words = re.compile(r"--[a-z][a-z-]+")
    test.assertEqual(set(words.findall(page)), set(words.findall(told)))
    for text, row in ((told, r"^  (\d+) "), (page, r"^\| (\d+) \|")):
        test.assertEqual(set(map(int, re.findall(row, text, re.MULTILINE))), {*map(int, statuses)})
