"""The library: each procedure stands where a program neither defines nor declares it. Its text is the one in crates/pllibrary."""
import os
import re

HERE = os.path.dirname(os.path.realpath(__file__))
PATH = os.path.join(HERE, "..", "..", "pllibrary", "src", "text.rt")


def read():
    """The text of the string that the file holds."""
    with open(PATH, encoding="utf-8") as file:
        literal = re.search(r'LIBRARY: &str = "((?:[^"\\]|\\.)*)";', file.read())
    return literal[1].replace("\\\\", "\\")


TEXT = read()
