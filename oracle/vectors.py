"""Where the makers of vectors write."""
import os

CRATES = os.path.join(os.path.dirname(os.path.abspath(__file__)), "..", "crates")


def write(crate, data, line):
    """The input of a test program, and the line that it has to print."""
    for name, content in (("stdin", data), ("stdout", line.encode())):
        with open(os.path.join(CRATES, crate, name), "wb") as out:
            out.write(content)
