"""The program `rows` by the reference reader: three lines from standard input, the answer to standard output.

Document 01, "Sample rows". Text after the third line is not looked at.
"""

import sys

from grugalash_reference.rows_text import rows

if __name__ == "__main__":
    sys.stdout.buffer.write(rows(sys.stdin.buffer.read()))
