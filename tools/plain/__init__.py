"""A second player of scripts, written from the definitions, over plain lists of rows. tools/plain_audit uses it to audit reports.

Each file names the definitions that it implements, by crate and file in specs/. It does not read or call the program.
"""


class Refused(Exception):
    """Why a step or a call is refused: the text after `refused` in a report."""
