"""YANG text: one statement with its substatements (RFC 7950 section 6; `sal_stmt` Text, Quoted, Words)."""
import re

GAP = re.compile(r"(?:[ \t\r\n]|//[^\n]*|/\*.*?\*/)*", re.S)
WORD = re.compile(r"(?:(?!//|/\*|\*/)[^\x00-\x20\"';{}])+")
SINGLE = re.compile(r"'([^']*)'")
DOUBLE = re.compile(r'"((?:[^"\\]|\\.)*)"', re.S)
ESCAPED = {"n": "\n", "t": "\t", '"': '"', "\\": "\\"}


class Statement:
    def __init__(self, keyword, argument, around, module):
        self.keyword, self.argument, self.around, self.module, self.subs = keyword, argument, around, module, []

    def all(self, keyword):
        return [sub for sub in self.subs if sub.keyword == keyword]

    def stated(self, keyword, other=None):
        """The argument of the first substatement with this keyword."""
        return next((sub.argument for sub in self.subs if sub.keyword == keyword), other)


# -- strings (Quoted, `content`)

def without_indent(width, line):
    for at, c in enumerate(line):
        if width == 0 or c not in " \t":
            return line[at:]
        if c == "\t" and width < 8:
            return " " * (8 - width) + line[at + 1 :]
        width -= 8 if c == "\t" else 1
    return ""


def content(column, raw):
    """The content of a string in double quotes; `column` is the number of columns before the first quote."""
    lines = raw.split("\n")
    lines[:-1] = [line.removesuffix("\r").rstrip(" \t") for line in lines[:-1]]
    lines[1:] = [without_indent(column + 1, line) for line in lines[1:]]
    return "\n".join(re.sub(r'\\([nt"\\])', lambda found: ESCAPED[found[1]], line) for line in lines)


# -- statements (Text, `statement`)

class Reader:
    def __init__(self, text, module):
        self.text, self.at, self.module = text, 0, module

    def take(self, pattern):
        found = pattern.match(self.text, self.at)
        if not found:
            raise ValueError(f"module {self.module}: no statement at character {self.at}")
        self.at = found.end()
        return found

    def next(self):
        """The next character after the gap."""
        self.take(GAP)
        return self.text[self.at : self.at + 1]

    def string(self):
        if self.next() == "'":
            return self.take(SINGLE)[1]
        line = self.text[self.text.rfind("\n", 0, self.at) + 1 : self.at]
        return content(len(line) + 7 * line.count("\t"), self.take(DOUBLE)[1])

    def argument(self):
        if self.next() not in ("'", '"'):
            return self.take(WORD)[0]
        text = self.string()
        while self.next() == "+":
            self.at += 1
            text += self.string()
        return text

    def statement(self, around):
        self.take(GAP)
        keyword = self.take(WORD)[0]
        argument = "" if self.next() in (";", "{") else self.argument()
        one = Statement(keyword, argument, around, self.module)
        if self.next() == "{":
            self.at += 1
            while self.next() != "}":
                one.subs.append(self.statement(one))
        self.at += 1
        return one


def read_module(text, module):
    """The single statement of a text, which is module number `module`."""
    return Reader(text, module).statement(None)
