"""The checker's own test: histories written by hand, each with the fault that it has, or with none.

A history is a text: a line for each request, `CLIENT SENT TOLD WHAT`, and WHAT one of

    write ID READ WROTE ANSWER NUMBER       as "write w1 x0 x1 done 1": it saw x at version 0, wrote version 1, and is commit 1
    read VALUES NUMBER                      as "read x1:w1 1"
    look VALUES NUMBER MIN

Values are x1:w1,y0; TOLD, ANSWER and NUMBER are - where nobody told.
"""
import sys

import checker

GOOD = {
    "one after another": """
        a 1 2 write w1 x0 x1 done 1
        b 3 4 write w2 x1:w1 x2 done 2
        a 5 6 read x2:w2 2
    """,
    "a write without an answer that landed, and one that did not": """
        a 1 - write w1 x0 x1 - -
        b 3 4 read x1:w1 1
        b 5 - write w2 x1:w1 x2 - -
        a 7 8 read x1:w1 1
    """,
    "a write without an answer that lands after a read": """
        a 1 - write w1 x0 x1 - -
        b 2 3 read x0 0
        b 4 5 read x1:w1 1
    """,
    "two at the same time, in one order": """
        a 1 4 write w1 x0 x1 done 1
        b 1 4 read x0 0
        c 2 3 read x1:w1 1
    """,
    "a conflict with its reason": """
        a 1 4 write w1 x0 x1 done 1
        b 2 5 write w2 x0 x1 conflict -
    """,
    "a conflict of what was only read": """
        a 1 4 write w1 x0,y0 x1 done 1
        b 2 5 write w2 x0,y0 y1 conflict -
    """,
    "an old look": """
        a 1 2 write w1 x0 x1 done 1
        b 3 4 look x0 0 0
        b 5 6 look x1:w1 1 1
    """,
}
BAD = {
    "a lost write": ("no order", """
        a 1 2 write w1 x0 x1 done 1
        b 3 4 read x0 0
    """),
    "a lost write, with another answer between": ("no order", """
        a 1 2 write w1 x0 x1 done 1
        c 1 4 read y0 0
        b 5 6 read x0 0
    """),
    "a read of a value that its number does not have": ("no order", """
        a 1 4 write w1 x0 x1 done 1
        b 2 3 read x1:w1 0
    """),
    "a stale read": ("no order", """
        a 1 2 write w1 x0 x1 done 1
        b 3 4 write w2 x1:w1 x2 done 2
        c 5 6 read x1:w1 1
    """),
    "a stale read between reads, of a write without an answer": ("no order", """
        a 1 - write w1 x0 x1 - -
        b 2 3 read x1:w1 1
        c 4 5 read x0 0
    """),
    "two writes of one version": ("two writes made x 1", """
        a 1 4 write w1 x0 x1 done 1
        b 2 3 write w2 x0 x1 done 2
    """),
    "a refused write that was seen": ("which was refused", """
        c 1 4 write w0 y0 y1 done 1
        a 1 4 write w1 x0,y0 x1 conflict -
        b 5 6 read x1:w1 1
    """),
    "a value of nobody": ("whom nobody knows", """
        b 5 6 read x1:w1 1
    """),
    "a value of a write that did not make it": ("which did not write it", """
        a 1 2 write w1 x0 x1 done 1
        b 3 4 read y1:w1 1
    """),
    "half of a write": ("no order", """
        a 1 2 write w1 x0,y0 x1,y1 done 1
        b 1 4 read x1:w1,y0 1
    """),
    "half of a write without an answer": ("no order", """
        a 1 - write w1 x0,y0 x1,y1 - -
        b 1 4 read x1:w1,y0 1
    """),
    "reads that see two writes in two orders": ("no order", """
        a 1 9 write w1 x0 x1 done 1
        b 1 9 write w2 y0 y1 done 2
        c 2 3 read x0,y1:w2 1
    """),
    "write skew": ("no order", """
        a 1 9 write w1 x0,y0 x1 done 1
        b 1 9 write w2 x0,y0 y1 done 2
    """),
    "a conflict that nothing explains": ("nothing explains", """
        a 1 2 write w1 x0 x1 conflict -
    """),
    "a conflict with a write of later": ("nothing explains", """
        a 1 2 write w1 x0 x1 conflict -
        b 3 4 write w2 x0 x1 done 1
    """),
    "a number twice": ("is both", """
        a 1 2 write w1 x0 x1 done 1
        b 3 4 write w2 y0 y1 done 1
    """),
    "numbers against the time": ("no order", """
        a 1 2 write w1 x0 x1 done 2
        b 3 4 write w2 y0 y1 done 1
    """),
    "a version left out": ("no version 1", """
        a 1 2 write w1 y0 x2 done 1
        b 3 4 read x2:w1 1
    """),
    "a look below its least number": ("below its least number", """
        a 1 2 write w1 x0 x1 done 1
        a 3 4 look x0 0 1
    """),
    "a look into the future": ("no order", """
        a 1 2 look x1:w1 1 0
        b 3 4 write w1 x0 x1 done 1
    """),
    "a look of a value that its number does not have": ("no order", """
        a 1 2 write w1 x0 x1 done 1
        b 3 4 look x0 1 0
    """),
    "looks of one client that go back": ("it was told of commit 1 before", """
        a 1 2 write w1 x0 x1 done 1
        b 3 4 look x1:w1 1 0
        b 5 6 look x0 0 0
    """),
    "a commit that nobody made": ("1 writes landed, and the last commit is 2", """
        a 1 2 write w1 x0 x1 done 1
        b 3 4 last x1:w1 2
    """),
}


def values_of(text: str) -> dict[str, tuple[int, str]]:
    pairs = (it.partition(":") for it in text.split(","))
    return {it[0]: (int(it[1:]), by) for it, _, by in pairs}


def number_of(text: str) -> int | None:
    return None if text == "-" else int(text)


def line_of(text: str) -> dict:
    client, sent, told, do, *words = text.split()
    line = {"client": client, "at": "n", "sent": int(sent), "told": number_of(told), "do": "read" if do == "last" else do, "is_last": do == "last"}
    if do == "write":
        name, read, wrote, answer, number = words
        line |= {"id": name, "read": values_of(read), "wrote": {it: version for it, (version, _) in values_of(wrote).items()}}
        return {**line, "answer": None if answer == "-" else answer, "number": number_of(number)}
    return {**line, "values": values_of(words[0]), "number": int(words[1]), "min": int(words[-1])}


def faults_of(text: str) -> list[str]:
    return checker.Checker([line_of(it) for it in text.strip().splitlines()]).check()


def main() -> int:
    missed = 0
    for name, text in GOOD.items():
        faults = faults_of(text)
        missed += bool(faults)
        if faults:
            print(f"the checker's test: {name}: it should be good, and is said to have {faults}")
    for name, (wanted, text) in BAD.items():
        faults = faults_of(text)
        if not any(wanted in it for it in faults):
            missed += 1
            print(f"the checker's test: {name}: it should have '{wanted}', and is said to have {faults}")
    print(f"the checker's test: {len(GOOD)} good histories, {len(BAD)} bad ones, {missed} not judged rightly")
    return 1 if missed else 0


if __name__ == "__main__":
    sys.exit(main())
