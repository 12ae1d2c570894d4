#!/usr/bin/env python3
"""Compares two answers to one run of cases, case by case.

    differ.py STREAM EXPECTED ACTUAL [NAME [FIRST [SHOW]]]     STREAM is a run of cases
    differ.py --file FILE EXPECTED ACTUAL [NAME]               FILE is the one case

Prints the first SHOW cases (one, if it is not said) that differ, with their bytes in hex and both answers, on standard
error (NAME and FIRST, the number of the run's first case in its stream, are only shown), and `DIFFERING LEFT_OUT KINDS` on
standard output, where KINDS tells how many cases have their first difference at a line of each kind. Left out is a case in which
the original panicked, and one above 1 MiB that the program has no room for.
"""

import sys

MIB = 1 << 20


def cases(path):
    with open(path, "rb") as run:
        while True:
            line = run.readline()
            if not line:
                return
            yield run.read(int(line))


def answers(path):
    """The answers in the file's order, each the lines after its `case` line; a wrong number ends them."""
    out = []
    with open(path, "rb") as lines:
        for line in lines:
            if line == b"case %d\n" % len(out):
                out.append([])
            elif line.startswith(b"case ") or not out:
                break
            else:
                out[-1].append(line)
    return [b"".join(answer) for answer in out]


def short(text, most):
    return text if len(text) <= most else text[:most] + " .. (%d more)" % (len(text) - most)


def window(expected, actual):
    """Both answers from the line before the first that differs."""
    a, b = expected.splitlines(), actual.splitlines()
    k = 0
    while k < len(a) and k < len(b) and a[k] == b[k]:
        k += 1
    k = max(0, k - 1)
    front = "  .. line %d\n" % (k + 1) if k else ""
    return [front + "\n".join("  " + line.decode("latin-1") for line in side[k:k + 12]) for side in (a, b)]


def panicked(answer):
    """The original panicked, in the whole case or in one reader."""
    return answer == b"panic\n" or any(line.endswith(b" panic") for line in answer.splitlines())


def no_room(case, want, have):
    """Above 1 MiB the program may lack the room for the file, its rows, or single lists and texts."""
    if len(case) <= MIB:
        return False
    if have.endswith(b"too long for this program\n") or have.startswith(b"refused 8/"):
        return True
    a, b = want.splitlines(), have.splitlines()
    return len(a) == len(b) and all(x == y or b" 16/0@" in y for x, y in zip(a, b))


def kind(want, have):
    """The first word of the first line that differs."""
    a, b = want.splitlines(), have.splitlines()
    k = 0
    while k < len(a) and k < len(b) and a[k] == b[k]:
        k += 1
    line = a[k] if k < len(a) else b[k] if k < len(b) else b"?"
    return line.split(b" ")[0].decode("latin-1") or "?"


def main():
    arguments = sys.argv[1:]
    one = arguments[:1] == ["--file"]
    if one:
        arguments = arguments[1:]
    stream, expected_path, actual_path = arguments[:3]
    name = arguments[3] if len(arguments) > 3 else stream
    first = int(arguments[4]) if len(arguments) > 4 else 0
    show = int(arguments[5]) if len(arguments) > 5 else 1

    expected = answers(expected_path)
    actual = answers(actual_path)
    if one:
        with open(stream, "rb") as file:
            run = [file.read()]
    else:
        run = cases(stream)

    differing = left_out = count = 0
    kinds = {}
    for i, case in enumerate(run):
        count += 1
        want = expected[i] if i < len(expected) else b"(no answer)"
        have = actual[i] if i < len(actual) else b"(no answer)"
        if want == have and i < len(expected):
            continue
        if panicked(want) or no_room(case, want, have):
            left_out += 1
            continue
        differing += 1
        found = kind(want, have)
        kinds[found] = kinds.get(found, 0) + 1
        if differing <= show:
            both = window(want, have)
            sys.stderr.write(
                "%s: case %d differs (%d bytes)\n  hex  %s\n  text %s\nexpected:\n%s\nactual:\n%s\n"
                % (name, first + i, len(case), short(case.hex() or "-", 400 if one else 9000), short(repr(case)[1:], 200 if one else 1000), both[0], both[1])
            )
    if len(actual) > count:
        differing += len(actual) - count
        sys.stderr.write("%s: %d answers too many\n" % (name, len(actual) - count))
    print(differing, left_out, *("%s:%d" % pair for pair in sorted(kinds.items())))


if __name__ == "__main__":
    main()
