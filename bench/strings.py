#!/usr/bin/env python3
"""Makes files whose parameters are strings, for `walks.sh`: strings.py FOLDER, then REAL=FOLDER bench/walks.sh

names-LEAST-MOST.stp: 30,000 records with two names of so many bytes, drawn; names-100.stp: one record 20,000 times, with strings of 98 and 25
bytes; strings-of-quotes.stp: the records of `bench hostile`; quotes-100MB.stp and string-100MB.stp: one record, a string of so many quotes, or of `x`.
"""
import os
import random
import sys

OPENING = b"ISO-10303-21;\nHEADER;\nFILE_NAME('a');\nENDSEC;\nDATA;\n"
CLOSING = b"ENDSEC;\nEND-ISO-10303-21;\n"
LONG = (b"#12=PRODUCT('a rather long name of a part, with more than sixty-four bytes in it so that blocks are used',"
        b"'it''s a description of it',(#1));\n")
QUOTES = b"#1=A('a'';''b;'''';(''c/*;''',(';'),'''');\n"
HUNDRED = 100_000_000


def name(least, most):
    return bytes(random.choice(b"abcdefghij klmno-_0123") for _ in range(random.randint(least, most)))


def named(least, most):
    return b"".join(b"#%d=PRODUCT('%s','%s',(#1));\n" % (k + 1, name(least, most), name(least, most)) for k in range(30000))


def main():
    folder = sys.argv[1]
    os.makedirs(folder, exist_ok=True)
    random.seed(5)
    files = {f'names-{a}-{z}.stp': named(a, z) for a, z in ((0, 8), (8, 40), (20, 120))}
    files['names-100.stp'] = LONG * 20000
    files['strings-of-quotes.stp'] = QUOTES * 50000
    files['quotes-100MB.stp'] = b"#1=A('" + b"'" * HUNDRED + b"');\n"
    files['string-100MB.stp'] = b"#1=A('" + b"x" * HUNDRED + b"');\n"
    for what, records in files.items():
        with open(os.path.join(folder, what), 'wb') as file:
            file.write(OPENING + records + CLOSING)


if __name__ == '__main__':
    if len(sys.argv) != 2:
        sys.exit(__doc__)
    main()
