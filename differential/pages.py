#!/usr/bin/env python3
r"""A second decoder of the contents of STEP (ISO 10303-21) strings.

It is written from papers alone, without sight of any other decoder, so that
another one can be compared with it.  The papers:

  01  document 01, "The exchange-file reader", section "Strings" (examples 7, 8)
  02  document 02, request #109, "The named code pages"
  OP  the list of open points, what it says on strings and on #109

RFC 3629, section 4, says what a valid UTF-8 sequence is.

The nine tables of ISO 8859-1 to 8859-9 are not in this file.  They are asked of
the C library's iconv (--source iconv, the default) or read from the charmap
files of Debian's package `locales` (--source charmaps).

  pages.py [--source S] decode   lines HEX or ROOM:HEX on standard input; prints
                                 `plain HEX`, `text HEX` or `16` for each
  pages.py [--source S] tables   864 lines: a string with one code, its text
  pages.py [--source S] source   one line: which source this is
  pages.py differ                where the two sources differ

All hex is printed in lower case.  The exit status is 2, with words on standard
error, where a source is missing or an input line is not of the form above.
"""

import argparse
import binascii
import ctypes
import errno
import gzip
import os
import platform
import re
import struct
import subprocess
import sys

QUOTE = 0x27
BACKSLASH = 0x5C
REPLACEMENT = "\ufffd".encode("utf-8")

# 02: "Page letters A to I select ISO 8859-1 to 8859-9".
LETTERS = "ABCDEFGHI"
NAMES = ["ISO-8859-%d" % number for number in range(1, 10)]
# 02: "Add the tables for codes A0 to FF".
CODES = range(0xA0, 0x100)

CHARMAPS = "/usr/share/i18n/charmaps"
CHARMAPS_PACKAGE = "locales"


class SourceError(Exception):
    """A source of the tables is missing, or is not what it should be."""


# ---------------------------------------------------------------------------
# The tables.  A source gives nine dictionaries, for the pages A to I, from a
# code in A0..FF to the UTF-8 of its character; an undefined code is left out.
# ---------------------------------------------------------------------------

def iconv_tables():
    """The nine tables by the C library's iconv."""
    c_library = ctypes.CDLL(None, use_errno=True)
    try:
        iconv_open = c_library.iconv_open
        iconv = c_library.iconv
        iconv_close = c_library.iconv_close
    except AttributeError:
        raise SourceError("the C library has no iconv") from None
    iconv_open.argtypes = [ctypes.c_char_p, ctypes.c_char_p]
    iconv_open.restype = ctypes.c_void_p
    iconv.argtypes = [ctypes.c_void_p,
                      ctypes.POINTER(ctypes.c_void_p), ctypes.POINTER(ctypes.c_size_t),
                      ctypes.POINTER(ctypes.c_void_p), ctypes.POINTER(ctypes.c_size_t)]
    iconv.restype = ctypes.c_size_t
    iconv_close.argtypes = [ctypes.c_void_p]
    iconv_close.restype = ctypes.c_int
    no_descriptor = ctypes.c_void_p(-1).value
    failed = ctypes.c_size_t(-1).value

    def convert(descriptor, name, code):
        """The UTF-8 of one code, or None where iconv refuses it with EILSEQ."""
        source = ctypes.create_string_buffer(bytes([code]), 1)
        target = ctypes.create_string_buffer(16)
        source_at = ctypes.c_void_p(ctypes.addressof(source))
        source_left = ctypes.c_size_t(1)
        target_at = ctypes.c_void_p(ctypes.addressof(target))
        target_left = ctypes.c_size_t(16)
        iconv(descriptor, None, None, None, None)   # back to the first state
        ctypes.set_errno(0)
        answer = iconv(descriptor,
                       ctypes.byref(source_at), ctypes.byref(source_left),
                       ctypes.byref(target_at), ctypes.byref(target_left))
        if answer == failed:
            fault = ctypes.get_errno()
            if fault == errno.EILSEQ:
                return None
            raise SourceError("iconv from %s fails at code %02X: %s"
                              % (name, code, os.strerror(fault)))
        if answer != 0 or source_left.value != 0:
            raise SourceError("iconv from %s does not convert code %02X as it is"
                              % (name, code))
        return target.raw[:16 - target_left.value]

    tables = []
    for name in NAMES:
        ctypes.set_errno(0)
        descriptor = iconv_open(b"UTF-8", name.encode("ascii"))
        if descriptor is None or descriptor == no_descriptor:
            raise SourceError("the C library has no iconv from %s to UTF-8: %s"
                              % (name, os.strerror(ctypes.get_errno())))
        table = {}
        try:
            for code in CODES:
                text = convert(descriptor, name, code)
                if text is not None:
                    table[code] = text
        finally:
            iconv_close(descriptor)
        tables.append(table)
    return tables


CHARMAP_LINE = re.compile(r"<U([0-9A-Fa-f]{4,8})>\s+/x([0-9A-Fa-f]{2})(?:\s.*)?")


def charmap_table(path, name):
    """One table by a charmap file: `<U0104>     /xa1         NAME` a line."""
    try:
        with gzip.open(path, "rt", encoding="latin-1") as file:
            lines = file.read().split("\n")
    except FileNotFoundError:
        raise SourceError("there is no %s: Debian's package `%s` has it"
                          % (path, CHARMAPS_PACKAGE)) from None
    except (OSError, EOFError) as fault:
        raise SourceError("%s cannot be read: %s" % (path, fault)) from None

    header = {}
    table = {}
    part = "before"
    for line in lines:
        line = line.rstrip()
        if not line or line.startswith("%"):
            continue                                # `%` begins a comment
        if part == "before":
            if line == "CHARMAP":
                part = "inside"
            else:
                words = line.split()
                header[words[0]] = words[1:]
        elif line == "END CHARMAP":
            part = "after"                          # widths follow: not wanted
            break
        else:
            found = CHARMAP_LINE.fullmatch(line)
            if found is None:
                raise SourceError("%s has a line that is not understood: %s" % (path, line))
            point = int(found.group(1), 16)
            code = int(found.group(2), 16)
            if code not in CODES:
                continue
            if code in table:
                raise SourceError("%s has code %02X twice" % (path, code))
            if point > 0x10FFFF or 0xD800 <= point <= 0xDFFF:
                raise SourceError("%s gives code %02X no Unicode scalar" % (path, code))
            table[code] = chr(point).encode("utf-8")

    if part != "after":
        raise SourceError("%s has no part from CHARMAP to END CHARMAP" % path)
    expected = {"<code_set_name>": [name], "<comment_char>": ["%"], "<escape_char>": ["/"]}
    for key, value in expected.items():
        if header.get(key) != value:
            raise SourceError("%s does not say %s %s" % (path, key, value[0]))
    return table


def charmap_tables():
    """The nine tables by Debian's charmap files."""
    return [charmap_table(os.path.join(CHARMAPS, name + ".gz"), name) for name in NAMES]


def check(tables):
    """02: "each entry is a Unicode scalar, page A is the identity"."""
    for letter, table in zip(LETTERS, tables):
        for code, text in table.items():
            try:
                one = len(text.decode("utf-8")) == 1
            except UnicodeDecodeError:
                one = False
            if not one:
                raise SourceError("page %s, code %02X: %s is not one Unicode scalar"
                                  % (letter, code, text.hex()))
    for code in CODES:
        if tables[0].get(code) != chr(code).encode("utf-8"):
            raise SourceError("page A is not the identity at code %02X" % code)


def tables_of(source):
    tables = iconv_tables() if source == "iconv" else charmap_tables()
    check(tables)
    return tables


def pages_of(tables):
    r"""For each page what `\S\c` gives, a list over the 256 bytes c."""
    pages = []
    for table in tables:
        page = []
        for c in range(256):
            code = c + 128                          # 01: "`\S\c` code c+128"
            if code in CODES:
                # 02: the page's table, "undefined codes giving U+FFFD".
                page.append(table.get(code, REPLACEMENT))
            else:
                # 02: "sums outside A0 to FF stay as before".
                page.append(chr(code).encode("utf-8"))
        pages.append(page)
    return pages


# ---------------------------------------------------------------------------
# The decoder.
# ---------------------------------------------------------------------------

# Bytes that stand for themselves: below 80, neither quote nor backslash.
ORDINARY = re.compile(rb"[\x00-\x26\x28-\x5b\x5d-\x7f]+")
NOT_PLAIN = re.compile(rb"[\x27\x5c\x80-\xff]")
HEX_DIGITS = re.compile(rb"[0-9A-Fa-f]*")

# RFC 3629, section 4: UTF8-2, UTF8-3 and UTF8-4.
UTF8_SEQUENCE = re.compile(
    rb"[\xc2-\xdf][\x80-\xbf]"
    rb"|\xe0[\xa0-\xbf][\x80-\xbf]"
    rb"|[\xe1-\xec][\x80-\xbf]{2}"
    rb"|\xed[\x80-\x9f][\x80-\xbf]"
    rb"|[\xee\xef][\x80-\xbf]{2}"
    rb"|\xf0[\x90-\xbf][\x80-\xbf]{2}"
    rb"|[\xf1-\xf3][\x80-\xbf]{3}"
    rb"|\xf4[\x80-\x8f][\x80-\xbf]{2}")

# 02: "letters in either case".
PAGE_NUMBER = {}
for _number, _letter in enumerate(LETTERS):
    PAGE_NUMBER[ord(_letter)] = _number
    PAGE_NUMBER[ord(_letter.lower())] = _number


def whole_groups(raw, at, width):
    """The numbers of the whole groups of hex digits that begin at `at`, and
    the place behind the last of them."""
    digits = HEX_DIGITS.match(raw, at).end() - at
    count = digits // width
    end = at + count * width
    octets = binascii.unhexlify(raw[at:end])
    return struct.unpack(">%d%s" % (count, "H" if width == 4 else "I"), octets), end


def behind_groups(raw, at, width):
    """Where reading goes on when no whole group of digits begins at `at`;
    None where a bad group does."""
    length = len(raw)
    if at == length:
        return at                                   # 01: "up to the end"
    if raw[at] == BACKSLASH:                        # 01: "or a backslash at a group's start"
        if raw.startswith(b"\\X0", at):
            # 01: "a `\X0` there is eaten with the byte after it".
            return min(at + 4, length)
        return at                                   # 01: "another directive is read as such"
    if length - at < width:
        return at                                   # OP: cut short, "read on as ordinary text"
    return None


def two_octet_text(codes):
    r"""01: the text of `\X2\` groups, and whether all of them are good."""
    out = bytearray()
    count = len(codes)
    k = 0
    while k < count:
        code = codes[k]
        k += 1
        if 0xD800 <= code <= 0xDBFF:
            if k == count:
                # 01: "a high one not followed by four hex digits is a bad group".
                return out, False
            second = codes[k]
            k += 1
            if 0xDC00 <= second <= 0xDFFF:
                # 01: "a high and a low surrogate join".
                code = 0x10000 + ((code - 0xD800) << 10) + (second - 0xDC00)
                out += chr(code).encode("utf-8")
            else:
                # 01: U+FFFD, "a high one together with its second group".
                out += REPLACEMENT
        elif 0xDC00 <= code <= 0xDFFF:
            out += REPLACEMENT                      # 01: "other surrogates .. give U+FFFD"
        else:
            out += chr(code).encode("utf-8")
    return out, True


def four_octet_text(codes):
    r"""01: the text of `\X4\` groups; none of whole hex digits is bad."""
    out = bytearray()
    for code in codes:
        if code > 0x10FFFF or 0xD800 <= code <= 0xDFFF:
            out += REPLACEMENT                      # 01: "and codes above 10FFFF give U+FFFD"
        else:
            out += chr(code).encode("utf-8")
    return out, True


def text_of(raw, pages):
    """The text, in UTF-8, of a string's bytes (what lies between its quotes)."""
    out = bytearray()
    length = len(raw)
    page = pages[0]                                 # 02: "a fresh string, means page A"
    i = 0
    while i < length:
        run = ORDINARY.match(raw, i)
        if run is not None:
            out += run.group()
            i = run.end()
            continue
        byte = raw[i]

        if byte == QUOTE:
            # 01: "`''` gives a quote".  OP: `'a'b` has the text `a'`, so a lone
            # quote stands for itself.
            out.append(QUOTE)
            i += 2 if raw.startswith(b"''", i) else 1

        elif byte >= 0x80:
            # 01: "Raw bytes from 80 up: a valid UTF-8 sequence, else Latin-1".
            sequence = UTF8_SEQUENCE.match(raw, i)
            if sequence is not None:
                out += sequence.group()
                i = sequence.end()
            else:
                out += chr(byte).encode("utf-8")
                i += 1

        elif raw.startswith(b"\\\\", i):            # 01: "`\\` a backslash"
            out.append(BACKSLASH)
            i += 2

        elif raw.startswith(b"\\N\\", i):           # 01: "`\N\` LF"
            out.append(0x0A)
            i += 3

        elif raw.startswith(b"\\T\\", i):           # 01: "`\T\` tab"
            out.append(0x09)
            i += 3

        elif raw.startswith(b"\\P", i) and i + 3 < length and raw[i + 3] == BACKSLASH:
            # 01: "`\P?\` nothing".  02: it holds for "every later `\S\` in that
            # string"; "any other byte .. means page A".  OP: "takes any byte", a
            # backslash too.
            page = pages[PAGE_NUMBER.get(raw[i + 2], 0)]
            i += 4

        elif raw.startswith(b"\\S\\", i) and i + 3 < length:
            # 01: "`\S\c` code c+128".  OP: it takes one byte, whatever it is.
            out += page[raw[i + 3]]
            i += 4

        elif (raw.startswith(b"\\X\\", i)
              and HEX_DIGITS.match(raw, i + 3, i + 5).end() == i + 5):
            # 01: "`\X\HH` one octet"; by example 7 the code point of that number.
            out += chr(int(raw[i + 3:i + 5], 16)).encode("utf-8")
            i += 5

        elif raw.startswith((b"\\X2\\", b"\\X4\\"), i):
            # 01: "`\X2\` groups of four and `\X4\` of eight hex digits".
            if raw[i + 2] == ord("2"):
                width, text_of_groups = 4, two_octet_text
            else:
                width, text_of_groups = 8, four_octet_text
            codes, behind = whole_groups(raw, i + 4, width)
            text, good = text_of_groups(codes)
            out += text
            place = behind_groups(raw, behind, width) if good else None
            if place is not None:
                i = place
            else:
                # 01: "A bad group gives the characters already read, then a
                # literal backslash, and reading goes on after the directive's
                # first byte".  OP: it "changes no page".
                out.append(BACKSLASH)
                i += 1

        else:
            # 01: "An unknown directive is a literal backslash".
            out.append(BACKSLASH)
            i += 1
    return bytes(out)


_default_pages = None


def decode(raw: bytes) -> str:
    """The text of a string's bytes, with the tables of the C library's iconv."""
    global _default_pages
    if _default_pages is None:
        _default_pages = pages_of(tables_of("iconv"))
    return text_of(raw, _default_pages).decode("utf-8")


# ---------------------------------------------------------------------------
# The commands.
# ---------------------------------------------------------------------------

def run_decode(source):
    pages = pages_of(tables_of(source))
    write = sys.stdout.buffer.write
    for number, line in enumerate(sys.stdin.buffer, 1):
        if line.endswith(b"\n"):
            line = line[:-1]
        room, colon, digits = line.rpartition(b":")
        try:
            raw = binascii.unhexlify(digits)
        except binascii.Error:
            raw = None
        if raw is None or (colon and not room.isdigit()):
            sys.stdout.flush()
            print("line %d is not HEX or ROOM:HEX: %r" % (number, line[:60]), file=sys.stderr)
            return 2
        # 01: "If no quote, backslash or high byte occurs, the text shown is
        # that part of the file; otherwise a part of the lent output."
        if NOT_PLAIN.search(raw) is None:
            write(b"plain %s\n" % binascii.hexlify(raw))
            continue
        text = text_of(raw, pages)
        # 01: "16 exactly when a text of this second kind is longer than the
        # output".  Thirty digits are more room than any text needs.
        if colon and len(text) > int(room.lstrip(b"0")[:30] or b"0"):
            write(b"16\n")
        else:
            write(b"text %s\n" % binascii.hexlify(text))
    return 0


def run_tables(source):
    tables = tables_of(source)
    for letter, table in zip(LETTERS, tables):
        for code in CODES:
            string = b"\\P%c\\\\S\\%c" % (ord(letter), code - 128)
            print(string.hex(), table.get(code, REPLACEMENT).hex())
    return 0


def c_library_version():
    """The C library's name and version, as far as it tells them."""
    try:
        tell = ctypes.CDLL(None).gnu_get_libc_version
    except AttributeError:
        return " ".join(platform.libc_ver()).strip() or "of unknown name and version"
    tell.argtypes = []
    tell.restype = ctypes.c_char_p
    return "GNU libc " + tell().decode("ascii")


def package_version():
    """The version of Debian's package with the charmaps, if dpkg-query tells it."""
    try:
        answer = subprocess.run(
            ["dpkg-query", "-W", "-f", "${db:Status-Status} ${Version}", CHARMAPS_PACKAGE],
            stdout=subprocess.PIPE, stderr=subprocess.DEVNULL, check=True)
    except (OSError, subprocess.CalledProcessError):
        return "version not told"
    status, _, version = answer.stdout.decode("ascii", "replace").partition(" ")
    return "version " + version if status == "installed" else "version not told"


def run_source(source):
    tables_of(source)                               # says so if it is missing
    if source == "iconv":
        print("iconv of the C library, %s, pages %s to UTF-8"
              % (c_library_version(), " ".join(NAMES)))
    else:
        print("charmaps in %s, Debian package %s %s, files %s"
              % (CHARMAPS, CHARMAPS_PACKAGE, package_version(),
                 " ".join(name + ".gz" for name in NAMES)))
    return 0


def shown(text):
    return "undefined" if text is None else "U+%04X" % ord(text.decode("utf-8"))


def run_differ():
    by_iconv = tables_of("iconv")
    by_charmaps = tables_of("charmaps")
    differences = [(letter, code, one.get(code), other.get(code))
                   for letter, one, other in zip(LETTERS, by_iconv, by_charmaps)
                   for code in CODES if one.get(code) != other.get(code)]
    print("%d of %d codes differ" % (len(differences), len(LETTERS) * len(CODES)))
    for letter, code, one, other in differences:
        print("page %s code %02X: iconv %s, charmaps %s" % (letter, code, shown(one), shown(other)))
    for letter, name, one, other in zip(LETTERS, NAMES, by_iconv, by_charmaps):
        print("page %s %s undefined: iconv %d, charmaps %d"
              % (letter, name, len(CODES) - len(one), len(CODES) - len(other)))
    return 0


def main():
    parser = argparse.ArgumentParser(
        description="A second decoder of STEP string contents, from the papers alone.")
    parser.add_argument("--source", choices=["iconv", "charmaps"],
                        help="where the nine tables come from (default: iconv)")
    parser.add_argument("command", choices=["decode", "tables", "source", "differ"])
    options = parser.parse_args()
    if options.command == "differ" and options.source is not None:
        parser.error("differ compares both sources and takes no --source")
    source = options.source or "iconv"
    try:
        if options.command == "decode":
            return run_decode(source)
        if options.command == "tables":
            return run_tables(source)
        if options.command == "source":
            return run_source(source)
        return run_differ()
    except SourceError as fault:
        print("pages.py: %s" % fault, file=sys.stderr)
        return 2


if __name__ == "__main__":
    sys.exit(main())
