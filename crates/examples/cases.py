#!/usr/bin/env python3
"""Writes `stdin`, the cases, and `stdout`, the answers that documents 01 and 02 ask for.

Nothing here is taken from the code. What a literal stands for is what Python's own reader makes of it, where the documents take
the literal at all: a pattern for each edition has what may follow a backslash. That of edition 1 has the digits too, and edition 2
leaves them to Python, which also knows which code points there are. Edition 1's `\\0` is the one place where both take a literal and
differ: it is given to Python as `\\x00`. Edition 2 takes no other byte after a backslash, neither `N` nor a line's end, no surrogate, and
in `b` no octal above 377, all of which Python takes. Lines, fields and numbers are split and read by Python's means. What is UTF-8,
where a text is bad, and lossy text, is what Python's own decoder says.
"""
import ast
import os
import re

WHITE = "\u0009-\u000d\u0020\u0085\u00a0\u1680\u2000-\u200a\u2028\u2029\u202f\u205f\u3000"

# By edition, what may follow a backslash in any literal, and what else in a string. Of an octal above 377 in `b` Python takes the low byte.
ESCAPES = {
    1: (rb"[ntr\\'\"0]|x[0-9a-fA-F]{2}", rb"|u(?![dD][89a-fA-F])[0-9a-fA-F]{4}"),
    2: (rb"[ntr\\'\"abfvx]|(?![4-7][0-7]{2})[0-7]", rb"|[uU4-7]"),
}


def literal(text, edition):
    """The bytes of a literal of an edition, or None."""
    prefix, quoted = (b"b", text[1:]) if text[:1] == b"b" else (b"", text)
    if len(quoted) < 2 or quoted[:1] not in (b"'", b'"') or quoted[:1] != quoted[-1:]:
        return None
    quote, inner = quoted[:1], quoted[1:-1]
    plain = rb"[^\\" + quote + (rb"\x80-\xff]" if prefix else rb"]")
    either, string = ESCAPES[edition]
    if not re.fullmatch(rb"(?s:" + plain + rb"|\\(?:" + either + (rb"" if prefix else string) + rb"))*", inner):
        return None
    # raw CR, LF and NUL stand for themselves here, which Python's reader takes only escaped
    for raw, escape in ((b"\r", rb"\r"), (b"\n", rb"\n"), (b"\0", rb"\x00")):
        inner = inner.replace(raw, escape)
    if edition == 1:
        inner = re.sub(rb"(?s)\\(.)", lambda m: rb"\x00" if m[1] == b"0" else m[0], inner)
    try:
        value = ast.literal_eval((prefix + quote + inner + quote).decode("utf-8"))
        return value if prefix else value.encode("utf-8")
    except (SyntaxError, UnicodeEncodeError):
        if edition == 1:
            raise
        return None  # too few digits, above 10FFFF; a surrogate


def lines(text):
    ended = text.split(b"\n")
    last = ended.pop()
    found = [re.sub(rb"\r{1,2}\Z", b"", line) for line in ended]
    return found + ([re.sub(rb"\r\Z", b"", last)] if last else [])


def fields(line):
    """Three parts, or the refusal's number."""
    try:
        if re.fullmatch("[%s]*" % WHITE, line.decode("utf-8")):
            return 3
    except UnicodeDecodeError:
        pass
    if b" " not in line:
        return 4
    first, last = line.index(b" "), line.rindex(b" ")
    if first == 0 or last <= first + 1 or last == len(line) - 1:
        return 5
    return [line[:first], line[first + 1:last], line[last + 1:]]


def number(text, limit):
    if not re.fullmatch(rb"[0-9]+", text) or int(text) > limit:
        return None
    return int(text)


def hex_digit(byte):
    """The value of a hexadecimal digit, or None."""
    try:
        return int(bytes([byte]), 16)
    except ValueError:
        return None


def shown(parts):
    return "".join("[%s]" % part.hex() for part in parts)


def good(text):
    """How many bytes stand before the first that is not UTF-8."""
    try:
        text.decode("utf-8")
        return len(text)
    except UnicodeDecodeError as error:
        return error.start


def runs(start):
    """Each run of last bytes after `start` that give the same."""
    found = []
    for last in range(256):
        n = good(start + bytes([last]))
        if found and found[-1][1] == n:
            found[-1][0][1] = last
        else:
            found.append(([last, last], n))
    return "".join("%s%d" % (shown([bytes(ends)]), n) for ends, n in found)


def before_lines(short, edition, text):
    """What a load refuses before any line: 34 (document 02, W-205), 1, or 2 at the first bad byte (W-206)."""
    if edition not in (1, 2):
        return "refused 34"
    if short:
        return "refused 1"
    return "refused 2 at %d" % good(text) if good(text) < len(text) else "read on"


V = {1: b"a", 2: b"b", 3: b"ab", 4: b"abcd", 5: b"bc"}
EACH = {byte: bytes([byte]) for byte in range(256)}


def decoded(kind, tokens, cells, ids):
    """The bytes that a decoding leaves in the output, and its refusal."""
    out = b""
    for index, i in enumerate(ids):
        if i not in tokens:
            return (b"" if kind == "Y" else out), " refused 27 at %d id %d" % (index, i)
        if kind != "Y" and len(out + tokens[i]) > cells:
            return out, " refused 28 at %d" % index
        out += tokens[i]
    if kind == "X" and good(out) < len(out):
        return out, " refused 29 at %d" % good(out)
    if kind == "Y":
        text = out.decode("utf-8", "replace").encode("utf-8")
        return (b"", " refused 28 at %d" % len(ids)) if len(text) > cells else (text, "")
    return out, ""


def decoding(kind, case):
    memory, cells = case[:2]
    if memory == 1:
        return "refused 1 " + shown([b"." * cells])
    ids = [int.from_bytes(case[at:at + 3], "big") for at in range(2, len(case), 3)]
    out, refusal = decoded(kind, EACH if memory else V, cells, ids)
    return "%d%s %s" % (len(out), refusal, shown([out.ljust(cells, b".")]))


def answer(kind, case):
    if kind == "U":
        return str(good(case))
    if kind == "S":
        return runs(case)
    if kind == "B":
        return before_lines(case[0], case[1], case[2:])
    if kind in "DXY":
        return decoding(kind, case)
    if kind in "LM":
        value = literal(case, 1 if kind == "L" else 2)
        return "refused 12" if value is None else shown([value])
    if kind == "F":
        value = fields(case)
        return "refused %d" % value if isinstance(value, int) else shown(value)
    if kind == "T":
        return shown(lines(case))
    if kind == "H":
        value = hex_digit(case[0])
        return "none" if value is None else str(value)
    value = number(case, 2**32 - 1 if kind == "I" else 2**64 - 1)
    return "refused %d" % (6 if kind == "I" else 11) if value is None else str(value)


def joined(parts, most):
    """The parts one after the other, as many in each as go into so many bytes."""
    made = b""
    for part in parts:
        if len(made + part) > most:
            yield made
            made = b""
        made += part
    yield made


def literals_of_edition_2():
    # document 02's examples, and what stays bad
    for text in (rb"'\01'", rb"'\a\b\f\v'", rb"b'\a\b\f\v'", rb"'\0012'", rb"'\08'", rb"'\8'", rb"'\400'", rb"b'\400'", rb"'\ud800'",
                 rb"b'\u0041'", rb"'\N{DIGIT ONE}'", b"'\\\n'", b"'\\\r\n'", b"'a\\'", b"'a''b'", rb"'\x80\u20ac'", "'é\\0€'".encode()):
        yield "M", text
    # every byte after a backslash; in a string, of those that no text has there, three
    for byte in range(256):
        yield "M", b"b'\\" + bytes([byte]) + b"'"
        if byte < 0x80 or byte in (0x80, 0xc3, 0xff):
            yield "M", b"'\\" + bytes([byte]) + b"'"
    # all octals of one to three digits; those that a byte can't hold alone in `b`, every seventh
    for digits in (1, 2, 3):
        octals = [b"\\%0*o" % (digits, value) for value in range(8 ** digits)]
        for inner in joined(octals, 62):
            yield "M", b"'" + inner + b"'"
        for inner in joined(octals[:256], 61):
            yield "M", b"b'" + inner + b"'"
        for octal in octals[256::7] + octals[511:]:
            yield "M", b"b'" + octal + b"'"
    # octals followed by what ends them: an octal digit after three, other digits, letters, an escape
    for prefix in (b"", b"b"):
        for after in (b"0", b"7", b"8", b"9", b"a", b"f", rb"\1", rb"\n", b"\0"):
            yield "M", prefix + b"'" + b"".join(octal + after for octal in (rb"\1", rb"\12", rb"\123", rb"\0", rb"\00", rb"\377")) + b"'"
    # the edges of the code points, with digits in either case; too few digits, one more, a bad one, none; and in `b`
    for point in (0, 0x7f, 0x80, 0x7ff, 0x800, 0xd7ff, 0xd800, 0xdfff, 0xe000, 0xffff, 0x10000, 0x10ffff, 0x110000, 0xffffffff):
        for digits in sorted({b"%08x" % point, b"%08X" % point}):
            yield "M", b"'\\U" + digits + b"'"
    for text in (rb"'\U0010fff'", rb"'\U0010ffff0'", rb"'\U0010FFFG'", rb"'\Ug010ffff'", rb"'\U'", rb"'\U0000d7ff\U0000e000'",
                 rb"b'\U00000041'", rb"b'\U0010ffff'", rb"b'\U'"):
        yield "M", text


def cases():
    # document 01's examples
    for text in (rb"'\x80'", rb"b'\x80'", rb"'\01'", rb"'\ud800'", rb"b'\u0041'", b"'a\\'"):
        yield "L", text
    for text in (b"1 ' ' 1", b"1 'a'  1", b"1 'a'", b"+1 'a' 1", b"1 'a' 1"):
        yield "F", text
    for text in (b"'a' ", b"' '", b"'a'"):
        yield "L", text
    for text in (b"+1", b"65535", b"65536", b"4294967295", b"4294967296"):
        yield "I", text
    # every byte after a backslash, in both kinds of literal, with digits behind it and with nothing
    for prefix in (b"", b"b"):
        for byte in range(128):
            yield "L", prefix + b"'\\" + bytes([byte]) + b"e9A0'"
            yield "L", prefix + b'"\\' + bytes([byte]) + b'"'
    for byte in range(128, 256):
        yield "L", b"b'\\" + bytes([byte]) + b"'"
    # quotes
    for text in (b"", b"'", b'"', b"b", b"b'", b"''", b'""', b"b''", b"'a\"", b"\"a'", b"'''", b"'a'b'", b"'a\"b'", b"bb'a'", b"B'a'",
                 b"u'a'",
                 b" 'a'", b"'a' ", b"'\\'", b"'\\\\'", b"'\\''", b"'\r'", b"'\0'", b"'\n'", b"'\x7f'", b"b'\x7f'", b"b'\x80'"):
        yield "L", text
    # the edges of the code points
    for digits in ("0000", "007f", "0080", "07ff", "0800", "d7ff", "d800", "DBFF", "dC00", "dfff", "e000", "ffff", "00g0", "fff"):
        yield "L", ("'\\u%s'" % digits).encode()
    for digits in ("00", "7f", "80", "ff", "FF", "fF", "g0", "0g", "f", ""):
        yield "L", ("'\\x%s'" % digits).encode()
        yield "L", ("b'\\x%s'" % digits).encode()
    # every byte as a hexadecimal digit, alone and at each place behind `x`
    for byte in range(256):
        yield "H", bytes([byte])
        yield "L", b"b'\\x" + bytes([byte]) + b"0'"
        yield "L", b"b'\\x0" + bytes([byte]) + b"'"
    for text in ("é", "€", "𝄞", "é\\n€"):
        yield "L", ("'%s'" % text).encode()
    yield from literals_of_edition_2()
    # none, one, two, three CR, with and without LF
    for end in (b"", b"\n"):
        for crs in range(4):
            for line in (b"", b"a"):
                yield "T", line + b"\r" * crs + end
                yield "T", line + b"\r" * crs + end + b"b"
    for text in (b"\n\n", b"a\n\nb\n", b"\r\n\r\r\n\r\r\r\n", b"a\rb\n", b"\ra"):
        yield "T", text
    # the places of the spaces, and blank lines with each end of the White_Space ranges and its neighbours
    for text in (b"1", b" 1 2", b"1 2", b"1  2", b"1 x 2", b"1 x 2 ", b"1 x y 2", b"1\tx\t2", b" ", b"  "):
        yield "F", text
    for low, high in ((0x9, 0xd), (0x20, 0x20), (0x85, 0x85), (0xa0, 0xa0), (0x1680, 0x1680), (0x2000, 0x200a), (0x2028, 0x2029),
                      (0x202f, 0x202f), (0x205f, 0x205f), (0x3000, 0x3000)):
        for point in (low - 1, low, high, high + 1):
            yield "F", chr(point).encode()
            yield "F", (chr(point) * 2).encode()
    yield "F", b"\xc2"
    # numbers
    for text in (b"", b"0", b"00", b"007", b"-1", b"1 ", b" 1", b"1_0", b"0x1", b"/", b":", b"\xd9\xa1", b"0" * 30 + b"9", b"9" * 30,
                 b"4294967294", b"18446744073709551614", b"18446744073709551615", b"18446744073709551616", b"99999999999999999999"):
        yield "I", text
        yield "N", text


    # UTF-8: all two-byte sequences by their first byte, and the edges of three- and four-byte ones
    edges = (0x7f, 0x80, 0x8f, 0x90, 0x9f, 0xa0, 0xbf, 0xc0)
    for byte in range(256):
        yield "S", bytes([byte])
    for lead in range(0xe0, 0xf0):
        for second in edges:
            yield "S", bytes([lead, second])
    for lead in (0xf0, 0xf1, 0xf3, 0xf4, 0xf5, 0xf8):
        for second in edges:
            for third in (0x7f, 0x80, 0xbf, 0xc0):
                yield "S", bytes([lead, second, third])
    for text in (b"", b"ab", b"ab\xff", b"\x80", b"\xc0\x80", b"\xe0\x80\x80", b"\xf0\x80\x80\x80", b"\xed\xa0\x80\xed\xb0\x80",
                 b"\xf4\x90\x80\x80", b"a\xe2\x82b", b"\xf0\x9f\x98\x80x\x80"):
        yield "U", text
    for end in range(1, 11):
        yield "U", "é€𝄞a".encode()[:end]
    # texts with one bad place, two, or none: at the start, within lines, at the end, and with memory too short for any of them
    bad = (b"\x80", b"\xbf", b"\xc0\xaf", b"\xc1", b"\xc3", b"\xe0\x9f\xbf", b"\xe2", b"\xe2\x82", b"\xed\xa0\x80", b"\xef\xbf",
           b"\xf0\x8f\xbf\xbf", b"\xf0\x9f", b"\xf0\x9f\x98", b"\xf4\x90\x80\x80", b"\xf5\x80", b"\xfe", b"\xff")
    texts = [b"", b"A\xc3\xa9\xffA\x80", b"A\xe2\x82", b"\xe2\x82A", b"1 'a' 1\n", "1 'é€𝄞' 9\n".encode(),
             b"1 '\xe2\n\x82\xac' 3", b"\r\xff\n"]
    for part in bad:
        texts += [part, b"1 'a' 1\n2 '" + part, b"1 '" + part + b"' 1\n2 '" + part + b"' 1\n", "1 'é€𝄞".encode() + part + b"\xff' 1\n"]
    texts += ["é".encode() + first + second + b"a\xff" for first in bad for second in bad]
    for text in texts:
        yield "B", b"\0\1" + text
    for text in (b"1 'a' 1\n", b"\xff", b"A\xe2\x82"):
        yield "B", b"\1\1" + text
    # every sort of edition, with memory enough and too short, and texts that are good, bad and empty
    for edition in (0, 1, 2, 3, 255):
        for short in (0, 1):
            for text in (b"1 'a' 1\n", b"A\xff", b""):
                yield "B", bytes([short, edition]) + text
    # document 01's decodings, and number 1
    def ids(memory, cells, *numbers):
        return bytes([memory, cells]) + b"".join(i.to_bytes(3, "big") for i in numbers)
    for kind in "DXY":
        for numbers in ((4, 1), (3, 0), (6,), (65536,), (), (5, 65535, 4), (16777215,)):
            yield kind, ids(0, 8, *numbers)
        yield kind, ids(1, 8, 4, 1)
    # outputs of every size: V's bytes, V's bytes before an id that is absent, text, and what is not UTF-8 (Unicode, table 3-8)
    for kind in "DXY":
        for memory, full, numbers in ((0, 9, (3, 4, 1, 5)), (0, 6, (3, 4, 0)), (2, 9, "é€𝄞".encode()), (2, 3, (0, 255, 256)),
                                      (2, 22, b"a\xf1\x80\x80\xe1\x80\xc2b\x80c\x80\xbfd"), (2, 7, b"\xc3a\xf0\x9f\x98")):
            for cells in range(full + 2):
                yield kind, ids(memory, cells, *numbers)


def main():
    here = os.path.dirname(os.path.abspath(__file__))
    with open(os.path.join(here, "stdin"), "w") as given, open(os.path.join(here, "stdout"), "w") as wanted:
        for kind, case in cases():
            assert len(case) <= 64, "main.rt has room for 64 bytes of a case"
            given.write("%s %s\n" % (kind, case.hex()))
            wanted.write("%s %s: %s\n" % (kind, case.hex(), answer(kind, case)))
        assert given.tell() < 65536, "main.rt has room for 65536 bytes of cases"


main()
