"""Templates, record files and values to compare on, and cases worked out by hand.

The cases by hand test the second implementation of the rules before anything is compared.
"""

import random
import sys
from typing import NamedTuple

from second import (DIGITS, HOSTS, LOWER, MAX_VALUE, Csv, Refused, Shell, Sql, check, shown_plan,
                    walk)


# ---- Cases worked out by hand ----------------------------------------------------------

# Template, holes and tokens.
ACCEPTED_BY_HAND = {
    "shell": [
        (b"", [], []),
        (b" \t@t", [], []),
        (b"ls -l", [], [(1, b"ls"), (1, b"-l")]),
        (b"a;b&&c|d>e@n", [], [(1, b"a"), (2, b";"), (1, b"b"), (2, b"&"), (2, b"&"), (1, b"c"),
                               (2, b"|"), (1, b"d"), (2, b">"), (1, b"e"), (2, b"\\x0a")]),
        (b"(2>f)", [], [(2, b"("), (1, b"2"), (2, b">"), (1, b"f"), (2, b")")]),
        (b"a#b]{}!=@@", [], [(1, b"a#b]{}!=@@")]),
        (b"''", [], [(1, b"")]),
        (b"'' \"\"", [], [(1, b""), (1, b"")]),
        (b"a'b c'\"d e\"f", [], [(1, b"ab cd ef")]),
        (b"'a\"$`\\\n'", [], [(1, b"a\\x22$`\\x5c\\x0a")]),
        (b"'a''b'", [], [(1, b"ab")]),
        (b"'a'\\''b'", [], [(1, b"a'b")]),
        (b"\"\\$\\`\\\"\\\\'\"", [], [(1, b"$`\\x22\\x5c'")]),
        (b"\"a\\\nb\"", [], [(1, b"ab")]),
        (b"\\$\\ a\\#", [], [(1, b"$ a#")]),
        (b"\\\n", [], []),
        (b"a\\\n#b", [], [(1, b"a#b")]),
        (b"a \\\nb", [], [(1, b"a"), (1, b"b")]),
        (b"\xc3\xa9\\\x01'\x7f'", [], [(1, b"\\xc3\\xa9\\x01\\x7f")]),
        (b"echo @{a}", [(b"a", 5, 4)], [(1, b"echo"), (1, b"@{a}")]),
        (b"@{a}@{b}", [(b"a", 0, 4), (b"b", 4, 4)], [(1, b"@{a}@{b}")]),
        (b"x@{a}y;@{b}", [(b"a", 1, 4), (b"b", 7, 4)], [(1, b"x@{a}y"), (2, b";"), (1, b"@{b}")]),
        (b"'@{a}'\"@{b}\"", [(b"a", 1, 4), (b"b", 7, 5)], [(1, b"@{a}@{b}")]),
        (b"@{a}#", [(b"a", 0, 4)], [(1, b"@{a}#")]),
        (b"a" * 3584, [], [(1, b"a" * 3584)]),
    ],
    "sql": [
        (b"", [], []),
        (b"'a'b", [], [(2, b"a"), (1, b"b")]),
        (b"''''", [], [(2, b"'")]),
        (b"'@@@n@r@t'", [], [(2, b"@@\\x0a\\x0d\\x09")]),
        (b"@t@r@nf(x)", [], [(1, b"f"), (3, b"("), (1, b"x"), (3, b")")]),
        (b"a.b<>1E5", [], [(1, b"a.b"), (3, b"<"), (3, b">"), (1, b"1E5")]),
        (b"@{a}'@{b}'", [(b"a", 0, 2), (b"b", 5, 2)], [(2, b"@{a}'@{b}")]),
        (b"v = '@{a}'", [(b"a", 5, 2)], [(1, b"v"), (3, b"="), (2, b"@{a}")]),
        (b"@{a},@{a}", [(b"a", 0, 2), (b"a", 5, 2)], [(2, b"@{a}"), (3, b","), (2, b"@{a}")]),
        (b"'@{a_9}@{b}'", [(b"a_9", 1, 2), (b"b", 7, 2)], [(2, b"@{a_9}@{b}")]),
        (b"a" * 3584, [], [(1, b"a" * 3584)]),
    ],
    "csv": [
        (b"", [], []),
        (b"a,b", [], [(1, b"a"), (1, b"b"), (2, b"")]),
        (b"a,b\r\n", [], [(1, b"a"), (1, b"b"), (2, b"")]),
        (b"a@r@nb", [], [(1, b"a"), (2, b""), (1, b"b"), (2, b"")]),
        (b"\r\n", [], [(1, b""), (2, b"")]),
        (b",", [], [(1, b""), (1, b""), (2, b"")]),
        (b"a,\r\n,b", [], [(1, b"a"), (1, b""), (2, b""), (1, b""), (1, b"b"), (2, b"")]),
        (b'""', [], [(1, b""), (2, b"")]),
        (b'"a""b",c', [], [(1, b"a\\x22b"), (1, b"c"), (2, b"")]),
        (b'"a,\r\n"\r\n', [], [(1, b"a,\\x0d\\x0a"), (2, b"")]),
        (b" a'b;=@@~", [], [(1, b" a'b;=@@~"), (2, b"")]),
        (b"@{a}", [(b"a", 0, 3)], [(1, b"@{a}"), (2, b"")]),
        (b"@{a},@{b}\r\n@{c}", [(b"a", 0, 3), (b"b", 5, 3), (b"c", 11, 3)],
         [(1, b"@{a}"), (1, b"@{b}"), (2, b""), (1, b"@{c}"), (2, b"")]),
        (b'"a@{v}"', [(b"v", 2, 3)], [(1, b"a@{v}"), (2, b"")]),
        (b"a@{v}@{w}b", [(b"v", 1, 2), (b"w", 5, 2)], [(1, b"a@{v}@{w}b"), (2, b"")]),
        (b'@{a}""', [(b"a", 0, 3)], [(1, b"@{a}\\x22"), (2, b"")]),
        (b'@{a}"b"', [(b"a", 0, 3)], [(1, b"@{a}\\x22b"), (2, b"")]),
        (b"a" * 3584, [], [(1, b"a" * 3584), (2, b"")]),
    ],
}

# Template, number and place.
REFUSED_BY_HAND = {
    "shell": [
        (b"a" * 3585, 1, 3584),
        (b"a@", 2, 1),
        (b"@{a", 3, 3),
        (b"@{a}" * 65, 5, 256),
        (b"#a", 6, 0),
        (b"a #", 6, 2),
        (b"a;#", 6, 2),
        (b"\\\n#", 6, 2),
        (b"a<b", 6, 1),
        (b"$a", 6, 0),
        (b"a`", 6, 1),
        (b"*", 6, 0),
        (b"a?", 6, 1),
        (b"a[", 6, 1),
        (b"~", 6, 0),
        (b"a~", 6, 1),
        (b"@r", 6, 0),
        (b"a\x7f", 6, 1),
        (b"'\x00'", 6, 1),
        (b"\\\x00", 6, 1),
        (b"\"$\"", 6, 1),
        (b"\"a`\"", 6, 2),
        (b"\"\\a\"", 6, 2),
        (b"\"\\'\"", 6, 2),
        (b"\\@{a}", 7, 1),
        (b"a\\@{a}", 7, 2),
        (b"\"\\@{a}\"", 7, 2),
        (b"a'", 8, 2),
        (b"\"@{a}", 8, 5),
        (b"a\\", 8, 2),
        (b"\\", 8, 1),
        (b"\"\\", 8, 2),
        (b"'a\\'b'", 8, 6),
        (b"'''", 8, 3),
    ],
    "sql": [
        (b"a" * 3585, 1, 3584),
        (b"\x00" + b"a" * 3584, 1, 3584),
        (b"a @x", 2, 2),
        (b"a @", 2, 2),
        (b"a@@@", 6, 1),
        (b"'@@@", 2, 3),
        (b"@{", 3, 2),
        (b"@{}", 3, 2),
        (b"@{9}", 3, 2),
        (b"@{aB}", 3, 3),
        (b"@{abc", 3, 5),
        (b"@{" + b"a" * 17 + b"}", 3, 18),
        (b"@{" + b"a" * 16, 3, 18),
        (b"a@{B}", 3, 3),
        (b"@{a}," * 65, 5, 320),
        (b"@{a}," * 64 + b"@{A}", 3, 322),
        (b"@{a}," * 64 + b"a@{a}", 5, 321),
        (b"a'b'", 6, 1),
        (b"a - b", 6, 2),
        (b"'\x00'", 6, 1),
        (b"@@", 6, 0),
        (b"@{a}@{b}", 7, 4),
        (b"a@{b}", 7, 1),
        (b"''@{b}", 7, 2),
        (b"'a", 8, 2),
        (b"'@{a}", 8, 5),
    ],
    "csv": [
        (b"a" * 3585, 1, 3584),
        (b"a,@", 2, 2),
        (b"@{_}", 3, 2),
        (b"@{a}," * 65, 5, 320),
        (b"a" + b"@{a}" * 65, 5, 257),
        (b"@{v}a", 6, 4),
        (b'a"', 6, 1),
        (b'""a', 6, 2),
        (b'"" ', 6, 2),
        (b"a\n", 6, 1),
        (b"\n", 6, 0),
        (b"a@n", 6, 1),
        (b"a\rb", 6, 2),
        (b"\r\r", 6, 1),
        (b"a@t", 6, 1),
        (b'"@t"', 6, 1),
        (b"\x00", 6, 0),
        (b"\x7f", 6, 0),
        (b"\xc3\xa9", 6, 0),
        (b'"\xc3\xa9"', 6, 1),
        (b"@{a}@{b}", 7, 4),
        (b'""@{b}', 7, 2),
        (b"\r@{b}", 7, 1),
        (b'"a', 8, 2),
        (b'"""', 8, 3),
        (b'"@{a}', 8, 5),
        (b"a\r", 8, 2),
    ],
}


def verdict(host, template):
    """The holes and the tokens of the plan, or the number and the place of the refusal."""
    try:
        taken = check(host, template)
    except Refused as refused:
        return refused.number, refused.place
    return taken.holes, shown_plan(taken)


def test_rules():
    def compare(name, template, got, wanted):
        if got != wanted:
            sys.exit(f"own rules of {name} are wrong on {template!r}: {got}, not {wanted}")

    for name, host in HOSTS.items():
        for template, *wanted in ACCEPTED_BY_HAND[name] + REFUSED_BY_HAND[name]:
            compare(name, template, verdict(host, template), tuple(wanted))
        for context, beginnings in STOCKS[name].beginnings.items():
            for beginning in beginnings:
                compare(name, beginning, walk(host, beginning)[2].context, context)


# ---- Templates -------------------------------------------------------------------------

class Stock(NamedTuple):
    """What the templates for a host are made of."""

    nasty: bytes        # bytes that mean something, or are refused, somewhere
    fragments: list     # pieces that are sound where they stand alone
    realistic: list
    joints: list        # what may stand between two templates
    faults: list
    around: list        # before and after a hole
    crowds: list        # before, between and after many holes
    crowd: list         # holes with what may follow them, many times over
    quote: bytes
    divider: bytes      # a byte that may stand many times over, with a hole after it
    quotings: list      # opener, body, closer and spellings
    beginnings: dict    # for each context, what leads there
    endings: dict       # for each context, what tells it from others


NOTATION = [b"@{a}", b"@{b_1}", b"@@", b"@n", b"@r", b"@t"]
NOTATION_FAULTS = [b"@", b"@x", b"@{}", b"@{aA}", b"@{a"]

STOCKS = {
    "shell": Stock(
        nasty=b"@@@{{}}'''\"\"\\\\\\a_9nrtzA .;&|>()#$`<*?[~-=!\x00\x01\t\n\r\x7f\x80\xc3\xff",
        fragments=NOTATION + [b"''", b'""', b"'@{c}'", b'"@{c}"', b'"\\$"', b"\\'", b"\\\n", b";",
                              b" ", b"a", b"#", b"'x y'", b"'\\''"],
        realistic=[
            b"cp -- @{from} @{to}",
            b"printf '%s @@ %s\\n' @{a} 'pre-@{b}-post' \"by @{c}\" >out.txt",
            b"cd @{dir} && ls -l | sort > \"@{name}.txt\" ; echo done",
            b"(umask 077; mkdir @{d})@nmv x\\ y.txt '@{d}'/@{e}",
            b"if test -f @{f}@nthen@n@tcat @{f} - &@nfi@n",
            b"mail -s \"Depth of \\\"@{run}\\\", \\$5\" ops@@example.org",
            b"grep -e@{pattern} it\\'s.'don'\\''t' C:\\\\@{file}",
            b"tar -cf @{dir}-@{day}.tar \\@n@t./@{dir}",
            b"@{whole}",
            b"'@{whole}'",
            b'"@{whole}"',
            b"a@{b}@{c}d",
        ],
        joints=[b" ", b";", b"@n", b""],
        faults=NOTATION_FAULTS + [b"$", b"`", b"\x00", b"\x01", b"*", b" #", b"<", b'"$"', b'"\\a"',
                                  b"'", b"\\@{b}", b'"\\@{b}"'],
        around=[(b"", b" "), (b"'", b"'"), (b'"', b'" '), (b"x", b"y;"), (b"\\$", b"#"), (b"", b"")],
        crowds=[(b"", b" ", b""), (b"", b"", b""), (b"'", b"", b"'"), (b'a"', b"", b'"'),
                (b"(", b" | ", b")")],
        crowd=[b"@{a} ", b"@{b};", b"'@{c}'", b'"@{d}@{e}" ', b"x@{f}"],
        quote=b"'",
        divider=b";",
        quotings=[(b"'", Shell.SINGLE, b"'", {b"'": b"'\\''"}),
                  (b'"', Shell.DOUBLE, b'"', {b"$": b"\\$", b"`": b"\\`", b'"': b'\\"',
                                              b"\\": b"\\\\"})],
        beginnings={
            Shell.GAP: [b"", b"a ", b";", b"@{q} ", b"\\\n", b"a\t"],
            Shell.WORD: [b"a", b"''", b"@{q}", b"\\$", b"a\\\n"],
            Shell.GAP_BACKSLASH: [b"\\", b"a \\", b"a&\\", b"\\\n\\"],
            Shell.WORD_BACKSLASH: [b"a\\", b'""\\', b"@{q}\\"],
            Shell.SINGLE: [b"'", b"a'b", b"'@{q}"],
            Shell.DOUBLE: [b'"', b'a"b', b'"@{q}', b'"\\\n'],
            Shell.DOUBLE_BACKSLASH: [b'"\\', b'a"b\\', b'"@{q}\\'],
        },
        endings={
            Shell.GAP: [b"", b"@{h}"],
            Shell.WORD: [b"", b"@{h}"],
            Shell.GAP_BACKSLASH: [b"", b"\n@{h}"],
            Shell.WORD_BACKSLASH: [b"", b"\n@{h}"],
            Shell.SINGLE: [b"", b"@{h}'"],
            Shell.DOUBLE: [b"", b'@{h}"'],
            Shell.DOUBLE_BACKSLASH: [b"", b'$@{h}"'],
        }),
    "sql": Stock(
        nasty=b"@@@{{}}'''a_9nrtzA .,;(-\x00\t\n\r\x7f\xc3\xff",
        fragments=NOTATION + [b"''", b"'@{c}'", b",", b" ", b"a", b"'x'", b"= "],
        realistic=[
            b"SELECT name, mail FROM users WHERE id = @{id} AND town = @{town};",
            b"INSERT INTO visits (site, cm) VALUES (@{site}, @{cm});",
            b"INSERT INTO log(at, what)@n@tVALUES ('@{day} @{hour}', 'user @{name} came @@ @{place}');",
            b"UPDATE t SET a = @{a}, b = 'pre-@{b}-post', c = 'it''s @{c}' WHERE k IN (@{k}, @{k}, @{k});",
            b"select * from a.b where x <> '' and y >= @{low} and y < @{high}",
            b"SELECT f(@{x}), g('@{x}'), h('@{x}@{y}') FROM dual@r@n",
            b"DELETE FROM m WHERE note LIKE '%@{part}%' ;@nSELECT :p, ?, 1+2*3",
            b"@{whole}",
            b"'@{whole}'",
            b"@{a}'@{b}'",
        ],
        joints=[b" ", b";", b"@n"],
        faults=NOTATION_FAULTS + [b"-", b"\x00", b"@@", b"a'", b"a@{b}", b"@{a}@{b}"],
        around=[(b"", b","), (b"'", b"'"), (b"x = ", b" "), (b"'a", b"z';"), (b"f(", b")"),
                (b"a", b"")],
        crowds=[(b"", b",", b""), (b"'", b"", b"'"), (b"f(", b" + ", b")"), (b"", b"", b"")],
        crowd=[b"@{a},", b"@{b} ", b"'@{c}',", b"'@{d}@{e}';"],
        quote=b"'",
        divider=b"(",
        quotings=[(b"'", Sql.TEXT, b"'", {b"'": b"''"})],
        beginnings={
            Sql.GAP: [b"", b"a ", b"(", b"@{q},"],
            Sql.WORD: [b"a", b"9_.", b"''a"],
            Sql.TEXT: [b"'", b"'a", b"'@{q}", b"'a''"],
            Sql.QUOTE_SEEN: [b"''", b"@{q}", b"'a'"],
        },
        endings={
            Sql.GAP: [b"", b"@{h}"],
            Sql.WORD: [b"", b"a"],
            Sql.TEXT: [b"", b"@{h}'"],
            Sql.QUOTE_SEEN: [b"", b"'@{h}'"],
        }),
    "csv": Stock(
        nasty=b"@@@{{}}\"\"\",,,a_9nrtzA .;'+=-~\x00\t\n\r\x1f\x7f\x80\xc3\xff",
        fragments=NOTATION + [b'""', b'"@{c}"', b",", b",", b"@r@n", b"\r\n", b"a", b" ", b'"x,y"',
                              b"'"],
        realistic=[
            b"site,cm,remark@r@n@{site},@{cm},@{remark}@r@n",
            b'"Elm ""upper""",@{cm},"by @{driver}, @{day}"@r@n',
            b"@{a},@{b},@{c}\r\n@{a},@{b},@{c}",
            b"no@{number},@{name},x-@{x}-y@r@n",
            b"a,,b@r@n@r@n,@r@n",
            b'"two@r@nlines","@n","@r",@{last}',
            b"user@@host,=1+1,'@{quoted}',~@r@n",
            b"@{whole}",
            b'"@{whole}"',
            b"a@{b}@{c}d",
        ],
        joints=[b"@r@n", b",", b""],
        faults=NOTATION_FAULTS + [b'a"', b"\x00", b"@n", b"@r", b"@t", b'""a', b"\xc3", b"@{a}@{b}",
                                  b"@{a}b"],
        around=[(b"", b","), (b'"', b'",'), (b"x", b"y,"), (b'"a', b'z"@r@n'), (b'""', b""),
                (b"", b"x")],
        crowds=[(b"", b",", b""), (b'"', b"", b'"'), (b"a", b"", b"b"), (b"", b"@r@n", b"@r@n"),
                (b"", b"", b"")],
        crowd=[b"@{a},", b'"@{b}",', b'"@{c}@{d}"@r@n', b"x@{e},"],
        quote=b'"',
        divider=b",",
        quotings=[(b'"', Csv.QUOTED, b'"', {b'"': b'""'}), (b"a", Csv.BARE, b"", {})],
        beginnings={
            Csv.ROW_START: [b"", b"a\r\n", b"@{q}@r@n", b"\r\n"],
            Csv.FIELD_START: [b",", b"a,", b"@{q},", b'"",'],
            Csv.BARE: [b"a", b" ", b",a", b"a@{q}"],
            Csv.QUOTED: [b'"', b'"a', b'"@{q}', b',"""', b'"\r'],
            Csv.QUOTE_SEEN: [b'""', b"@{q}", b'"a"'],
            Csv.RETURN_SEEN: [b"\r", b"a@r", b"@{q}\r", b",\r"],
        },
        endings={
            Csv.ROW_START: [b"", b"@{h}"],
            Csv.FIELD_START: [b"", b"@{h}"],
            Csv.BARE: [b"", b"@{h}"],
            Csv.QUOTED: [b"", b'@{h}"'],
            Csv.QUOTE_SEEN: [b"", b'"@{h}"'],
            Csv.RETURN_SEEN: [b"", b"\n"],
        }),
}

LITERALS = [(byte, b"@@" if byte == 0x40 else bytes([byte])) for byte in range(0x100)]
LITERALS += [(0x09, b"@t"), (0x0A, b"@n"), (0x0D, b"@r")]
NAME_LENGTHS = [0, 1, 2, 15, 16, 17, 18]
LENGTHS = [3583, 3584, 3585, 3586]


def probes(host, stock):
    """Every byte in every context, with endings that tell where it led; every byte after `@`."""
    for context, beginnings in stock.beginnings.items():
        for number, (byte, literal) in enumerate(LITERALS):
            beginning = beginnings[number % len(beginnings)]
            step = host.step(context, byte)
            for ending in [b"a"] if step is None else stock.endings[step[0]]:
                yield beginning + literal + ending
    for choice in range(0x100):
        yield (stock.quote if choice % 2 else b"") + b"@" + bytes([choice]) + b"a}" + stock.quote


def names(stock):
    """Names at the limits of their length, ended by a brace, by other bytes or by the end."""
    for length in NAME_LENGTHS:
        name = b"n_2345678901234567"[:length]
        for before, after in stock.around:
            yield before + b"@{" + name + b"}" + after
        for wrong in [b"", b"A", b"-", b"{", b" }", b"\xc3\xa9}", b"\x00", b"@"]:
            yield b"@{" + name + wrong
    for first in b"_9A`{a}zZ@/:":
        yield b"@{" + bytes([first]) + b"a}"
    for second in b"_9A`{a}zZ@/:":
        yield b"@{a" + bytes([second]) + b"}"


def crowds(stock):
    """About as many holes as there may be, apart and together, with faults after them."""
    for count in (63, 64, 65, 66):
        for before, between, after in stock.crowds:
            holes = before + between.join([b"@{h}"] * count)
            yield holes + after
            yield holes
            yield holes + b"@{A}"
            yield holes + between + b"@"
            yield holes + after + b"\x00"
            yield b"\x00" + holes + after


def long_ones(stock):
    """Lengths about the limit: bare, quoted and with holes, sound and faulty."""
    for length in LENGTHS:
        yield b"a" * length
        yield b" " * length
        yield stock.quote * length
        yield stock.quote + b"x" * (length - 2) + stock.quote
        yield stock.quote + b"x" * (length - 1)
        yield b"@n" * (length // 2) + b" " * (length % 2)
        yield b"\x00" + b"a" * (length - 1)
        yield stock.divider * (length - 4) + b"@{a}"
        for fault in stock.faults:
            yield fault + b" " * (length - len(fault))
            yield b" " * (length - len(fault)) + fault
            yield b" " * (length - 2 - len(fault)) + fault + b"  "


def crafted(name, host, stock):
    yield from (template for template, *_ in ACCEPTED_BY_HAND[name] + REFUSED_BY_HAND[name])
    yield from stock.realistic
    yield from names(stock)
    yield from crowds(stock)
    yield from long_ones(stock)
    yield from probes(host, stock)


def short(host, stock, dice):
    nasty = [bytes([byte]) for byte in stock.nasty]
    pieces = nasty if dice.random() < 0.4 else nasty + 3 * stock.fragments
    return b"".join(dice.choices(pieces, k=dice.randrange(13)))


def fragments(host, stock, dice):
    """Pieces that are sound where they stand alone, so that faults come late."""
    return b"".join(dice.choices(stock.fragments, k=dice.randrange(1, 15)))


def mutated(host, stock, dice):
    template = bytearray(dice.choice(stock.realistic))
    nasty = [bytes([byte]) for byte in stock.nasty]
    for _ in range(dice.randrange(4)):
        place = dice.randrange(len(template) + 1)
        kind = dice.randrange(6)
        if kind == 0:
            template[place:place] = dice.choice(nasty + stock.fragments)
        elif kind == 1:
            del template[place:place + 1]
        elif kind == 2:
            template[place:place + 1] = dice.choice(nasty)
        elif kind == 3:
            template[place:place] = template[place:place + dice.randrange(1, 20)]
        elif kind == 4:
            del template[place:place + dice.randrange(1, 20)]
        else:
            template += dice.choice(stock.joints) + dice.choice(stock.realistic)
    if dice.random() < 0.1:
        del template[dice.randrange(len(template) + 1):]
    return bytes(template)


def named(host, stock, dice):
    """Holes with random names, some with a byte put wrong."""
    template = b""
    for _ in range(dice.randrange(1, 4)):
        length = dice.choice(NAME_LENGTHS)
        name = bytearray(dice.choices(LOWER + DIGITS + b"_", k=length))
        if name and dice.random() < 0.8:
            name[0] = dice.choice(LOWER)
        if name and dice.random() < 0.2:
            name[dice.randrange(length)] = dice.choice(b"ABZ-{@ '\x00\xc3")
        before, after = dice.choice(stock.around)
        template += before + b"@{" + name + b"}" + after
    return template


def crowded(host, stock, dice):
    """Holes apart and in pairs, 62 to 66 of them, some with a fault among them."""
    parts, wanted = [], dice.randrange(62, 67)
    while b"".join(parts).count(b"@{") < wanted:
        parts.append(dice.choice(stock.crowd))
    if dice.random() < 0.4:
        parts.insert(dice.randrange(len(parts) + 1), dice.choice(stock.faults))
    return b"".join(parts)


def any_bytes(host, stock, dice):
    """Any bytes within quotes, spelled as they must be or not, and each @ as it falls."""
    opener, body, closer, spellings = dice.choice(stock.quotings)
    inside = [bytes([byte]) for byte in dice.choices(range(0x100), k=dice.randrange(30))]
    if dice.random() < 0.7:
        spellings = {b"@": b"@@", **spellings}
        inside = [spellings.get(byte, byte) for byte in inside
                  if byte in spellings or host.step(body, byte[0]) is not None]
    return opener + b"".join(inside) + dice.choice([closer, b"@{v}" + closer, b""])


def long_one(host, stock, dice):
    length = dice.choice(LENGTHS)
    body = b"".join(mutated(host, stock, dice) if dice.random() < 0.02
                    else dice.choice(stock.realistic[:7]) + stock.joints[0]
                    for _ in range(3)) + b"x" * length
    template = body[:length]
    if dice.random() < 0.5:
        fault = dice.choice(stock.faults)
        place = dice.randrange(length - len(fault) + 1)
        template = template[:place] + fault + template[place + len(fault):]
    return template


RANDOM = [(short, 30), (fragments, 15), (mutated, 25), (named, 12), (crowded, 6), (any_bytes, 8),
          (long_one, 4)]


def random_template(name, dice):
    makers, weights = zip(*RANDOM)
    return dice.choices(makers, weights)[0](HOSTS[name], STOCKS[name], dice)


def templates(name, count, seed):
    """The crafted templates for a host, then random ones, `count` in all."""
    dice = random.Random(seed)
    chosen = list(crafted(name, HOSTS[name], STOCKS[name]))[:count]
    return chosen + [random_template(name, dice) for _ in range(count - len(chosen))]


# ---- Record files and values -----------------------------------------------------------

def damaged(data, dice):
    """Half of the time the bytes as they are; otherwise cut short, or with one byte put wrong."""
    how = dice.random()
    if how < 0.5 or not data:
        return data
    at = dice.randrange(len(data))
    if how < 0.65:
        return data[:at]
    if how < 0.85:
        wrong = dice.choice([0, 1, 2, 3, 4, 255, dice.randrange(256)])
        return data[:at] + bytes([wrong]) + data[at + 1:]
    if how < 0.95:
        return data[:at] + data[at + 1:]
    return data[:at] + bytes([dice.randrange(256)]) + data[at:]


# Values that end what they stand in, where they are taken for the text around them; and values
# that look like what the program prints.
HOSTILE = [
    b"", b" ", b"'", b"''", b"'''", b'"', b'""', b"\\", b"\\\\", b"\\'", b"'\\", b"'\\''", b'\\"',
    b"a\\", b"O'Hara", b"'; rm x; '", b'"; rm x; "', b"$(date)", b"`date`", b"${x}", b"$5", b"\\$",
    b"a\nb", b"\n", b"\r\n", b"\r", b"a\r", b"a\\\nb", b"#", b" # ", b"*", b"~", b"-n", b"--", b"&&",
    b">x", b"<x", b"{a,b}", b"!!", b"%s", b"\\0", b"'); DROP TABLE t; --", b"' OR ''='", b"/*",
    b"*/", b";", b"NULL", b"0", b"1e5", b"X'00'", b'","', b'",1\r\n"', b",", b"a,b", b"=1+1", b"@a",
    b"@{a}", b"@@", b"@n", b"\\x41", b"a=b", b"bind 0 x", b"\t", b"\x00", b"a\x00b", b"\x01",
    b"\x7f", b"\xff", b"\xc3", "é".encode(), "語'".encode(),
    b"refused 15 hole 0 place 0: this hole still has no value",
    b"finish: 1 hole\nprint: 1 bytes\nx",
]
NASTY = b"''''\"\"\"\"\\\\\\\\,,,,\n\n\r\n$$``;&|<>()#*?[~{}!%-=@ \tab01\x00\x01\x7f\x80\xa0\xc3\xa9\xff"
VALUE_LENGTHS = [158, 159, 160, 161, 162]


def hostile(dice):
    """A value of any bytes, now and then longer than a value may be."""
    kind = dice.random()
    if kind < 0.35:
        return dice.choice(HOSTILE)
    if kind < 0.65:
        return bytes(dice.choices(NASTY, k=dice.randrange(12)))
    if kind < 0.8:
        return b"".join(dice.choices(HOSTILE, k=3))
    if kind < 0.9:
        return bytes(dice.choices(range(0x100), k=dice.randrange(40)))
    pool = dice.choice([b"x", b"'", b'"', NASTY, bytes(range(0x100))])
    return bytes(dice.choices(pool, k=dice.choice(VALUE_LENGTHS)))


def is_utf8(value):
    try:
        value.decode("utf-8")
    except UnicodeDecodeError:
        return False
    return True


def sound(host, bodies, value):
    """What is left of a value without the bytes that one of the bodies turns away, cut to length."""
    return bytes(byte for byte in value
                 if all(host.spelling(body, byte) is not None for body in bodies))[:MAX_VALUE]
