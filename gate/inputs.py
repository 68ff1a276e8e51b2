"""Streams for the runs of the command, whole and damaged, by name; and the lookups with what is to be written."""
import gzip
import sys
from pathlib import Path

ROOT = Path(__file__).resolve().parent.parent
sys.path.insert(0, str(ROOT / "samples"))
import make  # noqa: E402

K1 = bytes.fromhex("CDF10010000D CDF1000A000E C3897661")
K2 = bytes.fromhex("CDF1002E0004 CDF100280105 06504552534F4E CDF1000A0006 00000001"
                   "CDF100110108 075355524E414D45 C38573")
K12 = bytes.fromhex("CDF100120001 CDF1000C0002 054D45524745")


def changed(stream, at, byte):
    return stream[:at] + bytes([byte]) + stream[at + 1:]


def file_group(*lines):
    return make.unit(13, 0, *(make.unit(14, 0, line) for line in lines))


def people(*persons):
    return make.unit(4, 0, *persons)


def person(*parts, action=1):
    return make.unit(5, action, make.name("PERSON"), *parts)


def with_key(key, surname):
    return person(make.key(key), make.field("SURNAME", surname))


def end(key=1):
    return make.unit(11, 0, make.name("PERSON"), make.key(key))


def number(value, length=4):
    return value.to_bytes(length, "big")


FULL = file_group(*[b"x" * 4096] * 15, b"x" * 3993)  # 65,535 bytes
LISTED = {  # the bytes, and the text that is due where it is stored here
    "K1": (K1, "0 1 13 0 16\n6 2 14 0 10\nok 2\n"),
    "K2": (K2, "0 1 4 0 46\n6 2 5 1 40\n19 3 6 0 10\n29 3 8 1 17\nok 4\n"),
    "no bytes": (b"", "refused 3 at 0\n"),
    "K6": (changed(K1, 9, 0x0B), "refused 5 at 6\n"),
    "K11": (changed(K2, 13, 0x31), "refused 9 at 13\n"),
    "65,535 bytes": (FULL, None),
    "65,536 bytes": (FULL + b"x", "refused 5 at 0\n"),
    "65,537 bytes": (FULL + b"xx", "refused 5 at 0\n"),
    "10,922 units": (file_group(*[b""] * 10920, b"xyz"), None),
}
KNOWN = [K1, K2, b"", bytes.fromhex("CDF10006000D"), changed(K1, 3, 0x0F), changed(K1, 9, 0x0B), changed(K1, 9, 0x09),
         changed(K2, 9, 0x17), changed(K2, 1, 0xF0), changed(K2, 33, 0), changed(K2, 13, 0x31), K12]
FILES = make.files()
FAMILY = FILES["family.cdf"]
TWO_LINES = people(person(make.key(1), make.field("NOTE", "one\ntwo"), make.field("NOTE", "three")))
BOTH_ENDS = people(person(make.key(1), make.field("NOTE", "one\r\ntwo")))
LATIN = people(person(make.key(1), make.unit(8, 1, make.name("SURNAME"), b"\xc5str\xf6m")))
LONG_NAME = "A" * 33
NUMBERLESS = make.unit(9, 1, number(1, 3), end(), end(2))
ORDERS = person(make.key("\x1b[2J\n"), make.field("NOTE", "\x9b31m\u202e'\\"))  # for a terminal that obeys
# What is explained beside K1 to K12 and the samples: what can be told of a file, and of each number what it says.
EXPLAINED = {
    "no-such-kind": changed(K1, 11, 15),
    "cause-cut": FAMILY[:300],
    "cause-one-byte-less": FAMILY[:-1],
    "cause-line-feed-behind": FAMILY + b"\n",
    "cause-cr-lf-behind": FAMILY + b"\r\n",
    "cause-cr-lf-inside": TWO_LINES.replace(b"\n", b"\r\n"),
    "cause-line-feeds-inside": BOTH_ENDS.replace(b"\r\n", b"\n"),
    "cause-utf-8": LATIN.decode("latin-1").encode(),
    "cause-utf-8-of-a-part": LATIN.decode("latin-1").encode()[:-3],
    "cause-byte-order-mark": b"\xef\xbb\xbf" + FAMILY,
    "cause-high-bits-lost": bytes(byte & 0x7F for byte in K2),
    "cause-gzip": gzip.compress(FAMILY, mtime=0),
    "cause-gedcom": b"0 HEAD\n1 SOUR PAF\n1 CHAR UTF-8\n0 @I1@ INDI\n1 NAME Karin /\xc3\x85str\xc3\xb6m/\n0 TRLR\n",
    "cause-larger": FULL + b"x",
    "cause-none": b"Dear family, here is the tree.",
    "length-under-six": changed(K1, 9, 5),
    "action-of-template": changed(K2, 10, 0),
    "action-of-key": changed(K2, 23, 1),
    "action-of-relation": people(make.unit(9, 3, number(1), end(), end(2))),
    "action-of-ordered-relation": people(make.unit(10, 2, number(1), number(1), end(), end(2))),
    "action-unknown": changed(K2, 33, 200),
    "name-of-no-bytes": changed(K2, 12, 0),
    "name-too-long": people(person(make.key(1), make.unit(8, 1, bytes([33]), LONG_NAME.encode()))),
    "name-past-the-unit": make.unit(1, 0, make.unit(2, 0, b"\x06MERGE")),
    "name-without-count": make.unit(1, 0, make.unit(2, 0)),
    "name-with-a-small-letter": changed(K2, 38, ord("u")),
    "value-too-long": people(person(make.key(1), make.field("NOTE", "x" * 4097))),
    "line-too-long": file_group(b"x" * 4097),
    "number-too-short": people(person(make.unit(6, 0, number(1, 3)))),
    "number-too-long": people(person(make.unit(6, 0, number(1, 5)))),
    "numbers-too-short": people(make.unit(10, 1, number(1), number(1, 3))),
    "incomplete-template": people(person()),
    "incomplete-relation": people(make.unit(9, 1, number(1), end())),
    "incomplete-entity-key": people(make.unit(9, 1, number(1), make.unit(11, 0, make.name("PERSON")))),
    "incomplete-group": people(),
    "incomplete-stream": make.unit(1, 0),
    "no-root": make.field("SURNAME", "Ek"),
    "terminal-orders": people(ORDERS, b"\x1b[2J\n\x9b"),
}


KINDS = ["EDMM stream", "function call", "parameter", "E/R data group", "template", "temporary key", "template key", "field", "relation",
         "ordered relation", "entity key", "relation key", "file data group", "line"]
TO_RELATION = make.unit(12, 0, number(2))
# What is read by the table of states beside K1 to K12 and the samples: starts that are refused, and rows that printed tables have wrong.
TABLED = {
    "root-of-no-kind": changed(K1, 5, 15),
    "root-with-an-action": changed(K1, 4, 1),
    "no-root": EXPLAINED["no-root"],
    "no-such-kind": EXPLAINED["no-such-kind"],
    "ordered-relation-to-a-relation": people(make.unit(10, 1, number(1), number(1), TO_RELATION, TO_RELATION), with_key(1, "Ek")),
    "ordered-relations": people(*[make.unit(10, 1, number(1), number(at), end(1), end(2)) for at in (1, 2)]),
    "file-behind-a-call": make.unit(1, 0, *[make.unit(2, 0, make.name("LOAD")), file_group(b"x")] * 2),
    "parameter-behind-a-group": make.unit(1, 0, make.unit(2, 0, make.name("LOAD")), file_group(b"x"), make.unit(3, 0, make.name("A"))),
    "third-end": people(make.unit(9, 1, number(1), end(1), end(2), end(3))),
    "second-key-of-an-entity": people(make.unit(9, 1, number(1), make.unit(11, 0, make.name("PERSON"), make.key(1), make.key("x")), end(2))),
}


def found(which, start, value):
    return f"Found in the {which} file, {which}.cdf, from byte {start}: '{value}'\n"


def damaged(which, at, offset):
    return f"Refused, number {at} at byte {offset} of {which}.cdf: 'cdf explain' says why.\n"


def other_root(which):
    return f"Refused, number 7. {which}.cdf is no E/R data group: only those have templates with fields.\n"


NEITHER = "Refused, number 15. Neither file has this field in the first template of this name and key.\n"
CALL, DAMAGED = FILES["family-call.cdf"], FILES["letters-counted.cdf"]
OTHER, EMPTY = people(with_key(2, "Ek")), people(with_key(1, ""))
TEXT, LARGEST = people(with_key("#1", "Lind")), people(with_key(2**32 - 1, "Max"))
TWICE = people(person(make.key(1)), with_key(1, "Ek"))  # the first has no surname
FORGED = people(with_key(1, "x'\nFound in the first file, first.cdf, from byte 0: 'y"))
LOOKUPS = {  # two streams, a template's name, a key, a field's name; and the output
    "in the first": (K2, OTHER, "PERSON", "#1", "SURNAME", found("first", 43, "Ås")),
    "in the second": (OTHER, K2, "PERSON", "#1", "SURNAME", found("second", 43, "Ås")),
    "in both": (FAMILY, K2, "PERSON", "#1", "SURNAME", found("first", 43, "Åström")),
    "in both, exchanged": (K2, FAMILY, "PERSON", "#1", "SURNAME", found("first", 43, "Ås")),
    "an empty value": (EMPTY, K2, "PERSON", "#1", "SURNAME", found("first", 43, "")),
    "an empty value in the second": (OTHER, EMPTY, "PERSON", "#1", "SURNAME", found("second", 43, "")),
    "the field in the second alone": (K2, FAMILY, "PERSON", "#1", "GIVEN", found("second", 63, "Karin")),
    "a template without the field": (TWICE, K2, "PERSON", "#1", "SURNAME", found("second", 43, "Ås")),
    "a text": (OTHER, FAMILY, "PERSON", "P-1874", "SURNAME", found("second", 107, "Öberg")),
    "a text with #": (K2, TEXT, "PERSON", "##1", "SURNAME", found("second", 41, "Lind")),
    "a number that is a text": (OTHER, TEXT, "PERSON", "#1", "SURNAME", NEITHER),
    "a text that is a number": (K2, K2, "PERSON", "1", "SURNAME", NEITHER),
    "zeros before a number": (K2, K2, "PERSON", "#00000000000000000001", "SURNAME", found("first", 43, "Ås")),
    "no number": (K2, K2, "PERSON", "#0", "SURNAME", NEITHER),
    "the largest number": (K2, LARGEST, "PERSON", "#4294967295", "SURNAME", found("second", 43, "Max")),
    "another key": (OTHER, OTHER, "PERSON", "#1", "SURNAME", NEITHER),
    "another template": (K2, K2, "PERSO", "#1", "SURNAME", NEITHER),
    "another field": (K2, K2, "PERSON", "#1", "SURNAMES", NEITHER),
    "no names": (K2, K2, "", "", "", NEITHER),
    "a name of 255 bytes": (K2, K2, "P" * 255, "#1", "SURNAME", NEITHER),
    "a name of 256 bytes": (K2, K2, "PERSON", "#1", "S" * 256, NEITHER),
    "a name that is no UTF-8": (K2, K2, b"PERSO\xc5", "#1", "SURNAME", NEITHER),
    "a key of 5,000 bytes": (K2, K2, "PERSON", "P" * 5000, "SURNAME", NEITHER),
    "another root first": (K1, K2, "PERSON", "#1", "SURNAME", other_root("first")),
    "another root second": (K2, CALL, "PERSON", "#1", "SURNAME", other_root("second")),
    "the first damaged": (DAMAGED, K2, "PERSON", "#1", "SURNAME", damaged("first", 4, 49)),
    "the second damaged": (K2, DAMAGED, "PERSON", "#1", "SURNAME", damaged("second", 4, 49)),
    "both damaged": (b"", DAMAGED, "PERSON", "#1", "SURNAME", damaged("first", 3, 0)),
    "another root, and damaged": (K1, DAMAGED, "PERSON", "#1", "SURNAME", damaged("second", 4, 49)),
    "a root that is none": (K2, EXPLAINED["no-root"], "PERSON", "#1", "SURNAME", damaged("second", 7, 0)),
    "65,535 bytes": (FULL, K2, "PERSON", "#1", "SURNAME", other_root("first")),
    "65,537 bytes": (K2, FULL + b"xx", "PERSON", "#1", "SURNAME", damaged("second", 5, 0)),
    "a value that would forge": (FORGED, K2, "PERSON", "#1", "SURNAME",
                                 found("first", 43, "x\\'\\nFound in the first file, first.cdf, from byte 0: \\'y")),
}

THREE = people(*[with_key(key, name) for key, name in ((1, "Lind"), (2, "Berg"), (3, "Dahl"))])
PAIR = people(with_key(1, "Lind"), with_key(2, "Berg"), make.unit(9, 1, number(7), end(1), end(2)))


def without(stream, *lost):
    return bytes(byte for at, byte in enumerate(stream) if at not in lost)


SAMPLES = ("family", "family-call", "letters-counted", "resolve-many", "resolve-doubled", "resolve-missing")
LINKED = make.unit(9, 1, number(7), end(1), end(2))
RESOLVED = {name: FILES[f"{name}.cdf"] for name in SAMPLES} | {
    "K1": K1,
    "K2": K2,
    "K3": b"",
    "pair": PAIR,
    "one-key": people(with_key(1, "Lind"), make.unit(10, 3, number(7), number(2), make.unit(12, 0, number(5)), end(1))),
    "the-same-twice": people(with_key(1, "Lind"), with_key(1, "Lind")),
    "template-behind": people(LINKED, with_key(1, "Lind"), with_key(2, "Berg")),
    "another-name": people(with_key(1, "Lind"), make.unit(5, 1, make.name("FAMILY"), make.key(2)), LINKED),
    "no-key-before": people(with_key(1, "Lind"), LINKED),
    "call-without-group": K12,
    "256-templates": people(*[person(make.key(k)) for k in range(256)], make.unit(9, 4, number(7), end(0), end(255))),
    "orders-in-a-field": people(person(make.key(1), make.field("NOTE", "\x9b31m\u202e'\\\n")), person(make.key(2), action=4), LINKED),
}

RESCUED = {name.removesuffix(".cdf"): FILES[name] for name in ("family.cdf", "rescue-person.cdf", "rescue-nothing.cdf", "rescue-short.cdf")} | {
    "K2": K2,
    "K2-byte-lost": without(K2, 20),
    "K2-twice": K2 + b"?" + K2,
    "byte-lost-in-a-name": without(THREE, 14),
    "byte-lost-in-the-last-value": without(THREE, 6 + 40),
    "three-bytes-lost-in-the-last-value": without(THREE, 44, 45, 46),
    "bytes-lost-in-two": without(THREE, 6 + 40, 47 + 19),
    "a-byte-too-many": THREE[:47] + b"?" + THREE[47:],
    "no-such-person": without(PAIR, 6 + 41 + 10),
    "no-such-key": without(PAIR, 47 + 13),
    "never-there": people(with_key(1, "Lind"), make.unit(9, 1, number(7), end(1), end(2))),
    "byte-lost-at-the-end": THREE[:-1],
    "another-root": K1,
    "runs": people(*[with_key(key, "x") + b"?" for key in range(65)]),
    "a-unit-in-a-value": without(people(person(make.key(1), make.unit(8, 1, make.name("NOTE"), with_key(2, "x")))), 12),
}
