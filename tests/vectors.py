#!/usr/bin/env python3
"""Test vectors of the crate `vectors`, made from document 01.

Each vector is a name, the bytes of a file, how many rows are lent, and what reading has to answer. The answers are
worked out by hand from document 01 and stand beside the bytes as numbers. Nothing here reads a file: the functions
below only put boxes together.

    python3 tests/vectors.py            writes crates/vectors/data/*.dcf, crates/vectors/args and crates/vectors/stdout
    python3 tests/vectors.py --check    compares them with what it would write; exit status 1 on a difference
"""

import pathlib
import sys

TARGET = pathlib.Path(__file__).resolve().parent.parent / "crates" / "vectors"
MOST = 65535  # every file stays below the programs' buffers

FTYP, ODRM, ODHE, OHDR, ODDA, MDRI = b"ftyp", b"odrm", b"odhe", b"ohdr", b"odda", b"mdri"
ODTT, ODRB, UDTA, FREE, SKIP = b"odtt", b"odrb", b"udta", b"free", b"skip"
TOP64 = 2**64


# Boxes

def u16(n):
    return n.to_bytes(2, "big")


def u32(n):
    return n.to_bytes(4, "big")


def u64(n):
    return n.to_bytes(8, "big")


def head(size, kind):
    """A short header (8 bytes) with any size."""
    return u32(size) + kind


def lhead(size, kind):
    """A long header (16 bytes) with any size."""
    return u32(1) + kind + u64(size)


def box(kind, body=b""):
    return head(8 + len(body), kind) + body


def lbox(kind, body=b""):
    return lhead(16 + len(body), kind) + body


def resized(short, size):
    """A box in short form with another size in its header."""
    return u32(size) + short[4:]


def lresized(long, size):
    """A box in long form with another size in its header."""
    return long[:8] + u64(size) + long[16:]


def full(version=0, flags=0):
    return bytes([version]) + flags.to_bytes(3, "big")


def ftyp(major=b"odcf", minor=2, brands=b"odcf", form=box):
    return form(FTYP, major + u32(minor) + brands)


def ohdr(method=0, padding=0, plain=4, cid=b"cid:x", url=b"", text=b"", run=b"", lengths=None, version=0, flags=0, form=box):
    """8 + 20 + 5 = 33 bytes as it stands. `lengths` are other numbers than the strings' own."""
    a, b, c = lengths or (len(cid), len(url), len(text))
    fixed = full(version, flags) + bytes([method, padding]) + u64(plain) + u16(a) + u16(b) + u16(c)
    return form(OHDR, fixed + cid + url + text + run)


def odhe(run=None, ctype=b"a/b", length=None, version=0, flags=0, form=box):
    """8 + 5 + 3 bytes before its run: 49 bytes with the ohdr above."""
    told = len(ctype) if length is None else length
    return form(ODHE, full(version, flags) + bytes([told]) + ctype + (ohdr() if run is None else run))


def odda(data=b"data", length=None, tail=b"", version=0, flags=0, form=lbox):
    """16 + 12 + 4 = 32 bytes as it stands. `length` is another data length than the data's own."""
    told = len(data) if length is None else length
    return form(ODDA, full(version, flags) + u64(told) + data + tail)


def odrm(run=None, version=0, flags=0, form=lbox):
    """16 + 4 bytes before its run: 20 + 49 + 32 = 101 bytes as it stands."""
    return form(ODRM, full(version, flags) + (odhe() + odda() if run is None else run))


def named(cid, **more):
    """A container of 96 + len(cid) bytes."""
    return odrm(odhe(ohdr(cid=cid, **more)) + odda())


def mdri(run=b"", form=box):
    return form(MDRI, run)


def odtt(body=bytes(range(16)), version=0, flags=0, form=box):
    """8 + 4 + 16 = 28 bytes as it stands."""
    return form(ODTT, full(version, flags) + body)


def odrb(body=b"", version=0, flags=0, form=box):
    """8 + 4 bytes and the rights object."""
    return form(ODRB, full(version, flags) + body)


# Files. Where nothing else is said, boxes stand so (offset, size):
#   ftyp 0, 20; odrm 20, 101; odhe 40, 49; ohdr 56, 33, its run from 89; odda 89, 32; what follows at the top 121.
#   A long odrm's run starts at 20 + 20 = 40, odhe's at 40 + 16 = 56, ohdr's at 56 + 33 = 89, that of an mdri at 121 at 129.

HEAD = ftyp()


def dcf(rest=b""):
    """ftyp and one container, 121 bytes, then the rest."""
    return HEAD + odrm() + rest


def held(run):
    """ftyp, one container, and mdri at 121 with its run from 129."""
    return dcf(mdri(run))


def inside(run):
    """ftyp and an odrm with another run, from 40."""
    return HEAD + odrm(run)


def header(first, tail=b""):
    """ftyp and a container whose odhe, at 40, has another run, from 56."""
    return HEAD + odrm(odhe(first + tail) + odda())


def content(method, padding, plain, length, room):
    """ftyp and a container with this method, padding, P and D; odda, at 89, has `room` bytes after its data length."""
    return HEAD + odrm(odhe(ohdr(method=method, padding=padding, plain=plain)) + odda(bytes(room), length=length))


def text(entries):
    return header(ohdr(text=entries))


def sample(kind):
    """A box of one of the six types, with no fault of its own."""
    return {FTYP: ftyp, ODRM: odrm, ODHE: odhe, OHDR: ohdr, ODDA: odda, MDRI: mdri}[kind]()


SIX = (FTYP, ODRM, ODHE, OHDR, ODDA, MDRI)
FILE_A = held(box(FREE, bytes(32)))

# The vectors

VECTORS = []  # name, bytes, rows lent, text that is printed after the name


def refused(name, number, place, data, lent=256):
    VECTORS.append((name, data, lent, " verdict=%d place=%d\n" % (number, place)))


def accepted(name, data, boxes, containers, mutable, rights, free, transaction, rows, lent=256):
    line = " verdict=0 boxes=%d containers=%d mutable=%d rights=%d free=%d transaction=%d\n"
    out = line % (boxes, containers, mutable, rights, free, transaction)
    for offset, size, depth, kind in rows:
        out += "row=%d,%d,%d,%s\n" % (offset, size, depth, kind.hex())
    VECTORS.append((name, data, lent, out))


# Accepted files

R_FTYP = (0, 20, 0, FTYP)
R_ODRM = (20, 101, 0, ODRM)
R_ODHE = (40, 49, 1, ODHE)
R_OHDR = (56, 33, 2, OHDR)
R_ODDA = (89, 32, 1, ODDA)
R_DCF = [R_FTYP, R_ODRM, R_ODHE, R_OHDR, R_ODDA]
R_FILE_A = R_DCF + [(121, 48, 0, MDRI), (129, 40, 1, FREE)]

accepted("ok-file-a", FILE_A, 7, 1, 121, 0, 40, 0, R_FILE_A)
accepted("ok-file-a-rows-7", FILE_A, 7, 1, 121, 0, 40, 0, R_FILE_A, lent=7)
accepted("ok-file-a-rows-8", FILE_A, 7, 1, 121, 0, 40, 0, R_FILE_A, lent=8)
accepted("ok-file-a-rows-300", FILE_A, 7, 1, 121, 0, 40, 0, R_FILE_A, lent=300)
accepted("ok-container", dcf(), 5, 1, 0, 0, 0, 0, R_DCF)
accepted("ok-container-rows-5", dcf(), 5, 1, 0, 0, 0, 0, R_DCF, lent=5)

# Long headers have 8 bytes more. ftyp 28; odrm at 28, its run at 28 + 20 = 48; odhe 24 + 41 = 65; ohdr at 48 + 24 = 72, 36 + 5 = 41;
# odda at 48 + 65 = 113; odrm 20 + 65 + 32 = 117, up to 145; mdri 16 + 24 = 40; free at 145 + 16 = 161. Long free space is not in free=.
accepted(
    "ok-long-forms",
    ftyp(form=lbox) + odrm(odhe(ohdr(form=lbox), form=lbox) + odda()) + mdri(lbox(FREE, bytes(8)), form=lbox),
    7, 1, 145, 0, 0, 0,
    [(0, 28, 0, FTYP), (28, 117, 0, ODRM), (48, 65, 1, ODHE), (72, 41, 2, OHDR), (113, 32, 1, ODDA), (145, 40, 0, MDRI),
     (161, 24, 1, FREE)],
)
# Short odrm: its run at 20 + 12 = 32; 12 + 49 + 32 = 93.
accepted(
    "ok-short-odrm", HEAD + odrm(form=box), 5, 1, 0, 0, 0, 0,
    [R_FTYP, (20, 93, 0, ODRM), (32, 49, 1, ODHE), (48, 33, 2, OHDR), (81, 32, 1, ODDA)],
)
# ftyp without compatible brands: 8 + 8 = 16, the rest 4 bytes earlier.
accepted(
    "ok-ftyp-no-brand", ftyp(brands=b"") + odrm(), 5, 1, 0, 0, 0, 0,
    [(0, 16, 0, FTYP), (16, 101, 0, ODRM), (36, 49, 1, ODHE), (52, 33, 2, OHDR), (85, 32, 1, ODDA)],
)
# ftyp with three brands, none of them odcf, and another minor version: 8 + 8 + 12 = 28, the rest 8 bytes later.
accepted(
    "ok-ftyp-brands", ftyp(minor=2**32 - 1, brands=b"abcdefghijkl") + odrm(), 5, 1, 0, 0, 0, 0,
    [(0, 28, 0, FTYP), (28, 101, 0, ODRM), (48, 49, 1, ODHE), (64, 33, 2, OHDR), (97, 32, 1, ODDA)],
)
# Flags are not judged. odtt 129, 28, its TransactionID at 129 + 12 = 141; odrb 157, 12.
accepted(
    "ok-flags",
    HEAD + odrm(odhe(ohdr(flags=1), flags=2**24 - 1) + odda(flags=0x10203), flags=0x800000)
    + mdri(odtt(flags=2**24 - 1) + odrb(flags=1)),
    8, 1, 121, 1, 0, 141,
    R_DCF + [(121, 48, 0, MDRI), (129, 28, 1, ODTT), (157, 12, 1, ODRB)],
)
# Bytes of odda after the data: 32 + 5 = 37; odrm 101 + 5 = 106.
accepted(
    "ok-odda-tail", inside(odhe() + odda(tail=b"later")), 5, 1, 0, 0, 0, 0,
    [R_FTYP, (20, 106, 0, ODRM), R_ODHE, R_OHDR, (89, 37, 1, ODDA)],
)
# Eight containers, ids cid:0 to cid:7, each 101 bytes: container i is at 20 + 101 i; mdri at 20 + 8 x 101 = 828; 1 + 8 x 4 + 1 boxes.
EIGHT = HEAD + b"".join(named(b"cid:%d" % i) for i in range(8))
R_EIGHT = [R_FTYP] + [
    (at + 101 * i, size, depth, kind)
    for i in range(8)
    for at, size, depth, kind in (R_ODRM, R_ODHE, R_OHDR, R_ODDA)
]
accepted("ok-eight", EIGHT, 33, 8, 0, 0, 0, 0, R_EIGHT)
accepted("ok-eight-mdri", EIGHT + mdri(), 34, 8, 828, 0, 0, 0, R_EIGHT + [(828, 8, 0, MDRI)])

# Others at the top. free 20, 8; first container from 28: odrm 28, odhe 48, ohdr 64, odda 97, up to 129; udta 129, 8;
# second: odrm 137, odhe 157, ohdr 173, odda 206, up to 238; mdri 238, 8; free 246, 8.
accepted(
    "ok-others-top",
    HEAD + box(FREE) + odrm() + box(UDTA) + named(b"cid:y") + mdri() + box(FREE),
    13, 2, 238, 0, 0, 0,
    [R_FTYP, (20, 8, 0, FREE), (28, 101, 0, ODRM), (48, 49, 1, ODHE), (64, 33, 2, OHDR), (97, 32, 1, ODDA), (129, 8, 0, UDTA),
     (137, 101, 0, ODRM), (157, 49, 1, ODHE), (173, 33, 2, OHDR), (206, 32, 1, ODDA), (238, 8, 0, MDRI), (246, 8, 0, FREE)],
)
# Any four bytes are a type; types are compared byte by byte.
accepted(
    "ok-odd-types", dcf(box(bytes(4)) + box(b"\xff\xff\xff\xff") + box(b"ODRM") + box(b"uuid")), 9, 1, 0, 0, 0, 0,
    R_DCF + [(121, 8, 0, bytes(4)), (129, 8, 0, b"\xff\xff\xff\xff"), (137, 8, 0, b"ODRM"), (145, 8, 0, b"uuid")],
)
# The bytes of an other box are opaque: 8 + 169 = 177.
accepted("ok-opaque", dcf(box(SKIP, FILE_A)), 6, 1, 0, 0, 0, 0, R_DCF + [(121, 177, 0, SKIP)])
# udta in odhe, 8 + 4 = 12 opaque: odhe 49 + 12 = 61; odda at 40 + 61 = 101; odrm 20 + 61 + 32 = 113.
accepted(
    "ok-udta", header(ohdr(), box(UDTA, bytes(4))), 6, 1, 0, 0, 0, 0,
    [R_FTYP, (20, 113, 0, ODRM), (40, 61, 1, ODHE), R_OHDR, (89, 12, 2, UDTA), (101, 32, 1, ODDA)],
)
# udta in long form, 16: odhe 65; odda at 105; odrm 117.
accepted(
    "ok-udta-long", header(ohdr(), lbox(UDTA)), 6, 1, 0, 0, 0, 0,
    [R_FTYP, (20, 117, 0, ODRM), (40, 65, 1, ODHE), R_OHDR, (89, 16, 2, UDTA), (105, 32, 1, ODDA)],
)
# Others in ohdr: grpi 89, 13; free 102, 8; udta 110, 8; udta 118, 16, up to 134. ohdr 33 + 45 = 78; odhe 94; odda at 134; odrm 146.
accepted(
    "ok-ohdr-run", header(ohdr(run=box(b"grpi", bytes(5)) + box(FREE) + box(UDTA) + lbox(UDTA))), 9, 1, 0, 0, 0, 0,
    [R_FTYP, (20, 146, 0, ODRM), (40, 94, 1, ODHE), (56, 78, 2, OHDR), (89, 13, 3, b"grpi"), (102, 8, 3, FREE), (110, 8, 3, UDTA),
     (118, 16, 3, UDTA), (134, 32, 1, ODDA)],
)
# Others in odrm after odda: free 121, 8; udta 129, 8; odrm 117.
accepted(
    "ok-odrm-tail", inside(odhe() + odda() + box(FREE) + box(UDTA)), 7, 1, 0, 0, 0, 0,
    [R_FTYP, (20, 117, 0, ODRM), R_ODHE, R_OHDR, R_ODDA, (121, 8, 1, FREE), (129, 8, 1, UDTA)],
)
accepted("ok-mdri-empty", held(b""), 6, 1, 121, 0, 0, 0, R_DCF + [(121, 8, 0, MDRI)])
# In mdri: free 129, 8; skip 137, 12; long free 149, 16; long skip 165, 20; abcd 185, 8; up to 193. mdri 8 + 64 = 72.
# free= has the short ones directly in mdri: 8 + 12 = 20; not the one at the top, 193.
accepted(
    "ok-free-skip",
    held(box(FREE) + box(SKIP, bytes(4)) + lbox(FREE) + lbox(SKIP, bytes(4)) + box(b"abcd")) + box(FREE),
    12, 1, 121, 0, 20, 0,
    R_DCF + [(121, 72, 0, MDRI), (129, 8, 1, FREE), (137, 12, 1, SKIP), (149, 16, 1, FREE), (165, 20, 1, SKIP), (185, 8, 1, b"abcd"),
             (193, 8, 0, FREE)],
)
# Rights objects: odrb 129, 12 + 3 = 15; empty 144, 12; long 156, 20 + 2 = 22; long and empty 178, 20; free 198, 8; up to 206.
# mdri 8 + 15 + 12 + 22 + 20 + 8 = 85.
accepted(
    "ok-rights",
    held(odrb(b"abc") + odrb() + odrb(b"de", form=lbox) + odrb(form=lbox) + box(FREE)),
    11, 1, 121, 4, 8, 0,
    R_DCF + [(121, 85, 0, MDRI), (129, 15, 1, ODRB), (144, 12, 1, ODRB), (156, 22, 1, ODRB), (178, 20, 1, ODRB), (198, 8, 1, FREE)],
)
# TransactionID: odtt 129, 28; its bytes at 129 + 8 + 4 = 141.
accepted("ok-transaction", held(odtt()), 7, 1, 121, 0, 0, 141, R_DCF + [(121, 36, 0, MDRI), (129, 28, 1, ODTT)])
# Long odtt 16 + 20 = 36 after a free box of 8: at 137, its bytes at 137 + 20 = 157; mdri 8 + 8 + 36 = 52.
accepted(
    "ok-transaction-long", held(box(FREE) + odtt(form=lbox)), 8, 1, 121, 0, 8, 157,
    R_DCF + [(121, 52, 0, MDRI), (129, 8, 1, FREE), (137, 36, 1, ODTT)],
)
# All of it, in a long mdri: its run at 121 + 16 = 137; odrb 137, 14; odtt 151, 28, bytes at 163; odrb 179, 13; skip 192, 9; up to 201.
accepted(
    "ok-mdri-mixed", dcf(mdri(odrb(b"ab") + odtt() + odrb(b"c") + box(SKIP, b"z"), form=lbox)), 10, 1, 121, 2, 9, 163,
    R_DCF + [(121, 80, 0, MDRI), (137, 14, 1, ODRB), (151, 28, 1, ODTT), (179, 13, 1, ODRB), (192, 9, 1, SKIP)],
)
# odtt and odrb outside mdri are opaque: version 1, cut, repeated. In ohdr odtt 89, 9; odda at 98; in odrm odrb 130, 9, up to 139;
# ohdr 42, odhe 58, odrm 20 + 58 + 32 + 9 = 119. At the top odtt 139, 28; odrb 167, 13; odtt 180, 8.
accepted(
    "ok-outside-mdri",
    inside(odhe(ohdr(run=box(ODTT, b"\1"))) + odda() + box(ODRB, b"\1")) + odtt(version=1) + odrb(b"x", version=1) + box(ODTT),
    10, 1, 0, 0, 0, 0,
    [R_FTYP, (20, 119, 0, ODRM), (40, 58, 1, ODHE), (56, 42, 2, OHDR), (89, 9, 3, ODTT), (98, 32, 1, ODDA), (130, 9, 1, ODRB),
     (139, 28, 0, ODTT), (167, 13, 0, ODRB), (180, 8, 0, ODTT)],
)
# 256 boxes: 5, and 251 free ones of 8 bytes from 121.
R_256 = R_DCF + [(121 + 8 * i, 8, 0, FREE) for i in range(251)]
accepted("ok-256", dcf(box(FREE) * 251), 256, 1, 0, 0, 0, 0, R_256)
accepted("ok-256-rows-300", dcf(box(FREE) * 251), 256, 1, 0, 0, 0, 0, R_256, lent=300)
# 5, mdri, and 250 free ones from 129: mdri 8 + 2000 = 2008.
accepted(
    "ok-256-mdri", held(box(FREE) * 250), 256, 1, 121, 0, 2000, 0,
    R_DCF + [(121, 2008, 0, MDRI)] + [(129 + 8 * i, 8, 1, FREE) for i in range(250)],
)
# The largest file here: D = P = 65,418; odda 28 + 65418 = 65446; odrm 97 + 65418 = 65515; 65,535 bytes.
accepted(
    "ok-large", content(0, 0, 65418, 65418, 65418), 5, 1, 0, 0, 0, 0,
    [R_FTYP, (20, 65515, 0, ODRM), R_ODHE, R_OHDR, (89, 65446, 1, ODDA)],
)

# Lengths of strings. ContentType 255: odhe 13 + 255 + 33 = 301; ohdr at 40 + 268 = 308; odda at 341; odrm 353.
accepted(
    "ok-type-255", HEAD + odrm(odhe(ctype=b"t" * 255) + odda()), 5, 1, 0, 0, 0, 0,
    [R_FTYP, (20, 353, 0, ODRM), (40, 301, 1, ODHE), (308, 33, 2, OHDR), (341, 32, 1, ODDA)],
)
# ContentType 1: odhe 47; ohdr at 54; odda at 87; odrm 99.
accepted(
    "ok-type-1", HEAD + odrm(odhe(ctype=b"t") + odda()), 5, 1, 0, 0, 0, 0,
    [R_FTYP, (20, 99, 0, ODRM), (40, 47, 1, ODHE), (54, 33, 2, OHDR), (87, 32, 1, ODDA)],
)
# ContentID 256: ohdr 28 + 256 = 284; odhe 300; odda at 340; odrm 352.
accepted(
    "ok-id-256", header(ohdr(cid=b"i" * 256)), 5, 1, 0, 0, 0, 0,
    [R_FTYP, (20, 352, 0, ODRM), (40, 300, 1, ODHE), (56, 284, 2, OHDR), (340, 32, 1, ODDA)],
)
# ContentID 1: ohdr 29; odhe 45; odda at 85; odrm 97.
accepted(
    "ok-id-1", header(ohdr(cid=b"i")), 5, 1, 0, 0, 0, 0,
    [R_FTYP, (20, 97, 0, ODRM), (40, 45, 1, ODHE), (56, 29, 2, OHDR), (85, 32, 1, ODDA)],
)
# A RightsIssuerURL of 60,000: ohdr 60033; odhe 60049; odda at 60089; odrm 60101.
accepted(
    "ok-url-60000", header(ohdr(url=b"u" * 60000)), 5, 1, 0, 0, 0, 0,
    [R_FTYP, (20, 60101, 0, ODRM), (40, 60049, 1, ODHE), (56, 60033, 2, OHDR), (60089, 32, 1, ODDA)],
)
# Three strings, 5 + 8 + 7, and a run: ohdr 28 + 20 + 8 = 56; its free at 56 + 48 = 104; odhe 72; odda at 112; odrm 124.
accepted(
    "ok-strings", header(ohdr(url=b"http://u", text=b"a:b\0c:\0", run=box(FREE))), 6, 1, 0, 0, 0, 0,
    [R_FTYP, (20, 124, 0, ODRM), (40, 72, 1, ODHE), (56, 56, 2, OHDR), (104, 8, 3, FREE), (112, 32, 1, ODDA)],
)

# Textual headers of t bytes: ohdr 33 + t, odhe 49 + t, odda at 89 + t, odrm 101 + t.
# t = 3: an empty value.
accepted(
    "ok-text-empty-value", text(b"a:\0"), 5, 1, 0, 0, 0, 0,
    [R_FTYP, (20, 104, 0, ODRM), (40, 52, 1, ODHE), (56, 36, 2, OHDR), (92, 32, 1, ODDA)],
)
# t = 6: colons in the value.
accepted(
    "ok-text-colons", text(b"a:b:c\0"), 5, 1, 0, 0, 0, 0,
    [R_FTYP, (20, 107, 0, ODRM), (40, 55, 1, ODHE), (56, 39, 2, OHDR), (95, 32, 1, ODDA)],
)
# t = 5: a value that begins with a colon.
accepted(
    "ok-text-two-colons", text(b"a::b\0"), 5, 1, 0, 0, 0, 0,
    [R_FTYP, (20, 106, 0, ODRM), (40, 54, 1, ODHE), (56, 38, 2, OHDR), (94, 32, 1, ODDA)],
)
# t = 10: any byte but zero in a value.
accepted(
    "ok-text-value-bytes", text(b"n: \t\x01\x7f\x80\xff \0"), 5, 1, 0, 0, 0, 0,
    [R_FTYP, (20, 111, 0, ODRM), (40, 59, 1, ODHE), (56, 43, 2, OHDR), (99, 32, 1, ODDA)],
)
# t = 15 + 10 + 26 + 26 + 3 = 80: every token character of RFC 2616, section 2.2.
accepted(
    "ok-text-token",
    text(b"!#$%&'*+-.^_`|~0123456789ABCDEFGHIJKLMNOPQRSTUVWXYZabcdefghijklmnopqrstuvwxyz:v\0"), 5, 1, 0, 0, 0, 0,
    [R_FTYP, (20, 181, 0, ODRM), (40, 129, 1, ODHE), (56, 113, 2, OHDR), (169, 32, 1, ODDA)],
)
# t = 12: the same name twice.
accepted(
    "ok-text-same-name", text(b"a:b\0a:b\0A:b\0"), 5, 1, 0, 0, 0, 0,
    [R_FTYP, (20, 113, 0, ODRM), (40, 61, 1, ODHE), (56, 45, 2, OHDR), (101, 32, 1, ODDA)],
)


# Data lengths. With r bytes of room odda has 28 + r and odrm 97 + r.
def sized(odrm_size, odda_size):
    return [R_FTYP, (20, odrm_size, 0, ODRM), R_ODHE, R_OHDR, (89, odda_size, 1, ODDA)]


# D = 0 with every method and P
accepted("ok-none-plain", content(0, 0, 100, 0, 0), 5, 1, 0, 0, 0, 0, sized(97, 28))
accepted("ok-none-cbc", content(1, 1, 100, 0, 0), 5, 1, 0, 0, 0, 0, sized(97, 28))
accepted("ok-none-ctr", content(2, 0, 100, 0, 0), 5, 1, 0, 0, 0, 0, sized(97, 28))
accepted("ok-none-plain-0", content(0, 0, 0, 0, 0), 5, 1, 0, 0, 0, 0, sized(97, 28))
accepted("ok-none-plain-max", content(0, 0, TOP64 - 1, 0, 0), 5, 1, 0, 0, 0, 0, sized(97, 28))
accepted("ok-none-cbc-max", content(1, 1, TOP64 - 1, 0, 0), 5, 1, 0, 0, 0, 0, sized(97, 28))
accepted("ok-none-cbc-wrap", content(1, 1, TOP64 - 17, 0, 0), 5, 1, 0, 0, 0, 0, sized(97, 28))
accepted("ok-none-ctr-wrap", content(2, 0, TOP64 - 16, 0, 0), 5, 1, 0, 0, 0, 0, sized(97, 28))
accepted("ok-none-tail", content(1, 1, 100, 0, 4), 5, 1, 0, 0, 0, 0, sized(101, 32))
# Method 0: D = P, or P = 0 and any D
accepted("ok-plain-p-0", content(0, 0, 0, 4, 4), 5, 1, 0, 0, 0, 0, sized(101, 32))
accepted("ok-plain-p-0-d-1", content(0, 0, 0, 1, 9), 5, 1, 0, 0, 0, 0, sized(106, 37))
accepted("ok-plain-1", content(0, 0, 1, 1, 1), 5, 1, 0, 0, 0, 0, sized(98, 29))
# Method 1: P 0 and 15 want 32, 16 wants 48, 31 wants 48, 32 wants 64, 100 wants 16 + 16 x 7 = 128
accepted("ok-cbc-0", content(1, 1, 0, 32, 32), 5, 1, 0, 0, 0, 0, sized(129, 60))
accepted("ok-cbc-15", content(1, 1, 15, 32, 32), 5, 1, 0, 0, 0, 0, sized(129, 60))
accepted("ok-cbc-16", content(1, 1, 16, 48, 48), 5, 1, 0, 0, 0, 0, sized(145, 76))
accepted("ok-cbc-31", content(1, 1, 31, 48, 48), 5, 1, 0, 0, 0, 0, sized(145, 76))
accepted("ok-cbc-32", content(1, 1, 32, 64, 70), 5, 1, 0, 0, 0, 0, sized(167, 98))
accepted("ok-cbc-100", content(1, 1, 100, 128, 128), 5, 1, 0, 0, 0, 0, sized(225, 156))
accepted("ok-cbc-1000", content(1, 1, 1000, 1024, 1024), 5, 1, 0, 0, 0, 0, sized(1121, 1052))  # 16 + 16 x (62 + 1)
# Method 2: D = 16 + P
accepted("ok-ctr-0", content(2, 0, 0, 16, 16), 5, 1, 0, 0, 0, 0, sized(113, 44))
accepted("ok-ctr-1", content(2, 0, 1, 17, 17), 5, 1, 0, 0, 0, 0, sized(114, 45))
accepted("ok-ctr-100", content(2, 0, 100, 116, 116), 5, 1, 0, 0, 0, 0, sized(213, 144))
accepted("ok-ctr-1000", content(2, 0, 1000, 1016, 1016), 5, 1, 0, 0, 0, 0, sized(1113, 1044))

# ContentIDs that differ. In a letter's case only: second container at 121, the same sizes.
R_SECOND = [(121, 101, 0, ODRM), (141, 49, 1, ODHE), (157, 33, 2, OHDR), (190, 32, 1, ODDA)]
accepted("ok-ids-case", dcf(named(b"cid:X")), 9, 2, 0, 0, 0, 0, R_DCF + R_SECOND)
accepted("ok-ids-last-byte", dcf(named(b"cid:y")), 9, 2, 0, 0, 0, 0, R_DCF + R_SECOND)
accepted("ok-ids-first-byte", dcf(named(b"did:x")), 9, 2, 0, 0, 0, 0, R_DCF + R_SECOND)
# cid: is the start of cid:x. Second: ohdr 32, odhe 48, odrm 100; odda at 121 + 20 + 48 = 189.
accepted(
    "ok-ids-shorter", dcf(named(b"cid:")), 9, 2, 0, 0, 0, 0,
    R_DCF + [(121, 100, 0, ODRM), (141, 48, 1, ODHE), (157, 32, 2, OHDR), (189, 32, 1, ODDA)],
)
# The other way round: odda at 88, the second container at 120.
accepted(
    "ok-ids-longer", HEAD + named(b"cid:") + named(b"cid:x"), 9, 2, 0, 0, 0, 0,
    [R_FTYP, (20, 100, 0, ODRM), (40, 48, 1, ODHE), (56, 32, 2, OHDR), (88, 32, 1, ODDA),
     (120, 101, 0, ODRM), (140, 49, 1, ODHE), (156, 33, 2, OHDR), (189, 32, 1, ODDA)],
)

# 2: bytes left cannot hold a box header. The place is where that header would start.

refused("two-first-1", 2, 0, bytes(1))
refused("two-first-7", 2, 0, HEAD[:7])
refused("two-top-1", 2, 20, HEAD + bytes(1))
refused("two-top-7", 2, 121, dcf(bytes(7)))
refused("two-odrm-first", 2, 40, inside(bytes(4)))
refused("two-odrm-second", 2, 89, inside(odhe() + bytes(7)))
refused("two-odrm-third", 2, 121, inside(odhe() + odda() + bytes(3)))
refused("two-odhe-first", 2, 56, header(bytes(5)))
refused("two-odhe-second", 2, 89, header(ohdr(), bytes(7)))
refused("two-odhe-third", 2, 97, header(ohdr(), box(UDTA) + bytes(1)))
refused("two-ohdr-first", 2, 89, header(ohdr(run=bytes(7))))
refused("two-ohdr-second", 2, 97, header(ohdr(run=box(FREE) + bytes(1))))
refused("two-mdri-first", 2, 129, held(bytes(7)))
refused("two-mdri-second", 2, 137, held(box(FREE) + bytes(1)))
refused("two-mdri-inner", 2, 129, held(bytes(7)) + box(FREE, bytes(20)))  # more bytes follow, outside mdri
# Size field 1 with fewer than 16 bytes left
refused("two-long-first", 2, 0, head(1, FTYP) + bytes(7))
refused("two-long-top", 2, 121, dcf(head(1, FREE) + bytes(7)))
refused("two-long-top-8", 2, 121, dcf(head(1, FREE)))
refused("two-long-odrm", 2, 121, inside(odhe() + odda() + head(1, FREE) + bytes(7)))
refused("two-long-odhe", 2, 56, header(head(1, OHDR) + bytes(7)))
refused("two-long-ohdr", 2, 89, header(ohdr(run=head(1, FREE) + bytes(4))))
refused("two-long-mdri", 2, 129, held(head(1, FREE) + bytes(7)))
refused("two-long-inner", 2, 129, held(head(1, FREE)) + box(FREE, bytes(20)))

# 3: size not allowed; odda not in long form

refused("three-0-file-a", 3, 121, FILE_A[:121] + u32(0) + FILE_A[125:])  # document 01, worked file (b)
refused("three-0-ftyp", 3, 0, resized(HEAD, 0) + odrm())
refused("three-0-odrm", 3, 20, HEAD + resized(odrm(form=box), 0))
refused("three-0-odhe", 3, 40, inside(resized(odhe(), 0) + odda()))
refused("three-0-ohdr", 3, 56, header(resized(ohdr(), 0)))
refused("three-0-last", 3, 121, dcf(head(0, FREE)))
refused("three-2-top", 3, 121, dcf(head(2, FREE)))
refused("three-3-top", 3, 121, dcf(head(3, FREE)))
refused("three-4-top", 3, 121, dcf(head(4, FREE)))
refused("three-5-top", 3, 121, dcf(head(5, FREE)))
refused("three-6-top", 3, 121, dcf(head(6, FREE)))
refused("three-7-top", 3, 121, dcf(head(7, FREE)))
refused("three-2-ohdr", 3, 89, header(ohdr(run=head(2, FREE))))
refused("three-7-odrm", 3, 121, inside(odhe() + odda() + head(7, FREE)))
refused("three-7-odhe", 3, 89, header(ohdr(), head(7, UDTA)))
refused("three-2-mdri", 3, 129, held(head(2, FREE)))
refused("three-7-mdri", 3, 137, held(box(FREE) + head(7, FREE) + bytes(9)))
refused("three-long-15-top", 3, 121, dcf(lhead(15, FREE)))
refused("three-long-0-top", 3, 121, dcf(lhead(0, FREE)))
refused("three-long-0-ftyp", 3, 0, lresized(ftyp(form=lbox), 0) + odrm())
refused("three-long-15-odrm", 3, 20, HEAD + lresized(odrm(), 15))
refused("three-long-15-odda", 3, 89, inside(odhe() + lresized(odda(), 15)))
refused("three-long-8-ohdr", 3, 89, header(ohdr(run=lhead(8, FREE))))
refused("three-long-15-mdri", 3, 129, held(lhead(15, FREE)))
refused("three-long-1-mdri", 3, 129, held(lhead(1, FREE)))
refused("three-odda-place", 3, 89, inside(odhe() + odda(form=box)))
refused("three-odda-first", 3, 0, odda(form=box) + dcf())
refused("three-odda-top", 3, 121, dcf(odda(form=box)))
refused("three-odda-odrm-first", 3, 40, inside(odda(form=box) + odda()))
refused("three-odda-odrm-third", 3, 121, inside(odhe() + odda() + odda(form=box)))
refused("three-odda-odhe", 3, 56, header(odda(form=box)))
refused("three-odda-odhe-second", 3, 89, header(ohdr(), odda(form=box)))
refused("three-odda-ohdr", 3, 89, header(ohdr(run=odda(form=box))))
refused("three-odda-mdri", 3, 129, held(odda(form=box)))

# 4: box ends after its parent or the file

refused("four-ftyp", 4, 0, resized(HEAD, 21))
refused("four-odrm", 4, 20, HEAD + lresized(odrm(), 102))
refused("four-mdri", 4, 121, FILE_A[:121] + u32(49) + FILE_A[125:])
# odrm's run has 81 bytes, odhe's 33; a box follows at the top, so the file does not end there
refused("four-odhe", 4, 40, inside(resized(odhe(), 82) + odda()) + box(FREE))
refused("four-ohdr", 4, 56, header(resized(ohdr(), 34)))
refused("four-odda", 4, 89, inside(odhe() + lresized(odda(), 33)) + box(FREE))
refused("four-udta", 4, 89, header(ohdr(), resized(box(UDTA), 9)))
refused("four-in-ohdr", 4, 89, header(ohdr(run=resized(box(FREE), 9)), box(UDTA)))
refused("four-in-odrm", 4, 121, inside(odhe() + odda() + resized(box(FREE), 9)) + box(FREE))
refused("four-in-mdri", 4, 129, held(resized(box(FREE, bytes(32)), 41)) + box(FREE))
refused("four-in-mdri-second", 4, 137, held(box(FREE) + resized(box(FREE), 9)))
refused("four-short-2-31", 4, 121, dcf(head(2**31, FREE)))
refused("four-short-max", 4, 121, dcf(head(2**32 - 1, FREE)))
refused("four-short-max-mdri", 4, 129, held(head(2**32 - 1, FREE)))
refused("four-short-wrap", 4, 121, dcf(head(2**32 - 121, FREE)))  # ends at 2^32
refused("four-long-by-one", 4, 121, dcf(lhead(17, FREE)))
refused("four-long-2-32", 4, 121, dcf(lhead(2**32 + 16, FREE)))  # its low half would fit
refused("four-long-2-63", 4, 121, dcf(lhead(2**63, FREE)))
refused("four-long-max", 4, 121, dcf(lhead(TOP64 - 1, FREE)))
refused("four-long-max-mdri", 4, 129, held(lhead(TOP64 - 1, FREE)))
refused("four-long-wrap-0", 4, 121, dcf(lhead(TOP64 - 121, FREE)))  # ends at 2^64
refused("four-long-wrap-end", 4, 121, dcf(lhead(TOP64 - 105, FREE)))  # ends at 2^64 + 16
refused("four-long-wrap-mdri", 4, 129, held(lhead(TOP64 - 8, FREE)))  # ends at 2^64 + 121, where mdri starts
refused("four-odda-max", 4, 89, inside(odhe() + lresized(odda(), TOP64 - 1)))
refused("four-ftyp-max", 4, 0, lresized(ftyp(form=lbox), TOP64 - 1) + odrm())

# 5: no row left; a ninth odrm at the top

refused("five-rows-0", 5, 0, FILE_A, lent=0)
refused("five-rows-1", 5, 20, FILE_A, lent=1)
refused("five-rows-2", 5, 40, FILE_A, lent=2)
refused("five-rows-3", 5, 56, FILE_A, lent=3)
refused("five-rows-4", 5, 89, FILE_A, lent=4)
refused("five-rows-5", 5, 121, FILE_A, lent=5)
refused("five-rows-6", 5, 129, FILE_A, lent=6)
refused("five-rows-ohdr", 5, 89, header(ohdr(run=box(FREE))), lent=4)
refused("five-257", 5, 2129, dcf(box(FREE) * 252))  # 121 + 251 x 8
refused("five-257-rows-300", 5, 2129, dcf(box(FREE) * 252), lent=300)
refused("five-257-rows-257", 5, 2129, dcf(box(FREE) * 252), lent=257)
refused("five-257-mdri", 5, 2129, held(box(FREE) * 251))  # 129 + 250 x 8
refused("five-256-rows-255", 5, 2121, dcf(box(FREE) * 251), lent=255)  # 121 + 250 x 8
refused("five-ninth", 5, 828, EIGHT + named(b"cid:8"))  # 20 + 8 x 101
refused("five-ninth-after-mdri", 5, 836, EIGHT + mdri() + named(b"cid:8"))
refused("five-ninth-after-free", 5, 836, EIGHT + box(FREE) + named(b"cid:8"))

# 6: box in a wrong place, repeated or missing

refused("six-empty", 6, 0, b"")
refused("six-empty-rows-0", 6, 0, b"", lent=0)
refused("six-only-ftyp", 6, 0, HEAD)
refused("six-no-odrm", 6, 0, HEAD + box(FREE))
refused("six-no-odrm-mdri", 6, 0, HEAD + mdri(box(FREE)))
refused("six-first-free", 6, 0, box(FREE) + dcf())
refused("six-first-odrm", 6, 0, odrm() + HEAD)
refused("six-first-odhe", 6, 0, odhe() + dcf())
refused("six-first-ohdr", 6, 0, ohdr() + dcf())
refused("six-first-odda", 6, 0, odda() + dcf())
refused("six-first-mdri", 6, 0, mdri() + dcf())
refused("six-second-ftyp", 6, 20, HEAD + HEAD + odrm())
for kind in (FTYP, ODHE, OHDR, ODDA):
    refused("six-top-" + kind.decode(), 6, 121, dcf(sample(kind)))
refused("six-top-odhe-early", 6, 20, HEAD + odhe() + odrm())
refused("six-odrm-after-mdri", 6, 169, FILE_A + named(b"cid:y"))
refused("six-mdri-first", 6, 28, HEAD + mdri() + odrm())
refused("six-second-mdri", 6, 169, FILE_A + mdri())
refused("six-second-mdri-later", 6, 177, FILE_A + box(FREE) + mdri())
# odrm: odhe, odda, then others
refused("six-odrm-empty", 6, 20, inside(b""))
refused("six-odrm-no-odda", 6, 20, inside(odhe()))
refused("six-odrm-second-no-odda", 6, 121, dcf(odrm(odhe(ohdr(cid=b"cid:y")))))
for kind in (FTYP, ODRM, OHDR, ODDA, MDRI):
    refused("six-odrm-first-" + kind.decode(), 6, 40, inside(sample(kind) + odhe() + odda()))
refused("six-odrm-first-free", 6, 40, inside(box(FREE) + odhe() + odda()))
for kind in (FTYP, ODRM, ODHE, OHDR, MDRI):
    refused("six-odrm-second-" + kind.decode(), 6, 89, inside(odhe() + sample(kind) + odda()))
refused("six-odrm-second-free", 6, 89, inside(odhe() + box(FREE) + odda()))
for kind in SIX:
    refused("six-odrm-third-" + kind.decode(), 6, 121, inside(odhe() + odda() + sample(kind)))
refused("six-odrm-fourth-odda", 6, 129, inside(odhe() + odda() + box(FREE) + odda()))
# odhe: ohdr, then at most one udta
refused("six-odhe-empty", 6, 40, header(b""))
refused("six-odhe-swallowed", 6, 40, HEAD + odrm(odhe(length=36) + odda()))  # a ContentType of 3 + 33 bytes takes the ohdr
for kind in (FTYP, ODRM, ODHE, ODDA, MDRI):
    refused("six-odhe-first-" + kind.decode(), 6, 56, header(sample(kind), ohdr()))
refused("six-odhe-first-udta", 6, 56, header(box(UDTA), ohdr()))
refused("six-odhe-first-free", 6, 56, header(box(FREE), ohdr()))
for kind in SIX:
    refused("six-odhe-second-" + kind.decode(), 6, 89, header(ohdr(), sample(kind)))
refused("six-odhe-second-free", 6, 89, header(ohdr(), box(FREE)))
refused("six-odhe-third-udta", 6, 97, header(ohdr(), box(UDTA) + box(UDTA)))
refused("six-odhe-third-free", 6, 97, header(ohdr(), box(UDTA) + box(FREE)))
# ohdr and mdri: others; at most one odtt in mdri
for kind in SIX:
    refused("six-ohdr-" + kind.decode(), 6, 89, header(ohdr(run=sample(kind))))
refused("six-ohdr-second-odhe", 6, 97, header(ohdr(run=box(FREE) + odhe())))
for kind in SIX:
    refused("six-mdri-" + kind.decode(), 6, 129, held(sample(kind)))
refused("six-mdri-second-odrm", 6, 137, held(box(FREE) + odrm()))
refused("six-second-odtt", 6, 157, held(odtt() + odtt()))  # 129 + 28
refused("six-second-odtt-later", 6, 165, held(odtt() + box(FREE) + odtt(form=lbox)))

# 7: fixed fields or strings run past the box; odtt not 16 bytes; ftyp brands not whole

refused("seven-ftyp-0", 7, 0, box(FTYP) + odrm())
refused("seven-ftyp-4", 7, 0, box(FTYP, b"odcf") + odrm())
refused("seven-ftyp-7", 7, 0, box(FTYP, b"odcf" + bytes(3)) + odrm())
refused("seven-ftyp-9", 7, 0, ftyp(brands=b"o") + odrm())
refused("seven-ftyp-10", 7, 0, ftyp(brands=b"od") + odrm())
refused("seven-ftyp-15", 7, 0, ftyp(brands=b"odcfodc") + odrm())
refused("seven-ftyp-long-11", 7, 0, ftyp(brands=b"odc", form=lbox) + odrm())
refused("seven-odrm-0", 7, 20, HEAD + box(ODRM))
refused("seven-odrm-3", 7, 20, HEAD + box(ODRM, bytes(3)))
refused("seven-odrm-long-3", 7, 20, HEAD + lbox(ODRM, bytes(3)))
refused("seven-odhe-0", 7, 40, inside(box(ODHE) + odda()))
refused("seven-odhe-3", 7, 40, inside(box(ODHE, bytes(3)) + odda()))
refused("seven-odhe-4", 7, 40, inside(box(ODHE, bytes(4)) + odda()))
refused("seven-odhe-long-4", 7, 40, inside(lbox(ODHE, bytes(4)) + odda()))
refused("seven-odhe-type", 7, 40, inside(box(ODHE, full() + b"\4a/b") + odda()))
refused("seven-odhe-type-37", 7, 40, inside(odhe(length=37) + odda()))  # 3 + 33 bytes follow the length
refused("seven-odhe-type-255", 7, 40, inside(odhe(length=255) + odda()))
refused("seven-ohdr-0", 7, 56, header(box(OHDR)))
refused("seven-ohdr-3", 7, 56, header(box(OHDR, bytes(3))))
refused("seven-ohdr-19", 7, 56, header(box(OHDR, bytes(19))))
refused("seven-ohdr-long-19", 7, 56, header(lbox(OHDR, bytes(19))))
refused("seven-ohdr-id", 7, 56, header(ohdr(lengths=(6, 0, 0))))
refused("seven-ohdr-url", 7, 56, header(ohdr(lengths=(5, 1, 0))))
refused("seven-ohdr-text", 7, 56, header(ohdr(lengths=(5, 0, 1))))
refused("seven-ohdr-wrap", 7, 56, header(ohdr(lengths=(5, 65531, 0))))  # 5 + 65531 = 2^16
refused("seven-ohdr-most", 7, 56, header(ohdr(lengths=(256, 65535, 65535))))
refused("seven-ohdr-past-run", 7, 56, header(ohdr(run=box(FREE), lengths=(5, 9, 0))))
refused("seven-ohdr-past-udta", 7, 56, header(ohdr(lengths=(5, 8, 0)), box(UDTA)))  # the bytes would be in odhe
refused("seven-odda-0", 7, 89, inside(odhe() + lbox(ODDA)))
refused("seven-odda-3", 7, 89, inside(odhe() + lbox(ODDA, bytes(3))))
refused("seven-odda-11", 7, 89, inside(odhe() + lbox(ODDA, bytes(11))))
refused("seven-odtt-0", 7, 129, held(box(ODTT)))
refused("seven-odtt-3", 7, 129, held(box(ODTT, bytes(3))))
refused("seven-odtt-15", 7, 129, held(odtt(bytes(15))))
refused("seven-odtt-17", 7, 129, held(odtt(bytes(17))))
refused("seven-odtt-long-8", 7, 129, held(odtt(bytes(8), form=lbox)))  # as long as a short one of 16
refused("seven-odrb-0", 7, 129, held(box(ODRB)))
refused("seven-odrb-3", 7, 129, held(box(ODRB, bytes(3))))
refused("seven-odrb-long-3", 7, 129, held(lbox(ODRB, bytes(3))))

# 8: version not 0; major brand not odcf

refused("eight-ftyp", 8, 0, ftyp(major=b"odcg") + odrm())
refused("eight-ftyp-isom", 8, 0, ftyp(major=b"isom") + odrm())
refused("eight-ftyp-case", 8, 0, ftyp(major=b"ODCF") + odrm())
refused("eight-odrm", 8, 20, HEAD + odrm(version=1))
refused("eight-odrm-short-255", 8, 20, HEAD + odrm(version=255, form=box))
refused("eight-odhe", 8, 40, inside(odhe(version=1) + odda()))
refused("eight-odhe-128", 8, 40, inside(odhe(version=128) + odda()))
refused("eight-ohdr", 8, 56, header(ohdr(version=1)))
refused("eight-ohdr-long", 8, 56, header(ohdr(version=2, form=lbox)))
refused("eight-odda", 8, 89, inside(odhe() + odda(version=1)))
refused("eight-odtt", 8, 129, held(odtt(version=1)))
refused("eight-odtt-long", 8, 129, held(odtt(version=1, form=lbox)))
refused("eight-odrb", 8, 129, held(odrb(b"abc", version=1)))
refused("eight-odrb-second", 8, 141, held(odrb() + odrb(version=1)))

# 9: method or padding

refused("nine-method-0-padding-1", 9, 56, header(ohdr(0, 1)))
refused("nine-method-0-padding-255", 9, 56, header(ohdr(0, 255)))
refused("nine-method-1-padding-0", 9, 56, header(ohdr(1, 0)))
refused("nine-method-1-padding-2", 9, 56, header(ohdr(1, 2)))
refused("nine-method-2-padding-1", 9, 56, header(ohdr(2, 1)))
refused("nine-method-2-padding-2", 9, 56, header(ohdr(2, 2)))
refused("nine-method-3", 9, 56, header(ohdr(3, 0)))
refused("nine-method-3-padding-1", 9, 56, header(ohdr(3, 1)))
refused("nine-method-255", 9, 56, header(ohdr(255, 0)))

# 10: ContentType or ContentID length

refused("ten-type-0", 10, 40, inside(odhe(ctype=b"") + odda()))
refused("ten-id-0", 10, 56, header(ohdr(cid=b"")))
refused("ten-id-257", 10, 56, header(ohdr(cid=b"i" * 257)))
refused("ten-id-1000", 10, 56, header(ohdr(cid=b"i" * 1000)))
refused("ten-id-65280", 10, 56, header(ohdr(cid=bytes(65280))))  # 2^16 - 2^8; the file has 121 - 5 + 65280 = 65396 bytes

# 11: textual headers malformed

refused("eleven-no-zero", 11, 56, text(b"a:b"))
refused("eleven-no-zero-second", 11, 56, text(b"a:b\0c:d"))
refused("eleven-no-colon", 11, 56, text(b"ab\0"))
refused("eleven-no-colon-second", 11, 56, text(b"a:b\0cd\0"))
refused("eleven-empty-name", 11, 56, text(b":b\0"))
refused("eleven-empty-name-second", 11, 56, text(b"a:b\0:b\0"))
refused("eleven-empty-entry", 11, 56, text(b"\0"))
refused("eleven-empty-entry-second", 11, 56, text(b"a:b\0\0"))
refused("eleven-name-only", 11, 56, text(b"a"))
refused("eleven-colon-only", 11, 56, text(b":"))
for byte in b"()<>@,;\\\"/[]?={} \t":  # RFC 2616's separators but the colon
    refused("eleven-separator-%02x" % byte, 11, 56, text(b"a" + bytes([byte]) + b"b:c\0"))
refused("eleven-separator-first", 11, 56, text(b" a:c\0"))
refused("eleven-separator-last", 11, 56, text(b"a :c\0"))
refused("eleven-name-01", 11, 56, text(b"a\x01:c\0"))
refused("eleven-name-1f", 11, 56, text(b"a\x1f:c\0"))
refused("eleven-name-7f", 11, 56, text(b"a\x7f:c\0"))
refused("eleven-name-80", 11, 56, text(b"a\x80:c\0"))
refused("eleven-name-ff", 11, 56, text(b"a\xff:c\0"))
refused("eleven-line-end", 11, 56, text(b"a:b\r\nc:d"))

# 12: D longer than odda's rest, or not as it must be

refused("twelve-plain-less", 12, 89, content(0, 0, 4, 3, 4))
refused("twelve-plain-more", 12, 89, content(0, 0, 4, 5, 5))
refused("twelve-plain-iv", 12, 89, content(0, 0, 4, 20, 20))
refused("twelve-cbc-0-less", 12, 89, content(1, 1, 0, 31, 40))
refused("twelve-cbc-0-more", 12, 89, content(1, 1, 0, 33, 40))
refused("twelve-cbc-0-16", 12, 89, content(1, 1, 0, 16, 16))
refused("twelve-cbc-15-48", 12, 89, content(1, 1, 15, 48, 48))
refused("twelve-cbc-16-32", 12, 89, content(1, 1, 16, 32, 32))  # CBC adds a block to a multiple of 16
refused("twelve-cbc-16-47", 12, 89, content(1, 1, 16, 47, 48))
refused("twelve-cbc-16-49", 12, 89, content(1, 1, 16, 49, 49))
refused("twelve-cbc-100-116", 12, 89, content(1, 1, 100, 116, 128))
refused("twelve-cbc-1000-1008", 12, 89, content(1, 1, 1000, 1008, 1024))
refused("twelve-cbc-no-iv", 12, 89, content(1, 1, 100, 112, 128))
refused("twelve-ctr-less", 12, 89, content(2, 0, 100, 115, 116))
refused("twelve-ctr-more", 12, 89, content(2, 0, 100, 117, 117))
refused("twelve-ctr-no-iv", 12, 89, content(2, 0, 100, 100, 116))
refused("twelve-ctr-0", 12, 89, content(2, 0, 0, 4, 16))  # P = 0 frees D with method 0 only
refused("twelve-cbc-p-0", 12, 89, content(1, 1, 0, 4, 32))
refused("twelve-past-plain", 12, 89, content(0, 0, 5, 5, 4))
refused("twelve-past-p-0", 12, 89, content(0, 0, 0, 5, 4))
refused("twelve-past-cbc", 12, 89, content(1, 1, 0, 32, 31))
refused("twelve-past-ctr", 12, 89, content(2, 0, 100, 116, 115))
refused("twelve-past-inner", 12, 89, inside(odhe() + odda(b"dat", length=4) + box(FREE)))  # the byte would be in odrm
refused("twelve-past-all", 12, 89, content(0, 0, 1, 1, 0))
refused("twelve-max", 12, 89, content(0, 0, TOP64 - 1, TOP64 - 1, 4))
refused("twelve-max-p-0", 12, 89, content(0, 0, 0, TOP64 - 1, 4))
refused("twelve-max-wrap", 12, 89, content(0, 0, 0, TOP64 - 117, 4))  # 89 + 28 + D = 2^64
refused("twelve-max-wrap-end", 12, 89, content(0, 0, 0, TOP64 - 113, 4))  # 89 + 28 + D = 2^64 + 4
refused("twelve-cbc-large", 12, 89, content(1, 1, TOP64 - 33, TOP64 - 16, 4))  # as wanted, but longer than odda's rest
refused("twelve-ctr-large", 12, 89, content(2, 0, TOP64 - 17, TOP64 - 1, 4))
refused("twelve-2-32", 12, 89, content(0, 0, 4, 2**32 + 4, 4))
refused("twelve-p-2-32", 12, 89, content(0, 0, 2**32 + 4, 4, 4))
# P near 2^64 must not wrap: 16 + P = 2^64 + 8, + 15, + 1; 16 + 16 x 2^60 = 2^64 + 16
refused("twelve-ctr-wrap-8", 12, 89, content(2, 0, TOP64 - 8, 8, 8))
refused("twelve-ctr-wrap-15", 12, 89, content(2, 0, TOP64 - 1, 15, 16))
refused("twelve-ctr-wrap-1", 12, 89, content(2, 0, TOP64 - 15, 1, 1))
refused("twelve-cbc-wrap-16", 12, 89, content(1, 1, TOP64 - 1, 16, 16))
refused("twelve-cbc-wrap-low", 12, 89, content(1, 1, TOP64 - 16, 16, 16))
refused("twelve-cbc-wrap-32", 12, 89, content(1, 1, TOP64 - 1, 32, 32))

# 13: ContentID equal to an earlier container's. Container i is at 20 + 101 i, its ohdr at 56 + 101 i.

refused("thirteen-second", 13, 157, dcf(odrm()))
refused("thirteen-third", 13, 258, dcf(named(b"cid:y") + odrm()))
refused("thirteen-third-second", 13, 258, dcf(named(b"cid:y") + named(b"cid:y")))
refused("thirteen-eighth", 13, 763, HEAD + b"".join(named(b"cid:%d" % i) for i in (0, 1, 2, 3, 4, 5, 6, 0)))
refused("thirteen-eighth-seventh", 13, 763, HEAD + b"".join(named(b"cid:%d" % i) for i in (0, 1, 2, 3, 4, 5, 6, 6)))
# 256 bytes each: container 96 + 256 = 352 bytes; the second's ohdr at 20 + 352 + 36 = 408
refused("thirteen-256", 13, 408, HEAD + named(b"i" * 256) + named(b"i" * 256))
refused("thirteen-url", 13, 157, dcf(named(b"cid:x", url=b"other")))  # other strings play no part

# Order: in one box the smaller number wins

refused("order-3-4", 3, 89, inside(odhe() + resized(odda(form=box), 99)))
refused("order-3-5", 3, 121, dcf(head(0, FREE)), lent=5)
refused("order-2-5", 2, 121, dcf(bytes(3)), lent=5)
refused("order-3-6", 3, 0, head(7, FREE) + dcf())
refused("order-4-5", 4, 121, dcf(head(9, FREE)), lent=5)
refused("order-4-6", 4, 121, dcf(head(50, OHDR)))
refused("order-4-7", 4, 0, head(11, FTYP))
refused("order-5-6", 5, 121, dcf(odhe()), lent=5)
refused("order-5-6-first", 5, 0, box(FREE), lent=0)
refused("order-5-8", 5, 20, HEAD + odrm(version=1), lent=1)
refused("order-ninth-7", 5, 828, EIGHT + box(ODRM))
refused("order-ninth-8", 5, 828, EIGHT + odrm(version=1))
refused("order-ninth-13", 5, 828, EIGHT + named(b"cid:0"))
refused("order-6-7", 6, 157, held(odtt() + odtt(bytes(15))))
refused("order-6-7-ftyp", 6, 20, HEAD + box(FTYP) + odrm())
refused("order-6-8", 6, 169, FILE_A + odrm(version=1))
refused("order-6-9", 6, 121, dcf(ohdr(method=3)))
refused("order-6-10", 6, 56, header(odhe(ctype=b"")))
refused("order-6-12", 6, 129, held(odda(length=9)))
refused("order-7-8-ftyp", 7, 0, ftyp(major=b"isom", brands=b"od") + odrm())
refused("order-7-8-ohdr", 7, 56, header(box(OHDR, full(1) + bytes(15))))
refused("order-7-8-odtt", 7, 129, held(odtt(bytes(15), version=1)))
refused("order-7-8-odda", 7, 89, inside(odhe() + lbox(ODDA, full(1) + bytes(7))))
refused("order-7-8-odhe", 7, 40, inside(odhe(length=99, version=1) + odda()))
refused("order-7-9", 7, 56, header(ohdr(method=3, lengths=(5, 1, 0))))
refused("order-7-10-odhe", 7, 40, inside(box(ODHE, full()) + odda()))
refused("order-7-10-ohdr", 7, 56, header(ohdr(lengths=(257, 0, 0))))
refused("order-7-10-ohdr-0", 7, 56, header(ohdr(cid=b"", lengths=(0, 0, 1))))
refused("order-8-9", 8, 56, header(ohdr(method=3, version=1)))
refused("order-8-10-odhe", 8, 40, inside(odhe(ctype=b"", version=1) + odda()))
refused("order-8-11", 8, 56, header(ohdr(text=b"x", version=1)))
refused("order-8-12", 8, 89, inside(odhe() + odda(length=9, version=1)))
refused("order-8-13", 8, 157, dcf(named(b"cid:x", version=1)))
refused("order-9-10", 9, 56, header(ohdr(method=3, cid=b"")))
refused("order-9-11", 9, 56, header(ohdr(padding=1, text=b"x")))
refused("order-9-13", 9, 157, dcf(named(b"cid:x", method=3)))
refused("order-10-11", 10, 56, header(ohdr(cid=b"i" * 257, text=b"x")))
refused("order-11-13", 11, 157, dcf(named(b"cid:x", text=b"x")))

# Order: the earlier box wins, a parent before its run

refused("order-parent-odrm", 8, 20, HEAD + odrm(odhe(version=1) + odda(), version=1))
refused("order-parent-odhe", 10, 40, inside(odhe(resized(ohdr(), 0), ctype=b"") + odda()))
refused("order-parent-ohdr", 11, 56, header(ohdr(text=b"x", run=bytes(1))))
refused("order-parent-mdri", 6, 169, FILE_A + mdri(bytes(1)))
refused("order-ohdr-odda", 11, 56, HEAD + odrm(odhe(ohdr(text=b"x")) + odda(form=box)))
refused("order-odhe-run-odda", 2, 89, inside(odhe(ohdr(run=bytes(1))) + odda(version=1)))
refused("order-odda-tail", 12, 89, inside(odhe() + odda(length=9) + bytes(3)))
refused("order-odda-second", 12, 89, inside(odhe() + odda(length=9)) + HEAD)
refused("order-first-container", 12, 89, inside(odhe() + odda(length=9)) + odrm())
refused("order-13-12", 13, 157, dcf(odrm(odhe() + odda(length=9))))
refused("order-mdri-run", 7, 129, held(odtt(bytes(15)) + odtt()) + bytes(1))
refused("order-top-size", 4, 20, HEAD + lresized(odrm(version=1), 102))
refused("order-ftyp-8", 8, 0, ftyp(major=b"isom") + bytes(1))

# Order: a missing box is found at the end of its parent's run

refused("missing-odda-then-3", 6, 20, inside(odhe()) + head(0, FREE))  # 6 at 20 before 3 at 89
refused("missing-odda-after-9", 9, 56, inside(odhe(ohdr(method=3))))
refused("missing-odda-after-2", 2, 89, inside(odhe() + bytes(3)))
refused("missing-ohdr-then-8", 6, 40, inside(odhe(b"") + odda(version=1)))
refused("missing-ohdr-after-10", 10, 40, inside(odhe(b"", ctype=b"") + odda()))
refused("missing-both", 6, 40, inside(odhe(b"")))
refused("missing-odrm-after-2", 2, 28, HEAD + box(FREE) + bytes(3))
refused("missing-odrm-after-7", 7, 28, HEAD + mdri(odtt(bytes(15))))
refused("missing-odrm-after-4", 4, 20, HEAD + head(9, FREE))
refused("missing-odrm-then-none", 6, 0, HEAD + box(FREE) + box(SKIP) + mdri(odtt()))
refused("missing-odda-then-odrm", 6, 20, inside(odhe()) + odrm())

# What document 01 prints for File A

LISTING_A = """verdict=0
boxes=7
containers=1
mutable=121
rights=0
free=40
row=0,20,0,66747970
row=20,101,0,6f64726d
row=40,49,1,6f646865
row=56,33,2,6f686472
row=89,32,1,6f646461
row=121,48,0,6d647269
row=129,40,1,66726565
"""


def outputs():
    """What has to stand under crates/vectors, by path."""
    made = {}
    args = stdout = ""
    for name, data, lent, said in VECTORS:
        path = "data/%s.dcf" % name
        assert path not in made, "two vectors are named " + name
        assert len(data) <= MOST, name
        made[path] = data
        args += "%s.dcf\n%03d\n" % (name, lent)
        stdout += name + ".dcf" + said
    assert len(FILE_A) == 169
    assert VECTORS[0][3].replace(" transaction=0", "").strip().replace(" ", "\n") + "\n" == LISTING_A
    made["args"] = args.encode()
    made["stdout"] = stdout.encode()
    return made


def main():
    made = outputs()
    there = {p.relative_to(TARGET).as_posix(): p for p in TARGET.glob("data/*")}
    if sys.argv[1:] == ["--check"]:
        wrong = [p for p in made if not (TARGET / p).is_file() or (TARGET / p).read_bytes() != made[p]]
        wrong += [p for p in there if p not in made]
        for path in wrong:
            print("differs: crates/vectors/" + path)
        return 1 if wrong else 0
    if sys.argv[1:]:
        print(__doc__)
        return 2
    (TARGET / "data").mkdir(parents=True, exist_ok=True)
    for path in there:
        if path not in made:
            there[path].unlink()
    for path, data in made.items():
        (TARGET / path).write_bytes(data)
    print("%d vectors" % len(VECTORS))
    return 0


if __name__ == "__main__":
    sys.exit(main())
