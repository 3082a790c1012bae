"""hex.py IMAGES SEED OURS..: what interop/hex runs; README.md beside it says what is compared.

OURS is the command that starts hex.c.
"""
import collections
import concurrent.futures
import io
import os
import random
import re
import shutil
import struct
import subprocess
import sys
import tempfile
import threading

try:
    import intelhex
    import intelhex.__version__
except ImportError:
    intelhex = None

SIZE = 256
LENGTHS = (1, 7, 16, 32, 255)
SHOWN = 5  # disagreements that are printed of a peer
LISTED = 100  # images over which it is listed what else a peer writes


class Refused(Exception):
    """A peer does not take the text, or writes none."""


# The three peers. Each takes a text and gives the bytes that it sets, as a dict, and the other way round.


def spawn(words, given=b""):
    """What a program prints, and whether it said something beside it."""
    ran = subprocess.run(words, input=given, stdout=subprocess.PIPE, stderr=subprocess.PIPE)
    if ran.returncode != 0:
        raise Refused(ran.stderr.decode(errors="replace").strip())
    return ran.stdout, bool(ran.stderr.strip())


def first_line(words):
    return spawn(words)[0].decode().splitlines()[0]


def motorola(held):
    """Bytes as S-records, by which srecord and binutils are given them: at most 16 in a record."""
    lines = []
    for address, data in runs(held):
        for at in range(0, len(data), 16):
            part = data[at:at + 16]
            record = bytes([len(part) + 3, 0, address + at]) + part
            lines.append("S1%s%02X\n" % (record.hex().upper(), 255 - sum(record) % 256))
    return "".join(lines + ["S9030000FC\n"]).encode()


def of_motorola(text):
    held = {}
    for line in text.decode("ascii").split():
        if line[:2] in ("S1", "S2", "S3"):
            wide = int(line[1]) + 1
            record = bytes.fromhex(line[2:])
            address = int.from_bytes(record[1:1 + wide], "big")
            held.update(enumerate(record[1 + wide:-1], address))
    return held


class Srecord:
    name, package = "srecord", "srecord"
    found = shutil.which("srec_cat") is not None
    styles = [(length, crlf) for length in LENGTHS for crlf in (False, True)]
    per_image = 4

    def version(self):
        return first_line(["srec_cat", "-version"])

    def read(self, text):
        out, warned = spawn(["srec_cat", "-", "-intel", "-output", "-", "-motorola", "-disable=header"], text)
        return of_motorola(out), warned

    def write(self, held, style):
        length, crlf = style
        return self.write_with(held, "-address-length=2", "-obs=%d" % length, *["-line-termination=crlf"] * crlf)

    def write_with(self, held, *words):
        return spawn(["srec_cat", "-", "-motorola", "-output", "-", "-intel", *words], motorola(held))[0]

    # without -address-length=2 it begins with a record of type 04
    others = [
        ("by default", ()),
        ("-address-length=3", ("-address-length=3",)),
        ("-address-length=2 -execution-start-address=16", ("-address-length=2", "-execution-start-address=16")),
        ("-execution-start-address=16", ("-execution-start-address=16",)),
        ("-address-length=2 -disable=footer", ("-address-length=2", "-disable=footer", "-disable=exec-start-address")),
        ("-address-length=2 -line-termination=cr", ("-address-length=2", "-line-termination=cr")),
    ]


class Binutils:
    name, package = "binutils", "binutils"
    found = shutil.which("objcopy") is not None
    styles = [(16, True), (16, False)]  # it writes 16 bytes in a record and CR LF; LF is made of that here
    per_image = 2

    def version(self):
        return first_line(["objcopy", "--version"])

    def convert(self, text, *words):
        with tempfile.TemporaryDirectory() as folder:
            before, after = os.path.join(folder, "before"), os.path.join(folder, "after")
            with open(before, "wb") as file:
                file.write(text)
            warned = spawn(["objcopy", *words, before, after])[1]
            with open(after, "rb") as file:
                return file.read(), warned

    def read(self, text):
        out, warned = self.convert(text, "-I", "ihex", "-O", "srec")
        return of_motorola(out), warned

    def write(self, held, style):
        text = self.write_with(held)
        return text if style[1] else text.replace(b"\r\n", b"\n")

    def write_with(self, held, *words):
        return self.convert(motorola(held), "-I", "srec", "-O", "ihex", *words)[0]

    others = [("--set-start=16", ("--set-start=16",))]


class Intelhex:
    name, package = "intelhex", "python3-intelhex"
    found = intelhex is not None
    styles = Srecord.styles
    per_image = 4

    def version(self):
        return "python3-intelhex " + intelhex.__version__.version_str

    def read(self, text):
        try:
            got = intelhex.IntelHex(io.StringIO(text.decode("latin-1"), newline=""))
        except intelhex.IntelHexError as error:
            raise Refused(str(error))
        return {address: got[address] for address in got.addresses()}, False

    def write(self, held, style):
        length, crlf = style
        return self.write_with(held, None, byte_count=length, eolstyle="CRLF" if crlf else "native")

    def write_with(self, held, start, **words):
        made, text = intelhex.IntelHex(held), io.StringIO(newline="")
        made.start_addr = start
        made.write_hex_file(text, **words)
        return text.getvalue().encode("latin-1")

    others = [("start_addr EIP 16", ({"EIP": 16},)), ("start_addr CS 0 IP 16", ({"CS": 0, "IP": 16},))]


# Ours, and what the request says of a text.


class Ours:
    """hex.c, one request at a time."""

    def __init__(self, command):
        self.process = subprocess.Popen(command, stdin=subprocess.PIPE, stdout=subprocess.PIPE)
        self.turn = threading.Lock()

    def get(self, length):
        got = self.process.stdout.read(length)
        if len(got) != length:
            sys.exit("the program over our library has ended")
        return got

    def ask(self, request):
        self.process.stdin.write(request)
        self.process.stdin.flush()
        return struct.unpack("<3L", self.get(12))

    def write(self, image, marks):
        with self.turn:
            number, length, _ = self.ask(b"w" + image + marks)
            return number, self.get(length) if number == 0 else b""

    def read(self, text, image, marks):
        with self.turn:
            number, line, _ = self.ask(b"r" + struct.pack("<L", len(text)) + text + image + marks)
            return number, line, self.get(SIZE), self.get(SIZE)


def by_request(text):
    """What the request says: number and line of its refusal, and the bytes that the text sets."""
    held, line, at = {}, 0, 0
    while at < len(text):
        line += 1
        end = text.find(b"\n", at)
        if end < 0:
            return 20, line, {}
        digits = re.fullmatch(rb":((?:[0-9A-Fa-f]{2}){5,260})\r?", text[at:end])
        if digits is None:
            return 20, line, {}
        at = end + 1
        record = bytes.fromhex(digits[1].decode())
        count, address, kind, data = record[0], record[1] * 256 + record[2], record[3], record[4:-1]
        places = range(address, address + count)
        if count != len(data) or kind == 1 and count > 0:
            return 20, line, {}
        if sum(record) % 256 != 0:
            return 21, line, {}
        if kind > 1:
            return 22, line, {}
        if kind == 1:
            return (26, 0, {}) if at < len(text) else (0, 0, held)
        if count > 0 and address + count > SIZE:
            return 23, line, {}
        if any(place in held for place in places):
            return 24, line, {}
        held.update(zip(places, data))
    return 25, 0, {}


# Images.


def runs(held):
    """The unbroken runs, each with its address."""
    found = []
    for address in sorted(held):
        if found and found[-1][0] + len(found[-1][1]) == address:
            found[-1][1].append(held[address])
        else:
            found.append((address, bytearray([held[address]])))
    return [(address, bytes(data)) for address, data in found]


def places(chance, serial):
    """Which bytes are set. The first few images are the edges."""
    edges = [[], range(SIZE), [0], [255], [15], [16], [14, 15, 16], range(0, SIZE, 2), range(1, SIZE, 2), range(1, SIZE), range(255), range(240, SIZE)]
    if serial < len(edges):
        return edges[serial]
    kind = chance.randrange(100)
    if kind < 1:
        return []
    if kind < 5:
        return range(SIZE)
    if kind < 15:
        return [chance.choice([chance.randrange(SIZE), 16 * chance.randrange(16), 16 * chance.randrange(16) + 15])]
    if kind < 35:  # a rule
        return range(chance.randrange(1, SIZE + 1))
    if kind < 55:  # runs across the borders of sixteen bytes
        return [
            place
            for border in chance.sample(range(16, SIZE, 16), chance.randrange(1, 9))
            for place in range(border - chance.randrange(0, 18), border + chance.randrange(0, 18))
            if 0 <= place < SIZE
        ]
    if kind < 80:  # runs anywhere
        return [
            place
            for _ in range(chance.randrange(1, 12))
            for start in [chance.randrange(SIZE)]
            for place in range(start, min(SIZE, start + chance.randrange(1, 40)))
        ]
    dense = chance.choice([0.02, 0.1, 0.3, 0.5, 0.7, 0.9, 0.98])
    return [place for place in range(SIZE) if chance.random() < dense]


class Image:
    """Bytes of which some are set; the others, and the image and marks that are read onto, are whatever they are."""

    def __init__(self, seed, serial):
        chance = random.Random("%d %d" % (seed, serial))
        self.serial = serial
        self.bytes = chance.choice([bytes(SIZE), b"\xff" * SIZE] + [chance.randbytes(SIZE)] * 18)
        self.held = {place: self.bytes[place] for place in places(chance, serial)}
        self.marks = bytes(chance.randrange(1, 256) if place in self.held else 0 for place in range(SIZE))
        self.onto, self.onto_marks = chance.randbytes(SIZE), chance.randbytes(SIZE)

    def after(self, held):
        """Image and marks once these bytes were read."""
        return (
            bytes(held.get(place, self.onto[place]) for place in range(SIZE)),
            bytes(place in held for place in range(SIZE)),
        )


def varied(text, serial):
    """A peer's text as it is, in lower case, and with its data records in another order."""
    lines = text.splitlines(keepends=True)
    data, end = lines[:-1], lines[-1:]
    random.Random(serial).shuffle(data)
    return text, text.lower(), b"".join(data + end)


# The comparison.


class Tally(collections.Counter):
    """What was counted of a peer, and the first disagreements."""

    def __init__(self):
        super().__init__()
        self.shown = []

    def disagree(self, what, image, text):
        self["disagreed"] += 1
        self.shown.append("%s, image %d:\n%s" % (what, image.serial, text.decode("latin-1")))

    def add(self, other):
        self.update(other)
        self.shown += other.shown


def read_by_ours(ours, image, text, tally, name):
    """Ours reads a peer's text of the image. It has to answer as the request says, and a text that is not refused is the image."""
    number, line, held = by_request(text)
    got = ours.read(text, image.onto, image.onto_marks)
    after = image.after(held) if number == 0 else (image.onto, image.onto_marks)
    tally["theirs"] += 1
    if got[:2] != (number, line):
        tally.disagree("ours answers %d line %d to a text of %s, and not %d line %d" % (*got[:2], name, number, line), image, text)
    elif got[2:] != after:
        tally.disagree("ours leaves another image or other marks behind a text of %s" % name, image, text)
    elif number == 0 and held != image.held:
        tally.disagree("a text of %s sets other bytes" % name, image, text)
    else:
        tally["theirs agreed" if number == 0 else "refused"] += 1
    return number


def read_by_peer(peer, image, text, tally):
    """A peer reads our text of the image. One that sets nothing is none to some of them."""
    try:
        held = peer.read(text)[0]
    except Refused as refused:
        if image.held:
            tally["ours"] += 1
            tally.disagree("%s refuses ours: %s" % (peer.name, refused), image, text)
        else:
            tally["empty not taken"] += 1
        return
    tally["ours"] += 1
    if held != image.held:
        tally.disagree("%s reads other bytes from ours" % peer.name, image, text)
    else:
        tally["ours agreed"] += 1


def compare(ours, peer, image, text):
    tally = Tally()
    read_by_peer(peer, image, text, tally)
    for k in range(peer.per_image):
        serial = image.serial * peer.per_image + k
        try:
            theirs = peer.write(image.held, peer.styles[serial % len(peer.styles)])
        except Refused as refused:
            if image.held:
                tally.disagree("%s writes nothing: %s" % (peer.name, refused), image, b"")
            else:
                tally["empty not written"] = 1  # not for each style
            continue
        for one in varied(theirs, serial):
            read_by_ours(ours, image, one, tally, peer.name)
    return tally


def list_others(ours, peer, images, rest):
    """What a peer writes with other options, and what ours answers to it."""
    for label, words in peer.others:
        answers = collections.Counter()
        for image in images:
            if not image.held:
                continue
            try:
                text = peer.write_with(image.held, *words)
            except Refused:  # another version, which has no such option
                continue
            answers[read_by_ours(ours, image, text, rest, peer.name)] += 1
        told = ", ".join(("refused %d: %d" % pair) if pair[0] else "read %d" % pair[1] for pair in sorted(answers.items()))
        print("  %s, %s: %d written; ours: %s" % (peer.name, label, sum(answers.values()), told))


END = ":00000001FF\n"
ONE = ":0100030001FB\n"
TEXTS = [
    ("a byte and the end", ONE + END),
    ("the end alone", END),
    ("nothing at all", ""),
    ("CR LF", (ONE + END).replace("\n", "\r\n")),
    ("CR alone", (ONE + END).replace("\n", "\r")),
    ("lower case", (ONE + END).lower()),
    ("no LF at the end", ONE + END[:-1]),
    ("an empty line between", ONE + "\n" + END),
    ("an empty line before", "\n" + ONE + END),
    ("an empty line behind the end", ONE + END + "\n"),
    ("a record behind the end", ONE + END + ":0100040002F9\n"),
    ("words behind the end", ONE + END + "end\n"),
    ("a second end", ONE + END + END),
    ("no end", ONE),
    ("words before", "rule\n" + ONE + END),
    ("a blank before the colon", " " + ONE + END),
    ("a blank behind the record", ONE[:-1] + " \n" + END),
    ("a digit too many", ONE[:-1] + "0\n" + END),
    ("a byte too many", ONE[:-1] + "00\n" + END),
    ("a byte less than it says", ":02000300FA\n" + END),
    ("a letter that is no digit", ":010003000GFB\n" + END),
    ("a wrong checksum", ":0100030001FC\n" + END),
    ("data in the end", ONE + ":0100000101FD\n"),
    ("an address in the end", ONE + ":00123401B9\n"),
    ("no data, at address 0x1234", ONE + ":00123400BA\n" + END),
    ("a byte at address 256", ":0101000001FD\n" + END),
    ("a byte set twice to the same", ONE + ONE + END),
    ("a byte set twice", ONE + ":0100030002FA\n" + END),
    ("type 02, base 0", ":020000020000FC\n" + ONE + END),
    ("type 03", ":0400000300000010E9\n" + ONE + END),
    ("type 04, base 0", ":020000040000FA\n" + ONE + END),
    ("type 05", ":0400000500000010E7\n" + ONE + END),
    ("type 06", ":00000006FA\n" + ONE + END),
]


def set_bytes(held):
    return " ".join("%02X=%02X" % pair for pair in sorted(held.items())) or "nothing"


def of_peer(peer, text):
    try:
        held, warned = peer.read(text)
    except Refused:
        return "refused"
    return set_bytes(held) + (", warns" if warned else "")


def list_texts(ours, peers, rest):
    """What each makes of the same texts. Ours has to answer as the request says."""
    empty = Image(0, 0)
    print("  %-30s %-12s" % ("text", "ours") + "".join("%-14s" % peer.name for peer in peers).rstrip())
    for label, words in TEXTS:
        text = words.encode()
        number, line, held = by_request(text)
        empty.held = held
        read_by_ours(ours, empty, text, rest, "the list, " + label)
        told = set_bytes(held) if number == 0 else "%d line %d" % (number, line) if line else "%d" % number
        print("  %-30s %-12s" % (label, told) + "".join("%-14s" % of_peer(peer, text) for peer in peers).rstrip())


def find_peers():
    """Those that are installed. Of each is said which it is, or that it is not here."""
    for peer in (Srecord(), Binutils(), Intelhex()):
        if peer.found:
            print("%s: %s" % (peer.name, peer.version()))
            yield peer
        else:
            print("%s: not here, and not compared; Debian's package %s has it" % (peer.name, peer.package))


def write_ours(ours, images, tally):
    """Our text of each image."""
    for image in images:
        number, text = ours.write(image.bytes, image.marks)
        if number != 0 or by_request(text) != (0, 0, image.held):
            tally.disagree("ours answers %d, and its text is not the image" % number, image, text)
        yield text


def summary(peer, tally):
    line = "%s: read %d of ours, agreed %d; ours read %d of theirs, agreed %d, refused as the request says %d" % (
        peer.name,
        tally["ours"],
        tally["ours agreed"],
        tally["theirs"],
        tally["theirs agreed"],
        tally["refused"],
    )
    if tally["empty not taken"] or tally["empty not written"]:
        line += "; of the empty images it did not take %d and did not write %d" % (tally["empty not taken"], tally["empty not written"])
    return line


def main():
    count, seed, ours = int(sys.argv[1]), int(sys.argv[2]), Ours(sys.argv[3:])
    peers = list(find_peers())
    if not peers:
        print("interop/hex: nothing was compared")
        return 2

    images = [Image(seed, serial) for serial in range(count)]
    print(
        "%d images, seed %d, %d of them empty, %d full"
        % (count, seed, sum(not image.held for image in images), sum(len(image.held) == SIZE for image in images))
    )
    rest = Tally()
    texts = list(write_ours(ours, images, rest))
    tallies = {peer.name: Tally() for peer in peers}
    with concurrent.futures.ThreadPoolExecutor(min(4, os.cpu_count() or 1)) as pool:
        for peer in peers:
            for tally in pool.map(lambda image, text: compare(ours, peer, image, text), images, texts):
                tallies[peer.name].add(tally)

    print("What else they write:")
    for peer in peers:
        list_others(ours, peer, images[:LISTED], rest)
    print("What each makes of a text, with the bytes that it sets:")
    list_texts(ours, peers, rest)

    every = [rest, *tallies.values()]
    for tally in every:
        for shown in tally.shown[:SHOWN]:
            print("DISAGREED: " + shown)
    for peer in peers:
        print(summary(peer, tallies[peer.name]))
    wrong = sum(tally["disagreed"] for tally in every)
    print("interop/hex: %d peers, %d disagreed" % (len(peers), wrong))
    return 1 if wrong else 0


sys.exit(main())
