"""What XML cannot have and tools write for all that: some write what a test prints as it is, colours too."""

import codecs
import itertools
import re

# The rest of a colour, which goes with its escape. surefire writes an escape in a CDATA section as `&amp#27;`.
REST = rb"\[[0-9;:]*[mK]"
UNFIT = rb"(?:\x1b|&amp#27;)%b|[\x00-\x08\x0b\x0c\x0e-\x1f]" % REST
REFERENCE = rb"&#(?:0*27|x0*1[bB]);%b|&#(?:0*([0-9]{1,8})|x0*([0-9a-fA-F]{1,8}));" % REST
# What is looked for, by the end of what it is in: in a CDATA section and in a comment there are no references.
LOOKED_FOR: dict = {
    None: re.compile(rb"<!\[CDATA\[|<!--|%b|%b" % (REFERENCE, UNFIT)),
    **{end: re.compile(rb"%b|%b" % (re.escape(end), UNFIT)) for end in (b"]]>", b"-->")},
}
ENDS = {b"<![CDATA[": b"]]>", b"<!--": b"-->", b"]]>": None, b"-->": None}
# What must not come together where something between is left out: its tool wrote no end of a section there.
JOINED = {None: re.compile(rb"\][\]>]|<."), b"]]>": re.compile(rb"\][\]>]"), b"-->": re.compile(rb"-[>-]")}
ESCAPE, SURROGATE = 0x1B, "\ufffd"
CONTROLS = bytes(it for it in range(32) if it not in b"\t\n\r")
# So many bytes are looked at before a text is taken for one of UTF-16, and no reference has more.
BEGINNING, LONGEST = 1024, 64
ENCODING = re.compile(rb"""\s*<\?xml[^>]*?\sencoding\s*=\s*["']([\w.-]+)""")


def without_unfit(pieces, left_out):
    """The text of these pieces without such characters and bytes, each of which is counted, some at a time. In UTF-16,
    which no such tool writes, all stay."""
    pieces, begin = iter(pieces), b""
    for piece in pieces:
        begin += piece
        if len(begin) >= BEGINNING:
            break
    if b"\0" in begin[:4] or begin[:2] in (codecs.BOM_UTF16_LE, codecs.BOM_UTF16_BE):
        yield from itertools.chain([begin], pieces)
        return
    declared, taker = ENCODING.match(begin), Taker(left_out)
    if declared and declared[1].lower() not in (b"utf-8", b"utf8"):
        taker.decoder = None
    for piece in itertools.chain([begin], pieces):
        yield taker.take(piece)
    yield taker.take(b"", True)


class Taker:
    """Takes the pieces of a text, in which U+FFFD is in the place of each run of bytes that are not UTF-8."""

    def __init__(self, left_out):
        self.left_out, self.rest, self.end, self.before, self.has_left = left_out, b"", None, b"", False
        codecs.register_error("norigully", self.replaced)
        self.decoder = codecs.getincrementaldecoder("utf-8")("norigully")

    def replaced(self, error):
        self.left_out.update(("byte", f"0x{it:02X}") for it in error.object[error.start : error.end])
        return SURROGATE, error.end

    def take(self, piece, is_last=False):
        """A piece and what was kept of the one before, but for some bytes that may begin what goes on behind them."""
        text = self.rest + (self.decoder.decode(piece, is_last).encode() if self.decoder else piece)
        parts, at, until = [], 0, len(text) if is_last else max(0, len(text) - LONGEST)
        # To look for what is not there takes a hundred times as long.
        may_have = self.end or b"<!" in text or b"&" in text or len(text.translate(None, CONTROLS)) < len(text)
        while at < until:
            found = LOOKED_FOR[self.end].search(text, at) if may_have else None
            if not found or found.start() >= until:
                self.add(parts, text[at:until])
                at = until
                break
            self.add(parts, text[at : found.start()])
            at = found.end()
            if found[0] in ENDS:
                self.end = ENDS[found[0]]
                self.add(parts, found[0])
            else:
                self.add_character(parts, found)
        self.rest = text[at:]
        return b"".join(parts)

    def add_character(self, parts, found):
        """Adds a reference, or counts what is left out."""
        named = self.end is None and (found[1] or found[2])
        code = ESCAPE if not named and found[0][:1] in b"&\x1b" else found[0][0]
        if named:
            code = int(found[1]) if found[1] else int(found[2], 16)
            if fits(code):
                self.add(parts, found[0])
                return
        self.left_out["character", f"U+{code:04X}"] += 1
        self.has_left = True

    def add(self, parts, text):
        if text:
            if self.has_left and JOINED[self.end].match(self.before + text[:1]):
                parts.append(b" ")
            parts.append(text)
            self.before, self.has_left = text[-1:], False


def fits(code):
    """Whether XML can have the character of this code."""
    return code in (9, 10, 13) or 32 <= code < 0xD800 or 0xE000 <= code < 0xFFFE or 0x10000 <= code < 0x110000
