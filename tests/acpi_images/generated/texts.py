"""Writes images as image text in each form that a text may have, damages such texts, and makes texts of lines of every form."""

from ..text import LONGEST_LINE, LONGEST_TEXT, TOP

# Lines of every form, right and wrong.
ADDRESSES = (
    b"@0", b"@00", b" @0", b"\t@1 ", b"@0# c", b"@0 # c", b"@0\r", b"@fF", b"@10", b"@0000000000000000", b"@fffffffffffffff0",
    b"@ffffffffffffffff", b"@FFFFFFFFFFFFFFFE", b"@e0000",
)
DATA = (
    b"00", b"0001", b"00 01", b"00\t01", b" 00", b"00 ", b"\t 00 \t", b"aB Cd", b"00\r", b"00#", b"00 # 0g", b"00 # \xff\0", b"00" * 16,
    b"0001 02  03", b"00 01" * 3 + b" ff",
)
EMPTY = (b"", b" ", b"\t \t", b"\r", b" \r", b"#", b"# 00", b" # @", b"##\r")
BAD = (
    b"0", b"000", b"00 0", b"0 0", b"00 1 1", b"0\t0", b"00\r\r", b"00\r ", b"00\r#", b"\r\r", b"\r#", b" \r ", b"@", b"@ 0", b"@\t0",
    b"@ ", b"@#0", b"@g", b"@0x0", b"@00000000000000000", b"@10000000000000000", b"@0 00", b"@0 1", b"@@0", b"@-1", b"00@0", b"0x00",
    b"00,00", b"00:00", b"0g", b"g0", b"/0", b":0", b"@/", b"`0", b"G0", b"00\x0b", b"00\x0c00", b"\xa000", b"\xef\xbb\xbf00", b"\0",
    b"00\x00", b"--", b"yes", b"@1\r\r", b"\x8500",
)
EACH_FORM = (*BAD, *DATA, *ADDRESSES, *EMPTY)
FORMS = (*ADDRESSES * 3, *DATA * 3, *EMPTY * 2, *BAD)
LINE_ENDS = (b"\n", b"\n", b"\n", b"\r\n")
ODD_BYTES = b"\0\t\n\r #@0 9:AFGaf/`g\x7f\x80\xff"


class Style:
    """How a text is written: what does not change its meaning."""

    def __init__(self, dice):
        self.dice = dice
        self.width = dice.choice((1, 3, 16, 16, 16, 16, 64, 64, 256, 5000))
        self.between = dice.choice((b"", b" ", b" ", b"\t", b"  ", b" \t "))
        self.is_plain = dice.random() < 0.4
        self.is_rising = dice.random() < 0.6
        self.is_each_addressed = dice.random() < 0.3

    def case(self, text):
        return self.dice.choice((text, text, text.upper())) if not self.is_plain else text

    def address(self, at):
        digits = b"%x" % at
        if not self.is_plain and self.dice.random() < 0.2:
            digits = digits.rjust(self.dice.randrange(len(digits), 17), b"0")
        return b"@" + self.case(digits)

    def data(self, data):
        return self.case(data.hex(" ").encode()).replace(b" ", self.between)

    def dressed(self, line):
        """A line with blanks, a comment and its end."""
        dice = self.dice
        if self.is_plain:
            return line + b"\n"
        if dice.random() < 0.2:
            line = dice.choice((b" ", b"\t", b"")) + line + dice.choice((b" ", b"\t \t", b""))
        if dice.random() < 0.1:
            line += dice.choice((b"#", b" # c", b"# 00 @1", b"#\xff\0"))
        line += dice.choice(LINE_ENDS)
        if dice.random() < 0.05:
            line += dice.choice(EMPTY[:-1]) + b"\n"
        return line


def pieces_of(style, image):
    """Rows of the image, each with its address, in the order in which they are written."""
    dice, pieces = style.dice, []
    for start, data in image.pieces().items():
        whole = dice.random() < 0.5
        size = len(data) if whole else dice.randrange(1, len(data) + 1)
        pieces.extend((start + at, data[at : at + size]) for at in range(0, len(data), size))
    if not style.is_rising:
        dice.shuffle(pieces)
    return pieces


def rendered(dice, image):
    """Text of this image, in a style at random."""
    style, lines, next_at = Style(dice), [], None
    for start, data in pieces_of(style, image):
        for at in range(0, len(data), style.width):
            if start + at != next_at or style.is_each_addressed:
                lines.append(style.dressed(style.address(start + at)))
            row = data[at : at + style.width]
            lines.append(style.dressed(style.data(row)))
            next_at = start + at + len(row)
    text = b"".join(lines)
    return text.rstrip(b"\n") if dice.random() < 0.1 else text


def long_line(dice):
    """A line of as many bytes as one may have, or of one more or fewer; of blanks, of a comment, of data, with a CR."""
    size = LONGEST_LINE + dice.choice((-1, 0, 0, 1, 1))
    data = b"00" * (size // 2) + b" " * (size % 2)
    return dice.choice((b" " * size, b"#" * size, b" " * (size - 1) + b"\r", data, b"@0" + b" " * (size - 2)))


def damaged(dice, text):
    """A text with one thing changed, which may or may not matter."""
    at = dice.randrange(len(text) + 1)
    lines = text.split(b"\n")
    line = dice.randrange(len(lines))
    what = dice.choice(("cut", "byte", "insert", "drop", "line", "repeat", "long", "top", "first"))
    if what == "cut":
        return text[:at]
    if what == "byte":
        return text[:at] + bytes([dice.choice(ODD_BYTES)]) + text[at + 1 :]
    if what == "insert":
        return text[:at] + bytes([dice.choice(ODD_BYTES)]) + text[at:]
    if what == "drop":
        return text[:at] + text[at + 1 :]
    if what == "line":
        lines.insert(line, dice.choice(FORMS))
    elif what == "repeat":
        lines.insert(dice.randrange(len(lines) + 1), lines[line])
    elif what == "long":
        lines.insert(line, long_line(dice))
    elif what == "top":
        size = dice.choice((1, 2, 16, 32))
        lines += [b"@%x" % (TOP - size), b"00" * (size + dice.choice((0, 0, 1))), dice.choice((b"", b"00", b"@0"))]
    else:
        lines = lines[dice.choice((1, 2)) :]
    return b"\n".join(lines)


def longest_text(is_ended, is_too_long):
    """A text of as many bytes as one may have, or of one more, whose last line ends or does not."""
    line = b"#" * (LONGEST_LINE - 1) + b"\n"
    text = line * (LONGEST_TEXT // len(line) + 1)
    end = b"\n" if is_ended else b"#"
    return text[: LONGEST_TEXT + is_too_long - 1] + end


def lines_of_every_form(dice, place):
    """A short text of lines, one of which has the form whose turn it is; no bad line comes before it."""
    lines = [dice.choice((*DATA, *EMPTY)) for _ in range(dice.choice((0, 0, 1)))]
    if dice.random() < 0.85:
        lines.insert(0, dice.choice(ADDRESSES))
    lines.append(EACH_FORM[place % len(EACH_FORM)])
    lines += [dice.choice(FORMS) for _ in range(dice.choice((0, 1, 2, 4)))]
    return b"".join(line + dice.choice(LINE_ENDS) for line in lines[:-1]) + lines[-1] + dice.choice((b"", b"\n", b"\r\n", b"\r"))
