"""What a line of advice says, in a sentence."""

from .sentences import SENTENCES

BY_NAME = {name: (special, usual) for name, special, usual in SENTENCES.values()}


class Number(int):
    """A number of a line, as a sentence has it: in hexadecimal, with `d` in decimal, with `s` as the characters of a signature."""

    def __format__(self, form):
        text = self.to_bytes(8, "little").rstrip(b"\0")
        if form == "s" and len(text) == 4 and all(0x21 <= byte <= 0x7E for byte in text):
            return text.decode("ascii")
        return f"{int(self):d}" if form == "d" else f"{int(self):#x}"


def sentence(name, numbers):
    """What a line with this name and these three numbers says; nothing if the name is that of no rule."""
    special, usual = BY_NAME.get(name, ({}, ""))
    named = dict(zip(("at", "other", "point"), map(Number, numbers)))
    own = (special[number, value] for number, value in special if named[number] == value)
    return next(own, usual).format(**named)
