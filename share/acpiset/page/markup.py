"""Elements of HTML and SVG, in a form that readers of XML take too. All text is escaped here, wherever it comes from."""

import html
import unicodedata

NARROW, WIDE = frozenset("iljtfrI.,:;|!'()[] "), frozenset("mwMW%@")
NARROW_SHARE, WIDE_SHARE, CAPITAL_SHARE, USUAL_SHARE = 0.45, 1.0, 0.78, 0.66


def printed(character):
    """A character that is drawn, or an escape of one that is not: control characters, those that change the direction of the text, and
    those that XML does not allow."""
    return character if unicodedata.category(character)[0] != "C" else f"\\u{{{ord(character):x}}}"


def escaped(value):
    """A text as it may be inside an element, or inside an attribute's quotation marks."""
    told = str(value)
    return html.escape(told if told.isascii() and told.isprintable() else "".join(map(printed, told)))


def number(value):
    """A coordinate, rounded to a tenth."""
    return format(round(value, 1), "g") if isinstance(value, float) else str(value)


def tag(name, attributes):
    told = []
    for key, value in attributes.items():
        if value is not None:
            value = number(value) if isinstance(value, (int, float)) else escaped(value)
            told.append(f' {key.rstrip("_").replace("_", "-")}="{value}"')
    return name + "".join(told)


def element(name, /, *inside, **attributes):
    """An element with parts that are elements already. An attribute's name may end in _, where it is a word of Python, and its - is a _.
    One whose value is None is left out."""
    return f"<{tag(name, attributes)}>{''.join(inside)}</{name}>" if inside else f"<{tag(name, attributes)}/>"


def title(text):
    """What a browser shows of an element under the pointer, and a screen reader says of it."""
    return element("title", escaped(text))


def label(x, y, text, class_=None, anchor=None):
    """A text in a picture, whose baseline is at y; nothing for an empty one. The anchor says where x is in it: its middle or its end, else
    its start."""
    if text == "":
        return ""
    return element("text", escaped(text), x=x, y=y, class_=class_, text_anchor=anchor)


def box(x, y, width, height, class_, told="", id_=None, **attributes):
    inside = [title(told)] if told else []
    return element("rect", *inside, id=id_, x=x, y=y, width=max(width, 1), height=height, class_=class_, **attributes)


def line(path, class_, told=""):
    inside = [title(told)] if told else []
    return element("path", *inside, d=path, class_=class_)


def path(*words):
    """The path of commands and coordinates."""
    return " ".join(word if isinstance(word, str) else number(word) for word in words)


def picture(name, width, height, told, parts, description):
    """An image that says what it is, and in words what it has. The name begins the identifiers of both texts."""
    ids = f"{name}-title", f"{name}-text"
    texts = element("title", escaped(told), id=ids[0]), element("desc", escaped(description), id=ids[1])
    return element(
        "svg", *texts, *parts, xmlns="http://www.w3.org/2000/svg", id=name, viewBox=f"0 0 {number(width)} {number(height)}",
        width=width, height=height, role="img", aria_labelledby=" ".join(ids),
    )


def note(text: str) -> str:
    """A line below a picture; nothing if there is nothing to say."""
    return element("p", escaped(text), class_="note") if text else ""


def key(drawn: str, width: float, words: str) -> str:
    """An item of a legend: a small drawing, which a screen reader leaves out, and what it means."""
    small = element("svg", drawn, xmlns="http://www.w3.org/2000/svg", width=width, height=12, aria_hidden="true")
    return element("span", small, escaped(f" {words}"), class_="key")


def share_of(character):
    if character in NARROW:
        return NARROW_SHARE
    if character in WIDE:
        return WIDE_SHARE
    return CAPITAL_SHARE if character.isupper() else USUAL_SHARE if character.isascii() else 1.0


def width_of(text, size=12):
    """At most how wide a text is drawn, in any usual typeface without serifs of this size."""
    return size * sum(map(share_of, str(text)))
