"""Reads the pages of tools/report back: as XML, by the identifiers and the titles of their elements."""

import re
import xml.etree.ElementTree as xml

HTML, SVG = "{http://www.w3.org/1999/xhtml}", "{http://www.w3.org/2000/svg}"
# What would make a browser load something, or run it.
LOADS = {"src", "srcset", "action", "formaction", "background", "cite", "data", "poster", "style-src"}
ELEMENTS = set("html head meta title style body main section article h1 h2 h3 p a b br strong span code pre details summary ul li dl dt dd".split())
SVG_ELEMENTS = set("svg title desc defs pattern g rect path circle text a".split())


class Page:
    """A page: its elements by their identifiers."""

    def __init__(self, text: str):
        self.text = text
        self.root = xml.fromstring(text)
        self.by_id = {}
        self.twice = []
        for one in self.root.iter():
            if "id" in one.attrib:
                self.twice += [one.get("id")] if one.get("id") in self.by_id else []
                self.by_id[one.get("id")] = one

    def problems(self) -> str:
        """What is not as a page has to be."""
        wrong = [f"{name} twice" for name in self.twice]
        for one in self.root.iter():
            wrong += [f"element {one.tag}"] if one.tag not in {HTML + it for it in ELEMENTS} | {SVG + it for it in SVG_ELEMENTS} else []
            for name, value in one.attrib.items():
                if name.rpartition("}")[2].lower() in LOADS or name.lower().startswith("on"):
                    wrong.append(f"attribute {name}")
                if name == "href" and (value[:1] != "#" or value[1:] not in self.by_id):
                    wrong.append(f"a link to {value}")
        style = self.root.find(f"{HTML}head/{HTML}style").text
        wrong += [f"style {found}" for found in re.findall(r"@import.*|url\((?!#).*", style)]
        for picture in self.pictures().values():
            names = picture.get("aria-labelledby").split()
            if picture.get("role") != "img" or any(name not in self.by_id or not self.by_id[name].text for name in names):
                wrong.append(f"{picture.get('id')}: no text for a screen reader")
        return "; ".join(wrong)

    def pictures(self) -> dict:
        """The pictures by their names."""
        return {one.get("id"): one for one in self.root.iter(f"{SVG}svg") if one.get("id")}

    def picture(self, name: str):
        return self.pictures().get(name)

    def words(self, tag: str, class_: str = "") -> list:
        """The texts of the elements with this tag, and this class if one is given."""
        found = (one for one in self.root.iter(HTML + tag) if class_ in one.get("class", "").split() or not class_)
        return ["".join(one.itertext()) for one in found]

    def titles(self, name: str) -> list:
        """The titles of the elements of a picture, without that of the picture itself."""
        picture = self.picture(name)
        return [] if picture is None else [one.text for one in picture.iter(f"{SVG}title") if not one.get("id")]

    def cards(self) -> list:
        """Of each card the name of its finding, its line, and the element to which its link leads, or None."""
        found = []
        for card in (one for one in self.root.iter(f"{HTML}article")):
            links = [one.get("href")[1:] for one in card.iter(f"{HTML}a")]
            name, line = card.find(f"{HTML}h3/{HTML}strong").text, card.find(f"{HTML}h3/{HTML}code").text
            found.append((name, line, self.by_id[links[0]] if links else None))
        return found

    def nodes(self) -> int:
        """How many nodes the picture of the PPTT stands for: a box that is drawn once for several counts as often, and so does what is
        in it."""
        picture = self.picture("topology")
        return 0 if picture is None else sum(count_of(one) for one in picture)


def count_of(element) -> int:
    times = int(element.get("data-count", "1"))
    own = 1 if element.get("class") == "node" and element.tag == f"{SVG}g" else 0
    return times * (own + sum(count_of(one) for one in element))


def said_at(element) -> str:
    """What the titles of an element say."""
    return " ".join(one.text for one in element.iter(f"{SVG}title"))
