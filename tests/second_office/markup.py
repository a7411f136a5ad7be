"""What a page may consist of: elements and attributes of a known list, and nothing that runs or is loaded.

`faults_of` reads a page by Python's `html.parser`. It knows nothing of what the page shows.
"""

from html.parser import HTMLParser
from typing import List, Optional, Tuple

Attributes = List[Tuple[str, Optional[str]]]

# Elements that have no end, those whose end is left out, and those within which text is not read.
VOID = {"meta", "path", "rect", "circle"}
OPEN = {"li", "tr", "td", "th"}
PAINT = {"class", "d"}
# The attributes that each element may have.
KNOWN = {
    "html": {"lang"}, "head": set(), "meta": {"charset", "name", "content"}, "title": set(), "style": set(), "body": set(),
    "h1": set(), "h2": set(), "p": {"class"}, "div": {"class"}, "section": {"id"}, "ul": {"class"}, "li": set(), "figure": set(), "figcaption": set(),
    "b": set(), "s": set(), "bdi": set(), "small": set(), "code": set(), "span": {"class"}, "a": {"href"}, "details": set(), "summary": set(),
    "table": set(), "thead": set(), "tbody": set(), "tr": {"class"}, "td": set(), "th": {"class"},
    "svg": {"viewbox", "role", "aria-label"}, "g": {"class", "stroke-width"}, "path": PAINT, "circle": {"cx", "cy", "r"},
    "rect": {"x", "y", "width", "height"}, "text": {"class", "x", "y", "transform"},
}
# Of the style: nothing is loaded from anywhere.
LOADS = ("url(", "@import", "src:", "expression(")


class Reader(HTMLParser):
    """Reads a page, and notes what is wrong with it."""

    def __init__(self) -> None:
        super().__init__(convert_charrefs=True)
        self.faults: List[str] = []
        self.opened: List[str] = []
        self.ids: List[str] = []

    def handle_starttag(self, tag: str, attrs: Attributes) -> None:
        # Inside a picture `title` is text of the picture.
        if tag not in KNOWN:
            self.faults.append(f"an element {tag}")
        for name, value in attrs:
            if name not in KNOWN.get(tag, set()):
                self.faults.append(f"an attribute {name} of {tag}")
            if name == "href" and not (value or "").startswith("#"):
                self.faults.append(f"a link to {value}")
            if name == "id":
                self.ids.append(value or "")
        if tag not in VOID | OPEN:
            self.opened.append(tag)

    def handle_endtag(self, tag: str) -> None:
        if tag in VOID:  # as <path/> ends
            return
        if not self.opened or self.opened.pop() != tag:
            self.faults.append(f"an end of {tag}")

    def handle_data(self, data: str) -> None:
        if self.opened[-1:] == ["style"]:
            self.faults += [f"{word} in the style" for word in LOADS if word in data]

    def handle_comment(self, data: str) -> None:
        self.faults.append("a comment")

    def handle_decl(self, decl: str) -> None:
        if decl != "DOCTYPE html":
            self.faults.append(f"a declaration {decl}")

    def handle_pi(self, data: str) -> None:
        self.faults.append("an instruction")

    unknown_decl = handle_pi


def faults_of(page: bytes) -> List[str]:
    """What is wrong with a page, each fault once."""
    reader = Reader()
    reader.feed(page.decode("utf-8", "replace"))
    reader.close()
    reader.faults += [f"{tag} is not ended" for tag in reader.opened]
    reader.faults += [f"two elements have the id {name}" for name in set(reader.ids) if reader.ids.count(name) > 1]
    return sorted(set(reader.faults))
