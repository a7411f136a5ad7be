"""The inputs of a review, of a page and of a check: section 7 of docs/FORMATS.md."""

from hashlib import sha256
from typing import List, NamedTuple, Optional


class Input(NamedTuple):
    """An input: which it is, its name as it was given, and its bytes."""

    label: str
    name: bytes
    text: bytes

    @property
    def last_part(self) -> bytes:
        return self.name.rsplit(b"/", 1)[-1]

    @property
    def digest(self) -> str:
        return sha256(self.text).hexdigest()


def inputs_of(names: List[bytes], books: List[bytes], benchmarks: bytes, weights: Optional[bytes]) -> List[Input]:
    """The inputs in the order in which they are read, of which these are the names."""
    texts = [(f"book {number}", book) for number, book in enumerate(books, start=1)] + [("benchmarks", benchmarks)]
    if weights is not None:
        texts.append(("weights", weights))
    return [Input(label, name, text) for (label, text), name in zip(texts, names)]


def shown(name: bytes) -> str:
    return "".join(chr(byte) if 32 <= byte < 127 else f"\\x{byte:02X}" for byte in name)


def input_line(own: Input) -> str:
    return f"{own.label:<10}{len(own.text):>10}  {own.digest}  {shown(own.last_part)}"
