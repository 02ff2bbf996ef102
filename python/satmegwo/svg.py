"""Drawing in SVG by the standard library alone. What is drawn twice has the same bytes, on every machine."""
from __future__ import annotations

import base64
import html
import struct
import zlib
from typing import Sequence

INK, GREY, PALE = "#1a1a1a", "#595959", "#c8c8c8"
FONT = "DejaVu Sans, Verdana, Arial, sans-serif"
MARGIN = 8

# The letters by their widths, in hundredths of the type size, none of them below that in DejaVu Sans or Verdana, the widest of the
# fonts above. A letter that is not here is taken for the widest.
WIDTHS = {
    28: "il'",
    37: " .,·jf",
    40: "t",
    46: "rIJ:;-()[]|/!",
    55: "csz",
    60: "kvxyLF",
    64: "PabdeghnopquETYβ0123456789_$?*",
    70: "ABCKRSVXZ",
    80: "DGHNOQU&",
    84: "w+=<>~",
    100: "mMW%@#",
}
WIDTH_OF = {letter: width / 100 for width, letters in WIDTHS.items() for letter in letters}


def text_width(words: str, size: float, bold: bool = False) -> float:
    """How wide a text is at most."""
    widths = [WIDTH_OF.get(letter, 1.0) for letter in words.replace("\u00a0", " ")]
    return size * sum(1.12 * width + 0.02 if bold else width for width in widths)


def wrapped(words: str, width: float, size: float, bold: bool = False) -> list[str]:
    """A text in lines that are no wider than this, broken at spaces; a word that is wider has a line of its own."""
    lines: list[str] = []
    for word in words.split(" "):
        if lines and text_width(f"{lines[-1]} {word}", size, bold) <= width:
            lines[-1] += f" {word}"
        else:
            lines.append(word)
    return lines


def shortest(value: float) -> str:
    """A coordinate, with two places at most."""
    return f"{value:.2f}".rstrip("0").rstrip(".")


class Drawing:
    """The parts of a picture, and how far it reaches."""

    def __init__(self, width: float) -> None:
        self.width, self.height = width, 0.0
        self._parts: list[str] = []

    def _reach(self, y: float) -> None:
        self.height = max(self.height, y + MARGIN)

    def _add(self, kind: str, attributes: dict[str, object], inside: str = "") -> None:
        words = "".join(
            f' {name.rstrip("_").replace("_", "-")}="{shortest(value) if isinstance(value, (int, float)) else html.escape(str(value))}"'
            for name, value in attributes.items()
        )
        self._parts.append(f"<{kind}{words}>{inside}</{kind}>" if inside else f"<{kind}{words}/>")

    def rect(self, x: float, y: float, width: float, height: float, **how: object) -> None:
        """A rectangle."""
        self._add("rect", {"x": x, "y": y, "width": width, "height": height, **how})
        self._reach(y + height)

    def line(self, x1: float, y1: float, x2: float, y2: float, **how: object) -> None:
        """A line."""
        self._add("line", {"x1": x1, "y1": y1, "x2": x2, "y2": y2, "stroke": INK, **how})
        self._reach(max(y1, y2))

    def circle(self, x: float, y: float, radius: float, **how: object) -> None:
        """A circle."""
        self._add("circle", {"cx": x, "cy": y, "r": radius, **how})
        self._reach(y + radius)

    def triangle(self, points: Sequence[tuple[float, float]]) -> None:
        """A filled triangle."""
        self._add("polygon", {"points": " ".join(f"{shortest(x)},{shortest(y)}" for x, y in points), "fill": INK})

    def text(self, x: float, y: float, words: object, size: float = 11, anchor: str = "start", **how: object) -> None:
        """A line of text; y is its base line."""
        self._add(
            "text",
            {"x": x, "y": y, "font_size": size, "text_anchor": anchor, "fill": INK, **how},
            html.escape(str(words)),
        )
        self._reach(y + size / 4)

    def paragraph(self, x: float, y: float, words: str, size: float = 11, bold: bool = False, fill: str = INK) -> float:
        """A text in as many lines as it needs, the first with its base line at y; gives the base line of what may follow."""
        how = {"font_weight": "bold"} if bold else {}
        for line in wrapped(words, self.width - x - MARGIN, size, bold):
            self.text(x, y, line, size, fill=fill, **how)
            y += 1.35 * size
        return y

    def image(self, x: float, y: float, width: float, height: float, address: str) -> None:
        """An image whose pixels stay sharp."""
        how = {"href": address, "preserveAspectRatio": "none", "style": "image-rendering:pixelated"}
        self._add("image", {"x": x, "y": y, "width": width, "height": height, **how})
        self._reach(y + height)

    def svg(self, title: str, description: str = "") -> str:
        """The picture; its title and description are for those who cannot see it."""
        width, height = shortest(self.width), shortest(self.height)
        told = f"<desc>{html.escape(description)}</desc>" if description else ""
        return (
            f'<svg xmlns="http://www.w3.org/2000/svg" width="{width}" height="{height}" viewBox="0 0 {width} {height}"'
            f' font-family="{FONT}" role="img"><title>{html.escape(title)}</title>{told}'
            f'<rect width="{width}" height="{height}" fill="#ffffff"/>' + "\n".join(self._parts) + "</svg>\n"
        )


def _stored(data: bytes) -> bytes:
    """A zlib stream that holds the data as they are: what a compressor makes of them depends on its version, and this does not."""
    blocks = [data[start : start + 65535] for start in range(0, len(data), 65535)]
    stream = b"".join(
        struct.pack("<BHH", place == len(blocks) - 1, len(block), len(block) ^ 0xFFFF) + block
        for place, block in enumerate(blocks)
    )
    return b"\x78\x01" + stream + struct.pack(">I", zlib.adler32(data))


def png(cells: Sequence[Sequence[int]], colours: Sequence[str]) -> str:
    """An image with a pixel for each cell, which is the number of its colour, as an address."""
    bits = next(bits for bits in (1, 2, 4, 8) if len(colours) <= 2**bits)
    apiece = 8 // bits
    rows = []
    for row in cells:
        padded = list(row) + [0] * (-len(row) % apiece)
        packed = (padded[start : start + apiece] for start in range(0, len(padded), apiece))
        rows.append(
            b"\0" + bytes(sum(cell << (8 - bits * (place + 1)) for place, cell in enumerate(part)) for part in packed)
        )

    def chunk(kind: bytes, data: bytes) -> bytes:
        return struct.pack(">I", len(data)) + kind + data + struct.pack(">I", zlib.crc32(kind + data))

    header = struct.pack(">IIBBBBB", len(cells[0]), len(cells), bits, 3, 0, 0, 0)
    palette = b"".join(bytes.fromhex(colour[1:]) for colour in colours)
    image = (
        chunk(b"IHDR", header) + chunk(b"PLTE", palette) + chunk(b"IDAT", _stored(b"".join(rows))) + chunk(b"IEND", b"")
    )
    return "data:image/png;base64," + base64.b64encode(b"\x89PNG\r\n\x1a\n" + image).decode("ascii")
