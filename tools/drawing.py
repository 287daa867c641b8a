"""Pieces of the pictures that the scripts beside this draw: SVG without a reference to anything outside, its texts in cells of 7 by 14 pixels, as
tests/pictures counts them."""
from xml.sax.saxutils import escape

CELL = 7
STYLE = (
    "text{font:11px ui-monospace,'DejaVu Sans Mono',Menlo,Consolas,monospace;fill:#222}.name{text-anchor:middle}.left{text-anchor:end}"
    ".head{font-weight:bold}.faint{fill:#666}.band{fill:#f5f6f8}.box{fill:#fff;stroke:#8a929c}.mark{fill:#fff3d6;stroke:#d97706}"
    ".on{stroke:#b9c0c8;fill:none}.arrow{stroke:#555;fill:none;marker-end:url(#tip)}"
)
TIP = (
    '<defs><marker id="tip" viewBox="0 0 8 8" refX="7" refY="4" markerWidth="7" markerHeight="7" markerUnits="userSpaceOnUse" orient="auto">'
    '<path fill="#555" d="M0 0L8 4L0 8z"/></marker></defs>'
)


def text(x, y, said, kind=""):
    """A text from its place on, around it (name) or up to it (left)."""
    return f'<text x="{x}" y="{y}"{f" class={chr(34)}{kind}{chr(34)}" if kind else ""}>{escape(said)}</text>'


def box(x, y, width, height, kind="box"):
    return f'<rect class="{kind}" x="{x}" y="{y}" width="{width}" height="{height}" rx="3"/>'


def line(kind, *places):
    return f'<path class="{kind}" d="M{" L".join(f"{x} {y}" for x, y in places)}"/>'


def picture(title, width, height, parts):
    """The whole of a picture."""
    head = f'<svg xmlns="http://www.w3.org/2000/svg" width="{width}" height="{height}" viewBox="0 0 {width} {height}">'
    ground = f'<rect width="{width}" height="{height}" fill="#fff"/>'
    return "\n".join([head, f"<title>{escape(title)}</title>", f"<style>{STYLE}</style>", TIP, ground, *parts, "</svg>", ""])
