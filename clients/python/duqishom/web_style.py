"""The front of the page, with its style. Nothing is loaded from elsewhere."""

from __future__ import annotations

from duqishom.web_markup import Markup, tag, together

# The seconds after which a browser asks for the page again.
REFRESH = 5

STYLE = """
body { font: 14px/1.4 system-ui, sans-serif; color: #222; background: #fff; margin: 16px auto; max-width: 1200px; padding: 0 24px }
header, li, td { overflow-wrap: anywhere }
h1 { font-size: 18px; margin: 0; display: inline } h2 { font-size: 14px; margin: 0 0 4px }
header { border-bottom: 1px solid #ddd; padding-bottom: 8px } header span { margin-left: 16px }
header span, .figures div, .note, th, .pairs td:first-child { color: #666 }
.health { display: flex; align-items: baseline; margin: 8px 0 12px }
.health ul { list-style: none; margin: 0 0 0 16px; padding: 0 }
.word { font-weight: bold; font-size: 18px } .ok { color: #25702f } .warning { color: #a85000 } .down { color: #b00020 }
.figures { display: flex; justify-content: space-between; margin-bottom: 16px }
.figures b { display: block; font-size: 20px; font-weight: normal; color: #222 }
main { display: grid; grid-template-columns: 560px 1fr; gap: 16px 48px } .wide { grid-column: 1 / 3 }
.beside { display: grid; grid-template-columns: 1fr 1fr; gap: 16px 40px; align-content: start }
table { border-collapse: collapse; width: 100%; font-variant-numeric: tabular-nums }
.note { margin: 4px 0 0 } .old { margin: 0 0 12px }
td, th { text-align: left; font-weight: normal; padding: 2px 12px 2px 0; vertical-align: top }
td:last-child, th:last-child { padding-right: 0 } tr + tr td { border-top: 1px solid #eee }
.pairs td:last-child { text-align: right; white-space: nowrap }
.numbers td:nth-child(n+2):nth-child(-n+3), .numbers th:nth-child(n+2):nth-child(-n+3) { text-align: right; width: 90px }
.times td:nth-child(n+2):nth-child(-n+6), .times th:nth-child(n+2):nth-child(-n+6) { text-align: right; width: auto }
.times td, .times th { white-space: nowrap; padding-right: 10px }
svg { display: block; max-width: 100% } .numbers svg { margin-left: auto }
svg text { font-size: 13px; fill: #666 } .end { text-anchor: end }
.line polyline { fill: none; stroke: #2a62a5; stroke-width: 1.5; stroke-linecap: round } .line .scale { stroke: #ddd }
.tablet { fill: #e3ebf5; stroke: #fff } .many { fill: #f3d9bd; stroke: #fff } .bar text { fill: #222 }
"""

HEAD = Markup(
    f'<meta charset="utf-8"><meta http-equiv="refresh" content="{REFRESH}">'
    f'<meta name="viewport" content="width=device-width"><style>{STYLE}</style>'
)


def whole(title: str, body: Markup) -> Markup:
    """A page with this title and body."""
    head = tag("head", HEAD, tag("title", title))
    return together(Markup("<!doctype html>"), tag("html", head, body, lang="en"), "\n")
