"""HTML, piece by piece: escaped text, elements and tables."""
from __future__ import annotations

import html
import re
from typing import Iterable, Sequence

STYLE = """
:root { color-scheme: light dark; --fg: #1a1a1a; --bg: #fff; --dim: #5f5f5f; --line: #aaa; --faint: #ddd; --link: #174ea6; --good: #1b6e2b; --bad-text: #a31515;
  --target: #fff3b0; --high: #dde8f4; --own: #7a4b00; }
@media (prefers-color-scheme: dark) { :root { --fg: #e6e6e6; --bg: #161616; --dim: #a8a8a8; --line: #666; --faint: #333; --link: #8ab4f8; --good: #7bd08d;
  --bad-text: #ff8f85; --target: #4a4100; --high: #24405c; --own: #e0a75e; } }
@media print { :root { color-scheme: light; --fg: #000; --bg: #fff; --dim: #444; --line: #888; --faint: #ccc; --link: #000; --good: #000; --bad-text: #000;
  --target: #fff; --high: #ddd; --own: #333; } }
body { font: 15px/1.45 system-ui, sans-serif; margin: 2em auto; max-width: 1180px; padding: 0 1em; color: var(--fg); background: var(--bg); }
h1 { font-size: 1.5em; } h2 { font-size: 1.15em; margin-top: 2em; border-bottom: 1px solid var(--line); } h1, h2, h3 { overflow-wrap: anywhere; }
table { border-collapse: collapse; margin: .6em 0; } th, td { text-align: left; padding: 2px 10px 2px 0; vertical-align: top; }
th { border-bottom: 1px solid var(--line); font-weight: 600; } td.n, th.n { text-align: right; }
code, pre, .m { font: 13px/1.4 ui-monospace, Consolas, monospace; } pre { margin: 0; white-space: pre-wrap; } code { overflow-wrap: anywhere; }
.scroll td code { white-space: nowrap; } .scroll td code.line, .scroll td code.wrap { white-space: pre-wrap; }
.line, .remark { display: block; min-width: 20ch; }
.good { color: var(--good); } .bad { color: var(--bad-text); font-weight: 600; } .dim { color: var(--dim); }
.scroll { overflow-x: auto; }
.scroll td:first-child, .scroll th:first-child { position: sticky; left: 0; background: var(--bg); }
a { color: var(--link); text-decoration: none; } a:hover, a:focus-visible { text-decoration: underline; } :target { background: var(--target); }
nav { font-size: 14px; } nav a { margin-right: 1.1em; }
@media print { body { max-width: none; } .scroll { overflow: visible; } h2, h3 { break-after: avoid; } tr, svg { break-inside: avoid; } nav { display: none; } }
"""


def text(words: object) -> str:
    """Text with its special characters escaped; what is no character of text is shown as a dot."""
    plain = "".join(letter if letter.isprintable() or letter == "\n" else "\u00b7" for letter in str(words).replace("\t", "    "))
    return html.escape(plain)


def element(name: str, inside: str, **attributes: str) -> str:
    """An element round escaped content; `_` at an attribute's end is left out, and stands for `-` elsewhere."""
    given = "".join(f' {key.rstrip("_").replace("_", "-")}="{html.escape(value)}"' for key, value in attributes.items())
    return f"<{name}{given}>{inside}</{name}>"


def code(words: object) -> str:
    """Text as code."""
    return element("code", text(words))


def line(words: object) -> str:
    """Text as code in a line of its own, which breaks where there is no room for it."""
    return element("code", text(words), class_="line")


def table(head: Sequence[str], rows: Iterable[Sequence[str]], numbers: Sequence[int] = ()) -> str:
    """A table of escaped cells; the columns `numbers` stand at the right."""

    def cells(name: str, row: Sequence[str]) -> str:
        return "".join(element(name, cell, class_="n") if at in numbers else element(name, cell) for at, cell in enumerate(row))

    body = "\n".join(element("tr", cells("td", row)) for row in rows)
    return element("div", element("table", f"\n{element('tr', cells('th', head))}\n{body}\n"), class_="scroll", tabindex="0")


def section(name: str, title: str, inside: str) -> str:
    """A section of a report, with marks by which two reports are compared part by part."""
    return f'<section id="{name}">\n<h2>{text(title)}</h2>\n{inside}\n</section>\n'


def page(title: str, sections: Iterable[str], style: str = "", before: str = "", script: str = "") -> str:
    """A whole document that needs no other file; `style` is that of its pictures, `before` stands before its sections, to which links lead, and it can be
    read without the script."""
    wide = '<meta name="viewport" content="width=device-width, initial-scale=1">'
    head = f'<meta charset="utf-8">\n{wide}\n<title>{text(title)}</title>\n<style>{STYLE}{style}</style>'
    inside = "".join(sections)
    links = "".join(f'<a href="#{name}">{words}</a> ' for name, words in re.findall(r'<section id="(\w+)">\n<h2>(.*?)</h2>', inside))
    more = f"<script>{script}</script>\n" if script else ""
    body = f'<h1>{text(title)}</h1>\n<nav aria-label="sections">{links}</nav>\n{before}{inside}{more}'
    return f'<!DOCTYPE html>\n<html lang="en">\n<head>\n{head}\n</head>\n<body>\n{body}</body>\n</html>\n'
