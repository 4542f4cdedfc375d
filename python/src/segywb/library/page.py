"""The pieces of the report's page: one HTML file without any other source."""

from __future__ import annotations

from html import escape
from typing import Any, Iterable, List, NamedTuple, Sequence

STYLE = """
:root { color-scheme: light dark; --line: #8885; --bar: #3b7dd8; --dim: #777; --warn: #b35900; }
body { font: 15px/1.45 system-ui, sans-serif; max-width: 72rem; margin: 2rem auto; padding: 0 1rem; }
h1 { font-size: 1.5rem; margin-bottom: .2rem; }
h2 { font-size: 1.15rem; margin-top: 2.2rem; border-bottom: 1px solid var(--line); }
h3 { font-size: 1rem; margin: 1rem 0 .2rem; }
nav { columns: 3 16rem; margin: 1rem 0; } nav div { break-inside: avoid; }
table { border-collapse: collapse; margin: .6rem 0; }
th, td { text-align: left; padding: .15rem .8rem .15rem 0; vertical-align: top; }
td.number, th.number { text-align: right; font-variant-numeric: tabular-nums; white-space: nowrap; }
th { font-weight: 600; }
td.path { font-family: ui-monospace, monospace; font-size: .85rem; overflow-wrap: anywhere; white-space: pre-wrap; }
.bar { background: var(--bar); height: .8rem; min-width: 1px; } .dim { color: var(--dim); } .warn { color: var(--warn); }
details { margin: .2rem 0 .6rem; } summary { cursor: pointer; }
svg.map { width: 100%; height: auto; border: 1px solid var(--line); }
svg.map polygon { fill-opacity: .25; stroke-width: 1.2; } svg.map path { stroke: var(--line); fill: none; }
svg.map text { fill: currentColor; font-size: 11px; }
.key { display: inline-block; width: .8rem; height: .8rem; margin-right: .3rem; }
.charts { display: flex; flex-wrap: wrap; gap: 0 3rem; }
"""


class Section(NamedTuple):
    """A part of the page: its heading, what the contents say beside it, and what stands below it."""

    title: str
    beside: str
    html: str


def shown(value: Any) -> str:
    """A value as text of the page.

    >>> shown(1234567), shown(None), shown("a<b")
    ('1,234,567', '', 'a&lt;b')
    """
    if value is None:
        return ""
    return f"{value:,}" if isinstance(value, int) else escape(str(value))


def table(heads: Sequence[str], rows: Iterable[Sequence[Any]]) -> str:
    """A table; whole numbers stand to the right, paths are told as code."""
    lines: List[str] = []
    numbers: Sequence[bool] = [False] * len(heads)
    for row in rows:
        cells = [(shown(one), "number" if isinstance(one, int) else "path" if head == "file" else "") for head, one in zip(heads, row)]
        numbers = [kind == "number" for _, kind in cells]
        lines.append("<tr>" + "".join(f'<td class="{kind}">{text}</td>' if kind else f"<td>{text}</td>" for text, kind in cells) + "</tr>")
    if not lines:
        return '<p class="dim">none</p>'
    first = "".join(f'<th class="number">{shown(head)}</th>' if right else f"<th>{shown(head)}</th>" for head, right in zip(heads, numbers))
    return f"<table><tr>{first}</tr>\n" + "\n".join(lines) + "</table>"


def bars(title: str, rows: Sequence[Sequence[Any]]) -> str:
    """A histogram: a bar for each row of a word and a number."""
    if not rows:
        return ""
    most = max(count for _, count in rows)
    lines = [
        f'<tr><td class="number">{shown(str(word))}</td><td style="width: 14rem"><div class="bar" style="width: {100 * count / most:.1f}%"></div></td>'
        f'<td class="number">{count:,}</td></tr>' for word, count in rows
    ]
    return f"<div><h3>{shown(title)}</h3><table>" + "\n".join(lines) + "</table></div>"


def folded(title: str, inside: str) -> str:
    """What is shown once it is clicked."""
    return f"<details><summary>{shown(title)}</summary>{inside}</details>"


def section(title: str, beside: str, *parts: str) -> Section:
    """A heading and what stands below it."""
    return Section(title, beside, "\n".join(part for part in parts if part))


def page(title: str, told: str, sections: Sequence[Section]) -> Iterable[str]:
    """The whole page, piece by piece."""
    yield (
        f'<!DOCTYPE html>\n<html lang="en"><head><meta charset="utf-8"><title>{shown(title)}</title>'
        f'<meta http-equiv="Content-Security-Policy" content="default-src \'none\'; style-src \'unsafe-inline\'"><style>{STYLE}</style></head><body>\n'
        f"<h1>{shown(title)}</h1>\n{told}\n"
    )
    links = (
        f'<div><a href="#part{at}">{shown(one.title)}</a> <span class="dim">{shown(one.beside)}</span></div>'
        for at, one in enumerate(sections)
    )
    yield f"<nav>{''.join(links)}</nav>\n"
    for at, one in enumerate(sections):
        yield f'<h2 id="part{at}">{shown(one.title)}</h2>\n{one.html}\n'
    yield "</body></html>\n"
