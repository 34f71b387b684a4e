"""Text, amounts, rates and days as a page shows them; everything that comes in is escaped."""

import re
from collections.abc import Iterable
from datetime import date
from html import escape

# Characters that are no text, or that would turn the text around them.
_HIDDEN = re.compile("[\x00-\x1f\x7f-\x9f\u2028\u2029\u202a-\u202e\u2066-\u2069\ufeff\ufffe\uffff]"
                     "|[\ud800-\udfff]")
_MONTHS = ("Jan", "Feb", "Mar", "Apr", "May", "Jun", "Jul", "Aug", "Sep", "Oct", "Nov", "Dec")
_SPACE = re.compile("[ \t\r\n]+")


def words(text: str) -> str:
    """A text of the issuer's, or a name: as text, whatever is in it."""
    return f"<bdi>{escape(_HIDDEN.sub(chr(0xfffd), _SPACE.sub(' ', text)))}</bdi>"


def plain(text: str) -> str:
    return escape(text)


def money(cents: int) -> str:
    """Dollars with a point, and a minus in front of what is taken off."""
    return f"{'-' if cents < 0 else ''}${abs(cents) // 100:,}.{abs(cents) % 100:02d}"


def dollars(cents: int) -> str:
    """Whole dollars."""
    return f"${cents // 100:,}"


def percent(rate: int) -> str:
    return f"{rate // 100}.{rate % 100:02d}%"


def daily(billionths: int) -> str:
    """A daily rate as a percentage."""
    return f"{billionths // 10 ** 7}.{billionths % 10 ** 7:07d}%"


def day_words(text: str) -> str:
    """A day for reading: the month, the day and the year."""
    found = date.fromisoformat(text)
    return f"{_MONTHS[found.month - 1]} {found.day}, {found.year}"


def day(text: str) -> str:
    """A day for reading, and for machines."""
    return f'<time datetime="{text}">{day_words(text)}</time>'


def pairs(rows: Iterable[tuple[str, str]], last: str = "") -> str:
    """A table of labels and amounts; the row with the last label stands out."""
    out = []
    for label, value in rows:
        kind = ' class="sum"' if label == last else ""
        out.append(f'<tr{kind}><th scope="row">{label}</th><td class="n">{value}</td></tr>')
    return f"<table><tbody>{''.join(out)}</tbody></table>"


def section(name: str, title: str, inside: str, kind: str = "") -> str:
    """A part of the page under its heading."""
    style = f' class="{kind}"' if kind else ""
    return (f'<section{style} aria-labelledby="{name}"><h2 id="{name}">{title}</h2>'
            f"{inside}</section>")


STYLE = """
*{box-sizing:border-box}
html{-webkit-text-size-adjust:100%}
body{font:15px/1.4 "Helvetica Neue",Arial,"Liberation Sans",sans-serif;color:#111;margin:0 auto;
max-width:60rem;padding:1rem;background:#fff;overflow-wrap:anywhere}
h1{font-size:1.45rem;margin:0 0 .15rem}
h2{font-size:1rem;margin:0 0 .4rem;padding:.25rem .5rem;background:#1d3557;color:#fff}
h3{font-size:.95rem;margin:.7rem 0 .2rem}
p{margin:.3rem 0}
header{display:grid;gap:.6rem 2rem;margin-bottom:1rem}
address{font-style:normal}
section{margin:0 0 1rem}
.pair{display:grid;gap:0 1.5rem}
table{border-collapse:collapse;width:100%}
caption{text-align:left;font-weight:700;padding:.5rem 0 .2rem}
th,td{padding:.18rem .4rem;text-align:left;vertical-align:top;border-bottom:1px solid #d5d5d5}
thead th{border-bottom:2px solid #555;font-size:.88em}
tbody th{font-weight:400}
.n{text-align:right;font-variant-numeric:tabular-nums}
td.n{overflow-wrap:normal}
.sum th,.sum td{font-weight:700;border-top:2px solid #555}
.due{font-size:1.05em}.due th,.due td{font-weight:700}
.warn{border:1px solid #777;padding:.4rem .6rem;margin-top:.5rem}
.kind{width:21%}.key{width:20%}.day{width:14%}.amount{width:15%}
.small{font-size:.88em}
.of{color:#444;font-size:.88em}
time,.one{white-space:nowrap}
@media(min-width:44rem){header,.pair{grid-template-columns:1fr 1fr}}
@media(max-width:43.99rem){
.stack thead{position:absolute;width:1px;height:1px;overflow:hidden;clip-path:inset(50%)}
.stack tr{display:block;padding:.35rem 0;border-bottom:2px solid #999}
.stack th,.stack td{display:flex;justify-content:space-between;gap:1rem;border:0;
padding:.1rem .4rem;text-align:right}
.stack td::before,.stack th[data-as]::before{content:attr(data-as);text-align:left;color:#444;
flex:none;max-width:45%}
.stack .total{display:flex;justify-content:space-between}
.stack .gone{display:none}}
@page{size:letter;margin:.55in .6in .65in;font:8pt Arial,"Liberation Sans",sans-serif}
@media print{
body{font-size:8.6pt;line-height:1.28;max-width:none;padding:0}
header,.pair{grid-template-columns:1fr 1fr}
h1{font-size:14pt}h2{font-size:9.5pt;background:none;color:#000;border-bottom:1.5pt solid #000;
padding:0 0 1pt;break-after:avoid}
h3{font-size:9pt}h3,caption{break-after:avoid}tr,.warn,.pair{break-inside:avoid}thead{display:table-header-group}
th,td{padding:1pt 3pt}section{margin-bottom:7pt}}
"""
