"""An explanation as one page: nothing is loaded from elsewhere, and it needs no scripts."""

import re
from collections.abc import Iterator
from html import escape

from ..days import day_text
from .differences import HEADING, ONLY, differing
from .document import Document
from .how import brief_text, how_text, is_runs, shown_value
from .nodes import Node, value_text
from .picture import Day, svg, table
from .rules import PARTS, RULES
from .text import AS, MANY, NAMES, UNPRINTED, Names, is_no_post, plain

STYLE = """
body{font:15px/1.45 system-ui,sans-serif;margin:0 auto;max-width:62rem;padding:1rem;color:#1a1a1a}
h1{font-size:1.3rem}h2{font-size:1.05rem;margin-top:1.6rem}
pre,.v{font-family:ui-monospace,monospace}
pre{overflow-x:auto;font-size:13px;padding:.6rem;border:1px solid #bbb}
a{color:#1b4f9c}details,.leaf{margin-left:.9rem;border-left:1px solid #ccc;
padding-left:.5rem;overflow-wrap:anywhere}summary{cursor:pointer}.v{font-weight:600}
.s{color:#555;font-size:.85em}.b{font-style:italic}.wide{overflow-x:auto}
.v,.n{white-space:nowrap}.l{display:inline-block;box-sizing:border-box;width:100%;
padding-left:2ch;text-indent:-2ch}
table{border-collapse:collapse;font-size:13px}td,th{white-space:nowrap;padding:.1rem .5rem;
text-align:right;border-bottom:1px solid #ddd}td.said,th.said{text-align:left;white-space:normal}
p.said{margin:.2rem 0 .2rem .9rem;padding:.2rem .5rem;background:#eef3fa}
caption{text-align:left;padding:.3rem 0}
svg{width:100%;max-width:34rem;height:auto;font-size:11px}.grid{stroke:#ddd}
.due{stroke:#b00020;stroke-dasharray:3 2}.closing{stroke:#333}.paid{fill:#2b7a3d;color:#2b7a3d}
.fee{fill:#b00020;color:#b00020}.keys span{margin-right:1rem;white-space:nowrap}
:target>summary,:target{background:#fff3c4}
@media (max-width:40rem){pre{white-space:pre-wrap;font-size:11px}td,th{padding:.1rem .25rem}
table{font-size:12px}details,.leaf{margin-left:.4rem;padding-left:.35rem}p.said{margin-left:.4rem}
.many,.many tbody,.many caption{display:block}.many thead{display:none}
.many tr{display:flex;flex-wrap:wrap;column-gap:.35rem;border-bottom:1px solid #ddd}
.many td{border:0;padding:.05rem 0}.many .to::before{content:"to "}
.many .owed{display:flex;width:100%;justify-content:space-between}.many td.said{width:100%}
.many .owed::before{content:attr(data-of)}.many .days{flex:1 0 40%}
.many .days::after{content:" days"}
.many .times::before{content:"x "}.many .gives{margin-left:auto}.many .gives::before{content:"= "}}
@media print{body{max-width:none;padding:0;font-size:10pt}pre,.wide{overflow:visible}
pre{white-space:pre-wrap;font-size:8pt}h2,summary,caption,thead{break-after:avoid}
tr,.leaf,pre,svg{break-inside:avoid}}
"""


_WHOLE = re.compile(r"-?\d[\d.:-]*\d%?")


def unbroken(text: str) -> str:
    """Words of a page in which no number or day is broken at the end of a line."""
    return _WHOLE.sub(r'<span class="n">\g<0></span>', escape(text, quote=False))


def is_with_rate(node: Node) -> bool:
    """A sum over runs of days that are multiplied by a daily rate."""
    return node.of[0].unit == "cents x billionths"


class Page:
    """Writes the page; a node that was written before is a link to it."""

    def __init__(self, document: Document, days: list[Day]) -> None:
        self.document, self.days = document, days
        self.cycle = document.head["cycle"]
        self.written: set[str] = set()
        self.names = Names()

    # -- the texts --------------------------------------------------------------------------

    def _text(self, name: str) -> str:
        """A text as it was printed, each number a link to its tree."""
        places = {(n.line, n.place): plain(n.node) for n in self.document.numbers if n.text == name}
        out = []
        for line, text in enumerate(self.document.texts[name].splitlines()):
            parts, place = [], 0
            for piece in re.split(r"([ ,]+)", text):
                node = places.get((line, place)) if piece.strip(" ,") else None
                parts.append(f'<a href="#{node.id}">{escape(piece)}</a>' if node else
                             escape(piece))
                place += piece.strip(" ,") == "" and piece != ""
            out.append(f'<span class="l">{"".join(parts)}</span>')
        return f"<pre>{chr(10).join(out)}</pre>"

    # -- the trees --------------------------------------------------------------------------

    def _said(self, node: Node, because: bool = False, cut: bool = False,
              question: bool = False) -> str:
        """A node in a line: its value, what it is, how it follows, and its rule."""
        value = "" if node.unit == "truth" and because else shown_value(node)
        how = brief_text(node) if cut and node.brief else how_text(node)
        if cut and not node.brief:
            how = f"explained with cycle {node.cycle}"
        name, section = ("", "") if not node.rule or is_no_post(node) else RULES[node.rule]
        rule = "; ".join([f'<span class="n">{section}</span>'] * bool(section)
                         + [escape(name)] * bool(name))
        how = f" {how}" if question else f" ({how})" if how else ""
        return (f'<span class="v">{escape(value)}</span> '
                + ('<span class="b">because</span> ' if because else "")
                + unbroken(f"{self.names.short(node.what)}{'?' if question else ''}{how}")
                + (f' <span class="s">{rule}</span>' if rule else ""))

    def _tree(self, node: Node, top: bool, because: bool = False,
              question: bool = False) -> Iterator[str]:
        node = plain(node)
        if node.id in self.written:
            yield (f'<div class="leaf"><a href="#{node.id}">{self._link(node, because)}</a></div>')
            return
        self.written.add(node.id)
        is_leaf = not (node.of or node.why) or node.how in ("calendar", "in_force")
        cut = not (top or is_leaf) and (node.brief or 0 < node.cycle < self.cycle)
        said = self._said(node, because, cut, question)
        if cut or is_leaf:
            yield f'<div class="leaf" id="{node.id}">{said}</div>'
            return
        yield f'<details open id="{node.id}"><summary>{said}</summary>'
        if node.said:
            yield f'<p class="said">{unbroken(node.said)}</p>'
        for why in node.why:
            yield from self._tree(why, False, True)
        if is_runs(node):
            yield self._runs(node)
            yield from self._of_runs(node)
        elif node.how == "choose":
            yield from self._choice(node)
        else:
            yield from self._below(node)
        yield "</details>"

    def _link(self, node: Node, because: bool) -> str:
        value = "because" if because else shown_value(node)
        return unbroken(f"{value} {self.names.short(node.what)}")

    def _choice(self, node: Node) -> Iterator[str]:
        """The question, what was taken, and what wasn't."""
        question, *both = node.of
        taken, other = both if question.value else reversed(both)
        yield from self._tree(question, False, question=True)
        yield from self._tree(taken, False)
        other = plain(other)
        yield (f'<div class="leaf">(not taken: {shown_value(other)} '
               f"{unbroken(self.names.short(other.what))})</div>")

    def _below(self, node: Node) -> Iterator[str]:
        many = len(node.of) > MANY and node.rule == "repayment"
        for child in node.of[:3] if many else node.of:
            yield from self._tree(child, False)
        if many:
            last = node.of[-1]
            yield (f'<div class="leaf">{len(node.of) - 4} months more, and then '
                   f"{self._said(last)}</div>")

    def _runs(self, node: Node) -> str:
        """The days of a sum as a table."""
        with_rate = is_with_rate(node)
        rows = []
        for run in node.of:
            assert isinstance(run.start, int) and isinstance(run.end, int)
            days = run.of[0] if with_rate else run
            rate = value_text(run.of[1].value, "billionths") if with_rate else ""
            cells = [("", day_text(run.start)), ("to", day_text(run.end)),
                     ("days", str(run.end - run.start + 1)),
                     ("times", value_text(days.of[0].value, "cents")),
                     *([("times", rate)] if with_rate else []),
                     ("gives", value_text(run.value, run.unit))]
            rows.append("<tr>" + "".join(f'<td class="{name}">{text}</td>' for name, text in cells)
                        + "</tr>")
        names = ["from", "to", "days", "balance", *(["daily rate"] if with_rate else []),
                 "their product" if with_rate else "days x balance"]
        head = "".join(f"<th>{name}</th>" for name in names)
        return (f'<div class="wide"><table class="many"><thead><tr>{head}</tr></thead><tbody>'
                f"{''.join(rows)}</tbody></table></div>")

    def _of_runs(self, node: Node) -> Iterator[str]:
        """The days of a table, and each of its balances and of its rates once."""
        if isinstance(node.start, Node) and isinstance(node.end, Node):
            first, last = node.start, node.end
            yield (f'<div class="leaf"><span class="v">{last.value - first.value + 1} days</span> '
                   + unbroken(f"from {day_text(first.value)}, {first.what}, to "
                              f"{day_text(last.value)}, {last.what} ({how_text(last)})") + "</div>")
        runs = [run.of[0] for run in node.of] if is_with_rate(node) else node.of
        rates = [run.of[1] for run in node.of] if is_with_rate(node) else []
        for part in dict.fromkeys([*(run.of[0] for run in runs), *rates]):
            yield from self._tree(part, False)

    # -- the whole --------------------------------------------------------------------------

    def _trees(self) -> Iterator[str]:
        shown = [name for name in self.document.texts
                 if not name.startswith("issued") and name != "export"]
        for name in shown:
            for place, line in enumerate(self.document.texts[name].splitlines()):
                here = [n for n in self.document.numbers if (n.text, n.line) == (name, place)]
                if here:
                    yield f"<h2>{unbroken(' '.join(line.split()))}</h2>"
                    if line.startswith("RATE "):
                        yield ('<p class="s">Its numbers: yearly rate, daily rate, average daily '
                               "balance, interest.</p>")
                    for number in here:
                        yield from self._tree(number.node, True)
        for number in self.document.numbers:
            if not number.text:
                yield f"<h2>{escape(UNPRINTED[number.word].upper())}</h2>"
                yield from self._tree(number.node, True)

    def html(self) -> str:
        head, document = self.document.head, self.document
        title = (f"Cycle {head['cycle']} of account {head['account']}, {AS[head['as']]} "
                 f"{head['today']}")
        texts = [self._text(name) for name in document.texts
                 if not name.startswith("issued") and name != "export"]
        rules = differing(document.nodes, document.same)
        parts = "".join(f"<li><div>The ledger: {escape(PARTS[rule][0])}</div><div>The regulation: "
                        f"{escape(PARTS[rule][1] or 'has no rule on this.')} "
                        f'<span class="s">{escape(RULES[rule][0])}</span></div></li>'
                        for rule in rules)
        left = "".join(f"<li>row {seq}: {escape(why)}</li>" for seq, why in document.left_out)
        return "".join([
            '<!doctype html><html lang="en"><head><meta charset="utf-8">'
            '<meta name="viewport" content="width=device-width,initial-scale=1">'
            '<link rel="icon" href="data:,">'
            f"<title>{escape(title)}</title><style>{STYLE}</style></head><body>"
            f"<h1>{unbroken(title)}</h1><p>Made from rows 1 to {head['rows_up_to']} of the file. "
            "Each number of the statement leads to where it comes from: what it is, and how it "
            "follows from the lines that are set in below it (\"this\", \"these\"). In small print "
            "is the section of Regulation Z (12 CFR 1026) for the amount, and the heading and name "
            f"of the ledger's rule in docs/RULES.md. {escape(NAMES)}</p>",
            *texts, svg(self.days), table(self.days), *self._trees(),
            f"<h2>{HEADING}</h2><p>{escape(ONLY)}</p><ul>{parts}</ul>" if parts else "",
            "<h2>Rows of the account that no number is made of</h2>" if left else "",
            f"<ul>{left}</ul>" if left else "", "</body></html>\n"])


def page_of(document: Document, days: list[Day]) -> str:
    """The page of an explanation."""
    return Page(document, days).html()
