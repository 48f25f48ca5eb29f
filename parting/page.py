"""The page: in words what parts the two ways, both pictures side by side, and the script."""
from __future__ import annotations

from dataclasses import dataclass
from html import escape

from differences import MOST_COMPARED, Difference
from picture import Picture
from runs import Run, shortened

MOST_ROWS, MOST_LINES = 100, 400
STYLE = """
body { font-family: sans-serif; font-size: 15px; line-height: 1.45; margin: 1.5em auto; max-width: 100em; padding: 0 1.2em;
  background: #ffffff; color: #1a1a1a; }
h1 { font-size: 1.4em; } h2 { font-size: 1.1em; margin: 1.4em 0 0.4em; }
code, pre { font-family: monospace; }
table { border-collapse: collapse; } td, th { text-align: left; padding: 0.2em 1.2em 0.2em 0; vertical-align: top; }
th { border-bottom: 1px solid #9a9a9a; }
.ends { color: #00714f; } .hangs { color: #c04a00; }
.ways { display: grid; grid-template-columns: repeat(auto-fit, minmax(min(100%, 24em), 1fr)); gap: 1.5em; }
figure { margin: 0; overflow-x: auto; } figcaption { font-weight: bold; padding-bottom: 0.4em; }
figure svg { display: block; max-width: 100%; height: auto; }
.same { opacity: 0.3; filter: grayscale(1); }
.decides { fill: none; stroke: #d55e00; stroke-width: 3; }
.key { display: flex; flex-wrap: wrap; gap: 0.2em 1.6em; list-style: none; padding: 0; font-size: 0.85em; }
.key svg { width: 40px; height: 20px; vertical-align: middle; }
.script { border-left: 3px solid #9a9a9a; padding-left: 1em; } .script b { color: #d55e00; }
.symbols { position: absolute; width: 0; height: 0; }
@media screen and (prefers-color-scheme: dark) {
body { background: #161616; color: #ececec; } .ends { color: #1fc499; } .hangs, .script b { color: #ff9a4d; }
.decides { stroke: #ff7a2b; }
}
"""


@dataclass(frozen=True)
class Ways:
    """What a page shows of a script: its lines (the first at 1), how many reports it has and how many of them are stuck, a
    run that ends if one does, a run that hangs, and what parts them."""

    lines: list[str]
    reports: int
    stuck: int
    is_among_first: bool
    ends: Run | None
    hangs: Run
    found: list[Difference]
    decisive: list[Difference]


def number_of(count: int, what: str) -> str:
    return f"{count} {what}{'' if count == 1 else 's'}"


def command_of(ways: Ways, line: int) -> tuple[str, str]:
    """The rank and the command of a line."""
    rank, _, command = ways.lines[line].partition(": ")
    return rank, shortened(command)


def waiting(ways: Ways, line: int) -> str:
    rank, command = command_of(ways, line)
    return f"rank {rank} in line {line}, <code>{escape(command)}</code>"


def heading(ways: Ways) -> str:
    waits = "; ".join(waiting(ways, it) for it in ways.hangs.waits)
    if ways.ends is None:
        return (f"<p>Each run of this script hangs: {number_of(ways.reports, 'report')}, none done. Below is outcome "
                f"{ways.hangs.number}.</p>\n<p>For ever wait: {waits}.</p>\n")
    among = f" among the first {MOST_COMPARED} of each kind" if ways.is_among_first else ""
    fewest = f", and of all such pairs{among} these differ in the fewest answers" if ways.reports > 2 else ""
    shown = f"Outcome {ways.ends.number} is done, outcome {ways.hangs.number} is stuck{fewest}."
    return (f"<p>This script can have {ways.reports} reports, {ways.stuck} of them stuck. {shown}</p>\n"
            f"<p>In the run that hangs these wait for ever: {waits}.</p>\n")


def sentence(ways: Ways, it: Difference) -> str:
    """In words what a decisive line came to, in both ways."""
    rank, command = command_of(ways, it.line)
    return (f"<p>Decided at line {it.line}, <code>{escape(command)}</code> of rank {rank}: "
            f"<span class=\"ends\">{escape(it.ends.words)}</span> | "
            f"<span class=\"hangs\">{escape(it.hangs.words)}</span></p>\n")


def row(ways: Ways, it: Difference) -> str:
    rank, command = command_of(ways, it.line)
    return (f"<tr><td>{it.line}</td><td>{rank}</td><td><code>{escape(command)}</code></td>"
            f"<td class=\"ends\">{escape(it.ends.words)}</td><td class=\"hangs\">{escape(it.hangs.words)}</td></tr>\n")


def parted(ways: Ways) -> str:
    """What decides, and what follows."""
    if ways.ends is None:
        return ""
    rest = [it for it in ways.found if it not in ways.decisive]
    left_out = f"<p>{len(rest) - MOST_ROWS} more lines differ.</p>\n" if len(rest) > MOST_ROWS else ""
    head = "<tr><th>line</th><th>rank</th><th>command</th><th>ends</th><th>hangs</th></tr>\n"
    rows = "".join(row(ways, it) for it in rest[:MOST_ROWS])
    return ("<h2>What parts them</h2>\n" + "".join(sentence(ways, it) for it in ways.decisive)
            + (f"<p>Then differ:</p>\n<table>\n{head}{rows}</table>\n{left_out}" if rest else ""))


def figure(title: str, kind: str, picture: Picture) -> str:
    notes = "".join(f"<p>{escape(it)}</p>" for it in picture.notes)
    return f"<figure>\n<figcaption class=\"{kind}\">{title}</figcaption>\n{notes}{picture.svg}\n</figure>\n"


def entry(mark: str, words: str) -> str:
    return f"<li><svg viewBox=\"-20 -10 40 20\">{mark}</svg> {words}</li>\n"


def key(pictures: list[Picture], is_pair: bool) -> str:
    legend = {symbol: words for it in pictures for symbol, words in it.legend.items()}
    entries = [entry(f"<use href=\"{symbol}\"/>", escape(words)) for symbol, words in legend.items()]
    if is_pair:
        entries.append(entry("<circle class=\"decides\" r=\"8\"/>", "here it is decided"))
        entries.append(entry("<use class=\"same\" href=\"#send\"/>", "pale: the beginning of each rank that both have"))
    return f"<ul class=\"key\">\n{''.join(entries)}</ul>\n<p>{escape(pictures[0].said)}</p>\n"


def script(ways: Ways) -> str:
    marked = {it.line for it in ways.decisive} or set(ways.hangs.waits)
    shown = []
    for number, line in enumerate(ways.lines[1:MOST_LINES + 1], 1):
        text = escape(f"{number:5}  {shortened(line)}")
        shown.append(f"<b>{text}</b>" if number in marked else text)
    if len(ways.lines) > MOST_LINES + 1:
        shown.append(f"       .. {len(ways.lines) - 1 - MOST_LINES} more lines")
    return "<h2>The script</h2>\n<pre class=\"script\">" + "\n".join(shown) + "</pre>\n"


def whole(title: str, style: str, body: str) -> str:
    return ("<!DOCTYPE html>\n<html lang=\"en\">\n<head>\n<meta charset=\"utf-8\"/>\n"
            "<meta name=\"viewport\" content=\"width=device-width\"/>\n"
            f"<title>{title}</title>\n<style>{style}</style>\n</head>\n<body>\n<h1>{title}</h1>\n{body}</body>\n</html>\n")


def no_hang(reports: int) -> str:
    sentence = f"No run of this script hangs: {number_of(reports, 'report')}, none stuck."
    return whole("No run hangs", STYLE, f"<p>{sentence}</p>\n")


def page_of(ways: Ways, ends: Picture | None, hangs: Picture) -> str:
    pictures = [ends, hangs] if ends else [hangs]
    title = "A run that ends and a run that hangs" if ends else "A run that hangs"
    symbols = f"<svg class=\"symbols\"><defs>{hangs.symbols}</defs></svg>\n"
    figures = figure(f"ends: outcome {ways.ends.number}", "ends", ends) if ends else ""
    figures += figure(f"hangs: outcome {ways.hangs.number}", "hangs", hangs)
    drawn = f"<h2>{'Both in pictures' if ends else 'The picture'}</h2>\n{symbols}<div class=\"ways\">\n{figures}</div>\n"
    body = heading(ways) + parted(ways) + drawn + key(pictures, ends is not None) + script(ways)
    return whole(title, hangs.style + STYLE, body)
