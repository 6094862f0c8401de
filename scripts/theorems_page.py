"""The page of theorems as HTML, in which each row of a table has a name that a link can lead to: its first five words,
with dashes. Of rows that begin alike only the first has it."""

import html
import re

import files

HEAD = """\
<!doctype html>
<html lang="en">
<meta charset="utf-8">
<meta name="viewport" content="width=device-width, initial-scale=1">
<title>Theorems: binary fields, proved</title>
<link rel="stylesheet" href="page.css">
<link rel="icon" href="icon.svg">
<main class="text">
<p><a href="index.html">Back to the page</a></p>
"""


def name_of(cell):
    """What a row is called, by its first cell."""
    words = re.findall(r"[a-z0-9_]+", re.sub(r"['’]", "", cell.lower()))
    return "-".join(words[:5])


def spans(text):
    """A line of text, with code and strong words."""
    marked = re.sub(r"`([^`]+)`", r"<code>\1</code>", html.escape(text, quote=False))
    return re.sub(r"\*\*([^*]+)\*\*", r"<strong>\1</strong>", marked)


def cells(line):
    """The cells of a row of a table."""
    return [it.strip() for it in line.strip().strip("|").split("|")]


def row(line, names):
    """A row of a table, whose name is added to those that were given."""
    name = name_of(cells(line)[0])
    mark = "" if name in names else f' id="{name}"'
    names.add(name)
    return f"<tr{mark}>{''.join(f'<td>{spans(it)}</td>' for it in cells(line))}</tr>\n"


def table(lines, names):
    """A table, whose second line is a rule."""
    head = "".join(f"<th scope=col>{spans(it)}</th>" for it in cells(lines[0]))
    rows = "".join(row(it, names) for it in lines[2:])
    return f"<div class=wide><table>\n<thead><tr>{head}</tr></thead>\n<tbody>\n{rows}</tbody>\n</table></div>\n"


def block(lines, names):
    """A paragraph, a heading, a list or a table."""
    if heading := re.match(r"(#+) (.*)", lines[0]):
        level = len(heading[1])
        return f"<h{level}>{spans(heading[2])}</h{level}>\n"
    if lines[0].startswith("|"):
        return table(lines, names)
    if lines[0].startswith("- "):
        items = re.split(r"(?m)^- ", "\n".join(lines))[1:]
        return "<ul>\n" + "".join(f"<li>{spans(' '.join(it.split()))}</li>\n" for it in items) + "</ul>\n"
    return f"<p>{spans(' '.join(lines))}</p>\n"


def page():
    """The page."""
    text = (files.TOP / "docs/THEOREMS.md").read_text(encoding="utf-8")
    blocks = [it.splitlines() for it in re.split(r"\n{2,}", text.strip())]
    names = set()
    return HEAD + "".join(block(it, names) for it in blocks) + "</main>\n</html>\n"
