"""Turns the pages of docs/ into HTML, as far as these pages go: headings, paragraphs, lists, tables, texts indented by
four blanks, `code`, **bold**, *italics* and links, whose text stays."""
import html
import re

ITEM = re.compile(r"- |\d+\. ")


def inline(text):
    parts = re.split(r"(`[^`]+`)", text)
    for k, part in enumerate(parts):
        if k % 2:
            parts[k] = f"<code>{html.escape(part[1:-1])}</code>"
            continue
        part = html.escape(part, quote=False)
        part = re.sub(r"\[([^\]]*)\]\([^)]*\)", r"\1", part)
        part = re.sub(r"\*\*([^*]+)\*\*", r"<strong>\1</strong>", part)
        parts[k] = re.sub(r"\*([^*]+)\*", r"<em>\1</em>", part)
    return re.sub(r"\[([^\[\]]*)\]\([^)]*\)", r"\1", "".join(parts))


def cells(line):
    """The cells of a table's row; a stroke between two backquotes is text."""
    code = re.sub(r"`[^`]*`", lambda found: found.group().replace("|", "\0"), line.strip().strip("|"))
    return [cell.strip().replace("\0", "|") for cell in code.split("|")]


def table(lines):
    head, *body = [cells(line) for line in lines if not re.fullmatch(r"[|\s:-]+", line)]
    rows = ["<tr>" + "".join(f"<th>{inline(cell)}" for cell in head)]
    rows += ["<tr>" + "".join(f"<td>{inline(cell)}" for cell in row) for row in body]
    return f"<table>{''.join(rows)}</table>"


def block(lines, level):
    first = lines[0]
    if first.startswith("    "):
        return f"<pre>{html.escape(chr(10).join(line[4:] for line in lines))}</pre>"
    if first.startswith("#"):
        depth = min(4, level + len(first) - len(first.lstrip("#")))
        return f"<h{depth}>{inline(first.lstrip('# '))}</h{depth}>"
    if first.startswith("|"):
        return table(lines)
    if ITEM.match(first):
        items = re.split(r"\n(?=- |\d+\. )", "\n".join(lines))
        kind = "ul" if first.startswith("- ") else "ol"
        return f"<{kind}>{''.join(f'<li>{inline(ITEM.sub(str(), item, count=1))}' for item in items)}</{kind}>"
    return f"<p>{inline(' '.join(lines))}"


def html_of(text, level=1):
    """A page, or a part of one, as HTML; a heading # becomes one of level + 1."""
    blocks, now = [], []
    for line in [*text.splitlines(), ""]:
        ends = line == "" and not (now and now[0].startswith("    "))
        if ends or (now and line and now[0].startswith("    ") and not line.startswith("    ")):
            if any(now):
                blocks.append(now)
            now = []
        if line or now:
            now.append(line)
    if any(now):
        blocks.append(now)
    for part in blocks:
        while part and not part[-1]:
            part.pop()
    return "\n".join(block(part, level) for part in blocks)
