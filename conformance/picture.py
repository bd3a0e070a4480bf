"""Draws results.svg: a row for each parser, a cell for each case, in blocks by subject."""
import html
import json

import suite

COLORS = {"crash": "#1b1b1b", "other": "#a50f15", "wrong": "#e34a33", "silent": "#fdae6b", "rejected": "#fee08b", "accepted": "#9ebcda",
          "waits": "#d4dceb", "right": "#66a865", "outside": "#efefef"}
BLOCKS = (("simple strings, errors", ("simple", "error")), ("integers", ("integer",)), ("bulk strings", ("bulk",)), ("arrays", ("array",)),
          ("first bytes, replies", ("first", "sequence", "real", "before-hello", "version-3")),
          ("scalars of version 3", ("null", "boolean", "double", "big", "bulk-error", "verbatim")),
          ("aggregates of version 3", ("set", "map", "push", "attribute")), ("nested", ("nested",)), ("streamed", ("streamed-string", "streamed")))
COUNTED = (("other", "others'"), ("wrong", "wrong"), ("silent", "silent"), ("crash", "crash"))
CELL, HEIGHT, GAP, LEFT, NUMBER, TOP = 0.9, 17, 8, 132, 46, 76


def text_of(rows):
    """Returns results.json: a line for each parser, with its cases by verdict. What is right is left out."""
    lines = []
    for row in rows:
        by_verdict = {word: sorted(case for case, it in row["cells"].items() if it == word) for word in suite.VERDICTS if word not in ("right", "outside")}
        counts = {word: list(row["cells"].values()).count(word) for word in ("right", "outside")}
        lines.append(json.dumps({"parser": row["parser"], **counts, **by_verdict}))
    return "[\n" + ",\n".join(lines) + "\n]\n"


def drawn(rows, cases):
    """Returns the picture as SVG."""
    blocks = [(title, [case["id"] for case in cases if case["id"].split("/")[0] in names]) for title, names in BLOCKS]
    rows = sorted(rows, key=lambda row: (-list(row["cells"].values()).count("outside") // 200, row["parser"].lower()))
    rows = sorted(rows, key=lambda row: sum(it not in ("right", "outside", "accepted", "waits") for it in row["cells"].values()))
    begin = LEFT + NUMBER * len(COUNTED) + 10
    width = begin + sum(len(ids) * CELL + GAP for _, ids in blocks) + 10
    height = TOP + HEIGHT * len(rows) + 62
    parts = [f'<svg xmlns="http://www.w3.org/2000/svg" viewBox="0 0 {width:.0f} {height}" font-family="DejaVu Sans, Verdana, sans-serif" font-size="11">',
             f'<rect width="{width:.0f}" height="{height}" fill="#ffffff"/>',
             f'<text x="10" y="20" font-size="15" font-weight="bold">What parsers of RESP do with {len(cases)} inputs, each cut at every byte</text>']
    for at, (_, name) in enumerate(COUNTED):
        parts.append(f'<text x="{LEFT + NUMBER * (at + 1) - 6}" y="{TOP - 8}" text-anchor="end" fill="#444">{name}</text>')
    x = begin
    for title, ids in blocks:
        lines = title.split(" of ") if len(ids) < 190 and " of " in title else [title]
        for number, line in enumerate(lines):
            parts.append(f'<text x="{x:.1f}" y="{TOP - 8 - 13 * (len(lines) - 1 - number)}" fill="#444">{"of " if number else ""}{html.escape(line)}</text>')
        x += len(ids) * CELL + GAP
    for number, row in enumerate(rows):
        parts += drawn_row(row, blocks, begin, TOP + HEIGHT * number)
    parts += legend(height - 34)
    return "\n".join(parts) + "\n</svg>\n"


def drawn_row(row, blocks, begin, y):
    cells = row["cells"]
    weight = "bold" if row["parser"].startswith("resp") else "normal"
    parts = [f'<text x="10" y="{y + 12}" font-weight="{weight}">{html.escape(row["parser"])}</text>']
    for at, (word, _) in enumerate(COUNTED):
        count = list(cells.values()).count(word)
        parts.append(f'<text x="{LEFT + NUMBER * (at + 1) - 6}" y="{y + 12}" text-anchor="end" fill="{COLORS[word] if count else "#bbb"}">{count}</text>')
    x = begin
    for _, ids in blocks:
        at = 0
        while at < len(ids):
            word = cells.get(ids[at], "outside")
            end = at
            while end < len(ids) and cells.get(ids[end], "outside") == word:
                end += 1
            parts.append(f'<rect x="{x + at * CELL:.1f}" y="{y}" width="{(end - at) * CELL:.2f}" height="{HEIGHT - 3}" fill="{COLORS[word]}"/>')
            at = end
        x += len(ids) * CELL + GAP
    return parts


def legend(y):
    parts, x = [], 10
    for number, (word, sentence) in enumerate(suite.VERDICTS.items()):
        if number == 5:
            x, y = 10, y + 20
        parts.append(f'<rect x="{x}" y="{y - 10}" width="12" height="12" fill="{COLORS[word]}"/><text x="{x + 17}" y="{y}">{html.escape(sentence)}</text>')
        x += 30 + 6.3 * len(sentence)
    return parts
