#!/usr/bin/env python3
"""Draws serving.svg beside it from serving.csv: requests answered a second, for 2,007 stations."""
import csv
import pathlib

HERE = pathlib.Path(__file__).resolve().parent
WINDOWS = "1", "16", "256"
# What a bar is of, its words, its colour.
SERIES = (
    ("disk", "apd, each durable on disk first", "#1a7f37"),
    ("memory", "apd, its store in memory", "#8fbf9f"),
    ("hostapd", "hostapd, which keeps nothing", "#b35900"),
)
TOP, BOTTOM, LEFT, RIGHT = 70, 330, 70, 740
GREY, DARK = "#57606a", "#1f2328"


def figures():
    """The requests answered a second, by what a bar is of and how many requests were out at a time."""
    with open(HERE / "serving.csv", newline="", encoding="ascii") as file:
        return {(it["what"], it["window"]): int(it["asks"]) for it in csv.DictReader(file)}


def text(x, y, words, anchor="middle", colour=DARK, size=12):
    return (
        f'<text x="{x:.0f}" y="{y:.0f}" text-anchor="{anchor}" font-size="{size}" fill="{colour}" '
        f'font-family="Helvetica,sans-serif">{words}</text>'
    )


def drawing(found):
    most = -(-max(found.values()) // 50_000) * 50_000
    height = lambda asks: (BOTTOM - TOP) * asks / most
    parts = ['<rect width="780" height="390" fill="#fcfcfa"/>']
    for asks in range(0, most + 1, 50_000):
        y = BOTTOM - height(asks)
        parts.append(f'<line x1="{LEFT}" y1="{y:.0f}" x2="{RIGHT}" y2="{y:.0f}" stroke="#d0d7de"/>')
        parts.append(text(LEFT - 8, y + 4, f"{asks:,}", "end", GREY, 11))
    wide = (RIGHT - LEFT) / len(WINDOWS)
    bar = wide / (len(SERIES) + 1)
    for group, window in enumerate(WINDOWS):
        left = LEFT + group * wide + bar / 2
        for place, (what, _, colour) in enumerate(SERIES):
            asks = found[what, window]
            x, y = left + place * bar, BOTTOM - height(asks)
            parts.append(
                f'<rect x="{x + 4:.0f}" y="{y:.1f}" width="{bar - 8:.0f}" height="{height(asks):.1f}" fill="{colour}"/>'
            )
            parts.append(text(x + bar / 2, y - 5, f"{asks:,}", size=11))
        out = "1 request out at a time" if window == "1" else f"{window} requests out at a time"
        parts.append(text(left + len(SERIES) * bar / 2, BOTTOM + 20, out))
    x = LEFT
    for what, words, colour in SERIES:
        parts.append(f'<rect x="{x}" y="363" width="12" height="12" fill="{colour}"/>')
        parts.append(text(x + 18, 373, words, "start"))
        x += 240
    parts.append(text(LEFT, 30, "2,007 stations ask to be associated again: requests answered a second", "start", size=14))
    return '<svg xmlns="http://www.w3.org/2000/svg" width="780" height="390" viewBox="0 0 780 390">\n' + "\n".join(
        parts + ["</svg>\n"]
    )


(HERE / "serving.svg").write_text(drawing(figures()))
