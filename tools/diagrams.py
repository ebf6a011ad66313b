"""A diagram of a position as a picture in SVG: the drawing of `minimate show --svg`, made apart from it."""

import html

OUTLINES = {
    "K": "M46 8h8v7h8v8h-8v9q6 1 8 7 20-9 23 8 1 12-14 28H29Q14 59 15 47q3-17 23-8 2-6 8-7v-9h-8v-8h8z",
    "Q": "M18 28a6 6 0 1 1 5 0l13 18-1-24a6 6 0 1 1 6 0l9 22 9-22a6 6 0 1 1 6 0l-1 24 13-18a6 6 0 1 1 5 0l-10 47H28z",
    "R": "M27 18h11v8h7v-8h10v8h7v-8h11v20l-8 7 3 26H32l3-26-8-7z",
    "B": "M50 10a6 6 0 0 1 4 10q17 11 17 27 0 8-7 14l3 14H33l3-14q-7-6-7-14 0-16 17-27a6 6 0 0 1 4-10z",
    "N": "M38 15l8 7q26 3 29 34 1 10-3 19H33q0-14 12-24-8 3-13 9-5 4-10 0-4-4 0-10 10-12 11-22 1-8 5-13z",
    "P": "M50 20a13 13 0 0 1 8 23q8 3 8 7H57q1 14 11 25H32q10-11 11-25H34q0-4 8-7a13 13 0 0 1 8-23z",
}
DETAILS = {
    "K": "M50 34v32M31 66h38",
    "Q": "M30 66h40",
    "R": "M36 45h28M33 70h34",
    "B": "M50 30v16M42 38h16M36 62h28",
    "N": "M44 34v.01M36 68q2-10 14-20",
    "P": "M38 70h24",
}
BASE = "M22 88h56v-7q0-5-6-6H28q-6 1-6 6z"
FILES = [
    "M21 11v17M21 20q0 8-6 8t-6-8 6-8 6 8",
    "M9 2v26M9 20q0-8 6-8t6 8-6 8-6-8",
    "M21 15q-2-3-6-3-7 0-7 8t7 8q4 0 6-3",
    "M21 2v26M21 20q0-8-6-8t-6 8 6 8 6-8",
    "M8 20h14q0-8-7-8t-7 8 7 8q4 0 6-3",
    "M20 3q-7-3-7 5v20M8 13h10",
]
RANKS = [
    "M9 8l7-6v26",
    "M8 8q0-6 7-6t7 6q0 6-14 20h14",
    "M9 3h12l-7 10q8 0 8 7 0 8-7 8-6 0-7-5",
    "M18 28V2L8 19h14",
    "M21 3H10L9 13q3-2 6-2 7 0 7 8 0 9-7 9-6 0-7-5",
    "M20 3Q9 8 9 19q0 9 6 9 7 0 7-8 0-7-7-7-5 0-6 6",
]
LINE, ROUND = "#23251f", 'stroke-linejoin="round" stroke-linecap="round"'


def unit_svg(letter, x, y):
    """A unit, the corner of its square so many from the left and from above."""
    kind, is_white = letter.upper(), letter.isupper()
    look = f'fill="#fff" stroke="{LINE}"' if is_white else 'fill="#2b2d29" stroke="#0c0d0b"'
    inner = LINE if is_white else "#d9d9cd"
    shape = f'<path d="{OUTLINES[kind]}{BASE}"/><path d="{DETAILS[kind]}" fill="none" stroke="{inner}"/>'
    return f'<g transform="translate({x} {y})" {look} stroke-width="3.2" {ROUND}>{shape}</g>\n'


def sign_svg(outline, x, y):
    return f'<path transform="translate({x} {y})" d="{outline}" fill="none" stroke="{LINE}" stroke-width="3" stroke-linecap="round"/>\n'


def square_svg(file, rank, column, row, unit):
    x, y = 44 + 100 * column, 4 + 100 * row
    if (file + rank) % 2 == 0:
        yield f'<path d="M{x} {y}h100v100h-100z" fill="#c9cfbf"/>\n'
    if unit:
        yield unit_svg(unit, x, y)


def caption_svg(stipulation, keys, side):
    """What stands below a board of this width: text, which alone needs a font."""
    left, right = (f'y="{74 + side}"' + more for more in (">" + html.escape(stipulation, False), ' text-anchor="end">' + html.escape(keys, False)))
    return f'<g font-family="serif" font-size="28" fill="{LINE}"><text x="44" {left}</text><text x="{44 + side}" {right}</text></g>\n'


def svg(position, is_black_below=False, caption=None):
    """The picture of a position of check_tree.py, as a file that stands alone; with a caption, its stipulation and keys, it is higher."""
    width, side = position.width, 48 + 100 * position.width
    high = side + 40 if caption else side

    def seen(place):
        return width - 1 - place if is_black_below else place

    parts = ['<?xml version="1.0" encoding="UTF-8"?>\n']
    parts.append(f'<svg xmlns="http://www.w3.org/2000/svg" width="{side}" height="{high}" viewBox="0 0 {side} {high}" role="img">\n')
    parts.append(f"<title>{'White' if position.side == 'w' else 'Black'} to move</title>\n")
    parts.append(f'<path d="M0 0h{side}v{high}H0z" fill="#fff"/>\n')
    for row in range(width):
        rank = width - 1 - seen(row)
        for column in range(width):
            parts += square_svg(seen(column), rank, column, row, position.units.get((seen(column), rank)))
    parts.append(f'<path d="M44 4h{100 * width}v{100 * width}H44z" fill="none" stroke="{LINE}" stroke-width="3"/>\n')
    for n in range(width):
        parts.append(sign_svg(RANKS[width - 1 - seen(n)], 6, 39 + 100 * n))
        parts.append(sign_svg(FILES[seen(n)], 79 + 100 * n, 9 + 100 * width))
    if position.side == "b":
        parts.append(f'<path d="M11 {26 + 100 * width}a11 11 0 1 0 22 0 11 11 0 1 0-22 0z" fill="{LINE}"/>\n')
    if caption:
        parts.append(caption_svg(*caption, 100 * width))
    return "".join([*parts, "</svg>\n"])
