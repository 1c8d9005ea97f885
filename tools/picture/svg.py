"""Writes a picture as SVG."""
from html import escape
from math import hypot

from picture.layout import CLEAR, DROPS, LEGEND_LINE, MARGIN, legend_places
from picture.parts import ARROW_WORDS, point_words
from picture.style import heads, style, symbols

# Where the numbers of events end.
NUMBERS_RIGHT = 42


def svg_of(picture):
    """The whole text of a picture."""
    layout = picture.layout
    parts = [head(picture), *bands(picture), *guides(picture), *lanes(picture), *operations(picture)]
    parts += [arrow(picture, *each) for each in picture.arrows]
    parts += injections(picture)
    parts += [row(picture, event) for event in picture.shown.events]
    parts += points(picture)
    parts += [label(layout.lanes[party] - 12, layout.down(event), text, "label strong right")
              for party, event, text in picture.labels]
    parts += [*names(picture), *legend_lines(picture), "</svg>"]
    return "\n".join(parts) + "\n"


def head(picture):
    """The opening, what the whole is called, how it looks, and its title line."""
    layout, used = picture.layout, {name for name, _ in picture.legend} | {"ask"}
    parties = ", ".join(f"{party.kind} {party.number}{' (faulty)' if party in picture.faulty else ''}"
                        for party in picture.shown.parties)
    return (f'<svg xmlns="http://www.w3.org/2000/svg" width="{layout.width}" height="{layout.height}" '
            f'viewBox="0 0 {layout.width} {layout.height}" role="graphics-document document" '
            f'aria-labelledby="qu-title qu-about">\n'
            f'<title id="qu-title">{escape(picture.title)}</title>\n'
            f'<desc id="qu-about">Time goes down: a row for each event, a line for each party: {parties}.</desc>\n'
            f"<style>\n{style()}\n</style>\n<defs>\n{heads(used)}\n{symbols(used)}\n</defs>\n"
            f'<rect class="paper" width="{layout.width}" height="{layout.height}"/>\n'
            f'<text class="title" x="{MARGIN}" y="{MARGIN + 12}">{escape(picture.title)}</text>')


def bands(picture):
    """The shades of the faulty parties, behind all else."""
    layout = picture.layout
    for party in picture.faulty:
        yield (f'<rect class="band" x="{layout.lanes[party] - 20}" y="{layout.top - 36}" width="40" '
               f'height="{layout.bottom - layout.top + 66}"/>')


def guides(picture):
    """A thin line from each event to its words."""
    layout = picture.layout
    for event in picture.shown.events:
        down = layout.down(event.number)
        yield f'<path class="guide" d="M{layout.lanes[event.party]} {down}H{layout.words_left - 8}"/>'


def lanes(picture):
    for at in picture.layout.lanes.values():
        yield f'<path class="lane" d="M{at} {picture.layout.top}V{picture.layout.bottom}"/>'


def operations(picture):
    """A broad line for the time in which an operation is under way."""
    run, layout, seen = picture.run, picture.layout, picture.shown.events
    ends = {event.ends: event.number for event in run.events if event.ends}
    for event in run.events:
        end = ends.get(event.operation, len(run.events) + 1)
        if event.kind == "call" and event.party in layout.lanes and seen and end >= seen[0].number:
            first, last = layout.down(event.number), layout.down(end)
            if first < last:
                yield f'<path class="open" d="M{layout.lanes[event.party]} {first}V{last}"/>'


def arrow(picture, letter, kind, delivered):
    """The arrow of a letter, from its sending to one delivery; one that is never delivered ends in the air."""
    layout = picture.layout
    left, right = layout.lanes[letter.sender], layout.lanes[letter.receiver]
    up, fate, off_end = layout.down(letter.sent_at), f"delivered at event {delivered}", 7
    if delivered is None:
        right, fate, off_end = layout.in_the_air(left, right), "never delivered", 0
        down = up + drop_of(picture, letter, right)
    else:
        down = layout.down(delivered)
        if down == layout.bottom:
            kind, off_end = f"{kind} cut", 0
    path = line_between(left, up, right, down, 0 if up == layout.top else 6, off_end)
    return titled(f"{letter.line}\nsent at event {letter.sent_at}, {fate}", path, kind)


def drop_of(picture, letter, at):
    """How far down a letter ends in the air: less where it would lie on a letter that is sent with it."""
    layout = picture.layout
    left, up, heights = layout.lanes[letter.sender], layout.down(letter.sent_at), []
    for other, _, delivered in picture.arrows:
        if delivered and other.sent_at == letter.sent_at:
            part = (at - left) / (layout.lanes[other.receiver] - left)
            if 0 < part < 1:
                heights.append(part * (layout.down(delivered) - up))
    return next((drop for drop in DROPS if all(abs(drop - height) >= CLEAR for height in heights)), DROPS[-1])


def titled(title, path, kind):
    """A line with a tooltip, which a broader line that is not seen makes easy to point at."""
    return (f'<g><title>{escape(title)}</title><path class="hit" d="{path}"/>'
            f'<path class="{kind} arrow" d="{path}"/></g>')


def line_between(left, up, right, down, off_start, off_end):
    """A line between two places, shorter by what is kept off them."""
    length = hypot(right - left, down - up)
    across, along = (right - left) / length, (down - up) / length
    places = (left + across * off_start, up + along * off_start, right - across * off_end, down - along * off_end)
    return "M{:.0f} {:.0f}L{:.0f} {:.0f}".format(*places)


def injections(picture):
    """Short arrows in from the side, with the party that the bytes name."""
    layout = picture.layout
    for event in picture.shown.events:
        if event.kind != "inject":
            continue
        at, down = layout.lanes[event.party], layout.down(event.number)
        yield titled(event.line, f"M{at - 36} {down}H{at - 8}", "side")
        if event.claimed:
            yield label(at - 22, down - 11, f"as {event.claimed.short}", "label side-text middle")


def row(picture, event):
    """The mark of an event, its number, and beside it what it did."""
    layout, down = picture.layout, picture.layout.down(event.number)
    strong = ' class="strong"' if event.kind == "call" or event.ends else ""
    words, left = escape(picture.words[event.number]), layout.words_left
    return (f'<g><title>{escape(event.line)}</title>'
            f'<use href="#qu-{picture.marks[event.number]}" x="{layout.lanes[event.party]}" y="{down}"/>'
            f'<text class="faint right" x="{NUMBERS_RIGHT}" y="{down + 4}">{event.number}</text>'
            f'<text class="faint" x="{left}" y="{down + 4}">{event.party.short}</text>'
            f'<text{strong} x="{left + 28}" y="{down + 4}">{words}</text></g>')


def points(picture):
    """The points on their clients' lines."""
    for point in picture.points:
        at, down = picture.layout.lanes[point.party], picture.layout.down(point.event)
        told = label(at - 13, down, point_words(point), "label point-text right")
        yield f'<g><title>{escape(point.line)}</title><use href="#qu-point" x="{at}" y="{down}"/>{told}</g>'


def label(at, down, text, kind):
    return f'<text class="{kind}" x="{at}" y="{down + 4}">{escape(text)}</text>'


def names(picture):
    """The names of the parties, above and below their lines."""
    layout = picture.layout
    for party, at in layout.lanes.items():
        for down in (layout.top - 10, layout.bottom + 18):
            yield f'<text class="name plain middle" x="{at}" y="{down}">{party.short}</text>'
        if party in picture.faulty:
            yield f'<text class="label plain middle" x="{at}" y="{layout.top - 24}">faulty</text>'


def legend_lines(picture):
    layout, entries = picture.layout, picture.legend
    for (kind, words), (left, line) in zip(entries, legend_places(picture.legend_texts(), layout.width)):
        down = layout.legend_top + LEGEND_LINE * line + LEGEND_LINE // 2
        yield legend_sign(kind, left, down)
        yield f'<text class="legend" x="{left + 32}" y="{down + 4}">{words}</text>'


def legend_sign(kind, left, down):
    if kind == "band":
        return f'<rect class="band" x="{left}" y="{down - 7}" width="22" height="14"/>'
    if kind not in ARROW_WORDS:
        return f'<use href="#qu-{kind}" x="{left + 12}" y="{down}"/>'
    colour = "ask " if kind in ("again", "lost") else ""
    return f'<path class="{colour}{kind} arrow" d="M{left} {down}H{left + 22}"/>'
