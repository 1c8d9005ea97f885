"""How a picture looks: colours for light and dark (Okabe and Ito's, which colour-blind people tell apart, darker on
light paper), and the marks."""

LIGHT = {"paper": "#ffffff", "ink": "#1b1b1b", "faint": "#5c5c5c", "line": "#9a9a9a", "guide": "#e6e6e6",
         "ask": "#0072b2", "answer": "#00795a", "side": "#a84300", "point": "#9c3f7c", "band": "#fbe9dc"}
DARK = {"paper": "#15181c", "ink": "#ececec", "faint": "#a8adb3", "line": "#767c84", "guide": "#2b3036",
        "ask": "#56b4e9", "answer": "#2cc79b", "side": "#ff9d5c", "point": "#e79cc8", "band": "#3b281b"}

# The rules that stand once for light and once for dark.
COLOURED = """
.paper{{fill:{paper}}}
text{{fill:{ink};stroke:{paper}}}
.faint{{fill:{faint}}}
.lane{{stroke:{line}}}
.guide{{stroke:{guide}}}
.band{{fill:{band}}}
.open{{stroke:{line}}}
.ink{{fill:{ink};stroke:{ink}}}
.hollow{{fill:{paper};stroke:{ink}}}
.ask{{stroke:{ask}}}
.ask-head{{fill:{ask}}}
.answer{{stroke:{answer}}}
.answer-head{{stroke:{answer}}}
.other{{stroke:{ink}}}
.side{{stroke:{side}}}
.side-head{{fill:{side}}}
.side-text{{fill:{side}}}
.point{{fill:{point};stroke:{paper}}}
.point-text{{fill:{point}}}
"""
SHAPED = """
text{font:12px Arial,Helvetica,"Liberation Sans",sans-serif;paint-order:stroke;stroke-width:3px;stroke-linejoin:round}
.label,.legend{font-size:11px}
.strong.label{stroke-width:6px}
.title{font-size:14px;font-weight:bold}
.name,.strong{font-weight:bold}
.right{text-anchor:end}
.middle{text-anchor:middle}
.plain{stroke:none}
.lane{stroke-width:1}
.open{stroke-width:5;stroke-linecap:round}
.ink,.hollow{stroke-width:1.5}
.arrow{fill:none;stroke-width:1.4}
.ask.arrow{marker-end:url(#qu-ask)}
.answer.arrow{marker-end:url(#qu-answer)}
.other.arrow{marker-end:url(#qu-other)}
.side.arrow{marker-end:url(#qu-side)}
.again{stroke-dasharray:7 3}
.lost.arrow{stroke-dasharray:2 3;marker-end:url(#qu-lost)}
.cut.arrow{marker-end:none}
.answer-head,.hit{fill:none}
.hit{stroke:none;stroke-width:9;pointer-events:stroke}
.hit:hover+.arrow{stroke-width:3}
"""

# The heads of the arrows: shape, and the place in it that lies at the arrow's end.
HEAD_SHAPES = {
    "ask": ('<path class="ask-head" d="M0 0.8L8 4L0 7.2z"/>', 8),
    "answer": ('<path class="answer-head" d="M1 0.8L7.4 4L1 7.2" stroke-width="1.4"/>', 7.4),
    "other": ('<path class="ink" d="M1 1L4 4L1 7z"/>', 4),
    "side": ('<path class="side-head" d="M0 0.8L8 4L0 7.2z"/>', 8),
    "lost": ('<path class="ink" d="M4 0V8"/>', 4),
}
# The shapes of the marks, around the place of their event.
SHAPES = {
    "call": '<path class="ink" d="M-5 -5.5L6 0L-5 5.5z"/>',
    "end": '<circle class="hollow" r="6"/><circle class="ink" r="2.6"/>',
    "tick": '<circle class="hollow" r="3"/>',
    "step": '<circle class="ink" r="2.2"/>',
    "rests": '<path class="ink" d="M-4.5 -5H-1.5V5H-4.5zM1.5 -5H4.5V5H1.5z"/>',
    "done": '<circle class="ink" r="5"/>',
    "told": '<circle class="hollow" r="5"/>',
    "refused": '<path class="hollow" d="M-5.5 -4.5L5.5 -4.5L0 5.5z"/>',
    "barrier": '<rect class="ink" x="-8" y="-2.5" width="16" height="5"/>',
    "copy": '<path class="hollow" d="M-2 -2H6V6H-2z"/><path class="ink" d="M-6 -6H2V2H-6z"/>',
    "waits": '<path class="hollow" d="M-5 -5.5H5L-5 5.5H5z"/>',
    "sent": '<rect class="hollow" x="-4" y="-4" width="8" height="8"/>',
    "counted": '<circle class="paper" r="6"/><path class="ink" d="M-5 0H5M0 -5V5"/>',
    "silent": '<circle class="hollow" r="5" stroke-dasharray="2 2"/>',
    "ignored": '<circle class="paper" r="6"/><path class="ink" d="M-4 -4L4 4M4 -4L-4 4"/>',
    "point": '<path class="point" d="M0 -7L7 0L0 7L-7 0z"/>',
}


def style():
    """The rules of both settings of the viewer."""
    light, dark = (COLOURED.format(**colours).strip() for colours in (LIGHT, DARK))
    return f"{SHAPED.strip()}\n{light}\n@media (prefers-color-scheme:dark){{\n{dark}\n}}"


def heads(names):
    """The definitions of the heads of these arrows."""
    return "\n".join(f'<marker id="qu-{name}" viewBox="0 0 8 8" refX="{place}" refY="4" markerWidth="8" '
                     f'markerHeight="8" markerUnits="userSpaceOnUse" orient="auto">{shape}</marker>'
                     for name, (shape, place) in HEAD_SHAPES.items() if name in names)


def symbols(names):
    """The definitions of the marks with these names."""
    return "\n".join(f'<g id="qu-{name}">{shape}</g>' for name, shape in SHAPES.items() if name in names)
