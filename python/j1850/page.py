"""A picture as an HTML page: one file that needs nothing from outside, which zooms, steps through the bits and can be printed."""
import html
import json

from . import lanes, library, strip
from .contest import BITS
from .waiting import bits

HEAD = """<!DOCTYPE html>
<html lang="en">
<head>
<meta charset="utf-8">
<meta name="viewport" content="width=device-width">
<title>{title}</title>
<style>
body{{font-family:DejaVu Sans,Verdana,sans-serif;margin:1em;color:#111;background:#fff}}
#told{{min-height:3em;font-size:1.1em;white-space:pre-wrap}}
#view{{overflow:auto;border:1px solid #555}}
button{{font-size:1em;margin-right:.3em}}
kbd{{border:1px solid #555;border-radius:3px;padding:0 .3em}}
@media print{{.hands{{display:none}}#view{{border:0;overflow:visible}}#view svg{{width:100%!important;height:auto!important}}}}
</style>
</head>
<body>
<p class="hands"><button id="back">&#8592;</button><button id="on">&#8594;</button><button id="out">&minus;</button><button id="in">+</button>
<kbd>&#8592;</kbd> <kbd>&#8594;</kbd> step, <kbd>Home</kbd> <kbd>End</kbd> the first and the last, <kbd>l</kbd> {mark},
<kbd>+</kbd> <kbd>&minus;</kbd> <kbd>0</kbd> zoom</p>
<p id="told" aria-live="polite"></p>
<div id="view" tabindex="0">
"""
SCRIPT = """</div>
<script>
"use strict";
const steps = %s;
const view = document.getElementById("view"), svg = view.querySelector("svg"), cursor = document.getElementById("cursor");
const told = document.getElementById("told"), wide = svg.viewBox.baseVal.width, high = svg.viewBox.baseVal.height;
let at = -1, zoom = 1;
function sized() { svg.setAttribute("width", wide * zoom); svg.setAttribute("height", high * zoom); shown(); }
function shown() {
  if (at < 0) { return; }
  const step = steps[at];
  cursor.setAttribute("x", step.x); cursor.setAttribute("width", step.width); cursor.setAttribute("visibility", "visible");
  told.textContent = step.told;
  view.scrollLeft = (step.x + step.width / 2) * zoom - view.clientWidth / 2;
}
function go(to) { at = Math.max(0, Math.min(steps.length - 1, to)); shown(); }
function nextMark() { const next = steps.findIndex((step, i) => i > at && step.marked); if (next >= 0) { go(next); } }
function zoomed(by) { zoom = by ? Math.max(0.2, Math.min(8, zoom * by)) : 1; sized(); }
const keys = { ArrowLeft: () => go(at - 1), ArrowRight: () => go(at + 1), Home: () => go(0), End: () => go(steps.length - 1),
  l: nextMark, "+": () => zoomed(1.25), "=": () => zoomed(1.25), "-": () => zoomed(0.8), "0": () => zoomed(0) };
document.addEventListener("keydown", event => {
  if (keys[event.key] && !event.ctrlKey && !event.metaKey && !event.altKey) { event.preventDefault(); keys[event.key](); }
});
for (const [id, key] of [["back", "ArrowLeft"], ["on", "ArrowRight"], ["out", "-"], ["in", "+"]]) {
  document.getElementById(id).addEventListener("click", keys[key]);
}
</script>
</body>
</html>
"""


def embedded(value):
    """A value as it may stand in a script."""
    return json.dumps(value).replace("<", "\\u003c")


def of(title, drawn, steps, mark):
    """The page of an SVG. A step has the place that is framed, what is told of it, and whether it is one that the key l goes to."""
    return HEAD.format(title=html.escape(title), mark=mark) + drawn + SCRIPT % embedded(steps)


def bit_told(played, bit):
    """What is told of a bit: what the line had, who sent what, and who stops."""
    value = BITS[played.symbols[bit + 1]]
    senders, stops = {0: [], 1: []}, []
    for lane in played.lanes:
        if lane.fared == "idle" or (lane.fared == "lost" and lane.bit < bit):
            continue
        sent = bits(lane.sent)
        if bit <= len(sent):
            senders[sent[bit - 1]].append(lane.name)
        if lane.fared == "lost" and lane.bit == bit:
            stops.append(lane.name)
    said = [f"{', '.join(names)} sent {number}" for number, names in senders.items() if names]
    level = "passive" if bit % 2 else "active"
    ends = f"\nstops here: {', '.join(stops)}" if stops else ""
    return f"bit {bit} of {8 * len(played.bytes)}: the line had {value} ({level}, {played.words[bit + 1]} µs); {'; '.join(said)}{ends}"


def of_round(played, drawn):
    """The page of a round."""
    drawing = lanes.Drawing(played)
    lost = {lane.bit for lane in played.lanes if lane.fared == "lost"}
    steps = []
    for bit in range(1, 8 * len(played.bytes) + 1):
        begin, end = drawing.x(drawing.starts[bit + 1]), drawing.x(drawing.starts[bit + 2])
        steps.append({"x": begin, "width": end - begin, "told": bit_told(played, bit), "marked": bit in lost})
    return of(lanes.title(played), drawn, steps, "the next bit where a station loses")


def of_excerpt(cut, drawn):
    """The page of a frame of a recording: a step for each interval."""
    steps = []
    for interval, (at, wide) in zip(cut.intervals, strip.laid(cut)):
        low, high = interval.window
        window = f"{low} and up" if high is None else f"{low} to {high}"
        fault = cut.number in library.FAULTS and interval.place == cut.last
        said = f"\nat fault: {cut.said}" if fault else ""
        level = "active" if interval.active else "passive"
        words = f"interval {interval.place}, from {interval.begins} µs on: {level}, {interval.width} µs: {interval.symbol} ({window} µs){said}"
        steps.append({"x": at, "width": wide, "told": words, "marked": fault})
    return of(cut.title, drawn, steps, "the interval at fault")
