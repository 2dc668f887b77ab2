"""A story as one page that opens in any browser, without a network."""
from __future__ import annotations

import html
import json

from feulgama.debug.calls_over_time import Story
from feulgama.debug.symbols import Symbols

PAGE = """<!DOCTYPE html>
<html lang="en">
<head>
<meta charset="utf-8">
<title>%(title)s</title>
<style>
body { font: 14px/1.4 sans-serif; margin: 1em; color: #222; }
h1 { font-size: 1.2em; margin: 0; }
svg { display: block; width: 100%%; background: #f7f7f5; margin: .3em 0 1em; }
rect.call { stroke: #fff; stroke-width: .5; cursor: pointer; }
text { font: 11px monospace; pointer-events: none; }
.line { fill: none; stroke: #46a; }
#told { font-family: monospace; background: #fff6d6; padding: .3em .6em; min-height: 1.4em; }
pre { background: #f0f0ee; padding: .5em; overflow: auto; }
button { margin-right: .5em; }
</style>
</head>
<body>
<h1>%(title)s</h1>
<p id="summary">%(summary)s</p>
<p><button id="in">zoom in</button><button id="out">zoom out</button><button id="left">&larr;</button
><button id="right">&rarr;</button><button id="all">all</button> <span id="range"></span></p>
<div id="told">Click a call: its turn is shown, as the debugger's <code>goto</code> takes it.</div>
<svg id="calls"></svg>
<h1>Memory</h1>
<svg id="memory"></svg>
<h1>Output</h1>
<pre id="output"></pre>
<script>
"use strict";
const story = %(story)s;
const SVG = "http://www.w3.org/2000/svg", ROW = 18, WIDTH = 1200, LEAST = 0.4;
let begin = 0, end = Math.max(1, story.turns);
const find = (id) => document.getElementById(id);
const x = (turn) => (turn - begin) / (end - begin) * WIDTH;
function made(parent, name, attributes, words) {
    const one = document.createElementNS(SVG, name);
    for (const [key, value] of Object.entries(attributes)) one.setAttribute(key, value);
    if (words !== undefined) one.textContent = words;
    parent.appendChild(one);
    return one;
}
function color(func) { return `hsl(${func * 47 %% 360}, 55%%, 72%%)`; }
function words(call) {
    const [func, depth, from, to] = call;
    return `goto ${from}   ${story.names[func]}, turns ${from} to ${to}, depth ${depth}`;
}
function drawCalls() {
    const svg = find("calls");
    const deepest = story.calls.reduce((most, call) => Math.max(most, call[1]), 0);
    svg.replaceChildren();
    svg.setAttribute("viewBox", `0 0 ${WIDTH} ${(deepest + 1) * ROW}`);
    const last = [];
    for (const call of story.calls) {
        const [func, depth, from, to] = call;
        if (to < begin || from > end) continue;
        const left = Math.max(0, x(from)), right = Math.min(WIDTH, x(to));
        if (right - left < LEAST && left < (last[depth] ?? -1)) continue;
        last[depth] = left + LEAST;
        const box = made(svg, "rect", { class: "call", x: left, y: depth * ROW, width: Math.max(LEAST, right - left),
            height: ROW - 1, fill: color(func), "data-func": func, "data-begin": from, "data-end": to, "data-depth": depth });
        made(box, "title", {}, words(call));
        box.addEventListener("click", () => { find("told").textContent = words(call); });
        const letters = Math.floor((right - left) / 7) - 1;
        if (letters > 2) made(svg, "text", { x: left + 4, y: depth * ROW + 13 }, story.names[func].slice(0, letters));
    }
    find("range").textContent = `turns ${Math.round(begin)} to ${Math.round(end)} of ${story.turns}`;
}
function drawMemory() {
    const svg = find("memory");
    const most = story.memory.reduce((found, point) => Math.max(found, point[1]), 1);
    svg.replaceChildren();
    svg.setAttribute("viewBox", `0 0 ${WIDTH} 60`);
    const y = (size) => 55 - size / most * 45;
    let path = "";
    story.memory.forEach(([turn, size], at) => {
        const next = at + 1 < story.memory.length ? story.memory[at + 1][0] : story.turns;
        path += `${at ? "L" : "M"}${x(turn)} ${y(size)} L${x(next)} ${y(size)} `;
        made(svg, "text", { x: Math.max(0, x(turn)) + 4, y: y(size) - 3, "data-turn": turn, "data-size": size },
            `${size} bytes`);
    });
    made(svg, "path", { class: "line", d: path });
}
function drawOutput() {
    find("output").textContent = story.output.length ? story.output.map(([turn, stream, text]) =>
        `turn ${turn}, ${stream === 1 ? "stdout" : "stderr"}: ${JSON.stringify(text)}`).join("\\n") : "none";
}
function draw() { drawCalls(); drawMemory(); }
function zoom(factor) {
    const middle = (begin + end) / 2, half = Math.max(5, (end - begin) * factor / 2);
    begin = Math.max(0, middle - half);
    end = Math.min(Math.max(1, story.turns), middle + half);
    draw();
}
function move(part) {
    const way = Math.max(-begin, Math.min(story.turns - end, (end - begin) * part));
    begin += way;
    end += way;
    draw();
}
find("in").onclick = () => zoom(0.5);
find("out").onclick = () => zoom(2);
find("left").onclick = () => move(-0.5);
find("right").onclick = () => move(0.5);
find("all").onclick = () => { begin = 0; end = Math.max(1, story.turns); draw(); };
draw();
drawOutput();
if (location.hash) document.querySelector(`[data-begin="${location.hash.slice(1)}"]`)?.dispatchEvent(new Event("click"));
</script>
</body>
</html>
"""


def page(story: Story, symbols: Symbols, title: str) -> str:
    """The page."""
    names = {call.func: symbols.names.function(call.func) for call in story.calls}
    exactness = "each begin and end is exact to the turn" if story.step == 1 else \
        f"looked at each {story.step} turns: a call that is shorter may be missing, and begins and ends are as inexact"
    summary = f"{story.turns} turns, {len(story.calls)} calls; {story.end}. {exactness[0].upper()}{exactness[1:]}."
    data = {"turns": story.turns, "names": names, "memory": story.memory, "output": story.output,
            "calls": [[call.func, call.depth, call.begin, call.end] for call in story.calls]}
    shown = json.dumps(data, separators=(",", ":")).replace("<", "\\u003c")
    return PAGE % {"title": html.escape(title), "summary": html.escape(summary), "story": shown}
