"""What a browser without a window, Chromium, says of pages: in both colours and at two widths whether something is wider than its place, whether each link
leads to a part of the page, whether each text can be told from what is behind it, and whether no two texts of a ladder overlap."""
import html
import json
import re
import shutil
import tempfile
from collections import namedtuple
from pathlib import Path

from gate import limits

# By how browsers call them: the numbers of the two colours, and the widths in pixels.
COLOURS = {"dark": 0, "light": 1}
WIDTHS = (380, 1280)
# What is found on a page: its name, the colour and the width, how many elements it has, what is behind it, and what is wrong.
Seen = namedtuple("Seen", "name colour width count behind wrongs")
# The least ratio of light and dark between a text and what is behind it, as the W3C's guidelines ask of it (WCAG 2.1, 1.4.3).
CONTRAST = 4.5
LOOKS = r"""
const numbers = text => (text.match(/[\d.]+/g) || []).map(Number);
const linear = part => part / 255 <= 0.03928 ? part / 255 / 12.92 : ((part / 255 + 0.055) / 1.055) ** 2.4;
const light = color => color.slice(0, 3).map(linear).reduce((sum, part, at) => sum + part * [0.2126, 0.7152, 0.0722][at], 0);
const ratio = (one, other) => (Math.max(light(one), light(other)) + 0.05) / (Math.min(light(one), light(other)) + 0.05);
const name = element => `${element.tagName.toLowerCase()}.${element.className}`;

function behind(view, element) {
  for (let at = element; at; at = at.parentElement) {
    const color = numbers(view.getComputedStyle(at).backgroundColor);
    if (color.length < 4 || color[3] > 0) return color;
  }
  return [255, 255, 255];
}

function ofLink(view, link) {
  const to = link.getAttribute("href") || link.getAttribute("xlink:href") || "";
  return to.startsWith("#") && view.document.getElementById(to.slice(1)) ? [] : [`a link to ${to}`];
}

function ofElement(view, element, contrast) {
  const style = view.getComputedStyle(element), found = [];
  if (style.display != "inline" && element.clientWidth > 0 && element.scrollWidth > element.clientWidth + 1) found.push(`${name(element)} overflows`);
  const hasText = [...element.childNodes].some(node => node.nodeType == 3 && node.data.trim());
  if (hasText && ratio(numbers(style.color), behind(view, element)) < contrast) found.push(`${name(element)} is pale`);
  return found;
}

function mixed(over, under, opacity) {
  const part = (over.length < 4 ? 1 : over[3]) * opacity;
  return [0, 1, 2].map(at => over[at] * part + under[at] * (1 - part));
}

function behindText(view, shapes, text, box) {
  const middle = [box.left + box.width / 2, box.top + box.height / 2];
  let color = behind(view, text.ownerSVGElement.parentElement);
  for (const shape of shapes) {
    if (shape.compareDocumentPosition(text) & Node.DOCUMENT_POSITION_PRECEDING) break;
    const style = view.getComputedStyle(shape), at = shape.getBoundingClientRect();
    const has = at.left <= middle[0] && middle[0] <= at.right && at.top <= middle[1] && middle[1] <= at.bottom;
    if (has && style.fill != "none") color = mixed(numbers(style.fill), color, Number(style.fillOpacity));
  }
  return color;
}

function overlap(one, other) {
  const wide = Math.min(one.right, other.right) - Math.max(one.left, other.left), high = Math.min(one.bottom, other.bottom) - Math.max(one.top, other.top);
  return wide > 0.5 && high > one.height / 5;
}

function ofDrawing(view, drawing, contrast) {
  const texts = [...drawing.querySelectorAll("text")], boxes = texts.map(text => text.getBoundingClientRect()), found = [];
  const shapes = [...drawing.querySelectorAll("rect, circle, ellipse, polygon, path")];
  texts.forEach((text, at) => {
    const color = behindText(view, shapes, text, boxes[at]);
    if (ratio(numbers(view.getComputedStyle(text).fill), color) < contrast) found.push(`the text ${text.textContent} is pale`);
    if (!drawing.classList.contains("ladder")) return;
    for (let next = at + 1; next < texts.length; next++)
      if (overlap(boxes[at], boxes[next])) found.push(`${text.textContent} overlaps ${texts[next].textContent}`);
  });
  return found;
}

function looked(view, contrast) {
  const root = view.document.documentElement;
  root.querySelectorAll("details").forEach(one => one.open = true);
  const wide = root.scrollWidth > root.clientWidth ? [`${root.scrollWidth} wide`] : [];
  const links = [...root.querySelectorAll("a")].flatMap(link => ofLink(view, link));
  const others = [...root.querySelectorAll("body *:not(svg *)")].flatMap(element => ofElement(view, element, contrast));
  const color = view.getComputedStyle(view.document.body).backgroundColor;
  const drawn = [...root.querySelectorAll("svg")].flatMap(drawing => ofDrawing(view, drawing, contrast));
  return {count: root.querySelectorAll("*").length, behind: color, wrongs: [...new Set([...wide, ...links, ...others, ...drawn])]};
}

async function look(pages, widths, contrast) {
  const found = [];
  for (const page of pages) for (const width of widths) {
    const frame = document.createElement("iframe");
    Object.assign(frame, {style: `width:${width}px;height:900px;border:0`, src: page});
    const loaded = new Promise(done => frame.onload = done);
    document.body.append(frame);
    await loaded;
    found.push({page, width, ...looked(frame.contentWindow, contrast)});
    frame.remove();
  }
  document.body.append(Object.assign(document.createElement("pre"), {id: "found", textContent: JSON.stringify(found)}));
}
"""


def browser():
    """The browser; None where none is there."""
    return shutil.which("chromium") or shutil.which("chromium-browser")


def looker(names):
    """A page that looks at the pages of these names, which stand beside it."""
    calls = f"look({json.dumps(names)}, {json.dumps(WIDTHS)}, {CONTRAST});"
    return f'<!DOCTYPE html><meta charset="utf-8"><meta name="color-scheme" content="light dark"><body><script>{LOOKS}{calls}</script>'


def seen_in(folder, colour):
    """What is found in a colour on the pages of a folder, by a page in it that looks at them."""
    words = ["--headless", "--no-sandbox", "--disable-gpu", "--allow-file-access-from-files", "--virtual-time-budget=60000", "--dump-dom"]
    words += [f"--user-data-dir={folder / 'user'}", f"--blink-settings=preferredColorScheme={COLOURS[colour]}", f"file://{folder}/look.html"]
    result = limits.run([browser(), *words], capture_output=True, text=True, errors="replace", check=True)
    said = re.search(r'<pre id="found">(.*?)</pre>', result.stdout, re.DOTALL)
    for one in json.loads(html.unescape(said[1])) if said else []:
        yield Seen(Path(one["page"]).stem, colour, one["width"], one["count"], one["behind"], one["wrongs"])


def seen(pages):
    """What is found on pages, texts by their names, in both colours and at both widths."""
    with tempfile.TemporaryDirectory() as name:
        folder = Path(name)
        for page, text in pages.items():
            (folder / f"{page}.html").write_text(text)
        (folder / "look.html").write_text(looker([f"{page}.html" for page in pages]))
        return [one for colour in COLOURS for one in seen_in(folder, colour)]
