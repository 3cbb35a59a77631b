"""Opens pages in headless Chromium, and asks it for the boxes of all texts."""

import html
import json
import os
import re
import shutil
import subprocess

NAMES = ("chromium", "chromium-browser", "google-chrome")
WIDTH = 1080
SECONDS = 600
# Each page is in a frame of this one, which writes what is wrong with it into its own text. A text of a picture has to be inside the
# picture, beside all other texts, and inside the last box before it of its group, which is none of the squares that say how far a table
# is checked. No page is wider than its frame.
SCRIPT = """
const SLACK = 1.5;
function inside(small, large) {
  return small.left >= large.left - SLACK && small.right <= large.right + SLACK && small.top >= large.top - SLACK && small.bottom <= large.bottom + SLACK;
}
function boxOf(text) {
  if (text.classList.contains("band")) return null;
  for (let one = text.previousElementSibling; one; one = one.previousElementSibling)
    if (one.tagName === "rect" && !one.classList.contains("symbol")) return one;
  return null;
}
function overlap(one, other) {
  const width = Math.min(one.right, other.right) - Math.max(one.left, other.left);
  const height = Math.min(one.bottom, other.bottom) - Math.max(one.top, other.top);
  return width > 2 * SLACK && height > 2 * SLACK;
}
function problems(page) {
  const wrong = [];
  let count = 0;
  for (const svg of page.querySelectorAll("svg[id]")) {
    const whole = svg.getBoundingClientRect();
    const texts = [...svg.querySelectorAll("text")].map((text) => [text, text.getBoundingClientRect()]);
    count += texts.length;
    for (const [text, own] of texts) {
      if (!own.width) wrong.push("no width: " + text.textContent);
      if (!inside(own, whole)) wrong.push("outside " + svg.id + ": " + text.textContent);
      const box = text.parentNode.tagName === "g" || text.parentNode.tagName === "a" ? boxOf(text) : null;
      if (box && !inside(own, box.getBoundingClientRect())) wrong.push("outside its box in " + svg.id + ": " + text.textContent);
    }
    texts.forEach(([text, own], at) => {
      for (const [other, its] of texts.slice(at + 1))
        if (overlap(own, its)) wrong.push("one over the other in " + svg.id + ": " + text.textContent + ", " + other.textContent);
    });
  }
  const body = page.documentElement;
  if (body.scrollWidth > body.clientWidth) wrong.push("wider than its window: " + body.scrollWidth);
  return { wrong, count };
}
addEventListener("load", () => {
  const found = [...document.querySelectorAll("iframe")].map((frame) => problems(frame.contentDocument));
  document.body.textContent = "FOUND" + JSON.stringify(found) + "END";
});
"""


class Browser:
    """The browser, if there is one, with a folder for the page that it opens."""

    def __init__(self, folder):
        self.path = next((path for path in map(shutil.which, NAMES) if path), None)
        self.folder = folder

    def problems(self, pages: dict):
        """Of each page by its name what is wrong with it."""
        frames = "".join(f'<iframe width="{WIDTH}" height="900" srcdoc="{html.escape(text)}"></iframe>' for text in pages.values())
        path = os.path.join(self.folder, "frames.html")
        with open(path, "w", encoding="utf-8") as file:
            file.write(f'<!DOCTYPE html><meta charset="utf-8"><title>pages</title><body>{frames}<script>{SCRIPT}</script></body>')
        words = ["--headless", "--no-sandbox", "--disable-gpu", "--enable-logging=stderr", "--timeout=600000", "--dump-dom", f"file://{path}"]
        words.append(f"--user-data-dir={os.path.join(self.folder, 'browser')}")
        run = subprocess.run([self.path, *words], capture_output=True, timeout=SECONDS, check=False)
        console = re.findall(r".*CONSOLE.*", run.stderr.decode("utf-8", "replace"))
        found = re.search(r"FOUND(.*)END", html.unescape(run.stdout.decode("utf-8", "replace")), re.S)
        yield "the console", "\n".join(console)
        if not found:
            yield "the pages", f"no answer: {run.stderr.decode('utf-8', 'replace')[-500:]}"
            return
        for name, told in zip(pages, json.loads(found[1])):
            yield name, "\n".join(told["wrong"]) or ("no texts" if not told["count"] else "")
