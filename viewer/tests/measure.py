"""Measures the page of a large run: how long it takes to open, and the longest frames while it is scrolled."""
import json
import random
import subprocess
import sys
import tempfile
from pathlib import Path

import browser
import texts

# Scrolls by wheel events, one for each frame, and answers the times between frames, and the longest that the page took to draw
# one, in milliseconds.
SCROLL = """
const [rows, frames, done] = arguments;
const { run } = window.shownRun.page;
const gaps = [];
let last = null;
let drawing = 0;
run.drawing.draw = (view) => {
  const began = performance.now();
  Object.getPrototypeOf(run.drawing).draw.call(run.drawing, view);
  drawing = Math.max(drawing, performance.now() - began);
};
function frame(now) {
  if (last !== null) gaps.push(now - last);
  last = now;
  run.canvas.dispatchEvent(new WheelEvent("wheel", { deltaY: rows * run.layout.rowHeight, bubbles: true, cancelable: true }));
  if (gaps.length < frames) requestAnimationFrame(frame);
  else {
    delete run.drawing.draw;
    done([gaps, drawing]);
  }
}
requestAnimationFrame(frame);
"""
FRAMES = 200


def largest():
    """A scenario of 16 nodes and 32 epochs with transactions of 256 bytes, in which nobody lies."""
    draw = random.Random(32)
    submit = [{"node": node, "tx": draw.randbytes(256).hex()} for _ in range(120) for node in range(16)]
    return json.dumps({"nodes": 16, "faulty": 5, "epochs": 32, "submit": submit})


def make(folder):
    """The page of that scenario."""
    scenario, page = Path(folder, "largest.json"), Path(folder, "largest.html")
    scenario.write_text(largest())
    subprocess.run([texts.TOP / "tools" / "view", scenario, page], check=True)
    return page


def scrolled(shown, zoom, rows):
    """The frames of a scroll at a zoom, by so many rows each, and how long the page took to draw one at most."""
    shown.run("(() => { const { run } = window.shownRun.page; run.zoom(-9); run.zoom(arguments[0]); run.scrollTo(0); })()", zoom)
    return shown.driver.execute_async_script(SCROLL, rows, FRAMES)


def measure(driver, page):
    """Prints what was measured of a page."""
    driver.set_script_timeout(300)
    shown = browser.Shown(driver, page)
    ready = shown.run("Number(document.documentElement.dataset.ready)")
    shown.wait("return performance.timing.loadEventEnd")
    load = shown.run("performance.timing.loadEventEnd - performance.timing.navigationStart")
    posts = shown.run("window.shownRun.world.history.count")
    print(f"page of {page.stat().st_size / 1e6:.1f} MB, {posts:,} posts")
    print(f"load event {load / 1000:.1f} s after the start, first view {ready / 1000:.1f} s after the start")
    shown.wait("return document.querySelectorAll('.grid').length === window.shownRun.world.config.epochs")
    shown.go("run")
    for zoom, rows in ((0, 40), (2, 10), (4, 3), (4, 900), (6, 3)):
        frames, drawing = scrolled(shown, zoom, rows)
        longest = max(range(len(frames)), key=frames.__getitem__)
        told = f"median {sorted(frames)[len(frames) // 2]:.0f} ms, longest {frames[longest]:.0f} ms (frame {longest})"
        print(f"zoom {zoom}, {rows} rows a frame, {len(frames)} frames: {told}; drawing took {drawing:.0f} ms at most")


def main():
    """Measures the page that is named, or that of the large scenario."""
    try:
        driver = browser.start(sys.argv[1], sys.argv[2])
    except browser.SILENCE as silence:
        sys.exit(f"viewer/test: the browser did not start: {str(silence).splitlines()[0]}")
    try:
        with tempfile.TemporaryDirectory() as folder:
            measure(driver, Path(sys.argv[3]).resolve() if len(sys.argv) > 3 else make(folder))
    finally:
        driver.quit()


if __name__ == "__main__":
    main()
