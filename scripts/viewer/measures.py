"""What scripts/check_viewer.py asks of a page in the browser."""
from __future__ import annotations

# In the page: the smallest letters, and the least contrast of a text to what stands behind it.
MEASURE = """(() => {
  const canvas = document.createElement("canvas").getContext("2d", { willReadFrequently: true });
  const rgba = colour => {
    canvas.clearRect(0, 0, 1, 1); canvas.fillStyle = colour; canvas.fillRect(0, 0, 1, 1);
    return [...canvas.getImageData(0, 0, 1, 1).data];
  };
  const light = ([r, g, b]) => [r, g, b].map(v => v / 255)
    .map(v => v <= .03928 ? v / 12.92 : ((v + .055) / 1.055) ** 2.4)
    .reduce((sum, v, i) => sum + v * [.2126, .7152, .0722][i], 0);
  const ratio = (a, b) => { const [x, y] = [light(a), light(b)].sort((p, q) => q - p); return (x + .05) / (y + .05); };
  const behind = element => {
    for (let at = element; at; at = at.parentElement) {
      if (at.namespaceURI.endsWith("svg") && at.tagName !== "svg") {
        for (let shape = at.previousElementSibling; shape && at === element; shape = shape.previousElementSibling) {
          const fill = shape.tagName === "rect" && rgba(getComputedStyle(shape).fill);
          if (fill && fill[3] === 255) return fill;
        }
        continue;
      }
      const colour = rgba(getComputedStyle(at).backgroundColor);
      if (colour[3] === 255) return colour;
    }
    return [255, 255, 255, 255];
  };
  let letter = 99, contrast = 99, small = "", faint = "";
  const walk = document.createTreeWalker(document.body, NodeFilter.SHOW_TEXT);
  for (let node = walk.nextNode(); node; node = walk.nextNode()) {
    const element = node.parentElement, text = node.data.trim();
    if (!text || element.closest("script, noscript, style, .heard") || !element.getClientRects().length) continue;
    const style = getComputedStyle(element);
    const scale = element.getScreenCTM ? Math.hypot(element.getScreenCTM().a, element.getScreenCTM().b) : 1;
    const size = parseFloat(style.fontSize) * scale;
    if (size < letter) { letter = size; small = text; }
    const colour = rgba(element.namespaceURI.endsWith("svg") ? style.fill : style.color);
    const found = ratio(colour, behind(element));
    if (found < contrast) { contrast = found; faint = text; }
  }
  return { letter, small, contrast, faint, wide: document.documentElement.scrollWidth - innerWidth };
})()"""


# What the page shows of its step.
SHOWN = """(() => {
  const runs = [...document.querySelectorAll("article.run")];
  return {
    step: +document.body.dataset.step, hash: location.hash, where: document.getElementById("where").textContent,
    slider: +document.getElementById("slider").value,
    replies: runs.map(run => [...run.querySelectorAll("[data-op]")].map(each => [each.dataset.op, each.textContent])),
    keys: runs.map(run => [...run.querySelectorAll("[data-key]")]
      .filter(each => each.dataset.found === "true").map(each => +each.dataset.key)),
    leaves: runs.map(run => [...run.querySelectorAll(".memory .leaf:not(.out) .key")].map(each => each.textContent)),
    acts: runs.map(run => run.querySelector(".act").textContent), said: document.getElementById("said").textContent,
    accesses: document.querySelectorAll("[data-k=access]").length,
  };
})()"""
