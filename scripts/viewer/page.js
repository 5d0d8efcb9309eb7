(() => {
"use strict";
const data = JSON.parse(document.getElementById("data").textContent);
const texts = data.s, runs = data.runs;
const most = Math.max(...runs.map(frames => frames.length - 1));
const slider = document.getElementById("slider"), where = document.getElementById("where");
const said = document.getElementById("said"), playButton = document.querySelector("[data-go=play]");
const articles = [...document.querySelectorAll("article.run")];
const still = matchMedia("(prefers-reduced-motion: reduce)");
const LANES_LEFT = 48, GLIDE = 260, PACE = 1100, NAMING = 150;
let now = -1, timer = 0, glide = 0, naming = 0;

const joined = ids => ids.map(id => texts[id]).join("");

// The numbers of a part that glide: where a group stands, or the ends of a line.
function numbersOf(part) {
  if (part.tagName === "line") return ["x1", "y1", "x2", "y2"].map(name => +part.getAttribute(name));
  const found = /translate\(([-\d.]+),([-\d.]+)\)/.exec(part.getAttribute("transform") || "");
  return found ? [+found[1], +found[2]] : null;
}

function place(part, numbers) {
  if (part.tagName === "line") ["x1", "y1", "x2", "y2"].forEach((name, i) => part.setAttribute(name, numbers[i]));
  else part.setAttribute("transform", `translate(${numbers[0]},${numbers[1]})`);
}

// Puts in the picture of a step. What stood there before under the same name glides to its new place.
function draw(svg, ids, isNext) {
  const before = new Map();
  for (const part of svg.querySelectorAll("[data-k]")) before.set(part.dataset.k, numbersOf(part));
  svg.innerHTML = joined(ids);
  if (!isNext || still.matches) return [];
  const moved = [];
  for (const part of svg.querySelectorAll("[data-k]")) {
    const from = before.get(part.dataset.k), to = numbersOf(part);
    if (!from || !to || part.dataset.k === "access") continue;
    if (from.some((number, i) => number !== to[i])) moved.push([part, from, to]);
  }
  return moved;
}

function glideAll(moved) {
  cancelAnimationFrame(glide);
  if (!moved.length) return;
  const start = performance.now();
  const turn = time => {
    const share = Math.min(1, Math.max(0, (time - start) / GLIDE)), eased = share * share * (3 - 2 * share);
    for (const [part, from, to] of moved) place(part, to.map((end, i) => from[i] + (end - from[i]) * eased));
    if (share < 1) glide = requestAnimationFrame(turn);
  };
  turn(start);
}

// Scrolls a box sideways, and only the box, so far that a part of it can be seen.
function bringIn(box, part) {
  if (!part || box.scrollWidth <= box.clientWidth) return;
  const outer = box.getBoundingClientRect(), inner = part.getBoundingClientRect();
  const middle = (inner.left + inner.right - outer.left - outer.right) / 2;
  if (inner.left < outer.left + 20 || inner.right > outer.right - 20) box.scrollLeft += middle;
}

function showRun(article, frames, step, isNext) {
  const last = frames.length - 1, at = Math.min(step, last);
  const [acts, tree, keys, threads, records, words] = frames[at];
  const part = name => article.querySelector(name);
  const ended = step > last ? `<p class="ended">This schedule has ended after step ${last}.</p>` : "";
  part(".act").innerHTML = ended + joined(acts);
  part(".keys ul").innerHTML = joined(keys);
  part(".threads > ul").innerHTML = joined(threads);
  if (part(".records ul")) part(".records ul").innerHTML = joined(records) || "<li>none yet</li>";
  const svg = part("svg.memory");
  svg.setAttribute("aria-label", texts[words]);
  const moved = draw(svg, tree, isNext && step <= last);
  const cell = +article.dataset.cell, moment = part(".moment");
  moment.style.visibility = at ? "visible" : "hidden";
  moment.style.transform = `translateX(${Math.max(0, at - 1) * cell}px)`;
  bringIn(part(".tree .scroll"), svg.querySelector("[data-k=access]"));
  const lanes = part(".timeline .scroll"), x = LANES_LEFT + at * cell;
  const isSeen = x >= lanes.scrollLeft + 60 && x <= lanes.scrollLeft + lanes.clientWidth - 20;
  if (!isSeen) lanes.scrollLeft = x - lanes.clientWidth / 2;
  return moved;
}

function show(step) {
  step = Math.max(0, Math.min(most, step));
  clearTimeout(naming);
  naming = setTimeout(nameStep, NAMING);
  if (step === now) return;
  const isNext = Math.abs(step - now) === 1 && now >= 0;
  now = step;
  slider.value = step;
  where.textContent = `step ${step} of ${most}`;
  slider.setAttribute("aria-valuetext", where.textContent);
  glideAll(articles.flatMap((article, i) => showRun(article, runs[i], step, isNext)));
  const lines = runs.map(frames => texts[frames[Math.min(step, frames.length - 1)][6]]);
  said.textContent = `Step ${step}. ${lines.join(". ")}`;
  document.body.dataset.step = step;
  for (const link of document.querySelectorAll(".lists a")) {
    if (link.getAttribute("href") === `#step=${step}`) link.setAttribute("aria-current", "step");
    else link.removeAttribute("aria-current");
  }
  if (step === most) stop();
}

// Names the step in the address once it stays: browsers stop pages that name many in short time.
function nameStep() {
  if (location.hash === `#step=${now}`) return;
  try { history.replaceState(null, "", `#step=${now}`); } catch (fault) { /* a page that may not name its step */ }
}

function stop() {
  clearInterval(timer);
  timer = 0;
  playButton.textContent = "play";
  playButton.setAttribute("aria-label", "Play");
}

function play() {
  if (timer) return stop();
  if (now === most) show(0);
  timer = setInterval(() => show(now + 1), PACE);
  playButton.textContent = "stop";
  playButton.setAttribute("aria-label", "Stop");
}

const moves = {
  home: () => { stop(); show(0); },
  end: () => { stop(); show(most); },
  back: () => { stop(); show(now - 1); },
  on: () => { stop(); show(now + 1); },
  play,
};
const keys = { ArrowRight: "on", ArrowLeft: "back", Home: "home", End: "end", " ": "play" };

document.addEventListener("keydown", event => {
  if (event.ctrlKey || event.altKey || event.metaKey || !(event.key in keys)) return;
  // a button, a link and a list that opens answer to the space bar themselves
  if (event.key === " " && event.target.closest("button, summary, a")) return;
  event.preventDefault();
  moves[keys[event.key]]();
});
for (const button of document.querySelectorAll("[data-go]")) {
  button.addEventListener("click", moves[button.dataset.go]);
}
slider.addEventListener("input", () => { stop(); show(+slider.value); });

function stepIn(address) {
  const found = /#step=(\d+)$/.exec(address);
  return found ? +found[1] : null;
}
// the address of the event, as the step before may have been named in the meantime
addEventListener("hashchange", event => {
  const step = stepIn(event.newURL);
  if (step !== null) { stop(); show(step); }
});

articles.forEach((article, i) => {
  // the names of the lanes stay where they can be seen
  const lanes = article.querySelector(".timeline .scroll");
  const names = [article.querySelector(".lanes .names"), ...article.querySelectorAll(".lanes .head")];
  article.querySelector("svg.lanes").append(...names);
  lanes.addEventListener("scroll", () => {
    for (const name of names) name.setAttribute("transform", `translate(${lanes.scrollLeft},0)`);
  });
  article.querySelector("svg.lanes").addEventListener("click", event => {
    const box = event.currentTarget.getBoundingClientRect();
    const step = Math.ceil((event.clientX - box.left - LANES_LEFT) / +article.dataset.cell);
    if (step > 0) { stop(); show(Math.min(step, runs[i].length - 1)); }
  });
});

const lists = document.querySelector(".lists");
runs.forEach((frames, i) => {
  const list = document.createElement("ol");
  list.setAttribute("start", "0");
  if (runs.length > 1) list.setAttribute("aria-label", i ? "Right" : "Left");
  frames.forEach((frame, step) => {
    const item = document.createElement("li"), link = document.createElement("a");
    link.href = `#step=${step}`;
    link.textContent = texts[frame[6]];
    item.append(link);
    list.append(item);
  });
  lists.append(list);
});

const first = stepIn(location.href);
show(first === null ? 0 : first);
})();
