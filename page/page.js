"use strict";
// Shows the scans. Everything shown was worked out when the page was made; nothing is worked out here.
(() => {
  const one = id => document.getElementById(id);
  const all = (selector, within = document) => [...within.querySelectorAll(selector)];
  const data = JSON.parse(one("data").textContent);
  document.documentElement.classList.add("script");

  // A track as a function from the scan, counted from 1, to its value.
  function track(given) {
    const places = new Uint16Array(data.scans);
    let at = 0;
    for (let run = 0; run < given.runs.length; run += 2) {
      places.fill(given.runs[run], at, at + given.runs[run + 1]);
      at += given.runs[run + 1];
    }
    return scan => given.of[places[scan - 1]];
  }
  const changes = track(data.changes);
  const lines = track(data.lines);
  const places = Object.fromEntries(Object.entries(data.places).map(([key, given]) => [key, track(given)]));
  const rungs = all(".rung svg").map((svg, number) => ({flags: track(data.rungs[number]), parts: all(".s", svg), shown: null}));
  const marks = all("[data-place]").filter(mark => !mark.classList.contains("row"));
  let scan = 1;
  let timer = null;

  // ---- one scan

  function showRung(rung) {
    const flags = rung.flags(scan);
    if (flags === rung.shown) return;
    rung.parts.forEach((part, place) => part.classList.toggle("on", flags[place] === "1"));
    rung.shown = flags;
  }

  function showMark(mark) {
    const value = places[mark.dataset.place](scan);
    mark.classList.toggle("on", value === 1);
    mark.querySelector(".state").textContent = mark.classList.contains("bit") ? value : value ? "on" : "off";
  }

  function show(wanted) {
    scan = Math.max(1, Math.min(data.scans, wanted));
    rungs.forEach(showRung);
    marks.forEach(showMark);
    one("number").textContent = scan;
    one("changes").textContent = changes(scan);
    one("line").textContent = (scan + " " + lines(scan)).trim();
    one("slider").value = scan;
    one("slider").setAttribute("aria-valuetext", "scan " + scan + " of " + data.scans);
    showHere();
  }

  // ---- playing

  function pause() {
    clearInterval(timer);
    timer = null;
    document.body.classList.remove("playing");
    one("play").setAttribute("aria-label", "Play");
    one("now").setAttribute("aria-live", "polite");
  }

  function next() {
    if (scan >= data.scans) pause();
    else show(scan + 1);
  }

  function play() {
    if (scan >= data.scans) show(1);
    timer = setInterval(next, Number(one("speed").value));
    document.body.classList.add("playing");
    one("play").setAttribute("aria-label", "Pause");
    one("now").setAttribute("aria-live", "off");
  }

  function go(wanted) {
    pause();
    show(wanted);
  }

  const turn = () => timer === null ? play() : pause();
  one("back").addEventListener("click", () => go(scan - 1));
  one("on").addEventListener("click", () => go(scan + 1));
  one("play").addEventListener("click", turn);
  one("slider").addEventListener("input", () => go(Number(one("slider").value)));
  one("speed").addEventListener("change", () => { if (timer !== null) { pause(); play(); } });

  const keys = {ArrowLeft: () => go(scan - 1), ArrowRight: () => go(scan + 1), Home: () => go(1), End: () => go(data.scans), " ": turn};
  document.addEventListener("keydown", event => {
    const own = event.target.closest("button, select, [role=button], input[type=checkbox]");
    const taken = event.altKey || event.ctrlKey || event.metaKey || !(event.key in keys);
    if (taken || (own && (event.key === " " || own.tagName === "SELECT"))) return;
    event.preventDefault();
    keys[event.key]();
  });

  // ---- macro uses: pointing shows, choosing holds

  let chosen = null;
  const parts = all("[data-use]");

  function pick(use) {
    parts.forEach(part => {
      const picked = use !== null && part.dataset.use === use;
      part.classList.toggle("picked", picked);
      if (part.hasAttribute("aria-pressed")) part.setAttribute("aria-pressed", String(picked && use === chosen));
    });
  }

  function into(element) {
    if (element) element.scrollIntoView({block: "nearest", inline: "nearest"});
  }

  function choose(part) {
    const use = part.dataset.use;
    chosen = chosen === use ? null : use;
    pick(chosen);
    if (chosen === null) return;
    const there = selector => document.querySelector(selector + '[data-use="' + use + '"]');
    if (part.closest(".ladder")) into(there("pre .use"));
    else into(there(".rung") || (there(".rung .contact") || part).closest(".rung"));
  }

  all("button[data-use], [role=button][data-use]").forEach(part => {
    part.addEventListener("pointerenter", () => pick(part.dataset.use));
    part.addEventListener("pointerleave", () => pick(chosen));
    part.addEventListener("focus", () => pick(part.dataset.use));
    part.addEventListener("blur", () => pick(chosen));
    part.addEventListener("click", () => choose(part));
  });
  all("[role=button]").forEach(part => part.addEventListener("keydown", event => {
    if (event.key !== "Enter" && event.key !== " ") return;
    event.preventDefault();
    choose(part);
  }));

  // ---- the timeline

  const SVG = document.querySelector("svg").namespaceURI;
  const HIGH = 22;
  const timeline = one("timeline");
  const rows = all(".row", timeline);
  let step = 0;

  function draw(kind, settings, within) {
    const made = document.createElementNS(SVG, kind);
    Object.entries(settings).forEach(([name, value]) => made.setAttribute(name, value));
    within.append(made);
    return made;
  }

  function strip(row, kind) {
    const svg = draw("svg", {class: kind, width: step * data.scans, height: HIGH, "aria-hidden": "true"}, row);
    draw("rect", {class: "here", y: 0, width: step, height: HIGH}, svg);
    svg.addEventListener("click", event => go(1 + Math.floor((event.clientX - svg.getBoundingClientRect().left) / step)));
    return svg;
  }

  // Bars where the value is 1, and a thin line where it is 0.
  function bars(row) {
    const given = data.places[row.dataset.place];
    let at = 0, high = "", low = "";
    for (let run = 0; run < given.runs.length; run += 2) {
      const from = at * step, wide = given.runs[run + 1] * step;
      if (given.of[given.runs[run]] === 1) high += "M" + from + " 4h" + wide + "v" + (HIGH - 8) + "h-" + wide + "z";
      else low += "M" + from + " " + (HIGH - 4.5) + "h" + wide;
      at += given.runs[run + 1];
    }
    const svg = strip(row, "strip");
    draw("path", {class: "low", d: low}, svg);
    draw("path", {class: "high", d: high}, svg);
  }

  function scale() {
    const row = document.createElement("div");
    row.className = "row scale";
    row.append(Object.assign(document.createElement("span"), {className: "name note", textContent: "scan"}));
    timeline.prepend(row);
    const svg = strip(row, "scale");
    const every = [1, 2, 5, 10, 20, 50, 100, 200, 500].find(each => each * step >= 30) || 1000;
    for (let number = 1; number <= data.scans; number += number === 1 && every > 1 ? every - 1 : every) {
      draw("text", {x: (number - 0.5) * step, y: HIGH - 7}, svg).textContent = number;
    }
  }

  function layOut() {
    all("svg, .scale", timeline).forEach(old => old.remove());
    const room = timeline.clientWidth - rows[0].querySelector(".name").offsetWidth - 4;
    step = Math.max(4, Math.min(80, room / data.scans));
    scale();
    rows.forEach(bars);
    showHere();
  }

  function showHere() {
    const left = (scan - 1) * step;
    all(".here", timeline).forEach(here => here.setAttribute("x", left));
    const name = rows[0].querySelector(".name").offsetWidth;
    const seen = timeline.clientWidth - name;
    if (left < timeline.scrollLeft || left + step > timeline.scrollLeft + seen) timeline.scrollLeft = left - seen / 2;
  }

  layOut();
  addEventListener("resize", layOut);
  new ResizeObserver(() => document.documentElement.style.setProperty("--bar", one("bar").offsetHeight + "px")).observe(one("bar"));
  const asked = () => Number(location.hash.slice(1)) || 1;
  addEventListener("hashchange", () => go(asked()));
  show(asked());
})();
