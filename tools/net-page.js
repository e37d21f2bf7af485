"use strict";
// Goes through the steps of each run. A step's systems and packets are in the attributes of its list item.
const SVG = "http://www.w3.org/2000/svg";
const isStill = matchMedia("(prefers-reduced-motion: reduce)").matches;

function packetsOf(step) {
  return (step.dataset.packets || "").split(" ").filter(Boolean).map((word) => ({ link: word.slice(0, -1), isBack: word.endsWith("-") }));
}

// Puts a packet at a part of its way along a link.
function place(circle, packet, part) {
  const path = document.getElementById(packet.link);
  const point = path.getPointAtLength(path.getTotalLength() * (packet.isBack ? 1 - part : part));
  circle.setAttribute("cx", point.x);
  circle.setAttribute("cy", point.y);
}

function move(circle, packet, from, to) {
  const begin = performance.now();
  function frame(now) {
    const part = isStill ? 1 : Math.min(1, (now - begin) / 600);
    place(circle, packet, from + (to - from) * part);
    if (part < 1 && circle.isConnected) requestAnimationFrame(frame);
  }
  place(circle, packet, isStill ? to : from);
  requestAnimationFrame(frame);
}

class Run {
  constructor(section) {
    this.svg = section.querySelector("svg");
    this.steps = [...section.querySelectorAll(".steps > li")];
    this.status = section.querySelector("[role=status]");
    [this.back, this.next] = section.querySelectorAll("button");
    this.at = -1;
    section.classList.add("live");
    this.back.addEventListener("click", () => this.show(this.at - 1));
    this.next.addEventListener("click", () => this.show(this.at + 1));
    section.addEventListener("keydown", (event) => {
      const way = { ArrowRight: 1, ArrowLeft: -1 }[event.key];
      const figure = event.target.closest("figure");
      const isScroll = figure !== null && figure.scrollWidth > figure.clientWidth;
      if (way === undefined || isScroll || event.altKey || event.ctrlKey || event.metaKey) return;
      event.preventDefault();
      this.show(this.at + way);
    });
    this.show(-1);
  }

  show(at) {
    if (at < -1 || at >= this.steps.length) return;
    this.at = at;
    for (const name of ["has", "acts", "moves"]) {
      for (const part of this.svg.querySelectorAll("." + name)) part.classList.remove(name);
    }
    for (const circle of this.svg.querySelectorAll(".packet")) circle.remove();
    this.steps.forEach((step, number) => {
      if (number === at) step.setAttribute("aria-current", "step");
      else step.removeAttribute("aria-current");
      if (number <= at && step.dataset.has) document.getElementById(step.dataset.has).classList.add("has");
    });
    this.back.setAttribute("aria-disabled", at < 0);
    this.next.setAttribute("aria-disabled", at === this.steps.length - 1);
    this.status.textContent = at < 0 ? "Before the first step" : `Step ${at + 1} of ${this.steps.length}`;
    if (at >= 0) this.mark(this.steps[at]);
  }

  mark(step) {
    if (step.dataset.acts) document.getElementById(step.dataset.acts).classList.add("acts");
    const arrives = step.dataset.arrives === "yes";
    for (const packet of packetsOf(step)) {
      document.getElementById(packet.link).classList.add("moves");
      const circle = this.svg.appendChild(document.createElementNS(SVG, "circle"));
      circle.setAttribute("class", "packet");
      circle.setAttribute("r", "8");
      move(circle, packet, arrives ? 0.35 : 0, arrives ? 1 : 0.35);
    }
  }
}

for (const section of document.querySelectorAll(".run")) new Run(section);
