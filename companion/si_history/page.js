"use strict";
// A click on a finding draws its transactions. The page says all without this script, too, and draws the first finding.
(() => {
  const view = document.getElementById("view");
  const whole = document.getElementById("whole");
  const said = document.getElementById("said");
  const buttons = [...document.querySelectorAll("button.finding")];
  const words = (text) => text.split(" ").filter(Boolean);
  if (!whole) return;

  // The pictures that were drawn so far. The first one stands in the page, the others in templates.
  const drawn = new Map([["picture-0", view.firstElementChild]]);
  let chosen = buttons[0];

  function show(id) {
    if (!drawn.has(id)) drawn.set(id, document.getElementById(id).content.firstElementChild);
    view.replaceChildren(drawn.get(id));
    view.scrollTo(0, 0);
    keepNames();
  }

  function choose(button) {
    chosen = button;
    for (const each of buttons) each.setAttribute("aria-pressed", String(each === button));
    whole.setAttribute("aria-pressed", "false");
    show(button.dataset.picture);
    said.textContent = "The chosen finding's transactions alone.";
    view.scrollIntoView({ block: "nearest" });
    bringIntoView();
  }

  function showWhole() {
    whole.setAttribute("aria-pressed", "true");
    show("picture-whole");
    const transactions = new Set(words(chosen.dataset.transactions));
    const places = new Set(words(chosen.dataset.places));
    for (const mark of view.querySelectorAll(".mark")) mark.classList.toggle("is-named", places.has(mark.dataset.place));
    for (const bar of view.querySelectorAll(".found")) bar.classList.toggle("is-named", transactions.has(bar.dataset.transaction));
    view.querySelector("svg").classList.toggle("is-of-another", chosen !== buttons[0]);
    said.textContent = "All transactions. What the chosen finding is about stands out.";
    bringIntoView();
  }

  // Scrolls to what the finding is about: to the first such event where they don't all fit.
  function bringIntoView() {
    const frame = view.getBoundingClientRect();
    const boxes = [...view.querySelectorAll(".is-named")].map((mark) => mark.getBoundingClientRect());
    if (!boxes.length) return;
    const plate = view.querySelector(".plate");
    const left = frame.left + (plate ? plate.getBoundingClientRect().width : 0);
    view.scrollBy({
      left: off(boxes.map((box) => [box.left, box.right]), left, frame.right, 40),
      top: off(boxes.map((box) => [box.top, box.bottom]), frame.top, frame.bottom, 60),
    });
  }

  // How far the first of these spans is from where it is seen well; 0 where all are within the frame.
  function off(spans, least, most, margin) {
    const first = Math.min(...spans.map((span) => span[0]));
    return spans.every(([start, end]) => start >= least && end <= most) ? 0 : first - least - margin;
  }

  // The names of the lanes stay at the left edge.
  function keepNames() {
    for (const stays of view.querySelectorAll(".stays")) stays.setAttribute("transform", `translate(${view.scrollLeft} 0)`);
  }

  view.addEventListener("scroll", keepNames, { passive: true });
  for (const button of buttons) button.addEventListener("click", () => choose(button));
  whole.addEventListener("click", () => (whole.getAttribute("aria-pressed") === "true" ? choose(chosen) : showWhole()));
  whole.hidden = false;
  bringIntoView();
})();
