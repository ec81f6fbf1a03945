// What the page shows now, as a reader sees it: read from the page, not from its data.
window.seen = () => {
  const all = (selector, within = document) => [...within.querySelectorAll(selector)];
  const visible = element => getComputedStyle(element).display !== "none";
  const colour = (element, name) => getComputedStyle(element)[name];
  return {
    number: document.getElementById("number").textContent,
    changes: document.getElementById("changes").textContent,
    line: document.getElementById("line").textContent,
    slider: document.getElementById("slider").value,
    points: Object.fromEntries(all(".point").map(point => [point.dataset.place, point.querySelector(".state").textContent])),
    marked: Object.fromEntries(all(".point").map(point =>
      [point.dataset.place, colour(point.querySelector(".mark"), "borderColor") !== colour(document.querySelector(".rung"), "borderRightColor")])),
    bits: Object.fromEntries(all("tr.bit").map(bit => [bit.dataset.place, bit.querySelector(".state").textContent])),
    rungs: all(".rung").map(rung => ({
      coil: rung.querySelector(".coil").dataset.coil,
      value: all(".coil .value", rung).filter(visible).map(value => value.textContent).join(),
      filled: colour(rung.querySelector(".coil .fill"), "fill") !== "none",
      contacts: all(".contact", rung).map(contact => ({
        place: contact.dataset.contact,
        broken: contact.querySelector(".slash") !== null,
        closed: colour(contact.querySelector(".fill"), "fill") !== "none",
      })),
    })),
  };
};
