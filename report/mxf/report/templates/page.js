"use strict";
const table = document.querySelector("#recordings table");
if (table) {
  const rows = [...table.tBodies[0].rows];
  const heads = [...table.tHead.rows[0].cells];
  const plain = text => text.normalize("NFKD").replace(/\p{M}/gu, "").toLowerCase();
  const shown = cell => (cell.querySelector("text") || cell).textContent;
  const places = new Map(rows.map((row, place) => [row, place]));
  const names = new Map(rows.map(row => [row, plain(row.cells[0].textContent + " " + row.cells[1].textContent)]));
  const byText = new Intl.Collator("en", {numeric: true}).compare;

  const line = document.createElement("p");
  const box = Object.assign(document.createElement("input"), {type: "search", className: "search", placeholder: "Search by name"});
  const count = document.createElement("span");
  box.setAttribute("aria-label", "Search by name");
  count.setAttribute("role", "status");
  line.append(box, count);
  table.before(line);
  box.addEventListener("input", () => {
    const words = plain(box.value).split(/\s+/).filter(Boolean);
    for (const row of rows) row.hidden = !words.every(word => names.get(row).includes(word));
    count.textContent = words.length ? rows.filter(row => !row.hidden).length + " of " + rows.length : "";
  });

  const isVerdict = column => heads[column].textContent === "Verdict";
  const sort = (column, turn) => {
    const keys = new Map(rows.map(row => [row, shown(row.cells[column])]));
    const compare = (one, other) => {
      const [a, b] = [keys.get(one), keys.get(other)];
      if (isVerdict(column)) return turn * (places.get(one) - places.get(other));
      return (a === "-") - (b === "-") || turn * byText(a, b) || places.get(one) - places.get(other);
    };
    table.tBodies[0].append(...[...rows].sort(compare));
  };
  heads.forEach((head, column) => {
    const button = document.createElement("button");
    button.type = "button";
    button.append(...head.childNodes);
    head.append(button);
    button.addEventListener("click", () => {
      const turn = head.getAttribute("aria-sort") === "ascending" ? -1 : 1;
      for (const other of heads) other.removeAttribute("aria-sort");
      head.setAttribute("aria-sort", turn === 1 ? "ascending" : "descending");
      sort(column, turn);
    });
  });
}
