// Parts of the page: elements, tables that can be sorted and filtered, and the plot. Text is always set as text.
"use strict";

// So many rows of a table are shown at first, and more at each press.
const ROWS_AT_ONCE = 500;

/** @param {string} id @returns {HTMLElement} */
function byId(id) {
  return document.getElementById(id);
}

/** An element with a text. @param {string} tag @param {string} text @param {string} [className] */
function element(tag, text, className) {
  const made = document.createElement(tag);
  made.textContent = text;
  if (className) made.className = className;
  return made;
}

/** @param {string} text @param {() => void} act */
function button(text, act) {
  const made = element("button", text);
  made.type = "button";
  made.onclick = act;
  return made;
}

/** A number of things. @param {number} number @param {string} thing */
function counted(number, thing) {
  return `${number} ${thing}${number === 1 ? "" : "s"}`;
}

/** Lets the reader save the bytes. @param {Uint8Array} bytes @param {string} name */
function download(bytes, name) {
  const link = element("a", "");
  link.href = URL.createObjectURL(new Blob([bytes], { type: "application/octet-stream" }));
  link.download = name;
  link.click();
  setTimeout(() => URL.revokeObjectURL(link.href), 60000);
}

/**
 * A column: its key, its name, the property or function by which it sorts, if that is not its key, and what its cells show.
 * @typedef {{key: string, name: string, by?: string | ((row: object) => any), number?: boolean, shows?: (row: object) => string}} Column
 */

/** @param {Column} column @param {object} row */
function cellText(column, row) {
  return column.shows ? column.shows(row) : String(row[column.key] ?? "");
}

/** A cell; a name, which may be cut, is its title too. @param {Column} column @param {object} row */
function cellOf(column, row) {
  const isName = column.key === "name", text = cellText(column, row);
  const cell = element("td", text, column.number ? "number" : isName ? "name" : "");
  if (isName) cell.title = text;
  return cell;
}

/**
 * The head of a table, whose buttons sort it.
 * @param {Column[]} columns @param {{column: string, falls: boolean}} order @param {() => void} draw
 */
function headOf(columns, order, draw) {
  const line = element("tr", "");
  for (const column of columns) {
    const head = element("th", "", column.number ? "number" : "");
    head.scope = "col";
    const isOrder = order.column === column.key;
    head.setAttribute("aria-sort", isOrder ? (order.falls ? "descending" : "ascending") : "none");
    head.append(button(column.name + (isOrder ? (order.falls ? " ▼" : " ▲") : ""), () => {
      order.falls = order.column === column.key && !order.falls;
      order.column = column.key;
      draw(column.key);
    }));
    line.append(head);
  }
  const head = element("thead", "");
  head.append(line);
  return head;
}

/**
 * A table of rows with a filter, sorted by the column that was pressed.
 * @param {string} label @param {Column[]} columns @param {object[]} rows @param {(row: object) => string} className
 */
function tableOf(label, columns, rows, className) {
  const order = { column: "", falls: false };
  const whole = element("div", ""), box = element("div", "", "rows"), table = element("table", "");
  const search = element("input", ""), said = element("p", ""), more = element("p", "");
  let limit = ROWS_AT_ONCE;
  more.append(button("Show more rows", () => { limit += ROWS_AT_ONCE; draw(); }));
  const draw = (pressed) => {
    const found = filtered(rows, search.value, columns.map((column) => (row) => cellText(column, row)));
    const by = columns.find((column) => column.key === order.column);
    const shown = (by ? sorted(found, by.by || by.key, order.falls) : found).slice(0, limit);
    const body = element("tbody", "");
    for (const row of shown) {
      const line = element("tr", "", className(row));
      line.append(...columns.map((column) => cellOf(column, row)));
      body.append(line);
    }
    table.replaceChildren(headOf(columns, order, draw), body);
    const isCut = found.length > shown.length;
    const many = counted(found.length, "row");
    said.textContent = isCut ? `The first ${shown.length} of ${many}.` : `${many}.`;
    more.hidden = !isCut;
    // The button that was pressed is made anew, and keeps the focus.
    const place = columns.findIndex((column) => column.key === pressed);
    if (place >= 0) table.querySelectorAll("th button")[place].focus();
  };
  search.type = "search";
  search.oninput = () => { limit = ROWS_AT_ONCE; draw(); };
  const filter = element("label", "Filter: ");
  filter.append(search);
  table.setAttribute("aria-label", label);
  box.tabIndex = 0;
  box.setAttribute("role", "region");
  box.setAttribute("aria-label", label);
  box.append(table);
  whole.append(filter, box, said, more);
  draw();
  return whole;
}

/** @param {string} tag @param {Record<string, string | number>} attributes */
function drawn(tag, attributes) {
  const made = document.createElementNS("http://www.w3.org/2000/svg", tag);
  for (const [name, value] of Object.entries(attributes)) made.setAttribute(name, String(value));
  return made;
}

/**
 * Draws a bar for each level in which one is better by some ticks: upwards if mine is, downwards if theirs is.
 * @param {HTMLElement} figure @param {Standing[]} rows
 */
function plot(figure, rows) {
  const bars = rows.filter((row) => row.ticks > 0);
  figure.hidden = bars.length === 0;
  if (figure.hidden) return;
  const most = bars.reduce((best, row) => Math.max(best, row.ticks), 1);
  // Few bars stay narrow.
  const places = Math.max(bars.length, 20);
  const picture = drawn("svg", { viewBox: `0 -50 ${places} 100`, preserveAspectRatio: "none", role: "img" });
  picture.setAttribute("aria-label", "Seconds gained by level; the table below has the same numbers");
  bars.forEach((row, i) => {
    const height = (row.ticks / most) * 48;
    const bar = drawn("rect", { x: i + 0.1, y: row.side === "mine" ? -height : 0, width: 0.8, height, class: row.side });
    const title = drawn("title", {});
    title.textContent = `level ${row.level} ${row.password}: ${row.words}`;
    bar.append(title);
    picture.append(bar);
  });
  picture.append(drawn("line", { x1: 0, x2: places, y1: 0, y2: 0, class: "axis" }));
  const [first, last] = [bars[0].level, bars.at(-1).level];
  const words = `Seconds gained by level, ${first === last ? first : `${first} to ${last}`}. Up: mine is better; down: theirs is. ` +
    `The longest bar is ${secondsText(most)} s.`;
  figure.replaceChildren(picture, element("figcaption", words));
}
