"use strict";
document.querySelectorAll("table.sorts").forEach(function (table) {
  var heads = Array.from(table.tHead.rows[0].cells);
  var number = /^-?[0-9.]*$/;
  function text(row, column) { return row.cells[column].textContent.trim(); }
  function compare(a, b) { return a < b ? -1 : a > b ? 1 : 0; }
  function keys(units, column) {
    var texts = units.map(function (unit) { return text(unit.rows ? unit.rows[0] : unit, column); });
    return texts.every(function (each) { return number.test(each); })
      ? texts.map(function (each) { return BigInt(each.replace(".", "")); }) : texts;
  }
  function sort(column, way) {
    var bodies = Array.from(table.tBodies);
    var one = bodies.length === 1 && !table.classList.contains("orders");
    var units = one ? Array.from(bodies[0].rows) : bodies;
    var of = keys(units, column);
    var places = units.map(function (unit, place) { return place; });
    places.sort(function (a, b) { return way * compare(of[a], of[b]); });
    var into = one ? bodies[0] : table;
    places.forEach(function (place) { into.appendChild(units[place]); });
    if (table.tFoot) { table.appendChild(table.tFoot); }
  }
  heads.forEach(function (head, column) {
    var name = head.textContent.trim();
    if (!name || head.classList.contains("picture")) { return; }
    var button = document.createElement("button");
    button.type = "button";
    button.textContent = name;
    head.textContent = "";
    head.appendChild(button);
    button.addEventListener("click", function () {
      var order = head.getAttribute("aria-sort");
      var way = order ? (order === "ascending" ? -1 : 1) : head.classList.contains("f") ? -1 : 1;
      heads.forEach(function (other) { other.removeAttribute("aria-sort"); });
      head.setAttribute("aria-sort", way === 1 ? "ascending" : "descending");
      sort(column, way);
    });
  });
});
document.querySelectorAll("table.finds").forEach(function (table) {
  var rows = Array.from(table.tBodies[0].rows);
  var names = rows.map(function (row) { return row.cells[0].textContent.toLowerCase(); });
  var find = document.createElement("p");
  find.className = "find";
  find.innerHTML = '<label>Find an account <input type="search" spellcheck="false" autocomplete="off"></label><span role="status"></span>';
  table.parentNode.before(find);
  find.querySelector("input").addEventListener("input", function (event) {
    var part = event.target.value.trim().toLowerCase();
    var found = 0;
    rows.forEach(function (row, at) {
      row.hidden = names[at].indexOf(part) < 0;
      found += !row.hidden;
    });
    find.lastChild.textContent = part ? found + " of " + rows.length : "";
  });
});
