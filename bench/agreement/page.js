// What the script of a page has and shows of its record, by the script itself: node page.js
// PAGE.html ROW.. prints its rows, times, values, bits, changes, extremes, and for each row (from 1)
// what the tables show where both cursors are there.
"use strict";
const run = require("../../cases/files/page_world.js");
const asked = JSON.stringify(process.argv.slice(3).map(Number));
console.log(run(process.argv[2], `JSON.stringify({
  rows, times: Array.from(times),
  names: [...channels, ...contacts].map((item) => item.id),
  units: channels.map((channel) => channel.unit),
  values: channels.map((channel) =>
    Array.from({ length: rows }, (_, row) => valueAt(channel, row))),
  bits: contacts.map((contact) => Array.from({ length: rows }, (_, row) => bitAt(contact, row))),
  changes: contacts.map((contact) => contact.changes),
  extremes: channels.map((channel) => {
    const found = extremes(channel, 0, rows);
    const values = found && found.map((sample) => channel.a * sample + channel.b);
    return values && values.sort((one, other) => one - other);
  }),
  at: ${asked}.map((row) => {
    moveCursor(0, row - 1), moveCursor(1, row - 1), fillTables();
    return {
      row, cycles: channels.map((channel) => cycleValues(channel, row - 1)),
      cells: channels.map((channel) => channel.cells.map((cell) => cell.textContent)),
      bits: contacts.map((contact) => contact.cells.map((cell) => Number(cell.textContent))),
    };
  }),
})`));
