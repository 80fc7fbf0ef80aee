// What a page's own script computes, without a browser: node page_values.js PAGE.html ROW.. prints for
// each row (from 1) of each channel the rms value, and the rms value and angle of the fundamental.
"use strict";
const run = require("./page_world.js");
const asked = JSON.stringify(process.argv.slice(3).map(Number));
const all = `${asked}.map((row) => channels.map((channel) => cycleValues(channel, row - 1)))`;
console.log(run(process.argv[2], `JSON.stringify(${all})`));
