// A page's own script without a browser: what stands in its blocks, and a world where nothing is drawn.
"use strict";
const fs = require("fs"), vm = require("vm");

const pen = new Proxy({}, { get: () => () => ({ width: 0 }), set: () => true });
const nothing = () => {};

/** An element with a text, that takes whatever is done to it. */
const element = (text) => ({
  textContent: text, style: {}, dataset: {}, width: 900, height: 600, clientWidth: 900,
  remove: nothing, append: nothing, setAttribute: nothing, addEventListener: nothing,
  getContext: () => pen, parentElement: { clientWidth: 900 },
  getBoundingClientRect: () => ({ left: 0, top: 0, width: 900, height: 600 }),
});

/** The blocks of data of a page by id, and its scripts. */
function partsOf(page) {
  const blocks = new Map(), scripts = [];
  for (const [, attributes, text] of page.matchAll(/<script([^>]*)>([^]*?)<\/script>/g)) {
    const id = /id="?([^" >]*)/.exec(attributes);
    if (id) blocks.set(id[1], text);
    else scripts.push(text);
  }
  return { blocks, scripts };
}

/** Runs the script of the page in a file, then an expression, and gives the expression's value. */
module.exports = (file, expression) => {
  const { blocks, scripts } = partsOf(fs.readFileSync(file, "utf8"));
  const elements = new Map();
  const byId = (id) => {
    if (!elements.has(id)) elements.set(id, element(blocks.get(id) ?? ""));
    return elements.get(id);
  };
  const world = {
    document: {
      getElementById: byId, createElement: () => element(""), querySelectorAll: () => [],
      documentElement: element(""), body: element(""),
    },
    matchMedia: () => ({ matches: false, addEventListener: nothing }), addEventListener: nothing,
    requestAnimationFrame: nothing, getComputedStyle: () => ({ getPropertyValue: () => "" }),
    innerWidth: 900, innerHeight: 600, devicePixelRatio: 1, atob, console,
  };
  world.window = world;
  return vm.runInNewContext(scripts.join("\n") + "\n;" + expression, world);
};
