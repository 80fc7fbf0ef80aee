// Runs in the page of the earth fault's example, after its own script. What it finds replaces the page's text.
const said = [];
const say = (name, found) => said.push("said: " + name + ": " + found);
try {
  const row = 528, ib = channels[5], ia = channels[4];
  say("rows", rows + ", channels " + channels.length + ", contacts " + contacts.length);
  say("IB in row 529", valueAt(ib, row) + " at " + times[row] / 1e6 + " ms");
  // the picture: the lowest pixel of IB's colour is at the time of its least value
  show(-5e7, 2e8);
  draw();
  const scale = window.devicePixelRatio, image = pen.getImageData(0, 0, canvas.width, canvas.height);
  let lowest = null;
  const panel = plot.panels[1];
  for (let y = Math.round(panel.top * scale); y < (panel.top + panel.height - 1) * scale; y++)
    for (let x = Math.round(LEFT * scale); x < (LEFT + plot.width) * scale; x++) {
      const at = 4 * (y * canvas.width + x), [r, g, b] = image.data.slice(at, at + 3);
      if (Math.abs(r - 213) < 30 && Math.abs(g - 130) < 30 && Math.abs(b - 15) < 40) lowest = [x / scale, y / scale];
    }
  say("lowest pixel of IB", Math.abs(lowest[0] - across(times[row])) < 3 ? "at its least value" : lowest + " and not at " + across(times[row]));
  // cursors
  moveCursor(0, row), moveCursor(1, 240), fillTables();
  say("IB at A and B", ib.cells[0].textContent + ", " + ib.cells[1].textContent);
  say("rms of UC at the trigger", channels[2].cells[3].textContent);
  say("cursors", document.getElementById("cursors").textContent.replace(/\s+/g, " "));
  say("phasor of UC at the trigger", channels[2].cells[4].textContent);
  say("contacts at A", contacts.map((contact) => contact.cells[0].textContent).join(""));
  // keys and the wheel
  const key = (name, more) => dispatchEvent(new KeyboardEvent("keydown", { key: name, ...more }));
  key("ArrowRight"), key("ArrowRight", { shiftKey: true });
  say("B after the arrows", state.cursors[1]);
  key("a"), key("ArrowLeft");
  say("A after an arrow", state.cursors[0]);
  const x = LEFT + plot.width / 4, before = timeAt(x), long = state.to - state.from;
  canvas.getBoundingClientRect();
  const wheel = new WheelEvent("wheel", { deltaY: -400, clientX: canvas.getBoundingClientRect().left + x, clientY: canvas.getBoundingClientRect().top + 50, cancelable: true });
  canvas.dispatchEvent(wheel);
  say("zoom by the wheel", ((state.to - state.from) / long).toFixed(4) + (Math.abs(timeAt(x) - before) < 1e6 ? ", the time under it stays" : ", the time under it moved"));
  key("0");
  say("whole record", state.from / 1e6 + " to " + state.to / 1e6);
  key("p"), key("p");
  say("IA in row 529, secondary", valueAt(ia, row).toFixed(6));
  key("p");
  // the pyramid against all rows
  let differ = 0;
  for (let i = 0; i < 2000; i++) {
    const from = (i * 7919) % rows, to = Math.min(rows, from + ((i * 104729) % rows));
    let low = Infinity, high = -Infinity;
    for (let k = from; k < to; k++) low = Math.min(low, ib.samples[k]), high = Math.max(high, ib.samples[k]);
    const found = extremes(ib, from, to);
    if (low > high ? found !== null : found[0] !== low || found[1] !== high) differ++;
  }
  say("extremes that differ", differ);
  channels[0].isOn = channels[1].isOn = channels[2].isOn = channels[3].isOn = false;
  draw();
  say("panels without the voltages", plot.panels.length);
} catch (error) {
  say("stopped", error);
}
say("errors", failed.length + failed.join());
document.body.textContent = "";
add(document.body, "pre", said.join("\n") + "\n");
