// The table in a real browser: `node browser.mjs CHROMIUM URL [PICTURE]`. A game is played by clicks on two pages that sit opposite each
// other to a double three; the cross is held to its place in all eight views of both; a page on a poor line stays a first part and catches
// up; a five ends the game. Exit status 1 and the reason where something is otherwise. With PICTURE a game's picture is kept there.

import assert from "node:assert/strict";
import { writeFileSync } from "node:fs";
import { setTimeout as sleep } from "node:timers/promises";
import { Browser, until } from "./devtools.mjs";

// Document 01, section 6: where each view sends the point (x, y). The page has this from the server's tables; here it is written down.
const VIEWS = [
  (x, y) => [x, y], (x, y) => [y, 14 - x], (x, y) => [14 - x, 14 - y], (x, y) => [14 - y, x],
  (x, y) => [14 - x, y], (x, y) => [x, 14 - y], (x, y) => [y, x], (x, y) => [14 - y, 14 - x],
];
const point = (name) => ["ABCDEFGHIJKLMNO".indexOf(name[0]), Number(name.slice(1)) - 1];
const code = (name) => 15 * point(name)[0] + point(name)[1];

// The view that equals one followed by another: the one that sends two points, which no view but the identity leaves alone, the same way.
function then(first, second) {
  const both = ([x, y]) => VIEWS[second](...VIEWS[first](x, y));
  return VIEWS.findIndex((view) => [[1, 0], [5, 2]].every((p) => String(view(...p)) === String(both(p))));
}

const stones = (page) => page.value("[...document.querySelectorAll('#stones .stone')].map((s) => Number(s.dataset.code))");
const text = (page, id) => page.value(`document.getElementById(${JSON.stringify(id)}).textContent`);
const holds = (page, count) => until(`a page holds ${count}`, async () => (await stones(page)).length === count);
const push = (page, selector) => page.value(`document.querySelector(${JSON.stringify(selector)}).click()`);

// Where the board's corner is in the window, and how large a cell is there.
const scale = (page) => page.value("(({a, e, f}) => ({ cell: a, left: e, top: f }))(document.getElementById('board').getScreenCTM())");

async function tap(page, name, view) {
  const [x, y] = VIEWS[view](...point(name));
  const { cell, left, top } = await scale(page);
  await page.click(left + cell * x, top + cell * (14 - y));
}

// Moves in turn, Black's page first or White's; each waits until both pages hold it.
async function play(pages, names) {
  const [black, white] = pages;
  let count = (await stones(black)).length;
  for (const name of names.split(" ")) {
    await (count % 2 === 0 ? tap(black, name, 0) : tap(white, name, 2));
    count += 1;
    await Promise.all(pages.map((page) => holds(page, count)));
  }
}

// Each cross on the screen, by the middle of its own lines: code, kind and the place that it is drawn at.
async function crosses(page) {
  const { cell, left, top } = await scale(page);
  const found = await page.value(`[...document.querySelectorAll(".cross")].map((cross) => {
    const { x, y, width, height } = cross.querySelector("path").getBoundingClientRect();
    return [Number(cross.dataset.code), Number(cross.dataset.kind), x + width / 2, y + height / 2];
  })`);
  return found.map(([at, kind, x, y]) => ({ at, kind, x: (x - left) / cell, y: 14 - (y - top) / cell }));
}

async function crossIsAt(page, name, kind, view) {
  const [cross, ...others] = await crosses(page);
  assert.equal(others.length, 0, `one cross in view ${view}`);
  assert.deepEqual([cross.at, cross.kind], [code(name), kind]);
  const [x, y] = VIEWS[view](...point(name));
  assert.ok(Math.hypot(cross.x - x, cross.y - y) < 0.05, `view ${view}: the cross is at ${cross.x}, ${cross.y}, not ${x}, ${y}`);
}

// The letter of a column and the number of a row stand on the lines that the view has put these on.
async function labelsAreRight(page, view) {
  const labels = await page.value(`[...document.querySelectorAll("#labels text")].map((label) =>
    [label.textContent, Number(label.getAttribute("x")), 14 - label.getAttribute("y")])`);
  assert.equal(labels.length, 60);
  for (const [label, x, y] of labels) {
    const isColumn = /[A-O]/.test(label);
    const [first, second] = isColumn ? ["1", "15"].map((row) => label + row) : ["A", "O"].map((column) => column + label);
    const [[a, b], [c, d]] = [VIEWS[view](...point(first)), VIEWS[view](...point(second))];
    assert.ok(a === c ? x === a && (y < 0 || y > 14) : y === b && b === d && (x < 0 || x > 14), `${label} in view ${view}`);
  }
}

// Every view by every turn: the page keeps one number.
async function turns(page, from) {
  let view = from;
  const seen = new Set();
  for (const by of [1, 4, 3, 6, 2, 5, 7, 1, 1, 4, 7]) {
    await push(page, `[data-turn="${by}"]`);
    view = then(view, by);
    seen.add(view);
    assert.equal(await text(page, "view"), `view ${view}`);
    await crossIsAt(page, "J5", 1, view);
    await labelsAreRight(page, view);
  }
  assert.equal(seen.size, 8, "all eight views were seen");
  await push(page, "#upright");
  assert.equal(await text(page, "view"), "view 0");
  if (from !== 0) await push(page, `[data-turn="${from}"]`);
}

async function toDoubleThree(pages) {
  await play(pages, "I5 A15 K5 C15 J4 E15 J6 A13");
  for (const [place, page] of pages.entries()) {
    await crossIsAt(page, "J5", 1, [0, 2][place]);
    assert.equal(await text(page, "caption"), "4 black, 4 white");
  }
  const [black] = pages;
  await tap(black, "J5", 0);
  await until("the refusal is shown", async () => (await text(black, "notice")) === "J5 is forbidden to Black: double three");
  await tap(black, "A15", 0);
  await until("the refusal is shown", async () => (await text(black, "notice")) === "A15 is occupied");
  assert.equal((await stones(black)).length, 8);
  await turns(black, 0);
  await turns(pages[1], 2);
}

// White takes back, and plays another move with the board turned by a quarter.
async function takeback(pages) {
  const game = () => Promise.all(pages.map((page) => page.value("Number(document.body.dataset.game)")));
  const before = await game();
  await push(pages[1], "#takeback");
  await Promise.all(pages.map((page) => holds(page, 7)));
  assert.deepEqual(await game(), before.map((number) => number + 1));
  await push(pages[1], '[data-turn="1"]');
  await tap(pages[1], "A12", then(2, 1));
  await Promise.all(pages.map((page) => holds(page, 8)));
  assert.equal((await stones(pages[0])).at(-1), code("A12"));
  await push(pages[1], '[data-turn="3"]');
}

// A spectator on a poor line: at every look its list is the first part of the players'.
async function poorLine(pages, spectator) {
  await holds(spectator, 8);
  await push(spectator, "#poor");
  await until("the line is poor", () => spectator.value("document.getElementById('line').textContent !== ''"));
  const looks = { on: true, count: 0, behind: 0 };
  const watch = (async () => {
    while (looks.on) {
      const seen = await stones(spectator);
      const all = await stones(pages[0]);
      assert.deepEqual(seen, all.slice(0, seen.length));
      looks.count += 1;
      looks.behind += seen.length < all.length ? 1 : 0;
      await sleep(10);
    }
  })();
  await play(pages, "D2 G15 E2 C13 F2 I15 G2 O15");
  await until("the spectator catches up", async () => (await stones(spectator)).length === 16, 15_000);
  looks.on = false;
  await watch;
  assert.ok(looks.behind > 0, "the poor line was noticed");
  const line = await text(spectator, "line");
  assert.match(line, /[1-9]/, "something was lost, repeated or out of order");
  console.log(`a poor line: ${line}; ${await text(spectator, "tally")}; ${looks.count} looks, behind in ${looks.behind}`);
  await crossIsSame(pages[0], spectator);
}

async function crossIsSame(one, other) {
  const list = async (page) => (await crosses(page)).map(({ at, kind }) => [at, kind]);
  assert.deepEqual(await list(one), await list(other));
}

async function five(pages, url) {
  const [black, white] = pages;
  await push(black, "#hint");
  await until("the hint is shown", async () => (await text(black, "notice")) === "A win by fours: C2");
  assert.equal(await black.value("document.querySelector('#hints g').dataset.code"), String(code("C2")));
  await play(pages, "H2");
  for (const page of pages) {
    assert.equal(await text(page, "status"), "Black has won");
    assert.equal(await page.value("document.querySelectorAll('.five').length"), 5);
  }
  await tap(white, "N14", 2);
  await until("the refusal is shown", async () => (await text(white, "notice")) === "the game is over: Black has won");
  await files(url, await stones(black));
}

async function files(url, codes) {
  const sgf = await (await fetch(new URL("/game.sgf", url))).text();
  assert.ok(sgf.startsWith("(;GM[4]SZ[15];B[ik];W[aa]"), sgf);
  const record = [...new Uint8Array(await (await fetch(new URL("/game.record?view=2", url))).arrayBuffer())];
  assert.deepEqual(record, [1, 0, 1, 2, 2, 0, codes.length, ...codes]);
}

async function times(black) {
  await until("taps were measured", async () => /^\d+ taps of this page/.test(await text(black, "taps-line")));
  assert.match(await text(black, "ours-line"), /^\d+ moves: median/);
  console.log(`from the tap to the cross: ${await text(black, "taps-line")}`);
  console.log(`this referee held the lock: ${await text(black, "ours-line")}; the original: ${await text(black, "original-line")}`);
}

// A game for the picture: after it there are crosses of all three kinds.
const GAME = "H8 J10 G9 I10 G8 J11 H7 K10 H10 H11 G11 G12 G7 J9 H6 I12 I9 H12 F9 I11 F10 K12 G6 H13 F6 K9";

async function picture(pages, file) {
  await push(pages[0], "#new");
  await Promise.all(pages.map((page) => holds(page, 0)));
  await play(pages, GAME);
  const kinds = new Set((await crosses(pages[0])).map(({ kind }) => kind));
  assert.equal(kinds.size, 3);
  await sleep(300);
  writeFileSync(file, await pages[0].screenshot());
}

const [program, url, file] = process.argv.slice(2);
const browser = new Browser(program);
const late = setTimeout(async () => {
  console.log("it took over 90 s");
  await browser.close();
  process.exit(1);
}, 90_000);
try {
  const at = (seat) => browser.open(new URL(`/?seat=${seat}`, url).href);
  const pages = [await at("black"), await at("white")];
  for (const page of pages) await until("the page is there", () => page.value("document.body?.dataset.game > 0"));
  await toDoubleThree(pages);
  await takeback(pages);
  await poorLine(pages, await at("watch"));
  await five(pages, url);
  await times(pages[0]);
  if (file) await picture(pages, file);
  console.log("passed: a double three, eight views of two pages, a takeback, a poor line, a hint, a five, both files");
} catch (error) {
  console.log(error.stack);
  process.exitCode = 1;
} finally {
  clearTimeout(late);
  await browser.close();
}
