// The page at the table: it shows what its client of the feed holds, and says of each tap which move it would be. It knows no rule of the
// game: the referee's answers come with the moves.

import { Board, kindName, make, pointName } from "./board.mjs";
import { Client, messageBytes, readMessage } from "./client.mjs";

const find = (name) => document.getElementById(name);
const hex = (bytes) => bytes.map((byte) => byte.toString(16).padStart(2, "0")).join("");
const unhex = (text) => (text.match(/../g) ?? []).map((pair) => parseInt(pair, 16));

const query = new URLSearchParams(location.search);
const seat = ["black", "white", "watch"].includes(query.get("seat")) ? query.get("seat") : "both";
const NOTHING = { winner: 0, five: [], crosses: [], caption: "0 black, 0 white" };

const views = await (await fetch("/views")).json();
const board = new Board(find("board"), views);
const state = {
  page: 0,
  client: new Client(0),
  // What is shown with each move that is held.
  shown: [],
  // One number, however often the picture was turned. White sits opposite.
  view: /^[0-7]$/.test(query.get("view")) ? Number(query.get("view")) : seat === "white" ? 2 : 0,
  hint: [],
  tap: undefined,
  taps: [],
  tally: { taken: 0, refused: 0, asked: 0 },
};

// ---- what is shown

const held = () => state.client.held;
const showing = () => state.shown.at(-1) ?? NOTHING;
const toMove = () => (showing().winner || held().length === 225 ? "" : held().length % 2 === 0 ? "black" : "white");
const capital = (word) => word.charAt(0).toUpperCase() + word.slice(1);
const plays = (colour) => colour !== "" && (seat === "both" || seat === colour);

function draw() {
  const { winner, five, crosses, caption } = showing();
  board.draw({ view: state.view, held: held(), crosses, five, hint: state.hint, turn: toMove() });
  find("caption").textContent = caption;
  find("view").textContent = `view ${state.view}`;
  find("record").href = `/game.record?view=${state.view}`;
  const turn = toMove();
  find("status").className = winner ? "won" : turn;
  find("status").textContent = winner
    ? `${winner === 1 ? "Black" : "White"} has won`
    : turn === "" ? "The board is full" : `${capital(turn)} to move${seat === turn ? ": your turn" : ""}`;
  document.body.classList.toggle("mine", plays(turn));
  document.body.dataset.held = held().length;
  document.body.dataset.game = state.client.game;
}

function notice(text, kind = "") {
  find("notice").textContent = text;
  find("notice").className = kind;
}

function log(text, kind = "") {
  const line = document.createElement("li");
  line.textContent = text;
  line.className = kind;
  find("log").prepend(line);
  while (find("log").children.length > 100) find("log").lastChild.remove();
  const { taken, refused, asked } = state.tally;
  find("tally").textContent = `${taken} taken, ${refused} refused, ${asked} times asked`;
}

// ---- the feed

function hello({ page, game }) {
  state.page = page;
  start(game);
  log(`sits down as page ${page}`);
}

// A client is started once, empty, for each game number; an old number that comes late starts nothing.
function start(game) {
  state.client = new Client(game);
  state.shown = [];
  state.hint = [];
  log(`game ${game}: a new client, empty`);
  draw();
}

function open(game) {
  if (game > state.client.game) start(game);
  answer(false);
}

function move({ message: text, ...shown }) {
  const message = readMessage(unhex(text));
  const lacks = state.client.lacks(message);
  const refusal = state.client.take(message);
  const name = `move ${message.number} ${pointName(message.code)}`;
  if (refusal === 0) {
    state.tally.taken += 1;
    state.shown.push(shown);
    state.hint = [];
    log(`took ${name}`);
    draw();
    painted(message);
  } else {
    state.tally.refused += 1;
    const which = refusal === 17 ? ` of game ${message.game}` : "";
    log(`refused ${refusal}: ${name}${which}; holds ${held().length}`, "refused");
  }
  answer(lacks);
}

// What the client holds is said after each message; one answer is on its way at a time, and the last one counts.
let sending = false;
let next;
async function answer(asks) {
  if (asks) {
    state.tally.asked += 1;
    log(`asks: game ${state.client.game}, holds ${held().length}`, "asked");
  }
  next = { asks: asks || (next?.asks ?? false) };
  if (sending) return;
  sending = true;
  while (next) {
    const { asks: now } = next;
    next = undefined;
    await post("answer", { answer: hex(state.client.answer()), asks: now ? 1 : 0 }).catch(() => undefined);
  }
  sending = false;
}

function post(path, fields) {
  const body = new URLSearchParams({ page: state.page, ...fields }).toString();
  return fetch(`/${path}`, { method: "POST", body });
}

function away(gone) {
  document.body.classList.toggle("away", gone);
  notice(gone ? "the table does not answer: trying again" : "", "refusal");
}

function listen() {
  const events = new EventSource(`/events?seat=${seat}`);
  const on = (name, act) => events.addEventListener(name, ({ data }) => act(JSON.parse(data)));
  on("hello", hello);
  on("game", open);
  on("move", move);
  on("panel", panel);
  events.onopen = () => away(false);
  events.onerror = () => {
    away(true);
    // The browser comes back by itself, unless it was told that there is no place.
    if (events.readyState === EventSource.CLOSED) setTimeout(listen, 2000);
  };
}

// ---- what the player does

// A request of the player's: what the table says against it is shown.
async function ask(path, fields = {}) {
  const reply = await post(path, fields).catch(() => undefined);
  if (reply?.ok) return true;
  const said = reply?.status === 409 ? await reply.json() : { why: "the table does not answer" };
  notice(said.why, "refusal");
  if (said.code !== undefined) board.flash(said.code, state.view);
  return false;
}

async function tap({ clientX, clientY }) {
  const code = board.codeUnder(clientX, clientY, state.view);
  if (code === undefined) return;
  const message = { game: state.client.game, number: held().length + 1, code };
  const began = performance.now();
  state.tap = { ...message, began };
  notice("");
  if (await ask("tap", { message: hex(messageBytes(message)) })) return;
  // It was not played; perhaps because this page is behind.
  if (state.tap?.began === began) state.tap = undefined;
  answer(true);
}

// The time from the tap to the moment when the stone and the crosses after it are on the screen.
function painted({ game, number, code }) {
  const { tap } = state;
  if (tap?.game !== game || tap.number !== number || tap.code !== code) return;
  state.tap = undefined;
  const done = () => {
    state.taps.push(performance.now() - tap.began);
    drawTaps();
  };
  if (document.visibilityState === "visible") requestAnimationFrame(() => setTimeout(done));
  else done();
}

async function hint() {
  const reply = await fetch("/hint");
  const { line } = reply.ok ? await reply.json() : { line: [] };
  state.hint = line;
  notice(line.length ? `A win by fours: ${line.map(pointName).join(", ")}` : "No win by fours within six attacks");
  draw();
}

function turn(by) {
  state.view = views.then[state.view][by];
  query.set("view", state.view);
  history.replaceState(null, "", `?${query}`);
  board.ghost();
  draw();
}

// ---- the panel

const time = (micros) => (micros < 1000 ? `${micros.toFixed(1)} µs` : `${(micros / 1000).toFixed(1)} ms`);

function bars(name, counts, edges) {
  const svg = find(name);
  svg.replaceChildren();
  const most = Math.max(1, ...counts);
  const width = 400 / counts.length;
  edges.forEach((edge, place) => {
    const x = (place * 400) / (edges.length - 1);
    make("path", { d: `M${x} 0V64`, class: "grid" }, svg);
    const anchor = place === 0 ? "start" : place === edges.length - 1 ? "end" : "middle";
    make("text", { x, y: 78, "text-anchor": anchor }, svg, edge);
  });
  counts.forEach((count, place) => {
    const height = (60 * count) / most;
    if (count) make("rect", { x: place * width + 1, y: 64 - height, width: width - 2, height, rx: 1.5 }, svg);
  });
}

// Five buckets for each tenfold time; what is below the first edge or over the last goes into the outermost.
const LOCK_EDGES = ["10 ns", "", "1 µs", "10 µs", "100 µs", "1 ms", "", "100 ms"];

function within([below, ...counts]) {
  const over = counts.pop();
  counts[0] += below;
  counts[counts.length - 1] += over;
  return counts;
}

function lock(name, times) {
  find(`${name}-bars`).toggleAttribute("hidden", !times);
  find(`${name}-line`).textContent = times
    ? `${times.count} moves: median ${time(times.p50)}, longest ${time(times.max)}`
    : "not here: run the table of the package runs, with the original's source";
  if (times) bars(`${name}-bars`, within(times.histogram), LOCK_EDGES);
}

function drawTaps() {
  const counts = new Array(20).fill(0);
  for (const ms of state.taps) counts[Math.max(0, Math.min(19, Math.floor((Math.log10(ms) + 1) * 5)))] += 1;
  const sorted = [...state.taps].sort((a, b) => a - b);
  const middle = sorted[Math.floor((sorted.length - 1) / 2)] ?? 0;
  find("taps-line").textContent = sorted.length
    ? `${sorted.length} taps of this page: median ${middle.toFixed(1)} ms, last ${state.taps.at(-1).toFixed(1)} ms`
    : "no tap of this page yet";
  bars("taps-bars", counts, ["0.1 ms", "1 ms", "10 ms", "100 ms", "1 s"]);
}

function panel({ game, count, pages, ours, original, compared, different, ...line }) {
  lock("ours", ours);
  lock("original", original);
  find("compared").textContent = original ? `crosses compared after ${compared} moves, different after ${different}` : "";
  find("server").textContent = `the server: game ${game}, ${count} moves; pages at the table: ${pages}`;
  find("poor").checked = line.poor;
  find("line").textContent = `${line.lost} lost, ${line.repeated} repeated, ${line.reordered} out of order`;
}

// ---- at the start

const svg = find("board");
svg.addEventListener("click", tap);
svg.addEventListener("pointermove", ({ clientX, clientY, pointerType }) => {
  const code = plays(toMove()) && pointerType === "mouse" ? board.codeUnder(clientX, clientY, state.view) : undefined;
  board.ghost(held().includes(code) ? undefined : code, state.view, toMove());
});
svg.addEventListener("pointerleave", () => board.ghost());
find("takeback").addEventListener("click", () => ask("takeback"));
find("new").addEventListener("click", () => ask("new"));
find("hint").addEventListener("click", hint);
find("poor").addEventListener("change", ({ target }) => ask("line", { poor: target.checked ? 1 : 0 }));
for (const button of document.querySelectorAll("[data-turn]")) {
  button.addEventListener("click", () => turn(Number(button.dataset.turn)));
}
find("upright").addEventListener("click", () => turn(views.back[state.view]));
find(`seat-${seat}`).setAttribute("aria-current", "page");
for (const name of ["takeback", "new"]) find(name).disabled = seat === "watch";
find("kinds").textContent = `3·3 ${kindName(1)}, 4·4 ${kindName(2)}, 6+ ${kindName(3)}`;
drawTaps();
draw();
listen();
