// The page's client of the feed, message by message: each line of the input is a message's seven bytes in base 16, an empty line starts a
// new client of game 7. For each message one line: the refusal, whether the client asks, its answer and its list.

import { readFileSync } from "node:fs";
import { Client, messageBytes, readMessage } from "../../examples/table/page/client.mjs";

const hex = (bytes) => bytes.map((byte) => byte.toString(16).padStart(2, "0")).join("");
let client = new Client(7);

function step(line) {
  if (line === "") {
    client = new Client(7);
    return "";
  }
  const bytes = line.match(/../g).map((pair) => parseInt(pair, 16));
  const message = readMessage(bytes);
  // What is read is written as the same bytes.
  if (hex(messageBytes(message)) !== line) throw new Error(`${line} is written as ${hex(messageBytes(message))}`);
  const lacks = client.lacks(message);
  const refusal = client.take(message);
  return `${refusal} ${lacks} ${hex(client.answer())} ${hex(client.held)}`;
}

const lines = readFileSync(0, "utf8").split("\n").slice(0, -1);
process.stdout.write(lines.map((line) => `${step(line)}\n`).join(""));
