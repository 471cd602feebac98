"use strict";
/** node kills.js FOLDER KILLS TOML: handles orders by client.js while its server is killed at random moments, and says what was replied. */
const fs = require("node:fs");
const { Client, Refused } = require("../client.js");

const [folder, kills, toml] = process.argv.slice(2);
const replies = [];
let client;
let left = Number(kills);

async function ask(cmd, fields) {
  const reply = await client.command(cmd, fields);
  replies.push({ cmd, ...reply });
  return reply.made[0];
}

async function handle() {
  const number = await ask("launch", { spec: "order", data: { amount: 200 } });
  for (const task of ["receive", "pack", "bill", "ship"]) {
    const item = await ask("enter", { who: "ann", case: number, task });
    await ask("start", { who: "ann", item });
    await answered("show", number, ({ items }) => items.join() === [item, task, "executing", "ann"].join());
    await ask("complete", { who: "ann", item, out: {} });
  }
  await answered("ended", number, (answer) => answer === "finished");
}

async function answered(query, number, holds) {
  const { answer } = await client.command(query, { case: number });
  if (!holds(answer)) throw new Error(`${query}: ${JSON.stringify(answer)}`);
}

function killOnce(most) {
  setTimeout(() => {
    if (client.server && client.server.status === undefined && client.server.process.kill("SIGKILL")) left -= 1;
    if (left > 0) killOnce(most);
  }, Math.random() * most);
}

async function main() {
  const began = performance.now();
  client = await Client.open(folder, { tries: 1000 });
  await ask("person", { name: "ann", roles: ["clerk", "packer"] });
  await ask("load", { toml: fs.readFileSync(toml, "utf8") });
  killOnce(3 * (performance.now() - began));
  while (left > 0) await handle();
  const refused = await client.command("cancel", { case: "999999" }).catch((cause) => cause);
  if (!(refused instanceof Refused) || refused.rule !== "UnknownCase" || refused.at !== "") throw refused;
  await client.close();
  if (JSON.stringify(client.after(0n).map((it) => it.steps)) !== JSON.stringify(replies.map((it) => it.steps))) throw new Error("after");
  process.stdout.write(JSON.stringify(replies));
}

main();
