"use strict";
/** A client of the server for Node that never does a step twice, with the contract of client.py:
 *
 *      const { Client } = require("./client.js");
 *      const client = await Client.open("shop");
 *      const { made: [number] } = await client.command("launch", { spec: "order", data: { amount: 200 } });
 *      await client.close();
 *
 *  A reply is `{steps, quiet, made, found}`, or `{answer}` of a query; `found` says that it was lost and is made from the folder's files.
 *  Commands that are handed in together are sent one by one, in their order. */
const { spawn } = require("node:child_process");
const path = require("node:path");
const { Damaged, readEntries, readSteps } = require("./yawl/journal.js");

const PROGRAM = process.env.YAWL_PROGRAM ?? path.join(__dirname, "../crates/yw_main/out/yw_main");
const MOST_EVENTS = 4097;
const [USAGE, DISK, MEMORY, DAMAGED, FULL] = [2, 3, 4, 7, 8];
/** What the server ends with for a cause that starting it again doesn't take away. */
const LASTING = [USAGE, DISK, MEMORY, DAMAGED, FULL];
/** A line that is no command: its refusal says that the server has the folder. */
const NOTHING = {};
/** The fields of lines that stand in the first step of what they do. */
const IN_STEP = ["name", "spec", "case", "task", "item", "at"];

/** The line breaks a rule and has changed nothing: the rule's name, and what is at fault, or the empty text. */
class Refused extends Error {
  constructor(rule, at) {
    super(`${rule} ${at}`.trim());
    Object.assign(this, { rule, at });
  }
}

/** The server ended for a cause that lasts. `said` is the line that it said, or null; `reply` is that of the command at work, where it is held. */
class Ended extends Error {
  constructor({ status, said }, reply) {
    super(`the server ended with status ${status}; the command is ${reply ? "held" : "not held"}`);
    Object.assign(this, { status, said, reply });
  }
}

/** The server ended again and again over one command, which the files don't hold. */
class NotHeld extends Error {}

/** The files hold what this client didn't ask for. */
class Foreign extends Error {}

/** The server's process. Where it has ended, `status` and `said` are told. */
class Server {
  constructor(program, words) {
    this.process = spawn(program, words, { stdio: ["pipe", "pipe", "inherit"] });
    this.read = "";
    this.said = null;
    this.status = undefined;
    this.waiting = null;
    this.process.stdin.on("error", () => {});
    this.process.stdout.setEncoding("utf8").on("data", (part) => this.take(part));
    this.closed = new Promise((resolve) => {
      const over = (status) => {
        this.status = status;
        this.waiting?.(null);
        resolve();
      };
      this.process.on("close", over).on("error", () => this.process.pid ?? over(DISK));
    });
  }

  take(part) {
    const lines = (this.read + part).split("\n");
    this.read = lines.pop();
    for (const reply of lines.map((line) => JSON.parse(line))) {
      if ("n" in reply) this.waiting?.(reply);
      else this.said = reply;
    }
  }

  /** The reply to a line, or null where the server ended before it was whole. */
  ask(line, timeout) {
    const clock = timeout && setTimeout(() => this.process.kill("SIGKILL"), timeout);
    return new Promise((resolve) => {
      this.waiting = (reply) => {
        clearTimeout(clock);
        this.waiting = null;
        resolve(reply);
      };
      if (this.status === undefined) this.process.stdin.write(`${JSON.stringify(line)}\n`);
      else this.waiting(null);
    });
  }

  async end() {
    this.process.stdin.end();
    await this.closed;
  }
}

/** What an entry's command did, as a reply. */
function replyOf(steps, quiet, found) {
  const [word, ...rest] = steps[0].split(" ");
  const made = word === "launch" ? rest.slice(0, 1) : ["enter", "add"].includes(word) ? rest.at(-1).split(",") : [];
  return { steps, quiet, made, found };
}

function foundReply(entry) {
  const steps = readSteps(entry);
  return replyOf(steps, steps.length < MOST_EVENTS, true);
}

/** Whether a step may be the first of what a line does. */
function isFirstStep(step, line) {
  const [word, ...rest] = step.split(" ");
  // The step of a rule has its number alone.
  return word === line.cmd && (word === "rule" || IN_STEP.every((name) => !(name in line) || rest.includes(line[name])));
}

class Client {
  /** A client that has the folder alone up to `close`. `words` stand after `run`; `timeout`, in milliseconds, is how long a reply may take; a
   *  command is sent `tries` times as long as it isn't held. `held` is the number of entries that the files hold. */
  static async open(folder, { program = PROGRAM, words = [], timeout = 0, tries = 20 } = {}) {
    const client = Object.assign(new Client(), { folder, program, words, timeout, tries, held: 0n, isCounted: false, server: null });
    client.queue = Promise.resolve();
    await client.try(NOTHING);
    return client;
  }

  /** Sends a command and gives what it did. Throws Refused, Ended, NotHeld, Foreign and Damaged. */
  async command(cmd, fields = {}) {
    const asked = this.queue.then(() => this.try({ cmd, ...fields }));
    this.queue = asked.catch(() => {});
    const reply = await asked;
    if (reply.ok === false) throw new Refused(reply.rule, reply.at);
    return reply;
  }

  /** Sends a line until its reply is whole or found, or the server ends for a cause that lasts. */
  async try(line) {
    for (let tried = 0; tried < this.tries; tried += 1) {
      const server = this.server ?? (await this.start());
      const reply = await server.ask(line, this.timeout);
      if (reply) return this.accept(reply);
      await server.closed;
      this.server = null;
      const found = this.find(line);
      if (LASTING.includes(server.status)) throw new Ended(server, found);
      if (found) return found;
    }
    throw new NotHeld(`${line.cmd}: the server ended ${this.tries} times`);
  }

  /** Gives a server, which may have ended already. When it has the folder, what the files hold is counted. */
  async start() {
    this.server = new Server(this.program, [this.folder, "run", ...this.words]);
    if (!(await this.server.ask(NOTHING))) return this.server;
    const { number } = readEntries(this.folder, Infinity);
    if (!this.isCounted) Object.assign(this, { held: number, isCounted: true });
    if (number === this.held) return this.server;
    await this.server.end();
    throw new Foreign(`${number} entries, and ${this.held} were held`);
  }

  accept(reply) {
    if (!reply.ok || "answer" in reply) return reply;
    this.held += 1n;
    return replyOf(reply.steps, reply.quiet, false);
  }

  /** When the server has ended: what the last line did, where the files hold it. */
  find(line) {
    if (!this.isCounted) return null;
    const { number, entries } = readEntries(this.folder, this.held);
    if (number === this.held) return null;
    const reply = entries.length === 1 ? foundReply(entries[0]) : null;
    if (!reply || !isFirstStep(reply.steps[0], line)) throw new Foreign(`${number} entries, and ${this.held} were held before`);
    this.held = number;
    return reply;
  }

  /** What the files hold after so many entries, as replies. */
  after(number) {
    return readEntries(this.folder, number).entries.map(foundReply);
  }

  /** Ends the server, when all that was handed in is done. The next command starts it again, and counts anew. */
  async close() {
    await this.queue;
    await this.server?.end();
    Object.assign(this, { server: null, isCounted: false });
  }
}

module.exports = { Client, Refused, Ended, NotHeld, Foreign, Damaged, readSteps };
