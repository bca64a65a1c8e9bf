// A desk over a pipe: a session of `apron desk` with one request at a time.

import { spawn } from "node:child_process";

const HEAD = /^HTTP\/1\.1 (\d{3}) [^\r]*\r\n((?:[^\r]+\r\n)*)\r\n/;

/** A session at the airport of two files, over a journal. */
export class Pipe {
  #process;
  #rest = Buffer.alloc(0);
  #wake = null;

  constructor(program, files, journal) {
    this.#process = spawn(program, ["desk", ...files, journal], { stdio: ["pipe", "pipe", "inherit"] });
    this.#process.stdout.on("data", (bytes) => {
      this.#rest = Buffer.concat([this.#rest, bytes]);
      this.#wake?.();
    });
    this.#process.on("exit", () => {
      this.ended = true;
      this.#wake?.();
    });
    this.ended = false;
  }

  /** The status and the text of the reply to a request. */
  async ask(method, target, body = "", fields = {}) {
    const text = typeof body === "string" ? body : JSON.stringify(body);
    const heads = Object.entries({ ...fields, "Content-Length": Buffer.byteLength(text) }).map(([name, value]) => `${name}: ${value}\r\n`).join("");
    this.#process.stdin.write(`${method} /${target} HTTP/1.1\r\n${heads}\r\n${text}`);
    for (;;) {
      const reply = this.#reply();
      if (reply !== null) return reply;
      if (this.ended) throw new Error(`the desk ended at ${method} /${target} ${text}`);
      await new Promise((done) => { this.#wake = done; });
    }
  }

  #reply() {
    const head = HEAD.exec(this.#rest.subarray(0, 1000).toString("latin1"));
    if (head === null) return null;
    const length = Number(/^content-length: (\d+)\r$/im.exec(head[2])[1]);
    const ends = head[0].length + length;
    if (this.#rest.length < ends) return null;
    const text = this.#rest.subarray(head[0].length, ends).toString();
    this.#rest = this.#rest.subarray(ends);
    return { status: Number(head[1]), text };
  }

  end() {
    this.#process.stdin.end();
  }
}
