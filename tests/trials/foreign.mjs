// Makes the requests that stand on standard input, a JSON object a line, by node's fetch. Each reply is a line:
// status and body.
import { createInterface } from "node:readline";

const base = process.argv[2];
for await (const line of createInterface({ input: process.stdin })) {
  const { method, target, fields, body } = JSON.parse(line);
  const reply = await fetch(base + target, { method, headers: fields, body: body || undefined });
  console.log(`${reply.status} ${await reply.text()}`);
}
