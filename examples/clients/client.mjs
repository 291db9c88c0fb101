// A server of its own, two puts, a list of their prefix, and a watch of it: node client.mjs
import { spawn } from 'node:child_process';
import { createInterface } from 'node:readline';

const b64 = (text) => Buffer.from(text).toString('base64');
const text = (code) => Buffer.from(code, 'base64').toString();
const shown = (kv) => `${text(kv.key)}=${text(kv.value)}`;

const server = spawn(process.env.ETCD_ONE ?? './etcd_one', ['serve', '--listen', '127.0.0.1:0'], { stdio: ['ignore', 'inherit', 'pipe'] });
let address;
for await (const line of createInterface({ input: server.stderr })) {
  if (line.startsWith('listening on ')) {
    address = line.slice('listening on '.length);
    break;
  }
}

const post = (path, body) => fetch(`http://${address}/v3/${path}`, { method: 'POST', body: JSON.stringify(body) });
const ask = async (path, body) => (await post(path, body)).json();

// The events of a watch, one after the other. Each line of the answer is a message.
async function* watch(asked) {
  const reply = await post('watch', { create_request: asked });
  let rest = '';
  for await (const part of reply.body.pipeThrough(new TextDecoderStream())) {
    const lines = (rest + part).split('\n');
    rest = lines.pop();
    for (const line of lines) yield* JSON.parse(line).result.events ?? [];
  }
}

try {
  await ask('kv/put', { key: b64('/jobs/a'), value: b64('one') });
  await ask('kv/put', { key: b64('/jobs/b'), value: b64('two') });
  const jobs = { key: b64('/jobs/'), range_end: b64('/jobs0') };     // the end of a prefix is its last byte, one more
  const told = await ask('kv/range', jobs);
  console.log('listed', ...told.kvs.map(shown));
  const seen = [];
  for await (const event of watch({ ...jobs, start_revision: '2' })) {
    if (seen.push(shown(event.kv)) === told.kvs.length) break;
  }
  console.log('watched', ...seen);
} finally {
  server.kill();
}
