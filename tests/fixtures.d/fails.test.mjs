import assert from 'node:assert/strict';
import { etcdTest } from './etcd_one.mjs';

etcdTest('fails', async (etcd) => {
  await etcd.at(5);
  await (await fetch(`${etcd.address}/v3/kv/put`, { method: 'POST', body: '{"key":"YQ=="}' })).text();
  assert.equal(await etcd.trim(), 2);
});
