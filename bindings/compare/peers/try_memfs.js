// try_memfs.js: the files in memory of memfs, from node.
'use strict';
const { existsSync } = require('fs');
let memfs;
try {
  memfs = require('memfs');
} catch {
  console.log('skipped: there is no memfs for node (node-memfs)');
  process.exit(2);
}
const UNDOING = /abort|commit|rollback|savepoint|snapshot|transaction|undo/i;
const volume = new memfs.Volume();
const say = (question, answer, text) => console.log(`${question}: ${answer}: ${text}`);

const names = [];
for (let at = volume; at !== null; at = Object.getPrototypeOf(at)) {
  names.push(...Object.getOwnPropertyNames(at));
}
const found = names.filter((name) => UNDOING.test(name));
const told = found.length ? `only ${found}` : `none of its ${names.length} names begins or undoes`;

const place = `/tmp/memfs-${process.pid}`;
volume.mkdirSync('/tmp');
volume.writeFileSync(place, 'read me');
volume.chmodSync(place, 0o750);
volume.symlinkSync(place, '/link');
const mode = (volume.statSync(place).mode & 0o7777).toString(8);
const link = volume.readlinkSync('/link');
const isKept = mode === '750' && link === place;

console.log(`version: memfs ${require('memfs/package.json').version}`);
for (const question of ['nested', 'together', 'blocks']) say(question, 'no', told);
say('seen', existsSync(place) ? 'yes' : 'no', 'the system has no such file');
say('killed', 'no', 'it is in the memory of the process, and gone with it');
say('kept', isKept ? 'yes' : 'no', `750 is ${mode}, a link leads to ${link}`);
say('mounts', 'no', 'nothing of it is in the system');
