#!/usr/bin/env node
// linsim as a program of Node.js 18 or later: node linsim.mjs ARGS. linsim.wasm has to be in the same folder.
//
// It reads and writes the files and streams of the native program, and ends with the same exit status. A
// WebAssembly module has no threads, so `run` ends with `no thread` and status 5.
import fs from 'node:fs';
import tty from 'node:tty';

const NO_ARGUMENT = -1, TOO_LONG = -2, NO_SEEK = -29n, TO_WRITE = 1, NO_THREAD_STATUS = 5, TRAPPED = 132;
const given = ['linsim', ...process.argv.slice(2)], words = given.map(word => Buffer.from(word));
let memory;
const bytes = (at, length) => new Uint8Array(memory.buffer, Number(at), length);

// The result of a system call, or its negative error number. A call that would block is made again.
function call(work) {
	for (;;) {
		try {
			return work();
		} catch (error) {
			if (error.code === 'EOF') return 0;
			if (error.code === 'EAGAIN') { pause(); continue; }
			if (typeof error.errno !== 'number') throw error;
			return error.errno;
		}
	}
}
function pause() {
	Atomics.wait(new Int32Array(new SharedArrayBuffer(4)), 0, 0, 1);
}

const host = {
	arg(at, to, room) {
		const word = words[at];
		if (!word) return NO_ARGUMENT;
		if (word.length > room) return TOO_LONG;
		bytes(to, word.length).set(word);
		return word.length;
	},
	open: (at, length, how) => call(() => fs.openSync(Buffer.from(bytes(at, length)), how & TO_WRITE ? 'w' : 'r')),
	close: file => call(() => { fs.closeSync(file); return 0; }),
	read: (file, to, room) => call(() => fs.readSync(file, bytes(to, room))),
	write: (file, from, length) => call(() => fs.writeSync(file, bytes(from, length))),
	seek: () => NO_SEEK,
	terminal: file => Number(tty.isatty(file)),
	exit: status => process.exit(status),
};

function moduleOf() {
	const file = new URL('linsim.wasm', import.meta.url);
	try {
		return new WebAssembly.Module(fs.readFileSync(file));
	} catch (error) {
		console.error(`linsim: linsim.wasm, which has to be in the folder of linsim.mjs, can't be loaded: ${error.message}`);
		process.exit(1);
	}
}

const instance = new WebAssembly.Instance(moduleOf(), {host});
memory = instance.exports.memory;
try {
	process.exitCode = instance.exports.run();
	if (process.exitCode === NO_THREAD_STATUS && given[1] === 'run') {
		console.error('linsim: `run` needs threads, which WebAssembly doesn\'t have: use the native program');
	}
} catch (error) {
	console.error(`linsim: internal error: ${error.message}`);
	process.exitCode = TRAPPED;
}
