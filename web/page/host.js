// linsim.wasm with files in memory, for browsers.
//
// `new Linsim(module, words, files)` is the program with these arguments, the program's name first, in a memory of its own.
// `files` has the bytes of each file by its name, and those of standard input as '-'. `run()` runs it once. A session is
// opened by `session()` with the arguments of `live`, and `session(lines)` then answers lines. Each call returns
// {status, out, err}: the exit status, and the bytes of standard output and of standard error.
class Exit {
	constructor(status) { this.status = status; }
}

class Linsim {
	constructor(module, words, files) {
		const encoder = new TextEncoder();
		this.words = words.map(word => encoder.encode(word));
		this.files = new Map(Object.entries(files));
		this.instance = new WebAssembly.Instance(module, {host: this.host()});
		this.memory = this.instance.exports.memory;
	}

	bytes(at, length) {
		return new Uint8Array(this.memory.buffer, Number(at), length);
	}

	host() {
		const NO_ARGUMENT = -1, TOO_LONG = -2, NO_FILE = -2, BAD_FILE = -9, NO_SEEK = -29n, STREAMS = 3;
		const decoder = new TextDecoder();
		return {
			arg: (at, to, room) => {
				const word = this.words[at];
				if (!word) return NO_ARGUMENT;
				if (word.length > room) return TOO_LONG;
				this.bytes(to, word.length).set(word);
				return word.length;
			},
			open: (at, length) => {
				const name = decoder.decode(this.bytes(at, length));
				if (name === '-' || !this.files.has(name)) return NO_FILE;
				return this.opened.push({bytes: this.files.get(name), at: 0}) + STREAMS - 2;
			},
			close: file => file < STREAMS || this.opened[file - STREAMS + 1] ? 0 : BAD_FILE,
			read: (file, to, room) => {
				const from = file === 0 ? this.opened[0] : file >= STREAMS && this.opened[file - STREAMS + 1];
				if (!from) return BAD_FILE;
				const piece = from.bytes.subarray(from.at, from.at + room);
				this.bytes(to, piece.length).set(piece);
				from.at += piece.length;
				return piece.length;
			},
			write: (file, from, length) => {
				const to = {1: this.out, 2: this.err}[file];
				if (!to) return BAD_FILE;
				to.push(this.bytes(from, length).slice());
				return length;
			},
			seek: () => NO_SEEK,
			terminal: () => 0,
			exit: status => { throw new Exit(status); },
		};
	}

	call(work, input) {
		Object.assign(this, {out: [], err: [], opened: [{bytes: input, at: 0}]});
		let status;
		try {
			status = work();
		} catch (error) {
			if (!(error instanceof Exit)) throw error;
			status = error.status;
		}
		return {status, out: joined(this.out), err: joined(this.err)};
	}

	run() {
		return this.call(this.instance.exports.run, this.files.get('-') || new Uint8Array());
	}

	session(lines = new Uint8Array()) {
		return this.call(this.instance.exports.session, lines);
	}
}

function joined(pieces) {
	const all = new Uint8Array(pieces.reduce((sum, piece) => sum + piece.length, 0));
	let at = 0;
	for (const piece of pieces) {
		all.set(piece, at);
		at += piece.length;
	}
	return all;
}
