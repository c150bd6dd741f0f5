// The program in the page: it is unpacked once, and runs in a worker, which is ended if its run isn't wanted any more. Where
// no worker can start, it runs in the page itself.
let linsimModule = null;

async function unpacked(bytes) {
	return new Response(new Blob([bytes]).stream().pipeThrough(new DecompressionStream('gzip'))).arrayBuffer();
}
async function loadProgram() {
	const text = byId('wasm').textContent.trim();
	linsimModule = await WebAssembly.compile(await unpacked(Uint8Array.from(atob(text), it => it.charCodeAt(0))));
	byId('wasm').remove();
}

class Program {
	constructor() {
		this.waiting = new Map();
		this.count = 0;
		this.start();
	}
	start() {
		try {
			if (!Program.address) Program.address = URL.createObjectURL(new Blob([byId('worker').textContent], {type: 'text/javascript'}));
			this.worker = new Worker(Program.address);
		} catch {
			this.worker = null;
			return;
		}
		this.worker.postMessage({module: linsimModule});
		this.worker.onmessage = ({data}) => this.settle(data.id, data);
		this.worker.onerror = event => {
			event.preventDefault();
			this.worker = null;
			for (const [id, {given}] of [...this.waiting]) this.settle(id, this.here(given));
		};
	}
	settle(id, answer) {
		const it = this.waiting.get(id);
		this.waiting.delete(id);
		if (it) it.then(answer);
	}
	// What the worker does, in the page.
	here(given) {
		const began = performance.now();
		try {
			return {...worked(this, linsimModule, given), ms: performance.now() - began};
		} catch (error) {
			return {failed: failure(error), ms: performance.now() - began};
		}
	}
	// Asks for {words, files}, {session: words, files} or {lines}: {status, out, err, ms}, or {failed}, or {stopped}.
	ask(given) {
		if (!this.worker) return Promise.resolve(this.here(given));
		const id = ++this.count;
		return new Promise(then => {
			this.waiting.set(id, {then, given});
			this.worker.postMessage({...given, id});
		});
	}
	get isBusy() { return this.waiting.size > 0; }
	// Ends what runs.
	stop() {
		if (!this.isBusy) return;
		if (this.worker) this.worker.terminate();
		for (const id of [...this.waiting.keys()]) this.settle(id, {stopped: true});
		this.start();
	}
}
