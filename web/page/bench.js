// A bench in hand: a session of `live`, which the console and the panel share. Lines are kept, so that the session can be
// made again for another LDF, without its last line, or as a bench script.
class Bench {
	constructor() {
		this.program = null;
		this.lines = [];
		this.answers = [];
		this.opened = null;
		this.queue = Promise.resolve();
	}
	// Opens it for these arguments and files, and makes its lines again, unless it is open for them.
	open(words, files, key) {
		return this.inTurn(async () => {
			if (this.opened === key) return null;
			if (!this.program) this.program = new Program();
			this.opened = null;
			const {status, err, failed} = await this.program.ask({session: words, files});
			if (failed || status) return failed || decoded(err).trim();
			const answers = this.lines.length ? await this.answered(this.lines) : [];
			if (!answers) return 'stopped';
			this.answers = answers;
			this.opened = key;
			return null;
		});
	}
	// The answers to lines, each {entries, last}; or null if they are stopped, after which the session has to be opened again.
	async answered(lines) {
		const slow = setTimeout(() => { byId('stop').hidden = false; }, SLOW);
		const {out, err, status, failed, stopped} = await this.program.ask({lines: encoded(lines.map(it => `${it}\n`).join(''))});
		clearTimeout(slow);
		byId('stop').hidden = true;
		if (stopped) return null;
		const answers = failed ? [] : answersOf(decoded(out));
		while (answers.length < lines.length) answers.push({entries: [], last: failed || decoded(err).trim() || `status ${status}`});
		return answers;
	}
	// Answers a line, which is kept.
	send(line) {
		return this.inTurn(async () => {
			const answers = await this.answered([line]);
			if (!answers) return {entries: [], last: 'stopped'};
			this.lines.push(line);
			this.answers.push(answers[0]);
			return answers[0];
		});
	}
	// Answers questions, which aren't kept.
	ask(...questions) {
		return this.inTurn(async () => await this.answered(questions) || questions.map(() => ({entries: [], last: ''})));
	}
	inTurn(work) {
		const done = this.queue.then(work);
		this.queue = done.catch(() => {});
		return done;
	}
	// Forgets its last lines; it has to be opened again.
	forget(count = this.lines.length) {
		this.lines.splice(this.lines.length - count, count);
		this.answers.splice(this.lines.length);
		this.opened = null;
	}
	stop() {
		if (this.program) this.program.stop();
		this.opened = null;
	}
	// The lines as a bench script: no questions, and no bad lines.
	script() {
		return this.lines.filter((line, k) => !/^\s*\?/.test(line) && !(this.answers[k] && this.answers[k].last.startsWith('bad line'))).map(it => `${it}\n`).join('');
	}
}

const MOST_ANSWERS = 400;
const HINT = 'write WinTarget = 50 %   ·   slots 4   ·   ? signal DCU WinPos   ·   ? next';
class Console {
	constructor(root, bench, {reopen, toScript}) {
		Object.assign(this, {bench, reopen, at: bench.lines.length});
		this.log = node('pre', {class: 'transcript', 'aria-live': 'polite', tabindex: '0'});
		this.input = node('input', {type: 'text', 'aria-label': 'A line', autocomplete: 'off', spellcheck: 'false', placeholder: HINT});
		const form = node('form', {class: 'line', onsubmit: event => { event.preventDefault(); this.send(); }}, node('span', {'aria-hidden': 'true'}, '>'), this.input,
			node('button', null, 'Send'), node('button', {type: 'button', title: 'Takes the last line back', onclick: () => this.undo(1)}, 'Undo'),
			node('button', {type: 'button', title: 'Begins a new session', onclick: () => this.undo()}, 'Clear'),
			node('button', {type: 'button', title: 'Appends these lines to the bench script', onclick: toScript}, 'To the script'));
		this.input.addEventListener('keydown', event => this.key(event));
		root.replaceChildren(this.log, form);
		this.draw();
		this.input.focus();
	}
	async send() {
		const line = this.input.value;
		if (!line.trim()) return;
		this.input.value = '';
		await this.reopen();
		await this.bench.send(line);
		this.at = this.bench.lines.length;
		this.draw();
	}
	async undo(count) {
		this.bench.forget(count && Math.min(count, this.bench.lines.length));
		await this.reopen();
		this.at = this.bench.lines.length;
		this.draw();
	}
	key(event) {
		const by = {ArrowUp: -1, ArrowDown: 1}[event.key], to = this.at + by;
		if (!by || to < 0 || to > this.bench.lines.length) return;
		event.preventDefault();
		this.at = to;
		this.input.value = this.bench.lines[to] || '';
	}
	draw() {
		const {lines, answers} = this.bench, first = Math.max(0, lines.length - MOST_ANSWERS), pieces = [];
		const put = (kind, text) => pieces.push(node('span', {class: kind}, text), '\n');
		if (!lines.length) put('comment', 'Each line is answered at once: lines of bench scripts, and questions, which begin with “?”.');
		if (first) put('comment', `.. ${plural(first, 'line')} before`);
		lines.slice(first).forEach((line, k) => {
			const {entries, last} = answers[first + k] || {entries: [], last: ''};
			put('asked', line);
			for (const entry of entries.slice(-MOST_ANSWERS)) put('comment', entry);
			put(/^(?:ok|is )/.test(last) ? 'word' : 'bad', `# ${last}`);
		});
		this.log.replaceChildren(...pieces);
		this.log.scrollTop = this.log.scrollHeight;
	}
}

// ---- the panel
const SPEEDS = [['real time', 1], ['10 times faster', 10], ['100 times faster', 100]], TICK = 100, MOST_SLOTS = 50;

// The control of a signal: a list for texts, a slider for a range, both, or a field, as for the bytes of an array. Its elements, and a function that shows
// a raw value.
function signalControl({name, bits, raw, ranges, values, array}, write) {
	if (array) [raw, ranges, values] = [array, [], []];
	const range = ranges.find(it => it.to > it.from), texts = values.length ? values : bits === 1 && !range ? [[0, '0'], [1, '1']] : [];
	const parts = [], shows = [];
	if (range) {
		const slider = node('input', {type: 'range', min: range.from, max: range.to, 'aria-label': name}), text = node('output');
		slider.addEventListener('input', () => { text.textContent = physical(range, Number(slider.value)); });
		slider.addEventListener('change', () => write(slider.value));
		shows.push(value => { slider.value = value; text.textContent = Number(value) < range.from || Number(value) > range.to ? String(value) : physical(range, Number(value)); });
		parts.push(slider, text);
	}
	if (texts.length) {
		const list = node('select', {'aria-label': range ? `${name}: a text` : name}, node('option', {value: ''}, '…'), texts.map(([value, text]) => node('option', {value}, text || String(value))));
		list.addEventListener('change', () => { if (list.value !== '') write(list.value); });
		shows.push(value => { list.value = texts.some(it => String(it[0]) === value) ? value : ''; });
		parts.push(list);
	}
	if (!parts.length) {
		const field = node('input', {type: 'text', size: 8, 'aria-label': name, spellcheck: 'false'});
		field.addEventListener('change', () => write(field.value.trim()));
		shows.push(value => { field.value = value; });
		parts.push(field);
	}
	const show = value => { if (!parts.includes(document.activeElement)) for (const it of shows) it(value); };
	show(raw);
	return {parts, show};
}
// A value as an answer has it, `450 5 degC`, for people.
const inWords = value => value.replace(/^(\S+) (.+)$/, '$2 ($1)');
function physical({from, to, low, high, unit}, value) {
	const part = Number(low) + (Number(high) - Number(low)) * (value - from) / (to - from);
	return `${Number(part.toPrecision(6))} ${unit}`;
}

class Panel {
	constructor(root, cluster, bench, {reopen, toScript, save, clear}) {
		Object.assign(this, {cluster, bench, reopen, timer: 0, off: new Set(), signals: new Map(), isRunning: false});
		this.state = node('p', {class: 'state', role: 'status'});
		this.said = node('p', {class: 'state bad', role: 'status'});
		this.messages = node('ol', {class: 'messages'});
		this.runs = node('button', {type: 'button', onclick: () => this.toggle()}, 'Run');
		this.speed = node('select', {'aria-label': 'Speed'}, SPEEDS.map(([text, value]) => node('option', {value}, text)));
		const step = (text, line) => node('button', {type: 'button', onclick: () => this.do(line)}, text);
		const tables = node('select', {'aria-label': 'Schedule table', onchange: event => this.do(`switch ${event.target.value}`)}, cluster.tables.map(it => node('option', null, it.name)));
		root.replaceChildren(node('div', {class: 'pane panel'},
			node('div', {class: 'controls'}, node('button', {type: 'button', onclick: () => this.slot()}, 'Next slot'), this.runs, this.speed, tables, step('Sleep', 'sleep'), step('Wake', 'wake'),
				node('button', {type: 'button', onclick: save}, 'Save as a bench script'), node('button', {type: 'button', onclick: toScript}, 'To the script'),
				node('button', {type: 'button', onclick: clear}, 'Clear')),
			this.state, this.said, cluster.nodes.map((it, k) => this.nodeBox(it, k)), this.sender(), this.messages));
		this.look();
	}
	nodeBox({name}, k) {
		const isOn = node('input', {type: 'checkbox', checked: true, onchange: event => { if (event.target.checked) this.off.delete(name); else this.off.add(name); }});
		const rows = this.cluster.signals.filter(it => it.by === name).map(signal => {
			const received = node('span'), {parts, show} = signalControl(signal, value => this.do(`write ${name} ${signal.name} ${value}`));
			this.signals.set(signal, {received, show});
			return [cell(named(signal.name)), cell(parts), cell(received)];
		});
		return node('fieldset', null, node('legend', null, named(name), ' ', node('small', null, k ? 'responder' : 'commander'), ' ', node('label', null, isOn, ' responds')),
			rows.length ? table(['Signal', 'Value', `Received by ${this.receiver(name)}`], rows) : node('small', null, 'publishes no signal'));
	}
	// A node that receives what this one publishes.
	receiver(name) {
		const {nodes} = this.cluster;
		return nodes[nodes[0].name === name && nodes.length > 1 ? 1 : 0].name;
	}
	sender() {
		const names = this.cluster.nodes.map(it => node('option', null, it.name)), from = node('select', {'aria-label': 'Sender'}, names);
		const to = node('select', {'aria-label': 'Receiver'}, names.map(it => it.cloneNode(true))), bytes = node('input', {type: 'text', value: '22F190', size: 24, 'aria-label': 'Bytes', spellcheck: 'false'});
		if (names.length > 1) to.selectedIndex = 1;
		return node('form', {class: 'controls', onsubmit: event => { event.preventDefault(); this.do(`send ${from.value} ${to.value} ${bytes.value}`); }},
			'Message from ', from, ' to ', to, bytes, node('button', null, 'Send'));
	}

	async do(line) {
		await this.reopen();
		const {entries, last} = await this.bench.send(line);
		this.said.textContent = last === 'ok' ? '' : `${line}: ${last}`;
		for (const entry of entries) if (/^> (?:message|lost) /.test(entry)) this.messages.prepend(node('li', null, entry.slice(2)));
		await this.look();
	}
	slot(count = 1) {
		const names = [...this.off];
		if (count > 1 && !names.length) return this.do(`slots ${count}`);
		return this.do(names.length ? `slot leave ${names.join(' ')}` : 'slot');
	}
	toggle() {
		this.isRunning = !this.isRunning;
		this.runs.textContent = this.isRunning ? 'Pause' : 'Run';
		if (this.isRunning) this.run(); else clearTimeout(this.timer);
	}
	// Makes slots as fast as the speed says, as long as the panel is shown.
	async run() {
		if (!this.isRunning || !this.state.isConnected) return;
		const began = performance.now(), before = this.time;
		await this.slot(this.speed.value > 1 ? Math.min(MOST_SLOTS, Math.ceil(TICK * this.speed.value / (this.delay || 10))) : 1);
		this.delay = (this.time - before) / 1000;
		const left = this.delay / this.speed.value - (performance.now() - began);
		this.timer = setTimeout(() => this.run(), Math.max(0, left));
	}
	// Shows what is so.
	async look() {
		const signals = [...this.signals], ask = (name, it) => `? signal ${name} ${it.name}`;
		const questions = signals.flatMap(([it]) => [ask(this.receiver(it.by), it), ask(it.by, it)]);
		const answers = (await this.bench.ask('? time', '? next', '? asleep', '? idle', ...questions)).map(it => it.last.replace(/^is /, ''));
		const [time, next, asleep, idle] = answers;
		this.time = Number(time) || 0;
		this.state.textContent = `${milliseconds(this.time)} · next slot: ${next} · ${asleep} · ${idle}`;
		signals.forEach(([, {received, show}], k) => {
			received.textContent = inWords(answers[4 + 2 * k] || '');
			show((answers[5 + 2 * k] || '').split(' ')[0]);
		});
	}
}
