// What linsim writes, as the page uses it: marks for the editors, and the cluster.

// The column, from 0, of a byte in a line; in a file of Latin-1 each character is a byte.
function columnOf(line, byte, isLatin) {
	let at = 0;
	for (let k = 0; k < line.length;) {
		if (at >= byte) return k;
		const code = line.codePointAt(k);
		at += isLatin || code < 0x80 ? 1 : code < 0x800 ? 2 : code < 0x10000 ? 3 : 4;
		k += code < 0x10000 ? 1 : 2;
	}
	return line.length;
}

// The lines of --where of a file, as {line, column, text}, and what --explain adds below them: the lines of each place
// 'LINE:COLUMN' ('' if none is named), without the source line and its mark.
function saidOf(err, name) {
	const said = [], notes = new Map([['', []]]), start = `${name}:`;
	let place = '';
	for (const line of err.split('\n')) {
		const found = line.startsWith(start) && /^(\d+):(?:(\d+):)? (.*)$/.exec(line.slice(start.length));
		if (found) {
			said.push({line: Number(found[1]), column: Number(found[2] || 0), text: found[3]});
			place = '';
		} else if (/^\d+:\d+$/.test(line)) {
			place = line;
			notes.set(place, notes.get(place) || []);
		} else if (/^ +\^$/.test(line)) notes.get(place).pop();
		else if (/^ {2}\S/.test(line) || /^ {2} +\S/.test(line)) notes.get(place).push(line.trim());
		else if (/^\d+:\d+ /.test(line)) notes.get('').push(line);
	}
	return {said, notes};
}
const HELP = /^(?:to change|help): /, NEAR = /^(?:near it|similar name): the \w+ (\S+)$/, NAMES = /^(?:the|valid) (\w+?)(?: are|, most similar first:) (.*)$/;

// The marks of an LDF: its fault, or its findings and warnings.
function ldfMarks(err, name, lines, isLatin) {
	const {said, notes} = saidOf(err, name), general = new Map();
	const marks = said.map(({line, column, text}) => {
		const head = /^(fault|finding|warning) (\d+) (\w+)(?: (\d+))?(?:: (.*))?$/.exec(text), whole = lines[line - 1] || '';
		if (!head) return {line, from: 0, to: Math.max(1, whole.length), kind: 'error', head: text, text: [], fixes: []};
		const [, kind, number, word, needed, token] = head, from = columnOf(whole, column - 1, isLatin);
		const to = Math.max(from + 1, from + columnOf(whole.slice(from), (token || ' ').length, isLatin));
		const need = needed ? ` (the slot needs ${(needed / 1000).toLocaleString('en')} ms)` : '';
		const mark = {line, from, to, kind: kind === 'warning' ? 'warning' : 'error', number: Number(number), head: `${word}${token ? `: ${token}` : ''}${need}`, text: [], fixes: []};
		for (const note of notes.get(`${line}:${column}`) || (kind === 'fault' ? notes.get('') : [])) {
			const near = NEAR.exec(note);
			if (near) mark.fixes.push(near[1]);
			mark.text.push(note.replace(HELP, '→ '));
		}
		const key = `${kind} ${number}`, same = mark.text.filter(it => !NEAR.test(it));
		if (same.length && !general.has(key)) general.set(key, same);
		return Object.assign(mark, {key});
	});
	// --explain has the first ten: what it says of a number holds for the others of this number, too
	for (const mark of marks) if (!mark.text.length) mark.text = general.get(mark.key) || [];
	return marks;
}

// The part of a line that a reason is about, as [from, to].
function offending(line, reason) {
	const start = Math.max(0, line.search(/\S/)), end = Math.max(start + 1, line.search(/\s*(?:(?<=^|\s)#.*)?$/));
	const found = /^(?:no|unknown) \w+ (\S+)|^(.+?) (?:is no|isn't|are) |, not (.+?)(?: \((?:units|values): .+\))?$|has no (?:form|value) (.+?)(?: \(|$)|^unknown expectation (.+)$/.exec(reason);
	const token = found && found.slice(1).find(Boolean), at = token ? line.indexOf(token, start) : -1;
	return at < 0 ? [start, end] : [at, at + token.length];
}

// The marks of a bench script: its bad lines, or the expectations that aren't met. A failed one has its slot.
function benchMarks(err, name, lines) {
	const {said, notes} = saidOf(err, name), below = notes.get('');
	const marks = said.map(({line, text}) => {
		const whole = lines[line - 1] || '', [, reason] = /^bad line: (.*)$/.exec(text) || [], slot = /\(slot (\d+), \d+ us\)$/.exec(text);
		const [from, to] = offending(whole, reason || ''), isError = reason !== undefined || text === 'slot limit';
		const near = /has no value .+ \((?:nearest|values): (.+?)(?:, \.\.)?\)$/.exec(reason || ''), fixes = near ? near[1].split(', ') : [];
		if (/, or = before a text, not /.test(reason)) fixes.push(`= ${whole.slice(from, to)}`);
		return {line, from, to, kind: isError ? 'error' : 'missed', head: text, text: [], fixes, slot: slot ? Number(slot[1]) : undefined};
	});
	// below all bad lines stand, for each of the first ten, the line and what there is
	const bad = marks.filter(it => it.head.startsWith('bad line'));
	let k = -1;
	for (const note of below) {
		const next = bad[k + 1], shown = next && lines[next.line - 1].replace(/\t/g, ' ').replace(/[^\x20-\x7e]/g, '?').trim();
		if (next && shown.slice(0, 40) === note.slice(0, 40)) { k++; continue; }
		if (k < 0) continue;
		const names = NAMES.exec(note);
		if (names) bad[k].fixes.push(...names[2].split(' ').slice(0, 3));
		bad[k].text.push(names ? note.replace(/^((?:\S+ ){14}).+$/, '$1…') : note.replace(HELP, '→ '));
	}
	return marks;
}

// The cluster, from what `check --frames --slots --signals` lists.
function clusterOf(out) {
	const to = {nodes: [], signals: [], tables: [], frames: [], sporadic: [], event: [], slots: [], loads: []};
	const readers = {
		node: (n, it) => to.nodes.push({name: it[1], nad: it[2]}),
		signal: (n, it) => to.signals.push({name: it[1], frames: [], ranges: [], values: [], coding: '-'}),
		table: (n, it) => to.tables.push({name: it[1], entries: n[2]}),
		frame: (n, it) => to.frames.push({name: it[1], id: it[2], pid: it[3], bytes: n[4], by: it[5], checksum: it[6], places: []}),
		place: (n, it) => to.frames[n[0]].places.push({offset: n[1], size: n[2], name: it[3], value: it[4]}),
		sporadic: (n, it) => to.sporadic.push({name: it[1], frames: it.slice(2)}),
		event: (n, it) => to.event.push({name: it[1], id: it[2], pid: it[3], table: it[4], frames: it.slice(5)}),
		slot: (n, it) => to.slots.push({table: n[0], entry: n[1], name: it[2], kind: it[3], bytes: n[4], delay: n[5], needed: n[6], slack: n[7]}),
		load: (n, it) => to.loads.push({name: it[1], delay: n[2], permille: n[3]}),
		coding: (n, it) => Object.assign(to.signals[n[0]], {bits: n[2], coding: it[3]}),
		range: (n, it) => to.signals[n[0]].ranges.push({from: n[1], to: n[2], low: it[3], high: it[4], unit: it.slice(5).join(' ')}),
		value: (n, it) => to.signals[n[0]].values.push([n[1], it.slice(2).join(' ')]),
		bcd: n => to.signals[n[0]].ranges.push({note: 'digits (BCD)'}),
		ascii: n => to.signals[n[0]].ranges.push({note: 'characters (ASCII)'}),
		initial: (n, it) => Object.assign(to.signals[n[0]], {raw: it[1], initial: it.slice(2).join(' ')}),
	};
	for (const line of out.split('\n')) {
		const [kind, ...rest] = line.split(' ');
		if (readers[kind]) readers[kind](rest.map(Number), rest);
	}
	const named = new Map(to.signals.map(it => [it.name, it]));
	for (const frame of to.frames) for (const place of frame.places) {
		const signal = named.get(place.name);
		signal.frames.push(frame);
		Object.assign(signal, {bits: signal.bits || place.size, raw: signal.raw || place.value, array: place.value[0] === 'x' && place.value, by: frame.by});
	}
	return to;
}

// The first lines of a script, with the ends of the blocks that are open after them.
function firstLines(lines, count) {
	const first = lines.slice(0, count), has = word => first.filter(it => it.split(/[ \t\r]+/).find(Boolean) === word).length;
	return first.map(it => `${it}\n`).join('') + 'end\n'.repeat(Math.max(0, has('repeat') - has('end')));
}
// A script with `forget` in place of `test`, which does the same: its report has each check by its line. None without tests.
function withoutTests(text) {
	const found = text.replace(/^([ \t]*)test[ \t].*$/gm, '$1forget');
	return found === text ? null : found;
}
// The judgements of a report (--to junit): the line of each, and whether it is met.
function judgements(report) {
	return [...report.matchAll(/<testcase [^>]*name="line (\d+): [^"]*"(\/?)>/g)].map(([, line, end]) => ({line: Number(line), isMet: end === '/'}));
}

// The rows of a table (CSV).
function csvRows(lines) {
	const field = /(?<=^|,)(?:"(?:[^"]|"")*"|[^,]*)/g;
	return lines.map(line => line.match(field).map(it => it.startsWith('"') ? it.slice(1, -1).replace(/""/g, '"') : it));
}

// The answers of `live`, each the lines of its entries and its last line, which begins with '# '.
function answersOf(out) {
	const answers = [];
	let entries = [];
	for (const line of out.split('\n')) {
		if (!line.startsWith('# ')) { if (line) entries.push(line); continue; }
		answers.push({entries, last: line.slice(2)});
		entries = [];
	}
	return answers;
}
