'use strict';
const KINDS = ['silent', 'none', 'good', 'damaged', 'collided', 'missed'], PLAIN = /^\S+ (open|answer|finish)/;
const REFUSALS = 'NoSuchNode NoSuchSignal NoSuchTable NotPublisher BadValue NoAddress BadLength Closed QueueFull Asleep Awake SlotOpen NoSlot NotYours Decided NothingOnWire PassesCheck NoTransfer'.split(' ');
// The run of a data block: what the cluster has, then the log.
function readRun(text) {
	const nodes = [], signals = [], tables = [], frames = [], slots = [], msgs = [], probs = [], rows = [], places = [], wait = [];
	const named = () => Object.create(null), sig = named(), frm = named(), group = named(), run = {nodes, signals, tables, slots, msgs, probs, rows, group};
	const un = s => { s = s.slice(1); try { return decodeURIComponent(s); } catch { return unescape(s); } };
	const num = s => s[0] === 'x' ? s : +s, at = text.indexOf('\nlog\n');
	for (const line of text.slice(0, at).split('\n')) {
		const [w, n, a, b, c, d, ...e] = line.split(' ');
		({
			file() { run.file = un(n); },
			speed() { run.speed = +n; },
			node() { nodes[n] = {name: a, nad: b}; },
			signal() { signals[n] = sig[a] = {name: a, at: [], val: [], maps: [], in: 0}; },
			table() { tables[n] = {name: a, lines: []}; },
			frame() { frames[n] = frm[a] = {name: a, id: b, pid: c, node: e[0], places: []}; },
			place() { const s = sig[c]; s.init = s.now = num(d); s.in++; frames[n].places.push([s, +a, +b]); },
			alone() { signals[n].init = num(a); },
			sporadic() { group[a] = {frames: [b, c, d, ...e]}; },
			event() { group[a] = {id: b, table: d, frames: e}; },
			slot() { tables[n].lines[a] = {name: b, kind: c, delay: +e[0]}; },
			physical() { signals[n].maps.push({lo: a, hi: b, k: c, o: +d, unit: un(e[0])}); },
			logical() { signals[n].maps.push({lo: a, hi: a, text: un(b) || a}); },
		}[w] || (() => 0))();
	}
	let s, old, step, time = 0, i = 0;
	const fresh = () => { s = {i, t: time, steps: [], puts: [], told: [], tags: [], due: 0, news: 0}; };
	const problem = (kind, s, why, line) => { probs.push({kind, i: s.i, why, line}); s.tags.push(kind); s.news |= 2; };
	const hear = (hex, f) => {
		if (f.last === hex && f.places.every(q => q[0].in < 2)) return;
		f.last = hex;
		for (const [g, off, size] of f.places) {
			let v = 0;
			if (g.init[0]) v = 'x' + hex.substr(off / 4, size / 4);
			else for (let b = off + size - 1 >> 3; b >= off >> 3; b--) v = v << 8 | parseInt(hex.substr(2 * b, 2), 16);
			if (v >= 0) v = (v >> off % 8) % 2 ** size;
			if (v !== g.now) { g.at.push(i); g.val.push(g.now = v); s.news |= 1; }
		}
	};
	fresh();
	for (const line of text.slice(at + 5).split('\n')) {
		if (line[0] !== '>' && line[0] !== 'u') {
			places.push(i);
			step = {line};
			if (!PLAIN.test(line) && line) s.steps.push(step), s.news |= 2;
			continue;
		}
		if (line[0] === 'u') {
			const [, entries, why] = line.split(' ');
			problem('unmet', slots[places[entries - 1] || 0] || s, un(why));
			continue;
		}
		const f = line[2] === 'd' ? ['>', 'due'] : line.split(' '), [, w, x, y, z] = f;
		switch (w) {
		case 'slot':
			s.table = tables[x];
			s.entry = +y;
			s.pid = z;
			break;
		case 'service': s.service = 1; break;
		case 'due': s.due = 1; break;
		case 'put': s.puts.push([x, y]); break;
		case 'refused':
			if (PLAIN.test(step.line)) s.steps.push(step);
			problem(w, s, step.why = REFUSALS[x - 1], step.line);
			break;
		case 'accepted': {
			const [, , , to, hex] = step.line.split(' '), m = {host: x, n: y, to, hex, i, frames: [], fate: 'waits'};
			wait.push(m);
			msgs.push(m);
			break;
		}
		case 'seen': {
			const {kind, name, delay} = s.line = s.table.lines[s.entry], g = group[name], [from, put] = s.puts[0] || ['', ''];
			s.kind = x === 'none' && s.due ? 5 : KINDS.indexOf(x);
			s.good = y || '';
			s.d = delay;
			s.frame = kind === 'unconditional' ? frm[name] : g && g.frames.map(m => frm[m]).find(f => f && (g.id
				? y && nodes[from].name === f.node : f.pid === s.pid));
			s.name = s.frame ? s.frame.name : name;
			s.id = (s.frame || g || {}).id || {request: '0x3C', response: '0x3D', configuration: s.service && '0x3C'}[kind] || '';
			if (y && s.frame) hear(y, s.frame);
			if (s.kind === 3 || s.kind === 5) problem(KINDS[s.kind], s, s.name);
			else s.tags.push(KINDS[s.kind]);
			if (s.kind === 4) s.news |= 2;
			const nad = parseInt(put.slice(0, 2), 16), m = /^re/.test(kind) && !s.service && nad && wait.find(m => m.host === from
				&& (from > 0 || (nodes[m.to] || {nad: 126}).nad == nad));
			if (m) m.frames.push(s), s.news |= 4;
			slots.push(old = s);
			time += delay;
			i++;
			fresh();
			break;
		}
		default: {
			const o = step.line === 'bus finish' ? old : s, k = wait.findIndex(m => m.host === x && m.n === y);
			o.told.push(line);
			o.news |= 4;
			if (w === 'asleep') o.tags.push(w);
			if (w !== 'sent' && w !== 'lost') break;
			const m = wait.splice(k, 1)[0];
			m.end = i - 1;
			m.fate = z || w;
			if (z) problem(w, o, m.hex, line);
		}
		}
	}
	for (const m of wait) problem('waits', old || s, m.hex, `> lost ${m.host} ${m.n}`);
	for (const q of probs) q.i = Math.min(q.i, i - 1);
	probs.sort((a, b) => a.i - b.i);
	run.rest = s;
	run.end = time;
	// rounds, of which those without news are one row
	for (const s of slots) {
		const o = slots[s.i - 1], row = rows[rows.length - 1];
		if (o && o.table === s.table && s.entry) row.b++, row.news |= s.news;
		else rows.push({a: s.i, b: s.i + 1, n: 1, news: s.news});
	}
	run.rows = rows.reduce((all, r) => {
		const o = all[all.length - 1];
		if (o && !o.news && !r.news && slots[o.a].table === slots[r.a].table) o.b = r.b, o.n++;
		else all.push(r);
		return all;
	}, []);
	return run;
}
