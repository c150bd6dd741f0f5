const $ = id => document.getElementById(id), text = $('run').textContent;
// the slot that the address names, or that the page around this one asks for before the run is drawn
let wanted = location.hash.slice(1);
onmessage = e => { if (e.source === parent) wanted = e.data; };
// a run of many slots says how long drawing takes, by its first slots; one of very many is drawn when it is asked for (the page
// around a frame keeps what it shows until the frame is loaded)
let many = 0, few;
for (let at = 0; (at = text.indexOf('\n> seen ', at) + 1);) if (++many === 5e3) few = at;
if (many > (parent === window ? 2e4 : 2e5)) {
	const [time, button] = $('ask').children, start = performance.now();
	readRun(text.slice(0, few));
	time.textContent = `Drawing ${many} slots takes about ${Math.ceil((performance.now() - start) * many / 5e6)} s.`;
	button.hidden = many <= 2e5;
	$('ask').hidden = false;
	if (!button.hidden) await new Promise(asked => { button.onclick = asked; });
	button.remove();
	await new Promise(shown => setTimeout(shown, 50));
}
const run = readRun(text), {nodes, signals, tables, slots, probs, rows, msgs} = run;
const N = slots.length, END = run.end || 1e3, LABEL = {silent: 'no header', none: 'no answer', missed: 'answer missing'}, BOLD = '600 12px';
let t0 = 0, t1 = END, sel = -1, mark = -1, mask, W, G, C, paper, frame, timer, most = 40, strip, lanes, drag, groups;
const bisect = (n, ok) => { let a = 0; while (a < n) { const m = a + n >> 1; if (ok(m)) n = m; else a = m + 1; } return a; };
// texts
const esc = s => String(s).replace(/[&<"]/g, c => `&#${c.charCodeAt()};`);
const h = (text, ...v) => [text.reduce((a, t, k) => a + (Array.isArray(v[k - 1]) ? v[k - 1].join('') : esc(v[k - 1])) + t)];
const ms = t => END < 1e7 ? +(t / 1e3).toFixed(3) + ' ms' : +(t / 1e6).toFixed(4) + ' s';
const bytes = s => (s.length > 48 ? s.slice(0, 48) + '…' : s).replace(/\w\w(?=\w)/g, '$& ');
const OF = {send: [nodes, nodes], message: [nodes, nodes], write: [nodes, signals], switch: [tables], hurt: [], close: [nodes]};
const say = (line = '') => line.split(' ').slice(1).map((v, k, [of, , g]) => k === 3 && of === 'write' && signals[g] && map(signals[g], v) ? '= ' + shown(signals[g], v)
	: k && (OF[of] || OF.close)[k - 1]?.[v]?.name || v).join(' ');
const did = q => [q.why, say(q.line)].filter(v => v).join(': ');
const map = (s, v) => s.maps.find(m => v >= +m.lo && v <= +m.hi);
const named = (s, v) => s.init[0] || map(s, v)?.text;
const digits = x => { const s = String(+x.toPrecision(9)), e = /e-(\d+)$/.exec(s); return e ? (+s).toFixed(+e[1] + 8).replace(/0+$/, '') : s; };
const shown = (s, v) => { const m = map(s, v); return m ? m.text || digits(v * m.k + m.o) + (m.unit && ' ' + m.unit) : String(v); };
const heard = (s, i) => s.val[bisect(s.at.length, k => s.at[k] > i) - 1] ?? s.init;
const news = s => s.news & 1 ? signals.filter(g => g.at[bisect(g.at.length, k => g.at[k] >= s.i)] === s.i).map(g => `${g.name} = ${shown(g, heard(g, s.i))}`) : [];
const look = s => s.good ? bytes(s.good) : LABEL[KINDS[s.kind]] || KINDS[s.kind];
const times = s => [s.pid === '-' ? 0 : 34e6 / run.speed | 0, s.puts[0] ? s.puts[0][1].length * 5e6 / run.speed | 0 : 0];
const short = s => s.length > 160 ? s.slice(0, 160) + '…' : s;
const brief = (all, end = '\n') => [...all.slice(0, 16).map(short), ...all.length > 16 ? [`… ${all.length} lines in all`] : []].join(end);
const about = s => [`#${s.i}  ${ms(s.t)}  ${s.table.name} ${s.entry}`, `${s.name} ${s.id} (${s.pid})  ${look(s)}`, ...s.puts.map(q => `${nodes[q[0]].name} put ${bytes(q[1])}`),
	...s.steps.map(did), ...news(s), ...s.told.map(say)];
const count = (n, what) => `${n} ${what}${n === 1 ? '' : 's'}`;
// How far a slot is from the marked one.
const away = i => mark < 0 ? [] : [i === mark ? 'marked' : `${ms(Math.abs(T[i] - T[mark]))} and ${count(Math.abs(i - mark), 'slot')} ${i < mark ? 'before' : 'after'} #${mark}`];
// pictures
const x = t => G + (t - t0) / (t1 - t0) * (W - G), slotAt = t => Math.max(0, bisect(N, i => T[i] > t) - 1);
const fit = (c, high) => {
	const r = paper ? 3 : devicePixelRatio, g = c.getContext('2d');
	c.width = W * r; c.height = high * r; c.style.width = W + 'px'; c.style.height = high + 'px';
	g.scale(r, r);
	g.textBaseline = 'middle';
	return g;
};
const box = (g, c, x, y, w, h) => { g.fillStyle = C[c]; g.fillRect(x, y, w, h); };
// A text in so much room, cut where it is longer, if something is left then; or only whole.
const put = (g, s, x, y, w, c, font = '11px', whole) => {
	if (w < 14) return;
	g.font = font + (font === '12px' ? ' ui-monospace,monospace' : ' system-ui,sans-serif');
	const need = g.measureText(s).width;
	const some = s.length * w / need - 1 | 0;
	if (need > w && (whole || some < 3)) return;
	g.fillStyle = C[c];
	g.fillText(need > w ? s.slice(0, some) + '…' : s, x, y);
};
const cursors = (g, X, y, high) => { for (const [i, c] of [[mark, 'unmet'], [sel, 'sel']]) if (i >= 0 && X(T[i]) >= G) box(g, c, X(T[i]), y, 1.5, high); };
// Slots as columns, or as shares of columns, with what is wrong from above.
const HUES = [...KINDS, 'quiet', 'box'], T = Float64Array.from(slots, s => s.t), hue = new Uint8Array(N);
const colour = () => slots.forEach((s, i) => { hue[i] = mask && !mask[i] ? 7 : s.kind === 2 && !(s.news & 5) ? 6 : s.kind; });
const drawStrip = (g, a, b, y, high) => {
	const k = (W - G) / (b - a), last = slotAt(b - 1), bad = [];
	let i = slotAt(a);
	const d = (W - G) / (last - i + 1), wide = Math.ceil(4 * d);
	if (d > 3) for (const s of slots.slice(i, last + 1)) box(g, HUES[hue[s.i]], Math.max(G, G + (s.t - a) * k), y, Math.min(s.d, s.t + s.d - a) * k - (d > 6 ? 1 : .4), high);
	else for (let c = G; c < W; c += wide) {
		const part = new Uint32Array(8), from = i, to = a + (c + wide - G) / k;
		while (i <= last && T[i] < to) part[hue[i++]]++;
		let low = y + high, top = y;
		for (const q of [0, 1, 7, 6, 2]) if (part[q]) { const s = part[q] / (i - from) * high; box(g, HUES[q], c, low -= s, wide, s); }
		for (const q of [3, 5, 4]) if (part[q]) { const s = Math.max(7, part[q] / (i - from) * high); bad.push([HUES[q], c, top, Math.max(1.5, wide), s]); top += s; }
	}
	bad.forEach(q => box(g, ...q));
};
const drawOver = () => {
	const g = fit($('over'), 66), X = t => G + t / END * (W - G), a = X(t0), b = X(t1);
	if (!strip) {
		const g = fit(strip = document.createElement('canvas'), 66), last = {};
		drawStrip(g, 0, END, 16, 32);
		for (const r of rows) { const s = slots[r.a]; box(g, ['soon', 'msg', 'waits', 'none'][tables.indexOf(s.table) % 4], X(s.t), 49, X(slots[r.b - 1].t) - X(s.t) + 1, 3); }
		for (const s of [...slots, run.rest]) for (const q of s.tags) {
			const at = Math.min(W - 4, X(s.t) | 0);
			if (last[q] > at - 3 || KINDS.includes(q)) continue;
			last[q] = at;
			if (q === 'asleep') put(g, '☾', at - 5, 8, 20, 'asleep', '13px');
			else { g.fillStyle = C[q]; g.beginPath(); g.moveTo(at - 4, 4); g.lineTo(at + 4, 4); g.lineTo(at, 13); g.fill(); }
		}
		put(g, 'whole run', 0, 32, G, 'soft');
		put(g, '0', G, 60, 99, 'soft', '10px');
		g.textAlign = 'right';
		put(g, ms(run.end), W, 60, 99, 'soft', '10px');
	}
	g.drawImage(strip, 0, 0, W, 66);
	g.globalAlpha = .6;
	box(g, 'back', G, 0, a - G, 53); box(g, 'back', b, 0, W - b, 53);
	g.globalAlpha = 1;
	g.strokeStyle = C.sel; g.lineWidth = 1.5; g.strokeRect(Math.min(a, W - 3) + 1, 14.5, Math.max(2, b - a - 2), 38);
	cursors(g, X, 0, 53);
};
const ticks = (g, high, text) => {
	let d = 10 ** Math.ceil(Math.log10((t1 - t0) / (W - G) * 85));
	d /= [5, 2, 1].find(k => x(t0 + d / k) - G > 84) || 1;
	for (let t = Math.ceil(t0 / d) * d; t <= t1; t += d) { box(g, 'line', x(t), 0, 1, high); if (text) put(g, ms(t), x(t) + 3, 7, 80, 'soft'); }
};
const drawBus = () => {
	const g = fit($('bus'), 98), first = slotAt(t0), last = slotAt(t1 - 1), w = (W - G) / (last - first + 1);
	ticks(g, 98, 1);
	if (w < 22) drawStrip(g, t0, t1, 38, 54);
	// (from the right: what is above a box may go on to the next that has something there)
	else for (let i = last, free = W; i >= first && slots[i]; i--) {
		const s = slots[i], a = x(s.t), d = x(s.t + s.d) - a - 3, l = Math.max(a, G) + (w < 60 ? 3 : 5), room = a + d - l - 2, k = KINDS[s.kind], c = s.kind < 2 ? 'soft' : s.kind === 2 ? 'text' : k;
		const [head, tail] = times(s).map(t => t / s.d * (d + 3));
		g.globalAlpha = mask && !mask[s.i] ? .3 : 1;
		box(g, s.i === sel ? 'sel' : 'line', a, 37, d, 56); box(g, 'box', a + 1, 38, d - 2, 54);
		box(g, 'head', a, 88, head, 5); box(g, k, a + head, 88, tail, 5);
		g.font = BOLD + ' system-ui,sans-serif';
		const names = w < 60 ? [s.id.slice(2)] : [`${s.name}  ${s.id}  #${s.i}`, `${s.name}  ${s.id}`, s.name];
		put(g, names.find(n => g.measureText(n).width <= room + 2) || names.pop(), l, 47, room + 2, c, BOLD);
		if (w >= 60) {
			put(g, look(s), l, 63, room, c, s.good ? '12px' : '11px');
			put(g, [...s.told.map(say), ...news(s)].join(', '), l, 78, room, s.tags.includes('lost') ? 'lost' : 'soft');
		}
		if (s.steps[0]) {
			put(g, free - l < 50 ? '▾' : '▾ ' + s.steps.map(did).join(', '), l - 4, 27, free - l, s.tags.includes('refused') ? 'refused' : 'soft');
			free = l - 4;
		}
	}
	g.globalAlpha = 1;
	cursors(g, x, 14, 84);
	g.clearRect(0, 0, G - 1, 98);
	put(g, N ? slots[first].table.name : '', 0, 7, G - 8, 'text', BOLD);
	put(g, 'steps', 0, 27, G, 'soft'); put(g, 'bus', 0, 58, G, 'text', BOLD); put(g, run.speed / 1e3 + ' kbit/s', 0, 75, G, 'soft');
};
const drawSignal = (g, {s, y, high, lo, hi}) => {
	const Y = v => y + high - 6 - (v - lo) / (hi - lo || 1) * (high - 20), last = slotAt(t1 - 1);
	let k = bisect(s.at.length, k => s.at[k] >= slotAt(t0)), v = s.val[k - 1] ?? s.init, l = G, min = 1e9, max = -1;
	const near = q => { if (q >= 0 && !(s.texts && named(s, q))) { if (q < min) min = q; if (q > max) max = q; } };
	for (let more = 1; more; k++) {
		more = s.at[k] <= last;
		const to = more ? x(T[s.at[k] + 1] ?? END) : W, w = to - l;
		if (w > 1 || !more) {
			if (min < max) box(g, 'plot', l - .8, Y(max), 1.6, Y(min) - Y(max));
			if (named(s, v)) { box(g, 'soon', l, y + 13, w - 1, high - 18); put(g, shown(s, v), l + 4, y + high / 2 + 4, w - 6, 'text'); }
			else { box(g, 'plot', l, Y(v) - .8, w + .8, 1.6); put(g, shown(s, v), l + 4, Y(v) - 7, w - 6, 'soft', '11px', 1); }
			l = to;
			min = 1e9;
			max = -1;
		}
		near(v);
		near(v = s.val[k]);
	}
};
const drawHost = (g, {all, y}) => {
	for (const m of all) {
		const a = Math.max(G, x(slots[m.i]?.t ?? END)), b = Math.min(W, x(slots[m.end + 1]?.t ?? END)), yy = y + 4 + m.row * 18, c = m.fate === 'sent' ? 'msg' : m.fate === 'waits' ? 'waits' : 'lost';
		if (b < G || a > W) continue;
		box(g, 'soon', a, yy, Math.max(2, b - a), 15);
		for (const s of m.frames) if (s.t + s.d > t0 && s.t < t1) box(g, c, Math.max(G, x(s.t)), yy + 11, x(s.t + s.d) - x(s.t) - 1, 4);
		box(g, c, a, yy, 2, 15);
		if (c !== 'msg') box(g, c, b - 3, yy, 3, 15);
		put(g, `${m.n} to ${nodes[m.to]?.name || 'all'}: ${bytes(m.hex)}  ${m.fate}`, a + 6, yy + 6, Math.min(W, x(slots[m.next?.i]?.t ?? END)) - a - 12, c === 'msg' ? 'text' : c);
	}
};
const drawLanes = () => {
	const top = $('lanes').scrollTop, high = Math.min(lanes.high, paper ? 9e3 : innerHeight * .42 | 0), g = fit($('plot'), high);
	$('tall').style.height = lanes.high - high + 'px';
	ticks(g, high);
	for (const l of lanes) {
		const y = l.y - top;
		if (y > high || y + l.high < 0) continue;
		(l.s ? drawSignal : drawHost)(g, {...l, y});
		g.clearRect(0, y, G - 1, l.high);
		box(g, 'line', 0, y + l.high - 1, W, 1);
		put(g, l.s ? l.s.name : nodes[l.host].name, 0, y + 12, G - 8, 'text', BOLD);
		put(g, l.s ? shown(l.s, heard(l.s, sel < 0 ? slotAt(t1 - 1) : sel)) : 'messages: ' + l.all.length, 0, y + 27, G - 8, l.s ? 'plot' : 'soft');
	}
	cursors(g, x, 0, high);
};
const pickLanes = () => {
	const all = terms(), some = signals.filter(s => all.some(q => q.name && low(s.name).includes(q.name))), rest = signals.filter(s => !s.at.length);
	const add = (high, l) => { lanes.push({...l, high, y: lanes.high}); lanes.high += high; };
	lanes = [];
	lanes.high = 0;
	if (!some.length) nodes.forEach((q, host) => {
		const all = msgs.filter(m => m.host == host), ends = [];
		for (const m of all) {
			m.row = Math.max(0, [0, 1, 2].findIndex(r => !ends[r] || (ends[r].end ?? N) < m.i));
			if (ends[m.row]) ends[m.row].next = m;
			ends[m.row] = m;
		}
		if (all.length) add(20 + ends.length * 18, {host, all});
	});
	for (const s of some.length ? some : signals) if (s.at.length || some.length) {
		const v = [s.init, ...s.val].filter(v => !named(s, v));
		s.texts = s.maps.some(m => m.text);
		add(v.length ? 44 : 36, {s, lo: v.reduce((a, b) => Math.min(a, b), 1e9), hi: v.reduce((a, b) => Math.max(a, b), 0)});
	}
	$('rest').textContent = rest.length ? 'Constant: ' + rest.map(s => `${s.name} ${shown(s, s.init)}`).join(', ') : '';
};
// lists
const cut = all => all.map(([s, bad, always], k) => k < 8 || always ? h`<div class="${bad ? 'c e' : 'c'}" title="${s}">${short(s)}</div>` : '').concat(all.length > 8 ? h`<div class="l">${all.length} in all</div>` : '');
const steps = s => cut(s.steps.map(q => [did(q), q.why]));
const slotBox = s => {
	const [head, tail] = times(s);
	return h`<div class="s${s.i === sel ? ' on' : ''}"><div class="a">${steps(s)}</div><div class="b ${KINDS[s.kind]}" data-i="${s.i}" title="${brief(about(s))}"><div class="w"><small>#${s.i}</small><b>${s.name}</b> <span class="k">${s.id}</span></div><div class="m">${look(s)}</div><div class="p"><i class="h" style="flex:${head}"></i><i class="d" style="flex:${tail}"></i><i style="flex:${Math.max(0, s.d - head - tail)}"></i></div></div><div>${cut([...news(s).map(q => [q]), ...s.told.map(q => [say(q), /^> lost/.test(q), /^> lost/.test(q)])])}</div></div>`;
};
const showRows = () => {
	let out = '', left = most, b = slotAt(t1 - 1), k = bisect(rows.length, k => rows[k].b > slotAt(t0));
	for (; rows[k]?.a <= b; k++) {
		const r = rows[k], s = slots[r.a], before = slots[r.a - 1], cause = before?.kind > 2 && run.group[before.name]?.table === s.table.name;
		const some = slots.slice(r.a, r.n > 1 ? Math.min(r.b, r.a + 200) : r.b).filter(s => !mask || mask[s.i]);
		if (!some.length) continue;
		if (!left--) { out += '<button data-k="more">more</button>'; break; }
		out += r.n > 1 && !mask && !r.open ? h`<p class="f">${r.n} rounds of ${s.table.name} without news, #${r.a} to #${r.b - 1}, from ${ms(s.t)} <button data-r="${k}">unfold</button></p>`
			: h`<div class="r${cause ? ' x' : ''}"><div class="t"><b>${s.table.name}</b><br><small> ${ms(s.t)}${cause ? ' resolves ' + before.name : ''}</small></div><div class="g">${some.map(slotBox)}</div></div>`;
	}
	if (t1 === END && run.rest.steps[0]) out += h`<div class="f">at the end${steps(run.rest)}</div>`;
	$('rows').innerHTML = `<h2>${mask ? 'Slots that the filter takes' : 'Slots of the window'}</h2>` + out;
};
const dot = w => `<i style="background:var(--${w})"></i>`;
// Problems are one group if they differ only in the slot and in a value, the bytes or the number of a message, or in what an
// expectation found.
const alike = ({kind, why, line = ''}) => {
	const f = line.split(' ');
	return [kind, ...kind === 'unmet' ? /^script \d+|^.*?:\d+:|^.*/.exec(why) : /lost|waits/.test(kind) ? [f[2], f[4]] : [why, ...f.slice(0, Math.max(2, f.length - 1))]].join(' ');
};
const pickProbs = () => {
	const all = new Map();
	for (const q of probs) if (!mask || mask[q.i]) {
		const k = q.alike ||= alike(q), same = all.get(k);
		if (same) { same.push(q); same.differ ||= q.why !== same[0].why || q.line !== same[0].line; } else all.set(k, [q]);
	}
	groups = [...all.values()];
};
const problem = q => h`${LABEL[q.kind] || q.kind}: ${/lost|waits/.test(q.kind) ? say(q.line).slice(5) + ' ' + q.why : did(q)}`;
const showProb = q => h`<li class="${q.i === sel ? 'on' : ''}"><button data-i="${q.i}">${[dot(q.kind)]}${q.i < 0 ? '' : `#${q.i} `}${problem(q)}</button>`[0];
const showGroup = (all, k) => {
	const [q] = all;
	return all.length < 2 ? showProb(q) : h`<li class="${!all.open && all.some(q => q.i === sel) ? 'on' : ''}"><button data-i="${q.i}" data-g="${k}" aria-expanded="${!!all.open}">${[dot(q.kind)]}<b>${all.length} ×</b> ${problem(q)}${all.differ ? ' …' : ''}</button>`
		+ (all.open ? '<ol>' + all.slice(0, 300).map(showProb).join('') + '</ol>' : '');
};
const showProbs = () => {
	const all = groups.reduce((n, q) => n + q.length, 0), cut = groups.length > 300 || groups.some(q => q.open && q.length > 300);
	$('probs').innerHTML = `<h2>Problems: ${all}</h2><ol>` + groups.slice(0, 300).map(showGroup).join('') + '</ol>' + (cut ? '<p class="l">the others by n and p' : '');
};
// (a frame that isn't shown has no width)
const paint = () => { if (W > G) { drawOver(); drawBus(); drawLanes(); } };
const draw = now => {
	frame ||= requestAnimationFrame(() => { frame = 0; paint(); });
	clearTimeout(timer);
	timer = setTimeout(showRows, now ? 0 : 150);
};
// moving
const view = (a, b) => {
	const d = Math.min(END, Math.max(b - a, 2e3));
	t0 = Math.max(0, Math.min(END - d, a));
	t1 = t0 + d;
	most = 40;
	draw();
};
const zoom = (k, t) => view(t - (t - t0) * k, t + (t1 - t) * k);
const go = i => {
	const s = slots[i];
	if (!s) return;
	sel = i;
	if (N > 60 && (t1 - t0) / s.d > 60) view(s.t - 6 * s.d, s.t + 7 * s.d);
	else if (s.t < t0 || s.t + s.d > t1) view(s.t - (t1 - t0) / 2, s.t + (t1 - t0) / 2);
	showLine();
	try { history.replaceState(0, '', '#' + i); } catch { /* a frame has no address of its own */ }
	showProbs();
	draw(1);
};
const showLine = () => {
	if (sel < 0) return;
	const [place, ...rest] = about(slots[sel]);
	$('line').textContent = brief([place, ...away(sel), ...rest], ' · ');
};
const measure = i => { mark = i === mark ? -1 : i; showLine(); draw(); };
// The terms of the filter: SIGNAL = VALUE up to a comma, a time, #SLOT, "TEXT" or a word. Each has `ok`, whether it takes a
// slot, and either a text of names or, of a time or #SLOT, the slot.
const TERM = /([^\s,=<>"]+)\s*([=<>])\s*([^,]*)|([\d.]+)\s*(s|ms|us)(?![^\s,])|#(\d+)|"([^"]*)"?|[^\s,]+/g, low = s => s.toLowerCase();
const holds = (g, v, op, to) => {
	const m = map(g, v), n = m && !m.text ? v * m.k + m.o : v;
	return !to || (op === '=' ? low(shown(g, v)) === to || Math.abs(n - to) <= 1e-9 * Math.abs(n) : op === '<' ? n < parseFloat(to) : n > parseFloat(to));
};
const terms = () => [...low($('find').value).matchAll(TERM)].map(([word, name, op, to, time, unit, slot, text = word]) => {
	if (op) {
		const same = signals.filter(g => low(g.name) === name), some = same[0] ? same : signals.filter(g => low(g.name).includes(name));
		const known = new Map(some.map(g => [g, {}])), is = (g, v) => known.get(g)[v] ??= holds(g, v, op, to.trim());
		return {name, ok: s => s.good && s.frame?.places.some(([g]) => known.has(g) && is(g, heard(g, s.i)))};
	}
	const t = time * {s: 1e6, ms: 1e3, us: 1}[unit], at = slot ? +slot : time ? t < END ? slotAt(t) : -1 : undefined;
	return at === undefined ? {name: text, ok: s => key(s).includes(text)} : {at, ok: s => s.i === at};
});
const frameKey = f => f.key ||= [f.name, f.node, ...f.places.map(q => q[0].name)].join(' ');
const key = s => s.key ||= [s.table.name, s.line.name, s.id, s.pid, ...s.tags, ...s.tags.map(q => LABEL[q] || ''), ...s.puts.map(q => nodes[q[0]].name + ' ' + q[1]), s.frame ? frameKey(s.frame) : '',
	...s.steps.map(did), ...s.told.map(say)].join(' ').toLowerCase();
const filter = () => {
	const all = terms();
	mask = all.length ? Uint8Array.from(slots, s => all.every(q => q.ok(s))) : 0;
	$('found').textContent = mask ? count(mask.reduce((a, b) => a + b, 0), 'slot') : '';
	for (const b of $('kinds').children) b.className = all.some(q => q.name === b.dataset.w) ? 'on' : '';
	strip = 0;
	colour(); pickLanes(); pickProbs(); showProbs(); draw(1);
};
const next = (d, ok) => { for (let i = (sel < 0 ? slotAt(t0) - 1 : sel) + d; slots[i]; i += d) if ((!mask || mask[i]) && ok(slots[i])) return go(i); };
const bad = s => s.tags.some(q => !/silent|none|good|coll|asleep/.test(q));
const keys = $('line').innerHTML;
const act = k => {
	const t = slots[sel]?.t, mid = t >= t0 && t <= t1 ? t : (t0 + t1) / 2, d = (t1 - t0) / 4;
	({'+': () => zoom(.5, mid), '-': () => zoom(2, mid), 0: () => view(0, END), ArrowRight: () => next(1, s => s), ArrowLeft: () => next(-1, s => s),
		Right: () => view(t0 + d, t1 + d), Left: () => view(t0 - d, t1 - d), PageDown: () => view(t1, 2 * t1 - t0), PageUp: () => view(2 * t0 - t1, t0),
		Home: () => go(0), End: () => go(N - 1), n: () => next(1, bad), p: () => next(-1, bad), m: () => sel < 0 || measure(sel),
		'?': () => { $('line').innerHTML = keys; }, '/': () => $('find').focus(), Escape: () => { $('find').value = ''; filter(); $('time').focus(); }, more: () => { most += 80; showRows(); }}[k] || (() => 0))();
};
onkeydown = e => {
	if (e.ctrlKey || e.metaKey || e.altKey) return;
	if (e.target.id === 'find') {
		const at = terms().find(q => q.at >= 0)?.at;
		if (e.key === 'Enter') if (at >= 0) go(at); else act(e.shiftKey ? 'ArrowLeft' : 'ArrowRight');
		if (e.key !== 'Escape') return;
	}
	if (/^(ArrowL|ArrowR|Home|End|\/)/.test(e.key) || /^Page/.test(e.key) && t1 - t0 < END) e.preventDefault();
	act(e.shiftKey ? e.key.replace('Arrow', '') : e.key);
};
onclick = e => {
	const {i, k, r, w, g} = e.target.closest('[data-i],[data-k],[data-r],[data-w]')?.dataset || {};
	if (g) { groups[g].open ^= 1; showProbs(); }
	if (i) go(+i);
	if (k) act(k);
	if (r) { rows[r].open = 1; showRows(); }
	if (w) {
		const all = $('find').value.split(' ').filter(q => q);
		$('find').value = [...all.includes(w) ? [] : [w], ...all.filter(q => !Object.hasOwn(tags, q))].join(' ');
		filter();
	}
};
$('find').oninput = filter;
$('lanes').onscroll = () => drawLanes();
const fingers = new Map();
for (const c of [$('over'), $('bus'), $('plot')]) {
	const whole = c.id === 'over', X = e => e.clientX - c.getBoundingClientRect().left, time = x => whole ? (x - G) / (W - G) * END : t0 + (x - G) / (W - G) * (t1 - t0);
	c.onpointerdown = e => { drag = {x: X(e), t0, t1}; fingers.set(e.pointerId, X(e)); c.setPointerCapture(e.pointerId); };
	c.onpointermove = e => {
		const at = X(e), tip = $('tip'), on = at > G && e.pointerType === 'mouse' && !e.buttons ? 'block' : '';
		$('hair').style.cssText = `left:${at}px;display:${on}`;
		tip.style.cssText = `display:${on};left:${Math.min(e.clientX + 14, innerWidth - 350)}px;top:${Math.min(e.clientY + 16, innerHeight - 160)}px`;
		if (on && N) tip.textContent = brief(about(slots[slotAt(time(at))]));
		if (!fingers.has(e.pointerId)) return;
		const [a, b] = fingers.values(), s = (drag.t1 - drag.t0) / (W - G) * (at - drag.x);
		fingers.set(e.pointerId, at);
		const [p, q] = fingers.values();
		drag.far ||= Math.abs(at - drag.x) > 4;
		if (q) zoom(Math.abs(a - b) / Math.abs(p - q) || 1, time((p + q) / 2));
		else if (drag.far && whole) view(Math.min(time(drag.x), time(at)), Math.max(time(drag.x), time(at)));
		else if (drag.far) view(drag.t0 - s, drag.t1 - s);
	};
	c.onpointerup = c.onpointercancel = e => {
		const t = time(X(e)), d = (t1 - t0) / 2;
		fingers.delete(e.pointerId);
		if (!drag.far && e.type === 'pointerup' && X(e) > G) if (whole) view(t - d, t + d); else (e.shiftKey ? measure : go)(slotAt(t));
	};
	c.onpointerleave = () => { $('hair').style.display = $('tip').style.display = ''; };
	c.addEventListener('wheel', e => {
		const side = e.shiftKey || Math.abs(e.deltaX) > Math.abs(e.deltaY), d = (e.deltaX || e.deltaY) * (t1 - t0) / (W - G);
		if (c.id === 'plot' && !e.ctrlKey && !side) return;
		e.preventDefault();
		if (side) view(t0 + d, t1 + d); else zoom(1.0015 ** e.deltaY, time(X(e)));
	}, {passive: false});
}
const layout = () => {
	const style = getComputedStyle(document.documentElement);
	C = new Proxy({}, {get: (o, k) => o[k] ||= style.getPropertyValue('--' + k)});
	W = paper ? 1040 : $('lanes').clientWidth;
	G = W < 600 ? 84 : 124;
	strip = 0;
	paint(); showRows();
};
const print = on => () => {
	paper = on;
	document.documentElement.className = on ? 'paper' : '';
	$('shown').textContent = [`${ms(t0)} to ${ms(t1)}`, ...mask ? ['filter: ' + $('find').value] : [], ''].join(' · ');
	layout();
};
onresize = matchMedia('(prefers-color-scheme:dark)').onchange = layout;
onbeforeprint = print(1);
onafterprint = print(0);
const tags = {damaged: 0, lost: 0};
for (const s of [...slots, run.rest]) for (const q of s.tags) tags[q] = (tags[q] || 0) + 1;
$('kinds').innerHTML = [...KINDS, 'lost', 'refused', 'unmet', 'waits', 'asleep'].map(w => w in tags ? `<button data-w="${w}">${dot(w)}${LABEL[w] || w} ${tags[w]}</button>` : '').join(' ');
$('name').textContent = run.file;
document.title = run.file + ', LIN run';
$('sum').textContent = `${N} slots · ${ms(run.end)} · ${run.speed / 1e3} kbit/s · ${nodes.length} nodes · ${msgs.length} messages`;
$('ask').remove();
$('page').hidden = false;
colour(); pickLanes(); pickProbs(); layout(); showProbs();
onmessage = e => { if (e.source === parent) go(+e.data); };
if (wanted !== '') go(+wanted);
