// The views of the cluster and of the run.
const milliseconds = us => `${(us / 1000).toLocaleString('en', {maximumFractionDigits: 3})} ms`;
const hex = (value, digits) => `0x${Number(value).toString(16).toUpperCase().padStart(digits, '0')}`;
// A name of the LDF, which leads to its declaration.
const named = name => node('button', {class: 'name', type: 'button', 'data-name': name}, name);
const listed = names => names.flatMap((it, k) => k ? [', ', named(it)] : [named(it)]);

function clusterView({nodes, frames, tables, slots, loads}) {
	const publishes = name => listed(frames.filter(it => it.by === name).map(it => it.name));
	const bar = ({needed, delay, slack}) => {
		const part = node('i');
		part.style.width = `${Math.min(100, needed / delay * 100)}%`;
		return node('span', {class: slack < 0 ? 'time bad' : 'time'}, part);
	};
	const nodeRow = ({name, nad}, k) => [cell(named(name), ' ', node('small', null, k ? 'responder' : 'commander')),
		number(nad === '-' ? '' : `${nad} (${hex(nad, 2)})`), node('td', {class: 'wrap'}, publishes(name))];
	const slotRow = it => [number(it.entry), cell(it.name === '-' ? '-' : named(it.name)), cell(it.kind), number(it.bytes),
		number(milliseconds(it.delay)), number(milliseconds(it.needed)), number(milliseconds(it.slack)), cell(bar(it))];
	return [
		node('h2', null, 'Nodes'), table(['Node', '>NAD', 'Publishes'], nodes.map(nodeRow)),
		tables.map(({name}, k) => [
			node('h2', null, 'Table ', named(name), ' ', node('small', null, `${milliseconds(loads[k].delay)} a round, load ${(loads[k].permille / 10).toFixed(1)} %`)),
			table(['>#', 'Frame', 'Kind', '>Bytes', '>Delay', '>Needed', '>Left', ''], slots.filter(it => it.table === k).map(slotRow)),
		]),
	];
}

function framesView({frames, signals, sporadic, event}) {
	const hues = new Map(signals.map((it, k) => [it.name, k * 137.5 % 360]));
	const others = [
		...sporadic.map(it => [cell(named(it.name)), cell('sporadic'), cell(), cell(listed(it.frames))]),
		...event.map(it => [cell(named(it.name)), cell(`event-triggered, ${it.id}, PID 0x${it.pid}`), cell('resolved by ', named(it.table)), cell(listed(it.frames))]),
	];
	return [frames.map(it => frameBits(it, hues)), others.length ? table(['Frame', 'Kind', '', 'Carries'], others) : []];
}
// A frame as its bits, each byte with its most significant bit first.
function frameBits(frame, hues) {
	const owner = Array(frame.bytes * 8).fill(null), bytes = [];
	for (const place of frame.places) owner.fill(place, place.offset, place.offset + place.size);
	for (let byte = 0; byte < frame.bytes; byte++) {
		const cells = [];
		for (let high = byte * 8 + 7; high >= byte * 8;) {
			const place = owner[high];
			let low = high;
			while (low > byte * 8 && owner[low - 1] === place) low--;
			const it = place ? node('button', {class: 'name', type: 'button', 'data-name': place.name,
				title: `${place.name}: bits ${place.offset} to ${place.offset + place.size - 1}, initial value ${place.value}`}, place.name) : node('i');
			it.style.gridColumn = `span ${high - low + 1}`;
			if (place) it.style.background = `hsl(${hues.get(place.name)} 55% 50% / .35)`;
			cells.push(it);
			high = low - 1;
		}
		bytes.push(node('div', {class: 'byte'}, node('small', null, `byte ${byte}`), cells));
	}
	const facts = [`${frame.id}`, `PID 0x${frame.pid}`, plural(frame.bytes, 'byte'), `${frame.checksum} checksum`];
	return node('div', {class: 'frame'}, node('h3', null, named(frame.name), facts.map(it => node('span', null, it)), node('span', null, 'by ', named(frame.by))),
		node('div', {class: 'bits'}, bytes));
}

const MOST_VALUES = 12;
// What the raw values of a signal mean, a line each.
function meanings({ranges, values}) {
	const lines = ranges.map(it => it.note || `${it.from} … ${it.to} = ${it.low} … ${it.high} ${it.unit}`);
	for (const [raw, text] of values.slice(0, MOST_VALUES)) lines.push(`${raw} = ${text || '-'}`);
	if (values.length > MOST_VALUES) lines.push(`and ${values.length - MOST_VALUES} more`);
	return lines;
}
function signalsView({signals}) {
	const row = (it, k) => [number(k), cell(named(it.name)), number(it.bits || ''), cell(it.by ? named(it.by) : ''), cell(listed(it.frames.map(frame => frame.name))),
		cell(it.raw || '', it.initial ? [' ', node('small', null, it.initial)] : ''), cell(it.coding === '-' ? '' : named(it.coding)), cell(meanings(it).map(line => node('div', null, line)))];
	return table(['>#', 'Signal', '>Bits', 'Publisher', 'Frames', 'Initial value', 'Encoding', 'Raw values'], signals.map(row));
}

const MOST_ROWS = 2000, MOST_TABLE_BYTES = 4e6, MOST_LOG_BYTES = 1 << 20;
function tableView(out) {
	const lines = decoded(out.subarray(0, MOST_TABLE_BYTES)).split('\n').filter(Boolean), rows = csvRows(lines.slice(1, MOST_ROWS + 1));
	const isLong = lines.length > MOST_ROWS + 1 || out.length > MOST_TABLE_BYTES;
	return [table(csvRows(lines.slice(0, 1))[0] || [], rows.map(row => row.map(it => cell(it)))),
		isLong ? node('p', {class: 'more'}, `The first ${plural(rows.length, 'slot')}. “Save” has all of them.`) : []];
}
function logView(root, label, out) {
	const log = new Editor(root, {language: 'log', label, readOnly: true}), left = out.length - MOST_LOG_BYTES;
	log.value = decoded(out.subarray(0, MOST_LOG_BYTES)) + (left > 0 ? `\n.. ${plural(left, 'byte')} more: “Save” has all of them` : '');
}

// The picture is a page of its own, in a frame that may do nothing but run its script. A message shows a slot in it.
class Picture {
	constructor(root) {
		this.root = root;
		this.frame = null;
	}
	show(html) {
		const next = node('iframe', {title: 'Picture of the run', sandbox: 'allow-scripts'}), frames = [...this.root.querySelectorAll('iframe')];
		const old = frames.find(it => it.isReady);                   // it stays until the new one is drawn
		for (const it of frames) if (it !== old) it.remove();        // of one that isn't drawn yet, nobody has seen anything
		next.srcdoc = html;
		next.classList.toggle('next', !!old);
		next.addEventListener('load', () => {
			next.classList.remove('next');
			next.isReady = true;
			if (old) old.remove();
			if (next.slot !== undefined) this.go(next.slot);
		});
		if (old) this.root.append(next); else this.root.replaceChildren(next);
		this.frame = next;
	}
	go(slot) {
		if (!this.frame || !this.frame.isConnected) return;
		if (this.frame.isReady) this.frame.contentWindow.postMessage(slot, '*'); else this.frame.slot = slot;
	}
}
