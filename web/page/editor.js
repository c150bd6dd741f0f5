// An editor for short lines: a textarea over a drawing of the visible lines, with their colors and marks. What is typed,
// undone, selected and read aloud is the browser's own.
const PADDING = 4, LONGEST = 2000, TAB = 4;

class Editor {
	constructor(root, {language, label, changed, suggest, readOnly = false}) {
		Object.assign(this, {root, language, changed, suggest, marks: [], byLine: new Map(), icons: new Map()});
		root.classList.add('editor');
		this.gutter = node('div', {class: 'gutter', 'aria-hidden': 'true'});
		this.drawing = node('pre', {'aria-hidden': 'true'});
		this.area = node('textarea', {spellcheck: 'false', autocomplete: 'off', autocapitalize: 'off', wrap: 'off', 'aria-label': label, readOnly});
		this.list = node('ul', {class: 'suggestions', role: 'listbox', hidden: true});
		root.replaceChildren(this.gutter, node('div', {class: 'text'}, this.drawing, this.area), this.list);
		const on = (name, work) => this.area.addEventListener(name, work);
		on('input', () => { this.read(); this.draw(); if (this.changed) this.changed(); this.offer(false); });
		on('scroll', () => { this.draw(); this.list.hidden = true; });
		on('keydown', event => this.key(event));
		on('blur', () => setTimeout(() => { this.list.hidden = true; }, 150));
		on('mousemove', event => this.hover(event));
		on('mouseleave', () => hideTip());
		on('click', event => { const mark = this.markAt(event); if (mark && this.clicked) this.clicked(mark.mark); });
		this.list.addEventListener('mousedown', event => {
			event.preventDefault();
			const at = [...this.list.children].indexOf(event.target.closest('li'));
			if (at >= 0) this.take(at);
		});
		new ResizeObserver(() => { if (document.activeElement === this.area) this.follow(); this.draw(); }).observe(root);
		this.read();
	}

	get value() { return this.area.value; }
	set value(text) {
		this.area.value = text;
		this.area.scrollTop = this.area.scrollLeft = 0;
		this.area.setSelectionRange(0, 0);
		this.mark([]);
		this.read();
		this.draw();
	}
	// Replaces a range by what could have been typed, so that it can be undone.
	insert(text, from = this.area.selectionStart, to = this.area.selectionEnd) {
		this.area.focus({preventScroll: true});
		this.area.setSelectionRange(from, to);
		if (!document.execCommand('insertText', false, text)) {
			this.area.setRangeText(text, from, to, 'end');
			this.area.dispatchEvent(new Event('input'));
		}
	}
	append(text) {
		const end = this.value.length;
		this.insert((end && !this.value.endsWith('\n') ? '\n' : '') + text, end, end);
	}
	read() {
		this.lines = this.area.value.split('\n');
		this.opens = this.language === 'ldf' ? openComments(this.lines) : null;
		this.gutter.style.width = `calc(${String(this.lines.length).length}ch + 26px)`;
	}

	// The marks: {line, from, to, kind, head, text}, with lines from 1 and columns from 0; and a kind of icon by line.
	mark(marks, icons = new Map()) {
		this.marks = marks;
		this.icons = icons;
		this.byLine = new Map();
		for (const it of marks) this.byLine.set(it.line, [...(this.byLine.get(it.line) || []), it]);
		this.draw();
	}
	get lineHeight() {
		if (!this.measuredHeight) this.measuredHeight = parseFloat(getComputedStyle(this.drawing).lineHeight) || 0;
		return this.measuredHeight || 19;
	}
	get charWidth() {
		if (!this.measuredWidth) {
			const it = node('span', null, 'x'.repeat(100));
			this.drawing.append(it);
			this.measuredWidth = it.getBoundingClientRect().width / 100;
			it.remove();
		}
		return this.measuredWidth || 7.2;
	}
	draw() {
		if (!this.root.offsetParent) return;
		const height = this.lineHeight, top = this.area.scrollTop, first = Math.max(0, Math.floor((top - PADDING) / height));
		const last = Math.min(this.lines.length, first + Math.ceil(this.area.clientHeight / height) + 1);
		const lines = [], numbers = [];
		for (let k = first; k < last; k++) {
			const marks = this.byLine.get(k + 1);
			lines.push(...this.drawn(k), '\n');
			numbers.push(node('div', {class: this.icons.get(k + 1) || (marks && worstOf(marks))}, String(k + 1)));
		}
		const shift = PADDING + first * height - top;
		this.drawing.replaceChildren(...lines);
		this.drawing.style.transform = `translate(${-this.area.scrollLeft}px,${shift}px)`;
		const column = node('div', null, numbers);
		column.style.transform = `translateY(${shift}px)`;
		this.gutter.replaceChildren(column);
	}
	// A line in colors, with its marks.
	drawn(k) {
		const line = this.lines[k].slice(0, LONGEST), marks = this.byLine.get(k + 1) || [];
		const parts = PARTS[this.language](line, this.opens && this.opens[k]);
		if (!marks.length && !parts.length) return [line];
		const within = at => Math.min(at, line.length);
		const edges = new Set([0, line.length, ...parts.flatMap(([from, to]) => [from, to]), ...marks.flatMap(it => [within(it.from), within(it.to)])]);
		const sorted = [...edges].sort((a, b) => a - b), drawn = [];
		for (let n = 0; n + 1 < sorted.length; n++) {
			const from = sorted[n], to = sorted[n + 1], text = line.slice(from, to);
			const part = parts.find(it => it[0] <= from && from < it[1]), over = marks.filter(it => it.from < to && it.to > from);
			const piece = part ? node('span', {class: part[2]}, text) : text;
			drawn.push(over.length ? node('u', {class: worstOf(over), 'data-mark': this.marks.indexOf(over[0])}, piece) : piece);
		}
		const beyond = marks.find(it => it.from >= line.length);
		if (beyond) drawn.push(node('u', {class: beyond.kind, 'data-mark': this.marks.indexOf(beyond)}, ' '));
		return drawn;
	}

	markAt({clientX, clientY}) {
		for (const it of this.drawing.querySelectorAll('u')) {
			const box = it.getBoundingClientRect();
			if (clientX >= box.left - 2 && clientX <= box.right + 2 && clientY >= box.top && clientY <= box.bottom) return {box, mark: this.marks[it.dataset.mark]};
		}
		return null;
	}
	hover(event) {
		const found = this.markAt(event);
		if (!found) return hideTip();
		const {box, mark} = found;
		showTip(box, this.marks.filter(it => it === mark || it.line === mark.line && it.from < mark.to && it.to > mark.from));
	}

	offsetOf(line, column) {
		let at = 0;
		for (let k = 0; k < line - 1 && k < this.lines.length; k++) at += this.lines[k].length + 1;
		return at + column;
	}
	show(line, from = 0, to = from, focuses = true) {
		const at = this.offsetOf(line, from), view = this.area.clientHeight, height = this.lineHeight;
		if (focuses) this.area.focus({preventScroll: true});
		this.area.setSelectionRange(at, at + Math.max(0, to - from));
		const y = (line - 1) * height, x = from * this.charWidth;
		if (y < this.area.scrollTop + height || y > this.area.scrollTop + view - 2 * height) this.area.scrollTop = Math.max(0, y - view / 3);
		if (x < this.area.scrollLeft || x > this.area.scrollLeft + this.area.clientWidth - 80) this.area.scrollLeft = Math.max(0, x - 120);
		this.draw();
	}
	// Keeps the caret's line visible as the editor becomes lower.
	follow() {
		const y = this.caret().line * this.lineHeight + 8, view = this.area.clientHeight;
		if (y > this.area.scrollTop + view && y - this.area.scrollTop < view + 12 * this.lineHeight) this.area.scrollTop = y - view;
	}
	caret() {
		const before = this.area.value.slice(0, this.area.selectionStart), start = before.lastIndexOf('\n') + 1;
		let line = 1;
		for (let at = -1; (at = before.indexOf('\n', at + 1)) >= 0;) line++;
		return {line, column: before.length - start, before: before.slice(start)};
	}
	// Goes to the next mark, or with -1 to the one before.
	next(by) {
		if (!this.marks.length) return;
		const {line, column} = this.caret(), sorted = [...this.marks].sort((a, b) => a.line - b.line || a.from - b.from);
		const isAfter = it => it.line > line || it.line === line && it.from > column, isBefore = it => it.line < line || it.line === line && it.from < column;
		const to = by > 0 ? sorted.find(isAfter) || sorted[0] : sorted.filter(isBefore).pop() || sorted[sorted.length - 1];
		this.show(to.line, to.from);
		if (this.clicked) this.clicked(to);
	}
	key(event) {
		const {key} = event, taken = () => event.preventDefault();
		if (!this.list.hidden) {
			const items = [...this.list.children], at = items.findIndex(it => it.getAttribute('aria-selected') === 'true');
			if (key === 'ArrowDown' || key === 'ArrowUp') { taken(); return this.select((at + (key === 'ArrowDown' ? 1 : items.length - 1)) % items.length); }
			if (key === 'Tab' || key === 'Enter' && this.isChosen) { taken(); return this.take(at); }
			if (key === 'Escape') { taken(); event.stopPropagation(); this.list.hidden = true; return; }
		}
		if (key === 'F8') { taken(); this.next(event.shiftKey ? -1 : 1); }
		if (key === ' ' && event.ctrlKey) { taken(); this.offer(true); }
		if (key === 'Tab' && !this.area.readOnly && !this.leaves && !event.shiftKey) { taken(); this.insert('  '); }
		if (key !== 'Shift') this.leaves = key === 'Escape';         // Escape, then Tab leaves the editor
	}

	offer(isAsked) {
		if (!this.suggest || this.area.readOnly) return;
		const {before, column, line} = this.caret(), {words, prefix} = this.suggest(before), typed = prefix.toLowerCase();
		let found = words.filter(it => it.toLowerCase().startsWith(typed) && it !== prefix);
		if (found.length < 8 && typed.length > 1) found = found.concat(words.filter(it => it.toLowerCase().indexOf(typed) > 0));
		const isWanted = isAsked || prefix || /[=~] $/.test(before);
		this.list.hidden = !isWanted || !found.length || this.area.selectionStart !== this.area.selectionEnd;
		if (this.list.hidden) return;
		this.prefix = prefix;
		this.list.replaceChildren(...found.slice(0, 10).map(it => node('li', {role: 'option'}, it)));
		this.select(0);
		this.isChosen = isAsked;
		const {left} = this.area.getBoundingClientRect(), root = this.root.getBoundingClientRect(), tabs = (before.match(/\t/g) || []).length;
		const x = left - root.left + 6 + (column - prefix.length + tabs * (TAB - 1)) * this.charWidth - this.area.scrollLeft;
		const y = PADDING + line * this.lineHeight - this.area.scrollTop, height = this.list.offsetHeight;
		this.list.style.left = `${Math.min(x, root.width - this.list.offsetWidth - 8)}px`;
		this.list.style.top = `${y + height > root.height ? y - this.lineHeight - height - 2 : y}px`;
	}
	select(at) {
		this.isChosen = true;
		[...this.list.children].forEach((it, k) => it.setAttribute('aria-selected', k === at));
	}
	take(at) {
		const end = this.area.selectionStart;
		this.insert(this.list.children[at].textContent, end - this.prefix.length, end);
		this.list.hidden = true;
	}
}

const worstOf = marks => marks.some(it => it.kind === 'error') ? 'error' : marks[0].kind;

// The box next to a place that has what is marked there.
function showTip(box, marks) {
	const tip = byId('tip'), {left, top, bottom} = box;
	tip.replaceChildren(...marks.flatMap(mark => [node('p', {class: mark.kind}, node('b', null, mark.head)), ...mark.text.map(line => node('p', null, line))]));
	tip.hidden = false;
	tip.style.left = `${Math.max(8, Math.min(left, innerWidth - tip.offsetWidth - 12))}px`;
	tip.style.top = `${bottom + tip.offsetHeight + 10 > innerHeight ? top - tip.offsetHeight - 6 : bottom + 6}px`;
}
function hideTip() { byId('tip').hidden = true; }
