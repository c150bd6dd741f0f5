// The page: two texts on the left, and what linsim makes of them on the right. Each change is checked and played at once.
const KEY = 'linsim-page-1', EXAMPLES = JSON.parse(byId('examples').textContent), OPTIONS = ['field', 'physical', 'configuration', 'strict'];
const VIEWS = {picture: 'Picture', cluster: 'Cluster', frames: 'Frames', signals: 'Signals', named: 'Log', csv: 'Table', jsonl: 'JSON lines', console: 'Console', panel: 'Panel'};
const OF_CLUSTER = {cluster: clusterView, frames: framesView, signals: signalsView};
const SAVES = [['bench', 'Bench script', '.bench'], ['ldf', 'LDF', '.ldf'], ['plain', 'LDF in the form of LIN 2.2', '.plain.ldf'], null,
	['html', 'Picture', '.html'], ['log', 'Log', '.log'], ['named', 'Log with names', '.named'], ['csv', 'Table, for spreadsheets', '.csv'], ['jsonl', 'JSON lines, for scripts', '.jsonl'],
	['pcap', 'Capture, for Wireshark', '.pcap'], ['vcd', 'Waveforms, for GTKWave', '.vcd'], ['junit', 'Report (JUnit)', '.xml']];
const FIRST_SCRIPT = '# linsim writes this for an LDF without a script: one round of each schedule table.\n';
const WAIT = 120, SLOW = 400, KEPT_AFTER = 400, MOST_PROBLEMS = 300, MOST_FILE = 32e6, MOST_LINK = 2e6, MOST_PICTURE = 6e7;
const NO_WASM = 'This page needs WebAssembly and DecompressionStream: Chrome or Edge 97, Firefox 113, Safari 16.4, or later.';

const state = {ldf: {name: 'cluster.ldf', isLatin: false}, bench: {name: 'cluster.bench', isLatin: false}, field: true, physical: true, configuration: false, strict: false, table: '', text: 'ldf', view: 'picture'};
let program = null, cluster = null, lastRun = {}, timer = 0, generation = 0, opening = 0, keeps = 0, replacedTexts = null, shown = '';
const bench = new Bench(), picture = new Picture(byId('view'));
const editors = {
	ldf: new Editor(byId('ldf'), {language: 'ldf', label: 'LDF', changed: () => later()}),
	bench: new Editor(byId('bench'), {language: 'bench', label: 'Bench script', changed: () => later(), suggest: text => suggested(text, cluster)}),
};
const run = (words, files) => program.ask({words: ['linsim', ...words], files});
const isBusy = () => timer !== 0 || opening > 0 || !program || program.isBusy;

// ---- texts as bytes: UTF-8, or Latin-1 if a file isn't UTF-8
function bytesOf(what, text = editors[what].value) {
	if (!state[what].isLatin) return encoded(text);
	return Uint8Array.from(text, it => it.charCodeAt(0) < 256 ? it.charCodeAt(0) : 63);
}
// The text of a file, or why it has none.
function textOf(bytes) {
	const [a, b] = bytes;
	if (a === 0xff && b === 0xfe || a === 0xfe && b === 0xff) return {text: new TextDecoder(a === 0xff ? 'utf-16le' : 'utf-16be').decode(bytes), isLatin: false, note: 'is UTF-16, and is saved as UTF-8'};
	if (bytes.includes(0)) return {fault: 'isn\'t a text: it has bytes of 0'};
	try {
		return {text: new TextDecoder('utf-8', {fatal: true, ignoreBOM: true}).decode(bytes), isLatin: false};
	} catch {
		let text = '';
		for (let k = 0; k < bytes.length; k += 8192) text += String.fromCharCode(...bytes.subarray(k, k + 8192));
		return {text, isLatin: true};
	}
}
// Names without a colon or a space, so that the lines of --where can be told apart.
const fileName = what => state[what].name.replace(/[^\w.-]/g, '_') || `cluster.${what}`;
const files = () => ({[fileName('ldf')]: bytesOf('ldf'), [fileName('bench')]: bytesOf('bench')});
const readingWords = () => ['field', 'physical', 'configuration'].filter(it => state[it]).map(it => `--${it}`);
const tableWords = () => state.table ? ['--table', state.table] : [];
const playWords = to => ['play', fileName('ldf'), fileName('bench'), '--where', '--explain', ...readingWords(), ...(state.strict ? ['--strict'] : []), ...tableWords(), '--to', to];
const checkWords = () => ['check', fileName('ldf'), '--where', '--explain', ...readingWords(), '--lint', '--frames', '--slots', '--signals'];
const whole = (text, kind = 'error') => ({line: 1, from: 0, to: 1, kind, head: text, text: [], fixes: []});

// ---- check and play
function later(wait = WAIT) {
	clearTimeout(timer);
	timer = setTimeout(judge, wait);
	keep();
}
async function judge() {
	timer = 0;
	const mine = ++generation;
	if (!program) return;
	program.stop();
	const slow = setTimeout(() => { tell([['', 'running…']]); byId('stop').hidden = false; }, SLOW);
	const found = await judged(() => mine === generation);
	clearTimeout(slow);
	if (!found || mine !== generation) return;
	byId('stop').hidden = true;
	lastRun = found;
	editors.ldf.mark(found.ldf);
	editors.bench.mark(found.bench, found.icons);
	if (found.isCluster) offerTables();
	summarize(found);
	listProblems();
	await show();
	window.judgedAt = window.judgedAt || performance.now();
}
// What linsim finds in the texts as they are, unless they aren't current any more.
async function judged(isCurrent) {
	const given = files(), found = {given, ldf: [], bench: [], icons: new Map(), isCluster: false, plays: false, upTo: 0, ms: 0, made: new Map()};
	const checked = await run(checkWords(), given);
	if (checked.stopped || !isCurrent()) return null;
	found.ms = checked.ms;
	found.isCluster = checked.status === 0;
	if (!checked.failed) found.ldf = ldfMarks(decoded(checked.err), fileName('ldf'), editors.ldf.lines, state.ldf.isLatin);
	if (!found.isCluster && !found.ldf.some(it => it.kind === 'error')) found.ldf.unshift(whole(checked.failed || firstLine(checked.err)));
	if (!found.isCluster) return found;
	cluster = clusterOf(decoded(checked.out));
	return played(found, isCurrent);
}
async function played(found, isCurrent) {
	const name = fileName('bench'), {lines} = editors.bench, marksOf = it => benchMarks(decoded(it.err || new Uint8Array()), name, lines);
	const report = async given => {
		const it = await run(playWords('junit'), given);
		found.ms += it.ms || 0;
		return it.stopped || !isCurrent() ? null : it;
	};
	let it = await report(found.given), text = editors.bench.value;
	if (!it) return null;
	const marks = marksOf(it), bad = marks.filter(mark => mark.head.startsWith('bad line')).map(mark => mark.line);
	if (bad.length) {                                              // played up to the first bad line
		found.upTo = Math.min(...bad);
		text = firstLines(lines, found.upTo - 1);
		found.given = {...found.given, [name]: bytesOf('bench', text)};
		it = await report(found.given);
		if (!it) return null;
		marks.push(...marksOf(it).filter(mark => mark.kind === 'missed'));
		marks.sort((a, b) => a.line - b.line);
	}
	found.plays = it.status === 0 || it.status === 6;
	if (!found.plays && !marks.length) marks.push(unplayed(it.failed || firstLine(it.err), lines));
	const untested = found.plays && withoutTests(text);
	if (untested) {
		it = await report({...found.given, [name]: bytesOf('bench', untested)});
		if (!it) return null;
	}
	found.judgements = found.plays ? judgements(decoded(it.out)) : [];
	for (const {line, isMet} of found.judgements) if (isMet && !found.icons.has(line)) found.icons.set(line, 'met');
	for (const mark of marks) found.icons.set(mark.line, mark.kind);
	found.bench = marks;
	return found;
}
const firstLine = bytes => decoded(bytes).split('\n')[0];
// Why a script without a bad line isn't played. The page has no files that it could include.
function unplayed(text, lines) {
	const at = / read failed$/.test(text) ? lines.findIndex(it => /^[ \t]*include[ \t]/.test(it)) : -1;
	return at < 0 ? whole(text) : {...whole(`${text}; the page can’t include files`), line: at + 1, to: lines[at].length};
}

// Shows these parts, each a kind and a text, as the state of the page.
function tell(parts, ms) {
	byId('state').replaceChildren(...parts.flatMap(([kind, text], k) => [k ? ' · ' : '', node('span', {class: kind}, text)]),
		...(ms === undefined ? [] : [' ', node('small', null, `${ms < 10 ? ms.toFixed(1) : Math.round(ms)} ms`)]));
}
function summarize({ldf, bench: marks, isCluster, judgements: judged = [], upTo, ms}) {
	const count = (list, kind) => list.filter(it => it.kind === kind).length;
	const errors = count(ldf, 'error'), warnings = count(ldf, 'warning'), bad = count(marks, 'error'), missed = count(marks, 'missed'), met = judged.filter(it => it.isMet).length;
	const badge = (id, number, kind) => { byId(id).textContent = number || ''; byId(id).className = `count ${kind}`; };
	badge('n-ldf', errors || warnings, errors ? 'error' : 'warning');
	badge('n-bench', bad || missed, bad ? 'error' : 'missed');
	const parts = [];
	if (errors) parts.push(['bad', `${plural(errors, 'error')} in the LDF`]);
	else if (bad) parts.push(['bad', `${plural(bad, 'bad line')}${upTo > 1 ? `; played up to line ${upTo}` : ''}`]);
	else if (missed) parts.push(['bad', `${missed} of ${plural(met + missed, 'expectation')} failed`]);
	else if (isCluster) parts.push(['good', met ? `${met} of ${plural(met, 'expectation')} met` : 'played']);
	if (warnings && !errors) parts.push(['warn', plural(warnings, 'warning')]);
	tell(parts, ms);
}
function listProblems() {
	const all = (state.text === 'ldf' ? lastRun.ldf : lastRun.bench) || [], explained = new Set();
	const count = (kind, word) => { const n = all.filter(it => it.kind === kind).length; return n ? [plural(n, word)] : []; };
	byId('summary').textContent = [...count('error', 'error'), ...count('missed', 'failed expectation'), ...count('warning', 'warning')].join(', ') || 'No problems';
	byId('list').replaceChildren(...all.slice(0, MOST_PROBLEMS).map(it => {
		const isNew = !it.key || !explained.has(it.key);
		explained.add(it.key);
		const place = it.number ? `${it.line}:${it.from + 1}` : String(it.line);
		const notes = it.text.filter(line => isNew || NEAR.test(line)).slice(0, 6).map(line => node('p', null, line.slice(0, 400)));
		const fixes = it.fixes.map(word => node('button', {type: 'button', class: 'fix', onclick: () => fix(it, word)}, `Replace by ${word}`));
		return node('li', {class: it.kind}, node('button', {type: 'button', class: 'problem', onclick: () => goTo(it)},
			node('i', null, it.kind === 'warning' ? '▲' : '✕'), node('span', null, place), node('b', null, it.head), notes), fixes.length ? node('div', {class: 'fixes'}, fixes) : '');
	}), ...(all.length > MOST_PROBLEMS ? [node('li', {class: 'more'}, `and ${plural(all.length - MOST_PROBLEMS, 'problem')} more`)] : []));
}
function goTo(mark) {
	editors[state.text].show(mark.line, mark.from, mark.to);
	if (mark.slot !== undefined) showSlot(mark.slot);
}
function fix(mark, word) {
	const editor = editors[state.text], from = editor.offsetOf(mark.line, mark.from);
	editor.insert(word, from, from + mark.to - mark.from);
}
function offerTables() {
	const names = cluster.tables.map(it => it.name);
	if (!names.includes(state.table)) state.table = '';
	byId('table').replaceChildren(...['', ...names].map(it => node('option', {value: it}, it || 'the first one')));
	byId('table').value = state.table;
}

// ---- views
byId('views').append(...Object.entries(VIEWS).map(([id, name]) => node('button', {role: 'tab', type: 'button', id: `v-${id}`, 'aria-controls': 'view', 'data-view': id}, name)));
async function show() {
	const {view} = state, found = lastRun, root = byId('view');
	for (const it of byId('views').children) {
		const isShown = it.dataset.view === view;
		it.setAttribute('aria-selected', isShown);
		it.tabIndex = isShown ? 0 : -1;
	}
	if (!found.given) return;
	note();
	if (OF_CLUSTER[view] && cluster) {
		if (!found.isCluster) note('The LDF has errors. This is the last cluster without errors.');
		const top = shown === view ? root.firstChild.scrollTop : 0;
		root.replaceChildren(node('div', {class: 'pane'}, OF_CLUSTER[view](cluster)));
		root.firstChild.scrollTop = top;
		shown = view;
		return;
	}
	if (!found.isCluster) return empty(view, 'The LDF has errors', 'They are underlined in the text and listed below it.');
	if (view === 'console' || view === 'panel') return showBench(view);
	if (!found.plays) return empty(view, 'The script can’t be played', found.bench.length ? found.bench[0].head : '');
	if (found.upTo) note(`Played up to line ${found.upTo}, which is a bad line.`);
	const to = view === 'picture' ? 'html' : view, made = found.made.get(to) || await run(playWords(to), found.given);
	if (found !== lastRun || view !== state.view || made.stopped) return;
	if (made.failed || made.status !== 0 && made.status !== 6) return empty(view, 'linsim ended', made.failed || firstLine(made.err));
	found.made.set(to, made);
	if (view === 'picture') showPicture(made.out, shown === view);
	else if (view === 'csv') root.replaceChildren(node('div', {class: 'pane flush'}, tableView(made.out)));
	else {
		root.replaceChildren(node('div'));
		logView(root.firstChild, VIEWS[view], made.out);
	}
	shown = view;
}
function showPicture(bytes, isShown) {
	const draw = () => picture.show(decoded(bytes));
	if (bytes.length <= MOST_PICTURE) return draw();
	const ask = node('button', {type: 'button', onclick: draw}, `Draw ${Math.round(bytes.length / 1e6)} MB`);
	byId('view').replaceChildren(node('div', {class: 'empty'}, node('b', null, 'A very long run'), node('p', null, 'Drawing it takes some seconds and much memory.'), ask));
}
// Says something above the view.
function note(text = '', ...more) {
	byId('note').replaceChildren(text, ...more);
	byId('note').hidden = !text;
}
function empty(view, head, text) {
	if (shown && shown === view && view !== 'console' && view !== 'panel') return note(`${head}. This is the last run without errors.`);
	shown = '';
	byId('view').replaceChildren(node('div', {class: 'empty'}, node('b', null, head), text));
}
async function openBench() {
	const words = ['linsim', 'live', fileName('ldf'), '--to', 'named', ...readingWords(), ...tableWords()], given = {[fileName('ldf')]: bytesOf('ldf')};
	return bench.open(words, given, `${words.join(' ')}\n${editors.ldf.value}`);
}
async function showBench(view) {
	const key = bench.opened, fault = await openBench();
	if (fault) return empty(view, 'linsim ended', fault);
	if (view !== state.view || shown === view && key === bench.opened) return;
	const root = byId('view');
	if (view === 'console') new Console(root, bench, {reopen: openBench, toScript});
	else new Panel(root, cluster, bench, {toScript, reopen: openBench, save: () => download(fileName('ldf').replace(/\.\w+$/, '.panel.bench'), encoded(bench.script())), clear: () => { bench.forget(); shown = ''; show(); }});
	shown = view;
}
function toScript() {
	const text = bench.script();
	if (!text) return;
	pick('bench');
	editors.bench.append(text);
	bench.forget();
	shown = '';
	if (state.view === 'console' || state.view === 'panel') show();
}
// Shows a slot in the picture.
function showSlot(slot) {
	if (state.view !== 'picture') { state.view = 'picture'; show().then(() => picture.go(slot)); } else picture.go(slot);
}
// Shows the last slot that is made before the end of a line of the script.
async function showSlotOf(line) {
	if (!lastRun.plays) return;
	const text = firstLines(editors.bench.lines, line);
	const {out} = await run(playWords('log'), {...lastRun.given, [fileName('bench')]: bytesOf('bench', text)});
	const slots = out ? (decoded(out).match(/^bus finish$/gm) || []).length : 0;
	if (slots) showSlot(slots - 1);
}
byId('view').addEventListener('click', event => {                  // a name leads to its declaration
	const name = event.target.closest('[data-name]')?.dataset.name;
	if (!name) return;
	pick('ldf');
	const {lines} = editors.ldf, isWord = /[A-Za-z0-9_]/;
	const places = lines.flatMap((line, k) => {
		const from = line.indexOf(name), end = from + name.length;
		return from < 0 || isWord.test(line[from - 1] || '') || isWord.test(line[end] || '') ? [] : [{line: k + 1, from, to: end, isDeclaration: /^\s*[:{]/.test(line.slice(end))}];
	});
	const to = places.find(it => it.isDeclaration) || places[0];
	if (to) editors.ldf.show(to.line, to.from, to.to);
});

// ---- files, examples, what is kept
function pick(what) {
	state.text = what;
	for (const it of ['ldf', 'bench']) {
		byId(it).hidden = it !== what;
		byId(`t-${it}`).setAttribute('aria-selected', it === what);
		byId(`t-${it}`).tabIndex = it === what ? 0 : -1;
	}
	byId('name').textContent = state[what].name + (state[what].isLatin ? ' (Latin-1)' : '');
	editors[what].draw();
	listProblems();
	keep();
}
function set(what, {name, text, isLatin = false}) {
	Object.assign(state[what], {name, isLatin});
	editors[what].value = text.replace(/\r\n?/g, '\n');
}
// What both texts are, and back to it.
const texts = () => ({...state, ldf: {...state.ldf, text: editors.ldf.value}, bench: {...state.bench, text: editors.bench.value}});
function replaced(work) {
	const old = texts();
	work();
	if (!old.ldf.text && !old.bench.text || old.ldf.text === editors.ldf.value && old.bench.text === editors.bench.value) return;
	replacedTexts = old;
	byId('back').hidden = false;
}
function firstScript() {
	const lines = (cluster ? cluster.tables : []).map(it => `switch ${it.name}\nslots ${it.entries}\n`);
	return FIRST_SCRIPT + lines.join('') + (lines.length ? 'expect no lost\n' : 'slots 20\n');
}
async function take(list) {
	opening++;
	try { await opened(list); } finally { opening--; }
}
async function opened(list) {
	const notes = [];
	let ldf = null, script = null;
	for (const file of list) {
		if (file.size > MOST_FILE) { notes.push(`${file.name} isn't opened: it has ${Math.round(file.size / 1e6)} MB`); continue; }
		const it = {name: file.name, ...textOf(new Uint8Array(await file.arrayBuffer()))};
		if (it.fault) { notes.push(`${file.name} isn't opened: it ${it.fault}`); continue; }
		if (it.note) notes.push(`${file.name} ${it.note}`);
		if (/\.ldf$/i.test(file.name) || /^[^;]*LIN_description_file/.test(it.text)) ldf = it; else script = it;
	}
	if (!ldf && !script) return tell([['bad', notes.join('; ')]]);
	bench.forget();
	replaced(() => {
		if (ldf) set('ldf', ldf);
		if (script) set('bench', script);
	});
	if (ldf) state.table = '';
	if (ldf && !script) {
		const {status, out} = await run(['check', fileName('ldf'), ...readingWords()], files());
		cluster = status === 0 ? clusterOf(decoded(out)) : null;
		set('bench', {name: ldf.name.replace(/(\.\w+)?$/, '.bench'), text: firstScript()});
	}
	byId('example').value = '';
	pick(ldf ? 'ldf' : 'bench');
	clearTimeout(timer);
	await judge();
	if (notes.length) note(notes.join('; '));
	keep();
}
async function save(what) {
	const base = fileName('ldf').replace(/\.\w+$/, ''), [, , end] = SAVES.find(it => it && it[0] === what);
	if (what === 'ldf' || what === 'bench') return download(state[what].name, bytesOf(what));
	const made = await run(what === 'plain' ? ['check', fileName('ldf'), '--field', '--plain'] : playWords(what), what === 'plain' ? files() : lastRun.given || files());
	if (made.stopped) return save(what);
	if (made.failed || made.status !== 0 && made.status !== 6) return tell([['bad', `not saved: ${made.failed || firstLine(made.err)}`]]);
	download(base + end, made.out);
}
function download(name, bytes) {
	const link = node('a', {href: URL.createObjectURL(new Blob([bytes])), download: name});
	link.click();
	setTimeout(() => URL.revokeObjectURL(link.href), 10000);
}
function example(k) {
	const {ldf, bench: script, show: text} = EXAMPLES[k];
	bench.forget();
	replaced(() => {
		set('ldf', {name: ldf[0], text: ldf[1]});
		set('bench', {name: script[0], text: script[1]});
	});
	state.table = '';
	byId('example').value = k;
	pick(text);
	later(0);
}
function restore(it) {
	for (const key of [...OPTIONS, 'table', 'text', 'view', 'left']) if (typeof it[key] === typeof state[key] || key === 'left') state[key] = it[key];
	if (!Object.hasOwn(VIEWS, state.view)) state.view = 'picture';
	if (state.text !== 'bench') state.text = 'ldf';
	for (const what of ['ldf', 'bench']) set(what, {name: String(it[what].name), text: String(it[what].text), isLatin: it[what].isLatin === true});
	if (Number.isFinite(state.left)) split(state.left);
	for (const box of document.querySelectorAll('[data-option]')) box.checked = state[box.dataset.option];
	byId('example').value = '';
	pick(state.text);
}
function keep() {
	clearTimeout(keeps);
	keeps = setTimeout(keepNow, KEPT_AFTER);
}
function keepNow() {
	clearTimeout(keeps);
	try {
		localStorage.setItem(KEY, JSON.stringify(texts()));
	} catch {
		if (editors.ldf.value.length + editors.bench.value.length > 1e6) note('The browser can’t keep texts of this size: save them before you close the page.');
	}
}

function stored() {
	try {
		return JSON.parse(localStorage.getItem(KEY));
	} catch {
		return null;
	}
}

// ---- addresses
async function piped(bytes, stream) {
	return new Uint8Array(await new Response(new Blob([bytes]).stream().pipeThrough(stream)).arrayBuffer());
}
async function address() {
	const bytes = await piped(encoded(JSON.stringify(texts())), new CompressionStream('deflate-raw'));
	let all = '';
	for (const it of bytes) all += String.fromCharCode(it);
	return `${location.href.replace(/#.*/, '')}#s=${btoa(all).replace(/\+/g, '-').replace(/\//g, '_').replace(/=+$/, '')}`;
}
async function fromAddress() {
	if (!location.hash.startsWith('#s=')) return null;
	const packed = Uint8Array.from(atob(location.hash.slice(3).replace(/-/g, '+').replace(/_/g, '/')), it => it.charCodeAt(0));
	return JSON.parse(decoded(await piped(packed, new DecompressionStream('deflate-raw'))));
}
async function copyLink() {
	const url = await address(), button = byId('link');
	const said = text => { button.textContent = text; setTimeout(() => { button.textContent = 'Copy link'; }, 2000); };
	if (url.length > MOST_LINK) return said('Too long for a link');
	history.replaceState(null, '', url);
	try {
		await navigator.clipboard.writeText(url);
		said('Copied');
	} catch { said('In the address bar'); }
}

// ---- what is clicked, dropped and typed
byId('saves').append(...SAVES.map(it => it ? node('button', {type: 'button', onclick: () => { byId('save').open = false; save(it[0]); }}, node('span', null, it[1]), node('small', null, it[2])) : node('hr')));
byId('example').append(node('option', {value: ''}, 'Examples'), ...EXAMPLES.map((it, k) => node('option', {value: k}, it.title)));
byId('example').onchange = event => { if (event.target.value !== '') example(Number(event.target.value)); };
byId('open').onclick = () => byId('file').click();
byId('file').onchange = async event => { await take([...event.target.files]); event.target.value = ''; };
byId('table').onchange = event => { state.table = event.target.value; later(0); };
byId('link').onclick = copyLink;
byId('stop').onclick = () => {
	byId('stop').hidden = true;
	bench.stop();
	if (!program.isBusy) return;
	generation++;
	program.stop();
	tell([['warn', 'stopped; the next change runs it again']]);
};
byId('back').onclick = () => { const it = replacedTexts; byId('back').hidden = true; if (it) { restore(it); later(0); } };
byId('forget').onclick = () => {
	try { localStorage.removeItem(KEY); } catch { /* nothing is kept */ }
	history.replaceState(null, '', location.pathname);
	example(0);
	clearTimeout(keeps);
};
for (const it of document.querySelectorAll('[data-option]')) it.onchange = () => { state[it.dataset.option] = it.checked; later(0); };
for (const editor of Object.values(editors)) editor.clicked = mark => { if (mark.slot !== undefined) showSlot(mark.slot); };
editors.bench.gutter.onclick = event => {
	const at = [...editors.bench.gutter.firstChild.children].indexOf(event.target.closest('.met, .missed'));
	if (at >= 0) showSlotOf(Number(editors.bench.gutter.firstChild.children[at].textContent));
};
let over = 0;
addEventListener('dragenter', event => { if ([...event.dataTransfer.types].includes('Files')) { over++; byId('drop').hidden = false; } });
addEventListener('dragleave', () => { if (--over <= 0) { over = 0; byId('drop').hidden = true; } });
addEventListener('dragover', event => event.preventDefault());
addEventListener('drop', event => {
	event.preventDefault();
	over = 0;
	byId('drop').hidden = true;
	if (event.dataTransfer.files.length) take([...event.dataTransfer.files]);
});
addEventListener('pagehide', keepNow);
addEventListener('beforeprint', () => {                              // a head, and a log with all its lines
	const log = byId('view').querySelector('textarea');
	byId('printed').textContent = [state.ldf.name, state.bench.name, byId('version').textContent].join(' · ');
	if (log) byId('view').append(node('pre', {class: 'whole'}, log.value));
});
addEventListener('afterprint', () => { for (const it of document.querySelectorAll('.whole')) it.remove(); });
document.addEventListener('click', event => { for (const it of document.querySelectorAll('details[open]')) if (!it.contains(event.target)) it.open = false; });
addEventListener('keydown', event => {
	if (event.key === 'Escape') {
		hideTip();
		for (const it of document.querySelectorAll('details[open]')) { it.open = false; it.querySelector('summary').focus(); }
	}
	if (!(event.ctrlKey || event.metaKey) || event.altKey) return;
	const work = {
		s: () => save(state.text), o: () => byId('file').click(), e: () => { pick(state.text === 'ldf' ? 'bench' : 'ldf'); editors[state.text].area.focus(); },
		Enter: () => { if (state.text === 'bench') showSlotOf(editors.bench.caret().line); },
	}[event.key];
	if (!work) return;
	event.preventDefault();
	work();
});
for (const list of document.querySelectorAll('[role=tablist]')) {
	list.addEventListener('click', event => {
		const it = event.target.closest('[role=tab]');
		if (!it) return;
		if (it.dataset.view) { state.view = it.dataset.view; keep(); show(); } else pick(it.id.slice(2));
	});
	list.addEventListener('keydown', event => {
		const tabs = [...list.querySelectorAll('[role=tab]')], by = {ArrowRight: 1, ArrowLeft: -1}[event.key];
		if (!by) return;
		const it = tabs[(tabs.indexOf(document.activeElement) + by + tabs.length) % tabs.length];
		it.click();
		it.focus();
	});
}
function split(width) {
	state.left = Math.max(18, Math.min(80, width));
	document.documentElement.style.setProperty('--left', `${state.left}%`);
}
byId('split').onpointerdown = event => {
	byId('split').setPointerCapture(event.pointerId);
	document.body.classList.add('dragging');
	byId('split').onpointermove = move => split(move.clientX / innerWidth * 100);
};
byId('split').onpointerup = () => { byId('split').onpointermove = null; document.body.classList.remove('dragging'); keep(); };
byId('split').onkeydown = event => {
	const by = {ArrowLeft: -2, ArrowRight: 2}[event.key];
	if (by) { split((state.left || 44) + by); keep(); }
};

// ---- the beginning
async function begin() {
	const it = await fromAddress().catch(() => null) || stored();
	if (it && it.ldf && it.bench) restore(it);
	else {
		example(0);
		for (const box of document.querySelectorAll('[data-option]')) box.checked = state[box.dataset.option];
	}
	try {
		await loadProgram();
	} catch (error) {
		tell([['bad', typeof WebAssembly === 'undefined' ? 'WebAssembly is switched off in this browser' : String(error && error.message || error)]]);
		empty('', 'linsim can’t run in this browser', NO_WASM);
		clearTimeout(timer);
		return;
	}
	program = new Program();
	byId('version').textContent = firstLine((await run(['--version'], {})).out || encoded('linsim'));
	window.ready = true;
	later(0);
}
begin();
