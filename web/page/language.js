// The words of LDFs and of bench scripts: their colors, and what can follow in a bench script.
const LDF_WORDS = new Set(`LIN_description_file LIN_protocol_version LIN_language_version LIN_speed Channel_name Nodes Master
	Slaves Signals Frames Diagnostic_signals Diagnostic_frames Diagnostic_addresses Sporadic_frames Event_triggered_frames
	Node_attributes LIN_protocol configured_NAD initial_NAD product_id response_error P2_min ST_min N_As_timeout N_Cr_timeout
	configurable_frames Schedule_tables delay Signal_encoding_types Signal_representation logical_value physical_value
	bcd_value ascii_value kbps ms`.split(/\s+/));
const STEP_WORDS = `slots slot write expect send switch sleep wake when every on timeouts response_errors services state node forget
	test set repeat end open finish answer leave hurt close timeout`.split(/\s+/);
const FORM_WORDS = 'signal message messages next frame seen sent lost no waiting slot table cycle asleep awake not changed done refused'.split(' ');
const ON_WORDS = 'signal changed frame seen slot not'.split(' ');
const NOT_WORDS = 'signal waiting messages seen frame slot changed'.split(' ');
const CALLED_WORDS = 'send write switch sleep'.split(' ');
const SEEN_WORDS = 'good none silent damaged collided'.split(' '), CAUSE_WORDS = 'damaged timedout slept'.split(' ');
const BENCH_WORDS = new Set([...STEP_WORDS, ...FORM_WORDS, ...SEEN_WORDS, ...CAUSE_WORDS,
	...'until while idle ms within of last silent then after in enter do ldf off up down bus include'.split(' ')]);

// The colored parts of a line of an LDF, as [from, to, class]; `isOpen` if a comment is open at its start.
function ldfParts(line, isOpen) {
	const found = [];
	let at = 0;
	if (isOpen) {
		const end = line.indexOf('*/');
		if (end < 0) return [[0, line.length, 'comment']];
		at = end + 2;
		found.push([0, at, 'comment']);
	}
	const form = /\/\*.*?(?:\*\/|$)|\/\/.*|"[^"]*"?|0[xX][\da-fA-F]+|\d+(?:\.\d+)?|[A-Za-z_]\w*/g;
	form.lastIndex = at;
	for (let it; (it = form.exec(line));) {
		const first = it[0][0], kind = first === '/' ? 'comment' : first === '"' ? 'string' : /\d/.test(first) ? 'number' : LDF_WORDS.has(it[0]) && 'word';
		if (kind) found.push([it.index, form.lastIndex, kind]);
	}
	return found;
}
function benchParts(line) {
	if (line.startsWith('>')) return [[0, line.length, 'comment']];
	const found = [], form = /(?<=^|[ \t])#.*|\b(?:0x[\da-fA-F]+|\d+(?:\.\d+)?)\b|[A-Za-z_]\w*/g;
	for (let it; (it = form.exec(line));) {
		const kind = it[0][0] === '#' ? 'comment' : /^\d/.test(it[0]) ? 'number' : BENCH_WORDS.has(it[0]) && 'word';
		if (kind) found.push([it.index, form.lastIndex, kind]);
	}
	return found;
}
function logParts(line) {
	if (/^> (?:lost|refused)|^> seen damaged|^# (?:expected|bad|refused|slot limit)/.test(line)) return [[0, line.length, 'bad']];
	return /^[>#]/.test(line) ? [[0, line.length, 'comment']] : [];
}
const PARTS = {ldf: ldfParts, bench: benchParts, log: logParts};

// At the start of which lines of an LDF a comment is open.
function openComments(lines) {
	const opens = new Uint8Array(lines.length + 1);
	let open = 0;
	lines.forEach((line, k) => {
		opens[k] = open;
		if (!open && !line.includes('/*')) return;
		for (let at = 0; ;) {
			if (open) {
				const end = line.indexOf('*/', at);
				if (end < 0) return;
				open = 0;
				at = end + 2;
			}
			const form = /"[^"]*"?|\/\/|\/\*/g;
			form.lastIndex = at;
			let it;
			while ((it = form.exec(line)) && it[0][0] === '"');
			if (!it || it[0] === '//') return;
			open = 1;
			at = it.index + 2;
		}
	});
	return opens;
}

// What can follow in a line of a bench script, for the cluster if there is one: the words, and the part of one that is typed.
function suggested(before, cluster) {
	const prefix = (before.match(/[A-Za-z_][\w.]*$/) || [''])[0];
	const words = before.slice(0, before.length - prefix.length).trim().split(/\s+/).filter(Boolean);
	const names = kind => cluster ? cluster[kind].map(it => it.name) : [];
	if (/(^|\s)#/.test(before)) return {words: [], prefix: ''};
	const value = before.match(/(?:write|signal)\s+(?:\S+\s+)?(\w+)\s*[=~]\s*(.*)$/);
	if (value && cluster) {
		const signal = cluster.signals.find(it => it.name === value[1]);
		const texts = signal ? signal.values.map(it => it[1]) : [];
		return {words: texts.filter(it => it && !/^\d+$/.test(it)), prefix: value[2]};
	}
	if (words[0] === 'on') return {words: onWords(words.slice(1), names), prefix};
	const forms = Math.max(words.lastIndexOf('expect'), words.lastIndexOf('until'), words.lastIndexOf('while'));
	if (!words.length) return {words: STEP_WORDS, prefix};
	return {words: forms >= 0 ? formWords(words.slice(forms + 1), names) : stepWords(words, names), prefix};
}
// After `expect`, `until` or `while` and these words.
function formWords(words, names) {
	const [form] = words, count = words.length;
	if (!count) return FORM_WORDS;
	if (form === 'not') return count === 1 ? NOT_WORDS : formWords(words.slice(1), names);
	if (form === 'signal' || form === 'changed') return count === 1 ? names('nodes') : count === 2 ? names('signals') : [];
	if (form === 'frame' || form === 'cycle') return count === 1 ? [...names('frames'), 'MasterReq', 'SlaveResp'] : [];
	if (form === 'slot' || form === 'table') return count === 1 ? names('tables') : [];
	if (form === 'seen') return count === 1 ? SEEN_WORDS : [];
	if (form === 'no' && count === 1) return ['lost', 'message'];
	if (form === 'next' && count === 1) return ['message'];
	if (form === 'lost' && count > 1) return CAUSE_WORDS;
	return names('nodes');
}
// After `on` and these words.
function onWords(words, names) {
	const step = words.indexOf('do');
	if (step >= 0) return step + 1 < words.length ? stepWords(words.slice(step + 1), names) : CALLED_WORDS;
	return words.length ? [...formWords(words, names), 'do', 'off'] : [...ON_WORDS, 'off'];
}
// After these words of a step or a rule.
function stepWords(words, names) {
	const [first, second] = words, count = words.length, last = words[count - 1], before = words[count - 2];
	const signals = [...names('signals'), ...names('nodes')];
	switch (first) {
	case 'switch': return count === 1 ? names('tables') : [];
	case 'write': return count === 1 ? signals : count === 2 && names('nodes').includes(second) ? names('signals') : [];
	case 'slots': return words.includes('leave') ? [...names('nodes'), 'until', 'while'] : ['idle', 'ms', 'leave', 'until', 'while'];
	case 'slot': return words.includes('leave') ? names('nodes') : ['leave', 'hurt'];
	case 'when': return count === 1 ? [...names('nodes').slice(1), 'off'] : ['in', 'answer', 'silent', 'then', 'after', 'ms', 'enter', 'off'];
	case 'every':
		if (last === 'ms' || last === 'off') return ['send', 'write'];
		if (last === 'write') return signals;
		return last === 'send' || before === 'send' ? names('nodes') : ['ms', 'off'];
	case 'timeouts': return count === 1 ? ['ldf', 'off', 'ms', ...names('nodes').slice(1)] : ['ms', 'off'];
	case 'node': return count === 1 ? names('nodes').slice(1) : ['off', 'on'];
	case 'state': return count === 1 ? names('nodes').slice(1) : ['default'];
	case 'response_errors': case 'services': return ['on', 'off'];
	case 'test': case 'set': case 'repeat': case 'end': case 'include': return [];
	case 'send': case 'answer': case 'leave': case 'close': case 'timeout': return count < 3 ? names('nodes') : [];
	default: return [...STEP_WORDS, ...signals];
	}
}
