// Checks that a page shows its log: node tools/check_page.mjs PAGE LISTING LOG CSV NAMED
//
// PAGE is what `--to html` writes of a run, LISTING what `check --frames --slots` lists of its LDF, LOG, CSV and NAMED the
// run in these formats. The page's data hold the listing and the log byte for byte; what the page's own model makes of
// them, written as a table, is the CSV; no slot, no problem, no missing, damaged or collided response and no message of the
// log is missing in it; and refusals have the names that the log with names gives them.
// Prints `same: N slots, M problems`, or what differs; exit status 1 then.
import fs from 'fs';

const [page, listing, log, csv, named] = process.argv.slice(2).map(file => fs.readFileSync(file, 'latin1'));
const data = page.split('<script type="text/plain" id="run">\n')[1].split('</script>')[0];
const model = page.split('<script>\n')[1].split('</script>')[0];
const readRun = new Function(model + '\nreturn readRun;')();
const faults = [];

// the text
const begin = data.indexOf('\nlog\n') + 5, end = data.search(/^unmet /m);
if (data.slice(begin, end < 0 ? undefined : end) !== log) faults.push('the log differs');
const lines = data.slice(0, begin - 4).split('\n').slice(0, -1);
if (lines.filter(line => !/^(page|file|speed|alone) /.test(line)).map(line => line + '\n').join('') !== listing) faults.push('the listing differs');

// the model, as a table
const run = readRun(data), hex = bytes => bytes && '0x' + bytes;
const SEEN = {silent: 'silent', none: 'none', good: 'good', damaged: 'damaged', collided: 'collided', missed: 'none'}, KINDS = Object.keys(SEEN);
const COLUMNS = 'slot,time_us,delay_us,table,entry,kind,frame,header,nodes,seen,data,checksum';
const values = run.signals.map(signal => signal.init), next = values.map(() => 0), table = [[COLUMNS, ...run.signals.map(signal => signal.name)].join(',')];
for (const slot of run.slots) {
	run.signals.forEach((signal, k) => { if (signal.at[next[k]] === slot.i) values[k] = signal.val[next[k]++]; });
	table.push([slot.i, slot.t, slot.d, slot.table.name, slot.entry, slot.line.kind, slot.name, slot.pid === '-' ? '' : hex(slot.pid),
		slot.puts.map(put => run.nodes[put[0]].name).join(' '), SEEN[KINDS[slot.kind]], hex(slot.good.slice(0, -2)), hex(slot.good.slice(-2)),
		...values.map(value => String(value).replace(/^x/, '0x'))].join(','));
}
const made = table, wanted = csv.split('\n').slice(0, -1), differs = made.findIndex((line, k) => line !== wanted[k]);
if (differs >= 0 || made.length !== wanted.length) faults.push(`line ${differs + 1} of the table differs:\n${made[differs]}\n${wanted[differs]}`);

// nothing is missing
const count = (text, start) => (text.match(new RegExp(`^${start}\\b`, 'gm')) || []).length, problems = kind => run.probs.filter(problem => problem.kind === kind).length;
if (count(log, '> seen') !== run.slots.length) faults.push('a slot is missing');
if (count(log, '> lost') !== problems('lost') || count(log, '> refused') !== problems('refused') || count(data, 'unmet') !== problems('unmet')) faults.push('a problem is missing');
const kinds = {
	damaged: count(log, '> seen damaged'), collided: count(log, '> seen collided'),
	missed: log.split(/^> slot /m).filter(slot => /^> due /m.test(slot) && /^> seen none/m.test(slot)).length,
};
for (const [kind, wanted] of Object.entries(kinds)) {
	if (run.slots.filter(slot => slot.tags.includes(kind)).length !== wanted || kind !== 'collided' && problems(kind) !== wanted) faults.push(`of slots that are ${kind} one is missing`);
}
if (count(log, '> accepted') !== count(log, '> sent') + count(log, '> lost') + problems('waits')) faults.push('a message is missing');

const why = run.probs.filter(problem => problem.kind === 'refused').map(problem => problem.why).join();
if ([...named.matchAll(/^> refused \d+ (\w+)$/gm)].map(found => found[1]).join() !== why) faults.push('a refusal has another name');

console.log(faults.length ? faults.join('\n') : `same: ${run.slots.length} slots, ${run.probs.length} problems`);
process.exit(faults.length ? 1 : 0);
