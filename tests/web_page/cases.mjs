// Compares the page's program with a native one, in Chromium: node cases.mjs REPOSITORY PAGE.html PROGRAM
//
// The cases are all examples in all formats, and those of tests/ that are arguments, files and an input. Output, standard
// error and exit status have to be the same. For each difference a line is printed; the last line is
// `cases: N passed, M failed`.
import {spawnSync} from 'node:child_process';
import crypto from 'node:crypto';
import fs from 'node:fs';
import os from 'node:os';
import path from 'node:path';
import {pathToFileURL} from 'node:url';
import {open} from './browser.mjs';

const MOST_BYTES = 4e6, ROOM = 1 << 28;
const [top, html, native] = process.argv.slice(2).map(it => path.resolve(it)), examples = `${top}/examples`;
const ALL = ['--physical', '--strict', '--where', '--explain'];
const CHECKS = [[], ['--frames', '--slots'], ['--configuration', '--slots'], ['--signals', '--physical'], ['--field', '--plain'], ['--lint', '--explain'], ['--field', '--slots', '--signals'],
	['--field', '--lint', '--where', '--explain', '--physical', '--frames', '--slots', '--signals']];
const LOGS = ['log', 'named', 'csv', 'jsonl', 'pcap', 'vcd', 'html'];
// The runs of each LDF of examples/.
const RUNS = {
	built_in: ['first', 'lost', 'wake'], keys: ['keys'], lights: ['collision'], lin_1_3: ['rain'],
	door_zone: ['round', 'window', 'diagnostics', 'panel', 'session'],
};

function* casesOfExamples() {
	const names = fs.readdirSync(examples), read = name => fs.readFileSync(`${examples}/${name}`);
	const one = (words, names, input) => ({name: words.join(' '), words, input, files: Object.fromEntries(names.map(it => [it, read(it)]))});
	for (const ldf of names.filter(it => it.endsWith('.ldf'))) {
		for (const more of CHECKS) yield one(['check', ldf, ...more], [ldf]);
		yield one(['diff', 'lights.ldf', ldf, '--field'], ['lights.ldf', ldf]);
	}
	for (const [cluster, runs] of Object.entries(RUNS)) {
		const ldf = `${cluster}.ldf`;
		for (const script of runs.flatMap(it => [`${it}.bench`, `${it}.script`, `${it}.log`]).filter(it => names.includes(it))) {
			for (const to of [...LOGS, 'junit']) for (const more of [[], ALL]) yield one(['play', ldf, script, '--to', to, ...more], [ldf, script]);
			if (!script.endsWith('.bench')) for (const to of LOGS) yield one(['replay', ldf, '--to', to], [ldf], read(script));
			for (const more of [[], ['--physical']]) yield one(['live', ldf, '--to', 'named', ...more], [ldf], read(script));
		}
	}
}

function* casesOfTests() {
	const tests = `${top}/tests`;
	for (const group of fs.readdirSync(tests).filter(it => fs.statSync(`${tests}/${it}`).isDirectory())) for (const it of fs.readdirSync(`${tests}/${group}`)) {
		const at = `${tests}/${group}/${it}`, has = name => fs.existsSync(`${at}/${name}`);
		if (!has('args') || has('command') || has('device') || has('needs')) continue;
		const words = fs.readFileSync(`${at}/args`, 'utf8').split('\n').slice(0, -1), files = {};
		if (words[0] === 'run') continue;
		for (const word of words) {
			const found = [`${at}/data`, `${tests}/clusters`].map(it => `${it}/${word}`).find(it => fs.existsSync(it) && fs.statSync(it).isFile());
			if (found) files[word] = fs.readFileSync(found);
		}
		const input = has('input.sh') ? spawnSync('sh', [`${at}/input.sh`], {maxBuffer: ROOM}).stdout : has('stdin') ? fs.readFileSync(`${at}/stdin`) : Buffer.alloc(0);
		if (input.length < MOST_BYTES) yield {name: `${group}/${it}`, words, files, input};
	}
}

const hash = bytes => crypto.createHash('sha256').update(bytes).digest('hex');
const room = fs.mkdtempSync(path.join(os.tmpdir(), 'linsim-cases-'));
function wanted({words, files, input}) {
	for (const [name, bytes] of Object.entries(files)) fs.writeFileSync(`${room}/${name}`, bytes);
	const it = spawnSync(native, words, {cwd: room, input: input || '', maxBuffer: ROOM});
	for (const name of Object.keys(files)) fs.rmSync(`${room}/${name}`);
	return {status: it.status, out: hash(it.stdout), err: hash(it.stderr)};
}

// In the page: what the program writes, as hashes.
const IN_PAGE = `async (words, files) => {
	const bytes = text => Uint8Array.from(atob(text), it => it.charCodeAt(0));
	const hash = async it => [...new Uint8Array(await crypto.subtle.digest('SHA-256', it))].map(it => it.toString(16).padStart(2, '0')).join('');
	const made = await run(words, Object.fromEntries(Object.entries(files).map(([name, text]) => [name, bytes(text)])));
	return made.failed ? made : {status: made.status, out: await hash(made.out), err: await hash(made.err)};
}`;
const page = await open(pathToFileURL(html).href);
async function got({words, files, input}) {
	const given = Object.fromEntries(Object.entries({...files, '-': input || Buffer.alloc(0)}).map(([name, bytes]) => [name, bytes.toString('base64')]));
	return page.eval(`(${IN_PAGE})(${JSON.stringify(words)}, ${JSON.stringify(given)})`);
}

await page.until('window.ready && !isBusy()');
let passed = 0, failed = 0;
for (const it of [...casesOfExamples(), ...casesOfTests()]) {
	const [native, here] = [wanted(it), await got(it)];
	if (['status', 'out', 'err'].every(part => native[part] === here[part])) passed++;
	else {
		failed++;
		console.log(`failed: ${it.name}: ${here.failed || `status ${here.status}, and ${native.status} natively`}`);
	}
}
await page.close();
fs.rmSync(room, {recursive: true});
console.log(`cases: ${passed} passed, ${failed} failed`);
process.exit(failed ? 1 : 0);
