// Uses the page in Chromium: node page.mjs REPOSITORY PAGE.html PROGRAM
//
// For each failure the lines that say it are printed; the last line is `page: N passed, M failed`.
import {spawnSync} from 'node:child_process';
import fs from 'node:fs';
import os from 'node:os';
import path from 'node:path';
import {pathToFileURL} from 'node:url';
import {open} from './browser.mjs';

const [top, html, native] = process.argv.slice(2).map(it => path.resolve(it)), examples = `${top}/examples`, address = pathToFileURL(html).href;
const room = fs.mkdtempSync(path.join(os.tmpdir(), 'linsim-page-'));
const VIEWS = ['cluster', 'frames', 'signals', 'named', 'csv', 'jsonl', 'console', 'panel', 'picture'];
let passed = 0, failed = 0, page = await open(address);
function is(what, got, wanted) {
	if (JSON.stringify(got) === JSON.stringify(wanted)) { passed++; return; }
	failed++;
	console.log(`failed: ${what}\n  wanted: ${JSON.stringify(wanted)}\n  got:    ${JSON.stringify(got)}`);
}
const settle = async (ms = 240000) => { await page.until('window.ready && !isBusy() && !bench.program?.isBusy && byId("state").textContent && byId("stop").hidden', ms); await page.wait(60); };
const state = async () => (await page.eval('byId("state").textContent')).replace(/ \d[\d.]* ms$/, '');
const marks = what => page.eval(`editors.${what}.marks.map(it => [it.line, editors.${what}.lines[it.line - 1].slice(it.from, it.to), it.kind, it.head])`);
const caret = (what, at) => page.eval(`(() => { const a = editors.${what}.area, at = ${at}; a.focus(); a.setSelectionRange(at, at); })()`);
const typed = async (what, text) => { await page.eval(`pick("${what}")`); await caret(what, `editors.${what}.value.length`); await page.type(text); await settle(); };
const put = async (what, text) => { await page.eval(`(() => { editors.${what}.value = ${JSON.stringify(text)}; later(0); })()`); await settle(); };
const begin = async k => { await page.eval(`example(${k})`); await settle(); };
const view = async name => { await page.eval(`byId("v-${name}").click()`); await settle(); };
const dropped = async (...names) => { await page.drop(names.map(it => it.startsWith('/') ? it : `${room}/${it}`)); await page.wait(100); await settle(); };
// What the picture says below it of its slot, once it begins so.
async function slotShown(wanted) {
	let line = '';
	for (const end = Date.now() + 120000; Date.now() < end && !line.startsWith(wanted);) { await page.wait(30); line = await page.inFrame('document.getElementById("line").textContent').catch(() => ''); }
	return line.slice(0, wanted.length);
}
const write = (name, bytes) => fs.writeFileSync(`${room}/${name}`, bytes);

// ---- the first example, and what is marked
await settle();
is('the first example is played', await state(), '12 of 12 expectations met');
is('met expectations are ticked', await page.eval('[...editors.bench.icons.values()].filter(it => it === "met").length'), 12);
is('the version', await page.eval('byId("version").textContent'), spawnSync(native, ['--version']).stdout.toString().trim());
const ldf = fs.readFileSync(`${examples}/door_zone.ldf`, 'utf8');
await page.eval('pick("ldf")');
await caret('ldf', ldf.indexOf('WinPos, 0') + 6);
await page.type('s');
await settle();
is('an unknown name is marked', await marks('ldf'), [[43, 'WinPoss', 'error', 'UnknownName: WinPoss']]);
is('and explained', await page.eval('editors.ldf.marks[0].text.length >= 3 && document.querySelectorAll("#list p").length >= 3'), true);
is('the last picture is kept', await page.eval('[document.querySelectorAll("iframe").length, byId("note").hidden]'), [1, false]);
await page.eval('document.querySelector("#list .fix").click()');
await settle();
is('a similar name is a click', [await marks('ldf'), await page.eval('editors.ldf.value') === ldf], [[], true]);
await page.eval('document.execCommand("undo")');
await settle();
is('which can be undone', (await marks('ldf')).length, 1);
await page.eval('document.execCommand("undo")');
await settle();
is('as the typing can', [await page.eval('editors.ldf.value') === ldf, await state()], [true, '12 of 12 expectations met']);
await put('ldf', ldf.replaceAll('Mirror', 'Miror').replace('Miror', 'Mirror').replaceAll('MirorX', 'MirrorX'));
is('each mark has an explanation', await page.eval('editors.ldf.marks.length > 4 && editors.ldf.marks.every(it => it.text.length > 0)'), true);

await begin(0);
await typed('bench', 'wrte x\nexpect signal DCU WinTmp 1\n');
is('bad lines are marked', (await marks('bench')).map(it => it.slice(0, 3)), [[33, 'wrte', 'error'], [34, 'WinTmp', 'error']]);
is('similar words are offered', await page.eval('editors.bench.marks.map(it => it.fixes[0])'), ['write', 'WinTemp']);
await begin(0);
await typed('bench', 'expect signal DCU WinState = stoped\nwrite WinTemp 20 degC\n');
is('a value that no raw value has is marked', (await marks('bench')).map(it => it.slice(0, 3)), [[33, 'stoped', 'error'], [34, '20 degC', 'error']]);
is('its texts are offered, or =', await page.eval('editors.bench.marks.map(it => it.fixes[0])'), ['stopped', '= 20 degC']);
await begin(0);
await typed('bench', 'wrte x\nexpect signal DCU WinTmp 1\n');
is('the script is played up to the first bad line', await page.eval('[lastRun.upTo, lastRun.plays, lastRun.judgements.length]'), [33, true, 12]);
is('which is said', [await state(), await page.eval('byId("note").hidden')], ['2 bad lines; played up to line 33', false]);
await begin(0);
await typed('bench', 'repeat 2\nslot\nexpect seen good\nwrte x\nend\n');
is('in a block, too', [await page.eval('[lastRun.upTo, lastRun.plays]'), await state()], [[36, true], '1 bad line; played up to line 36']);
await put('bench', 'slots 4\ninclude begin.bench\nexpect seen good\n');
is('a line that includes a file is marked', await marks('bench'), [[2, 'include begin.bench', 'error', 'begin.bench: read failed; the page can’t include files']]);
await put('bench', 'test A\nslots 4\nexpect seen good\nexpect asleep\nset $state asleep\n\ntest B\nrepeat 2\nexpect awake\nend\n');
is('a name that is none is marked, and what failed before it', (await marks('bench')).map(it => it.slice(0, 3)), [[4, 'expect asleep', 'missed'], [5, 'state', 'error']]);
await put('bench', 'test A\nslots 4\nexpect seen good\nexpect asleep\nset state awake\n\ntest B\nrepeat 2\nexpect $state\nend\n');
is('checks of tests and of blocks are counted', await state(), '1 of 4 expectations failed');
is('and marked', await page.eval('[...editors.bench.icons]'), [[3, 'met'], [9, 'met'], [4, 'missed']]);
await page.eval('showSlotOf(9)');
await settle();
is('a line of a block leads to its slot', await slotShown('#3'), '#3');
await view('cluster');
await begin(0);
await typed('bench', 'expect signal DCU WinPos 41\n');
is('a failed expectation is marked', (await marks('bench')).map(it => it.slice(0, 3)), [[33, 'expect signal DCU WinPos 41', 'missed']]);
is('and counted', await state(), '1 of 13 expectations failed');
await page.key('F8', {vk: 119});
await page.eval('document.querySelector("#list button").click()');
is('it leads to its slot', await slotShown('#14'), '#14');
await page.eval('showSlotOf(9)');
await settle();
is('so does one that is met', await slotShown('#7'), '#7');
is('of pictures that follow quickly only the last is drawn', await page.eval('(() => { for (const name of ["a", "b", "c"]) picture.show(`<p id="line">${name}</p>`); return document.querySelectorAll("iframe").length; })()'), 2);
is('in the place of the old one', [await slotShown('c'), await page.eval('document.querySelectorAll("iframe").length')], ['c', 1]);
await caret('bench', 'editors.bench.value.length');
await page.type('write WinState = ');
await page.wait(60);
is('the texts of a value are offered', await page.eval('[...document.querySelectorAll("#bench .suggestions li")].map(it => it.textContent)'), ['stopped', 'opening', 'closing', 'pinched']);
await page.key('ArrowDown', {vk: 40});
await page.key('Enter', {vk: 13});
await page.type('\nslots 4\nexpect signal DCU WinState = opening\n');
await settle();
is('and taken by keys', await state(), '1 of 14 expectations failed');

// ---- the views
for (const name of VIEWS) {
	await view(name);
	is(`the view ${name}`, await page.eval('byId("view").textContent.length + document.querySelectorAll("#view textarea, #view iframe").length > 0 && !document.querySelector("#view .empty")'), true);
}
await view('frames');
await page.eval('document.querySelector("#view [data-name=WinTarget]").click()');
is('a name leads to its declaration', await page.eval('editors.ldf.caret().line + ":" + editors.ldf.area.value.slice(editors.ldf.area.selectionStart, editors.ldf.area.selectionEnd)'), '17:WinTarget');

// ---- the console and the panel
await begin(0);
await view('console');
const say = async line => { await page.eval(`(() => { const it = document.querySelector("#view .line input"); it.value = ${JSON.stringify(line)}; it.form.requestSubmit(); })()`); await settle(); };
const last = () => page.eval('bench.answers[bench.answers.length - 1].last');
for (const line of ['write WinPos = 10 %', 'slots 2', '? signal DCU WinPos']) await say(line);
is('the console answers', await last(), 'is 20 10 %');
await say('wrte');
is('also a bad line', (await last()).slice(0, 8), 'bad line');
const native_live = spawnSync(native, ['live', 'door_zone.ldf', '--to', 'named', '--physical'], {cwd: examples, input: 'write WinPos = 10 %\nslots 2\n? signal DCU WinPos\nwrte\n'}).stdout.toString();
is('as the native program', await page.eval('bench.answers.map(it => [...it.entries, "# " + it.last].join("\\n") + "\\n").join("")'), native_live);
await page.eval('document.querySelectorAll("#view .line button")[1].click()');
await settle();
is('a line is taken back', await page.eval('[bench.lines.length, bench.answers.length]'), [3, 3]);
await view('panel');
is('the panel has each signal', await page.eval('document.querySelectorAll("#view fieldset tr").length > 14'), true);
is('it shows the values', await page.eval('document.querySelector("input[aria-label=WinPos]").value'), '20');
await page.eval('(() => { const it = document.querySelector("input[aria-label=WinPos]"); it.value = 40; it.dispatchEvent(new Event("change")); })()');
await settle();
await page.eval('(() => { const it = document.querySelectorAll("#view fieldset input[type=checkbox]")[3]; it.click(); for (const k of [1, 2, 3, 4]) document.querySelector("#view .controls button").click(); })()');
await settle();
is('a slider writes, and a slot is made', await page.eval('bench.lines.slice(-5)'), ['write WinMot WinPos 40', ...Array(4).fill('slot leave Panel')]);
is('a node that is off leaves its response out', await page.eval('bench.answers.some(it => it.entries.includes("bus leave Panel"))'), true);
await page.eval('document.querySelector("#view form.controls button").click()');
await settle();
is('a message is sent', await page.eval('bench.lines[bench.lines.length - 1]'), 'send DCU WinMot 22F190');
await page.eval('document.querySelectorAll("#view .controls button")[1].click()');
await page.until('bench.lines.length > 14');
await page.eval('document.querySelectorAll("#view .controls button")[1].click()');
await settle();
const script = await page.eval('bench.script()');
await page.eval('toScript()');
await settle();
is('its lines are a bench script', [await page.eval('editors.bench.value.endsWith(' + JSON.stringify(script) + ')'), /bad line/.test(await state()), script.includes('?')], [true, false, false]);

// ---- what is printed: a head, and a log with all its lines
await begin(0);
await view('named');
const named = spawnSync(native, ['play', 'door_zone.ldf', 'window.bench', '--field', '--physical', '--to', 'named'], {cwd: examples}).stdout.toString();
await page.eval('dispatchEvent(new Event("beforeprint"))');
is('what is printed', await page.eval('[byId("printed").textContent, document.querySelector(".whole").textContent]'), [`door_zone.ldf · window.bench · ${await page.eval('byId("version").textContent')}`, named]);
await page.eval('dispatchEvent(new Event("afterprint"))');
is('is only printed', await page.eval('document.querySelectorAll(".whole").length'), 0);

// ---- what is saved is what the native program writes
await page.eval('state.view = "picture"');
await begin(1);
await page.call('Browser.setDownloadBehavior', {behavior: 'allow', downloadPath: room}).catch(() => page.call('Page.setDownloadBehavior', {behavior: 'allow', downloadPath: room}));
async function saved(name) {
	for (let k = 0; k < 200 && !fs.existsSync(`${room}/${name}`); k++) await page.wait(30);
	await page.wait(60);
	return fs.existsSync(`${room}/${name}`) ? fs.readFileSync(`${room}/${name}`) : Buffer.from('nothing');
}
for (const [to, end] of [['log', 'log'], ['named', 'named'], ['csv', 'csv'], ['jsonl', 'jsonl'], ['pcap', 'pcap'], ['vcd', 'vcd'], ['html', 'html'], ['junit', 'xml']]) {
	await page.eval(`save("${to}")`);
	const wanted = spawnSync(native, ['play', 'door_zone.ldf', 'session.bench', '--field', '--physical', '--to', to], {cwd: examples, maxBuffer: 1 << 28}).stdout;
	is(`saved: ${to}`, Buffer.compare(await saved(`door_zone.${end}`), wanted), 0);
}

// ---- files
write('alt.ldf', Buffer.from(fs.readFileSync(`${examples}/lights.ldf`, 'latin1').replace(/^/, '// T\xfcr\n').replace('level: 4, 2, cem', '/* \xe4\xf6\xfc */ level: 4, 2, cme').replace(/\n/g, '\r\n'), 'latin1'));
await dropped('alt.ldf');
is('a dropped LDF', await page.eval('[state.ldf.name, state.ldf.isLatin, state.bench.name, state.text]'), ['alt.ldf', true, 'alt.bench', 'ldf']);
is('columns are bytes of Latin-1', await marks('ldf'), [[8, 'cme', 'error', 'UnknownName: cme']]);
await page.eval('byId("back").click()');
await settle();
is('what was replaced comes back', await page.eval('[state.ldf.name, state.bench.name]'), ['door_zone.ldf', 'session.bench']);
fs.copyFileSync(`${examples}/lin_1_3.ldf`, `${room}/a b(1).ldf`);
await dropped('a b(1).ldf');
is('an LDF gets a first script', [await page.eval('editors.bench.value.split("\\n")[1].slice(0, 6)'), await state()], ['switch', (await state()).replace(/^.*?met/, '1 of 1 expectation met')]);
await dropped(`${examples}/keys.ldf`, `${examples}/keys.script`);
is('two files', await page.eval('[state.ldf.name, state.bench.name]'), ['keys.ldf', 'keys.script']);

// ---- bad input: a clear line, and the texts stay
write('wide.ldf', Buffer.concat([Buffer.from([0xff, 0xfe]), Buffer.from(ldf, 'utf16le')]));
await dropped('wide.ldf');
is('UTF-16 is read', [await page.eval('editors.ldf.value') === ldf, await page.eval('byId("note").textContent')], [true, 'wide.ldf is UTF-16, and is saved as UTF-8']);
write('picture.ldf', Buffer.from([0x89, 0x50, 0, 0, 1, 2, 3]));
await dropped('picture.ldf');
is('binary bytes are refused', [await page.eval('editors.ldf.value') === ldf, await state()], [true, 'picture.ldf isn\'t opened: it isn\'t a text: it has bytes of 0']);
await begin(0);
write('long.ldf', ldf + '// a comment of some words\n'.repeat(200000));
await dropped('long.ldf');
is('an LDF of 5 MB', [(await marks('ldf')).map(it => it[3]), await page.eval('editors.ldf.value.length > 5e6')], [['long.ldf: ldf too long'], true]);
await put('ldf', ldf);
await put('bench', 'slots 1000000\nexpect seen good\n');
is('a run of 1,000,000 slots', await state(), '1 of 1 expectation met');
await page.eval('(() => { editors.bench.value = "slots 1000000\\nforget\\n"; later(0); })()');
await page.until('!byId("stop").hidden');
await page.eval('byId("stop").click()');
is('is stopped', [await state(), await page.eval('editors.bench.value.length > 0')], ['stopped; the next change runs it again', true]);
await put('bench', 'slots 8\nexpect seen good\n');
is('and another one played', await state(), '1 of 1 expectation met');
await put('bench', 'slots 1000001\n');
is('more slots than there may be', (await marks('bench')).map(it => it.slice(0, 3)), [[1, '1000001', 'error']]);
await put('bench', '\u0000\u0001\ud800 \n'.repeat(3));
is('a script of other bytes', (await marks('bench')).length > 0, true);

// ---- hostile names in every place: nothing becomes script or markup
const EVIL = '<img src=x onerror=hacked=1>', END = '</script><script>hacked=1</script>', evil = ldf
	.replace('LIN_speed', `Channel_name = "${EVIL}"; LIN_speed`).replace(/"(stopped|opening|closing)"/g, (_, it) => `"${it}${EVIL}"`)
	.replace(/"%"/g, `"${END}"`).replace(/"degC"/g, `"${EVIL}"`);
is('the hostile LDF has them', [evil.includes(`"opening${EVIL}"`), evil.includes(`"${END}"`)], [true, true]);
await begin(0);
write(`evil${EVIL.replace('/', '')}.ldf`, `// ${EVIL}${END}\n${evil}`);
write(`evil&quot;'${EVIL}.bench`, `# ${END}${EVIL}\nwrite WinState = opening${EVIL}\nslots 8\nexpect signal DCU WinState = closing${EVIL}\nexpect signal DCU WinPos = 99 ${END}\n`);
await dropped(`evil${EVIL.replace('/', '')}.ldf`, `evil&quot;'${EVIL}.bench`);
const clean = async where => is(`nothing of it is markup: ${where}`, await page.eval('[typeof hacked, document.querySelectorAll("img, main script").length]'), ['undefined', 0]);
is('it is played', [/failed|met/.test(await state()), await page.eval('lastRun.plays')], [true, true]);
for (const name of VIEWS) { await view(name); await clean(name); }
await page.wait(300);
is('nor in the picture', await page.inFrame('[typeof hacked, document.images.length]'), ['undefined', 0]);
await view('console');
for (const line of [`write WinState = ${EVIL}`, `write ${EVIL}${END}`, '? signal DCU WinState']) await say(line);
await clean('console, answered');
for (const text of [`${EVIL}${END}`, `wrte ${EVIL}`, `expect ${END}`, `write ${EVIL} 1`, `when ${END} * silent`]) { await put('bench', text); await clean(`script ${text}`); }
for (const text of [EVIL, evil.replace('Nodes {', `Nodes { ${EVIL}`), evil.replace('WinPos:', `"${EVIL}":`), `LIN_description_file; ${END}`]) { await put('ldf', text); await clean(`LDF ${text.slice(0, 40)}`); }
await page.eval(`restore({ldf: {name: '${EVIL}', text: '${EVIL}'}, bench: {name: '${EVIL}', text: ''}, view: '${EVIL}', text: '${EVIL}', table: '${EVIL}', left: '${EVIL}'}); later(0)`);
await settle();
await clean('a restored state');
is('a script that isn\'t the page\'s own never runs', await page.eval('(() => { const it = document.createElement("script"); it.textContent = "window.hacked = 1"; document.body.append(it); it.remove(); return typeof hacked; })()'), 'undefined');
const refused = page.problems().filter(it => /Content Security Policy/.test(it)).length;
is('since the policy forbids it', refused, 1);

// ---- an address that has both texts; the texts of the last visit
await begin(0);
await put('bench', 'slots 4\n# Gr\u00fc\u00dfe \ud83d\ude00\n');
await page.eval('byId("link").click()');
await page.wait(400);
const url = await page.eval('location.href'), text = await page.eval('editors.bench.value');
await page.eval('removeEventListener("pagehide", keepNow); clearTimeout(keeps); localStorage.clear()');
await page.go(url);
await settle();
is('an address has the texts', await page.eval('editors.bench.value'), text);
await begin(3);
await page.wait(600);
await page.go(address);
await settle();
is('the texts of the last visit', await page.eval('state.bench.name'), 'collision.bench');
await page.go(`${address}#s=nonsense`);
await settle();
is('an address of nonsense', await page.eval('state.bench.name'), 'collision.bench');
await page.eval('byId("forget").click()');
await page.wait(600);
is('the stored texts are deleted', await page.eval('localStorage.length'), 0);
is('nothing is asked of a network', page.requests().filter(it => !/^(file|blob|about|data):/.test(it)), []);
is('nothing else goes wrong', page.problems().filter(it => !/Content Security Policy/.test(it)), []);
await page.close();

// ---- browsers that lack something
async function openWithout(source) {
	page = await open('about:blank');
	await page.call('Page.addScriptToEvaluateOnNewDocument', {source});
	await page.go(address);
}
await openWithout('delete window.WebAssembly');
await page.until('document.querySelector("#view .empty")');
is('without WebAssembly', [await state(), await page.eval('editors.ldf.value.length > 100')], ['WebAssembly is switched off in this browser', true]);
await page.close();
await openWithout('window.Worker = undefined');
await settle();
is('without workers', await state(), '12 of 12 expectations met');
await page.eval('program.here = () => ({failed: "the browser refused memory: out of memory", ms: 0}); later(0)');
await settle();
is('without memory', [await page.eval('editors.ldf.marks[0].head'), await page.eval('editors.ldf.value.length > 100')], ['the browser refused memory: out of memory', true]);
await page.close();

fs.rmSync(room, {recursive: true});
console.log(`page: ${passed} passed, ${failed} failed`);
process.exit(failed ? 1 : 0);
