// Draws the pictures of README and of the examples: node pictures.mjs REPOSITORY PAGE.html
//
// - examples/page.png: the page with a failed expectation, whose slot is selected; without the time that the play took
// - examples/window.png: the picture of a run
//
// The program of PAGE.html isn't proved, which the page says.
import path from 'node:path';
import {pathToFileURL} from 'node:url';
import {open} from './browser.mjs';

const [top, html] = process.argv.slice(2).map(it => path.resolve(it)), MINUTES = 10 * 60 * 1000;
const address = it => pathToFileURL(it).href;

const page = await open(address(html), {width: 1400, height: 860});
const settle = () => page.until('window.ready && !isBusy() && !bench.program?.isBusy && byId("state").textContent', MINUTES);
await settle();
await page.eval('editors.bench.value = editors.bench.value.replace("expect signal DCU WinPos 40", "expect signal DCU WinPos = 25 +- 2 %"); later(0)');
await settle();
await page.eval('document.querySelector("#list button").click()');
for (let line = ''; !line.startsWith('#7 '); await page.wait(100)) line = await page.inFrame('document.getElementById("line").textContent').catch(() => '');
await page.eval('document.querySelector("#state small").remove()');
await page.wait(500);
await page.shot(`${top}/examples/page.png`);
await page.close();

const run = await open(address(`${top}/examples/window.html`), {width: 1400, height: 880});
await run.until('document.getElementById("line").textContent', MINUTES);
await run.wait(500);
await run.shot(`${top}/examples/window.png`);
await run.close();
