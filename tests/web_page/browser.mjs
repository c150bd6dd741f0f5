// Chromium, driven through its pipe: const page = await open('file:///..'); await page.eval('1 + 1'); await page.shot('a.png')
// The browser is $CHROMIUM, or chromium.
import {spawn} from 'node:child_process';
import fs from 'node:fs';
import os from 'node:os';
import path from 'node:path';

const FLAGS = ['--headless=new', '--no-sandbox', '--disable-gpu', '--hide-scrollbars', '--remote-debugging-pipe'];
const wait = ms => new Promise(then => setTimeout(then, ms));

// The messages of a browser: `send` gives the answer to a command, and `heard` has the events.
function connection(browser) {
	const waiting = new Map(), heard = [], listeners = [];
	let text = '', next = 1;
	browser.stdio[4].on('data', piece => {
		text += piece.toString('utf8');
		for (let at; (at = text.indexOf('\0')) >= 0; text = text.slice(at + 1)) receive(JSON.parse(text.slice(0, at)));
	});
	function receive(message) {
		if (!message.id) {
			heard.push(message);
			for (const listener of listeners) listener(message);
			return;
		}
		const {then, fail} = waiting.get(message.id);
		waiting.delete(message.id);
		if (message.error) fail(new Error(JSON.stringify(message.error))); else then(message.result);
	}
	function send(method, params = {}, sessionId) {
		return new Promise((then, fail) => {
			waiting.set(next, {then, fail});
			browser.stdio[3].write(JSON.stringify({id: next++, method, params, sessionId}) + '\0');
		});
	}
	return {send, heard, listeners};
}

function isProblem({method, params}) {
	return method === 'Runtime.exceptionThrown' || method === 'Log.entryAdded' && params.entry.level === 'error'
		|| method === 'Runtime.consoleAPICalled' && params.type === 'error';
}

export async function open(url, {width = 1440, height = 860, dark = false, args = []} = {}) {
	const home = fs.mkdtempSync(path.join(os.tmpdir(), 'linsim-browser-'));
	const words = [...FLAGS, `--user-data-dir=${home}`, `--window-size=${width},${height}`, ...args, 'about:blank'];
	const stdio = ['ignore', 'ignore', 'ignore', 'pipe', 'pipe'];
	const browser = spawn(process.env.CHROMIUM || 'chromium', words, {stdio});
	const {send, heard, listeners} = connection(browser);
	const {targetInfos} = await send('Target.getTargets'), {targetId} = targetInfos.find(it => it.type === 'page');
	const {sessionId} = await send('Target.attachToTarget', {targetId, flatten: true});
	const call = (method, params) => send(method, params, sessionId);
	const features = [{name: 'prefers-color-scheme', value: dark ? 'dark' : 'light'}];
	for (const part of ['Page', 'Runtime', 'Log', 'Network']) await call(`${part}.enable`);
	await call('Emulation.setDeviceMetricsOverride', {width, height, deviceScaleFactor: 1, mobile: false});
	await call('Emulation.setEmulatedMedia', {features});
	// frames and workers of their own processes are heard, too
	listeners.push(({method, params}) => {
		if (method !== 'Target.attachedToTarget') return;
		for (const it of ['Runtime.enable', 'Log.enable', 'Runtime.runIfWaitingForDebugger']) send(it, {}, params.sessionId).catch(() => {});
	});
	await call('Target.setAutoAttach', {autoAttach: true, waitForDebuggerOnStart: true, flatten: true});
	await call('Page.navigate', {url});

	async function evaluated(expression, session) {
		const it = await send('Runtime.evaluate', {expression, awaitPromise: true, returnByValue: true, userGesture: true}, session);
		if (it.exceptionDetails) throw new Error(it.exceptionDetails.exception?.description || it.exceptionDetails.text);
		return it.result.value;
	}
	return {
		call, wait,
		eval: expression => evaluated(expression, sessionId),
		// in the newest frame of a process of its own
		inFrame: expression => evaluated(expression, heard.filter(it => it.method === 'Target.attachedToTarget'
			&& it.params.targetInfo.type === 'iframe').pop().params.sessionId),
		async until(expression, ms = 120000) {
			for (const end = Date.now() + ms; ; await wait(20)) {
				if (await evaluated(expression, sessionId).catch(() => false)) return;
				if (Date.now() > end) throw new Error(`never: ${expression}`);
			}
		},
		async go(to) {
			await call('Page.navigate', {url: 'about:blank'});
			await call('Page.navigate', {url: to});
		},
		async shot(to) { fs.writeFileSync(to, Buffer.from((await call('Page.captureScreenshot', {format: 'png'})).data, 'base64')); },
		async key(key, {code = key, text, ctrl, shift, alt, vk} = {}) {
			const modifiers = (alt ? 1 : 0) + (ctrl ? 2 : 0) + (shift ? 8 : 0), it = {key, code, modifiers, windowsVirtualKeyCode: vk, text};
			await call('Input.dispatchKeyEvent', {type: text ? 'keyDown' : 'rawKeyDown', ...it});
			await call('Input.dispatchKeyEvent', {type: 'keyUp', ...it});
		},
		type: text => call('Input.insertText', {text}),
		async drop(files, x = 300, y = 300) {
			const data = {items: [], files, dragOperationsMask: 1};
			for (const type of ['dragEnter', 'dragOver', 'drop']) await call('Input.dispatchDragEvent', {type, x, y, data});
		},
		problems: () => heard.filter(isProblem).map(it => JSON.stringify(it.params).slice(0, 600)),
		requests: () => heard.filter(it => it.method === 'Network.requestWillBeSent').map(it => it.params.request.url.slice(0, 60)),
		async close() {
			await send('Browser.close').catch(() => {});
			await new Promise(then => browser.exitCode === null ? browser.once('exit', then) : then());
			fs.rmSync(home, {recursive: true, force: true, maxRetries: 5});
		},
	};
}
