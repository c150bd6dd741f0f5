// Elements of the page. Text only ever becomes text nodes and attributes, so nothing of an LDF, a script or an answer can
// become markup.
'use strict';
const byId = id => document.getElementById(id);

// node('a', {class: 'link', onclick: work, 'data-name': name}, 'text', child): an element with attributes and children.
function node(tag, attributes, ...children) {
	const it = document.createElement(tag);
	for (const [name, value] of Object.entries(attributes || {})) {
		if (value === undefined || value === null || value === false) continue;
		if (name.startsWith('on')) it.addEventListener(name.slice(2), value);
		else if (name in it && typeof value === 'boolean') it[name] = value;
		else it.setAttribute(name, value);
	}
	it.append(...children.flat(Infinity).filter(child => child !== null && child !== undefined && child !== ''));
	return it;
}
const cell = (...children) => node('td', null, ...children);
const number = (...children) => node('td', {class: 'r'}, ...children);

// A table with these headings; one that begins with '>' is of a column of numbers. `rows` are lists of cells.
function table(headings, rows) {
	const heading = text => node('th', {class: text.startsWith('>') && 'r', scope: 'col'}, text.replace(/^>/, ''));
	return node('table', null, node('thead', null, node('tr', null, headings.map(heading))),
		node('tbody', null, rows.map(row => node('tr', null, row))));
}
const plural = (count, word) => `${count.toLocaleString('en')} ${word}${count === 1 ? '' : 's'}`;

const encoder = new TextEncoder(), decoder = new TextDecoder();
const encoded = text => encoder.encode(text), decoded = bytes => decoder.decode(bytes);
