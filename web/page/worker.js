// What the program does for the page, in a worker or in the page: {words, files} runs it, {session: words, files} opens a
// session, and {lines} answers lines in the open one, which `keeper` keeps.
function worked(keeper, module, {words, files, session, lines}) {
	if (lines) return keeper.session.session(lines);
	if (!session) return new Linsim(module, words, files).run();
	keeper.session = new Linsim(module, session, files);
	return keeper.session.session();
}
function failure(error) {
	const text = String(error && error.message || error);
	return error instanceof RangeError ? `the browser refused memory: ${text}` : `internal error: ${text}`;
}
