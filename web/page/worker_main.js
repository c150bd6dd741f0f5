let linsimModule = null;
const keeper = {};
onmessage = ({data}) => {
	if (data.module) { linsimModule = data.module; return; }
	const began = performance.now();
	try {
		const {status, out, err} = worked(keeper, linsimModule, data);
		postMessage({id: data.id, status, out, err, ms: performance.now() - began}, [out.buffer, err.buffer]);
	} catch (error) {
		postMessage({id: data.id, failed: failure(error), ms: performance.now() - began});
	}
};
