// Prints what the page's own script makes of each diagnostic slot: its number, name, identifier, whether it is a service's, and the
// message of which it has a frame.
import fs from 'fs';
const page = fs.readFileSync(process.argv[2], 'latin1'), model = page.split('<script>\n')[1].split('</script>')[0];
const data = page.split('<script type="text/plain" id="run">\n')[1].split('</script>')[0];
const run = new Function(model + '\nreturn readRun;')()(data);
for (const slot of run.slots) {
	const message = run.msgs.find(it => it.frames.includes(slot));
	console.log(slot.i, slot.name, slot.id, slot.service ? 'service' : message ? `message ${run.nodes[message.host].name} ${message.n}` : '-');
}
