// What a page script would do with a trace of pushes: parse each line, write it again, and assign it to a model.
const model = {};
let out = '', events = 0;
for (const line of require('fs').readFileSync(process.argv[2], 'utf8').split('\n').filter(Boolean)) {
  const push = JSON.parse(line).push;
  out += 'message ' + JSON.stringify(push) + '\n';
  if (typeof push.event === 'string') out += `event ${++events} ${JSON.stringify(push.event)}\n`;
  Object.assign(model, push);
}
require('fs').writeSync(1, out + 'model ' + JSON.stringify(model) + '\n');
