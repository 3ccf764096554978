// in_jsdom.js ANGULAR JOB: the workload of a file on AngularJS in jsdom, by the processor time of this process; prints what rounds gives.
const fs = require('fs');
const { JSDOM } = require('jsdom');
const rounds = require('./rounds.js');

const [angular, file] = process.argv.slice(2);
const job = JSON.parse(fs.readFileSync(file, 'utf8'));
const { window } = new JSDOM('<!DOCTYPE html><body></body>', { runScripts: 'outside-only' });
window.eval(fs.readFileSync(angular, 'utf8'));
window.eval(fs.readFileSync(require.resolve('./workload.js'), 'utf8'));
window.job = job;
window.eval('var page = workload(angular, document, job)');

function clock() {
  const { user, system } = process.cpuUsage();
  return (user + system) / 1000;
}

rounds(job, (name) => window.eval(`page.${name}()`), clock).then((told) => console.log(JSON.stringify(told)));
