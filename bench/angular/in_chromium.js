// in_chromium.js ANGULAR JOB FOLDER: the workload of a file on AngularJS in headless Chromium, whose profile lies in a folder, by the processor
// time of the page's own thread, which the browser tells through its debugging port; prints what rounds gives.
const fs = require('fs');
const { spawn } = require('child_process');
const WebSocket = require('ws');
const rounds = require('./rounds.js');

const [angular, file, folder] = process.argv.slice(2);
const job = JSON.parse(fs.readFileSync(file, 'utf8'));
const words = ['--headless=new', '--no-sandbox', '--disable-gpu', '--remote-debugging-port=0', `--user-data-dir=${folder}`, 'about:blank'];
const browser = spawn('chromium', words, { stdio: 'ignore' });
const pause = (time) => new Promise((done) => setTimeout(done, time));

// The address of the page, once the browser has one.
async function address() {
  for (;;) {
    try {
      const port = fs.readFileSync(`${folder}/DevToolsActivePort`, 'utf8').split('\n')[0];
      const pages = await (await fetch(`http://127.0.0.1:${port}/json/list`)).json();
      const page = pages.find((one) => one.type === 'page');
      if (page) return page.webSocketDebuggerUrl;
    } catch (none) { /* the browser has not begun yet */ }
    await pause(100);
  }
}

async function main() {
  const socket = new WebSocket(await address(), { perMessageDeflate: false, maxPayload: 2 ** 30 });
  await new Promise((done) => socket.once('open', done));
  const waits = new Map();
  socket.on('message', (text) => {
    const { id, result } = JSON.parse(text);
    if (waits.has(id)) waits.get(id)(result);
  });
  let last = 0;
  const ask = (method, params = {}) => new Promise((done) => {
    waits.set(++last, done);
    socket.send(JSON.stringify({ id: last, method, params }));
  });
  async function evaluate(expression) {
    const { result, exceptionDetails } = await ask('Runtime.evaluate', { expression, returnByValue: true });
    if (exceptionDetails) throw new Error(JSON.stringify(exceptionDetails));
    return result.value;
  }
  await ask('Performance.enable');
  async function clock() {
    const { metrics } = await ask('Performance.getMetrics');
    return 1000 * metrics.find((one) => one.name === 'ThreadTime').value;
  }
  await evaluate(fs.readFileSync(angular, 'utf8') + ';0');
  await evaluate(fs.readFileSync(require.resolve('./workload.js'), 'utf8') + `;var page = workload(angular, document, ${JSON.stringify(job)}); 0`);
  console.log(JSON.stringify(await rounds(job, (name) => evaluate(`page.${name}()`), clock)));
}

main().catch((fault) => { console.error(fault); process.exitCode = 1; }).finally(() => {
  browser.once('exit', () => process.exit());
  browser.kill();
});
