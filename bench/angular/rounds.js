// The rounds of a job: what each phase takes by a clock of processor time, in milliseconds, the least of all rounds.
// A page is asked by its calls 'begin', 'open', 'run' and 'end'; call and clock may be asynchronous.
module.exports = async function rounds(job, call, clock) {
  const least = { opening: Infinity, step: Infinity, shown: '' };
  for (let round = 0; round < job.rounds; round++) {
    await call('begin');
    const start = await clock();
    await call('open');
    const opened = await clock();
    await call('run');
    const done = await clock();
    least.opening = Math.min(least.opening, opened - start);
    least.step = Math.min(least.step, (done - opened) / Math.max(1, job.commands.length));
    least.shown = await call('end');
  }
  return least;
};
