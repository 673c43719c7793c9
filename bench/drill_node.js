// What node's in-process inspector takes for the drill of bench/drill.py: a script with a function that is called COUNT times,
// a breakpoint in it whose condition holds at each second call, a session that resumes each stop, and a session that listens to
// prints.
//
//     node bench/drill_node.js COUNT [here]
//
// The sessions stand in a thread of their own and debug the main thread, which stands still at each stop until it is resumed.
// With `here` they stand in the program's own thread, where node tells of a stop and goes on by itself behind it. The last line
// has the stops, the seconds by the clock, and those of the processor in all threads, behind a drill of 200 calls.
const { Worker, isMainThread, parentPort, workerData } = require("node:worker_threads");
const inspector = require("node:inspector");
const vm = require("node:vm");

const NAME = "drill.js";

const check = (error) => {
  if (error) throw new Error(error.message);
};

// Begins both sessions, with counts of the stops and of the prints that they are told; `ready` is called when all is answered.
const debug = (connect, counts, ready) => {
  const debugging = new inspector.Session();
  const listening = new inspector.Session();
  connect(debugging);
  connect(listening);
  debugging.on("Debugger.paused", () => {
    Atomics.add(counts, 0, 1);
    debugging.post("Debugger.resume", check);
  });
  listening.on("Runtime.consoleAPICalled", () => Atomics.add(counts, 1, 1));
  debugging.post("Debugger.enable", check);
  debugging.post("Debugger.setBreakpointByUrl", { condition: "i % 2 == 0", lineNumber: 3, url: NAME }, check);
  listening.post("Runtime.enable", (error) => {
    check(error);
    ready();
  });
};

// The script of the drill, in a block of its own so that it can run twice.
const script = (count) =>
  new vm.Script(
    `{ let t = 0;
function f(i) {
  t = t + i;
  return t;
}
for (let i = 0; i < ${count}; i++) {
  f(i);
}
console.log(t); }
`,
    { filename: NAME },
  );

// Runs the drill by itself, so that each stop has few frames of node's own.
const run = (counts, count) => {
  const drill = script(count);
  let stops, used, begun;
  setImmediate(() => {
    stops = Atomics.load(counts, 0);
    used = process.cpuUsage();
    begun = process.hrtime.bigint();
    setImmediate(drill.runInThisContext.bind(drill));
    setImmediate(() => {
      const seconds = Number(process.hrtime.bigint() - begun) / 1e9;
      const spent = process.cpuUsage(used);
      const told = { stops: Atomics.load(counts, 0) - stops, seconds, processor: (spent.user + spent.system) / 1e6 };
      process.stdout.write(JSON.stringify(told) + "\n", () => process.exit(0));
    });
  });
};

const main = () => {
  const counts = new Int32Array(new SharedArrayBuffer(8));
  const ready = () => {
    const shorter = script(200);
    setImmediate(shorter.runInThisContext.bind(shorter));
    run(counts, Number(process.argv[2]));
  };
  if (process.argv[3] === "here") {
    debug((session) => session.connect(), counts, ready);
  } else {
    new Worker(__filename, { workerData: counts }).on("message", ready);
  }
};

if (isMainThread) {
  main();
} else {
  // what keeps this thread
  setInterval(() => {}, 1000);
  debug((session) => session.connectToMainThread(), workerData, () => parentPort.postMessage("ready"));
}
