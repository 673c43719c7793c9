// What node's in-process inspector takes for the commands of bench/commands.py, in a debugger session of its own over a
// program that stands still: milliseconds of processor time for COUNT rounds.
//
//     node bench/commands.js COUNT
const inspector = require("node:inspector");

const count = Number(process.argv[2] || 1000);
const session = new inspector.Session();
session.connect();
const post = (method, params) => {
  let answer;
  session.post(method, params, (error, result) => {
    if (error) throw new Error(method + ": " + error.message);
    answer = result;
  });
  return answer;
};
globalThis.list = Array.from({ length: 100 }, (_, i) => i);
globalThis.point = { x: 1, y: [1, 2] };
post("Runtime.enable");
post("Debugger.enable");
const held = post("Runtime.evaluate", { expression: "point", objectGroup: "held" }).result.objectId;
const script = post("Debugger.setBreakpointByUrl", { lineNumber: 100000, url: "nowhere.js" }).breakpointId;

const round = () => {
  post("Runtime.evaluate", { expression: "point.x + 1" });
  post("Runtime.getProperties", { objectId: held, ownProperties: true });
  post("Runtime.callFunctionOn", { functionDeclaration: "function() { return this.x; }", objectId: held });
  post("Runtime.evaluate", { expression: "point", returnByValue: true });
  post("Runtime.globalLexicalScopeNames");
  post("Debugger.setSkipAllPauses", { skip: false });
  post("Debugger.setBreakpointsActive", { active: true });
  post("Debugger.setPauseOnExceptions", { state: "none" });
};
const preview = () => {
  post("Runtime.evaluate", { expression: "list", objectGroup: "seen", generatePreview: true });
  post("Runtime.releaseObjectGroup", { objectGroup: "seen" });
};

const measured = (work) => {
  for (let i = 0; i < 100; i++) work();
  const before = process.cpuUsage();
  for (let i = 0; i < count; i++) work();
  const spent = process.cpuUsage(before);
  return (spent.user + spent.system) / 1000;
};
console.log(JSON.stringify({ rounds: measured(round), previews: measured(preview) }));
