// An event emitter: listeners can be added, removed, and called once.
function makeEmitter() {
  const listeners = {};
  return {
    on(name, f) {
      if (listeners[name] === undefined) listeners[name] = [];
      listeners[name].push(f);
      return this;
    },
    once(name, f) {
      const emitter = this;
      function wrapped(value) {
        emitter.off(name, wrapped);
        f(value);
      }
      return this.on(name, wrapped);
    },
    off(name, f) {
      const kept = [];
      for (const g of listeners[name] || []) if (g !== f) kept.push(g);
      listeners[name] = kept;
    },
    emit(name, value) {
      const list = listeners[name] || [];
      for (const f of list.slice()) f(value);
      return list.length;
    },
  };
}

const door = makeEmitter();
const log = who => console.log("  the door says hello to " + who);
door.on("open", log)
  .on("open", who => console.log("  a cat sees " + who))
  .once("open", who => console.log("  the bell rings for " + who));
console.log("called", door.emit("open", "Ann"));
console.log("called", door.emit("open", "Bob"));
door.off("open", log);
console.log("called", door.emit("open", "Cid"));
console.log("called", door.emit("close", "Dan"));
