// A queue made of two stacks, and how often an element moves.
function makeQueue() {
  const incoming = [], outgoing = [];
  let moves = 0;
  function pour() {
    if (outgoing.length > 0) return;
    while (incoming.length > 0) {
      outgoing.push(incoming.pop());
      moves++;
    }
  }
  return {
    put(x) { incoming.push(x); },
    get() {
      pour();
      if (outgoing.length === 0) throw RangeError("the queue is empty");
      return outgoing.pop();
    },
    front() { pour(); return outgoing[outgoing.length - 1]; },
    size: () => incoming.length + outgoing.length,
    moves: () => moves,
  };
}

const q = makeQueue();
for (let i = 1; i <= 5; i++) q.put("job" + i);
console.log(q.get(), q.get(), q.size());
q.put("job6");
console.log("front", q.front());
while (q.size() > 0) console.log("done " + q.get());
console.log("front of nothing is", q.front());
try {
  q.get();
} catch (e) {
  console.log(e.name + ": " + e.message);
}
console.log("moves", q.moves());
