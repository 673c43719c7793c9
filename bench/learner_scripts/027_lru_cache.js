// A cache that forgets what was used the longest time ago: a ring of nodes, linked both ways.
function makeCache(size) {
  const ring = { key: null, value: null };
  ring.before = ring;
  ring.behind = ring;
  const nodes = {};
  let count = 0;

  function unlink(node) {
    node.before.behind = node.behind;
    node.behind.before = node.before;
  }
  function linkFirst(node) {
    node.behind = ring.behind;
    node.before = ring;
    ring.behind.before = node;
    ring.behind = node;
  }
  return {
    get(key) {
      const node = nodes[key];
      if (node === undefined) return "-";
      unlink(node);
      linkFirst(node);
      return node.value;
    },
    put(key, value) {
      if (nodes[key] !== undefined) { unlink(nodes[key]); count--; }
      if (count === size) {
        const last = ring.before;
        console.log("  forgets " + last.key);
        unlink(last);
        delete nodes[last.key];
        count--;
      }
      linkFirst(nodes[key] = { key, value });
      count++;
    },
    keys() {
      const list = [];
      for (let n = ring.behind; n !== ring; n = n.behind) list.push(n.key);
      return list.join(" ");
    },
  };
}

const c = makeCache(3);
c.put("one", 1); c.put("two", 2); c.put("three", 3);
console.log(c.keys());
console.log(c.get("one"), c.get("four"));
c.put("four", 4);
console.log(c.get("two"), c.get("one"), c.keys());
c.put("three", 33); c.put("five", 5);
console.log(c.keys(), "with three =", c.get("three"));
