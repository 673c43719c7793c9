// A hash table with chains: the hash of a text is a sum of its codes, and the table grows.
function hash(text) {
  let h = 7;
  for (let i = 0; i < text.length; i++) h = (h * 31 + text.charCodeAt(i)) & 0xffff;
  return h;
}

function makeTable(size) {
  let chains = [], count = 0;
  const empty = n => { const list = []; while (n-- > 0) list.push([]); return list; };
  chains = empty(size);
  function put(key, value) {
    const chain = chains[hash(key) % chains.length];
    for (const entry of chain) {
      if (entry.key === key) {
        entry.value = value;
        return;
      }
    }
    chain.push({ key, value });
    if (++count > 2 * chains.length) grow();
  }
  function grow() {
    const old = chains;
    chains = empty(old.length * 2 + 1);
    count = 0;
    for (const chain of old) for (const entry of chain) put(entry.key, entry.value);
    console.log("grew to " + chains.length);
  }
  function get(key) {
    for (const entry of chains[hash(key) % chains.length]) if (entry.key === key) return entry.value;
  }
  const lengths = () => { const all = []; for (const c of chains) all.push(c.length); return all.join(" "); };
  return { put, get, lengths, count: () => count };
}

const ages = makeTable(2);
const names = ["Ann", "Bob", "Cyd", "Dan", "Eve", "Fay", "Gus", "Hal", "Ivy", "Jon", "Kim", "Lee"];
for (let i = 0; i < names.length; i++) ages.put(names[i], 20 + i);
ages.put("Ann", 99);
console.log(ages.get("Ann"), ages.get("Lee"), ages.get("Zed"), ages.count());
console.log("chains:", ages.lengths());
console.log(hash(""), hash("a"), hash("hello"));
