// A buffer of fixed size: the oldest entries are written over.
const makeBuffer = size => {
  const places = [];
  for (let i = 0; i < size; i++) places.push(null);
  let next = 0, count = 0;
  return {
    write(x) {
      places[next] = x;
      next = (next + 1) % size;
      if (count < size) count++;
    },
    read() {
      if (count === 0) return null;
      const at = (next - count + size) % size;
      count--;
      return places[at];
    },
    dump: () => places.join(",") + " next=" + next + " count=" + count,
  };
};

const b = makeBuffer(4);
console.log(b.dump());
for (const x of ["a", "b", "c"]) b.write(x);
console.log(b.dump());
console.log(b.read(), b.read());
for (const x of ["d", "e", "f", "g", "h"]) b.write(x);
console.log(b.dump());
for (let i = 0; i < 5; i++) console.log("read", b.read());
