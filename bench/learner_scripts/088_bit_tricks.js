// Bits of whole numbers: counting, turning, packing, masks.
function bits(n, width) {
  let text = "";
  for (let i = width - 1; i >= 0; i--) text += n >>> i & 1;
  return text;
}

function popcount(n) {
  let count = 0;
  for (; n !== 0; n &= n - 1) count++;
  return count;
}

function turned(n, width) {
  let r = 0;
  for (let i = 0; i < width; i++) r = r << 1 | n >> i & 1;
  return r;
}

const isPowerOf2 = n => n > 0 && (n & n - 1) === 0;
const pack = (r, g, b) => (r << 16 | g << 8 | b) >>> 0;
const unpack = c => [c >> 16 & 0xff, c >> 8 & 0xff, c & 0xff];

for (const n of [0, 1, 5, 170, 255, -1, -128]) console.log(n, bits(n, 16), popcount(n));
console.log(bits(turned(0b11010, 8), 8), turned(1, 8), turned(turned(77, 8), 8));
console.log(isPowerOf2(64), isPowerOf2(65), isPowerOf2(0));
console.log(pack(255, 128, 1), unpack(pack(255, 128, 1)).join(), pack(0, 0, 0));

let x = 6, y = 11;
x ^= y; y ^= x; x ^= y;
console.log(x, y, ~x, ~~y, -x >> 1, -x >>> 28, 1 << 31, 1 << 32, 2147483647 + 1 | 0);

let flags = 0;
const names = ["read", "write", "run"];
const set = name => { flags |= 1 << names.indexOf(name); };
const drop = name => { flags &= ~(1 << names.indexOf(name)); };
set("read"); set("run"); set("read"); drop("write"); drop("read");
for (const n of names) console.log(n, (flags & 1 << names.indexOf(n)) !== 0);
flags <<= 4; flags |= 3; flags >>= 1; flags >>>= 1; flags %= 12;
console.log("flags", flags);
