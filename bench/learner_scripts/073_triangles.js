// Pictures by recursion and by bits: Sierpinski's triangle twice, and a carpet.
function join(list, f) {
  const lines = [];
  for (const line of list) lines.push(f(line));
  return lines;
}

function triangle(order) {
  if (order === 0) return ["*"];
  const small = triangle(order - 1);
  const space = join(small, line => line).length;
  let pad = "";
  while (pad.length < space) pad += " ";
  const top = join(small, line => pad + line + pad);
  for (const line of join(small, line => line + " " + line)) top.push(line);
  return top;
}
for (const line of triangle(3)) console.log(line);

for (let y = 0; y < 8; y++) {
  let line = "";
  for (let x = 0; x + y < 8; x++) line += (x & y) === 0 ? "o" : " ";
  console.log(line);
}

function isHole(x, y) {
  while (x > 0 || y > 0) {
    if (x % 3 === 1 && y % 3 === 1) return true;
    x = (x - x % 3) / 3;
    y = (y - y % 3) / 3;
  }
  return false;
}
for (let y = 0; y < 9; y++) {
  let line = "";
  for (let x = 0; x < 9; x++) line += isHole(x, y) ? "  " : "##";
  console.log(line);
}
