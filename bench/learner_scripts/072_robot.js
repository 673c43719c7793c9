// A robot on a floor: F goes forward, L and R turn; it stops at walls and marks its way.
const headings = ["N", "E", "S", "W"];
const dx = [0, 1, 0, -1], dy = [1, 0, -1, 0];
let width = 0, height = 0, robot = null, floor = [];

const inside = (x, y) => x >= 0 && x < width && y >= 0 && y < height;
const text = r => r.x + "," + r.y + " " + headings[r.heading];

function numbers(line) {
  const list = [];
  let n = null;
  for (let i = 0; i <= line.length; i++) {
    const d = i < line.length ? "0123456789".indexOf(line[i]) : -1;
    if (d >= 0) n = (n === null ? 0 : n) * 10 + d;
    else if (n !== null) { list.push(n); n = null; }
  }
  return list;
}

function command(line) {
  const n = numbers(line);
  if (line.slice(0, 5) === "size ") {
    width = n[0];
    height = n[1];
    for (let y = 0; y < height; y++) { floor.push([]); for (let x = 0; x < width; x++) floor[y].push("."); }
    return "floor of " + width * height + " fields";
  }
  if (line.slice(0, 6) === "start ") {
    if (!inside(n[0], n[1])) throw RangeError(n.join() + " is outside");
    robot = { x: n[0], y: n[1], heading: headings.indexOf(line[line.length - 1]) };
    floor[robot.y][robot.x] = "o";
    return text(robot);
  }
  let bumps = 0;
  for (let i = 0; i < line.length; i++) {
    if (line[i] === "L") robot.heading = (robot.heading + 3) % 4;
    else if (line[i] === "R") robot.heading = (robot.heading + 1) % 4;
    else if (line[i] === "F") {
      const x = robot.x + dx[robot.heading], y = robot.y + dy[robot.heading];
      if (!inside(x, y)) { bumps++; continue; }
      robot.x = x;
      robot.y = y;
      floor[y][x] = "o";
    } else throw Error("unknown sign " + line[i]);
  }
  return text(robot) + (bumps ? ", " + bumps + " bumps" : "");
}

for (let line = readline(); line !== null; line = readline()) {
  let answer;
  try { answer = command(line); } catch (e) { answer = "! " + e.message; }
  console.log(line + " -> " + answer);
}
for (let y = height - 1; y >= 0; y--) console.log(floor[y].join(""));
