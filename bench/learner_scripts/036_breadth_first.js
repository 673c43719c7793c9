// Breadth-first search: the fewest changes between stations.
const lines = {
  Airport: ["Harbour", "Market"],
  Harbour: ["Airport", "Museum"],
  Market: ["Airport", "Museum", "School"],
  Museum: ["Harbour", "Market", "Park"],
  School: ["Market"],
  Park: ["Museum", "Zoo"],
  Zoo: ["Park"],
  Island: [],
};

function route(from, to) {
  const cameFrom = { [from]: null };
  const queue = [from];
  let next = 0;
  while (next < queue.length) {
    const here = queue[next++];
    if (here === to) {
      const path = [];
      for (let s = to; s !== null; s = cameFrom[s]) path.push(s);
      let text = "";
      while (path.length > 0) text += (text && " > ") + path.pop();
      return text;
    }
    for (const there of lines[here]) {
      if (cameFrom[there] === undefined) {
        cameFrom[there] = here;
        queue.push(there);
      }
    }
  }
  return "no way (saw " + queue.length + " stations)";
}

console.log(route("Airport", "Zoo"));
console.log(route("School", "Harbour"));
console.log(route("Park", "Park"));
console.log(route("Airport", "Island"));
console.log(route("Island", "Airport"));
