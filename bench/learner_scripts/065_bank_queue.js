// People wait at the counters of a bank; time goes on minute by minute.
function simulate(counters, people) {
  const queue = [], free = [];
  for (let c = 0; c < counters; c++) free.push(0);
  let next = 0, first = 0, served = 0, waited = 0, longest = 0;
  const events = [];
  for (let minute = 0; served < people.length; minute++) {
    while (next < people.length && people[next].comes === minute) {
      queue.push(people[next++]);
      if (queue.length - first > longest) longest = queue.length - first;
    }
    for (let c = 0; c < counters && first < queue.length; c++) {
      if (free[c] > minute) continue;
      const p = queue[first++];
      waited += minute - p.comes;
      free[c] = minute + p.takes;
      served++;
      events.push(minute + ":" + p.name + "@" + (c + 1));
    }
  }
  let end = 0;
  for (const f of free) if (f > end) end = f;
  return { waited, longest, end, events: events.join(" ") };
}

const people = [
  { name: "Ann", comes: 0, takes: 5 }, { name: "Bob", comes: 1, takes: 3 }, { name: "Cyd", comes: 1, takes: 7 },
  { name: "Dan", comes: 2, takes: 1 }, { name: "Eve", comes: 8, takes: 2 }, { name: "Fay", comes: 8, takes: 2 },
  { name: "Gus", comes: 20, takes: 4 },
];
for (let counters = 1; counters <= 3; counters++) {
  const r = simulate(counters, people);
  console.log(counters + " counters: waited " + r.waited + ", longest queue " + r.longest + ", closed at " + r.end);
  console.log("  " + r.events);
}
