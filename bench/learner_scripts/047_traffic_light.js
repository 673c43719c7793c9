// A state machine as a table: a traffic light with a button for people on foot.
const table = {
  red: { tick: "redYellow", button: "red" },
  redYellow: { tick: "green" },
  green: { tick: "green", button: "waiting" },
  waiting: { tick: "yellow" },
  yellow: { tick: "red" },
};
const lamps = { red: "R..", redYellow: "RY.", green: "..G", waiting: "..G", yellow: ".Y." };

function makeLight(start) {
  let state = start;
  const visited = { [start]: 1 };
  return {
    event(name) {
      const next = table[state][name];
      if (next === undefined) {
        console.log(lamps[state] + "  " + name + " is ignored in " + state);
        return;
      }
      visited[next] = (visited[next] || 0) + 1;
      console.log(lamps[state] + " -> " + lamps[next] + "  " + name + ": " + state + " to " + next);
      state = next;
    },
    visited,
  };
}

const light = makeLight("red");
const events = "button tick tick tick button button tick tick tick";
let word = "";
for (let i = 0; i <= events.length; i++) {
  if (i === events.length || events[i] === " ") {
    light.event(word);
    word = "";
  } else {
    word += events[i];
  }
}
for (const s of Object.keys(light.visited)) console.log(s, light.visited[s]);
