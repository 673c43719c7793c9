// A small text adventure over the lines of the input.
const rooms = {
  hall: { text: "You are in a cold hall.", ways: { north: "attic", down: "cellar" }, things: ["rope"] },
  attic: { text: "You are under the roof.", ways: { south: "hall" }, things: ["lamp"] },
  cellar: { text: "You are in the cellar.", ways: { up: "hall" }, things: ["gold"], dark: true },
};
let here = rooms.hall, bag = [], playing = true, light = false;

function without(list, thing) {
  const at = list.indexOf(thing);
  if (at < 0) throw Error("There is no " + thing + ".");
  const rest = list.slice(0, at);
  for (const x of list.slice(at + 1)) rest.push(x);
  return rest;
}

const verbs = {
  look() {
    if (here.dark && !light) return "It is dark.";
    return here.text + " Things: " + (here.things.join(", ") || "none") + ". Ways: " + Object.keys(here.ways).join(", ") + ".";
  },
  go(way) {
    const next = rooms[here.ways[way] || "nowhere"];
    if (!next) throw Error("No way " + way + ".");
    here = next;
    return verbs.look();
  },
  take(thing) {
    if (here.dark && !light) throw Error("You can't see any " + thing + ".");
    here.things = without(here.things, thing);
    bag.push(thing);
    return "You have the " + thing + (thing === "gold" ? ", and are rich!" : ".");
  },
  drop(thing) {
    bag = without(bag, thing);
    here.things.push(thing);
    if (thing === "lamp") light = false;
    return "You put the " + thing + " down.";
  },
  use(thing) {
    without(bag, thing);
    if (thing !== "lamp") throw Error("Nothing happens.");
    light = !light;
    return "The lamp is " + (light ? "on" : "off") + ". " + verbs.look();
  },
  inventory: () => bag.length === 0 ? "You have nothing." : "You have: " + bag.join(", ") + ".",
  quit() { playing = false; return "Bye, with " + bag.length + " things."; },
};

console.log(verbs.look());
while (playing) {
  const line = readline();
  if (line === null) break;
  const at = line.indexOf(" "), verb = at < 0 ? line : line.slice(0, at);
  try {
    if (!verbs[verb]) throw Error("What is '" + verb + "'?");
    console.log("> " + line + "\n" + verbs[verb](line.slice(at + 1)));
  } catch (e) { console.log("> " + line + "\n" + e.message); }
}
