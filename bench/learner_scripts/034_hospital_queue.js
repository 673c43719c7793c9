// A priority queue: the most urgent patient first, of equal ones the one who came first.
const waiting = [];
let arrivals = 0;

function arrive(name, urgency) {
  const patient = { name, urgency, number: ++arrivals };
  let i = waiting.length;
  waiting.push(patient);
  while (i > 0 && waiting[i - 1].urgency >= patient.urgency) {
    waiting[i] = waiting[i - 1];
    i--;
  }
  waiting[i] = patient;
  console.log(name + " arrives with urgency " + urgency + "; " + waiting.length + " wait");
}

function treat() {
  const p = waiting.pop();
  if (!p) console.log("nobody is waiting");
  else console.log("treated: " + p.name + " (number " + p.number + ", urgency " + p.urgency + ")");
}

arrive("Mr Cut", 2);
arrive("Ms Cold", 1);
arrive("Mr Heart", 9);
treat();
arrive("Ms Bone", 5);
arrive("Mr Scratch", 2);
arrive("Ms Sneeze", 1);
for (let i = 0; i < 6; i++) treat();
