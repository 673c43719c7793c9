// A linked list of nodes: put in front, behind, reverse, remove.
let head = null;

function pushFront(value) {
  head = { value, next: head };
}

function pushBack(value) {
  if (head === null) return pushFront(value);
  let node = head;
  while (node.next !== null) node = node.next;
  node.next = { value: value, next: null };
}

function remove(value) {
  if (head === null) return false;
  if (head.value === value) { head = head.next; return true; }
  for (let node = head; node.next !== null; node = node.next) {
    if (node.next.value === value) {
      node.next = node.next.next;
      return true;
    }
  }
  return false;
}

function reverse() {
  let done = null;
  while (head !== null) {
    const rest = head.next;
    head.next = done;
    done = head;
    head = rest;
  }
  head = done;
}

function text() {
  let s = "";
  for (let node = head; node; node = node.next) s += node.value + " -> ";
  return s + "null";
}

console.log(text());
pushBack(2); pushBack(3); pushFront(1); pushBack(4); pushFront(0);
console.log(text());
reverse();
console.log(text());
console.log(remove(4), remove(2), remove(0), remove(7));
console.log(text());
reverse();
console.log(text());
