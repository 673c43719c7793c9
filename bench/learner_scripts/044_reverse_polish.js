// A reverse Polish calculator over the lines of the input.
const stack = []

function pop() {
  if (stack.length === 0) throw Error("the stack is empty")
  return stack.pop()
}

const words = {
  "+": () => stack.push(pop() + pop()),
  "*": () => stack.push(pop() * pop()),
  "-": () => { const b = pop(), a = pop(); stack.push(a - b) },
  "/": () => {
    const b = pop(), a = pop()
    if (b === 0) throw Error("division by zero")
    stack.push((a - a % b) / b)
  },
  dup: () => { const a = pop(); stack.push(a, a) },
  swap: () => { const b = pop(), a = pop(); stack.push(b, a) },
}

function number(word) {
  let n = 0
  for (let i = 0; i < word.length; i++) {
    if (word[i] < "0" || word[i] > "9") throw Error("what is " + word + "?")
    n = n * 10 + word.charCodeAt(i) - "0".charCodeAt(0)
  }
  return n
}

function split(line) {
  const list = []
  let word = ""
  for (let i = 0; i <= line.length; i++) {
    if (i < line.length && line[i] !== " ") word += line[i]
    else if (word !== "") { list.push(word); word = "" }
  }
  return list
}

let line
while ((line = readline()) !== null) {
  stack.length = 0
  let said = ""
  try {
    for (const word of split(line)) words[word] ? words[word]() : stack.push(number(word))
    said = stack.length === 1 ? "result" : stack.length + " values:"
  } catch (e) {
    said = "error (" + e.message + "), stack:"
  } finally {
    console.log(said, stack.join(" "))
  }
}
