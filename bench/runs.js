// Writes runs for crates/js_semantics/proofs/Cases.antt.
//
//     node --expose-internals bench/runs.js NUMBER <PROGRAMS
//
// PROGRAMS has a program of the language a line. Each is read by node's own parser and run by node. What comes out is an
// equation that the definitions are to compute: the program's tree on one side, what node printed and what it threw on
// the other. NUMBER is that of the first one. Where this project's rules differ from ECMA-262 (docs/SEMANTICS.md,
// docs/DECISIONS.md), the expected output has to be written by hand.
"use strict";
const acorn = require("internal/deps/acorn/acorn/dist/acorn");
const fs = require("fs");
const vm = require("vm");

const UNARY = { "-": "Minus", "+": "Plus", "!": "LogicalNot", "~": "BitwiseNot", typeof: "Typeof", void: "Void", delete: "Delete" };
const BINARY = {
  "+": "Add", "-": "Subtract", "*": "Multiply", "/": "Divide", "%": "Remainder",
  "<<": "LeftShift", ">>": "RightShift", ">>>": "UnsignedRightShift", "&": "BitwiseAnd", "|": "BitwiseOr", "^": "BitwiseXor",
  "<": "LessThan", ">": "GreaterThan", "<=": "LessThanOrEqual", ">=": "GreaterThanOrEqual",
  "==": "Equal", "!=": "NotEqual", "===": "StrictEqual", "!==": "StrictNotEqual", "&&": "LogicalAnd", "||": "LogicalOr",
};
const UPDATE = { "++": "Increment", "--": "Decrement" };

let program = "";

// ---- terms: a word, a list, or a word with its arguments, as `proofs/Shorthand.antt` names them

const plain = (text) => /^[\x20-\x7e]*$/.test(text) && !/["\\]/.test(text);
const app = (f, ...args) => ({ f, args });

function shownTerm(n, place) {
  if (typeof n === "string") return n;
  const within = (text, from) => (place >= from ? `(${text})` : text);
  if (!Array.isArray(n)) return within([n.f, ...n.args.map((a) => shownTerm(a, 2))].join(" "), 2);
  return n.length === 0 ? "[]" : within([...n.map((x) => shownTerm(x, Array.isArray(x) ? 2 : 1)), "[]"].join(" ∷ "), 2);
}

// a term within 120 columns, broken where the fewest parentheses are open
function folded(text) {
  const parts = text.match(/(?:"[^"]*"|[^\s"])+/g);
  let depth = 0;
  const depths = parts.map((part) => {
    const before = depth;
    for (const c of part.replace(/"[^"]*"/g, "")) depth += c === "(" ? 1 : c === ")" ? -1 : 0;
    return before;
  });
  const lines = [];
  for (let i = 0; i < parts.length;) {
    const indent = lines.length === 0 ? "" : "    ";
    let length = indent.length - 1, j = i, best = 0;
    for (; j < parts.length && length + 1 + parts[j].length <= 120; j++) {
      if (j > i && length >= 54 && parts[j] !== "∷" && (!best || depths[j] <= depths[best])) best = j;
      length += 1 + parts[j].length;
    }
    if (j < parts.length && parts[j] !== "∷" && (!best || depths[j] <= depths[best])) best = j;
    if (j === parts.length) best = j;
    lines.push(indent + parts.slice(i, best).join(" "));
    i = best;
  }
  return lines.join("\n");
}

// ---- trees

const word = (text) => `"${text}"`;
const units = (text) => (plain(text) ? app("codes", word(text)) : text.split("").map((unit) => String(unit.charCodeAt(0))));
const allPlain = (all) => all.every((name) => plain(name.name));
const words = (all) => all.map((name) => word(name.name));
const names = (all) => all.map((name) => units(name.name));
const expressions = (all) => all.map(expression);
const statements = (all) => all.map(statement);
const listed = (all) => (all.length === 0 ? "t.no_statements" : app("statements", statements(all)));
const optional = (e) => (e ? app("t.present", expression(e)) : "t.omitted");
const declarator = (d) => app("t.declarator", units(d.id.name), optional(d.init));
const only = (d) => d.declarations.length === 1 && d.declarations[0].init && plain(d.declarations[0].id.name) && d.declarations[0];
const declarators = (all) => all.reduceRight((rest, d) => app("t.a_declarator", declarator(d), rest), "t.no_declarators");

function key(p) {
  if (p.computed) return app("t.computed_key", expression(p.key));
  if (p.key.type === "Identifier") return app("t.word_key", units(p.key.name));
  return typeof p.key.value === "string" ? app("t.string_key", units(p.key.value)) : app("t.number_key", String(p.key.value));
}

function property(p) {
  if (p.method) return app("t.method", key(p), names(p.value.params), listed(p.value.body.body));
  if (p.shorthand) return app("t.shorthand", units(p.key.name));
  if (!p.computed && p.key.type === "Identifier" && plain(p.key.name)) return app("key", word(p.key.name), expression(p.value));
  return app("t.value", key(p), expression(p.value));
}

function literal(v) {
  if (v === null) return "t.null";
  if (typeof v === "number") return app("d", String(v));
  if (typeof v === "string") return plain(v) ? app("s", word(v)) : app("t.string", units(v));
  return app("t.boolean", String(v));
}

function arrow(e) {
  const bare = e.params.length === 1 && program[e.start] !== "(";
  const block = e.body.type === "BlockStatement";
  if (!bare && allPlain(e.params)) {
    return block ? app("arrow_block", words(e.params), statements(e.body.body)) : app("arrow", words(e.params), expression(e.body));
  }
  const parameters = bare ? app("t.one_name", units(e.params[0].name)) : app("t.name_list", names(e.params));
  return block ? app("t.arrow_block", parameters, listed(e.body.body)) : app("t.arrow", parameters, expression(e.body));
}

const SHORT = {
  Add: "add", Subtract: "sub", Multiply: "mul", Divide: "div", Remainder: "rem", LessThan: "less", StrictEqual: "same",
};

function binary(operator, l, r) {
  const name = BINARY[operator];
  return SHORT[name] ? app(SHORT[name], expression(l), expression(r)) : app("t.binary", "binaries." + name, expression(l), expression(r));
}

function expression(e) {
  switch (e.type) {
    case "ThisExpression": return "t.this";
    case "Identifier": return plain(e.name) ? app("v", word(e.name)) : app("t.name", units(e.name));
    case "Literal": return literal(e.value);
    case "ArrayExpression": return app("array", expressions(e.elements));
    case "ObjectExpression": return app("object", e.properties.map(property));
    case "FunctionExpression": return app("t.function", e.id ? app("Some", units(e.id.name)) : "None", names(e.params), listed(e.body.body));
    case "ArrowFunctionExpression": return arrow(e);
    case "ParenthesizedExpression": return app("t.parenthesized", expression(e.expression));
    case "MemberExpression":
      if (e.computed) return app("at", expression(e.object), expression(e.property));
      return plain(e.property.name) ? app("dot", expression(e.object), word(e.property.name)) : app("t.member", expression(e.object), units(e.property.name));
    case "CallExpression": return app("call", expression(e.callee), expressions(e.arguments));
    case "UpdateExpression":
      if (!e.prefix && e.operator === "++") return app("inc", expression(e.argument));
      return app(e.prefix ? "t.prefix" : "t.postfix", "updates." + UPDATE[e.operator], expression(e.argument));
    case "UnaryExpression":
      if (e.operator === "-") return app("neg", expression(e.argument));
      return app("t.unary", "unaries." + UNARY[e.operator], expression(e.argument));
    case "BinaryExpression":
    case "LogicalExpression": return binary(e.operator, e.left, e.right);
    case "ConditionalExpression": return app("t.conditional", expression(e.test), expression(e.consequent), expression(e.alternate));
    case "AssignmentExpression":
      if (e.operator === "=") return app("put", expression(e.left), expression(e.right));
      return app("t.assign", "assigns." + BINARY[e.operator.slice(0, -1)], expression(e.left), expression(e.right));
    case "SequenceExpression": return app("t.comma", app("expressions", expressions(e.expressions)));
  }
  throw Error(e.type);
}

function declaration(d) {
  const one = only(d);
  if (one) return app(d.kind === "const" ? "const" : "let_", word(one.id.name), expression(one.init));
  return app("t.lexical", String(d.kind === "const"), declarators(d.declarations));
}

function loop(s) {
  const rest = [optional(s.test), optional(s.update), statement(s.body)];
  if (!s.init || s.init.type !== "VariableDeclaration") return app("t.for", optional(s.init), ...rest);
  const one = only(s.init);
  if (one && s.init.kind === "let") return app("for_let", word(one.id.name), expression(one.init), ...rest);
  return app("t.for_lexical", String(s.init.kind === "const"), declarators(s.init.declarations), ...rest);
}

function attempt(s) {
  const tried = s.block.body, handler = s.handler && s.handler.body.body, last = s.finalizer && s.finalizer.body;
  const name = s.handler && s.handler.param && s.handler.param.name;
  if (name && plain(name) && !last) return app("try_catch", statements(tried), word(name), statements(handler));
  if (name && plain(name)) return app("try_both", statements(tried), word(name), statements(handler), statements(last));
  if (!handler) return app("try_finally", statements(tried), statements(last));
  return app("t.try", listed(tried), app("t.catch", name ? app("Some", units(name)) : "None", listed(handler)),
    last ? app("t.finally", listed(last)) : "t.no_finally");
}

const isLog = (e) => e.type === "CallExpression" && e.callee.type === "MemberExpression" && !e.callee.computed &&
  e.callee.object.name === "console" && e.callee.property.name === "log";

function statement(s) {
  switch (s.type) {
    case "BlockStatement": return app("block", statements(s.body));
    case "VariableDeclaration": return declaration(s);
    case "EmptyStatement": return "t.empty";
    case "ExpressionStatement": return isLog(s.expression) ? app("log", expressions(s.expression.arguments)) : app("run", expression(s.expression));
    case "IfStatement": return s.alternate
      ? app("t.if_else", expression(s.test), statement(s.consequent), statement(s.alternate))
      : app("t.if_then", expression(s.test), statement(s.consequent));
    case "DoWhileStatement": return app("t.do_while", statement(s.body), expression(s.test));
    case "WhileStatement": return app("t.while", expression(s.test), statement(s.body));
    case "ForStatement": return loop(s);
    case "ForOfStatement": return app("t.for_of", String(s.left.kind === "const"), units(s.left.declarations[0].id.name), expression(s.right), statement(s.body));
    case "ContinueStatement": return "t.continue";
    case "BreakStatement": return "t.break";
    case "ReturnStatement": return s.argument ? app("ret", expression(s.argument)) : app("t.return", "t.omitted");
    case "ThrowStatement": return app("t.throw", expression(s.argument));
    case "TryStatement": return attempt(s);
    case "DebuggerStatement": return "t.debugger";
    case "FunctionDeclaration": return plain(s.id.name) && allPlain(s.params)
      ? app("fn", word(s.id.name), words(s.params), statements(s.body.body))
      : app("t.declared_function", units(s.id.name), names(s.params), listed(s.body.body));
  }
  throw Error(s.type);
}

const tree = () => statements(acorn.parse(program, { ecmaVersion: 2022, preserveParens: true }).body);

// ---- outputs

function shown(v) {
  if (typeof v === "string") return v;
  if (typeof v === "number") return String(v === 0 ? 0 : v);
  if (v === null || typeof v !== "object") return typeof v === "function" ? "function " + v.name : String(v);
  if (Array.isArray(v)) return "[object Array]";
  if (Object.prototype.toString.call(v) !== "[object Error]") return "[object Object]";
  const own = Object.getOwnPropertyDescriptor(v, "message");
  const has = own && typeof own.value === "string" && own.value !== "";
  return has ? v.constructor.name + ": " + own.value : v.constructor.name;
}

function run() {
  const printed = [];
  const log = (...values) => { printed.push(values.map(shown).join(" ")); };
  const context = vm.createContext({ console: { log }, readline: () => null });
  try {
    vm.runInContext('"use strict";' + program, context);
    return { printed };
  } catch (thrown) {
    return { printed, thrown: shown(thrown) };
  }
}

// what is claimed: in short words, where all texts can be written so
function claim({ printed, thrown }) {
  if (![...printed, thrown || ""].every(plain)) {
    const end = thrown === undefined ? "ended_normally" : app("threw_text", units(thrown));
    const lines = shownTerm(printed.map(units), 2);
    return `ended_as (${shownTerm(app("statements", tree()), 0)} ∷ []) [] ≡ ${shownTerm(app("outcome", end), 0)} ${lines}`;
  }
  const lines = printed.map(word);
  return shownTerm(thrown === undefined ? app("Prints", tree(), lines) : app("Throws", tree(), lines, word(thrown)), 0);
}

let number = Number(process.argv[2]);
for (program of fs.readFileSync(0, "utf8").split("\n").filter(Boolean)) {
  const name = "case_" + String(number).padStart(3, "0");
  console.log(`-- ${program}\n${folded(`${name} : ${claim(run())}`)}\nunfolding digits\n${name} = refl\n`);
  number += 1;
}
