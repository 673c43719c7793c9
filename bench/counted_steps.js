// Counts the steps that programs take, by the rules of docs/SEMANTICS.md alone.
//
//     node --expose-internals bench/counted_steps.js <PROGRAMS >ANSWERS
//
// A line of PROGRAMS is a program: {"sources": [SCRIPT ..], "input": [LINE ..], "most": N} are its scripts, the lines
// that `readline` gives (none, where they are left out), and the most steps that it may take. A line of ANSWERS is
// {"steps": N, "end": END, "printed": [LINE ..]}, where END is `ended`, `running`, or `Uncaught` and the text of what
// was thrown. It is {"error": TEXT} where node's parser refuses a script, where a form isn't one of the language, and
// where node itself gives up, as where frames nest so deep that its own stack is full (`--stack-size` makes it greater).
//
// This is a second reading of the rules, and shares no code and no parser with the project: node's own parser reads the
// scripts, and the trees are run by recursion, with exceptions of node for completions. There are no terms, no
// configurations and no heap, so it knows no limit of memory. What it has in common with the definitions are the rows:
// each function below "the table of steps" is a line of that table, or one case of a line, in the order of the table,
// and each below "the table of completions" a line of that one. Each calls `step` once, and nothing else does. The
// functions below "statements" and "expressions" say in which order the parts of a form are reduced, and end in its
// rows. Numbers of sections are those of ECMA-262 (2023). It is no part of the gate.
"use strict";
const acorn = require("internal/deps/acorn/acorn/dist/acorn");
const fs = require("fs");

// ---- the run

/** The frames that may be active, the script's among them. */
const MOST_FRAMES = 1000;

/** What one run has: steps taken and their greatest number, active frames, lines of input and output, global names. */
let steps, most, frames, input, printed, script_scope;

/** The run has taken all the steps that it may take. */
class Stop {}

/** Counts a step that is about to be taken. */
function step() {
  if (steps >= most) throw new Stop();
  steps += 1;
}

// ---- abrupt completions (6.2.4): each travels as an exception of node

class Completion {}
class Break extends Completion {}
class Continue extends Completion {}
class Return extends Completion {
  constructor(value) { super(); this.value = value; }
}
class Throw extends Completion {
  constructor(value) { super(); this.value = value; }
}

// ---- values: those of node, but for objects

/** An object with properties of its own; those that are hidden aren't among its keys. */
class PlainObject {
  constructor(properties = [], hidden = []) {
    this.properties = new Map(properties);
    this.hidden = new Set(hidden);
  }
}
class ErrorObject extends PlainObject {
  constructor(kind, message) {
    super();
    this.kind = kind;
    if (message === undefined) return;
    this.properties.set("message", message);
    this.hidden.add("message");
  }
}
class ArrayObject {
  constructor(elements) { this.elements = elements; }
}
/** A function of a script has its node and its scope, and an arrow the frame that it was made in. */
class FunctionObject {
  constructor(name, length, parts) { Object.assign(this, { name, length }, parts); }
}

const is_object = (v) => v instanceof PlainObject || v instanceof ArrayObject || v instanceof FunctionObject;
const is_nullish = (v) => v === undefined || v === null;

/** What `console.log` prints of a value, and what is told of a value that nothing caught. */
function shown(v) {
  if (v instanceof FunctionObject) return "function " + v.name;
  if (v instanceof ArrayObject) return "[object Array]";
  if (!(v instanceof ErrorObject)) return is_object(v) ? "[object Object]" : String(v);
  const message = v.properties.get("message");
  return typeof message === "string" && message !== "" ? v.kind + ": " + message : v.kind;
}

// ---- errors: the table of errors, line by line

function fail(kind, message) { throw new Throw(new ErrorObject(kind, message)); }

const not_safe = () => fail("RangeError", "Result is not a safe integer");
const not_numbers = () => fail("TypeError", "Operands must be numbers");
const not_a_text = () => fail("TypeError", "Cannot convert an object to text");
const not_comparable = () => fail("TypeError", "Cannot compare values of different types");
const bad_key = () => fail("TypeError", "Property key must be a string or a number");
const cannot_read = (v, key) => fail("TypeError", `Cannot read properties of ${v} (reading '${key}')`);
const cannot_set = (v, key) => fail("TypeError", `Cannot set properties of ${v} (setting '${key}')`);
const not_changeable = (key) => fail("TypeError", `Cannot change property '${key}'`);
const bad_length = () => fail("RangeError", "Invalid array length");
const not_defined = (name) => fail("ReferenceError", `${name} is not defined`);
const not_initialized = (name) => fail("ReferenceError", `Cannot access '${name}' before initialization`);
const constant_name = () => fail("TypeError", "Assignment to constant variable.");
const not_a_function = () => fail("TypeError", "Value is not a function");
const not_an_array = () => fail("TypeError", "Value is not an array");
const wrong_type = () => fail("TypeError", "Argument has a wrong type");
const too_deep = () => fail("RangeError", "Maximum call stack size exceeded");

// ---- operators

const both_are = (type, a, b) => typeof a === type && typeof b === type;
const text_of = (v) => (is_object(v) ? not_a_text() : String(v));
/** A number that is in the range; there is no -0. */
const safe = (n) => (Number.isSafeInteger(n) ? n || 0 : not_safe());
const number = (v) => (typeof v === "number" ? v : not_numbers());

/** 13.5.3 */
function type_of(v) {
  if (v instanceof FunctionObject) return "function";
  return v === null || is_object(v) ? "object" : typeof v;
}

function sum(a, b) {
  if (both_are("number", a, b)) return safe(a + b);
  return typeof a === "string" || typeof b === "string" ? text_of(a) + text_of(b) : not_numbers();
}

/** `==` */
function loosely_equal(a, b) {
  if (is_nullish(a) || is_nullish(b)) return is_nullish(a) && is_nullish(b);
  const alike = is_object(a) ? is_object(b) : typeof a === typeof b;
  return alike ? a === b : not_comparable();
}

const comparable = (a, b) => both_are("number", a, b) || both_are("string", a, b);
const comparison = (compare) => (a, b) => (comparable(a, b) ? compare(a, b) : not_comparable());
const arithmetic = (compute) => (a, b) => (both_are("number", a, b) ? compute(a, b) : not_numbers());

const BINARY = {
  "+": sum,
  "-": arithmetic((a, b) => safe(a - b)),
  "*": arithmetic((a, b) => safe(a * b)),
  "/": arithmetic((a, b) => (b === 0 || a % b !== 0 ? not_safe() : safe(a / b))),
  "%": arithmetic((a, b) => (b === 0 ? not_safe() : safe(a % b))),
  "&": arithmetic((a, b) => a & b),
  "|": arithmetic((a, b) => a | b),
  "^": arithmetic((a, b) => a ^ b),
  "<<": arithmetic((a, b) => a << b),
  ">>": arithmetic((a, b) => a >> b),
  ">>>": arithmetic((a, b) => a >>> b),
  "<": comparison((a, b) => a < b),
  ">": comparison((a, b) => a > b),
  "<=": comparison((a, b) => a <= b),
  ">=": comparison((a, b) => a >= b),
  "===": (a, b) => a === b,
  "!==": (a, b) => a !== b,
  "==": loosely_equal,
  "!=": (a, b) => !loosely_equal(a, b),
};

const UNARY = {
  "!": (v) => !v,
  "-": (v) => safe(-number(v)),
  "+": number,
  "~": (v) => ~number(v),
  typeof: type_of,
  void: () => undefined,
};

// ---- properties

function property_key(v) {
  if (typeof v !== "string" && typeof v !== "number") bad_key();
  return String(v);
}

/** The array index that a key is (6.1.7), else -1. */
function index_of_key(key) {
  return /^(0|[1-9]\d*)$/.test(key) && Number(key) <= 2 ** 32 - 2 ? Number(key) : -1;
}

/** An element of an array or a unit of a text, their length, or one of their methods. */
function element_of(items, methods, key) {
  if (key === "length") return items.length;
  return index_of_key(key) >= 0 ? items[index_of_key(key)] : methods.get(key);
}

/** The present value of a property. */
function property_of(v, k) {
  const key = property_key(k);
  if (is_nullish(v)) cannot_read(v, key);
  if (v instanceof PlainObject && v.properties.has(key)) return v.properties.get(key);
  if (v instanceof ErrorObject && key === "name") return v.kind;
  if (v instanceof ErrorObject && key === "message") return "";
  if (v instanceof ArrayObject) return element_of(v.elements, ARRAY_METHODS, key);
  if (v instanceof FunctionObject) return key === "name" || key === "length" ? v[key] : undefined;
  return typeof v === "string" ? element_of(v, STRING_METHODS, key) : undefined;
}

function length_written(array, length) {
  if (typeof length !== "number" || length < 0 || length > array.elements.length) bad_length();
  array.elements.length = length;
}

function element_written(array, index, v) {
  if (index > array.elements.length) bad_length();
  array.elements[index] = v;
}

function property_written(object, k, v) {
  const key = property_key(k);
  if (is_nullish(object)) cannot_set(object, key);
  if (object instanceof PlainObject) object.properties.set(key, v);
  else if (object instanceof ArrayObject && key === "length") length_written(object, v);
  else if (object instanceof ArrayObject && index_of_key(key) >= 0) element_written(object, index_of_key(key), v);
  else not_changeable(key);
}

function property_deleted(object, k) {
  const key = property_key(k);
  if (is_nullish(object)) cannot_set(object, key);
  if (!(object instanceof PlainObject)) not_changeable(key);
  object.properties.delete(key);
  object.hidden.delete(key);
  return true;
}

/** The keys of an object in order (10.1.11.1): first the indices, by their size. */
function own_keys(object) {
  const keys = [...object.properties.keys()].filter((key) => !object.hidden.has(key));
  const indices = keys.filter((key) => index_of_key(key) >= 0).sort((a, b) => a - b);
  return [...indices, ...keys.filter((key) => index_of_key(key) < 0)];
}

// ---- names: scopes are Environment Records (9.1)

/** A binding has a value once it is initialised; a constant one can't be assigned to. */
class Scope {
  constructor(outer) { this.outer = outer; this.bindings = new Map(); }
  add(name, constant) { this.bindings.set(name, { constant, initialised: false, value: undefined }); }
  initialize(name, value) { Object.assign(this.bindings.get(name), { initialised: true, value }); }
  with(name, value, constant) {
    this.add(name, constant);
    this.initialize(name, value);
    return this;
  }
}

/** The binding that the name means; none where no scope has it. */
function binding_of(scope, name) {
  for (let s = scope; s !== null; s = s.outer) if (s.bindings.has(name)) return s.bindings.get(name);
  return undefined;
}

/** The binding that the name means, with a value. */
function initialised_binding(scope, name) {
  const binding = binding_of(scope, name) || not_defined(name);
  return binding.initialised ? binding : not_initialized(name);
}

const found = (scope, name) => initialised_binding(scope, name).value;

function name_written(scope, name, v) {
  const binding = initialised_binding(scope, name);
  if (binding.constant) constant_name();
  binding.value = v;
}

/** The names that a list of statements declares, each with whether it is constant and the function that it declares. */
function declared_names(list) {
  const of_variables = (s) => s.declarations.map((d) => ({ name: d.id.name, constant: s.kind === "const" }));
  return list.flatMap((s) => {
    if (s.type === "VariableDeclaration") return of_variables(s);
    return s.type === "FunctionDeclaration" ? [{ name: s.id.name, constant: false, declared: s }] : [];
  });
}

/** Adds to a scope the names that a list of statements declares, and makes its functions (14.2.3). */
function declare(scope, list) {
  const names = declared_names(list);
  for (const { name, constant } of names) scope.add(name, constant);
  for (const { name, declared } of names) if (declared) scope.initialize(name, made_function(declared, name, scope));
}

/** A scope for a list of statements. */
function scope_of(list, outer) {
  const scope = new Scope(outer);
  declare(scope, list);
  return scope;
}

function made_function(node, name, scope, frame) {
  return new FunctionObject(name, node.params.length, { node, scope, frame });
}

/** What the parts of a reference (6.2.5) name: a name in a scope, or the property of an object. */
const get_value = (r) => (r.scope ? found(r.scope, r.name) : property_of(r.object, r.key));
const put_value = (r, v) => (r.scope ? name_written(r.scope, r.name, v) : property_written(r.object, r.key, v));

// ---- built-in functions

const built_in = (name, length, built_in_call) => new FunctionObject(name, length, { built_in_call });
const array = (v) => (v instanceof ArrayObject ? v.elements : wrong_type());
const string = (v) => (typeof v === "string" ? v : wrong_type());
const optional = (type, v) => (v === undefined || typeof v === type ? v : wrong_type());
const methods = (...all) => new Map(all.map((method) => [method.name, method]));

/** `slice` of an array's elements or of a text. */
function part(items, [start, end]) {
  optional("number", start);
  optional("number", end);
  return items.slice(start, end);
}

function unit_at(text, index) {
  if (typeof index !== "number") wrong_type();
  return index >= 0 && index < text.length ? text.charCodeAt(index) : not_safe();
}

function joined(elements, separator = ",") {
  string(separator);
  return elements.map((v) => (is_nullish(v) ? "" : text_of(v))).join(separator);
}

function keys_of(v) {
  if (v instanceof PlainObject) return own_keys(v);
  if (v instanceof ArrayObject) return v.elements.map((_, index) => String(index));
  return v instanceof FunctionObject ? [] : wrong_type();
}

const ARRAY_METHODS = methods(
  built_in("push", 1, (self, values) => array(self).push(...values)),
  built_in("pop", 0, (self) => array(self).pop()),
  built_in("indexOf", 1, (self, [v]) => array(self).findIndex((element) => element === v)),
  built_in("join", 1, (self, [separator]) => joined(array(self), separator)),
  built_in("slice", 2, (self, bounds) => new ArrayObject(part(array(self), bounds))),
);
const STRING_METHODS = methods(
  built_in("indexOf", 1, (self, [text]) => string(self).indexOf(string(text))),
  built_in("slice", 2, (self, bounds) => part(string(self), bounds)),
  built_in("charCodeAt", 1, (self, [index]) => unit_at(string(self), index)),
);

const error_maker = (kind) => built_in(kind, 1, (_, [message]) => new ErrorObject(kind, optional("string", message)));
const log = built_in("log", 0, (_, values) => { printed.push(values.map(shown).join(" ")); });
const readline = built_in("readline", 0, () => (input.length > 0 ? input.shift() : null));
const keys = built_in("keys", 1, (_, [v]) => new ArrayObject(keys_of(v)));
const is_array = built_in("isArray", 1, (_, [v]) => v instanceof ArrayObject);
const to_string = built_in("String", 1, (_, [v]) => text_of(v));

/** The names that every script finds; none can be assigned to. */
function global_scope() {
  const scope = new Scope(null);
  const add = (name, value) => scope.with(name, value, true);
  add("undefined", undefined);
  add("console", new PlainObject([["log", log]]));
  add("Object", new PlainObject([["keys", keys]], ["keys"]));
  add("Array", new PlainObject([["isArray", is_array]], ["isArray"]));
  for (const kind of ["Error", "TypeError", "RangeError", "ReferenceError"]) add(kind, error_maker(kind));
  add("String", to_string);
  add("readline", readline);
  return scope;
}

// ---- the table of steps

/** A script: its names and its functions (16.1.7). */
function script_row(list) {
  step();
  declare(script_scope, list);
}

/** An untouched statement, an arrow's expression body, `debugger`: enters it. */
function enter_row() { step(); }

/** An untouched `for` with `let` or `const`: enters it, with its scope, uninitialised (14.7.4.2). */
function enter_for_row(declaration, scope) {
  step();
  return scope_of([declaration], scope);
}

/** An untouched `for .. of`: enters it, with an uninitialised scope for its list (14.7.5.6). */
function enter_for_of_row(declaration, scope) {
  step();
  return scope_of([declaration], scope);
}

/** A block: opens it, with its scope and its functions, where it declares a name (14.2.2). */
function block_row(list, scope) {
  step();
  return declared_names(list).length > 0 ? scope_of(list, scope) : scope;
}

/** A declarator with its value (14.3.1.2). */
function initialize_row(scope, name, value) {
  step();
  scope.initialize(name, value);
}

/** A test of `if` and `? :` that is a value: whether it is true (14.6.2, 13.14.1). */
function choose_row(value) {
  step();
  return Boolean(value);
}

/** The left side of `&&`: whether the right side is chosen (13.13.1). */
function both_row(value) {
  step();
  return Boolean(value);
}

/** The left side of `||`: whether the right side is chosen (13.13.1). */
function either_row(value) {
  step();
  return !value;
}

/** `loop testing`, a loop's test that is a value: whether there is a turn (14.7). */
function loop_testing_row(value) {
  step();
  return Boolean(value);
}

/** `loop first` and `loop body` of a `for` with `let`: a new scope with the present values (14.7.4.4). */
function loop_scope_row(scope) {
  step();
  const next = new Scope(scope.outer);
  for (const [name, binding] of scope.bindings) next.bindings.set(name, { ...binding });
  return next;
}

/** `for .. of` with its value: checks that it is an array. */
function list_row(value) {
  step();
  return value instanceof ArrayObject ? value.elements : not_an_array();
}

/** A turn of `for .. of`: a scope with the next element; none where the loop ends (14.7.5.7). */
function turn_row(elements, index, scope, declaration) {
  step();
  if (index >= elements.length) return undefined;
  return new Scope(scope).with(declaration.declarations[0].id.name, elements[index], declaration.kind === "const");
}

/** `this`: the frame's (13.2.1). */
function this_row(frame) {
  step();
  return frame.this_value;
}

/** `read`, a name or a property: gives the value (6.2.5.5, 9.1.1, 10.1.8). */
function read_row(reference) {
  step();
  return get_value(reference);
}

/** `typeof_name`: gives the type, `undefined` where the name isn't defined (13.5.3.1). */
function typeof_name_row(scope, name) {
  step();
  return binding_of(scope, name) ? type_of(found(scope, name)) : "undefined";
}

/** `unary`, an operator on one value (13.5). */
function unary_row(operator, value) {
  step();
  return UNARY[operator](value);
}

/** `binary`, an operator on two values (13.6 to 13.12). */
function binary_row(operator, left, right) {
  step();
  return BINARY[operator](left, right);
}

/** A comma after a value: drops it (13.16.1). */
function comma_row() { step(); }

/** `function`, an expression or an arrow: makes it; a named expression has a scope with its name (15.2.5, 15.3.4). */
function function_row(node, name, scope, frame) {
  step();
  if (node.type === "ArrowFunctionExpression") return made_function(node, name, scope, frame);
  if (!node.id) return made_function(node, name, scope);
  const inner = new Scope(scope);
  const made = made_function(node, node.id.name, inner);
  inner.with(node.id.name, made, true);
  return made;
}

/** `function`, a method whose computed key has its value: makes it (15.4.4). */
function method_row(node, key, scope) {
  step();
  return made_function(node, property_key(key), scope);
}

/** An array literal of values: makes the array (13.2.4.1). */
function array_row(values) {
  step();
  return new ArrayObject(values);
}

/** An object literal of values: makes the object (13.2.5.4). */
function object_row(members) {
  step();
  return new PlainObject(members.map(([key, value]) => [property_key(key), value]));
}

/** `x op= e`, the target's parts being values: reads the old value (13.15.2). */
function compound_row(reference) {
  step();
  return get_value(reference);
}

/** `=` with values: writes (13.15.2, 6.2.5.6). */
function assign_row(reference, value) {
  step();
  put_value(reference, value);
  return value;
}

/** `++` and `--`: reads and writes (13.4). */
function update_row(reference, change, prefix) {
  step();
  const before = number(get_value(reference));
  const after = safe(before + change);
  put_value(reference, after);
  return prefix ? after : before;
}

/** `delete` of a property: removes it (13.5.1.2). */
function delete_row(reference) {
  step();
  return property_deleted(reference.object, reference.key);
}

/** A callee that is a reference: reads it (13.3.6). */
function callee_row(reference) {
  step();
  return get_value(reference);
}

/** A call: the value of a built-in; else a scope with the arguments, its functions, and a frame (10.2.1, 10.2.11). */
function call_row(callee, this_value, values) {
  step();
  if (!(callee instanceof FunctionObject)) not_a_function();
  if (callee.built_in_call) return { value: callee.built_in_call(this_value, values) };
  if (frames >= MOST_FRAMES) too_deep();
  const { node } = callee;
  const scope = new Scope(callee.scope);
  node.params.forEach((parameter, index) => scope.with(parameter.name, values[index], false));
  if (node.body.type === "BlockStatement") declare(scope, node.body.body);
  return { body: node.body, scope, frame: callee.frame || { this_value } };
}

/** `frame`, a body with nothing left: gives undefined (10.2.1.4). */
function frame_row() {
  step();
  return undefined;
}

/** `throw_` with its value: raises it (14.14). */
function throw_row(value) {
  step();
  throw new Throw(value);
}

// The rows of `return_`, `break_`, `continue_`, `ending` and `standing` are steps in which a completion travels to the
// form that takes it. They are counted there:

// ---- the table of completions

/** `catching` takes a throw: the scope of the catch's block, with a name where the catch has one. */
function catch_row(handler, completion, scope) {
  step();
  return handler.param ? new Scope(scope).with(handler.param.name, completion.value, false) : scope;
}

/** `finishing` takes every completion, and keeps it. */
function taken_by_finally(completion) {
  step();
  return completion;
}

/** `frame` takes `return`: the value of the call. */
function taken_by_frame(completion) {
  step();
  return completion.value;
}

/** `loop body` and `body_of` take `break` and `continue`: whether the loop goes on. */
function taken_by_loop(completion) {
  step();
  return completion instanceof Continue;
}

/** A throw that nothing takes ends the run. */
function taken_by_run(completion) {
  step();
  return "Uncaught " + shown(completion.value);
}

// ---- statements: the order of their parts

function statement(s, scope, frame) {
  if (!(s.type in STATEMENTS)) throw Error(s.type);
  STATEMENTS[s.type](s, scope, frame);
}

function all_statements(list, scope, frame) {
  for (const s of list) statement(s, scope, frame);
}

function script(source) {
  const list = acorn.parse(source, { ecmaVersion: 2023, preserveParens: true }).body;
  script_row(list);
  all_statements(list, script_scope, { this_value: undefined });
}

function block(s, scope, frame) {
  const inner = block_row(s.body, scope);
  all_statements(s.body, inner, frame);
}

function declarators(s, scope, frame) {
  for (const { id, init } of s.declarations) {
    initialize_row(scope, id.name, init ? named(init, id.name, scope, frame) : undefined);
  }
}

/** The body of a loop: whether the loop goes on. */
function goes_on(body, scope, frame) {
  try {
    statement(body, scope, frame);
    return true;
  } catch (completion) {
    if (completion instanceof Break || completion instanceof Continue) return taken_by_loop(completion);
    throw completion;
  }
}

const is_true = (test, scope, frame) => loop_testing_row(test ? expression(test, scope, frame) : true);

function for_expression(s, scope, frame) {
  enter_row();
  if (s.init) expression(s.init, scope, frame);
  while (is_true(s.test, scope, frame) && goes_on(s.body, scope, frame)) {
    if (s.update) expression(s.update, scope, frame);
  }
}

function for_lexical(s, scope, frame) {
  const for_a_turn = s.init.kind === "let" ? loop_scope_row : (inner) => inner;
  let inner = enter_for_row(s.init, scope);
  declarators(s.init, inner, frame);
  inner = for_a_turn(inner);
  while (is_true(s.test, inner, frame) && goes_on(s.body, inner, frame)) {
    inner = for_a_turn(inner);
    if (s.update) expression(s.update, inner, frame);
  }
}

function for_of(s, scope, frame) {
  const elements = list_row(expression(s.right, enter_for_of_row(s.left, scope), frame));
  for (let index = 0; ; index += 1) {
    const turn = turn_row(elements, index, scope, s.left);
    if (turn === undefined || !goes_on(s.body, turn, frame)) return;
  }
}

/** A `try` with its catch. */
function attempt(s, scope, frame) {
  try {
    block(s.block, scope, frame);
  } catch (completion) {
    if (!s.handler || !(completion instanceof Throw)) throw completion;
    block(s.handler.body, catch_row(s.handler, completion, scope), frame);
  }
}

/** A `try` with its `finally`: what that keeps travels on behind it. */
function attempt_finally(s, scope, frame) {
  let kept;
  try {
    attempt(s, scope, frame);
  } catch (completion) {
    if (!(completion instanceof Completion)) throw completion;
    kept = taken_by_finally(completion);
  }
  block(s.finalizer, scope, frame);
  if (kept) throw kept;
}

const STATEMENTS = {
  EmptyStatement: () => {},
  FunctionDeclaration: () => {},
  BlockStatement: block,
  DebuggerStatement: () => enter_row(),
  ExpressionStatement: (s, scope, frame) => {
    enter_row();
    expression(s.expression, scope, frame);
  },
  VariableDeclaration: (s, scope, frame) => {
    enter_row();
    declarators(s, scope, frame);
  },
  IfStatement: (s, scope, frame) => {
    enter_row();
    if (choose_row(expression(s.test, scope, frame))) statement(s.consequent, scope, frame);
    else if (s.alternate) statement(s.alternate, scope, frame);
  },
  WhileStatement: (s, scope, frame) => {
    enter_row();
    while (is_true(s.test, scope, frame) && goes_on(s.body, scope, frame));
  },
  DoWhileStatement: (s, scope, frame) => {
    enter_row();
    while (goes_on(s.body, scope, frame) && is_true(s.test, scope, frame));
  },
  ForStatement: (s, scope, frame) => {
    if (s.init && s.init.type === "VariableDeclaration") for_lexical(s, scope, frame);
    else for_expression(s, scope, frame);
  },
  ForOfStatement: for_of,
  BreakStatement: () => {
    enter_row();
    throw new Break();
  },
  ContinueStatement: () => {
    enter_row();
    throw new Continue();
  },
  ReturnStatement: (s, scope, frame) => {
    enter_row();
    throw new Return(s.argument ? expression(s.argument, scope, frame) : undefined);
  },
  ThrowStatement: (s, scope, frame) => {
    enter_row();
    throw_row(expression(s.argument, scope, frame));
  },
  TryStatement: (s, scope, frame) => {
    enter_row();
    if (s.finalizer) attempt_finally(s, scope, frame);
    else attempt(s, scope, frame);
  },
};

// ---- expressions: the order of their parts

function expression(e, scope, frame) {
  if (!(e.type in EXPRESSIONS)) throw Error(e.type);
  return EXPRESSIONS[e.type](e, scope, frame);
}

const without_parentheses = (e) => (e.type === "ParenthesizedExpression" ? without_parentheses(e.expression) : e);

/** A reference, its parts being values. */
function reference(node, scope, frame) {
  const e = without_parentheses(node);
  if (e.type === "Identifier") return { scope, name: e.name };
  const object = expression(e.object, scope, frame);
  return { object, key: e.computed ? expression(e.property, scope, frame) : e.property.name };
}

/** An expression that gives its name to a function that has none (8.4.5). */
function named(node, name, scope, frame) {
  const e = without_parentheses(node);
  const anonymous = e.type === "ArrowFunctionExpression" || (e.type === "FunctionExpression" && !e.id);
  return anonymous ? function_row(e, name, scope, frame) : expression(e, scope, frame);
}

/** A member of an object literal: its key and its value. */
function member(p, scope, frame) {
  if (!p.computed) {
    const key = p.key.type === "Identifier" ? p.key.name : String(p.key.value);
    if (p.method) return [key, method_row(p.value, key, scope)];
    return [key, p.shorthand ? read_row({ scope, name: key }) : named(p.value, key, scope, frame)];
  }
  const key = expression(p.key, scope, frame);
  return [key, p.method ? method_row(p.value, key, scope) : expression(p.value, scope, frame)];
}

function unary(e, scope, frame) {
  const argument = without_parentheses(e.argument);
  if (e.operator === "delete") return delete_row(reference(argument, scope, frame));
  if (e.operator === "typeof" && argument.type === "Identifier") return typeof_name_row(scope, argument.name);
  return unary_row(e.operator, expression(argument, scope, frame));
}

function assignment(e, scope, frame) {
  const target = reference(e.left, scope, frame);
  if (e.operator === "=") return assign_row(target, expression(e.right, scope, frame));
  const before = compound_row(target);
  const right = expression(e.right, scope, frame);
  return assign_row(target, binary_row(e.operator.slice(0, -1), before, right));
}

/** The value of a callee, with `this` of the call. */
function callee(node, scope, frame) {
  const e = without_parentheses(node);
  if (e.type !== "Identifier" && e.type !== "MemberExpression") return [expression(e, scope, frame), undefined];
  const target = reference(e, scope, frame);
  return [callee_row(target), target.object];
}

function call(e, scope, frame) {
  const [f, this_value] = callee(e.callee, scope, frame);
  const called = call_row(f, this_value, e.arguments.map((argument) => expression(argument, scope, frame)));
  return called.body ? value_of_body(called) : called.value;
}

/** The value that a function's body gives in its frame. */
function value_of_body({ body, scope, frame }) {
  frames += 1;
  try {
    if (body.type === "BlockStatement") all_statements(body.body, scope, frame);
    else return_expression(body, scope, frame);
    return frame_row();
  } catch (completion) {
    if (completion instanceof Return) return taken_by_frame(completion);
    throw completion;
  } finally {
    frames -= 1;
  }
}

/** The expression body of an arrow, which is returned. */
function return_expression(body, scope, frame) {
  enter_row();
  throw new Return(expression(body, scope, frame));
}

const EXPRESSIONS = {
  ThisExpression: (e, scope, frame) => this_row(frame),
  Identifier: (e, scope, frame) => read_row(reference(e, scope, frame)),
  MemberExpression: (e, scope, frame) => read_row(reference(e, scope, frame)),
  Literal: (e) => e.value,
  ParenthesizedExpression: (e, scope, frame) => expression(e.expression, scope, frame),
  ArrayExpression: (e, scope, frame) => array_row(e.elements.map((element) => expression(element, scope, frame))),
  ObjectExpression: (e, scope, frame) => object_row(e.properties.map((p) => member(p, scope, frame))),
  FunctionExpression: (e, scope, frame) => function_row(e, "", scope, frame),
  ArrowFunctionExpression: (e, scope, frame) => function_row(e, "", scope, frame),
  SequenceExpression: (e, scope, frame) => {
    let value = expression(e.expressions[0], scope, frame);
    for (const next of e.expressions.slice(1)) {
      comma_row();
      value = expression(next, scope, frame);
    }
    return value;
  },
  UnaryExpression: unary,
  UpdateExpression: (e, scope, frame) => {
    const target = reference(e.argument, scope, frame);
    return update_row(target, e.operator === "++" ? 1 : -1, e.prefix);
  },
  BinaryExpression: (e, scope, frame) => {
    const left = expression(e.left, scope, frame);
    return binary_row(e.operator, left, expression(e.right, scope, frame));
  },
  LogicalExpression: (e, scope, frame) => {
    const left = expression(e.left, scope, frame);
    const goes_right = e.operator === "&&" ? both_row(left) : either_row(left);
    return goes_right ? expression(e.right, scope, frame) : left;
  },
  ConditionalExpression: (e, scope, frame) => {
    const chosen = choose_row(expression(e.test, scope, frame)) ? e.consequent : e.alternate;
    return expression(chosen, scope, frame);
  },
  AssignmentExpression: assignment,
  CallExpression: call,
};

// ---- programs

/** Runs the scripts one after another: how the run ended. */
function run_scripts(sources) {
  try {
    sources.forEach(script);
    return "ended";
  } catch (completion) {
    if (completion instanceof Throw) return taken_by_run(completion);
    throw completion;
  }
}

function answer(program) {
  [steps, most, frames, input, printed] = [0, program.most, 1, [...(program.input || [])], []];
  script_scope = new Scope(global_scope());
  try {
    const end = run_scripts(program.sources);
    return { steps, end, printed };
  } catch (stopped) {
    return stopped instanceof Stop ? { steps, end: "running", printed } : { error: String(stopped) };
  }
}

for (const line of fs.readFileSync(0, "utf8").split("\n").filter(Boolean)) {
  console.log(JSON.stringify(answer(JSON.parse(line))));
}
