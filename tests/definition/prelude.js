'use strict';
// The primitive things of the library: numbers, lists, functions. Everything is a value that never changes; where
// something is changed in place (an array that grows, a table of known results) nobody can see it.

// ---- numbers: a JavaScript number as long as it is exact, else a BigInt, so that equal numbers are `===`
const exact = Number.MAX_SAFE_INTEGER;
const isPlain = (a, b) => typeof a === 'number' && typeof b === 'number';
const shortest = (big) => (big >= -exact && big <= exact ? Number(big) : big);

function add(a, b) {
  if (isPlain(a, b)) {
    const sum = a + b;
    if (sum <= exact && sum >= -exact) return sum;
  }
  return shortest(BigInt(a) + BigInt(b));
}
function minus(a, b) {
  if (isPlain(a, b)) {
    const difference = a - b;
    if (difference <= exact && difference >= -exact) return difference;
  }
  return shortest(BigInt(a) - BigInt(b));
}
function times(a, b) {
  if (isPlain(a, b)) {
    const product = a * b;
    if (product <= exact && product >= -exact) return product + 0;    // + 0: there is no -0
  }
  return shortest(BigInt(a) * BigInt(b));
}
const before = (n) => (typeof n === 'number' ? n - 1 : minus(n, 1));
const monus = (a, b) => (a > b ? minus(a, b) : 0);
const negative = (a) => minus(0, a);
const magnitude = (a) => (a < 0 ? minus(0, a) : a);
const negsuc = (a) => minus(-1, a);
function over(a, b) {
  if (b === 0) throw new Error('a number is divided by 0, and the translator does not say what that gives');
  return isPlain(a, b) ? Math.floor(a / b) : shortest(BigInt(a) / BigInt(b));
}
function rest(a, b) {
  if (b === 0) throw new Error('a number is divided by 0, and the translator does not say what that gives');
  return isPlain(a, b) ? a % b : shortest(BigInt(a) % BigInt(b));
}
const power = (a, b) => shortest(BigInt(a) ** BigInt(b));
function quotient(a, b) {
  const size = over(magnitude(a), magnitude(b));
  return (a < 0) === (b < 0) ? size : negative(size);
}

// ---- lists: cells with a head and a tail. A cell may know its items: those of an array, from a place on, as many as it is
// long; then its head and tail need not be there (its tail is null). Arrays grow only behind all who know of them
class Cell {
  constructor(head, tail, length, items, from) {
    this.head = head;
    this.tail = tail;
    this.length = length;
    this.items = items;
    this.from = from;
  }
}
const SHORT = 12;    // walking so far costs less than an array
const nil = new Cell(undefined, undefined, 0, null, 0);
const cons = (head, tail) => new Cell(head, tail, tail.length + 1, null, 0);
const slice = (items, from, length) => (length === 0 ? nil : new Cell(undefined, null, length, items, from));

const head = (list) => (list.tail === null ? list.items[list.from] : list.head);
const tail = (list) => (list.tail === null ? slice(list.items, list.from + 1, list.length - 1) : list.tail);
function collect(list, into) {
  let at = list;
  for (; at !== nil && at.items === null; at = at.tail) into.push(at.head);
  for (let i = 0; i < at.length; i++) into.push(at.items[at.from + i]);
}
function itemsOf(list) {
  const items = [];
  collect(list, items);
  return items;
}
// The items of an array, which nobody else has, before a list.
function onto(items, list) {
  if (items.length >= SHORT && list.length <= items.length) {
    collect(list, items);
    return slice(items, 0, items.length);
  }
  let result = list;
  for (let i = items.length - 1; i >= 0; i--) result = cons(items[i], result);
  return result;
}
const listOf = (items) => onto(items, nil);
function append(a, b) {
  if (a === nil) return b;
  if (b === nil) return a;
  if (a.length < SHORT || a.length < b.length) return onto(itemsOf(a), b);
  if (a.items === null || a.from + a.length !== a.items.length) {
    const items = itemsOf(a);
    collect(b, items);
    return slice(items, 0, items.length);
  }
  collect(b, a.items);
  return slice(a.items, a.from, a.length + b.length);
}
// The list without its first n items, of which it has more.
function behind(list, n) {
  if (list.items === null && n >= SHORT) {
    list.items = itemsOf(list);
    list.from = 0;
  }
  if (list.items !== null && n > 0) return slice(list.items, list.from + n, list.length - n);
  let at = list;
  for (; n > 0; n--) at = tail(at);
  return at;
}
function getOr(list, n, other) {
  if (n >= list.length) return other;
  return list.items === null ? head(behind(list, n)) : list.items[list.from + n];
}
const drop = (n, list) => (n < list.length ? behind(list, n) : nil);
function take(n, list) {
  if (n >= list.length) return list;
  return list.items === null ? listOf(itemsOf(list).slice(0, n)) : slice(list.items, list.from, n);
}
function set(list, n, item) {
  if (n >= list.length) return list;
  const items = itemsOf(list);
  items[n] = item;
  return listOf(items);
}
const replicate = (n, item) => listOf(new Array(n).fill(item));

// ---- functions: one with fewer arguments than it takes waits for the rest
function waiting(f, given) {
  switch (f.length - given.length) {
    case 1: return (a) => f(...given, a);
    case 2: return (a, b) => f(...given, a, b);
    case 3: return (a, b, c) => f(...given, a, b, c);
    case 4: return (a, b, c, d) => f(...given, a, b, c, d);
    case 5: return (a, b, c, d, e) => f(...given, a, b, c, d, e);
    default: throw new Error('a function waits for more arguments than the translator knows');
  }
}
function apply(f, given) {
  while (given.length > 0) {
    if (given.length < f.length) return waiting(f, given);
    const taken = f.length;
    f = f(...given.slice(0, taken));
    given = given.slice(taken);
  }
  return f;
}
const apply1 = (f, a) => (f.length === 1 ? f(a) : apply(f, [a]));
const apply2 = (f, a, b) => (f.length === 2 ? f(a, b) : apply(f, [a, b]));
const apply3 = (f, a, b, c) => (f.length === 3 ? f(a, b, c) : apply(f, [a, b, c]));
const apply4 = (f, a, b, c, d) => (f.length === 4 ? f(a, b, c, d) : apply(f, [a, b, c, d]));
const apply5 = (f, a, b, c, d, e) => (f.length === 5 ? f(a, b, c, d, e) : apply(f, [a, b, c, d, e]));

const unit = { t: 0 };
// A definition without arguments is computed once.
function once(compute) {
  let value;
  let isKnown = false;
  return () => {
    if (!isKnown) {
      value = compute();
      isKnown = true;
    }
    return value;
  };
}
// Results that were asked for last, for definitions that are asked for the same thing again and again.
function remembered1(f) {
  let x, result;
  return (a) => {
    if (x !== a) {
      result = f(a);
      x = a;
    }
    return result;
  };
}
function remembered2(f) {
  const xs = new Array(16), ys = new Array(16), results = new Array(16);
  return (a, b) => {
    const at = (typeof b === 'number' ? b : b.length) & 15;
    if (xs[at] === a && ys[at] === b) return results[at];
    const result = f(a, b);
    xs[at] = a;
    ys[at] = b;
    results[at] = result;
    return result;
  };
}
function rememberedText(f) {
  const known = new Map();
  return (text) => {
    let result = known.get(text);
    if (result === undefined) known.set(text, (result = f(text)));
    return result;
  };
}
function noClause(name) {
  return new Error(`no equation of ${name} fits`);
}
