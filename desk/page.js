'use strict';
// What the page does: a byte of the text leads to its source and back. Everything it knows stands in #data.
const data = JSON.parse(document.getElementById('data').textContent);
const text = document.getElementById('text');
const readout = document.getElementById('readout');
const RECORD = 80;
const starts = [];
let size = 0;
for (const part of data.parts) { starts.push(size); size += part[3]; }

// ---- places

// The last index whose start is not behind a place.
function lastAtOrBefore(list, place, start) {
  let low = 0, high = list.length - 1, found = -1;
  while (low <= high) {
    const middle = (low + high) >> 1;
    if (start(list[middle]) <= place) { found = middle; low = middle + 1; } else { high = middle - 1; }
  }
  return found;
}
// The part of a byte of the text; parts of no length share their start with the one behind them.
function partAt(byte) { return lastAtOrBefore(starts, byte, start => start); }
function segmentAt(member, offset) {
  const all = data.segments[member];
  const found = lastAtOrBefore(all, offset, one => one[0]);
  return found >= 0 && offset < all[found][1] ? found : -1;
}
function shownOffset(offset) { return data.cards ? offset + Math.floor(offset / RECORD) : offset; }
function givenOffset(shown) { return data.cards ? shown - Math.floor(shown / (RECORD + 1)) : shown; }
function sourceOf(member) { return document.getElementById('source' + member); }
const contents = new Map();
function contentOf(element) {
  if (!contents.has(element)) { contents.set(element, element.textContent); }
  return contents.get(element);
}
function lineAndColumn(member, offset) {
  const before = contentOf(sourceOf(member)).slice(0, shownOffset(offset));
  const line = before.split('\n').length;
  return [line, before.length - before.lastIndexOf('\n')];
}
function placeWords(member, offset) {
  const [line, column] = lineAndColumn(member, offset);
  return data.members[member].path + ':' + line + ':' + column;
}

// ---- what is told

function valueOf(number) { return contentOf(text).slice(starts[number], starts[number] + data.parts[number][3]); }
function told(byte) { return toldOf(partAt(byte), byte); }
function toldOf(number, byte) {
  if (number < 0) { return 'nothing'; }
  const [kind, member, offset, length, name] = data.parts[number];
  if (kind === 'B') { return 'inserted blank before ' + placeWords(member, offset) + ' in ' + data.members[member].name; }
  if (kind === 'C') {
    return 'copied from ' + placeWords(member, offset + byte - starts[number]) + ' in ' + data.members[member].name;
  }
  return name + ' at ' + placeWords(member, offset) + ' in ' + data.members[member].name
    + (length === 0 ? ' = nothing' : ' = \u201c' + valueOf(number) + '\u201d');
}

// ---- marks

const cursor = document.createElement('div');
cursor.id = 'cursor';
let now = [];
function unmark() {
  for (const element of now) { element.classList.remove('now', 'same'); }
  now = [];
}
function mark(element, name) { if (element) { element.classList.add(name); now.push(element); } }
// Text node and place in it of a byte of an element.
function nodeAt(element, place) {
  const walker = document.createTreeWalker(element, NodeFilter.SHOW_TEXT);
  let node;
  while ((node = walker.nextNode())) {
    if (place < node.length) { return [node, place]; }
    place -= node.length;
  }
  return null;
}
function rectAt(element, place) {
  const found = nodeAt(element, place);
  if (!found) { return null; }
  const range = document.createRange();
  range.setStart(found[0], found[1]);
  range.setEnd(found[0], found[1] + 1);
  return range.getClientRects()[0] || null;
}
function show(element, place, within) {
  const rect = rectAt(element, place);
  const pane = element.closest('.pane');
  if (!rect) { return; }
  const frame = pane.getBoundingClientRect();
  const left = rect.left - frame.left + pane.scrollLeft, top = rect.top - frame.top + pane.scrollTop;
  pane.append(cursor);
  cursor.style.cssText = 'left:' + left + 'px;top:' + top + 'px;height:' + rect.height + 'px;width:' + Math.max(rect.width, 3) + 'px';
  if (within) { return; }
  if (rect.top < frame.top + 30 || rect.bottom > frame.bottom - 30) { pane.scrollTop = Math.max(0, top - frame.height / 3); }
  if (rect.left < frame.left + 50 || rect.right > frame.right - 50) { pane.scrollLeft = Math.max(0, left - frame.width / 3); }
  if (frame.bottom < 0 || frame.top > window.innerHeight) { pane.scrollIntoView({block: 'nearest'}); }
}
// Names that are equal but for case are one.
function markNames(name) {
  const folded = name.toUpperCase();
  data.parts.forEach((part, number) => { if (part[0] === 'V' && part[4].toUpperCase() === folded) { mark(document.getElementById('t' + number), 'same'); } });
}

// ---- going to and fro

let byte = 0, chosen = -1;
function select(place, still) {
  byte = Math.max(0, Math.min(size - 1, place));
  const number = partAt(byte);
  chosen = number;
  if (number < 0) { return; }
  unmark();
  const part = data.parts[number];
  mark(document.getElementById('t' + number), 'now');
  const segment = segmentAt(part[1], part[2]);
  if (segment >= 0) { mark(document.getElementById('s' + part[1] + '-' + segment), 'now'); }
  if (part[0] === 'V') { markNames(part[4]); }
  readout.textContent = told(byte);
  show(text, byte, still);
}
// Selects a part also if it has no byte.
function selectPart(wanted) {
  select(starts[wanted]);
  chosen = wanted;
  unmark();
  mark(document.getElementById('t' + wanted), 'now');
  markNames(data.parts[wanted][4]);
  readout.textContent = toldOf(wanted, starts[wanted]);
}
function toSource() {
  const number = chosen;
  if (number < 0) { return; }
  const [kind, member, offset] = data.parts[number];
  const at = kind === 'C' ? offset + byte - starts[number] : offset;
  sourceOf(member).focus({preventScroll: true});
  document.getElementById('m' + member).scrollIntoView({block: 'nearest'});
  sourcePlace = [member, at];
  show(sourceOf(member), Math.min(shownOffset(at), contentOf(sourceOf(member)).length - 1));
}
let sourcePlace = null, turn = 0;
function toText(member, offset) {
  const segment = segmentAt(member, offset);
  if (segment < 0) {
    readout.textContent = placeWords(member, offset) + ' did not go into the text';
    return;
  }
  const numbers = data.segments[member][segment][2];
  const isSame = sourcePlace && sourcePlace[0] === member && sourcePlace[1] === offset;
  turn = isSame ? (turn + 1) % numbers.length : 0;
  sourcePlace = [member, offset];
  const part = data.parts[numbers[turn]];
  select(starts[numbers[turn]] + (part[0] === 'C' ? offset - part[2] : 0));
  if (numbers.length > 1) { readout.textContent += '  (' + (turn + 1) + ' of ' + numbers.length + ' places; again for the next)'; }
}

// ---- pointing

// The place in an element that is under the pointer.
function placeUnder(element, event) {
  let node, offset;
  if (document.caretPositionFromPoint) {
    const found = document.caretPositionFromPoint(event.clientX, event.clientY);
    if (!found) { return -1; }
    [node, offset] = [found.offsetNode, found.offset];
  } else {
    const found = document.caretRangeFromPoint(event.clientX, event.clientY);
    if (!found) { return -1; }
    [node, offset] = [found.startContainer, found.startOffset];
  }
  if (node.nodeType !== Node.TEXT_NODE || !element.contains(node)) { return -1; }
  const range = document.createRange();
  range.setStart(element, 0);
  range.setEnd(node, offset);
  let place = range.toString().length;
  if (place > 0) {    // a caret stands between two characters: the pointer may be on the one before
    const rect = rectAt(element, place - 1);
    if (rect && event.clientX >= rect.left && event.clientX < rect.right && event.clientY >= rect.top && event.clientY < rect.bottom) { place -= 1; }
  }
  return place;
}
let waiting = false;
function onceAFrame(call) {
  if (waiting) { return; }
  waiting = true;
  requestAnimationFrame(() => { waiting = false; call(); });
}
if (text) {
  text.addEventListener('pointermove', event => onceAFrame(() => {
    const span = event.target.closest('span.z');
    const place = placeUnder(text, event);
    if (span) { readout.textContent = toldOf(Number(span.id.slice(1)), 0); } else if (place >= 0) { readout.textContent = told(place); }
  }));
  text.addEventListener('click', event => {
    const place = placeUnder(text, event);
    if (place >= 0) { select(place, true); toSource(); }
  });
  text.addEventListener('keydown', event => { if (move(event.key, event)) { event.preventDefault(); } });
  text.addEventListener('focus', () => { if (size && chosen < 0) { select(byte, true); } });
}
for (const element of document.querySelectorAll('.source')) {
  const member = Number(element.id.slice(6));
  element.addEventListener('pointermove', event => onceAFrame(() => {
    const place = placeUnder(element, event);
    if (place >= 0) { readout.textContent = placeWords(member, givenOffset(place)) + ' in ' + data.members[member].name; }
  }));
  element.addEventListener('click', event => {
    const place = placeUnder(element, event);
    if (place >= 0 && text) { toText(member, givenOffset(place)); }
  });
  element.addEventListener('keydown', event => {
    if (event.key === 'Enter' && sourcePlace && text) { toText(...sourcePlace); event.preventDefault(); }
    if (event.key === 'Escape' && text) { text.focus(); event.preventDefault(); }
  });
}

// ---- by keyboard

function lineStart(place) { return contentOf(text).lastIndexOf('\n', place - 1) + 1; }
function move(key, event) {
  const content = contentOf(text);
  const start = lineStart(byte), column = byte - start;
  let next = null;
  if (key === 'ArrowRight') { next = byte + 1; }
  if (key === 'ArrowLeft') { next = byte - 1; }
  if (key === 'Home') { next = event.ctrlKey ? 0 : start; }
  if (key === 'End') { const end = content.indexOf('\n', byte); next = event.ctrlKey || end < 0 ? size - 1 : end; }
  if (key === 'ArrowDown') {
    const end = content.indexOf('\n', byte);
    if (end >= 0) { const after = content.indexOf('\n', end + 1); next = Math.min(end + 1 + column, after < 0 ? size - 1 : after); }
  }
  if (key === 'ArrowUp' && start > 0) { next = Math.min(lineStart(start - 1) + column, start - 1); }
  if (key === ']' || key === '[') { next = nextValue(key === ']' ? 1 : -1); }
  if (key === 'Enter') { toSource(); return true; }
  if (next === null) { return false; }
  select(next);
  return true;
}
// The next replacement forth or back.
function nextValue(step) {
  for (let number = partAt(byte) + step; number >= 0 && number < data.parts.length; number += step) {
    if (data.parts[number][0] === 'V' && data.parts[number][3] > 0) { return starts[number]; }
  }
  return null;
}

// ---- names and search

for (const link of document.querySelectorAll('.names a')) {
  link.addEventListener('click', event => {
    event.preventDefault();
    selectPart(Number(link.hash.slice(2)));
    if (link.className === 'from') { toSource(); } else { text.focus(); }
  });
}
for (const cell of document.querySelectorAll('.names tbody th')) {
  cell.addEventListener('click', () => { unmark(); markNames(cell.textContent); if (now[0]) { selectPart(Number(now[0].id.slice(1))); } });
}
// What is not in the text may be in a source.
function searchSources(what) {
  for (let member = 0; member < data.members.length; member += 1) {
    const at = contentOf(sourceOf(member)).indexOf(what);
    if (at >= 0) {
      unmark();
      show(sourceOf(member), at);
      readout.textContent = 'not in the text; in the sources at ' + placeWords(member, givenOffset(at));
      return;
    }
  }
  readout.textContent = '\u201c' + what + '\u201d is neither in the text nor in the sources';
}
const form = document.querySelector('form');
const wanted = document.getElementById('wanted');
let found = -1;
if (form) { form.addEventListener('submit', event => {
  event.preventDefault();
  const what = wanted.value;
  if (!what) { return; }
  const content = contentOf(text);
  found = content.indexOf(what, found + 1);
  if (found < 0) { found = content.indexOf(what); }
  if (found < 0) { searchSources(what); return; }
  select(found);
  let count = 0, at = -1, which = 0;
  while ((at = content.indexOf(what, at + 1)) >= 0) { count += 1; if (at <= found) { which = count; } }
  readout.textContent = told(found) + '  (' + which + ' of ' + count + ')';
}); }
document.addEventListener('input', () => { found = -1; });
document.addEventListener('keydown', event => {
  if (form && event.key === '/' && document.activeElement !== wanted) { wanted.focus(); event.preventDefault(); }
});
const refused = document.querySelector('.s.refused');
if (refused) { refused.scrollIntoView({block: 'center', inline: 'nearest'}); }
