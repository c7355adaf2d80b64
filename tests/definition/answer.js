// node answer.js DEFINITION: answers records as the referee does, by the definition that translate.py has written.
// It reads records from standard input until it ends: flags (1 if the bodies are card images, else 0), text room, list
// room, steps and deck length (four bytes each, little-endian), then the deck. For each it prints the six numbers, the
// lines of the origin list, the text and a line feed.
'use strict';
const fs = require('fs');
const path = require('path');
const { Worker, isMainThread, workerData } = require('worker_threads');

// What is taken from the definition: the expansion of a deck, the letters in force, the layout by its number, and what the
// program prints.
const EXPANSION = 'Expansion.expansion_of';
const LETTERS = process.env.LETTERS || 'Bytes.mixed';
const LAYOUT = 'Cards.layout_for';
const PRINTED = 'Printed.printed';
// The bytes of a record before its deck.
const HEADER = 20;
// The definition goes as deep as a deck is long in a few places.
const STACK_MEGABYTES = 512;

// A definition that is taken, by its name.
function taken(definition, name) {
  if (!definition.definitions[name]) throw new Error(`the specs define no ${name}`);
  return definition.definitions[name];
}

function write(bytes) {
  for (let at = 0; at < bytes.length; ) {
    try {
      at += fs.writeSync(1, bytes, at);
    } catch (error) {
      if (error.code !== 'EAGAIN') throw error;
    }
  }
}

function answerAll(definition, input) {
  const expansion = taken(definition, EXPANSION);
  const letters = taken(definition, LETTERS);
  const layoutFor = taken(definition, LAYOUT);
  const printed = taken(definition, PRINTED);
  for (let at = 0; at < input.length; ) {
    if (at + HEADER > input.length) throw new Error('a record is cut short');
    const [flags, textRoom, listRoom, steps, size] = [0, 4, 8, 12, 16].map((k) => input.readUInt32LE(at + k));
    const deck = input.subarray(at + HEADER, at + HEADER + size);
    if (deck.length < size) throw new Error('a record is cut short');
    if (flags > 1) throw new Error('a record has flags that mean nothing');
    const answer = expansion(letters, layoutFor(flags), true, definition.listOf([...deck]), textRoom, listRoom, steps);
    write(Buffer.from(definition.itemsOf(printed(answer))));
    at += HEADER + size;
  }
}

if (isMainThread) {
  const worker = new Worker(__filename, {
    workerData: process.argv[2],
    resourceLimits: { stackSizeMb: STACK_MEGABYTES, maxOldGenerationSizeMb: 3000 },
  });
  worker.on('error', (error) => {
    process.stderr.write(`answer.js: ${error.stack || error}\n`);
    process.exitCode = 1;
  });
} else {
  answerAll(require(path.resolve(workerData)), fs.readFileSync(0));
}
