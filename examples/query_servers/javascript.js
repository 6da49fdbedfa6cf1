#!/usr/bin/env node
// A query server whose functions are JavaScript: `function (doc) { emit(doc.n, 1) }` as a map function, and
// `function (keys, values, rereduce) { return sum(values) }` as a reduce function. It reads one JSON value a line and
// answers each with one line, after any log lines (CouchDB documentation, "Query Server Protocol").
'use strict';

const fs = require('fs');
const vm = require('vm');

// The rows of the map function that runs now.
let rows = [];

// What functions can call. The context keeps them from our variables by mistake, and is no fence against malice.
const context = vm.createContext({
  emit: (key, value) => { rows.push([key, value]); },
  log: (message) => log(typeof message === 'string' ? message : JSON.stringify(message)),
  sum: (values) => values.reduce((a, b) => a + b, 0),
  isArray: Array.isArray,
  toJSON: JSON.stringify,
});

// The map functions that were added since the last reset.
let functions = [];

// Reduce functions by their sources, since each reduce line brings its sources.
const reduces = new Map();

class CompilationError extends Error {}

function compile(source) {
  let compiled;
  try {
    compiled = vm.runInContext('(' + source + '\n)', context);
  } catch (error) {
    throw new CompilationError(String(error));
  }
  if (typeof compiled !== 'function') throw new CompilationError('the source is no function');
  return compiled;
}

function reduceFunction(source) {
  if (!reduces.has(source)) reduces.set(source, compile(source));
  return reduces.get(source);
}

// No function sees what another one did to the document.
function freeze(value) {
  if (typeof value === 'object' && value !== null) Object.values(Object.freeze(value)).forEach(freeze);
  return value;
}

// The rows of one function as text. One that throws gives none.
function rowsOf(map, doc) {
  rows = [];
  try {
    map(doc);
    return JSON.stringify(rows);
  } catch (error) {
    log('a map function raised an exception for document ' + doc._id + ': ' + error);
    return '[]';
  }
}

// The result of one reduce function as text: null where it throws.
function resultOf(reduce, keys, values, rereduce) {
  try {
    return JSON.stringify(reduce(keys, values, rereduce)) ?? 'null';
  } catch (error) {
    log('a reduce function raised an exception: ' + error);
    return 'null';
  }
}

const commands = {
  reset() {
    functions = [];
    reduces.clear();
    return 'true';
  },
  add_fun(source) {
    functions.push(compile(source));
    return 'true';
  },
  map_doc(doc) {
    freeze(doc);
    return '[' + functions.map((map) => rowsOf(map, doc)).join(',') + ']';
  },
  reduce(sources, pairs) {
    const keys = pairs.map((pair) => pair[0]);
    const values = pairs.map((pair) => pair[1]);
    return '[true,[' + sources.map(reduceFunction).map((f) => resultOf(f, keys, values, false)).join(',') + ']]';
  },
  rereduce(sources, values) {
    return '[true,[' + sources.map(reduceFunction).map((f) => resultOf(f, null, values, true)).join(',') + ']]';
  },
};

function answer(line) {
  try {
    const [name, ...rest] = JSON.parse(line);
    if (!Object.hasOwn(commands, name)) return JSON.stringify(['error', 'unknown_command', String(name)]);
    return commands[name](...rest);
  } catch (error) {
    const kind = error instanceof CompilationError ? 'compilation_error' : 'unknown_command';
    return JSON.stringify(['error', kind, error.message]);
  }
}

// Writes the whole line at once, so that nothing waits in a buffer.
function print(text) {
  let bytes = Buffer.from(text + '\n');
  while (bytes.length > 0) bytes = bytes.subarray(fs.writeSync(1, bytes));
}

function log(message) {
  print(JSON.stringify(['log', message]));
}

// Lines end with a newline alone, and may be long: the parts of one are put together once.
const piece = Buffer.alloc(65536);
let parts = [];
for (let count = fs.readSync(0, piece); count > 0; count = fs.readSync(0, piece)) {
  let start = 0;
  for (let end = piece.indexOf(10); end >= 0 && end < count; end = piece.indexOf(10, start)) {
    parts.push(Buffer.from(piece.subarray(start, end)));
    print(answer(Buffer.concat(parts).toString()));
    parts = [];
    start = end + 1;
  }
  parts.push(Buffer.from(piece.subarray(start, count)));
}
