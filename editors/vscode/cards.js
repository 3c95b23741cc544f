// What the cards of an RPG II source have in which columns. The table is in entries.json, which `tools/check/editors` writes.
"use strict";

const { stops, fields, entries } = require("./entries.json");

// A line as its card has it: capitals, and tabs as blanks.
function cardOf(line) {
  let card = "";
  for (const character of line.toUpperCase()) {
    card += character === "\t" ? " ".repeat(upToStop(card)) : character;
  }
  return card;
}

// How many blanks a tab after a card fills.
function upToStop(card) {
  const eighth = 8 - (card.length % 8);
  const columns = card.length < 5 ? [6] : stops[card[5]];
  if (card.startsWith("//") || !columns) {
    return eighth;
  }
  const stop = columns.find((column) => column > card.length + 1);
  return stop ? stop - 1 - card.length : 1;
}

// The sheet and the kind of a card; null for a statement, a comment and data.
function kindOf(card) {
  const sheet = card[5];
  if (/^[/#%]/.test(card) || card[6] === "*" || !/^[ \d]{5}[HFICO]/.test(card)) {
    return null;
  } else if (/[HFC]/.test(sheet)) {
    return { sheet, card: "card" };
  } else if (/^ {7}(AND|OR)/.test(card.slice(6, 16))) {
    return { sheet, card: "group" };
  }
  return { sheet, card: /\S/.test(card.slice(6, sheet === "I" ? 14 : 15)) ? "record" : "field" };
}

// The entries of a kind of card.
function entriesOfKind(kind) {
  return kind ? entries.filter((entry) => entry.sheet === kind.sheet && entry.card === kind.card) : [];
}

// Whether nothing of a card shows yet whether it is one of a record or of a field. Its kind is then that of a field.
function isUndecided(card, kind) {
  return kind !== null && kind.card === "field" && !/\S/.test(card.slice(fields[kind.sheet] - 1, 74));
}

// The entries of a card. One that isn't decided has those of a record too, except in columns of a field's entries.
function entriesOf(card) {
  const kind = kindOf(card);
  const found = entriesOfKind(kind);
  if (!isUndecided(card, kind)) {
    return found;
  }
  const others = entriesOfKind({ sheet: kind.sheet, card: "record" });
  return others.filter((other) => found.every((entry) => other.to < entry.from || entry.to < other.from)).concat(found);
}

// The entry of a column, from 1. If two entries share it, it is the one whose values the card has, or the later one.
function entryAt(card, column) {
  const found = entriesOf(card).filter((entry) => entry.from <= column && column <= entry.to);
  return found.find((entry) => entry.values.includes(card.slice(entry.from - 1, entry.to).trim())) || found[found.length - 1] || null;
}

// The entry at a place of a line, counted from 0, as `C 28-32 operation`; empty if there is none.
function rulerAt(line, place) {
  const entry = entryAt(cardOf(line), cardOf(line.slice(0, place)).length + 1);
  if (!entry) {
    return "";
  }
  return `${entry.sheet} ${entry.from === entry.to ? entry.from : `${entry.from}-${entry.to}`} ${entry.name}`;
}

// The places of a line, counted from 0, before which an entry of its card begins.
function rulersOf(line) {
  const wanted = new Set(entriesOf(cardOf(line)).map((entry) => entry.from));
  const places = [];
  for (let place = 0; place < line.length; place++) {
    if (wanted.has(cardOf(line.slice(0, place)).length + 1)) {
      places.push(place);
    }
  }
  return places;
}

module.exports = { cardOf, entryAt, kindOf, rulerAt, rulersOf, upToStop };
