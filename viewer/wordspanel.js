// The words of the page with their meanings, the letters and colours of the votes, and the keys.
import { chip, element, fill, table } from "./dom.js";
import { KIND_LIST } from "./votes.js";
import { MEANINGS } from "./words.js";

const KEYS = [
  ["/", "go to the field for the number of a post"],
  ["arrows up and down", "in the picture: the post before or after; in a grid: the cell above or below"],
  ["arrows left and right", "in the picture: the post before or after of the same node; in a grid: the cell beside"],
  ["page up, page down, home, end", "scroll the picture"],
  ["+ and -", "zoom the picture"],
  ["Enter", "from the picture to the panel of the selected post"],
  ["Escape", "back to the picture, and hide a hint"],
  ["Tab", "to the next link, filter or button"],
];

const GROUPS = { broadcast: "broadcast (square)", agreement: "agreement (round)", desk: "desk (six-sided)", none: "" };

const PICTURE = [
  ["full arrow", "the post reaches this node"],
  ["two arrow heads", "it arrives twice"],
  ["hollow arrow", "it comes late, when nothing else is left to deliver"],
  ["red cross", "a link of the scenario drops it"],
  ["letter without an arrow", "it goes to no other node: to the node's own desk or lanes, or to nobody"],
  ["yellow row", "the selected post"],
  ["green row", "a post on which the selected one rests"],
  ["red frame", "the post that the audit names"],
  ["purple frame", "a post that contradicts another of the same node"],
  ["blue frame", "after a power stop of the scenario an actor begins again here, and says once more what it had said"],
  ["round of a DECIDED", "the round in which the lane decided; the vote itself names none"],
  ["hatched column", "a liar"],
  ["grey column", "a node that ended"],
];

// A heading, and a table whose caption repeats it for a screen reader.
function listed(title, heads, rows) {
  return [element("h3", {}, title), table(title, heads, rows, { class: "words" })];
}

export function fillWords(section) {
  const kinds = KIND_LIST.map((kind) => [[chip(kind.name), ` ${kind.name}`], GROUPS[kind.group], MEANINGS.get(kind.name)]);
  const isKind = new Set(KIND_LIST.map((kind) => kind.name));
  const others = [...MEANINGS].filter(([name]) => !isKind.has(name)).sort(([one], [other]) => one.localeCompare(other));
  fill(section, [
    element("h2", {}, "Words and keys"),
    listed("Votes", ["Vote", "Part", "Meaning"], kinds),
    listed("The picture of a run", ["Sign", "Meaning"], PICTURE),
    listed("Keys", ["Key", "What it does"], KEYS),
    listed("Other words", ["Word", "Meaning"], others),
  ]);
}
