// Where things stand in the picture of a run: a row for each post, texts on the left, and a column for each node.

export const ROW_HEIGHTS = [2, 4, 8, 14, 20, 26, 34];
export const HEAD = 34;
// from this height on a row has its texts, and from this one on its arrows have heads
export const TEXT_HEIGHT = 14;
export const ARROW_HEIGHT = 8;

const COLUMNS = [["post", 8], ["vote", 66], ["epoch", 152], ["lane", 202], ["round", 242], ["says", 292]];
const GUTTER = 342;

export class Layout {
  constructor(nodes) {
    this.nodes = nodes;
    this.zoom = 4;
    this.width = 600;
    this.height = 400;
  }

  resize(width, height) {
    this.width = width;
    this.height = height;
  }

  get rowHeight() {
    return ROW_HEIGHTS[this.zoom];
  }

  // Zooms by so many steps; answers whether anything changed.
  zoomBy(steps) {
    const zoom = Math.min(Math.max(0, this.zoom + steps), ROW_HEIGHTS.length - 1);
    const isOther = zoom !== this.zoom;
    this.zoom = zoom;
    return isOther;
  }

  get textColumns() {
    return COLUMNS;
  }

  get gutter() {
    return GUTTER;
  }

  // How many rows are in sight.
  get rows() {
    return Math.max(1, (this.height - HEAD) / this.rowHeight);
  }

  columnWidth() {
    return (this.width - GUTTER - 8) / this.nodes;
  }

  nodeX(node) {
    return GUTTER + (node + 0.5) * this.columnWidth();
  }

  // The top of a row, counted from the first in sight.
  rowY(place, top) {
    return HEAD + (place - top) * this.rowHeight;
  }

  placeAt(y, top) {
    return Math.floor(top + (y - HEAD) / this.rowHeight);
  }

  // The greatest top so that the last row can be seen.
  lastTop(count) {
    return Math.max(0, count - Math.floor(this.rows) + 1);
  }
}
