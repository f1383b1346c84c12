// The whole list of posts in one narrow picture: a column for each node, and a frame round what is in sight.
import { COLOURS, MARKS } from "./words.js";
import { KIND_LIST } from "./votes.js";
import { placeOf } from "./filters.js";

export class Minimap {
  constructor(canvas, world, onMove) {
    Object.assign(this, { canvas, world, onMove });
    this.picture = document.createElement("canvas");
    const move = (event) => {
      if (event.buttons === 1) onMove((event.clientY - canvas.getBoundingClientRect().top) / canvas.clientHeight);
    };
    canvas.addEventListener("pointerdown", (event) => {
      canvas.setPointerCapture(event.pointerId);
      move(event);
    });
    canvas.addEventListener("pointermove", move);
  }

  // Paints all posts of a list: each line of the picture has the last post of each node that falls on it.
  paint(list) {
    const { canvas, picture, world } = this;
    const { history, config } = world;
    canvas.width = canvas.clientWidth;
    canvas.height = canvas.clientHeight;
    picture.width = canvas.width;
    picture.height = canvas.height;
    const pen = picture.getContext("2d");
    pen.fillStyle = "#fafafa";
    pen.fillRect(0, 0, picture.width, picture.height);
    const width = (picture.width - 8) / config.n;
    const step = Math.max(1, list.length / (picture.height * 24));
    const height = Math.max(1, picture.height / Math.max(1, list.length));
    for (let at = 0; at < list.length; at += step) {
      const k = list[Math.floor(at)];
      if (history.from[k] < config.n) {
        const colour = COLOURS[KIND_LIST[history.kind[k]].name];
        pen.fillStyle = colour === "#ffffff" ? MARKS.illegal.line : colour;
        pen.fillRect(
          4 + history.from[k] * width,
          (Math.floor(at) / list.length) * picture.height,
          Math.max(1, width - 1),
          height,
        );
      }
    }
    this.paintMarks(pen, list);
  }

  paintMarks(pen, list) {
    for (const [k, mark] of this.world.marks) {
      const place = placeOf(list, k);
      pen.fillStyle = MARKS[mark].line;
      if (list[place] === k) pen.fillRect(0, (place / list.length) * this.picture.height - 1, this.picture.width, 3);
    }
  }

  // Draws the picture with the frame, and a line at the selected post.
  draw(view, rows) {
    const { canvas, picture } = this;
    if (picture.width === 0 || picture.height === 0) return;
    const pen = canvas.getContext("2d");
    const { length } = view.list;
    pen.drawImage(picture, 0, 0);
    if (length === 0) return;
    const top = (view.top / length) * canvas.height;
    const height = Math.max(6, (Math.min(rows, length) / length) * canvas.height);
    pen.fillStyle = "rgba(255,233,168,0.18)";
    pen.fillRect(0, top, canvas.width, height);
    pen.strokeStyle = "#1b1b1b";
    pen.lineWidth = 2;
    pen.strokeRect(1, top, canvas.width - 2, height);
    if (view.selected === null) return;
    pen.fillStyle = "#8a6100";
    pen.fillRect(0, (placeOf(view.list, view.selected) / length) * canvas.height - 1, canvas.width, 2);
  }
}
