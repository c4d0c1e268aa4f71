// The layout: how wide an event is, and where the lanes of callers and the rows of batches are.

export const AXIS = 20;
/** From these widths of an event on you read keys, and see each by itself. */
const READABLE = 48;
export const SEPARATE = 3;
const WIDEST = 220;
/** How many keys of an event a lane shows. The last row counts those that have none. */
export const MOST_ROWS = 6;

/** The rows of batches, and how many there are: no two batches that are open at once share one. */
function rowsOf(batches) {
  const [rows, free] = [[], []];
  const ends = batches.filter(({ ended }) => ended >= 0).sort((a, b) => a.ended - b.ended);
  let [next, count] = [0, 0];
  for (const { number, begun } of batches) {
    for (; next < ends.length && ends[next].ended < begun; next++) free.push(rows[ends[next].number]);
    if (free.length < 64) free.sort((a, b) => b - a);
    rows[number] = free.pop() ?? count++;
  }
  return [rows, count];
}

export class Layout {
  scale = 1;
  /** The width of the column with the names of lanes. */
  left = innerWidth < 480 ? 70 : 76;

  constructor(model) {
    this.model = model;
    [this.rows, this.rowCount] = rowsOf(model.batches);
    this.lanes = model.callers.map((caller, number) => ({ caller, number, rows: 1 }));
    this.laneOf = new Map(this.lanes.map((lane) => [lane.caller, lane]));
    // How many rows each event takes.
    this.taken = model.events.map((_, place) => Math.min(Math.max(model.usesOf(place)[1] - model.usesOf(place)[0], 1), MOST_ROWS));
    this.taken.forEach((rows, place) => {
      const lane = this.laneOf.get(model.events[place].caller);
      lane.rows = Math.max(lane.rows, rows);
    });
  }

  /** The width of an event by which all of them are in a view. */
  fit = (width) => Math.min(Math.max(width - this.left - 2, 50) / Math.max(this.model.events.length, 1), 150);

  /** Lays all out for a view of this size, with events that are about so wide. */
  lay(width, height, scale) {
    this.scale = Math.min(Math.max(scale, Math.min(this.fit(width), 1)), WIDEST);
    this.isReadable = this.scale >= READABLE;
    const most = Math.max(Math.min(height * 0.4, 280), 40);
    this.batchRow = Math.min(Math.max(most / Math.max(this.rowCount, 1), 2), 20);
    this.batchRows = Math.min(this.rowCount, Math.floor(most / this.batchRow));
    this.lanesTop = AXIS + (this.rowCount ? this.batchRows * this.batchRow + 8 : 0);
    [this.keyRow, this.head] = this.isReadable ? [17, 18] : [7, 4];
    this.height = this.lanesTop;
    for (const lane of this.lanes) {
      Object.assign(lane, { top: this.height - this.lanesTop, height: Math.max(this.head + lane.rows * this.keyRow + 4, 22) });
      this.height += lane.height;
    }
    this.width = this.left + this.model.events.length * this.scale + 2;
  }

  batchTop = ({ number }) => AXIS + 4 + (this.rows[number] % this.batchRows) * this.batchRow;
  batchEnd = ({ ended }) => (ended < 0 ? this.model.events.length : ended + 1);

  /** What is at a point of a view that is scrolled so far: a choice, of a key with its event, or null. */
  at(x, y, { left, top }) {
    const { model, scale } = this;
    const [place, reach] = [(x - this.left + left) / scale, 2 / scale];
    if (y < this.lanesTop) {
      const isHere = (batch) => Math.abs(y - this.batchTop(batch) - this.batchRow / 2) <= this.batchRow / 2 &&
        place > batch.begun - reach && place < this.batchEnd(batch) + reach;
      const batch = x >= this.left && model.batches.findLast(isHere);
      return batch ? { kind: "batch", number: batch.number } : null;
    }
    const down = y - this.lanesTop + top;
    const lane = this.lanes.find((one) => down >= one.top && down < one.top + one.height);
    if (!lane || x < this.left) return lane ? { kind: "caller", number: lane.caller } : null;
    const near = Array.from({ length: 2 * Math.floor(reach) + 1 }, (_, at) => Math.floor(place) + (at % 2 ? -1 : 1) * Math.ceil(at / 2));
    const event = near.find((at) => model.events[at]?.caller === lane.caller);
    if (event === undefined) return null;
    const [[first, end], row] = [model.usesOf(event), Math.floor((down - lane.top - this.head) / this.keyRow)];
    const isKey = scale >= SEPARATE && row >= 0 && row < end - first && (row < MOST_ROWS - 1 || end - first === MOST_ROWS);
    return isKey ? { kind: "key", number: model.uses.key[first + row], event } : { kind: "event", number: event };
  }
}
