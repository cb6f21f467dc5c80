// A layered layout: ranks by longest paths, lines to a WhenAll or WhenAny that are shared, few crossings by sweeps, and places by
// least squares with the order kept. Across are the places in a rank; along goes from rank to rank.

// this many bends for long edges; past them an edge is drawn straight
const MOST_BENDS = 20000;
const BEND_WIDTH = 4;
const MANY_LINES = 4000;
const VERY_MANY_LINES = 20000;

class Layers {
  // nodes: {across, along} in an order in which each link goes forward; links: [from, to]; room: behind each rank
  constructor(nodes, links, gap, room) {
    this.nodes = nodes;
    this.links = links;
    this.gap = gap;
    this.incoming = nodes.map(() => []);
    this.outgoing = nodes.map(() => []);
    for (const [from, to] of links) {
      this.incoming[to].push(from);
      this.outgoing[from].push(to);
    }
    this.points = [];
    this.rows = [];
    this.rank = this.ranks();
    nodes.forEach((node, index) => this.addPoint(this.rank[index], node.across, index));
    this.bends = nodes.map(() => []);
    this.bendsLeft = MOST_BENDS;
    for (const [from, to] of links) this.addLine(from, to);
    this.lines = this.points.reduce((sum, point) => sum + point.down.length, 0);
    this.arrange();
    this.placeAll();
    this.measure(room);
  }

  // Each node as early as its links let it; one without links into it as late as those out of it let it.
  ranks() {
    const rank = this.nodes.map(() => 0);
    rank.forEach((_, node) => {
      rank[node] = Math.max(0, ...this.incoming[node].map((from) => rank[from] + 1));
    });
    for (let node = rank.length - 1; node >= 0; node--) {
      const isSource = !this.incoming[node].length && this.outgoing[node].length;
      if (isSource) rank[node] = Math.min(...this.outgoing[node].map((to) => rank[to])) - 1;
    }
    return rank;
  }

  addPoint(rank, width, node) {
    const point = { rank, width, node, up: [], down: [], center: 0, order: 0, isBend: node < 0 };
    this.points.push(point);
    (this.rows[rank] ||= []).push(point);
    return point;
  }

  // A line through a bend in each rank between; all long lines to one node share their bends.
  addLine(from, to) {
    const [first, last] = [this.rank[from] + 1, this.rank[to]];
    const bends = this.bends[to];
    if (first < last && !bends[first] && this.bendsLeft > last - first) {
      let rank = first;
      for (; rank < last && !bends[rank]; rank++) {
        bends[rank] = this.addPoint(rank, BEND_WIDTH, -1);
        this.bendsLeft--;
        if (rank > first) this.join(bends[rank - 1], bends[rank]);
      }
      this.join(bends[rank - 1], rank < last ? bends[rank] : this.points[to]);
    }
    this.join(this.points[from], (first < last && bends[first]) || this.points[to]);
  }

  join(upper, lower) {
    upper.down.push(lower);
    lower.up.push(upper);
  }

  // The points through which the line from one node to another goes.
  through(from, to) {
    const bends = this.bends[to].slice(this.rank[from] + 1, this.rank[to]).filter(Boolean);
    return [this.points[from], ...bends, this.points[to]];
  }

  // Orders each rank: as a search in depth comes to its points, and then by sweeps, as long as crossings get fewer.
  arrange() {
    this.searchInDepth();
    const backward = [...this.rows].reverse();
    const sweeps = this.lines > VERY_MANY_LINES ? 2 : this.lines > MANY_LINES ? 6 : 20;
    let fewest = this.crossings();
    let best = this.points.map((point) => point.order);
    for (let sweep = 0; sweep < sweeps && fewest; sweep++) {
      if (sweep % 2) this.sweep("down", backward);
      else this.sweep("up", this.rows);
      const crossings = this.crossings();
      if (crossings >= fewest) continue;
      fewest = crossings;
      best = this.points.map((point) => point.order);
    }
    this.points.forEach((point, index) => (point.order = best[index]));
    this.rows.forEach(sortRow);
  }

  searchInDepth() {
    const met = new Set();
    const ahead = this.points.filter((point) => !point.isBend && !this.incoming[point.node].length).reverse();
    while (ahead.length) {
      const point = ahead.pop();
      if (met.has(point)) continue;
      point.order = met.size;
      met.add(point);
      for (let index = point.down.length - 1; index >= 0; index--) ahead.push(point.down[index]);
    }
    this.rows.forEach(sortRow);
  }

  sweep(side, rows) {
    const meanOrder = (point) =>
      point[side].length ? point[side].reduce((sum, other) => sum + other.order, 0) / point[side].length : point.order;
    for (const row of rows) {
      for (const point of row) point.wanted = meanOrder(point);
      row.sort((one, other) => one.wanted - other.wanted || one.order - other.order);
      row.forEach((point, order) => (point.order = order));
    }
  }

  crossings() {
    return this.rows.reduce((sum, row) => sum + rowCrossings(row), 0);
  }

  // Places each rank nearest to where the points above and below it are.
  placeAll() {
    for (const point of this.points) point.weight = point.isBend ? 6 : point.up.length + point.down.length ? 1 : 0.01;
    for (const row of this.rows) placeRow(row, this.gap, () => 0);
    const backward = [...this.rows].reverse();
    const rounds = this.lines > VERY_MANY_LINES ? 5 : 14;
    for (let round = 0; round < rounds; round++) {
      this.middle = this.points.reduce((sum, point) => sum + point.center, 0) / this.points.length;
      const isLast = round > rounds - 3;
      const sides = isLast ? ["up", "down"] : round % 2 ? ["down"] : ["up"];
      const rows = !isLast && round % 2 ? backward : this.rows;
      for (const row of rows) placeRow(row, this.gap, (point) => this.wantedCenter(point, sides));
    }
  }

  // The mean of the centers of a point's neighbours, where lines between bends count most, so that they are straight.
  wantedCenter(point, sides) {
    let [sum, weights] = [0, 0];
    for (const other of sides.flatMap((side) => point[side])) {
      const weight = point.isBend && other.isBend ? 8 : other.isBend ? 1 : 2;
      sum += weight * other.center;
      weights += weight;
    }
    if (weights) return sum / weights;
    return point.up.length + point.down.length ? point.center : this.middle;
  }

  // Where each point begins and ends along, and how much room the whole takes.
  measure(room) {
    const least = this.points.reduce((low, point) => Math.min(low, point.center - point.width / 2), Infinity);
    const depths = this.rows.map((row) => Math.max(0, ...row.map((point) => (point.isBend ? 0 : this.nodes[point.node].along))));
    const starts = [];
    this.along = depths.reduce((sum, depth, rank) => (starts[rank] = sum) + depth + room, 0);
    for (const point of this.points) {
      point.center -= least;
      point.start = starts[point.rank];
      point.end = point.start + (point.isBend ? depths[point.rank] : this.nodes[point.node].along);
    }
    this.across = this.points.reduce((high, point) => Math.max(high, point.center + point.width / 2), 0);
  }
}

function sortRow(row) {
  row.sort((one, other) => one.order - other.order);
  row.forEach((point, order) => (point.order = order));
}

// How many lines from a row to the next cross, by a tree of sums over the places in the next.
function rowCrossings(row) {
  const size = 1 + row.reduce((most, point) => point.down.reduce((high, lower) => Math.max(high, lower.order + 1), most), 0);
  const sums = new Array(size + 1).fill(0);
  let [seen, crossings] = [0, 0];
  for (const point of row) {
    const ends = point.down.map((lower) => lower.order + 1);
    for (const end of ends) crossings += seen - sumUpTo(sums, end);
    for (const end of ends) for (let place = end; place <= size; place += place & -place) sums[place]++;
    seen += ends.length;
  }
  return crossings;
}

function sumUpTo(sums, end) {
  let sum = 0;
  for (let place = end; place > 0; place -= place & -place) sum += sums[place];
  return sum;
}

// Places a row by least squares to where its points want to be, with the order and the gaps kept: neighbours that want to pass
// each other move as one block.
function placeRow(row, gap, wanted) {
  const blocks = [];
  let offset = 0;
  row.forEach((point, index) => {
    if (index) offset += (row[index - 1].width + point.width) / 2 + gap * (point.isBend || row[index - 1].isBend ? 0.6 : 1);
    point.offset = offset;
    let block = { weight: point.weight, sum: point.weight * (wanted(point) - offset), size: 1 };
    while (blocks.length && blocks.at(-1).sum / blocks.at(-1).weight >= block.sum / block.weight) {
      const { weight, sum, size } = blocks.pop();
      block = { weight: block.weight + weight, sum: block.sum + sum, size: block.size + size };
    }
    blocks.push(block);
  });
  const places = blocks.flatMap(({ sum, weight, size }) => new Array(size).fill(sum / weight));
  row.forEach((point, index) => (point.center = places[index] + point.offset));
}
