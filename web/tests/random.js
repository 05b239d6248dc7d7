// Random buildings, the same for the same seed: some with windows, people who come later, small rooms and halls of capacity 0.

export class Random {
  constructor(seed) {
    this.state = seed >>> 0 || 1;
  }

  /** A number from 0 to below n. */
  below(n) {
    this.state ^= this.state << 13;
    this.state ^= this.state >>> 17;
    this.state ^= this.state << 5;
    return (this.state >>> 0) % n;
  }

  one(list) {
    return list[this.below(list.length)];
  }
}

export function randomBuilding(random) {
  const rooms = 1 + random.below(6), halls = random.below(5), exits = 1 + random.below(3), horizon = 30 + random.below(60);
  const lines = ['evacplan 2', `period ${1 + random.below(10)}`, `horizon ${horizon}`, 'floor 1 Ground'];
  const names = [];
  for (let at = 1; at <= rooms; at++) {
    const capacity = 5 + random.below(30);
    names.push(`WP${at}.1`);
    lines.push(`node WP${at}.1 ${capacity} ${random.below(capacity + 1)}`);
  }
  for (let at = 1; at <= halls; at++) {
    names.push(`HA${at}.1`);
    lines.push(`node HA${at}.1 ${random.below(12)} 0`);
  }
  const doors = Array.from({ length: exits }, (_, at) => `DS${at + 1}.1`), arcs = [];
  lines.push(...doors.map((name) => `node ${name}`));
  const join = (tail, head) => {
    if (tail === head || arcs.some((arc) => arc[0] === tail && arc[1] === head)) return;
    arcs.push([tail, head]);
    lines.push(`arc ${tail} ${head} ${1 + random.below(5)} ${1 + random.below(6)}`);
  };
  names.forEach((name) => join(name, random.one([...names, ...doors])));
  for (let more = 0; more < names.length + 2; more++) join(random.one(names), random.one([...names, ...doors]));
  join(names.at(-1), doors[0]);
  for (let more = random.below(3); more > 0; more--) {
    const [tail, head] = random.one(arcs), first = random.below(horizon);
    if (!lines.some((line) => line.startsWith(`window ${tail} ${head} `))) lines.push(`window ${tail} ${head} ${first} ${first + 1 + random.below(8)}`);
  }
  for (let more = random.below(3); more > 0; more--) {
    const name = random.one(names), moment = 1 + random.below(15);
    if (!lines.some((line) => line.startsWith(`entrant ${name} ${moment} `))) lines.push(`entrant ${name} ${moment} ${1 + random.below(6)}`);
  }
  return `${lines.join('\n')}\nend\n`;
}

/** A building near the limits of the language: 400 nodes, 1,600 arcs and nearly 1,000,000 cells, of which many people take many ways to many exits. */
export function largestBuilding(seed = 7, exits = 60) {
  const random = new Random(seed), rooms = 400 - exits, arcs = new Set();
  const floors = Array.from({ length: 100 }, (_, at) => `floor ${at} Storey ${at}`);
  const names = Array.from({ length: rooms }, (_, at) => `WP${1 + Math.floor(at / 100)}.${at % 100}`);
  const doors = Array.from({ length: exits }, (_, at) => `DS${1 + Math.floor(at / 100)}.${at % 100}`);
  const join = (tail, head) => tail !== head && arcs.size < 1600 && arcs.add(`${tail} ${head}`);
  names.forEach((name, at) => join(name, at < exits ? doors[at] : names[random.below(at)]));
  while (arcs.size < 1600) join(random.one(names), random.one(names));
  const lines = [...names.map((name) => `node ${name} ${300 + random.below(200)} ${200 + random.below(90)}`), ...doors.map((name) => `node ${name}`)];
  const ways = [...arcs].map((way) => `arc ${way} ${1 + random.below(9)} ${1 + random.below(3)}`);
  return ['evacplan 2', 'title The largest', 'period 1', 'horizon 499', ...floors, ...lines, ...ways, 'end', ''].join('\n');
}

/** A building that takes seconds: rows of rooms with quick and slow, wide and narrow ways between them, and exits at random places. */
export function slowBuilding(seed = 5) {
  const random = new Random(seed), across = 16, rooms = 378, exits = 16, ways = new Map();
  const name = (at) => `WP${at + 1}.0`, doors = Array.from({ length: exits }, (_, at) => `DS${at + 1}.0`);
  const numbers = () => `${random.one([1, 4, 64])} ${random.one([1, 1, 10000])}`;
  for (let at = 0; ways.size < 420; at++) for (const other of [at + 1, at - 1, at + across]) if (other >= 0) ways.set(`${name(at)} ${name(other)}`, numbers());
  doors.forEach((door) => ways.set(`${name(random.below(140))} ${door}`, `${1 + random.below(30)} ${1 + random.below(3)}`));
  const nodes = Array.from({ length: rooms }, (_, at) => `node ${name(at)} ${random.one([138, 100000])} 138`);
  const arcs = [...ways].map(([way, of]) => `arc ${way} ${of}`);
  return ['evacplan 2', 'period 1', 'horizon 1200', 'floor 0 x', ...nodes, ...doors.map((it) => `node ${it}`), ...arcs, 'end', ''].join('\n');
}
