// Parts of the graph that look alike, which are shown as one. Tasks are coloured by what they are and then by the colours of
// their neighbours, until that is stable. A task with a colour that fewer than three have belongs to the trunk; what hangs
// together without the trunk is a part.

const FEWEST_ALIKE = 3;
// how many tasks and edges are looked at before nothing is folded
const MOST_WORK = 2e6;

function bodyShape(body) {
  const keyShape = (statement, key) => (Array.isArray(statement[key]) ? `${key}[${bodyShape(statement[key])}]` : key);
  const shape = (statement) =>
    typeof statement === "string" ? statement : Object.keys(statement).map((key) => keyShape(statement, key)).join();
  return (body || []).map(shape).join(";");
}

function taskShape(id) {
  const { kind, options, token, body } = tasks[id];
  return [kind, [...(options || [])].sort(), token, requestedBy[id], bodyShape(body)].join("|");
}

// Each task's neighbours among these, with how they stand to it.
function neighboursAmong(ids) {
  const inside = new Set(ids);
  const behind = (id) => edgesTo[id].filter((edge) => inside.has(edge.from)).map((edge) => [`${edge.kind}<`, edge.from]);
  const ahead = (id) => edgesFrom[id].filter((edge) => inside.has(edge.to)).map((edge) => [`${edge.kind}>`, edge.to]);
  return new Map(ids.map((id) => [id, [...behind(id), ...ahead(id)]]));
}

// A number for each task, the same for those of the same key; and how many there are.
function numberedBy(ids, keyOf) {
  const numbers = new Map();
  const colours = new Map();
  for (const id of ids) {
    const key = keyOf(id);
    if (!numbers.has(key)) numbers.set(key, numbers.size);
    colours.set(id, numbers.get(key));
  }
  return [colours, numbers.size];
}

// The stable colours; nothing, if that is too much work.
function coloursOf(ids, neighbours) {
  let [colours, size] = numberedBy(ids, taskShape);
  let before = 0;
  for (let work = 0; size !== before; work += ids.length + edges.length) {
    if (work > MOST_WORK) return null;
    const old = colours;
    const around = (id) => neighbours.get(id).map(([how, other]) => how + old.get(other)).sort();
    before = size;
    [colours, size] = numberedBy(ids, (id) => `${old.get(id)}:${around(id)}`);
  }
  return colours;
}

// What hangs together with a task without the trunk, and how it hangs at the trunk.
function partOf(id, neighbours, isTrunk, met) {
  const [members, hangs, ahead] = [[], new Set(), [id]];
  met.add(id);
  while (ahead.length) {
    const next = ahead.pop();
    members.push(next);
    for (const [how, other] of neighbours.get(next)) {
      if (isTrunk(other)) hangs.add(how + other);
      else if (!met.has(other)) ahead.push(other);
      met.add(other);
    }
  }
  return { members: members.sort((one, other) => one - other), hangs };
}

// The parts, those that look alike together, without those that have a task to be kept.
function alikeParts(ids, neighbours, colours, kept) {
  const sizes = new Map();
  for (const id of ids) sizes.set(colours.get(id), (sizes.get(colours.get(id)) || 0) + 1);
  const isTrunk = (id) => sizes.get(colours.get(id)) < FEWEST_ALIKE;
  const [met, alike] = [new Set(), new Map()];
  for (const id of ids) {
    if (met.has(id) || isTrunk(id)) continue;
    const { members, hangs } = partOf(id, neighbours, isTrunk, met);
    if (members.some((member) => kept.has(member))) continue;
    const key = `${members.map((member) => colours.get(member)).sort()}|${[...hangs].sort()}`;
    alike.set(key, [...(alike.get(key) || []), members]);
  }
  return [...alike.values()];
}

// Whether a way leads out of these tasks and back in: as one they would make a circle.
function leadsBack(members, inside) {
  const [own, met] = [new Set(members), new Set()];
  const next = (id) => edgesFrom[id].map((edge) => edge.to).filter((other) => inside.has(other));
  const ahead = members.flatMap(next).filter((id) => !own.has(id));
  while (ahead.length) {
    const id = ahead.pop();
    if (own.has(id)) return true;
    if (!met.has(id)) ahead.push(...next(id));
    met.add(id);
  }
  return false;
}

// Which task stands for each of these, and the groups by the task that stands for them. The tasks to be kept stand alone.
function groupsOf(ids, kept) {
  const standsFor = new Map(ids.map((id) => [id, id]));
  const groups = new Map();
  const neighbours = neighboursAmong(ids);
  const colours = coloursOf(ids, neighbours);
  if (!colours) return { standsFor, groups };
  const inside = new Set(ids);
  for (const parts of alikeParts(ids, neighbours, colours, kept)) {
    const isWorth = parts.length >= FEWEST_ALIKE || (parts.length === 2 && parts[0].length > 2);
    const members = parts.flat().sort((one, other) => one - other);
    if (!isWorth || leadsBack(members, inside)) continue;
    for (const member of members) standsFor.set(member, members[0]);
    groups.set(members[0], { parts, members });
  }
  return { standsFor, groups };
}
