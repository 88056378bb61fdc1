// What is seen of runs, in few words: so few that runs of one class read alike, and runs of two classes do not.

const FIRST = 2; // assignments that are always written
const seenEvents = (run) => run.events.filter((event) => event.isSeen);
const eventText = (event) => (event ? `${event.variable} = ${event.value} @${event.cycle}` : 'no more');

// The text of a sequence at chosen places, with … for what is left out.
function textAt(events, places) {
  if (events.length === 0) return 'nothing';
  const parts = [];
  let next = 0;
  for (const place of places) {
    if (place > events.length) break;
    if (place > next) parts.push('…');
    parts.push(eventText(events[place]));
    next = place + 1;
  }
  if (next < events.length) parts.push('…');
  const text = parts.filter((part, k) => part !== 'no more' || k === parts.length - 1).join(', ');
  return parts.includes('…') ? `${text} (${events.length} in all)` : text.replace(/, no more$/, '');
}

/** The words for each run: its first assignments that are seen, and further ones where only those tell runs apart. */
export function seenTexts(runs) {
  const ofClass = new Map();
  for (const run of runs) if (!ofClass.has(run.class)) ofClass.set(run.class, seenEvents(run));
  const places = new Set(Array.from({ length: FIRST }, (_, k) => k));
  const sorted = () => [...places].sort((a, b) => a - b);
  for (;;) {
    const byText = new Map();
    let differing = -1;
    for (const events of ofClass.values()) {
      const text = textAt(events, sorted()), twin = byText.get(text);
      if (twin) differing = firstDifference(twin, events);
      if (differing >= 0) break;
      byText.set(text, events);
    }
    if (differing < 0 || places.has(differing)) break;
    places.add(differing);
  }
  const texts = new Map([...ofClass].map(([number, events]) => [number, textAt(events, sorted())]));
  return runs.map((run) => texts.get(run.class));
}

/** A word for each of several different sequences: where it parts from the last one of the others; where such words
    read alike, those of `seenTexts`. */
export function partingTexts(sequences) {
  const texts = sequences.map((events) => {
    const others = sequences.filter((other) => other !== events);
    const place = Math.max(0, ...others.map((other) => firstDifference(events, other)));
    if (events.length === 0) return 'nothing';
    return `${place > 0 ? '… ' : ''}${eventText(events[place])}${place + 1 < events.length ? ' …' : ''}`;
  });
  if (new Set(texts).size === texts.length) return texts;
  return seenTexts(sequences.map((events, k) => ({
    class: k + 1, events: events.map((event) => ({ ...event, isSeen: true })),
  })));
}

// The first place at which two sequences differ.
function firstDifference(some, others) {
  const length = Math.max(some.length, others.length);
  for (let k = 0; k < length; k++) if (eventText(some[k]) !== eventText(others[k])) return k;
  return -1;
}
