// The lessons, each of steps. A step loads what it speaks of, names the part of the page to look at, and may ask for a
// guess before it tells, and for something to be done. `files` are the texts of examples/.

import { countedStarts } from './examples.js';
import { OWN } from './machine.js';

const loop = (label, head, indent, end) => `// A number is counted down, and then it is said that this is done.
var secret : ${label};
var done : L;

${head}${indent}while secret > 0 do {
${indent}  secret := secret - 1
${indent}}${end};
done := 1
`;
const plain = loop('L', '', '', '');
const open = loop('H', '', '', '');
const closed = (estimate) => loop('H', `mitigate (${estimate}, H) {\n`, '  ', '\n}');
const TEN = countedStarts('secret', 0, 9);

const TIME = [
  {
    title: 'Time tells',
    text: ['This loop counts a number down, and each round takes some cycles. Six runs begin with 0 to 5.'],
    guess: {
      ask: 'When does done become 1?',
      options: ['At the same cycle in all six runs', 'Later, the greater the number was',
        'At cycles that have nothing to do with the number'],
      right: 1,
      tells: 'Look at the timeline: each round takes 8 cycles, so whoever sees when done becomes 1 can tell the number.'
        + ' Nothing is wrong with that here: all variables have the label L, for low, and everyone may see them.',
    },
    program: plain, starts: countedStarts('secret', 0, 5), look: 'time',
  },
  {
    title: 'A secret',
    text: ['Now the number has the label H, for high: it is a secret. done is still L, which everyone sees.'],
    guess: {
      ask: 'The value of done is 1 whatever the secret is. Is the program accepted?',
      options: ['Yes: the value tells nothing', 'No: the time of the assignment tells'],
      right: 1,
      tells: 'It is refused, since the assignment to done comes when the secret decides. The wavy line shows the'
        + ' place, and the'
        + ' steps below the program the way that the secret took.',
    },
    task: {
      says: 'Write H in place of L at done. Then nobody sees done, and the program is accepted.',
      goal: { accepted: true, noMitigate: true },
    },
    program: open, starts: TEN, look: 'program',
  },
  {
    title: 'A mitigation',
    text: [
      'mitigate (1, H) { .. } predicts that its body takes 1 cycle, and waits until that time is over. Where the'
        + ' body takes'
        + ' longer, the prediction is doubled, again and again, until it holds. Ten secrets, 0 to 9, are tried.',
    ],
    guess: {
      ask: 'The bodies take 45 to 125 cycles. How many different times of done := 1 are there?',
      options: ['One', 'Two', 'Ten'],
      right: 1,
      tells: 'Two: bodies up to 63 cycles wait until 64, and all others until 128. Runs with the same colour and'
        + ' shape look'
        + ' alike: the observer cannot tell them apart.',
    },
    program: closed(1), starts: TEN, look: 'time',
  },
  {
    title: 'How much is told',
    text: [
      'Ten secrets were tried, and the audit counts what is different to the observer. Beside it stands what is'
        + ' proved for'
        + ' all secrets with which the run ends within the cycles that are asked for.',
    ],
    guess: {
      ask: 'Six times as many secrets, 0 to 60: how many different times will there be?',
      options: ['Two, as before', 'About five', 'About twelve: six times as many'],
      right: 1,
      tells: 'Each further time is twice as late as the one before. So six times the secrets give three further times.',
    },
    task: {
      says: 'Try it: below the table of starts, let the secret go from 0 to 60, and make these runs.',
      goal: { accepted: true, runs: 61, leastSequences: 5 },
    },
    program: closed(1), starts: TEN, look: 'starts',
  },
  {
    title: 'A better prediction',
    text: [
      'A mitigation that predicts too little tells something, one that predicts too much wastes time. The picture'
        + ' tries many'
        + ' first predictions for these starts. Powers of two alone would show nothing: each is doubled into the next.',
    ],
    task: {
      says: 'Find a first prediction with which nothing is told of these ten, and which costs as little as can be.',
      goal: { accepted: true, sequences: 1, longest: 170, sameStarts: true, sameLabels: true },
    },
    program: closed(1), starts: TEN, look: 'sweep',
  },
  {
    title: 'An audited mitigation',
    text: [
      'With a prediction that holds for all ten secrets one sequence is left. The audit says so of these ten. For'
        + ' all others'
        + ' with which the run ends in time there is the sharp count: a greater secret may miss the prediction.',
      'What is promised, and what is not: the machine here is a model with caches, and no real processor.',
    ],
    task: {
      says: 'Make it one for every secret: choose the greatest cycle so that no run with a missed prediction ends by'
        + ' then.',
      goal: { accepted: true, sharp: 1, sequences: 1, sameLabels: true },
    },
    program: closed(256), starts: TEN, look: 'answer',
  },
];

const cacheSteps = (files) => {
  const starts = files['sbox/starts.toml'];
  return [
    {
      title: 'Two look-ups',
      text: [
        'The first round of AES looks into a table at text xor key, byte by byte. Here are two such look-ups. The'
          + ' text is known,'
          + ' the key is secret, and four keys are tried. For once the observer is H, who sees all, so that you can'
            + ' look.',
        'With the four keys both look-ups go to one place, to one line of the cache, to two lines of one page, to'
          + ' two pages.',
      ],
      guess: {
        ask: 'Which of the four runs end first?',
        options: ['All at the same cycle: the same code runs',
          'The first two: the second look-up finds its line in the cache', 'The last one'],
        right: 1,
        tells: 'The first two end at cycle 1763, the third 12 cycles later, the fourth 32: a line that is there'
          + ' already costs'
          + ' nothing, a new one 12 cycles, a new page 20 more. So time tells whether two bytes of the key lie near'
            + ' each other. Go through a run with “each instruction”, and see which look-up misses, and what is held.',
      },
      program: files['sbox/seen.mit'], starts, observer: 'H', look: 'time',
    },
    {
      title: 'It is the caches',
      text: ['The attack of Bonneau and Mironov (CHES 2006) sorts the times of many texts, and the fastest group'
        + ' tells six bits.'],
      task: {
        says: 'Choose other caches, with which all four runs end at the same cycle.',
        goal: { accepted: true, sameEnd: true, sameProgram: true, sameStarts: true },
      },
      program: files['sbox/seen.mit'], starts, observer: 'H', environment: 'part2', look: 'answer',
    },
    {
      title: 'A public end',
      text: [
        'These are the look-ups alone, and done, which everyone sees, comes after them. Each label has its own part'
          + ' of the'
          + ' caches: what the secret look-ups leave there cannot be seen by public ones.',
      ],
      guess: {
        ask: 'Do parted caches suffice? Is the program accepted?',
        options: ['Yes: secret and public lines never meet', 'No: both look-ups are secret, and meet each other'],
        right: 1,
        tells: 'It is refused. Both look-ups are in the part of H, so the second one may find what the first one'
          + ' left, and how'
          + ' long it takes is a secret. The steps tell the way: place is H, so how long an assignment takes counts as'
          + ' H.',
      },
      program: files['sbox/open.mit'], starts: '[[run]]\nmemory = { place = [3, 9] }\n', look: 'program',
    },
    {
      title: 'One duration for all',
      text: ['Under mitigate (2200, H) the look-ups last 2200 cycles, whichever of them hit. That is more than is'
        + ' needed.'],
      task: {
        says: 'Find the fastest one with which the four runs cannot be told apart. Beware of one that is doubled.',
        goal: { accepted: true, sequences: 1, longest: 1820, sameStarts: true, sameLabels: true },
      },
      program: files['sbox/mitigated.mit'], starts, look: 'sweep',
    },
    {
      title: 'For every key',
      text: [
        'Four keys are not all keys. A prediction can be doubled only as often as it fits into the cycles that are'
          + ' asked for,'
          + ' and the sharp count says how many times that are.',
      ],
      task: {
        says: 'Choose the greatest cycle so that the sharp count is 1: then no key can be told from another one by'
          + ' time.',
        goal: { accepted: true, sharp: 1, sequences: 1, sameProgram: true, sameStarts: true },
      },
      program: files['sbox/mitigated.mit'], starts, look: 'answer',
    },
    {
      title: 'Or no secret address',
      text: ['This program reads all 256 entries and keeps the two that are wanted. No address depends on the key.'],
      guess: {
        ask: 'What does that cost, beside the look-ups?',
        options: ['About the same', 'About six times as much', 'About 256 times as much'],
        right: 1,
        tells: 'All four runs end at cycle 11267, where the look-ups took 1763 to 1795. The time is one number'
          + ' without any'
          + ' mitigate. But the rules go by labels, and would refuse a public done here too: the next lesson is'
            + ' about that.',
      },
      program: files['sbox/scan.mit'], starts, observer: 'H', look: 'time',
    },
  ];
};

const constantSteps = (files) => {
  const starts = files['hmac/starts.toml'];
  return [
    {
      title: 'A tag, byte by byte',
      text: [
        'A message comes with a tag of eight bytes, and the tag is compared with the true one. In the four runs the'
          + ' first wrong'
          + ' byte is the first one, the fourth, the last, and none. The observer is H, so that you can look.',
      ],
      guess: {
        ask: 'Which of the four runs cannot be told apart by their end?',
        options: ['None: each ends at a cycle of its own', 'The last two', 'All four'],
        right: 1,
        tells: 'The last two compare all eight bytes. So a tag is found byte by byte, with 8 times 256 tries and not'
          + ' 256 to the'
          + ' power of 8: the comparison ends at the first wrong byte.',
      },
      program: files['hmac/early.mit'], starts, observer: 'H', look: 'time',
    },
    {
      title: 'All bytes, always',
      text: ['Code is constant in time where no branch, no address and no slow operand depends on a secret.'],
      task: {
        says: 'Write the loop so that all four runs end at the same cycle, without a mitigate: compare all eight'
          + ' bytes, and'
          + ' keep in same whether all were right. The guard of the loop may speak of at alone.',
        goal: {
          accepted: true, noMitigate: true, sameEnd: true, values: { same: ['0', '0', '0', '1'] }, sameStarts: true,
          sameLabels: true,
        },
      },
      program: files['hmac/early.mit'], starts, observer: 'H', look: 'program',
    },
    {
      title: 'Constant, and refused',
      text: ['Here is such a program: it counts the differences. Its answer is public, and so is the counter of the'
        + ' loop.'],
      guess: {
        ask: 'Its time depends on no secret. Is it accepted?',
        options: ['Yes: nothing is told by time', 'No: the rules go by labels, and not by what a machine does'],
        right: 1,
        tells: 'It is refused: by the rules each assignment that reads a secret may take as long as the secret'
          + ' decides, as with'
          + ' caches it may. A refusal is no leak: below the program stands a judgement of its own, that its time is'
            + ' constant.',
      },
      program: files['hmac/constant.mit'], starts, look: 'program',
    },
    {
      title: 'With all of it H',
      text: ['With counter and answer declared H the same comparison is accepted. Whoever may see H sees all four'
        + ' runs.'],
      guess: {
        ask: 'It costs more than the one that ends early. How much, beside the longest of its runs?',
        options: ['Less than the longest: 277 cycles and not 290', 'About twice as much', 'Eight times as much'],
        right: 0,
        tells: 'All four end at cycle 277. Without the second variable in its guard the loop is even faster than the'
          + ' worst of the'
          + ' early ones. Constant time is often cheap; it is hard where addresses or divisions depend on secrets.',
      },
      program: files['hmac/constant_seen.mit'], starts, observer: 'H', look: 'time',
    },
    {
      title: 'Or a mitigate around it',
      text: ['The comparison that ends early, under mitigate (600, H), with a public answer: the rules accept it.'],
      task: {
        says: 'Make its time one for every tag that there can be, and fast: at most 320 cycles, and a sharp count of'
          + ' 1.',
        goal: { accepted: true, sequences: 1, sharp: 1, longest: 320, sameStarts: true, sameLabels: true },
      },
      program: files['hmac/mitigated.mit'], starts, look: 'sweep',
    },
  ];
};

const sharedSteps = (files) => {
  const program = files['probe/probe.mit'], places = countedStarts('secret', 0, 60, 4), budget = '8191';
  return [
    {
      title: 'A look-up, and a probe',
      text: [
        'A table is looked up at a secret place, under a prediction that is enough for it. Then a public loop reads the'
          + ' table through, one place in each line of the cache: where a line is there already, its read is faster.',
        'Each label has partitions of its own. Sixteen places are tried, in sixteen lines of the cache.',
      ],
      guess: {
        ask: 'How many different things does an observer at L see of the sixteen places?',
        options: ['One: the look-up is in the partition of H', 'Two: some lines are there and some are not',
          'Sixteen: the line that was looked up is there'],
        right: 0,
        tells: 'One, and the sharp count is 1: no place can be told from another one. The prediction hides how long the'
          + ' look-up takes, and the partitions hide what it leaves behind.',
      },
      program, starts: places, budget, look: 'leak',
    },
    {
      title: 'One cache for all',
      text: [
        'A processor knows no labels: all that runs on it shares its caches. This machine is the one of before but for'
          + ' that. The program is the same, is accepted, and waits out its prediction.',
      ],
      guess: {
        ask: 'How many different things are seen of the sixteen places here?',
        options: ['One: the rules accept the program', 'Two', 'Sixteen: each tells its place'],
        right: 2,
        tells: 'Sixteen. The secret look-up leaves its line behind, and the public loop finds it. No limit is told of'
          + ' such a machine: all of them rest on a law that it breaks. Below, both machines stand side by side; and'
          + ' with “each instruction” the steps of a run show what the cache holds.',
      },
      program, starts: places, budget, environment: OWN, machine: files['machines/shared.toml'], look: 'machine',
    },
    {
      title: 'A machine that keeps the law',
      text: ['This machine has two levels of caches, and all labels share them. Its file is there to be written into.'],
      task: {
        says: 'Change one word of the machine file, so that nothing is told of the place and a limit says so.',
        goal: { accepted: true, sequences: 1, sharp: 1, sameProgram: true, sameStarts: true },
      },
      program, starts: places, budget, environment: OWN, machine: files['machines/shared2.toml'], look: 'machine',
    },
    {
      title: 'Another machine, another prediction',
      text: [
        'A login tries 24 names, each under mitigate (460, H). On one level of caches that is enough. This machine has'
          + ' larger caches, whose misses are dearer, and there it is missed.',
      ],
      task: {
        says: 'Find a first prediction with which the three tables of names cannot be told apart here. It may cost more'
          + ' than before.',
        goal: { accepted: true, sequences: 1, longest: 40000, sameStarts: true, sameLabels: true },
      },
      program: files['login/login.mit'], starts: files['login/starts.toml'], environment: OWN,
      machine: files['machines/larger.toml'], look: 'sweep',
    },
  ];
};

/** The lessons, in order: name and steps. */
export function lessonsOf(files) {
  return [
    { name: 'See a leak', steps: TIME },
    { name: 'A cache attack', steps: cacheSteps(files) },
    { name: 'Code of constant time', steps: constantSteps(files) },
    { name: 'One cache for all', steps: sharedSteps(files) },
  ];
}
