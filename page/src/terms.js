// The terms that stand on the page: what each says in short, and where more is said.

import { escaped } from './colours.js';

const DOCS = '../docs';

// A place in a document: its heading as an anchor, and as words to look for where the text is shown as it is.
const under = (file, heading) => {
  const anchor = heading.toLowerCase().replace(/[^a-z0-9 -]/g, '').replaceAll(' ', '-');
  return `${DOCS}/${file}#${anchor}:~:text=${encodeURIComponent(heading)}`;
};
const tutorial = (heading) => ({ says: 'Tutorial', address: under('TUTORIAL.md', heading) });
const theorem = (heading) => ({ says: 'Theorem', address: under('THEOREM.md', heading) });
const glossary = (entry) =>
  ({ says: 'Glossary', address: `${DOCS}/GLOSSARY.md#:~:text=${encodeURIComponent(`${entry}.`)}` });
const rules = { says: 'All rules', address: under('LANGUAGE.md', 'Types') };
const lab = (heading) => ({ says: 'The lab', address: under('LAB.md', heading) });
const machine = (heading) => ({ says: 'Machine', address: under('MACHINE.md', heading) });

const HEADLINE = theorem('The theorem, and how it is proved'), SHARP = theorem('The sharp count');
const SEE = '1. See the leak', SECRET = '2. Say what is secret', BOUND_IT = '3. Bound it', WAIT = '4. Watch it wait';
const AUDIT_IT = '5. Audit it', CHOOSE = '6. Choose an estimate', CACHES = '7. What caches tell';

// Of a rule that asks for the write label alone.
const lowWrite = (command) => ({
  says: `The rule for ${command}. It asks that the label of the program counter flows to the command’s write label:`
    + ` what`
    + ' secret guards lead to may not change parts of the machine that decide how long public commands take.',
  links: [rules, tutorial(SECRET), glossary('Write label')],
});

/** The terms by their names: what each says, and its links. */
export const TERMS = {
  'timed sequence': {
    says: 'What the observer sees of one run: the assignments to variables whose label flows to the observer, in order,'
      + ' each with the cycle at which it was made.',
    links: [tutorial(SEE), glossary('Timed sequence'), HEADLINE],
  },
  'sharp count': {
    says: 'A number of different timed sequences that is proved never to be passed. Unlike the bound it uses that'
      + ' missed predictions stay doubled, and how great first predictions are; so it is mostly far below the bound.',
    links: [tutorial(AUDIT_IT), glossary('Sharp count'), SHARP],
  },
  'shared time': {
    says: 'A number of different timed sequences like the sharp count, and at most that. Where no relevant mitigate'
      + ' stands in another, mitigations last one after the other: of the miss counts only those can be whose cycles'
      + ' fit into the budget together.',
    links: [glossary('Count by shared time'), SHARP],
  },
  'own first predictions': {
    says: 'A number of different timed sequences like the sharp count, and at most that. There each mitigation of a run'
      + ' is counted with a first prediction of its own, the least at its place, and not with the least of its level.',
    links: [glossary('Count by own first predictions'), SHARP],
  },
  bound: {
    says: 'A number of different timed sequences that is proved never to be passed: (K+1) to the power N·b. K is the'
      + ' number of relevant mitigations of a run, N the number of labels that do not flow to the observer, b the'
      + ' number of binary digits of the greatest cycle.',
    links: [tutorial(AUDIT_IT), glossary('Bound'), HEADLINE],
  },
  relevant: {
    says: 'A mitigation is relevant to an observer who knows that it runs, but may not know what the time of its body'
      + ' depends on: the label of its guards flows to the observer, and its level does not.',
    links: [tutorial(AUDIT_IT), glossary('Relevant'), HEADLINE],
  },
  label: {
    says: 'A name that says who may see something. Labels have an order: where one flows to another one, who may see'
      + ' the'
      + ' second may see the first. Each variable has a label, and each command a read label and a write label.',
    links: [tutorial(SECRET), glossary('Label'), HEADLINE],
  },
  level: {
    says: 'The second argument of mitigate (estimate, level): the greatest label on which the time of the body may'
      + ' depend.'
      + ' Missed predictions are counted for each level by itself.',
    links: [tutorial(BOUND_IT), glossary('Level'), SHARP],
  },
  'first prediction': {
    says: 'How many cycles a mitigation lasts as long as none of its level has missed: the estimate, and 1 at least.'
      + ' Each'
      + ' miss doubles it. Too small a one tells how often it was doubled, too great a one costs time.',
    links: [tutorial(CHOOSE), glossary('First prediction'), SHARP],
  },
  mitigate: {
    says: 'mitigate (estimate, level) { .. } lets its body work, and then waits until the predicted time is over. A'
      + ' prediction that is missed is doubled until it holds. So what comes after it comes at few times only.',
    links: [tutorial(WAIT), glossary('Mitigation'), HEADLINE],
  },
  class: {
    says: 'Runs that look alike to the observer, in what it sees and at which cycle, are in one class. Classes are'
      + ' numbered'
      + ' in the order in which they come first; each has its colour and shape.',
    links: [tutorial(AUDIT_IT), glossary('Class'), HEADLINE],
  },
  steady: {
    says: 'A program is steady for an observer where no instruction of its code may let a secret change what is seen,'
      + ' or when; elsewhere such code is called constant-time. Starts that agree then show one timed sequence, whether'
      + ' or not the rules accept the program.',
    links: [lab('Constant time'), glossary('Steady')],
  },
  'Shannon entropy': {
    says: 'How many bits the run tells of its start on the average, each start being as likely: the sum, over the'
      + ' classes, of n/N times log2 of N/n, for n of N runs. It lies between the two numbers.',
    links: [lab('What these runs tell'), glossary('Shannon entropy')],
  },
  'min-entropy': {
    says: 'By how many bits the first guess of the start gets better once the run is seen, each start being as likely:'
      + ' log2 of the number of classes. It lies between the two numbers.',
    links: [lab('What these runs tell'), glossary('Min-entropy leakage')],
  },
  observer: {
    says: 'A label. Who has it sees the assignments to variables whose label flows to it, with their cycles, and'
      + ' nothing'
      + ' else. It knows the program, and all of the start that flows to it.',
    links: [tutorial(SEE), glossary('Observer'), HEADLINE],
  },
  caches: {
    says: 'How long an access takes. flat: all take alike. part: a cache and a translation buffer, with a part for each'
      + ' label, so that what is secret leaves no traces in the public part. part2: with a second level. A machine file'
      + ' describes another machine.',
    links: [tutorial(CACHES), glossary('Environment'), machine('Environments')],
  },
  machine: {
    says: 'A machine file has the sizes and costs of a translation buffer and of caches, and says whether each label'
      + ' has partitions of its own or all share them. The limits are proved of every machine with partitions, and of'
      + ' no shared one.',
    links: [tutorial(CACHES), machine('Machine files'), HEADLINE],
  },
  cycle: {
    says: 'The unit of the machine’s time. Each instruction takes one, and more where caches miss, where an operator is'
      + ' slow, or where it waits. Runs are followed up to the greatest cycle, which is the budget.',
    links: [tutorial(SEE), glossary('Budget'), machine('Costs')],
  },
  start: {
    says: 'What a run begins with: a value for each variable, 0 where none is given, and what the caches hold. Only'
      + ' starts'
      + ' are compared that agree in all that the observer may see.',
    links: [tutorial(AUDIT_IT), glossary('Agree'), HEADLINE],
  },
  accepted: {
    says: 'There are labels for all that the program leaves out with which each rule holds. Then the bound holds, of'
      + ' every'
      + ' secret: accepted does not mean that nothing is told.',
    links: [tutorial(BOUND_IT), glossary('Accepted'), HEADLINE],
  },
  refused: {
    says: 'Whatever labels are chosen for what the program leaves out, a rule is broken. A refusal is no leak: rules'
      + ' look'
      + ' at labels alone, and some programs that tell nothing are refused.',
    links: [tutorial(SECRET), glossary('Refused'), HEADLINE],
  },
  'T-ASGN': {
    says: 'The rule for assignments. What the value depends on, what the guards around it depend on, and all that'
      + ' the time'
      + ' until then depends on have to flow to the label of the variable: who sees it sees when it is written, too.',
    links: [rules, tutorial(SECRET), glossary('Timing label')],
  },
  'T-SKIP': lowWrite('skip'),
  'T-SLEEP': lowWrite('sleep'),
  'T-IF': lowWrite('if'),
  'T-WHILE': lowWrite('while'),
  'T-MTG': {
    says: 'The rule for mitigate. All that the time of the body depends on has to flow to the level of the mitigate:'
      + ' the'
      + ' level says of what it may tell something. Its write label is asked for as by the other rules.',
    links: [rules, tutorial(BOUND_IT), glossary('Level')],
  },
};

/** A term where it stands in a sentence, in these words: what can be pressed to be told what it says. */
export function term(name, words = name) {
  return `<button type="button" class="term" data-term="${name}" aria-haspopup="dialog">${escaped(words)}</button>`;
}

/** What stands in the box of a term, as HTML. */
export function termText(name) {
  const { says, links } = TERMS[name];
  const list = links.map((link) =>
    `<a href="${escaped(link.address)}" target="_blank" rel="noopener">${link.says}</a>`);
  return `<p>${escaped(says)}</p><p class="term-links">${list.join('')}</p>`;
}
