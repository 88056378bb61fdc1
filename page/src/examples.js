// The examples, each with a sentence. `files` are the texts of examples/ and of this folder; page/build puts them in.

import { OWN } from './machine.js';

/** A list of starts in which one variable goes from a number to another one, in steps. */
export function countedStarts(name, from, to, step = 1) {
  const runs = [];
  for (let value = from; value <= to; value += step) runs.push(`[[run]]\nmemory = { ${name} = ${value} }\n`);
  return runs.join('\n');
}

/** The examples in order: name, sentence, program, starts, settings. */
export function examplesOf(files) {
  const usual = { observer: 'L', environment: 'part', budget: '1000000' };
  const nine = files['password_nine.toml'];
  return [
    { name: 'Password check, small prediction',
      says: 'Nine secrets, and a prediction of 16: each time it doubles can be seen.',
      program: files['password_small.mit'], starts: nine },
    { name: 'Password check', says: 'The same check with a prediction of 512: all secrets look alike.',
      program: files['password.mit'], starts: nine },
    { name: 'Password check without mitigation',
      says: 'Refused: when done is written would tell how many letters were right.',
      program: files['password_open.mit'], starts: nine },
    { name: 'One assignment', says: 'The least program there is to look at: when does l become 7?',
      program: files['first.mit'], starts: '[[run]]\n', environment: 'flat' },
    { name: 'A secret countdown',
      says: 'A loop as long as its secret is great, with a prediction of 64 cycles.',
      program: files['countdown.mit'], starts: countedStarts('h', 0, 9) },
    { name: 'A login, small prediction',
      says: 'Names are tried in turn: the first valid one is seen, and none after it.',
      program: files['login/small.mit'], starts: files['login/starts.toml'] },
    { name: 'A login', says: 'The same with a prediction that is enough: which are valid is not told.',
      program: files['login/login.mit'], starts: files['login/starts.toml'] },
    { name: 'A table look-up', says: 'Whether the line is in the cache already depends on the secret place.',
      program: files['lookup.mit'], starts: files['lookup.toml'] },
    { name: 'A modular power', says: 'Square and multiply: the time depends on the secret exponent’s digits.',
      program: files['power.mit'], starts: files['power.toml'] },
    { name: 'Two tenants', says: 'Two tenants share the machine, and neither may learn of the other.',
      program: files['tenants/tenants.mit'], starts: files['tenants/starts.toml'], observer: 'bob' },
    { name: 'Two tenants without mitigation',
      says: 'Refused: Bob writes after Ann’s loop, so the time tells of her jobs.',
      program: files['tenants/open.mit'], starts: files['tenants/starts.toml'], observer: 'bob' },
    { name: 'A branch with a low write label',
      says: 'Refused: a branch on a secret would change caches that all can see.',
      program: files['refused/if.mit'], starts: '[[run]]\n' },
    { name: 'A probe of one cache for all',
      says: 'Accepted, and yet all 16 places are told, since labels share the caches.',
      program: files['probe/probe.mit'], starts: countedStarts('secret', 0, 60, 4), budget: '8191',
      environment: OWN, machine: files['machines/shared.toml'] },
    { name: 'All secrets of a space',
      says: 'Of 5\u202f408 secrets, written as ranges, it is counted how many look alike.',
      program: files['password_small.mit'], starts: files['password/space.toml'] },
  ].map((example) => ({ ...usual, ...example }));
}
