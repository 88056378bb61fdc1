// That extension.cjs hands on what telling.js tells, with a small VS Code in place of the true one.

import assert from 'node:assert/strict';
import Module, { createRequire } from 'node:module';
import path from 'node:path';
import test from 'node:test';
import { setTimeout as rest } from 'node:timers/promises';
import { fileURLToPath } from 'node:url';

const HERE = path.dirname(fileURLToPath(import.meta.url)), EXTENSION = process.env.EXTENSION ?? path.join(HERE, '../vscode');
const REST = 600; // milliseconds, more than the extension waits

const made = (...names) => class { constructor(...values) { names.forEach((name, k) => Object.assign(this, { [name]: values[k] })); } };
const listeners = {}, providers = {}, told = new Map();
const listen = (name) => (heard) => ((listeners[name] = heard), {});
const vscode = {
  Range: made('start', 'end'), Location: made('uri', 'range'), Hover: made('text', 'range'), CodeAction: made('title', 'kind'),
  Diagnostic: made('range', 'message', 'severity'), DiagnosticRelatedInformation: made('location', 'message'),
  MarkdownString: class { appendCodeblock(text) { this.text = text; } },
  WorkspaceEdit: class { replace(...words) { this.change = words; } },
  DiagnosticSeverity: { Error: 0 }, CodeActionKind: { QuickFix: 'quickfix' },
  languages: {
    createDiagnosticCollection: () => ({ set: (uri, found) => told.set(uri, found), delete: (uri) => told.delete(uri) }),
    registerHoverProvider: (_, provider) => Object.assign(providers, provider),
    registerCodeActionsProvider: (_, provider) => Object.assign(providers, provider),
  },
  workspace: {
    textDocuments: [], onDidOpenTextDocument: listen('open'), onDidChangeTextDocument: listen('change'), onDidCloseTextDocument: listen('close'),
  },
};
const load = Module._load;
Module._load = (name, ...words) => (name === 'vscode' ? vscode : load(name, ...words));

const documentOf = (text, languageId = 'mitigate') => ({
  uri: 'file:///p.mit', languageId, version: 1, isClosed: false, getText() { return text; }, positionAt: (at) => at, offsetAt: (at) => at,
  type(other) { text = other; this.version++; },
});

test('faults come and go with the text; hover and mend are those of the functions', async () => {
  await createRequire(import.meta.url)(path.join(EXTENSION, 'extension.cjs')).activate({ subscriptions: [] });
  const refused = 'var h : H;\nvar l : L;\nsleep h;\nl := 1\n', one = documentOf(refused);
  listeners.open(one);
  await rest(REST);
  const [fault] = told.get(one.uri);
  assert.deepEqual([fault.range.start, fault.range.end, fault.source, fault.code], [31, 37, 'mitigate', 'T-ASGN']);
  assert.equal(fault.message, 'refused T-ASGN at 4:1: H does not flow to L');
  assert.deepEqual(fault.relatedInformation.map((step) => step.message).at(0), 'h is declared H');
  const hover = await providers.provideHover(one, refused.indexOf('h;'));
  assert.equal(hover.text.text, 'h is H');
  assert.equal(await providers.provideHover(one, refused.indexOf('1')), null);
  const [action] = await providers.provideCodeActions(one, fault.range, { diagnostics: [fault] }), [, range, text] = action.edit.change;
  const mended = refused.slice(0, range.start) + text + refused.slice(range.end);
  assert.deepEqual(await providers.provideCodeActions(one, fault.range, { diagnostics: [] }), []);
  one.type(mended);
  listeners.change({ document: one });
  await rest(REST);
  assert.deepEqual(told.get(one.uri), []);
  listeners.close(one);
  assert.equal(told.has(one.uri), false);
  listeners.open(documentOf('l = 1', 'plaintext'));
  await rest(REST);
  assert.equal(told.size, 0);
});
