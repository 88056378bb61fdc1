// Wires the functions of telling.js to VS Code: faults as one types, labels where one points, and the mend as a quick fix.

const vscode = require('vscode');

const LANGUAGE = 'mitigate';
const PAUSE = 250; // milliseconds of rest before a change is answered

exports.activate = async (context) => {
  const { openTool, faultsOf, hoverOf, mendFor } = await import('./telling.js');
  const tool = openTool(), told = vscode.languages.createDiagnosticCollection(LANGUAGE), waiting = new Map();
  const rangeOf = (document, { from, to }) => new vscode.Range(document.positionAt(from), document.positionAt(to));

  async function tell(document) {
    const { version } = document, found = await faultsOf(tool, document.getText());
    if (document.isClosed || document.version !== version) return;
    told.set(document.uri, found.map((fault) => {
      const one = new vscode.Diagnostic(rangeOf(document, fault), fault.message, vscode.DiagnosticSeverity.Error);
      const place = (step) => new vscode.Location(document.uri, rangeOf(document, step));
      one.source = LANGUAGE;
      one.code = fault.rule;
      one.relatedInformation = fault.related.map((step) => new vscode.DiagnosticRelatedInformation(place(step), step.message));
      return one;
    }));
  }

  function later(document, pause) {
    const key = document.uri.toString();
    clearTimeout(waiting.get(key));
    if (document.languageId === LANGUAGE) waiting.set(key, setTimeout(() => tell(document), pause));
  }

  function forget(document) {
    clearTimeout(waiting.get(document.uri.toString()));
    waiting.delete(document.uri.toString());
    told.delete(document.uri);
  }

  async function provideHover(document, position) {
    const found = await hoverOf(tool, document.getText(), document.offsetAt(position));
    if (!found) return null;
    const text = new vscode.MarkdownString();
    text.appendCodeblock(found.lines.join('\n'), 'text');
    return new vscode.Hover(text, rangeOf(document, found));
  }

  async function provideCodeActions(document, range, { diagnostics }) {
    const mine = diagnostics.filter((one) => one.source === LANGUAGE);
    const mend = mine.length ? await mendFor(tool, document.getText()) : null;
    if (!mend) return [];
    const action = new vscode.CodeAction(mend.title, vscode.CodeActionKind.QuickFix);
    action.edit = new vscode.WorkspaceEdit();
    action.edit.replace(document.uri, rangeOf(document, mend), mend.text);
    action.diagnostics = mine;
    action.isPreferred = true;
    return [action];
  }

  const kinds = { providedCodeActionKinds: [vscode.CodeActionKind.QuickFix] };
  context.subscriptions.push(
    told,
    vscode.workspace.onDidOpenTextDocument((document) => later(document, 0)),
    vscode.workspace.onDidChangeTextDocument(({ document }) => later(document, PAUSE)),
    vscode.workspace.onDidCloseTextDocument(forget),
    vscode.languages.registerHoverProvider(LANGUAGE, { provideHover }),
    vscode.languages.registerCodeActionsProvider(LANGUAGE, { provideCodeActions }, kinds),
  );
  for (const document of vscode.workspace.textDocuments) later(document, 0);
};
