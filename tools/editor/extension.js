// The side of VS Code for tools/lam_server.py: it starts the server and hands messages to and fro.
// It needs no package beside the editor's own.
'use strict';
const child = require('child_process');
const fs = require('fs');
const path = require('path');
const vscode = require('vscode');

const SELECTOR = [{ language: 'lam' }, { language: 'lam-world' }, { language: 'lam-short' }];
const isOurs = document => SELECTOR.some(it => it.language === document.languageId);

// A session with a server: requests with their answers, and what the server tells by itself.
class Session {
  constructor(program, told, ended) {
    this.server = child.spawn(program, [], { stdio: ['pipe', 'pipe', 'ignore'] });
    this.waiting = new Map();
    this.count = 0;
    this.rest = Buffer.alloc(0);
    this.told = told;
    this.server.stdout.on('data', part => this.take(part));
    this.server.stdin.on('error', () => {});
    this.server.on('error', ended);
    this.server.on('exit', () => this.end());
  }

  send(message) {
    const body = Buffer.from(JSON.stringify({ jsonrpc: '2.0', ...message }));
    if (this.server.exitCode === null) this.server.stdin.write(Buffer.concat([Buffer.from(`Content-Length: ${body.length}\r\n\r\n`), body]));
  }

  tell(method, params) {
    this.send({ method, params });
  }

  // The result of a request; null where it is refused, but where the words of the refusal are wanted.
  ask(method, params, wantsWords = false) {
    const id = ++this.count;
    const answer = new Promise((done, refused) => this.waiting.set(id, { done, refused: wantsWords && refused }));
    this.send({ id, method, params });
    return answer;
  }

  take(part) {
    this.rest = Buffer.concat([this.rest, part]);
    for (;;) {
      const head = this.rest.indexOf('\r\n\r\n');
      if (head < 0) return;
      const length = Number(/content-length: *(\d+)/i.exec(this.rest.toString('ascii', 0, head))[1]);
      if (this.rest.length < head + 4 + length) return;
      const message = JSON.parse(this.rest.toString('utf8', head + 4, head + 4 + length));
      this.rest = this.rest.subarray(head + 4 + length);
      if (message.method) this.told(message);
      else if (this.waiting.has(message.id)) {
        const { done, refused } = this.waiting.get(message.id);
        this.waiting.delete(message.id);
        if (message.error && refused) refused(new Error(message.error.message));
        else done(message.result);
      }
    }
  }

  end() {
    for (const { done } of this.waiting.values()) done(null);
    this.waiting.clear();
  }
}

const inEditor = range => new vscode.Range(range.start.line, range.start.character, range.end.line, range.end.character);

function symbolOf(it) {
  // The kinds of the protocol count from 1, those of the editor from 0.
  const made = new vscode.DocumentSymbol(it.name, it.detail, it.kind - 1, inEditor(it.range), inEditor(it.selectionRange));
  made.children = it.children.map(symbolOf);
  return made;
}

function completionOf(it) {
  const made = new vscode.CompletionItem(it.label, it.kind - 1);
  made.detail = it.detail;
  made.documentation = it.documentation;
  return made;
}

// The edits of the protocol as those of the editor.
function editOf(changes) {
  const made = new vscode.WorkspaceEdit();
  for (const [uri, edits] of Object.entries(changes)) {
    for (const it of edits) made.replace(vscode.Uri.parse(uri), inEditor(it.range), it.newText);
  }
  return made;
}

function signatureOf(found) {
  const made = new vscode.SignatureHelp();
  made.signatures = found.signatures.map(it => {
    const one = new vscode.SignatureInformation(it.label, it.documentation);
    one.parameters = it.parameters.map(part => new vscode.ParameterInformation(part.label));
    return one;
  });
  made.activeSignature = found.activeSignature;
  made.activeParameter = found.activeParameter;
  return made;
}

function actionOf(it) {
  const made = new vscode.CodeAction(it.title, vscode.CodeActionKind.QuickFix);
  made.edit = editOf(it.edit.changes);
  return made;
}

const text = document => ({ textDocument: { uri: document.uri.toString() } });
const placed = position => ({ line: position.line, character: position.character });
const at = (document, position) => ({ ...text(document), position: placed(position) });
const within = (document, range) => ({ ...text(document), range: { start: placed(range.start), end: placed(range.end) } });

// What goes by the uses of a name.
function usesOf(session) {
  return [
    vscode.languages.registerReferenceProvider(SELECTOR, { async provideReferences(document, position, context) {
      const found = await session.ask('textDocument/references', { ...at(document, position), context });
      return (found || []).map(it => new vscode.Location(vscode.Uri.parse(it.uri), inEditor(it.range)));
    } }),
    vscode.languages.registerDocumentHighlightProvider(SELECTOR, { async provideDocumentHighlights(document, position) {
      const found = await session.ask('textDocument/documentHighlight', at(document, position));
      return (found || []).map(it => new vscode.DocumentHighlight(inEditor(it.range), it.kind - 1));
    } }),
    vscode.languages.registerRenameProvider(SELECTOR, {
      async prepareRename(document, position) {
        const found = await session.ask('textDocument/prepareRename', at(document, position), true);
        return found && inEditor(found);
      },
      async provideRenameEdits(document, position, newName) {
        const found = await session.ask('textDocument/rename', { ...at(document, position), newName }, true);
        return found && editOf(found.changes);
      },
    }),
  ];
}

// What is shown beside the text. Inlay labels came with VS Code 1.67.
function shownOf(session) {
  const labels = vscode.languages.registerInlayHintsProvider;
  return [
    vscode.languages.registerFoldingRangeProvider(SELECTOR, { async provideFoldingRanges(document) {
      const found = await session.ask('textDocument/foldingRange', text(document));
      return (found || []).map(it => new vscode.FoldingRange(it.startLine, it.endLine, it.kind && vscode.FoldingRangeKind.Comment));
    } }),
    vscode.languages.registerSignatureHelpProvider(SELECTOR, { async provideSignatureHelp(document, position) {
      const found = await session.ask('textDocument/signatureHelp', at(document, position));
      return found && signatureOf(found);
    } }, '(', ','),
    vscode.languages.registerCodeActionsProvider(SELECTOR, { async provideCodeActions(document, range) {
      const context = { diagnostics: [] };
      return ((await session.ask('textDocument/codeAction', { ...within(document, range), context })) || []).map(actionOf);
    } }),
    ...(labels ? [labels(SELECTOR, { async provideInlayHints(document, range) {
      const found = await session.ask('textDocument/inlayHint', within(document, range));
      return (found || []).map(it => {
        const made = new vscode.InlayHint(new vscode.Position(it.position.line, it.position.character), it.label);
        made.paddingLeft = true;
        return made;
      });
    } })] : []),
  ];
}

function providers(session) {
  return [
    ...usesOf(session), ...shownOf(session),
    vscode.languages.registerHoverProvider(SELECTOR, { async provideHover(document, position) {
      const found = await session.ask('textDocument/hover', at(document, position));
      return found && new vscode.Hover(new vscode.MarkdownString(found.contents.value), inEditor(found.range));
    } }),
    vscode.languages.registerDefinitionProvider(SELECTOR, { async provideDefinition(document, position) {
      const found = await session.ask('textDocument/definition', at(document, position));
      return found && new vscode.Location(vscode.Uri.parse(found.uri), inEditor(found.range));
    } }),
    vscode.languages.registerDocumentSymbolProvider(SELECTOR, { async provideDocumentSymbols(document) {
      return ((await session.ask('textDocument/documentSymbol', text(document))) || []).map(symbolOf);
    } }),
    vscode.languages.registerCompletionItemProvider(SELECTOR, { async provideCompletionItems(document, position) {
      return ((await session.ask('textDocument/completion', at(document, position))) || []).map(completionOf);
    } }, '.', ':', '"', '{', '('),
    vscode.languages.registerDocumentFormattingEditProvider(SELECTOR, { async provideDocumentFormattingEdits(document) {
      const edits = await session.ask('textDocument/formatting', { ...text(document), options: {} });
      return (edits || []).map(it => vscode.TextEdit.replace(inEditor(it.range), it.newText));
    } }),
  ];
}

function told(message, faults) {
  if (message.method === 'window/showMessage') vscode.window.showInformationMessage(message.params.message);
  if (message.method !== 'textDocument/publishDiagnostics') return;
  faults.set(vscode.Uri.parse(message.params.uri), message.params.diagnostics.map(it => {
    const made = new vscode.Diagnostic(inEditor(it.range), it.message, it.severity - 1);
    made.source = it.source;
    made.code = it.code;
    return made;
  }));
}

let session = null;

async function activate(context) {
  // The folder may be linked into the editor's folder of extensions.
  const server = path.join(fs.realpathSync(__dirname), '..', 'lam_server.py');
  const faults = vscode.languages.createDiagnosticCollection('lam');
  const started = new Session(server, message => told(message, faults),
    fault => vscode.window.showErrorMessage(`lam: the language server did not start: ${fault.message}`));
  session = started;
  await started.ask('initialize', { processId: process.pid, rootUri: null, capabilities: {} });
  started.tell('initialized', {});
  const open = document => isOurs(document) && started.tell('textDocument/didOpen', { textDocument: {
    uri: document.uri.toString(), languageId: document.languageId, version: document.version, text: document.getText() } });
  context.subscriptions.push(faults, ...providers(started),
    vscode.workspace.onDidOpenTextDocument(open),
    vscode.workspace.onDidChangeTextDocument(({ document }) => isOurs(document) && started.tell('textDocument/didChange', {
      textDocument: { uri: document.uri.toString(), version: document.version }, contentChanges: [{ text: document.getText() }] })),
    vscode.workspace.onDidCloseTextDocument(document => isOurs(document) && started.tell('textDocument/didClose', {
      textDocument: { uri: document.uri.toString() } })));
  vscode.workspace.textDocuments.forEach(open);
}

async function deactivate() {
  if (!session) return;
  await session.ask('shutdown');
  session.tell('exit');
}

module.exports = { activate, deactivate };
