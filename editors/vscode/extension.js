"use strict";
// Starts `estserve-client lsp`, and hands on between it and the editor: texts as they are typed, their
// faults, and what is asked about names. It needs no package.

const { spawn } = require("child_process");
const vscode = require("vscode");

const LANGUAGE = "esterel";

/** The language server, as a program that is spoken with. */
class Server {
  constructor(command, words, notices, ended) {
    this.notices = notices;
    this.waiting = new Map();
    this.count = 0;
    this.held = Buffer.alloc(0);
    this.child = spawn(command, words, { stdio: ["pipe", "pipe", "ignore"] });
    this.child.on("error", (fault) => ended(fault.message));
    this.child.on("exit", () => ended(""));
    this.child.stdin.on("error", () => {});
    this.child.stdout.on("data", (data) => this.take(data));
  }

  send(message) {
    const data = Buffer.from(JSON.stringify({ jsonrpc: "2.0", ...message }));
    this.child.stdin.write(`Content-Length: ${data.length}\r\n\r\n`);
    this.child.stdin.write(data);
  }

  tell(method, params) {
    this.send({ method, params });
  }

  /** The result of a request. */
  ask(method, params) {
    this.count += 1;
    const id = this.count;
    return new Promise((done, failed) => {
      this.waiting.set(id, { done, failed });
      this.send({ id, method, params });
    });
  }

  /** Takes bytes that came, and each message that is whole. */
  take(data) {
    this.held = Buffer.concat([this.held, data]);
    for (;;) {
      const end = this.held.indexOf("\r\n\r\n");
      const head = end < 0 ? null : /Content-Length: *(\d+)/i.exec(this.held.toString("ascii", 0, end));
      if (!head || this.held.length < end + 4 + Number(head[1])) return;
      const stop = end + 4 + Number(head[1]);
      const message = JSON.parse(this.held.toString("utf8", end + 4, stop));
      this.held = this.held.subarray(stop);
      this.act(message);
    }
  }

  act(message) {
    const waiting = this.waiting.get(message.id);
    if (message.method) {
      const notice = this.notices[message.method];
      if (notice) notice(message.params);
    } else if (waiting) {
      this.waiting.delete(message.id);
      if (message.error) waiting.failed(new Error(message.error.message));
      else waiting.done(message.result);
    }
  }

  async stop() {
    await this.ask("shutdown", null);
    this.tell("exit", null);
  }
}

const rangeOf = (range) =>
  new vscode.Range(range.start.line, range.start.character, range.end.line, range.end.character);
const locationOf = (place) => new vscode.Location(vscode.Uri.parse(place.uri), rangeOf(place.range));
const placeOf = (document, position) => ({
  textDocument: { uri: document.uri.toString() },
  position: { line: position.line, character: position.character },
});

function diagnosticOf(told) {
  const found = new vscode.Diagnostic(rangeOf(told.range), told.message, vscode.DiagnosticSeverity.Error);
  found.source = told.source;
  found.code = told.code;
  found.relatedInformation = (told.relatedInformation || []).map(
    (one) => new vscode.DiagnosticRelatedInformation(locationOf(one.location), one.message)
  );
  return found;
}

function symbolOf(told) {
  const range = rangeOf(told.range);
  const found = new vscode.DocumentSymbol(told.name, told.detail, told.kind - 1, range, range);
  found.children = (told.children || []).map(symbolOf);
  return found;
}

function editOf(told) {
  const edit = new vscode.WorkspaceEdit();
  for (const [uri, changes] of Object.entries(told.changes)) {
    for (const change of changes) edit.replace(vscode.Uri.parse(uri), rangeOf(change.range), change.newText);
  }
  return edit;
}

/** What the editor asks about names and layout, each by the server's answer. */
function providers(server) {
  const languages = vscode.languages;
  return [
    languages.registerHoverProvider(LANGUAGE, {
      provideHover: async (document, position) => {
        const told = await server.ask("textDocument/hover", placeOf(document, position));
        return told && new vscode.Hover(new vscode.MarkdownString(told.contents.value), rangeOf(told.range));
      },
    }),
    languages.registerCompletionItemProvider(LANGUAGE, {
      provideCompletionItems: async (document, position) => {
        const told = await server.ask("textDocument/completion", placeOf(document, position));
        return told.map((one) => new vscode.CompletionItem(one.label, one.kind - 1));
      },
    }),
    languages.registerDefinitionProvider(LANGUAGE, {
      provideDefinition: async (document, position) => {
        const told = await server.ask("textDocument/definition", placeOf(document, position));
        return told && locationOf(told);
      },
    }),
    languages.registerReferenceProvider(LANGUAGE, {
      provideReferences: async (document, position, context) => {
        const asked = { ...placeOf(document, position), context };
        return (await server.ask("textDocument/references", asked)).map(locationOf);
      },
    }),
    languages.registerRenameProvider(LANGUAGE, {
      prepareRename: async (document, position) => {
        const told = await server.ask("textDocument/prepareRename", placeOf(document, position));
        if (!told) throw new Error("no name that is known stands here");
        return rangeOf(told);
      },
      provideRenameEdits: async (document, position, newName) =>
        editOf(await server.ask("textDocument/rename", { ...placeOf(document, position), newName })),
    }),
    languages.registerDocumentSymbolProvider(LANGUAGE, {
      provideDocumentSymbols: async (document) => {
        const asked = { textDocument: { uri: document.uri.toString() } };
        return (await server.ask("textDocument/documentSymbol", asked)).map(symbolOf);
      },
    }),
    languages.registerDocumentFormattingEditProvider(LANGUAGE, {
      provideDocumentFormattingEdits: async (document) => {
        const asked = { textDocument: { uri: document.uri.toString() }, options: {} };
        const told = await server.ask("textDocument/formatting", asked);
        return told.map((edit) => vscode.TextEdit.replace(rangeOf(edit.range), edit.newText));
      },
    }),
  ];
}

/** The texts of the language as they are opened, changed and closed. */
function followTexts(server) {
  const isOurs = (document) => document.languageId === LANGUAGE;
  const open = (document) => {
    const { uri, version, languageId } = document;
    const told = { uri: uri.toString(), version, languageId, text: document.getText() };
    if (isOurs(document)) server.tell("textDocument/didOpen", { textDocument: told });
  };
  vscode.workspace.textDocuments.forEach(open);
  return [
    vscode.workspace.onDidOpenTextDocument(open),
    vscode.workspace.onDidChangeTextDocument(({ document }) => {
      const textDocument = { uri: document.uri.toString(), version: document.version };
      const contentChanges = [{ text: document.getText() }];
      if (isOurs(document)) server.tell("textDocument/didChange", { textDocument, contentChanges });
    }),
    vscode.workspace.onDidCloseTextDocument((document) => {
      const textDocument = { uri: document.uri.toString() };
      if (isOurs(document)) server.tell("textDocument/didClose", { textDocument });
    }),
  ];
}

let server = null;

async function activate(context) {
  const settings = vscode.workspace.getConfiguration("estserve");
  const command = settings.get("client") || "estserve-client";
  const faults = vscode.languages.createDiagnosticCollection("estserve");
  const notices = {
    "textDocument/publishDiagnostics": ({ uri, diagnostics }) =>
      faults.set(vscode.Uri.parse(uri), diagnostics.map(diagnosticOf)),
    "window/showMessage": ({ message }) => vscode.window.showWarningMessage(`estserve: ${message}`),
  };
  const ended = (why) => {
    if (why) vscode.window.showErrorMessage(`${command} cannot be started: ${why}`);
    faults.clear();
  };
  server = new Server(command, ["lsp", ...(settings.get("options") || [])], notices, ended);
  context.subscriptions.push(faults);
  await server.ask("initialize", { processId: process.pid, rootUri: null, capabilities: {} });
  server.tell("initialized", {});
  context.subscriptions.push(...followTexts(server), ...providers(server));
}

function deactivate() {
  return server ? server.stop() : undefined;
}

module.exports = { activate, deactivate };
