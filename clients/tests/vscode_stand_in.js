// Stands for VS Code in a test of its extension: it opens a text, asks what an editor asks, and prints
// the answers.
"use strict";
const fs = require("fs");
const Module = require("module");

const [, , extension, client, file] = process.argv;
const told = { faults: [], messages: [] };
const registered = {};
const handlers = {};

class Range {
  constructor(...numbers) {
    [this.startLine, this.start, this.endLine, this.end] = numbers;
  }
}
const plain = (...names) =>
  class {
    constructor(...values) {
      names.forEach((name, at) => (this[name] = values[at]));
    }
  };
const register = (name) => (language, provider) => {
  registered[name] = provider;
  return {};
};
const on = (name) => (handler) => {
  handlers[name] = handler;
  return {};
};
const document = {
  languageId: "esterel", version: 1, text: fs.readFileSync(file, "utf8"),
  uri: { toString: () => `file://${file}` }, getText() { return this.text; },
};
class WorkspaceEdit {
  constructor() { this.edits = []; }
  replace(uri, range, text) { this.edits.push([uri, range.startLine, range.start, text]); }
}
const vscode = {
  Range, WorkspaceEdit, Location: plain("uri", "range"), Hover: plain("contents", "range"),
  MarkdownString: plain("value"), Diagnostic: plain("range", "message", "severity"),
  DiagnosticRelatedInformation: plain("location", "message"),
  CompletionItem: plain("label", "kind"), DocumentSymbol: plain("name", "detail", "kind"),
  DiagnosticSeverity: { Error: 0 },
  TextEdit: { replace: (range, text) => ({ range, text }) },
  Uri: { parse: (uri) => uri },
  languages: {
    createDiagnosticCollection: () => ({
      set: (uri, list) => told.faults.push(list.map((one) => one.message)), clear() {},
    }),
    registerCompletionItemProvider: register("words"), registerHoverProvider: register("hover"),
    registerDefinitionProvider: register("definition"),
    registerReferenceProvider: register("references"), registerRenameProvider: register("rename"),
    registerDocumentSymbolProvider: register("symbols"),
    registerDocumentFormattingEditProvider: register("format"),
  },
  window: {
    showWarningMessage: (text) => told.messages.push(text),
    showErrorMessage: (text) => told.messages.push(text),
  },
  workspace: {
    textDocuments: [document], getConfiguration: () => ({ get: (name) => (name === "client" ? client : []) }),
    onDidOpenTextDocument: on("open"), onDidChangeTextDocument: on("change"),
    onDidCloseTextDocument: on("close"),
  },
};
const load = Module._load;
Module._load = (name, ...more) => (name === "vscode" ? vscode : load(name, ...more));

async function until(isSo) {
  while (!isSo()) await new Promise((done) => setTimeout(done, 20));
}

async function main() {
  const { activate, deactivate } = require(extension);
  await activate({ subscriptions: [] });
  await until(() => told.faults.length === 1);
  const place = { line: 6, character: 7 };
  told.hover = (await registered.hover.provideHover(document, place)).contents.value;
  told.definition = (await registered.definition.provideDefinition(document, place)).range;
  told.words = (await registered.words.provideCompletionItems(document, place)).map((one) => one.label);
  const all = { includeDeclaration: true };
  told.references = (await registered.references.provideReferences(document, place, all)).length;
  told.rename = (await registered.rename.provideRenameEdits(document, place, "OUT")).edits;
  const wrong = registered.rename.provideRenameEdits(document, place, "end");
  told.refused = await wrong.catch((fault) => fault.message);
  told.symbols = (await registered.symbols.provideDocumentSymbols(document)).map((one) => one.name);
  told.format = await registered.format.provideDocumentFormattingEdits(document);
  document.text = document.text.replace("emit O", "emmit O");
  handlers.change({ document });
  await until(() => told.faults.length === 2);
  handlers.close(document);
  await deactivate();
  console.log(JSON.stringify(told));
}

main().catch((fault) => {
  console.error(fault);
  process.exit(1);
});
