// The debugger and the language server in Visual Studio Code: both are tools of the checkout, started by python3.
"use strict";
const {spawn} = require("child_process");
const fs = require("fs");
const path = require("path");
const vscode = require("vscode");

const LANGUAGES = ["pip", "pip-asmx"];

// The checkout: the setting's, else the one of which this folder is a link, else that of an open folder, or above it
function checkout() {
  const folders = (vscode.workspace.workspaceFolders || []).map(folder => folder.uri.fsPath);
  const above = folders.flatMap(place => place.split(path.sep).map((_, k, parts) => parts.slice(0, parts.length - k).join(path.sep)));
  const found = [vscode.workspace.getConfiguration("pip").get("checkout"), path.resolve(fs.realpathSync(__dirname), "..", ".."), ...above];
  return found.find(place => place && fs.existsSync(path.join(place, "tools", "language_server")));
}

function command(tool) {
  const place = checkout();
  if (!place) throw new Error("set pip.checkout to the folder of the checkout");
  const unproved = vscode.workspace.getConfiguration("pip").get("unproved") ? ["--unproved"] : [];
  return ["-B", path.join(place, "tools", tool), ...unproved];
}

// A client of the language server: requests are answered in their order of arrival, by their numbers
class Client {
  constructor(words, notified) {
    this.process = spawn("python3", words, {stdio: ["pipe", "pipe", "inherit"]});
    this.waiting = new Map();
    this.notified = notified;
    this.number = 0;
    this.bytes = Buffer.alloc(0);
    this.process.stdout.on("data", bytes => this.take(bytes));
    this.process.stdin.on("error", () => {});
    this.process.on("error", error => vscode.window.showErrorMessage("pip: python3 can't be run: " + error.message));
  }

  take(bytes) {
    this.bytes = Buffer.concat([this.bytes, bytes]);
    for (;;) {
      const end = this.bytes.indexOf("\r\n\r\n");
      const length = end < 0 ? null : Number(/Content-Length: *(\d+)/i.exec(this.bytes.subarray(0, end).toString())[1]);
      if (end < 0 || this.bytes.length < end + 4 + length) return;
      const message = JSON.parse(this.bytes.subarray(end + 4, end + 4 + length).toString());
      this.bytes = this.bytes.subarray(end + 4 + length);
      if (message.method) this.notified(message.method, message.params);
      else if (this.waiting.has(message.id)) {
        const {done, failed} = this.waiting.get(message.id);
        if (message.error) failed(new Error(message.error.message));
        else done(message.result);
      }
      this.waiting.delete(message.id);
    }
  }

  tell(method, params, id) {
    const body = Buffer.from(JSON.stringify({jsonrpc: "2.0", method, params, id}));
    this.process.stdin.write(Buffer.concat([Buffer.from(`Content-Length: ${body.length}\r\n\r\n`), body]));
  }

  ask(method, params) {
    const id = ++this.number;
    return new Promise((done, failed) => { this.waiting.set(id, {done, failed}); this.tell(method, params, id); });
  }
}

const rangeOf = told => new vscode.Range(told.start.line, told.start.character, told.end.line, told.end.character);
const at = (document, position) => ({textDocument: {uri: document.uri.toString()}, position: {line: position.line, character: position.character}});

function show(shown, {uri, diagnostics}) {
  shown.set(vscode.Uri.parse(uri), diagnostics.map(one => new vscode.Diagnostic(rangeOf(one.range), one.message)));
}

// Tells the server of all texts of these languages, open ones first
function follow(client, shown) {
  const isOurs = document => LANGUAGES.includes(document.languageId);
  const opened = document => isOurs(document) && client.tell("textDocument/didOpen", {textDocument: {uri: document.uri.toString(), text: document.getText()}});
  vscode.workspace.textDocuments.forEach(opened);
  return [
    vscode.workspace.onDidOpenTextDocument(opened),
    vscode.workspace.onDidChangeTextDocument(({document}) => isOurs(document) && client.tell("textDocument/didChange",
      {textDocument: {uri: document.uri.toString()}, contentChanges: [{text: document.getText()}]})),
    vscode.workspace.onDidCloseTextDocument(document => {
      if (!isOurs(document)) return;
      client.tell("textDocument/didClose", {textDocument: {uri: document.uri.toString()}});
      shown.delete(document.uri);
    }),
  ];
}

function answers(client) {
  const hover = async (document, position) => {
    const told = await client.ask("textDocument/hover", at(document, position));
    return told && new vscode.Hover(new vscode.MarkdownString(told.contents.value));
  };
  const definition = async (document, position) => {
    const told = await client.ask("textDocument/definition", at(document, position));
    return told && new vscode.Location(vscode.Uri.parse(told.uri), rangeOf(told.range));
  };
  const completion = async (document, position) => {
    const told = await client.ask("textDocument/completion", at(document, position));
    return told.map(({label, kind, documentation}) =>
      Object.assign(new vscode.CompletionItem(label, kind - 1), {documentation: new vscode.MarkdownString(documentation.value)}));
  };
  const located = ({uri, range}) => new vscode.Location(vscode.Uri.parse(uri), rangeOf(range));
  const references = async (document, position) => (await client.ask("textDocument/references", at(document, position)) || []).map(located);
  const placed = async (document, position) => {
    const told = await client.ask("textDocument/prepareRename", at(document, position));
    if (!told) throw new Error("no name of this text is here");
    return {range: rangeOf(told.range), placeholder: told.placeholder};
  };
  const rename = async (document, position, newName) => {
    const told = await client.ask("textDocument/rename", {...at(document, position), newName});
    const edit = new vscode.WorkspaceEdit();
    for (const [uri, edits] of Object.entries(told.changes)) {
      for (const {range, newText} of edits) edit.replace(vscode.Uri.parse(uri), rangeOf(range), newText);
    }
    return edit;
  };
  return [
    vscode.languages.registerReferenceProvider(LANGUAGES, {provideReferences: references}),
    vscode.languages.registerRenameProvider(LANGUAGES, {prepareRename: placed, provideRenameEdits: rename}),
    vscode.languages.registerHoverProvider(LANGUAGES, {provideHover: hover}),
    vscode.languages.registerDefinitionProvider(LANGUAGES, {provideDefinition: definition}),
    vscode.languages.registerCompletionItemProvider(LANGUAGES, {provideCompletionItems: completion}, ".", "<", ">"),
  ];
}

async function activate(context) {
  const debug = {createDebugAdapterDescriptor: () => new vscode.DebugAdapterExecutable("python3", command("debug_adapter"))};
  context.subscriptions.push(vscode.debug.registerDebugAdapterDescriptorFactory("pip", debug));
  const shown = vscode.languages.createDiagnosticCollection("pip");
  const client = new Client(command("language_server"), (method, params) => method === "textDocument/publishDiagnostics" && show(shown, params));
  context.subscriptions.push(shown, {dispose: () => client.process.kill()});
  await client.ask("initialize", {capabilities: {}});
  context.subscriptions.push(...follow(client, shown), ...answers(client));
}

module.exports = {activate};
