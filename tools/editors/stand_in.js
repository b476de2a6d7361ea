// Activates the extension beside a stand-in for the editor, and prints what it shows of a text with a wrong line, and how it debugs.
"use strict";
const Module = require("module");
const path = require("path");

const shown = [], providers = {}, factories = {};
const nothing = () => ({dispose() {}});
const uri = text => ({toString: () => text, fsPath: text.replace("file://", "")});
class Told { constructor(...words) { this.words = words; } }
const document = {languageId: "pip-asmx", uri: uri("file:///nowhere/a.asmx"), getText: () => ".frames 16\n.cpus 1\n.page 0x400000\nstart: jmp start\nsys 0\n"};
const vscode = {
  workspace: {workspaceFolders: [], getConfiguration: () => ({get: () => undefined}), textDocuments: [document],
    onDidOpenTextDocument: nothing, onDidChangeTextDocument: nothing, onDidCloseTextDocument: nothing},
  languages: {createDiagnosticCollection: () => ({set: (_, all) => shown.push(all), delete() {}, dispose() {}}),
    registerHoverProvider: (_, one) => { providers.hover = one.provideHover; return nothing(); },
    registerDefinitionProvider: (_, one) => { providers.definition = one.provideDefinition; return nothing(); },
    registerReferenceProvider: (_, one) => { providers.references = one.provideReferences; return nothing(); },
    registerRenameProvider: (_, one) => { providers.rename = one; return nothing(); },
    registerCompletionItemProvider: (_, one) => { providers.completion = one.provideCompletionItems; return nothing(); }},
  debug: {registerDebugAdapterDescriptorFactory: (type, one) => { factories[type] = one; return nothing(); }},
  window: {showErrorMessage: console.error}, Uri: {parse: uri}, Range: Told, Diagnostic: Told, Hover: Told, Location: Told, CompletionItem: Told,
  MarkdownString: Told, DebugAdapterExecutable: Told, WorkspaceEdit: class { constructor() { this.edits = []; } replace(...words) { this.edits.push(words); } },
};
const load = Module._load;
Module._load = (name, ...more) => name === "vscode" ? vscode : load(name, ...more);

(async () => {
  const context = {subscriptions: []};
  await require(path.join(__dirname, "extension.js")).activate(context);
  const hover = await providers.hover(document, {line: 4, character: 4});
  const definition = await providers.definition(document, {line: 3, character: 13});
  const completion = await providers.completion(document, {line: 4, character: 4});
  const references = await providers.references(document, {line: 3, character: 1});
  const edit = await providers.rename.provideRenameEdits(document, {line: 3, character: 1}, "begin");
  const refused = await providers.rename.provideRenameEdits(document, {line: 3, character: 1}, "r1").catch(error => error.message);
  const nowhere = await providers.rename.prepareRename(document, {line: 4, character: 1}).catch(error => error.message);
  console.log(JSON.stringify({references: references.map(one => one.words[1].words), edits: edit.edits.map(one => [one[1].words, one[2]]), refused, nowhere,
    wrong: shown[0].map(one => [one.words[0].words[0], one.words[1]]), hover: hover.words[0].words[0],
    definition: definition.words[1].words[0], completion: completion.map(one => one.words[0]), debug: factories.pip.createDebugAdapterDescriptor().words}));
  context.subscriptions.forEach(one => one.dispose());
})();
