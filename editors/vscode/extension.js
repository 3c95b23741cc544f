// The entry at the cursor in the status bar, and a line before each entry of the card there.
"use strict";

const vscode = require("vscode");
const { rulerAt, rulersOf } = require("./cards");

function activate(context) {
  const item = vscode.window.createStatusBarItem(vscode.StatusBarAlignment.Right, 100);
  const ruler = vscode.window.createTextEditorDecorationType({ border: "solid", borderWidth: "0 0 0 1px", borderColor: new vscode.ThemeColor("editorRuler.foreground") });

  function show(editor) {
    if (!editor || editor.document.languageId !== "rpgii") {
      item.hide();
      return;
    }
    const { line, character } = editor.selection.active;
    const text = editor.document.lineAt(line).text;
    item.text = rulerAt(text, character);
    item.show();
    const places = vscode.workspace.getConfiguration("rpgii").get("rulers") ? rulersOf(text) : [];
    editor.setDecorations(ruler, places.map((place) => new vscode.Range(line, place, line, place + 1)));
  }

  context.subscriptions.push(
    item,
    ruler,
    vscode.window.onDidChangeTextEditorSelection((event) => show(event.textEditor)),
    vscode.window.onDidChangeActiveTextEditor(show),
  );
  show(vscode.window.activeTextEditor);
}

module.exports = { activate, deactivate() {} };
