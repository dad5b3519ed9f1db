// Starts the debug adapter, lists what every schedule comes to, and marks what is refused of a run file.
'use strict';
const { execFile } = require('child_process');
const vscode = require('vscode');

/** A refusal, as `ebpf debug --explain` prints it first. */
const refusal = /^refused line (\d+) (.*)$/m;

/** Marks the line of a run file that the program refuses, if it does. */
function diagnose(marks, document) {
  if (document.languageId !== 'ebpf-run') return;
  const program = vscode.workspace.getConfiguration('ebpf').get('program');
  const text = document.getText().split(/^\s*---\s*$/m)[0];
  const child = execFile(program, ['debug', '--explain'], (_error, out, said) => {
    const found = refusal.exec(said) || refusal.exec(out);
    const line = found && document.lineAt(Math.min(Number(found[1]), document.lineCount) - 1);
    marks.set(document.uri, found ? [new vscode.Diagnostic(line.range, found[2])] : []);
  });
  // Where the program isn't there nothing can be written, and nothing is marked.
  child.stdin.on('error', () => {});
  child.stdin.end(`${text}\n---\n`);
}

/** What the adapter's custom requests return, as lines to choose from. */
const lists = {
  outcomes: {
    of: (body) => body.outcomes.map((it) => ({ label: it.lines.join('; ') || '(nothing)', detail: `by ${it.schedule}`, replay: { outcome: it.number } })),
    title: (body) => `${body.summary}: choose one to go to its end`,
  },
  races: {
    of: (body) => body.races.map((it) => ({ label: it.line, detail: `by ${it.schedule}`, replay: { race: it.number } })),
    title: (body) => `${body.summary}: choose one to go to it`,
  },
  hung: {
    of: (body) => body.hung.map((it) => ({ label: `by ${it.schedule}`, replay: { hung: it.number } })),
    title: (body) => `${body.hung.length} hung, ${body.summary}`,
  },
};

async function choose(kind) {
  const session = vscode.debug.activeDebugSession;
  if (!session || session.type !== 'ebpf') {
    vscode.window.showInformationMessage('Debug a run file first');
    return;
  }
  try {
    const body = await session.customRequest(kind, {});
    const found = await vscode.window.showQuickPick(lists[kind].of(body), { title: lists[kind].title(body) });
    if (found) await session.customRequest('replay', found.replay);
  } catch (error) {
    vscode.window.showErrorMessage(String(error.message || error));
  }
}

function activate(context) {
  for (const kind of Object.keys(lists)) {
    context.subscriptions.push(vscode.commands.registerCommand(`ebpf.${kind}`, () => choose(kind)));
  }
  const marks = vscode.languages.createDiagnosticCollection('ebpf');
  vscode.workspace.textDocuments.forEach((it) => diagnose(marks, it));
  context.subscriptions.push(
    marks,
    vscode.workspace.onDidOpenTextDocument((it) => diagnose(marks, it)),
    vscode.workspace.onDidSaveTextDocument((it) => diagnose(marks, it)),
    vscode.workspace.onDidCloseTextDocument((it) => marks.delete(it.uri)),
    vscode.debug.registerDebugAdapterDescriptorFactory('ebpf', {
      createDebugAdapterDescriptor() {
        const [command, ...words] = vscode.workspace.getConfiguration('ebpf').get('adapter');
        return new vscode.DebugAdapterExecutable(command, words);
      },
    }),
  );
}

module.exports = { activate };
