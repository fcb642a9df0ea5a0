// A client of `wacx lsp`: it tells the server which documents are open, shows their errors, and asks for their layout.
'use strict';
const { spawn } = require('node:child_process');
const vscode = require('vscode');

/** Calls `receive` with each message that arrives on a stream. */
function readMessages(stream, receive) {
    let bytes = Buffer.alloc(0);
    stream.on('data', (more) => {
        bytes = Buffer.concat([bytes, more]);
        for (;;) {
            const start = bytes.indexOf('\r\n\r\n') + 4;
            const length = start < 4 ? null : /content-length: *(\d+)/i.exec(bytes.toString('latin1', 0, start));
            const end = length ? start + Number(length[1]) : Infinity;
            if (bytes.length < end) return;
            const message = JSON.parse(bytes.toString('utf8', start, end));
            bytes = bytes.subarray(end);
            receive(message);
        }
    });
}

/** Starts the server. A request's promise is that of its result; the server's notifications go to `notified`. */
function connect(program, notified) {
    const server = spawn(program, ['lsp', '--stdio']);
    const waiting = new Map();
    const send = (message) => {
        const body = JSON.stringify({ jsonrpc: '2.0', ...message });
        server.stdin.write(`Content-Length: ${Buffer.byteLength(body)}\r\n\r\n${body}`);
    };
    let last = 0;
    const request = (method, params) => new Promise((resolve) => {
        waiting.set(++last, resolve);
        send({ id: last, method, params });
    });
    server.on('error', (error) => vscode.window.showErrorMessage(`${program} lsp: ${error.message}`));
    server.stdin.on('error', () => {}); // The server has ended.
    readMessages(server.stdout, ({ id, method, params, result }) => {
        if (method === undefined) {
            waiting.get(id)?.(result);
            waiting.delete(id);
        } else if (id === undefined) {
            notified(method, params);
        } else {
            send({ id, error: { code: -32601, message: `this client has no ${method}` } });
        }
    });
    return { request, notify: (method, params) => send({ method, params }) };
}

const toRange = ({ start, end }) => new vscode.Range(start.line, start.character, end.line, end.character);

function toDiagnostic({ range, message, severity, code, codeDescription, source }) {
    const diagnostic = new vscode.Diagnostic(toRange(range), message, severity - 1);
    diagnostic.code = codeDescription ? { value: code, target: vscode.Uri.parse(codeDescription.href) } : code;
    diagnostic.source = source;
    return diagnostic;
}

/** Tells the server what becomes of each document. */
function follow({ notify }, subscriptions) {
    const tell = (method, paramsOf) => (document) => {
        if (document.languageId === 'wac') notify(`textDocument/${method}`, paramsOf(document));
    };
    const named = ({ uri, version }) => ({ uri: uri.toString(), version });
    const open = tell('didOpen', (document) => ({
        textDocument: { ...named(document), languageId: 'wac', text: document.getText() },
    }));
    const change = tell('didChange', (document) => ({
        textDocument: named(document),
        contentChanges: [{ text: document.getText() }],
    }));
    const close = tell('didClose', ({ uri }) => ({ textDocument: { uri: uri.toString() } }));
    vscode.workspace.textDocuments.forEach(open);
    subscriptions.push(
        vscode.workspace.onDidOpenTextDocument(open),
        vscode.workspace.onDidChangeTextDocument(({ document }) => change(document)),
        vscode.workspace.onDidCloseTextDocument(close),
    );
}

/** Tells the server that files changed which may have packages. */
function watch({ notify }, subscriptions) {
    const watcher = vscode.workspace.createFileSystemWatcher('**/*.{wac,wasm}');
    const changed = () => notify('workspace/didChangeWatchedFiles', { changes: [] });
    subscriptions.push(watcher, watcher.onDidCreate(changed), watcher.onDidChange(changed), watcher.onDidDelete(changed));
}

let server;

exports.activate = async ({ subscriptions }) => {
    const errors = vscode.languages.createDiagnosticCollection('wac');
    const settings = vscode.workspace.getConfiguration('wac');
    server = connect(settings.get('program'), (method, { uri, diagnostics }) => {
        if (method === 'textDocument/publishDiagnostics') {
            errors.set(vscode.Uri.parse(uri), diagnostics.map(toDiagnostic));
        }
    });
    const folders = (vscode.workspace.workspaceFolders ?? []).map(({ uri, name }) => ({ uri: uri.toString(), name }));
    const rootUri = folders.length ? folders[0].uri : null;
    // A setting without a value is an empty text.
    const initializationOptions = { errorsPage: settings.get('errorsPage') || undefined };
    const client = { processId: process.pid, rootUri, workspaceFolders: folders, initializationOptions };
    const capabilities = { textDocument: { publishDiagnostics: { codeDescriptionSupport: true } } };
    await server.request('initialize', { ...client, capabilities });
    server.notify('initialized', {});
    follow(server, subscriptions);
    watch(server, subscriptions);
    const provideDocumentFormattingEdits = async ({ uri }, { tabSize, insertSpaces }) => {
        const textDocument = { uri: uri.toString() };
        const edits = await server.request('textDocument/formatting', { textDocument, options: { tabSize, insertSpaces } });
        return (edits ?? []).map(({ range, newText }) => vscode.TextEdit.replace(toRange(range), newText));
    };
    const formatter = { provideDocumentFormattingEdits };
    const provideDefinition = async ({ uri }, { line, character }) => {
        const textDocument = { uri: uri.toString() };
        const found = await server.request('textDocument/definition', { textDocument, position: { line, character } });
        return found && new vscode.Location(vscode.Uri.parse(found.uri), toRange(found.range));
    };
    subscriptions.push(
        errors,
        vscode.languages.registerDocumentFormattingEditProvider('wac', formatter),
        vscode.languages.registerDefinitionProvider('wac', { provideDefinition }),
    );
};

exports.deactivate = async () => {
    await server?.request('shutdown');
    server?.notify('exit');
};
