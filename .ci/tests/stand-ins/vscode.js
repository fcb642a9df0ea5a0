// A stand-in for the module `vscode`, of which it has what editors/vscode/extension.js uses. What happens in the editor
// is `happens[NAME](..)`, and `shown` has the errors that the editor was given.
'use strict';
const happens = {};
const when = (name) => (listener) => {
    happens[name] = listener;
    return { dispose() {} };
};

class Range {
    constructor(...places) {
        this.places = places;
    }
}

class Diagnostic {
    constructor(range, message, severity) {
        Object.assign(this, { range, message, severity });
    }
}

class Location {
    constructor(uri, range) {
        Object.assign(this, { uri, range });
    }
}

const shown = [];
module.exports = {
    happens,
    shown,
    Range,
    Diagnostic,
    Location,
    Uri: { parse: (text) => ({ toString: () => text, toJSON: () => text }) },
    TextEdit: { replace: (range, newText) => ({ range, newText }) },
    window: { showErrorMessage: (message) => shown.push(message) },
    workspace: {
        textDocuments: [],
        workspaceFolders: undefined,
        getConfiguration: (section) => ({ get: (name) => process.env[`${section}_${name}`] }),
        createFileSystemWatcher: () => ({
            onDidCreate: when('fileCreated'),
            onDidChange: when('fileChanged'),
            onDidDelete: when('fileDeleted'),
            dispose() {},
        }),
        onDidOpenTextDocument: when('open'),
        onDidChangeTextDocument: when('change'),
        onDidCloseTextDocument: when('close'),
    },
    languages: {
        createDiagnosticCollection: () => ({ set: (uri, errors) => shown.push([uri, errors]) }),
        registerDocumentFormattingEditProvider: (_, { provideDocumentFormattingEdits }) => {
            happens.format = provideDocumentFormattingEdits;
            return { dispose() {} };
        },
        registerDefinitionProvider: (_, { provideDefinition }) => {
            happens.define = provideDefinition;
            return { dispose() {} };
        },
    },
};
