// Starts the debug adapter: the command `feulgama dap`, or the one that the setting `feulgama.command` names.
"use strict";
const vscode = require("vscode");

class Adapter {
    createDebugAdapterDescriptor(session) {
        const folder = session.workspaceFolder;
        const settings = vscode.workspace.getConfiguration("feulgama", folder && folder.uri);
        const [command, ...words] = settings.get("command");
        return new vscode.DebugAdapterExecutable(command, [...words, "dap"]);
    }
}

exports.activate = (context) => {
    context.subscriptions.push(vscode.debug.registerDebugAdapterDescriptorFactory("feulgama", new Adapter()));
};
