'use strict'
// Tiny BASIC in VS Code: the language server, the debugger and the commands of `tbc`.
const vscode = require('vscode')
const { Client } = require('./client')
const commands = require('./commands')
const settings = require('./settings')

// What is debugged where no `launch.json` says it.
const LAUNCH = { type: 'tbc', request: 'launch', name: 'Tiny BASIC', program: '${file}', stopOnEntry: true }

// `tbc dap`, an adapter with which the editor's buttons go on and back.
const debuggers = () => [
  vscode.debug.registerDebugAdapterDescriptorFactory('tbc', {
    createDebugAdapterDescriptor: () =>
      new vscode.DebugAdapterExecutable(settings.program(), ['dap', ...settings.notation()])
  }),
  vscode.debug.registerDebugConfigurationProvider('tbc', {
    resolveDebugConfiguration: (_, found) => (found.type ? found : { ...LAUNCH })
  })
]

let client

exports.activate = async context => {
  const channel = vscode.window.createOutputChannel('Tiny BASIC')
  client = new Client(channel)
  context.subscriptions.push(channel, client, ...commands.register(() => client.restart()), ...debuggers())
  await client.start()
}

exports.deactivate = () => client?.stop()
