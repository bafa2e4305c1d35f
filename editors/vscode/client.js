'use strict'
// Keeps `tbc lsp` running, tells it of the open sources, and shows what it finds in them.
const vscode = require('vscode')
const { Server } = require('./server')
const { bind, diagnostic, isSource } = require('./providers')
const settings = require('./settings')

const ABOUT_US = { processId: process.pid, rootUri: null, capabilities: {} }
const MOST_RESTARTS = 5
const SPAN = 3 * 60 * 1000 // the milliseconds in which so many are made

class Client {
  constructor(channel) {
    this.channel = channel
    this.findings = vscode.languages.createDiagnosticCollection('tbc')
    this.restarts = [] // when it was started again
    this.turn = Promise.resolve() // of what a user asked for, one after the other
    this.started = undefined // the server that was started last
    this.server = undefined // the same, when it is ready
    this.providers = []
    this.listeners = [
      vscode.workspace.onDidOpenTextDocument(document => this.open(document)),
      vscode.workspace.onDidChangeTextDocument(({ document }) => this.change(document)),
      vscode.workspace.onDidCloseTextDocument(document => this.close(document)),
      vscode.workspace.onDidChangeConfiguration(event => {
        if (['path', 'petscii'].some(it => event.affectsConfiguration(`tinybasic.${it}`))) this.restart()
      })
    ]
  }

  /** Starts the server, and opens what is open. It is never rejected: what goes wrong is told. */
  async start() {
    const server = new Server(settings.program(), ['lsp', ...settings.notation()], {
      told: (_, { uri, diagnostics }) => this.findings.set(vscode.Uri.parse(uri), diagnostics.map(diagnostic)),
      traced: (way, message) => settings.traces() && this.channel.appendLine(`${way} ${JSON.stringify(message)}`),
      ended: why => this.ended(server, why)
    })
    this.started = server
    try {
      const { capabilities, serverInfo } = await server.request('initialize', ABOUT_US)
      if (server !== this.started) return // (it was stopped meanwhile)
      server.notify('initialized', {})
      this.server = server
      this.channel.appendLine(`${serverInfo.name} ${serverInfo.version} serves.`)
      if (!this.providers.length) this.providers = bind(capabilities, (method, params) => this.ask(method, params))
      vscode.workspace.textDocuments.forEach(document => this.open(document))
    } catch (error) {
      this.channel.appendLine(`tbc lsp did not start: ${error.message}`)
    }
  }

  async stop() {
    const server = this.started
    this.started = this.server = undefined
    this.findings.clear()
    await server?.stop()
  }

  /** Starts it anew as a user asks for it: by the settings as they are now. */
  restart() {
    this.restarts = []
    this.turn = this.turn.then(() => this.stop()).then(() => this.start())
    return this.turn
  }

  dispose() {
    for (const it of [...this.listeners, ...this.providers, this.findings]) it.dispose()
  }

  async ask(method, params) {
    if (!this.server) throw new Error('The language server is not running.')
    return this.server.request(`textDocument/${method}`, params)
  }

  open(document) {
    const { languageId } = document
    this.tell('didOpen', document, it => ({ textDocument: { ...it, languageId, text: document.getText() } }))
  }

  change(document) {
    this.tell('didChange', document, textDocument => ({ textDocument, contentChanges: [{ text: document.getText() }] }))
  }

  close(document) {
    this.tell('didClose', document, textDocument => ({ textDocument }))
  }

  // Tells the server of a source.
  tell(what, document, params) {
    if (!this.server || !isSource(document)) return
    this.server.notify(`textDocument/${what}`, params({ uri: document.uri.toString(), version: document.version }))
  }

  async ended(server, why) {
    this.server = undefined
    this.findings.clear()
    this.channel.appendLine(`tbc lsp ended: ${why}`)
    if (server.process.pid === undefined) return this.isMissing(why)
    const now = Date.now()
    this.restarts = this.restarts.filter(it => now - it < SPAN)
    if (this.restarts.length === MOST_RESTARTS) {
      const often = `after ${MOST_RESTARTS} starts in three minutes`
      return vscode.window.showErrorMessage(`tbc lsp ended (${why}) ${often}: it is not started again.`)
    }
    this.restarts.push(now)
    vscode.window.showWarningMessage(`tbc lsp ended (${why}), and is started again.`)
    return this.start()
  }

  async isMissing(why) {
    const settle = 'Open Settings'
    const chosen = await vscode.window.showErrorMessage(`tbc can't be started (${why}): set tinybasic.path.`, settle)
    if (chosen === settle) await vscode.commands.executeCommand('workbench.action.openSettings', 'tinybasic.path')
  }
}

exports.Client = Client
