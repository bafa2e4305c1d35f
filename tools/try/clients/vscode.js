'use strict'
// A stand-in for the module `vscode`: those of its documented members that the extension uses, with what the documents say
// of their types and bounds. It is strict: a member that isn't known, a value of another type and a provider with another
// function are kept in `complaints` and thrown. `host` is what an editor does, for the trial.
const { spawn } = require('child_process')
const fs = require('fs')
const { fileURLToPath, pathToFileURL } = require('url')

const complaints = []
function complain(text) {
  complaints.push(text)
  throw new TypeError(text)
}
const must = (holds, text) => holds || complain(text)
const isText = (it, what) => must(typeof it === 'string', `${what} is no text`)
const isCount = (it, what) => must(Number.isInteger(it) && it >= 0, `${what} is no number from 0`)
const isOne = (it, type, what) => must(it instanceof type, `${what} is no ${type.name}`)
const isList = (list, type, what) => must(Array.isArray(list), `${what} is no list`) && list.forEach(it => isOne(it, type, `a member of ${what}`))

// An object of which these members are known, and no others; those of `open` may be set.
const LIBRARY = ['then', 'toJSON', 'constructor'] // what the language itself asks for
function strict(name, members, open = []) {
  const isKnown = (it, key) => typeof key === 'symbol' || key in it || LIBRARY.includes(key)
  return new Proxy(members, {
    get: (it, key) => (isKnown(it, key) ? it[key] : complain(`${name} has no member ${String(key)}`)),
    set: (it, key, value) => must(open.includes(key), `${name}.${String(key)} can't be set`) && Reflect.set(it, key, value)
  })
}
const shape = (it, members, open = []) => strict(it.constructor.name, Object.assign(it, members), open)
const choices = (name, members) => strict(name, members)

class Disposable {
  constructor(dispose) {
    this.dispose = dispose
  }
}

class Uri {
  constructor(url) {
    this.scheme = url.protocol.slice(0, -1)
    this.path = decodeURIComponent(url.pathname)
    this.fsPath = this.scheme === 'file' ? fileURLToPath(url) : this.path
    return shape(this, { toString: () => url.href })
  }
  static parse(text) {
    isText(text, 'a URI')
    return new Uri(new URL(text))
  }
  static file(file) {
    return new Uri(pathToFileURL(file))
  }
}

class Position {
  constructor(line, character) {
    isCount(line, 'a line')
    isCount(character, 'a character')
    return shape(this, { line, character })
  }
}
const isBehind = (one, other) => one.line > other.line || (one.line === other.line && one.character > other.character)

class Range {
  constructor(...words) {
    const [start, end] = words.length === 4 ? [new Position(words[0], words[1]), new Position(words[2], words[3])] : words
    isOne(start, Position, 'start')
    isOne(end, Position, 'end')
    return shape(this, isBehind(start, end) ? { start: end, end: start } : { start, end })
  }
  contains(other) {
    return !isBehind(this.start, other.start) && !isBehind(other.end, this.end)
  }
}

class Location {
  constructor(uri, range) {
    isOne(uri, Uri, 'uri')
    isOne(range, Range, 'range')
    return shape(this, { uri, range })
  }
}

class DiagnosticRelatedInformation {
  constructor(location, message) {
    isOne(location, Location, 'location')
    isText(message, 'message')
    return shape(this, { location, message })
  }
}

class Diagnostic {
  constructor(range, message, severity = 0) {
    isOne(range, Range, 'range')
    isText(message, 'message')
    must([0, 1, 2, 3].includes(severity), `the severity ${severity}`)
    const open = { source: undefined, code: undefined, tags: undefined, relatedInformation: undefined }
    return shape(this, { range, message, severity, ...open }, Object.keys(open))
  }
}

class MarkdownString {
  constructor(value = '') {
    return shape(this, { value }, ['value'])
  }
  appendText(text) {
    isText(text, 'a text')
    this.value += text
    return this
  }
}

class Hover {
  constructor(contents, range) {
    isOne(contents, MarkdownString, 'contents')
    isOne(range, Range, 'range')
    return shape(this, { contents, range })
  }
}

class DocumentHighlight {
  constructor(range, kind) {
    isOne(range, Range, 'range')
    must([0, 1, 2].includes(kind), `the kind ${kind} of a highlight`)
    return shape(this, { range, kind })
  }
}

class DocumentSymbol {
  constructor(name, detail, kind, range, selectionRange) {
    must(name, 'a symbol without a name')
    isText(detail, 'detail')
    must(kind >= 0 && kind <= 25, `the kind ${kind} of a symbol`)
    isOne(range, Range, 'range')
    must(range.contains(selectionRange), 'selectionRange is not in range')
    return shape(this, { name, detail, kind, range, selectionRange })
  }
}

class FoldingRange {
  constructor(start, end, kind) {
    isCount(start, 'start')
    isCount(end, 'end')
    must(kind === undefined || [1, 2, 3].includes(kind), `the kind ${kind} of a folding`)
    return shape(this, { start, end, kind })
  }
}

class CompletionItem {
  constructor(label, kind) {
    isText(label, 'label')
    must(kind >= 0 && kind <= 26, `the kind ${kind} of a completion`)
    const open = { range: undefined, insertText: undefined, sortText: undefined }
    return shape(this, { label, kind, ...open }, Object.keys(open))
  }
}

class CompletionList {
  constructor(items, isIncomplete) {
    isList(items, CompletionItem, 'items')
    must(typeof isIncomplete === 'boolean', 'isIncomplete is no boolean')
    return shape(this, { items, isIncomplete })
  }
}

class TextEdit {
  constructor(range, newText) {
    isOne(range, Range, 'range')
    isText(newText, 'newText')
    return shape(this, { range, newText })
  }
}

class WorkspaceEdit {
  constructor() {
    return shape(this, { all: [] })
  }
  set(uri, edits) {
    isOne(uri, Uri, 'uri')
    isList(edits, TextEdit, 'edits')
    this.all.push([uri, edits])
  }
  entries() {
    return this.all
  }
}

const CodeActionKind = choices('CodeActionKind', { QuickFix: strict('QuickFix', { value: 'quickfix' }) })
class CodeAction {
  constructor(title, kind) {
    isText(title, 'title')
    must(kind === CodeActionKind.QuickFix, 'another kind of a code action')
    const open = { diagnostics: undefined, edit: undefined, isPreferred: undefined }
    return shape(this, { title, kind, ...open }, Object.keys(open))
  }
}

class SemanticTokensLegend {
  constructor(tokenTypes, tokenModifiers) {
    for (const it of [...tokenTypes, ...tokenModifiers]) isText(it, 'a name of a legend')
    return shape(this, { tokenTypes, tokenModifiers })
  }
}

class SemanticTokens {
  constructor(data) {
    isOne(data, Uint32Array, 'data')
    must(data.length % 5 === 0, 'tokens are five numbers each')
    return shape(this, { data })
  }
}

class ProcessExecution {
  constructor(program, args) {
    isText(program, 'process')
    args.forEach(it => isText(it, 'a word'))
    return shape(this, { process: program, args })
  }
}

const TaskScope = choices('TaskScope', { Global: 1, Workspace: 2 })
class Task {
  constructor(definition, scope, name, source, execution) {
    isText(definition.type, 'type')
    must(host.manifest.contributes.taskDefinitions.some(it => it.type === definition.type), `no tasks of type ${definition.type}`)
    must(scope === TaskScope.Workspace, 'another scope')
    isText(name, 'name')
    isText(source, 'source')
    isOne(execution, ProcessExecution, 'execution')
    return shape(this, { definition, scope, name, source, execution, presentationOptions: undefined }, ['presentationOptions'])
  }
}

class DebugAdapterExecutable {
  constructor(command, args) {
    isText(command, 'command')
    args.forEach(it => isText(it, 'a word'))
    return shape(this, { command, args })
  }
}

// --- What an editor does

function event() {
  const listeners = new Set()
  const on = listener => {
    listeners.add(listener)
    return new Disposable(() => listeners.delete(listener))
  }
  on.fire = it => listeners.forEach(listener => listener(it))
  on.listeners = listeners
  return on
}

const host = {
  manifest: undefined, // of the extension
  settings: {}, // what a user set
  said: [], // the messages that were shown, as `error: TEXT`
  answers: [], // which button of them is pressed
  output: [], // the lines of output channels
  panels: [],
  tasks: [], // what they printed, and their status
  executed: [], // commands of the editor
  commands: {},
  providers: {}, // by the name of their register function: the provider, and what was registered with it
  findings: new Map(),
  cleared: 0, // how often all findings went
  opened: event(),
  changed: event(),
  closed: event(),
  configured: event(),
  documents: [],
  typed: '', // what a task finds at its terminal
  editor: undefined,

  set(name, value) {
    host.settings[name] = value
    host.configured.fire(strict('ConfigurationChangeEvent', { affectsConfiguration: it => it === `tinybasic.${name}` }))
  },

  open(file, languageId = 'tinybasic') {
    const state = { text: fs.readFileSync(file, 'utf8'), version: 1, isDirty: false }
    const document = strict('TextDocument', {
      uri: Uri.file(file),
      fileName: file,
      languageId,
      isUntitled: false,
      get version() { return state.version },
      get isDirty() { return state.isDirty },
      get lineCount() { return state.text.split('\n').length },
      getText: () => state.text,
      save: async () => {
        fs.writeFileSync(file, state.text)
        state.isDirty = false
        return true
      }
    })
    host.states.set(document, state)
    host.documents.push(document)
    host.editor = strict('TextEditor', {
      document,
      edit: async does => {
        does(strict('TextEditorEdit', { replace: (range, text) => host.apply(document, [new TextEdit(range, text)]) }))
        return true
      }
    })
    host.opened.fire(document)
    return document
  },

  // What is typed: a line becomes another one, or edits are applied.
  write(document, line, text) {
    const lines = document.getText().split('\n')
    lines[line - 1] = text
    host.replace(document, lines.join('\n'))
  },

  apply(document, edits) {
    const lines = document.getText().split('\n')
    const offset = ({ line, character }) => lines.slice(0, line).reduce((sum, it) => sum + it.length + 1, 0) + character
    const text = [...edits]
      .sort((one, other) => offset(other.range.start) - offset(one.range.start))
      .reduce((it, edit) => it.slice(0, offset(edit.range.start)) + edit.newText + it.slice(offset(edit.range.end)), document.getText())
    host.replace(document, text)
  },

  replace(document, text) {
    const state = host.states.get(document)
    Object.assign(state, { text, version: state.version + 1, isDirty: true })
    host.changed.fire(strict('TextDocumentChangeEvent', { document, contentChanges: [], reason: undefined }))
  },

  close(document) {
    host.documents = host.documents.filter(it => it !== document)
    host.closed.fire(document)
  },
  states: new Map(), // of the documents
  complaints
}

const show = kind => async (text, ...buttons) => {
  isText(text, 'a message')
  buttons.forEach(it => isText(it, 'a button'))
  host.said.push(`${kind}: ${text}`)
  return buttons.find(it => host.answers.includes(it))
}

// What registers a provider: its functions are those that are documented, and the first of them must be there.
const register = (name, functions, checks = () => true) => (selector, provider, ...more) => {
  must(Array.isArray(selector) && selector.every(it => it.language === 'tinybasic' && isText(it.scheme, 'scheme')), 'another selector')
  must(typeof provider[functions[0]] === 'function', `${name} without ${functions[0]}`)
  for (const it of Object.keys(provider)) must(functions.includes(it), `a provider of ${name} has no function ${it}`)
  checks(...more)
  must(!host.providers[name], `${name} is called twice`)
  host.providers[name] = { provider, more }
  return new Disposable(() => delete host.providers[name])
}

const languages = strict('languages', {
  createDiagnosticCollection: name => {
    isText(name, 'a name')
    return strict('DiagnosticCollection', {
      name,
      set: (uri, found) => {
        isOne(uri, Uri, 'uri')
        isList(found, Diagnostic, 'diagnostics')
        host.findings.set(uri.toString(), found)
      },
      clear: () => {
        host.findings.clear()
        host.cleared++
      },
      dispose: () => host.findings.clear()
    })
  },
  registerHoverProvider: register('hover', ['provideHover']),
  registerDefinitionProvider: register('definition', ['provideDefinition']),
  registerReferenceProvider: register('references', ['provideReferences']),
  registerDocumentHighlightProvider: register('highlights', ['provideDocumentHighlights']),
  registerDocumentSymbolProvider: register('symbols', ['provideDocumentSymbols']),
  registerCompletionItemProvider: register('completion', ['provideCompletionItems', 'resolveCompletionItem'], (...triggers) =>
    triggers.forEach(it => must(it.length === 1, 'a trigger is a character'))
  ),
  registerRenameProvider: register('rename', ['provideRenameEdits', 'prepareRename']),
  registerFoldingRangeProvider: register('folding', ['provideFoldingRanges', 'onDidChangeFoldingRanges']),
  registerDocumentSemanticTokensProvider: register(
    'tokens',
    ['provideDocumentSemanticTokens', 'provideDocumentSemanticTokensEdits', 'onDidChangeSemanticTokens'],
    legend => isOne(legend, SemanticTokensLegend, 'legend')
  ),
  registerDocumentFormattingEditProvider: register('formatting', ['provideDocumentFormattingEdits']),
  registerCodeActionsProvider: register('fixes', ['provideCodeActions', 'resolveCodeAction'], metadata =>
    must(metadata.providedCodeActionKinds.every(it => it === CodeActionKind.QuickFix), 'other kinds of code actions')
  )
})

const workspace = strict('workspace', {
  get textDocuments() { return host.documents },
  onDidOpenTextDocument: host.opened,
  onDidChangeTextDocument: host.changed,
  onDidCloseTextDocument: host.closed,
  onDidChangeConfiguration: host.configured,
  getConfiguration: section => strict('WorkspaceConfiguration', {
    get: name => {
      const declared = host.manifest.contributes.configuration.properties[`${section}.${name}`]
      must(declared, `no setting ${section}.${name}`)
      return host.settings[name] ?? declared.default
    }
  })
})

const window = strict('window', {
  get activeTextEditor() { return host.editor },
  showErrorMessage: show('error'),
  showWarningMessage: show('warning'),
  showInformationMessage: show('information'),
  createOutputChannel: name => {
    isText(name, 'a name')
    return strict('OutputChannel', { name, appendLine: line => { isText(line, 'a line'); host.output.push(line) }, dispose: () => {} })
  },
  createWebviewPanel: (type, title, column, options) => {
    isText(type, 'a type')
    isText(title, 'a title')
    must(column === ViewColumn.Beside, 'another column')
    must(typeof options === 'object', 'no options')
    const panel = { title, webview: strict('Webview', { html: '' }, ['html']) }
    host.panels.push(panel)
    return strict('WebviewPanel', panel)
  }
})

const commands = strict('commands', {
  registerCommand: (name, does) => {
    must(host.manifest.contributes.commands.some(it => it.command === name), `no command ${name} in the manifest`)
    must(!host.commands[name], `the command ${name} is registered twice`)
    host.commands[name] = does
    return new Disposable(() => delete host.commands[name])
  },
  executeCommand: async (...words) => host.executed.push(words)
})

const tasks = strict('tasks', {
  executeTask: async task => {
    isOne(task, Task, 'a task')
    for (const it of Object.keys(task.presentationOptions)) must(['reveal', 'echo', 'focus', 'panel', 'showReuseMessage', 'clear', 'close'].includes(it), `no option ${it}`)
    const child = spawn(task.execution.process, task.execution.args)
    let printed = ''
    child.stdout.on('data', bytes => { printed += bytes })
    child.stdin.on('error', () => {}) // (a program that asks for nothing may end first)
    child.stdin.end(host.typed)
    child.on('close', status => host.tasks.push({ name: task.name, printed, status }))
    return strict('TaskExecution', { task })
  }
})

const debug = strict('debug', {
  registerDebugAdapterDescriptorFactory: (type, factory) => {
    must(host.manifest.contributes.debuggers.some(it => it.type === type), `no debugger ${type}`)
    host.adapter = factory.createDebugAdapterDescriptor
    return new Disposable(() => {})
  },
  registerDebugConfigurationProvider: (type, provider) => {
    must(host.manifest.contributes.debuggers.some(it => it.type === type), `no debugger ${type}`)
    host.resolve = provider.resolveDebugConfiguration
    return new Disposable(() => {})
  }
})

const ViewColumn = choices('ViewColumn', { Active: -1, Beside: -2, One: 1 })
const FoldingRangeKind = choices('FoldingRangeKind', { Comment: 1, Imports: 2, Region: 3 })

exports.host = host
exports.types = {
  Position, Range, Location, Diagnostic, Hover, DocumentHighlight, DocumentSymbol, FoldingRange, CompletionList, TextEdit,
  WorkspaceEdit, CodeAction, SemanticTokens, DebugAdapterExecutable
}
exports.vscode = strict('vscode', {
  ...exports.types, languages, workspace, window, commands, tasks, debug, Uri, Disposable, DiagnosticRelatedInformation,
  MarkdownString, CompletionItem, CodeActionKind, SemanticTokensLegend, ProcessExecution, Task, TaskScope, ViewColumn, FoldingRangeKind
})
