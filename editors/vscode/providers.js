'use strict'
// What the server answers, in the editor's own types: a provider for each of its capabilities.
const vscode = require('vscode')

const SELECTOR = ['file', 'untitled'].map(scheme => ({ language: 'tinybasic', scheme }))

/** Whether the server is told of a text. */
exports.isSource = ({ languageId, uri }) => SELECTOR.some(it => it.language === languageId && it.scheme === uri.scheme)

// Places are counted as the editor counts them. Kinds begin with 1, and the editor's with 0.
const range = ({ start, end }) => new vscode.Range(start.line, start.character, end.line, end.character)
const location = it => new vscode.Location(vscode.Uri.parse(it.uri), range(it.range))
const textEdit = it => new vscode.TextEdit(range(it.range), it.newText)
const kind = it => it - 1

function workspaceEdit({ changes }) {
  const all = new vscode.WorkspaceEdit()
  for (const [uri, edits] of Object.entries(changes)) all.set(vscode.Uri.parse(uri), edits.map(textEdit))
  return all
}

/** A finding, as the server publishes it. */
function diagnostic(it) {
  const found = new vscode.Diagnostic(range(it.range), it.message, kind(it.severity))
  found.source = it.source
  found.code = it.code
  found.tags = it.tags
  found.relatedInformation = it.relatedInformation?.map(
    other => new vscode.DiagnosticRelatedInformation(location(other.location), other.message)
  )
  return found
}
exports.diagnostic = diagnostic

const hover = it => new vscode.Hover(new vscode.MarkdownString().appendText(it.contents.value), range(it.range))
const highlight = it => new vscode.DocumentHighlight(range(it.range), kind(it.kind))
const symbol = it => new vscode.DocumentSymbol(it.name, '', kind(it.kind), range(it.range), range(it.selectionRange))
const FOLDINGS = { comment: vscode.FoldingRangeKind.Comment, region: vscode.FoldingRangeKind.Region }
const folding = it => new vscode.FoldingRange(it.startLine, it.endLine, FOLDINGS[it.kind])
const tokens = it => new vscode.SemanticTokens(Uint32Array.from(it.data))
const completions = it => new vscode.CompletionList(it.items.map(completion), it.isIncomplete)

function completion(it) {
  const item = new vscode.CompletionItem(it.label, kind(it.kind))
  item.range = range(it.textEdit.range)
  item.insertText = it.textEdit.newText
  item.sortText = it.sortText
  return item
}

function fix(it) {
  const action = new vscode.CodeAction(it.title, vscode.CodeActionKind.QuickFix)
  action.diagnostics = it.diagnostics.map(diagnostic)
  action.edit = workspaceEdit(it.edit)
  action.isPreferred = it.isPreferred
  return action
}

// What a request says: a text, and a place or a span in it.
const inText = document => ({ textDocument: { uri: document.uri.toString() } })
const place = ({ line, character }) => ({ line, character })
const at = (document, position) => ({ ...inText(document), position: place(position) })
const span = ({ start, end }) => ({ start: place(start), end: place(end) })

// What the editor gets of an answer that may be null.
const one = made => found => (found ? made(found) : undefined)
const each = made => found => found?.map(made)

// A function of a provider, which asks at a place or of a whole text.
const atPlace = (ask, method, made) => (document, position) => ask(method, at(document, position)).then(made)
const ofText = (ask, method, made) => document => ask(method, inText(document)).then(made)

// What registers a provider, by the capability that a server has for it. `ask` answers null where the server refuses.
const { languages } = vscode
const PROVIDERS = {
  hoverProvider: ask =>
    languages.registerHoverProvider(SELECTOR, { provideHover: atPlace(ask, 'hover', one(hover)) }),
  definitionProvider: ask =>
    languages.registerDefinitionProvider(SELECTOR, { provideDefinition: atPlace(ask, 'definition', one(location)) }),
  referencesProvider: ask =>
    languages.registerReferenceProvider(SELECTOR, {
      provideReferences: (document, position, { includeDeclaration }) =>
        ask('references', { ...at(document, position), context: { includeDeclaration } }).then(each(location))
    }),
  documentHighlightProvider: ask =>
    languages.registerDocumentHighlightProvider(SELECTOR, {
      provideDocumentHighlights: atPlace(ask, 'documentHighlight', each(highlight))
    }),
  documentSymbolProvider: ask =>
    languages.registerDocumentSymbolProvider(SELECTOR, {
      provideDocumentSymbols: ofText(ask, 'documentSymbol', each(symbol))
    }),
  completionProvider: (ask, { triggerCharacters }) => {
    const provider = { provideCompletionItems: atPlace(ask, 'completion', one(completions)) }
    return languages.registerCompletionItemProvider(SELECTOR, provider, ...triggerCharacters)
  },
  renameProvider: (ask, _, demand) =>
    languages.registerRenameProvider(SELECTOR, {
      prepareRename: async (document, position) => {
        const found = await ask('prepareRename', at(document, position))
        if (!found) throw new Error('Only variables can be renamed.')
        return { range: range(found.range), placeholder: found.placeholder }
      },
      provideRenameEdits: (document, position, newName) =>
        demand('rename', { ...at(document, position), newName }).then(workspaceEdit)
    }),
  foldingRangeProvider: ask =>
    languages.registerFoldingRangeProvider(SELECTOR, {
      provideFoldingRanges: ofText(ask, 'foldingRange', each(folding))
    }),
  semanticTokensProvider: (ask, { legend }) => {
    const provider = { provideDocumentSemanticTokens: ofText(ask, 'semanticTokens/full', one(tokens)) }
    const kinds = new vscode.SemanticTokensLegend(legend.tokenTypes, legend.tokenModifiers)
    return languages.registerDocumentSemanticTokensProvider(SELECTOR, provider, kinds)
  },
  documentFormattingProvider: ask =>
    languages.registerDocumentFormattingEditProvider(SELECTOR, {
      provideDocumentFormattingEdits: ofText(ask, 'formatting', each(textEdit))
    }),
  codeActionProvider: ask => {
    const provider = {
      provideCodeActions: (document, chosen) =>
        ask('codeAction', { ...inText(document), range: span(chosen), context: { diagnostics: [] } }).then(each(fix))
    }
    const kinds = { providedCodeActionKinds: [vscode.CodeActionKind.QuickFix] }
    return languages.registerCodeActionsProvider(SELECTOR, provider, kinds)
  }
}

/** Registers a provider for each capability of a server that there is one for. `demand(method, params)` asks it. */
exports.bind = (capabilities, demand) => {
  const ask = (method, params) => demand(method, params).catch(() => null)
  return Object.entries(PROVIDERS)
    .filter(([name]) => capabilities[name])
    .map(([name, register]) => register(ask, capabilities[name], demand))
}
