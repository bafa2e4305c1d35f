'use strict'
// Tries an extension with the built program, in the stand-in for VS Code beside this file. A source is edited, and each
// provider's answer is compared; the server is killed again and again; each command is given, and the debugger's adapter
// is started. `node vscode_trial.js EXTENSION TBC FOLDER`: the extension's folder, the program, and a folder to write in.
const assert = require('assert/strict')
const child = require('child_process')
const fs = require('fs')
const Module = require('module')
const path = require('path')
const { host, types, vscode } = require('./vscode')

const [extension, program, room] = process.argv.slice(2)
const servers = [] // that were started
const { spawn } = child
child.spawn = (name, words, ...more) => {
  const started = spawn(name, words, ...more)
  if (words[0] === 'lsp') servers.push(started)
  return started
}
const load = Module._load
Module._load = (name, ...more) => (name === 'vscode' ? vscode : load(name, ...more))
let hours = 0 // by which the clock was put on
const clock = Date.now
Date.now = () => clock() + hours * 3600000

const token = { isCancellationRequested: false }
const asks = async (name, method, type, ...words) => {
  const found = await host.providers[name].provider[method](...words, token)
  for (const it of [found].flat()) if (it) assert.ok(it instanceof type, `${method} answers no ${type.name}`)
  return found
}
const at = (line, character) => new vscode.Position(line - 1, character)
const span = ({ start, end }) => `${start.line + 1}:${start.character}-${end.character}`
const spans = list => list.map(it => span(it.range)).join(' ')
const pause = () => new Promise(resolve => setTimeout(resolve, 10))

async function until(what, holds) {
  const end = clock() + 20000
  while (!holds() && clock() < end) await pause()
  assert.ok(holds(), `${what}: ${JSON.stringify([host.said, host.output.slice(-5)])}`)
}

// A server is ready after `does` has it started.
async function serves(does) {
  const ready = () => host.output.filter(it => it.endsWith(' serves.')).length
  const before = ready()
  await does()
  await until('the server is ready', () => ready() > before)
}

// The findings of a text as lines, in the order of their places.
function shown(document) {
  const kinds = ['error', 'warning']
  return (host.findings.get(document.uri.toString()) ?? [])
    .map(it => `${span(it.range)} ${kinds[it.severity]} ${it.source} ${it.code}: ${it.message}`)
    .sort()
    .join('\n')
}
const shows = (document, wanted) => until(`wanted ${JSON.stringify(wanted)}`, () => shown(document) === wanted)

// A source in a file of its own, opened.
function source(name, text) {
  const file = path.join(room, name)
  fs.writeFileSync(file, text)
  return host.open(file)
}
const gives = async (command, said) => {
  const before = host.said.length
  await host.commands[`tinybasic.${command}`]()
  if (said) assert.match(host.said.slice(before).join('\n'), said)
  else assert.deepEqual(host.said.slice(before), [])
}

const BAD_BYTE = '1:10-11 error tbc bad-byte: bad byte: a text holds letters, digits, spaces and the signs from ! to @'
const PRIMT = 'error tbc syntax: syntax: did you mean PRINT'

async function answers() {
  const worked = source('worked.bas', '10 PRINT "é"\n20 GOTO 99\n30 PRIMT\n')
  await shows(worked, `${BAD_BYTE}\n3:6-8 ${PRIMT}`)
  host.write(worked, 1, '10 PRINT "E"')
  await shows(worked, `3:6-8 ${PRIMT}`)
  host.write(worked, 3, '30 END')
  await shows(worked, '2:0-10 warning tbc no-line: no line 99')
  host.write(worked, 2, '20 GOTO 30')
  await shows(worked, '')
  host.write(worked, 3, '20 GOTO 10')
  await shows(worked, '2:0-10 warning tbc replaced: line 20 is replaced by line 3 of the file')
  const [replaced] = host.findings.get(worked.uri.toString())
  assert.deepEqual(replaced.tags, [1])
  assert.equal(span(replaced.relatedInformation[0].location.range), '3:0-10')
  host.replace(worked, '10 PRINT "E"\n20 GOTO 30\n30 REM the end\n40 GOSUB 30\n50 LET A=A+1\n60 END')
  await shows(worked, '')

  const { Hover, Location, DocumentHighlight, DocumentSymbol, CompletionList, WorkspaceEdit, FoldingRange } = types
  assert.equal(spans([await asks('definition', 'provideDefinition', Location, worked, at(2, 8))]), '3:0-2')
  const references = await asks('references', 'provideReferences', Location, worked, at(3, 0), { includeDeclaration: true })
  assert.equal(spans(references), '2:8-10 3:0-2 4:9-11')
  assert.equal(references[0].uri.toString(), worked.uri.toString())
  const jumps = await asks('references', 'provideReferences', Location, worked, at(3, 0), { includeDeclaration: false })
  assert.equal(spans(jumps), '2:8-10 4:9-11')
  const highlights = await asks('highlights', 'provideDocumentHighlights', DocumentHighlight, worked, at(5, 7))
  assert.deepEqual(highlights.map(it => [span(it.range), it.kind]), [['5:7-8', 2], ['5:9-10', 1]])
  const symbols = await asks('symbols', 'provideDocumentSymbols', DocumentSymbol, worked)
  assert.deepEqual(symbols.map(it => [it.name, it.kind, span(it.selectionRange)]), [['GOSUB 30: the end', 11, '3:0-2']])
  const hover = await asks('hover', 'provideHover', Hover, worked, at(5, 7))
  assert.equal(hover.contents.value, 'A: $C000\nset in 50\nread in 50')
  assert.match((await asks('hover', 'provideHover', Hover, worked, at(2, 1))).contents.value, /^line 20: \$....,/)
  assert.equal(await asks('hover', 'provideHover', Hover, worked, at(1, 10)), undefined)

  host.write(worked, 6, '60 GO')
  const offered = await asks('completion', 'provideCompletionItems', CompletionList, worked, at(6, 5))
  assert.deepEqual(offered.items.map(it => [it.label, it.kind, it.insertText, span(it.range)]), [
    ['GOTO', 13, 'GOTO ', '6:3-5'],
    ['GOSUB', 13, 'GOSUB ', '6:3-5']
  ])
  host.write(worked, 6, '60 END')
  const renamed = await host.providers.rename.provider.prepareRename(worked, at(5, 7), token)
  assert.deepEqual([span(renamed.range), renamed.placeholder], ['5:7-8', 'A'])
  await assert.rejects(host.providers.rename.provider.prepareRename(worked, at(5, 4), token), /Only variables/)
  await assert.rejects(asks('rename', 'provideRenameEdits', WorkspaceEdit, worked, at(5, 7), 'no'), /./)
  const renaming = await asks('rename', 'provideRenameEdits', WorkspaceEdit, worked, at(5, 7), 'Q')
  for (const [, edits] of renaming.entries()) host.apply(worked, edits)
  assert.equal(worked.getText().split('\n')[4], '50 LET Q=Q+1')

  host.write(worked, 6, '60 RETURN')
  const folds = await asks('folding', 'provideFoldingRanges', FoldingRange, worked)
  assert.deepEqual(folds.map(it => [it.start, it.end, it.kind]), [[2, 5, 3]])
  const tokens = await asks('tokens', 'provideDocumentSemanticTokens', types.SemanticTokens, worked)
  assert.equal(tokens.data.slice(0, 15).join(' '), '0 0 2 2 1 0 3 5 0 0 0 6 3 3 0')
  assert.deepEqual(host.providers.tokens.more[0].tokenTypes.slice(0, 2), ['keyword', 'variable'])
  host.write(worked, 5, '50 let q = 1')
  const tidy = await asks('formatting', 'provideDocumentFormattingEdits', types.TextEdit, worked, { tabSize: 2, insertSpaces: true })
  host.apply(worked, tidy)
  assert.equal(worked.getText().split('\n')[4], '50 LET Q=1')

  host.write(worked, 6, '60 PRIMT A')
  await shows(worked, `6:6-8 ${PRIMT}`)
  const place = new vscode.Range(5, 0, 5, 0)
  const [fix, ...others] = await asks('fixes', 'provideCodeActions', types.CodeAction, worked, place, { diagnostics: [] })
  assert.deepEqual([fix.title, fix.isPreferred, fix.diagnostics[0].code, others], ['Write PRINT', true, 'syntax', []])
  for (const [, edits] of fix.edit.entries()) host.apply(worked, edits)
  assert.equal(worked.getText().split('\n')[5], '60 PRINT A')
  host.close(worked)
  await shows(worked, '')
}

// A server that dies is started again, five times in three minutes at most.
async function deaths() {
  const dying = source('dying.bas', '10 PRIMT\n')
  const finding = `1:6-8 ${PRIMT}`
  await shows(dying, finding)
  const dies = async again => {
    const [count, cleared] = [servers.length, host.cleared]
    servers.at(-1).kill('SIGKILL')
    await until('its findings go', () => host.cleared > cleared)
    if (!again) return
    await until('it is started again', () => servers.length > count)
    await shows(dying, finding)
  }
  const told = kind => host.said.filter(it => it.startsWith(`${kind}: tbc lsp ended (SIGKILL)`)).length
  for (let time = 1; time <= 5; time++) await dies(true)
  assert.deepEqual([told('warning'), told('error')], [5, 0])
  await dies(false)
  await until('that it stays away is told', () => told('error') === 1)
  await pause()
  assert.equal(servers.length, 6)
  assert.equal(await asks('hover', 'provideHover', types.Hover, dying, at(1, 0)), undefined)
  await serves(() => gives('restartServer'))
  await shows(dying, finding)
  for (let time = 1; time <= 5; time++) await dies(true)
  hours += 1
  await dies(true)
  assert.equal(told('error'), 1)
  host.close(dying)
}

async function settings() {
  const signs = source('signs.bas', '10 PRINT "{clr}"\n20 END\n')
  await until('braces are bad bytes', () => shown(signs).includes('bad-byte'))
  await serves(() => host.set('petscii', true))
  await shows(signs, '')
  assert.ok(servers.at(-1).spawnargs.includes('--petscii'))
  host.set('trace', 'messages')
  host.write(signs, 1, '10 PRIMT')
  await shows(signs, `1:6-8 ${PRIMT}`)
  assert.ok(host.output.some(it => it.startsWith('-> ') && it.includes('didChange')) && host.output.some(it => it.startsWith('<- ')))
  host.set('trace', 'off')
  host.answers.push('Open Settings')
  host.set('path', path.join(room, 'nowhere'))
  await until('that it is missing is told', () => host.said.at(-1).startsWith("error: tbc can't be started (spawn "))
  await until('its setting is shown', () => host.executed.length > 0)
  assert.deepEqual(host.executed, [['workbench.action.openSettings', 'tinybasic.path']])
  await gives('build', /ENOENT/)
  await serves(() => host.set('path', program))
  await shows(signs, `1:6-8 ${PRIMT}`)
  await serves(() => host.set('petscii', false))
  host.close(signs)
}

async function commands() {
  host.editor = undefined
  for (const it of ['run', 'play', 'build', 'openInVice', 'profile', 'renumber']) await gives(it, /Open a Tiny BASIC source first/)
  source('hello.bas', '10 PRINT "HELLO"\n20 END\n')
  const prints = async (command, printed) => {
    const count = host.tasks.length
    await gives(command)
    await until(`${command} ends`, () => host.tasks.length > count)
    assert.deepEqual(host.tasks.at(-1), { name: printed.name, printed: printed.text, status: 0 })
  }
  await prints('run', { name: 'run hello.bas', text: 'HELLO\n' })
  const asking = source('asks.bas', '30 INPUT A\n31 PRINT A+1\n90 END\n')
  host.typed = '41\n'
  await prints('play', { name: 'play asks.bas', text: '? \n42\n' })
  await gives('build', /asks\.prg is written/)
  assert.deepEqual([...fs.readFileSync(path.join(room, 'asks.prg')).subarray(0, 2)], [1, 8])

  const emulator = path.join(room, 'emulator')
  fs.writeFileSync(emulator, `#!/bin/sh\necho "$@" >"${emulator}.words"\n`, { mode: 0o755 })
  host.set('vice', emulator)
  await gives('openInVice')
  await until('VICE is started', () => fs.existsSync(`${emulator}.words`) && fs.readFileSync(`${emulator}.words`, 'utf8'))
  assert.equal(fs.readFileSync(`${emulator}.words`, 'utf8'), `-autostart ${path.join(room, 'asks.prg')}\n`)
  host.set('vice', path.join(room, 'nowhere'))
  await gives('openInVice', /VICE can't be started/)

  await gives('profile')
  assert.equal(host.panels[0].title, 'Profile of asks.bas')
  assert.match(host.panels[0].webview.html, /<title>Profile of/)
  await gives('renumber')
  assert.equal(asking.getText(), '10 INPUT A\n20 PRINT A+1\n30 END\n')
  host.write(asking, 2, '20 PRIMT')
  await gives('renumber', /^error: tbc: 2:7: syntax/)
  await gives('build', /^error: tbc: 2:7: syntax/)
  await gives('profile', /^error: tbc: 2:7: syntax/)
  host.close(asking)
}

// What the debugger's adapter says first: that it goes back.
async function debugging() {
  const { command, args } = host.adapter()
  const adapter = spawn(command, args)
  let said = ''
  adapter.stdout.on('data', bytes => { said += bytes })
  const content = JSON.stringify({ seq: 1, type: 'request', command: 'initialize', arguments: { adapterID: 'tbc' } })
  adapter.stdin.end(`Content-Length: ${content.length}\r\n\r\n${content}`)
  await new Promise(resolve => adapter.on('close', resolve))
  assert.match(said, /"supportsStepBack":true/)
  const started = host.resolve(undefined, {}, token)
  assert.deepEqual(started, { type: 'tbc', request: 'launch', name: 'Tiny BASIC', program: '${file}', stopOnEntry: true })
  assert.equal(host.resolve(undefined, { type: 'tbc', fit: false }, token).fit, false)
}

// Each snippet is a program that `check` has nothing to say of.
function snippets() {
  for (const [name, { body }] of Object.entries(JSON.parse(fs.readFileSync(path.join(extension, 'snippets/tinybasic.json'))))) {
    const parts = {}
    const text = [...body, '32767 END', ''].join('\n').replace(/\$\{(\d+):([^}]*)\}/g, (_, number, part) => (parts[number] = part))
    const input = text.replace(/\$(\d+)/g, (_, number) => parts[number])
    const { stdout, status } = child.spawnSync(program, ['check', '-'], { input, encoding: 'utf8' })
    assert.deepEqual([stdout, status], ['', 0], name)
  }
}

async function main() {
  host.manifest = JSON.parse(fs.readFileSync(path.join(extension, 'package.json'), 'utf8'))
  host.settings.path = program
  const { activate, deactivate } = require(extension)
  const context = { subscriptions: [] }
  await activate(context)
  assert.equal(host.output[0], `tbc ${host.manifest.version} serves.`)
  const bound = Object.keys(host.providers).length
  await answers()
  await deaths()
  await settings()
  await commands()
  assert.deepEqual(Object.keys(host.commands).sort(), host.manifest.contributes.commands.map(it => it.command).sort())
  await debugging()
  snippets()
  const last = servers.at(-1)
  await deactivate()
  assert.equal(last.exitCode, 0)
  context.subscriptions.forEach(it => it.dispose())
  assert.equal(Object.keys(host.providers).length, 0)
  assert.deepEqual(host.complaints, [])
  console.log(`VS Code's extension in a stand-in for the editor: ${bound} providers, ${host.manifest.contributes.commands.length} commands, ${servers.length} servers`)
}

main().catch(error => {
  console.error(error)
  process.exit(1)
})
