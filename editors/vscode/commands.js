'use strict'
// What `tbc` does with the source that is edited, as commands.
const vscode = require('vscode')
const { execFile, spawn } = require('child_process')
const fs = require('fs/promises')
const os = require('os')
const path = require('path')
const settings = require('./settings')

// The editor with a source.
function sourceEditor() {
  const editor = vscode.window.activeTextEditor
  if (editor?.document.languageId !== 'tinybasic') throw new Error('Open a Tiny BASIC source first.')
  return editor
}

// The file of the source that is edited, saved.
async function sourceFile() {
  await sourceEditor().document.save()
  const { document } = sourceEditor() // (another one, where it had no name before)
  if (document.uri.scheme !== 'file' || document.isDirty) throw new Error('Save the source to a file first.')
  return document.uri.fsPath
}

// Runs `tbc` on an input: its status, and what it wrote.
function runs(words, input = '') {
  return new Promise((resolve, reject) => {
    const child = execFile(settings.program(), words, { maxBuffer: Infinity }, (error, output, complaints) => {
      if (error && typeof error.code !== 'number') reject(error)
      else resolve({ status: error ? error.code : 0, output, complaints })
    })
    child.stdin.on('error', () => {}) // (a command that ends first is no fault)
    child.stdin.end(input)
  })
}

// In a terminal, where a user may type.
async function inTerminal(command) {
  const file = await sourceFile()
  const execution = new vscode.ProcessExecution(settings.program(), [command, ...settings.options(), file])
  const title = `${command} ${path.basename(file)}`
  const task = new vscode.Task({ type: 'tbc', command }, vscode.TaskScope.Workspace, title, 'tbc', execution)
  task.presentationOptions = { focus: true, clear: true }
  await vscode.tasks.executeTask(task)
}

// Compiles the source: the PRG file beside it.
async function built() {
  const file = await sourceFile()
  const { dir, name } = path.parse(file)
  const program = path.join(dir, `${name}.prg`)
  const { status, complaints } = await runs(['build', ...settings.options(), file, program])
  if (status !== 0) throw new Error(complaints.trim())
  return program
}

async function build() {
  vscode.window.showInformationMessage(`${await built()} is written.`)
}

async function openInVice() {
  const emulator = spawn(settings.emulator(), ['-autostart', await built()], { detached: true, stdio: 'ignore' })
  emulator.unref()
  await new Promise((resolve, reject) => {
    emulator.on('spawn', resolve)
    emulator.on('error', error => reject(new Error(`VICE can't be started (${error.message}): set tinybasic.vice.`)))
  })
}

async function profile() {
  const file = await sourceFile()
  const folder = await fs.mkdtemp(path.join(os.tmpdir(), 'tbc-'))
  try {
    const page = path.join(folder, 'profile.html')
    const { complaints } = await runs(['profile', ...settings.options(), '--html', page, file])
    const html = await fs.readFile(page, 'utf8').catch(() => { throw new Error(complaints.trim()) })
    const title = `Profile of ${path.basename(file)}`
    vscode.window.createWebviewPanel('tinybasic.profile', title, vscode.ViewColumn.Beside, {}).webview.html = html
  } finally {
    await fs.rm(folder, { recursive: true })
  }
}

async function renumber() {
  const editor = sourceEditor()
  const { document } = editor
  const { version } = document
  const { status, output, complaints } = await runs(['renumber', ...settings.notation(), '-'], document.getText())
  if (status !== 0) throw new Error(complaints.trim())
  if (document.version !== version) throw new Error('The source was changed meanwhile.')
  await editor.edit(edits => edits.replace(new vscode.Range(0, 0, document.lineCount, 0), output))
}

/** Registers the commands. `restart` starts the language server anew. */
exports.register = restart => {
  const inTerminals = { run: () => inTerminal('run'), play: () => inTerminal('play') }
  const commands = { ...inTerminals, build, openInVice, profile, renumber, restartServer: restart }
  return Object.entries(commands).map(([name, does]) =>
    vscode.commands.registerCommand(`tinybasic.${name}`, async () => {
      try {
        await does()
      } catch (error) {
        vscode.window.showErrorMessage(error.message)
      }
    })
  )
}
