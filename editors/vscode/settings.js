'use strict'
// The settings, as words of `tbc`.
const vscode = require('vscode')

const setting = name => vscode.workspace.getConfiguration('tinybasic').get(name)

exports.program = () => setting('path') || 'tbc'
exports.emulator = () => setting('vice') || 'x64sc'
exports.notation = () => (setting('petscii') ? ['--petscii'] : [])
exports.fits = () => setting('fit')
exports.traces = () => setting('trace') === 'messages'

/** The words of a command that compiles. */
exports.options = () => [...(exports.fits() ? ['--fit'] : []), ...exports.notation()]
