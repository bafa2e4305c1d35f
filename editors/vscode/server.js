'use strict'
// A language server as a process: JSON-RPC 2.0 in frames over its standard input and output.
const { spawn } = require('child_process')

const END_OF_HEADER = '\r\n\r\n'
const PATIENCE = 2000 // milliseconds that a server has to end when it was asked to

class Server {
  /**
   * Starts it. `told(method, params)` is called for each notification, `traced(way, message)` for each message, and
   * `ended(why)` at its end, unless `stop` asked for that.
   */
  constructor(program, words, { told, traced, ended }) {
    Object.assign(this, { told, traced, ended })
    this.waiting = new Map() // the requests that are not answered, by their id
    this.requests = 0
    this.bytes = Buffer.alloc(0) // what came of a frame that is not whole
    this.complaint = '' // the last line on its standard error
    this.process = spawn(program, words)
    this.process.stdin.on('error', () => {}) // (its end is told below)
    this.process.stdout.on('data', bytes => this.take(bytes))
    this.process.stderr.on('data', bytes => { this.complaint = bytes.toString().trim().split('\n').pop() })
    this.process.on('error', error => this.end(error.message))
    this.process.on('close', (status, signal) => this.end(this.complaint || signal || `status ${status}`))
  }

  /** Asks for something. A refusal rejects, and so does the server's end. */
  request(method, params) {
    const id = ++this.requests
    this.send({ jsonrpc: '2.0', id, method, params })
    return new Promise((resolve, reject) => this.waiting.set(id, { resolve, reject }))
  }

  notify(method, params) {
    this.send({ jsonrpc: '2.0', method, params })
  }

  /** Ends it as the protocol wants it, or by force. */
  async stop() {
    if (this.isOver) return
    this.ended = () => {}
    const closed = new Promise(resolve => this.process.on('close', resolve))
    const late = setTimeout(() => this.process.kill(), PATIENCE)
    this.request('shutdown').then(() => this.notify('exit'), () => {})
    await closed
    clearTimeout(late)
  }

  send(message) {
    this.traced('->', message)
    const content = Buffer.from(JSON.stringify(message))
    this.process.stdin.write(Buffer.concat([Buffer.from(`Content-Length: ${content.length}${END_OF_HEADER}`), content]))
  }

  take(bytes) {
    this.bytes = Buffer.concat([this.bytes, bytes])
    try {
      for (let content; (content = this.frame()) !== undefined; ) this.receive(JSON.parse(content))
    } catch (error) {
      this.complaint = error.message
      this.process.kill()
    }
  }

  // The content of the first frame, which is taken away, if it is whole.
  frame() {
    const header = this.bytes.indexOf(END_OF_HEADER)
    if (header < 0) return undefined
    const begin = header + END_OF_HEADER.length
    const length = /^Content-Length: (\d+)/im.exec(this.bytes.toString('latin1', 0, begin))
    const end = begin + Number(length?.[1])
    if (this.bytes.length < end) return undefined
    const content = this.bytes.toString('utf8', begin, end)
    this.bytes = this.bytes.subarray(end)
    return content
  }

  receive(message) {
    this.traced('<-', message)
    if (message.method) return this.told(message.method, message.params)
    const { resolve, reject } = this.waiting.get(message.id)
    this.waiting.delete(message.id)
    if (message.error) reject(new Error(message.error.message))
    else resolve(message.result)
  }

  end(why) {
    if (this.isOver) return
    this.isOver = true
    for (const { reject } of this.waiting.values()) reject(new Error('the language server ended'))
    this.ended(why)
  }
}

exports.Server = Server
