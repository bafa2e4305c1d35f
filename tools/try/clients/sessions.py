#!/usr/bin/env python3
"""A strict client of `tbc dap`: walks through sources forth and back, and checks each frame, number, order and state.

    sessions.py TBC DIALOGUE SOURCE..

Of each source it takes a walk of 300 requests by chance: movements both ways, breakpoints and watches that are replaced,
lines that are typed, and looks at frames, variables, expressions, memory and code. Whatever is seen at a time once is
what must be seen at that time again, and what is told of the program's output must be what `tbc run` shows of the same
keys, once. Then 100 generated sources are launched, of which `tbc check` and `tbc run` must say the same; and a dialogue
is cut after each byte.
"""
import base64
import json
import random
import subprocess
import sys
import tempfile
from concurrent.futures import ThreadPoolExecutor
from pathlib import Path

import diagnostics

REQUESTS = 300
SOURCES = 100
MOVEMENTS = ("continue", "next", "stepIn", "stepOut", "stepBack", "reverseContinue")
REASONS = {
    "continue": {"breakpoint", "data breakpoint", "pause", "input", "end"},
    "next": {"step", "breakpoint", "data breakpoint", "pause", "input", "end"},
    "stepIn": {"step", "breakpoint", "data breakpoint", "pause", "input", "end"},
    "stepOut": {"step", "breakpoint", "data breakpoint", "pause", "input", "end"},
    "stepBack": {"step", "breakpoint", "entry"},
    "reverseContinue": {"breakpoint", "data breakpoint", "entry"},
}
AT_A_LINE = {"step", "breakpoint", "data breakpoint", "entry"}
LETTERS = "ABCDEFGHIJKLMNOPQRSTUVWXYZ"
NO_CHANGE = "a run can't be changed: type other keys, or launch with another seed"
LIMIT = 20_000


def need(holds, *what):
    if not holds:
        raise AssertionError(" ".join(str(it) for it in what))


def frame(content):
    return b"Content-Length: %d\r\n\r\n%s" % (len(content), content)


def request(seq, command, arguments):
    message = {"seq": seq, "type": "request", "command": command}
    if arguments is not None:
        message["arguments"] = arguments
    return frame(json.dumps(message).encode())


class Client:
    """A session with the adapter. What comes is read frame by frame; nothing may come that isn't expected."""

    def __init__(self, tbc):
        self.process = subprocess.Popen([tbc, "dap"], stdin=subprocess.PIPE, stdout=subprocess.PIPE, stderr=subprocess.PIPE)
        self.asked = 0
        self.heard = 0

    def read(self):
        """The next message, whose frame and number must be as they should."""
        header = self.process.stdout.readline()
        need(header.startswith(b"Content-Length: ") and header.endswith(b"\r\n"), "header", header)
        digits = header[len(b"Content-Length: "):-2]
        need(digits.isdigit() and str(int(digits)).encode() == digits, "length", header)
        need(self.process.stdout.readline() == b"\r\n", "a header has one line")
        content = self.process.stdout.read(int(digits))
        message = json.loads(content)
        plain = json.dumps(message, sort_keys=True, separators=(",", ":"), ensure_ascii=False).encode()
        need(content == plain, "content", content)
        self.heard += 1
        need(message["seq"] == self.heard, "number", message)
        return message

    def say(self, command, arguments):
        self.asked += 1
        self.process.stdin.write(request(self.asked, command, arguments))
        self.process.stdin.flush()

    def launch(self, **arguments):
        """The answer to a launch, and what is reported before."""
        self.say("launch", arguments)
        answer, report = self.read(), None
        if answer["type"] == "event":
            need(answer["event"] == "output" and answer["body"]["category"] == "stderr", "report", answer)
            report, answer = answer["body"]["output"], self.read()
        need(answer["type"] == "response" and answer["request_seq"] == self.asked, "answer", answer)
        need(report is None or answer["body"]["error"]["showUser"] is True, "shown", answer)
        return answer, report

    def answer(self, command, arguments):
        """The answer to a request, which must come next."""
        self.say(command, arguments)
        answer = self.read()
        need(answer["type"] == "response" and answer["request_seq"] == self.asked, "answer", answer)
        need(answer["command"] == command, "command", answer)
        need(answer["success"] or answer["body"]["error"]["format"] == answer["message"], "refusal", answer)
        return answer

    def ask(self, command, **arguments):
        answer = self.answer(command, arguments)
        need(answer["success"], "refused", answer)
        return answer.get("body")

    def refused(self, command, **arguments):
        answer = self.answer(command, arguments)
        need(not answer["success"], "not refused", answer)
        return answer["message"]

    def event(self, name):
        message = self.read()
        need(message["type"] == "event" and message["event"] == name, "event", name, message)
        return message.get("body")

    def end(self):
        """Nothing more is said, and the adapter ends well."""
        self.process.stdin.close()
        rest = (self.process.stdout.read(), self.process.stderr.read(), self.process.wait())
        need(rest == (b"", b"", 0), "end", *rest)


class Walk:
    """A walk through one source, with what was seen of it."""

    def __init__(self, tbc, source, seed):
        self.tbc, self.source = tbc, Path(source).resolve()
        self.lines = self.source.read_text().splitlines()
        self.choices = random.Random(seed)
        self.client = Client(tbc)
        self.seen = {}      # what is seen at the beginning of a line, by time
        self.told = ""      # the program's output
        self.keys = b""
        self.breakpoints, self.watches = set(), set()
        self.time, self.depth, self.is_at_line, self.reason = 0, 1, True, None
        self.is_over = False
        self.fit = []
        self.counts = dict.fromkeys(MOVEMENTS, 0)

    def begin(self):
        ask = self.client.ask
        need(self.client.refused("launch", program="x") == "not initialized", "launch when new")
        ask("initialize", adapterID="tbc", linesStartAt1=True, columnsStartAt1=True, pathFormat="path")
        need(self.client.refused("initialize") == "initialized already", "initialize twice")
        need(self.client.refused("threads") == "not launched", "threads before launch")
        need(self.client.refused("launch", program=str(self.source) + ".no") == "read fault", "no file")
        need(self.client.refused("launch", program=str(self.source), keys="3") == "bad key list", "bad keys")
        answer, report = self.client.launch(program=str(self.source), limit=LIMIT, stopOnEntry=True, fit=False)
        if not answer["success"]:
            need(answer["message"].startswith("program too large"), "launch", answer)
            need(report == f"{self.source}: error: {answer['message']}\n{self.source}: note: --fit compiles it\n", "report", report)
            self.fit = ["--fit"]
            answer, report = self.client.launch(program=str(self.source), limit=LIMIT, stopOnEntry=True)
        need(answer["success"] and report is None, "launch", answer, report)
        while (message := self.client.read())["event"] == "output":
            need(message["body"]["category"] == "console", "warning", message)
        need(message["event"] == "initialized", "initialized", message)
        need(self.client.refused("launch", program=str(self.source)) == "launched already", "launch twice")
        for movement in MOVEMENTS:
            need(self.client.refused(movement, threadId=1) == "not started", "moved before the start")
        ask("setExceptionBreakpoints", filters=[])
        ask("configurationDone")
        self.rest("entry", {"entry"})
        need(self.client.refused("configurationDone") == "started already", "started twice")
        need(ask("threads")["threads"] == [{"id": 1, "name": str(self.source)}], "threads")

    def rest(self, movement, reasons, by_instruction=False):
        """The run comes to rest: output, and then a stop for one of these reasons."""
        message = self.client.read()
        if message.get("event") == "output":
            need(message["body"]["category"] == "stdout" and message["body"]["output"], "output", message)
            self.told += message["body"]["output"]
            message = self.client.read()
        need(message.get("event") == "stopped", "stopped", message)
        body = message["body"]
        need(body["threadId"] == 1 and body["allThreadsStopped"] is True, "threads stop", body)
        need(body["reason"] in reasons, movement, body)
        self.reason = body["reason"]
        self.is_at_line = self.reason in AT_A_LINE and not by_instruction
        self.look(body)

    def number(self, frame_line):
        """The number of the line at a place of the file."""
        return int("".join(it for it in self.lines[frame_line - 1].strip().split()[0] if it.isdigit()))

    def look(self, body):
        """Looks at the run where it rests."""
        stack = self.client.ask("stackTrace", threadId=1)
        frames = stack["stackFrames"]
        need(stack["totalFrames"] == len(frames) >= 1, "total", stack)
        need([it["id"] for it in frames] == list(range(1, len(frames) + 1)), "frames", frames)
        if frames[0]["name"] != "start":
            for it in frames:
                need(it["name"] == self.lines[it["line"] - 1].strip(), "frame", it)
                need(it["source"] == {"name": self.source.name, "path": str(self.source)}, "source", it)
        for it in frames[1:]:
            need("GOSUB" in it["name"].upper().replace(" ", ""), "a caller is a GOSUB", it)
        variables = {it["name"]: int(it["value"]) for it in self.variables(1)}
        need(list(variables) == list(LETTERS), "variables", variables)
        run = {it["name"]: it["value"] for it in self.variables(3)}
        registers = {it["name"]: it["value"] for it in self.variables(2)}
        need(list(registers) == ["PC", "A", "X", "Y", "S", "P"], "registers", registers)
        self.time, self.depth = int(run["time"]), len(frames)
        need((run["status"] == "running") == (self.reason not in ("input", "end")), "status", run, body)
        if self.is_at_line:
            need(int(registers["PC"][1:], 16) == int(frames[0]["instructionPointerReference"], 16), "PC", registers, frames)
            here = ([(it["line"], it["name"]) for it in frames], variables)
            need(self.seen.setdefault(self.time, here) == here, "at time", self.time, self.seen[self.time], here)
        if self.reason == "breakpoint":
            line = self.number(frames[0]["line"])
            need(body["hitBreakpointIds"] == [line] and line in self.breakpoints, "breakpoint", body, self.breakpoints)
            need(body["description"] == f"line {line}", "breakpoint", body)
        elif self.reason == "data breakpoint" and " is " in body["description"]:
            letter, value = body["description"].split(" is ")
            need(letter in self.watches and variables[letter] == int(value), "watch", body, variables)
        elif self.reason == "pause":
            need(body["description"] == f"paused after {LIMIT} events", "pause", body)
        self.shown = variables

    def variables(self, scope):
        return self.client.ask("variables", variablesReference=scope)["variables"]

    def move(self, movement):
        ask, before, depth = self.client.ask, self.time, self.depth
        was_at_line, was_over = self.is_at_line, self.reason == "end"
        by_instruction = movement in ("next", "stepIn", "stepOut") and self.choices.random() < 0.1
        arguments = {"threadId": 1, **({"granularity": "instruction"} if by_instruction else {})}
        answer = ask(movement, **arguments)
        need(answer == ({"allThreadsContinued": True} if movement == "continue" else None), "answer", movement, answer)
        self.counts[movement] += 1
        if was_over and "ack" not in movement and movement != "reverseContinue":
            need(self.client.event("exited") == {"exitCode": 0}, "exit code")
            need(self.client.event("terminated") is None, "terminated")
            self.is_over = True
            return
        if by_instruction:
            self.rest(movement, {"step", "input", "end"}, by_instruction)
            return
        self.rest(movement, REASONS[movement])
        if movement == "stepIn" and was_at_line and self.is_at_line:
            need(self.time == before + 1, "a line on", before, self.time)
        if movement in ("next", "stepOut", "continue") and self.is_at_line:
            need(self.time > before or not was_at_line, "on", before, self.time)
        if movement == "next" and self.reason == "step":
            need(self.depth <= depth, "over a GOSUB", depth, self.depth)
        if movement == "stepOut" and self.reason == "step":
            need(self.depth < depth, "out of a subroutine", depth, self.depth)
        if movement == "stepBack":
            need(self.time == max(before - 1, 0), "a line back", before, self.time)
        if movement == "reverseContinue":
            need(self.time < before or before == 0, "back", before, self.time)
        if self.reason == "entry":
            need(self.time == 0, "entry", self.time)

    def set_breakpoints(self):
        wanted = [self.choices.randrange(1, len(self.lines) + 2) for _ in range(self.choices.randrange(4))]
        answers = self.client.ask("setBreakpoints", source={"path": str(self.source)}, breakpoints=[{"line": it} for it in wanted])
        self.breakpoints = set()
        for line, answer in zip(wanted, answers["breakpoints"], strict=True):
            need(answer["verified"] == (line <= len(self.lines)), "verified", line, answer)
            if answer["verified"]:
                need(answer["line"] >= line and answer["id"] == self.number(answer["line"]), "line", line, answer)
                need(all(not it.strip() for it in self.lines[line - 1:answer["line"] - 1]), "first line", line, answer)
                self.breakpoints.add(answer["id"])
        elsewhere = self.client.ask("setBreakpoints", source={"path": "/nowhere/else.bas"}, breakpoints=[{"line": 1}])
        need(not elsewhere["breakpoints"][0]["verified"], "elsewhere", elsewhere)

    def set_watches(self):
        wanted = self.choices.sample(LETTERS, self.choices.randrange(3))
        for letter in wanted:
            info = self.client.ask("dataBreakpointInfo", name=letter.lower(), variablesReference=1)
            need(info["dataId"] == letter and info["accessTypes"] == ["write"], "info", info)
        answers = self.client.ask("setDataBreakpoints", breakpoints=[{"dataId": it, "accessType": "write"} for it in wanted])
        need(all(it["verified"] for it in answers["breakpoints"]) and len(answers["breakpoints"]) == len(wanted), "watches", answers)
        self.watches = set(wanted)

    def evaluate(self):
        one, other = self.choices.sample(LETTERS, 2)
        value = (self.shown[one] * 3 - self.shown[other] + 32768) % 65536 - 32768
        body = self.client.ask("evaluate", expression=f"{one}*3-{other}", context=self.choices.choice(("watch", "hover", "repl")))
        need(body["result"] == str(value), "value", one, other, body)
        need(self.client.refused("evaluate", expression="1/0") == "division by zero", "division")
        need(self.client.refused("evaluate", expression="RND(2)") == "has RND", "RND")
        need(self.client.refused("evaluate", expression="A+", context="repl") == "what?", "what")

    def memory(self):
        letter = self.choices.randrange(26)
        place = int(self.variables(1)[letter]["memoryReference"], 16)
        body = self.client.ask("readMemory", memoryReference=f"0x{place:04X}", count=2)
        word = int.from_bytes(base64.b64decode(body["data"]), "little", signed=True)
        need(word == self.shown[LETTERS[letter]] and body["unreadableBytes"] == 0, "memory", letter, body)
        count, offset = self.choices.randrange(1, 40), self.choices.randrange(-20, 20)
        code = self.client.ask("disassemble", memoryReference="0x0C00", instructionOffset=offset, instructionCount=count)
        need(len(code["instructions"]) == count, "instructions", code)
        places = [int(it["address"], 16) for it in code["instructions"]]
        need(all(one < next_one for one, next_one in zip(places, places[1:])), "places rise", places)

    def refusals(self):
        refused = self.client.refused
        need(refused("setVariable", variablesReference=1, name="A", value="1") == NO_CHANGE, "setVariable")
        need(refused("writeMemory", memoryReference="0xC000", data="AA==") == NO_CHANGE, "writeMemory")
        need(refused("gotoTargets") == "unknown command", "unknown")
        need(refused("variables", variablesReference=9) == "bad arguments", "variables")
        need(refused("stackTrace", startFrame="0") == "bad arguments", "stackTrace")
        need(refused("stepIn", granularity=1) == "bad arguments", "granularity")
        need(refused("readMemory", memoryReference="C000", count=1) == "bad arguments", "reference")
        self.client.ask("pause", threadId=1)

    def type_line(self):
        """Types a line; where the program waits, it goes on."""
        waited = self.reason == "input"
        line = self.choices.choice(("1", "7", "20", "0", "Y", "12,3", "-5", ""))
        body = self.client.ask("evaluate", expression=f"> {line}", context="repl")
        need(body["result"] == "typed", "typed", body)
        self.keys += line.encode() + b"\r"
        if waited:
            need(self.client.event("continued") == {"threadId": 1}, "continued")
            self.rest("typing", REASONS["next"])

    def run(self):
        self.begin()
        others = (self.set_breakpoints, self.set_watches, self.evaluate, self.memory, self.refusals)
        while self.client.asked < REQUESTS and not self.is_over:
            if self.reason == "input" and self.choices.random() < 0.7:
                self.type_line()
            elif self.choices.random() < 0.25:
                self.choices.choice(others)()
            elif self.choices.random() < 0.02:
                self.type_line()
            else:
                back = self.reason == "end" and self.choices.random() < 0.9
                self.move(self.choices.choice(("stepBack", "reverseContinue") if back else MOVEMENTS))
        if self.is_over:
            need(self.client.refused("next", threadId=1) == "terminated", "moved behind the end")
            need(self.client.refused("evaluate", expression=">1", context="repl") == "terminated", "typed behind the end")
        else:
            self.client.ask("terminate")
            need(self.client.event("terminated") is None, "terminated")
        self.client.ask("disconnect")
        self.client.end()
        self.compare()

    def compare(self):
        """What was told of output is what `tbc run` shows first of the same keys."""
        words = [self.tbc, "run", *self.fit, str(self.source), "--keys", self.keys.hex(), "--limit", "10000000"]
        shown = subprocess.run(words, capture_output=True, check=False).stdout.decode()
        need(shown.startswith(self.told), "output", repr(self.told[-200:]), repr(shown[:len(self.told) + 20][-200:]))


def served(tbc, asked):
    ran = subprocess.run([tbc, "dap"], input=asked, capture_output=True, check=False)
    return ran.stdout, (ran.returncode, ran.stderr)


def cuts(tbc, dialogue, source):
    """How many cuts of a dialogue are answered in another way than by what came whole."""
    contents = [line.replace("SOURCE", source).encode() for line in Path(dialogue).read_text().splitlines()]
    asked = b"".join(map(frame, contents))
    ends = [0]
    for content in contents:
        ends.append(ends[-1] + len(frame(content)))
    whole = {end: served(tbc, asked[:end])[0] for end in ends}
    before = [whole[end] for end in ends]
    need(all(after.startswith(answers) for answers, after in zip(before, before[1:])), "later frames change earlier answers")

    def differs(cut):
        frames = max(end for end in ends if end <= cut)
        ended = (0, b"") if frames == cut else (3, b"tbc: bad frame\n")
        return served(tbc, asked[:cut]) != (whole[frames], ended)

    with ThreadPoolExecutor() as pool:
        bad = [cut for cut, is_bad in enumerate(pool.map(differs, range(len(asked)))) if is_bad]
    print(f"tbc dap: {len(asked)} cuts of a dialogue of {len(contents)} messages, {len(bad)} answered in another way")
    return bad


def messages_of(said):
    """The messages of frames."""
    found = []
    while said:
        header, _, rest = said.partition(b"\r\n\r\n")
        length = int(header.split(b":")[1])
        found.append(json.loads(rest[:length]))
        said = rest[length:]
    return found


def reports(tbc):
    """Generated sources are refused by what `tbc run` says, behind the report of `tbc check`; or they are taken."""
    choices, refused = random.Random(3), 0
    for _ in range(SOURCES):
        with tempfile.NamedTemporaryFile(suffix=".bas") as file:
            file.write(diagnostics.source(choices).encode())
            file.flush()
            checked = subprocess.run([tbc, "check", file.name], capture_output=True, check=False)
            ran = subprocess.run([tbc, "run", file.name, "--limit", "1"], capture_output=True, check=False)
            said = messages_of(served(tbc, request(1, "initialize", None) + request(2, "launch", {"program": file.name}))[0])[1:]
        if checked.returncode == 0:
            need(said[0]["success"] and said[-1]["event"] == "initialized", "launched", said)
            continue
        refused += 1
        need(len(said) == 2 and said[0]["body"] == {"category": "stderr", "output": checked.stdout.decode()}, "report", said)
        need(not said[1]["success"] and f"tbc: {said[1]['message']}\n".encode() == ran.stderr, "refusal", said, ran.stderr)
    print(f"tbc dap: of {SOURCES} generated sources {refused} are refused, each as tbc check and tbc run say")


def too_large(tbc):
    """A content that is too large is passed over."""
    said, ended = served(tbc, frame(b" " * 8_388_609) + request(1, "disconnect", None))
    need(b'"output":"tbc: message too large\\n"' in said and b'"request_seq":1,"seq":2,"success":true' in said, "too large", said)
    need(ended == (0, b""), "too large", ended)


def main():
    tbc, dialogue, *sources = sys.argv[1:]
    too_large(tbc)
    reports(tbc)
    moved, requests = dict.fromkeys(MOVEMENTS, 0), 0
    for number, source in enumerate(sources):
        walk = Walk(tbc, source, number)
        try:
            walk.run()
        except AssertionError as error:
            walk.client.process.kill()
            sys.exit(f"{source}: request {walk.client.asked}: {error}")
        requests += walk.client.asked
        for movement, count in walk.counts.items():
            moved[movement] += count
    print(f"tbc dap: {requests} requests of {len(sources)} sessions, {sum(moved.values())} movements: "
          + ", ".join(f"{count} {movement}" for movement, count in moved.items()))
    with tempfile.NamedTemporaryFile(suffix=".bas") as file:
        file.write(b"10 INPUT A\n20 GOSUB 100\n30 PRINT A\n40 END\n100 LET A=A+1\n110 RETURN\n")
        file.flush()
        return bool(cuts(tbc, dialogue, file.name))


if __name__ == "__main__":
    sys.exit(main())
