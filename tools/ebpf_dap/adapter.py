"""The requests of a client, one after the other, and what is answered."""

import base64
import queue
import subprocess
import tempfile
import threading
from pathlib import Path

from . import search, source
from .machine import Machine, MachineError
from .running import Runner, Stop
from .variables import Variables
from .wire import WireError

CAPABILITIES = {
    "supportsConfigurationDoneRequest": True,
    "supportsDisassembleRequest": True,
    "supportsEvaluateForHovers": True,
    "supportsExceptionInfoRequest": True,
    "supportsInstructionBreakpoints": True,
    "supportsReadMemoryRequest": True,
    "supportsRestartRequest": True,
    "supportsStepBack": True,
    "supportsSteppingGranularity": True,
    "supportsTerminateRequest": True,
    "exceptionBreakpointFilters": [
        {"filter": "fault", "label": "Faults", "description": "a job ends in a fault or out of its budget", "default": True},
        {"filter": "race", "label": "Data races", "description": "the next accesses of two CPUs race", "default": True},
    ],
}
# Requests that need a machine.
OVER_A_MACHINE = {
    *("setBreakpoints", "setInstructionBreakpoints", "setExceptionBreakpoints", "configurationDone", "threads", "source"),
    *("stackTrace", "scopes", "variables", "evaluate", "continue", "next", "stepIn", "stepOut", "stepBack"),
    *("reverseContinue", "disassemble", "readMemory", "exceptionInfo", "restart", "pause"),
    *("outcomes", "races", "hung", "replay"),
}
# What is answered at once while turns are made.
WHILE_RUNNING = {"pause", "disconnect", "terminate", "threads", "setBreakpoints", "setInstructionBreakpoints", "setExceptionBreakpoints"}
# How an instruction's address looks: the program's number, and eight bytes a word.
PROGRAM_ROOM = 0x100000


class RequestError(Exception):
    """Why a request isn't done, in a sentence."""


class Adapter:
    """One client's session, from `initialize` to `disconnect`."""

    def __init__(self, wire, ebpf):
        self.wire, self.ebpf = wire, ebpf
        self.messages, self.is_open, self.asks_pause = queue.Queue(), True, False
        self.is_initialized = False
        self.room = self.machine = self.run_file = self.runner = self.variables = None
        self.asked, self.stopped, self.by_path, self.by_address = {}, None, {}, set()

    # ---- the conversation

    def serve(self):
        """Answers requests until the client disconnects, hangs up, or sends what nobody can go on after."""
        threading.Thread(target=self.receive, daemon=True).start()
        try:
            while self.is_open:
                self.handle(self.messages.get())
        except OSError:
            pass  # The client has hung up.
        finally:
            self.close()

    def receive(self):
        """Puts what comes into the queue: messages, errors, and None at the end."""
        while True:
            try:
                message = self.wire.read()
            except (WireError, OSError, ValueError) as error:
                message = error
            self.messages.put(message)
            if message is None or (isinstance(message, Exception) and getattr(message, "fatal", True)):
                return

    def close(self):
        """Ends the process and removes its file."""
        if self.machine:
            self.machine.close()
        if self.room:
            self.room.cleanup()
        self.machine = self.room = None

    def handle(self, message):
        """Answers a message."""
        if message is None:
            self.is_open = False
        elif isinstance(message, Exception):
            self.output(f"{message}\n", "stderr")
            self.is_open = not getattr(message, "fatal", True)
        elif message.get("type") == "request":
            self.request(message)

    def request(self, message):
        """Answers a request: a response in any case, and the events that follow it."""
        command, arguments = message.get("command"), message.get("arguments") or {}
        response = {"type": "response", "request_seq": message.get("seq", 0), "command": str(command)}
        try:
            handler = getattr(self, f"do_{command}", None) if isinstance(command, str) else None
            if handler is None:
                raise RequestError(f"there is no request {command!r}")
            if not isinstance(arguments, dict):
                raise RequestError("arguments are an object")
            if not self.is_initialized and command not in ("initialize", "disconnect"):
                raise RequestError("the first request is initialize")
            if command in OVER_A_MACHINE and self.machine is None:
                raise RequestError("there is nothing to debug before launch")
            body, then = self.result(handler(arguments))
        except (RequestError, MachineError, source.SourceError, search.SearchError) as error:
            self.wire.write({**response, "success": False, "message": str(error), "body": self.error_body(error)})
            return
        except (KeyError, TypeError, ValueError, AttributeError) as error:
            text = f"{command} lacks an argument, or has one of another type: {error}"
            self.wire.write({**response, "success": False, "message": text, "body": self.error_body(text)})
            return
        self.wire.write({**response, "success": True, **({"body": body} if body else {})})
        if then:
            then()

    @staticmethod
    def result(made):
        """A handler returns a body, or a body and what is done once the response is sent."""
        return made if isinstance(made, tuple) else (made or {}, None)

    @staticmethod
    def error_body(error):
        return {"error": {"id": 1, "format": str(error).replace("{", "(").replace("}", ")"), "showUser": True}}

    def event(self, name, **body):
        self.wire.write({"type": "event", "event": name, **({"body": body} if body else {})})

    def output(self, text, category="console"):
        self.event("output", category=category, output=text)

    # ---- beginning and end

    def do_initialize(self, arguments):
        if self.is_initialized:
            raise RequestError("initialize was there already")
        self.is_initialized = True
        self.from_one = arguments.get("linesStartAt1", True)
        return CAPABILITIES

    def do_launch(self, arguments):
        if self.machine:
            raise RequestError("a program is being debugged already")
        self.asked = arguments
        self.start()
        return {}, lambda: self.event("initialized")

    def start(self):
        """Makes a machine of what was asked for."""
        asked = self.asked
        if not isinstance(asked.get("program"), str):
            raise RequestError("launch needs `program`: a run file, a C file or an object")
        self.room = tempfile.TemporaryDirectory(prefix="ebpf-dap-")
        try:
            jobs = [str(it) for it in asked.get("jobs") or []]
            self.run_file = source.read(self.ebpf, asked["program"], jobs, asked.get("cpus"), self.room.name)
            self.file = str(Path(self.room.name) / "debugged.run")
            Path(self.file).write_text(self.run_file.text)
            self.machine = Machine(self.ebpf, self.file, self.run_file.cpus)
        except BaseException:
            self.close()
            raise
        self.runner = Runner(self.machine, self.run_file)
        self.variables = Variables(self.machine, self.run_file)

    def do_configurationDone(self, arguments):
        return {}, self.begin

    def begin(self):
        """The first stop: at the end of the schedule that was asked for, else before the first turn."""
        try:
            if "outcome" in self.asked:
                self.show(self.replay_outcome(int(self.asked["outcome"])))
            elif "schedule" in self.asked:
                self.show(self.replay_schedule(str(self.asked["schedule"])))
            elif self.asked.get("stopOnEntry", True) and not self.asked.get("noDebug"):
                self.show(Stop("entry", self.first_cpu(), "before the first turn"))
            else:
                self.run(self.runner.go)
        except (RequestError, MachineError, search.SearchError, ValueError) as error:
            self.output(f"{error}\n", "stderr")
            self.show(Stop("entry", self.first_cpu(), "before the first turn"))

    def do_restart(self, arguments):
        self.machine.undo_all(len(self.machine.turns))
        self.runner.seen.clear()
        return {}, self.begin

    def do_terminate(self, arguments):
        return {}, lambda: self.event("terminated")

    def do_disconnect(self, arguments):
        def leave():
            self.is_open = False

        return {}, leave

    def first_cpu(self):
        return next(iter(self.runner.working()), 0)

    # ---- breakpoints

    def do_setBreakpoints(self, arguments):
        path = str(Path(arguments["source"]["path"]).resolve())
        wanted = [it["line"] for it in arguments.get("breakpoints", [])]
        places, answered = set(), []
        for line in wanted:
            number, found = self.resolve(path, line + (0 if self.from_one else 1))
            places |= found
            more = {"line": number - (0 if self.from_one else 1)} if found else {"message": "no instruction is of this line or one after it"}
            answered.append({"verified": bool(found), **more})
        self.by_path[path] = places
        self.set_breakpoints()
        return {"breakpoints": answered}

    def resolve(self, path, line):
        """Returns the first line from this one on that has instructions, and where they begin: program and pc."""
        lines = {
            it.number
            for program in self.run_file.programs.values()
            for it in map(program.line, program.texts)
            if it and it.path == path and it.number >= line
        }
        if not lines:
            return line, set()
        number = min(lines)
        programs = self.run_file.programs.items()
        return number, {(name, pc) for name, it in programs for pc in it.starts(path, number)}

    def do_setInstructionBreakpoints(self, arguments):
        places, answered = set(), []
        for it in arguments["breakpoints"]:
            place = self.place_at(int(it["instructionReference"], 0) + int(it.get("offset", 0)))
            places |= {place} if place else set()
            answered.append({"verified": bool(place)} if place else {"verified": False, "message": "no instruction begins here"})
        self.by_address = places
        self.set_breakpoints()
        return {"breakpoints": answered}

    def set_breakpoints(self):
        self.runner.breakpoints = set().union(self.by_address, *self.by_path.values())

    def do_setExceptionBreakpoints(self, arguments):
        self.runner.filters = set(arguments.get("filters", []))
        return {}

    def address(self, name, pc):
        """Returns an instruction's address, by which clients name it."""
        return PROGRAM_ROOM * (1 + list(self.run_file.programs).index(name)) + 8 * pc

    def place_at(self, address):
        """Returns the program and the pc at an address, or None where no instruction begins."""
        number, at = divmod(address, PROGRAM_ROOM)
        names = list(self.run_file.programs)
        if not 1 <= number <= len(names) or at % 8 or at // 8 not in self.run_file.programs[names[number - 1]].texts:
            return None
        return names[number - 1], at // 8

    # ---- what is there

    def do_threads(self, arguments):
        return {"threads": [{"id": cpu + 1, "name": self.name_of(cpu)} for cpu in range(self.machine.cpus)]}

    def name_of(self, cpu):
        where = self.machine.where[cpu]
        if not where.has_work:
            return f"cpu {cpu}: idle"
        name, pc = self.runner.place(where)
        return f"cpu {cpu}: job {where.job} {name}, " + ("about to begin" if where.is_waiting else f"pc {pc}")

    def cpu_of(self, arguments):
        cpu = int(arguments["threadId"]) - 1
        if not 0 <= cpu < self.machine.cpus:
            raise RequestError(f"there is no CPU {cpu}")
        return cpu

    def do_stackTrace(self, arguments):
        cpu = self.cpu_of(arguments)
        frames = self.frames(cpu)
        first = int(arguments.get("startFrame") or 0)
        shown = frames[first : first + int(arguments["levels"])] if arguments.get("levels") else frames[first:]
        return {"stackFrames": shown, "totalFrames": len(frames)}

    def frames(self, cpu):
        """The functions of a CPU that are live, the newest first; of callers, where they called."""
        where = self.machine.where[cpu]
        if not where.has_work:
            return []
        program = self.run_file.program(where.job)
        pcs = [where.pc, *reversed(self.machine.callers[cpu])]
        made = []
        for level, pc in enumerate(pcs):
            line = program.line(pc)
            frame = {
                "id": cpu * 64 + level,
                "name": program.function(pc),
                "line": line.number - (0 if self.from_one else 1) if line else 0,
                "column": 1,
                "instructionPointerReference": hex(self.address(program.name, pc)),
            }
            made.append({**frame, "source": self.source_of(line.path)} if line else frame)
        return made

    @staticmethod
    def source_of(path):
        return {"name": Path(path).name, "path": path}

    def do_source(self, arguments):
        path = arguments.get("source", {}).get("path")
        known = {it.path for program in self.run_file.programs.values() for it in map(program.line, program.texts) if it}
        if path not in known:
            raise RequestError(f"{path} isn't a source of this program")
        return {"content": Path(path).read_text(errors="replace")}

    def do_scopes(self, arguments):
        cpu = int(arguments["frameId"]) // 64
        if not 0 <= cpu < self.machine.cpus:
            raise RequestError("there is no such frame")
        return {"scopes": self.variables.scopes(cpu)}

    def do_variables(self, arguments):
        made = self.variables.made(int(arguments["variablesReference"]))
        if made is None:
            raise RequestError("these variables were of an earlier stop")
        first = int(arguments.get("start") or 0)
        count = int(arguments.get("count") or 0) or len(made)
        return {"variables": made[first : first + count]}

    def do_evaluate(self, arguments):
        text = arguments["expression"].strip()
        cpu = int(arguments["frameId"]) // 64 if "frameId" in arguments else self.stopped.cpu if self.stopped else 0
        found = self.variables.named(cpu, text)
        if found:
            kept = {key: found[key] for key in ("variablesReference", "memoryReference") if key in found}
            return {"result": found["value"], **kept}
        if arguments.get("context") != "repl":
            raise RequestError(f"{text} is no register, variable, map, array or key")
        return self.command(text)

    def command(self, text):
        """Does a command of the debugger, and returns what it answers; turns that it makes are followed."""
        if "\n" in text or text.split()[:1] == ["mark"]:
            raise RequestError("one command of the debugger, other than mark")
        answer = "\n".join(self.machine.ask([text])[0])
        if text.split()[:1] not in (["step"], ["steps"], ["go"], ["back"]):
            return {"result": answer, "variablesReference": 0}
        self.machine.follow()
        stop = Stop("goto", self.stopped.cpu if self.stopped else 0, text)
        return {"result": answer, "variablesReference": 0}, lambda: self.show(stop)

    def do_disassemble(self, arguments):
        reference = int(arguments["memoryReference"], 0) + int(arguments.get("offset") or 0)
        place, count = self.place_at(reference), int(arguments["instructionCount"])
        if place is None:
            raise RequestError("no instruction begins at this address")
        name, pc = place
        program = self.run_file.programs[name]
        pcs = sorted(program.texts)
        first = pcs.index(pc) + int(arguments.get("instructionOffset") or 0)
        return {"instructions": [self.instruction(program, pcs, at, reference) for at in range(first, first + min(count, 4096))]}

    def instruction(self, program, pcs, at, reference):
        """An instruction by its place in the program; beyond its ends there is none, which has to be said by one."""
        if not 0 <= at < len(pcs):
            outside = self.address(program.name, pcs[-1] + 1 + at if at >= 0 else 0) if at >= 0 else max(0, reference + 8 * at)
            return {"address": hex(outside), "instruction": "no instruction", "presentationHint": "invalid"}
        line = program.line(pcs[at])
        made = {"address": hex(self.address(program.name, pcs[at])), "instruction": program.texts[pcs[at]]}
        return {**made, "location": self.source_of(line.path), "line": line.number} if line else made

    def do_readMemory(self, arguments):
        cpu, _, address = str(arguments["memoryReference"]).rpartition(":")
        at, count = int(address, 0) + int(arguments.get("offset") or 0), min(int(arguments["count"]), 65_536)
        cpu = int(cpu) if cpu else self.stopped.cpu if self.stopped else 0
        if not 0 <= cpu < self.machine.cpus or at < 0 or count < 0:
            raise RequestError("there is no such memory")
        data = b""
        while len(data) < count and (byte := self.readable(cpu, at + len(data), count - len(data))):
            data += byte
        return {"address": hex(at), "data": base64.b64encode(data).decode(), "unreadableBytes": count - len(data)}

    def readable(self, cpu, at, most):
        """The longest run of bytes from an address on, of powers of two, that a CPU may read."""
        sizes = (it for it in (256, 128, 64, 32, 16, 8, 4, 2, 1) if it <= most)
        return next((data for it in sizes if (data := self.machine.bytes_at(cpu, at, it)) is not None), b"")

    # ---- turns

    def run(self, make):
        """Makes turns, answering what may be answered meanwhile, and shows why they ended."""
        self.asks_pause = False
        try:
            stop = make(self.goes_on)
        except MachineError as error:
            self.output(f"{error}\n", "stderr")
            self.event("terminated")
            return
        if self.is_open:
            self.show(stop or Stop("step" if self.runner.working() else "pause", self.last_cpu(), "all jobs have ended"))

    def last_cpu(self):
        return self.machine.turns[-1].cpu if self.machine.turns else 0

    def goes_on(self):
        """Answers what has come while turns are made; returns whether to make more."""
        while not self.messages.empty():
            message = self.messages.get()
            command = message.get("command") if isinstance(message, dict) else None
            if message is None or isinstance(message, Exception) or command in WHILE_RUNNING:
                self.handle(message)
            elif isinstance(message, dict) and message.get("type") == "request":
                response = {"type": "response", "request_seq": message.get("seq", 0), "command": str(command)}
                text = "turns are being made: pause first"
                self.wire.write({**response, "success": False, "message": text, "body": self.error_body(text)})
        return self.is_open and not self.asks_pause

    def show(self, stop):
        """Sends what jobs printed, and the stop."""
        self.variables = Variables(self.machine, self.run_file)
        self.stopped = stop
        self.runner.shown.add(stop.cpu)
        for line in self.machine.new_endings():
            self.output(f"{line}\n", "stdout")
        if stop.reason == "pause" and not self.runner.working() and self.asked.get("noDebug"):
            self.event("terminated")
            return
        if stop.text:
            self.output(f"{stop.text}\n")
        body = {"reason": stop.reason, "threadId": stop.cpu + 1, "allThreadsStopped": True}
        if stop.text:
            body |= {"description": stop.text, "text": stop.text}
        self.event("stopped", **body)

    def do_pause(self, arguments):
        self.asks_pause = True
        return {}

    def do_continue(self, arguments):
        self.cpu_of(arguments)
        return {"allThreadsContinued": True}, lambda: self.run(self.runner.go)

    def moves(self, arguments, is_done):
        """Turns of the CPU that is stepped, alone or by rounds of all, as launch said."""
        cpu = self.cpu_of(arguments)
        if not self.machine.where[cpu].has_work:
            raise RequestError(f"cpu {cpu} has no work")
        way = self.runner.among_others if self.asked.get("step") == "rounds" else self.runner.alone
        return {}, lambda: self.run(lambda goes_on: way(cpu, is_done, goes_on))

    def here(self, arguments):
        cpu = self.cpu_of(arguments)
        where = self.machine.where[cpu]
        return where, None if arguments.get("granularity") == "instruction" else self.runner.line(where)

    def do_stepIn(self, arguments):
        before, line = self.here(arguments)
        return self.moves(arguments, lambda it: line is None or self.runner.line(it) != line or it.depth != before.depth)

    def do_next(self, arguments):
        before, line = self.here(arguments)

        def is_done(it):
            return it.depth < before.depth or (it.depth == before.depth and (line is None or self.runner.line(it) != line))

        return self.moves(arguments, is_done)

    def do_stepOut(self, arguments):
        before, _ = self.here(arguments)
        return self.moves(arguments, lambda it: it.depth < before.depth)

    def do_stepBack(self, arguments):
        cpu = self.cpu_of(arguments)
        is_one = arguments.get("granularity") == "instruction"
        count = self.runner.turns_of_step(cpu) if is_one else self.runner.turns_of_line(cpu)
        if not count:
            raise RequestError(f"cpu {cpu} has made no turn")
        return {}, lambda: self.undo(count, Stop("step", cpu))

    def do_reverseContinue(self, arguments):
        self.cpu_of(arguments)
        found = self.runner.turns_to_breakpoint()
        if found:
            return {}, lambda: self.undo(found[0], Stop("breakpoint", found[1]))
        return {}, lambda: self.undo(len(self.machine.turns), Stop("entry", self.cpu_of(arguments), "before the first turn"))

    def undo(self, count, stop):
        self.machine.back(count)
        self.runner.shown.clear()
        self.show(stop)

    def do_exceptionInfo(self, arguments):
        stop = self.stopped
        if not stop or not stop.exception:
            raise RequestError("no exception stopped here")
        description = stop.text
        if stop.exception.startswith("F"):
            done = subprocess.run([self.ebpf, "explain", stop.exception], capture_output=True, text=True)
            description = f"{stop.text}\n{done.stdout.strip()}"
        return {"exceptionId": stop.exception, "description": description, "breakMode": "always"}

    # ---- every schedule

    def do_outcomes(self, arguments):
        return search.outcomes(self.ebpf, self.file)

    def do_races(self, arguments):
        return search.races(self.ebpf, self.file)

    def do_hung(self, arguments):
        return search.hung(self.ebpf, self.file)

    def do_replay(self, arguments):
        if "outcome" in arguments:
            stop = self.replay_outcome(int(arguments["outcome"]))
        elif "race" in arguments:
            found = self.kth(search.races(self.ebpf, self.file)["races"], arguments["race"], "race")
            stop = self.replay(found["schedule"], "exception", found["line"], "race")
        elif "hung" in arguments:
            found = self.kth(search.hung(self.ebpf, self.file)["hung"], arguments["hung"], "hung state")
            stop = self.replay(found["schedule"], "exception", "from here no turns lead to an end", "hung")
        else:
            stop = self.replay_schedule(str(arguments["schedule"]))
        return {}, lambda: self.show(stop)

    @staticmethod
    def kth(found, number, name):
        if not 1 <= int(number) <= len(found):
            raise RequestError(f"no {name} {number}: {len(found)} found")
        return found[int(number) - 1]

    def replay_outcome(self, number):
        """Goes to the end of an outcome; the rounds after its schedule too, of which there are few if any."""
        found = self.kth(search.outcomes(self.ebpf, self.file)["outcomes"], number, "outcome")
        self.replay(found["schedule"], "goto", "", "")
        while order := self.runner.rounds(1):
            self.machine.make(order)
        return Stop("goto", self.last_cpu(), f"the end of outcome {number}")

    def replay_schedule(self, schedule):
        return self.replay(schedule, "goto", "the end of the schedule", "")

    def replay(self, schedule, reason, text, exception):
        """Goes back to the first turn, and makes those of a schedule."""
        order = search.turns_of(schedule)
        if any(cpu >= self.machine.cpus for cpu in order):
            raise RequestError("the schedule has a CPU that isn't there")
        self.machine.undo_all(len(self.machine.turns))
        self.machine.make(order)
        return Stop(reason, self.last_cpu(), text, exception)
