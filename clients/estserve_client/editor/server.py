"""The command `lsp`: a server of the language server protocol, over standard input and output."""
from __future__ import annotations

import argparse
import contextlib
import os
import queue
import sys
import threading
from typing import Any, BinaryIO, Callable, Dict, List, Optional, Union

from .. import __version__
from ..connection import Disconnected, TimedOut, start
from ..diagnosis import Diagnosis, Mark, shortened
from ..formatting import fault_of, format_text
from ..library_text import LibraryText, join_texts
from ..programs import program_of
from ..syntax_tree import parse
from .checking import Checker
from .completing import words_at
from .documents import Documents, Range, lines_of, path_of, place_of, range_at, whole_of
from .names import Declared, Names, Use
from .renaming import Edit, edits_of
from .wire import FAILED, NO_METHOD, WRONG_WORDS, Message, Refused, read_message, write_message

CAPABILITIES = {
    "textDocumentSync": {"openClose": True, "change": 1, "save": False},
    "hoverProvider": True,
    "completionProvider": {},
    "definitionProvider": True,
    "referencesProvider": True,
    "documentSymbolProvider": True,
    "renameProvider": {"prepareProvider": True},
    "documentFormattingProvider": True,
}
KINDS = {"module": 2, "input": 8, "output": 8, "inputoutput": 8, "signal": 13, "trap": 24}
ERROR = 1  # how severe a fault is
WRONG = (KeyError, TypeError, AttributeError, IndexError)  # raised where words are missing
Came = Union[Message, Refused, None]  # a message, what is none, or the end


class Found:
    """A library with the meanings of its names, and the use at a place of one of its files."""

    def __init__(self, library: LibraryText, names: Names, use: Use) -> None:
        self.library, self.names, self.use = library, names, use


class EditorServer:
    """Answers an editor."""

    def __init__(self, reader: BinaryIO, writer: BinaryIO, checker: Checker) -> None:
        self.reader, self.writer, self.checker = reader, writer, checker
        self.documents = Documents()
        self.unchecked: List[str] = []  # paths of texts that have changed
        self.marked: Dict[str, List[str]] = {}  # documents with marks, by the path they come from
        self.messages: "queue.Queue[Came]" = queue.Queue()
        self.is_shut, self.has_program = False, True
        self.requests: Dict[str, Callable[[Message], Any]] = {
            "initialize": self.initialize,
            "shutdown": self.shutdown,
            "textDocument/hover": self.hover,
            "textDocument/completion": self.complete,
            "textDocument/definition": self.definition,
            "textDocument/references": self.references,
            "textDocument/documentSymbol": self.symbols,
            "textDocument/prepareRename": self.prepare_rename,
            "textDocument/rename": self.rename,
            "textDocument/formatting": self.format,
        }
        self.notices: Dict[str, Callable[[Message], None]] = {
            "textDocument/didOpen": self.opened,
            "textDocument/didChange": self.changed,
            "textDocument/didClose": self.closed,
        }

    # Messages.

    def read_messages(self) -> None:
        """Reads messages up to the end, which is None."""
        while True:
            try:
                message: Came = read_message(self.reader)
            except Refused as fault:
                message = fault
            self.messages.put(message)
            if message is None:
                return

    def serve(self) -> int:
        """Answers messages up to `exit` or the end of input: 0 after a `shutdown`, and else 1."""
        threading.Thread(target=self.read_messages, daemon=True).start()
        while True:
            message = self.next_message()
            if isinstance(message, Refused):
                self.answer(None, error=message)
            elif message is None or message.get("method") == "exit":
                return int(not self.is_shut)
            else:
                self.take(message)

    def next_message(self) -> Came:
        """The next message. While none comes, texts that have changed are checked."""
        while self.unchecked:
            with contextlib.suppress(queue.Empty):
                return self.messages.get(timeout=0.05)
            self.check(self.unchecked.pop(0))
        return self.messages.get()

    def take(self, message: Message) -> None:
        """Does what a message asks for."""
        name, words = message.get("method"), message.get("params") or {}
        if "id" not in message:
            with contextlib.suppress(*WRONG):
                self.notices.get(str(name), lambda _: None)(words)
            return
        try:
            if name not in self.requests:
                raise Refused(NO_METHOD, f"there is no method {name}")
            self.answer(message["id"], result=self.requests[str(name)](words))
        except Refused as fault:
            self.answer(message["id"], error=fault)
        except WRONG as fault:
            self.answer(message["id"], error=Refused(WRONG_WORDS, f"words are missing: {fault}"))

    def answer(self, number: Any, result: Any = None, error: Optional[Refused] = None) -> None:
        told = {"code": error.code, "message": str(error)} if error else None
        outcome = {"error": told} if error else {"result": result}
        write_message(self.writer, {"id": number, **outcome})

    def notify(self, method: str, words: Message) -> None:
        write_message(self.writer, {"method": method, "params": words})

    def initialize(self, _: Message) -> Message:
        server = {"name": "estserve-client", "version": __version__}
        return {"capabilities": CAPABILITIES, "serverInfo": server}

    def shutdown(self, _: Message) -> None:
        self.is_shut = True

    # Texts.

    def opened(self, words: Message) -> None:
        document = words["textDocument"]
        self.documents.uris[path_of(document["uri"])] = document["uri"]
        self.keep(path_of(document["uri"]), document["text"])

    def changed(self, words: Message) -> None:
        changes = words["contentChanges"]
        if changes:
            self.keep(path_of(words["textDocument"]["uri"]), changes[-1]["text"])

    def keep(self, path: str, text: str) -> None:
        """Keeps the text of a file, which is checked, and those that are open beside it too."""
        self.documents.open[path] = text
        folder = os.path.dirname(path)
        beside = [other for other in self.documents.open if os.path.dirname(other) == folder]
        self.unchecked = list(dict.fromkeys([*self.unchecked, path, *beside]))

    def closed(self, words: Message) -> None:
        path = path_of(words["textDocument"]["uri"])
        self.documents.open.pop(path, None)
        self.unchecked = [other for other in self.unchecked if other != path]
        self.publish(path, {})

    def check(self, path: str) -> None:
        """Tells the faults of a file that is open."""
        if path not in self.documents.open:
            return
        library = self.documents.library_of(path)
        try:
            faults = self.checker.faults_of(library)
            self.has_program = True
        except (Disconnected, TimedOut) as none:
            faults = self.own_faults(path, str(none))
        found: Dict[str, List[Message]] = {path: []}
        for fault in faults:
            where = fault.marks[0].file if fault.marks else path
            found.setdefault(where, []).append(self.diagnostic(fault, library, path))
        self.publish(path, found)

    def own_faults(self, path: str, why: str) -> List[Diagnosis]:
        """The fault of syntax that the client sees by itself; it is told once that no more is."""
        if self.has_program:
            told = f"faults of syntax alone are told: {why}"
            self.notify("window/showMessage", {"type": 2, "message": told})
        self.has_program = False
        text = self.documents.open[path]
        if parse(text):
            return []
        line, column, told = fault_of(text).split(":", 2)
        return [Diagnosis("Syntax", told.strip(), [Mark(path, int(line), int(column), 1, "")])]

    def publish(self, path: str, found: Dict[str, List[Message]]) -> None:
        """Tells the faults that come from a file, and takes away those that did before."""
        gone = [other for other in self.marked.get(path, [path]) if other not in found]
        for other, diagnostics in [*found.items(), *[(name, []) for name in gone]]:
            words = {"uri": self.documents.uri_of(other), "diagnostics": diagnostics}
            self.notify("textDocument/publishDiagnostics", words)
        self.marked[path] = list(found)

    def lines_of(self, path: str) -> List[str]:
        return lines_of(self.documents.text_of(path) or "")

    def location(self, mark: Mark) -> Message:
        """A place as an editor has it."""
        shown = range_at(self.lines_of(mark.file), mark.line, mark.column, mark.width)
        return {"uri": self.documents.uri_of(mark.file), "range": shown}

    def diagnostic(self, fault: Diagnosis, library: LibraryText, path: str) -> Message:
        """A fault as an editor has it: its sentence, its first place, and the others beside it."""
        first, *others = fault.marks or [Mark(path, 1, 1, 0, "")]
        told = f"{fault.told}: {first.told}" if first.told else fault.told
        related = [(mark, mark.told) for mark in others]
        related += [(step, step.told) for step in shortened(fault.path)[0]]
        return {
            "range": self.location(first)["range"],
            "severity": ERROR,
            "source": "estserve",
            "code": fault.fault,
            "message": "\n".join([told, *fault.remedies]),
            "relatedInformation": [
                {"location": self.location(mark), "message": text} for mark, text in related
            ],
        }

    # Names.

    def found_at(self, words: Message, whole: bool = False) -> Optional[Found]:
        """The use of a name at the place that a request names; None where there is none. The
        library is what the file needs, or with `whole` the folder.
        """
        path = path_of(words["textDocument"]["uri"])
        if path not in self.documents.open:
            return None
        library = self.folder_of(path) if whole else self.documents.library_of(path)
        modules = parse(library.text)
        if not modules:
            return None
        line, column = place_of(self.lines_of(path), words["position"])
        names = Names(modules)
        use = names.at(library.line_of(path, line), column)
        return Found(library, names, use) if use else None

    def folder_of(self, path: str) -> LibraryText:
        """A file, what it needs, and the files beside it that run its modules."""
        library = self.documents.library_of(path)
        pieces = [(name, self.documents.text_of(name) or "") for name in library.paths]
        known = {module.name.text for module in parse(library.text) or []}
        for other in self.documents.beside(path):
            modules = parse(self.documents.text_of(other) or "") or []
            is_new = other not in library.paths and not known & {one.name.text for one in modules}
            if is_new and modules:
                pieces.append((other, self.documents.text_of(other) or ""))
                known |= {module.name.text for module in modules}
        return join_texts(pieces)

    def mark_of(self, library: LibraryText, use: Use) -> Mark:
        path, line = library.place(use.at.line)
        return Mark(path, line, use.at.column, len(use.at.text), use.how)

    def hover(self, words: Message) -> Optional[Message]:
        found = self.found_at(words)
        if found is None:
            return None
        mark = self.mark_of(found.library, found.use)
        told = told_of(found.library, found.names, found.use.declared)
        shown = self.location(mark)["range"]
        return {"contents": {"kind": "markdown", "value": told}, "range": shown}

    def complete(self, words: Message) -> List[Message]:
        """The words that can stand at a place."""
        path = path_of(words["textDocument"]["uri"])
        line, column = place_of(self.lines_of(path), words["position"])
        found = words_at(self.documents.open.get(path, ""), line, column)
        return [{"label": word, "kind": kind} for word, kind in found]

    def definition(self, words: Message) -> Optional[Message]:
        found = self.found_at(words)
        if found is None or found.use.declared.kind == "tick":
            return None
        declared = found.use.declared
        at = Use(declared.at, "declared", declared, declared.module)
        return self.location(self.mark_of(found.library, at))

    def references(self, words: Message) -> List[Message]:
        found = self.found_at(words, whole=True)
        if found is None:
            return []
        wants_all = words.get("context", {}).get("includeDeclaration", True)
        return [
            self.location(self.mark_of(found.library, use))
            for use in found.names.uses_of(found.use.declared)
            if wants_all or use.how != "declared"
        ]

    def symbols(self, words: Message) -> List[Message]:
        """The modules of a file with what they declare."""
        path = path_of(words["textDocument"]["uri"])
        text = self.documents.open.get(path, "")
        lines, modules = lines_of(text), parse(text) or []
        names, found = Names(modules), []
        for module in modules:
            uses = [use for use in names.uses if use.module == module.name.text]
            own, *others = [symbol_of(lines, use) for use in uses if use.how == "declared"]
            found.append({**own, "children": others})
        return found

    def prepare_rename(self, words: Message) -> Optional[Range]:
        found = self.found_at(words)
        if found is None or found.use.declared.kind == "tick":
            return None
        place: Range = self.location(self.mark_of(found.library, found.use))["range"]
        return place

    def rename(self, words: Message) -> Message:
        found = self.found_at(words, whole=True)
        if found is None:
            raise Refused(FAILED, "no name that is known stands here")
        edits = edits_of(found.names, found.use.declared, words["newName"])
        return {"changes": self.changes_of(found.library, edits)}

    def changes_of(self, library: LibraryText, edits: List[Edit]) -> Dict[str, List[Message]]:
        """Edits of a library as an editor makes them, by the files."""
        found: Dict[str, List[Message]] = {}
        for edit in edits:
            path, line = library.place(edit.line)
            shown = range_at(self.lines_of(path), line, edit.column, edit.width)
            found.setdefault(self.documents.uri_of(path), []).append(
                {"range": shown, "newText": edit.text}
            )
        return found

    def format(self, words: Message) -> List[Message]:
        path = path_of(words["textDocument"]["uri"])
        text = self.documents.open.get(path, "")
        laid_out = format_text(text)
        if laid_out is None:
            raise Refused(FAILED, f"the text can't be laid out: {fault_of(text)}")
        return [] if laid_out == text else [{"range": whole_of(text), "newText": laid_out}]


def symbol_of(lines: List[str], use: Use) -> Message:
    """A declaration as an editor lists it."""
    shown = range_at(lines, use.at.line, use.at.column, len(use.at.text))
    kind = use.declared.kind
    told = {"name": use.at.text, "detail": kind, "kind": KINDS[kind]}
    return {**told, "range": shown, "selectionRange": shown}


def told_of(library: LibraryText, names: Names, declared: Declared) -> str:
    """What is told of a name: what it is, where it is declared, where it is emitted."""
    if declared.kind == "tick":
        return "`tick`: the signal that is present in every instant"
    uses = list(names.uses_of(declared))
    kind = "local signal" if declared.kind == "signal" else declared.kind
    inside = f" of `{declared.module}`" if declared.kind != "module" else ""
    lines = [
        f"`{declared.name}`: {kind}{inside}, declared in {places(library, [declared.at.line])}"
    ]
    bounds = [bound for bound in names.bound if bound.declared == declared]
    by_runs = [bound.run.at.line for bound in bounds if emits(names, bound.target, bound.name)]
    for how in ("emitted", "tested", "left", "run", "related"):
        found = [use.at.line for use in uses if use.how == how] + by_runs * (how == "emitted")
        if found:
            lines.append(f"{how} in {places(library, found)}")
        elif how == "emitted" and declared.kind in ("output", "inputoutput", "signal"):
            lines.append("emitted nowhere")
    return "  \n".join(lines)


def emits(names: Names, module: str, name: str) -> bool:
    return name in names.emitted.get(module, ())


def places(library: LibraryText, lines: List[int]) -> str:
    """Lines of a library in words, with their files where these are not the first one."""
    found = [library.place(line) for line in sorted(set(lines))]
    texts = [
        f"line {line}" + (f" of {os.path.basename(path)}" if path != library.paths[0] else "")
        for path, line in found
    ]
    return ", ".join(texts)


def serve_editor(arguments: argparse.Namespace) -> int:
    """Serves one editor, up to its end."""
    program = program_of(arguments)
    checker = Checker(lambda: start(program, timeout=60))
    writer = os.fdopen(os.dup(sys.stdout.fileno()), "wb")
    os.dup2(2, sys.stdout.fileno())  # so that nothing else is written between messages
    try:
        return EditorServer(sys.stdin.buffer, writer, checker).serve()
    finally:
        checker.close()
        with contextlib.suppress(OSError):
            writer.close()
