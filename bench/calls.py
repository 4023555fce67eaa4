#!/usr/bin/env python3
"""Writes docs/CALLS.md: every public call of the library, read off the sources and their `///` comments.

    bench/calls.py           writes the page
    bench/calls.py --check   writes nothing, and ends with status 1 where
                             - the page isn't what it would write,
                             - an item that a crate on the page makes public has no place there,
                             - crates.txt counts other functions that may wait than the page's rule does,
                             - a block of Rust in README.md or docs/LIBRARY.md doesn't stand in the program that it names.

It takes a second, and no toolchain. `rt ci` can't do this: it runs each program in a folder of its own, outside the
repository, with nothing but the crate's data/, where links are refused; and no macro takes a file's text.
"""

import os
import re
import sys

TOP = os.path.dirname(os.path.dirname(os.path.abspath(__file__)))
PAGE = "docs/CALLS.md"
FACADE = "nio"

# Where each type, trait and function has its place: the sections of the page, and what stands in each, in its order. A
# part is `PATH` or `PATH@FILE`: the calls of PATH that stand in the source file FILE, or below it where FILE ends in `/`.
# The path of a module, or of a crate, stands for its functions.
SECTIONS = {
    "Tables and callers": [
        "nio::Words", "nio::Caller@callers.rt", "nio::Table", "nio::Pass", "nio::Limits",
    ],
    "`Selector`": [
        "nio::Caller@selectors.rt", "nio::Caller@selections.rt", "nio::select", "nio::select::Selector",
        "nio::select::Selecting", "nio::select::Lister", "nio::select::ChangeList", "nio::select::Closing",
        "nio::select::KeyList", "nio::select::Asked", "nio::select::Poller", "nio::select::Bell", "nio::select::Scripted", "nio::select::Sleeper",
        "nio::select::Mode", "nio::select::Milliseconds", "nio_select", "nio_select::Renumber", "nio_poller::ToldPoll",
    ],
    "`SelectionKey`": [
        "nio::Caller@keys.rt", "nio::keys", "nio::Ops",
    ],
    "`SelectableChannel`": [
        "nio::Caller@channels.rt", "nio::channel", "nio::ChanId", "nio::Kind",
    ],
    "`Pipe`": [
        "nio::Caller@pipes.rt", "nio::pipe", "nio::pipe::PipeSource", "nio::pipe::PipeSink", "nio_pipe",
        "nio_pipe::HeldPipe",
    ],
    "Asynchronous channel groups": [
        "nio::group::GroupCore", "nio::group::Job", "nio::group::Completion", "nio::group::Group", "nio::group",
        "nio::group::Handler", "nio::group::BatchHandler", "nio::group::CompletionQueue", "nio::group::QueuePass",
        "nio::group::Handed", "nio::group::Gate", "nio_group::Operations", "nio_deadline::TimedCore",
        "nio_future::Desk", "nio_future", "nio_future::Hand", "nio_future::OpTicket", "nio_future::Round",
    ],
    "Nets": [
        "nio::net::CheckedNet", "nio::net::ByteBuffer", "nio::net::Net", "nio::net::MioNet", "nio::net::StreamLink",
        "nio::net::MemoryNet", "nio_link", "nio_link::JobNet", "nio_link::Passable", "nio_link::PlaceLog", "nio_link::Occupants",
        "nio_datagram::DatagramLink", "nio_datagram::PacketNet", "nio_mio_packets::MioPackets",
        "nio_datagram::MemoryPackets", "nio_datagram::SentPacket",
    ],
    "Proxies": [
        "nio::proxy", "nio::proxy::Direction", "nio::proxy::ProxyPlan", "nio_operations", "nio_tickets", "nio_reactor",
        "nio_datagram", "nio_serve", "nio_serve::Way", "nio_board::Board", "nio_board::Deal", "nio_board::Polls",
    ],
    "Single steps of the table": [
        "nio::Words@steps/", "nio_history::Chan", "nio_history::Stage", "nio_steps",
    ],
}

# What a section begins with.
OPENINGS = {
    "`Selector`": "A poller says which channels are ready; a bell makes a poller that waits return.",
    "Asynchronous channel groups": "`GroupCore` is a group in one thread, `Group` one that threads share. Groups with "
    "time limits (`nio_deadline`) and with tickets (`nio_future`) are crates of their own.",
    "Nets": "`CheckedNet` looks whether each call may be made; the calls of `Net` require it.",
    "Single steps of the table": "The atomic operations that calls are made of. None of them waits or takes memory, and "
    "only `mark` has an `Err`: the mark that it found.",
}

# Parts with fewer calls than this stand together.
FEW = 4

# Java's names, where the comment at the call has none.
JAVA = {
    "nio::Caller::take_selected": "selectedKeys().iterator()",
    "nio::Caller::try_read": "Pipe.SourceChannel.read",
    "nio::Caller::try_write": "Pipe.SinkChannel.write",
    "nio::Caller::close_source": "Pipe.SourceChannel.close",
    "nio::Caller::close_sink": "Pipe.SinkChannel.close",
    "nio::Caller::try_register": "register",
    "nio::Caller::try_set_blocking": "configureBlocking",
    "nio::select::Mode::waiting": "select(long)",
    "nio::pipe::PipeSource::read": "Pipe.SourceChannel.read",
    "nio::pipe::PipeSource::close": "Pipe.SourceChannel.close",
    "nio::pipe::PipeSink::write": "Pipe.SinkChannel.write",
    "nio::pipe::PipeSink::close": "Pipe.SinkChannel.close",
    "nio_pipe::HeldPipe::close_source": "Pipe.SourceChannel.close",
    "nio_pipe::HeldPipe::close_sink": "Pipe.SinkChannel.close",
    "nio::group::Group::make": "withFixedThreadPool",
    "nio::group::GroupCore::start": "accept, connect, read, write",
    "nio::group::Handler::completed": "CompletionHandler.completed, CompletionHandler.failed",
    "nio_deadline::TimedCore::start_timed": "read(.., long, TimeUnit, ..), write(.., long, TimeUnit, ..)",
    "nio_future::Desk::start": "accept(), connect(..), read(..), write(..)",
    "nio_future::Desk::cancel": "Future.cancel",
    "nio_future::Desk::poll_op": "Future.isDone, Future.get",
    "nio::net::ByteBuffer::is_empty": "!hasRemaining",
    "nio::net::ByteBuffer::len": "remaining",
    "nio::net::ByteBuffer::put": "put",
    "nio_datagram::DatagramLink::make": "DatagramChannel.open",
}
# The same of types that have calls of the same names.
JAVA_OF = [
    (("nio::group::GroupCore", "nio_deadline::TimedCore", "nio_future::Desk"), {
        "open_channel": "AsynchronousSocketChannel.open, AsynchronousServerSocketChannel.open",
        "bind": "AsynchronousServerSocketChannel.bind",
        "close_channel": "close",
        "shutdown": "shutdown",
        "shutdown_now": "shutdownNow",
    }),
    (("nio::net::Net", "nio::net::CheckedNet", "nio::net::StreamLink"), {
        "listen": "ServerSocketChannel.bind",
        "accept": "ServerSocketChannel.accept",
        "connect": "SocketChannel.connect",
        "finish_connect": "SocketChannel.finishConnect",
        "read": "SocketChannel.read",
        "write": "SocketChannel.write",
        "shut_write": "SocketChannel.shutdownOutput",
        "close": "SocketChannel.close",
    }),
    (("nio_datagram::DatagramLink",), {
        it: f"DatagramChannel.{it}" for it in ("bind", "connect", "disconnect", "receive", "send", "close")
    }),
]
for _types, _names in JAVA_OF:
    JAVA |= {f"{_type}::{_call}": _name for _type in _types for _call, _name in _names.items()}

HEAD = """# The public calls

`bench/calls.py` makes this page from the sources: change those, and run it.

- A path begins with the crate that a program names in its line of `crates.txt`: what begins with `nio::` comes with
  `nio`, all else with the crate of that name. Signatures stand here without their contracts.
- **Java**: the method's name in the class that the section is about, or with its own class.
- **Refuses**: the [error](#errors), with those of its variants that the call's contract names where it doesn't name all;
  what is given back; or `None`, where that is an answer. A method of `Caller` that answers a bool or a number answers
  false or 0 where a name was never made; `cancel` and `interrupt` answer true in every other case.
- **requires**: the call may be made only where its contract's `requires` is proved; every other call takes any values.
- **waits**: the call may wait, and so takes a handle of `Wait`; every other call returns.
- **memory**: the call takes memory. Where that lacks, the answer says so, as `AllocError`, `Memory` or what it gives
  back; a call without such an answer only keeps the allocator.

Laws have no place here: they are public functions that do nothing.
"""
AS_METHODS = (
    "As the methods of `Caller` with these names, but for `&mut self` they take `w: &Words, p: &mut Pass, me: CallerNo`, behind `rt` and `alloc` where they have these"
)
NO_LOOKS = ", and without the look for what is named, so the error stands alone"
OF_A_CALLER = ("w: &Words", "p: &mut Pass", "me: CallerNo")
TABLE = ["| Call | What it does | Java | Refuses | Requires, waits, memory |", "|---|---|---|---|---|"]

CLAUSE = re.compile(r"\s*(requires|ensures|ghost|decreases)\b")
BLOCK = re.compile(r"(pub )?(impl|trait)\b")
FUNCTION = re.compile(r"\s*(pub(\([a-z]+\))? )?(const )?fn (\w+)")
ITEM = re.compile(r"pub (struct|enum|type|const) (\w+)")
# What a function's own bounds, or those of its block, say where it may wait.
WAITS = re.compile(r"\b(Wait|HostRuntime)\b")
# What begins a definition, and what can name one.
DEFINITION = re.compile(r"(?:(?:abbrev|unfoldable|opaque|pub|record|data)\s+)+([^\s:(){}]+)")
WORD = re.compile(r"[A-Za-z_]\w*(?:\.[A-Za-z_]\w*)?")
# What its comment says where it takes memory that no type shows.
LACKS = re.compile(r"there is no memory|memory lacks")


def read(path):
    with open(f"{TOP}/{path}", encoding="utf-8") as file:
        return file.read()


def bracket_end(text, at):
    """The place behind the bracket that closes the one at this place."""
    depth = 0
    for end in range(at, len(text)):
        depth += text[end] in "([{<"
        depth -= text[end] in ")]}" or text[end] == ">" and text[end - 1] != "-"
        if not depth:
            return end + 1
    return len(text)


def split(text):
    """The parts of a list, cut at each comma that stands in no bracket."""
    parts, begin, at = [], 0, 0
    while at < len(text):
        if text[at] in "([{<":
            at = bracket_end(text, at)
            continue
        if text[at] == ",":
            parts.append(text[begin:at])
            begin = at + 1
        at += 1
    return [it.strip() for it in [*parts, text[begin:]] if it.strip()]


def first_sentence(text):
    """The text up to the first full stop that ends a sentence, outside of code."""
    for end in re.finditer(r"\.(?= |$)", text):
        if text.count("`", 0, end.start()) % 2 == 0:
            return text[: end.end()]
    return text


def listed(words):
    return " and ".join([", ".join(words[:-1])] * (len(words) > 1) + words[-1:])


class Item:
    """A struct, an enum, a trait, a type or a constant that is public."""

    def __init__(self, kind, name, file, docs):
        self.kind, self.name, self.file, self.docs = kind, name, file, docs
        # what it implements; constants of its blocks; an enum's variants, each with its comment; a struct's public fields
        self.traits, self.constants, self.variants, self.fields = [], [], [], []
        self.is_error = False

    def values(self):
        """What its values are made of."""
        if len(self.variants) > 20:
            return f"{len(self.variants)} variants"
        return ", ".join(f"`{it}`" for it in self.fields or [name for name, _ in self.variants])

    def read_fields(self, lines):
        """Reads the public fields from a struct's first line and its body."""
        in_brackets = re.search(r"\((pub .*)\);", lines[0])
        if in_brackets:
            self.fields = [it.removeprefix("pub ") for it in split(in_brackets[1])]
            return
        for text in lines:
            field = re.match(r"    pub (\w+: .*),$", text)
            if text.endswith(";") or text == "}":
                return
            self.fields += [field[1]] if field else []

    def read_variants(self, lines):
        """Reads the variants from the lines of an enum's body."""
        docs, message = [], ""
        for text in map(str.strip, lines):
            variant = re.match(r"(\w+(\(.*\))?),$|(\w+) \{", text)
            if text == "}":
                return
            if text.startswith("///"):
                docs.append(text[3:].strip())
            elif text.startswith("#[error("):
                message, self.is_error = text.split('"')[1], True
            elif variant:
                said = " ".join(docs) or message and f"{message[0].upper()}{message[1:]}."
                self.variants.append((variant[1] or variant[3], said))
                docs, message = [], ""


class Function:
    """A function: its signature, its clauses, and the line where its head ends."""

    def __init__(self, crate, file, block, docs, found):
        self.crate, self.file, self.block, self.docs = crate, file, block, docs
        head, self.clauses, self.end, self.has_body = found
        self.is_public = head.startswith(("pub fn", "pub const fn")) or block.startswith("pub trait")
        self.may_wait = bool(WAITS.search(f"{head} {block}"))
        self.requires = bool(re.search(r"^\s*requires\b", self.clauses, re.MULTILINE))
        self.owner, self.trait = owner_of(block), trait_of(block)
        text = re.sub(r"^.*?\bfn ", "", head)
        text = re.sub(r"([(<]) ", r"\1", text)
        self.signature = re.sub(r",( ?)([)>])", r"\2", text).rstrip(", ")
        self.name = re.match(r"\w+", self.signature)[0]
        begin = at = len(self.name)
        if self.signature[at] == "<":
            at = bracket_end(self.signature, at)
        end = bracket_end(self.signature, at)
        self.generics = self.signature[begin:at]
        self.parameters = split(self.signature[at + 1 : end - 1])
        self.answer = re.sub(r" where .*", "", self.signature[end:]).removeprefix(" -> ")

    def error(self):
        """The type of what the answer is where the call fails, or nothing."""
        at = self.answer.find("Result<")
        parts = split(self.answer[at + 7 : bracket_end(self.answer, at + 6) - 1]) if at >= 0 else []
        return parts[1] if len(parts) > 1 else ""


def owner_of(block):
    """The type or trait whose block this is."""
    text = re.sub(r"^(pub )?(impl|trait)", "", block)
    if text.startswith("<"):
        text = text[bracket_end(text, 0) :]
    found = re.match(r".* for &?(\w+)|\s*(\w+)", text)
    return (found[1] or found[2]) if found else ""


def trait_of(block):
    """The trait that the block declares or implements."""
    found = re.match(r"(?:pub )?trait (\w+)", block) or re.match(r"impl\b.*?\b(\w+)(?:<[^>]*>)? for ", block)
    return found[1] if found else ""


def head_at(lines, at):
    """The head of the item that begins in this line; its clauses; the line where the head ends; whether a body follows."""
    words, depth = [], 0
    while at < len(lines):
        text = re.sub(r"\s*//.*", "", lines[at])
        if words and not depth and CLAUSE.match(text):
            break
        for place, sign in enumerate(text):
            depth += (sign in "([") - (sign in ")]")
            if not depth and sign in "{;":
                return " ".join(" ".join([*words, text[:place]]).split()), "", at, sign == "{"
        words.append(text)
        at += 1
    # the body's brace stands alone; the clauses of a declaration end in a semicolon
    end = next(it for it in range(at, len(lines)) if lines[it].strip() in ("{", "{}") or lines[it].endswith("};"))
    clauses = "\n".join(lines[at : end + 1])
    return " ".join(" ".join(words).split()), clauses, at, not lines[end].endswith(";")


def uses(text):
    """The paths and names that a file makes public."""
    for found in re.findall(r"(?m)^pub use ([^;]+);", text):
        whole = " ".join(found.split())
        path, _, names = whole.rpartition("::")
        if "{" in whole:
            path, names = re.match(r"(.*?)::\{(.*)\}", whole).groups()
        for name in split(names):
            yield path, name


class Crate:
    """What the sources of a crate say, without its tests."""

    def __init__(self, name):
        self.name, self.items, self.functions, self.texts = name, {}, [], {}
        top = f"crates/{name}/src"
        for at, folders, files in os.walk(f"{TOP}/{top}"):
            folders.sort()
            for file in sorted(files):
                path = os.path.relpath(f"{at}/{file}", f"{TOP}/{top}")
                if file.endswith(".rt") and file != "tests.rt":
                    self.texts[path] = read(f"{top}/{path}")
                    self.read(path, self.texts[path].split("\n"))
        self.exports = list(uses(self.texts.get("lib.rt", "")))

    def read(self, file, lines):
        block, docs, is_error, at = "", [], False, 0
        while at < len(lines):
            text, begin = lines[at], at
            item, constant = ITEM.match(text), re.match(r" +pub const (\w+):", text)
            if text == "}":
                block = ""
            if text.lstrip().startswith("///"):
                docs.append(text.strip()[3:].strip())
            elif BLOCK.match(text):
                block, _, at, _ = head_at(lines, at)
                if block.startswith("pub trait"):
                    self.add(Item("trait", owner_of(block), file, " ".join(docs)))
                for it in self.items.get(owner_of(block), []) if " for " in block else []:
                    it.traits.append(trait_of(block))
                block = "" if lines[at].endswith("{}") else block
            elif FUNCTION.match(text):
                self.functions.append(Function(self, file, block, " ".join(docs), head_at(lines, at)))
                at = self.functions[-1].end
            elif item:
                self.add(Item(item[1], item[2], file, " ".join(docs)))
                self.items[item[2]][-1].is_error = is_error
                if item[1] == "enum":
                    self.items[item[2]][-1].read_variants(lines[begin + 1 :])
                if item[1] == "struct":
                    self.items[item[2]][-1].read_fields(lines[begin:])
            elif constant:
                self.items[owner_of(block)][-1].constants.append(constant[1])
            is_error = text.startswith("#[error(")
            if not text.lstrip().startswith(("///", "#[")):
                docs = []
            at += 1

    def add(self, item):
        self.items.setdefault(item.name, []).append(item)

    def item(self, name):
        """The item of this name that the crate makes public."""
        found = self.items.get(name, [])
        module = next((path.split("::")[-1] for path, it in self.exports if it == name), "")
        fitting = [it for it in found if re.search(rf"\b{module}(\.rt|/)", it.file)]
        return (fitting or found or [None])[0]

    def calls_of(self, owner):
        """The public functions of a type or a trait, or, with no owner, those of the crate itself. Not its laws."""
        own = [it for it in self.functions if it.is_public and it.owner == owner and it.trait in ("", owner)]
        return [it for it in own if not it.name.endswith("_law") and it.name != "law"]


class Library:
    """The crates, and under which path a user names what they make public."""

    def __init__(self):
        self.waiting = {}
        for line in read("crates.txt").split("\n"):
            name = line.split("#")[0].partition(":")[0]
            if name.strip():
                count = re.search(r" may_wait=(\d+)", name)
                self.waiting[name.split()[0]] = int(count[1]) if count else 0
        self.crates = {name: Crate(name) for name in self.waiting if not name.endswith("_tests")}
        # for each path the crate, and the name there
        self.paths = {}
        for file, text in self.crates[FACADE].texts.items():
            module = "" if file == "lib.rt" else f"::{file[:-3]}"
            for crate, name in uses(text):
                self.paths[f"{FACADE}{module}::{name}"] = self.home_of(crate, name)
        known = set(self.paths.values())
        for crate in self.on_page():
            for path, name in self.crates[crate].exports:
                if path not in self.crates and (crate, name) not in known:
                    self.paths[f"{crate}::{name}"] = (crate, name)

    def home_of(self, crate, name):
        """The crate that an item stands in, where this one may pass it on."""
        passed_on = next((path for path, it in self.crates[crate].exports if it == name and path in self.crates), None)
        return self.home_of(passed_on, name) if passed_on else (crate, name)

    def on_page(self):
        """The crates all of whose public items have a place on the page: what `nio` passes on, and what SECTIONS names."""
        named = {part.split("::")[0] for parts in SECTIONS.values() for part in parts}
        return sorted((named | {crate for crate, _ in self.paths.values()}) - {FACADE})

    def functions_in(self, path):
        """The functions of a module of the facade, or of a crate."""
        homes = [home for full, home in self.paths.items() if full.rpartition("::")[0] == path]
        return [it for crate, name in homes for it in self.crates[crate].calls_of("") if it.name == name]

    def error_of(self, function, name):
        """The error type that this name is in a function's signature."""
        text = function.crate.texts[function.file]
        used = re.findall(rf"(?m)^use (\w+)(?:::\w+)*::(?:\{{[^;]*)?\b{name}\b", text)
        for crate in [function.crate, *[self.crates[it] for it in used if it in self.crates]]:
            home = self.home_of(crate.name, name)
            item = self.crates[home[0]].item(name)
            if item and item.is_error:
                return item
        return None


class Specs:
    """The definitions that contracts cite, as far as they name variants of errors."""

    def __init__(self):
        self.modules = {}

    def module(self, path):
        """The imports of a file of definitions, and its definitions by their names."""
        if path not in self.modules:
            crate, _, inside = path.removeprefix("Rattle.").partition(".specs.")
            file = f"crates/{crate}/specs/{inside.replace('.', '/')}.antt"
            text = read(file) if os.path.exists(f"{TOP}/{file}") else ""
            definitions, name = {}, ""
            for line in text.split("\n"):
                begins = DEFINITION.match(line)
                name = begins[1] if begins else name
                if name and not line.startswith("--"):
                    # what stands before the sign of equality is what the definition is given, and no answer of its own
                    given, _, said = line.partition(" = ") if line.startswith(f"{name} ") else ("", "", line)
                    words = set(WORD.findall(given))
                    said = WORD.sub(lambda it: "" if it[0] in words else it[0], said)
                    definitions[name] = f"{definitions.get(name, '')}{said}\n"
            self.modules[path] = imports_of(text), definitions
        return self.modules[path]

    def variants(self, function, error):
        """The variants of this error that the function's contract names, by itself or by what it cites."""
        named, seen = set(), set()
        never = set(re.findall(r"\{ result ≢ Err \(?(?:Refused )?(?:\w+\.)?(\w+)\)? \}", function.clauses))
        clauses = re.sub(r"requires[^{]*\{.*?\}\n", "", function.clauses)
        # texts to be read, each with the imports and the definitions of its file
        rest = [(clauses, imports_of(function.crate.texts[function.file]), {}, "")]
        while rest:
            text, imports, own, path = rest.pop()
            for word in WORD.findall(text):
                first, _, last = word.partition(".")
                home, name = (path, first) if first in own else imports.get(first, ("", ""))
                if home.endswith(f".{error}.TheVariants"):
                    named.add(last or name)
                elif last and home.endswith(f".{error}"):
                    named.add(last)
                elif ".specs." in home and (home, name) not in seen:
                    seen.add((home, name))
                    its_imports, its_own = self.module(home)
                    rest.append((its_own.get(name, ""), its_imports, its_own, home))
        return named - never


def imports_of(text):
    """For each name that a file brings from definitions where it stands, and its name there."""
    found = {}
    use = r"(?m)^ *(?:ghost |pub )?use (Rattle\.[\w.]+?)(?:\.\{([^}]*)\}| as (\w+));?$"
    for path, names, alias in re.findall(use, text):
        for name in split(names):
            there, _, here = name.partition(" as ")
            found[here or there] = (path, there)
        if alias:
            found[alias] = (path, "")
    return found


class Page:
    """The page, as its parts are written."""

    def __init__(self, library):
        self.library, self.specs, self.lines, self.lost = library, Specs(), [], []
        # the errors of the calls; the calls and the items that have a place
        self.errors, self.placed = {}, set()

    def write(self):
        names = [*SECTIONS, "Errors", "Types and constants"]
        links = [f"[{it}](#{it.lower().replace('`', '').replace(' ', '-')})" for it in names]
        self.lines += [HEAD, " · ".join(links), ""]
        for section, parts in SECTIONS.items():
            self.lines += [f"## {section}", ""]
            if section in OPENINGS:
                self.lines += [OPENINGS[section], ""]
            self.add_parts(parts)
        self.add_errors()
        self.add_types()
        self.find_lost()
        return "\n".join(self.lines).rstrip("\n") + "\n"

    def add_parts(self, parts):
        # the rows of parts with few calls, and where they stand
        rest, at = [], len(self.lines)
        for part in parts:
            path, _, file = part.partition("@")
            functions = sorted(self.functions_of(path, file), key=lambda it: it.name)
            if not functions:
                self.lost.append(f"SECTIONS names {part}, and there is no call")
            self.placed.update(functions)
            as_methods = [it for it in functions if self.is_method_too(it)]
            others = [it for it in functions if it not in as_methods]
            if as_methods:
                looks = NO_LOOKS if any("CallError" in it.answer for it in self.methods()) else ""
                names = ", ".join(f"`{it.name}`" for it in as_methods)
                self.lines += [f"### `{path}`", "", f"{AS_METHODS}{looks}: {names}.", ""]
            if file.endswith("/"):
                self.lines += ["| Step | What it does |", "|---|---|"]
                self.lines += [f"| `{it.signature}` | {first_sentence(it.docs)} |" for it in others] + [""]
            elif len(others) < FEW:
                at = at if rest else len(self.lines)
                rest += [self.row(it, path, f"{path}::") for it in others]
            elif as_methods:
                self.lines += ["The others:", "", *TABLE, *[self.row(it, path, "") for it in others], ""]
            else:
                self.add_part(path, file, others)
        if rest:
            self.lines[at:at] = ["### Functions, and types with few calls", "", *TABLE, *rest, ""]

    def add_part(self, path, file, functions):
        of = "" if file in ("", f"{path.split('::')[-1].lower()}s.rt") else f": {file.removesuffix('.rt')}"
        self.lines += [f"### `{path}`{of}", ""]
        if path in self.library.paths and not of:
            crate, name = self.library.paths[path]
            item = self.library.crates[crate].item(name)
            self.placed.add(item)
            self.lines += [self.what(item), ""]
        self.lines += [*TABLE, *[self.row(it, path, "") for it in functions], ""]

    def what(self, item):
        """What the item is."""
        known = {name for _, name in self.library.paths.values()}
        traits = [f"`{it}`" for it in dict.fromkeys(item.traits) if it in known]
        constants = [f"`{it}`" for it in item.constants]
        also = [f" It is a {listed(traits)}."] * bool(traits) + [f" Constants: {', '.join(constants)}."] * bool(constants)
        return first_sentence(item.docs) + "".join(also)

    def functions_of(self, path, file):
        if path not in self.library.paths:
            return self.library.functions_in(path)
        crate, name = self.library.paths[path]
        fits = lambda it, file: it.file.startswith(file) if file.endswith("/") else os.path.basename(it.file) == file
        others = [part.partition("@")[2] for parts in SECTIONS.values() for part in parts if part.startswith(f"{path}@")]
        found = self.library.crates[crate].calls_of(name)
        return [it for it in found if (fits(it, file) if file else not any(fits(it, other) for other in others))]

    def methods(self):
        """The methods of a caller."""
        crate, name = self.library.paths[f"{FACADE}::Caller"]
        return self.library.crates[crate].calls_of(name)

    def is_method_too(self, function):
        """Whether a caller has this call as a method, with the same other parameters and the same answer."""
        methods = [it for it in self.methods() if it.name == function.name]
        rest = [it for it in function.parameters if it not in OF_A_CALLER]
        same = lambda it: (it.parameters[1:], it.generics, re.sub(r"CallError<(\w+)>", r"\1", it.answer))
        return not function.owner and any(same(it) == (rest, function.generics, function.answer) for it in methods)

    def row(self, function, path, before):
        java = re.findall(r"Java's `([^`]+)`", function.docs) or split(JAVA.get(f"{path}::{function.name}", ""))
        # the column has the name
        text = re.sub(r": Java's `[^`]*`( of [\w ]+)?\.$", ".", first_sentence(function.docs))
        refuses, takes = self.refusal(function)
        marks = ", ".join(["requires"] * function.requires + ["waits"] * function.may_wait + ["memory"] * takes)
        names = ", ".join(f"`{it}`" for it in dict.fromkeys(java))
        return f"| `{before}{function.signature}` | {text} | {names} | {refuses} | {marks} |"

    def refusal(self, function):
        """How the call refuses, and whether it takes memory."""
        error = function.error()
        if "never answers Err" in function.docs:
            return "", False
        names = [] if error.startswith("Self::") else re.findall(r"\w+", error)
        found = [it for it in (self.library.error_of(function, name) for name in names) if it]
        self.errors |= {it.name: it for it in found}
        self.placed.update(found)
        takes = any(it.endswith(": Global") for it in function.parameters) or "AllocError" in names
        takes = takes or any(name == "Memory" for it in found for name, _ in it.variants)
        takes = takes or bool(LACKS.search(function.docs))
        if error in ("", "AllocError"):
            return "`None`" if function.answer.startswith("Option<") else "", takes
        variants = ", ".join(f"`{it}`" for it in self.variants(function, found))
        return f"`{error}`{': ' if variants else ''}{variants}", takes

    def variants(self, function, errors):
        """The variants of these errors that the call may answer by its contract, where they aren't all."""
        shown, is_part = [], False
        for error in errors:
            every = [re.match(r"\w+", it)[0] for it, _ in error.variants if not it.endswith("(E)")]
            named = self.specs.variants(function, error.name)
            mine = [it for it in every if it in named | {"Memory"}] if named & set(every) else every
            is_part = is_part or mine != every
            shown += mine
        return shown if is_part else []

    def add_errors(self):
        self.lines += ["## Errors", "", "| Error | | Cause |", "|---|---|---|"]
        for name, item in sorted(self.errors.items()):
            self.lines += [f"| `{name}` | `{variant}` | {cause} |" for variant, cause in item.variants]
            self.lines += [f"| `{name}` | | {item.docs} |"] * (not item.variants)
        self.lines += [""]

    def add_types(self):
        """The types and constants that stand nowhere above."""
        rows = []
        for path, (crate, name) in [*self.library.paths.items(), (f"{FACADE}::USUAL_LIMITS", (FACADE, "USUAL_LIMITS"))]:
            item = self.library.crates[crate].item(name)
            if item and item not in self.placed:
                self.placed.add(item)
                rows.append(f"| `{path}` | {self.what(item)} | {item.values()} |")
        self.lines += ["## Types and constants", "", "| Type or constant | What it is | Its variants or fields |", "|---|---|---|"]
        self.lines += [*sorted(rows), ""]

    def find_lost(self):
        """Notes the public calls that have no place, and the names of Java's for which there is no call."""
        known = set()
        for path, (crate, name) in self.library.paths.items():
            functions = self.library.crates[crate].calls_of(name)
            known |= {f"{path}::{it.name}" for it in functions}
            functions += [it for it in self.library.crates[crate].calls_of("") if it.name == name]
            self.lost += [f"SECTIONS has no place for {it.name} of {path}" for it in functions if it not in self.placed]
        grouped = {f"{it}::{call}" for types, names in JAVA_OF for it in types for call in names}
        self.lost += [f"JAVA names {it}, and there is no such call" for it in JAVA if it not in known | grouped]


def waiting_lost(library):
    """Where the page's rule for what waits isn't that of crates.txt, which counts the functions with a body."""
    for name, crate in library.crates.items():
        found = sum(it.may_wait and it.has_body for it in crate.functions)
        if found != library.waiting[name]:
            said = library.waiting[name]
            yield f"{name}: {found} functions have a bound Wait, and crates.txt has may_wait={said}"


def blocks_lost(library):
    """The blocks of Rust that don't stand in a program that their section names."""
    for file in ("README.md", "docs/LIBRARY.md"):
        text = read(file)
        for block in re.finditer(r"```rust\n(.*?)```\n", text, re.S):
            section = text[text.rfind("\n## ", 0, block.start()) : (text + "\n## ").find("\n## ", block.end())]
            programs = {it: library.crates[it].texts.get("main.rt", "") for it in re.findall(r"crates/(\w+)", section)}
            whole = re.match(r"\s*This is \[`crates/(\w+)`\]", text[block.end() :])
            if whole and block[1] != programs[whole[1]]:
                yield f"{file}: the program isn't that of crates/{whole[1]}"
            elif not any(f"\n{block[1]}" in f"\n{program}" for program in programs.values()):
                begins = block[1].strip().splitlines()[0]
                yield f"{file}: the block that begins {begins!r} stands in none of {', '.join(programs)}"


def main(words):
    if words not in ([], ["--check"]):
        print(__doc__, file=sys.stderr)
        return 2
    library = Library()
    page = Page(library)
    text = page.write()
    lost = [*page.lost, *waiting_lost(library), *blocks_lost(library)]
    if not words:
        with open(f"{TOP}/{PAGE}", "w", encoding="utf-8") as file:
            file.write(text)
    elif not os.path.exists(f"{TOP}/{PAGE}") or read(PAGE) != text:
        lost.append(f"{PAGE} isn't what the sources say: run bench/calls.py")
    for it in lost:
        print(f"calls.py: {it}", file=sys.stderr)
    return 1 if lost else 0


if __name__ == "__main__":
    sys.exit(main(sys.argv[1:]))
