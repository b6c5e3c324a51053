#!/usr/bin/env python3
"""Writes docs/DEFINITIONS.md: the files of definitions in the order of reading, each with its lines, the comment at its
head, and how to convince oneself. Fails where a file is missing, is not listed, is listed twice, or has no comment at its
head. With --check it writes nothing, and fails where docs/DEFINITIONS.md is not what it would write."""

import sys
import textwrap
from pathlib import Path

ROOT = Path(__file__).resolve().parent.parent
PAGE = ROOT / "docs" / "DEFINITIONS.md"

# What the clause `run` of the top call depends on: groups of files, each with how to convince oneself of it.
RUN = [
    (
        "The values",
        "Plain records and functions over numbers and lists. Nothing here moves.",
        [
            (
                "wedge_base/Images",
                "Compare the constants with the table of addresses in [MACHINE.md](MACHINE.md#addresses).",
            ),
            ("wedge_base/Bytes", "Work out `overwrite` by hand."),
            ("wedge_base/Texts", "Compare with [FORMATS.md](FORMATS.md#the-image)."),
            ("wedge_base/Names", "Three short functions."),
            ("wedge_base/Identities", "One line."),
            ("wedge_base/Memory", "An access must lie wholly in one range: see `lies_in`."),
            ("wedge_base/Pages", "Copies of tags use it."),
            ("wedge_base/Maps", "`at` and `with` are the kit's look-up and insertion."),
            ("wedge_base/Rights", "`at_least` without a right is false, whatever is asked."),
            (
                "wedge_base/Sheets",
                "The file that matters most here. See that `right_on` looks at nothing but the sheet and what "
                "was made.",
            ),
            (
                "wedge_base/Paths",
                "Try `resolve` on `/../etc/keys`; [`files.toml`](../crates/run_cases/data/examples/files.toml) "
                "does.",
            ),
            ("wedge_base/Files", "Two functions."),
            ("wedge_base/Services", "Compare with [MACHINE.md](MACHINE.md#service-calls)."),
        ],
    ),
    (
        "One instruction",
        "RV32IM as a table and a function. That it is what the RISC-V manual says is trusted.",
        [
            ("rv_isa/Numbers", "Three functions."),
            (
                "rv_isa/Table",
                "Compare each row with the listing of the manual. That no word is of two operations is proved; "
                "tests compare words worked out from the manual.",
            ),
            ("rv_hart/Alu", "Compare with the manual's sections on integer arithmetic and the M extension."),
            (
                "rv_hart/Local",
                "One line an operation, in `local`. FENCE does nothing; EBREAK and a jump to an address that is "
                "no multiple of 4 end the actor.",
            ),
        ],
    ),
    (
        "The cells",
        "What actors share. Each cell is a reply and a next state, both functions of its state and the ask.",
        [
            ("wedge_base/Blocks", "Blocks guard nothing: accesses are checked by the tag alone."),
            (
                "wedge_events/Slots",
                "Read `live_reply` and `slot_after`: a store changes the bytes only where the reply is `Stored`.",
            ),
            ("wedge_events/Streams", "The same, with `stream_reply` and `stream_after`."),
            (
                "wedge_events/Directories",
                "`numbers_are_given_once` and `places_are_given_apart` say that no number is assigned twice, and "
                "no slot while it is claimed.",
            ),
            ("wedge_events/Lives", "A reply and a next state."),
            (
                "wedge_events/Gates",
                "`gate_reply` and `gate_next` have two lines each: an entry is given what is kept, or else what "
                "it brings.",
            ),
            ("wedge_events/Wants", "One line a case."),
            ("wedge_events/Journals", "Two functions are used: `turns_of` and `numbered`."),
        ],
    ),
    (
        "An actor",
        "Its record, its steps, and what an event makes of it.",
        [
            ("cow_pages/PrivateMemory", "See that it begins with zeros and the image's data."),
            ("cow_pages/Copies", "An access past a copy is none."),
            ("cow_pages/Listed", "One function."),
            ("machine/Actors", "`root` takes its sheet from the image and nothing else."),
            (
                "callgate/Gate",
                "The record itself is `Gate` in [`callgate/src/gate.rt`](../crates/callgate/src/gate.rt).",
            ),
            ("machine/Children", "Look-up, insertion and removal."),
            (
                "machine/Local",
                "Fuel, fetch and decoding in this order; one unit more than there is fuel is enough steps.",
            ),
            (
                "machine/Accesses",
                "The order of the tests is that of [MACHINE.md](MACHINE.md#addresses).",
            ),
            ("machine/Opening", "One record."),
            ("machine/Calls", "Compare each with its line in [MACHINE.md](MACHINE.md#service-calls)."),
            ("machine/CopyGrant", "Two functions."),
            (
                "machine/Preparation",
                "[`form.toml`](../crates/run_cases/data/examples/form.toml) shows two of them.",
            ),
            ("machine/Entrance", "One record."),
            ("machine/Entering", "Nothing lent lacks nothing."),
            (
                "machine/Take",
                "`child_of` is the child, `run_by` the run of a gate, field by field; `leaving_want` and "
                "`entering_want` have a line for each kind of gate.",
            ),
            (
                "machine/Resting",
                "Of this file the clause uses `NotMaking`; the rest is vocabulary of the code's contracts.",
            ),
        ],
    ),
    (
        "The world",
        "Actors and cells together.",
        [
            ("machine/Cells", "`cells_after` has one line for each kind."),
            (
                "machine/Worlds",
                "A turn is `ready`, `rest`, one event, `takes`; at most one outcome. `event_at` says when an "
                "event has to wait. Replay an example's schedule by hand, such as "
                "[`split.schedule`](../crates/run_cases/data/examples/split.schedule).",
            ),
            ("machine/Outcomes", "`line_of` copies the denials of its actor."),
        ],
    ),
    (
        "What is allowed, and the other laws",
        "Stated apart from the functions of the three groups before. Every run is proved to obey them; check that they match the promise.",
        [
            (
                "run_laws/Holding",
                "The step has the same in `Actors` and `Lending`: see that the laws do not read those.",
            ),
            (
                "run_laws/Requests",
                "It does not call `step`, so what the step makes of a request is a theorem.",
            ),
            ("run_laws/Allowed", "The table of rights of the machine: twelve lines."),
            (
                "run_laws/Moments",
                "See that no moment is left out: `EachMomentOf` has every instruction while the actor runs, and "
                "the event.",
            ),
            ("run_laws/Ends", "Compare with the ends in [MACHINE.md](MACHINE.md#actors)."),
            (
                "run_laws/Refusals",
                "The longest of them; compare with [MACHINE.md](MACHINE.md#service-calls).",
            ),
            ("run_laws/Paying", "`Pays` is one equation."),
            ("run_laws/Drafting", "Six calls, and nothing else changes any."),
            (
                "run_laws/Remembering",
                "`AreWritten` says what is read at the address afterwards, and that each other byte is as "
                "before.",
            ),
            (
                "run_laws/Families",
                "Read `IsChild` beside `child_of`. `EndsAsIs` says what a run leaves in its gate.",
            ),
            ("grant_sheet/Granting", "Six fields: rights, slots, bits, gates, user, root directory."),
            ("run_laws/Asking", "Read `want_at` beside `request_at`: it does not look into the cells."),
            (
                "run_laws/TagCalls",
                "[`session.toml`](../crates/run_cases/data/examples/session.toml) makes and deletes two.",
            ),
            (
                "run_laws/FileCalls",
                "Two events: a number is claimed, and the stream is opened. `IsAllowedOpening` says by which "
                "call.",
            ),
            ("run_laws/ChildCopies", "The copy is of the pages that the tag has at that event."),
            ("run_laws/MadeGates", "Read `IsGateOf` beside `new_gate` in `Calls`."),
            ("run_laws/GateCalls", "`KeepsGates` is what holds of every other moment."),
            (
                "run_laws/TakingPlace",
                "`TakesPlace` has a row for each call; it calls neither the step nor the events.",
            ),
            ("wedge_events/Histories", "Only a store, an opening and a close change bytes."),
            ("run_laws/Written", "`TurnWritesOwn` speaks of each turn."),
            ("run_laws/Readers", "`TurnLoadsOwn` speaks of each turn."),
            (
                "run_laws/CellHistories",
                "For directories, lives and gates the history is the cell's own rule.",
            ),
            ("run_laws/Occupancy", "Ten fields."),
            ("run_laws/MemoryRanges", "`extents` of the image is the private range and the data."),
            ("run_laws/FittingAsks", "Read it beside `SlotFits` in `Slots` and `GateFits` in `Gates`."),
            ("run_laws/Names", "`AreDistinct`."),
            ("run_laws/Fuel", "`TakesItsUnits` is one equation."),
            ("run_laws/LiveSthreads", "Who runs a gate has none of its own."),
            ("run_laws/Bounds", "Four fields, said of a sheet and of what was made under it."),
            ("run_laws/CopiesGranted", "The same of an actor's copies and of a gate's."),
            ("run_laws/KnownGates", "`one` follows from `makers`; it is there to be read."),
            ("run_laws/RecycledGates", "Five fields of `AreRunsAlone`; read `IsInside` first."),
            ("run_laws/GatesWithin", "`is_under`, `before`, and the two statements."),
            ("callgate/Lending", "Five fields."),
            (
                "run_laws/Laws",
                "Of this file the clause uses `IsLawful`, `IsWrittenByOwners` and `IsReadByHolders`.",
            ),
        ],
    ),
    (
        "The program",
        "From bytes to an image, from a run to a report.",
        [
            (
                "host_io/Exposed",
                "`grown_by` of nothing exposed is nothing exposed: see [real files](THEOREM.md#real-files).",
            ),
            ("wedge_cli/Outside", "`Takes` says both."),
            ("cli_inputs/Words", "`command_of` is twelve lines."),
            ("image_form/Forms", "Five short functions."),
            ("image_form/Encoding", "Compare with the fields in [FORMATS.md](FORMATS.md#the-image)."),
            ("image_form/Rules", "The same."),
            (
                "report_text/Reports",
                "Compare with [`split.report`](../crates/run_cases/data/examples/split.report).",
            ),
            ("run_laws/CompleteRuns", "`IsCompleteRun`, with `IsSoundState` above it and `IsJournaledRun` below."),
            ("wedge_cli/Ended", "Of this file the clause uses `IsRunDone`, ten lines."),
        ],
    ),
    (
        "A run on threads",
        "What it leaves: the logs of its actors, the histories of its cells, and one journal of both.",
        [
            (
                "journal_cell/Histories",
                "Read `IsHistory`, `entry_at` (the stamp is one above the greater of two clocks) and `IsKeptCell`.",
            ),
            ("journal_cell/GhostLists", "One function: the items of a ghost list, as it grew."),
            (
                "thread_laws/Executions",
                "See that `at_next_event` is the machine's own `rest` and `has_joined`, and that `IsNext` asks "
                "for the machine's own `Asks`.",
            ),
            (
                "thread_laws/Histories",
                "`IsReply` is the cell's own reply and condition, by `event_of` and `AskFits`.",
            ),
            ("thread_laws/Merging", "See that `AreExecutions` leaves no actor out, and adds none."),
            ("thread_laws/Forests", "`IsForestOf` goes over the creations one by one."),
            ("thread_laws/Sorting", "Two comparisons, and std's order on lists."),
            ("thread_laws/Replaying", "One line for each of the six kinds of cell; `all_histories` is those of both fields."),
            ("tag_laws/DeclaredTags", "The clause on the status 7 uses `IsDeclared`, two lines."),
            ("grant_cache/Caches", "A log has the counts of a cache; the clause uses nothing else of it."),
            ("grant_cache/Hits", "Five short functions."),
            ("thread_laws/LookUps", "`IsCounted` is what a log says of its counts."),
            ("thread_laws/Joining", "The theorem is `GatheredIsRun`, and `IsJournalOfRun` is what it promises."),
            ("run_audit/RunJournals", "The clause uses `entries`; `kept` is what of them is in memory."),
            (
                "audited_run/AuditedRuns",
                "The clause uses `IsOfThreads`; `IsDiffering` and `IsInSerialOrder` are for the status 7.",
            ),
        ],
    ),
]

# What the other clauses depend on besides, and what else contracts cite.
OTHERS = [
    (
        "`run --schedule` and `replay`",
        "`replay` is the function `replay_text` of the bytes of both files.",
        [
            ("report_text/Schedules", ""),
            ("world_turns/Replay", ""),
            ("cli_inputs/Replaying", ""),
        ],
    ),
    (
        "All commands: files, lines, statuses",
        "Compare with [COMMANDS.md](COMMANDS.md).",
        [
            ("cli_inputs/Loading", ""),
            ("refusal_lines/Lines", ""),
            ("cli_inputs/Refusals", ""),
            ("command_texts/Answers", ""),
            ("command_texts/Causes", ""),
            ("wedge_cli/Causes", ""),
            ("image_form/Reading", ""),
            ("image_form/Words", ""),
        ],
    ),
    (
        "`show`",
        "The text of each word.",
        [
            ("rv_isa/Text", ""),
            ("cli_inputs/Listing", ""),
        ],
    ),
    (
        "`build`",
        "`build` means by a partition what the kit's crate `toml` reads of it.",
        [
            ("rv_isa/Encoding", ""),
            ("rv_isa/Ranges", ""),
            ("rv_asm/Words", ""),
            ("rv_asm/Numbers", ""),
            ("rv_asm/Lexing", ""),
            ("rv_asm/Operands", ""),
            ("rv_asm/Statements", ""),
            ("rv_asm/Parsing", ""),
            ("rv_asm/Assembly", ""),
            ("part_toml/Keys", ""),
            ("part_toml/Values", ""),
            ("stable_sort/Sorting", ""),
            ("part_toml/Parts", ""),
            ("part_toml/Faults", ""),
            ("part_toml/Partition", ""),
        ],
    ),
    (
        "`link`",
        "`link_text` is a function of the bytes of both files.",
        [
            ("elf_in/Fields", ""),
            ("elf_in/Steps", ""),
            ("elf_in/Headers", ""),
            ("elf_in/Checks", ""),
            ("elf_in/Symbols", ""),
            ("elf_in/Loads", ""),
            ("elf_in/Procedures", ""),
            ("elf_in/Program", ""),
            ("elf_in/Reading", ""),
            ("elf_in/Laws", ""),
            ("elf_in/Words", ""),
            ("stable_sort/ByName", ""),
            ("part_toml/Joining", ""),
            ("cli_inputs/Linking", ""),
        ],
    ),
    (
        "`derive` and `analyze`",
        "Functions of the bytes of a trace.",
        [
            ("trace_form/Chains", ""),
            ("trace_form/Items", ""),
            ("trace_form/Line", ""),
            ("trace_form/Forms", ""),
            ("trace_form/Numbers", ""),
            ("trace_form/Words", ""),
            ("trace_form/Fault", ""),
            ("trace_form/Grammar", ""),
            ("trace_form/FirstFault", ""),
            ("trace_form/Records", ""),
            ("cb_analyze/Access", ""),
            ("cb_analyze/FirstSeen", ""),
            ("cb_analyze/Grants", ""),
            ("cb_analyze/Matching", ""),
            ("cb_analyze/Queries", ""),
            ("cb_analyze/Sheets", ""),
            ("cb_analyze/Texts", ""),
            ("cli_inputs/Traces", ""),
        ],
    ),
    (
        "`run --stats`",
        "What the counts of the caches are is `AreCountsOf` of `LookUps`, above.",
        [
            ("thread_laws/CacheLines", "`CachesAreCounted` is a law: the counts in the logs are those by the journal."),
            ("report_text/CacheTexts", "One line for each actor."),
        ],
    ),
    (
        "`gen`",
        "One image, and a line that is a function of its run. Compare with [FORMATS.md](FORMATS.md#the-workload).",
        [
            ("workload/Mnemonics", ""),
            ("workload/Workload", "The text of the partition is there, instruction by instruction."),
            ("report_text/Summaries", ""),
        ],
    ),
    (
        "The log of a run",
        "Kept beside the machine: no definition of an actor or of the world reads it.",
        [
            ("run_notes/Doers", "One record."),
            (
                "run_notes/Chains",
                "Compare with the calling convention of the RISC-V ABI: a call keeps its return address in ra.",
            ),
            ("run_notes/Items", ""),
            ("run_notes/Notes", "See that a note of an event depends on its reply."),
            ("run_log/Logs", "One record."),
            (
                "run_log/Logging",
                "`log_turn` follows a turn of the machine: the actor goes on, comes to rest, and its event takes place.",
            ),
            ("run_log/ChainLaws", "A law that is proved of every schedule."),
            ("run_log/NamedNotes", "Another."),
            ("run_log/NoteLaws", "`NotesAreWithin` says of each turn which notes it adds, and that the sheet permits them."),
            ("run_log/OpenCalls", "What calls and returns make of a chain, apart from the definition that it speaks of."),
            ("run_log/MakerLaws", "Who made what the notes name."),
            ("run_log/NoteTurns", "The recursion of `log_from`, once more."),
            ("run_log/TurnLaws", "A law that is proved of every schedule."),
            ("cb_log/Texts", "Compare with [FORMATS.md](FORMATS.md#the-trace)."),
            ("cb_log/Logs", "One line."),
            ("cb_log/Marks", "Turn, actor and pc of each record."),
            ("sheet_enforce/Violations", "A filter over the records by `permits_record`."),
            ("sheet_enforce/Texts", "Compare with [FORMATS.md](FORMATS.md#the-trace)."),
            ("sheet_enforce/Laws", "Two laws that are proved of every trace."),
            ("cli_inputs/Enforcing", "`enforce_text` in terms of the run's own records and the given trace's sheets."),
        ],
    ),
    (
        "Laws that the top call does not name",
        "Contracts of their own.",
        [
            ("run_laws/Isolation", ""),
            ("run_laws/RootBegins", ""),
            ("run_laws/Walks", ""),
            ("wedge_core/Serial", "`SerialOrderGoesOn`; the rest is vocabulary of the code's contracts."),
            ("grant_sheet/Missing", ""),
            ("grant_sheet/Editing", ""),
            ("grant_sheet/RootSheets", ""),
            ("recycled_gate/Laws", ""),
            ("tag_directory/Laws", ""),
            ("rv_asm/Laws", ""),
        ],
    ),
    (
        "Vocabulary of the code's contracts",
        "What types of the code stand for, and what holds inside a call. Nothing here adds to the promise.",
        [
            ("machine/Between", ""),
            ("run_laws/FamilyTrees", ""),
            ("world_turns/Turning", ""),
            ("world_turns/Indices", ""),
            ("run_notes/Procedures", ""),
            ("run_log/LoggedParts", ""),
            ("cb_log/Names", ""),
            ("grant_sheet/Excess", ""),
            ("grant_sheet/NumberMap", ""),
            ("wedge_base/NameParts", ""),
            ("grant_sheet/Paths", ""),
            ("rv_isa/Fields", ""),
            ("cow_pages/SharedPages", ""),
            ("cow_pages/RangeIndex", ""),
            ("cow_pages/Equality", ""),
            ("cow_pages/Below", ""),
            ("tag_directory/Openings", ""),
            ("tag_directory/Tables", ""),
            ("tag_segment/Objects", ""),
            ("tag_segment/Replies", ""),
            ("smalloc_heap/Heaps", ""),
            ("smalloc_heap/Gaps", ""),
            ("world_cells/GateIndices", ""),
            ("fd_table/Openings", ""),
            ("fd_table/Faults", ""),
            ("file_tree/Lookup", ""),
            ("host_io/Counts", ""),
            ("host_io/Memory", ""),
            ("cli_inputs/Headings", ""),
            ("image_form/Address", ""),
            ("image_form/Fitting", ""),
            ("image_form/View", ""),
            ("rv_asm/Views", ""),
            ("part_toml/Orders", ""),
            ("part_toml/Views", ""),
            ("elf_in/Orders", ""),
            ("elf_in/Views", ""),
            ("trace_form/TraceRecord", ""),
            ("cb_analyze/Entries", ""),
            ("cb_analyze/Fitting", ""),
            ("audited_run/Texts", "Where a run differs, as the line of the status 7 says it."),
            ("world_turns/Progress", "The status 7 uses `IsStampedByIndex`."),
        ],
    ),
    (
        "The threads",
        "What each of them keeps, and what is compared.",
        [
            ("thread_laws/Laws", "What holds of the last world."),
            (
                "thread_laws/ActorProgresses",
                "One line for each call of a thread; compare the stamps with [DECISIONS.md](DECISIONS.md#threads).",
            ),
            ("ruled_cell/Visits", "The history of a cell is a filter over a list."),
            ("ruled_cell/Passes", "Read `IsVisit` and `IsClosing`: what a call of `enter` and of `close` says."),
            ("ruled_cell/Order", "The rule that the proof keeps; no public contract cites it."),
            ("ruled_cell/Enter", "The parts of a turn; no public contract cites them."),
            ("thread_laws/Auditing", "Two folds over lists."),
            ("thread_laws/ActorWalks", "The walk is `IsWalk` of run_laws."),
            ("thread_laws/KeptEntries", "What a log keeps in memory is a filter over its entries."),
            ("gate_runner/Gathering", "What `run_image` returns: `AreWalked`, `IsOfRoot`, `AreLegalHistories`, `AreRuled`; and what its logs keep (`AreKept`)."),
            ("run_audit/Audits", "What `audit` returns."),
            (
                "run_audit/ComparedCells",
                "All cells are compared but the slots of declared tags; that these agree is the one premise.",
            ),
            ("run_audit/Differences", "`IsFirstDifference` speaks of all cell names, listed or not."),
            ("run_audit/CellOrder", "The order of cells in which the first difference is sought."),
            ("run_audit/HistoryEntries", ""),
            ("run_audit/ListDifferences", ""),
            ("run_audit/LogOrder", ""),
            ("run_audit/Orders", ""),
            ("run_audit/IndexedEntries", ""),
            ("run_audit/Merges", ""),
            ("run_audit/Rooms", ""),
            ("run_audit/StreamsLeft", ""),
            ("grant_cache/LatestEntries", ""),
            ("actor_step/Reached", "An actor that comes to an access is, to the machine, one that wants it."),
            ("sthread_life/Within", ""),
            ("actor_run/Runs", ""),
            ("run_cells/Names", ""),
            ("run_cells/Entries", ""),
            ("run_cells/RecycledGates", ""),
            ("run_cells/Prefixes", ""),
            ("run_cells/TagPasses", "Read `AreClosed`: what is known of the slots of declared tags at the end."),
            ("actor_task/Returning", "`AreReturned` of thread_laws, and what a creator needs besides."),
            ("actor_task/Tasks", "`KeepsTask` is `IsProgress` with the cells of the gates that are known."),
            ("actor_task/Steps", ""),
            ("actor_task/States", ""),
            ("actor_steps/Logged", "Where a step went, the progress is that after one entry more."),
            ("actor_ends/Joins", "A join logs just its entry, and a caller goes on with the end that it learned; of no other is "
             "anything learned."),
            ("actor_ends/Leaving", "`LeavesCell`: what the cell of a recycled gate has more is what its run logged."),
            ("gate_runner/Endings", ""),
            ("gate_runner/Joints", "`IsJointDone`: a start, the entry of a gate, a join, and the return from a gate, each done."),
        ],
    ),
]

HEAD = """\
# Definitions

The files of definitions in the order of reading, each with its length in lines (imports and comments included) and the
comment at its head; behind it, in italics, how to convince oneself. [`bench/definitions.py`](../bench/definitions.py)
writes this page; edit the list there. How to read a definition is in
[THEOREM.md](THEOREM.md#how-to-read-a-definition).
"""

RUN_HEAD = """\
## The clause `run`

It depends on {count} files with {lines} lines; the definitions in them that it uses are about half of these. Groups 2 to
5 say what the machine does, and are what [MACHINE.md](MACHINE.md) says in words. Group 6 says what holds of every run.
Whoever wants the sentence of the first page alone reads `Sheets`, `Rights`, `Worlds`, `Requests`, `Allowed`, `Moments`
and `Families` first.
"""

OTHERS_HEAD = """\
## The other clauses, and the rest

{count} more files, with {lines} lines. Compare those of the commands with [FORMATS.md](FORMATS.md) and with the texts
beside the [examples](../crates/run_cases/data/examples/README.md).
"""


def path_of(name):
    crate, file = name.split("/")
    return ROOT / "crates" / crate / "specs" / (file + ".antt")


def head_comment(lines):
    """The comment at the head of a file, as one text."""
    head = []
    for line in lines:
        if not line.startswith("--"):
            break
        head.append(line[2:].strip())
    return " ".join(head)


def wrapped(text, first, rest):
    return textwrap.fill(
        text, 118, initial_indent=first, subsequent_indent=rest, break_long_words=False, break_on_hyphens=False
    )


def item(name, hint):
    """The item of a file, and its length in lines."""
    lines = path_of(name).read_text(encoding="utf-8").splitlines()
    comment = head_comment(lines)
    if not comment:
        sys.exit(f"definitions: no comment at the head of {name}")
    text = f"[`{name}`](../crates/{name.replace('/', '/specs/')}.antt), {len(lines)} lines: {comment}"
    if hint:
        text += f" *{hint}*"
    return wrapped(text, "- ", "  "), len(lines)


def groups_of(groups, number):
    """The texts of groups, and their files and lines."""
    texts = []
    files = 0
    total = 0
    for title, intro, entries in groups:
        items = [item(name, hint) for name, hint in entries]
        lines = sum(length for _, length in items)
        files += len(items)
        total += lines
        mark = f"{number}. " if number else ""
        if number:
            number += 1
        count = "1 file" if len(items) == 1 else f"{len(items)} files"
        texts.append(f"### {mark}{title}\n")
        texts.append(wrapped(f"{intro} {count}, {lines:,} lines.", "", "") + "\n")
        texts.append("\n".join(text for text, _ in items) + "\n")
    return texts, files, total


def check_list():
    """Fails where the list is not that of the files which are there."""
    listed = [name for _, _, entries in RUN + OTHERS for name, _ in entries]
    there = {
        f"{path.parts[-3]}/{path.stem}" for path in ROOT.glob("crates/*/specs/**/*.antt") if path.stem != "Lib"
    }
    wrong = [f"listed twice: {name}" for name in sorted(set(listed)) if listed.count(name) > 1]
    wrong += [f"missing: {name}" for name in sorted(set(listed) - there)]
    wrong += [f"not listed: {name}" for name in sorted(there - set(listed))]
    if wrong:
        sys.exit("definitions: " + "\ndefinitions: ".join(wrong))


def page():
    run, files, lines = groups_of(RUN, 1)
    others, more, more_lines = groups_of(OTHERS, 0)
    parts = [HEAD, RUN_HEAD.format(count=files, lines=f"{lines:,}"), *run]
    parts += [OTHERS_HEAD.format(count=more, lines=f"{more_lines:,}"), *others]
    return "\n".join(parts)


def main():
    check_list()
    text = page()
    if "--check" in sys.argv[1:]:
        if not PAGE.exists() or PAGE.read_text(encoding="utf-8") != text:
            sys.exit("definitions: docs/DEFINITIONS.md is out of date; run bench/definitions.py")
    else:
        PAGE.write_text(text, encoding="utf-8")


main()
