"""What the page says of a step in words: the access, what it changed, keys, threads and records, as pieces of
HTML."""
from __future__ import annotations

from html import escape
from typing import Any

from place_tables import Ellen, Tree
from viewer.accesses import ARROW, access_of, child_text, key_text, node_text, place_text, record_text, record_words
from viewer.accesses import update_text
from viewer.steps import FAULTS, KeyState, Step, Walk, operations_at, reached


def thread_chip(thread: int) -> str:
    return f'<span class="who thread{thread}">T{thread}</span>'


def plural(count: int, noun: str) -> str:
    return f"{count} {noun}{'' if count == 1 else 's'}"


def named_nodes(memory: Any, nodes: list[int]) -> str:
    return ", ".join(f"{node_text(node)} [{key_text(memory[0][node][0])}]" for node in nodes)


def goes_words(step: Step) -> str:
    if step.goes is None:
        return "the table has no such access: the thread is astray"
    if isinstance(step.goes, bool):
        return f"replies {str(step.goes).lower()}"
    return f"goes to <code>{escape(place_text(step.goes))}</code>"


def act(walked: Walk, count: int) -> list[str]:
    """The access of a step, and what came of it."""
    if not count:
        initial = ", ".join(map(str, walked.program.initial)) or "no key"
        noun = "tree" if isinstance(walked.machine, Tree) else "list"
        return [f"<h3>Start</h3><p>The {noun} holds {initial}. No operation has begun.</p>"]
    step = walked.steps[count - 1]
    operation = f"{step.operation.name} {step.operation.word} {step.operation.key}"
    begins = " begins, and" if step.begins else ""
    sentence = "" if step.access is None else step.access.sentence
    return [
        f"<h3>{thread_chip(step.thread)} {escape(operation)}</h3>",
        f"<p>Thread {step.thread}{begins} stands at <code>{escape(place_text(step.place))}</code>. ",
        f"It <b>{escape(sentence)}</b>; then it " if sentence else "There ",
        f"{goes_words(step)}.</p>",
    ]


def line_of(walked: Walk, count: int) -> str:
    """A step in one line of text."""
    step = walked.steps[count - 1]
    sentence = "goes astray" if step.access is None else step.access.sentence
    reply = f", replies {str(step.goes).lower()}" if isinstance(step.goes, bool) else ""
    place = place_text(step.place).split("(")[0]
    return f"{step.operation.text}, {place}: {sentence}{reply}"


def word_changes(walked: Walk, count: int) -> list[str]:
    """The words of a tree that a step changed."""
    before, after = walked.states[count - 1].memory, walked.states[count].memory
    lines = []
    for node, (old, new) in enumerate(zip(before[0], after[0])):
        names = ("update word", "left child", "right child") if len(old) == 4 else ("left child", "right child")
        for name, first, second in zip(names, old[1:], new[1:]):
            if first != second:
                text = update_text if name == "update word" else child_text
                lines.append(f"{node_text(node)}’s {name}: {text(first)} {ARROW} {text(second)}")
    return lines


def changes(walked: Walk, keys: list[list[KeyState]], count: int) -> str:
    """What a step changed."""
    if not count:
        return ""
    before, after, step = walked.states[count - 1].memory, walked.states[count].memory, walked.steps[count - 1]
    lines: list[str] = []
    if isinstance(walked.machine, Tree):
        lines += word_changes(walked, count)
        was, now = reached(walked.machine, before), reached(walked.machine, after)
        new = list(range(len(before[0]), len(after[0])))
        gone = [node for node in was if node not in now]
        came = [node for node in now if node not in was and node not in new]
        lines += [f"new: {named_nodes(after, new)}"] if new else []
        lines += [f"record {record_text(len(before[1]))} is made"] if len(after[1]) > len(before[1]) else []
        lines += [f"the root no longer reaches {named_nodes(after, gone)}"] if gone else []
        lines += [f"the root now reaches {named_nodes(after, came)} too"] if came else []
        if walked.machine.is_ordered(before) and not walked.machine.is_ordered(after):
            lines.append("search order breaks")
    for old, fresh in zip(keys[count - 1], keys[count]):
        if fresh.fault and not old.fault:
            lines.append(f"key {fresh.key} {FAULTS[fresh.fault]}")
        elif old.is_found != fresh.is_found:
            lines.append(f"a reader now {'finds' if fresh.is_found else 'does not find'} {fresh.key}")
    lines += [f"{step.operation.name} has ended"] if isinstance(step.goes, bool) else []
    lines = lines or ["nothing in memory"]
    return "<h4>Changed</h4><ul>" + "".join(f"<li>{escape(text)}</li>" for text in lines) + "</ul>"


def key_item(each: KeyState) -> str:
    state = "found" if each.is_found else "not found"
    if each.fault == "lost":
        kind, text = "bad", "✗ not found, but it has to be"
    elif each.fault == "extra":
        kind, text = "bad", "✗ found, but it should be gone"
    else:
        kind, text = ("yes", "✓ found") if each.is_found else ("no", state)
    found = "true" if each.is_found else "false"
    return f'<li class="{kind}" data-key="{each.key}" data-found="{found}"><b>{each.key}</b> {text}</li>'


def thread_pieces(walked: Walk, thread: int, count: int) -> list[str]:
    """A thread's operations with their replies, and what it does next."""
    state = walked.states[count]
    begun = {each.name: each for each in operations_at(walked, count)}
    lines = []
    for index, operation in enumerate(walked.program.threads[thread]):
        name = f"{thread}.{index}"
        each = begun.get(name)
        if each is not None:
            reply = "pending" if each.reply is None else str(each.reply).lower()
            status = f'<b data-op="{name}">{reply}</b>, {each.span}'
        elif operation.after:
            status = f"not begun, waits for {plural(operation.after[1], 'operation')} of T{operation.after[0]}"
        else:
            status = "not begun"
        lines.append(f"<li>{name} {operation.word} {operation.key}: {status}</li>")
    place, coming = state.places[thread], ""
    if state.astray == thread:
        coming = "<p>astray</p>"
    elif place is not None:
        key = walked.program.threads[thread][state.finished(thread)].key
        access = access_of(walked.machine, key, place, state.memory)
        intent = f": {access.intent}" if access is not None else ""
        coming = f"<p>next <code>{escape(place_text(place))}</code>{escape(intent)}</p>"
    return [f"<li>{thread_chip(thread)}<div><ul>{''.join(lines)}</ul>", coming, "</div></li>"]


def record_items(walked: Walk, count: int) -> list[str]:
    """The records of `ellen`, those that stand in a word marked as in use."""
    if not isinstance(walked.machine, Ellen):
        return []
    nodes, records = walked.states[count].memory
    items = []
    for record, fields in enumerate(records):
        words = [
            (node, cells[1][0]) for node, cells in enumerate(nodes) if len(cells) == 4 and cells[1][1] == record
        ]
        used = [f"{state} in {node_text(node)}" for node, state in words if state != "CLEAN"]
        uses = f": <b>{', '.join(used)}</b>" if used else ""
        items.append(
            f'<li class="{"used" if used else "unused"}">{record_text(record)} = '
            f"{escape(record_words(record, fields))}{uses}</li>"
        )
    return items
