"""Damaged forms of what a play left, each with what a check of its log answers.

Where the damage shows in the lines' texts, at the end, or in a sink's file, the answer is worked out from the rules. Where lines were moved
and numbered anew it would want the whole machine: there the lines before the damaged one are those of a run, so a no is at that line or
behind it, and a line that was left out or stands twice is missed or met in the end."""
import random
import re
import struct

BAD_LINE, OTHER_ACT, NOT_OUT = 'not canonical', 'not of a play', 'not out'
OTHER_REPLY, OTHER_FILE, NOT_ENDED = 'other reply', 'other file', 'not ended'


def yes(acts):
    return lambda got: got == f'yes {acts} acts\nstatus 0\n'


def no(line, why):
    return lambda got: got == f'no: log line {line}: {why}\nstatus 12\n'


def no_from(line):
    """A no at the line or behind it."""
    def is_right(got):
        told = re.fullmatch(r'no: log line (\d+): [a-z ]+\nstatus 12\n', got)
        return told is not None and int(told[1]) >= line
    return is_right


def yes_or_no_from(acts, line):
    return lambda got: yes(acts)(got) or no_from(line)(got)


def text_of(lines):
    return ''.join(f'{it}\n' for it in lines).encode()


def numbered(acts):
    """The text of a log of these passes, acts and replies."""
    return text_of([*(f'{number + 1} {act}' for number, act in enumerate(acts)), 'end'])


def texts(lines, at):
    """Forms that each show in the text of a line, or in that of the end."""
    last, number, (_, own_pass, act) = len(lines), at + 1, lines[at].split(' ', 2)
    asked, reply = act.split(' = ')
    before, behind = lines[:at], lines[at + 1:]

    def with_line(line):
        return text_of([*before, line, *behind, 'end'])

    yield 'a line twice', text_of([*before, lines[at], lines[at], *behind, 'end']), no(number + 1, BAD_LINE)
    yield 'a line left out', text_of([*before, *behind, 'end']), no(number, BAD_LINE if behind else NOT_ENDED)
    yield 'two lines swapped', text_of([*before, *behind[:1], lines[at], *behind[1:], 'end']), no(number, BAD_LINE) if behind else yes(last)
    yield 'another number', with_line(f'{number + 1} {own_pass} {act}'), no(number, BAD_LINE)
    yield 'a number with a zero before it', with_line(f'0{lines[at]}'), no(number, BAD_LINE)
    yield 'another pass', with_line(f'{number} {(int(own_pass) + 1) % 9} {act}'), yes(last)
    yield 'pass 9', with_line(f'{number} 9 {act}'), no(number, BAD_LINE)
    yield 'another reply', with_line(f'{number} {own_pass} {asked} = {"ok" if reply == "did" else "did"}'), no(number, OTHER_REPLY)
    yield 'the reply of nothing done', with_line(f'{number} {own_pass} {asked} = none'), no(number, BAD_LINE)
    yield 'a blank behind a line', with_line(f'{lines[at]} '), no(number, BAD_LINE)
    yield 'a carriage return', with_line(f'{lines[at]}\r'), no(number, BAD_LINE)
    yield 'a long line', with_line(f'{lines[at]}{"0" * 512}'), no(number, BAD_LINE)
    yield 'a flush', with_line(f'{number} {own_pass} send {asked.split()[1].split(".")[0]} flush 0 = ok'), no(number, OTHER_ACT)
    yield 'text behind the end', text_of([*lines, 'end', lines[at]]), no(last + 1, BAD_LINE)
    yield 'an empty line behind the end', text_of([*lines, 'end', '']), no(last + 1, BAD_LINE)
    yield 'an end without a line feed', text_of([*lines, 'end'])[:-1], yes(last)
    yield 'no end', text_of(lines), no(last + 1, NOT_ENDED)
    yield 'a cut log', text_of(before), no(number, NOT_ENDED)
    yield 'an early end', text_of([*before, 'end']), no(number, NOT_ENDED)


def unknown(lines, at):
    """The component of a line under a name that the script hasn't."""
    number, own_pass, verb, name, rest = (lines[at] + ' ').split(' ', 4)
    port = name.partition('.')[1:]
    why = NOT_OUT if verb in ('finish', 'end') else OTHER_ACT if verb in ('send', 'drop', 'set', 'tunnel') else OTHER_REPLY
    other = f'{number} {own_pass} {verb} no_such{"".join(port)} {rest[:-1]}'
    yield 'an unknown name', text_of([*lines[:at], other, *lines[at + 1:], 'end']), no(at + 1, why)


def moved(lines, at):
    """Forms whose lines are numbered anew."""
    acts = [it.partition(' ')[2] for it in lines]
    number, last = at + 1, len(acts)
    verb = acts[at].split(' ')[1]
    left_out = numbered(acts[:at] + acts[at + 1:])
    twice = numbered(acts[:at + 1] + acts[at:])
    # what came back isn't out again, and what was asked for once isn't asked for again
    again = NOT_OUT if verb in ('finish', 'end') else OTHER_ACT if verb in ('send', 'drop', 'set', 'tunnel') else None
    yield 'an act left out', left_out, no_from(number)
    yield 'an act twice', twice, no(number + 1, again) if again else no_from(number + 1)
    yield 'two acts swapped', numbered(acts[:at] + acts[at + 1:at + 2] + [acts[at]] + acts[at + 2:]), yes_or_no_from(last, number)


def claimed(lines):
    """The first claim of a log left out: its work isn't out where it is finished."""
    acts = [it.partition(' ')[2] for it in lines]
    at = next(place for place, act in enumerate(acts) if act.split(' ')[1] == 'claim')
    name = acts[at].split(' ')[2]
    back = next(place for place in range(at, len(acts)) if acts[place].split(' ')[1:3] == ['finish', name])
    yield 'the first claim left out', numbered(acts[:at] + acts[at + 1:]), no_between(at + 1, back)


def no_between(first, last):
    def is_right(got):
        told = re.fullmatch(r'no: log line (\d+): [a-z ]+\nstatus 12\n', got)
        return told is not None and first <= int(told[1]) <= last
    return is_right


def line_that_writes(lines, component, content, place):
    """The number of the line at which a sink writes the byte at the place: its head with its first step, and zeros behind odd samples with
    the step that writes the last frame."""
    head = 44 if struct.unpack_from('<H', content, 20)[0] == 1 else 58
    frame = struct.unpack_from('<H', content, 32)[0]
    steps = [(number + 1, int(line.rpartition(' ')[2])) for number, line in enumerate(lines)
             if line.split(' ')[2:4] == ['finish', component]]
    if place < head:
        return steps[0][0]
    written, writer = head, None
    for number, frames in steps:
        if frames > 0 and written <= place:
            writer = number
        written += frames * frame
    return writer


def sinks(script):
    words = [it.split() for it in script.splitlines()]
    return [(it[1], it[2]) for it in words if len(it) == 3 and it[0] == 'sink']


def written(lines, left, script, chance):
    """Forms of the file of a sink."""
    component, name = chance.choice(sinks(script))
    content = left[name]
    at = chance.randrange(len(content))
    changed = content[:at] + bytes([content[at] ^ (1 << chance.randrange(8))]) + content[at + 1:]
    cut = line_that_writes(lines, component, content, len(content) - 1)
    yield 'a byte of a sink changed', {name: changed}, no(line_that_writes(lines, component, content, at), OTHER_FILE)
    yield 'a sink with a byte more', {name: content + b'\0'}, no(len(lines) + 1, NOT_ENDED)
    yield 'a sink with a byte less', {name: content[:-1]}, no(cut, OTHER_FILE)
    yield 'an empty sink', {name: b''}, no(line_that_writes(lines, component, content, 0), OTHER_FILE)


def forms(left, script, log, seed):
    """What was done, the files that are other than the play left them, and whether an answer is right."""
    lines = left[log].decode().splitlines()[:-1]
    chance = random.Random(seed)
    yield 'as it is', {}, yes(len(lines))
    at = chance.randrange(len(lines))
    for what, text, is_right in [*texts(lines, at), *unknown(lines, at), *moved(lines, at), *claimed(lines)]:
        yield f'{what} at line {at + 1}', {log: text}, is_right
    yield from written(lines, left, left[script].decode(), chance)
