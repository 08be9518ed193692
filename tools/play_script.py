"""Reads the lines of a play's script, for the tools that draw pictures. The program alone says what a script's faults are."""
import os
import struct

# a component's words behind its name: what it is called in a picture, and the numbers of its inputs and outputs
KINDS = {
    'source': ('source', 0, 1),
    'late': ('late source', 0, 1),
    'decoder': ('G.711 decoder', 1, 1),
    'alaw': ('A-law encoder', 1, 1),
    'mulaw': ('mu-law encoder', 1, 1),
    'gain': ('gain', 1, 1),
    'mixer': ('mixer', None, 1),
    'splitter': ('splitter', 1, None),
    'sink': ('sink', 1, 0),
}


class Fault(Exception):
    """A line that can't be drawn."""


class Component:
    def __init__(self, kind, name, rest):
        self.kind, self.name = kind, name
        self.file = rest[0] if kind in ('source', 'late', 'sink') else None
        self.factors = [int(it) for it in (rest[:1] if kind == 'gain' else rest[1:] if kind == 'mixer' else [])]
        _, inputs, outputs = KINDS[kind]
        self.inputs = int(rest[0]) if inputs is None else inputs
        self.outputs = int(rest[0]) if outputs is None else outputs


class Link:
    def __init__(self, giver, taker, count, size):
        (self.giver, self.output), (self.taker, self.input) = giver, taker
        self.count, self.size = int(count), int(size)


def port_of(word):
    name, dot, number = word.rpartition('.')
    if not dot:
        raise ValueError(word)
    return name, int(number)


class Play:
    """The components and links of a script, in its order."""

    def __init__(self, path):
        self.folder = os.path.dirname(path)
        self.components, self.links = {}, []
        is_first = True
        for number, line in enumerate(open(path, encoding='utf-8'), 1):
            words = line.split()
            if not words or words[0].startswith('#'):
                continue
            if is_first and words != ['omx', '1', 'play']:
                raise Fault(f'line {number}: a play begins with omx 1 play')
            try:
                if not is_first:
                    self.read(words)
            except (ValueError, IndexError, KeyError, TypeError):
                raise Fault(f'line {number}: {" ".join(words)}') from None
            is_first = False

    def read(self, words):
        if words[0] == 'link':
            link = Link(port_of(words[1]), port_of(words[2]), *words[3:])
            self.components[link.giver], self.components[link.taker]  # both are declared above
            self.links.append(link)
        elif words[0] != 'units':
            self.components[words[1]] = Component(words[0], words[1], words[2:])

    def formats(self):
        """The format of each link, as text: that of the sources' files, as far as they can be read."""
        into, known = {}, {}
        for link in self.links:
            into.setdefault(link.taker, []).append(link)

        def format_from(name, seen=()):
            if name in known or name in seen:
                return known.get(name)
            component = self.components[name]
            if component.file is not None:
                known[name] = wav_format(component.file, self.folder)
            else:
                given = [it for it in (format_from(link.giver, (*seen, name)) for link in into.get(name, [])) if it]
                law = {'alaw': 'A-law', 'mulaw': 'mu-law', 'splitter': given[0][0] if given else None}.get(component.kind, 'PCM')
                known[name] = (law, *given[0][1:]) if given else None
            return known[name]

        return [format_from(link.giver) for link in self.links]


def wav_format(name, folder):
    """Kind, rate and channels of a WAV file, which lies in the caller's folder or beside the script; or nothing."""
    for path in (name, os.path.join(folder, name)):
        try:
            head = open(path, 'rb').read(65536)
        except OSError:
            continue
        at = 12
        while head[:4] == b'RIFF' and at + 24 <= len(head):
            chunk, length = struct.unpack('<4sI', head[at:at + 8])
            if chunk == b'fmt ':
                tag, channels, rate = struct.unpack('<HHI', head[at + 8:at + 16])
                return {1: 'PCM', 6: 'A-law', 7: 'mu-law'}.get(tag, f'tag {tag}'), rate, channels
            at += 8 + length + length % 2
    return None
