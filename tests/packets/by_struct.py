"""Files of packets, built by `struct` alone after RFC 3550 and RFC 3551, with what is to come of them."""
import struct

MAGIC = b'omxrtp1\n'


def packet(payload_type, sequence, timestamp, source, payload, marker=0, sources=(), extension=None, padding=0):
    """A packet of version 2; an extension is words of 32 bits behind 16 bits of its own."""
    first = 2 << 6 | (padding > 0) << 5 | (extension is not None) << 4 | len(sources)
    head = struct.pack('>BBHII', first, marker << 7 | payload_type, sequence, timestamp, source)
    head += b''.join(struct.pack('>I', one) for one in sources)
    if extension is not None:
        head += struct.pack('>HH', 0xbede, len(extension)) + struct.pack(f'>{len(extension)}I', *extension)
    return head + payload + (bytes(padding - 1) + bytes([padding]) if padding else b'')


def listed(packets):
    return MAGIC + b''.join(struct.pack('>H', len(one)) + one for one in packets)


def wav(tag, codes):
    """A WAV file of G.711, of one channel and 8,000 frames a second, with the chunk `fact`."""
    form = struct.pack('<HHIIHHH', tag, 1, 8000, 8000, 1, 8, 0)
    body = b'WAVE' + b'fmt ' + struct.pack('<I', len(form)) + form + b'fact' + struct.pack('<II', 4, len(codes))
    body += b'data' + struct.pack('<I', len(codes)) + codes + bytes(len(codes) % 2)
    return b'RIFF' + struct.pack('<I', len(body)) + body


def packed_ramp():
    """1,000 codes of mu-law: six packets of 160 and one of 40."""
    codes = bytes(k % 251 for k in range(1000))
    pieces = [codes[at:at + 160] for at in range(0, len(codes), 160)]
    packets = [packet(0, k, 160 * k, 1, piece) for k, piece in enumerate(pieces)]
    return 'pack', wav(7, codes), 'packed 7 packets 1000 frames\nok\nstatus 0\n', listed(packets)


def stream_of_a_tool():
    """A-law over the end of the sequence numbers and of the timestamps, with what a header may have. The fourth packet
    comes before the third, the second comes twice, and 3 frames are missing before the last."""
    at, source = 2**32 - 5, 0xdeadbeef
    packets = [
        packet(8, 65534, at, source, b'\x11' * 4, marker=1),
        packet(8, 65535, at + 4, source, b'\x22' * 3, sources=(7, 8)),
        packet(8, 0, at + 7 - 2**32, source, b'\x33' * 2, extension=[1, 2]),
        packet(8, 1, at + 9 - 2**32, source, b'\x44' * 5, padding=3),
        packet(8, 2, at + 17 - 2**32, source, b'\x55' * 6, sources=(9,), extension=[], padding=1),
    ]
    sent = [packets[k] for k in (0, 1, 3, 2, 1, 4)]
    codes = b'\x11' * 4 + b'\x22' * 3 + b'\x33' * 2 + b'\x44' * 5 + b'\xd5' * 3 + b'\x55' * 6
    told = 'unpacked 23 frames 82 bytes\npackets 6 accepted 5 late 0 repeated 1 skipped 0\nok\nstatus 0\n'
    return 'unpack', listed(sent), told, wav(6, codes)


def malformed():
    """One packet that is well formed, with 4,096 codes, behind one of each kind that isn't."""
    codes = bytes(k % 256 for k in range(4096))
    good = packet(0, 7, 0, 1, codes)
    sent = [
        b'',
        packet(0, 1, 0, 1, b'')[:11],
        bytes([good[0] & 0x3f | 0x40]) + good[1:],
        packet(9, 2, 0, 1, b'\x11'),
        packet(0, 3, 0, 1, b''),
        packet(0, 4, 0, 1, codes + b'\x11'),
        packet(0, 5, 0, 1, b'', sources=(1, 2))[:16],
        packet(0, 6, 0, 1, b'', extension=[1, 2])[:20],
        bytes([good[0] | 0x20]) + packet(0, 8, 0, 1, b'\x11\x00')[1:],
        bytes([good[0] | 0x20]) + packet(0, 9, 0, 1, b'\x11\x03')[1:],
        good,
        packet(0, 8, 4096, 2, b'\x11'),
        packet(8, 9, 4096, 1, b'\x11'),
    ]
    told = 'unpacked 4096 frames 4154 bytes\npackets 13 accepted 1 late 0 repeated 0 skipped 12\nok\nstatus 0\n'
    return 'unpack', listed(sent), told, wav(7, codes)


def cases():
    return [('1,000 codes', *packed_ramp()), ('packets of a tool', *stream_of_a_tool()), ('malformed packets', *malformed())]
