#!/usr/bin/env python3
"""The listing of a recording once more, written from the rules alone and sharing nothing with the library.

Reads the sync word and the recording from standard input, high byte first, and writes the lines of FORMAT, "Listing program"."""
import binascii
import sys


def legal_size(header):
    """The size of a legal header word, else None."""
    kind, camera, size = header >> 15, header >> 13 & 3, header & 0x1FFF
    if not 1 <= size <= 8190:
        return None
    if kind == 0 and (size % 264 == 0 or size % 264 >= 9):
        return size
    if kind == 1 and camera == 0 and size % 32 == 0:
        return size
    return None


class Chunk:
    def __init__(self, at, header):
        self.at, self.kind, self.camera, self.size = at, header >> 15, header >> 13 & 3, header & 0x1FFF
        self.end = at + 2 + self.size


class Recording:
    def __init__(self, sync, words):
        self.sync, self.words = sync, words
        self.chunks, self.skipped = [], 0
        at = 0
        while at < len(words):
            chunk = self.confirmed(at)
            if chunk:
                self.chunks.append(chunk)
                at = chunk.end
            else:
                self.skipped += 1
                at += 1

    def legal_at(self, at):
        words = self.words
        return at + 1 < len(words) and words[at] == self.sync and legal_size(words[at + 1]) is not None

    def confirmed(self, at):
        if not self.legal_at(at):
            return None
        chunk = Chunk(at, self.words[at + 1])
        return chunk if chunk.end == len(self.words) or self.legal_at(chunk.end) else None

    def sound_type(self, at):
        """The type of the health packet at a place, None where it is not sound."""
        packet = self.words[at:at + 32]
        covered = packet[:1] + packet[2:]
        crc = binascii.crc_hqx(b''.join(w.to_bytes(2, 'big') for w in covered), 0xFFFF)
        permitted = 1 <= packet[0] <= 15 or packet[0] % 16 == 0
        return packet[0] if crc == packet[1] and permitted else None

    def pieces(self):
        """The frame and stray lines, in order."""
        lines, i, chunks = [], 0, self.chunks
        while i < len(chunks):
            first = chunks[i]
            i += 1
            if first.kind == 1:
                continue
            if first.camera == 0:
                lines.append('stray %d' % first.at)
                continue
            frame = [first]
            while (i < len(chunks) and chunks[i].kind == 0 and chunks[i].camera == 0 and chunks[i].at == frame[-1].end
                   and all(c.size % 264 == 0 for c in frame)):
                frame.append(chunks[i])
                i += 1
            complete = (i < len(chunks) and chunks[i].at == frame[-1].end and chunks[i].kind == 1
                        and self.sound_type(chunks[i].at + 2) == 3 + first.camera)
            lines.append('frame %d camera %d chunks %d %s' % (first.at, first.camera, len(frame), 'complete' if complete else 'cut'))
        return lines

    def runs(self, kind):
        count, before = 0, None
        for chunk in self.chunks:
            if chunk.kind == kind and not (before and before.kind == kind and before.end == chunk.at):
                count += 1
            before = chunk
        return count

    def lines(self):
        lines = ['recording %d skipped %d' % (len(self.words), self.skipped)]
        for c in self.chunks:
            name = 'health' if c.kind == 1 else 'more' if c.camera == 0 else 'image'
            mark = ' end' if c.end == len(self.words) else ''
            lines.append('%d %s %d %d%s' % (c.at, name, c.camera, c.size, mark))
        return lines + self.pieces() + ['runs %d %d' % (self.runs(0), self.runs(1))]


def listing(data):
    if len(data) % 2 == 1 or len(data) == 0 or len(data) > 65538:
        return ['refused 1']
    words = [data[i] << 8 | data[i + 1] for i in range(0, len(data), 2)]
    return Recording(words[0], words[1:]).lines()


if __name__ == '__main__':
    sys.stdout.write(''.join(line + '\n' for line in listing(sys.stdin.buffer.read())))
