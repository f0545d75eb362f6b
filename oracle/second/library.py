"""The library under judgement, loaded as a shared object made from its static archive."""
import ctypes, os, subprocess, tempfile

UNTOUCHED = 0xA5A5A5A5


def shared_object(archive, folder):
    """The archive as a shared object in the folder."""
    path = os.path.join(folder, 'library.so')
    subprocess.run(['gcc', '-shared', '-o', path, '-Wl,--whole-archive', archive, '-Wl,--no-whole-archive'], check=True)
    return path


class Library:
    """Next end and fill, with Python's own values. A refusal is the tuple ('refused', number, place)."""

    def __init__(self, archive):
        with tempfile.TemporaryDirectory() as folder:
            loaded = ctypes.CDLL(shared_object(archive, folder))
        size, place, byte, yes = ctypes.c_size_t, ctypes.POINTER(ctypes.c_size_t), ctypes.c_uint8, ctypes.c_bool
        common = [ctypes.c_char_p, size, yes, byte, yes, size]
        self._next_end, self._fill = loaded.njuxaleet_next_end, loaded.njuxaleet_fill
        self._next_end.argtypes = [*common, place]
        self._fill.argtypes = [*common, ctypes.POINTER(ctypes.c_uint32), size, place, place]
        self._next_end.restype = self._fill.restype = ctypes.c_uint32

    def next_end(self, text, options, start):
        at = ctypes.c_size_t()
        number = self._next_end(text, len(text), *options, start, ctypes.byref(at))
        return ('refused', number, at.value) if number else at.value

    def fill(self, text, options, start, room):
        """The ends written and the next start. An entry past the count that was written to is a difference in itself."""
        ends = (ctypes.c_uint32 * room)()
        ctypes.memset(ends, UNTOUCHED & 0xFF, 4 * room)
        count, at = ctypes.c_size_t(), ctypes.c_size_t()
        number = self._fill(text, len(text), *options, start, ends, room, ctypes.byref(count), ctypes.byref(at))
        rest = ends[count.value:]
        if any(entry != UNTOUCHED for entry in rest):
            return 'written past the count', list(ends)
        if number:
            return ('refused', number, at.value) if count.value == 0 else 'a refusal with a count'
        return ends[:count.value], at.value

    def walk(self, text, options, room):
        """All ends, by fills of the room given."""
        ends, start = [], 0
        while True:
            answer = self.fill(text, options, start, room)
            if not isinstance(answer[0], list):
                return answer
            ends += answer[0]
            if not answer[0] or answer[1] == len(text):
                return ends if answer[1] == len(text) else ('stopped', ends, answer[1])
            start = answer[1]
