#!/usr/bin/env python3
"""Says of a script whether it always ends, and which files it names: python3 example.py LIBSEDCK.SO SCRIPT

The shared library is made of the static one: cc -shared -o libsedck.so -Wl,--whole-archive libsedck.a -Wl,--no-whole-archive
"""
import ctypes
import sys

ACCEPTED, REJECTED, REFUSED, MEMORY, ROOM = 0, 1, 2, 4, 5


class Answer(ctypes.Structure):
    _fields_ = [("per_byte", ctypes.c_uint64), ("per_line", ctypes.c_uint64), ("fixed", ctypes.c_uint64), ("reads", ctypes.c_size_t),
                ("writes", ctypes.c_size_t), ("place", ctypes.c_size_t), ("fault", ctypes.c_uint32), ("text", ctypes.c_uint32),
                ("bounded", ctypes.c_bool)]


class Library:
    """The functions of the library. None of them gets a null pointer: a buffer has a byte more than it is said to have."""
    def __init__(self, path):
        self.library = ctypes.CDLL(path)
        size, pointer = ctypes.c_size_t, ctypes.c_char_p
        self.library.sedck_check.argtypes = [pointer, size, pointer, size, ctypes.POINTER(Answer)]
        self.library.sedck_rank.argtypes = [pointer, size, pointer, size, ctypes.POINTER(size)]
        self.library.sedck_judge.argtypes = [pointer, size, ctypes.POINTER(Answer), pointer, size, ctypes.POINTER(size)]
        for function in (self.library.sedck_check, self.library.sedck_rank, self.library.sedck_judge):
            function.restype = ctypes.c_uint32

    def check(self, script, certificate):
        """The status and the answer."""
        answer = Answer()
        return self.library.sedck_check(script, len(script), certificate, len(certificate), answer), answer

    def rank(self, script):
        """The status, and the text of the certificate or of the loop."""
        needed = ctypes.c_size_t()
        status = self.library.sedck_rank(script, len(script), ctypes.create_string_buffer(1), 0, needed)
        room = ctypes.create_string_buffer(needed.value + 1)
        if status in (ACCEPTED, REJECTED):
            status = self.library.sedck_rank(script, len(script), room, needed.value, needed)
        return status, room.raw[:needed.value]

    def judge(self, script):
        """The status, the answer, and the lists of the files."""
        answer, needed = Answer(), ctypes.c_size_t()
        status = self.library.sedck_judge(script, len(script), answer, ctypes.create_string_buffer(1), 0, needed)
        room = ctypes.create_string_buffer(needed.value + 1)
        if status == ACCEPTED:
            status = self.library.sedck_judge(script, len(script), answer, room, needed.value, needed)
        return status, answer, room.raw[:needed.value]


def main():
    with open(sys.argv[2], "rb") as file:
        script = file.read()
    library = Library(sys.argv[1])
    status, answer, files = library.judge(script)
    if status == ACCEPTED:
        print("accepted")
        if answer.bounded:
            print("bound %d %d %d" % (answer.per_byte, answer.per_line, answer.fixed))
        print(files.decode(errors="surrogateescape"), end="")
    elif status == REJECTED:
        print("a loop may never end")
    elif status == REFUSED:
        print("fault %d at %d" % (answer.fault, answer.place))
    return status


if __name__ == "__main__":
    sys.exit(main())
