"""Hands over examples/people.c by its addresses, for docs/CHECK.md."""
import ctypes

library = ctypes.CDLL("./libpeople.so")
schema, array = (ctypes.c_int64 * 9)(), (ctypes.c_int64 * 10)()


def rows():
    """The addresses of an ArrowSchema and an ArrowArray, which stay this module's."""
    library.people(schema, array)
    return ctypes.addressof(schema), ctypes.addressof(array)
