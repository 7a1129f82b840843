"""Consumers in Python, for the tests of `arrow_tree.py --consumer`: lawful ones, and those that break one rule each."""
import ctypes
import os
import sys

NAMES = {b"arrow_schema": 9, b"arrow_array": 10, b"arrow_array_stream": 5}
NAME_OF = ctypes.PYFUNCTYPE(ctypes.c_char_p, ctypes.py_object)(("PyCapsule_GetName", ctypes.pythonapi))
PLACE_OF = ctypes.PYFUNCTYPE(ctypes.c_void_p, ctypes.py_object, ctypes.c_char_p)(("PyCapsule_GetPointer", ctypes.pythonapi))
kept = []


def capsules(given):
    if hasattr(given, "__arrow_c_stream__"):
        return [given.__arrow_c_stream__()]
    return list(given.__arrow_c_array__())


def inside(capsule):
    name = NAME_OF(capsule)
    return (ctypes.c_int64 * NAMES[name]).from_address(PLACE_OF(capsule, name))


def taken(capsule):
    """What is in a capsule, moved out."""
    source = inside(capsule)
    moved = type(source)(*source)
    source[-2] = 0
    return moved


def release(structure):
    ctypes.CFUNCTYPE(None, ctypes.c_void_p)(structure[-2])(ctypes.addressof(structure))


def good_nothing(given):
    pass


def good_left(given):
    capsules(given)


def good_take(given):
    for each in [taken(it) for it in capsules(given)]:
        release(each)


def good_in_place(given):
    for each in capsules(given):
        release(inside(each))


def good_answer(given):
    return given


def good_type(given):
    if hasattr(given, "__arrow_c_schema__"):
        release(taken(given.__arrow_c_schema__()))


def good_refusal(given):
    raise NotImplementedError("no such type \x1b[31m")


def bad_never(given):
    kept.append([taken(it) for it in capsules(given)])


def bad_held(given):
    kept.append(capsules(given))


def bad_copy(given):
    for each in capsules(given):
        copy = type(inside(each))(*inside(each))
        release(copy)


def bad_late(given):
    schema = inside(capsules(given)[0])
    address = schema[0] if len(schema) == 9 else 0
    ctypes.string_at(address)


def bad_written(given):
    schema, _ = capsules(given)
    ctypes.memset(inside(schema)[0], 0, 1)


def bad_exit(given):
    sys.exit(0)


def bad_end(given):
    os._exit(0)


def bad_folder(given):
    os.chdir("/")


def bad_answer(given):
    class Other:
        def __arrow_c_array__(self):
            return given.__arrow_c_array__()[::-1]

    return Other()
