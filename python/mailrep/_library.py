"""The declarations of ``mailrep.h``, and the library that has them.

Pointers are handed over as numbers, but for the bytes that a call reads, which are ``bytes``.
"""

from __future__ import annotations

import ctypes
import functools
import os
from ctypes import c_char_p, c_int32, c_size_t, c_uint8, c_uint16, c_uint32, c_uint64, c_void_p
from pathlib import Path

ABI = 0x0001_0004


class RawDevice(ctypes.Structure):
    """``mr_device``: all zeros is closed."""

    _fields_ = [("inner", c_void_p), ("live", c_uint64)]


class RawVersion(ctypes.Structure):
    """``mr_version``."""

    _fields_ = [("author", c_uint32), ("counter", c_uint32)]


class RawHeld(ctypes.Structure):
    """``mr_held``."""

    _fields_ = [("item", RawVersion), ("version", RawVersion)]


class RawChange(ctypes.Structure):
    """``mr_changed``."""

    _fields_ = [("entered", c_uint32), ("item", RawVersion), ("version", RawVersion)]


class RawCount(ctypes.Structure):
    """``mr_count``."""

    _fields_ = [("heads", c_size_t), ("push_outs", c_size_t), ("changes", c_size_t), ("events", c_size_t)]


class RawPlaced(ctypes.Structure):
    """``mr_placed``."""

    _fields_ = [("labels", c_size_t), ("flags", c_uint32), ("day", c_uint32)]


class RawClaimed(ctypes.Structure):
    """``mr_claimed``."""

    _fields_ = [("kind", c_uint32), ("author", c_uint32)]


class RawAct(ctypes.Structure):
    """``mr_act``."""

    _fields_ = [("kind", c_uint32), ("at", c_uint64), ("len", c_size_t)]


class RawTold(ctypes.Structure):
    """``mr_told``."""

    _fields_ = [("kind", c_uint32), ("number", c_uint64), ("version", RawVersion)]


class RawBorn(ctypes.Structure):
    """``mr_born``."""

    _fields_ = [("author", c_uint32), ("birth", c_uint8 * 16)]


STRUCTS = {
    "mr_device": RawDevice,
    "mr_version": RawVersion,
    "mr_held": RawHeld,
    "mr_changed": RawChange,
    "mr_count": RawCount,
    "mr_placed": RawPlaced,
    "mr_claimed": RawClaimed,
    "mr_act": RawAct,
    "mr_told": RawTold,
    "mr_born": RawBorn,
}

_BYTES = (c_char_p, c_size_t)
_ROOM = (c_void_p, c_size_t, c_void_p)
_MESSAGE = (*_BYTES, *_BYTES, *_BYTES, *_BYTES, c_uint8, c_uint16, c_void_p)
_BEGIN = (c_void_p, c_uint16, *_BYTES, c_uint32)

# What each call that answers a code takes.
CALLS: dict[str, tuple[type, ...]] = {
    "mr_replay": (*_BEGIN, *_BYTES),
    "mr_kept_begin": (*_BEGIN, *_BYTES, *_BYTES),
    "mr_kept_open": (c_void_p, *_BYTES, *_BYTES, *_BYTES),
    "mr_commit": (c_void_p,),
    "mr_act_at": (c_void_p, c_size_t, c_void_p),
    "mr_act_bytes": (c_void_p, c_size_t, *_ROOM),
    "mr_settle": (c_void_p, c_uint32),
    "mr_told_at": (c_void_p, c_size_t, c_void_p),
    "mr_told_frame": (c_void_p, c_size_t, *_ROOM),
    "mr_note": (c_void_p, *_BYTES),
    "mr_notes": (c_void_p, c_void_p),
    "mr_note_at": (c_void_p, c_size_t, *_ROOM),
    "mr_birth": (c_void_p, *_ROOM),
    "mr_check_peer": (c_void_p, c_void_p, c_size_t, c_void_p, c_size_t),
    "mr_create": (c_void_p, *_MESSAGE),
    "mr_edit": (c_void_p, c_void_p, c_size_t, *_MESSAGE),
    "mr_merge": (c_void_p, RawVersion, c_void_p),
    "mr_retire": (c_void_p,),
    "mr_pull": (c_void_p, c_void_p),
    "mr_answer": (c_void_p, *_BYTES, c_void_p),
    "mr_next": (c_void_p, c_uint64),
    "mr_receive": (c_void_p, *_BYTES, c_void_p),
    "mr_cut_in": (c_void_p, c_uint64),
    "mr_cut_out": (c_void_p, c_uint64),
    "mr_vouch": (c_void_p, RawVersion),
    "mr_release": (c_void_p, *_BYTES),
    "mr_frame": (c_void_p, *_ROOM),
    "mr_counts": (c_void_p, c_void_p),
    "mr_head": (c_void_p, c_size_t, c_void_p),
    "mr_push_out": (c_void_p, c_size_t, c_void_p),
    "mr_conflicts": (c_void_p, *_ROOM),
    "mr_heads_of": (c_void_p, RawVersion, *_ROOM),
    "mr_change": (c_void_p, c_size_t, c_void_p),
    "mr_event": (c_void_p, c_size_t, *_ROOM),
    "mr_part": (c_void_p, RawVersion, c_uint32, *_ROOM),
    "mr_card": (c_void_p, RawVersion, c_void_p),
    "mr_label": (c_void_p, RawVersion, c_size_t, *_ROOM),
    "mr_knows": (c_void_p, RawVersion, RawVersion, c_void_p),
    "mr_highest": (c_void_p, c_uint32, c_void_p),
    "mr_is_retired": (c_void_p, c_void_p),
    "mr_sessions": (c_void_p, *_ROOM),
    "mr_streams": (c_void_p, *_ROOM),
    "mr_frame_len": (*_BYTES, c_void_p),
    "mr_frame_claim": (*_BYTES, c_void_p),
}


@functools.cache
def library() -> ctypes.CDLL:
    """The library: of the folder that MAILREP_LIB names, and where that isn't set the one that the system finds."""
    name = f"libmailrep.so.{ABI >> 16}"
    folder = os.environ.get("MAILREP_LIB")
    found = ctypes.CDLL(str(Path(folder) / name) if folder else name)
    found.mr_abi.restype = c_uint32
    found.mr_abi.argtypes = ()
    abi = found.mr_abi()
    if abi >> 16 != ABI >> 16 or abi < ABI:
        raise ImportError(f"{name} has interface {abi:#x}, and {ABI:#x} is wanted")
    found.mr_close.restype = None
    found.mr_close.argtypes = (c_void_p,)
    for call, takes in CALLS.items():
        getattr(found, call).restype = c_int32
        getattr(found, call).argtypes = takes
    return found
