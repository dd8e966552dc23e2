"""Spells calls of NFS version 3 (RFC 1813) as RPC records (RFC 5531) that `fss feed` reads, and reads the records of
replies. Used by the scripts here and in `bench/`. Only what those need is here."""
import struct

PROGRAM, VERSION = 100003, 3
SETATTR, LOOKUP, READ, WRITE, CREATE, MKDIR = 2, 3, 6, 7, 8, 9
REMOVE, RMDIR, RENAME, READDIR = 12, 13, 14, 16


def word(number):
    """An unsigned integer of 32 bits."""
    return struct.pack(">I", number)


def hyper(number):
    """An unsigned integer of 64 bits."""
    return struct.pack(">Q", number)


def opaque(content):
    """Bytes with their length before them and padding behind them."""
    return word(len(content)) + content + bytes(-len(content) % 4)


def handle(fileid):
    """The handle of a file of the live tree: its file system, no snapshot, and its number. The root is file 1, and
    the files that are made are 16, 32, 48 and so on."""
    return opaque(hyper(1 << 32) + hyper(0) + hyper(fileid))


def name_in(directory, name):
    """A name in a directory (diropargs3)."""
    return handle(directory) + opaque(name.encode())


# No mode, owner, group, size or time is set (sattr3).
NOTHING = word(0) * 6


def lookup(directory, name):
    return LOOKUP, name_in(directory, name)


def read(fileid, offset, count):
    return READ, handle(fileid) + hyper(offset) + word(count)


def write(fileid, offset, content):
    """A WRITE that is to be lasting when it is answered (FILE_SYNC)."""
    return WRITE, handle(fileid) + hyper(offset) + word(len(content)) + word(2) + opaque(content)


def create(directory, name):
    """A CREATE that refuses a name that is there (GUARDED)."""
    return CREATE, name_in(directory, name) + word(1) + NOTHING


def mkdir(directory, name):
    return MKDIR, name_in(directory, name) + NOTHING


def remove(directory, name):
    return REMOVE, name_in(directory, name)


def rename(directory, name, other_directory, other_name):
    return RENAME, name_in(directory, name) + name_in(other_directory, other_name)


def readdir(directory, cookie=0, count=4096):
    return READDIR, handle(directory) + hyper(cookie) + bytes(8) + word(count)


def record(xid, call):
    """The record of a call of user 0 (AUTH_SYS, RFC 5531, appendix A), in one fragment."""
    procedure, arguments = call
    caller = word(0) + opaque(b"example") + word(0) + word(0) + word(0)
    head = word(xid) + word(0) + word(2) + word(PROGRAM) + word(VERSION) + word(procedure)
    message = head + word(1) + opaque(caller) + word(0) + word(0) + arguments
    return word(1 << 31 | len(message)) + message


def results(stream):
    """Of each reply record of a stream, each in one fragment: its xid, its status, and what its result says behind it."""
    while mark := stream.read(4):
        (length,) = struct.unpack(">I", mark)
        message = stream.read(length & 0x7FFFFFFF)
        xid, _, _, _, _, accepted = struct.unpack_from(">6I", message)
        if accepted != 0:
            raise ValueError(f"call {xid} was refused by RPC, with {accepted}")
        (status,) = struct.unpack_from(">I", message, 24)
        yield xid, status, message[28:]
