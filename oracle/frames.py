"""Frames: many byte strings on one stream, each a decimal length, LF, then that many bytes."""


def read(stream):
    """Gives the frames of a binary stream one by one; raises ValueError where one is cut off."""
    while length := stream.readline():
        if not (length.endswith(b"\n") and length[:-1].isdigit()):
            raise ValueError(f"not the length of a frame: {length[:40]!r}")
        wanted = int(length)
        content = stream.read(wanted)
        if len(content) != wanted:
            raise ValueError(f"a frame of {wanted} bytes ends after {len(content)}")
        yield content


def write(stream, content):
    stream.write(b"%d\n%b" % (len(content), content))


def join(contents):
    return b"".join(b"%d\n%b" % (len(content), content) for content in contents)
