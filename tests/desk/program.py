"""The desk's program, or host_log, run on a request."""

import subprocess


def to_bytes(words):
    """The bytes of a request's words, as the program reads them."""
    return b"".join(word.to_bytes(8, "big") for word in words)


def printed(program, sent, *arguments):
    """The lines that the program prints."""
    ended = subprocess.run([program, *arguments], input=sent,
                           capture_output=True, check=True)
    return ended.stdout.decode().splitlines()
