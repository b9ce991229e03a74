"""The targets of symbolic links of the operating system, and how it is asked for them."""
import errno
import os
import re

import calls

# The paths of each call, counted from 0, that by Linux lead to a last link itself, even if a
# slash follows it.
TO_LINKS = {
    "mkdir": [1],
    "rmdir": [0],
    "link": [1],
    "symlink": [1],
    "unlink": [0],
    "rename": [0, 1],
}


def asked_of(call):
    """The call with what links lead to in place of their names with a slash after them."""
    places = TO_LINKS.get(call.verb, [])
    arguments = [
        behind_links(argument) if at in places else argument
        for at, argument in enumerate(call.arguments)
    ]
    return calls.Call(call.verb, tuple(arguments))


def behind_links(path):
    """The path after a link's name with a slash; another path is left."""
    if not path.endswith(b"/") or not os.path.islink(path.rstrip(b"/")):
        return path
    if is_loop(path):
        return path + b"."
    while os.path.islink(path.rstrip(b"/")):
        path = behind(path.rstrip(b"/")) + b"/"
    return path


def is_loop(path):
    """Whether more links are on the way than are followed."""
    try:
        os.stat(path)
    except OSError as error:
        return error.errno == errno.ELOOP
    return False


def behind(link):
    """The path to which a link leads, with single slashes, so that it is not too long."""
    target = os.readlink(link)
    folder = b"" if target.startswith(b"/") else link[: link.rfind(b"/") + 1]
    return re.sub(b"/+", b"/", folder + target)


def lead_to_slash(path):
    """Whether a target on the way from a last link on ends in a slash."""
    left = calls.MOST_FOLLOWED
    while left and os.path.islink(path):
        path = behind(path)
        left -= 1
    return path.endswith(b"/")
