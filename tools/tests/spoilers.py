"""Ways in which a file of a folder or of a store is no file, or not one that may be read."""
import os
import re
import socket


def folder(path):
    """A folder in place of a file."""
    os.remove(path)
    os.mkdir(path)


def full_folder(path):
    """A folder with a file in it."""
    folder(path)
    with open(os.path.join(path, 'volume.meta'), 'wb') as file:
        file.write(b'{}')


def pipe(path):
    """A pipe, which gives nothing before somebody writes."""
    os.remove(path)
    os.mkfifo(path)


def plug(path):
    """A socket."""
    os.remove(path)
    own = os.open(os.path.dirname(path), os.O_RDONLY)
    try:
        # The name of a socket may not be long.
        with socket.socket(socket.AF_UNIX) as made:
            made.bind('/proc/self/fd/%d/%s' % (own, os.path.basename(path)))
    finally:
        os.close(own)


def moved(path):
    """A link to what stood there, beside all folders."""
    kept = os.path.join(re.split('/(?:replicas|backupstore)', path)[0], 'kept')
    os.rename(path, kept)
    os.symlink(kept, path)


def link_to(target):
    """A link to a path."""
    def spoil(path):
        os.remove(path)
        os.symlink(target, path)
    return spoil


def no_rights(path):
    """A file that may neither be read nor written."""
    os.chmod(path, 0)


NO_FILES = [folder, full_folder, pipe, plug, moved, link_to('nowhere'), link_to('/dev/zero'), link_to('.'), link_to('volume.meta'),
            link_to('x' * 255)]
SOME_NO_FILES = [folder, full_folder, pipe, moved, link_to('nowhere')]
FOLDERS = (folder, full_folder)
