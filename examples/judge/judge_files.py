"""Files of the judge's worker: whole or not there, also on file systems without links, as exFAT."""
import errno
import os
import shutil

WITHOUT = {errno.EPERM, errno.EOPNOTSUPP, errno.ENOSYS, errno.EMLINK}


def written(path, inside, of):
    """A file with these bytes beside its place, with `of` in its name, to be linked or renamed there. It isn't synced: what a power cut takes is
    judged anew, as all is checked on reading."""
    own, how = f"{path}.{of}.{os.getpid()}", os.O_WRONLY | os.O_CREAT | os.O_EXCL | os.O_CLOEXEC    # a link that somebody put there isn't followed
    try:
        fd = os.open(own, how, 0o666)
    except FileNotFoundError:
        os.makedirs(os.path.dirname(path), exist_ok=True)
        fd = os.open(own, how, 0o666)
    except FileExistsError:                    # of a worker that was killed
        os.unlink(own)
        fd = os.open(own, how, 0o666)
    try:
        while inside:
            inside = inside[os.write(fd, inside):]
    finally:
        os.close(fd)
    return own


def put_first(own, path):
    """The file `own` is at its place too; FileExistsError where something is there already, which stays."""
    try:
        os.link(own, path)
    except OSError as error:
        if error.errno not in WITHOUT:
            raise
        with open(own, "rb") as file, open(path, "xb") as there:    # what a stop cuts off isn't whole, so it is judged anew
            shutil.copyfileobj(file, there)


def linked(path, name):
    """A link to the file, or a copy."""
    try:
        os.symlink(path, name)
    except OSError as error:
        if error.errno not in WITHOUT:
            raise
        shutil.copyfile(path, name)
