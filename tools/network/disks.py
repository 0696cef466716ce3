"""Where the record of a server lies: a folder, a file system that is soon full, or one of which a machine's crash leaves what is on its disk.

The latter two are mounted, which only root may.
"""
import os
import shutil
import subprocess


def told(*words):
    subprocess.run(words, check=True, stdout=subprocess.DEVNULL)


class Folder:
    """A folder of the system's disk. A kill leaves all that was written."""

    def __init__(self, folder):
        self.folder = folder
        os.makedirs(folder, exist_ok=True)

    def stop(self):
        """The program stands still, and is killed then."""

    def again(self):
        """The program is not there."""

    def close(self):
        """Nothing is done any more."""


class Small(Folder):
    """A file system in memory of some KB, which grows by as many before each life."""

    def __init__(self, folder, kilobytes):
        super().__init__(folder)
        self.kilobytes = self.size = kilobytes
        told('mount', '-t', 'tmpfs', '-o', 'size=%dk' % self.size, 'tmpfs', folder)

    def grow(self, kilobytes):
        self.size += kilobytes
        told('mount', '-o', 'remount,size=%dk' % self.size, self.folder)

    def again(self):
        self.grow(self.kilobytes)

    def close(self):
        told('umount', self.folder)


class Crashing(Folder):
    """An ext4 file system in a file. A crash of the machine leaves what this file has: what the system keeps in memory and has not written
    to it is lost, and what is left is mounted anew, by its journal. Not tried: a disk whose own cache is lost."""

    MEGABYTES = 16

    def __init__(self, folder):
        super().__init__(folder)
        self.image, self.next = folder + '.image', folder + '.next'
        with open(self.image, 'wb') as file:
            file.truncate(self.MEGABYTES << 20)
        told('mkfs.ext4', '-q', '-F', '-b', '1024', self.image)
        self.mount()

    def mount(self):
        told('mount', '-o', 'loop', self.image, self.folder)

    def content(self):
        with open(self.image, 'rb') as file:
            return file.read()

    def stop(self):
        """Keeps what the disk has: two readings that are the same, so that nothing was written to it in the middle of one."""
        before = self.content()
        for _ in range(100):
            now = self.content()
            if now == before:
                break
            before = now
        else:
            raise RuntimeError('the disk never stands still')
        with open(self.next, 'wb') as file:
            file.write(now)

    def again(self):
        told('umount', self.folder)
        os.replace(self.next, self.image)
        self.mount()

    def close(self):
        kept = self.folder + '.kept'
        shutil.copytree(self.folder, kept, ignore=shutil.ignore_patterns('lost+found'))
        told('umount', self.folder)
        os.remove(self.image)
        if os.path.exists(self.next):
            os.remove(self.next)
        os.rmdir(self.folder)
        os.rename(kept, self.folder)
