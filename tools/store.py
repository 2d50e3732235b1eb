"""A backup store, read from its files: the disk of a backup, the list of a volume's backups, or the object that is refused first;
and written, for tests that need other stores than a run makes."""
import hashlib
import json
import os
import re
from typing import NamedTuple

from folder import is_text, is_time
from json_text import is_whole, read_object
from report import NUMBER
from script_head import LARGEST_VOLUME, PAGE, PLAIN_NAME

MOST_CFG = 1 << 20
ZEROS = bytes(PAGE)
CHECKSUM = re.compile('[0-9a-f]{64}')
CFG_FILE = re.compile('backup_(%s)\\.cfg' % PLAIN_NAME)
NO_SIZE = 'missing DiskSize'


class BackupCfg(NamedTuple):
    """What is told of a backup: its names, the size of its disk, and the checksum of each page that is listed."""
    volume: str
    name: str
    snapshot: str
    size: int
    blocks: dict
    created: str = ''


class NoCfg(Exception):
    """Why bytes are no cfg: `syntax`, `missing MEMBER`, `compressed` or `backing`."""

    @property
    def kind(self):
        """The kind under which the object is refused."""
        return 'syntax' if str(self).startswith('missing ') else str(self)


class Refused(Exception):
    """An object of a store that is refused, in the words of the program's note."""

    def __init__(self, kind, name):
        super().__init__('refused %s %s' % (kind, name))


# ---- names


def checksum(content):
    """The checksum of some bytes."""
    return hashlib.sha512(content).hexdigest()[:64]


def volume_folder(volume):
    """The beginning of the names of all objects of a volume."""
    digits = checksum(volume.encode())
    return 'backupstore/volumes/%s/%s/%s/' % (digits[:2], digits[2:4], volume)


def volume_name(volume):
    """The name of a volume's cfg."""
    return volume_folder(volume) + 'volume.cfg'


def cfg_name(volume, backup):
    """The name of a backup's cfg."""
    return '%sbackups/backup_%s.cfg' % (volume_folder(volume), backup)


def block_name(volume, digits):
    """The name of the block of a checksum."""
    return '%sblocks/%s/%s/%s.blk' % (volume_folder(volume), digits[:2], digits[2:4], digits)


# ---- cfgs


def spell(members):
    """The one text that is written of a cfg."""
    return json.dumps(members, separators=(',', ':'), sort_keys=True, ensure_ascii=False).encode()


def spell_backup(cfg):
    """The text of a backup's cfg."""
    return spell({
        'Blocks': [{'BlockChecksum': digits, 'Offset': page * PAGE} for page, digits in sorted(cfg.blocks.items())],
        'CompressionMethod': 'none', 'CreatedTime': cfg.created, 'DiskSize': '%d' % cfg.size, 'Name': cfg.name,
        'Size': '%d' % (len(cfg.blocks) * PAGE), 'SnapshotName': cfg.snapshot, 'VolumeName': cfg.volume})


def spell_volume(cfg):
    """The text of a volume's cfg behind a backup."""
    return spell({'CompressionMethod': 'none', 'CreatedTime': cfg.created, 'LastBackupName': cfg.name, 'Name': cfg.volume,
                  'Size': '%d' % cfg.size})


def demand(is_so):
    """Raises what is neither a member that is missing nor a method or image that cannot be read."""
    if not is_so:
        raise NoCfg('syntax')


def cfg_members(content):
    """The members of a cfg."""
    members = read_object(content, MOST_CFG)
    demand(members is not None)
    return members


def size_of(value):
    """The size of a disk, a whole number or the decimal text of one."""
    demand(is_whole(value) or is_text(value) and re.fullmatch(NUMBER, value))
    size = int(value)
    demand(size % PAGE == 0 and PAGE <= size <= LARGEST_VOLUME)
    return size


def blocks_of(value):
    """The listed blocks, the checksum of each by its page."""
    demand(value is None or isinstance(value, list))
    blocks = {}
    for block in value or ():
        demand(isinstance(block, dict))
        digits, offset = block.get('BlockChecksum'), block.get('Offset')
        demand(is_text(digits) and CHECKSUM.fullmatch(digits) and is_whole(offset) and offset % PAGE == 0)
        demand(offset // PAGE not in blocks)
        blocks[offset // PAGE] = digits
    return blocks


def read_backup(content, volume, backup, told=None):
    """What the bytes of a backup's cfg say, where `told` is the size that the volume's cfg tells; it counts where their own is missing."""
    members = cfg_members(content)
    asked = {'Name': backup, 'VolumeName': volume}
    for name in (*asked, 'SnapshotName'):
        demand(name not in members or is_text(members[name]) and members[name] == asked.get(name, members[name]))
    demand(is_text(members.get('DiskSize', '')))
    size = size_of(members['DiskSize']) if 'DiskSize' in members else told
    blocks = blocks_of(members.get('Blocks'))
    demand(size is None or all(page * PAGE < size for page in blocks))
    for name in (*asked, 'SnapshotName'):
        if name not in members:
            raise NoCfg('missing ' + name)
    if members.get('CompressionMethod') != 'none':
        raise NoCfg('compressed')
    if size is None:
        raise NoCfg(NO_SIZE)
    created = members.get('CreatedTime')
    return BackupCfg(volume, backup, members['SnapshotName'], size, blocks, created if is_time(created) else '')


def read_size(content):
    """The size that the bytes of a volume's cfg tell."""
    members = cfg_members(content)
    size = size_of(members['Size']) if 'Size' in members else None
    if size is None:
        raise NoCfg('missing Size')
    if is_text(members.get('BackingImageName')) and members['BackingImageName']:
        raise NoCfg('backing')
    return size


# ---- stores


class Store:
    """The objects of a store, files below a folder."""

    def __init__(self, top):
        self.top = top

    def path(self, name):
        """The path of an object."""
        return os.path.join(self.top, name)

    def get(self, name, most):
        """The bytes of an object, cut behind one more than so many. One that is not there is refused."""
        try:
            with open(self.path(name), 'rb') as file:
                return file.read(most + 1)
        except FileNotFoundError:
            raise Refused('missing', name) from None

    def put(self, name, content):
        """Puts an object, or takes it away for None."""
        if content is None:
            os.remove(self.path(name))
            return
        os.makedirs(os.path.dirname(self.path(name)), exist_ok=True)
        with open(self.path(name), 'wb') as file:
            file.write(content)

    def backups(self, volume):
        """The names of a volume's backups, in byte order."""
        above = os.path.dirname(self.path(cfg_name(volume, 'b')))
        found = map(CFG_FILE.fullmatch, os.listdir(above) if os.path.isdir(above) else ())
        return sorted(name[1] for name in found if name)

    def cfg(self, volume, backup):
        """The cfg of a backup. The volume's is asked for the size where that is all that is missing."""
        name = cfg_name(volume, backup)
        content = self.get(name, MOST_CFG)
        try:
            try:
                return read_backup(content, volume, backup)
            except NoCfg as why:
                if str(why) != NO_SIZE:
                    raise
            return read_backup(content, volume, backup, self.size(volume))
        except NoCfg as why:
            raise Refused(why.kind, name) from None

    def size(self, volume):
        """The size that the volume's cfg tells."""
        name = volume_name(volume)
        try:
            return read_size(self.get(name, MOST_CFG))
        except NoCfg as why:
            raise Refused(why.kind, name) from None

    def block(self, volume, digits):
        """The block of a checksum."""
        name = block_name(volume, digits)
        content = self.get(name, PAGE)
        if len(content) != PAGE or checksum(content) != digits:
            raise Refused('damaged', name)
        return content

    def disk(self, volume, backup):
        """The bytes of a backup's disk."""
        cfg = self.cfg(volume, backup)
        held = {page: self.block(volume, digits) for page, digits in sorted(cfg.blocks.items())}
        return b''.join(held.get(page, ZEROS) for page in range(cfg.size // PAGE))

    def listed(self, volume):
        """The lines of a volume's backups."""
        cfgs = [self.cfg(volume, backup) for backup in self.backups(volume)]
        return ''.join('backup %s %s %d\n' % (cfg.name, cfg.snapshot, len(cfg.blocks)) for cfg in cfgs).encode()

    def back_up(self, volume, backup, snapshot, disk, created=''):
        """Puts a backup of a disk, of which a page of zeros is not listed."""
        pages = {place // PAGE: disk[place:place + PAGE] for place in range(0, len(disk), PAGE)}
        blocks = {page: checksum(content) for page, content in pages.items() if content != ZEROS}
        for page, digits in blocks.items():
            self.put(block_name(volume, digits), pages[page])
        cfg = BackupCfg(volume, backup, snapshot, len(disk), blocks, created)
        self.put(volume_name(volume), spell_volume(cfg))
        self.put(cfg_name(volume, backup), spell_backup(cfg))
        return cfg
