"""A replica's folder, read from its files: clean, unclean or damaged, and how two that are clean differ first."""
import os
import re
from typing import NamedTuple

from json_text import is_whole, read_object
from plain_disk import BLOCK, ZEROS
from report import NUMBER

MOST_METADATA = 1 << 20
LARGEST_HEAD = 999999
MOST_SNAPSHOTS = 249
FLAGS = ('Dirty', 'Rebuilding', 'Error')
HEAD_FILE = re.compile('volume-head-([0-9]{3}|[1-9][0-9]{3,})\\.img')
SNAPSHOT_FILE = re.compile('volume-snap-([a-zA-Z0-9._-]{1,64})\\.img')
MAP_LINE = re.compile(b'(%s) ([1-9][0-9]*)\n' % NUMBER.encode())
SYSTEM_NAME = re.compile('sys-(%s)' % NUMBER)
BACKING = ('BackingFilePath', 'BackingFileName')


class Layer(NamedTuple):
    """A layer, or the head: the layer below it, what is told of it, and the blocks that it has itself."""
    parent: object
    marked: bool
    created: str
    user_created: bool
    blocks: dict


class Saved(NamedTuple):
    """What a clean folder holds: the head's number, the head, and the layers by name."""
    number: int
    head: Layer
    layers: dict

    def layer(self, name):
        """The layer of a name, or the head for None."""
        return self.head if name is None else self.layers[name]

    def blocks_of(self, name):
        """The blocks as which a layer reads, or the head for None; those of zeros alone are left out."""
        chain = []
        while True:
            layer = self.layer(name)
            chain.append(layer.blocks)
            name = layer.parent
            if name is None:
                break
        read = {}
        for blocks in reversed(chain):
            read.update(blocks)
        return {number: block for number, block in read.items() if block != ZEROS}


class Refused(NamedTuple):
    """Why a folder is not clean, as a report tells it."""
    reason: str


class Damage(Exception):
    """A file of a folder that is not as it has to be, and the place in it."""

    def __init__(self, file, place=0):
        super().__init__('damaged %s %d' % (file, place))


def open_folder(path, size):
    """What a folder holds of a volume of that size, or why it is refused. One that is not there has no files."""
    files = Files(path)
    try:
        volume = read_volume(files)
        flags = [flag for flag in FLAGS if volume[flag]] + ['Size'] * (volume['Size'] != size)
        if flags:
            return Refused('unclean ' + flags[0])
        number, below = int(HEAD_FILE.fullmatch(volume['Head'])[1]), volume['Parent']
        head = read_layer(files, volume['Head'], size, below)
        names = sorted(found[1] for found in map(SNAPSHOT_FILE.fullmatch, files.images()) if found)
        layers = {name: read_layer(files, 'volume-snap-%s.img' % name, size) for name in names}
    except Damage as damage:
        return Refused(str(damage))
    odd = misfit(number, head, layers)
    return odd or Saved(number, fitted(head), {name: fitted(layer) for name, layer in layers.items()})


class Files:
    """The files of a folder, by name."""

    def __init__(self, path):
        self.path = path
        self.names = set(os.listdir(path)) if os.path.isdir(path) else set()

    def images(self):
        """The names of images that have metadata."""
        return [name[:-len('.meta')] for name in self.names if name.endswith('.img.meta')]

    def read(self, name, most=None):
        """The bytes of a file, or None where it is not there or has more than `most`."""
        if name not in self.names:
            return None
        with open(os.path.join(self.path, name), 'rb') as file:
            content = file.read() if most is None else file.read(most + 1)
        return None if most is not None and len(content) > most else content


def members(content):
    """The members of metadata, or None where it is none."""
    read = read_object(content, MOST_METADATA)
    return None if read is None or any(is_text(read.get(name)) and read[name] for name in BACKING) else read


def read_metadata(files, file, kinds):
    """Those members of metadata that have a kind; one whose kind has a value to begin with may be missing."""
    content = files.read(file, MOST_METADATA)
    read = None if content is None else members(content)
    if read is None:
        raise Damage(file)
    values = {}
    for name, (is_good, *missing) in kinds.items():
        if name not in read and not missing:
            raise Damage(file)
        values[name] = read[name] if name in read else missing[0]
        if not is_good(values[name]):
            raise Damage(file)
    return values


def is_flag(value):
    """True or false."""
    return type(value) is bool


def is_text(value):
    """Any text."""
    return isinstance(value, str)


def is_image(value):
    """An image's file."""
    return is_text(value) and bool(HEAD_FILE.fullmatch(value) or SNAPSHOT_FILE.fullmatch(value))


def is_parent(value):
    """An image's file, or the empty text."""
    return value == '' or is_image(value)


def is_head(value):
    """The image of a head of a number that is read."""
    return is_image(value) and value.startswith('volume-head-') and int(HEAD_FILE.fullmatch(value)[1]) <= LARGEST_HEAD


def is_size(value):
    """A whole number, or the decimal text of one."""
    if is_text(value):
        return bool(re.fullmatch(NUMBER, value)) and int(value) < 1 << 64
    return is_whole(value)


def is_time(value):
    """A time of a run."""
    return is_text(value) and bool(re.fullmatch('[ -~]{0,40}', value))


def is_labels(value):
    """An object or null."""
    return value is None or isinstance(value, dict)


VOLUME_KINDS = {'Dirty': (is_flag,), 'Error': (is_text, ''), 'Head': (is_head,), 'Parent': (is_parent,), 'Rebuilding': (is_flag,),
                'Size': (is_size,)}
LAYER_KINDS = {'Created': (is_time, ''), 'Labels': (is_labels, None), 'Name': (is_image,), 'Parent': (is_parent,), 'Removed': (is_flag,),
               'UserCreated': (is_flag, False)}


def read_volume(files):
    """The metadata of the volume."""
    volume = read_metadata(files, 'volume.meta', VOLUME_KINDS)
    volume['Size'] = int(volume['Size'])
    return volume


def read_layer(files, image, size, head_parent=None):
    """The layer of an image; of a head, the parent that the metadata of the volume tells is given."""
    meta = read_metadata(files, image + '.meta', LAYER_KINDS)
    if meta['Name'] != image or head_parent is not None and (meta['Removed'] or meta['Parent'] != head_parent):
        raise Damage(image + '.meta')
    text = files.read(image + '.map')
    if text is None:
        raise Damage(image + '.map')
    runs = list(read_map(text, image + '.map', size // BLOCK))
    if image not in files.names:
        raise Damage(image)
    length = os.path.getsize(os.path.join(files.path, image))
    if length != size:
        raise Damage(image, length)
    return Layer(meta['Parent'], meta['Removed'], meta['Created'], meta['UserCreated'], read_blocks(files, image, runs))


def read_map(text, file, blocks):
    """The runs of a map, each as its first block and how many there are."""
    place, least = 0, 0
    while place < len(text):
        found = MAP_LINE.match(text, place)
        first, count = map(int, found.groups()) if found else (0, 0)
        if not found or first < least or first + count > blocks:
            raise Damage(file, place)
        yield first, count
        place, least = found.end(), first + count + 1


def read_blocks(files, image, runs):
    """The blocks of an image that its map lists."""
    with open(os.path.join(files.path, image), 'rb') as file:
        blocks = {}
        for first, count in runs:
            file.seek(first * BLOCK)
            for number in range(first, first + count):
                blocks[number] = file.read(BLOCK)
        return blocks


def below(layer):
    """The name of the snapshot on which a layer stands, or None."""
    found = SNAPSHOT_FILE.fullmatch(layer.parent)
    return found and found[1]


def fitted(layer):
    """The layer with a name for its parent's file."""
    return layer._replace(parent=below(layer))


def misfit(number, head, layers):
    """Why layers that are good by themselves are none of one replica, or None."""
    for name in [None, *layers]:
        layer = head if name is None else layers[name]
        is_odd = layer.parent and below(layer) not in layers
        found = SYSTEM_NAME.fullmatch(name or '')
        is_odd = is_odd or name and (stands_on_itself(name, layers) or name.startswith('sys-') and not (found and int(found[1]) < number))
        if is_odd:
            return Refused('damaged %s.meta 0' % image_of(number, name))
    names = list(layers)
    return Refused('damaged %s.meta 0' % image_of(number, names[MOST_SNAPSHOTS])) if len(names) > MOST_SNAPSHOTS else None


def stands_on_itself(name, layers):
    """Whether a snapshot is its own ancestor."""
    at, seen = name, set()
    while at in layers and at not in seen:
        seen.add(at)
        at = below(layers[at])
    return at == name


def image_of(number, name):
    """The file of a layer's image, or of the head's for None."""
    return 'volume-head-%03d.img' % number if name is None else 'volume-snap-%s.img' % name


def first_difference(one, other):
    """How two replicas differ first, as a report tells it, or None."""
    for name in sorted(one.layers.keys() | other.layers.keys()):
        shapes = [saved.layers[name][:2] if name in saved.layers else None for saved in (one, other)]
        if shapes[0] != shapes[1]:
            return 'shape ' + name
    if (one.head.parent, one.number) != (other.head.parent, other.number):
        return 'shape head'
    for name in [*sorted(one.layers), None]:
        first, second = one.blocks_of(name), other.blocks_of(name)
        blocks = [number for number in first.keys() | second.keys() if first.get(number) != second.get(number)]
        if blocks:
            return 'differs %s %d' % (name or 'head', min(blocks))
    return None


def open_all(top, size, replicas):
    """What is in each replica's folder below `top`, and how each stands to the lowest clean one: None, or a reason."""
    found = [open_folder(os.path.join(top, 'r%d' % replica), size) for replica in range(replicas)]
    disk = next((saved for saved in found if isinstance(saved, Saved)), None)
    return found, [each.reason if isinstance(each, Refused) else first_difference(disk, each) for each in found]
