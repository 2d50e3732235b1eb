"""What is odd in the marks by which replicas fall and are rebuilt, and in the answers of `add`: each as a sentence."""
from replay import ERR, MOST_LAYERS, WO
from report import Entry, Mark, replica_number

FALLS = ('fault', 'failed')
# The calls that stand right behind a mark.
CALLS = {'promoted': 'add', 'salvaged': 'salvage'}


def odd_rebuild(mark, replay):
    """What is odd in a mark that begins a rebuild."""
    name, source = mark.words[1:3]
    yield from odd_start(mark, replay)
    if replica_number(source) != replay.source():
        yield 'takes %s as the source, which is not the lowest replica in mode RW' % source
    if replay.rebuild:
        yield 'begins a rebuild of %s, and that of r%d is still open' % (name, replay.rebuild[0])
    if replay.layers_known:
        yield from odd_layer(mark, replay)


def odd_start(mark, replay):
    """What is odd in a mark that begins with a failed replica."""
    name = mark.words[1]
    if replay.modes[replica_number(name)] != ERR:
        yield 'begins with %s as %s, and not as ERR' % (name, replay.modes[replica_number(name)])


def odd_layer(mark, replay):
    """What is odd in the layer that the beginning of a rebuild makes."""
    if mark.words[3] != 'sys-%d' % replay.head_number:
        yield 'names its layer %s, and the head has the number %d' % (mark.words[3], replay.head_number)
    if replay.layer_count >= MOST_LAYERS:
        yield 'makes a layer more, and there are %d already' % replay.layer_count


def odd_end(mark, replay, before):
    """What is odd in a mark that ends a rebuild, which stands behind that line of the journal."""
    name = mark.words[1]
    if not replay.rebuild or replay.rebuild[0] != replica_number(name):
        yield 'ends a rebuild of %s, and none has begun' % name
    elif mark.kind == 'aborted' and not (is_mark(before, *FALLS) and fallen(before) in replay.rebuild):
        yield 'has no mark before it by which r%d or r%d fell' % replay.rebuild
    if mark.kind == 'promoted' and replay.modes[replica_number(name)] != WO:
        yield 'takes %s to RW, which is %s and not WO' % (name, replay.modes[replica_number(name)])


def odd_fall(mark, replay):
    """What is odd in a mark by which a replica falls."""
    if replay.modes[fallen(mark)] == ERR:
        yield 'takes r%d to ERR, which is ERR already' % fallen(mark)


def odd_behind(mark, replay, following):
    """What is odd in the two lines of the journal behind a mark."""
    call = CALLS.get(mark.kind)
    if call and not is_done(following[0], (call, mark.words[1])):
        yield 'has no `%s %s ok` behind it' % (call, mark.words[1])
    if mark.kind in FALLS and replay.rebuild and fallen(mark) in replay.rebuild:
        end = 'r%d' % replay.rebuild[0]
        if not (is_mark(following[0], 'aborted') and following[0].words[1] == end):
            yield 'ends the rebuild of %s from r%d, and has no mark `aborted %s` behind it' % (end, replay.rebuild[1], end)
    after = following[1] if is_mark(following[0], 'aborted') else following[0]
    if mark.kind == 'failed' and not is_done(after, ('fail', mark.words[1])):
        yield 'has no `fail %s ok` behind it' % mark.words[1]


def odd_answer(entry, replay):
    """What is odd in the answer of an `add`, whose replica there is."""
    target = replica_number(entry.call[1])
    if target in replay.unanswered:
        end = replay.unanswered[target]
        wanted = None if end is None else 'ok' if end.kind == 'promoted' else 'error aborted %d' % end.place
        lack = 'but the rebuild of %s has not ended'
    else:
        wanted, lack = refusal(target, entry.answer, replay), 'but no rebuild of %s has begun'
    if wanted is None:
        yield 'is answered `%s`, ' % entry.answer + lack % entry.call[1]
    elif entry.answer != wanted:
        yield 'is answered `%s`, and the journal makes it `%s`' % (entry.answer, wanted)


def refusal(target, answer, replay):
    """How an `add` is refused that begins no rebuild, or None where it would begin one."""
    # Where the layers are not told, there may be as many as there can be.
    is_full = replay.layer_count >= MOST_LAYERS if replay.layers_known else answer == 'error chain full'
    if replay.modes[target] != ERR:
        return 'error in use'
    if is_full:
        return 'error chain full'
    return 'error no replica' if replay.source() is None else None


def is_mark(line, *kinds):
    """Whether a line of the journal is a mark of one of these kinds."""
    return isinstance(line, Mark) and line.kind in kinds


def fallen(mark):
    """The number of the replica that falls by a mark."""
    return replica_number(mark.words[2 if mark.kind == 'fault' else 1])


def is_done(line, call):
    """Whether a line of the journal is that call, and was not refused."""
    return isinstance(line, Entry) and line.call == call and not line.refusal
