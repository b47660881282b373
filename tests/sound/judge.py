"""All parts together."""

from . import chunks, extents, free_space, inodes, names, nodes, places, references, root_tree, sums
from .volume import Volume


def judge(path):
    """The findings on a volume: none where it is sound. Raises Unsupported where it has a form that is not judged."""
    volume = Volume(path).read()
    nodes.check(volume)
    root_tree.check(volume)
    trees = [names.FileTree(volume, tree) for tree in volume.file_trees()]
    names.check(volume, trees)
    inodes.check(trees)
    extents.check(trees)
    recount = references.Recount(volume)
    references.check(recount)
    all_extents = places.check(recount)
    sums.check(recount, trees)
    chunks.check(recount, all_extents)
    free_space.check(recount, all_extents)
    return volume.findings
