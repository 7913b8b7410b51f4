"""Trees that are too tall to be computed, of which only some bottom subtrees are real, for tests of kept
nodes."""

from tests.reference import SUBTREE, Tree, digest, number


class Nodes(dict):
    """Nodes by their numbers, which are taken one by one or as a row, as from a list."""

    def __getitem__(self, at):
        return [self[it] for it in range(at.start, at.stop)] if isinstance(at, slice) else super().__getitem__(at)


class MadeUpTree(Tree):
    """A tree of a key that has the nodes of these bottom subtrees, by their numbers, each with the leaves
    in it that are its own. Other leaves there, and the roots of all other bottom subtrees, are made up;
    the nodes above are computed from these. Who signs by such a leaf gets a signature that is valid under
    the root."""

    def __init__(self, height, width, identifier, seed, subtrees):  # pylint: disable=super-init-not-called
        self.height, self.width, self.identifier, self.seed = height, width, identifier, seed
        self.nodes, above = Nodes(), height - SUBTREE
        for subtree, own in subtrees.items():
            first, own = 2**height + (subtree << SUBTREE), set(own)
            for node in range(first, first + 2**SUBTREE):
                leaf = node - 2**height
                self.nodes[node] = self.leaf(leaf) if leaf in own else digest(b"a leaf", number(node, 4))
            for row in range(SUBTREE - 1, -1, -1):
                for node in range(2**above + subtree << row, 2**above + subtree + 1 << row):
                    self.join(node)
        for node in range(2**above, 2 ** (above + 1)):
            self.nodes.setdefault(node, digest(b"a root", number(node, 4)))
        for node in range(2**above - 1, 0, -1):
            self.join(node)
