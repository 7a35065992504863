"""Cascade layers (Cascading and Inheritance 5): their order, which is that in which their names are first met."""

LAST = float("inf")


class Layers:
    """The layers that were met, as a tree of names."""

    def __init__(self):
        self.root = {}
        self.unnamed = 0

    def meet(self, path):
        """Notes the layer of a path of names, and each layer around it."""
        layer = self.root
        for name in path:
            layer = layer.setdefault(name, {})
        return path

    def name_unnamed(self):
        """A name of its own for a layer without a name."""
        self.unnamed += 1
        return self.unnamed

    def key(self, path):
        """What sorts layers: normal declarations in a later layer win, and those outside of a layer's inner layers are its last."""
        key, layer = [], self.root
        for name in path:
            key.append(list(layer).index(name))
            layer = layer[name]
        return tuple(key) + (LAST,)
