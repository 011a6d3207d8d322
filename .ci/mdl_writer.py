"""The text of models, for all that writes one: `short_models` here, and in `bench/` `sized_models`, `hostile_models` and
`independent/random_models`."""

from contextlib import contextmanager


class Writer:
    """A text of sections and parameters that is being written, line by line. What adds lines gives the number of the first, from 1 on.
    Another class may spell them otherwise."""

    def __init__(self):
        self.lines = []

    def add(self, *lines):
        """Adds lines as they are."""
        self.lines += lines
        return len(self.lines) - len(lines) + 1

    def open(self, section):
        """Adds the line that opens a section of this name."""
        return self.add(f"{section} {{")

    def close(self):
        """Adds the line that closes the last open section."""
        return self.add("}")

    def param(self, name, value):
        """Adds a parameter whose value is spelled as it stands in the text."""
        return self.add(f"{name} {value}")

    @contextmanager
    def section(self, name):
        """A section of all that is added meanwhile."""
        yield self.open(name)
        self.close()


class Model(Writer):
    """A model, with these lines before its System; what is added lies in that System."""

    def __init__(self, *parameters):
        super().__init__()
        self.add("Model {", *parameters, "System {")

    def block(self, kind, name, **parameters):
        """Adds a Block of this BlockType and Name; the values of its parameters are in quotes."""
        with self.section("Block") as opened:
            self.identity(kind, name)
            for key, value in parameters.items():
                self.param(key, f'"{value}"')
        return opened

    def identity(self, kind, name):
        """Adds the BlockType and the Name of a Block."""
        self.param("BlockType", kind)
        self.param("Name", f'"{name}"')

    def open_subsystem(self, name):
        """Opens a SubSystem block of this name and its System."""
        opened = self.open("Block")
        self.identity("SubSystem", name)
        self.open("System")
        return opened

    def close_subsystem(self):
        """Closes the System and the Block of the last open subsystem."""
        self.close()
        self.close()

    def wire(self, source, target, source_port=1, target_port=1):
        """Adds a Line between ports of the blocks of these names."""
        with self.section("Line") as opened:
            for side, name, port in (("Src", source, source_port), ("Dst", target, target_port)):
                self.param(f"{side}Block", f'"{name}"')
                self.param(f"{side}Port", port)
        return opened

    def chain(self, names):
        """Adds a Line from each of these blocks to the next."""
        for source, target in zip(names, names[1:]):
            self.wire(source, target)

    def text(self, *settings):
        """The whole text, with these lines after its System."""
        return "\n".join([*self.lines, "}", *settings, "}", ""])

    def data(self):
        """The whole text in bytes."""
        return self.text().encode()
