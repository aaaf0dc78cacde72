"""What `derive` writes, as components with their paths, uses and outputs."""
import re
from collections import namedtuple

from streams import LABEL, is_bad, labels_of, severity

Use = namedtuple("Use", "stream label port note rule")
Output = namedtuple("Output", "stream label uses is_ordered")
Component = namedtuple("Component", "name mode replicas paths outputs cycle")

# An output at which a bad label begins: the uses that make it bad, none where a sequencer does, and the streams that
# come in beside them and are as bad by themselves.
Beginning = namedtuple("Beginning", "component output uses beside")

NOTE = r"(C[RW]|O[RW]\[.*?\])"
COMPONENT = re.compile(r"component (\w+) (\w+(?:\[.*?\])?) (\d+)$")
PATH = re.compile(rf"  path (\w+) (\w+) {NOTE}$")
USE = re.compile(rf"  use (\w+) {LABEL} (\w+) {NOTE} (kept|rule \d)$")
OUT = re.compile(rf"  out (\w+) {LABEL}( protected)?( ordered)?$")


class Derivation:
    """The labels of all streams, and how they come about at each component."""

    def __init__(self, text):
        self.labels, self.components, uses = labels_of(text), [], []
        for line in text.decode().splitlines():
            if found := COMPONENT.match(line):
                self.components.append(Component(found[1], found[2], int(found[3]), [], [], []))
                uses = []
            elif found := PATH.match(line):
                self.components[-1].paths.append(found.groups())
            elif line.startswith("  cycle "):
                self.components[-1].cycle.extend(line.split()[1:])
            elif found := USE.match(line):
                uses.append(Use(*found.groups()))
            elif found := OUT.match(line):
                component = self.components[-1]
                component.outputs.append(Output(found[1], found[2], uses, bool(found[4])))
                # The uses of a region stand once, before the outputs of a member.
                uses = uses if component.cycle else []

    def paths(self, name):
        """The paths of a component: port, output and note."""
        return next(it.paths for it in self.components if it.name == name)

    def beginnings(self):
        """Each output at which a bad label begins, those first into which nothing bad comes. A cycle has one label, so
        its first output stands for all."""
        found, cycles = [], []
        for component, output in self.bad_outputs():
            causes, beside = self.causes(component, output)
            if (causes or output.is_ordered) and component.cycle not in cycles:
                found.append(Beginning(component, output, causes, beside))
            cycles += [component.cycle] if component.cycle else []
        return sorted(found, key=self.comes_from_further_up)

    def bad_outputs(self):
        return [(component, output) for component in self.components for output in component.outputs if is_bad(output.label)]

    @staticmethod
    def causes(component, output):
        """The uses that make a label bad, but for those over which it came in; and the streams that came in as bad.
        A seal that helps is a cause only where there is no other."""
        made = [it for it in output.uses if it.rule not in ("kept", "rule 5")]
        beside = [it.stream for it in output.uses if it.rule == "kept" and severity(it.label) == severity(output.label)]
        spoilt = [] if beside else [it for it in output.uses if it.rule == "rule 5"]
        return made or spoilt, list(dict.fromkeys(beside))

    def comes_from_further_up(self, beginning):
        """How little a beginning has to do with it that its label is bad: something bad comes in, or something as bad."""
        outside = [it.label for it in beginning.output.uses if it.stream not in self.sent_by(beginning.component)]
        return bool(beginning.beside), any(map(is_bad, outside))

    def sent_by(self, component):
        """The streams of the members of a component's cycle."""
        return {it.stream for member in self.components if member.name in component.cycle for it in member.outputs}
