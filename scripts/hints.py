"""What a plan doesn't try and doesn't say: which modes and which seals would be better, what a new mode changes for those
who ask and for those who are answered, and which ends of the topology are loose."""
import os
import tomllib

from derivations import Derivation
from module_rules import Module
from streams import Wiring, is_bad, labels_of, loose_ends, severity
from toml_changes import with_values


def mode_of(component):
    """A mode as reports write it."""
    mode = component.get("mode", "free")
    return mode + (f"[{', '.join(component['key'])}]" if "key" in component else "")


def key_of(label):
    """The key of a Seal, as the names that stand in its label; of another label none."""
    return tuple(label[5:-1].split(", ")) if label.startswith("Seal[") else ()


def text_of(name):
    with open(name, encoding="utf-8", newline="") as file:
        return file.read()


def better(labels, than):
    """The streams whose label is better than another, each with its label."""
    return {it: labels[it] for it in than if severity(labels[it]) < severity(than[it])}


class Planned:
    """A topology before and after its plan: texts, tables, derivations; and calls of the program over others."""

    def __init__(self, calls, folder, topology_file):
        self.calls, self.folder, self.asked = calls, folder, 0
        self.before = Derivation(calls.report("derive", topology_file))
        self.plan = calls.report("plan", topology_file).decode()
        self.file = self.lay("planned.toml", self.plan)
        self.after = Derivation(calls.report("derive", self.file))
        self.text = text_of(topology_file)
        self.topology, self.planned = tomllib.loads(self.text), tomllib.loads(self.plan)

    def lay(self, name, text):
        path = os.path.join(self.folder, name)
        with open(path, "w", encoding="utf-8", newline="") as file:
            file.write(text)
        return path

    def answer(self, command, text):
        """What the program writes for a topology's text; nothing where it refuses it."""
        self.asked += 1
        report, status = self.calls.answer(command, self.lay("tried.toml", text))
        return report if status == 0 else b""

    def components(self):
        """Each component as it was and as it is planned."""
        return list(zip(self.topology.get("component", []), self.planned.get("component", [])))

    def hints(self):
        """All of them, as --json writes it."""
        seals = Seals(self)
        ports, outputs = loose_ends(self.topology)
        return {
            "could_be": Trials(self).could_be(), "would_be": seals.would_be(), "in_the_way": seals.in_the_way(),
            "changes": changes(self.components()),
            "waits": [told for it in self.components() for told in waits(self, *it)],
            "agrees": [told for _, it in self.components() for told in agrees(self, it)],
            "hears_nothing": ports, "goes_nowhere": outputs,
        }


# ---- what would be better


class Trials:
    """Other modes for single components of a plan."""

    def __init__(self, planned):
        self.planned, self.labels, self.wiring = planned, planned.after.labels, Wiring(planned.planned)

    def could_be(self):
        """What would be better in another mode, or as good without a sequencer, at the components at which a bad label
        begins."""
        begin, found = {it.component.name for it in self.planned.after.beginnings()}, []
        for number, component in enumerate(self.planned.planned.get("component", [])):
            if component["name"] in begin:
                trials = list(self.trials(number, component))
                found += self.best(component, trials) or self.spared(component, trials)
        return found

    def trials(self, number, component):
        """Each other mode: free, and seal with each key that a stream into the component carries; with the labels."""
        keys = dict.fromkeys(key_of(self.labels[it]) for it in self.wiring.into(component["name"]))
        modes = [{}] * (component.get("mode") == "order") + [{"mode": "seal", "key": list(it)} for it in keys if it]
        for mode in modes:
            text = with_values(self.planned.plan, "component", number, component, mode, ["mode", "key"])
            if labels := labels_of(self.planned.answer("label", text)):
                yield mode, labels

    def best(self, component, trials):
        """Of the trials those that are best for some stream, as few as do."""
        best = {it: min(severity(labels[it]) for labels in [self.labels, *(of for _, of in trials)]) for it in self.labels}
        left, found = [it for it in best if best[it] < severity(self.labels[it])], []
        while left:
            mode, labels = max(trials, key=lambda trial: sum(severity(trial[1][it]) == best[it] for it in left))
            served = {it: labels[it] for it in left if severity(labels[it]) == best[it]}
            found.append(self.told(component, mode, served, self.own(component, better(self.labels, labels))))
            left = [it for it in left if it not in served]
        return found

    def spared(self, component, trials):
        """The first of the trials under which nothing is worse, where the component has a sequencer."""
        same = [(mode, labels) for mode, labels in trials if not better(self.labels, labels)]
        return [self.told(component, mode, self.own(component, labels), {}) for mode, labels in same[:1] if component.get("mode") == "order"]

    def own(self, component, labels):
        return {it: labels[it] for it in self.wiring.out_of(component["name"]) if it in labels}

    @staticmethod
    def told(component, mode, labels, worse):
        tried = {it: component[it] for it in component if it not in ("mode", "key")} | mode
        return {"component": component["name"], "mode": mode_of(mode), "streams": labels, "apart": list(worse),
                "changes": changes([(component, tried)])}


class Seals:
    """Other seals at sources of the topology, before it is planned."""

    def __init__(self, planned):
        self.planned, self.wiring = planned, Wiring(planned.topology)
        self.bad = list(dict.fromkeys(it.component.name for it in planned.after.beginnings()))

    def keys(self, component):
        """The seals of the sources upstream of a component, each with the sources that have none."""
        sources = {it: self.wiring.streams[it] for it in self.wiring.upstream(component) if self.wiring.is_source(it)}
        lacking = [it for it in sources if not sources[it].get("seal")]
        return [(key, lacking) for key in dict.fromkeys(tuple(it["seal"]) for it in sources.values() if it.get("seal"))]

    def has(self, source, key):
        return set(key) <= set(self.wiring.streams[source]["columns"])

    def would_be(self):
        """What the plan would be better for if sources had a seal that others upstream of the same component have."""
        wanted, found = dict.fromkeys(it for name in self.bad for it in self.wanted(name)), []
        for key, sources in sorted(wanted, key=lambda it: len(it[1])):
            streams, changed = self.better_with(key, sources)
            known = [it["streams"] for it in found if it["key"] == list(key) and set(it["sources"]) <= set(sources)]
            if any(is_bad(self.planned.after.labels[it]) for it in streams) and streams not in known:
                found.append({"sources": list(sources), "key": list(key), "streams": streams, "changes": changed})
        return found

    def wanted(self, component):
        """The seals to try for a component, each with the sources that get it: one, or all that can have it."""
        for key, lacking in self.keys(component):
            able = tuple(it for it in lacking if self.has(it, key))
            yield from ((key, (it,)) for it in able)
            yield from [(key, able)] * (len(able) > 1)

    def better_with(self, key, sources):
        """The streams that are better under the plan where some sources have a seal, but for sources; and what that
        plan changes."""
        text, names = self.planned.text, [it["name"] for it in self.planned.topology["source"]]
        for name in sources:
            text = with_values(text, "source", names.index(name), {}, {"seal": list(key)}, ["seal"])
        plan = self.planned.answer("plan", text).decode()
        before = {it: label for it, label in self.planned.after.labels.items() if not self.wiring.is_source(it)}
        found = better(labels_of(self.planned.answer("label", plan)) or before, before)
        return found, changes(zip(self.planned.planned.get("component", []), tomllib.loads(plan).get("component", [])))

    def in_the_way(self):
        """Unsealed sources without the columns of a seal for which a component could wait if it weren't for them: at the
        first component at which a bad label begins."""
        found = [(name, key, [it for it in lacking if not self.has(it, key) and not self.is_met_before(name, it)])
                 for name in self.bad for key, lacking in self.keys(name)]
        return [{"component": name, "key": list(key), "sources": sources} for name, key, sources in found if sources]

    def is_met_before(self, component, source):
        """Whether a bad label begins at a component between a source and this one."""
        before = [it for it in self.bad if set(self.wiring.out_of(it)) & set(self.wiring.upstream(component))]
        return any(source in self.wiring.upstream(it) and not set(self.wiring.out_of(component)) & set(self.wiring.upstream(it)) for it in before)


# ---- what a new mode changes


def changes(components):
    """Under new seals: the outputs that compare a port with what the same port filled."""
    sealed = [new for old, new in components if new.get("mode") == "seal" and mode_of(old) != mode_of(new)]
    return [told for it in sealed for told in changed_by(it)]


def changed_by(component):
    module = Module(text_of(component["module"])) if "module" in component else Module("")
    ports = {it: module.read_and_kept(it) for it in module.outputs()}
    outputs = [it for it in ports if ports[it]]
    told = {"component": component["name"], "mode": mode_of(component), "ports": sorted(set().union(*ports.values())), "outputs": outputs}
    return [told] if outputs else []


def waits(planned, old, new):
    """Under a new seal: the ports that only ask, and the streams for whose seals they wait."""
    if new.get("mode") != "seal" or mode_of(old) == mode_of(new):
        return []
    wiring, paths = Wiring(planned.planned), planned.after.paths(new["name"])
    keeping = {port for port, _, note in paths if note[1] == "W"}
    asking = dict.fromkeys(port for port, _, _ in paths if port not in keeping)
    questions = [it for port in asking for it in wiring.into_port(new["name"], port)]
    seals = [it for it in wiring.into(new["name"]) if set(key_of(planned.after.labels[it])) == set(new["key"]) and it not in questions]
    told = {"component": new["name"], "key": new["key"], "questions": questions, "seals": seals}
    return [told] if questions and seals else []


def agrees(planned, component):
    """Behind a sequencer: the outputs of which a row may be true for a moment, with the operators that make it so."""
    if "module" not in component or component.get("mode") != "order":
        return []
    module, paths = Module(text_of(component["module"])), planned.after.paths(component["name"])
    outputs = {output: module.momentary(output) for _, output, note in paths if note[0] == "O"}
    told = {"component": component["name"], "outputs": {it: outputs[it] for it in outputs if outputs[it]}}
    return [told] if told["outputs"] else []


# ---- and how it is written


def listed(names, word="and"):
    return f" {word} ".join(filter(None, (", ".join(names[:-1]), *names[-1:])))


def labelled(streams):
    return ", ".join(f"{name} {label}" for name, label in streams.items())


def but(changed):
    return "".join(f", but {reads_and_keeps(it)}" for it in changed)


def reads_and_keeps(it):
    return f"{it['component']} reads port {listed(it['ports'])} and keeps it"


def hint_lines(hints):
    for it in hints["could_be"]:
        mode = "" if it["mode"] == "free" else f" in {it['mode']}"
        apart = f"if {listed(it['apart'])} had a component of {'its' if len(it['apart']) == 1 else 'their'} own"
        yield f"could be: {labelled(it['streams'])}{mode}, {apart if it['apart'] else 'without a sequencer'}{but(it['changes'])}"
    for it in hints["would_be"]:
        yield f"would be: {labelled(it['streams'])}, if {listed(it['sources'])} were sealed by {', '.join(it['key'])}{but(it['changes'])}"
    for it in hints["in_the_way"]:
        has = "has" if len(it["sources"]) == 1 else "have"
        yield f"in the way at {it['component']}: {listed(it['sources'])} {has} no {', '.join(it['key'])}"
    for it in hints["changes"]:
        yield f"changes: {reads_and_keeps(it)}; in {it['mode']} each row sees its whole partition: {listed(it['outputs'])}"
    for it in hints["waits"]:
        yield f"waits: {listed(it['questions'])} at {it['component']} for the seal of {', '.join(it['key'])} of {listed(it['seals'])}"
    for it in hints["agrees"]:
        outputs = ", ".join(f"{name} ({', '.join(operators)})" for name, operators in it["outputs"].items())
        yield f"agrees: {it['component']} on {outputs}: what is true for a moment goes out, and nothing is taken back"
    yield from (f"hears nothing: {it}" for it in hints["hears_nothing"])
    yield from (f"goes nowhere: {it}" for it in hints["goes_nowhere"])
