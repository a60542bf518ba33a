"""Public ANTLR's Python runtime, asked as the oracle is: a word list in, its network out in the oracle's text form
(`dump` in src/lib.rs), or where it gave up. Importing this fails where the package is not installed."""

import importlib.metadata
import os
import traceback

from antlr4.atn.ATNDeserializationOptions import ATNDeserializationOptions
from antlr4.atn.ATNDeserializer import ATNDeserializer

PACKAGE = "antlr4-python3-runtime"
VERSION = importlib.metadata.version(PACKAGE)

# Which members of an edge hold p, q and r, by edge type; a set edge's ranges are made by `edge`.
EDGE_DATA = {
    2: ["start", "stop"], 3: ["ruleIndex", "followState", "precedence"], 4: ["ruleIndex", "predIndex", "isCtxDependent"], 5: ["label_"],
    6: ["ruleIndex", "actionIndex", "isCtxDependent"], 10: ["precedence"],
}

# Which members of an action hold its data, by action type; the other types hold none.
ACTION_DATA = {0: ["channel"], 1: ["ruleIndex", "actionIndex"], 2: ["mode"], 5: ["mode"], 7: ["type"]}


class Told:
    """What the runtime says of one list: `text` is `OK <network>` or `ERR <class>, <file> <line>`, `read` the number of
    words it read, `atn` its own network, none where it gave up."""

    def __init__(self, words, verify=True):
        options = ATNDeserializationOptions()
        options.verifyATN = verify
        decoder = ATNDeserializer(options)
        self.atn = None
        try:
            self.atn = decoder.deserialize(words)
            self.text = "OK " + network(self.atn)
        except Exception as error:  # it has no error class of its own: whatever comes is its way to refuse
            self.text = "ERR %s, %s" % (type(error).__name__, where(error))
        self.read = decoder.pos


def where(error):
    """The file and the line that gave up. checkCondition only passes on what its caller found, so the caller counts."""
    frames = [frame for frame in traceback.extract_tb(error.__traceback__) if frame.name != "checkCondition"]
    return "%s %d" % (os.path.basename(frames[-1].filename), frames[-1].lineno)


def number(state):
    """A state's number; none is -1. The runtime writes 0 where a rule has no stop."""
    return state.stateNumber if state else -1


def network(atn):
    parts = [str(atn.maxTokenType)]
    for state in atn.states:
        # other classes have a loopBackState too, which the runtime derives: see `beyond`
        loop_back = state.loopBackState if state.stateType == 12 else None
        flags = [getattr(state, name, None) for name in ("nonGreedy", "isPrecedenceRule", "isPrecedenceDecision")]
        parts.append("S %d %d %d %d %d [" % (
            state.stateType, state.ruleIndex, number(getattr(state, "endState", None)), number(loop_back),
            sum(1 << bit for bit, flag in enumerate(flags) if flag)))
        parts += map(edge, state.transitions)
        parts.append("]")
    for start, stop, token in zip(atn.ruleToStartState, atn.ruleToStopState, atn.ruleToTokenType or []):
        parts.append("R %d %d %d" % (number(start), number(stop), token))
    parts += ["M %d" % number(state) for state in atn.modeToStartState]
    parts += ["D %d" % number(state) for state in atn.decisionToState]
    for action in atn.lexerActions or []:
        data = [getattr(action, name) for name in ACTION_DATA.get(action.actionType, [])] + [0, 0]
        parts.append("A %d %d %d" % (action.actionType, data[0], data[1]))
    return " ".join(parts)


def edge(t):
    """An edge as the oracle writes it. Tail calls do not exist here: their mark is always 0."""
    kind = t.serializationType
    data = [getattr(t, name) for name in EDGE_DATA.get(kind, [])] + [0, 0, 0]
    if kind == 3:
        data[1] = number(t.followState)
    if kind in (7, 8):
        data[0] = "{%s}" % ",".join("%d..%d" % (i.start, i.stop - 1) for i in t.label.intervals or [])
    return "( %d %d %s %d %d 0 )" % (kind, number(t.target), *data[:3])


def beyond(atn):
    """What the runtime derives and neither the Rust nor document 01 has."""
    found = []
    for state in atn.states:
        for name, member in (("start", "startState"), ("stop", "stopState"), ("loop back", "loopBackState")):
            linked = getattr(state, member, None)
            if linked and (state.stateType, name) != (12, "loop back"):
                found.append("%d %s %d" % (state.stateNumber, name, linked.stateNumber))
        if getattr(state, "decision", -1) >= 0:
            found.append("%d decision %d" % (state.stateNumber, state.decision))
        for t in state.transitions:
            rule = getattr(t, "outermostPrecedenceReturn", -1)
            if rule >= 0:
                found.append("%d to %d returns from rule %d" % (state.stateNumber, t.target.stateNumber, rule))
    return ", ".join(found)


def matching(atn, symbols, least, most):
    """Whether each edge matches each symbol: a string of 1 and 0 for each edge, state by state."""
    return "MATCH" + "".join(
        " " + "".join("1" if t.matches(symbol, least, most) else "0" for symbol in symbols)
        for state in atn.states for t in state.transitions)
