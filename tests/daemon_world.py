"""The model of the rules (model.py) as a daemon is held to them: an agent a connection, with or without pushes."""

import json

from messages import Refused, value_of
from model import Agent, World


class DaemonWorld(World):
    """A world whose managers end with their last agent, and begin again with number 1."""

    def come_or_go(self, agent, message):
        answer = super().come_or_go(agent, message)
        self.managers = {key: manager for key, manager in self.managers.items() if manager.agents}
        return answer

    def pushes(self):
        """What each label is told without asking, after a message of another was answered."""
        for label, agent in self.agents.items():
            if isinstance(agent, Agent):
                notices = agent.notices()
                if notices:
                    told = {"id": None, "notices": notices, "ok": {}}
                    yield label, json.dumps(told, separators=(",", ":"), sort_keys=True)


def speaker_of(line, other):
    """The label of a line, or another where it has none."""
    try:
        value = value_of(line)
    except Refused:
        return other
    label = value.get("agent") if isinstance(value, dict) else None
    return label if isinstance(label, str) else other


def said_by(label, line):
    """The line with this label, if it is an object: a connection needs none, so that it can't be wrong."""
    try:
        value = json.loads(line)
        value["agent"] = label
        return json.dumps(value).encode() if speaker_of(line, None) != label else line
    except (ValueError, TypeError, RecursionError):
        return line
