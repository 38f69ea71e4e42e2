"""The rules of docs/MACHINE.md and docs/FORMATS.md once more, in plain Python over lists.

It is a second reading of the rules, which shares nothing with the crates: where the program and the model answer a
script alike, the definitions say what the documents say. It walks all its lists, and knows only simple URLs.
"""

import json

from messages import PORTS, Refused, bucket_of, check_message, is_whole, origin_of, value_of

LONGEST_NAME, MOST_REQUESTS, MOST_SIGNALS, MOST_AGENTS = 1024, 65536, 1024, 4096


# ---- a manager


class Request:
    def __init__(self, number, agent, name, shared, signal):
        self.number, self.agent, self.name, self.shared, self.signal = number, agent, name, shared, signal
        # The reason of the phase aborted: a word, or a code, which may be 0.
        self.phase, self.reason = "pending", None

    def shown(self):
        mode = "shared" if self.shared else "exclusive"
        return {"clientId": f"client-{self.agent}", "mode": mode, "name": self.name}


class Manager:
    def __init__(self):
        self.names, self.held, self.pending = [], [], []
        # An agent has its kind, whether it is active, and how many signals it made; a signal its agent and its reason.
        self.agents, self.signals = {}, {}
        self.last = {"agent": 0, "request": 0, "signal": 0}
        self.entries = 0

    def number(self, of):
        self.last[of] += 1
        return self.last[of]

    def process_queues(self):
        for name in self.names:
            for request in self.granted(name):
                self.pending.remove(request)
                self.held.append(request)
                request.phase = "granted"
        self.names = [name for name in self.names if self.of(name, self.held) or self.of(name, self.pending)]
        self.entries += 1

    @staticmethod
    def of(name, requests):
        return [request for request in requests if request.name == name]

    def granted(self, name):
        """What a name's queue grants."""
        locks, queue = self.of(name, self.held), self.of(name, self.pending)
        if any(not lock.shared for lock in locks) or not queue:
            return []
        if not locks and not queue[0].shared:
            return queue[:1]
        first = next((i for i, request in enumerate(queue) if not request.shared), len(queue))
        return queue[:first]

    def end(self, which, phase, requests, reason=None):
        for request in [request for request in requests if which(request)]:
            requests.remove(request)
            request.phase, request.reason = phase, reason

    def enter(self, kind):
        if len(self.agents) >= MOST_AGENTS:
            raise Refused("Limit", "agents")
        agent = self.number("agent")
        self.agents[agent] = {"kind": kind, "active": True, "made": 0}
        self.entries += 1
        return agent

    def leave(self, agent):
        self.end(lambda request: request.agent == agent, "aborted", self.pending)
        self.end(lambda request: request.agent == agent, "released", self.held)
        self.signals = {number: it for number, it in self.signals.items() if it["agent"] != agent}
        del self.agents[agent]
        self.process_queues()

    def set_active(self, agent, active):
        if self.agents[agent]["kind"] == "worker":
            raise Refused("NotAWindow", "active")
        self.agents[agent]["active"] = active
        self.entries += 1

    def new_signal(self, agent):
        if self.agents[agent]["made"] >= MOST_SIGNALS:
            raise Refused("Limit", "signals")
        self.agents[agent]["made"] += 1
        signal = self.number("signal")
        self.signals[signal] = {"agent": agent, "reason": None}
        self.entries += 1
        return signal

    def signal(self, agent, number):
        found = self.signals.get(number)
        if not found or found["agent"] != agent:
            raise Refused("NoSuch", "signal")
        return found

    def check_active(self, agent):
        if not self.agents[agent]["active"]:
            raise Refused("InvalidStateError", "inactive")

    def check_request(self, agent, name, shared, if_available, steal, signal):
        self.check_active(agent)
        if name.startswith("-"):
            raise Refused("NotSupportedError", "reserved-name")
        if steal and if_available:
            raise Refused("NotSupportedError", "steal-if-available")
        if steal and shared:
            raise Refused("NotSupportedError", "steal-shared")
        if signal is not None and (steal or if_available):
            raise Refused("NotSupportedError", "signal-combined")
        reason = None if signal is None else self.signal(agent, signal)["reason"]
        if is_whole(reason):
            raise Refused("AbortCode", "signal-aborted", reason=reason)
        if reason is not None:
            raise Refused(reason, "signal-aborted")
        if len(name.encode()) > LONGEST_NAME:
            raise Refused("Limit", "name-length")
        if len(self.held) + len(self.pending) >= MOST_REQUESTS:
            raise Refused("Limit", "requests")

    def request(self, agent, name, shared, if_available, steal, signal):
        self.check_request(agent, name, shared, if_available, steal, signal)
        request = Request(self.number("request"), agent, name, shared, signal)
        locks, queue = self.of(name, self.held), self.of(name, self.pending)
        is_free = not queue and (not locks or shared and all(lock.shared for lock in locks))
        if if_available and not is_free:
            request.phase = "unavailable"
            self.entries += 1
            return request
        if name not in self.names:
            self.names.append(name)
        if steal:
            self.end(lambda lock: lock.name == name, "stolen", self.held)
            self.pending.insert(0, request)
        else:
            self.pending.append(request)
        self.process_queues()
        return request

    def take(self, request):
        request.phase = "taken"
        self.entries += 1

    def release(self, agent, number):
        lock = next((lock for lock in self.held if (lock.agent, lock.number) == (agent, number)), None)
        if not lock:
            return None
        self.held.remove(lock)
        lock.phase = "released"
        self.process_queues()
        return lock

    def abort(self, agent, number, reason):
        signal = self.signal(agent, number)
        if signal["reason"] is not None:
            return "already-aborted"
        signal["reason"] = reason
        self.end(lambda request: request.signal == number, "aborted", self.pending, reason)
        self.end(lambda lock: lock.signal == number and lock.phase == "granted", "aborted", self.held, reason)
        self.process_queues()
        return "done"

    def query(self, agent):
        self.check_active(agent)
        waiting = [request for name in self.names for request in self.of(name, self.pending)]
        return {"held": [lock.shown() for lock in self.held], "pending": [request.shown() for request in waiting]}


# ---- agents, as labels speak for them


class Agent:
    """An agent of a manager. Its requests are those whose end it wasn't told, each with the phase told last."""

    def __init__(self, manager, kind):
        self.manager, self.number = manager, manager.enter(kind)
        self.requests = []

    def client(self):
        return f"client-{self.number}"

    def signal(self, message):
        return {"signal": self.manager.new_signal(self.number)}

    def request(self, message):
        options = message.get("options") or {}
        request = self.manager.request(
            self.number,
            message["name"],
            options.get("mode") == "shared",
            options.get("ifAvailable", False),
            options.get("steal", False),
            options.get("signal"),
        )
        self.requests.append((request, "pending"))
        return {"request": request.number}

    def release(self, message):
        lock = self.manager.release(self.number, message["request"])
        self.requests = [(request, told) for request, told in self.requests if request is not lock]
        return {"release": "released" if lock else "not-held"}

    def abort(self, message):
        return {"abort": self.manager.abort(self.number, message["signal"], message.get("reason", "AbortError"))}

    def active(self, message):
        self.manager.set_active(self.number, message["active"])
        return {"active": message["active"]}

    def query(self, message):
        return self.manager.query(self.number)

    def close(self):
        self.manager.leave(self.number)

    def notices(self):
        """What a reply tells. Locks that are granted are taken by it."""
        notices, left = [], []
        for request, told in self.requests:
            if request.phase == "granted":
                self.manager.take(request)
            if request.phase != told:
                notices.append(notice(request))
            if request.phase in ("pending", "taken"):
                left.append((request, request.phase))
        self.requests = left
        return notices


def notice(request):
    told = {"phase": "granted" if request.phase == "taken" else request.phase, "request": request.number}
    return told if request.reason is None else told | {"reason": request.reason}


class OpaqueAgent:
    """An agent of an opaque origin, which has no manager."""

    def __init__(self, kind):
        self.is_window, self.is_active = kind == "window", True

    def client(self):
        return None

    def signal(self, message):
        raise Refused("SecurityError", "opaque-origin")

    def request(self, message):
        if not self.is_active:
            raise Refused("InvalidStateError", "inactive")
        raise Refused("SecurityError", "opaque-origin")

    query = request

    def release(self, message):
        return {"release": "not-held"}

    def abort(self, message):
        raise Refused("NoSuch", "signal")

    def active(self, message):
        if not self.is_window:
            raise Refused("NotAWindow", "active")
        self.is_active = message["active"]
        return {"active": message["active"]}

    def close(self):
        pass

    def notices(self):
        return []


# ---- a script


class World:
    def __init__(self):
        self.managers, self.agents = {}, {}

    def reply(self, line):
        """The reply to a line, without LF."""
        return json.dumps(self.answer(line), ensure_ascii=False, separators=(",", ":"), sort_keys=True).encode()

    def answer(self, line):
        number = None
        try:
            message = value_of(line)
            if not isinstance(message, dict):
                raise Refused("NotAnObject", "json")
            if not is_whole(message.get("id")):
                raise Refused("BadId", "id")
            number = message["id"]
            check_message(message)
            agent = self.speaker(message)
            if message["op"] in ("open", "close"):
                return {"id": number, "notices": [], "ok": self.come_or_go(agent, message)}
        except Refused as why:
            return {"id": number, "notices": [], "error": why.error}
        try:
            said = {"ok": {} if message["op"] == "poll" else getattr(agent, message["op"])(message)}
        except Refused as why:
            said = {"error": why.error}
        return {"id": number, "notices": agent.notices(), **said}

    def speaker(self, message):
        agent = self.agents.get(message["agent"])
        if agent and message["op"] == "open":
            raise Refused("AlreadyOpen", "session")
        if not agent and message["op"] != "open":
            raise Refused("NotOpen", "session")
        return agent

    def come_or_go(self, agent, message):
        if agent:
            agent.close()
            del self.agents[message["agent"]]
            return {}
        # The URL's fault comes before the bucket's.
        origin = origin_of(message["url"])
        bucket, kind = bucket_of(message), message.get("kind", "window")
        if origin:
            agent = Agent(self.managers.setdefault((origin, bucket), Manager()), kind)
        else:
            agent = OpaqueAgent(kind)
        self.agents[message["agent"]] = agent
        return {"client": agent.client()}

    def audit(self):
        """A line for each manager where something was recorded."""
        for key in sorted(self.managers):
            (scheme, host, port), bucket = key
            shown = "" if port == PORTS[scheme] else f":{port}"
            named = {} if bucket == "default" else {"bucket": bucket}
            counted = {"entries": self.managers[key].entries, "legal": True}
            line = {**named, **counted, "origin": f"{scheme}://{host}{shown}"}
            yield json.dumps(line, ensure_ascii=False, separators=(",", ":")).encode()
