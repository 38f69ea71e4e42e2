"""What the daemon counts, before Debian's Prometheus: its tool accepts the text, and the server takes it in."""

import json
import time
import urllib.request
from pathlib import Path
from subprocess import DEVNULL, Popen
from tempfile import TemporaryDirectory

from network import free_port
from operate_needs import Checks, Needs, environment, ran, text_of
from operate_package import Built
from running import SECONDS, Wrong, expect
from status_server import Shown

CONFIGURATION = """
global:
  scrape_interval: 1s
scrape_configs:
  - job_name: weblocks
    static_configs:
      - targets: ["127.0.0.1:{port}"]
"""


def promtool_accepts(built: Built) -> None:
    with Shown(built.program) as daemon:
        peer = daemon.opened()
        ended = ran(["promtool", "check", "metrics"], input=daemon.get("/metrics").body)
        expect("promtool's status", (ended.returncode, text_of(ended)), (0, ""))
        peer.leave()


def value_in(port: int, name: str) -> str | None:
    """The value of a metric that a Prometheus server has, if it has one by now."""
    try:
        with urllib.request.urlopen(f"http://127.0.0.1:{port}/api/v1/query?query={name}", timeout=SECONDS) as answer:
            found = json.load(answer)["data"]["result"]
    except OSError:
        return None
    return str(found[0]["value"][1]) if found else None


def prometheus_takes_it_in(built: Built) -> None:
    with Shown(built.program) as daemon, TemporaryDirectory() as room:
        peers = [daemon.opened(), daemon.opened()]
        settings = Path(room, "prometheus.yml")
        settings.write_text(CONFIGURATION.format(port=daemon.status_port))
        port = free_port()
        places = [f"--config.file={settings}", f"--storage.tsdb.path={room}/data"]
        words = ["prometheus", *places, f"--web.listen-address=127.0.0.1:{port}"]
        child = Popen(words, env=environment(), stdin=DEVNULL, stdout=DEVNULL, stderr=DEVNULL)
        try:
            end = time.monotonic() + 3 * SECONDS
            while value_in(port, "weblocks_connections") != "2":
                if time.monotonic() > end or child.poll() is not None:
                    raise Wrong("Prometheus never had the number of connections")
                time.sleep(0.2)
            expect("whether it is up", value_in(port, "up"), "1")
        finally:
            child.kill()
            child.wait()
        for peer in peers:
            peer.leave()


def status_checks(built: Built, needs: Needs) -> Checks:
    def checks() -> Checks:
        yield "promtool accepts the metrics", lambda: promtool_accepts(built)
        yield "Prometheus takes the metrics in", lambda: prometheus_takes_it_in(built)

    yield from needs.each("Prometheus", ["prometheus"], checks)
