"""What the daemon itself gives an administrator, which the gate tries too: its status and the page in a browser, who
may come in, tokens of grants, sockets, shards, what is refused at a start, and the pictures of scripts."""

from functools import partial

from checkouts import TOP
from daemon_admission import admission_checks
from daemon_epochs import epoch_checks
from daemon_fence_order import fence_order_checks
from daemon_fences import GRANTS, fence_checks
from daemon_sharded import sharded_checks
from daemon_socket_files import socket_file_checks
from daemon_status import status_checks
from daemon_status_clients import status_client_checks
from daemon_unix import unix_checks
from operate_needs import Checks, Needs, ran, text_of
from operate_package import Built
from running import Wrong
from timelines import timeline_checks

# The seconds of the page's tests at most, with what they install.
PAGE = 400


def page_is_tried(built: Built) -> None:
    ended = ran([TOP / "tests/status_page", built.program], PAGE)
    if ended.returncode:
        raise Wrong(text_of(ended))


def daemon_checks(built: Built, needs: Needs) -> Checks:
    kinds = [status_checks, status_client_checks, admission_checks, epoch_checks, fence_order_checks, sharded_checks]
    for checks in [*kinds, socket_file_checks, unix_checks, timeline_checks]:
        yield from checks(built.program)
    yield from fence_checks(built.program, GRANTS)
    page = "the page, in a browser"
    packages = ["chromium", "nodejs", "node-ws"]
    yield from needs.each(page, packages, lambda: iter([(page, partial(page_is_tried, built))]))
