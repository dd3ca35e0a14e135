"""The command `team page`: the page's process, until it is told to end."""
import argparse
import asyncio
import signal
import sys
from typing import Any

from estserve_client.texts import Failed

from ..limits import add_limits, fit_to, read_limits
from ..log import Log, fill_standard_streams, forward_all
from ..places import PAGE_SOCKET, add_state
from ..watchdog import raise_descriptors
from .options import Bad, add_options, read_options

NO_AIOHTTP = (
    "the page needs aiohttp, which {0} lacks: on Debian, apt-get install python3-aiohttp and start "
    "it by /usr/bin/python3; elsewhere, {0} -m pip install aiohttp"
)


def add_word(subparsers: Any) -> None:
    """Adds `page` to the words of the command `team`."""
    what = "serve the page of a gateway that runs on DIR, as a process of its own"
    parser = subparsers.add_parser("page", help=what, description=what)
    add_state(parser, argparse.SUPPRESS)
    add_limits(parser)
    parser.add_argument("--program", metavar="PATH", help="the program to try texts on")
    add_options(parser)
    parser.set_defaults(act=serve_page)


def serve_page(arguments: argparse.Namespace) -> None:
    """Serves the page until SIGTERM or SIGINT. Raises Failed."""
    if getattr(arguments, "state", None) is None:
        raise Failed("the team's folder is missing: --state DIR")
    try:
        options = read_options(arguments)
    except Bad as fault:
        raise Failed(str(fault)) from fault
    if options is None:
        raise Failed("where the page is to be served is missing: --http or --http-socket")
    fill_standard_streams()
    try:
        from .site import Site
    except ImportError as fault:
        raise Failed(NO_AIOHTTP.format(sys.executable)) from fault
    log, state = Log(), arguments.state.absolute()
    forward_all(log)
    limits = fit_to(read_limits(arguments.limit), raise_descriptors())
    program = arguments.program
    asyncio.run(run(lambda: Site(options, state, state / PAGE_SOCKET, limits, log, program)))


async def run(make: Any) -> None:
    """One page, from its start to its end. Raises Failed."""
    loop, told_to_end = asyncio.get_running_loop(), asyncio.Event()
    for number in (signal.SIGTERM, signal.SIGINT):
        loop.add_signal_handler(number, told_to_end.set)
    site = make()
    try:
        await site.start()
    except OSError as fault:
        raise Failed(f"HTTP cannot be served: {fault.strerror or fault}") from fault
    await told_to_end.wait()
    await site.stop()
