"""The command `team`: the gateway of one team, until it is told to end."""
import argparse
import asyncio
import contextlib
import functools
import importlib.util
import os
import pathlib
import signal
import socket
import sys
from typing import Any, Callable, List, NoReturn, Optional

from estserve_client.commands import add_program
from estserve_client.connection import find_program
from estserve_client.messages import TELLER
from estserve_client.programs import program_of

from . import HELP, page_process, record_words
from .gateway import Gateway
from .limits import Limits, add_limits, fit_to, read_limits
from .listening import Listener
from .log import fill_standard_streams, forward_all, write_now
from .loop import Policy
from .metrics import CountsClient
from .page_process import PageProcess
from .people import People, peer_uid, read_people
from .places import Failed, Places, add_state, bind_socket, read_plain_file
from .reads.client import add_words
from .record import place_of
from .sessions import MOST_SENDS
from .starting import open_record, put_aside
from .unix_clients import TeamClient, WordClient
from .visiting.page_client import PageClient
from .watchdog import Watchdog, raise_descriptors
from .web import serving
from .web.options import Bad, Options, add_options, read_options

PEOPLE_BYTES = 1 << 20  # of the file of people


def add_parser(subparsers: Any) -> None:
    """Adds `team` to the commands of the client: by itself it serves, with a word it asks a gateway
    that runs."""
    parser = subparsers.add_parser("team", help=HELP)
    add_state(parser)
    parser.add_argument(
        "--people",
        metavar="FILE",
        type=pathlib.Path,
        help="who may log in as whom: the table [people] of a TOML file",
    )
    add_program(parser)
    parser.add_argument(
        "--group", metavar="NAME", help="the Unix group of the team (the folder's own)"
    )
    add_record_options(parser)
    parser.add_argument("--most-sends", type=int, default=MOST_SENDS, help=argparse.SUPPRESS)
    add_options(parser)
    page_process.add_options(parser)
    parser.set_defaults(act=serve_team)
    subparsers = parser.add_subparsers(
        metavar="WORD",
        help="a question to the gateway that runs on DIR; without one, serve the team",
    )
    add_words(subparsers)
    record_words.add_words(subparsers)
    serving.add_word(subparsers)


def add_record_options(parser: argparse.ArgumentParser) -> None:
    """Adds what is said of the record, and the limits."""
    parser.add_argument(
        "--until",
        metavar="PLACE",
        help="start before this place of the record, policy:17 or 3:45, and keep the rest aside",
    )
    parser.add_argument(
        "--accept",
        action="store_true",
        help="take the record as it stands, where a start was refused since it was changed",
    )
    add_limits(parser)


def people_of(path: pathlib.Path) -> People:
    """The people of a file, or of this machine where none is named. Raises Failed."""
    if path is None:
        return People()
    from estserve_client.policy_file import BadPolicy

    try:
        return People(read_people(read_plain_file(path, PEOPLE_BYTES)))
    except (OSError, UnicodeDecodeError, BadPolicy) as fault:
        raise Failed(f"{path}: {fault}") from fault


def serve_team(arguments: argparse.Namespace) -> None:
    """Serves the team until SIGTERM or SIGINT. Raises Failed."""
    if arguments.state is None:
        raise Failed("the team's folder is missing: --state DIR")
    arguments.http_options = http_options_of(arguments)
    limits = read_limits(arguments.limit)
    people, program = people_of(arguments.people), str(find_program(program_of(arguments)))
    fill_standard_streams()
    with Places(arguments.state, arguments.group) as places:
        if arguments.accept:
            open_record(places, program, is_accepted=True).close()
        if arguments.until is not None:
            tell_aside(places, arguments.until)
        watchdog = Watchdog()
        try:
            asyncio.set_event_loop_policy(Policy())
            asyncio.run(run(places, people, program, arguments, limits, watchdog))
        except Exception as fault:  # where no thread can be started, Python's own end fails too
            watchdog.hurry()
            end_with(fault)
        watchdog.stop()


def http_options_of(arguments: argparse.Namespace) -> Optional[Options]:
    """What the page is to serve; None where this gateway starts no page. Raises Failed, also where
    there is no aiohttp, before anything is made."""
    try:
        found = read_options(arguments)
    except Bad as fault:
        raise Failed(str(fault)) from fault
    if found is not None and importlib.util.find_spec("aiohttp") is None:
        raise Failed(serving.NO_AIOHTTP.format(sys.executable))
    return found


def end_with(fault: Exception) -> NoReturn:
    """Ends the process with status 1, whether or not the fault can be told."""
    if not isinstance(fault, Failed) and isinstance(fault.__context__, Failed):
        fault = fault.__context__
    write_now(2, f"{TELLER.name}: {fault}\n".encode(errors="replace"))
    os._exit(1)


def tell_aside(places: Places, text: str) -> None:
    """Keeps a part of the record aside, and tells how much. Raises Failed."""
    try:
        place = place_of(text)
    except ValueError:
        raise Failed(
            f"{text} is no place of the record: policy:17, or 3:45 for place 45 of slot 3"
        ) from None
    count = put_aside(places, place)
    print(f"{count} entries are kept aside, from {place} on", flush=True)


def end_once(told: "asyncio.Future[None]") -> None:
    """Tells that the gateway is to end, if nobody has."""
    if not told.done():
        told.set_result(None)


async def run(
    places: Places,
    people: People,
    program: str,
    arguments: argparse.Namespace,
    limits: Limits,
    watchdog: Watchdog,
) -> None:
    """One gateway, from its start to its end. Raises Failed."""
    loop, most = asyncio.get_running_loop(), arguments.most_sends
    gateway = Gateway(places, people, program, most, fit_to(limits, raise_descriptors()))
    gateway.watchdog = watchdog
    forward_all(gateway.log)
    gateway.tell_doubts()
    for orphan in places.orphans:
        gateway.log(f"the process {orphan} of an earlier gateway was ended")
    if places.children.fault:
        gateway.log(places.children.fault)
    told_to_end = loop.create_future()
    for number in (signal.SIGTERM, signal.SIGINT):
        loop.add_signal_handler(number, end_once, told_to_end)
    with contextlib.suppress(ValueError):  # where SIGHUP can't be handled, it ends the process
        loop.add_signal_handler(signal.SIGHUP, read_people_again, gateway, arguments.people)
    starting = asyncio.ensure_future(gateway.start())
    await asyncio.wait(
        {starting, told_to_end, gateway.finished}, return_when=asyncio.FIRST_COMPLETED
    )
    if not starting.done() or starting.exception():
        gateway.close()
        (result,) = await asyncio.gather(starting, return_exceptions=True)
        if told_to_end.done() and not gateway.finished.done():
            return
        raise result if isinstance(result, Exception) else Failed(
            "the gateway was ended while it started"
        )
    await serve(gateway, told_to_end, arguments)


async def serve(
    gateway: Gateway, told_to_end: "asyncio.Future[None]", arguments: argparse.Namespace
) -> None:
    """Takes clients until the gateway is told to end, or has a fault. Raises Failed."""
    paths = [
        (gateway.places.team_socket, TeamClient),
        (gateway.places.gateway_socket, WordClient),
        (gateway.places.metrics_socket, CountsClient),
    ]
    page = page_of(gateway, arguments)
    if gateway.page_users:
        paths.append((gateway.places.page_socket, PageClient))
    servers: List[Listener] = []
    try:
        for path, kind in paths:
            make = functools.partial(admit, kind, gateway)
            servers.append(Listener(bind_socket(path), make, gateway.log, gateway.reserve))
        gateway.visiting.begin()
        if page is not None:
            starting = asyncio.ensure_future(page.start())
            await asyncio.wait(
                {starting, told_to_end, gateway.finished},
                return_when=asyncio.FIRST_COMPLETED,
            )
        tell_ready(gateway)
        await asyncio.wait({told_to_end, gateway.finished}, return_when=asyncio.FIRST_COMPLETED)
    finally:
        if page is not None:
            await page.stop()
        await close_all(gateway, servers, [path for path, _ in paths])
    if gateway.finished.done():
        gateway.finished.result()


async def close_all(gateway: Gateway, servers: List[Listener], paths: List[pathlib.Path]) -> None:
    """Takes no more clients, logs out those that there are, and ends the server. Raises Failed."""
    for server, path in zip(servers, paths):
        server.close()
        with contextlib.suppress(OSError):
            path.unlink()
    if gateway.finished.done():
        gateway.close()
    else:
        await gateway.visiting.stop()
        await gateway.stop()
    for client in list(gateway.clients):
        client.close()
    await asyncio.sleep(0)


def page_of(gateway: Gateway, arguments: argparse.Namespace) -> Optional[PageProcess]:
    """The page that this gateway starts, if it does; the gateway knows as whom pages come. Raises
    Failed."""
    options, name = arguments.http_options, arguments.page_user
    user = None
    if options is not None:
        user = page_process.user_of(name, gateway.state)
        gateway.page_users.add(os.geteuid() if user is None else user.uid)
    elif name is not None:
        gateway.page_users.add(page_process.uid_of(name))
    is_header = options is not None and options.header is not None
    gateway.visiting.names_are_trusted = arguments.page_names or is_header
    return options and PageProcess(gateway, options, arguments.limit, user)


def admit(kind: Callable[..., Any], gateway: Gateway, connection: socket.socket) -> Any:
    """The client of a connection that was just made. Raises Refused, where it is one too many."""
    uid = peer_uid(connection)
    gateway.accounts.connect(uid)
    client = kind(gateway, gateway.clients)
    client.uid = uid
    return client


def read_people_again(gateway: Gateway, path: pathlib.Path) -> None:
    """Takes the file of people as it is now. One that is wrong changes nothing."""
    try:
        gateway.follow_people(people_of(path))
    except Failed as fault:
        gateway.log(f"the people stay as they were: {fault}", "people")


def tell_ready(gateway: Gateway) -> None:
    """Tells that clients may come: on standard output, and to systemd where it waits for that."""
    with contextlib.suppress(OSError, ValueError):
        print(f"ready: {gateway.places.team_socket}", flush=True)
    if gateway.watchdog is not None:
        gateway.watchdog.tell(b"READY=1")
