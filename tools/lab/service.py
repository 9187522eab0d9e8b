"""The service of a class, from its begin to its end."""

import asyncio
import logging
import os
import resource
import signal
import socket
from contextlib import suppress
from dataclasses import replace
from typing import Any

from aiohttp import web

import moving
from config import Lab
from guard import Door
from links import Links, table
from paths import Folder
from refusals import LabRefused, WrongConfiguration
from room import Room
from web_app import Site

# how often it is looked whose the folder is, in seconds
MOST_FILES, LOOK_EACH = 65536, 1.0
MOST_UNREAD = 128 << 10


def bound(lab: Lab) -> socket.socket:
    family = socket.AF_INET6 if ":" in lab.address else socket.AF_INET
    it = socket.socket(family, socket.SOCK_STREAM)
    it.setsockopt(socket.SOL_SOCKET, socket.SO_REUSEADDR, 1)
    # (each connection has it from here: how much the system keeps for a page that reads nothing)
    it.setsockopt(socket.SOL_SOCKET, socket.SO_SNDBUF, MOST_UNREAD)
    try:
        it.bind((lab.address, lab.port))
    except OSError as fault:
        raise WrongConfiguration(f"can't listen at {lab.address} port {lab.port}: {fault.strerror}: give another 'port' or 'address'") from fault
    return it


def more_files() -> None:
    """Lets the service have as many files open as it may."""
    _, most = resource.getrlimit(resource.RLIMIT_NOFILE)
    with suppress(ValueError, OSError):
        resource.setrlimit(resource.RLIMIT_NOFILE, (min(most, MOST_FILES) if most >= 0 else MOST_FILES, most))


async def watch_folder(folder: Folder) -> None:
    """Ends the service where another one has taken the class."""
    while folder.is_ours():
        await asyncio.sleep(LOOK_EACH)
    raise LabRefused("LostClass", f"another service has taken {folder.top} meanwhile: nothing more is written to it from here")


async def serve(lab: Lab, stands_by: bool = False, shows_links: bool = True) -> None:
    logging.basicConfig(level=logging.WARNING, format="lab: %(message)s")
    more_files()
    folder = Folder(lab.folder, stands_by)
    links = Links(folder.top, lab.students)
    listening = bound(lab)
    port = listening.getsockname()[1]
    lab = replace(lab, port=port)
    room = Room(lab, folder)
    is_told_to_end = asyncio.Event()
    for name in (signal.SIGTERM, signal.SIGINT, signal.SIGHUP):
        asyncio.get_running_loop().add_signal_handler(name, is_told_to_end.set)
    runner = None
    try:
        await room.open()
        site = Site(lab, room, links)
        runner = web.AppRunner(site.app(), access_log=None, handle_signals=False)
        await runner.setup()
        assert runner.server is not None
        site.door = Door(runner.server, lab.limits.connections)
        server = await asyncio.get_running_loop().create_server(site.door, sock=listening, backlog=1024)
        if not os.environ.get("LAB_AGAIN"):
            print(table(lab, links) if shows_links else f"{lab.name} is at {lab.address_of_pages()}", flush=True)
        works = is_told_to_end.wait(), site.door.sweep(), moving.watch(room), watch_folder(folder)
        beside: list["asyncio.Task[Any]"] = [asyncio.create_task(it) for it in works]
        await asyncio.wait([room.fault, *beside], return_when=asyncio.FIRST_COMPLETED)
        server.close()
        for it in (room.fault, *beside):
            if it.done() and not it.cancelled() and (fault := it.exception()):
                raise fault
            it.cancel()
    finally:
        room.is_over = True
        try:
            if runner is not None:
                await runner.cleanup()
            await room.close()
        finally:
            folder.close()
