"""Measures servers behind dnsdist, with the settings of contrib/dnsdist: one, two and three of them, beside NSD behind the same."""
import contextlib
import pathlib
import shutil

import loads
from behind_dnsdist import dnsdist
from behind_dnsdist import running as fronted
from loads import DATAGRAMS, TURNS, asked, checked, middle, processor_seconds, running
from ports import server_ports
from stores import FILES, PROGRAM

TURNS_OF_EACH, CLIENTS, MOST = 5, 32, 3


def measured(load, number, processes, seconds, drawn):
    """Replies a second, and the microseconds of processor a reply of each of these groups of processes."""
    before = [sum(map(processor_seconds, group)) for group in processes]
    replies, last = asked(load, DATAGRAMS, number, CLIENTS, seconds, drawn)
    checked(DATAGRAMS, last)
    took = [sum(map(processor_seconds, group)) - begun for group, begun in zip(processes, before)]
    return (replies / seconds, *(1e6 * it / replies for it in took))


def copies(folder, room):
    """Folders with the files of one."""
    for number in range(MOST):
        copy = pathlib.Path(room) / f"copy{number}"
        copy.mkdir()
        for name in FILES:
            shutil.copy(folder / name, copy)
        yield copy


@contextlib.contextmanager
def in_front(room, numbers, threads):
    """A dnsdist in front of servers at these numbers, and its own number."""
    with contextlib.ExitStack() as open_now:
        number, figures = server_ports()
        words = {"addresses": [f"127.0.0.1:{number}"], "figures": f"127.0.0.1:{figures}", "most_a_second": 0, "threads": threads}
        run = open_now.enter_context(fronted(pathlib.Path(room), ports=numbers, **words))
        yield run, number


def show(what, found):
    rate, *took = middle(found)
    told = ", ".join(f"{it:.1f} us" for it in took)
    print(f"{what}: {rate:.0f} replies/s; processor a reply: {told}", flush=True)


def behind(load, room, folder, drawn, seconds, names):
    """Prints the middle figures: of each server alone, and behind dnsdist with one thread and with two."""
    if dnsdist() is None:
        print("no dnsdist here: nothing is measured behind it")
        return
    print(f"{CLIENTS} clients, {names} names by Zipf's law; the processor time of the servers, and that of dnsdist")
    with contextlib.ExitStack() as open_now:
        served = []
        for copy in copies(folder, room):
            numbers = server_ports()
            run = open_now.enter_context(running([PROGRAM, "serve", *map(str, numbers), TURNS], copy, numbers[0]))
            served.append((run.pid, numbers[0]))
        alone_and_behind(load, room, "servers", [served[: it + 1] for it in range(MOST)], drawn, seconds)
    for count in range(1, MOST + 1):
        with loads.nsd(pathlib.Path(room), names, count) as other:
            if other:
                alone_and_behind(load, room, f"NSD with {count} processes", [[(other[0].pid, other[1])]], drawn, seconds)


def alone_and_behind(load, room, what, groups, drawn, seconds):
    """The first of the groups without dnsdist, and each of them behind it."""
    (process, number), = groups[0][:1]
    show(f"{what}: one, alone", [measured(load, number, [[process]], seconds, drawn) for _ in range(TURNS_OF_EACH)])
    for group in groups:
        for threads in (1, 2):
            with in_front(room, [number for _, number in group], threads) as (front, place):
                processes = [[process for process, _ in group], [front.pid]]
                found = [measured(load, place, processes, seconds, drawn) for _ in range(TURNS_OF_EACH)]
            show(f"{what}: {len(group)} behind dnsdist, {threads} of whose threads take datagrams", found)
