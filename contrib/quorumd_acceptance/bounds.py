"""What each test has to keep to, in seconds, by the times of the image. Upper bounds grow by `slow`, the load of the hosts, and lower ones never do; nor does
the time of a watchdog, which is a device."""
from dataclasses import dataclass

from .judge import ANY, OTHER, SAME, SIGHT, Bound, Reset, Wanted


@dataclass(frozen=True)
class Times:
    """The image's times, and what `quorumctl timing` says of them: how long a take-over takes at most."""
    watchdog: float
    msgwait: float
    loop: float
    read_limit: float
    feed_delay: float
    take_over: float


@dataclass(frozen=True)
class Bed:
    """What the plan says of the resources and machines (the longest stop and start, the time from a fault of the service to the monitor that sees it, the time from
    a reset to the kernel), and the load."""
    hosts: tuple
    barred: tuple
    stop: float
    start: float
    monitor: float
    firmware: float
    slow: float


def by_watchdog(times):
    """Fed at most a loop and a feed's way before, and reset by nothing else."""
    return Bound(times.watchdog - 1.5 * times.loop - SIGHT, 1.01 * times.watchdog + times.loop / 2 + SIGHT)


def after_fence(times, bed):
    """The others miss the victim for three loops, write a reset and wait msgwait."""
    return Bound(0.99 * times.msgwait + 2 * times.loop, bed.slow * (times.take_over + bed.start + 2))


def handed_over(times, bed):
    """No msgwait has a part in it."""
    return min(bed.slow * (4 * times.loop + 3), 0.99 * times.msgwait)


def moved(times, bed, victim, fault):
    silence = bed.slow * (bed.stop + bed.start + 4 * times.loop + 3)
    return Wanted(fault, OTHER, {}, None, handed_over(times, bed), silence, bed.barred)


def restarted(times, bed, victim, fault):
    away = bed.slow * (bed.monitor + bed.stop + bed.start)
    return Wanted(fault, SAME, {}, None, away, away, bed.barred)


def undisturbed(times, bed, victim, fault):
    away = bed.slow * (4 * times.loop + 3)
    return Wanted(fault, SAME, {}, None, away, away, bed.barred)


def standby_reset(times, bed, victim, fault):
    away = bed.slow * (4 * times.loop + 3)
    return Wanted(fault, SAME, {victim: Reset(by_watchdog(times))}, None, away, away, bed.barred)


def fenced(bound, times, bed, victim, fault, firmware=0.0, in_sight=True):
    return Wanted(fault, OTHER, {victim: Reset(bound, firmware, in_sight)}, after_fence(times, bed), None, None, bed.barred)


def hung(times, bed, victim, fault):
    return fenced(by_watchdog(times), times, bed, victim, fault)


def killed(times, bed, victim, fault):
    return fenced(Bound(0.0, bed.slow * 3), times, bed, victim, fault)


def panicked(times, bed, victim, fault):
    return fenced(Bound(0.0, by_watchdog(times).most), times, bed, victim, fault, bed.firmware, False)


def unplugged(times, bed, victim, fault):
    return fenced(Bound(0.0, None), times, bed, victim, fault, 0.0, False)


def cut_off(times, bed, victim, fault):
    most = 4 * times.loop + times.watchdog + times.msgwait
    return fenced(Bound(0.0, most), times, bed, victim, fault, bed.firmware, False)


def without_disk(times, bed, victim, fault):
    """The last feed is at most a read and a loop after the fault; the next owner counts from the silence that the reset brings."""
    most = times.read_limit + times.loop + by_watchdog(times).most
    start = after_fence(times, bed)
    return Wanted(fault, OTHER, {victim: Reset(Bound(0.0, most), bed.firmware)}, Bound(start.least, most + start.most), None, None, bed.barred)


def rebooted(times, bed, victim, fault):
    """Its ssh ends before it does, so it goes out of sight while its resources stop."""
    reset = Reset(Bound(0.0, bed.slow * (bed.stop + 90)), 0.0, False)
    return Wanted(fault, OTHER, {victim: reset}, None, 0.99 * times.msgwait, None, bed.barred, None, bed.slow * bed.stop)


def all_off(times, bed, victim, fault):
    start = Bound(None, bed.slow * (times.msgwait + 10 * times.loop + bed.start))
    resets = {host: Reset(Bound(0.0, None), 0.0, False) for host in bed.hosts}
    return Wanted(fault, ANY, resets, start, None, None, bed.barred, len(bed.hosts) // 2 + 1)
