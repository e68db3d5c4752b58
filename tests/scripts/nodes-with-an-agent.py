"""Nodes whose resource is behind an agent: what the agent is sent, each answer that is none, a start and a stop that it refuses, and a stop
that takes 800 ms, after which the feed of its turn is not given and the next one is."""
import os
import subprocess
import time

from live import Agent, Cluster, Program, same, try_all, wait_for

OK = b"ok\n"
SHORT_LOOP = "500,2100,400,1000,500"  # a stop of 800 ms takes longer than the loop


def opening_fails(name, answers, why):
    """The stop at an opening is answered like this: the opening fails, and no watchdog is opened."""
    cluster = Cluster(name, ids=(1,))
    agent = Agent(cluster.folder / "agent", answers)
    node = cluster.node(1, resource=agent.word())
    same(name, node.end(), (8, "fault EnvFault\n"))
    same(name, node.said(), ["%s: %s" % (agent.word(), why), node.opened() + "failed"])
    same(name, agent.lines, ["stop\n"])
    same(name, cluster.watchdog(1), "")


def wrong_answers():
    for name, answer in ("no", b"no\n"), ("longer", b"okay\n"), ("capital", b"OK\n"):
        opening_fails(name, lambda line, number, answer=answer: answer, "the answer is not ok")
    for name, answer in ("early", None), ("unended", b"ok"):
        opening_fails(name, lambda line, number, answer=answer: answer, "closed before an answer")


def late_answer():
    def answers(line, number):
        time.sleep(25)
        return OK
    opening_fails("late", answers, "no answer within 20 seconds")


def no_answer():
    def answers(line, number):
        time.sleep(90)
    opening_fails("nothing", answers, "no answer within 20 seconds")


def no_agent():
    cluster = Cluster("nobody", ids=(1,))
    for path, why in ("absent", "No such file or directory (os error 2)"), ("disk", "Connection refused (os error 111)"):
        node = cluster.node(1, resource="unix:%s" % (cluster.folder / path))
        same(path, node.end(), (8, "fault EnvFault\n"))
        same(path, node.said(), ["unix:%s: %s" % (cluster.folder / path, why), node.opened() + "failed"])


def refused_start():
    """It is not asked for again, and the node says that it holds."""
    cluster = Cluster("start", ids=(1,))
    agent = Agent(cluster.folder / "agent", lambda line, number: b"no\n" if line == "start\n" else OK)
    node = cluster.node(1, resource=agent.word(), turns=80)
    same("answer", node.end(), (0, "turns 80 up holds=yes quorate=yes 1/1 why=holding\n"))
    same("said", node.said()[1:], ["%s: the answer is not ok" % agent.path, "start: failed"])
    same("asked", agent.lines, ["stop\n", "start\n"])


def refused_stop():
    """It is asked for again, a loop later."""
    cluster = Cluster("stop", ids=(1,))
    agent = Agent(cluster.folder / "agent", lambda line, number: b"no\n" if number == 3 else OK)
    node = cluster.node(1, resource=agent.word())
    node.waits_for("start: ok")
    cluster.message(1, "exit")
    same("answer", node.end(), (0, "left clean\n"))
    same("said", node.said()[1:], ["start: ok", "%s: the answer is not ok" % agent.path, "stop: failed", "stop: ok", "disarm: ok"])
    same("asked", agent.lines, ["stop\n", "start\n", "stop\n", "stop\n"])
    first, second = node.ticks("stop: failed") + node.ticks("stop: ok")
    same("a loop lies between", second - first >= 1000, True)


def slow_stop():
    """An exit is read, which has the node stop and is fed: the stop takes 800 ms, so that feed is not given. The next read of the mailbox
    is fed."""
    cluster = Cluster("slow", ids=(1,), timing=SHORT_LOOP)
    fed = []

    def answers(line, number):
        if number == 3:
            fed.append(cluster.watchdog(1))
            time.sleep(0.8)
            fed.append(cluster.watchdog(1))
        return OK

    agent = Agent(cluster.folder / "agent", answers)
    node = cluster.node(1, resource=agent.word())
    node.waits_for("start: ok")
    cluster.message(1, "exit")
    same("answer", node.end(), (0, "left clean\n"))
    late = "%s: too late for a feed" % node.words["watchdog"]
    same("said", node.said()[1:], ["start: ok", "stop: ok", late, "disarm: ok"])
    same("fed while the agent worked", fed[1], fed[0])
    same("fed after it", cluster.watchdog(1), fed[0] + "1V")


def feeds_by_the_feed_delay():
    """A stop of 400 ms in a turn with a feed: that is given where 400 ms are less than half of the feed delay of the image, and else is not."""
    for feed_delay, msgwait, is_given in (100, 2100, False), (500, 2100, False), (1000, 2600, True):
        cluster = Cluster("delay-%d" % feed_delay, ids=(1,), timing="500,%d,400,1000,%d" % (msgwait, feed_delay))
        fed = []

        def answers(line, number, cluster=cluster, fed=fed):
            if number == 3:
                fed.append(cluster.watchdog(1))
                time.sleep(0.4)
                fed.append(cluster.watchdog(1))
            return OK

        agent = Agent(cluster.folder / "agent", answers)
        node = cluster.node(1, resource=agent.word())
        node.waits_for("start: ok")
        cluster.message(1, "exit")
        same("answer at %d" % feed_delay, node.end(), (0, "left clean\n"))
        late = [] if is_given else ["%s: too late for a feed" % node.words["watchdog"]]
        same("said at %d" % feed_delay, node.said()[1:], ["start: ok", "stop: ok", *late, "disarm: ok"])
        same("fed at %d" % feed_delay, cluster.watchdog(1), fed[0] + ("11V" if is_given else "1V"))


def slow_start():
    """A start that takes 800 ms, in a turn without a feed: each feed is given."""
    cluster = Cluster("slow-start", ids=(1,), timing=SHORT_LOOP)

    def answers(line, number):
        if line == "start\n":
            time.sleep(0.8)
        return OK

    agent = Agent(cluster.folder / "agent", answers)
    node = cluster.node(1, resource=agent.word(), turns=40)
    same("answer", node.end(), (0, "turns 40 up holds=yes quorate=yes 1/1 why=holding\n"))
    same("said", node.said()[1:], ["start: ok"])


def agent_of_contrib():
    """A command that the agent of contrib starts, and that runs no more once its stop is answered."""
    cluster = Cluster("contrib", ids=(1,))
    ran, work = cluster.folder / "ran", cluster.folder / "work"
    command = ["sh", "-c", "while :; do echo >> %s; sleep 0.1; done" % ran]
    agent = Program(cluster.folder / "agent", [os.environ["TOP"] + "/contrib/quorumd-agent", "command", work, *command])
    node = cluster.node(1, resource=agent.word())
    node.waits_for("start: ok")
    wait_for("the command runs", ran.exists)
    cluster.message(1, "exit")
    same("answer", node.end(), (0, "left clean\n"))
    same("said", node.said()[1:], ["start: ok", "stop: ok", "disarm: ok"])
    same("the lock is free", subprocess.run(["flock", "-n", work / "lock", "true"], check=False).returncode, 0)


try_all(agent_of_contrib, wrong_answers, late_answer, no_answer, no_agent, refused_start, refused_stop, slow_stop, feeds_by_the_feed_delay, slow_start)
