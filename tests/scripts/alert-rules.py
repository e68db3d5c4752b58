"""The alert rules over the metrics of `quorumctl status --prometheus`: each metric that a rule names is written, with the labels that it goes by; promtool takes
the metrics and the rules, and tests/alerts.yml passes. A rule that is turned fails there."""
import os
import pathlib
import re
import shutil
import subprocess

from clusterfiles import TOP, holder, node, status, written

RULES = TOP / "contrib" / "quorumd.rules.yml"
# of the node exporter, and of no node
OTHERS = {"node_textfile_mtime_seconds"}
# turned rules, each of which a case has to refuse
WRONG = (("(quorumd_holds)) > 1", "(quorumd_holds)) > 2"), ("(quorumd_holds) == 0", "(quorumd_holds) == 1"), ("max by (cluster, node)", "sum by (cluster, node)"), ("quorumd_up == 0", "quorumd_up == 1"),
         ("quorumd_quorate == 0 and quorumd_up == 1", "quorumd_quorate == 0"), ("for: 45s", "for: 0s"), ("quorumd_votes == quorumd_quorum", "quorumd_votes < quorumd_quorum"),
         ("quorumd_state == 1", "quorumd_state == 0"), ("[1h]) > 3", "[1h]) > 1"))


def demand(holds, what):
    if not holds:
        raise SystemExit("wrong: %s" % what)


def promtool(*words, **more):
    return subprocess.run(["promtool", *words], stdout=subprocess.PIPE, stderr=subprocess.STDOUT, check=False, **more)


def metrics():
    """What three nodes of a host come to, as metrics."""
    ended, text, _ = status("--prometheus", *written([holder(1), node(2), node(3)]))
    demand(ended == 0, text)
    found = set(re.findall(r"(?m)^(quorumd_\w+)", text))
    named = set(re.findall(r"\b(?:quorumd|node)_\w+(?=[\s){\[])", RULES.read_text())) - OTHERS
    demand(named and named <= found, "each metric of a rule is written: %s" % sorted(named - found))
    demand(set(re.findall(r'(?m)^quorumd_up{node="(\d)"', text)) == {"1", "2", "3"}, "the metrics of a node have its number")
    return text


def cases(rules):
    """Whether promtool finds each case of these rules right."""
    pathlib.Path("quorumd.rules.yml").write_text(rules)
    shutil.copy(TOP / "tests" / "alerts.yml", ".")
    return promtool("test", "rules", "alerts.yml")


def main():
    text = metrics()
    if shutil.which("promtool") is None:
        print("skipped: not installed (Debian: prometheus), so the alert rules were not tried")
        return
    done = promtool("check", "metrics", input=text.encode())
    demand(done.returncode == 0, done.stdout.decode())
    rules = RULES.read_text()
    done = cases(rules)
    demand(done.returncode == 0, done.stdout.decode())
    demand(promtool("check", "rules", "quorumd.rules.yml").returncode == 0, "promtool takes the rules")
    alerts = set(re.findall(r"alert: (\w+)", rules))
    demand(alerts == set(re.findall(r"alertname: (\w+)", (TOP / "tests" / "alerts.yml").read_text())), "each alert has a case")
    for right, turned in WRONG:
        demand(rules.count(right) == 1, "%r stands once" % right)
        demand(cases(rules.replace(right, turned)).returncode != 0, "%r in the place of %r is refused" % (turned, right))


os.environ.setdefault("LC_ALL", "C.UTF-8")
main()
