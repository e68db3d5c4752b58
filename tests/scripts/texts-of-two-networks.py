"""Texts with two rings as pcs, crmsh and Proxmox write them: `quorumctl settings` and `check` show both networks, and quorumd takes the text. A ring that some
nodes lack, links of mixed kinds, a doubled address and an address of both networks are refused, each with its line."""
import json
import os
import pathlib
import subprocess

PCS = """totem {
    version: 2
    cluster_name: hacluster
    transport: knet
    crypto_cipher: aes256
    crypto_hash: sha256
    cluster_uuid: 3c4f1b9a2d6e4f0e9a7b5c8d1e2f3a4b
}

nodelist {
    node {
        ring0_addr: 192.0.2.1
        ring1_addr: 198.51.100.1
        name: db1
        nodeid: 1
    }

    node {
        ring0_addr: 192.0.2.2
        ring1_addr: 198.51.100.2
        name: db2
        nodeid: 2
    }

    node {
        ring0_addr: 192.0.2.3
        ring1_addr: 198.51.100.3
        name: db3
        nodeid: 3
    }
}

quorum {
    provider: corosync_votequorum
}

logging {
    to_logfile: yes
    logfile: /var/log/cluster/corosync.log
    to_syslog: yes
    timestamp: on
}
"""
CRMSH = """# Please read the corosync.conf.5 manual page
totem {
\tversion: 2
\tcluster_name: hacluster
\ttransport: knet
\tcrypto_hash: sha256
\tcrypto_cipher: aes256
\ttoken: 5000
\tinterface {
\t\tlinknumber: 0
\t\tknet_transport: udp
\t\tmcastport: 5405
\t}
\tinterface {
\t\tlinknumber: 1
\t\tknet_transport: udp
\t\tmcastport: 5407
\t}
}

logging {
\tfileline: off
\tto_stderr: no
\tto_syslog: yes
}

nodelist {
\tnode {
\t\tring0_addr: 192.0.2.1
\t\tring1_addr: 198.51.100.1
\t\tname: db1
\t\tnodeid: 1
\t}
\tnode {
\t\tring0_addr: 192.0.2.2
\t\tring1_addr: 198.51.100.2
\t\tname: db2
\t\tnodeid: 2
\t}
\tnode {
\t\tring0_addr: 192.0.2.3
\t\tring1_addr: 198.51.100.3
\t\tname: db3
\t\tnodeid: 3
\t}
}

quorum {
\t# Enable and configure quorum subsystem (default: off)
\t# see also corosync.conf.5 and votequorum.5
\tprovider: corosync_votequorum
\texpected_votes: 3
}
"""
PROXMOX = """logging {
  debug: off
  to_syslog: yes
}

nodelist {
  node {
    name: db1
    nodeid: 1
    quorum_votes: 1
    ring0_addr: 192.0.2.1
    ring1_addr: 198.51.100.1
  }
  node {
    name: db2
    nodeid: 2
    quorum_votes: 1
    ring0_addr: 192.0.2.2
    ring1_addr: 198.51.100.2
  }
  node {
    name: db3
    nodeid: 3
    quorum_votes: 1
    ring0_addr: 192.0.2.3
    ring1_addr: 198.51.100.3
  }
}

quorum {
  provider: corosync_votequorum
}

totem {
  cluster_name: pve
  config_version: 3
  interface {
    linknumber: 0
  }
  interface {
    linknumber: 1
  }
  ip_version: ipv4-6
  link_mode: passive
  secauth: on
  version: 2
}
"""
NETWORKS = ["network 0 192.0.2.1 192.0.2.2 192.0.2.3", "network 1 198.51.100.1 198.51.100.2 198.51.100.3"]
SECOND = "ring1_addr: 198.51.100.2\n"
# what stands in the place of the second network of node 2, and what is said of it
FAULTS = (
    ("", "ring1_addr: node 2 has none"),
    ("ring1_addr: db2-b\n", "ring1_addr: node 2: db2-b is no address"),
    ("ring1_addr: 0.0.0.0\n", "ring1_addr: node 2: 0.0.0.0 is no address"),
    ("ring1_addr: 198.51.100.1\n", "ring1_addr: nodes 1 and 2 have one address"),
    ("ring1_addr: 2001:db8::2\n", "ring1_addr: nodes 1 and 2 have addresses of two families"),
    ("ring1_addr: 192.0.2.3\n", "ring1_addr: that of node 2 is the ring0_addr of node 3"),
    ("ring1_addr: 192.0.2.2\n", "ring1_addr: that of node 2 is the ring0_addr of node 2"),
)


def same(what, got, wanted):
    if got != wanted:
        raise SystemExit("%s\n  wanted %r\n  got    %r" % (what, wanted, got))


def said(*words, text=""):
    done = subprocess.run(words, input=text, capture_output=True, text=True, check=False)
    return done.returncode, done.stdout, done.stderr


def settings(text):
    """The status of `quorumctl settings`, and what it says of networks."""
    status, lines, _ = said(os.environ["QUORUMCTL"], "settings", text=text)
    return status, [line for line in lines.splitlines() if line.startswith("network ") or "ring" in line]


def check(text):
    """The status of `quorumctl check` of an image of three nodes, and what it says behind the lines of these, which are whole."""
    status, lines, _ = said(os.environ["QUORUMCTL"], "check", "--image", "disk", text=text)
    lines = lines.splitlines()
    same("nodes", lines[:3], ["node %d incarnation 0 clean mail empty" % node for node in (1, 2, 3)])
    return status, lines[3:]


def check_json(text):
    """The status of `quorumctl check --json`, its findings and its networks."""
    status, line, _ = said(os.environ["QUORUMCTL"], "check", "--image", "disk", "--json", text=text)
    value = json.loads(line)
    return status, value["findings"], value.get("networks")


def links(text):
    """The status of a command that reads the text for its links, and what it says on standard error."""
    pathlib.Path("conf").write_text(text)
    status, _, errors = said(os.environ["QUORUMD"], "--links", "conf", "--open", "help")
    return status, errors


same("create", said(os.environ["QUORUMD"], "create", "--image", "disk", text=PCS)[:2], (0, "created nodes 3\n"))
for name, text in ("pcs", PCS), ("crmsh", CRMSH), ("Proxmox", PROXMOX):
    same("settings of " + name, settings(text), (0, NETWORKS))
    same("links of " + name, links(text), (0, ""))
    same("check of " + name, check(text), (0, NETWORKS))
    same("check of %s as JSON" % name, check_json(text), (0, [], [line.split()[2:] for line in NETWORKS]))
    mixed = text.replace("198.51.100.", "2001:db8::")
    same("two families of " + name, settings(mixed), (0, [NETWORKS[0], NETWORKS[1].replace("198.51.100.", "2001:db8::")]))
    same("links of two families of " + name, links(mixed), (0, ""))
    for place, fault in FAULTS:
        wrong = text.replace(SECOND, place)
        same("settings of %s: %s" % (name, fault), settings(wrong), (1, ["warning: " + fault]))
        same("links of %s: %s" % (name, fault), links(wrong), (2, "quorumd: conf: %s\n" % fault))
        same("check of %s: %s" % (name, fault), check(wrong), (0, ["warning: " + fault]))
        same("check of %s as JSON: %s" % (name, fault), check_json(wrong), (0, [fault], None))
one = "".join(line for line in PCS.splitlines(True) if "ring1_addr" not in line)
same("one network", settings(one), (0, []))
same("links of one network", links(one), (0, ""))
same("check of one network", check(one), (0, []))
same("check of one network as JSON", check_json(one), (0, [], None))
