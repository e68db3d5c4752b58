"""Every state that a group of one resource can reach, by every event, breaks no law; bench/group does the same of two."""
import groupstates

assert groupstates.reach(1) == groupstates.STATES[1], groupstates.reach(1)
