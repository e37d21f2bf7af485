"""Trials for "tells"."""
from trying import FAR, ONE, OWN, SEEN, THREE, ZONES, message, net, trials_of

TRIALS, trial = trials_of("tells")


@trial()
def who_is_told(run):
    """a message of a link, one of a leaf, and a posting: SEEN-BY has all links, and no leaf of theirs"""
    run.toss(ONE, message(b"Came"))
    run.toss((1, 10, 21), message(b"Leaf", seen=((10, 21), (10, 2))))
    run.post(b"Posted", b"Hello")


@trial()
def many_seen(run):
    """SEEN-BY has 5,000 systems"""
    run.toss(ONE, message(b"Many", seen=SEEN + tuple((net, node) for net in range(300, 350) for node in range(100))))


@trial(nets={"TEST": net((OWN, ONE), ((OWN, THREE), (OWN, FAR)))})
def star_of_zones(run):
    """links of two zones that are not linked with each other: a message of each zone"""
    run.toss(ONE, message(b"Near"))
    run.toss(FAR, message(b"Far", seen=((10, 2), (20, 5))))


@trial("tells", nets=ZONES)
def to_other_zone(run):
    """the links are of two zones: what goes to one zone does not have the links of the other"""
    run.toss(ONE, message(b"Zones"))


@trial("tells", node={THREE: "TINYSEENBY"})
def tinyseenby(run):
    """TINYSEENBY at a link: its SEEN-BY does not have the others"""
    run.toss(ONE, message(b"Tiny"))


@trial("tells", node={THREE: "NOSEENBY"})
def noseenby(run):
    """NOSEENBY at a link: nor has it"""
    run.toss(ONE, message(b"Bare"))


@trial("tells", adding=("ADDNODE 10/31",))
def addnode(run):
    """ADDNODE with a leaf of a link: the link does not send it the message"""
    run.toss(ONE, message(b"Added"))


@trial("tells", adding=("REMNODE 10/4",))
def remnode(run):
    """REMNODE with a link: the others send it the message again"""
    run.toss(ONE, message(b"Removed"))
