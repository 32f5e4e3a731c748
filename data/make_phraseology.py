#!/usr/bin/env python3
"""Writes `phraseology.txt`, a small full vocabulary: the 256 bytes, then words and phrases of radiotelephony.

A word stands with and without a leading space, and a phrase with one, so that a sentence has few tokens and a phrase has shorter
ones inside it: "cleared", " cleared for", " cleared for takeoff". Ids go by length, then by letters.
"""
import os

LETTERS = """alfa bravo charlie delta echo foxtrot golf hotel india juliett kilo lima mike november oscar papa quebec romeo sierra
tango uniform victor whiskey xray yankee zulu"""

NUMBERS = "zero one two three four five six seven eight niner ten hundred thousand decimal point"

WORDS = """abeam abort above acknowledge active affirm after again aircraft airport airspace all altimeter altitude and apron
approach approved approaching are area arrival at atis available avoid base beacon become before behind below beyond between
braking break by call callsign cancel caution ceiling centre check circuit clear clearance cleared climb climbing close closed
cloud cold complete confirm contact continue control converging correct correction course cross crosswind cruise current degrees
delay deviate departing departure descend descending descent destination direct disregard distance do downwind due early east
emergency engine enter entering established estimate expect expedite extend feet final fire fix flight flow fly follow for frequency
from fuel gate give go good ground gusting gusts guard handling heading heavy helicopter hold holding how hours identified
if immediate immediately in information inbound intention intentions intersection intercept into is join knots land landing last
leave leaving left level light line localizer low maintain make maximum may mayday medium metres midfield miles minimum minutes
missed monitor morning my negative next no north not now number observe obstacle of off on opposite or orbit out outbound
outer over overcast overhead own pan parking pass passing pattern persons pilot position possible present pressure proceed push
pushback radar radial radio rain rate read readback ready received reduce remain report request requested required resume return
right rising roger route runway say second seconds separation short sight simultaneous south speak speed squawk stand standard
standby start startup station stop straight surface surveillance take takeoff taxi taxiway temperature terminal terrain threshold
through time to touch tower track traffic transit transition transponder turbulence turn turning unable until up vacate vacated
vector vectors via visibility visual vicinity vortex wait wake warning weather well west when wilco will wind with within words
work you your"""

PHRASES = """cleared for|cleared for takeoff|cleared for the|cleared for the approach|cleared to|cleared to land|cleared to enter|
cleared touch and go|line up|line up and wait|hold short|hold short of|hold short of runway|hold position|hold position, hold position|
go around|going around|say again|say again all|say again all after|say again all before|read back|read back correct|stand by|
contact tower|contact ground|contact approach|contact departure|contact radar|on frequency|monitor tower|turn left|turn right|
turn left heading|turn right heading|fly heading|climb to|climb and maintain|climb to flight level|descend to|descend and maintain|
descend to flight level|flight level|maintain flight level|maintain present heading|reduce speed|reduce speed to|increase speed|
request taxi|request startup|request pushback|taxi to|taxi to holding point|taxi via|holding point|cross runway|vacate left|
vacate right|runway vacated|backtrack runway|report final|report established|report runway in sight|report passing|number one|
number two|number three|traffic in sight|traffic not in sight|looking out|wind calm|wind check|degrees at|knots|with information|
information received|good morning|good afternoon|good evening|good day|how do you read|reading you five|reading you|radar contact|
radar service terminated|resume own navigation|squawk ident|squawk standby|pan pan|pan pan, pan pan, pan pan|
mayday|mayday, mayday, mayday|fuel remaining|persons on board|cancel takeoff|cancel takeoff clearance|stop immediately|
caution wake turbulence|established on the|established on the localizer|intercept the localizer|expect vectors|expect late clearance|
direct to|proceed direct|join downwind|join right downwind|extend downwind|short final|long final|low pass|missed approach|
execute missed approach|minimum fuel|unable to comply|disregard|correction|affirm|negative|words twice|break break"""


def tokens():
    found = {bytes([b]) for b in range(256)}
    words = (LETTERS + " " + NUMBERS + " " + WORDS).split()
    for word in words:
        found |= {word.encode(), (" " + word).encode(), word.capitalize().encode()}
    for phrase in PHRASES.replace("\n", "").split("|"):
        found.add((" " + phrase).encode())
        found.add(phrase.capitalize().encode())
    for number in range(100):
        found |= {b"%02d" % number, b" %02d" % number}
    found |= {b" Bombrezen", b"Bombrezen"}
    return sorted(found, key=lambda token: (len(token), token))


def literal(token):
    try:
        return repr(token.decode("utf-8"))
    except UnicodeDecodeError:
        return repr(token)


def main():
    path = os.path.join(os.path.dirname(os.path.abspath(__file__)), "phraseology.txt")
    with open(path, "w", encoding="utf-8", newline="\n") as out:
        for number, token in enumerate(tokens(), 1):
            out.write("%d %s %d\n" % (number, literal(token), len(token)))


if __name__ == "__main__":
    main()
