"""Captures of a drawn disc as TBC files, in which each field has its place on the disc in its samples, its sound and
its metadata; what `write` makes of them, compared with that; how captures lose, repeat and swap fields; and cases."""

import json
import os
import sqlite3
import struct

from discs import LEAD_IN, LEAD_OUT, pictures, times
import ldvbi
from ldvbi_side.write.sources import PHASES
from ldvbi_side.write.told import base_of
import streams

SETUPS = {"NTSC": streams.NTSC, "PAL": streams.PAL}
MARK = 0xA5A5  # before a field's place, on a line of its picture
PLACE_LINE = 99
FURTHER = {"syncConf": 90, "medianBurstIRE": 17.5, "decodeFaults": 3}  # of each field; padding has 0
SCHEMA = """
    CREATE TABLE capture (capture_id INTEGER PRIMARY KEY, system TEXT, black_16b_ire INTEGER, white_16b_ire INTEGER,
        number_of_sequential_fields INTEGER, is_mapped INTEGER, git_branch TEXT);
    CREATE TABLE field_record (capture_id INTEGER NOT NULL, field_id INTEGER NOT NULL, audio_samples INTEGER,
        disk_loc REAL, efm_t_values INTEGER, field_phase_id INTEGER, is_first_field INTEGER, pad INTEGER,
        sync_conf INTEGER, median_burst_ire REAL, decode_faults INTEGER,
        PRIMARY KEY (capture_id, field_id));
    CREATE TABLE vbi (capture_id INTEGER, field_id INTEGER, vbi0 INTEGER, vbi1 INTEGER, vbi2 INTEGER,
        PRIMARY KEY (capture_id, field_id));
    CREATE TABLE drop_outs (capture_id INTEGER, field_id INTEGER, field_line INTEGER, startx INTEGER, endx INTEGER);
    CREATE INDEX by_line ON drop_outs (field_line);"""


class Disc:
    """The rows of a disc (discs.py) as the words of each field, and the place of the first field of each number."""

    def __init__(self, rows, system="NTSC"):
        self.system = system
        self.words = [[0 if item == "-" else int(item[:6], 16) for item in row.split(" ")] for row in rows]
        self.order = list(range(len(rows)))
        self.at = {}
        for place, words in enumerate(self.words):
            if words[1] >> 20 == 0xF and words[1] & 0xFDD00 != 0xDD00:
                self.at.setdefault(int("%05X" % (words[1] & 0x7FFFF)), place)


# ---- Orders of fields, each given by its place on the disc

def losing(order, *spans):
    """Without so many fields from each of these places on."""
    gone = {place for first, count in spans for place in range(first, first + count)}
    return [place for place in order if place not in gone]


def standing(order, place, count, fields=2):
    """With the fields from a place on so many times."""
    at = order.index(place)
    return order[:at] + order[at:at + fields] * count + order[at + fields:]


def going_back(order, place, to):
    """From a place back to another one, and on from there."""
    at = order.index(place)
    return order[:at] + order[order.index(to):]


def swapping(order, place):
    """With two fields in each other's place."""
    at = order.index(place)
    return order[:at] + [order[at + 1], order[at]] + order[at + 2:]


# ---- Drawn

def ticks(place, mean=735.735):
    """The samples of sound of a field."""
    return int((place + 1) * mean) - int(place * mean)


def values_of(place):
    """Its values of EFM."""
    return 40 + place % 9


def draw(path, disc, order, unread=(), worse=(), form="json", jitter=0, **more):
    """Makes a capture: its fields by their places, those whose lines aren't read, and those with more dropouts."""
    setup, size, line = SETUPS[disc.system], ldvbi.field_bytes(disc.system), ldvbi.line_bytes(disc.system)
    entries = []
    with open(path, "wb") as file, open(base_of(path) + ".pcm", "wb") as pcm, open(base_of(path) + ".efm", "wb") as efm:
        for at, place in enumerate(order):
            for row, word in enumerate(disc.words[place] if place not in unread else (), 15):
                if word:
                    file.seek(at * size + row * line)
                    file.write(ldvbi.draw_line(word, *setup))
            file.seek(at * size + PLACE_LINE * line)
            file.write(struct.pack("<2H", MARK, place))
            file.seek((at + 1) * size - 2)
            file.write(b"ww")
            samples = ticks(place) + (at % 7 == 3) * jitter
            pcm.write(struct.pack("<HH", place, 0x1234) * samples)
            efm.write(bytes([place % 251]) * values_of(place))
            entries.append({
                "audioSamples": samples, "diskLoc": place / 2 + 0.25, "dropOuts": {
                    "endx": [200], "fieldLine": [40], "startx": [101 if place in worse else 199]},
                "efmTValues": values_of(place), "fieldPhaseID": place % PHASES[disc.system] + 1,
                "isFirstField": place % 2 == 0, "seqNo": at + 1, "vbi": {"vbiData": disc.words[place]}, **FURTHER})
    parameters = {"system": disc.system, "black16bIre": setup[1], "white16bIre": setup[2], "gitBranch": "dräwn",
                  "numberOfSequentialFields": len(order), "isMapped": False, **more}
    if form == "db":
        _draw_database(path + ".db", parameters, entries)
        return
    with open(path + ".json", "w", encoding="utf-8") as file:
        file.write('{"videoParameters":%s,\n"fields":[\n%s],"more":[1]}' % (
            json.dumps(parameters, ensure_ascii=False), ",\n".join(map(json.dumps, entries))))


def _draw_database(path, parameters, entries):
    database = sqlite3.connect(path)
    database.executescript(SCHEMA)
    database.execute("INSERT INTO capture VALUES (1, ?, ?, ?, ?, 0, ?)", [parameters[name] for name in (
        "system", "black16bIre", "white16bIre", "numberOfSequentialFields", "gitBranch")])
    for at, one in enumerate(entries):
        database.execute("INSERT INTO field_record VALUES (1, ?, ?, ?, ?, ?, ?, 0, ?, ?, ?)", [at] + [
            one[name] for name in ("audioSamples", "diskLoc", "efmTValues", "fieldPhaseID", "isFirstField", *FURTHER)])
        database.execute("INSERT INTO vbi VALUES (1, ?, ?, ?, ?)", [at] + one["vbi"]["vbiData"])
        database.execute("INSERT INTO drop_outs VALUES (1, ?, 40, ?, 200)", (at, one["dropOuts"]["startx"][0]))
    database.commit()
    database.close()


# ---- Cases

LEAD = [LEAD_IN] * 6


def disc(rows, system="NTSC"):
    return Disc(LEAD + rows + [LEAD_OUT] * 6, system)


VIDEO, PAL = disc(pictures(range(1, 25))), disc(pictures(range(1, 25)), "PAL")
FILM = disc(pictures(range(1, 21), 1))
SECOND = Disc([LEAD_IN] * 7 + pictures(range(1, 15)) + [LEAD_OUT] * 6)  # pictures begin with second fields
TIMES = disc(times(range(20), 25), "PAL")


def inside(one):
    """The places of a disc that are of its numbers."""
    return list(range(6 + len(one.words) % 2, len(one.words) - 6))


def lost(one, *spans):
    """The fields of a capture that lost so many from each of these numbers on, or from a field after its first."""
    return losing(one.order, *((one.at[number] + step, count) for number, step, count in spans))


# Of each case its disc, and the captures: the orders of their fields, and what draw takes besides; and what is padding
CASES = {
    "whole": (VIDEO, [(VIDEO.order, {})], []),
    "pictures lost": (VIDEO, [(lost(VIDEO, (9, 0, 6)), {})], range(VIDEO.at[9], VIDEO.at[9] + 6)),
    "each lacks others": (VIDEO, [(lost(VIDEO, (9, 0, 6)), {}), (lost(VIDEO, (15, 0, 5)), {"jitter": 1})], []),
    "a first field": (VIDEO, [(lost(VIDEO, (9, 0, 1)), {})], [VIDEO.at[9]]),
    "a second field": (VIDEO, [(lost(VIDEO, (9, 1, 1)), {})], [VIDEO.at[9] + 1]),
    "both": (VIDEO, [(lost(VIDEO, (9, 1, 2)), {})], [VIDEO.at[9] + 1, VIDEO.at[10]]),
    "a still": (VIDEO, [(standing(VIDEO.order, VIDEO.at[9], 5), {})], []),
    "a field twice": (VIDEO, [(standing(VIDEO.order, VIDEO.at[9] + 1, 2, 1), {})], []),
    "swapped fields": (VIDEO, [(swapping(VIDEO.order, VIDEO.at[9]), {})], []),
    "back": (VIDEO, [(going_back(VIDEO.order, VIDEO.at[15], VIDEO.at[8]), {})], []),
    "ahead, filled": (VIDEO, [(lost(VIDEO, (9, 0, 20)), {}), (VIDEO.order[:VIDEO.at[21]], {})], []),
    "unread": (VIDEO, [(VIDEO.order, {"unread": range(VIDEO.at[9], VIDEO.at[12])})], []),
    "unread at the ends": (VIDEO, [(VIDEO.order, {"unread": [*range(6, 8), *range(52, 54)]})], []),
    "worse": (VIDEO, [(VIDEO.order, {"worse": range(VIDEO.at[4], VIDEO.at[9])}), (VIDEO.order, {"jitter": 1})], []),
    "second fields": (SECOND, [(SECOND.order, {})], []),
    "PAL, eight fields": (PAL, [(lost(PAL, (9, 0, 8)), {})], range(PAL.at[9], PAL.at[9] + 8)),
    "film": (FILM, [(lost(FILM, (9, 0, 7)), {})], range(FILM.at[9], FILM.at[9] + 7)),
    "film, a still without a number": (FILM, [(standing(FILM.order, FILM.at[11] + 1, 4), {})], []),
    "film, a third field": (FILM, [(lost(FILM, (9, 2, 1)), {})], [FILM.at[9] + 2]),
    "film, filled": (FILM, [(lost(FILM, (9, 1, 7)), {}), (lost(FILM, (15, 0, 4)), {"jitter": 1})], []),
    "times": (TIMES, [(losing(TIMES.order, (16, 6)), {})], range(16, 22))}


def drawn(room, name, form="json", **known):
    """The captures of a case; the answer is the words that write them."""
    one, captures, _ = CASES[name]
    for letter, (order, more) in zip("abc", captures):
        draw(room.named(letter + ".tbc"), one, order, form=form, **more, **known)
    return "write out.tbc " + " ".join(letter + ".tbc" for letter in "abc"[:len(captures)])


# ---- What was written

def places_in(path, disc, unread=()):
    """The place of each field of a written file, None for padding, by its samples; its sound, its EFM and its metadata
    have to be of the same field, and to be in step. The lines of some fields weren't read."""
    size, line = ldvbi.field_bytes(disc.system), ldvbi.line_bytes(disc.system)
    black = SETUPS[disc.system][1].to_bytes(2, "little") * (size // 2)
    entries, places = entries_of(path), []
    pcm, efm = (open(base_of(path) + end, "rb") for end in (".pcm", ".efm"))
    with open(path, "rb") as file, pcm, efm:
        for number, entry in enumerate(entries, 1):
            data = file.read(size)
            mark, place = struct.unpack_from("<2H", data, PLACE_LINE * line)
            is_padding = data == black
            assert is_padding or (mark, data[-2:]) == (MARK, b"ww")
            places.append(None if is_padding else place)
            assert not is_padding or entry["audioSamples"] in (ticks(0), ticks(0) + 1)  # as many as keep in step
            sound = bytes(4) if is_padding else struct.pack("<HH", place, 0x1234)
            assert pcm.read(4 * entry["audioSamples"]) == sound * entry["audioSamples"]
            assert efm.read(entry["efmTValues"]) == (b"" if is_padding else bytes([place % 251]) * values_of(place))
            assert (entry["seqNo"], bool(entry.get("pad"))) == (number, is_padding)
            assert {name: entry[name] for name in FURTHER} == (dict.fromkeys(FURTHER, 0) if is_padding else FURTHER)
            words = [0, 0, 0] if is_padding or place in unread else disc.words[place]
            assert entry["vbi"]["vbiData"] == words and (is_padding or entry["diskLoc"] == place / 2 + 0.25)
        assert [one.read(1) for one in (file, pcm, efm)] == [b"", b"", b""]
    pairs = list(zip(entries, entries[1:]))
    assert all(one["isFirstField"] != other["isFirstField"] for one, other in pairs)
    assert all((other["fieldPhaseID"] - one["fieldPhaseID"]) % PHASES[disc.system] == 1 for one, other in pairs)
    return places


def entries_of(path):
    """The entries of a written file, whichever form its metadata has."""
    if os.path.exists(path + ".json"):
        with open(path + ".json", encoding="utf-8") as file:
            document = json.load(file)
        parameters = document["videoParameters"]
        assert (parameters["numberOfSequentialFields"], parameters["gitBranch"], parameters["isMapped"],
                document["more"]) == (len(document["fields"]), "dräwn", True, [1])
        return document["fields"]
    database = sqlite3.connect(path + ".db")
    rows = database.execute(
        "SELECT field_id + 1, audio_samples, efm_t_values, field_phase_id, is_first_field, pad, disk_loc, vbi0, vbi1, "
        "vbi2, sync_conf, median_burst_ire, decode_faults, (SELECT count(*) FROM drop_outs WHERE drop_outs.field_id = "
        "one.field_id) FROM field_record AS one JOIN vbi USING (capture_id, field_id) ORDER BY field_id").fetchall()
    assert all((row[-1] == 1) != bool(row[5]) for row in rows)
    assert database.execute("SELECT number_of_sequential_fields, git_branch, is_mapped FROM capture").fetchall() == [
        (len(rows), "dräwn", 1)]
    database.close()
    return [{"seqNo": row[0], "audioSamples": row[1], "efmTValues": row[2], "fieldPhaseID": row[3],
             "isFirstField": bool(row[4]), "pad": bool(row[5]), "diskLoc": row[6], "vbi": {"vbiData": list(row[7:10])},
             **dict(zip(FURTHER, row[10:13]))} for row in rows]
