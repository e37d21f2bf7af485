"""Slips of tosses, scans and repairs, and of readers."""
from slip import Slip

SLIPS = (
    Slip(
        "packets go without their passwords",
        "scan.py",
        "            if undressed:\n",
        "            if False:\n",
        "test_words.Runs.test_dress_fails",
    ),
    Slip(
        "the status of the gate is lost",
        "toss.py",
        "        return gated if gated > Status.HAND else status",
        "        return status",
        "test_words.Runs.test_gate_fails",
    ),
    Slip(
        "counts are those of a second toss",
        "toss.py",
        "            if faulty is not None:\n",
        "            if faulty is not None and len(packets) > 1:\n"
        "                return self.toss_alone(packets)\n"
        "            if faulty is not None:\n",
        "test_counts.MixesWithPeers.test_mixes",
    ),
    Slip(
        "the lines of a toss count that did not write the base",
        "toss.py",
        "            if tossed.status == Status.GOOD and len(tossed.told) == len(packets):\n",
        "            if len(tossed.told) == len(packets):\n",
        "test_counts.Ends.test_full_disk",
    ),
    Slip(
        "the packet of a killed toss counts as filed",
        "toss.py",
        "            if tossed.status == Status.GOOD and len(tossed.told) == len(packets):\n",
        "            if tossed.status != 3 and len(tossed.told) == len(packets):\n",
        "test_counts.Ends.test_killed",
    ),
    Slip(
        "the counts of what is put aside are left out of a repair",
        "toss.py",
        "        self.note_answer(came, \"aside\", told)\n",
        "",
        "test_repair.Stray.test_refused_message",
    ),
    Slip(
        "a reason comes after its packet",
        "toss.py",
        "        self.disk.write(join(folder, name + \".why\"), (os.fsencode(line + \"\\n\") for line in (reason, *more)))\n"
        "        self.disk.sync(folder)\n",
        "        self.disk.rename(packet, join(folder, name))\n"
        "        self.disk.write(join(folder, name + \".why\"), (os.fsencode(line + \"\\n\") for line in (reason, *more)))\n"
        "        self.disk.rename(join(folder, name), packet)\n",
        "test_stops_run.Tossing.test_each_place",
    ),
    Slip(
        "a packet moves before its line",
        "handing.py",
        "        self.add_line(flow, \"^\" + new)\n"
        "        self.disk.rename(path, new)\n",
        "        self.disk.rename(path, new)\n"
        "        self.add_line(flow, \"^\" + new)\n",
        "test_stops_run.HandingOver.test_each_place",
    ),
    Slip(
        "a flow file is not flushed",
        "handing.py",
        "            self.disk.write(flow + \".new\", content",
        "            self.disk.stage(flow + \".new\", content",
        "test_stops_run.HandingOver.test_each_place",
    ),
    Slip(
        "the last name is not flushed",
        "handing.py",
        "        self.disk.sync(self.station.packets)\n"
        "        self.disk.sync(dirname(path))\n"
        "        real",
        "        real",
        "test_stops_run.HandingOver.test_each_place",
    ),
    Slip(
        "a hold is there without its second name",
        "holds.py",
        "            self.disk.sync(dirname(flow))  # after a power cut no hold is there without its second name\n",
        "",
        "test_stops_run.HandingOver.test_each_place",
    ),
    Slip(
        "a reader's messages are purged",
        "purge.py",
        "            if number is not None and number < limit.number:\n",
        "            if False:\n",
        "test_purge.Purging.test_readers",
    ),
    Slip(
        "the days of a lost base count",
        "counts.py",
        "    return [] if days and days[-1][1] > now else days\n",
        "    return days\n",
        "test_purge.Purging.test_lost_base",
    ),
    Slip(
        "the lock of JAM programs ends early",
        "jam_lock.py",
        "            fcntl.fcntl(file, fcntl.F_OFD_SETLK, FIRST_BYTE)\n",
        "            fcntl.lockf(file, fcntl.LOCK_EX | fcntl.LOCK_NB, 1, 0)\n",
        "test_jam.Stopped.test_lock",
    ),
    Slip(
        "a closed pipe ends the work",
        "../fidonet/outputs.py",
        "            except OSError as fault:\n                self.has_ended = True\n",
        "            except ZeroDivisionError as fault:\n                self.has_ended = True\n",
        "test_start.Pipes.test_closed",
    ),
    Slip(
        "a question goes before its answer",
        "answer.py",
        "    messages = make_packet(station, link, tag, path)\n"
        "    send_packet(station, link, \"as-%s.pkt\" % name.number)\n",
        "    messages = make_packet(station, link, tag, path)\n"
        "    station.disk.unlink(path)\n"
        "    send_packet(station, link, \"as-%s.pkt\" % name.number)\n",
        "test_stops.Lists.test_each_place",
    ),
    Slip(
        "an answer goes before it is used",
        "answer.py",
        "        use_list(station, path, found[0], name.messages or 0)\n"
        "    station.disk.unlink(path)\n",
        "        station.disk.rename(path, path + \".used\")\n"
        "        use_list(station, path + \".used\", found[0], name.messages or 0)\n"
        "        path += \".used\"\n"
        "    station.disk.unlink(path)\n",
        "test_stops.Lists.test_each_place",
    ),
    Slip(
        "a round begins before its lists are there",
        "rounds.py",
        "        disk.sync(folder)\n"
        "        disk.rename(self.path + \".new\", self.path)\n",
        "        disk.rename(self.path + \".new\", self.path)\n",
        "test_stops.Questions.test_each_place",
    ),
    Slip(
        "questions are noted before they are asked",
        "rounds.py",
        "        with open(self.list_path, \"rb\") as file:\n"
        "            send_list(",
        "        self.station.disk.write(self.path(\"asked\"), b\"\")\n"
        "        self.station.disk.sync(self.station.at(FOLDER))\n"
        "        with open(self.list_path, \"rb\") as file:\n"
        "            send_list(",
        "test_stops.Questions.test_each_place",
    ),
    Slip(
        "a stopped toss is not looked at",
        "repair.py",
        "        if self.round.is_unsure():\n",
        "        if False:\n",
        "test_repair.Rounds.test_stopped_toss",
    ),
    Slip(
        "a stopped toss is not noted",
        "toss.py",
        "            if exists(self.station.at(\"repair\", \"tossing\")):\n",
        "            if False:\n",
        "test_repair.Rounds.test_stopped_toss",
    ),
    Slip(
        "a base that was lost in a round is not looked at",
        "repair.py",
        "        if lost:\n",
        "        if False:\n",
        "test_repair.Rounds.test_base_lost_in_a_round",
    ),
    Slip(
        "the last packet of an answer counts",
        "toss.py",
        "            self.disk.append(path, told.counts.encode() + b\"\\n\")\n",
        "            self.disk.write(path, told.counts.encode() + b\"\\n\")\n",
        "test_repair.Rounds.test_repeated_packet",
    ),
    Slip(
        "messages without an id lack",
        "answer.py",
        "    return min(most, max(0, sent - always))\n",
        "    return sent\n",
        "test_stops.Lists.test_each_place",
    ),
    Slip(
        "a file gets a second line in the flow file",
        "handing.py",
        "        if os.fsencode(line) in content.split(b\"\\n\"):\n",
        "        if False:\n",
        "test_repair.Faulty.test_the_scan_hands_over",
    ),
    Slip(
        "packets for a link have one name",
        "rounds.py",
        "        return \"r%s.pkt\" % self.number\n",
        "        return \"r0.pkt\"\n",
        "test_repair.Rounds.test_two_areas",
    ),
    Slip(
        "a link chooses the name of another packet",
        "handing.py",
        "        if kept.endswith(\".pkt\") and exists(place)",
        "        if False and exists(place)",
        "test_repair.Faulty.test_chosen_name",
    ),
    Slip(
        "a fault of the base removes a question",
        "lists.py",
        "    if line.startswith(LISTS_FAULTS):\n",
        "    if True:\n",
        "test_repair.Faulty.test_own_faults",
    ),
    Slip(
        "a station that lost its base posts",
        "post.py",
        "    if not may_post(station):\n",
        "    if False:\n",
        "test_repair.Rounds.test_post_after_a_loss",
    ),
    Slip(
        "a scan after a loss lowers the count",
        "counts.py",
        "    if before is None or now > before:\n",
        "    if True:\n",
        "test_repair.Rounds.test_post_after_a_loss",
    ),
    Slip(
        "a question names a point by its address in the link file",
        "rounds.py",
        "self.station.peers.net_address(self.link), self.tag)",
        "self.link, self.tag)",
        "test_stops.Questions.test_each_place",
    ),
    Slip(
        "an empty base has grown",
        "counts.py",
        "    if not now and not lexists(station.at(\"days\")):\n        return\n",
        "",
        "test_purge.Purging.test_days_of_an_empty_base",
    ),
)
