"""Slips of the gate, of letters, and of what a sysop does by hand."""
from slip import Slip

FEW, REUSED, OUT, BACK = ("test_stops.%s.test_each_place" % name for name in ("Few", "Reused", "Outgoing", "Retoss"))
SLIPS = (
    Slip(
        "tossing is not flushed before the input goes",
        "passing.py",
        "        files = self.synced(files)\n"
        "        self.each(files, self.end)\n",
        "        self.each(files, self.end)\n",
        FEW,
    ),
    Slip(
        "packets are not flushed",
        "passing.py",
        "                self.disk.flush(output.path)\n",
        "                pass\n",
        FEW,
    ),
    Slip(
        "names of members are not flushed",
        "passing.py",
        "                self.disk.flush(self.name_file(output))\n",
        "                pass\n",
        FEW,
    ),
    Slip(
        "inputs go before their outputs have names",
        "passing.py",
        "        files = self.each(files, self.name)\n",
        "        files = self.each(files, self.end)\n"
        "        files = self.each(files, self.name)\n",
        FEW,
    ),
    Slip(
        "names are not flushed before files move",
        "inbound.py",
        "        disk.flush(place + \".name\")\n",
        "        pass\n",
        FEW,
    ),
    Slip(
        "a reason comes after its file",
        "aside.py",
        "    disk.write(place + \".why\", (reason + \"\\n\").encode(\"utf-8\", \"backslashreplace\"))\n"
        "    disk.sync(folder)\n"
        "    disk.rename(path, place)\n",
        "    disk.rename(path, place)\n"
        "    disk.write(place + \".why\", (reason + \"\\n\").encode(\"utf-8\", \"backslashreplace\"))\n",
        FEW,
    ),
    Slip(
        "marks of letters are not looked at",
        "filing.py",
        "        if exists(mark) and os.stat(mark).st_nlink > 1:\n",
        "        if False:\n",
        FEW,
    ),
    Slip(
        "marks of letters stay",
        "gate.py",
        "LEFT_OVER = (\".name\", \".letter\")",
        "LEFT_OVER = (\".name\",)",
        FEW,
    ),
    Slip(
        "a letter is not flushed",
        "filing.py",
        "            self.disk.write(mark + \".new\", content)\n",
        "            self.disk.stage(mark + \".new\", content)\n",
        FEW,
    ),
    Slip(
        "a letter's name is not flushed",
        "filing.py",
        "        self.disk.sync(self.folder)\n"
        "        return name\n",
        "        return name\n",
        FEW,
    ),
    Slip(
        "the list of letters is not flushed",
        "filing.py",
        "                self.disk.sync(self.station.folder)\n",
        "                pass\n",
        REUSED,
    ),
    Slip(
        "letters have a way before they are marked",
        "letters.py",
        "        if len(waiting) == len(plan.packets):\n",
        "        for name in waiting:\n"
        "            self.disk.rename(self.station.at('letters', name), self.station.at('scanned', name))\n"
        "        waiting, again = [], waiting\n"
        "        if len(again) == len(plan.packets):\n",
        OUT,
    ),
    Slip(
        "a plan is not finished",
        "letters.py",
        "        if exists(self.plan):\n",
        "        if False:\n",
        OUT,
    ),
    Slip(
        "a plan is not flushed",
        "letters.py",
        "        self.disk.rename(self.plan + \".new\", self.plan)\n"
        "        self.disk.sync(self.folder)\n",
        "        self.disk.rename(self.plan + \".new\", self.plan)\n",
        OUT,
    ),
    Slip(
        "the reason goes before its file",
        "retoss.py",
        "        if passed_gate(station, name):\n",
        "        has_passed = passed_gate(station, name)\n"
        "        station.disk.unlink(station.at(\"bad\", name + \".why\"))\n"
        "        if has_passed:\n",
        BACK,
    ),
    Slip(
        "the second name of a scan stays",
        "dress.py",
        "            remove_twin(station, path)\n",
        "",
        "test_outgoing.Dress.test_points_leave_seen_by",
    ),
    Slip(
        "the header says who the link is",
        "dress.py",
        "    peer = station.peers.peer(link)\n",
        "    peer = station.peers.peer(Address(2, 5020, begin[2] + 256 * begin[3]))\n",
        "test_outgoing.Dress",
    ),
    Slip(
        "letters of passwords are told apart",
        "judging.py",
        "header.password.upper() != wanted.upper()",
        "header.password != wanted",
        "test_gate.Refused",
    ),
    Slip(
        "points of others count as nodes",
        "judging.py",
        "        if sender.point and fake is None:\n",
        "        if False:\n",
        "test_gate.Refused",
    ),
    Slip(
        "the password stays",
        "judging.py",
        "        new[24:34] = bytes(10)\n",
        "",
        "test_gate.Senders",
    ),
    Slip(
        "what is behind an early end is ignored",
        "../fidonet/messages.py",
        "            if not ANY_DATE.search(packet.memory, place + 2):\n",
        "            if True:\n",
        "test_gate.Repair",
    ),
    Slip(
        "spoiled bytes may take a message",
        "../fidonet/messages.py",
        "    if inner and inner.start() <= end:\n",
        "    if False:\n",
        "test_gate.Repair",
    ),
    Slip(
        "SEEN-BY lines of bodies are changed",
        "../fidonet/seen_by.py",
        "    first = len(lines)\n",
        "    first = 1\n",
        "test_gate.Points",
    ),
    Slip(
        "the same file is put aside twice",
        "aside.py",
        "        if not lexists(place) or is_same(place, path):\n",
        "        if not lexists(place):\n",
        "test_gate.Names",
    ),
    Slip(
        "a packet is given back over a file",
        "inbound.py",
        "            disk.link(path, name)\n",
        "            disk.rename(path, name)\n",
        "test_gate.Shared",
    ),
    Slip(
        "a bundle with a bad member goes",
        "gate.py",
        "        if faults:\n"
        "            received.why",
        "        if False:\n"
        "            received.why",
        "test_bundles.Zips",
    ),
    Slip(
        "the sizes of members are not looked at",
        "unpacking.py",
        "    result.fault = fault_of_sizes([member.file_size for member in members])\n",
        "",
        "test_bundles.Limits.test_total",
    ),
    Slip(
        "zip64 is opened",
        "bundles.py",
        "        return \"zip64\"\n",
        "        pass\n",
        "test_bundles.Limits.test_zip64",
    ),
    Slip(
        "checksums of 7z are not compared",
        "unpacking.py",
        "int(stated, 16) == checksum)",
        "True)",
        "test_bundles.Others.test_damaged",
    ),
    Slip(
        "half a bundle is put aside",
        "inbound.py",
        "    return -AHEAD < time.time() - os.stat(path).st_mtime < YOUNG\n",
        "    return False\n",
        "test_bundles.Arriving",
    ),
    Slip(
        "a full disk spoils a bundle",
        "unpacking.py",
        "            result.failed = fault.strerror or str(fault)\n",
        "            result.fault = fault.strerror or str(fault)\n",
        "test_bundles.Limits.test_device_of_the_process",
    ),
    Slip(
        "a fault prints a password",
        "peers.py",
        "                raise self.fault(\"K2 BadWord\")\n            found[word]",
        "                raise self.fault(\"K2 BadWord %s\" % word)\n            found[word]",
        "test_peers.Lines",
    ),
    Slip(
        "a failure has the status of Python",
        "running.py",
        "        say_fault(\"%s: %s\" % (type(fault).__name__, fault))\n    return Status.FAILED\n",
        "        say_fault(\"%s: %s\" % (type(fault).__name__, fault))\n    return 1\n",
        "test_words.Statuses.test_no_links",
    ),
    Slip(
        "a new station replaces files",
        "making.py",
        "    refuse_old(order)\n",
        "",
        "test_hand.New.test_nothing_is_overwritten",
    ),
    Slip(
        "accept does not ask echonet",
        "link_file.py",
        "        if fault:\n            raise fault\n",
        "        if False:\n            raise fault\n",
        "test_hand.Accept.test_a_refused_line",
    ),
)
