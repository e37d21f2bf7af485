#!/usr/bin/env python3
"""check_calls.py: only the modules below call the system for files. All others get files by a `Disk`, a `Source` or a
`Sink`. Their contracts say what they do with them. A module of READS changes no file. Tests may call anything.

The program makes a disk of the system only to pass it to a function of OVER_ANY_DISK, which is proved for every disk.
It calls no method of a disk itself."""
import glob
import os
import re
import sys

os.chdir(os.path.dirname(os.path.dirname(os.path.abspath(__file__))))
CHANGES = {
    "disk_system/system": "the calls of RealDisk",
    "disk_system/staging": "staging files of whole new files",
    "disk_system/owned": "the owner of a file that replaces another",
    "disk_system/writing": "whole new files",
    "cmd_base/base_files": "calls of RealDisk, passed on; mode and owner of a base file",
    "cmd_packets/outbound_note": "the note of the folder of packets, in a base folder",
    "cmd_base/hard_links": "copies of files that a snapshot shares, before a base folder is opened",
    "cmd_packets/scan_files": "calls of RealDisk, passed on; packets under staging names",
    "cmd_export/converting": "convert into a file",
    "cmd_export/repairing": "a packet of all that a link is to get",
    "cmd_export/resending": "a packet that is made again",
    "cmd_export/stored": "export into stored messages",
    "cmd_jam/jam": "export into a JAM base",
    "cmd_jam/locked": "the same: a JAM base that is begun",
    "cmd_jam/named": "the files of a JAM base",
    "cmd_jam/outbox": "marks of posted messages in a JAM base",
    "cmd_jam/texts": "export into a JAM base: the texts",
}
READS = {
    "disk_system/reading": "whole files",
    "disk_system/real_disk": "the bound of RealDisk, no call",
    "cmd_packets/expecting": "the keys of the packets of toss, as a hint",
    "cmd_packets/left_files": "the list of earlier packets",
    "cmd_base/folders": "whether BASE is a folder, and the names in it",
    "cmd_input/locks": "locks",
    "cmd_packets/streams": "large packets of toss",
    "cmd_notes/file_notes": "files read again for a note on them",
    "cmd_door/reported": "a base that is read with reports of progress",
    "cmd_jam/contents": "the index of a JAM base, and where its texts end",
    "cmd_notes/notes": "the lists of files that a note is about",
    "cmd_notes/states": "what is found at a path, for a note",
    "cmd_station/posting_mail": "whether there is a base with an answered message",
    "cmd_station/running": "the bound of RealDisk, no call",
    "cmd_station/scanning": "the bound of RealDisk, no call",
}
# The functions that get the disk of the system, with their crates.
OVER_ANY_DISK = {
    "run_command": "station",
    "run_scan": "station_scan",
    "packets_on_disk": "station",
    "lock_and_read_links": "station",
    "lock_links": "station",
    "log_end": "base_folder",
    "read_folder": "base_folder",
    "fill": "base_folder",
    "check_owner": "cmd_export",
    "judge_links": "cmd_export",
}
CALLS = re.compile(r"\bfs::|\brt::Files\b|\bOpenOptions\b|\bFileExt\b|\bmake_new\b|\bcreate_file\b|\bbegin_file\b")
CHANGING = re.compile(
    r"\bfs::(?:rename|remove_\w+|hard_link|copy|write|create\w*|set_permissions)\b|\bOpenOptions::new\b|\bFile::create"
    r"|\.(?:set_len|set_permissions|write_all_at|set_owner|remove_file|hard_link)\(|\bfchown\("
    r"|(?<![.\w])(?<!fn )(?<!system::)(?:make_new|create_file|begin_file|write_at|remove_left)\("
)
# The words `disk` that only declare one.
DECLARES = re.compile(r"\bdisk\s*:\s*(?:&mut )?D\b|\blet (?:mut )?disk\s*=\s*RealDisk::new\([\w.]+, Unknown\);")
wrong = []
found = set()
taken = set()


def caller(text, at):
    """The name of the innermost call around this place."""
    depth = 0
    for i in range(at - 1, -1, -1):
        depth += {")": 1, "(": -1}.get(text[i], 0)
        if depth < 0:
            front = re.sub(r"::<[^()]*>$", "", text[:i])
            return re.search(r"[\w.:]*$", front).group()
    return ""


def check_disks(path, text):
    """Each disk is handed to a function that is proved for every disk, or to one of this module."""
    text = re.sub(r"\b(?:requires|ensures) (?:\w+ )?\{.*|^ghost use .*", "", text, flags=re.M)
    own = set(re.findall(r"\bfn (\w+)(?:<[^()]*>)?\(\s*(?:[^()]*,\s*)?disk\s*:", text))
    known = dict(re.findall(r"\b(\w+) as (\w+)\b", text))
    known = {new: old for old, new in known.items()}
    for match in re.finditer(r"\bRealDisk::new\b|\bdisk\b", DECLARES.sub("", text)):
        name = caller(match.string, match.start())
        name = known.get(name, name)
        if match.group() == "disk" and re.match(r"\s*[,)]", match.string[match.end() :]):
            if name in own:
                continue
            if name in OVER_ANY_DISK:
                taken.add(name)
                continue
        wrong.append(f"{path}: a disk of the system goes to `{name}`, or is used there")


for name, crate in OVER_ANY_DISK.items():
    sources = "".join(open(it).read() for it in glob.glob(f"crates/{crate}/src/*.rt"))
    if not re.search(rf"\bpub(?:\(crate\))? fn {name}\s*<[^()]*\bD: Disk\b", sources):
        wrong.append(f"{crate} has no `{name}` over any disk")
for path in sorted(glob.glob("crates/*/src/**/*.rt", recursive=True)):
    crate = path.split("/")[1]
    if crate.startswith("test_") or path.endswith("/lib.rt"):
        continue
    module = f"{crate}/{path.split('/src/')[1][:-3]}"
    with open(path) as file:
        text = re.sub(r"//.*", "", file.read())
    if "RealDisk" in text and crate != "disk_system":
        check_disks(path, text)
    if not CALLS.search(text):
        continue
    found.add(module)
    if module not in CHANGES and module not in READS:
        wrong.append(f"{path} calls the system for files")
    elif module in READS and CHANGING.search(text):
        wrong.append(f"{path} changes files: {CHANGING.search(text).group()}")
    elif module in CHANGES and not CHANGING.search(text):
        wrong.append(f"{path} changes no file, and is listed so")
wrong += [f"no disk of the system goes to `{name}`" for name in OVER_ANY_DISK if name not in taken]
wrong += [f"{module} calls nothing, and is listed" for module in {**CHANGES, **READS} if module not in found]
print("\n".join(wrong) or f"check_calls.py: {len(CHANGES)} modules change files, {len(READS)} read them; {len(taken)} functions get the disk")
sys.exit(bool(wrong))
