"""Wrong versions of the tools, for wrong_bodies.py: by module of tests, each the file, a line, the line in its place, and which
tests have to refuse it, by default all of the module."""

LINKS_SEEN = [
    # Systems of different areas are linked.
    ("seen.py", "        ways = self.areas.get(area) or self.areas.setdefault(area, AreaWays())",
     "        ways = self.areas.setdefault((list(self.areas) or [area])[0], AreaWays())"),
    # SEEN-BY entries are linked.
    ("echomail.py", "    return b\"\\r\".join(found for found in (after(PATH, line) for line in tail) if found is not None)",
     "    return b\"\\r\".join(found for found in (after(PATH, line) or after(SEEN_BY, line) for line in tail) if found is not None)"),
    ("sources.py", "            if kind == jam.PATH:", "            if kind in (jam.PATH, jam.SEEN_BY):"),
    # PATH lines of the body count.
    ("echomail.py", "    while begin > first and is_of_tail(lines[begin - 1]):", "    while begin > first:"),
    ("sources.py", " or b\"\\x01PATH:\" in message.text", ""),
    # A control line that is no SEEN-BY ends the tail.
    ("echomail.py", "    return line[:1] == b\"\\x01\" or line.startswith(SEEN_BY) or not line.strip(BLANKS)",
     "    return line.startswith(PATH) or line.startswith(SEEN_BY)"),
    # The net goes on from line to line.
    ("seen.py", "        for line in path.split(b\"\\r\"):", "        for line in [path.replace(b\"\\r\", b\" \")]:"),
    # The own system.
    ("seen.py", "            stops.append(own)", "            stops.insert(0, own)"),
    ("seen.py", "        if own:", "        if False:"),
    ("links-seen", "            self.given.append((self.owns[-1] if self.owns else None, source))",
     "            self.given.append((self.owns[0] if self.owns else None, source))"),
    ("seen.py", "        if own and len(own) == 1:", "        if False:"),
    ("seen.py", "        if stop >> 32:", "        if False:"),
    # Neighbours.
    ("seen.py", "            if before and stop and (before ^ stop) & 0xffffffff:", "            if before and stop and before != stop:"),
    ("seen.py", "            if before and stop and (before ^ stop) & 0xffffffff:", "            if before and stop:"),
    ("seen.py", "                    stops.append(0)", "                    pass"),
    ("seen.py", "        for stop in stops:", "        for stop in stops[:2]:"),
    # Counts.
    ("seen.py", "        if before != way:", "        if False:"),
    ("seen.py", "        digest = hashlib.blake2b(identity, digest_size=16).digest()",
     "        digest = hashlib.blake2b(b\"%d\" % len(self.taken), digest_size=16).digest()"),
    ("seen.py", "        for link in {found[pair] for pair in way}:", "        for link in [found[pair] for pair in way]:"),
    ("seen.py", "        if day > self.last[way]:", "        if True:"),
    ("seen.py", "                last[link] = max(last.get(link, \"\"), day)", "                last[link] = day"),
    ("seen.py", "            if known.messages >= least:", "            if known.messages > least:"),
    ("seen.py", "            if known.messages >= least:", "            if True:"),
    ("links-seen", "                if mail.day >= arguments.since:", "                if mail.day > arguments.since or not arguments.since:"),
    ("links-seen", "                if mail.day >= arguments.since:", "                if mail.day >= arguments.since or not mail.day:"),
    ("sources.py", "    return b\"T\" + \"\\0\".join(parts + lines).encode(\"utf-8\", \"surrogatepass\")",
     "    return b\"T\" + \"\\0\".join(parts).encode(\"utf-8\", \"surrogatepass\")"),
    ("sources.py", "    return b\"T\" + \"\\0\".join(parts + lines).encode(\"utf-8\", \"surrogatepass\")",
     "    return b\"T\" + \"\\0\".join(lines).encode(\"utf-8\", \"surrogatepass\")"),
    ("sources.py", "[line.decode(codec, \"replace\") for line in text.lines]", "[line.decode(codec, \"replace\") for line in lines]"),
    ("sources.py", "        codec = \"ascii\" if found and found.isascii() else echomail.codec_of(lines)", "        codec = \"latin_1\""),
    # Files.
    ("seen.py", "                files.setdefault(other, {}).setdefault(area, {})[one] = known", "                pass"),
    ("links-seen", "    files = seen.files_of(links, arguments.least)",
     "    files = seen.files_of(links, arguments.least)\n    for areas in files.values():\n        for area in links:\n"
     "            areas.setdefault(area, {})"),
    ("seen.py", "        if commented:", "        if False:"),
    # Zones.
    ("seen.py", "            self.found[net] = next(iter(named)) if len(named) == 1 else self.default",
     "            self.found[net] = min(named) if named else self.default"),
    ("seen.py", "            self.found[net] = next(iter(named)) if len(named) == 1 else self.default", "            self.found[net] = self.default"),
    ("seen.py", "            if len(named) != 1:", "            if not named:"),
    ("seen.py", "self.default = seen, given or (first_own and first_own[0])", "self.default = seen, (first_own and first_own[0]) or given"),
    ("links-seen", "arguments.owns[0] if arguments.owns else None)", "arguments.owns[-1] if arguments.owns else None)"),
    ("sources.py", "                zones(int(address[1]), int(address[2]))\n\n    def mail", "                pass\n\n    def mail"),
    ("sources.py", "                zones(zone, net)", "                pass"),
    ("sources.py", "            zones(int(address[1]), int(address[2]))\n        self.name_zone", "            pass\n        self.name_zone"),
    # Refusals.
    ("links-seen", "            end(3, \"cannot use \" + source.path)\n    for own", "            pass\n    for own"),
    ("links-seen", "        if os.path.lexists(folder) and (not os.path.isdir(folder) or os.listdir(folder)):", "        if False:"),
    ("links-seen", "        if not self.given or not self.is_own_used:", "        if not self.given:"),
    ("jam.py", "        for found in versions(numbers):", "        for found in []:"),
    ("sources.py", "    names = re.compile(r\".*\\.pkt\", re.IGNORECASE | re.DOTALL)", "    names = re.compile(r\".*\\.pkt\")"),
    ("sources.py", "    names = re.compile(r\"[0-9]+\\.msg\", re.IGNORECASE | re.ASCII)", "    names = re.compile(r\".*\\.msg\", re.IGNORECASE)"),
    ("sources.py", "            if fields is None:\n                self.damage[\"damaged files\"] += 1", "            if fields is None:"),
]

NET_PAGE = [
    # Texts of link files are code.
    ("page.py", "    return html.escape(nets.plain(text))", "    return nets.plain(text)", "test_texts"),
    ("page.py", "        return '<span class=\"place\">%s:%d:</span> <code>%s</code>' % (html.escape(file.path),",
     "        return '<span class=\"place\">%s:%d:</span> <code>%s</code>' % (file.path,", "test_texts"),
    ("drawing.py", "% html.escape(\"%s %s\" % (nets.shown(system), name))", "% (\"%s %s\" % (nets.shown(system), name))", "test_texts"),
    ("nets.py", "            name = plain(line.strip", "            name = str(line.strip", "test_texts"),
    ("nets.py", "    return LinkFile(plain(path),", "    return LinkFile(path,", "test_texts"),
    ("page.py", "style-src %s; script-src %s;", "style-src %s; script-src 'unsafe-inline' %s; script-src-elem *;", "test_no_code_runs"),
    # What the page shows is not what the commands print.
    ("page.py", "        self.areas.sort(key=lambda area: (nets.HARM.index(area.verdict.cost()), area.tag))", "        pass", "test_order"),
    ("nets.py", "        return min((COSTS[fault.code] for fault in self.faults), key=HARM.index, default=\"\")",
     "        return max((COSTS[fault.code] for fault in self.faults), key=HARM.index, default=\"\")", "test_order"),
    ("nets.py", "    for at, line in enumerate(lines, 1):", "    for at, line in enumerate(lines):", "test_places"),
    ("page.py", "for system in dict.fromkeys(fault.addresses) for line in self.lines_of_system",
     "for system in fault.addresses[:1] for line in self.lines_of_system", "test_places"),
    ("nets.py", "\"check\", \"--all\", \"--more\", *self.options", "\"check\", \"--all\", *self.options", "test_places"),
    ("drawing.py", "        if there != back:\n            links[pair].add", "        if there and not back:\n            links[pair].clear", "test_pictures"),
    ("drawing.py", "            for one, other in zip(fault.addresses, fault.addresses[1:] + fault.addresses[:1]):",
     "            for one, other in zip(fault.addresses, fault.addresses[1:]):", "test_pictures"),
    ("runs.py", "if link != self.sender and link[1:] not in self.seen]", "if link != self.sender]", "test_steps"),
    ("runs.py", "        links = sorted(set(self.line.links))", "        links = sorted(set(self.line.links), reverse=True)", "test_steps"),
    # The steps.
    ("net-page.js", "{ ArrowRight: 1, ArrowLeft: -1 }", "{ ArrowRight: -1, ArrowLeft: 1 }", "InBrowser.test_steps"),
    ("net-page.js", "(packet.isBack ? 1 - part : part)", "(packet.isBack ? part : 1 - part)", "InBrowser.test_steps"),
    ("net-page.js", "      if (number <= at && step.dataset.has)", "      if (number === at && step.dataset.has)", "InBrowser.test_steps"),
    # Readers, telephones, paper.
    ("net-page.css", "  thead { position: absolute; left: -99rem; }", "  table { min-width: 50rem; }", "test_telephone"),
    ("net-page.css", "  :root { --paper: #fff; --ink: #000; --pale: #444; --box: #fff; }", "", "test_dark"),
    ("drawing.py", "<svg role=\"img\" aria-labelledby=\"%st\"", "<svg data-name=\"%st\"", "test_reader"),
]

LINKS_FROM = [
    ("forms.py", "            yield from hpt_file(reader, state, reader.near(path, words[1]), reader.named(path, words[1]))", "            pass"),
    ("forms.py", "            self.left.out(\"included files that cannot be read\", ascii(word))", "            pass"),
    ("forms.py", "            self.left.out(\"files included again\", ascii(word))\n            return []", "            pass"),
    ("forms.py", "lambda found: self.variables.get(found[1].lower(), os.environ.get(found[1], found[0]))", "lambda found: found[0]"),
    ("forms.py", "        if example not in examples:", "        if not examples:"),
    ("forms.py", "            area.own = word[2:]", "            pass"),
    ("forms.py", "                yield area\n        elif word == \"echoarea\"", "                pass\n        elif word == \"echoarea\""),
    ("forms.py", "            elif name.lower() == \"areafile\" and not section and value:", "            elif name.lower() == \"areafile\" and value:"),
    ("forms.py", "                    own_of[node] = value", "                    pass"),
    ("links-from", "        elif area.tag in found.setdefault(address, {}):", "        elif area.tag in found.setdefault(own, {}):"),
    ("links-from", "for address in found if found[address]}", "for address in [own]}"),
    ("links-from", "            left.out(\"points\", \"%s.%d\" % (shown(last), point))", "            links.append(last)"),
]

WRONG = {"test_links_seen": LINKS_SEEN, "test_net_page": NET_PAGE, "test_links_from": LINKS_FROM}
