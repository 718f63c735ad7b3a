#!/usr/bin/env python3
"""network_planted.py [NAME..]: bugs planted in examples/radio.c, each by itself, which the tests of the network (network_asked.py, network_kills.py,
network_flood.py, network_found.py) must find. Tells each, and ends with 1 where one is not found. No test of the gate, as it takes some ten minutes: for
whoever changes these tests or radio.c. `make lib` has made the archive before.
"""
import os
import shutil
import signal
import subprocess
import sys

ROOT = os.path.join(os.path.dirname(os.path.abspath(__file__)), "..", "..")
MADE = "target/tests/planted-radio"
LIMIT = 120  # seconds for a test; one that takes longer has found something
TESTS = ("asked", "kills", "flood", "found")

# By name: texts that stand in radio.c once, and those in their places.
BUGS = {
    "written in place": [('    FILE *f = fopen(beside, "wb");', '    FILE *f = fopen(path, "wb");'), ("whole && rename(beside, path) == 0 &&", "whole &&")],
    "sum not tested": [("return memcmp(s->sum, sum, SUM_LEN) == 0 && ", "return ")],
    "count of revoked not tested": [(" && s->revoked_count[0] <= REVOKED", "")],
    "cache of another key taken": [("    if (whole && memcmp(s.own, lent.own + GAUGE_RECORD_KEY, sizeof s.own) != 0)", "    if (whole && s.own[0] != s.own[0])")],
    "form not tested": [("if (gauge_lent_convert(&lent).number != GAUGE_OK) {", "if (cache[0] != s->held[0]) {")],
    "damaged one not set aside": [("    rename(path, aside);\n", "")],
    "malformed counted twice": [("        counts.malformed++;\n", "        counts.malformed += 2;\n")],
    "malformed not counted": [("        counts.malformed++;\n", "")],
    "too long handed on": [("        counts.too_long++;\n    else if", "        counts.too_long++;\n    if")],
    "overrun not counted": [("            counts.overrun = dropped;", "            (void)dropped;")],
    "overrun counted twice": [("            counts.overrun = dropped;", "            counts.overrun += dropped;")],
    "answer to the wrong endpoint": [("        send_to(from, bytes, len);\n", "        struct sockaddr_in6 other = *from;\n        other.sin6_port ^= 1;\n        send_to(&other, bytes, len);\n")],
    "INQUIRE to the sender": [("        send_and_keep(&to, entry + GAUGE_ENTRY_KEY, bytes, len);", "        to = *from;\n        send_and_keep(&to, entry + GAUGE_ENTRY_KEY, bytes, len);")],
    "INQUIRE not sent again": [("        if (kept[i].len > 0)\n            send_to", "        if (kept[i].len >= GAUGE_SEND_LEN)\n            send_to")],
    "kept for ever": [("        if (!gauge_tick_lists(lent.output, a.first, kept[i].id))\n            kept[i].len = 0;\n", "")],
    "night recorded from a saved cache": [("    else if (!can_be_recorded())\n", "    if (!can_be_recorded())\n")],
    "firsts not counted": [("    gauge_firsts_count(cache, sizeof cache, lent.firsts);\n", "")],
    "revocation passed on for ever": [("    if (is_known_revoked(key))\n        return;\n", "")],
    "revocation not passed on": [("    for (uint32_t i = 0; len > 0 && i < gauge_lent_held(&lent); i++) {", "    for (uint32_t i = 0; len == 0 && i < gauge_lent_held(&lent); i++) {")],
    "revocation not saved at once": [("    save();\n    size_t len", "    size_t len")],
    "revoked keys not restored": [("    revoked_count = s->revoked_count[0];\n", "")],
    "revoked key learned again": [("seen->kind == GAUGE_AUTHORITY && is_known_revoked(key) ? 0 : verdict", "verdict")],
    "batch without end": [("i < BATCH && take_datagram()", "i >= 0 && take_datagram()")],
    "leak": [("    counts.came++;\n", "    counts.came++;\n    char *leak = malloc(16);\n    if (leak != NULL)\n        leak[0] = 1;\n")],
    "hour not told": [("gauge_trace_at(&night, milliseconds(CLOCK_REALTIME), who", "gauge_trace_at(&night, 0, who")],
    "hour of another clock": [("gauge_trace_at(&night, milliseconds(CLOCK_REALTIME), who", "gauge_trace_at(&night, milliseconds(CLOCK_MONOTONIC), who")],
    "endpoint of a FLOOD not told": [("        tell_hour(&at);", "        tell_hour(NULL);")],
    "refused calls not recorded": [("    if (recorded) {\n        tell_hour(from);", "    if (recorded && a.number == GAUGE_OK) {\n        tell_hour(from);")],
    "another ID recorded": [("gauge_trace_receive(&night, a, id, lent.nonce", "gauge_trace_receive(&night, a, id + 1, lent.nonce")],
    "nonce not random": [("    random_bytes(lent.nonce, sizeof lent.nonce);\n", "")],
    "sent out of its network": [("    if (is_of_our_network(to) && sendto", "    if (IN6_IS_ADDR_LOOPBACK(&to->sin6_addr) && sendto")],
    "heard from elsewhere": [("    else if (!is_of_our_network(&from))\n        counts.elsewhere++;\n", "")],
    "bits of a byte not compared": [("(rest == 0 || (address[whole] ^ network[whole]) >> (8 - rest) == 0)", "(rest == 0 || whole < GAUGE_ADDRESS_LEN)")],
    "AUTHORITY from anybody": [("        same_endpoint(from, &inquire->to))", "        same_endpoint(from, from))")],
    "any CPA": [("seen->cpa_len == sizeof cpa && datagram[seen->cpa_at] == cpa[0] && inquire", "inquire")],
    "ACK from anybody": [("flood != NULL && !same_endpoint(from, &flood->to)", "flood != NULL && !same_endpoint(from, from)")],
    "not saved from time to time": [("    if (ticks % save_ticks == 0)\n", "    if (save_ticks == 0)\n")],
    "not saved at the end": [("    bool saved = save();\n", "    bool saved = true;\n")],
    "failed saving is good": [("        not_written(\"cache\");\n        return false;", "        not_written(\"cache\");\n        return true;")],
    "failed saving not told": [("    if (counts.not_written++ == 0)\n", "    if (counts.not_written++ == 1000000)\n")],
    "failed saving not tried again": [("    if (!replace(\"cache\", &s, sizeof s, true)) {", "    last = s;\n    if (!replace(\"cache\", &s, sizeof s, true)) {")],
    "SIGINT not heeded": [("    sigaction(SIGINT, &act, NULL);\n", "")],
    "called once": [("    if (ticks > FIRST && gauge_lent_held(&lent) > 0)", "    if (ticks > 1)")],
    "night not brought to the disk": [("    tell_list();\n    flush_night();\n", "    tell_list();\n")],
    "folder not locked": [("flock(folder_open, LOCK_EX | LOCK_NB) != 0", "flock(folder_open, LOCK_UN) != 0")],
    "port cut": [(" || strtoul(port, NULL, 10) > 65535", "")],
    "address that nobody reaches": [("    if (!is_good_own(&own.at))\n", "    if (is_good_own(&own.at) != is_good_own(&own.at))\n")],
}


def built(name, folder):
    source = open("examples/radio.c", encoding="utf-8").read()
    for old, new in BUGS[name]:
        if source.count(old) != 1:
            sys.exit("planted: '%s' stands %d times in radio.c: %s" % (old, source.count(old), name))
        source = source.replace(old, new)
    with open(folder + "/radio.c", "w", encoding="utf-8") as file:
        file.write(source)
    subprocess.run(["tools/cc", "-std=c99", "-O2", "-Iinclude", folder + "/radio.c", "target/libgauge.a", "-o", folder + "/radio"], check=True)
    return ["tools/run", folder + "/radio"]


def finds(test, folder, program):
    """What a test says that finds the bug; None where it does not."""
    there = os.path.join(folder, test)
    commands = [["tests/programs/network_%s.py" % test, there, *program]]
    if test == "found":
        commands.insert(0, ["tools/network.py", "--gauges", "8", "--tick", "50", "--folder", there, *program])
    for command in commands:
        run = subprocess.Popen(command, stdout=subprocess.PIPE, stderr=subprocess.STDOUT, text=True, start_new_session=True)
        try:
            said, _ = run.communicate(timeout=LIMIT)
        except subprocess.TimeoutExpired:
            os.killpg(run.pid, signal.SIGKILL)  # its gauges with it, which would go on writing there
            run.wait()
            return "it takes too long"
        if run.returncode:
            return said.strip().split("\n")[-1]
    return None


def main():
    os.chdir(ROOT)
    missed = []
    for name in sys.argv[1:] or BUGS:
        shutil.rmtree(MADE, ignore_errors=True)
        os.makedirs(MADE)
        program, found = built(name, MADE), None
        for test in TESTS:
            found = found or finds(test, MADE, program)
        print("%-34s %s" % (name, found[:110] if found else "NOT FOUND"), flush=True)
        missed += [] if found else [name]
    print("planted: %d bugs, not found: %s" % (len(sys.argv[1:] or BUGS), ", ".join(missed) or "none"))
    sys.exit(1 if missed else 0)


if __name__ == "__main__":
    main()
