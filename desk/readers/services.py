"""The names that IOS has for ports, and the ports that a test of an entry allows."""
import re

from readers.common import Unsaid
from readers.rules import LAST_PORT, but

TESTS = {"eq", "neq", "lt", "gt", "range"}
KNOWN = (
    "echo 7 discard 9 daytime 13 chargen 19 ftp-data 20 ftp 21 ssh 22 telnet 23 smtp 25 time 37 "
    "nameserver 42 whois 43 tacacs 49 domain 53 bootps 67 bootpc 68 tftp 69 gopher 70 finger 79 "
    "www 80 hostname 101 pop2 109 pop3 110 sunrpc 111 ident 113 nntp 119 ntp 123 msrpc 135 "
    "netbios-ns 137 netbios-dgm 138 netbios-ss 139 snmp 161 snmptrap 162 xdmcp 177 bgp 179 irc "
    "194 https 443 mobile-ip 434 pim-auto-rp 496 isakmp 500 lpd 515 rip 520 uucp 540 klogin 543 "
    "kshell 544 non500-isakmp 4500 "
).split()
SERVICES = dict(zip(KNOWN[::2], map(int, KNOWN[1::2])))
BY_PROTOCOL = {
    6: {"exec": 512, "login": 513, "cmd": 514, "talk": 517},
    17: {"biff": 512, "who": 513, "syslog": 514, "talk": 517, "dnsix": 195},
}


def port_of(word, protocol):
    """The number of a port in digits or by its name, or nothing."""
    if re.fullmatch(r"[0-9]{1,5}", word):
        return int(word) if int(word) <= LAST_PORT else None
    return SERVICES.get(word, BY_PROTOCOL.get(protocol, {}).get(word))


def tested(test, ports):
    """The ranges of the ports that a test with these ports allows."""
    first = ports[0]
    if test == "range":
        if ports[1] < first:
            raise Unsaid(f"the range {first} {ports[1]} ends before it begins")
        return [(first, ports[1])]
    if test in ("lt", "gt"):
        low, high = (0, first - 1) if test == "lt" else (first + 1, LAST_PORT)
        return [(low, high)] if low <= high else []
    found = [(port, port) for port in sorted(set(ports))]
    return but(found) if test == "neq" else found
