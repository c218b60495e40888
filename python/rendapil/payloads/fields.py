"""What receivers do with an address that stands as text in a message: by what stands before it on its line. The first rule that fits counts. Where
none fits, it is what the application does with most addresses."""
import re
from typing import NamedTuple

from rendapil.payloads.addresses import Field, Find, line_before
from rendapil.payloads.applications import BREAKS, MEMBERS, TELLS

Rule = tuple[re.Pattern[bytes], Field]


class Place(NamedTuple):
    """An address where it stands: the application, the payload, whether its server sends it, whether it means no host of the sender's realm and none that
    has an alias there, so that the reader may know it, and what the client asked for last."""

    application: str
    payload: bytes
    find: Find
    is_served: bool
    is_reader: bool
    asked: bytes


def rule(pattern: bytes, weight: str, says: str, application: str = "", todo: str = "") -> Rule:
    """A rule for what stands before an address on its line."""
    return re.compile(b"(?i)(?:" + pattern + b")"), Field(says, weight, application, todo)


NAMES = "names in place of addresses, that DNS resolves in each realm"
UPNP = "nothing: keep devices and their users in one realm"
FTP = [
    rule(rb"^(?:PORT|EPRT|LPRT) ", BREAKS, "the server connects to what PORT or EPRT says"),
    rule(rb"^22[789][ -]", BREAKS, "the client connects to what the answer to PASV says"),
    rule(rb"^", TELLS, "a line for people names a host"),
]
RULES: dict[str, list[Rule]] = {
    "SIP": [
        rule(
            rb"^(?:Call-ID|i|From|f|To|t|User-Agent|Server|Warning|Subject|s|o|Authorization|Proxy-Authorization|WWW-Authenticate)\s*[:=]",
            TELLS,
            "a header that only identifies",
        ),
        rule(rb"^[A-Z]+ sips?:", TELLS, "whom a request is for"),
        rule(rb"^(?:Contact|m)\s*:", BREAKS, "Contact tells where calls and further requests go"),
        rule(rb"^(?:Record-Route|Route|Path|Service-Route)\s*:", BREAKS, "a route of proxies that requests follow"),
        rule(rb"^(?:c|a)=", BREAKS, "SDP tells where media goes"),
    ],
    "RTSP": [
        rule(rb"^[A-Z_]+ rtsp:|^User-Agent|^Server|^Via", TELLS, "what a request is for"),
        rule(rb"^[os]=", TELLS, "a line that only identifies"),
        rule(rb"^Transport\s*:", BREAKS, "Transport tells where streams come from and go to"),
        rule(rb"^Location\s*:", BREAKS, "a redirect that clients follow"),
        rule(rb"^(?:c|a)=", BREAKS, "SDP tells where streams go"),
        rule(rb"^(?:Content-Base|Content-Location|RTP-Info)\s*:", BREAKS, "the base of the URLs that the client asks for next"),
    ],
    "FTP": FTP,
    "FTP on another port than 21": FTP,
    "IRC": [
        rule(rb"\x01DCC \S+ \S+ ", BREAKS, "a DCC offer: the other client connects to it"),
        rule(rb"^", TELLS, "a greeting or a mask names a host"),
    ],
    "XMPP": [
        rule(rb"<(?:\w+:)?(?:candidate|streamhost)\b[^>]*$", BREAKS, "a candidate of a transfer: the other client connects to it"),
        rule(rb"<see-other-host[^<]*$", BREAKS, "a redirect that clients follow"),
    ],
    "LDAP": [
        rule(rb"ldap[si]?://$", BREAKS, "a referral that clients follow"),
        rule(rb"", TELLS, "an attribute or a name has it"),
    ],
    "NFS": [rule(rb"Linux NFSv4[^\r\n]*$", TELLS, "the client's name for itself")],
    "NIS": [rule(rb"", BREAKS, "a map names a host by its address")],
    "NFS mounts": [rule(rb"", BREAKS, "an access list of hosts: who may mount")],
    "iSCSI": [
        rule(rb"TargetAddress=\[?$", BREAKS, "TargetAddress tells where initiators log in"),
        rule(rb"", TELLS, "a name has it"),
    ],
    "Redis": [
        rule(rb"^-(?:MOVED|ASK) \d+ $", BREAKS, "a redirect that clients of a cluster follow"),
        rule(rb"^[0-9a-f]{40} $", BREAKS, "the table of a cluster's nodes, to which clients connect"),
        rule(rb"^(?:master_host:|slave\d+:ip=)$", BREAKS, "replication tells where the master and replicas are"),
        rule(rb"", TELLS, "a line about clients, or a value"),
    ],
    "Oracle": [rule(rb"", TELLS, "a connection names the host that it is for")],
    "MongoDB": [rule(rb"Linux|client$|remote$", TELLS, "a line about clients")],
    "MySQL": [
        rule(rb"(?:MASTER|SOURCE)_HOST\s*=\s*['\"]$", BREAKS, "the replica connects to it"),
        rule(
            rb"\bCONNECTION\s*=\s*['\"]\w+://[^'\"]*$|\bOPTIONS\s*\([^)]*\bHOST\s+['\"]$|group_replication_\w+\s*=\s*['\"][^'\"]*$",
            BREAKS,
            "the server connects to it",
        ),
    ],
    "PostgreSQL": [rule(rb"\bhost(?:addr)?(?:\s*=\s*'?|\s+')$", BREAKS, "the server connects to it")],
    "IBM MQ": [rule(rb"CONNAME\W*$", BREAKS, "queue managers connect to it")],
    "MSMQ": [rule(rb"DIRECT=TCP:$", BREAKS, "the queue of a message leads to it")],
    "AMQP": [rule(rb"network-host\W{0,4}$", BREAKS, "a redirect that clients follow")],
    "libvirt": [
        rule(rb"<(?:graphics|listen)\b[^>]*(?:listen|address)=['\"]$", BREAKS, "viewers connect to it"),
        rule(rb"(?:tcp|unix|rdma):(?://)?$", BREAKS, "a migration goes to it"),
    ],
    "QEMU monitor": [rule(rb"(?:tcp|rdma):$", BREAKS, "a migration goes to it")],
    "Open vSwitch, OVN": [rule(rb"(?:remote_ip|\bip|target|encap-ip)\"[^{}\]]*[\"/:]$", BREAKS, "switches connect to it, or tunnels end there")],
    "POP3, IMAP": [rule(rb"REFERRAL imap://(?:[^\s@]*@)?$", BREAKS, "a referral that clients follow")],
    "Sieve": [rule(rb"(?:REFERRAL|BYE|NO)\W.*sieve://(?:[^\s@]*@)?$", BREAKS, "a referral that clients follow")],
    "WHOIS": [rule(rb"^(?:ReferralServer|%referral|refer|whois)\s*:?\s*(?:r?whois://)?$", BREAKS, "a referral that clients follow")],
    "RTMP": [rule(rb"redirect\W*(?:rtmp\w*://)?$", BREAKS, "a redirect that clients follow")],
    "MQTT": [rule(rb"\w+://$", TELLS, "a value"), rule(rb"\x1c..(?:\w+://)?$", BREAKS, "a reference to another server")],
    "etcd": [rule(rb"https?://$", BREAKS, "a member's URL, to which clients and members connect"), rule(rb"", TELLS, "a name or a value has it")],
    "Dask": [rule(rb"(?:tcp|tls|ucx)://$", BREAKS, "others connect to a contact address"), rule(rb"", TELLS, "a name or a value has it")],
    "dRuby": [rule(rb"dr\w+://$", BREAKS, "a reference to an object, to whose server clients connect")],
    "Pyro": [rule(rb"PYRO\W[^)@]*(?:@|None,\s*['\"])$", BREAKS, "the URI of an object, to whose server clients connect")],
    "Erlang": [rule(rb"@$", BREAKS, "the name of a node: peers that know it by another one are refused")],
    "ROS": [rule(rb"^(?:Host|User-Agent|Server)\s*:", TELLS, "whom a request is for")],
    "rtpengine, rtpproxy": [rule(rb"^(?:o|s)=", TELLS, "a line that only identifies")],
    "NATS": [rule(rb"connect_urls[^\]]*$", BREAKS, "clients also connect to connect_urls")],
    "GlusterFS": [rule(rb"remote-host\s*", BREAKS, "clients connect to the bricks of a volume file")],
    "Bacula": [rule(rb"storage address=$", BREAKS, "the client connects to the storage")],
    "Diameter": [rule(rb"aaas?://$", BREAKS, "a redirect that agents follow")],
    "Gopher": [rule(rb"\t$", BREAKS, "a line of a menu leads to it")],
    "MS-RPC": [rule(rb"", BREAKS, "a binding tells an address and a port")],
    "AFS": [],
}
"""What stands before an address in text, by application."""

HTTP_RULES = [
    rule(rb"^(?:Location|Refresh|Alt-Svc)\s*:", BREAKS, "a redirect that clients follow"),
    rule(rb"^CALLBACK\s*:", BREAKS, "a device sends its events to CALLBACK", "SSDP, UPnP"),
    rule(rb"NewInternalClient[^<>]*>$", BREAKS, "a mapping leads to the internal client", "SSDP, UPnP"),
    rule(rb"<(?:\w+:)?XAddrs>[^<]*$", BREAKS, "XAddrs tells where the device is", "WS-Discovery, ONVIF"),
    rule(
        rb"<(?:URLBase|presentationURL|controlURL|eventSubURL|SCPDURL|NewExternalIPAddress|res\b[^>]*|upnp:\w+[^>]*)>[^<]*$",
        BREAKS,
        "control points connect to it",
        "SSDP, UPnP",
    ),
    rule(rb"\"(?:publish|transport|http|bound)_address\"\s*:\s*\"[^\"]*$", BREAKS, "clients that sniff connect to publish_address", "Elasticsearch"),
    rule(
        rb"\"(?:broadcast_address|advertise\w*|connect_urls?|Service_?Address|TaggedAddresses|client_?URLs|peer_?URLs|leader_?\w*)\"\s*:\s*[\[{]*\s*\"[^\"]*$",
        BREAKS,
        "clients connect to it",
        "",
        MEMBERS,
    ),
    rule(rb"\b(?:PROXY|SOCKS[45]?|HTTPS?) $", BREAKS, "a file of proxies tells where browsers connect"),
    rule(rb"\b(?:href|src|action|url|longdesc|poster|data)\s*[=(]\s*[\"']?\w+://[^/\"'\s]*$", BREAKS, "a link or a picture by address"),
    rule(rb"^(?:File\d+=)?(?:https?|rtsp|mms|ftp)://$", BREAKS, "a list of streams leads to it"),
    rule(
        rb"<(?:\w+:)?(?:location|loc|link|BaseURL|enclosure|ref|address|jnlp|Connection|WebApp)\b[^<>]*(?:>|=\")\w+://[^/\"'\s]*$|^Link\s*:[^\r]*<\w+://$",
        BREAKS,
        "a link or a picture by address",
    ),
    rule(
        rb"\"(?!scrape|global)\w*(?:url|uri|href|endpoint|issuer|location|redirect|LocalAddress|homeserver|server)\w*\"\s*:\s*\"[a-z][\w+.-]*://[^\"/]*$",
        BREAKS,
        "clients connect to it",
    ),
    rule(rb"^\s*(?:chain|kernel|initrd|imgfetch|sanboot|set next-server)\b.*$", BREAKS, "a boot script loads from it"),
    rule(rb"^(?:WWW|Proxy)-Authenticate:.*\brealm=\"?\w+://$", BREAKS, "clients get their token from the realm"),
    rule(rb"(?:^|\\r\\n|\\n)[ca]=[^\\]*$", BREAKS, "SDP tells where media goes", "WebRTC"),
    rule(rb"\"candidate\"\s*:\s*\"[^\"]*$", BREAKS, "a candidate tells where media goes", "WebRTC"),
    rule(rb"^(?:router \S+ |r \S+ \S+ (?:\S+ )?[\d-]+ [\d:]+ |dir-source \S+ \S+ \S+ )$", BREAKS, "relays and clients connect to it", "Tor"),
    rule(rb"^(?:User-Agent: libprocess/|Libprocess-From:).*@$", BREAKS, "answers go to where libprocess is", "Mesos"),
    rule(rb"<(?:\w+:)?Address>\s*\w+://$", BREAKS, "answers and events go to it"),
    rule(rb"<ServerAddress\b[^>]*>$|^(?:HttpBrowser)?Address=$", BREAKS, "clients connect to it", "Citrix"),
    rule(rb"^full address:s:$", BREAKS, "clients connect to it", "RDP"),
    rule(rb"\"(?:internalipaddress|network-host)\"\s*:\s*\"$", BREAKS, "clients connect to it"),
]
PROXIED = rule(rb"^(?:CONNECT |[A-Z]+ \w+://)", BREAKS, "a proxy of the other realm connects to it")
HOSTED = Field("Host and what servers make of it", TELLS)
MADE_OF_HOST = Field("a redirect to the host that was asked for: servers make it of Host, which would be an alias", TELLS)
LINKED = [one for one in HTTP_RULES if one[1].says in ("a link or a picture by address", "a list of streams leads to it", "clients connect to it")]
"""Rules of links: what has the address that the client asked for is taken as made of it."""

WEB = ("HTTP", "SSDP, UPnP", "WS-Discovery, ONVIF", "Elasticsearch", "Consul, Nomad, Serf", "IPP", "BitTorrent", "TLS")
PRINTER = Field("the URI of a printer, to which clients connect", BREAKS)
MORE_RULES: dict[str, list[Rule]] = {
    "IPP": [(re.compile(rb"ipps?://$"), PRINTER)],
    "SSDP, UPnP": [rule(rb"^(?:Host|User-Agent|Server)\s*:", TELLS, "whom a request is for")],
    "WS-Discovery, ONVIF": [rule(rb"^(?:Host|User-Agent|Server)\s*:", TELLS, "whom a request is for")],
    "BitTorrent": [rule(rb"[?&]ip=$", BREAKS, "the tracker tells this address to other peers"), rule(rb"", TELLS, "whom a request is for")],
    "Consul, Nomad, Serf": [rule(rb"^(?:Host|User-Agent|Server)\s*:", TELLS, "whom a request is for")],
}
GET_REFERRALS = b"\x94\x01\x06\x00"
"""FSCTL_DFS_GET_REFERRALS, as the answer of SMB 2 repeats it."""
DFS = Field("a DFS link leads to it", BREAKS, "", "links by name, that DNS resolves in each realm")
SHARE = Field("a path names the server", TELLS)
REDIRECTED = Field("a redirect of the listener, which clients follow", BREAKS)
CALLED_BACK = Field("the server calls back to this address", BREAKS)
ROUTED = Field("a read-only route leads to it", BREAKS)
BRACKETED = re.compile(rb"\*[2-5]\r\n\$\d+\r\n$|\$\d+\r\n(?i:(?:SLAVE|REPLICA)OF|MEET|MIGRATE|MONITOR)\r\n(?:\$\d+\r\n[^\r]*\r\n)?\$\d+\r\n$")
SLURM_NODE = Field("a node or who asks, to which others connect", BREAKS)
REDIS_NODE = Field("the table of a cluster's nodes, to which clients connect", BREAKS)


def of_http(place: Place, before: bytes) -> Field | None:
    """What an address is for that stands in a message of HTTP."""
    address = place.payload[place.find.at : place.find.end]
    for pattern, field in HTTP_RULES + MORE_RULES.get(place.application, []):
        if not pattern.search(before):
            continue
        host = host_of(place.asked)
        if field is HTTP_RULES[0][1] and host == address:
            return MADE_OF_HOST
        is_link = any(field is one for _, one in LINKED) or field is PRINTER
        return HOSTED if is_link and (host == address or field is PRINTER and not place.is_served) else field
    if not place.is_served and not place.is_reader and PROXIED[0].search(before):
        return PROXIED[1]
    return None


def host_of(request: bytes) -> bytes:
    """The host that a request names in its head, without a port."""
    found = re.search(rb"(?i)\nHost:[ \t]*([^\s:]+)", request)
    return found[1] if found else b""


def of_smb(place: Place, before: bytes) -> Field | None:
    """What a path in UTF-16 is for: one that a server sends is a link of DFS."""
    front = place.payload[max(0, place.find.at - 4) : place.find.at]
    if front[-2:] != b"\\\0":
        return None
    is_referral = place.payload[4:8] == b"\xffSMB" or GET_REFERRALS in place.payload[60:90]
    return DFS if place.is_served and is_referral else SHARE


ASKED = Field("the URL that was asked for: servers repeat it, which would have the alias", TELLS)
BASE = re.compile(rb"(?i)^(?:Content-Base|Content-Location|RTP-Info)\s*:")


def of_rtsp(place: Place, before: bytes) -> Field | None:
    """The base of the URLs: one with the address that the client asked for is taken as repeated."""
    asked = re.match(rb"[A-Z_]+ rtsps?://(?:[^\s/@]*@)?([^\s/:]+)", place.asked)
    return ASKED if BASE.search(before) and asked and asked[1] == place.payload[place.find.at : place.find.end] else None


TOLD_DISPLAY = re.compile(rb"\xff\xfa#\0$|DISPLAY[\0\1]$")
DISPLAY = Field("the display to which programs of the other side connect", BREAKS)


def of_telnet(place: Place, before: bytes) -> Field | None:
    """X-DISPLAY-LOCATION (RFC 1096), or DISPLAY of the environment (RFC 1572)."""
    return DISPLAY if TOLD_DISPLAY.search(place.payload[max(0, place.find.at - 8) : place.find.at]) else None


VIA = re.compile(rb"(?i)^(?:Via|v)\s*:")
ANSWERED = Field("Via tells where answers go, where there is no rport", BREAKS)
RPORT = Field("Via with rport: answers go back the way that requests came", TELLS)


def of_sip(place: Place, before: bytes) -> Field | None:
    """Via: with rport it only identifies (RFC 3581)."""
    if not VIA.search(before) or place.is_served and place.is_reader:
        return None
    return RPORT if b"rport" in place.payload[place.find.end : place.find.end + 200].split(b"\n")[0] else ANSWERED


def of_oracle(place: Place, before: bytes) -> Field | None:
    """What a packet of TNS has: one of the kind 5 redirects."""
    return REDIRECTED if place.is_served and (place.payload[4:5] == b"\x05" or b"(ADDRESS=" in place.payload[:300]) else None


def of_nfs(place: Place, before: bytes) -> Field | None:
    """A universal address, with its port, tells where call-backs or data go."""
    return CALLED_BACK if place.payload[place.find.at : place.find.end].count(b".") == 5 else None


def of_redis(place: Place, before: bytes) -> Field | None:
    """An element of a table of nodes, or what a command tells the server to connect to."""
    front, behind = place.payload[max(0, place.find.at - 90) : place.find.at], place.payload[place.find.end : place.find.end + 12]
    is_node = BRACKETED.search(front) and (not place.is_served or behind.startswith(b"\r\n:"))
    return REDIS_NODE if is_node else None


def of_slurm(place: Place, before: bytes) -> Field | None:
    """A string as Slurm packs it: behind its size with the zero at its end, which tells it from what others say on these ports."""
    at, end = place.find.at, place.find.end
    is_packed = place.payload[max(0, at - 4) : at] == (end - at + 1).to_bytes(4) and place.payload[end : end + 1] == b"\0"
    return SLURM_NODE if is_packed else None


def of_sql_server(place: Place, before: bytes) -> Field | None:
    """A change of the environment of kind 20 leads to another server."""
    return ROUTED if place.is_served and re.search(rb"(?s)\xe3..\x14", place.payload[max(0, place.find.at - 24) : place.find.at]) else None


SPECIAL = {
    "SIP": of_sip,
    "RTSP": of_rtsp,
    "SSH, Telnet": of_telnet,
    "SMB": of_smb,
    "Oracle": of_oracle,
    "NFS": of_nfs,
    "Redis": of_redis,
    "SQL Server": of_sql_server,
    "Slurm": of_slurm,
    **{name: of_http for name in WEB},
}


def field_of(place: Place) -> Field | None:
    """What an address in text is for, if that is known."""
    before = line_before(place.payload, place.find)
    if special := SPECIAL.get(place.application):
        if found := special(place, before):
            return found
    return next((field for pattern, field in RULES.get(place.application, []) if pattern.search(before)), None)
