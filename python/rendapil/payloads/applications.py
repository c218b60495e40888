"""Applications by their ports and by how their messages begin: what addresses their payloads are known to carry, and what helps."""
import re
from functools import lru_cache

from rendapil.numbers import TCP, UDP
from rendapil.payloads.further import BEGINNINGS, FURTHER
from rendapil.payloads.weights import BREAKS, COPES, HIDDEN, MEMBERS, ROUTERS, TELLS, UNSURE, Application

__all__ = ["BREAKS", "COPES", "HIDDEN", "MEMBERS", "TELLS", "UNSURE", "Application"]

SBC = "a session border controller or a proxy between the realms, or ICE with a TURN server that both reach"
# fmt: off
APPLICATIONS = [
    Application("SIP", (5060,), (5060,), BREAKS, "Contact and SDP tell where calls and media go", SBC),
    Application("SIP over TLS", (5061,), (), HIDDEN, "the same as SIP, encrypted", SBC),
    Application("RTSP", (554, 8554), (), BREAKS, "Transport and SDP tell where streams go", "RTP inside the RTSP connection (interleaved), or an RTSP proxy"),
    Application("H.323", (1720,), (1718, 1719), BREAKS, "setup tells the addresses of H.245 and of media", "a gatekeeper that is a proxy, or H.460.18 and 19"),
    Application("MGCP, Megaco", (2944,), (2427, 2727, 2944), BREAKS, "SDP tells where media goes", SBC),
    Application("SCCP", (2000,), (), BREAKS, "OpenReceiveChannel tells where media goes", "a call manager in each realm, with a trunk through a session border controller"),
    Application("rtpengine, rtpproxy", (), (2223, 22222, 22223), BREAKS, "SDP and commands tell where media goes", "the relay for media in the realm of its SIP server"),
    Application("IAX2", (), (4569,), TELLS, "the client's address as the server sees it", "nothing: media goes on the same connection"),
    Application("FTP", (21,), (), TELLS, "a line names a third host (FXP), or follows TLS that was ended (CCC)", "EPSV, and transfers between client and server"),
    Application("FTP on another port than 21", (), (), TELLS, "PORT, EPRT and 227 tell where data goes", "port 21, or EPSV"),
    Application("FTP over TLS", (990,), (), HIDDEN, "PORT and 227 can't be read, so aren't changed", "EPSV, or SFTP"),
    Application("DNS", (53,), (53,), TELLS, "client subnets, hints of HTTPS records and texts aren't translated", "turn these off at the name server"),
    Application("DNS on another port than 53", (), (), TELLS, "addresses in answers aren't translated", "port 53 between the realms"),
    Application("DNS over TLS", (853,), (853,), HIDDEN, "addresses in answers aren't translated", "plain DNS between the realms, or a resolver in each"),
    Application("DNS over HTTPS", (), (), HIDDEN, "addresses in answers aren't translated", "plain DNS between the realms, or a resolver in each"),
    Application("mDNS, LLMNR", (5355,), (5353, 5355), BREAKS, "A records aren't translated", "unicast DNS on port 53"),
    Application("SSDP, UPnP", (), (1900,), BREAKS, "LOCATION, CALLBACK and NewInternalClient have addresses", "nothing: keep devices and their users in one realm"),
    Application("WS-Discovery, ONVIF", (), (3702,), BREAKS, "XAddrs has the device's address", "devices by configuration, under the alias"),
    Application("SLP", (427,), (427,), BREAKS, "service URLs have addresses", "service URLs by name"),
    Application("NetBIOS names", (), (137,), BREAKS, "answers have the addresses of names", "DNS in place of NetBIOS"),
    Application("NetBIOS datagrams", (), (138,), BREAKS, "each has its sender's address", "SMB over port 445, and DNS"),
    Application("SMB", (445, 139), (445,), TELLS, "paths by address, and the interfaces that multichannel offers", "paths by name; turn multichannel off"),
    Application("LDAP", (389, 3268), (389,), TELLS, "referrals and pings of domain controllers tell names or addresses", "a domain controller in each realm; referrals by name"),
    Application("Kerberos", (88, 464, 749, 754), (88, 464), TELLS, "tickets may hold the client's addresses", "noaddresses = true, which is the default"),
    Application("portmap", (111,), (111,), BREAKS, "answers of rpcbind have h.h.h.h.p.p", "NFS 4, which needs no portmap"),
    Application("NFS mounts", (), (), BREAKS, "lists of exports name the hosts that may mount", "exports for the aliases of the clients, or for Kerberos principals"),
    Application("NFS", (2049,), (2049,), TELLS, "NFS 4.0 tells where call-backs go", "NFS 4.1, which calls back on the client's connection"),
    Application("NIS", (), (), BREAKS, "bindings and the map of hosts have addresses", "DNS in place of NIS, and a server in each realm"),
    Application("ONC RPC", (), (), UNSURE, "what its program says", "ask who runs it, and test it through the gateway"),
    Application("MS-RPC", (135, 593), (), BREAKS, "the endpoint mapper tells an address and a port", "services on fixed ports, by name"),
    Application("DHCP", (), (67, 68, 4011), BREAKS, "a relay's address, to which the server answers, and the leases", "a DHCP server in each realm"),
    Application("RADIUS", (), (1645, 1646, 1812, 1813, 3799), TELLS, "NAS-IP-Address", "let the server know clients by NAS-Identifier"),
    Application("Diameter", (3868,), (), TELLS, "Host-IP-Address", "an agent between the realms"),
    Application("TACACS+", (49,), (), TELLS, "rem_addr", "nothing"),
    Application("SNMP", (), (161, 162), TELLS, "identifiers without an oid rule, and addresses as octet strings", "oid rules, and statics"),
    Application("SNMP version 3", (), (), HIDDEN, "addresses in it aren't translated", "a manager in each realm, or version 2c on a path that is safe"),
    Application("syslog", (601, 6514), (514,), TELLS, "messages name hosts", "host names; know senders by the alias"),
    Application("flow records", (4739,), (2055, 4739, 6343, 9995, 9996), TELLS, "each record has addresses", "a collector in each realm"),
    Application("NTP", (), (123,), TELLS, "the reference identifier is an address", "nothing: it only serves to find loops"),
    Application("IKE, IPsec", (), (500, 4500), HIDDEN, "identities may be addresses, and AH and bare ESP don't pass", "NAT traversal (UDP 4500), and identities by name"),
    Application("PPTP", (1723,), (), BREAKS, "GRE, which the gateway refuses, carries its data", "another tunnel, over UDP or TCP"),
    Application("tunnels of packets", (), (4789, 8472, 6081, 2152, 1701, 3544, 4341), TELLS, "packets of an inner network, which go on as they are", "nothing, where both ends of the tunnel stand outside the inner network"),
    Application("Mobile IP", (), (434,), BREAKS, "registrations tell home agents and care-of addresses", "home agent and mobile node in one realm"),
    Application("n2n", (), (7654,), BREAKS, "the supernode tells edges where others are", "another tunnel, from end to end"),
    Application("WCCP", (), (2048,), BREAKS, "routers and caches tell each other's addresses", "routers and their caches in one realm"),
    Application("GTP, PFCP", (), (2123, 8805), BREAKS, "F-TEIDs tell where a tunnel goes", "both ends in one realm"),
    Application("BGP", (179,), (), TELLS, "NEXT_HOP tells where routes lead, and OPEN has the router's identifier", "no peering over the gateway"),
    Application("RIP", (), (520,), BREAKS, "routes and next hops are addresses", ROUTERS),
    Application("Babel, OLSR", (), (698, 6696), BREAKS, "routes and next hops are addresses", ROUTERS),
    Application("MSDP, LDP", (639, 646), (646,), BREAKS, "messages tell the addresses of routers", ROUTERS),
    Application("PCP, NAT-PMP", (), (5350, 5351), BREAKS, "the client's address has to be that of its packet", "nothing: ask the gateway of the own realm"),
    Application("STUN, TURN", (3478, 5349), (3478, 5349), COPES, "addresses as the server sees them", "nothing: it is made for NAT"),
    Application("SOCKS", (1080,), (), TELLS, "requests and answers tell where to connect", "names in requests"),
    Application("HTTP", (80, 3128, 8000, 8080), (), TELLS, "Host, Location and links by address", "names, or a reverse proxy"),
    Application("IPP", (631,), (631,), TELLS, "URIs of printers", "URIs by name"),
    Application("SMTP", (25, 587), (), TELLS, "EHLO and Received tell hosts", "nothing, or names in EHLO"),
    Application("POP3, IMAP", (110, 143), (), TELLS, "headers of mails tell hosts", "nothing"),
    Application("IRC", (6667,), (), TELLS, "DCC tells where a transfer goes", "passive DCC, or another way of transfer"),
    Application("XMPP", (5222, 5269), (), TELLS, "candidates of file transfers", "in-band transfers, or a proxy (XEP-0065)"),
    Application("Gopher", (70,), (), TELLS, "each line of a menu tells a host", "names in menus"),
    Application("rsh, rexec, LPD", (512, 513, 515), (), TELLS, "DISPLAY and control files name hosts", "SSH"),
    Application("Oracle", (1521, 1522), (), TELLS, "a listener redirects to (HOST=address)", "HOST by name, or dedicated servers without redirects"),
    Application("SQL Server", (1433,), (1434,), TELLS, "routing of availability groups tells hosts", MEMBERS),
    Application("MySQL", (3306, 33060), (), TELLS, "commands and tables of replication tell hosts", MEMBERS),
    Application("PostgreSQL", (5432,), (), TELLS, "connection strings tell hosts", MEMBERS),
    Application("Galera", (4567, 4568), (), BREAKS, "members tell each other's addresses", MEMBERS),
    Application("Firebird", (3050,), (), TELLS, "a request for events is answered with an address", "no events, or RemoteBindAddress and a proxy"),
    Application("Redis", (6379, *range(7000, 7006)), (), TELLS, "MOVED, ASK and tables of nodes tell addresses", "cluster-announce-hostname, or a proxy"),
    Application("Redis Sentinel", (26379,), (), BREAKS, "sentinels tell the address of the master", "resolve-hostnames and announce-hostnames, or a proxy"),
    Application("Kafka", (9092,), (), BREAKS, "metadata tells the addresses of brokers", "advertised.listeners by name"),
    Application("ZooKeeper", (2181,), (), TELLS, "nodes hold the addresses of servers", MEMBERS),
    Application("MongoDB", (27017, 27018, 27019), (), BREAKS, "hello tells the members of a replica set", MEMBERS),
    Application("Elasticsearch", (9200, 9300), (), TELLS, "clients that sniff connect to publish_address", "sniffing off, or network.publish_host by name"),
    Application("Cassandra", (9042,), (), BREAKS, "tables and events tell the addresses of nodes", "an address translator in the driver, or nodes and clients in one realm"),
    Application("etcd", (2379, 2380), (), BREAKS, "members tell the URLs for clients and peers", "advertise-client-urls by name"),
    Application("Consul, Nomad, Serf", (8300, 8500, 4646), (7946, 8301, 8302), BREAKS, "catalogues and gossip tell addresses", "advertise addresses, or a mesh gateway"),
    Application("NATS", (4222,), (), TELLS, "INFO tells connect_urls", "no_advertise, or names"),
    Application("Dask", (8786,), (), TELLS, "the scheduler, workers and clients tell each other's addresses", "contact addresses by name"),
    Application("dRuby", (8787,), (), TELLS, "references to objects have the URI of their server", "URIs by name"),
    Application("Pyro", (), (), TELLS, "URIs of objects have the server's address", "natHost by name"),
    Application("Erlang", (4369,), (), TELLS, "names of nodes hold their addresses", "names of nodes by host name"),
    Application("Slurm", (6817, 6818), (), UNSURE, "the controller tells the addresses of nodes and of who asks", "NodeAddr by name, and the cluster in one realm"),
    Application("Spark", (7077,), (), BREAKS, "the driver, the master and workers tell each other's addresses", "spark.driver.host and SPARK_LOCAL_HOSTNAME by name"),
    Application("Hadoop", (8020,), (), BREAKS, "the name node tells the addresses of data nodes", "dfs.client.use.datanode.hostname = true, and names"),
    Application("Pulsar", (6650,), (), BREAKS, "lookups tell the addresses of brokers", "advertisedAddress by name, or a proxy"),
    Application("RocketMQ", (9876, 10911), (), BREAKS, "the name server tells the addresses of brokers", "brokerIP1 by name, or a proxy"),
    Application("Hazelcast", (5701,), (), BREAKS, "members tell each other's addresses", "public-address by name"),
    Application("Couchbase", (11210,), (), BREAKS, "the map of a cluster tells the addresses of nodes", "alternate addresses by name"),
    Application("ActiveMQ", (61616,), (), TELLS, "the broker tells its URL and those of its peers", "publishedAddressPolicy by name"),
    Application("Ceph", (3300, 6789), (), BREAKS, "maps tell the addresses of monitors and of OSDs", "storage and its clients in one realm"),
    Application("GlusterFS", (24007, 24008), (), BREAKS, "volume files have the addresses of bricks", "bricks by name"),
    Application("MooseFS", (9419, 9420, 9421), (), BREAKS, "the master tells the addresses of chunk servers", "storage and its clients in one realm"),
    Application("Lustre", (988,), (), BREAKS, "identifiers of nodes are addresses", "storage and its clients in one realm"),
    Application("Corosync", (), (5404, 5405), BREAKS, "members tell each other's addresses", "members in one realm"),
    Application("Bacula", (9101, 9102, 9103), (), TELLS, "the director tells the address of the storage", "storage by name"),
    Application("RMI, JMX", (1099,), (), BREAKS, "stubs have the server's address", "java.rmi.server.hostname by name"),
    Application("CORBA", (2809,), (), BREAKS, "IORs have the server's address", "published names in place of addresses"),
    Application("ZeroC Ice", (4061,), (), BREAKS, "proxies have the endpoints of servers", "PublishedHost by name"),
    Application("DDS", (), tuple(range(7400, 7424)), BREAKS, "locators tell where participants listen", "a router of DDS between the realms"),
    Application("ROS", (11311,), (), BREAKS, "the master tells the URIs of nodes", "ROS_HOSTNAME by name"),
    Application("OPC UA", (4840,), (), BREAKS, "endpoint URLs have the server's address", "endpoint URLs by name"),
    Application("KNXnet/IP", (3671,), (3671,), BREAKS, "a client tells where answers go", "route back (0.0.0.0 as the client's address), or TCP"),
    Application("BACnet", (), (47808,), TELLS, "what a BBMD forwards tells its sender", "a BBMD in each realm, and BACnet/SC between"),
    Application("EtherNet/IP", (44818,), (2222, 44818), TELLS, "a device tells its socket address", "devices by configuration, under the alias"),
    Application("SOME/IP", (), (30490,), BREAKS, "service discovery tells endpoints", "services and their clients in one realm"),
    Application("iSCSI", (3260,), (), TELLS, "SendTargets answers with TargetAddress", "static targets, and portals without addresses of their own"),
    Application("iSNS", (3205,), (3205,), BREAKS, "portals are addresses", "static targets"),
    Application("WINS", (42,), (), BREAKS, "records of names have addresses", "DNS in place of WINS"),
    Application("NDMP", (10000,), (), BREAKS, "the data server tells its address", "a backup server in each realm"),
    Application("RDP", (3389,), (3389,), TELLS, "a connection broker may redirect to an address", "redirects by name"),
    Application("Citrix", (1494, 2598), (1604,), BREAKS, "the broker tells the server's address", "a Citrix gateway"),
    Application("MQTT", (1883,), (), TELLS, "topics and messages may name hosts", "names"),
    Application("AFS", (), tuple(range(7000, 7010)), BREAKS, "the volume server tells the addresses of file servers", "file servers and clients in one realm"),
    Application("BitTorrent", (6969,), (6881, 6969), TELLS, "trackers and peers tell the addresses of peers", "IPv6, or peers in one realm"),
    Application("lists of game servers", (), (27011, 27950), BREAKS, "a master tells the addresses of servers", "servers by name"),
    Application("eDonkey", (4661, 4662), (4665, 4672), BREAKS, "servers and peers tell the addresses of peers", "peers in one realm"),
    Application("Gnutella", (6346,), (6346,), BREAKS, "pongs and hits tell the addresses of peers", "peers in one realm"),
    Application("Direct Connect", (411, 412), (412,), BREAKS, "a hub tells where clients connect", "passive mode of one side"),
    Application("Bitcoin", (8333, 18333), (), TELLS, "messages tell the addresses of peers", "peers in one realm"),
    Application("Ethereum", (), (30303,), BREAKS, "pings and neighbours tell where peers are", "peers in one realm"),
    Application("CAPWAP", (), (5246, 5247), BREAKS, "a controller tells where access points connect", "controllers and access points in one realm"),
    Application("AJP", (8009,), (), TELLS, "requests tell the client's address and the host", "nothing"),
    Application("OpenFlow", (6633, 6653), (), TELLS, "rules match addresses", "switches and their controller in one realm"),
    Application("talk", (), (517, 518), BREAKS, "invitations tell where to connect", "another way to talk"),
    Application("ICP", (), (3130,), TELLS, "requests tell the client's address", "nothing"),
    Application("Git, Subversion", (9418, 3690), (), TELLS, "requests name the server", "nothing, or names"),
    Application("SSH, Telnet", (22, 23), (), TELLS, "DISPLAY, and what users type", "X11 inside SSH"),
    Application("memcached", (11211,), (11211,), TELLS, "values and statistics", "nothing"),
    Application("AMQP", (5672,), (), TELLS, "properties of a client", "nothing"),
    Application("Zabbix, NRPE", (5666, 10050, 10051), (), TELLS, "names of hosts and values", "hosts under their aliases"),
    Application("metrics", (2003, 8125), (2003, 8125, 25826), TELLS, "names of hosts", "nothing, or host names"),
    Application("LISP", (), (4342,), BREAKS, "mappings tell locators and hosts", "both ends in one realm"),
    Application("HSRP", (), (1985,), TELLS, "the virtual address of a group of routers", "routers of a group in one realm"),
    Application("RTCP", (), (), TELLS, "CNAME has the sender's address", "nothing"),
    Application("TLS", (443, 8443), (), TELLS, "the server's name in the handshake may be an address", "names"),
    Application("QUIC", (), (443,), TELLS, "the server's name in the handshake may be an address", "names"),
    Application("XDMCP", (), (177,), BREAKS, "a display tells the manager its addresses, to which the manager connects", "X11 inside SSH, or VNC or RDP"),
    Application("X11", (*range(6000, 6010),), (), TELLS, "DISPLAY and the access list name hosts", "xauth in place of xhost, or X11 inside SSH"),
]
# fmt: on
UNKNOWN = Application("", (), (), UNSURE, "", "ask who runs it, and test it through the gateway: try writes what it would get")
"""An application that nobody knows."""

APPLICATIONS += FURTHER
BY_NAME = {one.name: one for one in APPLICATIONS}
BY_PORT = {(protocol, port): one for one in APPLICATIONS for protocol, ports in ((TCP, one.tcp), (UDP, one.udp)) for port in ports}

VAGUE = {(TCP, port) for port in (3128, 4222, 5000, 6667, *range(7000, 7006), 7500, 8000, 8080)}
"""Ports that others use too: only what is said there tells."""

SHARED = ("HTTP", "IPP", "TLS", "Elasticsearch", "Consul, Nomad, Serf", "BitTorrent", "RMI, JMX")
"""Applications whose messages may be those of another one, which is told by what is said."""

SIGNATURES = [
    ("SIP", re.compile(rb"(?:INVITE|REGISTER|ACK|BYE|CANCEL|OPTIONS|PRACK|SUBSCRIBE|NOTIFY|PUBLISH|INFO|REFER|MESSAGE|UPDATE) sips?:|SIP/2\.0 ")),
    ("RTSP", re.compile(rb"(?:OPTIONS|DESCRIBE|SETUP|PLAY|PAUSE|TEARDOWN|ANNOUNCE|RECORD|GET_PARAMETER|SET_PARAMETER) rtsp:|RTSP/1\.0 ")),
    ("SSDP, UPnP", re.compile(rb"(?:NOTIFY|M-SEARCH) \* HTTP/1|(?:SUBSCRIBE|NOTIFY|UNSUBSCRIBE) /|HTTP/1\.1 200 OK\r\n(?s:.{0,500})\n(?:ST|USN):")),
    (
        "BitTorrent",
        re.compile(
            rb"GET /(?:announce|scrape)[^ ]{0,200}info_hash=|d\d+:(?:complete|incomplete|interval|peers)|\0\0\x04\x17\x27\x10\x19\x80|\x13BitTorrent prot|d(?:1:[are]|2:ip)"
        ),
    ),
    ("Redis", re.compile(rb"\*[1-9]\d{0,3}\r\n\$\d{1,6}\r\n|-(?:MOVED|ASK) \d+ |RCmb")),
    ("HTTP", re.compile(rb"(?:GET|POST|HEAD|PUT|DELETE|OPTIONS|CONNECT|PROPFIND|PATCH) [^\r\n]{0,4000}HTTP/1|HTTP/1\.[01] \d")),
    (
        "FTP on another port than 21",
        re.compile(
            rb"(?i:PORT \d+,\d+,\d+,\d+,|EPRT .1.\d+\.|227 [^\r\n]*\d+,\d+,\d+,\d+,|220[- ][^\r\n]*FTP|(?:USER|PASS) [^\s]*\r\n$|(?:PASV|EPSV|SYST|FEAT|TYPE [AI])\r\n)"
        ),
    ),
    ("SMTP", re.compile(rb"(?i:EHLO |HELO |220[- ][^\r\n]*SMTP)")),
    ("STUN, TURN", re.compile(rb"[\x00-\x3f](?s:.{3})\x21\x12\xa4\x42")),
    ("IRC", re.compile(rb"(?::\S+ )?(?:NICK \S+\r?\n|USER \S+ \S+ \S+ |PRIVMSG \S+ :|JOIN [#&]|NOTICE \S+ :|CAP (?:LS|REQ|END)|\d{3} \S+ )")),
    ("RTCP", re.compile(rb"[\x80-\x9f][\xc8-\xca]\x00")),
    ("CORBA", re.compile(rb"GIOP\x01")),
    ("SMB", re.compile(rb"\x00(?s:.{3})[\xff\xfe]SMB")),
    ("MS-RPC", re.compile(rb"\x05\x00[\x00\x02\x0b\x0c\x0d\x0e\x0f\x10\x13][\x00-\x83]\x10\x00\x00\x00")),
    ("BGP", re.compile(rb"\xff{16}")),
    ("H.323", re.compile(rb"\x03\x00(?s:..)\x08\x02")),
    ("MQTT", re.compile(rb"\x10[\x00-\xff]{1,4}\x00[\x04\x06]MQ(?:TT|Is)")),
    ("Oracle", re.compile(rb"(?s:..)\x00\x00[\x01-\x0e]\x00\x00\x00(?s:.{0,60})\((?:DESCRIPTION|ADDRESS)=")),
    ("LDAP", re.compile(rb"\x30(?:[\x0c-\x7f]|\x81.|\x82..|\x84....)\x02[\x01-\x04][\x00-\xff]{1,4}?[\x60\x61\x63-\x65\x73\x78](?s:.)", re.DOTALL)),
    ("XMPP", re.compile(rb"(?:<\?xml[^>]*>\s*)?<stream:stream ")),
    ("RMI, JMX", re.compile(rb"JRMI\x00\x02")),
    ("Ceph", re.compile(rb"ceph v[02 ]")),
    ("NATS", re.compile(rb"INFO \{\"server_id\"")),
    ("X11", re.compile(rb"l\x00\x0b\x00\x00\x00|B\x00\x00\x0b\x00\x00")),
    ("ZeroC Ice", re.compile(rb"IceP\x01")),
    ("DDS", re.compile(rb"RTP[SX]\x02")),
    ("OPC UA", re.compile(rb"(?:HEL|ACK|OPN|MSG)F(?s:.{2})\x00\x00(?s:.{4})")),
    ("Direct Connect", re.compile(rb"\$Lock EXTENDEDPROTOCOL|[HI]SUP AD")),
    ("ActiveMQ", re.compile(rb"(?s:.{4})\x01ActiveMQ")),
    ("dRuby", re.compile(rb"\x00(?s:.{3})\x04\x08[0TF\"i]")),
    ("Pyro", re.compile(rb"PYRO[\x00-\x02]")),
    ("Erlang", re.compile(rb"\x00(?s:.)(?:n\x00\x05(?s:.{4,8})|N(?s:.{12,16})\x00(?s:.))[\w-]{1,60}@")),
    ("Hadoop", re.compile(rb"hrpc[\x04-\x0f]")),
    ("WS-Discovery, ONVIF", re.compile(rb"(?s:.{0,400})(?:ws/2005/04/discovery|onvif\.org)")),
    ("MGCP, Megaco", re.compile(rb"(?:CRCX|MDCX|DLCX|RQNT|NTFY|AUEP|RSIP) \d+ |MEGACO/|!/")),
    ("lists of game servers", re.compile(rb"\xff{4}(?:getservers|\x66\n)")),
    ("Gopher", re.compile(rb"[0-9ghIi][^\t\r\n]{0,200}\t[^\t\r\n]{0,300}\t[^\t\r\n]{1,100}\t\d{1,5}\r\n")),
]
SIGNATURES += [(name, re.compile(pattern)) for name, pattern in BEGINNINGS]
PROGRAMS = {100000: "portmap", 100003: "NFS", 100005: "NFS mounts", 100004: "NIS", 100007: "NIS", 100009: "NIS", 600100069: "NIS"} | {
    program: "GlusterFS" for program in (1238433, 1238463, 1298437, 14398633, 34123456)
}
"""Programs of ONC RPC."""
TLS = re.compile(rb"[\x14-\x17]\x03[\x00-\x04]")
"""How a record of TLS begins."""
RESOLVERS = re.compile(
    rb"dns\.google|cloudflare-dns\.com|one\.one\.one\.one|dns\.quad9\.net|dns\.nextdns\.io|doh\.opendns\.com|dns\.adguard|dns0\.eu|doh\."
)
"""Names of servers of DNS over HTTPS, as a TLS handshake tells them."""


def rpc_of(protocol: int, payload: bytes) -> str:
    """The application of a call of ONC RPC, if it is one."""
    call = payload[4:] if protocol == TCP and payload[:1] >= b"\x80" else payload
    if call[4:12] != b"\0\0\0\0\0\0\0\2" or len(call) < 40:
        return ""
    program = int.from_bytes(call[12:16])
    return PROGRAMS.get(program, "ONC RPC" if 100000 <= program < 0x40000000 else "")


def dns_of(payload: bytes) -> str:
    """DNS on a port that isn't known for it: one question of the class IN, whose name ends where it has to."""
    if len(payload) < 17 or payload[4:6] != b"\0\1" or payload[2] & 0x78 or payload[6] or payload[8] or payload[10]:
        return ""
    at = 12
    while at < len(payload) and 0 < payload[at] < 64:
        at += payload[at] + 1
    is_end = payload[at : at + 2] in (b"\0\0", b"\0\x01") and payload[at + 3 : at + 5] in (b"\0\1", b"\x80\1")
    return "DNS on another port than 53" if is_end else ""


def any_of(signatures: list[tuple[str, re.Pattern[bytes]]]) -> re.Pattern[bytes]:
    """One pattern of all of these: the first that fits counts, and tells its number."""
    parts = (
        b"(?P<s%d>%s)" % (number, b"(?s:" + one.pattern + b")" if one.flags & re.DOTALL else one.pattern)
        for number, (_, one) in enumerate(signatures)
    )
    return re.compile(b"|".join(parts))


ANY = any_of(SIGNATURES)


def said_in(protocol: int, payload: bytes) -> str:
    """The name of the application whose message a payload begins, by what is said."""
    if found := ANY.match(payload):
        return SIGNATURES[int((found.lastgroup or "s0")[1:])][0]
    length = 2 if protocol == TCP and int.from_bytes(payload[:2]) == len(payload) - 2 else 0
    return rpc_of(protocol, payload) or dns_of(payload[length:])


@lru_cache(maxsize=4096)
def by_port(protocol: int, port: int, far_port: int) -> tuple[Application | None, int]:
    """The application that a port names, and the port of its server: the one that is known, or the lower one."""
    for one in (far_port, port) if far_port < port else (port, far_port):
        if known := BY_PORT.get((protocol, one)):
            return known, one
    return None, min(port, far_port)


CLEAR = ("SIP", "RTSP", "SSDP, UPnP", "HTTP", "CORBA", "SMB", "RMI, JMX", "NATS", "ZeroC Ice", "DDS", "OPC UA", "ActiveMQ")
"""Applications whose messages can't be others: what is said tells more than the port."""

OWN_HTTP = ("etcd", "Couchbase", "ROS", "FTP", "DNS", "SNMP", "TLS")
"""Applications that speak HTTP themselves, and those whose ports the gateway looks into, whatever is said there."""


def clear_in(protocol: int, known: Application, payload: bytes) -> str:
    """The name of another application than that of the port, whose message can't be another one's."""
    if known.name in OWN_HTTP:
        return ""
    return next((name for name, signature in SIGNATURES if name in CLEAR and (protocol == TCP or name != "HTTP") and signature.match(payload)), "")


def application_of(protocol: int, port: int, far_port: int, payload: bytes) -> tuple[Application, int]:
    """The application of a flow by its ports and by a payload of it, and the port of its server."""
    known, server = by_port(protocol, port, far_port)
    if (rpc := rpc_of(protocol, payload)) and not (rpc == "ONC RPC" and known):
        return BY_NAME[rpc], far_port
    is_tls = protocol == TCP and TLS.match(payload)
    if known and known.name == "FTP" and is_tls:
        return BY_NAME["FTP over TLS"], server
    if known and known.name == "SNMP" and payload[:1] == b"\x30" and b"\x02\x01\x03" in payload[1:8]:
        return BY_NAME["SNMP version 3"], server
    if is_tls:
        if RESOLVERS.search(payload) and not (known and known.weight == HIDDEN):
            return BY_NAME["DNS over HTTPS"], server
        return known if known and known.weight == HIDDEN else BY_NAME["TLS"], server
    if not known or known.name in SHARED or (protocol, server) in VAGUE:
        if name := said_in(protocol, payload):
            return BY_NAME[name], server
    elif name := clear_in(protocol, known, payload):
        return BY_NAME[name], server
    return (known if known and (protocol, server) not in VAGUE else UNKNOWN), server
