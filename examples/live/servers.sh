# shellcheck shell=bash disable=SC2154,SC2016
# Servers of the right realm, for `services` and `record`. To be sourced behind realms.sh.

files="$work/files" large=3000000

start_servers() {
    write_files
    write_zones
    start vsftpd ip netns exec "$right" vsftpd "$work/vsftpd.conf"
    start named ip netns exec "$right" named -g -c "$work/named.conf"
    start snmpd ip netns exec "$right" env MIBS= snmpd -f -Lo -C -c "$work/snmpd.conf" -p "$work/snmpd.pid"
    start traps ip netns exec "$right" env MIBS= snmptrapd -f -Lo -n -C -c "$work/traps.conf" -p "$work/traps.pid" udp:10.0.0.7:162
    start pages ip netns exec "$right" python3 -P -u -m http.server --bind 10.0.0.5 --directory "$files" 8080
    start pages77 ip netns exec "$right" python3 -P -u -m http.server --bind 10.0.0.77 --directory "$files" 8080
    start pages_left ip netns exec "$left" python3 -P -u -m http.server --bind 10.0.0.5 --directory "$files" 8080
    mkdir -p "/etc/netns/$left"
    printf 'nameserver 192.168.200.53\nsearch example\noptions timeout:2 attempts:2\n' >"/etc/netns/$left/resolv.conf"
    # Port 21 is 15 in hexadecimal, and 0A the state of a socket that listens.
    until in_right grep -qi ":0015 00000000:0000 0A" /proc/net/tcp && grep -q running "$work/named"; do sleep 0.1; done
}

# What FTP and HTTP serve, and the settings of the servers.
write_files() {
    local number
    mkdir -p "$files/pub" "$files/up" "$work/empty"
    head -c "$large" /dev/urandom >"$files/pub/large"
    echo hello >"$files/pub/hello"
    for number in $(seq 1 100); do echo "$number" >"$files/pub/file-with-a-long-name-$number"; done
    chmod 755 "$work" "$work/empty" "$files" "$files/pub"
    chmod 777 "$files/up"
    cat >"$work/vsftpd.conf" <<END
listen=YES
listen_ipv6=NO
background=NO
anonymous_enable=YES
local_enable=NO
anon_root=$files
no_anon_password=YES
write_enable=YES
anon_upload_enable=YES
anon_umask=022
connect_from_port_20=YES
seccomp_sandbox=NO
secure_chroot_dir=$work/empty
xferlog_enable=NO
ftpd_banner=ready
idle_session_timeout=3600
END
    printf 'rocommunity public\nrwcommunity private\nagentAddress udp:10.0.0.7:161\nsysName realm\n' >"$work/snmpd.conf"
    printf 'disableAuthorization yes\nformat1 version 1 from %%b, agent %%a, %%v\\n\nformat2 version 2 from %%b, %%v\\n\n' >"$work/traps.conf"
}

write_zones() {
    local number
    mkdir -p "$work/zones"
    chmod 777 "$work/zones"
    cat >"$work/named.conf" <<END
options {
    directory "$work/zones"; listen-on { 10.0.0.53; }; listen-on-v6 { none; }; recursion no;
    pid-file none; session-keyfile none; dnssec-validation no;
};
controls { };
zone "example" { type primary; file "example.zone"; };
zone "0.0.10.in-addr.arpa" { type primary; file "reverse.zone"; };
END
    {
        printf '$TTL 3600\n@ SOA ns admin 1 7200 900 86400 300\n NS ns\n MX 10 mail\n TXT "v=spf1 a mx -all"\n'
        printf '%s A %s\n' ns 10.0.0.53 ftp 10.0.0.7 web 10.0.0.5 mail 10.0.0.7 new 10.0.0.77 outside 203.0.113.9
        printf 'www CNAME web\n_snmp._udp SRV 0 5 161 ftp\n'
        for number in $(seq 101 140); do echo "many A 10.0.0.$number"; done
    } >"$work/zones/example.zone"
    printf '$TTL 3600\n@ SOA ns.example. admin.example. 1 7200 900 86400 300\n NS ns.example.\n%s' \
        $'5 PTR web.example.\n7 PTR ftp.example.\n53 PTR ns.example.\n77 PTR new.example.\n' >"$work/zones/reverse.zone"
}
