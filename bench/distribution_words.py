"""The words of a distribution's policy: classes with their permissions, roles, users, names of modules and of types; how
often rules are on a class. Also numbers that look random and are the same on every run.
"""
CLASSES = 134

FILE = ("append audit_access create execmod execute getattr ioctl link lock map mounton open quotaon read relabelfrom "
        "relabelto rename setattr unlink watch watch_mount watch_reads watch_sb watch_with_perm write")
SOCKET = ("accept append bind connect create getattr getopt ioctl listen lock map name_bind read recvfrom relabelfrom "
          "relabelto sendto setattr setopt shutdown write")
IPC = "associate create destroy getattr read setattr unix_read unix_write write"
CAPABILITY = ("audit_control audit_write chown dac_override dac_read_search fowner fsetid ipc_lock ipc_owner kill lease "
              "linux_immutable mknod net_admin net_bind_service net_broadcast net_raw setfcap setgid setpcap setuid "
              "sys_admin sys_boot sys_chroot sys_module sys_nice sys_pacct sys_ptrace sys_rawio sys_resource sys_time "
              "sys_tty_config")
CAPABILITY2 = "audit_read block_suspend bpf checkpoint_restore mac_admin mac_override perfmon syslog wake_alarm"
PROCESS = ("dyntransition execheap execmem execstack fork getattr getcap getpgid getrlimit getsched getsession noatsecure "
           "ptrace rlimitinh setcap setcurrent setexec setfscreate setkeycreate setpgid setrlimit setsched setsockcreate "
           "share sigchld siginh sigkill signal signull sigstop transition")
NETLINK = " nlmsg_read nlmsg_write"

# What classes have in common: a class with all permissions of one of these has it.
COMMONS = {
    "file": FILE, "socket": SOCKET, "ipc": IPC, "cap": CAPABILITY, "cap2": CAPABILITY2,
    "database": "create drop getattr relabelfrom relabelto setattr",
    "x_device": "create destroy getattr list_property read setattr write",
}

# Classes with a list of permissions of their own.
OWN = {
    "file": FILE + " entrypoint execute_no_trans", "dir": FILE + " add_name remove_name reparent rmdir search",
    "lnk_file": FILE, "chr_file": FILE, "blk_file": FILE, "sock_file": FILE, "fifo_file": FILE, "anon_inode": FILE,
    "process": PROCESS, "process2": "nnp_transition nosuid_transition", "fd": "use",
    "capability": CAPABILITY, "cap_userns": CAPABILITY, "capability2": CAPABILITY2, "cap2_userns": CAPABILITY2,
    "filesystem": "associate getattr mount quotaget quotamod relabelfrom relabelto remount unmount watch",
    "security": ("check_context compute_av compute_create compute_member compute_relabel compute_user load_policy "
                 "read_policy setbool setcheckreqprot setenforce setsecparam validate_trans"),
    "system": ("disable enable halt ipc_info module_load module_request reboot reload start status stop syslog_console "
               "syslog_mod syslog_read"),
    "service": "disable enable reload start status stop", "dbus": "acquire_svc send_msg",
    "passwd": "chfn chsh crontab passwd rootok", "nscd": "admin getgrp gethost getpwd getserv getstat shmemhost",
    "tcp_socket": SOCKET + " name_connect node_bind", "udp_socket": SOCKET + " node_bind",
    "rawip_socket": SOCKET + " node_bind", "dccp_socket": SOCKET + " name_connect node_bind",
    "sctp_socket": SOCKET + " association name_connect node_bind", "icmp_socket": SOCKET + " node_bind",
    "unix_stream_socket": SOCKET + " connectto", "unix_dgram_socket": SOCKET, "tun_socket": SOCKET + " attach_queue",
    "sem": IPC, "shm": IPC + " lock", "msgq": IPC + " enqueue", "ipc": IPC, "msg": "receive send",
    "node": "recvfrom sendto", "netif": "egress ingress", "peer": "recv", "packet": "flow_in flow_out forward_in forward_out "
    "recv relabelto send", "association": "polmatch recvfrom sendto setcontext",
    "key": "create link read search setattr view write", "bpf": "map_create map_read map_write prog_load prog_run",
    "perf_event": "cpu kernel open read tracepoint write", "binder": "call impersonate set_context_mgr transfer",
    "memprotect": "mmap_zero", "kernel_service": "create_files_as use_as_override", "lockdown": "confidentiality integrity",
    "infiniband_pkey": "access", "infiniband_endport": "manage_subnet", "io_uring": "cmd override_creds sqpoll",
    "user_namespace": "create",
}
SOCKETS = ("socket packet_socket key_socket appletalk_socket netrom_socket atmpvc_socket x25_socket rose_socket decnet_socket "
           "atmsvc_socket rds_socket irda_socket pppox_socket llc_socket can_socket tipc_socket bluetooth_socket iucv_socket "
           "rxrpc_socket isdn_socket phonet_socket ieee802154_socket caif_socket alg_socket nfc_socket vsock_socket "
           "kcm_socket qipcrtr_socket smc_socket xdp_socket mctp_socket ax25_socket ipx_socket")
NETLINKS = ("netlink_socket netlink_route_socket netlink_tcpdiag_socket netlink_nflog_socket netlink_xfrm_socket "
            "netlink_selinux_socket netlink_audit_socket netlink_dnrt_socket netlink_kobject_uevent_socket "
            "netlink_iscsi_socket netlink_fib_lookup_socket netlink_connector_socket netlink_netfilter_socket "
            "netlink_generic_socket netlink_scsitransport_socket netlink_rdma_socket netlink_crypto_socket")
DATABASES = "database table procedure column tuple blob schema view sequence language exception"
DISPLAYS = ("drawable screen gc font colormap property selection cursor client device server extension resource event "
            "synthetic_event application_data pointer keyboard")

# How often a rule is on a class, of 100, and which lists of permissions rules have on it.
FILES = ("getattr ioctl lock open read", "getattr open read", "getattr", "append getattr ioctl lock open",
         "getattr ioctl lock map open read", "append create getattr open read rename setattr unlink write")
DIRS = ("getattr open search", "getattr ioctl lock open read search", "search", "add_name getattr open remove_name search write")
USED = (
    (34, "file", FILES), (22, "dir", DIRS), (8, "lnk_file", ("getattr read", "create getattr read unlink")),
    (7, "process", ("sigchld", "signal signull", "getattr", "transition")), (6, "fd", ("use",)),
    (6, "unix_stream_socket", ("connectto", "getattr getopt read write")), (5, "fifo_file", ("getattr ioctl lock read write",)),
    (4, "sock_file", ("getattr open write", "write")), (3, "chr_file", ("getattr ioctl lock open read write",)),
    (2, "tcp_socket", ("name_connect", "name_bind", "recvfrom sendto")), (1, "dbus", ("send_msg",)),
    (1, "unix_dgram_socket", ("sendto",)), (1, "capability", ("setgid setuid", "net_bind_service", "sys_ptrace")),
)

ROLES = ("system_r staff_r user_r sysadm_r unconfined_r guest_r xguest_r webadm_r logadm_r dbadm_r auditadm_r secadm_r").split()
USERS = {"system_u": ROLES[:1] + ROLES[4:5], "root": ROLES[:5], "staff_u": ROLES[:5] + ROLES[7:], "user_u": ROLES[2:3],
         "sysadm_u": ROLES[3:4], "unconfined_u": ROLES[:1] + ROLES[4:5], "guest_u": ROLES[5:6], "xguest_u": ROLES[6:7]}

# The names of modules.
NAMES = ("abrt acct aiccu aide amanda amavis apm asterisk auditd avahi awstats bitlbee boinc brctl canna ccs "
         "cfengine cgred chrome cinder cipe clogd clvmd collectd condor conman courier cpuctl ctdbd cups cyphesis "
         "dbskk dcc denyhost devlog dhcpd dirsrv dkim dnsmasq docker drbd entropyd exim fetchmail fingerd fprintd "
         "freeipmi ftpd geoclue getty glance gluster gpg gpsd gssproxy haproxy hostname httpd hwclock icecast "
         "inetd init iodine ipsec irc iscsid isnsd jabberd jockey keepalive keystone kismet ksmtuned ktalkd ldap "
         "lircd locate logwatch lpd lvm mailman mcelog memcached milter mock modemm mongod motion mozilla mplayer "
         "mrtg mysqld mythtv named netutils neutron ninfod nis nscd nslcd ntop numad nut obex oddjob opensm "
         "openwsman oracle pam passenger pegasus pingd piranha pki plymouth policykit polipo postfix pppd prelink "
         "procmail psad pulseaudio pyzor qemu qpidd quota racoon radvd raid readahead redis rhsmcertd ricci "
         "roundup rpcd rpm rtkit rwho sanlock sblim screen sensord setrans smartmon smokeping snort soundd spamd "
         "sshd sssd stunnel sulogin svnserve swift syslogd tcpd tftpd tgtd thumb tmpreaper tor traceroute tvtime "
         "ulogd uml usbmodules usbmuxd usernetctl uuidd uwimap vbetool vdagent virtd vlock vmware vpnc watchdog "
         "webalizer winbind wireshark xend xserver yppasswd zabbix zebra").split()

# The names of a module's types, from its own.
DOMAINS = ["_t", "_cgi_t", "_sys_t", "_net_t"]
OBJECTS = ("_exec_t _conf_t _etc_t _log_t _var_lib_t _var_run_t _tmp_t _tmpfs_t _cache_t _unit_file_t _initrc_exec_t "
           "_port_t _client_packet_t _server_packet_t _spool_t _keytab_t _lock_t _home_t").split()


class Numbers:
    """Numbers that look random and are the same on every run."""

    def __init__(self, seed):
        self.state = seed

    def below(self, bound):
        self.state = (self.state * 6364136223846793005 + 1442695040888963407) % 2 ** 64
        return (self.state >> 33) % bound

    def one_of(self, items):
        return items[self.below(len(items))]


def classes():
    """Each class with its permissions."""
    lists = dict(OWN)
    lists.update((name, SOCKET) for name in SOCKETS.split())
    lists.update((name, SOCKET + NETLINK) for name in NETLINKS.split())
    lists.update(("db_" + name, "create drop getattr relabelfrom relabelto setattr") for name in DATABASES.split())
    lists.update(("x_" + name, "create destroy getattr list_property read setattr write") for name in DISPLAYS.split())
    for number in range(CLASSES - len(lists)):
        lists[f"service_{NAMES[number]}"] = "disable enable reload start status stop"
    assert len(lists) == CLASSES and all(len(set(list_.split())) <= 32 for list_ in lists.values())
    return lists


def base(lists):
    """The module of classes, roles and users."""
    lines = [f"(class {name} ({list_}))" for name, list_ in lists.items()]
    lines += [f"(role {role})" for role in ROLES]
    for user, roles in USERS.items():
        lines += [f"(user {user})"] + [f"(userrole {user} {role})" for role in roles]
    return lines


def base_with_commons(lists):
    """The same with commons."""
    lines = [f"(common {name} ({list_}))" for name, list_ in COMMONS.items()]
    for name, list_ in lists.items():
        own = set(list_.split())
        common = next((common for common, shared in COMMONS.items() if set(shared.split()) <= own), None)
        if common:
            own -= set(COMMONS[common].split())
            lines.append(f"(classcommon {name} {common})")
        lines.append(f"(class {name} ({' '.join(sorted(own))}))")
    return lines + base({})


def allow(source, target, name, list_):
    return f"(allow {source} {target} ({name} ({list_})))"
