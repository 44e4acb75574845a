#!/usr/bin/env python3
"""Makes the Debian package of a program and tries it by docs/OPERATING.md: in a Debian of its own, under its own systemd,
it is installed, put behind nginx, configured, called, watched, given a backend by docs/BACKEND.md, killed, backed up,
upgraded, removed and purged. What was backed up is restored in another one, and put into four shards behind HAProxy.

usage: tests/trials/packaged.py PROGRAM

Runs as root, and needs dpkg-deb, lintian, debootstrap and systemd-nspawn, and the packages that debootstrap fetches.
If something of that can't be had, or not in time, it says what it passed over.
"""

import os
import re
import shutil
import subprocess
import sys
import tempfile
import textwrap
from pathlib import Path

TESTS = os.path.join(os.path.dirname(os.path.abspath(__file__)), "..")
sys.path += [TESTS, os.path.join(TESTS, "lib")]

from pages import LINK, Page
from serving import ROOT, TIME, passed_over, tell

SCRIPT = os.path.join(ROOT, "packaging", "package.sh")
UNITS = [os.path.join(ROOT, "packaging", name) for name in ("osb-broker.service", "osb-broker@.service")]
PAGES = [os.path.join(ROOT, "docs", name) for name in ("OPERATING.md", "BACKEND.md")]
MAINTAINER = "Nobody <nobody@users.noreply.furtsjik.example>"
INCLUDED = "systemd,systemd-sysv,dbus,curl,init-system-helpers,nginx-light,haproxy,procps,openssl,python3"
LATER = "9.9.9"
NSPAWN = ["systemd-nspawn", "-q", "--register=no", "--keep-unit", "--private-network", "-D"]
# What runs in a container, once it has booted. Each step writes a line `# NAME`, and then what it finds. A line
# `told: START` stands for those of docs/OPERATING.md and docs/BACKEND.md that begin so.
COMMON = r"""#!/bin/bash
exec > /root/found 2>&1
settings=/etc/osb-broker/settings.json
records=/var/lib/private/osb-broker

# waits until a command succeeds, for half a minute at most
until_it() {
    for _ in $(seq 300); do
        "$@" > /dev/null 2>&1 && return
        sleep 0.1
    done
    echo "not within half a minute: $*"
}
listens() { curl -s http://127.0.0.1:${1:-8080}/; }
is_up() { listens && systemctl is-active -q osb-broker; }
password_of() { sed -n "s/.*\"$1\", \"password\": \"\([0-9a-f]\{48\}\)\".*/\1/p" $settings; }
state() { systemctl show -p ActiveState -p Result -p ExecMainStatus -p NRestarts osb-broker | sort | tr '\n' ' '; echo; }
call() { curl -s -m 60 $trusting -u "platform:$password" -H 'X-Broker-API-Version: 2.17' -w ' %{http_code}\n' "$@"; }
"""
STEPS = COMMON + r"""
# The reload was a restart, too.
restarted() { [ "$(systemctl show -p NRestarts --value osb-broker)" = 2 ] && listens; }
has_failed() { [ "$(systemctl show -p ActiveState --value osb-broker)" = failed ]; }
installs() {
    cd $1
told: apt-get install
}
work() { curl -s -m 60 -u "backend:$other" -w ' %{http_code}\n' "$@"; }
instance=https://localhost:8443/v2/service_instances
body() { printf '{"service_id":"svc","plan_id":"%s","organization_guid":"o","space_guid":"s"}' $1; }
write() {
    cat << END
{
  "platform": { "user": "platform", "password": "$password" },
  "backend": { "user": "backend", "password": "$other" },
  "catalog": {
    "services": [{ "id": "svc", "name": "s", "description": "d", "bindable": true, "plans": [
      { "id": "$1", "name": "now", "description": "d" }, { "id": "slow", "name": "later", "description": "d" } ] }]
  },
  "modes": { "slow": { "instances": "asynchronous" } }
}
END
}

echo '# installed'
installs /root/package > /root/installed 2>&1 || cat /root/installed
systemd-analyze verify --man=no osb-broker.service
stat -c '%a %U' $settings
password=$(password_of platform) other=$(password_of backend)
echo "$([ "$password" ] && [ "$password" != "$other" ] && echo two passwords)"
osb-broker check $settings
until_it is_up; state
call http://127.0.0.1:8080/v2/catalog

echo '# behind nginx'
openssl req -x509 -newkey rsa:2048 -nodes -subj /CN=localhost -days 2 -keyout /etc/nginx/broker.key \
    -out /etc/nginx/broker.crt 2> /dev/null
told: cp /usr/share/doc/osb-broker/examples/nginx.conf
trusting='--cacert /etc/nginx/broker.crt'
until_it call https://localhost:8443/
call https://localhost:8443/v2/catalog
call https://localhost:8443/backend/v1/orders
password= call https://localhost:8443/v2/
password= call https://localhost:8443/healthz
call -H 'X-Broker-API-Request-Identity: one' https://localhost:8443/v2/none
tail -n 1 /var/log/nginx/osb-broker.log | cut -d ' ' -f 2,4-
(
told: awk
) | grep '^401\|slowest' | sed 's/slowest .*/slowest/'

echo '# configured'
write p > $settings
told: systemctl reload-or-restart
until_it listens
osb-broker check $settings
call -X PUT -d "$(body p)" $instance/a
stat -c '%a' $records $records/broker.db $records/broker.db-wal

echo '# settings that are not accepted'
process() { systemctl show -p MainPID osb-broker; }
before=$(process)
write p | sed 's/, "bindable": true//' > $settings
systemctl reload-or-restart osb-broker 2> /dev/null; echo $?
journalctl -q --no-pager -u osb-broker -o cat | grep -A 2 '^settings'
[ "$(process)" = "$before" ] && call $instance/a
write p > $settings

echo '# reported'
call -X PUT -d "$(body slow)" "$instance/b?accepts_incomplete=true"
call $instance/b/last_operation
work -X PUT -d '{"state":"succeeded"}' http://127.0.0.1:8080/backend/v1/orders/b/1
call $instance/b/last_operation

echo '# an order that nobody reports'
call -X PUT -d "$(body slow)" "$instance/c?accepts_incomplete=true"
sed "s/PASSWORD/$other/; s,INSTANCE/SEQ,c/1," << 'END' | bash 2> /dev/null
told: curl -u backend:PASSWORD
END
echo; call $instance/c/last_operation

echo '# a backend'
call -X PUT -d "$(body slow)" "$instance/e?accepts_incomplete=true"
sed "s/PASSWORD/$other/" << 'END' | bash 2> /dev/null
told: mkdir -p /usr/local/lib/osb-backend
END
has_ended() { call $instance/e/last_operation | grep succeeded; }
until_it has_ended
systemd-analyze verify --man=no osb-backend.service
journalctl -q --no-pager -u osb-backend -o cat | grep succeeded
systemctl stop osb-backend; systemctl show -p Result -p ExecMainStatus osb-backend | sort | tr '\n' ' '; echo

echo '# watched'
call -X PUT -d "$(body slow)" "$instance/f?accepts_incomplete=true"
mkdir -p /var/lib/prometheus/node-exporter
told: mkdir -p /usr/local/lib/osb-watch
told: cd /var/lib/prometheus/node-exporter
grep -c '^osb_' osb.prom
(
told: /usr/local/lib/osb-watch/watch.py
echo $?
) | grep -v '^#' | sed 's/seconds\(.*\) [0-9]*$/seconds\1 some/'
work -X PUT -d '{"state":"failed"}' http://127.0.0.1:8080/backend/v1/orders/f/1

echo '# killed'
systemctl kill -s KILL osb-broker
until_it restarted
systemctl show -p NRestarts osb-broker
call $instance/a

echo '# what it said, and has'
(
told: journalctl
) | grep -o 'database: new'
(
told: osb-broker check --database /var/lib/private/osb-broker/broker.db
) | sed 's/^[0-9]* /N /'

echo '# backed up while it runs'
told: mkdir -p -m 700 /backup
ls /backup
call -X PUT -d "$(body p)" $instance/d

echo '# trimmed'
call -X DELETE "$instance/d?service_id=svc&plan_id=p"
systemctl stop osb-broker
(
told: osb-broker trim
) | sed 's/bytes [0-9]*, now [0-9]*/bytes N, now N/'
stat -c '%a' /var/lib/private/osb-broker/broker.db
[ "$(stat -c %u /var/lib/private/osb-broker)" = "$(stat -c %u /var/lib/private/osb-broker/broker.db)" ] && echo its owner
systemctl start osb-broker; until_it listens; call $instance/a

echo '# upgraded'
installs /root/later > /root/installed 2>&1 || cat /root/installed
until_it listens; dpkg-query -W -f '${Version}\n' osb-broker
write p | cmp - $settings && call $instance/a

echo '# a restart that fails'
write p | sed 's/, "bindable": true//' > $settings
systemctl restart osb-broker 2> /dev/null; echo $?; until_it has_failed; state
write p > $settings
python3 -c 'import socket, time; one = socket.create_server(("127.0.0.1", 8080)); print(one, flush=True); time.sleep(600)' > /root/taken &
taken() { [ -s /root/taken ]; }
until_it taken
systemctl restart osb-broker 2> /dev/null; echo $?
journalctl -q --no-pager -u osb-broker -o cat | grep '^osb-broker: ' | sort -u
kill $!
until_it is_up; call $instance/a

echo '# a plan in use is taken away'
write q > $settings
(
told: osb-broker check --explain --database
) 2>&1 | tail -n 1
before=$(process)
systemctl reload-or-restart osb-broker 2> /dev/null; echo $?
[ "$(process)" = "$before" ] && call $instance/a
systemctl restart osb-broker 2> /dev/null; echo $?; until_it has_failed; state
journalctl -q --no-pager -u osb-broker -o cat | grep '^plan in use' | sort -u

echo '# no settings'
mv $settings /root; systemctl start osb-broker 2> /dev/null; systemctl show -p ActiveState osb-broker
mv /root/settings.json $settings

echo '# removed'
apt-get remove -qq -y osb-broker > /dev/null 2>&1
ls -d $settings /lib/systemd/system/osb-broker.service /usr/bin/osb-broker $records 2> /dev/null

echo '# purged'
apt-get purge -qq -y osb-broker 2>&1 | grep '^osb-broker:'
ls -d /etc/osb-broker /etc/systemd/system/osb-broker.service $records 2> /dev/null
systemctl poweroff
"""
EXPECTED = """# installed
600 root
two passwords
services 0, plans 0
ActiveState=active ExecMainStatus=0 NRestarts=0 Result=success
{"services":[]} 200
# behind nginx
nginx: the configuration file /etc/nginx/nginx.conf syntax is ok
nginx: configuration file /etc/nginx/nginx.conf test is successful
{"services":[]} 200
{} 404
{} 401
{} 200
{} 404
404 "GET /v2/none HTTP/1.1" "platform" "one" [404] 127.0.0.1 ""
401 1
slowest
# configured
services 1, plans 2
{} 201
700
600
600
# settings that are not accepted
1
settings: 2 Missing bindable
at catalog.services[0]
wanted: true or false
{"parameters":{},"plan_id":"p","service_id":"svc"} 200
# reported
{"operation":"create-1"} 202
{"state":"in progress"} 200
{} 200
{"state":"succeeded"} 200
# an order that nobody reports
{"operation":"create-1"} 202
{"orders":[{"instance_id":"c","kind":"create","organization_guid":"o","parameters":{},"plan_id":"slow","seq":1,\
"service_id":"svc","space_guid":"s"}]}{}
{"state":"failed"} 200
# a backend
{"operation":"create-1"} 202
e create 1 succeeded
ExecMainStatus=0 Result=success
# watched
{"operation":"create-1"} 202
3
osb_broker_up 1
osb_orders_running{plan="slow",kind="create"} 1
osb_order_oldest_seconds{plan="slow",kind="create"} some
0
{} 200
# killed
NRestarts=2
{"parameters":{},"plan_id":"p","service_id":"svc"} 200
# what it said, and has
database: new
instances 5, bindings 0, running 0
N /var/lib/private/osb-broker/broker.db-wal
# backed up while it runs
instances 5, bindings 0, running 0
broker.db
settings.json
{} 201
# trimmed
{} 200
trimmed 2, bytes N, now N
600
its owner
{"parameters":{},"plan_id":"p","service_id":"svc"} 200
# upgraded
9.9.9
{"parameters":{},"plan_id":"p","service_id":"svc"} 200
# a restart that fails
1
ActiveState=failed ExecMainStatus=3 NRestarts=0 Result=exit-code
1
osb-broker: cannot listen on 127.0.0.1:8080
osb-broker: not ready 127.0.0.1:8080
{"parameters":{},"plan_id":"p","service_id":"svc"} 200
# a plan in use is taken away
plan in use: svc p
1
{"parameters":{},"plan_id":"p","service_id":"svc"} 200
1
ActiveState=failed ExecMainStatus=4 NRestarts=0 Result=exit-code
plan in use: svc p
# no settings
ActiveState=failed
# removed
/etc/osb-broker/settings.json
/var/lib/private/osb-broker
# purged
osb-broker: the records are left in /var/lib/private/osb-broker
/var/lib/private/osb-broker
"""
# In another Debian, where the package is there when it boots.
ELSEWHERE = COMMON + r"""
echo '# booted'
until_it is_up; state

echo '# restored'
told: systemctl stop osb-broker
is_up > /dev/null; echo $?; state
stat -c '%a %U' $settings
password=$(password_of platform) instance=http://127.0.0.1:8080/v2/service_instances
for each in a b c d; do call $instance/$each; done

echo '# at another port'
mkdir -p /etc/systemd/system/osb-broker.service.d
cat > /etc/systemd/system/osb-broker.service.d/override.conf << 'END'
told: [Service]
END
systemctl daemon-reload; systemctl restart osb-broker; until_it listens 9080
call ${instance/8080/9080}/a

echo '# shards'
{
told: systemctl disable --now osb-broker
} 2> /dev/null
listen() { for each in 8100 8101 8102 8103; do listens $each || return; done; }
until_it listen
systemd-analyze verify --man=no osb-broker@00.service
openssl req -x509 -newkey rsa:2048 -nodes -subj /CN=localhost -days 2 -keyout /root/broker.key -out /root/broker.crt 2> /dev/null
cat /root/broker.crt /root/broker.key > /etc/ssl/private/broker.pem
told: cat /usr/share/doc/osb-broker/examples/haproxy-shards.cfg
trusting='--cacert /root/broker.crt' instance=https://localhost:8445/v2/service_instances
until_it call https://localhost:8445/
call https://localhost:8445/v2/catalog
for each in a b c d e f g h; do call $instance/$each; done
{
told: cat >> /etc/haproxy/haproxy.cfg << 'END'
} 2> /dev/null
measured() { curl -s http://127.0.0.1:8405/metrics | grep haproxy; }
until_it measured
(
told: curl -s http://127.0.0.1:8405/metrics
) | grep '"platforms"\|"shard-0"' | sed 's/{.*//' | sort -u
stat -c '%a' /var/lib/private/osb-broker-0*
for each in 0 1 2 3; do
    curl -s -u "backend:$(password_of backend)" http://127.0.0.1:8446/shards/$each/backend/v1/orders; echo
done

echo '# where instances are'
for each in a b c d e f g h; do
    call -X PUT -d '{"service_id":"svc","plan_id":"p","organization_guid":"o","space_guid":"s"}' $instance/$each
    shard=$(
        sed "s/ID$/$each/" << 'END' | bash
told: python3 -c 'import sys, zlib
END
    )
    echo "$each $shard$(for one in 0 1 2 3; do [ $one = $shard ] || call http://127.0.0.1:810$one/v2/service_instances/$each; done | uniq)"
done

echo '# a shard is killed'
sleep 4 # (until HAProxy has checked all of them)
systemctl kill -s KILL osb-broker@02
echo "$(for each in a b c d e f g h; do call $instance/$each; done | grep -c ' 200$\|^{} 404$') answered"

echo '# upgraded with shards'
dpkg -i /root/later.deb > /root/installed 2>&1 || cat /root/installed
until_it listen
systemctl is-active osb-broker osb-broker@00 osb-broker@01 osb-broker@02 osb-broker@03

echo '# removed with shards'
apt-get purge -qq -y osb-broker 2>&1 | grep '^osb-broker:'
systemctl is-active 'osb-broker@*'; ls /etc/systemd/system/multi-user.target.wants | grep osb
systemctl poweroff
"""
EXPECTED_ELSEWHERE = """# booted
ActiveState=active ExecMainStatus=0 NRestarts=0 Result=success
# restored
instances 5, bindings 0, running 0
0
ActiveState=active ExecMainStatus=0 NRestarts=0 Result=success
600 root
{"parameters":{},"plan_id":"p","service_id":"svc"} 200
{"parameters":{},"plan_id":"slow","service_id":"svc"} 200
{} 404
{} 404
# at another port
{"parameters":{},"plan_id":"p","service_id":"svc"} 200
# shards
instances 5, bindings 0, running 0
Configuration file is valid
{"services":[{"bindable":true,"description":"d","id":"svc","name":"s","plans":[{"description":"d","id":"p","name":"now"},\
{"description":"d","id":"slow","name":"later"}]}]} 200
{"parameters":{},"plan_id":"p","service_id":"svc"} 200
{"parameters":{},"plan_id":"slow","service_id":"svc"} 200
{} 404
{} 404
{"parameters":{},"plan_id":"slow","service_id":"svc"} 200
{} 404
{} 404
{} 404
Configuration file is valid
haproxy_backend_current_queue
haproxy_backend_http_responses_total
haproxy_backend_max_total_time_seconds
haproxy_backend_retry_warnings_total
haproxy_backend_total_time_average_seconds
haproxy_frontend_http_responses_total
700
700
700
700
{"orders":[]}
{"orders":[]}
{"orders":[]}
{"orders":[]}
# where instances are
{} 200
a 3{} 404
{} 409
b 1{} 404
{} 409
c 3{} 404
{} 201
d 0{} 404
{} 409
e 2{} 404
{} 409
f 0{} 404
{} 201
g 2{} 404
{} 201
h 3{} 404
# a shard is killed
8 answered
# upgraded with shards
inactive
active
active
active
active
# removed with shards
osb-broker: the records are left in /var/lib/private/osb-broker
osb-broker: the records are left in /var/lib/private/osb-broker-00
osb-broker: the records are left in /var/lib/private/osb-broker-01
osb-broker: the records are left in /var/lib/private/osb-broker-02
osb-broker: the records are left in /var/lib/private/osb-broker-03
"""
UNIT = "[Unit]\nAfter=multi-user.target\n[Service]\nType=oneshot\nExecStart=/root/steps\n[Install]\nWantedBy=multi-user.target\n"


# What a step writes that waits for too long, and the statuses of `timeout` if something isn't over in time.
LATE_LINE = "not within half a minute: "
NOT_OVER = (124, 137)


def run(*words, **more):
    """What a command prints, on both outputs, and its status."""
    ran = subprocess.run(words, stdin=subprocess.DEVNULL, stdout=subprocess.PIPE, stderr=subprocess.STDOUT, text=True, errors="replace", **more)
    return ran.returncode, ran.stdout


def missing():
    """What keeps this from being tried."""
    if os.geteuid():
        return ["root"]
    return [it for it in ("dpkg-deb", "lintian", "debootstrap", "systemd-nspawn") if not shutil.which(it)]


def package(program, folder):
    """The package of the program."""
    status, said = run(SCRIPT, program, folder, env={**os.environ, "MAINTAINER": MAINTAINER})
    if status:
        raise RuntimeError(said)
    return said.strip()


def later(made, folder):
    """The same package under a later version."""
    tree, path = os.path.join(folder, "later"), os.path.join(folder, f"osb-broker_{LATER}.deb")
    subprocess.run(["dpkg-deb", "-R", made, tree], check=True)
    control = os.path.join(tree, "DEBIAN", "control")
    with open(control, encoding="utf-8") as file:
        lines = [f"Version: {LATER}\n" if it.startswith("Version: ") else it for it in file]
    with open(control, "w", encoding="utf-8") as file:
        file.writelines(lines)
    subprocess.run(["dpkg-deb", "-b", tree, path], check=True, stdout=subprocess.DEVNULL)
    return path


def lead_nowhere(made, folder):
    """The links of the package's pages that lead nowhere, and the examples that they name and it lacks."""
    tree = os.path.join(folder, "tree")
    subprocess.run(["dpkg-deb", "-x", made, tree], check=True)
    place = Path(tree, "usr", "share", "doc", "osb-broker")
    for page in map(Page, place.rglob("*.md")):
        for _, link in LINK.findall(page.text):
            path, _, heading = link.partition("#")
            other = (page.path.parent / path).resolve() if path else page.path
            if "://" not in link and not (other.exists() and (not heading or heading in Page(other).anchors())):
                yield page.path.name, link
        for example in re.findall(r"\bexamples/[\w.-]*\w", page.text):
            if not (place / example).exists():
                yield page.path.name, example


def settings_that_differ():
    """What the unit of a shard says otherwise than the other one."""
    one, other = ({it for it in lines_of(path) if not it.startswith("#")} for path in UNITS)
    return sorted({it.partition("=")[0] for it in one ^ other})


def lines_of(path):
    with open(path, encoding="utf-8") as file:
        return file.read().splitlines()


def containers(folder):
    """Two Debians alike; what is lacking to make them, or nothing; and what is said of it."""
    root, other = os.path.join(folder, "debian"), os.path.join(folder, "other")
    release = run("sh", "-c", ". /etc/os-release && echo $VERSION_CODENAME")[1].strip()
    status, said = run("timeout", "-k", "5", "900", "debootstrap", "--variant=minbase", f"--include={INCLUDED}", release, root)
    lacking = "mirror"
    if status == 0:
        lacking = "containers"
        status, said = run("timeout", "-k", "5", "60", *NSPAWN, root, "true")
    if status == 0:
        subprocess.run(["cp", "-a", root, other], check=True)
        return root, other, "", ""
    return root, other, TIME if status in NOT_OVER else lacking, " ".join(said.strip().splitlines()[-1:])


def as_told(script):
    """A script with the lines of the pages that it names."""
    blocks = []
    for page in PAGES:
        with open(page, encoding="utf-8") as file:
            blocks += re.findall("(?:^    .*\n)+", file.read(), re.MULTILINE)

    def block(line):
        [found] = [it for it in blocks if it.startswith(f"    {line[1]}")]
        return textwrap.dedent(found)

    return re.sub("^told: (.*)\n", block, script, flags=re.MULTILINE)


def write(path, text, mode):
    with open(path, "w", encoding="utf-8") as file:
        file.write(text)
    os.chmod(path, mode)


def boots(root, script):
    """What a script finds in a container, nothing if it doesn't boot; what it prints last; and whether it ends in time."""
    write(os.path.join(root, "root", "steps"), as_told(script), 0o755)
    write(os.path.join(root, "etc", "systemd", "system", "steps.service"), UNIT, 0o644)
    run("chroot", root, "systemctl", "enable", "-q", "steps")
    status, printed = run("timeout", "-k", "5", "300", *NSPAWN, root, "-b")
    found, is_over = os.path.join(root, "root", "found"), status not in NOT_OVER
    if not os.path.isfile(found):
        return None, printed.strip()[-200:], is_over
    with open(found, encoding="utf-8") as file:
        return "".join(line.rstrip() + "\n" for line in file), "", is_over


def compared(whole, expected, is_over):
    """What each step found, and should find. A step that waited for too long ends it, as does one that isn't over."""
    found, right = ([text.partition("\n")[::2] for text in it.split("# ")[1:]] for it in (whole, expected))
    for (name, wrote), (_, wanted) in zip(found if is_over else found[:-1], right):
        if LATE_LINE in wrote:
            raise TimeoutError(f"{name}: {wrote[wrote.index(LATE_LINE) :].splitlines()[0]}")
        yield name, wrote, wanted
    if not is_over:
        raise TimeoutError(f"not over at {found[-1][0] if found else 'its beginning'}")
    yield "the steps", [name for name, _ in found], [name for name, _ in right]


def without_random_bytes(root):
    """What an installation does that can make no passwords. It leaves no settings."""
    source, settings = (os.path.join(root, *it) for it in [("dev", "urandom"), ("etc", "osb-broker", "settings.json")])
    os.rename(source, source + ".away")
    status, said = run("chroot", root, "dpkg", "-i", "/root/osb-broker.deb")
    os.rename(source + ".away", source)
    yield "it isn't installed without random bytes", (status, os.path.exists(settings)), (1, False)
    yield "it says why", "osb-broker: no passwords can be made: /dev/urandom gives no random bytes\n" in said, True


def tries(program, folder):
    yield "the unit of a shard", settings_that_differ(), ["Description", "Environment", "ExecReload", "ExecStart", "SocketBindAllow", "StateDirectory"]
    made = package(program, folder)
    yield "lintian", run("lintian", "--allow-root", made), (0, "")
    yield "what its pages lead to", list(lead_nowhere(made, folder)), []
    root, other, lacking, why = containers(folder)
    if lacking:
        passed_over("packaged", "what needs a container", lacking, why=why)
        return
    for path, name in [(made, "package"), (later(made, folder), "later")]:
        os.mkdir(os.path.join(root, "root", name))
        shutil.copy(path, os.path.join(root, "root", name))
    found, printed, is_over = boots(root, STEPS)
    if found is None:
        passed_over("packaged", "what runs in a container", "containers" if is_over else TIME, why=printed)
        return
    yield from compared(found, EXPECTED, is_over)
    for path, name in [(made, "osb-broker.deb"), (os.path.join(folder, f"osb-broker_{LATER}.deb"), "later.deb")]:
        shutil.copy(path, os.path.join(other, "root", name))
    yield from without_random_bytes(other)
    yield "it is installed where no systemd runs", run("chroot", other, "dpkg", "-i", "/root/osb-broker.deb")[0], 0
    shutil.copytree(os.path.join(root, "backup"), os.path.join(other, "backup"))
    found, printed, is_over = boots(other, ELSEWHERE)
    if found is None and not is_over:
        passed_over("packaged", "what runs in the other container", TIME, why=printed)
        return
    yield "the other one boots", printed, ""
    yield from compared(found or "", EXPECTED_ELSEWHERE, is_over)


def main():
    lacking = missing()
    if lacking:
        passed_over("packaged", "everything", *lacking)
        return 0
    with tempfile.TemporaryDirectory() as folder:
        return tell("packaged", tries(os.path.abspath(sys.argv[1]), folder))


if __name__ == "__main__":
    sys.exit(main())
