"""An etcd of one or more nodes on this machine, and what its logs have."""
import base64
import http.client
import json
import os
import shutil
import signal
import socket
import subprocess
import tempfile
import time


def free_ports(count):
    lines = [socket.socket() for _ in range(count)]
    for line in lines:
        line.bind(('127.0.0.1', 0))
    ports = [line.getsockname()[1] for line in lines]
    for line in lines:
        line.close()
    return ports


def coded(text):
    return base64.b64encode(text.encode()).decode()


class Cluster:
    """`nodes` nodes of etcd, each with a folder of its own below `folder` (a new one under /tmp), which is removed at the end."""

    def __init__(self, nodes, folder=None):
        self.folder = folder or tempfile.mkdtemp(prefix='etcd.')
        ports = free_ports(2 * nodes)
        self.clients = [f'127.0.0.1:{port}' for port in ports[:nodes]]
        self.peers = [f'127.0.0.1:{port}' for port in ports[nodes:]]
        self.children = [None] * nodes
        for number in range(nodes):
            self.start(number, 'new')
        self.wait()

    def start(self, number, state='existing'):
        client, peer = f'http://{self.clients[number]}', f'http://{self.peers[number]}'
        self.children[number] = subprocess.Popen(
            ['etcd', '--name', f'n{number}', '--data-dir', f'{self.folder}/n{number}', '--log-level', 'error', '--initial-cluster-state', state,
             '--listen-client-urls', client, '--advertise-client-urls', client, '--listen-peer-urls', peer, '--initial-advertise-peer-urls', peer,
             '--initial-cluster', ','.join(f'n{n}=http://{place}' for n, place in enumerate(self.peers))],
            stdout=subprocess.DEVNULL, stderr=subprocess.DEVNULL)

    def signal(self, number, what):
        self.children[number].send_signal(what)
        if what == signal.SIGKILL:
            self.children[number].wait()

    def stop(self):
        for child in self.children:
            if child.poll() is None:
                child.send_signal(signal.SIGCONT)
                child.kill()
                child.wait()
        shutil.rmtree(self.folder, ignore_errors=True)

    def address(self, name):
        return f'etcd://{",".join(self.clients)}/{name}'

    def ask(self, path, body, tries=100):
        """What the first node that answers says."""
        for turn in range(tries):
            place = self.clients[turn % len(self.clients)]
            try:
                line = http.client.HTTPConnection(place, timeout=5)
                line.request('POST', path, json.dumps(body))
                answer = line.getresponse()
                text = answer.read()
                if answer.status == 200:
                    return json.loads(text)
            except OSError:
                pass
            time.sleep(0.1)
        raise SystemExit('no etcd answers')

    def wait(self):
        self.ask('/v3/kv/range', {'key': coded('ready')})

    def leader(self):
        """The number of the node that leads the others."""
        ids = {}
        for number, place in enumerate(self.clients):
            try:
                line = http.client.HTTPConnection(place, timeout=5)
                line.request('POST', '/v3/maintenance/status', '{}')
                said = json.loads(line.getresponse().read())
                ids[said['header']['member_id']] = number
                leads = said.get('leader')
            except (OSError, KeyError, ValueError):
                pass
        return ids.get(leads)

    def entries(self, name):
        """The entries of a log, each with the name of its desk and its batch."""
        entries, more = [], True
        while more:
            first, end = f'{name}/{len(entries) + 1:010d}', f'{name}/:'
            page = self.ask('/v3/kv/range', {'key': coded(first), 'range_end': coded(end), 'limit': '64'})
            for pair in page.get('kvs', []):
                key, value = (base64.b64decode(pair.get(word, '')).decode() for word in ('key', 'value'))
                if key != f'{name}/{len(entries) + 1:010d}':
                    raise SystemExit(f'{key} comes after {len(entries)} entries')
                head, _, batch = value.partition('\n')
                entries.append((head.removeprefix('# desk '), batch))
            more = page.get('more', False)
        return entries

    def text(self, name):
        return ''.join(batch for _, batch in self.entries(name))

    def desk(self, name):
        """The name of the desk that leads a log, if one does."""
        pairs = self.ask('/v3/kv/range', {'key': coded(f'{name}/leader')}).get('kvs', [])
        return base64.b64decode(pairs[0]['value']).decode() if pairs else None
