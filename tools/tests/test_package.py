"""`tools/package`: what is in the Debian package, that lintian finds no error, and that it is installed, upgraded and purged in a Debian of its
own. CHROOT=FOLDER names one that debootstrap has made (with python3 and prometheus), of which a copy is used; with LONG=1 debootstrap makes it,
as root."""
import functools
import glob
import gzip
import os
import re
import shutil
import subprocess
import tempfile
import unittest

from live import HAS_PROGRAM, PROGRAM, TOOLS

MIRROR = 'http://deb.debian.org/debian'
COMMANDS = ('serve', 'check', 'compact', 'replay')


def ran(*words, **more):
    return subprocess.run(words, capture_output=True, text=True, timeout=900, check=False, **more)


def can_be_packed():
    """Whether the program has the place for its commit, and what packs it is there."""
    if not HAS_PROGRAM or not all(map(shutil.which, ('dpkg-deb', 'strip', 'git'))):
        return False
    return '(commit 0000000000000000000000000000000000000000)' in ran(PROGRAM, '--version').stdout


def packed(folder, *words):
    done = ran(os.path.join(TOOLS, 'package'), '--program', PROGRAM, '--out', folder, '--dirty', *words)
    assert done.returncode == 0, done.stderr
    return done.stdout.strip()


@functools.lru_cache(None)
def made():
    """A folder, two packages in it, and what is in the first one."""
    folder = tempfile.TemporaryDirectory()
    unittest.addModuleCleanup(folder.cleanup)
    first, second = (packed(folder.name, '--revision', revision) for revision in '12')
    tree = os.path.join(folder.name, 'tree')
    subprocess.run(['dpkg-deb', '-R', first, tree], check=True)
    return folder.name, first, second, tree


@unittest.skipUnless(can_be_packed(), PROGRAM + ' is not built by hand, or dpkg-deb, strip or git is missing')
class Packages(unittest.TestCase):
    @classmethod
    def setUpClass(cls):
        cls.folder, cls.first, cls.second, cls.tree = made()

    def at(self, path):
        return os.path.join(self.tree, path)

    def text(self, path):
        with (gzip.open if path.endswith('.gz') else open)(self.at(path), 'rt', encoding='utf-8') as file:
            return file.read()

    def test_program(self):
        """It is stripped, and `--version` names the commit."""
        head = ran('git', '-C', TOOLS, 'rev-parse', 'HEAD').stdout.strip()
        self.assertRegex(ran(self.at('usr/bin/lorawan_ns'), '--version').stdout, r'\(commit %s[0-9a-f+]\)' % head[:39])
        self.assertEqual(ran('nm', self.at('usr/bin/lorawan_ns')).stdout, '')

    def test_files(self):
        for path in ('usr/share/doc/lorawan-ns/OPERATOR.md.gz', 'usr/share/doc/lorawan-ns/PROMISES.md.gz', 'usr/lib/tmpfiles.d/lorawan-ns.conf',
                     'usr/lib/sysusers.d/lorawan-ns.conf', 'etc/logrotate.d/lorawan-ns', 'etc/lorawan_ns/serve.conf', 'usr/bin/lorawan_ns-follow',
                     'usr/share/doc/lorawan-ns/changelog.gz', 'usr/lib/lorawan_ns/var/lib/lorawan_ns'):
            self.assertTrue(os.path.exists(self.at(path)), path)
        self.assertIn('Nobody has granted a licence yet', self.text('usr/share/doc/lorawan-ns/copyright'))
        for path in glob.glob(os.path.join(TOOLS, 'monitoring', '*')):
            self.assertTrue(os.path.exists(self.at('usr/share/doc/lorawan-ns/examples/monitoring/' + os.path.basename(path))), path)
        for path in glob.glob(self.at('usr/lib/systemd/system/*.service')):
            text = self.text(path)
            self.assertNotIn('/usr/local', text)
            for word in re.findall(r'^(?:Exec\w+=\+?|BindReadOnlyPaths=)(/usr/\S+)|(/usr/share/\S+\.py)', text, re.MULTILINE):
                for place in filter(None, word):
                    self.assertTrue(place in ('/usr/bin/python3', '/usr/bin/systemd-run') or os.path.exists(self.at(place[1:])), place)
        self.assertEqual(sorted(self.text('DEBIAN/conffiles').split()), ['/etc/logrotate.d/lorawan-ns', '/etc/lorawan_ns/follow.conf',
                                                                         '/etc/lorawan_ns/join_server.conf', '/etc/lorawan_ns/serve.conf'])

    def options_of(self, command):
        return set(re.findall(r'^ +(?:-\w, )?(--[a-z-]+)', ran(PROGRAM, command, '--help').stdout, re.MULTILINE))

    def test_man_pages(self):
        """Each option of a command is in its page, and no reader of man pages finds a fault."""
        for command in COMMANDS:
            page = self.text('usr/share/man/man8/lorawan_ns-%s.8.gz' % command).replace('\\-', '-')
            for option in self.options_of(command):
                self.assertRegex(page, r'(?m)^\.B (-\w, )?%s( |$)' % option)
            self.assertIn('Example: lorawan_ns %s ' % command, page)
            self.assertIn('RUST_LOG', page)
        pages = glob.glob(self.at('usr/share/man/*/*.gz'))
        self.assertEqual(len(pages), 10)
        if not shutil.which('man'):
            self.skipTest('man is not installed')
        for page in pages:
            shown = ran('man', '--warnings', '-E', 'UTF-8', '-l', page, env={'PATH': os.environ['PATH'], 'MANWIDTH': '120', 'LC_ALL': 'C.UTF-8'})
            self.assertEqual((shown.returncode, shown.stderr), (0, ''), page)
        self.assertIn('--forwarders', ran('man', '-l', self.at('usr/share/man/man8/lorawan_ns-serve.8.gz')).stdout)

    def completed(self, *words):
        """What bash offers for the last of these words."""
        script = 'source %s; COMP_WORDS=(%s); COMP_CWORD=%d; _lorawan_ns; printf "%%s\\n" "${COMPREPLY[@]}"' % (
            self.at('usr/share/bash-completion/completions/lorawan_ns'), ' '.join("'%s'" % word for word in words), len(words) - 1)
        done = ran('bash', '-c', script)
        self.assertEqual(done.stderr, '')
        return set(done.stdout.split())

    def test_completions(self):
        self.assertLessEqual(set(COMMANDS), self.completed('lorawan_ns', ''))
        self.assertEqual(self.completed('lorawan_ns', 'co'), {'compact'})
        for command in COMMANDS:
            self.assertEqual(self.completed('lorawan_ns', command, '--'), self.options_of(command))
            zsh = self.text('usr/share/zsh/vendor-completions/_lorawan_ns')
            for option in self.options_of(command):
                self.assertIn("'%s[" % option, zsh)
        self.assertEqual(self.completed('lorawan_ns', 'serve', '--stop-a'), {'--stop-after', '--stop-at-end-of-input'})
        if shutil.which('zsh'):
            self.assertEqual(ran('zsh', '-n', self.at('usr/share/zsh/vendor-completions/_lorawan_ns')).stderr, '')

    def test_same_bytes(self):
        other = os.path.join(self.folder, 'again')
        os.mkdir(other)
        with open(self.first, 'rb') as first, open(packed(other), 'rb') as again:
            self.assertEqual(first.read(), again.read())

    def test_refusals(self):
        """A program that is packaged already, and one that is none."""
        for program, why in ((self.at('usr/bin/lorawan_ns'), 'no single place'), ('/bin/true', 'says no version'), ('/nowhere', 'not built')):
            done = ran(os.path.join(TOOLS, 'package'), '--program', program, '--out', self.folder, '--dirty')
            self.assertEqual((done.returncode, done.stdout), (1, ''))
            self.assertIn(why, done.stderr)

    @unittest.skipUnless(shutil.which('lintian'), 'lintian is not installed')
    def test_lintian(self):
        done = ran('lintian', '--fail-on', 'error', '--allow-root', self.first)
        self.assertEqual((done.returncode, [line for line in done.stdout.splitlines() if line.startswith(('E:', 'W:'))]), (0, []), done.stdout)


class Chroots(Packages):
    """The same packages in a Debian of their own."""

    def setUp(self):
        if os.geteuid():
            self.skipTest('only root may make a chroot')
        self.root = os.path.join(self.folder, 'root')
        if os.environ.get('CHROOT'):
            if not os.path.exists(self.root):
                subprocess.run(['cp', '-a', os.environ['CHROOT'], self.root], check=True)
            return
        debootstrap = shutil.which('debootstrap', path=os.environ['PATH'] + ':/usr/sbin')
        if not debootstrap:
            self.skipTest('debootstrap is not installed')
        if not os.environ.get('LONG'):
            self.skipTest('LONG=1 makes a Debian by debootstrap, CHROOT=FOLDER names one')
        if not os.path.exists(self.root):
            done = ran(debootstrap, '--variant=minbase', '--include=systemd,python3,prometheus', 'bookworm', self.root, MIRROR)
            if done.returncode:
                shutil.rmtree(self.root, ignore_errors=True)
                self.skipTest('the mirror is not reached: ' + done.stderr.strip()[-200:])

    def within(self, *words):
        return ran('chroot', self.root, *words, env={'PATH': '/usr/sbin:/usr/bin:/sbin:/bin', 'DEBIAN_FRONTEND': 'noninteractive', 'LC_ALL': 'C.UTF-8'})

    def does(self, *words):
        done = self.within(*words)
        self.assertEqual(done.returncode, 0, '%s\n%s\n%s' % (' '.join(words), done.stdout, done.stderr))
        return done.stdout

    def files(self):
        return self.does('find', '/etc', '/usr', '/var/lib', '/var/log', '-path', '/var/lib/dpkg', '-prune', '-o', '-path', '/usr/share/doc', '-prune',
                         '-o', '-name', '*lorawan*', '-print').split()

    def bring(self, package):
        shutil.copy(package, os.path.join(self.root, 'srv', os.path.basename(package)))
        return '/srv/' + os.path.basename(package)

    def test_life(self):
        """Installed, configured, upgraded with what the operator changed, removed and purged, after which nothing of it is left."""
        self.does('dpkg', '-i', self.bring(self.first))
        self.assertIn('(commit ', self.does('lorawan_ns', '--version'))
        self.assertIn('--devnonces', self.does('lorawan_ns-join-server', '--help'))
        self.does('lorawan_ns-follow', '--help')
        with open(os.path.join(self.root, 'srv', 'table'), 'w', encoding='ascii') as file:
            file.write('dev_eui,join_eui,app_key\n000000000000000d,0102030401020304,2b7e151628aed2a6abf7158809cf4f3c\n')
        self.does('lorawan_ns-roster-from-csv', '/srv/table', '--net-id', '000001', '--roster', '/etc/lorawan_ns/roster.json', '--keys', '/etc/lorawan_ns/keys')
        self.does('lorawan_ns', 'check', '/etc/lorawan_ns/roster.json')
        self.assertEqual(self.does('getent', 'group', 'lorawan_keys').split(':')[0], 'lorawan_keys')
        self.does('systemd-analyze', 'verify', '/usr/lib/systemd/system/lorawan_ns.service')
        configuration = os.path.join(self.root, 'etc/lorawan_ns/serve.conf')
        with open(configuration, 'a', encoding='ascii') as file:
            file.write('# changed\n')
        self.does('mkdir', '-p', '/var/lib/private/lorawan_ns')
        self.does('dpkg', '-i', self.bring(self.second))
        with open(configuration, encoding='ascii') as file:
            self.assertIn('# changed', file.read())
        self.assertIn('.r2', self.does('dpkg-query', '-W', 'lorawan-ns'))
        self.does('dpkg', '-r', 'lorawan-ns')
        self.assertTrue(os.path.exists(configuration) and os.path.exists(os.path.join(self.root, 'var/lib/private/lorawan_ns')))
        self.assertFalse(os.path.exists(os.path.join(self.root, 'usr/bin/lorawan_ns')))
        self.does('dpkg', '-P', 'lorawan-ns')
        self.assertEqual(self.files(), [])
        self.assertEqual(self.within('getent', 'group', 'lorawan_keys').stdout, '')
        self.does('dpkg', '--audit')

    def test_under_systemd(self):
        """`booted.py` in a machine of its own, which systemd-nspawn starts: units, reload, upgrade, a kill, the follower, purge."""
        if not shutil.which('systemd-nspawn'):
            self.skipTest('systemd-nspawn is not installed (systemd-container)')
        packages, result = os.path.join(self.folder, 'packages'), os.path.join(self.root, 'result')
        os.makedirs(packages, exist_ok=True)
        for package in (self.first, self.second):
            shutil.copy(package, packages)
        unit = os.path.join(self.root, 'etc/systemd/system/booted.service')
        with open(unit, 'w', encoding='ascii') as file:
            file.write('[Unit]\nAfter=basic.target\n[Service]\nType=oneshot\nExecStart=/usr/bin/python3 -B /tools/tests/booted.py\n'
                       'TimeoutStartSec=600\n[Install]\nWantedBy=multi-user.target\n')
        self.does('systemctl', 'enable', 'booted.service')
        self.does('systemctl', 'mask', 'systemd-networkd-wait-online.service')      # there is no network to wait for
        for path in (result, os.path.join(self.root, 'etc/machine-id')):
            if os.path.exists(path):
                os.remove(path)
        # Of the network only a loopback of its own.
        done = ran('systemd-nspawn', '--quiet', '--register=no', '--keep-unit', '--private-network', '--machine=lorawan-ns-test', '-D', self.root,
                   '--bind-ro=%s:/tools' % TOOLS, '--bind-ro=%s:/packages' % packages, '/lib/systemd/systemd', stdin=subprocess.DEVNULL)
        if not os.path.exists(result):
            self.skipTest('systemd-nspawn starts no machine here: ' + (done.stderr or done.stdout)[-300:])
        with open(result, encoding='utf-8') as file:
            self.assertEqual(file.read(), 'ok\n')


# What `Packages` tests is not tested once more in a chroot.
for name in [name for name in dir(Packages) if name.startswith('test_')]:
    setattr(Chroots, name, None)


if __name__ == '__main__':
    unittest.main()
