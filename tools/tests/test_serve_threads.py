"""Where a thread cannot be made, `serve` ends with `no memory` and status 1, and soon, whatever other threads wait for."""
import json
import os
import resource
import shutil
import subprocess
import time
import unittest

from live import PROGRAM, roster_of
from serving import NOWHERE, Served

SOON = 5.0                      # seconds within which it ends
STACK = 128 << 20               # bytes of each further thread's stack where the address space is limited
NOBODY = 60000 + os.getpid() % 5000         # a user without processes


class FewThreads(Served):
    def setUp(self):
        super().setUp()
        self.program = shutil.copy(PROGRAM, os.path.join(self.folder, 'program'))
        self.path = self.written('roster.json', json.dumps(roster_of([13])))
        for path in (self.folder, self.program, self.path):     # another user is to reach them
            os.chmod(path, 0o755)

    def ended(self, limit, workers, join_workers):
        """How it ends under a limit: the status and the last line on standard error; none where it serves with all its threads."""
        child = subprocess.Popen(
            [self.program, 'serve', self.path, '--join', '%s:%d' % NOWHERE, '--listen', '127.0.0.1:0', '--workers', str(workers),
             '--join-workers', str(join_workers)], stdout=subprocess.DEVNULL, stderr=subprocess.PIPE, text=True, preexec_fn=limit)
        try:
            end = time.monotonic() + SOON
            while child.poll() is None and time.monotonic() < end:
                if len(os.listdir('/proc/%d/task' % child.pid)) == workers + join_workers + 1:
                    return None
                time.sleep(0.01)
            self.assertIsNotNone(child.poll(), 'it hangs with %d workers and %d join workers' % (workers, join_workers))
            return child.returncode, child.stderr.read().splitlines()[-1]
        finally:
            child.kill()
            child.wait()
            child.stderr.close()

    @unittest.skipUnless(os.geteuid() == 0, 'another user is needed, since one\'s own other processes count')
    def test_limit_on_processes(self):
        """Each number of threads below the one that is needed, which is a gateway worker's, a join worker's and the closer's each."""
        def limit(threads):
            def limits():
                os.setgroups([])
                os.setresgid(NOBODY, NOBODY, NOBODY)
                os.setresuid(NOBODY, NOBODY, NOBODY)
                resource.setrlimit(resource.RLIMIT_NPROC, (threads, threads))
            return limits
        for workers, join_workers in ((1, 1), (1, 2), (4, 4), (4, 16), (16, 16)):
            needed = workers + join_workers + 1
            for threads in sorted({1, 2, 3, join_workers, join_workers + 1, join_workers + 2, needed - 1}):
                if threads < needed:
                    with self.subTest(workers=workers, join_workers=join_workers, threads=threads):
                        self.assertEqual(self.ended(limit(threads), workers, join_workers), (1, 'no memory'))
            self.assertIsNone(self.ended(limit(needed), workers, join_workers))

    def test_little_address_space(self):
        """Room for so many stacks. How many threads that gives is the C library's matter; it serves or ends, and does not hang."""
        def limit(stacks):
            def limits():
                resource.setrlimit(resource.RLIMIT_STACK, (STACK, resource.getrlimit(resource.RLIMIT_STACK)[1]))
                resource.setrlimit(resource.RLIMIT_AS, (stacks * STACK, stacks * STACK))
            return limits
        ends = []
        for join_workers in (2, 4, 16):
            for stacks in range(1, join_workers + 3):
                with self.subTest(join_workers=join_workers, stacks=stacks):
                    ends.append(self.ended(limit(stacks), 2, join_workers))
                    self.assertIn(ends[-1], (None, (1, 'no memory')))
        self.assertIn((1, 'no memory'), ends)


if __name__ == '__main__':
    unittest.main()
