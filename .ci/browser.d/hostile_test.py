"""Whatever browsers do, the session's state stays what its log says."""

import contextlib
import http.client
import http.server
import json
import os
import resource
import signal
import socket
import subprocess
import sys
import threading
import time
import unittest
from unittest import mock

from chromium import Chromium, wait
from live_run import LIVE, RELIEF, WATER, Case, Page, heed_control_c

from server import Server

PAINT = 'paint Crater 57 24 60 30 1'
AT_WORK = b'''import sys, time
for line in sys.stdin:
    if line == 'slow\\n':
        time.sleep(1000)
    elif line == 'list\\n':
        print('list 1\\nsource A', flush=True)
    elif line.startswith('branch '):
        print('branch 1\\nok 2 changed 0 evaluated 0 worked 0', flush=True)
    else:
        print('undefined ' + line.split()[1] + ': it', flush=True)
'''


def connected(live, data=b''):
    connection = socket.create_connection(live.host.split(':'), timeout=60)
    connection.sendall(data)
    return connection


def head(live, length, path='say'):
    return f'POST {live.path}{path} HTTP/1.1\r\nHost: {live.host}\r\nContent-Type: application/json\r\nContent-Length: {length}\r\n\r\n'.encode()


class Requests(Case):
    def setUp(self):
        super().setUp()
        self.run_of_live = self.live()

    def tearDown(self):
        self.replays(self.run_of_live)

    def is_refused(self, status, *request, **rest):
        self.assertEqual(self.run_of_live.request(*request, **rest)[0], status)

    def is_untouched(self):
        self.assertEqual(self.run_of_live.lines(), [])

    def body(self, *lines):
        return json.dumps({'lines': lines, 'shown': {}})

    def test_page_of_another_origin_is_refused(self):
        self.is_refused(403, 'POST', 'say', self.body(PAINT), Origin='http://elsewhere.example')
        self.is_refused(403, 'POST', 'say', self.body(PAINT), Origin='null')
        self.is_refused(403, 'GET', 'live.session', Origin='http://127.0.0.1:1')
        self.is_untouched()

    def test_other_host_is_refused(self):
        self.is_refused(403, 'GET', '', host='elsewhere.example')
        self.is_refused(403, 'POST', 'say', self.body(PAINT), host='elsewhere.example')
        self.is_untouched()

    def test_address_without_its_token_is_refused(self):
        live = self.run_of_live
        token, live.path = live.path, '/'
        self.is_refused(403, 'GET', '')
        self.is_refused(403, 'POST', 'say', self.body(PAINT))
        live.path = f'/{"A" * len(token.strip("/"))}/'
        self.is_refused(403, 'GET', 'state')
        self.is_refused(403, 'POST', 'say', self.body(PAINT))
        live.path = token
        self.is_untouched()

    def test_tokens_differ_from_run_to_run(self):
        other = self.live()
        self.assertNotEqual(other.path, self.run_of_live.path)
        self.assertGreater(len(other.path), 30)

    def test_port_80_is_no_part_of_the_host(self):
        try:
            socket.create_server(('127.0.0.1', 80)).close()
        except OSError as error:
            self.skipTest(f'the port 80 is not to be had: {error}')
        live = self.live(['--port', '80', 'run', '1', '-', f'Elevation={RELIEF}'])
        self.assertEqual((live.host, live.request('GET', 'state', Origin='http://127.0.0.1')[0]), ('127.0.0.1', 200))

    def test_server_listens_on_this_machine_alone(self):
        port = int(self.run_of_live.host.split(':')[1])
        with open('/proc/net/tcp') as file:
            listening = [line.split()[1] for line in file if line.split()[3] == '0A' and line.split()[1].endswith(f':{port:04X}')]
        self.assertEqual(listening, [f'0100007F:{port:04X}'])

    def test_line_of_a_megabyte_is_refused(self):
        self.is_refused(413, 'POST', 'say', self.body('x' * 1_000_000))
        self.is_untouched()

    def test_line_that_is_too_long_for_the_program_is_the_programs_to_refuse(self):
        status, answer = self.run_of_live.say(['# ' + 'x' * 4095])
        self.assertEqual((status, answer['entries'][0]['reply']), (200, 'refused long 4097'))

    def test_lines_of_all_kinds_have_their_own_replies(self):
        """Each line is followed by one whose reply is known, so that a reply too many or too few would show."""
        odd = ['', ' ', '\t', '\r', '#', ' \t# x', '# x\r', '\r\r', '\x00', 'caf\u00e9', 'quit x', 'list\r', 'show Crater', 'grid Crater', 'stamps Crater',
               'legend Crater', 'table Crater Water', 'value Crater 1 1', 'grid Gone', 'ok 99 changed 0 evaluated 0 worked 0', 'x' * 4097, '#' * 4097,
               'symbol Crater 1 k', 'label Crater 1 ok 50', 'undo', 'undo it', ' undo\t\r', 'branch end', 'branch drop Gone end\r',
               'branch new B 1;value B 1 1 ; drop Crater;drop Gone branch value Water 1 1 branch value B 1 1; C = LocalSum of Lake and 1 end']
        status, answer = self.run_of_live.say([line for kind in odd for line in (kind, 'value Elevation 68 31')])
        replies = [entry['reply'] for entry in answer['entries']]
        self.assertEqual((status, replies[1::2]), (200, ['value Elevation 68 31 195'] * len(odd)))
        self.assertEqual([kind for kind, reply in zip(odd, replies[::2]) if not reply], ['', ' ', '\t', '\r', '#', ' \t# x', '# x\r'])
        self.assertEqual(answer['state']['edits'], 10)
        self.assertEqual(self.run_of_live.say(['\tquit \r', 'list'])[1]['entries'][-1]['line'], '\tquit \r')
        wait(lambda: self.run_of_live.state()['ended'] == 'the program ended with status 0', 'the end')

    def test_line_that_sets_the_language_has_a_reply_where_it_is_refused_alone(self):
        self.run_of_live = self.live(['run', '1', '-', f'Elevation={RELIEF}'])
        lines = ['model 3', 'model 2', 'value Elevation 68 31', 'model 2', 'X = LocalSum of Elevation and 1 ignoring nulls', 'model 1\r', 'value X 68 31',
                 'model 2'.ljust(4096) + '\r', 'model 2'.ljust(4097)]
        status, answer = self.run_of_live.say(lines)
        replies = [entry['reply'] for entry in answer['entries']]
        self.assertEqual((status, replies), (200, ['refused number 7', '', 'value Elevation 68 31 195', 'refused syntax 1',
                                                   'ok 2 changed 6 evaluated 6 worked 0', 'refused syntax 1', 'value X 68 31 196',
                                                   'refused syntax 1', 'refused long 4097']))
        self.run_of_live = self.live(['run', '1', '-', f'Elevation={RELIEF}'])
        _, answer = self.run_of_live.say(['model 2'.ljust(4096) + '\r', 'value Elevation 68 31'])
        self.assertEqual([entry['reply'] for entry in answer['entries']], ['', 'value Elevation 68 31 195'])

    def test_edits_of_branches_are_none(self):
        branches = 'branch new B 1; drop Elevation; value Elevation 68 31 branch paint Crater 1 1 1 1 1; new B 1; drop B end'
        for model, edits in ((WATER + branches.encode(), 6), (b'drop Elevation\nbranch new B 1 end\n', 2)):
            self.run_of_live.end()
            self.run_of_live = self.live(['run', '1', self.write('branches.model', model), f'Elevation={RELIEF}'])
            self.assertEqual(self.run_of_live.state()['edits'], edits)
            for line in (branches, 'branch end', 'branch drop Gone end'):
                self.assertEqual(self.run_of_live.say([line])[1]['state']['edits'], edits)
            _, answer = self.run_of_live.say([branches, 'new B 1'])
            self.assertEqual(answer['state']['edits'], edits + 1)
            self.assertEqual([entry['reply'].split('\n')[0] for entry in answer['entries']],
                             ['branch 1', f'ok {edits + 1} changed 6 evaluated 6 worked 0'])

    def test_bodies_that_no_page_makes_are_refused(self):
        for body in ('', '[]', 'null', '{', '{"lines": 1, "shown": {}}', '{"lines": ["list"]}', '{"lines": [1], "shown": {}}',
                     '{"lines": [], "shown": {"A": "x"}}', '{"lines": ["\\ud800"], "shown": {}}', '[' * 60_000, '{"lines": [], "shown": {"A": 1e999}}',
                     '{"lines": [], "shown": {}, "sight": 1}', '{"lines": [], "shown": {}, "sight": {"rows": [1]}}', self.body('list\nquit')):
            self.is_refused(400, 'POST', 'say', body)
        self.is_untouched()

    def test_sight_beyond_the_map_has_the_cells_of_the_map_alone(self):
        wide = {'rows': [-5, 0, 57, 57, 1 << 70], 'columns': [24, 900]}
        body = {'lines': [PAINT], 'shown': {'Crater': 5}, 'sight': wide}
        self.assertEqual(self.run_of_live.request('GET', 'grid?layer=Crater')[0], 200)
        status, answer = self.run_of_live.request('POST', 'say', json.dumps(body))
        head, _, replies = answer.partition(b'\n')
        self.assertEqual((status, json.loads(head)['layers']['Crater']['in_sight'], replies), (200, True, b'value Crater 57 24 1\n'))

    def test_names_that_are_none_ask_for_nothing(self):
        self.is_refused(400, 'GET', 'grid?layer=Crater%0Aquit')
        self.is_refused(400, 'GET', 'legend?layer=')
        status, _ = self.run_of_live.request('POST', 'say', json.dumps({'lines': [], 'shown': {'Crater\nquit': 0, 'Crater': 0}}))
        self.assertEqual((status, self.run_of_live.state()['ended']), (200, None))
        self.is_untouched()

    def test_addresses_that_are_none_are_answered(self):
        live = self.run_of_live
        for target, status in (('http://[/', 403), ('//[', 403), ('*', 403), ('caf\u00e9', 403), (live.path + 'state?from=%C2%B2', 200),
                               (live.path + 'state?from=' + '9' * 5000, 200), (live.path + 'state?from=-1', 200)):
            with connected(live, f'GET {target} HTTP/1.1\r\nHost: {live.host}\r\n\r\n'.encode()) as connection:
                self.assertIn(b' %d ' % status, connection.makefile('rb').readline(), target)
        self.is_untouched()
        self.assertEqual(live.end()[1], 'live: the program ended with status 0\n')
        self.run_of_live = self.live()

    def test_files_outside_the_page_are_not_served(self):
        for path in ('../live', '..%2flive', 'server.py', '/etc/passwd', 'page.js/'):
            self.is_refused(404, 'GET', path)

    def test_body_without_a_length_or_that_breaks_off_is_not_sent(self):
        with connected(self.run_of_live, head(self.run_of_live, 1000) + self.body(PAINT).encode()) as broken:
            broken.shutdown(socket.SHUT_WR)
            self.assertIn(b' 400 ', broken.makefile('rb').readline())
        self.is_refused(411, 'POST', 'say', iter([self.body(PAINT).encode()]), **{'Transfer-Encoding': 'chunked'})
        self.is_untouched()

    def test_lines_of_a_browser_that_goes_away_are_in_the_log(self):
        body = self.body(PAINT, 'grid Lake').encode()
        connected(self.run_of_live, head(self.run_of_live, len(body)) + body).close()
        wait(lambda: self.run_of_live.lines() == [PAINT, 'grid Lake'], 'the lines to be in the log')
        self.assertEqual(self.run_of_live.state()['edits'], 7)

    def test_slow_browsers_hold_up_nothing(self):
        live = self.run_of_live
        began = time.monotonic()
        live.say(['value Lake 1 1'])
        usual, began = time.monotonic() - began, time.monotonic()
        slow = [connected(live, head(live, 100)[:20 + number]) for number in range(4)] + [connected(live, head(live, 100) + b'{"lines"')]
        wanted = b'GET ' + live.path.encode() + b'grid?layer=Slope HTTP/1.1\r\nHost: ' + live.host.encode() + b'\r\n\r\n'
        slow += [connected(live, 200 * wanted) for _ in range(2)]  # 200 grids are asked for, and none is read
        self.assertEqual(live.say([PAINT])[1]['entries'][0]['reply'][:5], 'ok 7 ')
        self.assertLess(time.monotonic() - began, 10 + 10 * usual)  # it would give them up after 20 seconds
        for connection in slow:
            connection.close()
        self.assertEqual(live.lines(), ['value Lake 1 1', PAINT])

    def test_lines_of_many_at_once_are_one_after_another(self):
        live = self.run_of_live
        paints = [[f'paint Crater {row} {column} {row} {column} {row}' for column in range(1, 21)] for row in range(1, 7)]
        threads = [threading.Thread(target=live.say, args=(lines,)) for lines in paints]
        for thread in threads:
            thread.start()
        for thread in threads:
            thread.join()
        rows = [line.split()[2] for line in live.lines()]
        self.assertEqual(len(rows), 120)
        self.assertEqual(sum(first != second for first, second in zip(rows, rows[1:])), 5)  # each page's lines stay together


class Patience(unittest.TestCase):
    def test_request_that_dribbles_in_is_cut_off(self):
        with mock.patch('server.PATIENCE', 0.5), Server(None) as server:
            threading.Thread(target=server.serve_forever, daemon=True).start()
            with socket.create_connection(server.server_address) as slow, self.assertRaises(OSError):
                for _ in range(100):
                    slow.sendall(b'G')
                    time.sleep(0.1)
            server.shutdown()


class Deaths(Case):
    def test_killed_program_is_told_and_the_log_is_what_was_answered(self):
        live = self.live()
        many = [f'paint Crater {1 + number % 87} 1 {1 + number % 87} 61 {number}' for number in range(1, 401)]
        said = []
        sender = threading.Thread(target=lambda: said.append(live.say(many)))
        sender.start()
        time.sleep(1)
        os.kill(live.program_number(), signal.SIGKILL)
        sender.join()
        status, answer = said[0]
        self.assertEqual(status, 200)
        wait(lambda: live.state()['ended'], 'the end to be told')
        self.assertRegex(live.state()['ended'], 'signal 9|status 137')
        answered = [entry['answered'] for entry in answer['entries']]
        self.assertEqual(answered, sorted(answered, reverse=True))
        self.assertEqual(live.lines(), many[:sum(answered)])
        self.replays(live)
        self.assertEqual(live.say([PAINT])[0], 409)
        self.assertEqual(live.lines(), many[:sum(answered)])

    def test_replies_that_have_no_room_end_the_run_and_the_log_is_what_was_kept(self):
        live = self.live()
        live.say([PAINT])
        resource.prlimit(live.process.pid, resource.RLIMIT_FSIZE, (4096, 4096))
        self.assertEqual(live.say(['new B 1', 'grid Elevation']), (409, "the program was ended, since replies can't be kept: File too large"))
        wait(lambda: live.state()['ended'], 'the end to be told')
        self.assertEqual(live.lines(), [PAINT])
        self.replays(live)

    def test_control_c_ends_the_program_and_hands_its_status_on(self):
        live = self.live()
        live.say([PAINT])
        self.assertEqual(live.end(), (0, 'live: the program ended with status 0\n'))

    def is_ended(self, number):
        """A process that has ended, and that nobody has asked for its status yet, has no words any more."""
        try:
            with open(f'/proc/{number}/cmdline') as words:
                wait(lambda: not words.seek(0) and not words.read(), f'the process {number} to end')
        except (FileNotFoundError, ProcessLookupError):
            pass
        except AssertionError:
            os.kill(number, signal.SIGKILL)
            raise

    def launching(self, command):
        """Has a program that stands in for ours started by a launcher."""
        launcher = self.write('launcher', f'#!/bin/sh\n{command}\nexit $?\n'.encode())
        os.chmod(launcher, 0o755)
        return mock.patch.dict(os.environ, PILEPUMICE=launcher)

    def test_control_c_comes_through_while_pages_ask(self):
        live = self.live()

        def ask():
            with contextlib.suppress(OSError, http.client.HTTPException):
                while True:
                    live.request('GET', 'state')
        threads = [threading.Thread(target=ask) for _ in range(3)]
        for thread in threads:
            thread.start()
        time.sleep(0.5)
        self.assertEqual(live.end(), (0, 'live: the program ended with status 0\n'))
        for thread in threads:
            thread.join()

    def test_control_c_over_the_loads_ends_the_program_below_the_launcher(self):
        number = os.path.join(self.folder, 'number')
        with self.launching(f"sh -c 'echo $$ > {number}; exec sleep 1000'"):
            live = subprocess.Popen([*LIVE, 'run', '1', '-', 'A=a'], preexec_fn=heed_control_c)
        wait(lambda: os.path.exists(number) and os.path.getsize(number), 'the program to be started')
        live.send_signal(signal.SIGINT)
        self.assertEqual(live.wait(), 130)
        with open(number) as file:
            self.is_ended(int(file.read()))

    def test_second_control_c_ends_the_program_below_the_launcher(self):
        with self.launching(f'{sys.executable} {self.write("at_work.py", AT_WORK)}'):
            live = self.live(['run', '1', '-', 'A=a'])
        number = live.program_number()
        slow = json.dumps({'lines': ['slow'], 'shown': {}}).encode()
        with connected(live, head(live, len(slow)) + slow):
            wait(lambda: live.state()['working'], 'the program to be at work')
            live.process.send_signal(signal.SIGINT)
            time.sleep(0.5)
            live.process.send_signal(signal.SIGINT)
            self.assertEqual(live.process.wait(), 128 + 15)
        self.is_ended(number)
        self.assertEqual(live.end(), (128 + 15, 'live: the program was ended by signal 15\n'))

    def test_refused_load_is_explained_and_no_page_is_served(self):
        grid = self.write('bad.asc', b'ncols 1\nnrows 1\nxllcorner 0\nyllcorner 0\ncellsize 1\n0.5\n')
        live = self.live(['run', '1', '-', f'Bad={grid}'])
        status, told = live.end()
        self.assertEqual((live.address, live.beginning, status), ('', b'refused load Bad cell 1\n', 3))
        self.assertIn('no whole number', told)

    def test_words_that_are_no_run_are_refused(self):
        done = subprocess.run([*LIVE, 'sample', '1', '3'], capture_output=True)
        self.assertEqual((done.returncode, done.stdout), (2, b''))


class Pages(Case):
    @classmethod
    def setUpClass(cls):
        cls.browser = cls.enterClassContext(Chromium())

    def setUp(self):
        super().setUp()
        self.run_of_live = self.live()
        self.page = Page(self.browser, self.run_of_live)

    def brush(self):
        self.page.hold('paint')
        self.page.choose(source='Crater', value='1', size=3)

    def test_two_pages_show_the_same(self):
        first = self.browser.page()
        second = self.browser.new_page()
        other = Page(self.browser, self.run_of_live)
        other.type(PAINT)
        self.browser.to_page(first)
        self.browser.wait("return live.layers.get('Crater').cell(56, 23) === '1'", 'what the other page painted')
        self.brush()
        self.page.stroke((40, 10), (44, 14))
        cells = {name: self.page.cells(name) for name in ('Crater', 'Lake')}
        self.browser.close_page()
        self.browser.to_page(second)
        wait(lambda: {name: other.cells(name) for name in cells} == cells, 'the other page to show the same')
        self.replays(self.run_of_live)

    def test_page_closed_in_mid_stroke_changes_nothing(self):
        staying = self.browser.page()
        self.browser.new_page()
        self.page = Page(self.browser, self.run_of_live)
        self.brush()
        self.browser.pointer(('to', *self.page.place(57, 24)), ('down',), ('to', *self.page.place(60, 30)))
        self.assertTrue(self.browser.run('return live.panels.stroke.cells.size > 0'))
        self.browser.close_page()
        self.browser.to_page(staying)
        self.assertEqual((self.run_of_live.lines(), self.run_of_live.state()['edits']), ([], 6))

    def test_end_by_a_signal_is_shown(self):
        os.kill(self.run_of_live.program_number(), signal.SIGKILL)
        self.browser.wait("return !document.getElementById('ended').hidden", 'the end to be shown')
        self.assertRegex(self.browser.text('#ended'), 'signal 9|status 137')
        self.replays(self.run_of_live)

    def test_page_of_another_origin_can_do_nothing(self):
        live = self.run_of_live
        script = f'''<script>
            const body = JSON.stringify({{lines: ["{PAINT}"], shown: {{}}}});
            Promise.allSettled([
                fetch("{live.address}say", {{method: "POST", mode: "no-cors", body}}),
                fetch("{live.address}say", {{method: "POST", headers: {{"Content-Type": "application/json"}}, body}}),
                fetch("{live.address}live.session").then((answer) => answer.text()),
            ]).then((all) => {{ document.title = all.map(({{status}}) => status).join(" "); }});
        </script>'''.encode()

        class Elsewhere(http.server.BaseHTTPRequestHandler):
            def do_GET(self):
                self.send_response(200)
                self.send_header('Content-Type', 'text/html')
                self.end_headers()
                self.wfile.write(script)

            def log_message(self, *_):
                pass

        with http.server.ThreadingHTTPServer(('127.0.0.1', 0), Elsewhere) as server:
            threading.Thread(target=server.serve_forever, daemon=True).start()
            self.browser.go(f'http://127.0.0.1:{server.server_port}/')
            title = self.browser.wait('return document.title', 'the other page')
            server.shutdown()
        self.assertEqual(title.split()[1:], ['rejected', 'rejected'])
        self.assertEqual(live.lines(), [])
