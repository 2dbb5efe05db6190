"""tools/talk, driven through a terminal: what it adds, and that the program's answers stay as they are."""

import glob
import os
import re
import sys
from random import Random

from support import TOOLS, TOP, Case, call, grid_text, process, program
from terminal import Terminal

import lines as second

from common import replies
from common.language import LINES, OPERATIONS, REQUESTS, RESERVED, Names, explain, nearest

EXAMPLES = os.path.join(TOP, 'examples')
HEIGHTS = [[1, 2], [3, None]]
DRAWN = '\x1b[38;2;141;211;199;48;2;190;186;218m▀', '\x1b[0m\x1b[38;2;255;237;111m▀'  # 1 above 3, and 2 above null
SLOW = """#!{python}
import sys, time
for line in sys.stdin:
    if line in ('slow\\n', 'for ever\\n'):
        print('at it', file=sys.stderr)
    if line == 'slow\\n':
        time.sleep(0.7)
        print('ok 1 changed 0 evaluated 0 worked 0')
    elif line == 'for ever\\n':
        time.sleep(100)
    elif line == 'die\\n':
        sys.exit(7)
    elif line == 'list\\n':
        print('list 0')
    elif line.startswith('value '):
        print('undefined ' + line.split()[1] + ': ' + line.split()[1])
    sys.stdout.flush()
"""


class Talk(Case):
    def setUp(self):
        super().setUp()
        self.grid('a.asc', HEIGHTS)

    def talk(self, *words, **rest):
        terminal = Terminal(*(words or ('run', '1', '-', 'Heights=a.asc')), folder=self.folder, **rest)
        self.addCleanup(terminal.__exit__)
        return terminal

    def begun(self, *words, **rest):
        terminal = self.talk(*words, **rest)
        terminal.prompt()
        return terminal

    def slow(self):
        os.chmod(self.write('slow', SLOW.format(python=sys.executable)), 0o755)
        return self.begun(PILEPUMICE=self.path('slow'))


class Answers(Talk):
    """What the program answers is shown as it is."""

    def test_examples(self):
        for session in sorted(glob.glob(os.path.join(EXAMPLES, '*', '*.session'))):
            folder = os.path.dirname(session)
            words = open(os.path.join(folder, 'words')).read().split()
            if words[0] != 'run':
                continue
            typed = open(session).read().splitlines()
            wanted, status = program(words, '\n'.join(typed + ['']).encode(), folder)
            with Terminal(*words, folder=folder, columns=6000) as terminal:
                shown = terminal.prompt()
                for line in typed:
                    if line == 'quit':
                        break
                    shown += terminal.line(line)
                last, ended = terminal.end('quit\r')
            answers = [line for line in shown if not line.startswith(' ')]
            self.assertEqual((answers, ended), (wanted.decode().splitlines(), status), session)
            self.assertEqual(last, ['quit', ''])

    def test_without_a_terminal(self):
        """Bytes pass as they are: carriage returns, bytes that are no text, a last line without an end."""
        self.write('model', 'B = LocalSum of Heights and 1\n')
        session = b'grid B\r\nvalue B 1 1\x00\n\xff\xfe\n  # \xe4\n.map B\nquit \t\nvalue B 1 1\n'
        for words, given in ((['run', '2', 'model', 'Heights=a.asc'], session), (['run', '1', '-', 'Heights=a.asc'], b'grid Heights'),
                             (['run', '1', '-', 'Heights=none.asc'], b''), (['sample', '1', '3'], b''), (['run'], b''), (['x', '-y'], b'')):
            out, _, status = process('talk', *words, given=given, folder=self.folder)
            self.assertEqual((out, status), program(words, given, self.folder))
        closed = call('bash', '-c', os.path.join(TOOLS, 'talk') + ' run 1 - Heights=a.asc <&-', folder=self.folder)
        self.assertEqual((closed[0], closed[2]), (b'ok 1 changed 1 evaluated 1 worked 0\n', 5))

    def test_lines_of_any_kind(self):
        """Lines without an answer, and lines that the shell or the terminal might take for something else."""
        typed = ['', ' ', '# a comment', '  #', 'value Heights 1 1', 'x' * 4097, '# ' + 'x' * 4095, 'é = LocalSum of 1 and 2', 'label Heights 1 "two  blanks" \\',
                 'legend Heights', ' value  Heights 2 2 ', 'quit now']
        wanted, _ = program(['run', '1', '-', 'Heights=a.asc'], '\n'.join(typed + ['']).encode(), self.folder)
        terminal = self.talk(columns=9000)
        shown = terminal.prompt()
        for line in typed:
            shown += terminal.line(line)
        self.assertEqual([line for line in shown if not line.startswith(' ')], wanted.decode().splitlines())

    def test_a_run_that_does_not_begin(self):
        self.assertEqual(self.talk('run', '1').end()[1], 2)
        self.assertEqual(self.talk('run', '65', '-', 'A=a.asc').end()[1], 2)
        self.assertEqual(self.talk('run', '1', '-', 'A=none.asc').end()[1], 4)


class Ends(Talk):
    def test_control_d_and_quit(self):
        self.assertEqual(self.begun().end('\x04'), (['', ''], 0))
        self.assertEqual(self.begun().end('quit\r'), (['quit', ''], 0))

    def test_control_c_gives_up_a_line(self):
        terminal = self.begun()
        terminal.press('paint Heights 1 1 1 1 9')
        terminal.wait_for('9')
        terminal.give_up()
        self.assertEqual(terminal.line('value Heights 1 1'), ['value Heights 1 1 1'])
        self.assertEqual(terminal.end('\x04')[1], 0)

    def test_control_c_at_work(self):
        """The first one is told, and the answer comes all the same; the second one ends the program."""
        terminal = self.slow()
        terminal.press('slow\r')
        terminal.wait_for('at it\n')
        terminal.press('\x03')
        self.assertEqual(terminal.prompt()[3:5], ['  # the program is at work on this line; control-C once more ends it', 'ok 1 changed 0 evaluated 0 worked 0'])
        terminal.press('for ever\r')
        terminal.wait_for('at it\n')
        terminal.press('\x03')
        terminal.wait_for('once more ends it\n')
        terminal.press('\x03')
        lines, status = terminal.end()
        self.assertEqual((lines[-2], status), ('  # the program was ended', 128 + 15))

    def test_control_c_at_the_loads(self):
        os.chmod(self.write('slow', '#!/bin/sh\necho at it\nexec sleep 100\n'), 0o755)
        terminal = self.talk(PILEPUMICE=self.path('slow'))
        terminal.wait_for('at it\n')
        terminal.press('\x03')
        terminal.wait_for('once more ends it\n')
        self.assertEqual(terminal.end('\x03')[1], 128 + 15)

    def test_a_program_that_ends(self):
        lines, status = self.slow().end('die\r')
        self.assertEqual((lines, status), (['die', '  # the program ended with status 7', ''], 7))

    def test_time_of_long_answers(self):
        terminal = self.slow()
        took = terminal.line('slow')[-1]
        self.assertRegex(took, '^  # [01]\\.[0-9] s$')
        self.assertEqual(self.begun().line('value Heights 1 1'), ['value Heights 1 1 1'])

    def test_a_program_of_this_folder(self):
        self.slow()
        self.assertEqual(self.begun(PILEPUMICE='slow').line('value It 1 1'), ['undefined It: It', '  # there is no layer It'])

    def test_refused_words(self):
        self.refused('talk', 'run', '1', '-', 'A=a.asc', saying='none there', calls=process, PILEPUMICE=self.path('none there'))
        self.assertEqual(process('talk')[2], 2)

    def test_help(self):
        """Of each tool, called by its path and through a link."""
        for name in ('talk', 'fill', 'paints', 'picture', 'live', 'to-grid'):
            os.symlink(os.path.join(TOOLS, name), self.path(name))
            for path in (os.path.join(TOOLS, name), self.path(name)):
                out, told, status = call(path, '--help')
                self.assertEqual((told, status), ('', 0))
                self.assertIn('to-grid [-cell SIZE]' if name == 'to-grid' else f'usage: {name} ', out.decode())


class Refusals(Talk):
    """The caret stands under the column, and a sentence says what is wrong. The prompt takes two columns."""

    def test_carets(self):
        terminal = self.begun(columns=400)
        for line, column, reply, sentence in (
                ('Wet = LocalSum of Heights', 26, 'syntax', 'the line ends too early: LocalSum of TERM and TERM {and TERM} [ignoring nulls]'),
                ('Wet = LocalSum of Heights and 1 ignoring nulls', 33, 'syntax',
                 'ignoring nulls is of language 2, for which the line model 2 stands before the first edit'),
                ('Wet = LocalRatio of Heights and 1 ignoring nulls', 35, 'syntax', "ignoring can't stand here: LocalRatio of TERM and TERM"),
                ('model 3', 7, 'number', 'the language is 1 or 2'),
                ('model', 6, 'syntax', 'the line ends too early: model VERSION'),
                ('undo it', 6, 'syntax', "it can't stand here: undo"),
                ('undo = LocalSum of Heights and 1', 6, 'syntax', "= can't stand here: undo"),
                ('Wet = LocalSun of Heights and 1', 7, 'operation', 'LocalSun is no operation; did you mean LocalSum?'),
                ('Wet = localsum of Heights and 1', 7, 'operation', 'localsum is no operation; did you mean LocalSum?'),
                ('Wet = FocalDrainage of Heights', 7, 'operation', 'FocalDrainage is no operation; did you mean IncrementalDrainage?'),
                ('Wet = LocalSlope of Heights', 7, 'operation', 'LocalSlope is no operation'),
                ('Wet = FocalMean of Heights at 33', 31, 'number', 'a radius is 1 to 32'),
                ('paint Heights 1 1 4097 1 5', 19, 'number', 'rows and columns are 1 to 4096'),
                ('paint Heights 1 1 1 1 1000000000000001', 23, 'number', 'a cell is a number from -1000000000000000 to 1000000000000000, or null'),
                ('  grid = LocalSum of Heights and 1', 8, 'syntax', "= can't stand here: grid NAME"),
                ('of = LocalSum of Heights and 1', 1, 'syntax', "of is a word of the language, and can't be a name"),
                ('new list 1', 5, 'syntax', "list is a word of the language, and can't be a name"),
                ('value Heights 1 x', 17, 'syntax', "x can't stand here: value NAME ROW COL"),
                ('paint Heights 1 1 1 1 1.5', 23, 'syntax', "1.5 can't stand here, as numbers are whole: paint NAME ROW COL ROW COL CELL"),
                ('branch value Heights 1 x end', 24, 'syntax', "x can't stand here: value NAME ROW COL"),
                ('branch Wet = LocalSum of Heights and 1; paint Heights 1 4097 1 1 1 end', 57, 'number', 'rows and columns are 1 to 4096'),
                ('branch Wet = LocalSum of Heights end', 34, 'syntax', "end can't stand here: LocalSum of TERM and TERM {and TERM} [ignoring nulls]"),
                ('branch Wet = end', 14, 'operation', 'end is no operation'),
                ('branch new list 1 end', 12, 'syntax', "list is a word of the language, and can't be a name"),
                ('branch undo end', 8, 'syntax', "undo can't stand here: " + LINES['branch']),
                ('branch end', 8, 'syntax', "end can't stand here: " + LINES['branch']),
                ('branch value Heights 1 1; end', 27, 'syntax', "end can't stand here: " + LINES['branch']),
                ('branch value Heights 1 1 end now', 30, 'syntax', "now can't stand here: " + LINES['branch']),
                ('branch value Heights 1 1', 25, 'syntax', 'the line ends too early: ' + LINES['branch']),
                ('branch drop X ' * 17 + 'end', 225, 'syntax', 'a line has at most 16 branches'),
                ('Wet = ZonalSum of Heights', 26, 'syntax', 'the line ends too early: ZonalSum of TERM within ZONES'),
                ('!', 1, 'syntax', "! can't stand here: NAME = OPERATION   or   NAME = PROCEDURE(TERM, ..)"),
                ('label Heights 1 \x16\x09é', None, 'syntax', 'lines are plain ASCII, without accents and signs beyond it')):
            shown = terminal.line(line)
            if column:
                self.assertEqual(shown[:2], [' ' * (2 + column - 1) + '^', f'refused {reply} {column}'], line)
            self.assertEqual(shown[2], f'  # {sentence}')

    def test_sentences_of_zones_and_texts(self):
        terminal = self.begun(columns=400)
        for line, sentence in (
                ('Wet = ZonalSum of Heights within 1000000000000001', 'a cell is a number from -1000000000000000 to 1000000000000000, or null'),
                ('Wet = FocalProximity of Heights within -1', 'the reach of a view is 1 to 64, the limit of a way 0 to 1000000000000000'),
                ('label Heights 1 ' + 'long text ' * 7, "a label's text has at most 64 bytes"), ('symbol Heights 1 ab', 'a symbol is one byte')):
            self.assertEqual(terminal.line(line)[2], f'  # {sentence}')

    def test_column_after_a_letter_of_two_bytes(self):
        """The program counts bytes: the letter is at 6, and what follows would be at 8. On the screen it takes one column."""
        terminal = self.begun()
        self.assertEqual(terminal.line('show é')[:2], ['       ^', 'refused syntax 6'])
        self.assertIn('refused syntax 7', terminal.line('grid A\xff'.encode('latin-1')))

    def test_caret_behind_tabs(self):
        """A tab takes the columns up to the next eighth one, with the prompt's two."""
        terminal = self.begun(columns=60)
        self.assertEqual(terminal.line('W =\x16\tLocalSun of Heights'), ['        ^', 'refused operation 5', '  # LocalSun is no operation; did you mean LocalSum?'])
        self.assertEqual(terminal.line('\x16\t' * 7 + 'Wt 1')[:2], ['  ' + ' ' * 27 + 'Wt 1', '  ' + ' ' * 30 + '^'])
        self.write('my.model', '\tWet =\tLocalSun of Heights')
        shown, _ = self.talk('run', '1', 'my.model', 'Heights=a.asc').end()
        self.assertEqual(shown[-4:-2], ['  my.model:1:   Wet =   LocalSun of Heights', ' ' * 24 + '^'])

    def test_caret_of_a_long_line(self):
        """Where the line doesn't fit, the part around the column stands above the caret."""
        terminal = self.begun(columns=40)
        line = 'Wet = LocalSum of ' + ' and '.join(f'Layer{number}' for number in range(9))
        terminal.press(line + '\r')
        shown = terminal.prompt()
        reply = next(text for text in shown if text.startswith('refused syntax'))
        column, caret = int(reply.split()[2]), shown.index(reply) - 1
        self.assertEqual(column, line.index(' and Layer8') + 2)
        pointed = shown[caret].index('^')
        self.assertEqual(shown[caret].strip(), '^')
        self.assertLess(len(shown[caret - 1]), 40)
        self.assertEqual(shown[caret - 1][pointed:pointed + 3], 'and')

    def test_names(self):
        terminal = self.begun()
        terminal.line('procedure steep(height): rise = IncrementalGradient of height; result = LocalRating of rise with 1 for 0 to 9')
        terminal.line('Slope = steep(Heights)')
        for line, reply, sentence in (
                ('paint Height 1 1 1 1 5', 'refused unknown Height', 'there is no layer Height; did you mean Heights?'),
                ('drop Qqq', 'refused unknown Qqq', 'there is no layer Qqq'),
                ('grid slope', 'undefined slope: slope', 'there is no layer slope; did you mean Slope?'),
                ('grid Slope.ris', 'undefined Slope.ris: Slope.ris', 'there is no layer Slope.ris; did you mean Slope.rise?'),
                ('X = stepe(Heights)', 'refused procedure stepe', 'there is no procedure stepe; did you mean steep?'),
                ('X = steep(Heights, 1)', 'refused count 2 1', 'terms that are given: 2; that the procedure takes: 1'),
                ('paint Slope 1 1 1 1 5', 'refused derived Slope', "Slope is a statement's layer: paint what it reads"),
                ('new Heights 1', 'refused exists Heights', 'the name Heights is taken: it can be painted, or dropped first'),
                ('paint Heights 1 1 3 1 5', 'refused size 2 2',
                 'the map has 2 rows and 2 columns; the first corner of a rectangle lies above and to the left of the second'),
                ('Slope = LocalSum of Slope and 1', 'refused cycle Slope', 'Slope would read its own layer'),
                ('undo', 'ok 4 changed 0 evaluated 0 worked 0', None), (' undo', 'ok 5 changed 0 evaluated 0 worked 0', None),
                ('undo', 'refused nothing', 'no edit is left to take back: the newest 64 can be, and loads stay'),
                ('X = LocalProduct of 1000000000000000 and Heights', 'refused overflow X 1 2',
                 'X would be beyond 1000000000000000 in row 1, column 2')):
            self.assertEqual(terminal.line(line), [reply, f'  # {sentence}'] if sentence else [reply])

    def test_a_layer_that_is_missing(self):
        terminal = self.begun()
        shown = terminal.line('Wet = LocalSum of Hieghts and 1')
        self.assertEqual(shown, ['ok 2 changed 0 evaluated 0 worked 0', '  # there is no layer Hieghts, which Wet needs; did you mean Heights?'])
        self.assertEqual(len(terminal.line('Wet = LocalSum of Heights and 1')), 1)

    def test_a_line_of_the_model(self):
        """The number counts empty lines and comments too, and answers of several lines as one."""
        requests = 'show Heights\nlegend Heights\ngrid B\n  # more\ntable B Heights\nstamps B\nvalue B 1 1\nlist\n'
        model = '# comment\n\n\r\nB = LocalSum of Heights and 1\r\n' + requests + 'C = LocalSun of B and 1\r\nquit\n'
        self.write('my.model', model)
        shown, status = self.talk('run', '1', 'my.model', 'Heights=a.asc', 'More=a.asc').end()
        wanted = program(['run', '1', 'my.model', 'Heights=a.asc', 'More=a.asc'], b'', self.folder)[0].decode().splitlines()
        self.assertEqual((shown[:len(wanted)], status), (wanted, 3))
        mine = [line for line in shown[len(wanted):] if line.startswith('  ')]
        self.assertEqual(mine, ['  my.model:13: C = LocalSun of B and 1', ' ' * (len('  my.model:13: ') + 4) + '^', '  # LocalSun is no operation; did you mean LocalSum?'])
        self.write('my.model', 'value Heights 1 1\npaint Height 1 1 1 1 1')
        shown, status = self.talk('run', '1', 'my.model', 'Heights=a.asc').end()
        self.assertIn('  my.model:2: paint Height 1 1 1 1 1', shown)

    def test_a_line_of_the_model_after_branches(self):
        """Their reply is one, however many branches and items there are, and whatever these were told."""
        branches = ['branch new B 1; drop Gone;value B 1 1 branch value Heights 1 1 end', 'model 2', 'branch drop Heights; value Heights 1 1 end']
        for last in ('branch drop Heights', 'undo', 'C = LocalSun of Heights and 1'):
            self.write('my.model', '\n'.join([*branches, last]))
            shown, status = self.talk('run', '1', 'my.model', 'Heights=a.asc').end()
            self.assertEqual(status, 3)
            self.assertIn(f'  my.model:4: {last}', shown)

    def test_a_line_of_the_model_after_one_without_a_reply(self):
        for model, number, line in (('value Heights 1 1\nmodel +2\nB = LocalMean of Heights and 1 ignoring nulls\nC = LocalSun of B and 1', 4, 'C = LocalSun of B and 1'),
                                    ('new B 1\n\nmodel 2\nC = LocalSun of B and 1', 3, 'model 2'), ('model 1\nlist\nmodel 2', 3, 'model 2'),
                                    ('list\nmodel 3\nmodel 2', 2, 'model 3'),
                                    ('new B 1\n# back\nundo\nundo', 4, 'undo'), ('new B 1\nundo\nmodel 2', 3, 'model 2')):
            self.write('my.model', model)
            shown, status = self.talk('run', '1', 'my.model', 'Heights=a.asc').end()
            self.assertEqual(status, 3)
            self.assertIn(f'  my.model:{number}: {line}', shown)

    def test_a_grid(self):
        self.write('b.asc', grid_text(HEIGHTS).replace('3', '3.5'))
        shown, status = self.talk('run', '1', '-', 'Heights=a.asc', 'B=b.asc').end()
        self.assertEqual((shown[1:3], status), (['refused load B cell 3', '  # the grid of B: cell 3 is no whole number (docs/GUIDE.md, "From and to other programs")'], 3))
        self.grid('b.asc', [[1]])
        self.assertIn('the first grid has 2 rows and 2 columns, and this one others', self.talk('run', '1', '-', 'A=a.asc', 'B=b.asc').end()[0][2])


class Keys(Talk):
    def test_completion(self):
        self.write('filled.asc', '')
        os.mkdir(self.path('folder'))
        terminal = self.begun()
        terminal.line('procedure steepness(height): rise = IncrementalGradient of height; result = LocalSum of rise and 0')
        terminal.line('Slope = steepness(Heights)')
        for keys, typed in (('val\tHei\t1 1', 'value Heights 1 1'), ('paint H\t1 1 1 1 n\t', 'paint Heights 1 1 1 1 null '),
                            ('Wet = LocalPr\to\tHeights an\t2', 'Wet = LocalProduct of Heights and 2'), ('Wet = ste\tHe\t)', 'Wet = steepness(Heights )'),
                            ('Wet = FocalProximity of Heights sp\ti\tSl\twith\t9', 'Wet = FocalProximity of Heights spreading in Slope within 9'),
                            ('Wet = FocalN\tof Hei\tspr\tin Sl\t', 'Wet = FocalNeighbor of Heights spreading in Slope '),
                            ('grid Slope.\t', 'grid Slope.rise '), ('table S\tH\t', 'table Slope Heights '), ('Sl\t\t', 'Slope = '),
                            ('.ma\tS\t', '.map Slope '), ('.save Slope fil\t', '.save Slope filled.asc '), ('.log fo\t', '.log folder/'),
                            ('.help IncrementalDr\t', '.help IncrementalDrainage '), ('drop Zzz\t', 'drop Zzz'), ('mod\t2', 'model 2'),
                            ('bra\tpai\tHei\t1 1 1 1 nu\t; va\tSl\t1 1 en\t', 'branch paint Heights 1 1 1 1 null ; value Slope 1 1 end '),
                            ('branch drop Slope bra\tWet = LocalPr\to\tHeights an\t2 ; ne\tB 1', 'branch drop Slope branch Wet = LocalProduct of Heights and 2 ; new B 1'),
                            ('Wet = LocalMea\tof H\tand 1 ig\tnu\t', 'Wet = LocalMean of Heights and 1 ignoring nulls '),
                            ('procedure p(aa): bb = LocalSum of a\tand b\t', 'procedure p(aa): bb = LocalSum of aa and bb ')):
            terminal.press(keys)
            terminal.wait_for(typed)
            self.assertEqual(terminal.give_up()[0].rstrip('\x07'), typed)

    def test_a_python_without_readline(self):
        self.write('readline.py', 'raise ImportError')
        self.assertEqual(self.begun(PYTHONPATH=self.folder).line('value Heights 1 1'), ['value Heights 1 1 1'])

    def test_names_come_and_go(self):
        terminal = self.begun()
        terminal.line('new Fresh 1')
        self.assertEqual(terminal.line('value Fr\t1 1'), ['value Fresh 1 1 1'])
        terminal.line('drop Fresh')
        self.assertEqual(terminal.line('value Fr\t1 1')[1], 'refused syntax 12')  # the name isn't completed, and the column is missing
        terminal.line('und\t')
        self.assertEqual(terminal.line('value Fr\t1 1'), ['value Fresh 1 1 1'])

    def test_history(self):
        terminal = self.begun()
        terminal.line('value Heights 1 1')
        terminal.line('value Heights 1 2')
        self.assertEqual(terminal.line('\x1b[A\x1b[A'), ['value Heights 1 1 1'])


class Own(Talk):
    """The talk's own lines."""

    def test_map(self):
        terminal = self.begun()
        classes = '  '.join(f'\x1b[48;2;{colour}m  \x1b[0m {value}' for value, colour in ((1, '141;211;199'), (2, '255;237;111'), (3, '190;186;218')))
        self.assertEqual(terminal.line('.map Heights'), ['  ' + ''.join(DRAWN) + '\x1b[0m', '  # ' + classes])
        self.grid('one.asc', [[1, 2, None]])
        wanted = '  \x1b[0m\x1b[38;2;141;211;199m▀\x1b[0m\x1b[38;2;255;237;111m▀\x1b[0m \x1b[0m'
        self.assertEqual(self.begun('run', '1', '-', 'One=one.asc').line('.map One')[0], wanted)
        self.assertEqual(terminal.line('.map Height'), ['undefined Height: Height', '  # there is no layer Height; did you mean Heights?'])

    def test_map_in_other_colours(self):
        """Of 256 colours: each part in five steps, 16 + 36 red + 6 green + blue; 141, 211, 199 is 3, 4, 4."""
        shown = self.begun(COLORTERM='').line('.map Heights')
        self.assertTrue(shown[0].startswith(f'  \x1b[38;5;{16 + 36 * 3 + 6 * 4 + 4};48;5;'))
        for variables in ({'NO_COLOR': '1'}, {'TERM': 'dumb'}):
            self.assertEqual(self.begun(**variables).line('.map Heights')[-1], '  # this terminal has no colours; show Heights draws with signs')

    def test_map_that_does_not_fit(self):
        """30 columns in a terminal of 20 (17 without the edges): each second cell is drawn."""
        self.grid('wide.asc', [[column for column in range(30)]] * 3)
        shown = self.begun('run', '1', '-', 'Wide=wide.asc', columns=20).line('.map Wide')
        self.assertEqual(len(re.findall('▀', shown[0])), 15)
        self.assertEqual(shown[1], '  # 0 (dark) to 29 (light); one cell of 2 by 2 is drawn')

    def test_save(self):
        self.write('a.prj', 'a projection')
        terminal = self.begun()
        terminal.line('Wet = LocalSum of Heights and 1')
        self.assertEqual(terminal.line('.save Wet my wet.asc'), ['  # my wet.asc: 2 rows, 2 columns, with its .prj'])
        wanted, _ = program(['run', '1', '-', 'Heights=a.asc'], b'Wet = LocalSum of Heights and 1\ngrid Wet\n', self.folder)
        self.assertEqual(self.read('my wet.asc'), wanted.split(b'\n', 2)[2])
        self.assertEqual(self.read('my wet.prj'), b'a projection')
        os.remove(self.path('a.prj'))
        self.assertEqual(terminal.line('.save Wet other.asc'), ['  # other.asc: 2 rows, 2 columns'])
        self.assertEqual(terminal.line('.save Wet none/wet.asc'), ['  # none/wet.asc: No such file or directory'])
        self.assertEqual(terminal.line('.save Wet /dev/full'), ['  # No space left on device'])
        self.assertEqual(terminal.line('.save Wt wet.asc')[0], 'undefined Wt: Wt')
        self.assertFalse(os.path.exists(self.path('wet.asc')))

    def test_log(self):
        """What was accepted, in its order; played again it makes the same layers."""
        terminal = self.begun()
        for line in ('new Mask 1', 'paint Mask 1 1 1 1 null', 'value Mask 1 1', 'paint Mask 9 9 9 9 1', 'Wet = LocalProduct of Heights and Mask', '# a comment'):
            terminal.line(line)
        listed = terminal.line('list')
        self.assertEqual(terminal.line('.log it.session'), ['  # it.session: accepted edits: 3'])
        self.assertEqual(self.read('it.session'), b'new Mask 1\npaint Mask 1 1 1 1 null\nWet = LocalProduct of Heights and Mask\n')
        again, _ = program(['run', '1', '-', 'Heights=a.asc'], self.read('it.session') + b'list\n', self.folder)
        self.assertEqual(again.decode().splitlines()[-len(listed):], listed)

    def test_log_of_a_paste(self):
        """Its lines are taken one by one, those of the talk too."""
        terminal = self.begun()
        for end in '\r\n':
            terminal.press(f'\x1b[200~drop Gone{end}new Mask 1{end}.save Mask mask.asc{end}quit now\x1b[201~\r')
            terminal.wait_for('> quit now\n')
            shown = terminal.prompt()
            self.assertEqual(shown[4:9], ['> drop Gone', 'refused unknown Gone', '  # there is no layer Gone', '> new Mask 1', 'ok 2 changed 1 evaluated 1 worked 0'])
            self.assertEqual(shown[9:13], ['> .save Mask mask.asc', '  # mask.asc: 2 rows, 2 columns', '> quit now', ' ' * 7 + '^'])
            self.assertEqual(terminal.line('.log it.session'), ['  # it.session: accepted edits: 1'])
            self.assertEqual(self.read('it.session'), b'new Mask 1\n')
            terminal = self.begun()

    def test_log_of_edits_that_are_taken_back(self):
        """They stand in it with the undo, so that the numbers are the same again."""
        terminal = self.begun()
        for line in ('undo', 'new Mask 1', 'drop Heights', 'undo', 'Wet = LocalProduct of Heights and Mask'):
            terminal.line(line)
        stamped = terminal.line('stamps Wet') + terminal.line('stamps Heights')
        self.assertEqual(terminal.line('.log it.session'), ['  # it.session: accepted edits: 4'])
        self.assertEqual(self.read('it.session'), b'new Mask 1\ndrop Heights\nundo\nWet = LocalProduct of Heights and Mask\n')
        again, _ = program(['run', '1', '-', 'Heights=a.asc'], self.read('it.session') + b'stamps Wet\nstamps Heights\n', self.folder)
        self.assertEqual(again.decode().splitlines()[-len(stamped):], stamped)

    def test_log_without_what_was_tried(self):
        """Branches change nothing: their edits aren't in it, and their reply is shown to its end."""
        terminal = self.begun()
        self.assertEqual(terminal.line('branch new Mask 1; drop Heights; value Heights 1 1 branch drop Gone; value Heights 1 1 end'),
                         ['branch 1', 'ok 2 changed 1 evaluated 1 worked 0', 'ok 3 changed 0 evaluated 0 worked 0', 'undefined Heights: Heights',
                          'branch 2', 'refused unknown Gone', 'value Heights 1 1 1'])
        self.assertEqual(terminal.line('value Mask 1 1')[0], 'undefined Mask: Mask')
        terminal.line('new Mask 2')
        self.assertEqual(terminal.line('.log it.session'), ['  # it.session: accepted edits: 1'])
        self.assertEqual(self.read('it.session'), b'new Mask 2\n')

    def test_log_of_language_2(self):
        terminal = self.begun()
        self.assertEqual([terminal.line(line) for line in ('value Heights 1 1', 'model 2')], [['value Heights 1 1 1'], []])
        terminal.line('Wet = LocalSum of Heights and 1 ignoring nulls')
        self.assertEqual(terminal.line('model 1'), ['^'.rjust(3), 'refused syntax 1', '  # a line that sets the language stands before the first edit, and only once'])
        self.assertEqual(terminal.line('.log it.session'), ['  # it.session: accepted edits: 1'])
        self.assertEqual(self.read('it.session'), b'model 2\nWet = LocalSum of Heights and 1 ignoring nulls\n')

    def test_help_and_wrong_words(self):
        terminal = self.begun()
        self.assertEqual(terminal.line('.help model'), ['  # model VERSION'])
        self.assertEqual(terminal.line('.help FocalSum'), ['  # FocalSum of TERM [at RADIUS]', '  # ' + OPERATIONS['FocalSum'][1]])
        self.assertEqual(terminal.line('.help paint'), ['  # paint NAME ROW COL ROW COL CELL'])
        self.assertEqual(terminal.line('.help undo'), ['  # undo'])
        self.assertEqual(terminal.line('.help branch'), ['  # ' + LINES['branch']])
        self.assertEqual(terminal.line('.help qqqqqq'), ['  # qqqqqq is no line and no operation'])
        self.assertIn('  # .save LAYER FILE  writes its grid, and beside it the .prj of the first grid', terminal.line('.help'))
        self.assertEqual(terminal.line('.mpa Heights'), ['  # .mpa is no line of the talk; did you mean .map?'])
        self.assertEqual(terminal.line('.save Heights'), ['  # the form of this line is .save LAYER FILE'])


class Language(Case):
    def test_reserved_words(self):
        self.assertEqual(RESERVED, second.RESERVED)

    def test_forms(self):
        """Each form, with all that may be left out and without, is a line that the program takes in language 2."""
        self.grid('a.asc', [[1, 2]])
        statements = [f'{name} = {line}' for forms in OPERATIONS.values() for form in forms for line in filled(form)
                      for name in (f'X{len(line)}',)]
        lines = [text for line in statements for text in (line, 'drop ' + line.split()[0])]
        out, status = program(['run', '1', '-', 'A=a.asc'], '\n'.join(['model 2', *lines, '']).encode(), self.folder)
        told = out.decode().splitlines()[1:]
        self.assertEqual((status, len(told)), (0, len(lines)))
        self.assertEqual([line for line, reply in zip(lines, told) if not reply.startswith('ok ')], [])
        for form in LINES.values():
            self.assertIn(form.split()[0], RESERVED)

    def test_lines_with_a_reply(self):
        lines = [b'', b'# model 1', b'value A 1 1', b'\tmodel  +02 ', b'model 2', b'drop A', b' ' * 4097, b'list']
        self.assertEqual([number for number, _ in replies.answered(lines)], [3, 5, 6, 7, 8])
        self.assertEqual([number for number, _ in replies.answered([b'new B 1', b'model 2'])], [1, 2])
        self.assertEqual([number for number, _ in replies.answered([b'list', b'model=2'])], [1, 2])
        self.assertEqual([number for number, _ in replies.answered([b'branch drop A end', b'model 2', b'list', b'model 2'])], [1, 3, 4])

    def test_lengths_of_replies(self):
        """Of branches, by the line: as many as the program writes, whether there are blanks round `;` or none."""
        self.grid('a.asc', [[1, 2]])
        lines = ['branch drop A end', 'branch B=LocalSum of A and 1;value B 1 1;drop C branch value A 1 1 end', 'list',
                 '\tbranch new C 1 ; C = LocalRating of A with 1 for 2 branch P = Q(A,1);value branch_1 1 1 branch paint A 1 1 1 2 7 end ', 'branch end', 'legend A']
        out, _ = program(['run', '1', '-', 'A=a.asc'], '\n'.join([*lines, '']).encode(), self.folder)
        told = out.decode().splitlines()[1:]
        pairs = list(replies.paired(enumerate(map(str.encode, lines), 1), told))
        self.assertEqual([reply[0].split()[0] for _, _, reply in pairs], ['branch', 'branch', 'list', 'branch', 'refused', 'legend'])
        self.assertEqual([len(reply) for _, _, reply in pairs], [2, 6, 2, 8, 1, 3])
        self.assertEqual(sum((reply for _, _, reply in pairs), []), told)

    def test_every_refusal_is_explained(self):
        """Random lines, most of which the program refuses, and some for each of the other causes: each refusal has a sentence."""
        self.grid('a.asc', [[1, 2]])
        random, words = Random(52), [*RESERVED, *'A B A.b Cc = = ( ) , ; : 1 -1 0 4097 1000000000000001 33 x! procedure paint value'.split()]
        starts = ['', 'B = ', 'B = LocalSum of A and ', 'paint A 1 ', 'procedure P(a): ', 'B = P(', 'value A ', 'label ', 'B = FocalSum of A ']
        lines = [random.choice(starts) + ' '.join(random.choices(words, k=random.randint(0, 5))) for _ in range(1200)]
        lines = [line for line in lines if line.strip() and line.split()[0] not in (*REQUESTS, 'model') or line.startswith('value')]
        lines += ['model', 'model 3', 'model 2 2', 'new Bb 1', 'model 2']
        lines += ['branch', 'branch end', 'branch undo end', 'branch X = end', 'branch value A 1 1', 'branch value A 1 1; end', 'branch value A 1 1 ' * 17 + 'end',
                  'branch paint A 1 1 4097 1 1 end', 'branch new A 1; X = LocalSum of A and 1000000000000001 end', 'branch drop A end end', 'branch new grid 1 end']
        lines = ['undo', *lines, 'drop Zz', 'new A 1', 'paint A 2 1 2 1 1', 'B = Zz(A)', 'procedure Pp(a): result = LocalSum of a and 1', 'B = Pp(A, A)', 'x' * 4097,
                  'B = LocalProduct of A and 1000000000000000', 'D = LocalSum of E and 1', 'E = LocalSum of D and 1', 'paint D 1 1 1 1 1']
        lines += [f'new S{number} 1' for number in range(40)] + [f'R{number} = FocalNeighbor of A' for number in range(9)]
        lines += [f'T{number} = LocalSum of A and 1' for number in range(70)]
        out, status = program(['run', '1', '-', 'A=a.asc'], '\n'.join(lines + ['']).encode(), self.folder)
        replies = out.decode().splitlines()[1:]
        self.assertEqual((status, len(replies)), (0, len(lines)))
        kinds = set()
        for line, reply in zip(lines, replies):
            if reply.split()[0] in ('refused', 'undefined'):
                self.assertTrue(explain(reply, line.encode(), Names(['source A'])), (line, reply))
                kinds.add(reply.split()[1])
        self.assertLessEqual({'syntax', 'operation', 'number', 'long', 'unknown', 'derived', 'exists', 'size', 'limit', 'procedure', 'count', 'cycle', 'overflow',
                              'nothing'}, kinds)

    def test_a_statement_that_is_named_source(self):
        self.grid('a.asc', [[1, 2]])
        out, _ = program(['run', '1', '-', 'A=a.asc'], b'procedure next(a): result = LocalSum of a and 1\nsource = next(A)\nlist\n', self.folder)
        names = Names(out.decode().splitlines()[4:])
        self.assertEqual((names.sources, names.statements, [*names.procedures]), (['A'], {'source': 'next(A)'}, ['next']))

    def test_nearest(self):
        self.assertEqual(nearest('elevaton', ['Cover', 'Elevation']), 'Elevation')
        self.assertIsNone(nearest('Zzz', ['Cover', 'Elevation']))
        for word, meant in (('FocalDrainage', 'IncrementalDrainage'), ('gradient', 'IncrementalGradient'), ('FocalRating', 'LocalRating'),
                            ('LocalMin', 'LocalMinimum'), ('FocalNeighbour', 'FocalNeighbor'), ('Local', None), ('LocalSlope', None), ('x', None)):
            self.assertEqual(nearest(word, OPERATIONS, 0.8), meant)


def filled(form):
    """Lines of a form: optional parts left out, and there; NUMBER and its like as 1, CELL as null, any other word in capitals as A."""
    for line in (re.sub(r' ?[\[{][^\[\]]*[\]}]| \{.*\}', '', form), re.sub(r'[\[\]{}]', '', form)):
        line = re.sub(r'\b(NUMBER|RADIUS|REACH|LIMIT)\b', '1', line).replace('CELL', 'null')
        yield re.sub(r'\b[A-Z]+\b', 'A', line)
