"""The module against document 01's cases, the program and the documents. `python3 -m unittest discover python/tests`, at the repository's root."""

import json
import os
import random
import re
import subprocess
import sys
import unittest
from fractions import Fraction

ROOT = os.path.join(os.path.dirname(os.path.abspath(__file__)), "..", "..")
sys.path.insert(0, os.path.join(ROOT, "python"))

import chukkanalli  # noqa: E402
from chukkanalli import Game, Refused  # noqa: E402
from chukkanalli._calls import SENTENCES  # noqa: E402

PROGRAM = os.path.join(ROOT, "build", "bin", "chukkanalli")
KUHN = Game("kuhn", 2)
LEDUC = Game("Leduc")


def document(name):
    with open(os.path.join(ROOT, name), encoding="utf-8") as file:
        return file.read()


def ran(*words):
    return subprocess.run([PROGRAM, *words], cwd=ROOT, stdout=subprocess.PIPE, check=True, universal_newlines=True).stdout


def drawn(game, d, seed):
    """A table at random."""
    draw = random.Random(seed)
    parts = [0] * game.entries
    for own in game.sets:
        for _ in range(d):
            parts[own.first_entry + draw.randrange(len(own.legal))] += 1
    return game.table(parts, d)


def written(game, table, name):
    """The table as a file with labels."""
    path = os.path.join(ROOT, "build", name)
    with open(path, "w", encoding="utf-8") as file:
        for own in game.sets:
            file.write(" ".join(map(str, table.parts[own.entries])) + f"  # {own.label}\n")
    return path


class Listing(unittest.TestCase):
    def test_counts_are_those_of_the_trees(self):
        counts = {("kuhn", 2): (58, 12, 24), ("kuhn", 3): (617, 48, 96), ("kuhn", 4): (7886, 160, 320), ("kuhn", 5): (116437, 480, 960)}
        counts[("kuhn", 6)], counts[("leduc", 2)] = (1944020, 1344, 2688), (9457, 936, 2184)
        for (name, seats), expected in counts.items():
            game = Game(name, seats)
            self.assertEqual((game.nodes, len(game.sets), game.entries), expected)

    def test_labels_are_those_of_a_template(self):
        if not os.path.exists(PROGRAM):
            self.skipTest("the program is not built")
        for game in [KUHN, Game("kuhn", 3), LEDUC]:
            lines = ran("template", game.name, str(game.seats), "1").splitlines()
            self.assertEqual([line.split("# ", 1)[1] for line in lines if line.startswith("0 ")], game.labels)

    def test_kuhn_2_has_its_keys_in_order(self):
        keys = "00 110 0001 111 120 121 01 100 0101 101 02 0201".split()
        self.assertEqual([own.key for own in KUHN.sets], [bytes(map(int, key)) for key in keys])

    def test_games_that_are_none_are_refused(self):
        for name, seats, refusal in [("chess", 2, 1), ("kuhn", 1, 2), ("kuhn", 11, 2), ("leduc", 3, 2), ("kuhn", 7, 3), ("kuhn", -1, 2), ("kuhn", 2**64 + 2, 2)]:
            with self.assertRaises(Refused) as refused:
                Game(name, seats)
            self.assertEqual(refused.exception.number, refusal)
            self.assertIn(refused.exception.sentence, str(refused.exception))

    def test_sentences_are_those_of_the_document(self):
        said = dict(re.findall(r"^\| (\d+) \| (.*) \|$", document("docs/API.md"), re.M))
        self.assertEqual({str(number): sentence for number, sentence in SENTENCES.items()}, {number: said[number] for number in map(str, SENTENCES)})


class Evaluation(unittest.TestCase):
    def test_case_k(self):
        table = KUHN.table([1, 0] * 12, 1)
        told = KUHN.evaluate(table)
        self.assertEqual((told.worths, told.best_values, told.gains, told.nash_conv), ((0, 0), (1, 1), (1, 1), 2))
        self.assertEqual((told.nash_conv_units, told.units, KUHN.nash_conv(table)), (12, 6, 2))
        reply = KUHN.reply(table, 0)
        self.assertEqual((reply.value, reply.table.parts), (1, bytes(map(int, "011010101010011010101010"))))
        self.assertEqual(KUHN.evaluate(reply.table).worths[0], 1)

    def test_case_l(self):
        told = KUHN.evaluate(KUHN.table(map(int, "303030210303302121303003"), 3))
        self.assertEqual((told.worths, told.nash_conv, told.units), ((Fraction(-1, 18), Fraction(1, 18)), 0, 162))

    def test_the_uniform_profile_in_f64(self):
        told = KUHN.f64([0.5] * 24)
        self.assertEqual((told.nash_conv, told.exploitability), (0.9166666666666666, 0.4583333333333333))
        self.assertEqual((told.best_response_values, told.worths), ((0.5, 0.4166666666666666), (0.12500000000000003, -0.12500000000000003)))
        self.assertEqual(KUHN.f64({label: [0.5, 0.5] for label in KUHN.labels}), told)
        self.assertNotEqual(KUHN.f64([float("nan")] * 24).nash_conv, 0.0)

    def test_what_cannot_be_taken_is_refused(self):
        table = KUHN.table([1, 0] * 12, 1)
        for made, refusal in [
            (lambda: KUHN.evaluate(KUHN.table([1, 0] * 12, 65)), 6),
            (lambda: KUHN.evaluate(KUHN.table([1, 0] * 12, 0)), 6),
            (lambda: KUHN.evaluate(KUHN.table([1, 0] * 12, 2**64 + 1)), 6),
            (lambda: KUHN.evaluate(KUHN.table([1], 1)), 7),
            (lambda: KUHN.evaluate(KUHN.table([], 1)), 7),
            (lambda: KUHN.evaluate(KUHN.table([1, 1] * 12, 1)), 8),
            (lambda: KUHN.reply(table, 2), 5),
            (lambda: KUHN.reply(table, -1), 5),
            (lambda: KUHN.explain(table, 2), 5),
            (lambda: KUHN.f64([0.5]), 7),
            (lambda: KUHN.table({label: [1, 0] for label in KUHN.labels}, 0), 6),
            (lambda: KUHN.table({label: [1, 0] for label in KUHN.labels}, 300), 6),
        ]:
            with self.assertRaises(Refused) as refused:
                made()
            self.assertEqual(refused.exception.number, refusal)

    def test_the_comparison_is_that_of_the_quotients(self):
        told = [KUHN.evaluate(drawn(KUHN, d, d)) for d in (1, 2, 3, 12)] + [LEDUC.evaluate(drawn(LEDUC, 3, 1))]
        for one in told:
            for other in told:
                expected = (one.nash_conv > other.nash_conv) - (one.nash_conv < other.nash_conv)
                self.assertEqual(chukkanalli.compare(one, other), expected)


class Explanation(unittest.TestCase):
    def test_what_the_sets_add_makes_up_the_gain(self):
        for game, count in [(KUHN, 40), (Game("kuhn", 3), 10), (LEDUC, 1)]:
            for seed in range(count):
                table = drawn(game, 3, seed)
                gains = game.evaluate(table).gains
                for seat in range(game.seats):
                    switches = game.explain(table, seat)
                    self.assertEqual(sum(switch.adds for switch in switches), gains[seat])
                    self.assertTrue(all(switch.adds > 0 for switch in switches))

    def test_the_program_says_the_same(self):
        if not os.path.exists(PROGRAM):
            self.skipTest("the program is not built")
        for game, name in [(KUHN, "python-kuhn.txt"), (LEDUC, "python-leduc.txt")]:
            table = drawn(game, 12, 7)
            path = written(game, table, name)
            record = json.loads(ran("explain", game.name, str(game.seats), "12", path, "--all", "--format", "json"))
            for seat in range(game.seats):
                own = [told for told in record["explained"] if told["seat"] == seat and int(told["adds"]) > 0]
                expected = {told["set"]: (told["action"], Fraction(told["adds_fraction"]), told["words"]) for told in own}
                switches = game.explain(table, seat)
                self.assertEqual({told.set.label: (told.action, told.adds, told.words) for told in switches}, expected)


class Tables(unittest.TestCase):
    """Case l by OpenSpiel's strings of Kuhn poker, and strings of Leduc poker, both written out by hand."""

    POLICY = {
        "0": [1, 0], "0pb": [1, 0], "1": [1, 0], "1pb": [2 / 3, 1 / 3], "2": [1, 0], "2pb": [0, 1],
        "0p": [2 / 3, 1 / 3], "0b": [1, 0], "1p": [1, 0], "1b": [2 / 3, 1 / 3], "2p": [0, 1], "2b": [0, 1],
    }  # fmt: skip

    def test_open_spiels_strings_of_kuhn(self):
        table = KUHN.table(self.POLICY, 3)
        self.assertEqual(table.parts, bytes(map(int, "303030210303302121303003")))
        self.assertEqual(KUHN.nash_conv(table), 0)
        three = Game("kuhn", 3)
        self.assertEqual(three.spiel_key("3pbp"), bytes([0, 3, 0, 1, 0]))
        self.assertEqual(three.by_key[three.spiel_key("1pp")].label, "PASS BET: seat 2, card 1, after PASS PASS")
        self.assertIsNone(three.spiel_key("3x"))

    def test_open_spiels_strings_of_leduc(self):
        for text, label in [
            ("[Observer: 0][Private: 2][Round 1][Player: 0][Pot: 2][Money: 99 99][Round1: ][Round2: ]",
             "CALL RAISE: seat 0, card 2 (rank 1), no public card, first action of the hand"),
            ("[Observer: 1][Private: 4][Round 1][Player: 1][Pot: 4][Money: 97 99][Round1: 2][Round2: ]",
             "FOLD CALL RAISE: seat 1, card 4 (rank 2), no public card, after RAISE"),
            ("[Observer: 0][Private: 0][Round 2][Player: 0][Pot: 2][Money: 99 99][Public: 3][Round1: 1 1][Round2: ]",
             "CALL RAISE: seat 0, card 0 (rank 0), public card 3 (rank 1), after CALL CALL, first action of round 2"),
            ("[Observer: 0][Private: 5][Round 2][Player: 0][Pot: 14][Money: 97 89][Public: 4][Round1: 2 1][Round2: 1 2]",
             "FOLD CALL RAISE: seat 0, card 5 (rank 2), public card 4 (rank 2), after RAISE CALL, in round 2 after CALL RAISE"),
        ]:  # fmt: skip
            self.assertEqual(LEDUC.by_key[LEDUC.spiel_key(text)].label, label)
        self.assertIsNone(LEDUC.spiel_key("0pb"))

    def test_a_dict_is_taken_by_labels_keys_and_actions(self):
        expected = KUHN.table(self.POLICY, 3).parts
        sets = [KUHN.by_key[KUHN.spiel_key(text)] for text in self.POLICY]
        values = list(self.POLICY.values())
        self.assertEqual(KUHN.table({own.label.upper(): value for own, value in zip(sets, values)}, 3).parts, expected)
        self.assertEqual(KUHN.table({own.key: {"PASS": value[0], "bet": value[1]} for own, value in zip(sets, values)}, 3).parts, expected)
        self.assertEqual(KUHN.table({tuple(own.key): [(1, value[1]), (0, value[0])] for own, value in zip(sets, values)}, 3).parts, expected)
        whole = {own.label: [1 / 3 if action in own.legal else 0 for action in range(3)] for own in LEDUC.sets}
        halves = {label: value if 0 not in value else [2 * number * 3 / 4 for number in value] for label, value in whole.items()}
        self.assertEqual(LEDUC.table(halves, 6).parts, LEDUC.table([6 // len(own.legal) for own in LEDUC.sets for _ in own.legal], 6).parts)

    def test_rounding_is_told(self):
        policy = dict(self.POLICY, **{"0": [0.7, 0.3]})
        table = KUHN.table(policy, 3)
        self.assertEqual([(own.label, own.parts) for own in table.rounded], [("PASS BET: seat 0, card 0, first action of the hand", (2, 1))])
        self.assertAlmostEqual(table.rounded[0].most, 0.7 - 2 / 3)
        self.assertEqual(table.profile_nash_conv, KUHN.f64(policy).nash_conv)
        self.assertEqual(KUHN.table(policy, 10).parts[:2], bytes([7, 3]))
        for d in (1, 2, 7, 64):
            draw = random.Random(d)
            policy = {}
            for own in LEDUC.sets:
                weights = [draw.random() for _ in own.legal]
                policy[own.label] = [weight / sum(weights) for weight in weights]
            table = LEDUC.table(policy, d)
            self.assertTrue(all(own.most < 1 / d for own in table.rounded))
            self.assertGreater(LEDUC.nash_conv(table), 0)

    def test_odd_dicts_are_told(self):
        label = KUHN.labels[0]
        good = {label: [1, 0] for label in KUHN.labels}
        for given, error in [
            ({**good, "nowhere": [1, 0]}, KeyError),
            ({**good, "0": [1, 0]}, ValueError),
            ({**good, label: [0.5, 0.4]}, ValueError),
            ({**good, label: [1.5, -0.5]}, ValueError),
            ({**good, label: [float("nan"), 1]}, ValueError),
            ({**good, label: [1, 0, 0]}, ValueError),
            ({**good, label: {"FOLD": 1}}, ValueError),
            ({label: [1, 0]}, ValueError),
        ]:
            with self.assertRaises(error):
                KUHN.table(given, 3)

    def test_numpy_arrays_are_taken_and_given(self):
        try:
            import numpy
        except ImportError:
            self.skipTest("there is no numpy")
        table = KUHN.table(numpy.array([1, 0] * 12), 1)
        self.assertEqual(KUHN.nash_conv(table), 2)
        self.assertEqual(table.array().tolist(), [1, 0] * 12)
        self.assertEqual(KUHN.f64(numpy.full(24, 0.5)).nash_conv, 0.9166666666666666)


class Documents(unittest.TestCase):
    def test_the_readmes_lines_print_what_they_say(self):
        (block,) = re.findall(r"```python\n(.*?)```", document("README.md"), re.S)
        shown = subprocess.run([sys.executable, "-c", block], cwd=ROOT, stdout=subprocess.PIPE, check=True, universal_newlines=True).stdout
        self.assertEqual(shown.splitlines(), re.findall(r"# prints (.*)", block))


if __name__ == "__main__":
    unittest.main()
