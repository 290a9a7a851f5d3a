"""Tools: those that take long and say by their status what they found."""

from trials.parts.program import PROGRAM, TOP, Case, a_test_each, ran_words

TAKES_LONG = True
GROWTHS = "tools/faults/refuse-growths"
TOOLS = {
    "kill_while_serving": ["tools/faults/kill-while-serving", "--program", str(PROGRAM), "--rounds", "100"],
    "growths_of_requests": [GROWTHS, "vault_tests_http", "growths::a_refused_growth_is_no_other_answer"],
    "wrong_answers": ["tools/mutate/wrong-bodies"],
    "turned_lines": ["tools/mutate/wrong-bodies", "--lines", "--seconds", "60"],
    "edits": ["tools/mutate/try-edits"],
}


@a_test_each(TOOLS)
class Tools(Case):
    # One after another: each takes all processors.
    is_alone = True

    def look_at(self, name: str) -> None:
        tool, *words = TOOLS[name]
        ran = ran_words(TOP / tool, *words, cwd=TOP, timeout=None)
        print(f"{name}:\n{ran.out}")
        self.assertEqual(ran.status, 0, ran.err)
