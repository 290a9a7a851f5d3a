"""First look: `./vault --unproved` in a copy of the sources, which takes minutes, as it builds the program.

The first start builds the program, each start says `unproved` on standard error, and commands work on files as those of
the proved program do. The next starts build nothing, until a source is newer than the build: then it is built anew, and
nothing is started where that fails.
"""

import os
import shutil
import time

from trials.parts.program import OPENED_AT, TOP, Case, Ran, check, ran_words

TAKES_LONG = True
SAYS = "vault: unproved\n"
# How long a start that builds nothing may take, in seconds: less than any build.
LIMIT = 120


class FirstLook(Case):
    def setUp(self) -> None:
        """A copy of what the program is built of."""
        super().setUp()
        self.sources = self.folder / "sources"
        skipped = shutil.ignore_patterns("out", "must-fail", "__pycache__")
        for name in ("crates", "tools"):
            shutil.copytree(TOP / name, self.sources / name, ignore=skipped)
        for name in ("vault", "crates.txt", "HANDLES"):
            shutil.copy2(TOP / name, self.sources / name)

    def start(self, *words: str, given: str = "", path: str = "") -> Ran:
        """A start, with a folder before those where programs are looked for."""
        env = {**os.environ, "PATH": f"{path}:{os.environ['PATH']}" if path else os.environ["PATH"]}
        start = [self.sources / "vault", "--unproved", *words]
        return ran_words(*start, given=given, cwd=self.folder, env=env, timeout=None)

    def answers(self, wanted: str, *words: str, given: str = "") -> None:
        """A start that builds nothing, ends well and prints just what is wanted."""
        begun = time.monotonic()
        self.assertEqual(self.start(*words, given=given), Ran(0, wanted, SAYS), words)
        self.assertLess(time.monotonic() - begun, LIMIT, words)

    def test_starts(self) -> None:
        """The first start builds, and the next ones don't."""
        ran = self.start("init", "x.vault")
        self.assertEqual((ran.status, ran.out), (0, ""), ran)
        check("building" in ran.err and ran.err.endswith(SAYS), f"the first start says {ran.err!r}")
        check((self.folder / "x.vault").stat().st_size > 0, "no vault was made")
        self.look_at_files()
        self.look_at_newer_source()

    def look_at_files(self) -> None:
        """A vault on the disk is worked on by later starts."""
        asked = ("--as", "registrar", "--at", OPENED_AT)
        self.answers('{"ok":{}}\n', "dept", "x.vault", "records", *asked)
        self.answers('{"ok":{}}\n', "caller", "x.vault", "ann", "put", "get", "--dept", "records", *asked)
        self.answers('{"ok":{}}\n', "bucket", "x.vault", "docs", "records", *asked)
        put = f'{{"at":"{OPENED_AT}","as":"ann","do":"put","bucket":"docs","key":"a","text":"hello"}}\n'
        self.answers('{"ok":{"version_id":1}}\n', "replay", "x.vault", given=put)
        self.answers("sound\n", "verify", "x.vault")
        ran = self.start("dept", "x.vault", "records", *asked)
        check(ran.status == 1 and '"NameTaken"' in ran.out, f"a refusal: {ran}")
        ran = self.start()
        check(ran.status == 2 and ran.err.startswith(SAYS), f"no words at all: {ran}")

    def look_at_newer_source(self) -> None:
        """Where a source is newer, `rt` is asked for a build; where it gives none, nothing is started."""
        no_tool = self.folder / "no-tool"
        no_tool.mkdir()
        (no_tool / "rt").write_text("#!/bin/sh\necho no build today\nexit 1\n")
        (no_tool / "rt").chmod(0o755)
        ran = self.start("verify", "x.vault", path=str(no_tool))
        self.assertEqual(ran[:2], (0, "sound\n"), f"`rt` is asked though nothing changed: {ran}")
        os.utime(self.sources / "crates" / "vault_base" / "src" / "lib.rt")
        ran = self.start("verify", "x.vault", path=str(no_tool))
        self.assertEqual(ran[:2], (1, ""), f"a newer source: {ran}")
        check("no build today" in ran.err and SAYS not in ran.err, f"a newer source: {ran}")
