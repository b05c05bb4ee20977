"""What packaging/retarget.py makes of small modules of LLVM: the same but for target, probe and names."""

import subprocess
import unittest

from runner import TOP

SECONDS = 60  # in which each run is to end
HEAD = 'target datalayout = "e-m:e-i64:64"\ntarget triple = "x86_64-unknown-linux-gnu"\n'
OF_WINDOWS = (
    'target datalayout = "e-m:w-p270:32:32-p271:32:32-p272:64:64-i64:64-i128:128-f80:128-n8:16:32:64-S128"\n'
    'target triple = "x86_64-w64-windows-gnu"\n'
)
PROBE = 'attributes #1 = { nounwind "probe-stack"="inline-asm" "stack-probe-size"="4096" "target-cpu"="x86-64" }\n'
STAYING = ("call void @readlines()", "call void @open.1()", "call void @close_all()", "call ptr @rattle_alloc(i64 1)")
# Each row has a line, and what becomes of it.
ROWS = (
    ("  %1 = call i64 @write(i32 1, ptr %0, i64 2)\n", "  %1 = call i64 @rnxcmp_write(i32 1, ptr %0, i64 2)\n"),
    ("  %1 = call i64 @read(i32 0, ptr %0, i64 2)\n", "  %1 = call i64 @rnxcmp_read(i32 0, ptr %0, i64 2)\n"),
    ("  %1 = call i32 (ptr, i32, ...) @open(ptr %0)\n", "  %1 = call i32 (ptr, i32, ...) @rnxcmp_open(ptr %0)\n"),
    ("define i32 @main() {\n", "define i32 @rnxcmp_main() {\n"),
    ("  %1 = call i64 @__sysv_signal(i32 13, i64 1)\n", "  %1 = call i64 @rnxcmp_sysv_signal(i32 13, i64 1)\n"),
    *((f"  {line}\n", f"  {line}\n") for line in STAYING),
    ('@1 = private constant [9 x i8] c"main open"\n', '@1 = private constant [9 x i8] c"main open"\n'),
    (PROBE, 'attributes #1 = { nounwind "target-cpu"="x86-64" }\n'),
)  # fmt: skip
REFUSED = ("", HEAD.split("\n")[0] + "\n", HEAD + HEAD)  # texts without one target


class Retargeting(unittest.TestCase):
    def retargeted(self, text):
        return subprocess.run([TOP / "packaging/retarget.py"], input=text, capture_output=True, text=True, timeout=SECONDS)

    def test_each_line(self):
        given, wanted = ("".join(texts) for texts in zip((HEAD, OF_WINDOWS), *ROWS))
        self.assertEqual(self.retargeted(given).stdout.splitlines(), wanted.splitlines())

    def test_texts_without_one_target(self):
        for text in REFUSED:
            self.assertEqual(self.retargeted(text).returncode, 1)
