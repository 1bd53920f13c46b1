#!/usr/bin/env python3
"""What the steps that make the module of WebAssembly do alone. They refuse whatever was not seen before in a module of
LLVM, and calls that come back to themselves but through members of collections, that go by a pointer, or that take more
stack than there is. What stands for pshufb does the same at each index, with SIMD and without.

    packaging/wasm/steps_test.py
"""
import os
import subprocess
import sys
import tempfile

sys.dont_write_bytecode = True
import lower
import retarget

HERE = os.path.dirname(os.path.abspath(__file__))
CLANG = os.path.join(os.path.dirname(subprocess.check_output(["rt", "doc"], text=True).strip()), "toolchain/bin/clang")

KNOWN = """source_filename = "rattle"
@table = private unnamed_addr constant [2 x i8] c"a\\22", align 1
define internal noundef zeroext i1 @"a::float<b>"(ptr noundef %a0, i64 %volatile) #0 {
entry:
  %r1 = load i8, ptr %a0, align 1, !noundef !1
  %r2 = getelementptr inbounds nuw i8, ptr %a0, i64 3
  br label %entry
!1 = !{}
attributes #0 = { nounwind cold memory(none) }
declare void @llvm.trap() #5""".splitlines()
STRANGE = [
    "  %r1 = load volatile i8, ptr %a0, align 1",
    "  %r1 = load atomic i8, ptr %a0 seq_cst, align 1",
    "  %r1 = fadd double %a, %b",
    "  %r1 = inttoptr i64 %a to ptr",
    "  %r1 = getelementptr inbounds nusw i8, ptr %a0, i64 3",
    "  %r1 = load i8, ptr addrspace(1) %a0, align 1",
    '  call void asm sideeffect "", ""()',
    "  fence seq_cst",
    "  %r1 = load i8, ptr %a0, align 1, !tbaa !1",
    "define fastcc void @f() {",
    "@shared = global i8 0",
    "@each = thread_local constant i8 0",
    "declare i32 @llvm.x86.sse2.pmovmskb.128(<16 x i8>) #6",
    "declare ptr @malloc(i64) #6",
    "attributes #0 = { nounwind sanitize_address }",
    'attributes #0 = { nounwind "target-cpu"="x86-64-v3" }',
    'target triple = "x86_64-unknown-linux-musl"',
    'module asm "nop"',
    "!llvm.linker.options = !{}",
]
CIRCLE = """define void @"{0}"(i64 %n) {{
  call void @"{1}"(i64 %n)
  ret void
}}
define void @"{1}"(i64 %n) {{
  %r1 = call i64 @"{2}"(i64 %n)
  ret void
}}
define i64 @"{2}"(i64 %n) {{
  ret i64 %n
}}"""
OF_MEMBERS = "twkb_geojson::geometry_text::put_geometry"
CALLED = [  # the names of three functions, and whether they may call themselves as they do
    ("f", "g", "h", True),
    ("f", "g", "f", False),
    ("f", "g", "g", False),
    (OF_MEMBERS, "g", OF_MEMBERS, True),
    ("f", OF_MEMBERS, "f", True),
]
HEAD = "typedef unsigned long u; u f(u n); u g(u n); "
FAR = "__attribute__((noinline)) u g(u n) { volatile char b[4000]; b[n] = 0; return f(n / 2) + b[n]; } "
CODE = {
    "a function that calls itself, with a large frame": "u f(u n) { volatile char b[4000]; b[n] = 0; return n ? f(n / 2) + b[0] : 1; }",
    "two that call one another, with large frames": FAR + "u f(u n) { return n ? g(n) + 1 : 1; }",
    "a frame that is too large": "u f(u n) { volatile char b[200000]; b[n] = 1; return b[n / 2]; }",
    "a call by a pointer": "extern u (*p)(u); u (*p)(u); u f(u n) { return p(n) + 1; }",
    "a frame whose size is computed": "u f(u n) { volatile char b[n]; b[0] = 1; return b[n / 2]; }",
}
# Shuffles the bytes at a place by those after them, to the next ones.
SHUFFLE = """{}
define void @f(ptr %at) #0 {{
  %after = getelementptr i8, ptr %at, i64 16
  %next = getelementptr i8, ptr %at, i64 32
  %bytes = load <16 x i8>, ptr %at, align 16
  %places = load <16 x i8>, ptr %after, align 16
  %to = call <16 x i8> @llvm.x86.ssse3.pshuf.b.128(<16 x i8> %bytes, <16 x i8> %places)
  store <16 x i8> %to, ptr %next, align 16
  ret void
}}
declare <16 x i8> @llvm.x86.ssse3.pshuf.b.128(<16 x i8>, <16 x i8>)
attributes #0 = {{ nounwind{} }}
"""
RUN = """
const { instance: { exports } } = await WebAssembly.instantiate(require('node:fs').readFileSync(process.argv[1]));
const memory = new Uint8Array(exports.memory.buffer);
for (let index = 0; index < 256; index++) {
    for (let place = 0; place < 16; place++) memory[1024 + place] = 100 + place;
    memory.fill(index, 1040, 1056);
    exports.f(1024n);
    const expected = index & 128 ? 0 : 100 + (index & 15);
    if (memory.subarray(1056, 1072).some(byte => byte !== expected)) throw new Error(`index ${index}`);
}
"""
GOOD = "u f(u n) { volatile char b[3000]; b[n] = 1; return b[n / 2]; }"


def linked(folder, source, *words):
    """The module of a file of C or of LLVM."""
    made, linker = os.path.join(folder, "it.wasm"), os.path.join(folder, "wasm-ld")
    if not os.path.exists(linker):
        os.symlink(CLANG, linker)
    words = ["--target=wasm64-unknown-unknown", "-O2", *words, "-c", source, "-o", made + ".o"]
    subprocess.run([CLANG, *words], check=True)
    words = ["-mwasm64", "--no-entry", "--stack-first", "--export=f", made + ".o", "-o", made]
    subprocess.run([linker, *words], check=True)
    return made


def written(folder, name, text):
    path = os.path.join(folder, name)
    with open(path, "w", encoding="utf-8") as file:
        file.write(text)
    return path


def accepted(code, folder):
    """Whether the bound of the stack of a module is accepted."""
    made = linked(folder, written(folder, "it.c", HEAD + code), "-ffreestanding")
    words = [sys.executable, os.path.join(HERE, "stack.py"), made, "131072"]
    return subprocess.run(words, capture_output=True, check=False).returncode == 0


def circles_accepted(names, folder):
    """Whether a module with these functions, of which the first calls the second and that the third, is accepted."""
    text = CIRCLE.format(*names)
    made = written(folder, "it.ll", text[: text.rindex("define")] if names[2] in names[:2] else text)
    words = [sys.executable, os.path.join(HERE, "circles.py"), made]
    return subprocess.run(words, capture_output=True, check=False).returncode == 0


def shuffles(simd, folder):
    """Whether a shuffle that is retargeted does what pshufb does."""
    text = retarget.retargeted(SHUFFLE.format("\n".join(retarget.X86), retarget.PROCESSOR), simd)
    made = linked(folder, written(folder, "it.ll", text))
    with open(made, "rb") as file:
        module = lower.lowered(file.read())
    with open(made, "wb") as file:
        file.write(module)
    run = f"(async () => {{{RUN}}})().catch(fault => {{ console.error(fault.message); process.exit(1); }})"
    return subprocess.run(["node", "-e", run, made], check=False).returncode == 0


def main():
    wrong = [f"refused: {line}" for line in KNOWN if retarget.strange_in(line)]
    wrong += [f"accepted: {line}" for line in STRANGE if not retarget.strange_in(line)]
    with tempfile.TemporaryDirectory() as folder:
        wrong += [] if accepted(GOOD, folder) else ["refused: a small frame"]
        wrong += [f"accepted: {name}" for name, code in CODE.items() if accepted(code, folder)]
        wrong += [f"circles of {names}" for *names, may in CALLED if circles_accepted(names, folder) != may]
        wrong += [f"another shuffle, SIMD {simd}" for simd in (True, False) if not shuffles(simd, folder)]
    for line in wrong:
        print(line)
    print(f"{len(STRANGE)} lines and {len(CODE)} modules are refused" if not wrong else f"{len(wrong)} are wrong")
    return 1 if wrong else 0


if __name__ == "__main__":
    sys.exit(main())
