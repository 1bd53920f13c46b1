"""Retargets the LLVM module of the library from x86-64 to wasm64, and stops at whatever it has not seen before.

    retarget.py MODULE.ll [--no-simd] > WASM.ll

Both data layouts give the types of the module the same sizes and alignments (pointers of 64 bits, i64 at 8, i128 at
16), so each offset that the module has as a number stays right. They differ in native integers, which is a hint, in
f80 and in address spaces, which the module does not use. What is replaced:

* the triple and the data layout;
* the processor in the attributes of functions by the features of WebAssembly, and the probes of the stack, which
  lies at address 0 up in WebAssembly, so that one that is too deep traps;
* pshufb by i8x16.swizzle of indices cut to the bits that pshufb reads: the two differ at indices 16 to 127. (None
  comes: the logic of the kit lets `swizzle_dyn` run only if each index is below 16 or at least 128, and the crates
  are proved.) Without SIMD, by code that does the same.

All else in a module has one meaning for every target. To be sure that there is nothing else, each word of the
module, declaration and group of attributes has to be one of those below.
"""
import re
import sys

X86 = (
    'target datalayout = "e-m:e-p270:32:32-p271:32:32-p272:64:64-i64:64-i128:128-f80:128-n8:16:32:64-S128"',
    'target triple = "x86_64-unknown-linux-gnu"',
)
WASM = (
    'target datalayout = "e-m:e-p:64:64-p10:8:8-p20:8:8-i64:64-i128:128-n32:64-S128-ni:1:10:20"',
    'target triple = "wasm64-unknown-unknown"',
)
PROCESSOR = ' "probe-stack"="inline-asm" "stack-probe-size"="3072" "target-cpu"="x86-64-v2"'
FEATURES = "+bulk-memory,+sign-ext,+mutable-globals,+nontrapping-fptoint"

# Whatever a module may hold: its words but for names, numbers, texts and metadata. Limits are passed by byval, and a
# report is written where the first argument points: packaging/wasm/calls.c declares the calls accordingly.
WORDS = set(
    """
    private internal constant unnamed_addr zeroinitializer define align noundef zeroext byval
    alloca load store getelementptr inbounds call ret br switch label unreachable select icmp
    add sub mul udiv urem and or xor shl lshr trunc zext sext bitcast ptrtoaddr to
    extractvalue extractelement insertelement shufflevector splat true false null
    eq ne slt sle sge ult ule uge nuw void ptr i1 i8 i16 i32 i64 i128 x
""".split()
)
MARKS = {"!noundef", "!range", "!llvm.ident"}
DECLARED = """
    { i64, i64 } @rattle_alloc(i64 noundef, i64 noundef)
    { i64, i64 } @rattle_realloc(ptr noundef, i64 noundef, i64 noundef, i64 noundef)
    void @rattle_dealloc(ptr noundef)
    void @llvm.memset.p0.i64(ptr writeonly captures(none), i8, i64, i1 immarg)
    void @llvm.memmove.p0.p0.i64(ptr writeonly captures(none), ptr readonly captures(none), i64, i1 immarg)
    void @llvm.trap()
    i64 @llvm.ctpop.i64(i64)
    i64 @llvm.cttz.i64(i64, i1 immarg)
    i64 @llvm.ctlz.i64(i64, i1 immarg)
    i1 @llvm.vector.reduce.or.v16i1(<16 x i1>)
    i1 @llvm.vector.reduce.or.v8i1(<8 x i1>)
    i1 @llvm.vector.reduce.or.v4i1(<4 x i1>)
    i32 @llvm.vector.reduce.add.v4i32(<4 x i32>)
    <16 x i8> @llvm.x86.ssse3.pshuf.b.128(<16 x i8>, <16 x i8>)
"""
ATTRIBUTES = """
    nounwind inlinehint alwaysinline noinline cold nobuiltin noreturn nocallback nofree nosync speculatable
    willreturn nocreateundeforpoison memory(none) memory(argmem: write) memory(argmem: readwrite)
    memory(inaccessiblemem: write)
"""
SHUFFLE = "@llvm.x86.ssse3.pshuf.b.128("
# What pshufb does, a byte at a time.
SHUFFLE_BYTES = (
    """define internal <16 x i8> @shuffle_bytes(<16 x i8> %bytes, <16 x i8> %places) alwaysinline nounwind {
  %from = alloca <16 x i8>, align 16
  %to = alloca <16 x i8>, align 16
  store <16 x i8> %bytes, ptr %from, align 16
  %masked = and <16 x i8> %places, splat (i8 15)
  %zero = icmp slt <16 x i8> %places, zeroinitializer
"""
    + "".join(
        f"""  %place.{i} = extractelement <16 x i8> %masked, i32 {i}
  %wide.{i} = zext i8 %place.{i} to i64
  %at.{i} = getelementptr i8, ptr %from, i64 %wide.{i}
  %byte.{i} = load i8, ptr %at.{i}, align 1
  %put.{i} = getelementptr i8, ptr %to, i64 {i}
  store i8 %byte.{i}, ptr %put.{i}, align 1
"""
        for i in range(16)
    )
    + """  %all = load <16 x i8>, ptr %to, align 16
  %result = select <16 x i1> %zero, <16 x i8> zeroinitializer, <16 x i8> %all
  ret <16 x i8> %result
}"""
)

TEXT = re.compile(r'c?"(?:[^"\\]|\\.)*"')
NAME = re.compile(r"[@%][\w.$-]*|#\d+")
ATTRIBUTE = re.compile(r"\w+\([^)]*\)|\w+")
CALL = re.compile(
    r"^  (%\S+) = call <16 x i8> @llvm\.x86\.ssse3\.pshuf\.b\.128\(<16 x i8> (%\S+), <16 x i8> (%\S+)\)$", re.M
)
# The top bit and the lowest four are what pshufb reads of an index.
MASKED = r"""  \1.places = and <16 x i8> \3, splat (i8 -113)
  \1 = call <16 x i8> @llvm.wasm.swizzle(<16 x i8> \2, <16 x i8> \1.places)"""


def fail(why):
    sys.exit(f"retarget.py: {why}")


def strange_in(line):
    """What a line has that was not seen before; nothing, if all is known."""
    if line.startswith("declare "):
        known = {it.strip() for it in DECLARED.strip().splitlines()}
        return [] if re.sub(r" #\d+$", "", line[8:]) in known else [line]
    if line.startswith("attributes #"):
        known = set(ATTRIBUTE.findall(ATTRIBUTES))
        words = line[line.index("{") + 1 : line.rindex("}")].replace(PROCESSOR, "")
        return [word for word in re.findall(r"\w+\([^)]*\)|[^\s]+", words) if word not in known]
    if line.startswith(("source_filename = ", "target ", "!")):
        return [] if line in X86 or re.match(r'source_filename = "rattle|!(\d+|llvm\.ident) = ', line) else [line]
    bare = NAME.sub("", TEXT.sub("", line).split(";")[0])
    bare = re.sub(r"^[\w.$-]+:", "", bare)
    marks = set(re.findall(r"![a-zA-Z_][\w.]*", bare)) - MARKS
    words = set(re.findall(r"[a-zA-Z_][\w.]*", re.sub(r"![\w.]*", "", bare))) - WORDS
    return sorted(marks | words)


def check(text):
    for number, line in enumerate(text.splitlines(), 1):
        strange = strange_in(line)
        if strange:
            fail(f"line {number} has what was not seen before, {', '.join(strange)}: {line[:200]}")


def replaced(text, old, new, count=None):
    found = text.count(old)
    if found == 0 or count is not None and found != count:
        fail(f"{found} of {old!r}")
    return text.replace(old, new)


def retargeted(text, simd=True):
    check(text)
    for old, new in zip(X86, WASM):
        text = replaced(text, old, new, 1)
    features = ("+simd128," if simd else "") + FEATURES
    text = replaced(text, PROCESSOR, f' "target-features"="{features}"')
    if simd:
        text = CALL.sub(MASKED, text)
        text = replaced(text, SHUFFLE, "@llvm.wasm.swizzle(", 1)  # the declaration
    else:
        text = replaced(text, SHUFFLE, "@shuffle_bytes(")
        text = re.sub(r"^declare <16 x i8> @shuffle_bytes.*$", SHUFFLE_BYTES, text, flags=re.M)
    if "x86" in text:
        fail("something of x86 is left")
    return text


if __name__ == "__main__":
    with open(sys.argv[1], encoding="utf-8") as module:
        sys.stdout.write(retargeted(module.read(), "--no-simd" not in sys.argv))
