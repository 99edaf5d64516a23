#!/usr/bin/env python3
"""Writes the long code of st_aes: specs/SBox.antt, and for vectors of 16 and of 32 bytes the modules planes and pass
(wide_planes and wide_pass) with what their proofs cite. Call it from anywhere: crates/st_aes/gen/planes.py. Then rt fmt
changes nothing. With --look it writes nothing and compares with what is there."""
import os
import sys

from circuit import (COMPLEMENTS, FACTORS, PRODUCTS, QUARTER, QUARTER_INVERSE, S, SUMS, FOUR, NINE, X, Y, Z, gates)
from passes import passes

CRATE = os.path.dirname(os.path.dirname(os.path.abspath(__file__)))
FILES = {}  # what is written, by path

# ShiftRows, and the bytes one and two rows below, within a state
SHIFTED = [0, 5, 10, 15, 4, 9, 14, 3, 8, 13, 2, 7, 12, 1, 6, 11]
ONE_DOWN = [1, 2, 3, 0, 5, 6, 7, 4, 9, 10, 11, 8, 13, 14, 15, 12]
TWO_DOWN = [2, 3, 0, 1, 6, 7, 4, 5, 10, 11, 8, 9, 14, 15, 12, 13]

# The transposition exchanges bits whose places differ by 1, 2 and 4; the masks of the lower ones.
MASKS = {1: 0x55, 2: 0x33, 4: 0x0F}

LAYERS = [
    ("factors", FACTORS, "22 sums of the bits of a byte: 18 factors, and the four that are added to sums of products"),
    ("quarter", QUARTER, "the four bits whose inverse is computed"),
    ("quarter_inverse", QUARTER_INVERSE, "that inverse, and the sums of its bits"),
    ("products", PRODUCTS, "the 18 products"),
    ("sums", SUMS, "the bits of the substitute"),
]


def write(path, text):
    FILES[path] = text


def packed(words, indent):
    """The words with commas between, as many to a line as 100 columns take, as rt fmt lays out short elements."""
    lines, line = [], indent
    for n, word in enumerate(words):
        piece = word + ("," if line == indent else ",")
        grown = line + ("" if line == indent else " ") + piece
        if len(grown) > 100:
            lines.append(line)
            grown = indent + piece
        line = grown
    lines.append(line)
    return "\n".join(lines)


def pattern(names, value):
    """`let [names] = value;` as rt fmt lays it out."""
    one = f"    let [{', '.join(names)}] = {value};"
    if len(one) <= 100 and len(", ".join(names)) <= 60:
        return one
    return "    let [\n" + "".join(f"        {name},\n" for name in names) + f"    ] = {value};"


def array(names):
    """The array of these at the end of a function."""
    one = f"    [{', '.join(names)}]"
    if len(", ".join(names)) <= 60:
        return one
    return "    [\n" + packed(names, "        ") + "\n    ]"


def calls(names):
    """An array of calls, one to a line."""
    return "    [\n" + "".join(f"        {name},\n" for name in names) + "    ]"


def code(layer):
    """Gates as Rattle."""
    return "\n".join(f"    let {out} = {'xor' if op == '^' else 'and'}({a}, {b});" for out, a, op, b in gates(layer))


def equations(layer):
    """The clauses of a layer's gates, the last gate first."""
    return [f"c.{'xor' if op == '^' else 'and'}-{out}.ensures l j lt" for out, a, op, b in gates(layer)][::-1]


# ---- specs/SBox.antt

def definition(layer):
    """Gates as a definition's equations."""
    return "\n".join(f"    let {out} = {'bit_xor' if op == '^' else 'bit_and'} {a} {b} in" for out, a, op, b in gates(layer))


def inputs(names, value):
    return "\n".join(f"    let {name} = slice_index {value} {n} in" for n, name in enumerate(names))


def listed(names):
    return "    " + " ∷ ".join(names) + " ∷ []"


def s_box():
    results = [f"bit_xor {s} 1" if s in COMPLEMENTS else s for s in S]
    parts = {
        "factors": ("factors q", "List ℕ → List ℕ", [(X, "q")], Y),
        "quarter": ("quarter y", "List ℕ → List ℕ", [(Y, "y")], FOUR),
        "quarter_inverse": ("quarter_inverse t", "List ℕ → List ℕ", [(FOUR, "t")], NINE),
        "products": ("products y t", "List ℕ → List ℕ → List ℕ", [(Y[:18], "y"), (NINE, "t")], Z),
        "sums": ("sums z", "List ℕ → List ℕ", [(Z, "z")], results),
    }
    text = """-- The S-box as gates: J. Boyar and R. Peralta, "A new combinational logic minimization technique with applications to
-- cryptology", SEA 2010 (IACR ePrint 2009/191). Its names of the signals; lists begin with the lowest bit of a byte, x7.
-- Written by gen/planes.py.
use Rattle.std.specs.Prelude.{ℕ, bit_xor, bit_and, List, [], ◌∷◌, slice_index}
"""
    for name, layer, words in LAYERS:
        head, kind, ins, outs = parts[name]
        text += f"\n-- {words}\nunfoldable pub {name} : {kind}\n{head} =\n"
        text += "".join(inputs(names, value) + "\n" for names, value in ins) + definition(layer) + "\n" + listed(outs) + "\n"
    text += """
-- the bits of a byte's substitute, from its bits
unfoldable pub sub_bits : List ℕ → List ℕ
sub_bits q =
    let y = factors q in
    sums (products y (quarter_inverse (quarter y)))
"""
    write("specs/SBox.antt", text)


# ---- the steps on planes

class Width:
    """Vectors of `lanes` bytes: two states for each 32, one for each 16."""

    def __init__(self, lanes, prefix, states):
        self.lanes, self.prefix, self.states = lanes, prefix, states
        self.halves = lanes // 16
        wide = self.halves == 2
        # how a clause and its answer name the half
        self.each = "(g j : ℕ) → g < 2 → j < 8" if wide else "(j : ℕ) → j < 8"
        self.args = "g j two few" if wide else "j few"
        self.g = "g" if wide else "0"

    def fill(self, text):
        words = dict(N=self.lanes, V=f"u8x{self.lanes}", EACH=self.each, ARGS=self.args, G=self.g, PREFIX=self.prefix,
                     STATES=self.states, STATES_BIG=self.states.capitalize(), BLOCKS=self.lanes // 2, BYTES=8 * self.lanes)
        for word, value in words.items():
            text = text.replace(f"@{word}@", str(value))
        return text

    def places(self, moves):
        numbers = [str(16 * half + place) for half in range(self.halves) for place in moves]
        one = f"    a.swizzle([{', '.join(numbers)}])"
        if len(", ".join(numbers)) <= 60:
            return one
        return "    a.swizzle([\n" + packed(numbers, "        ") + "\n    ])"

    def put(self, function, text, module="planes"):
        write(f"proofs/{self.prefix}{module}/{function}/Answers.antt", self.fill(text))

    def goal(self, function, module="planes"):
        return f"use Rattle.st_aes.proofs.{self.prefix}{module}.{function}.Goals as goal\n\npub returns : goal.returns\n"


HEAD = """//! @STATES_BIG@ states as eight planes of bits, and the steps of the cipher on all of them at once. Written by
//! gen/planes.py.
//!
//! No step reads memory at a place, or takes a branch, that depends on a bit of a plane.

ghost use Rattle.std.specs.Prelude.{◌≡◌, ℕ, ◌+◌, ◌-◌, ◌*◌, ◌/◌, ◌%◌, ◌<◌, ◌==◌, if◌then◌else◌, bit_xor, bit_and, nat_lt, slice_index};
ghost use Rattle.std.specs.Int.{bit_at};
ghost use Rattle.st_aes.specs.Cipher.{add, sub_bytes, shift_rows, mix_columns};
ghost use Rattle.st_aes.specs.Planes.{bit, plane, bits, state_at, row_turned, column_turned, changed_low, changed_high};
ghost use Rattle.st_aes.specs.SBox.{factors, quarter, quarter_inverse, products, sums};

use std::simd::@V@;

/// Eight planes: bit 0 of each byte, bit 1, and so on.
pub(crate) type Planes = [@V@; 8];

#[inline(always)]
fn xor(a: @V@, b: @V@) -> @V@
    ensures { (l j : ℕ) → l < @N@ → bit result l j ≡ bit_xor (bit a l j) (bit b l j) }
{
    a ^ b
}

#[inline(always)]
fn and(a: @V@, b: @V@) -> @V@
    ensures { (l j : ℕ) → l < @N@ → bit result l j ≡ bit_and (bit a l j) (bit b l j) }
{
    a & b
}

#[inline(always)]
fn not(a: @V@) -> @V@
    ensures { (l j : ℕ) → l < @N@ → j < 8 → bit result l j ≡ bit_xor (bit a l j) 1 }
{
    a ^ @V@::splat(255)
}

// ---- SubBytes, by the circuit of specs/SBox.antt
"""

STEPS = """
/// SubBytes.
#[inline(always)]
pub(crate) fn substituted(q: Planes) -> Planes
    ensures { @EACH@ → state_at result @G@ j ≡ sub_bytes (state_at q @G@ j) }
{
    let y = factors(q);
    sums(products(y, quarter_inverse(quarter(y))))
}

// ---- ShiftRows and MixColumns

#[inline(always)]
fn rows_shifted(a: @V@) -> @V@
    ensures { (l j : ℕ) → l < @N@ → bit result l j ≡ bit a (row_turned l) j }
{
@SHIFTED@
}

/// ShiftRows.
#[inline(always)]
pub(crate) fn shifted(q: Planes) -> Planes
    ensures { @EACH@ → state_at result @G@ j ≡ shift_rows (state_at q @G@ j) }
{
    let [q0, q1, q2, q3, q4, q5, q6, q7] = q;
@SHIFTS@
}

#[inline(always)]
fn one_down(a: @V@) -> @V@
    ensures { (l j : ℕ) → l < @N@ → bit result l j ≡ bit a (column_turned 1 l) j }
{
@ONE_DOWN@
}

#[inline(always)]
fn two_down(a: @V@) -> @V@
    ensures { (l j : ℕ) → l < @N@ → bit result l j ≡ bit a (column_turned 2 l) j }
{
@TWO_DOWN@
}

/// MixColumns: two times the sum of a row and the one below it, and the three rows below.
#[inline(always)]
pub(crate) fn mixed(q: Planes) -> Planes
    ensures { @EACH@ → state_at result @G@ j ≡ mix_columns (state_at q @G@ j) }
{
    let [a0, a1, a2, a3, a4, a5, a6, a7] = q;
@MIXES@
    [
        xor(u0, t7),
        xor(u1, v0),
        xor(u2, t1),
        xor(u3, v2),
        xor(u4, v3),
        xor(u5, t4),
        xor(u6, t5),
        xor(u7, t6),
    ]
}

/// AddRoundKey, with a key in planes.
#[inline(always)]
pub(crate) fn added(q: Planes, k: Planes) -> Planes
    ensures { @EACH@ → state_at result @G@ j ≡ add (state_at q @G@ j) (state_at k @G@ j) }
{
    let [q0, q1, q2, q3, q4, q5, q6, q7] = q;
    let [k0, k1, k2, k3, k4, k5, k6, k7] = k;
@ADDS@
}

// ---- bytes into planes and back

#[inline(always)]
fn and_byte(a: @V@, m: u8) -> @V@
    ensures { (l j : ℕ) → l < @N@ → bit result l j ≡ bit_and (bit a l j) (bit_at m j) }
{
    a & @V@::splat(m)
}
@CHANGES@
/// The same vector, with the clause that its lanes are bytes.
#[inline(always)]
pub(crate) fn of_bytes(a: @V@) -> @V@
    ensures same { result ≡ a }
    ensures bytes { (l : ℕ) → slice_index result l < 256 }
{
    a
}

/// Bit `b` of vector `i` becomes bit `i` of vector `b`.
#[inline(always)]
pub(crate) fn transposed(v: Planes) -> Planes
    ensures bits { (b l j : ℕ) → b < 8 → l < @N@ → j < 8 → bit (plane result b) l j ≡ bit (plane v j) l b }
    ensures bytes { (b l : ℕ) → b < 8 → slice_index (plane result b) l < 256 }
{
    let [a0, a1, a2, a3, a4, a5, a6, a7] = v;
@EXCHANGES@
@OF_BYTES@
}
"""

CHANGE = """
#[inline(always)]
fn right_@K@(a: @V@) -> @V@
    ensures { (l j : ℕ) → l < @N@ → bit result l j ≡ bit a l (@K@ + j) }
{
    a >> @V@::splat(@K@)
}

#[inline(always)]
fn left_@K@(a: @V@) -> @V@
    ensures { (l j : ℕ) → l < @N@ → j < 8 → bit result l j ≡ (if nat_lt j @K@ then 0 else bit a l (j - @K@)) }
{
    a << @V@::splat(@K@)
}

/// Exchanges the bits of `a` at the places that have @K@ in them with those of `b` @K@ places lower.
#[inline(always)]
fn change_@K@(a: @V@, b: @V@) -> (@V@, @V@)
    ensures first { (l j : ℕ) → l < @N@ → j < 8 → bit result.0 l j ≡ changed_low a b @K@ l j }
    ensures second { (l j : ℕ) → l < @N@ → j < 8 → bit result.1 l j ≡ changed_high a b @K@ l j }
{
    let moved = right_@K@(a);
    let sum = xor(moved, b);
    let t = and_byte(sum, @MASK@);
    let back = left_@K@(t);
    (xor(a, back), xor(b, t))
}
"""


def layer_function(name, layer):
    """A layer's function, with its clause."""
    returned = [f"not({s})" if s in COMPLEMENTS else s for s in S]
    heads = {
        "factors": ("q: Planes", "[@V@; 22]", "bits 22 result l j ≡ factors (bits 8 q l j)", [(X, "q")], Y),
        "quarter": ("y: [@V@; 22]", "[@V@; 4]", "bits 4 result l j ≡ quarter (bits 22 y l j)", [(Y, "y")], FOUR),
        "quarter_inverse": ("t: [@V@; 4]", "[@V@; 9]", "bits 9 result l j ≡ quarter_inverse (bits 4 t l j)", [(FOUR, "t")], NINE),
        "products": ("y: [@V@; 22], t: [@V@; 9]", "[@V@; 18]", "bits 18 result l j ≡ products (bits 22 y l j) (bits 9 t l j)",
                     [(Y[:18] + ["_"] * 4, "y"), (NINE, "t")], Z),
        "sums": ("z: [@V@; 18]", "Planes", "bits 8 result l j ≡ sums (bits 18 z l j)", [(Z, "z")], returned),
    }
    takes, gives, clause, ins, outs = heads[name]
    few = "j < 8 → " if name == "sums" else ""
    text = f"\n#[inline(always)]\nfn {name}({takes}) -> {gives}\n    ensures {{ (l j : ℕ) → l < @N@ → {few}{clause} }}\n{{\n"
    return text + "\n".join(pattern(names, value) for names, value in ins) + "\n" + code(layer) + "\n" + array(outs) + "\n}\n"


def planes(w):
    mixes = [f"    let r{i} = one_down(a{i});" for i in range(8)] + [f"    let t{i} = xor(a{i}, r{i});" for i in range(8)]
    mixes += [f"    let d{i} = two_down(t{i});" for i in range(8)] + [f"    let u{i} = xor(r{i}, d{i});" for i in range(8)]
    mixes += [f"    let v{i} = xor(t{i}, t7);" for i in (0, 2, 3)]
    exchanges = [f"    let (a{i}, a{i + k}) = change_{k}(a{i}, a{i + k});" for k in MASKS for i in range(8) if not i & k]
    changes = "".join(CHANGE.replace("@K@", str(k)).replace("@MASK@", f"{mask:#04x}") for k, mask in MASKS.items())
    text = HEAD + "".join(layer_function(name, layer) for name, layer, _ in LAYERS) + STEPS
    for word, value in dict(
        SHIFTED=w.places(SHIFTED), ONE_DOWN=w.places(ONE_DOWN), TWO_DOWN=w.places(TWO_DOWN), MIXES="\n".join(mixes),
        SHIFTS=calls([f"rows_shifted(q{i})" for i in range(8)]), ADDS=calls([f"xor(q{i}, k{i})" for i in range(8)]),
        CHANGES=changes, EXCHANGES="\n".join(exchanges), OF_BYTES=calls([f"of_bytes(a{i})" for i in range(8)]),
    ).items():
        text = text.replace(f"@{word}@", value)
    write(f"src/{w.prefix}planes.rt", w.fill(text))
    simple_answers(w)
    step_answers(w)
    change_answers(w)
    transposed_answers(w)


# ---- their proofs

def numbered(name, count):
    """The names of a function's calls in their order."""
    return [f"c.{name}"] + [f"c.{name}-{n}" for n in range(2, count + 1)]


def simple_answers(w):
    lemma = "use Rattle.st_aes.proofs.Bits.{%s}\n"
    both = "l j c.fits-a.0 c.fits-b.0 lt"
    w.put("xor", lemma % "sum_lanes" + w.goal("xor") + f"returns c l j lt = sum_lanes @N@ c.args.a c.args.b {both}\n")
    w.put("and", lemma % "product_lanes" + w.goal("and") + f"returns c l j lt = product_lanes @N@ c.args.a c.args.b {both}\n")
    w.put("not", lemma % "not_lanes" + w.goal("not") + "returns c l j lt few = not_lanes @N@ c.args.a l j c.fits-a.0 lt few\n")
    w.put("and_byte", lemma % "masked_lanes" + w.goal("and_byte") + "returns c l j lt = masked_lanes @N@ c.args.a c.args.m l j c.fits-a.0 lt\n")
    for k in MASKS:
        w.put(f"right_{k}", lemma % "right_lanes" + w.goal(f"right_{k}") + f"returns c l j lt = right_lanes @N@ c.args.a {k} l j c.fits-a.0 lt\n")
        w.put(f"left_{k}", lemma % f"left_lanes_{k}" + w.goal(f"left_{k}") + f"returns c l j lt few = left_lanes_{k} @N@ c.args.a l j c.fits-a.0 lt few\n")
    for function, moves in ("rows_shifted", "row_turned"), ("one_down", "(column_turned 1)"), ("two_down", "(column_turned 2)"):
        w.put(function, "use Rattle.std.proofs.Common.{arith}\n" + lemma % "moved_lanes"
              + "use Rattle.st_aes.specs.Planes.{%s}\n" % moves.strip("()").split()[0] + w.goal(function)
              + f"returns c l j lt = moved_lanes @N@ c.args.a {moves} l j c.fits-a.0 lt (omega arith)\n")
    w.put("of_bytes", lemma % "lane_small" + f"use Rattle.st_aes.proofs.{w.prefix}planes.of_bytes.Goals as goal\n\n"
          "pub returns-clause-bytes : goal.returns-clause-bytes\nreturns-clause-bytes c l = lane_small c.args.a l c.fits-a.1\n")
    for name, layer, _ in LAYERS:
        few = " few" if name == "sums" else ""
        facts = [f"{call}.ensures l j lt few" for call in numbered("not", 4)] if name == "sums" else []
        rewrites = "".join(f"      {fact},\n" for fact in facts + equations(layer))
        w.put(name, f"use Rattle.std.proofs.Common.{{refl}}\nuse Rattle.st_aes.specs.SBox.{{{name}}}\n" + w.goal(name)
              + f"unfolding {name}\nreturns c l j lt{few} =\n    rw (\n{rewrites}    ) refl\n")


def step_answers(w):
    blanks = "same_bits" + " _" * 16
    w.put("substituted", """use Rattle.std.proofs.Common.{ℕ, List, ap, ◌∙◌, arith}
use Rattle.st_aes.specs.Planes.{bits}
use Rattle.st_aes.specs.SBox.{quarter, quarter_inverse, products, sums, sub_bits}
use Rattle.st_aes.proofs.Steps.{substituted_is}
""" + w.goal("substituted") + """unfolding sub_bits
returns c @ARGS@ =
    substituted_is @N@ c.args.q c.sums.result @G@ j (omega arith) (λ l lt.
    c.sums.ensures l j lt few
    ∙ ap sums (c.products.ensures l j lt ∙ ap (products (bits 22 c.factors-y.result l j)) (c.quarter_inverse.ensures l j lt ∙ ap quarter_inverse (c.quarter.ensures l j lt))
    ∙ ap (λ (y : List ℕ). products y (quarter_inverse (quarter y))) (c.factors-y.ensures l j lt)))
""")
    moved = " ".join(f"({call}.ensures l j lt)" for call in numbered("rows_shifted", 8))
    w.put("shifted", "use Rattle.std.proofs.Common.{arith}\nuse Rattle.st_aes.proofs.Steps.{same_bits, shifted_is}\n" + w.goal("shifted")
          + f"returns c @ARGS@ =\n    shifted_is @N@ c.args.q _ @G@ j (omega arith) (λ l lt. {blanks} {moved})\n")
    sums = " ".join(f"({call}.ensures l j lt)" for call in numbered("xor", 8))
    w.put("added", "use Rattle.std.proofs.Common.{arith}\nuse Rattle.st_aes.proofs.Steps.{same_bits, added_is, xors}\n" + w.goal("added")
          + f"unfolding xors\nreturns c @ARGS@ =\n    added_is @N@ c.args.q c.args.k _ @G@ j (omega arith) (λ l lt. {blanks} {sums})\n")
    facts = [f"{call}.ensures l j lt" for call in numbered("xor", 8)] + [f"c.xor-v{i}.ensures l j lt" for i in (0, 2, 3)]
    facts += [f"c.xor-u{i}.ensures l j lt" for i in range(8)] + [f"c.two_down-d{i}.ensures l j lt" for i in range(8)]
    facts += [f"c.xor-t{i}.ensures {at}" for at in ("l j lt", "m j low") for i in range(8)]
    facts += [f"c.one_down-r{i}.ensures {at}" for at in ("l j lt", "m j low") for i in range(8)] + ["three"]
    w.put("mixed", """use Rattle.std.proofs.Common.{◌≡◌, ◌<◌, refl, arith}
use Rattle.st_aes.specs.Planes.{column_turned}
use Rattle.st_aes.proofs.Steps.{mixed_is, mix_bits}
""" + w.goal("mixed") + """unfolding mix_bits
returns c @ARGS@ =
    mixed_is @N@ c.args.q _ @G@ j (omega arith) (λ l lt.
    let m = column_turned 2 l in
    let low : m < @N@ = omega arith in
    let three : column_turned 1 m ≡ column_turned 3 l = omega arith in
    rw (
""" + "".join(f"      {fact},\n" for fact in facts) + "    ) refl)\n")


def change_answers(w):
    for k in MASKS:
        def low(j):
            """Bit j of the first vector: that of a, or of b k places lower."""
            x, t = f"(bit c.xor.result l {j}) (bit c.args.a l {j})", j - k
            if j < k:
                return f"kept {x} _ (c.xor.ensures l {j} lt) (c.left_{k}-back.ensures l {j} lt (omega arith))"
            back = f"(c.xor.ensures l {j} lt) (c.left_{k}-back.ensures l {j} lt (omega arith)"
            if j // k % 2:
                return (f"moved_in {x} (bit c.args.b l {t}) _ _ _ _ {back}) (c.and_byte-t.ensures l {t} lt) (c.xor-sum.ensures l {t} lt) "
                        f"(c.right_{k}-moved.ensures l {t} lt) (bit_small c.args.a l {j}) (bit_small c.args.b l {t})")
            return f"kept {x} _ {back} ∙ none _ _ (c.and_byte-t.ensures l {t} lt))"

        def high(j):
            """Bit j of the second vector: that of b, or of a k places higher."""
            r = f"(bit c.xor-2.result l {j})"
            if j // k % 2:
                return f"kept {r} (bit c.args.b l {j}) _ (c.xor-2.ensures l {j} lt) (none _ _ (c.and_byte-t.ensures l {j} lt))"
            return (f"moved_up {r} (bit c.args.a l {k + j}) (bit c.args.b l {j}) _ _ _ (c.xor-2.ensures l {j} lt) (c.and_byte-t.ensures l {j} lt) "
                    f"(c.xor-sum.ensures l {j} lt) (c.right_{k}-moved.ensures l {j} lt) (bit_small c.args.a l {k + j}) (bit_small c.args.b l {j})")

        # (no bit of change_4 is joined of two facts)
        joins = "" if k == 4 else "◌∙◌, "
        text = f"""use Rattle.std.proofs.Common.{{◌≡◌, {joins}arith}}
use Rattle.st_aes.specs.Planes.{{bit, changed_low, changed_high}}
use Rattle.st_aes.proofs.Bits.{{below_eight, bit_small, kept, none, moved_in, moved_up}}
use Rattle.st_aes.proofs.{w.prefix}planes.change_{k}.Goals as goal
"""
        for clause, result, changed, of in ("first", "c.xor.result", "changed_low", low), ("second", "c.xor-2.result", "changed_high", high):
            text += f"""
pub returns-clause-{clause} : goal.returns-clause-{clause}
returns-clause-{clause} c l j lt few =
    below_eight (λ j. bit {result} l j ≡ {changed} c.args.a c.args.b {k} l j)
""" + "".join(f"    ({of(j)})\n" for j in range(8)) + "    j few\n"
        w.put(f"change_{k}", text)


def transposed_answers(w):
    kept = numbered("of_bytes", 8)

    def call(k, i):
        """The exchange by k in which vector i takes part."""
        return numbered(f"change_{k}", 4)[[n for n in range(8) if not n & k].index(i & ~k)]

    def chain(b, j):
        """The source of bit j of result b, through the three exchanges."""
        parts, vector, place = [f"ap (λ (v : List ℕ). bit v l {j}) {kept[b]}.ensures.same"], b, j
        for k in (4, 2, 1):
            clause = "second" if vector & k else "first"
            parts.append(f"{call(k, vector)}.ensures.{clause} l {place} lt (omega arith)")
            if bool(vector & k) != bool(place & k):
                vector, place = vector ^ k, place ^ k
        assert (vector, place) == (j, b)
        return " ∙ ".join(parts)

    results = " ∷ ".join(f"{name}.result" for name in kept) + " ∷ []"
    text = f"""use Rattle.std.proofs.Common.{{◌≡◌, ◌<◌, ℕ, List, [], ◌∷◌, get_or, ap, ◌∙◌, arith}}
use Rattle.st_aes.specs.Planes.{{bit, plane}}
use Rattle.st_aes.proofs.Bits.{{below_eight}}
use Rattle.st_aes.proofs.{w.prefix}planes.transposed.Goals as goal

pub returns-clause-bits : goal.returns-clause-bits
returns-clause-bits c b l j few lt less =
    let r = {results} in
    let v = c.args.v in
    below_eight (λ b. (j : ℕ) → j < 8 → bit (plane r b) l j ≡ bit (plane v j) l b)
"""
    for b in range(8):
        text += f"    (below_eight (λ j. bit (plane r {b}) l j ≡ bit (plane v j) l {b})\n"
        text += "".join(f"    ({chain(b, j)})\n" for j in range(8)) + "    )\n"
    text += f"""    b few j less

pub returns-clause-bytes : goal.returns-clause-bytes
returns-clause-bytes c b l few =
    let r = {results} in
    below_eight (λ b. get_or (plane r b) l 0 < 256) {" ".join(f"({name}.ensures.bytes l)" for name in kept)} b few
"""
    w.put("transposed", text)


def main():
    s_box()
    for width in Width(16, "", "eight"), Width(32, "wide_", "sixteen"):
        planes(width)
        for path, text in passes(width):
            write(path, text)
    look = sys.argv[1:] == ["--look"]
    apart = 0
    for path, text in FILES.items():
        full = os.path.join(CRATE, path)
        if not look:
            os.makedirs(os.path.dirname(full), exist_ok=True)
            with open(full, "w", encoding="utf-8") as out:
                out.write(text)
        elif not os.path.exists(full) or open(full, encoding="utf-8").read() != text:
            print(f"{path} is not what this writes")
            apart += 1
    print(f"{len(FILES) - apart} files as written, {apart} not")
    sys.exit(1 if apart else 0)


if __name__ == "__main__":
    main()
