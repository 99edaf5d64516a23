"""The modules pass and wide_pass, and what their proofs cite: planes.py calls this."""

HEAD = """//! The cipher of @STATES@ blocks in one pass (FIPS 197, section 5.1), in planes. Written by gen/planes.py.

ghost use Rattle.std.specs.Prelude.{◌≡◌, ℕ, ◌+◌, ◌*◌, ◌/◌, ◌%◌, ◌<◌, ◌≤◌, List, length, slice_index};
ghost use Rattle.std.specs.Simd.Lanes.{chunk};
ghost use Rattle.st_aes.specs.Cipher.{encrypt_with};
ghost use Rattle.st_aes.specs.Planes.{@NAMES@};

use crate::cipher::RoundKeys;
use crate::@PREFIX@planes::{Planes, added, mixed, shifted, substituted, transposed};
use std::simd::@USES@;

/// Writes a vector from byte `at` on.
#[inline(always)]
fn store(out: &mut [u8], at: usize, v: @V@)
    requires { at + @N@ ≤ length out.old }
    ensures long { length out.new ≡ length out.old }
    ensures written { (k : ℕ) → k < @N@ → slice_index out.new (at + k) ≡ slice_index v k }
    ensures before { (k : ℕ) → k < at → slice_index out.new k ≡ slice_index out.old k }
{
    v.copy_to_slice(&mut out[at..]);
}

/// Writes eight vectors from byte `at` on.
#[inline(always)]
pub(crate) fn store_all(out: &mut [u8], at: usize, v: &Planes)
    requires { at + @BYTES@ ≤ length out.old }
    ensures long { length out.new ≡ length out.old }
    ensures written { (i : ℕ) → i < @BYTES@ → slice_index out.new (at + i) ≡ slice_index (plane v.now (i / @N@)) (i % @N@) }
    ensures before { (k : ℕ) → k < at → slice_index out.new k ≡ slice_index out.old k }
{
    for j in 0..8usize {
        store(out, at + @N@ * j, v[j]);
    }
}

/// Eight vectors from byte `at` on.
#[inline(always)]
fn load(bytes: &[u8], at: usize) -> Planes
    requires { at + @BYTES@ ≤ length bytes.now }
    ensures { result ≡ vectors_at @N@ bytes.now at }
{
@LOADS@
}
"""

LOAD_KEY = """
/// Sixteen bytes from byte `at` on, twice.
#[inline(always)]
fn load_twice(bytes: &[u8], at: usize) -> u8x32
    requires { at + 16 ≤ length bytes.now }
    ensures { (l : ℕ) → l < 32 → slice_index result l ≡ slice_index bytes.now (at + l % 16) }
{
    u8x16::from_slice(&bytes[at..]).swizzle([
        0, 1, 2, 3, 4, 5, 6, 7, 8, 9, 10, 11, 12, 13, 14, 15, 0, 1, 2, 3, 4, 5, 6, 7, 8, 9, 10, 11,
        12, 13, 14, 15,
    ])
}

/// The key of a round for all states, from byte `at` of the round keys on.
#[inline(always)]
fn load_key(keys: &[u8], at: usize) -> Planes
    requires { at + 128 ≤ length keys.now }
    ensures { (g j : ℕ) → g < 2 → j < 8 → state_at result g j ≡ state_at (vectors_at 16 keys.now at) 0 j }
{
@KEY_LOADS@
}
"""

CODE = """
/// The cipher of @STATES@ blocks@EACH_VECTOR@.
pub(crate) fn encrypted(keys: &RoundKeys, v: Planes) -> Planes
    requires { (j l : ℕ) → j < 8 → slice_index (plane v j) l < 256 }
    ensures { (ws : List (List ℕ)) → IsRoundKeys keys.now ws → @EACH@ → half (plane result j) @G@ ≡ encrypt_with ws (half (plane v j) @G@) }
{
    let mut q = added(transposed(v), @LOAD@(keys, 0));
    for n in 0..13usize {
@NEXT@
        q = next;
    }
    transposed(added(shifted(substituted(q)), @LOAD@(keys, 1792)))
}

/// The cipher of @STATES@ blocks, one after another.
pub(crate) fn encrypted_blocks(keys: &RoundKeys, blocks: &[u8; @BYTES@]) -> [u8; @BYTES@]
    ensures { (ws : List (List ℕ)) → IsRoundKeys keys.now ws → (m : ℕ) → m < @BLOCKS@ → chunk (16 * m) 16 result ≡ encrypt_with ws (chunk (16 * m) 16 blocks.now) }
{
    let mut out = [0u8; @BYTES@];
    store_all(&mut out, 0, &encrypted(keys, load(blocks, 0)));
    out
}
"""

NEXT = "        let next = added(mixed(shifted(substituted(q))), @LOAD@(keys, 128 * (n + 1)));"

NEXT_WIDE = """        let next = added(
            mixed(shifted(substituted(q))),
            @LOAD@(keys, 128 * (n + 1)),
        );"""

STORE = """use Rattle.std.proofs.Common.{arith}
use Rattle.std.proofs.lemmas.Simd.{length-put_chunk, get_or-put_chunk_at, get_or-put_chunk_below}
use Rattle.st_aes.proofs.@PREFIX@pass.store.Goals as goal

pub returns-clause-long : goal.returns-clause-long
returns-clause-long c = length-put_chunk c.args.at c.args.out.now c.args.v

pub returns-clause-written : goal.returns-clause-written
returns-clause-written c k lt = get_or-put_chunk_at c.args.at c.args.out.now c.args.v k 0 (omega (arith, c.fits-v.0)) (omega (arith, c.fits-v.0))

pub returns-clause-before : goal.returns-clause-before
returns-clause-before c k lt = get_or-put_chunk_below c.args.at c.args.out.now c.args.v k 0 lt
"""

STORE_ALL = """use Rattle.std.proofs.Common.{◌≡◌, ℕ, ◌+◌, ◌*◌, ◌/◌, ◌%◌, ◌<◌, length, slice_index}
use Rattle.st_aes.specs.Planes.{plane}
use Rattle.st_aes.proofs.@PREFIX@pass.store_all.Given as goal

abbrev pub invariant-loop-j : goal.invariant-loop-j
invariant-loop-j l = record {
  long : length l.out ≡ length l.fn.out;
  done : (i : ℕ) → i < @N@ * l.j → slice_index l.out (l.at + i) ≡ slice_index (plane l.v (i / @N@)) (i % @N@);
  before : (k : ℕ) → k < l.at → slice_index l.out k ≡ slice_index l.fn.out k;
}
"""

LOAD_TWICE = """use Rattle.std.proofs.Common.{ℕ, ◌%◌, ◌++◌, get_or, ◌∙◌, arith}
use Rattle.std.specs.Simd.Lanes.{chunk}
use Rattle.std.proofs.lemmas.Simd.{length-chunk, get_or-chunk}
use Rattle.std.proofs.lemmas.List.{get_or_append_left}
use Rattle.std.proofs.lemmas.List.FromFn.{get_or-map-range_with_len}
use Rattle.st_aes.proofs.wide_pass.load_twice.Goals as goal

pub returns : goal.returns
returns c l lt =
    let bytes = c.args.bytes.now in
    let at = c.args.at in
    let piece = chunk at 16 bytes in
    get_or-map-range_with_len (λ (j : ℕ). get_or (piece ++ piece) (j % 16) 0) 0 32 l l 0 lt (omega arith)
    ∙ get_or_append_left piece piece 0 (l % 16) (omega (arith, length-chunk at 16 bytes (omega arith))) ∙ get_or-chunk at 16 bytes (l % 16) 0 (omega arith)
"""

ENCRYPTED_INVARIANT = """use Rattle.std.proofs.Common.{◌≡◌, ◌<◌, ℕ, List}
use Rattle.st_aes.specs.Cipher.{rounds}
use Rattle.st_aes.specs.Planes.{plane, half, state_at, IsRoundKeys}
use Rattle.st_aes.proofs.@PREFIX@pass.encrypted.Given as goal

abbrev pub invariant-loop-n : goal.invariant-loop-n
invariant-loop-n l = (ws : List (List ℕ)) → IsRoundKeys l.keys ws → @EACH@ → state_at l.q @G@ j ≡ rounds ws (half (plane l.fn.v j) @G@) l.n
"""

ENCRYPTED = """use Rattle.std.proofs.Common.{◌≡◌, ◌+◌, ℕ, List, ap, sym, ◌∙◌, arith}
use Rattle.st_aes.specs.Cipher.{add, sub_bytes, shift_rows, mix_columns, round_key, add_round_key, rounds, encrypt_with}
use Rattle.st_aes.specs.Planes.{plane, half, state_at}
use Rattle.st_aes.proofs.Rounds.{rounds_start, round_next}
use Rattle.st_aes.proofs.Steps.{half_is}
use Rattle.st_aes.proofs.@PREFIX@pass.encrypted.Goals as goal

pub loop-n-init : goal.loop-n-init
unfolding add_round_key
loop-n-init c ws keys @ARGS@ =
    let v = plane c.args.v j in
    let input = half_is @N@ v c.transposed.result @G@ j (omega arith) (λ l b lt less. c.transposed.ensures.bits b l j less lt few) (λ l lt. c.requires j l few) in
    rounds_start ws (half v @G@) _ (c.added-q.ensures @ARGS@ ∙ ap (λ (s : List ℕ). add s (state_at c.@LOAD@.result @G@ j)) input ∙ ap (add (half v @G@)) (@KEY:c.@LOAD@@ ∙ keys 0 j (omega arith) few))

pub loop-n-preserved : goal.loop-n-preserved
unfolding add_round_key
loop-n-preserved c ws keys @ARGS@ =
    let l = c.loop-n in
    let v = plane c.args.v j in
    let s = state_at l.q @G@ j in
    let mixed = c.mixed.ensures @ARGS@ ∙ ap mix_columns (c.shifted.ensures @ARGS@ ∙ ap shift_rows (c.substituted.ensures @ARGS@)) in
    round_next ws (half v @G@) s _ l.n
    (c.added-next.ensures @ARGS@ ∙ ap (λ (t : List ℕ). add t (state_at c.@LOAD@-in-loop-n.result @G@ j)) mixed ∙ ap (add (mix_columns (shift_rows (sub_bytes s)))) (@KEY:c.@LOAD@-in-loop-n@ ∙ keys (l.n + 1) j (omega arith) few))
    (l.invariant ws keys @ARGS@)

pub returns : goal.returns
unfolding encrypt_with add_round_key
returns c ws keys @ARGS@ =
    let l = c.loop-n in
    let v = plane c.args.v j in
    let done : l.n ≡ 13 = omega arith in
    let s = state_at l.q @G@ j in
    let before : s ≡ rounds ws (half v @G@) 13 = l.invariant ws keys @ARGS@ ∙ ap (rounds ws (half v @G@)) done in
    let last = c.added.ensures @ARGS@ ∙ ap (λ (t : List ℕ). add t (state_at c.@LOAD@-2.result @G@ j)) (c.shifted-2.ensures @ARGS@ ∙ ap shift_rows (c.substituted-2.ensures @ARGS@))
    ∙ ap (add (shift_rows (sub_bytes s))) (@KEY:c.@LOAD@-2@ ∙ keys 14 j (omega arith) few) in
    let out = half_is @N@ (plane c.transposed-2.result j) c.added.result @G@ j (omega arith) (λ l b lt less. sym (c.transposed-2.ensures.bits j l b few lt less)) (λ l lt. c.transposed-2.ensures.bytes j l few) in
    sym out ∙ last ∙ ap (λ (t : List ℕ). add (shift_rows (sub_bytes t)) (round_key ws 14)) before
"""

ENCRYPTED_BLOCKS = """use Rattle.std.proofs.Common.{◌≡◌, ℕ, ◌+◌, ◌*◌, ◌/◌, ◌%◌, ◌<◌, List, get_or, sym, ap, subst, ◌∙◌, arith, w8, Fits}
use Rattle.std.specs.Simd.Lanes.{Each1}
use Rattle.std.proofs.lemmas.Simd.{chunk-fits}
use Rattle.st_aes.specs.Cipher.{encrypt_with}
use Rattle.st_aes.specs.Planes.{plane}
use Rattle.st_aes.proofs.Bits.{lane_small}
use Rattle.st_aes.proofs.Steps.{chunk_is_half, vector_is, vector_lane}
use Rattle.st_aes.proofs.@PREFIX@pass.encrypted_blocks.Goals as goal

pub encrypted-requires : goal.encrypted-requires
encrypted-requires c j l few =
    let blocks = c.args.blocks.now in
    let is = ap (λ (q : List (List ℕ)). plane q j) c.load.ensures ∙ vector_is @N@ blocks 0 j few in
    lane_small (plane c.load.result j) l (subst (Each1 (Fits w8)) (sym is) (chunk-fits w8 (0 + @N@ * j) @N@ blocks (λ k. record { fits = c.fits-blocks k })))

pub returns : goal.returns
returns c ws keys m lt =
    let j = @VECTOR@ in
    let few : j < 8 = omega arith in
    let blocks = c.args.blocks.now in
    let v = plane c.load.result j in
    let r = plane c.encrypted.result j in
    let from = chunk_is_half @N@ blocks v m @HALF@ (@N@ * j) (omega arith) (omega arith) (omega arith) (λ l low.
    let start : 0 + @N@ * j + l ≡ @N@ * j + l = omega arith in
    ap (λ (q : List (List ℕ)). get_or (plane q j) l 0) c.load.ensures ∙ vector_lane @N@ blocks 0 j l few low ∙ ap (λ (k : ℕ). get_or blocks k 0) start) in
    let to = chunk_is_half @N@ c.store_all.new.out r m @HALF@ (@N@ * j) (omega arith) (omega arith) (omega arith) (λ l low.
    let row : (@N@ * j + l) / @N@ ≡ j = omega arith in
    let column : (@N@ * j + l) % @N@ ≡ l = omega arith in
    let start : @N@ * j + l ≡ 0 + (@N@ * j + l) = omega arith in
    sym (ap (λ (k : ℕ). get_or c.store_all.new.out k 0) start ∙ c.store_all.ensures.written (@N@ * j + l) (omega arith) ∙ ap (λ (k : ℕ). get_or (plane c.encrypted.result k) ((@N@ * j + l) % @N@) 0) row ∙ ap (λ (k : ℕ). get_or r k 0) column)) in
    to ∙ c.encrypted.ensures ws keys @CALL@ ∙ ap (encrypt_with ws) (sym from)
"""


def loads(w, name, step):
    """Eight vectors, each `step` bytes after the one before."""
    place = [name.replace("@AT@", "at" if n == 0 else f"at + {step * n}") for n in range(8)]
    return "    [\n" + "".join(f"        {each},\n" for each in place) + "    ]"


def passes(w):
    """The files of a width: path and text."""
    wide = w.halves == 2
    load = "load_key" if wide else "load"
    files = []

    def fill(text):
        text = text.replace("@NEXT@", NEXT_WIDE if wide else NEXT).replace("@LOAD@", load)
        while "@KEY:" in text:
            before, _, rest = text.partition("@KEY:")
            call, _, behind = rest.partition("@")
            fact = f"{call}.ensures @ARGS@" if wide else f"ap (λ (k : List (List ℕ)). state_at k 0 j) {call}.ensures"
            text = before + fact + behind
        for word, value in dict(
            NAMES="plane, half, state_at, vectors_at, IsRoundKeys" if wide else "plane, half, vectors_at, IsRoundKeys",
            USES="{u8x16, u8x32}" if wide else "u8x16", EACH_VECTOR=", two in each vector" if wide else ", one in each vector",
            VECTOR="m / 2" if wide else "m", HALF="(m % 2)" if wide else "0", CALL="(m % 2) j (omega arith) few" if wide else "j few",
        ).items():
            text = text.replace(f"@{word}@", value)
        return w.fill(text)

    def put(function, text, file="Answers"):
        files.append((f"proofs/{w.prefix}pass/{function}/{file}.antt", fill(text)))

    text = HEAD.replace("@LOADS@", loads(w, "@V@::from_slice(&bytes[@AT@..])", w.lanes))
    if wide:
        text += LOAD_KEY.replace("@KEY_LOADS@", loads(w, "load_twice(keys, @AT@)", 16))
        put("load_twice", LOAD_TWICE)
        put("load_key", load_key_answer(w))
    files.append((f"src/{w.prefix}pass.rt", fill(text + CODE)))
    put("store", STORE)
    put("store_all", STORE_ALL, "Invariants")
    put("encrypted", ENCRYPTED_INVARIANT, "Invariants")
    put("encrypted", ENCRYPTED)
    put("encrypted_blocks", ENCRYPTED_BLOCKS)
    return files


def load_key_answer(w):
    calls = ["c.load_twice"] + [f"c.load_twice-{n}" for n in range(2, 9)]
    lanes = "".join(f"    ({call}.ensures l low ∙ ap (λ (k : ℕ). get_or keys k 0) (omega arith))\n" for call in calls)
    return """use Rattle.std.proofs.Common.{◌≡◌, ℕ, ◌+◌, ◌*◌, ◌%◌, [], ◌∷◌, get_or, ap, ◌∙◌, arith}
use Rattle.st_aes.specs.Planes.{plane}
use Rattle.st_aes.proofs.Bits.{below_eight}
use Rattle.st_aes.proofs.Steps.{state_twice}
use Rattle.st_aes.proofs.wide_pass.load_key.Goals as goal

pub returns : goal.returns
returns c g j two few =
    let keys = c.args.keys.now in
    let at = c.args.at in
    let q = """ + " ∷ ".join(f"{call}.result" for call in calls) + """ ∷ [] in
    state_twice keys q at g j two few (λ b l less low.
    below_eight (λ b. get_or (plane q b) l 0 ≡ get_or keys (at + 16 * b + l % 16) 0)
""" + lanes + "    b less)\n"
