#!/bin/sh
# Times `sound` of recursion_check on large specifications, which are made in memory. Outside the gate: the program is
# not proved. `rt try` runs it with checks at each step, which is much slower than a program that is built.
# Use: bench/judge.sh
set -eu
top=$(cd "$(dirname "$0")/.." && pwd)
work=$(mktemp -d /tmp/judge.XXXXXX)
trap 'rm -rf "$work"' EXIT
mkdir -p "$work/crates/judge_bench/src"
for crate in sm_io stream_types stream_core recursion_check; do
    cp -a "$top/crates/$crate" "$work/crates/"
done
cat > "$work/crates.txt" <<'END'
sm_io: thiserror
stream_types: sm_io thiserror
stream_core: stream_types sm_io indexmap
recursion_check: sm_io stream_types stream_core thiserror
judge_bench: sm_io stream_types stream_core recursion_check
END
cat > "$work/crates/judge_bench/src/main.rt" <<'END'
//! Makes specifications and times the check of each.
#![tactic(auto)]

use recursion_check::{SoundFault, sound};
use sm_io::{Name, Seq};
use std::alloc::Global;
use std::io;
use std::time::Instant;
use stream_core::{DefItem, ExternItem, Item, LibForm, LibItem, Node, NodeId, Root, Spec, StreamItem, TriggerItem};
use stream_types::{Op2, Scalar, Ty, Types};

const BOOL: Ty = Ty::Scalar(Scalar::Bool);
const WORD8: Ty = Ty::Scalar(Scalar::Word8);

// A letter and a number.
fn name(alloc: Global, kind: u8, number: u64) -> io::Result<Name> {
    let mut bytes = Vec::new(alloc);
    bytes.push(kind)?;
    let mut rest = number;
    for _ in 0..5 {
        bytes.push(b'a' + (rest % 26) as u8)?;
        rest /= 26;
    }
    Ok(Name::new(bytes))
}

// (spec s (extern a Word8) ..): node 0 is true, node 1 is a.
fn start(alloc: Global) -> io::Result<Spec> {
    let mut spec = Spec::new(alloc, name(alloc, b's', 0)?, Types::new(alloc));
    spec.place(Node::Lit(Scalar::Bool, 1))?;
    spec.place(Node::Extern(0))?;
    spec.add(Item::Extern(ExternItem { name: name(alloc, b'a', 0)?, ty: WORD8 }))?;
    Ok(spec)
}

// Adds a def of Word8 of this expression; the node that mentions it.
fn def(alloc: Global, spec: &mut Spec, expr: NodeId) -> io::Result<NodeId> {
    let d = spec.defs().len() as u32;
    spec.add(Item::Def(DefItem { name: name(alloc, b'd', u64::from(d))?, ty: WORD8, expr, at: u64::from(d) }))?;
    Ok(spec.place(Node::Def(d))?)
}

fn sum_of(spec: &mut Spec, a: NodeId, b: NodeId) -> io::Result<NodeId> {
    Ok(spec.place(Node::Bin(Op2::Add, Scalar::Word8, a, b))?)
}

// So many defs, each of which is the one before, nested in a tower of this height.
fn chain(alloc: Global, spec: &mut Spec, from: NodeId, defs: u32, height: u32) -> io::Result<NodeId> {
    let mut last = from;
    for _ in 0..defs {
        let one = NodeId(1);
        for _ in 0..height {
            last = sum_of(spec, last, one)?;
        }
        last = def(alloc, spec, last)?;
    }
    Ok(last)
}

// So many defs, each the sum of the one before and itself.
fn doubled(alloc: Global, spec: &mut Spec, from: NodeId, times: u32) -> io::Result<NodeId> {
    let mut last = from;
    for _ in 0..times {
        let sum = sum_of(spec, last, last)?;
        last = def(alloc, spec, sum)?;
    }
    Ok(last)
}

// So many triggers, each with this argument sixteen times.
fn triggers(alloc: Global, spec: &mut Spec, count: u64, arg: NodeId) -> io::Result<()> {
    for k in 0..count {
        let mut args = Vec::new(alloc);
        for _ in 0..16 {
            args.push(Root { expr: arg, ty: WORD8, at: 10_000 + k })?;
        }
        let guard = Root { expr: NodeId(0), ty: BOOL, at: 10_000 + k };
        spec.add(Item::Trigger(TriggerItem { name: name(alloc, b't', k)?, guard, args: Seq::of(args) }))?;
    }
    Ok(())
}

// So many streams with windows over them and a trigger each, as a monitor has them.
fn monitor(alloc: Global, count: u64) -> io::Result<Spec> {
    let mut spec = start(alloc)?;
    let a = NodeId(1);
    for k in 0..count {
        let stream = spec.place(Node::Stream(k as u32))?;
        let mixed = sum_of(&mut spec, stream, a)?;
        let mut args = Vec::new(alloc);
        args.push(mixed)?;
        spec.add(Item::Lib(LibItem { form: LibForm::WindowMax(4, Scalar::Word8), args: Seq::of(args), at: 20_000 + k }))?;
        let window = spec.place(Node::Lib(k as u32))?;
        let most = spec.place(Node::If(NodeId(0), window, mixed))?;
        let own = def(alloc, &mut spec, most)?;
        let init = Seq::of(Vec::from_slice(alloc, &[0])?);
        spec.add(Item::Stream(StreamItem { name: name(alloc, b'x', k)?, ty: WORD8, init, expr: mixed, at: 5_000 + k }))?;
        triggers(alloc, &mut spec, 1, own)?;
    }
    Ok(spec)
}

fn judge(rt: &HostRuntime, what: &str, spec: Spec) -> io::Result<()> {
    let begin = Instant::now(rt)?;
    let answer = match sound(rt.alloc(), spec) {
        Ok(sound) => {
            drop(sound);
            "sound"
        }
        Err((spec, fault)) => {
            drop(spec);
            match fault {
                SoundFault::Cycle(_) => "Cycle",
                SoundFault::TooManyDecls => "TooManyDecls",
                SoundFault::TooManyWords => "TooManyWords",
                SoundFault::RootTooHeavy(_) => "RootTooHeavy",
                SoundFault::SpecTooHeavy => "SpecTooHeavy",
                SoundFault::Memory => "no memory",
            }
        }
    };
    let took = begin.elapsed(rt)?.as_micros();
    println!(rt; "{took} microseconds: {what}: {answer}")?;
    Ok(())
}

fn main(rt: HostRuntime) -> io::Result<()> {
    let alloc = rt.alloc();
    let a = NodeId(1);

    let mut one = start(alloc)?;
    let deep = chain(alloc, &mut one, a, 2_000, 0)?;
    let heavy = doubled(alloc, &mut one, deep, 10)?;
    triggers(alloc, &mut one, 2_048, heavy)?;
    judge(&rt, "2,048 triggers of 16 arguments of weight 2,047 over a chain of 2,000 defs", one)?;

    let mut two = start(alloc)?;
    let deep = chain(alloc, &mut two, a, 2_000, 0)?;
    let light = doubled(alloc, &mut two, deep, 2)?;
    triggers(alloc, &mut two, 2_048, light)?;
    judge(&rt, "the same with arguments of weight 7", two)?;

    let mut three = start(alloc)?;
    let deep = chain(alloc, &mut three, a, 500, 64)?;
    triggers(alloc, &mut three, 1, deep)?;
    judge(&rt, "a chain of 500 defs, each a tower of 64 sums", three)?;

    let mut four = start(alloc)?;
    let deep = chain(alloc, &mut four, a, 4_000, 64)?;
    triggers(alloc, &mut four, 1, deep)?;
    judge(&rt, "a chain of 4,000 defs, each a tower of 64 sums", four)?;

    judge(&rt, "a monitor of 4 streams", monitor(alloc, 4)?)?;
    judge(&rt, "a monitor of 100 streams", monitor(alloc, 100)?)?;
    judge(&rt, "a monitor of 1,000 streams", monitor(alloc, 1_000)?)
}
END
cd "$work/crates/judge_bench"
rt try
