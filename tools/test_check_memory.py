"""Sees that `check_memory` finds each way round it, in a small source of its own, and finds nothing where there is nothing."""
from __future__ import annotations

import importlib.machinery
import importlib.util
import os
import tempfile
import unittest
from typing import Any, List

HERE = os.path.dirname(os.path.realpath(__file__))
LOADER = importlib.machinery.SourceFileLoader("check_memory", os.path.join(HERE, "check_memory"))
SPEC = importlib.util.spec_from_loader("check_memory", LOADER)
assert SPEC
CHECK: Any = importlib.util.module_from_spec(SPEC)
LOADER.exec_module(CHECK)

SOUND = '''//! AllocError and OutOfMemory in a comment; "forget" too.
ghost use Rattle.fault.TheVariants.{OutOfMemory, Full};

use std::alloc::{AllocError, Allocator};

#[derive(Debug)]
pub enum Fault {
    /// std::mem::forget
    Full,
    OutOfMemory,
}

impl From<AllocError> for Fault {
    ghost from_gives = { λ _ fault. fault ≡ the-fault.OutOfMemory };

    fn from(_refused: AllocError) -> Fault {
        Fault::OutOfMemory
    }
}

impl From<Other> for Fault {
    fn from(other: Other) -> Fault {
        match other {
            Other::OutOfMemory => Fault::OutOfMemory,
            Other::Full => Fault::Full,
        }
    }
}

fn grown(list: &mut Vec<u8>) -> Result<(), AllocError>
    ensures lacking { OnErr result (Fault.OutOfMemory ≡ OutOfMemory) }
{
    let spare: Result<u8, AllocError> = list.push(1);
    spare?;
    println!("AllocError");
    Ok(())
}

fn again(fault: Fault) -> Result<(), AllocError> {
    match fault {
        Fault::OutOfMemory => Err(AllocError),
        Fault::Full => Ok(()),
    }
}

fn told(fault: Fault) -> bool {
    if let Err(Other::OutOfMemory) = other() {
        return is(Fault::OutOfMemory);
    }
    let Err(Fault::OutOfMemory) = grown(list) else {
        return false;
    };
    matches!(fault, Fault::OutOfMemory)
}
'''

MEMORY = {
    "an early return": "fn f() -> Result<(), Fault> { if long() { return Err(Fault::OutOfMemory); } Ok(()) }",
    "a refusal out of nothing": "fn f() -> Result<(), AllocError> { Err(AllocError) }",
    "one in a tuple": "fn f() -> Result<(), (Op, AllocError)> { Err((op, AllocError)) }",
    "one by another name": "use std::alloc::AllocError as Lack; fn f() -> Result<(), Lack> { Err(Lack) }",
    "one of another fault": "fn f(x: Fault) -> Result<(), AllocError> { match x { Fault::Full => Err(AllocError), _ => Ok(()) } }",
    "one in a constant": "const LACK: AllocError = AllocError;",
    "one kept for later": "struct Keeper { lack: AllocError }",
    "one that a macro writes": "macro_rules! lack { () => { Err(AllocError) } }",
    "a fault that a macro writes": "macro_rules! lack { ($f:ident) => { Err($f::OutOfMemory) } }",
    "a fault handed to a macro": "fn f() { refuse!(Fault::OutOfMemory); }",
    "an arm of another fault": "fn f(x: Fault) -> Fault { match x { Fault::Full => Fault::OutOfMemory, other => other } }",
    "an arm of any error": "fn f() -> Result<(), Fault> { match g() { Ok(()) => Ok(()), Err(_) => Err(Fault::OutOfMemory) } }",
    "the branch of a let": "fn f() -> Result<(), Fault> { let Ok(x) = g() else { return Err(Fault::OutOfMemory); }; Ok(x) }",
    "a guard that names it": "fn f(x: Fault) -> Fault { match x { other if other == Fault::OutOfMemory => other, _ => Fault::OutOfMemory } }",
    "its conversion from another": "impl From<u32> for Fault { fn from(_number: u32) -> Fault { Fault::OutOfMemory } }",
    "a variant by its own name": "use crate::fault::Fault::OutOfMemory; fn f() -> Fault { OutOfMemory }",
    "all variants by their names": "use crate::fault::Fault::*;",
    "Self": "impl Fault { fn lack() -> Self { Self::OutOfMemory } }",
    "a default": "impl Default for Fault { fn default() -> Fault { Fault::OutOfMemory } }",
    "a closure": "fn f() { list.ok_or_else(|| Fault::OutOfMemory) }",
    "a value by default": "fn f() { room.ok_or(AllocError) }",
    "a value out of zeros": "fn f() -> Result<(), AllocError> { Err(unsafe { std::mem::zeroed() }) }",
}

LEAKS = {
    "forget": "fn f(port: Port) { std::mem::forget(port); }",
    "forget, imported": "use std::mem::forget; fn f(port: Port) { forget(port); }",
    "forget by another name": "use std::mem::forget as end; fn f(port: Port) { end(port); }",
    "a value that is not dropped": "fn f(port: Port) { let _ = std::mem::ManuallyDrop::new(port); }",
    "a box that leaks": "fn f(port: Box<Port>) { Box::leak(port); }",
    "a list that leaks": "fn f(list: Vec<u8>) { list.leak(); }",
    "a box as a pointer": "fn f(port: Box<Port>) { let _ = Box::into_raw(port); }",
    "a list as its parts": "fn f(list: Vec<u8>) { let _ = list.into_raw_parts(); }",
    "a place that drops nothing": "fn f(port: Port) { let _ = MaybeUninit::new(port); }",
    "a counted value": "fn f(port: Port) { let _ = Rc::new(port); }",
    "a leak in a macro": "macro_rules! end { ($x:expr) => { std::mem::forget($x) } }",
}


def found(text: str, exceptions: Any = None) -> List[str]:
    """What is found in a repository of one source."""
    with tempfile.TemporaryDirectory() as top:
        folder = os.path.join(top, "crates", "small", "src")
        os.makedirs(folder)
        with open(os.path.join(folder, "lib.rt"), "w", encoding="utf-8") as it:
            it.write(text)
        return list(CHECK.found_in(top, exceptions or {}))


class Ways(unittest.TestCase):
    def test_a_sound_source_has_no_fault(self) -> None:
        self.assertEqual(found(SOUND), [])

    def test_each_way_is_found(self) -> None:
        for name, text in {**MEMORY, **LEAKS}.items():
            with self.subTest(name):
                self.assertTrue(found(SOUND + text), name)
                lines = SOUND.count("\n") + 1
                self.assertTrue(all(f":{lines}:" in it for it in found(SOUND + text)), "the line is named")

    def test_an_exception_is_one_place(self) -> None:
        text = MEMORY["a refusal out of nothing"]
        listed = {("small/src/lib.rt", "AllocError"): (1, "the reason")}
        self.assertEqual(found(text, listed), [])
        self.assertEqual(len(found(text + text, listed)), 1)

    def test_an_exception_that_nothing_needs_is_a_fault(self) -> None:
        self.assertEqual(len(found(SOUND, {("small/src/lib.rt", "forget"): (1, "the reason")})), 1)

    def test_crates_of_tests_are_left_out(self) -> None:
        with tempfile.TemporaryDirectory() as top:
            for folder in ("crates/small_tests/src", "crates/small/src/tests"):
                os.makedirs(os.path.join(top, folder))
                with open(os.path.join(top, folder, "lib.rt"), "w", encoding="utf-8") as it:
                    it.write(LEAKS["forget"])
            self.assertEqual(CHECK.found_in(top, {}), [])

    def test_this_repository_has_no_fault(self) -> None:
        self.assertEqual(CHECK.found_in(CHECK.TOP, CHECK.EXCEPTIONS), [])


if __name__ == "__main__":
    unittest.main()
