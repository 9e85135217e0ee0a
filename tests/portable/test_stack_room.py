"""What tools/stack_room.py counts, takes out and refuses, in small modules written by hand."""

from stack_room import Refused, unasked
from support.cases import case, cases, sentence


MODULE = """(module
  (global $__stack_pointer (mut i64) (i64.const 65536))
  (global $in_call (mut i32) (i32.const 0))
  (export "ym_one" (func $ym_one))
  (func $__rattle_enter (result i32) (i32.const 0))
  (func $__rattle_leave)
  (func $ym_one
    (if (call $__rattle_enter) (unreachable))
    (call $one)
    (call $__rattle_leave))
  (func $one
    (local $0 i64)
    (global.set $__stack_pointer
      (local.tee $0 (i64.sub (global.get $__stack_pointer) (i64.const 48))))
    (if (i64.lt_s (local.get $0) (i64.const 16)) (unreachable))
    (call $two)
    (global.set $__stack_pointer (i64.add (local.get $0) (i64.const 48))))
  (func $two
    (local $0 i64)
    (local.set $0 (i64.sub (global.get $__stack_pointer) (i64.const 32)))
    (if (i64.le_s (local.get $0) (i64.const 15)) (unreachable))
    (i64.store (local.get $0) (i64.const 7))))
"""
# Each of another shape, by one change of that module.
OTHERS = {
    "a function that calls itself": ("(call $two)", "(call $one)"),
    "a call within a call": ("(call $two)", "(call $ym_one)"),
    "a call from outside": ("(func $__rattle_leave)", '(import "a" "b" (func $__rattle_leave))'),
    "the stack moved up too far": ("(i64.add (local.get $0) (i64.const 48))", "(i64.const 65536)"),
    "the stack not put back by its frame": ("$0) (i64.const 48)", "$0) (i64.const 64)"),
    "a question for more room": ("(i64.const 15)", "(i64.const 31)"),
    "the stack's end read twice": ("(call $two)", "(drop (global.get $__stack_pointer))"),
    "a frame that is none": ("(i64.const 32)", "(i64.const 33)"),
}


@sentence("the stack that a call needs")
def test_counted():
    """The frames of 48 and 32 bytes, and 16 below them; no question is left."""
    text, needs = unasked(MODULE)
    assert needs == {"ym_one": 48 + 32 + 16}, "it needs %s" % needs
    for question in ("call $__rattle_enter", "call $__rattle_leave", "i64.lt_s", "i64.le_s"):
        assert question not in text, "there is %s in %s" % (question, text)


@cases(*(case("refused: " + name, *change) for name, change in OTHERS.items()))
def test_refused(old, new):
    assert MODULE.count(old) == 1, "%s stands there %d times" % (old, MODULE.count(old))
    try:
        unasked(MODULE.replace(old, new))
    except Refused:
        return
    raise AssertionError("it is not refused")
