"""Functions that programs call, share and hand on as callbacks."""
from checked.objects import (
    GONE,
    HAS_B,
    JEQ,
    LACKS_B,
    NO_B,
    address,
    call,
    found,
    function,
    helper,
    jump,
    move,
    object_of,
    one_kernel,
    program,
)
from rows.elf import EXIT

LOOP = helper(181)
ZERO, OVER_CALL = move(6, 0), jump(JEQ, 6, 0, 1)
F = function("f", move(0, 0), GONE, EXIT)
# Its third slot asks, where neither r1 nor r6 is known to be 0.
TAKER = function("f", jump(JEQ, 1, 0, 2), OVER_CALL, GONE, EXIT)


def called(*code):
    """The program `p`, and `f`, whose second slot asks for what is gone."""
    return object_of([program(*code), F])


def calls(rows):
    """What is called is reached where the call is."""
    reached, guarded = (found(NO_B, f"p slot {slot} (f+1)") for slot in (3, 5))
    one_kernel(rows, "a called function", called(call("f"), EXIT), LACKS_B, [reached])
    one_kernel(rows, "a called function, where all is there", called(call("f"), EXIT), HAS_B)
    one_kernel(rows, "a function behind a jump", called(ZERO, OVER_CALL, call("f"), EXIT), LACKS_B, guarded=[guarded])
    twice = [found(NO_B, "p slot 4 (f+1)")]
    one_kernel(rows, "a function that is called twice", called(call("f"), call("f"), EXIT), LACKS_B, twice)
    own = program(ZERO, move(1, 0), call("f"), OVER_CALL, GONE, jump(JEQ, 1, 0, 1), GONE, EXIT)
    both = object_of([own, function("f", EXIT)])
    breaks, kept = [found(NO_B, "p slot 6")], [found(NO_B, "p slot 4")]
    one_kernel(rows, "numbers over a call of a function", both, LACKS_B, breaks, kept)
    # It begins with nothing known, whatever it is called with.
    taker = object_of([program(move(1, 0), ZERO, call("f"), EXIT), TAKER])
    one_kernel(rows, "a function's arguments", taker, LACKS_B, [found(NO_B, "p slot 6 (f+2)")])
    chain = object_of([program(call("f"), EXIT), function("f", call("g"), EXIT), function("g", GONE, EXIT)])
    one_kernel(rows, "a function that a function calls", chain, LACKS_B, [found(NO_B, "p slot 4 (g+0)")])
    around = object_of([program(call("f"), EXIT), function("f", jump(JEQ, 1, 0, 1), call("f"), GONE, EXIT)])
    one_kernel(rows, "a function that calls itself", around, LACKS_B, [found(NO_B, "p slot 4 (f+2)")])
    endless = object_of([program(call("f"), GONE, EXIT), function("f", EXIT)])
    one_kernel(rows, "what stands behind a call", endless, LACKS_B, [found(NO_B, "p slot 1")])
    # A function's end is not what its caller goes on to.
    behind = object_of([program(call("f"), EXIT), function("f", EXIT), function("g", GONE, EXIT)])
    one_kernel(rows, "a function that nobody calls", behind, LACKS_B)


def callbacks(rows):
    """A function whose address is loaded is reached where the load is, with nothing known."""
    by_loop = called(address(2, "f"), LOOP, EXIT)
    one_kernel(rows, "a callback", by_loop, LACKS_B, [found(NO_B, "p slot 5 (f+1)")])
    one_kernel(rows, "a callback, where all is there", by_loop, HAS_B)
    guarded = called(ZERO, jump(JEQ, 6, 0, 3), address(2, "f"), LOOP, EXIT)
    one_kernel(rows, "a callback behind a jump", guarded, LACKS_B, guarded=[found(NO_B, "p slot 7 (f+1)")])
    taker = object_of([program(ZERO, move(1, 0), address(2, "f"), LOOP, EXIT), TAKER])
    one_kernel(rows, "a callback's arguments", taker, LACKS_B, [found(NO_B, "p slot 8 (f+2)")])
    own = program(ZERO, address(2, "f"), LOOP, OVER_CALL, GONE, jump(JEQ, 2, 0, 1), GONE, EXIT)
    numbers = object_of([own, function("f", EXIT)])
    breaks, kept = [found(NO_B, "p slot 7")], [found(NO_B, "p slot 5")]
    one_kernel(rows, "numbers over a call with a callback", numbers, LACKS_B, breaks, kept)
    # The address itself is no number.
    address_alone = object_of([program(address(2, "f"), jump(JEQ, 2, 0, 1), GONE, EXIT), function("f", EXIT)])
    one_kernel(rows, "a callback's address", address_alone, LACKS_B, [found(NO_B, "p slot 3")])


def neighbours(rows):
    """Programs of one section, of which each has its own slots, and a program that calls another."""
    first, second = program(move(0, 0), GONE, EXIT), program(move(0, 0), move(1, 0), GONE, EXIT, name="q")
    breaks = [found(NO_B, "p slot 1", "q slot 2")]
    one_kernel(rows, "two programs of a section", object_of([first, second]), LACKS_B, breaks, breaking=2, count=2)
    turned = object_of([second, program(move(0, 0), EXIT)])
    one_kernel(rows, "one of two programs of a section", turned, LACKS_B, [found(NO_B, "q slot 2")], count=2)
    caller = program(call("p"), EXIT, section="kprobe/q", name="q")
    breaks = [found(NO_B, "p slot 1", "q slot 3 (p+1)")]
    one_kernel(rows, "a program that calls another", object_of([first, caller]), LACKS_B, breaks, breaking=2, count=2)


def shared(rows):
    """Two programs share a function."""
    reaches = program(call("f"), EXIT)
    guards = program(ZERO, OVER_CALL, call("f"), EXIT, section="kprobe/q", name="q")
    both = object_of([reaches, guards, F])
    in_p, in_q = found(NO_B, "p slot 3 (f+1)"), found(NO_B, "q slot 5 (f+1)")
    one_kernel(rows, "a shared function, reached in one", both, LACKS_B, [in_p], [in_q], count=2)
    one_kernel(rows, "a shared function, where all is there", both, HAS_B, count=2)
    one_kernel(rows, "the one that reaches it", both, LACKS_B, [in_p], words=["--program", "p"])
    one_kernel(rows, "the one that guards it", both, LACKS_B, guarded=[in_q], words=["--program", "q"])
    also = program(call("f"), EXIT, section="kprobe/q", name="q")
    breaks = [found(NO_B, "p slot 3 (f+1)", "q slot 3 (f+1)")]
    both = object_of([reaches, also, F])
    one_kernel(rows, "a shared function, reached in both", both, LACKS_B, breaks, breaking=2, count=2)


ROWS = [calls, callbacks, neighbours, shared]
