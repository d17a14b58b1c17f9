"""Times the program `pace` beside plain Rust that does the same work, in one run.

    python3 bench/run.py PACE [ROUNDS]

PACE is the built program, crates/pace/out/pace after `(cd crates/pace && rt run < stdin)`. Each round fills and checks 1,024
signals over 64 steps; the best of five runs counts. `rustc` makes the plain program, with -O.
"""
import os
import subprocess
import sys
import tempfile
import time

RUNS = 5


def best(program, rounds):
    """What the program prints, and the seconds of its fastest run."""
    seconds, printed = [], set()
    for _ in range(RUNS):
        start = time.perf_counter()
        done = subprocess.run([program], input=f"{rounds}\n", capture_output=True, text=True, check=True)
        seconds.append(time.perf_counter() - start)
        printed.add(done.stdout)
    return printed, min(seconds)


def main():
    if len(sys.argv) not in (2, 3):
        sys.exit(__doc__)
    rounds = int(sys.argv[2]) if len(sys.argv) == 3 else 1000
    plain = os.path.join(tempfile.mkdtemp(), "plain")
    source = os.path.join(os.path.dirname(os.path.abspath(__file__)), "plain.rs")
    subprocess.run(["rustc", "-O", "-o", plain, source], check=True)
    ours, our_seconds = best(sys.argv[1], rounds)
    theirs, their_seconds = best(plain, rounds)
    if ours != theirs:
        sys.exit(f"they print different sums: {ours} and {theirs}")
    per_entry = 1e9 / (rounds * 2 * 1024 * 64)
    print(f"pace:  {our_seconds:.3f} s, {our_seconds * per_entry:.1f} ns for each entry filled or checked")
    print(f"plain: {their_seconds:.3f} s, {their_seconds * per_entry:.1f} ns")
    print(f"ratio: {our_seconds / their_seconds:.2f}")


main()
