"""The file PROVED: from what the program was built, and what was proved of it."""
from build import about
from checkout import sum_of_bytes

HEAD = """\
What was proved of this program.

{about}\
Program    {program} (sha256), {made}

Each crate that the program is built from, with
- the sum of its sources: what the command
    find src specs proofs -type f | LC_ALL=C sort | xargs sha256sum | sha256sum
  prints in the crate's folder at that commit;
- the prover's verdict, its last line on the crate as it was here, or that none is kept where the package was made;
- its wrong bodies: how many edits the prover had to refuse, and did, where `make test` has tried them in that checkout.

The verdicts are what the prover wrote when the crates were proved, copied here. To see for yourself, prove the commit anew with `make test`.
"""


def proved(checkout, program):
    made = "built from these sources, proved, in this checkout" if checkout.made_here(program) else "not known to be built from these sources"
    parts = [HEAD.format(about=about(), program=sum_of_bytes(program), made=made)]
    for crate in checkout.crates:
        edits = len(checkout.edits_of(crate))
        refused = f"{edits} of {edits} refused" if checkout.is_judged(crate) else "not tried here"
        verdict = checkout.verdict(crate) or "none kept here"
        parts.append(f"{crate.name}\n  sources  {checkout.sum_of_sources(crate)}\n  verdict  {verdict}\n  edits    {refused}\n")
    return "\n".join(parts)
