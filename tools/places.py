"""Lists the lines of src/ in which an older form of code can stand, by the points of docs/DESIGN-PASS.md.

    python3 tools/places.py         the number of lines for each point and crate
    python3 tools/places.py 3       the lines of point 3

A line that is listed is one to read, and not yet a place: the page says which of them are.
"""
import pathlib
import re
import sys

POINTS = {
    1: r"\b(enum|bool)\b|match |const [A-Z_]+: u\w+|if let Err|before: 0|\(0, 0\)|\(0, kind",
    2: r"^\s*(pub |pub\(crate\) )?(fn|struct|trait) ",
    3: r"^\s*('[a-z]+: )?(for|while|loop)\b",
    4: r"derive\(|^impl.* for |\bas u\w+|==.*&&.*==|: above\.",
    5: r"requires|ghost [a-z]+:|kind: &C",
    6: r"\[[A-Za-z<>0-9]+; [0-9]+\]|Vec<|&mut \[|\b(len|at|room|head|modes): usize|: &'a \[usize\]",
    7: r"\|[a-z_&(), ]*\| |dyn |: Fn|if self\.turned|taken == 0|is_empty\(\) \{",
}

top = pathlib.Path(__file__).resolve().parent.parent
crates = [line.split(":")[0] for line in (top / "crates.txt").read_text().splitlines() if line.strip()]


def lines_of(point):
    for crate in crates:
        for file in sorted((top / "crates" / crate / "src").rglob("*.rt")):
            for number, line in enumerate(file.read_text().splitlines(), 1):
                code = line.split("//")[0]
                if re.search(POINTS[point], code):
                    yield crate, f"{file.relative_to(top)}:{number}: {line.strip()}"


if len(sys.argv) > 1:
    for _, line in lines_of(int(sys.argv[1])):
        print(line)
else:
    for point in POINTS:
        found = [crate for crate, _ in lines_of(point)]
        each = ", ".join(f"{c} {found.count(c)}" for c in crates if c in found)
        print(f"{point}: {len(found)} ({each})")
answers = {c: sum(len(re.findall(r"^pub ", f.read_text(), re.M)) for f in (top / "crates" / c / "proofs").rglob("Answers.antt")) for c in crates}
if len(sys.argv) < 2:
    print(f"8: {sum(answers.values())} answers (" + ", ".join(f"{c} {n}" for c, n in answers.items() if n) + ")")
