"""From a job to a picture, cell by cell (editors run what stands between two lines `# %%`).

Plans a small plate, certifies the plan and draws it as SVG; then plans a whole order with the command, which draws its boards itself.
    python3 plot_plan.py [FOLDER [ORDER.csv]]
"""
import sys
from pathlib import Path

from planner import Cut, Job, Kind, Piece, Planner, Tree, Waste, plan_order

folder = Path(sys.argv[1] if len(sys.argv) > 1 else ".")

# %% A job: a plate of 60 by 40 units, a blade of 1 unit, three kinds of piece.
job = Job(60, 40, [Kind(25, 18, 45, 2), Kind(18, 12, 20, 4), Kind(11, 7, 6, 6)], kerf=1)
planner = Planner(job, turning=True)

# %% Weights, the plan behind the bound, and what it is certified as.
found = planner.find_weights(Waste())
print(f"bound {found.bound} after {found.rounds} rounds, ended by {found.ended}: weights {found.weights}")
plan = planner.neat(planner.exact().tree)
certificate = planner.certify(plan, found.weights)
print(f"profit {certificate.profit}, " + ("best" if certificate.best else f"at most {certificate.gap} more is possible"))


# %% Where every piece lies: x, y, length and width of each, from the tree of cuts.
def pieces(tree: Tree, x: int, y: int, length: int, width: int) -> list[tuple[int, int, int, int, int]]:
    """Each piece of a tree on a rectangle, as its kind and its own rectangle."""
    if isinstance(tree, Piece):
        kind = job.kinds[tree.kind]
        own = (kind.width, kind.length) if tree.turned else (kind.length, kind.width)
        return [(tree.kind, x, y, *own)]
    if not isinstance(tree, Cut):
        return []
    behind = tree.at + job.kerf
    if tree.direction == "length":
        return pieces(tree.first, x, y, tree.at, width) + pieces(tree.second, x + behind, y, length - behind, width)
    return pieces(tree.first, x, y, length, tree.at) + pieces(tree.second, x, y + behind, length, width - behind)


# %% The picture: the plate, and a rectangle with its number for each piece.
COLOURS = ["#d9e8f5", "#f7e3c8", "#dcefd8"]


def picture(tree: Tree) -> str:
    """The plan as SVG, ten points a unit."""
    def rectangle(x, y, length, width, colour):
        return f'<rect x="{10 * x}" y="{10 * y}" width="{10 * length}" height="{10 * width}" fill="{colour}" stroke="#333"/>'

    parts = [rectangle(0, 0, job.length, job.width, "#fff")]
    for kind, x, y, length, width in pieces(tree, 0, 0, job.length, job.width):
        parts.append(rectangle(x, y, length, width, COLOURS[kind]))
        parts.append(f'<text x="{10 * x + 5 * length}" y="{10 * y + 5 * width}" font-size="28" text-anchor="middle">{kind}</text>')
    size = f'viewBox="0 0 {10 * job.length} {10 * job.width}"'
    return f'<svg xmlns="http://www.w3.org/2000/svg" {size}>\n' + "\n".join(parts) + "\n</svg>\n"


(folder / "plate.svg").write_text(picture(plan), encoding="utf-8")
print(f"drawn: {folder / 'plate.svg'}")

# %% A whole order: the command plans and draws it, and gives its boards as data.
if len(sys.argv) > 2:
    order = plan_order(sys.argv[2], "--svg", str(folder / "board.svg"))
    print(order["verdict"])
    for number, board in enumerate(order["boards"], 1):
        print(f"board {number}: {board['plate']['length']} x {board['plate']['width']} mm")
