# Heat flows by second-order finite elements on a mesh much finer than those of `solve`. GetDP solves the equations (Debian's
# package getdp); nothing else here needs more than plain Python:
#
#     python3 second_order.py corner balcony reveal cellar fixing > expected/second-order
#
# For each detail, and each environment that is a case of its own, a line says the heat flow in W/K with this environment at 1
# and the others at 0, on two meshes. The elements are quadrangles and hexahedra with all products of squares. Both numbers are
# at least the heat flow that finer meshes go towards, and how far the first is above the second is an estimate of how far the
# second is above that. Then follow the elements of the second mesh. examples/run asks the second number of each interval, and
# doesn't run this. On a busy machine the body took twenty minutes and 3 GB, each of the others one at the most.
import csv
import os
import subprocess
import sys
import tempfile
from figures import Detail, occupants, step, surfaces

# Two meshes by dimension: how wide the pieces at both ends of an interval between two sides of boxes are, in mm; how much wider
# each next one is, towards the middle; and into how many parts each piece is cut.
MESHES = {2: [(0.1, 1.6, 1), (0.1, 1.6, 2)], 3: [(10, 4, 1), (10, 4, 2)]}

# The corners of an element from those of its low corner's place, as GetDP's meshes order them.
CORNERS = {1: [(0,), (1,)], 2: [(0, 0), (1, 0), (1, 1), (0, 1)]}
CORNERS[3] = [(*corner, height) for height in (0, 1) for corner in CORNERS[2]]
KINDS = {1: 1, 2: 3, 3: 5}

# Points that integrate products of two functions exactly, and for a function itself over a surface.
POINTS = {1: ("Line", 3), 2: ("Quadrangle", 9), 3: ("Hexahedron", 27)}
FEWER = {1: ("Line", 3), 2: ("Quadrangle", 7)}


def read_detail(path):
    detail = Detail()
    with open(path, newline="") as text:
        for record in csv.reader(text):
            if record and not record[0].startswith("#"):
                detail.add(record)
    return detail


# The lines of an axis at the sides of boxes.
def sides(detail, axis):
    return sorted({end[axis] for box in detail.boxes for end in (box.low, box.high)})


# The widths of pieces that grow from both ends of an interval to its middle, and fill it.
def graded(width, first, growth):
    pieces = [first]
    while 2 * sum(pieces) < width:
        pieces.append(pieces[-1] * growth)
    scale = width / (2 * sum(pieces))
    return [piece * scale for piece in pieces + pieces[::-1]]


def lines(ends, first, growth, parts):
    found = [float(ends[0])]
    for low, high in zip(ends, ends[1:]):
        widths = [piece / parts for piece in graded(float(high - low), first, growth) for _ in range(parts)]
        for width in widths[:-1]:
            found.append(found[-1] + width)
        found.append(float(high))
    return found


# The three axes of a mesh. An axis that no box divides stays whole: the field is the same all along it.
def mesh_lines(detail, number):
    ends = [sides(detail, axis) for axis in range(3)]
    dimension = sum(len(axis) > 2 for axis in ends)
    return [lines(axis, *MESHES[dimension][number]) if len(axis) > 2 else axis for axis in ends]


# The solid elements of a mesh with their boxes, and the faces towards air, with the box of the air. An element is a list of
# places of nodes. `axes` are those along which the field varies.
def solid_elements(detail, cells, axes):
    for cell, number in cells.items():
        if detail.boxes[number].environment is None:
            yield detail.boxes[number], corners_of(cell, axes)


def surface_elements(detail, cells, axes):
    for axis, place, air, _ in surfaces(detail, cells):
        yield air, corners_of(place, [other for other in axes if other != axis])


def corners_of(place, axes):
    found = []
    for corner in CORNERS[len(axes)]:
        node = place
        for axis, is_high in zip(axes, corner):
            node = step(node, axis) if is_high else node
        found.append(node)
    return found


# Numbers from 1 for what it is asked for, in the order in which it is asked.
class Numbers(dict):
    def __missing__(self, key):
        self[key] = len(self) + 1
        return self[key]


class Mesh:
    def __init__(self, detail, number):
        self.lines = mesh_lines(detail, number)
        self.axes = [axis for axis in range(3) if len(self.lines[axis]) > 2]
        self.solids, self.surfaces, self.nodes, self.elements = Numbers(), Numbers(), Numbers(), []
        cells = occupants(detail, self.lines)
        for box, corners in solid_elements(detail, cells, self.axes):
            self.add(len(self.axes), self.solids[box.value], corners)
        self.size = len(self.elements)
        for air, corners in surface_elements(detail, cells, self.axes):
            self.add(len(self.axes) - 1, 1000 + self.surfaces[air.environment, air.value], corners)

    def add(self, dimension, region, corners):
        self.elements.append((KINDS[dimension], region, [self.nodes[node] for node in corners]))

    # What a flow through this mesh is to be multiplied with: the length in m of an axis along which it is drawn as one point.
    def depth(self):
        (rest,) = [axis for axis in range(3) if axis not in self.axes] or [None]
        return 1 if rest is None else float(self.lines[rest][-1] - self.lines[rest][0]) / 1000

    def write(self, path):
        with open(path, "w") as text:
            text.write(f"$MeshFormat\n2.2 0 8\n$EndMeshFormat\n$Nodes\n{len(self.nodes)}\n")
            for place, number in self.nodes.items():
                x, y, z = (float(self.lines[axis][place[axis]]) / 1000 if axis in self.axes else 0 for axis in range(3))
                text.write(f"{number} {x!r} {y!r} {z!r}\n")
            text.write(f"$EndNodes\n$Elements\n{len(self.elements)}\n")
            for number, (kind, region, nodes) in enumerate(self.elements, 1):
                text.write(f"{number} {kind} 2 {region} {region} {' '.join(map(str, nodes))}\n")
            text.write("$EndElements\n")


# The problem in GetDP's language: the heat that flows out of one environment at 1.
def problem(mesh, environment):
    solids = [f"Solid{number}" for number in mesh.solids.values()]
    surfaces = [f"Surface{number}" for number in mesh.surfaces.values()]
    warm = [f"Surface{number}" for (name, _), number in mesh.surfaces.items() if name == environment]
    yield "Group {"
    yield from (f"{name} = Region[{number}];" for name, number in zip(solids, mesh.solids.values()))
    yield from (f"{name} = Region[{1000 + number}];" for name, number in zip(surfaces, mesh.surfaces.values()))
    yield f"Solids = Region[{{{', '.join(solids)}}}];"
    yield f"Surfaces = Region[{{{', '.join(surfaces)}}}];"
    yield f"Warm = Region[{{{', '.join(warm)}}}];"
    yield "Body = Region[{Solids, Surfaces}];"
    yield "}"
    yield "Function {"
    yield from (f"lambda[{name}] = {float(value)!r};" for name, value in zip(solids, mesh.solids))
    yield from (f"film[{name}] = {float(1 / value)!r};" for name, (_, value) in zip(surfaces, mesh.surfaces))
    yield "}"
    yield from space(len(mesh.axes))
    yield EQUATIONS


# All products of squares: functions of the nodes, edges, faces and, in three dimensions, volumes.
def space(dimension):
    parts = [("Edges", "2E"), ("Facets", "2F"), ("Volumes", "2V")][:dimension]
    yield "FunctionSpace { { Name Temperatures; Type Form0; BasisFunction {"
    yield "{ Name n; NameOfCoef un; Function BF_Node; Support Body; Entity NodesOf[All]; }"
    for name, order in parts:
        yield f"{{ Name n{order}; NameOfCoef u{order}; Function BF_Node_{order}; Support Body; Entity {name}Of[All]; }}"
    yield "} } }"
    yield from integration("Products", "GaussLegendre", [POINTS[dimension - 1], POINTS[dimension]])
    yield from integration("Single", "Gauss", [FEWER[dimension - 1]])


def integration(name, formula, points):
    yield f"Integration {{ {{ Name {name}; Case {{ {{ Type {formula}; Case {{"
    yield from (f"{{ GeoElement {kind}; NumberOfPoints {count}; }}" for kind, count in points)
    yield "} } } } }"


EQUATIONS = """
Jacobian { { Name Size; Case { { Region Surfaces; Jacobian Sur; } { Region All; Jacobian Vol; } } } }
Formulation { { Name Conduction; Type FemEquation; Quantity { { Name u; Type Local; NameOfSpace Temperatures; } } Equation {
  Galerkin { [ lambda[] * Dof{d u}, {d u} ]; In Solids; Jacobian Size; Integration Products; }
  Galerkin { [ film[] * Dof{u}, {u} ]; In Surfaces; Jacobian Size; Integration Products; }
  Galerkin { [ -film[], {u} ]; In Warm; Jacobian Size; Integration Products; } } } }
Resolution { { Name Solved; System { { Name A; NameOfFormulation Conduction; } }
  Operation { Generate[A]; Solve[A]; SaveSolution[A]; } } }
PostProcessing { { Name Flow; NameOfFormulation Conduction; Quantity {
  { Name out; Value { Integral { [ film[] * (1 - {u}) ]; In Warm; Jacobian Size; Integration Single; } } } } } }
PostOperation { { Name Told; NameOfPostProcessing Flow; Operation {
  Print[ out[Warm], OnGlobal, Format Table, File "out.txt" ]; } } }
"""

# A section is solved directly, a body by conjugate gradients. A row of the matrix has up to 25 and 125 entries.
SOLVERS = {
    2: "-ksp_type preonly -pc_type cholesky -petsc_prealloc 30",
    3: "-ksp_type cg -pc_type icc -ksp_rtol 1e-11 -ksp_max_it 20000 -petsc_prealloc 130",
}


def heat_flow(mesh, environment, directory):
    with open(os.path.join(directory, "flow.pro"), "w") as text:
        text.write("\n".join(problem(mesh, environment)))
    words = "getdp flow.pro -msh body.msh -solve Solved -pos Told -v 2".split() + SOLVERS[len(mesh.axes)].split()
    told = subprocess.run(words, cwd=directory, capture_output=True, text=True)
    if told.returncode != 0:
        raise RuntimeError(told.stdout + told.stderr)
    with open(os.path.join(directory, "out.txt")) as text:
        return float(text.read().split()[-1]) * mesh.depth()


def heat_flows(detail, environments, number):
    with tempfile.TemporaryDirectory() as directory:
        mesh = Mesh(detail, number)
        mesh.write(os.path.join(directory, "body.msh"))
        return mesh.size, [heat_flow(mesh, environment, directory) for environment in environments]


# The flow out of one of two environments is that into the other.
def cases(detail):
    return detail.environments if len(detail.environments) > 2 else detail.environments[:1]


if __name__ == "__main__":
    print("# detail, environment, W/K on a mesh, W/K on a finer one, elements of the finer one")
    for name in sys.argv[1:]:
        detail = read_detail(os.path.join(os.path.dirname(os.path.abspath(__file__)), f"{name}.detail"))
        _, before = heat_flows(detail, cases(detail), 0)
        size, after = heat_flows(detail, cases(detail), 1)
        for environment, coarse, fine in zip(cases(detail), before, after):
            print(f"{name},{environment},{coarse:.9f},{fine:.9f},{size}", flush=True)
