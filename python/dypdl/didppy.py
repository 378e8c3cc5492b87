"""DIDPPy's names: `import dypdl.didppy as dp` in place of `import didppy as dp`. docs/PYTHON.md says which calls differ."""

from __future__ import annotations

from .errors import DypdlError, Fault, LeftOut, ModelError, NoValue, ProgramError, Refused
from .expressions import Condition, ElementExpr, FloatExpr, IntExpr, SetConst, SetExpr, log, max, min, sqrt
from .model import Model
from .solution import RestsOn, Solution
from .solvers import (
    ACPS, APPS, CABS, CBFS, DBDFS, DDLNS, DFBB, LNBS, BeamParallelizationMethod, BreadthFirstSearch, CAASDy, ExpressionBeamSearch, FOperator,
    ForwardRecursion, WeightedAstar,
)
from .tables import BoolTable, ElementTable, FloatTable, IntTable, SetTable
from .tools import Honesty
from .transitions import State, Transition
from .variables import (
    ElementResourceVar, ElementVar, FloatResourceVar, FloatVar, IntResourceVar, IntVar, ObjectType, Parameter, SetVar, forall,
)

# DIDPPy has a class for each number of arguments.
BoolTable1D = BoolTable2D = BoolTable3D = BoolTable
ElementTable1D = ElementTable2D = ElementTable3D = ElementTable
FloatTable1D = FloatTable2D = FloatTable3D = FloatTable
IntTable1D = IntTable2D = IntTable3D = IntTable
SetTable1D = SetTable2D = SetTable3D = SetTable

__all__ = [
    "ACPS", "APPS", "CABS", "CBFS", "DBDFS", "DDLNS", "DFBB", "LNBS", "BeamParallelizationMethod", "BoolTable", "BreadthFirstSearch", "CAASDy", "Condition",
    "DypdlError", "ElementExpr", "ElementResourceVar", "ElementTable", "ElementVar", "ExpressionBeamSearch", "FOperator", "Fault", "FloatExpr",
    "FloatResourceVar", "FloatTable", "FloatVar", "ForwardRecursion", "Honesty", "IntExpr", "IntResourceVar", "IntTable", "IntVar", "LeftOut", "Model",
    "ModelError", "NoValue", "ObjectType", "Parameter", "ProgramError", "Refused", "RestsOn", "SetConst", "SetExpr", "SetTable", "SetVar", "Solution", "State",
    "Transition", "WeightedAstar", "forall", "log", "max", "min", "sqrt",
]
