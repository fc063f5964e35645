"""The values of Python expressions, as far as numbers, lists and texts go, found without running Python."""

from __future__ import annotations

import ast
import operator
import warnings
from dataclasses import dataclass
from typing import Any, Callable, Dict, List, Mapping, Sequence

from .faults import shown

# What a value may come to at most: the bits of a number, and the items of a list or a text.
_MOST_BITS = 4096
_MOST_ITEMS = 1 << 20

_SEQUENCES = (list, tuple, range)


class Unclear(Exception):
    """The expression has no value here, for the reason that the text tells."""


class UnknownName(Unclear):
    """The expression has a name that nothing defines."""


@dataclass(frozen=True)
class Symbol:
    """What `pmt.intern` makes of a text."""

    text: str


@dataclass(frozen=True)
class Long:
    """What `pmt.from_long` makes of a number."""

    value: int


def parse(text: str) -> ast.expr:
    """The tree of an expression."""
    try:
        with warnings.catch_warnings():
            warnings.simplefilter("ignore")
            return ast.parse(text.strip(), mode="eval").body
    except (SyntaxError, ValueError):
        raise Unclear("it is no expression") from None
    except (RecursionError, MemoryError):
        raise Unclear("it is nested too deep") from None


def names_of(tree: ast.expr) -> List[str]:
    """The names that an expression reads, each once, in their order."""
    return list(dict.fromkeys(it.id for it in ast.walk(tree) if isinstance(it, ast.Name) and it.id not in _FUNCTIONS))


def value_of(tree: ast.expr, name: Callable[[str], Any]) -> Any:
    """The value of an expression: a number, a text, a list, a tuple or a range, a truth value, None, a Symbol or a
    Long, or what `name` gives for a name."""
    try:
        return _Evaluation(name).value(tree)
    except RecursionError:
        raise Unclear("it is nested too deep") from None
    except ZeroDivisionError:
        raise Unclear("it divides by zero") from None
    except (OverflowError, MemoryError):
        raise Unclear("its value is too large") from None


def _is_number(value: Any) -> bool:
    return type(value) in (int, float)


def _numbers(values: Sequence[Any], function: str) -> Sequence[Any]:
    """The arguments of a function that takes numbers, or one list of them."""
    if len(values) == 1 and isinstance(values[0], _SEQUENCES):
        values = values[0]
    if not values or len(values) > _MOST_ITEMS or not all(_is_number(it) for it in values):
        raise Unclear("%s takes numbers, or a list of them, and at most %d" % (function, _MOST_ITEMS))
    return values


def _int(values: Sequence[Any]) -> int:
    if len(values) != 1 or not (_is_number(values[0]) or isinstance(values[0], str)):
        raise Unclear("int takes one number")
    # (Each digit has more than three bits, and many take time.)
    if isinstance(values[0], str) and len(values[0]) > _MOST_BITS // 3:
        raise OverflowError
    try:
        return int(values[0])
    except ValueError:
        raise Unclear("int takes one number") from None


def _len(values: Sequence[Any]) -> int:
    if len(values) != 1 or not isinstance(values[0], _SEQUENCES + (str,)):
        raise Unclear("len takes one list")
    return len(values[0])


def _range(values: Sequence[Any]) -> range:
    if not 1 <= len(values) <= 3 or not all(type(it) is int for it in values) or (len(values) == 3 and values[2] == 0):
        raise Unclear("range takes one to three whole numbers, of which the third is not 0")
    return range(*values)


def _items(values: Sequence[Any], function: str) -> List[Any]:
    """The items of a list as `list` and `tuple` copy them."""
    if not values:
        return []
    if len(values) != 1 or not isinstance(values[0], _SEQUENCES):
        raise Unclear("%s takes one list" % function)
    # (A range knows its length before it is one, and may be too long for `len`.)
    if isinstance(values[0], range) and len(values[0][:_MOST_ITEMS + 1]) > _MOST_ITEMS:
        raise Unclear("a list may have at most %d items" % _MOST_ITEMS)
    return list(values[0])


def _pmt_text(values: Sequence[Any]) -> Symbol:
    if len(values) != 1 or not isinstance(values[0], str):
        raise Unclear("pmt.intern takes one text")
    return Symbol(values[0])


def _pmt_long(values: Sequence[Any]) -> Long:
    if len(values) != 1 or type(values[0]) is not int:
        raise Unclear("pmt.from_long takes one whole number")
    return Long(values[0])


_FUNCTIONS: Mapping[str, Callable[[Sequence[Any]], Any]] = {
    "range": _range,
    "len": _len,
    "int": _int,
    "min": lambda values: min(_numbers(values, "min")),
    "max": lambda values: max(_numbers(values, "max")),
    "sum": lambda values: sum(_numbers(values, "sum")),
    "abs": lambda values: abs(_numbers(values, "abs")[0]),
    "list": lambda values: _items(values, "list"),
    "tuple": lambda values: tuple(_items(values, "tuple")),
}

_PMT_FUNCTIONS: Mapping[str, Callable[[Sequence[Any]], Any]] = {
    "intern": _pmt_text,
    "string_to_symbol": _pmt_text,
    "from_long": _pmt_long,
}

_ARITHMETIC: Dict[type, Callable[[Any, Any], Any]] = {
    ast.Add: operator.add,
    ast.Sub: operator.sub,
    ast.Mult: operator.mul,
    ast.Div: operator.truediv,
    ast.FloorDiv: operator.floordiv,
    ast.Mod: operator.mod,
    ast.Pow: operator.pow,
}

# Operators of whole numbers alone.
_BITWISE: Dict[type, Callable[[Any, Any], Any]] = {
    ast.LShift: operator.lshift,
    ast.RShift: operator.rshift,
    ast.BitAnd: operator.and_,
    ast.BitOr: operator.or_,
    ast.BitXor: operator.xor,
}


@dataclass(frozen=True)
class _Evaluation:
    """An evaluation in which `name` says what a name stands for."""

    name: Callable[[str], Any]

    def value(self, tree: ast.expr) -> Any:
        """The value of a part of an expression."""
        if isinstance(tree, ast.Constant):
            if type(tree.value) in (int, float, str, bool, type(None)):
                return _bounded(tree.value)
        elif isinstance(tree, ast.Name):
            return self.name(tree.id)
        elif isinstance(tree, (ast.List, ast.Tuple)):
            items = [self.value(it) for it in tree.elts]
            return items if isinstance(tree, ast.List) else tuple(items)
        elif isinstance(tree, ast.UnaryOp):
            return self._unary(tree)
        elif isinstance(tree, ast.BinOp):
            return self._binary(tree)
        elif isinstance(tree, ast.Call):
            return self._call(tree)
        raise Unclear("it has a part that is not evaluated here: %s" % shown(ast.unparse(tree)))

    def _unary(self, tree: ast.UnaryOp) -> Any:
        value = self.value(tree.operand)
        if isinstance(tree.op, ast.Invert) and type(value) is int:
            return ~value
        if _is_number(value) and isinstance(tree.op, (ast.UAdd, ast.USub)):
            return -value if isinstance(tree.op, ast.USub) else value
        raise Unclear("a sign, or ~, stands before what it does not take")

    def _binary(self, tree: ast.BinOp) -> Any:
        left, right, operation = self.value(tree.left), self.value(tree.right), type(tree.op)
        if _is_number(left) and _is_number(right) and operation in _ARITHMETIC:
            if operation is ast.Pow:
                _test_power(left, right)
            result = _ARITHMETIC[operation](left, right)
        elif type(left) is int and type(right) is int and operation in _BITWISE:
            if operation in (ast.LShift, ast.RShift) and not 0 <= right <= _MOST_BITS:
                raise Unclear("it shifts by %s" % shown(str(right)))
            result = _BITWISE[operation](left, right)
        elif operation is ast.Add and type(left) is type(right) and type(left) in (list, tuple, str):
            result = left + right
        elif operation is ast.Mult:
            result = _repeated(left, right)
        else:
            raise Unclear("an operator stands between what it does not take")
        return _bounded(result)

    def _call(self, tree: ast.Call) -> Any:
        function = None
        if isinstance(tree.func, ast.Name):
            function = _FUNCTIONS.get(tree.func.id)
        elif (
            isinstance(tree.func, ast.Attribute)
            and isinstance(tree.func.value, ast.Name)
            and tree.func.value.id == "pmt"
        ):
            function = _PMT_FUNCTIONS.get(tree.func.attr)
        if function is None or tree.keywords:
            raise Unclear("it has a call that is not evaluated here: %s" % shown(ast.unparse(tree)))
        return _bounded(function([self.value(it) for it in tree.args]))


def _test_power(base: Any, exponent: Any) -> None:
    """Refuses a power before it is taken, since a large one takes time and memory."""
    if type(base) is int and type(exponent) is int and exponent > 0 and base.bit_length() * exponent > 2 * _MOST_BITS:
        raise OverflowError


def _repeated(left: Any, right: Any) -> Any:
    """A list or a text, so many times."""
    if type(left) is int:
        left, right = right, left
    if type(left) not in (list, tuple, str) or type(right) is not int:
        raise Unclear("an operator stands between what it does not take")
    if len(left) * right > _MOST_ITEMS:
        raise Unclear("a list may have at most %d items" % _MOST_ITEMS)
    return left * right


def _bounded(value: Any) -> Any:
    """The value, if it is not too large, and no complex number."""
    if type(value) is int and value.bit_length() > _MOST_BITS:
        raise OverflowError
    if type(value) in (list, tuple, str) and len(value) > _MOST_ITEMS:
        raise Unclear("a list may have at most %d items" % _MOST_ITEMS)
    if isinstance(value, complex):
        raise Unclear("its value is a complex number")
    return value
