"""Every public function and method says its types, and they can be read."""
import inspect
import typing
import unittest

import support  # noqa: F401
import barrier_engine


MADE_BY_HAND = ("OpenJob.__init__", "Refused.__init__")  # dataclasses make their own


def functions():
    """The package's functions, and the public methods of its classes, by name."""
    for name in barrier_engine.__all__:
        thing = getattr(barrier_engine, name)
        if inspect.isfunction(thing):
            yield name, thing
        elif inspect.isclass(thing):
            for key, method in vars(thing).items():
                method = getattr(method, "__func__", getattr(method, "fget", method))
                whole = f"{name}.{key}"
                if inspect.isfunction(method) and (not key.startswith("_") or whole in MADE_BY_HAND):
                    yield whole, method


class Types(unittest.TestCase):
    def test_every_parameter_and_reply(self):
        seen = 0
        for name, function in functions():
            hints = typing.get_type_hints(function)
            wanted = [key for key in inspect.signature(function).parameters if key != "self"]
            self.assertEqual([key for key in wanted if key not in hints], [], name)
            self.assertIn("return", hints, name)
            seen += 1
        self.assertGreater(seen, 35)


if __name__ == "__main__":
    unittest.main()
