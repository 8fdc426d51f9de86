"""The run of a module over a world."""
from .decode import DecodeFault, decode
from .host import Host
from .machine import Exhausted, LinkFault, Machine, OutOfSteps, Trap
from .validate import InvalidFault, validate

# steps without a limit
UNBOUNDED = 1 << 64


class ModuleRun:
    """A module's run: how it ends, and after it the steps that it took and its host."""

    def __init__(self, data, job, world, steps=UNBOUNDED):
        self.host, self.machine = Host(job, world), None
        self.end = self.run(data, steps)

    @property
    def steps(self):
        return self.machine.steps

    def run(self, data, steps):
        """("Ended", status), ("Faulted", name), ("Refused", name and what it carries ..), ("Trapped", name), ("OutOfSteps",) or ("Exhausted",)."""
        try:
            module = decode(data)
            validate(module)
            self.machine = Machine(module, self.host)
            status = self.machine.run(steps) % 256
            return ("Faulted", self.host.fault) if self.host.fault else ("Ended", status)
        except (DecodeFault, LinkFault) as fault:
            return "Refused", fault.name, *(() if fault.place is None else (fault.place,))
        except InvalidFault as fault:
            return "Refused", fault.name, *(() if fault.function is None else (fault.function,))
        except Trap as trap:
            return "Trapped", trap.name
        except OutOfSteps:
            return ("OutOfSteps",)
        except Exhausted:
            return ("Exhausted",)
