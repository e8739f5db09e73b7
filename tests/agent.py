"""An agent as firmware has one: it initialises the chip, polls it, serves its interrupts, adds up its counters.

It knows the chip through the C and D ports alone (source document 000, 4.4). tests/client.py runs it.
"""

import roverivet
from roverivet import ATTRIBUTES, CHANGES, PORTS, ports_of


class Agent:
    def __init__(self, chip):
        self.chip = chip
        self.sums = {(port, name): 0 for port in PORTS for name in ATTRIBUTES}
        self.last = {}
        self.log = []
        self.refused = []

    def initialise(self):
        """Reset, version, the manual's own master enable (which is not there), the enables, a first reading."""
        self.chip.reset()
        assert self.chip.c_read() == roverivet.Status(interrupt=False, interface_error=False)
        self.version = self.chip.read(0, 28)[0]
        self.attempt(lambda: self.chip.write(0, 16, [0x80]))
        self.chip.enable_interrupts({change: 0xFF for change in CHANGES})
        self.last = self.readings()

    def attempt(self, access):
        """What firmware for other chips does and this model turns away is noted, and goes on."""
        try:
            return access()
        except roverivet.Refused as error:
            self.refused.append(str(error))
            return None

    def poll(self):
        """One turn of the main loop: serves the interrupt if there is one."""
        if self.chip.c_read().interrupt:
            for change, ports in self.chip.changes().items():
                self.log.append((change, ports))
            self.partitioned = self.chip.partitioned()
            self.passing = self.chip.link_passing()
            return True
        return False

    def readings(self):
        return {(port, name): self.chip.read_counter(port, name) for port in PORTS for name in ATTRIBUTES}

    def add_up(self):
        """Adds the differences to sums of any size; a counter may have wrapped once since the last time."""
        now = self.readings()
        for counter, value in now.items():
            self.sums[counter] += (value - self.last[counter]) % 2**32
        self.last = now

    def moved(self):
        """The sums that are not 0."""
        return {f'{port} {name}': value for (port, name), value in self.sums.items() if value}

    def guard(self, port, address):
        """Presets a port's address; a foreign source then shows as a change, and the port is disabled."""
        self.chip.write_address(port, address)
        self.guarded = {port}

    def throw_out(self):
        """Disables the guarded ports that a foreign source came in on."""
        for change, ports in self.log:
            if change == 'TP source address':
                for port in self.guarded & set(ports):
                    self.chip.set(0x20 | PORTS.index(port))
        return ports_of(self.chip.get(0x80))
